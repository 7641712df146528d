// What goes to the program and comes back. A refusal is one sentence.

export class Refused extends Error {}

const LOST = "The program that shows this page doesn't answer. Start it anew in the terminal, and open the address that it tells.";

export async function ask(path, options = {}) {
  let answer;
  try {
    answer = await fetch(path, options);
  } catch {
    throw new Refused(LOST);
  }
  const told = await answer.json().catch(() => ({}));
  if (!answer.ok) throw new Refused(told.fault || `There was no answer (status ${answer.status}); load the page anew.`);
  return told;
}

export function send(path, told) {
  return ask(path, { method: "POST", headers: { "Content-Type": "application/json" }, body: JSON.stringify(told) });
}

export function upload(file) {
  return ask(`/table?${new URLSearchParams({ name: file.name })}`, { method: "POST", headers: { "Content-Type": "application/octet-stream" }, body: file });
}
