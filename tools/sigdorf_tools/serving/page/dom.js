// Elements of the page. All texts become text nodes, so that none is ever read as HTML.

export const find = (id) => document.getElementById(id);

export function element(name, properties = {}, ...children) {
  const made = document.createElement(name);
  for (const [key, value] of Object.entries(properties)) {
    if (key.includes("-") || key === "role") made.setAttribute(key, value);
    else made[key] = value;
  }
  made.append(...children);
  return made;
}

export function button(text, press, properties = {}) {
  const made = element("button", { type: "button", textContent: text, ...properties });
  made.addEventListener("click", press);
  return made;
}

// Shows a list of sentences, or nothing where there is none.
export function listSentences(list, sentences) {
  list.replaceChildren(...sentences.map((text) => element("li", { textContent: text })));
  list.hidden = sentences.length === 0;
}
