// The page: a table is dropped, shown and planned; pairs are fixed and forbidden, costs changed, and it is planned again.
import { Answer } from "./answer.js";
import { button, element, find, listSentences } from "./dom.js";
import { Edits } from "./edits.js";
import { Grid } from "./grid.js";
import { Options } from "./options.js";
import { ask, Refused, send, upload } from "./wire.js";

const MOST_BYTES = 64 * 2 ** 20;
const WISHES = { fix: "fixed", forbid: "forbidden", free: "no longer fixed or forbidden" };

let view = { table: null, answer: null };
let edits = new Edits();
let chosen = null;
let goesOn = "";
let marks = { pairs: new Set(), fixed: new Set(), forbidden: new Set(), changed: new Map(), hall: { persons: new Set(), objects: new Set() } };

const key = (person, thing) => `${person},${thing}`;
const grid = new Grid({ standing, hall: () => marks.hall, choose: choosePair, press, attempt });
const answer = new Answer({ show: (person, thing) => attempt(() => grid.choose(person, thing)), wish });
const options = new Options((told) => work("reading the table", async () => { await show(await send("/options", told)); await plan(); }));

// How a pair stands: its cost, and what the plan, the wishes and the changes say of it.
function standing(person, thing, cost) {
  const edit = edits.known(person, thing), place = key(person, thing);
  const isReset = edit.cost === null;
  return {
    cost: isReset ? ownCost(person, thing, cost) : edit.cost ?? cost,
    isPlanned: marks.pairs.has(place),
    wish: edit.wish ?? wishPlanned(person, thing),
    isChanged: !isReset && (edit.cost !== undefined || marks.changed.has(place)),
  };
}

// What the last plan was asked of a pair.
function wishPlanned(person, thing) {
  const place = key(person, thing);
  return marks.fixed.has(place) ? "fix" : marks.forbidden.has(place) ? "forbid" : "free";
}

// The cost that stands in the table itself.
function ownCost(person, thing, cost) {
  const own = grid.told.own[person - grid.row];
  return own ? own[thing - grid.column] ?? "" : cost;
}

// Does what may be refused; a refusal is shown in its own words.
async function attempt(doing) {
  find("fault").hidden = true;
  try {
    await doing();
  } catch (error) {
    if (!(error instanceof Refused)) throw error;
    find("fault").textContent = error.message;
    find("fault").hidden = false;
  }
}

// Does the one piece of work that goes on at a time, and tells meanwhile what it is.
async function work(told, doing) {
  if (document.body.getAttribute("aria-busy") === "true") return;
  const begin = performance.now(), busy = find("busy");
  const tell = () => { busy.textContent = goesOn && `${goesOn}, ${Math.round((performance.now() - begin) / 1000)} s`; };
  document.body.setAttribute("aria-busy", true);
  const clock = setInterval(tell, 1000);
  goesOn = busy.textContent = told;
  try {
    await attempt(doing);
  } finally {
    if (!view.table && view.file) find("options").open = true;
    clearInterval(clock);
    busy.textContent = "";
    document.body.setAttribute("aria-busy", false);
  }
}

// Shows what the program has told of the session; what waits for a plan and what is chosen stays where the table is the same.
async function show(told, isSame = false) {
  view = told;
  if (!isSame) edits = new Edits();
  const { table, answer: found } = view, places = (list) => new Set(list.map(([person, thing]) => key(person, thing)));
  marks.pairs = places(found?.pairs ?? []);
  marks.hall = { persons: new Set((found?.persons ?? []).map(([number]) => number)), objects: new Set((found?.objects ?? []).map(([number]) => number)) };
  marks.fixed = places(table?.fixed ?? []);
  marks.forbidden = places(table?.forbidden ?? []);
  marks.changed = new Map((table?.changed ?? []).map((cell) => [key(...cell), cell]));
  find("facts").textContent = table ? `${view.file}: ${table.persons} by ${table.objects}, ${table.pairs} pairs are allowed` : view.file ?? "";
  document.title = view.file ? `${view.file}: plan` : "Plan";
  find("table").hidden = !table;
  find("drop").classList.toggle("small", Boolean(table));
  find("columns").classList.toggle("both", Boolean(table && found));
  listSentences(find("notes"), view.notes);
  if (!isSame) options.show(view.options);
  if (table && isSame) await grid.load();
  else if (table) { choosePair(null); await grid.begin(table); }
  answer.show(found, table);
  tellChanges();
}

async function plan() {
  const noted = edits.noted();
  goesOn = find("busy").textContent = "planning";
  const told = await send("/plan", edits.told());
  edits.settle(noted);
  await show(told, true);
  if (chosen) showPair();
}

function planAgain() {
  work("planning", async () => { await plan(); find("sentence").focus({ preventScroll: true }); });
}

async function take(file) {
  if (!file) return;
  await work(`reading ${file.name}`, async () => {
    if (file.size > MOST_BYTES) throw new Refused(`${file.name} has more than the ${MOST_BYTES / 2 ** 20} MB that the page takes; leave out what is no part of the table, or call plan with the file`);
    try {
      await show(await upload(file));
    } catch (error) {
      // Options may tell how to read what can't be read so.
      await show(await ask("/view"));
      throw error;
    }
    await plan();
  });
}

// Asks for a pair, or takes that back where it is asked for already.
function wish(pair, wanted) {
  const now = standing(...pair, "").wish, next = now === wanted ? "free" : wanted;
  edits.want(pair, "wish", next === wishPlanned(...pair) ? undefined : next);
  afterEdit();
}

function afterEdit() {
  grid.mark();
  tellChanges();
  if (chosen) showPair();
}

function choosePair(pair) {
  chosen = pair;
  find("pair").hidden = !pair;
  if (pair) showPair();
}

// The pair that is chosen, with all that can be done with it.
function showPair() {
  const [person, thing, personName, thingName] = chosen, { cost, wish: now, isChanged } = standing(person, thing, grid.costOf(person, thing));
  const input = element("input", { id: "cost", value: cost, autocomplete: "off", "aria-label": `Cost of ${personName} and ${thingName}; nothing where the pair isn't allowed` });
  const change = () => { changeCost(input.value.trim()); grid.choose(person, thing); };
  input.addEventListener("change", () => changeCost(input.value.trim()));
  input.addEventListener("keydown", (event) => {
    if (event.key === "Enter") change();
    if (event.key === "Escape") { input.value = cost; grid.choose(person, thing); }
  });
  const focused = find("pair").contains(document.activeElement) ? document.activeElement.id : null;
  const parts = [
    element("strong", { textContent: `${personName} and ${thingName}` }),
    button(now === "fix" ? "Fixed: let it go" : "Fix", () => wish(chosen, "fix"), { id: "fix", "aria-pressed": now === "fix" }),
    button(now === "forbid" ? "Forbidden: allow it" : "Forbid", () => wish(chosen, "forbid"), { id: "forbid", "aria-pressed": now === "forbid" }),
    input,
    button("Change the cost", change, { id: "change" }),
  ];
  if (isChanged) parts.push(button("As in the table", () => { edits.want(chosen, "cost", marks.changed.has(key(person, thing)) ? null : undefined); afterEdit(); }, { id: "reset" }));
  find("pair").replaceChildren(...parts);
  if (focused) (find(focused) ?? grid.cellOf(person, thing))?.focus();
}

// The cost of the pair that is chosen. The pair isn't shown anew, since what is pressed next may be a button of it.
function changeCost(text) {
  const [person, thing] = chosen, planned = grid.costOf(person, thing);
  if (text === standing(person, thing, planned).cost) return;
  edits.want(chosen, "cost", text === planned ? undefined : text);
  grid.mark();
  tellChanges();
}

// What a key does on a cell of the table.
function press(pressed, pair) {
  const done = { f: () => wish(pair, "fix"), x: () => wish(pair, "forbid"), p: planAgain, Enter: () => { choosePair(pair); find("cost").select(); } }[pressed];
  if (done) done();
  return Boolean(done);
}

// What was changed and asked: first what is planned already, then what waits for the next plan.
function tellChanges() {
  const { fixed = [], forbidden = [], changed = [] } = view.table ?? {};
  const stays = (name) => (pair) => edits.known(...pair)[name] === undefined;
  const wishes = (pairs, told) => pairs.filter(stays("wish")).map((pair) => chip(pair, told, false, () => edits.want(pair, "wish", "free")));
  const costs = changed.filter(stays("cost")).map((pair) => chip(pair, pair[4] || "not allowed", false, () => edits.want(pair, "cost", null)));
  const planned = [...wishes(fixed, "fixed"), ...wishes(forbidden, "forbidden"), ...costs];
  const waiting = edits.all().map(({ pair, wish: wanted, cost }) => {
    const told = [wanted && WISHES[wanted], cost === null ? "as in the table" : cost === "" ? "not allowed" : cost].filter((text) => text !== undefined);
    return chip(pair, told.join(", "), true, () => edits.drop(pair));
  });
  find("changes").replaceChildren(...planned, ...waiting);
  find("plan").textContent = edits.size ? `Plan again with ${edits.size} change${edits.size > 1 ? "s" : ""}` : "Plan again";
}

function chip([, , person, thing], told, isWaiting, takeBack) {
  const text = `${person} and ${thing}: ${told} `;
  return element("li", { className: isWaiting ? "waiting" : "" }, text, button("\u00d7", () => { takeBack(); afterEdit(); find("plan").focus(); }, { "aria-label": `Take back ${text}` }));
}

async function findName() {
  const { persons, objects } = await ask(`/find?${new URLSearchParams({ name: find("name").value })}`), [person, thing] = grid.chosen ?? [0, 0];
  const found = [...persons.map(([number, name]) => [name, number, thing]), ...objects.map(([number, name]) => [name, person, number])];
  const made = found.map(([name, ...pair]) => element("li", {}, button(name, () => attempt(() => grid.choose(...pair)))));
  find("found").replaceChildren(...(made.length ? made : [element("li", { textContent: "No name has this text." })]));
  find("found").hidden = false;
}

function listenForFiles() {
  const drop = find("drop");
  find("file").addEventListener("change", (event) => take(event.target.files[0]).then(() => { event.target.value = ""; }));
  for (const name of ["dragenter", "dragover"]) document.addEventListener(name, (event) => { event.preventDefault(); drop.classList.add("over"); });
  document.addEventListener("dragleave", (event) => { if (!event.relatedTarget) drop.classList.remove("over"); });
  document.addEventListener("drop", (event) => { event.preventDefault(); drop.classList.remove("over"); take(event.dataTransfer.files[0]); });
}

async function begin() {
  // The token stays out of the history, and of what is read over a shoulder.
  history.replaceState(null, "", "/");
  listenForFiles();
  find("plan").addEventListener("click", planAgain);
  find("find").addEventListener("submit", (event) => { event.preventDefault(); attempt(findName); });
  await work("reading the table", async () => {
    await options.load();
    await show(await ask("/view"));
    if (view.table || !view.file) return;
    await show(await send("/options", options.told()));
    await plan();
  });
}

begin();
