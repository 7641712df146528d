// A window of the table: some persons and objects with their costs, which the keyboard and the mouse go through.
import { button, element, find } from "./dom.js";
import { ask } from "./wire.js";

const ROWS = 30, COLUMNS = 30;
const STEPS = { ArrowUp: [-1, 0], ArrowDown: [1, 0], ArrowLeft: [0, -1], ArrowRight: [0, 1], PageUp: [-ROWS, 0], PageDown: [ROWS, 0] };
const MOVES = [["Up", -ROWS, 0], ["Down", ROWS, 0], ["Left", 0, -COLUMNS], ["Right", 0, COLUMNS]];

export class Grid {
  // What is around it: `standing(person, thing, cost)` tells how a pair stands, `hall()` who is in the way of a plan, `choose(pair)` what to do
  // where one is chosen, or none any more, `press(key, pair)` what a key does, and `attempt(doing)` does what may be refused.
  constructor(around) {
    this.around = around;
    this.table = find("window").querySelector("table");
    this.row = this.column = 0;
    this.chosen = null;
    this.table.addEventListener("click", (event) => this.clicked(event));
    this.table.addEventListener("keydown", (event) => this.pressed(event));
    find("moves").replaceChildren(...MOVES.map(([text, rows, columns]) => button(text, () => around.attempt(() => this.move(rows, columns)))));
  }

  // Another table, which is shown from its first cell on.
  async begin(size) {
    this.size = size;
    this.row = this.column = 0;
    this.chosen = null;
    await this.load();
  }

  async load() {
    this.told = await ask(`/cells?row=${this.row}&column=${this.column}&rows=${ROWS}&columns=${COLUMNS}`);
    this.draw();
  }

  get isWhole() {
    return this.size.persons <= ROWS && this.size.objects <= COLUMNS;
  }

  draw() {
    const { persons, objects, cells } = this.told;
    const top = element("tr", {}, element("th", { scope: "col", textContent: this.size.titles[0] }), ...objects.map((name, place) => this.header("col", name, this.column + place)));
    const rows = cells.map((costs, place) => element("tr", {}, this.header("row", persons[place], this.row + place), ...costs.map((cost, column) => this.cell(place, column, cost))));
    this.table.replaceChildren(element("thead", {}, top), element("tbody", {}, ...rows));
    this.table.setAttribute("aria-rowcount", this.size.persons + 1);
    this.table.setAttribute("aria-colcount", this.size.objects + 1);
    this.tellPlace();
    this.mark();
  }

  header(scope, name, number) {
    return element("th", { scope, textContent: name, title: name, "data-number": number, role: scope === "col" ? "columnheader" : "rowheader" });
  }

  cell(row, column, cost) {
    return element("td", { role: "gridcell", tabIndex: -1, textContent: cost ?? "", "data-person": this.row + row, "data-thing": this.column + column });
  }

  tellPlace() {
    const part = (first, shown, all, title) => `${title} ${first + 1} to ${first + shown} of ${all}`;
    const { persons, objects } = this.told, { titles } = this.size;
    find("place").textContent = `${part(this.row, persons.length, this.size.persons, titles[0])}; ${part(this.column, objects.length, this.size.objects, titles[1])}`;
    find("place").hidden = find("moves").hidden = find("find").hidden = this.isWhole;
    if (this.isWhole) find("found").hidden = true;
    const [up, down, left, right] = find("moves").children;
    up.disabled = this.row === 0;
    left.disabled = this.column === 0;
    down.disabled = this.row + ROWS >= this.size.persons;
    right.disabled = this.column + COLUMNS >= this.size.objects;
  }

  // Puts the marks of the plan, of wishes and of changes on the cells, without a look at the program.
  mark() {
    const { hall } = this.around;
    for (const header of this.table.querySelectorAll("th[data-number]")) {
      const kind = header.scope === "col" ? "objects" : "persons";
      header.classList.toggle("hall", hall()[kind].has(Number(header.dataset.number)));
    }
    for (const cell of this.table.querySelectorAll("td")) this.markCell(cell);
    const cell = this.chosen && this.cellOf(...this.chosen);
    (cell || this.table.querySelector("td"))?.setAttribute("tabindex", 0);
    cell?.setAttribute("aria-selected", true);
  }

  markCell(cell) {
    const person = Number(cell.dataset.person), thing = Number(cell.dataset.thing);
    const { cost, isPlanned, wish, isChanged } = this.around.standing(person, thing, this.costOf(person, thing));
    const is = { none: !cost, plan: isPlanned, fixed: wish === "fix", forbidden: wish === "forbid", changed: isChanged };
    cell.className = Object.keys(is).filter((name) => is[name]).join(" ");
    cell.textContent = cost;
    const said = [is.none && "not allowed", is.plan && "in the plan", is.fixed && "fixed", is.forbidden && "forbidden", is.changed && "changed"].filter(Boolean);
    cell.setAttribute("aria-label", [`${this.personName(person)}, ${this.thingName(thing)}: ${cost}`, ...said].join(", "));
    cell.setAttribute("tabindex", -1);
    cell.removeAttribute("aria-selected");
  }

  costOf(person, thing) {
    return this.told.cells[person - this.row]?.[thing - this.column] ?? "";
  }

  personName(person) {
    return this.told.persons[person - this.row];
  }

  thingName(thing) {
    return this.told.objects[thing - this.column];
  }

  cellOf(person, thing) {
    return this.table.querySelector(`td[data-person="${person}"][data-thing="${thing}"]`);
  }

  // Chooses a pair, and brings it into the window.
  async choose(person, thing) {
    if (!this.cellOf(person, thing)) {
      this.row = Math.floor(person / ROWS) * ROWS;
      this.column = Math.floor(thing / COLUMNS) * COLUMNS;
      this.chosen = [person, thing];
      await this.load();
    }
    this.chosen = [person, thing];
    this.mark();
    const cell = this.cellOf(person, thing);
    cell.focus();
    cell.scrollIntoView({ block: "nearest", inline: "nearest" });
    this.around.choose([person, thing, this.personName(person), this.thingName(thing)]);
  }

  async move(rows, columns) {
    const within = (place, all, step) => Math.max(0, Math.min(place, Math.floor((all - 1) / step) * step));
    this.row = within(this.row + rows, this.size.persons, ROWS);
    this.column = within(this.column + columns, this.size.objects, COLUMNS);
    this.chosen = null;
    this.around.choose(null);
    await this.load();
    find("window").scrollTo(0, 0);
  }

  clicked(event) {
    const cell = event.target.closest("td");
    if (cell) this.go(Number(cell.dataset.person), Number(cell.dataset.thing));
  }

  go(person, thing) {
    const within = (number, all) => Math.max(0, Math.min(number, all - 1));
    this.around.attempt(() => this.choose(within(person, this.size.persons), within(thing, this.size.objects)));
  }

  pressed(event) {
    const cell = event.target.closest("td");
    if (!cell || event.ctrlKey || event.altKey || event.metaKey) return;
    const person = Number(cell.dataset.person), thing = Number(cell.dataset.thing), step = STEPS[event.key];
    if (step) {
      this.go(person + step[0], thing + step[1]);
    } else if (event.key === "Home" || event.key === "End") {
      this.go(person, event.key === "Home" ? 0 : Infinity);
    } else if (event.key === " ") {
      this.go(person, thing);
    } else if (!this.around.press(event.key, [person, thing, this.personName(person), this.thingName(thing)])) {
      return;
    }
    event.preventDefault();
  }
}
