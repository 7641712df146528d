// The answer: a sentence, the plan as a list by persons or by objects, its picture; or who is in the way of a plan.
import { button, element, find, listSentences } from "./dom.js";

// So many rows are shown before somebody asks for all.
const FIRST = 200;

export class Answer {
  // `show(person, thing)` brings a pair into the table, and `wish(pair, wish)` asks for one.
  constructor(around) {
    this.around = around;
    this.isByObjects = false;
    find("more").addEventListener("click", () => this.drawList(Infinity));
    find("list").addEventListener("click", (event) => event.target.closest("th") && this.sort(event.target.closest("th")));
  }

  show(told, table) {
    find("answer").hidden = !told;
    this.told = told;
    if (!told) return;
    this.table = table;
    const hasPlan = told.kind !== "infeasible";
    find("answer").className = told.kind;
    find("sentence").textContent = told.sentence;
    find("summary").textContent = told.summary;
    find("wishes").textContent = `Asked for: ${told.wishes.join(", ")}`;
    find("wishes").hidden = told.wishes.length === 0;
    listSentences(find("plan-notes"), told.notes);
    this.pairs = new Map(told.pairs.map((pair, place) => [told.rows[place + 1].slice(0, 2).join("\u0000"), pair]));
    this.drawOrders(hasPlan);
    find("plan-list").hidden = !hasPlan;
    find("hall").hidden = hasPlan;
    find("more").hidden = true;
    if (hasPlan) this.drawList(FIRST);
    else this.drawHall();
    this.drawPicture();
  }

  drawPicture() {
    const picture = find("picture");
    picture.alt = `The picture of the answer. ${this.told.sentence}`;
    picture.className = Math.max(this.table.persons, this.table.objects) <= 40 ? "drawing" : "";
    picture.src = `/picture.svg?plan=${this.told.count}`;
  }

  drawOrders(hasPlan) {
    const [person, thing] = this.table.titles;
    const order = (text, isByObjects) => button(`By ${text}`, () => { this.isByObjects = isByObjects; this.drawOrders(true); this.drawList(FIRST); }, { "aria-pressed": this.isByObjects === isByObjects });
    find("orders").replaceChildren(...(hasPlan ? [order(person, false), order(thing, true)] : []));
  }

  drawList(most) {
    const [titles, ...rows] = this.isByObjects ? this.told.by_object : this.told.rows;
    this.sorted = undefined;
    // The total is the last row, but for a sentence.
    const first = rows.filter((row) => row.length > 1), total = first.pop();
    const head = element("tr", {}, ...titles.map((title, place) => element("th", { scope: "col", className: place === 2 ? "number" : "" }, button(title, () => {}))), element("th", { scope: "col" }));
    const body = first.slice(0, most).map((row) => this.row(row));
    find("list").replaceChildren(element("thead", {}, head), element("tbody", {}, ...body, this.lastRow(total)));
    find("more").hidden = first.length <= most;
  }

  // A pair, with what can be done with it; or who or what is left over.
  row(cells) {
    const [person, thing] = this.isByObjects ? [cells[1], cells[0]] : cells, pair = this.pairs.get([person, thing].join("\u0000"));
    if (!pair) return this.rowOfFree(cells);
    const [first, ...others] = cells;
    const shows = button(first, () => this.around.show(...pair), { className: "pair", title: "Show it in the table" });
    const wish = (wanted, text) => button(text, () => this.around.wish([...pair, person, thing], wanted), { "aria-label": `${text} ${person} and ${thing}` });
    return element("tr", {}, element("td", {}, shows), ...this.cells(others, 1), element("td", {}, wish("fix", "Fix"), wish("forbid", "Forbid")));
  }

  rowOfFree(cells) {
    const [nobody, free] = this.isByObjects ? [1, 0] : [0, 1];
    const told = { [nobody]: "nobody", [free]: "stays free" };
    return element("tr", { className: "free" }, ...this.cells(cells.map((text, place) => text || told[place] || "")), element("td"));
  }

  lastRow(total) {
    return element("tr", { className: "total" }, ...this.cells(total), element("td"));
  }

  cells(texts, first = 0) {
    return texts.map((text, place) => element("td", { className: first + place === 2 ? "number" : "", textContent: text }));
  }

  // Who blocks whom: each name leads to its place in the table.
  drawHall() {
    const { persons, objects } = this.told, [personTitle, thingTitle] = this.table.titles;
    const first = persons[0]?.[0] ?? 0, thing = objects[0]?.[0] ?? 0;
    const names = (list, go) => list.map(([number, name]) => element("li", {}, button(name, () => go(number), { title: "Show it in the table" })));
    const part = (title, list, go) => [element("h3", { textContent: `${title} (${list.length})` }), element("ul", {}, ...names(list, go))];
    find("hall").replaceChildren(...part(personTitle, persons, (number) => this.around.show(number, thing)), ...part(thingTitle, objects, (number) => this.around.show(first, number)));
  }

  // Sorts the list by a column, up and down in turn; the total stays below.
  sort(title) {
    const column = title.cellIndex, isUp = this.sorted !== column;
    if (!find("more").hidden) this.drawList(Infinity);
    this.sorted = isUp ? column : undefined;
    const head = find("list").tHead.rows[0], body = find("list").tBodies[0];
    const key = (row) => row.cells[column]?.textContent ?? "";
    const amount = (row) => (key(row).trim() === "" ? Infinity : Number(key(row).replace(/[^0-9-]/g, "")));
    const compare = column === 2 ? (a, b) => (amount(a) > amount(b)) - (amount(a) < amount(b)) : (a, b) => key(a).localeCompare(key(b), undefined, { numeric: true });
    const rows = [...body.rows], last = rows.filter((row) => row.className === "total");
    const sorted = rows.filter((row) => row.className !== "total").sort(compare);
    body.append(...(isUp ? sorted : sorted.reverse()), ...last);
    for (const each of head.cells) each.removeAttribute("aria-sort");
    head.cells[column].setAttribute("aria-sort", isUp ? "ascending" : "descending");
  }
}
