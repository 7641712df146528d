// The options of the command line that the page has fields for.
import { element, find } from "./dom.js";
import { ask } from "./wire.js";

const TITLES = { reading: "How the table is read", wishes: "What is asked of the plan" };

export class Options {
  constructor(apply) {
    find("fields").addEventListener("submit", (event) => { event.preventDefault(); apply(this.told()); });
  }

  async load() {
    this.fields = await ask("/fields");
    const parts = [];
    for (const group of Object.keys(TITLES)) {
      parts.push(element("h3", { textContent: TITLES[group] }), ...this.fields.filter((field) => field.group === group).map((field) => this.field(field)));
    }
    find("fields").replaceChildren(...parts, element("p", {}, element("button", { className: "main", textContent: "Read and plan" })));
  }

  field({ name, kind, help, choices }) {
    const id = `option-${name}`, known = { id, name, "aria-describedby": `${id}-help` };
    const made = {
      flag: () => element("input", { ...known, type: "checkbox" }),
      choice: () => element("select", known, element("option", { value: "", textContent: "" }), ...choices.map((choice) => element("option", { value: choice, textContent: choice }))),
      lines: () => element("textarea", { ...known, rows: 2 }),
      text: () => element("input", { ...known, autocomplete: "off" }),
    }[kind]();
    const label = element("label", { htmlFor: id, textContent: `--${name.replaceAll("_", "-")}` });
    return element("div", { className: "field" }, label, made, element("p", { id: `${id}-help`, className: "hint", textContent: kind === "lines" ? `${help} (a line each)` : help }));
  }

  show(values) {
    for (const { name, kind } of this.fields) {
      const input = find(`option-${name}`);
      if (kind === "flag") input.checked = values[name];
      else input.value = values[name];
    }
  }

  told() {
    return Object.fromEntries(this.fields.map(({ name, kind }) => [name, kind === "flag" ? find(`option-${name}`).checked : find(`option-${name}`).value]));
  }
}
