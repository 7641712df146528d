// What was changed on the page since the last plan, pair by pair: these alone go to the program.

export class Edits {
  constructor() {
    this.pairs = new Map();
  }

  known(person, thing) {
    return this.pairs.get(`${person},${thing}`) || {};
  }

  // Wants something of a pair, which is told by its numbers and names: a `wish` is fix, forbid or free, and a `cost` a text, or null for the
  // table's own. What is undefined is wanted no more.
  want(pair, name, value) {
    const edit = { pair: pair.slice(0, 4), ...this.known(...pair), [name]: value };
    if (edit.wish === undefined && edit.cost === undefined) this.drop(pair);
    else this.pairs.set(pair.slice(0, 2).join(), edit);
  }

  drop([person, thing]) {
    this.pairs.delete(`${person},${thing}`);
  }

  get size() {
    return this.pairs.size;
  }

  all() {
    return [...this.pairs.values()];
  }

  // The edits as they are now, to be settled once they are planned; some may be changed once more meanwhile.
  noted() {
    return this.all().map((edit) => ({ ...edit }));
  }

  settle(noted) {
    for (const { pair, wish, cost } of noted) {
      const now = this.known(...pair);
      if (now.wish === wish && now.cost === cost) this.drop(pair);
    }
  }

  told() {
    const told = { fix: [], forbid: [], free: [], costs: [] };
    for (const { pair, wish, cost } of this.pairs.values()) {
      const numbers = pair.slice(0, 2);
      if (wish) told[wish].push(numbers);
      if (cost !== undefined) told.costs.push([...numbers, cost]);
    }
    return told;
  }
}
