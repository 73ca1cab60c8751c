/** The list of the store's series, from which panels are made: found by typing, shown by a click, several at once by their boxes. */
import { MOST_PANELS, MOST_SERIES, newPanel } from "./address.js";
import { make, part, tell } from "./dom.js";
import { decimal } from "./values.js";
import { guessUnit, lengthInWords } from "./times.js";

const AT_ONCE = 32; // last values asked for in one request
const EVERY = 1000; // milliseconds from one look at what changed to the next
const LENGTH = 3; // the place of a row's length
const MOST_ROWS = 100; // so many are listed; typing finds the others

export class Picker {
  constructor(page) {
    this.page = page;
    this.chosen = new Set();
    this.number = 0; // of the last list
    this.rows = new Map(); // of the list, by names
    this.changed = new Set(); // names whose rows are to be told anew
    this.timer = null;
    part("find").addEventListener("input", () => this.list());
    part("open_picker").addEventListener("click", () => this.open(part("picker").hidden));
    part("add_each").addEventListener("click", () => this.add([...this.chosen].map((name) => newPanel([name]))));
    part("add_one").addEventListener("click", () => this.addTogether());
    part("add_sum").addEventListener("click", () => this.add([newPanel([...this.chosen], { factors: [1, 1] })]));
    part("add_difference").addEventListener("click", () => this.add([newPanel([...this.chosen], { factors: [1, -1] })]));
    part("picker").addEventListener("keydown", (event) => event.key === "Escape" && this.open(false));
  }

  open(isOpen) {
    part("picker").hidden = !isOpen;
    part("open_picker").setAttribute("aria-expanded", String(isOpen));
    if (isOpen) {
      this.list();
      part("find").focus();
    } else {
      part("open_picker").focus();
    }
  }

  isOpen() {
    return !part("picker").hidden;
  }

  /** Shows panels behind those that are there, as many as there is room for. */
  add(panels) {
    const { page } = this;
    const all = [...page.asked().panels, ...panels];
    if (all.length > MOST_PANELS) {
      tell(part("chosen"), `There is room for ${MOST_PANELS} panels, and these would be ${all.length}.`);
      return;
    }
    this.chosen.clear();
    page.change({ panels: all });
    this.open(false);
  }

  addTogether() {
    const names = [...this.chosen];
    const parts = Array.from({ length: Math.ceil(names.length / MOST_SERIES) }, (_, at) => names.slice(at * MOST_SERIES, (at + 1) * MOST_SERIES));
    this.add(parts.map((some) => newPanel(some)));
  }

  /** Lists the series that what is typed finds, and then their last values. */
  async list() {
    const number = (this.number += 1);
    const { connection } = this.page;
    const found = this.found();
    this.rows = new Map(found.slice(0, MOST_ROWS).map((series) => [series.name, this.row(series)]));
    part("rows").replaceChildren(...this.rows.values());
    this.tellFound(found);
    this.tellChosen();
    for (let at = 0; at < this.rows.size && connection.number && number === this.number; at += AT_ONCE) {
      await this.findLasts(found.slice(at, Math.min(at + AT_ONCE, MOST_ROWS)));
    }
  }

  /** The series that what is typed finds. */
  found() {
    return this.page.catalog.matching(part("find").value.trim());
  }

  tellFound(found) {
    const { size } = this.page.catalog.series;
    const more = found.length > MOST_ROWS ? `; the first ${MOST_ROWS} are listed` : "";
    tell(part("found"), size === 0 ? "This store has no series yet." : `${found.length} of ${size} series${more}.`);
  }

  /** Asks for the last values of some series of the list, and shows them. */
  async findLasts(series) {
    await this.page.catalog.findLasts(series, this.page.connection).catch(() => {});
    for (const { name, scale } of series.filter(({ name }) => this.rows.has(name))) {
      tell(this.rows.get(name).lastElementChild, lastText(this.page.catalog.lasts.get(name), scale));
    }
  }

  /** Shows what changed of series that are listed, and lists new ones, at most once a second. */
  refresh(names) {
    names.forEach((name) => this.changed.add(name));
    this.timer ??= setTimeout(() => {
      const { changed } = this;
      [this.timer, this.changed] = [null, new Set()];
      if (this.isOpen()) {
        this.listNew(changed);
        const listed = [...changed].filter((name) => this.rows.has(name)).map((name) => this.page.catalog.get(name));
        listed.forEach(({ name, slots }) => tell(this.rows.get(name).children[LENGTH], slots.toLocaleString("en")));
        this.findLasts(listed.slice(0, AT_ONCE));
      }
    }, EVERY);
  }

  /** Lists those of some series that aren't listed, though what is typed finds them. */
  listNew(names) {
    const found = this.found();
    const fresh = found.slice(0, MOST_ROWS).filter(({ name }) => names.has(name) && !this.rows.has(name));
    fresh.forEach((series) => this.rows.set(series.name, this.row(series)));
    part("rows").append(...fresh.map(({ name }) => this.rows.get(name)));
    this.tellFound(found);
  }

  row(series) {
    const { name, step, slots, scale } = series;
    const shown = this.page.catalog.shown(name);
    const choose = (event) => {
      this.chosen[event.target.checked ? "add" : "delete"](name);
      this.tellChosen();
    };
    const box = make("input", { type: "checkbox", "aria-label": `Choose ${shown}`, on: { change: choose } });
    box.checked = this.chosen.has(name);
    const show = make("button", { type: "button", class: "name", on: { click: () => this.add([newPanel([name])]) } }, shown);
    const last = lastText(this.page.catalog.lasts.get(name), scale);
    const cells = [lengthInWords(BigInt(step), guessUnit(series)), slots.toLocaleString("en"), last].map((text) => make("td", {}, text));
    return make("tr", {}, make("td", {}, box), make("td", {}, show), ...cells);
  }

  tellChosen() {
    const count = this.chosen.size;
    ["add_each", "add_one"].forEach((id) => (part(id).disabled = count === 0));
    ["add_sum", "add_difference"].forEach((id) => Object.assign(part(id), { hidden: !this.page.catalog.hasSums, disabled: count !== 2 }));
    tell(part("chosen"), count === 0 ? "A click on a name shows it; boxes choose several." : `${count} chosen`);
  }
}

const lastText = (last, scale) => (last === undefined ? "" : last === null ? "–" : decimal(last, scale));
