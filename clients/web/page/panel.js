/** One panel: its series' names and values, its canvases one above the other, the values beside it, and its settings. */
import { drawValues, makeTimeLines } from "./axes.js";
import { factorOf } from "./address.js";
import { make, signButton, tell } from "./dom.js";
import { makeGrip } from "./grip.js";
import { clear, paint, pixelsOf } from "./paint.js";
import { decimal, sharedRange } from "./values.js";

const IS_TOP = ["on top", "Where charts overlap, this one is seen"];
const IS_SUM = ["a sum, asked for anew with each change", "The program pushes changes of series alone"];

/** A curve of a panel: what stands of it on the page, and what was drawn of it last. */
class Trace {
  /** `notes` are texts behind its label, each with what it means; `remove` takes it away, where it can be. */
  constructor({ name, label }, place, notes, remove) {
    this.label = label;
    this.place = place;
    this.canvas = make("canvas", { "data-name": name });
    this.value = make("span", { class: "value" });
    const drop = remove ? [signButton("×", `Take ${label} away`, remove, { class: "drop" })] : [];
    const told = notes.map(([text, title]) => make("small", { title }, text));
    this.entry = make("li", { class: `series-${place + 1}` }, make("b", {}, label), ...told, this.value, ...drop);
  }

  /** Puts a picture on the canvas, where it isn't there already. */
  show(picture, paintedFor) {
    if (this.picture !== picture || this.paintedFor !== paintedFor) {
      paint(this.canvas, picture, this.place);
      Object.assign(this, { picture, paintedFor });
    }
    delete this.canvas.dataset.cover;
  }

  /** Puts a cover on the canvas, after so many coefficients. */
  cover(picture, count) {
    paint(this.canvas, picture, this.place);
    this.picture = null;
    this.canvas.dataset.cover = count;
  }
}

export class Panel {
  /** `does` has what the panel's buttons do: remove(), drop(place), up(), down(), change(words). */
  constructor(spec, curves, number, does) {
    Object.assign(this, { spec, number, does, range: null, scales: [], window: null, digits: 0 });
    this.shown = curves.map(({ label }) => label);
    const isTop = (place) => curves.length > 1 && place === curves.length - 1;
    const notes = (place) => [...(spec.factors ? [IS_SUM] : []), ...(isTop(place) ? [IS_TOP] : [])];
    this.traces = curves.map((curve, place) => new Trace(curve, place, notes(place), spec.factors ? null : () => does.drop(place)));
    this.labels = make("div", { class: "values", "aria-hidden": "true" });
    this.lines = { values: make("div", { class: "grid" }), times: make("div", { class: "grid" }) };
    this.selection = make("div", { class: "selection", hidden: true });
    this.cross = make("div", { class: "cross", hidden: true });
    this.covered = make("p", { class: "covered", hidden: true }, "coming in: what is white stays white");
    this.fault = make("pre", { class: "fault", role: "alert" });
    this.plot = this.makePlot();
    this.settings = this.makeSettings(curves[0]);
    this.grip = makeGrip(this, (height) => does.change({ height }));
    const body = make("div", { class: "body" }, this.labels, this.plot);
    const label = `Panel ${number + 1}: ${this.shown.join(", ")}`;
    this.element = make("section", { class: "panel", "aria-label": label }, this.makeHead(), this.settings, this.fault, body, this.grip);
  }

  makePlot() {
    const canvases = this.traces.map(({ canvas }) => canvas);
    const chart = make("div", { class: "plot", tabindex: 0, role: "img", "aria-roledescription": "chart", "aria-describedby": "keys" });
    chart.append(this.lines.values, this.lines.times, ...canvases, this.selection, this.cross, this.covered);
    return chart;
  }

  makeHead() {
    const { does, spec, number } = this;
    const named = (what) => `${what} panel ${number + 1}`;
    const open = () => this.openSettings(this.settings.hidden);
    this.opener = signButton("⚙", named("Settings of"), open, { "aria-expanded": "false" });
    const moves = [["↑", "Move up", does.up], ["↓", "Move down", does.down], ["✕", "Remove", does.remove]]; // prettier-ignore
    const tools = [this.opener, ...moves.map(([sign, what, press]) => signButton(sign, named(what), press))];
    const notes = [spec.filter && `where ${spec.filter}`, spec.range && `range ${spec.range}`].filter(Boolean);
    const legend = make("ul", { class: "legend" }, ...this.traces.map(({ entry }) => entry));
    return make("header", {}, legend, make("span", { class: "note" }, notes.join("; ")), make("span", { class: "tools" }, ...tools));
  }

  makeSettings({ shown }) {
    const { factors, filter, range } = this.spec;
    const field = (name, label, value, placeholder) => {
      const input = make("input", { name, value, placeholder, autocomplete: "off", spellcheck: "false" });
      return make("label", {}, label, input);
    };
    const submit = (event) => {
      event.preventDefault();
      this.apply(event.target.elements);
    };
    const own = factors
      ? factors.map((factor, at) => field("factor", `Factor of ${shown[at]}`, factor, "1"))
      : [field("filter", "Filter", filter, "v > 10 and not t = 5")];
    const fields = [...own, field("range", "Range of values", range, "auto, or -5..15.5")];
    return make("form", { class: "settings", hidden: true, on: { submit } }, ...fields, make("button", {}, "Apply"));
  }

  /** Changes what stands in the settings' fields. */
  apply({ filter, factor, range }) {
    const text = range.value.trim();
    const factors = this.spec.factors && [...factor].map(({ value }) => factorOf(value));
    if (factors?.includes(null)) {
      this.fail("a factor is a whole number of at most 10^9 in size");
    } else {
      this.does.change({ range: text === "auto" ? "" : text, ...(factors ? { factors } : { filter: filter.value.trim() }) });
    }
  }

  openSettings(isOpen) {
    this.settings.hidden = !isOpen;
    this.opener.setAttribute("aria-expanded", String(isOpen));
    if (isOpen) {
      this.settings.elements[0].focus();
    }
  }

  setHeight(height) {
    if (this.height !== height) {
      this.height = height;
      this.plot.style.height = `${height}px`;
      this.grip.setAttribute("aria-valuenow", String(Math.round(height)));
    }
  }

  /** The size of its pictures. */
  size() {
    return { w: pixelsOf(this.plot.clientWidth), h: pixelsOf(this.plot.clientHeight) };
  }

  /** Shows the pictures of its curves, of one window and one range. */
  show({ answers, window, range, scales }, look) {
    Object.assign(this, { window, range, scales, h: answers[0].picture.h, w: answers[0].picture.w });
    this.traces.forEach((trace, place) => trace.show(answers[place].picture, look.painted));
    this.covered.hidden = true;
    tell(this.fault, "");
    this.digits = drawValues({ labels: this.labels, lines: this.lines.values }, range, this.h, look.grid);
    const values = range ? `values from ${decimal(range.lo, range.scale)} to ${decimal(range.hi, range.scale)}` : "no value to show";
    this.plot.setAttribute("aria-label", `${this.shown.join(" and ")} from ${look.spelled(window.t0)} to ${look.spelled(window.t1)}: ${values}`);
    const { dataset } = this.plot;
    Object.assign(dataset, { t0: window.t0, t1: window.t1, drawings: Number(dataset.drawings ?? 0) + 1 });
  }

  /** Shows what may be black of one of its series, whose frame is still coming in; and its values where it is alone, with its scale. */
  cover(place, { picture, count, frame: { lo, hi, h, w } }, window, scale) {
    Object.assign(this, { window, h, w });
    this.traces[place].cover(picture, count);
    this.covered.hidden = false;
    if (scale !== null) {
      drawValues({ labels: this.labels, lines: this.lines.values }, { lo: BigInt(lo), hi: BigInt(hi), scale }, h, false);
    }
  }

  /** Makes the lines of round times; gives what puts them there. */
  makeTimeLines(placed) {
    return makeTimeLines(this.lines.times, placed);
  }

  /** Says why nothing was drawn; under a filter's text a mark shows the character at which it can't be read. */
  fail(why, at = null) {
    const mark = at === null ? "" : `${this.spec.filter}\n${" ".repeat(at)}^ `;
    tell(this.fault, `${mark}${why}${at === null ? "" : `: see character ${at + 1}`}`);
  }

  /** Empties it, since what it shows is not what is asked for. */
  clear() {
    this.window = null;
    this.traces.forEach((trace) => {
      clear(trace.canvas);
      trace.picture = null;
    });
  }

  /** The range that its curves have in common, of the answers to views with ranges of their own; null where all are blank. */
  static rangeOf(answers, scales) {
    const shown = answers.map((answer, place) => ({ ...answer, scale: scales[place] })).filter(({ picture }) => !picture.isBlank());
    return shown.length > 0 ? sharedRange(shown.map(({ frame: { lo, hi }, scale }) => ({ lo, hi, scale })), scales) : null;
  }
}
