/** A line at one column of all panels, with its time, and of each series the least and the greatest value in that column. */
import { part, tell } from "./dom.js";
import { decimal } from "./values.js";
import { timesOf } from "./windows.js";

export class Crosshair {
  constructor(page) {
    this.page = page;
    this.column = null;
  }

  /** Goes to the column under a pointer. */
  point(event, panel) {
    this.to(Math.floor((event.clientX - panel.plot.getBoundingClientRect().left) * devicePixelRatio));
  }

  /** Moves by so many columns, from the middle where it isn't shown. */
  move(by) {
    const w = this.width();
    this.to((this.column ?? Math.floor(w / 2)) + by);
    part("aloud").textContent = [part("moment").textContent, ...this.values()].join("; ");
  }

  width() {
    return this.page.panels.find(({ window }) => window)?.w ?? 0;
  }

  to(column) {
    const w = this.width();
    this.column = w > 0 ? Math.max(0, Math.min(w - 1, column)) : null;
    this.show();
  }

  hide() {
    this.column = null;
    this.show();
  }

  /** What each series has in the column, in words. */
  values() {
    const traces = this.page.panels.flatMap((panel) => panel.traces).filter(({ value }) => value.textContent);
    return traces.map(({ label, value }) => `${label} ${value.textContent}`);
  }

  /** Shows it where it is, also behind a drawing. */
  show() {
    const { column, page } = this;
    for (const panel of page.panels) {
      const isShown = column !== null && panel.window !== null && column < panel.w;
      panel.cross.hidden = !isShown;
      panel.cross.style.left = `${(column ?? 0) / devicePixelRatio}px`;
      panel.traces.forEach(({ value, picture }, place) => tell(value, isShown ? valueOf(picture, column, panel.scales[place]) : ""));
    }
    const window = page.panels.find(({ window }) => window)?.window;
    tell(part("moment"), column === null || !window ? "" : this.moment(timesOf(window, column, this.width())));
  }

  /** The times of a column: its first one, and where it has more than one the last of them, too. */
  moment({ from, to }) {
    const { spelled } = this.page.look;
    return to - from > 1n ? `${spelled(from)} to ${spelled(to - 1n)}` : spelled(from);
  }
}

/** What a picture has in a column, in so many decimals; nothing of a cover, whose values aren't known. */
function valueOf(picture, column, scale) {
  if (!picture) {
    return "";
  }
  const found = picture.column(column);
  const [lo, hi] = found ? [found.least, found.greatest].map((value) => decimal(value, scale)) : ["–", "–"];
  return lo === hi ? lo : `${lo} to ${hi}`;
}
