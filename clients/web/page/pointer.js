/** Drags, turns of the wheel and keys over a panel's chart: they move the window of all panels, and the crosshair. */
import { greatest, least } from "./numbers.js";
import { panned, timesOf, zoomed } from "./windows.js";

const AT_ONCE = 800; // milliseconds: turns of the wheel that follow each other so fast are one step of Back

/** A drag over a panel: it selects a range, or with Shift moves the pictures. */
class Drag {
  constructor(panel, page) {
    Object.assign(this, { panel, page, from: null });
  }

  /** The place of the pointer, as a share of the chart's width. */
  placeOf(event) {
    const box = this.panel.plot.getBoundingClientRect();
    return Math.max(0, Math.min(1, (event.clientX - box.left) / box.width));
  }

  begin(event) {
    if (this.panel.window && event.button === 0) {
      this.page.release();
      Object.assign(this, { from: this.placeOf(event), to: this.placeOf(event), isPan: event.shiftKey });
      this.panel.plot.setPointerCapture(event.pointerId);
      this.panel.plot.focus({ preventScroll: true });
    }
  }

  go(event) {
    if (this.from === null) {
      this.page.crosshair.point(event, this.panel);
      return;
    }
    this.to = this.placeOf(event);
    const width = this.panel.plot.clientWidth;
    for (const { plot, selection } of this.page.panels) {
      if (this.isPan) {
        plot.style.setProperty("--moved", `${(this.to - this.from) * width}px`);
      } else {
        selection.hidden = false;
        selection.style.left = `${Math.min(this.from, this.to) * width}px`;
        selection.style.width = `${Math.abs(this.to - this.from) * width}px`;
      }
    }
  }

  stop() {
    this.from = null;
    this.hide();
  }

  /** Takes the selection away, and puts moved pictures back. */
  hide() {
    for (const { plot, selection } of this.page.panels) {
      selection.hidden = true;
      plot.style.removeProperty("--moved");
    }
  }

  end(event) {
    if (this.from === null) {
      return;
    }
    const began = performance.now();
    const { window, w } = this.panel;
    const [left, right] = [this.from, this.placeOf(event)].map((share) => timesOf(window, Math.round(share * w), w).from);
    this.from = null;
    this.page.held = () => this.hide();
    if (left === right) {
      this.page.release();
    } else {
      const by = left - right;
      const ends = this.isPan ? { t0: window.t0 + by, t1: window.t1 + by } : { t0: least(left, right), t1: greatest(left, right) };
      this.page.move(ends, { began });
    }
  }
}

/** The keys over a chart; with Shift they move the crosshair. */
function press(event, page, drag) {
  const { crosshair } = page;
  const w = crosshair.width();
  const keys = {
    ArrowLeft: () => page.moveBy((window) => panned(window, -0.25)),
    ArrowRight: () => page.moveBy((window) => panned(window, 0.25)),
    "+": () => page.moveBy((window) => zoomed(window, 0.5)),
    "=": () => page.moveBy((window) => zoomed(window, 0.5)),
    "-": () => page.moveBy((window) => zoomed(window, 2)),
    Home: () => page.showAll(),
    End: () => page.resume(),
    Escape: () => [drag.stop(), crosshair.hide()],
  };
  const keysWithShift = {
    ArrowLeft: () => crosshair.move(-1),
    ArrowRight: () => crosshair.move(1),
    PageUp: () => crosshair.move(-Math.ceil(w / 20)),
    PageDown: () => crosshair.move(Math.ceil(w / 20)),
    Home: () => crosshair.move(-w),
    End: () => crosshair.move(w),
    "+": keys["+"],
  };
  const step = (event.shiftKey ? keysWithShift : keys)[event.key];
  if (step && !event.ctrlKey && !event.altKey && !event.metaKey) {
    event.preventDefault();
    step();
  }
}

/** Listens over a panel's chart. */
export function listenOver(panel, page) {
  const drag = new Drag(panel, page);
  const { plot } = panel;
  let turned = -Infinity;
  const turn = (event) => {
    event.preventDefault();
    const now = performance.now();
    const factor = 2 ** Math.max(-1, Math.min(1, event.deltaY / 200));
    page.moveBy((window) => zoomed(window, factor, drag.placeOf(event)), { replaces: now - turned < AT_ONCE });
    turned = now;
  };
  plot.addEventListener("pointerdown", (event) => drag.begin(event));
  plot.addEventListener("pointermove", (event) => drag.go(event));
  plot.addEventListener("pointerup", (event) => drag.end(event));
  plot.addEventListener("pointercancel", () => drag.stop());
  plot.addEventListener("pointerleave", () => drag.from === null && page.crosshair.hide());
  plot.addEventListener("wheel", turn, { passive: false });
  plot.addEventListener("keydown", (event) => press(event, page, drag));
}
