/**
 * The view that is followed: of a page that shows one series alone, once nothing was drawn for a moment. What changes of it is pushed, so
 * nothing is asked for it, until its window moves, another view is asked for, or more changes than can be drawn one by one.
 */
import { Panel } from "./panel.js";

const STILL = 200; // milliseconds without a drawing
const MOST = 20; // events that may have come behind a push

export class Followed {
  constructor(page) {
    Object.assign(this, { page, timer: null, isPushed: false });
  }

  /** The panel whose view can be followed, or null. */
  panel() {
    const { panels, catalog } = this.page;
    const [panel] = panels;
    const isAlone = panels.length === 1 && panel.window !== null && panel.traces.length === 1 && !panel.spec.factors;
    return catalog.hasPushes && isAlone ? panel : null;
  }

  /** Has the session follow its view soon, if nothing is drawn until then. */
  soon() {
    clearTimeout(this.timer);
    const { page } = this;
    const begin = () => !page.isDrawing && page.connection.number && page.connection.follow().catch(() => {});
    this.timer = this.panel() ? setTimeout(begin, STILL) : null;
  }

  /**
   * Draws a frame that was pushed, unless another view is being asked for. Where too much has come behind it the view is asked for anew, by
   * which it isn't followed any more: so what changes faster than it is drawn is told together.
   */
  show(text, behind) {
    const began = performance.now();
    const { page } = this;
    performance.clearMeasures();
    try {
      const answer = page.connection.push(text);
      const panel = page.connection.follows && !page.isDrawing ? this.panel() : null;
      if (answer && panel) {
        const { scales, spec, window } = panel;
        const range = spec.range ? panel.range : Panel.rangeOf([answer], scales);
        panel.show({ answers: [answer], window, range, scales }, page.look);
        this.isPushed = true;
        page.tellShown(began);
        if (behind >= MOST) {
          page.draw();
        }
      }
    } catch (error) {
      page.tellFault(error);
    }
  }

  /** Whether a change is drawn, since a push came before it was told, and the window stands where it stood. */
  hasDrawn({ t0, t1 }) {
    const { isPushed } = this;
    const window = this.page.connection.follows ? this.panel()?.window : null;
    this.isPushed = false;
    return isPushed && window?.t0 === t0 && window.t1 === t1;
  }
}
