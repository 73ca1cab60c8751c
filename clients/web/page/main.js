/** The page of a store: panels over one window of times, which the address names; what draws them, and what moves them. */
import { Alarms } from "./alarms.js";
import { newPanel, readAddress, spellAddress } from "./address.js";
import { makeTimes, placedTimes } from "./axes.js";
import { Catalog } from "./catalog.js";
import { Connection } from "./connection.js";
import { listenToControls, showControls } from "./controls.js";
import { Crosshair } from "./crosshair.js";
import { curvesOf } from "./curves.js";
import { hide, part, tell } from "./dom.js";
import { drawPanels } from "./drawing.js";
import { Followed } from "./followed.js";
import { Line } from "./live.js";
import { theme } from "./paint.js";
import { Panel } from "./panel.js";
import { Picker } from "./picker.js";
import { listenOver } from "./pointer.js";
import { guessUnit, spelled } from "./times.js";
import { isFollowing, within, windowOf } from "./windows.js";

const LEAST_PANEL = 110; // pixels, and the most, of a panel whose height nobody chose
const MOST_PANEL = 420;
const AROUND_PANEL = 62; // what stands above and below its chart
const BELOW_PANELS = 90;
const NOWHERE = { t0: 0n, t1: 1n }; // the window where no series is there
const AFTER = 20; // milliseconds from a drawing until its pixels are on the screen
const PATIENCE = 150; // milliseconds that the controls and the address wait for pixels

class Page {
  constructor() {
    this.connection = new Connection((drawn) => this.tellClient(drawn));
    this.catalog = new Catalog();
    this.panels = [];
    this.crosshair = new Crosshair(this);
    this.picker = new Picker(this);
    this.alarms = new Alarms(this);
    this.line = new Line(this);
    this.followed = new Followed(this);
    this.query = location.search; // names what is asked for
    this.digits = 0; // for so many there is room beside the charts
    this.look = { unit: "numbers", zone: "", grid: true, painted: "", spelled: String };
    this.wanted = null; // the panels that are to be drawn next, while others are being drawn
    this.isDrawing = false;
    this.isAsked = false; // whether somebody asked for what is drawn, so that it is told aloud
    this.held = null; // takes away what a drag left, once its pixels are there
    this.around = null; // shows in the controls what was asked for last
    this.untold = []; // the addresses that the browser isn't told yet
    [this.soon, this.late] = [null, null]; // the timers of what waits for pixels
  }

  asked() {
    return readAddress(this.query);
  }

  tellClient({ client, words }) {
    part("client").dataset.proved = String("calls" in client);
    tell(part("client"), words);
  }

  /** The series that are asked for and there. */
  shown(asked) {
    return asked.panels.flatMap(({ names }) => names.map((name) => this.catalog.get(name)).filter(Boolean));
  }

  /** The window that is shown, or asked for. */
  window() {
    const asked = this.asked();
    return asked.t0 === null ? (this.panels.find(({ window }) => window)?.window ?? windowOf(asked, this.shown(asked), 1000)) : within(asked);
  }

  /** Changes what is asked for, which Back undoes unless it replaces what was there. */
  change(words, { replaces = false, began = performance.now() } = {}) {
    this.query = spellAddress({ ...this.asked(), ...words });
    this.isAsked = true;
    this.tellAddress(replaces ? "replaceState" : "pushState");
    this.draw(began);
  }

  /** Has the browser's address name what is asked for, soon. */
  tellAddress(how) {
    const replaced = how === "replaceState" ? this.untold.pop() : null;
    this.untold.push({ query: this.query, how: replaced?.how ?? how });
    this.wait();
  }

  /** Sees to it that what waits for pixels doesn't wait for long. */
  wait() {
    this.late ??= setTimeout(() => this.settle(), PATIENCE);
  }

  /** Does what waits for pixels, since a browser takes long for a new address: that and the controls name what is asked for. */
  settle() {
    [this.soon, this.late].forEach(clearTimeout);
    this.late = null;
    this.around?.();
    this.around = null;
    for (const { query, how } of this.untold.splice(0)) {
      history[how](null, "", `${query}${location.hash}`);
    }
    document.body.toggleAttribute("data-drawing", this.isDrawing);
  }

  /** Takes away what a drag left. */
  release() {
    this.held?.();
    this.held = null;
  }

  /** Shows what the browser's address names. */
  goBack() {
    this.untold = [];
    this.query = location.search;
    this.draw();
  }

  /** Goes so many steps back or forward. */
  travel(steps) {
    this.settle();
    history.go(steps);
  }

  /** Goes to a window; one that follows the end stays there then. */
  move(window, how) {
    this.change(within(window), how);
  }

  moveBy(step, how) {
    const window = this.window();
    if (window) {
      this.move(step(window), how);
    }
  }

  showAll() {
    this.change({ t0: null, t1: null, last: null });
  }

  /** Goes back to the end, where the window follows it. */
  resume() {
    if (this.asked().last !== null) {
      this.change({ t0: null, t1: null });
    }
  }

  /** Makes the panels that are asked for, where they aren't there. */
  makePanels(asked) {
    const curves = asked.panels.map((spec) => curvesOf(spec, this.catalog));
    const labels = curves.map((some) => some.map(({ label }) => label));
    const key = JSON.stringify([labels, asked.panels.map(({ names, filter, range }) => [names, filter, range])]);
    if (key !== this.made) {
      [this.made, this.digits] = [key, 0];
      this.panels = asked.panels.map((spec, number) => new Panel(spec, curves[number], number, this.doing(number)));
      this.panels.forEach((panel) => listenOver(panel, this));
      keepFocus(() => part("panels").replaceChildren(...this.panels.map(({ element }) => element)));
    }
    const all = innerHeight - part("bar").offsetTop - part("bar").offsetHeight - BELOW_PANELS;
    const room = all / Math.max(1, this.panels.length) - AROUND_PANEL;
    const usual = Math.floor(Math.max(LEAST_PANEL, Math.min(MOST_PANEL, room)));
    this.panels.forEach((panel, number) => panel.setHeight(asked.panels[number].height || usual));
    hide(part("axis"), this.panels.length === 0);
    hide(part("empty"), this.panels.length > 0);
  }

  /** What the buttons of a panel do. */
  doing(number) {
    const panels = () => this.asked().panels;
    const put = (some) => this.change({ panels: some });
    const swap = (one, other) => {
      const some = panels();
      if (some[one] && some[other]) {
        [some[one], some[other]] = [some[other], some[one]];
        put(some);
      }
    };
    const change = (words) => put(panels().map((panel, at) => (at === number ? { ...panel, ...words } : panel)));
    return {
      change,
      remove: () => put(panels().toSpliced(number, 1)),
      up: () => swap(number, number - 1),
      down: () => swap(number, number + 1),
      drop(place) {
        const { names } = panels()[number];
        return names.length > 1 ? change({ names: names.toSpliced(place, 1) }) : put(panels().toSpliced(number, 1));
      },
    };
  }

  /** Whether a panel has room for a picture of another size than it shows. */
  isResized() {
    return this.panels.some((panel) => panel.window && (panel.size().w !== panel.w || panel.size().h !== panel.h));
  }

  /** Says how times, colours and lines look. */
  readLook(asked) {
    const [first] = this.shown(asked);
    const unit = asked.unit || (first ? guessUnit(first) : "numbers");
    const [how, before] = [{ unit, zone: asked.zone }, this.look.zone];
    this.look = { ...how, grid: asked.grid !== "off", painted: `${theme()} ${devicePixelRatio}`, spelled: (time) => spelled(time, how) };
    if (before !== asked.zone) {
      this.alarms.draw();
    }
  }

  /** Draws all panels, once what is being drawn is there. */
  draw(began = performance.now()) {
    this.drawOf(null, began);
  }

  /** Draws what some series changed: the panels that show them, or where the window follows the end all of them. */
  drawChanged(names) {
    const asked = this.asked();
    this.picker.refresh(names);
    if (!this.shown(asked).some(({ name }) => names.includes(name))) {
      return this.line.caughtUp();
    }
    if (this.followed.hasDrawn(this.asksFor(asked))) {
      return this.line.caughtUp();
    }
    const movesOn = isFollowing(asked) || (asked.t0 === null && asked.last === null);
    return this.drawOf(movesOn ? null : names, performance.now());
  }

  drawOf(names, began) {
    const before = this.wanted;
    const all = names === null || before?.names === null;
    this.wanted = { names: all ? null : [...(before?.names ?? []), ...names], began: before?.began ?? began };
    if (!this.isDrawing) {
      this.drawOn();
    }
  }

  /** Draws what is wanted until nothing more is; the document says so until all that waits for the pixels is done. */
  async drawOn() {
    this.isDrawing = true;
    document.body.toggleAttribute("data-drawing", true);
    clearTimeout(this.soon);
    while (this.wanted && this.connection.number && document.visibilityState === "visible") {
      const { names, began } = this.wanted;
      this.wanted = null;
      try {
        await this.drawOnce(names, began);
        this.line.caughtUp();
      } catch (error) {
        this.tellFault(error);
      }
    }
    this.isDrawing = false;
    this.release();
    this.soon = setTimeout(() => this.settle(), AFTER);
    this.followed.soon();
  }

  /** Says why nothing was drawn. Where the session was lost with that, the line begins another one, which draws. */
  tellFault(error) {
    tell(part("told"), `Not drawn: ${error.message}.`);
    if (this.connection.number) {
      this.panels.forEach((panel) => panel.fail(error.message));
    }
  }

  async drawOnce(names, began) {
    performance.clearMeasures();
    const asked = this.greeted();
    this.readLook(asked);
    this.makePanels(asked);
    const window = this.asksFor(asked);
    this.around = () => this.showAsked(asked, window);
    this.wait();
    if (this.panels.length > 0) {
      const some = this.panels.filter(({ spec }) => names === null || spec.names.some((name) => names.includes(name)));
      const painting = () => [this.release(), drawAxis()];
      const drawn = drawPanels(some, window, this, painting);
      const drawAxis = this.makeAxis(window); // while the answers are on their way
      await drawn;
      drawAxis();
      this.tellShown(began);
    }
  }

  /** The window of what is asked for, on the panels that are there. */
  asksFor(asked) {
    return windowOf(asked, this.shown(asked), this.panels[0]?.size().w ?? 1) ?? NOWHERE;
  }

  /** Puts around the pictures what goes with them, and says what they show. */
  tellShown(began) {
    this.makeRoom();
    this.crosshair.show();
    this.tellDrawn(began);
  }

  showAsked(asked, window) {
    showControls(this, asked, window === NOWHERE ? null : window);
    const names = this.panels.flatMap(({ shown }) => shown).join(", ");
    document.title = names === "" ? "Chart" : `${names} - Chart`;
  }

  /** What is asked for. Where that is nothing, the only series of the store is shown, or at first the list of them. */
  greeted() {
    const asked = this.asked();
    if (asked.panels.length === 0 && !this.isGreeted) {
      const names = [...this.catalog.series.keys()];
      if (names.length === 1) {
        this.query = spellAddress({ ...asked, panels: [newPanel(names)] });
        this.tellAddress("replaceState");
      } else {
        this.picker.open(true);
      }
    }
    this.isGreeted = true;
    return this.asked();
  }

  /** Makes the axis of a window; gives what puts it there. */
  makeAxis(window) {
    const { w } = this.panels[0].size();
    const placed = placedTimes(window, w, this.look);
    const lines = this.look.grid ? placed : [];
    const puts = [makeTimes(part("times"), placed, w), ...this.panels.map((panel) => panel.makeTimeLines(lines))];
    const ends = [window.t0, window.t1].map((time) => this.look.spelled(time));
    return () => {
      puts.forEach((put) => put());
      ["t0", "t1"].forEach((id, at) => tell(part(id), ends[at]));
    };
  }

  /** Makes room beside the charts for their longest value; not less than there was for these panels. Narrower charts are drawn anew. */
  makeRoom() {
    this.digits = Math.max(this.digits, ...this.panels.map(({ digits }) => digits));
    const { style } = document.documentElement;
    if (style.getPropertyValue("--digits") !== String(this.digits)) {
      style.setProperty("--digits", this.digits);
      if (this.isResized()) {
        this.draw();
      }
    }
  }

  /** Says in words what is shown, and how many bytes came. */
  tellDrawn(began) {
    const count = (number) => number.toLocaleString("en");
    tell(part("told"), this.panels.map(({ plot }) => plot.getAttribute("aria-label")).join(". "));
    tell(part("bytes"), `${count(this.connection.last)} bytes came last, ${count(this.connection.bytes)} since the page was opened.`);
    if (this.isAsked) {
      tell(part("aloud"), part("told").textContent);
    }
    this.isAsked = false;
    document.body.dataset.drawings = String(Number(document.body.dataset.drawings ?? 0) + 1);
    performance.measure("chart: all", { start: began });
  }
}

/** Changes the panels, and gives the focus back to what has the name of the part that had it. */
function keepFocus(change) {
  const hadFocus = part("panels").contains(document.activeElement);
  const name = document.activeElement?.getAttribute("aria-label");
  change();
  if (hadFocus) {
    const named = [...part("panels").querySelectorAll("[aria-label]")].find((it) => it.getAttribute("aria-label") === name);
    (named ?? part("panels").querySelector(".plot") ?? part("open_picker")).focus({ preventScroll: true });
  }
}

function start() {
  const page = new Page();
  listenToControls(page);
  part("edit").hidden = !new URLSearchParams(location.hash.slice(1)).has("edit");
  addEventListener("popstate", () => page.goBack());
  addEventListener("pagehide", () => page.line.end());
  addEventListener("pageshow", (event) => event.persisted && location.reload());
  document.addEventListener("visibilitychange", () => page.draw());
  matchMedia("(prefers-color-scheme: dark)").addEventListener("change", () => page.draw());
  let wait = null;
  const redraw = (isNeeded) => {
    clearTimeout(wait);
    wait = setTimeout(() => isNeeded() && page.draw(), 60);
  };
  addEventListener("resize", () => redraw(() => true));
  new ResizeObserver(() => redraw(() => page.isResized())).observe(part("panels"));
  page.line.keepUp();
}

start();
