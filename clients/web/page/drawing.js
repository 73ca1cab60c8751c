/** Asks for the pictures of panels, and shows each panel's as soon as it has them. */
import { BAD_FILTER } from "./connection.js";
import { curvesOf } from "./curves.js";
import { Panel } from "./panel.js";
import { rangeOf, rescaled, sharedRange } from "./values.js";

const TOGETHER = 40; // milliseconds that a panel waits for others

/** What one panel asks for over a window, and what came of it. */
class Job {
  constructor(panel, window, catalog) {
    Object.assign(this, { panel, window, answers: [], hasFailed: false, range: null });
    this.curves = curvesOf(panel.spec, catalog);
    this.scales = this.curves.map(({ scale }) => scale);
    const missing = panel.spec.names.filter((name) => !catalog.get(name));
    const fault = missing.length > 0 ? `no series has the name ${missing.join(", ")}` : this.curves[0].fault(catalog);
    if (fault) {
      this.fail(fault);
    } else if (panel.spec.range) {
      this.fix();
    }
  }

  /** Takes the range that the panel names, in decimals that all of its series have. */
  fix() {
    const scale = Math.min(...this.scales);
    const range = rangeOf(this.panel.spec.range, scale);
    if (range) {
      this.range = sharedRange([{ ...range, scale }], this.scales);
    } else {
      this.fail(`the range is auto, or two values with two points between them, as -5..15, of at most ${scale} decimals`);
    }
  }

  fail(why, at) {
    this.hasFailed = true;
    this.panel.clear();
    this.panel.fail(why, at);
  }

  /** The line that asks for its curve at a place. */
  line(place, session) {
    return this.curves[place].line(session, this.size, this.window, this.range && rescaled(this.range, this.scales[place]));
  }

  /** The places of the curves that have to be asked for: all, and once their ranges are known those that were drawn in another one. */
  wanted() {
    const all = [...this.curves.keys()];
    if (this.hasFailed || this.answers.length === 0) {
      return this.hasFailed ? [] : all;
    }
    const range = this.range ?? Panel.rangeOf(this.answers, this.scales);
    const isOther = (place) => {
      const { lo, hi } = rescaled(range, this.scales[place]);
      return BigInt(this.answers[place].frame.lo) !== lo || BigInt(this.answers[place].frame.hi) !== hi;
    };
    const others = range && all.length > 1 ? all.filter(isOther) : [];
    this.range = range;
    return others;
  }

  take(place, answer) {
    this.answers[place] = answer;
    if (answer.refused) {
      const { number, a } = answer.refused.frame;
      this.fail(this.curves[place].told(answer.refused), number === BAD_FILTER ? charactersIn(this.panel.spec.filter, Number(a)) : null);
    }
  }
}

/** How many characters the first bytes of a text are. */
function charactersIn(text, bytes) {
  return [...new TextDecoder().decode(new TextEncoder().encode(text).slice(0, bytes))].length;
}

/** Asks for what jobs want, and calls `done` with each job that has all of it; `painting` is called before a cover is painted. */
async function askFor(jobs, connection, painting, done) {
  const asks = jobs.flatMap((job) => job.wanted().map((place) => ({ job, place })));
  const left = new Map();
  asks.forEach(({ job }) => left.set(job, (left.get(job) ?? 0) + 1));
  const took = (at, answer) => {
    const { job, place } = asks[at];
    job.take(place, answer);
    left.set(job, left.get(job) - 1);
    if (left.get(job) === 0 && !job.hasFailed) {
      done(job);
    }
  };
  const covered = (at, cover) => {
    if (cover && asks[at]) {
      const { job, place } = asks[at];
      painting();
      job.panel.cover(place, cover, job.window, job.scales.length === 1 ? job.scales[0] : null);
    }
  };
  if (asks.length > 0) {
    const lines = asks.map(({ job, place }) => job.line(place, connection.number));
    await connection.ask(lines, took, covered);
  }
}

/** Shows panels together whose pictures come within a moment, since a browser takes long from one of them to the next where it shows it. */
class Shown {
  constructor(show) {
    Object.assign(this, { show, waiting: [], timer: null });
  }

  add(job) {
    this.waiting.push(job);
    this.timer ??= setTimeout(() => this.now(), TOGETHER);
  }

  now() {
    clearTimeout(this.timer);
    this.timer = null;
    this.waiting.splice(0).forEach(this.show);
  }
}

/** Draws panels over a window, each soon after all of its pictures are there; `painting` is called before anything is painted. */
export async function drawPanels(panels, window, { connection, catalog, look }, painting) {
  const jobs = panels.map((panel) => Object.assign(new Job(panel, window, catalog), { size: panel.size() }));
  const shown = new Shown((job) => {
    painting();
    job.panel.show(job, look);
  });
  const again = [];
  try {
    await askFor(jobs, connection, painting, (job) => (job.wanted().length > 0 ? again.push(job) : shown.add(job)));
    await askFor(again, connection, painting, (job) => shown.add(job));
  } finally {
    shown.now();
  }
}
