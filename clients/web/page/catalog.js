/** The series of the store, by their names, and the last value of each. */
import { post } from "./server.js";

const LOOKED_AT = 256n; // the slots at a series' end among which its last value is looked for

/** A series as the server tells it, with its start as a BigInt. */
const seriesOf = (told) => ({ ...told, start: BigInt(told.start) });

export class Catalog {
  constructor() {
    this.series = new Map();
    this.lasts = new Map(); // the last values, by names
    this.hasSums = this.hasPushes = this.hasSocket = false; // what the server has beside views
  }

  async load() {
    const response = await post("catalog", "");
    const told = await response.json();
    const offers = (response.headers.get("X-Chart-Offers") ?? "").split(" ");
    [this.hasSums, this.hasPushes, this.hasSocket] = ["sum", "follow", "socket"].map((word) => offers.includes(word));
    this.series = new Map(told.map((one) => [one.name, seriesOf(one)]));
  }

  change(told) {
    told.forEach((one) => {
      this.series.set(one.name, seriesOf(one));
      this.lasts.delete(one.name);
    });
  }

  get(name) {
    return this.series.get(name);
  }

  /** What a series is called on the page: by its labels, where a server tells these, else by its name. */
  shown(name) {
    return this.get(name)?.shown ?? name;
  }

  /** The series whose names, or labels, hold each word of a text. */
  matching(text) {
    const words = text.toLowerCase().split(/\s+/);
    const called = (name) => `${name} ${this.shown(name)}`.toLowerCase();
    return [...this.series.values()].filter(({ name }) => words.every((word) => called(name).includes(word)));
  }

  /** Asks for the last values of some series that aren't known. */
  async findLasts(series, connection) {
    const unknown = series.filter(({ name, slots }) => slots > 0 && !this.lasts.has(name));
    const words = unknown.map(({ name, start, step, slots }) => {
      const end = start + BigInt(slots) * BigInt(step);
      const first = end - (BigInt(slots) < LOOKED_AT ? BigInt(slots) : LOOKED_AT) * BigInt(step);
      return `${name} 1 1 ${first} ${end} auto where t >= ${first}`;
    });
    if (words.length > 0) {
      const answers = await connection.view(words);
      answers.forEach((answer, at) => this.lasts.set(unknown[at].name, lastIn(answer)));
    }
  }
}

/** The last value that a Rows frame of one column tells, or null. */
function lastIn({ frame, bytes }) {
  const numbers = new DataView(bytes.buffer, bytes.byteOffset, bytes.length);
  return frame.kind === "rows" && numbers.getUint16(29) === 1 ? numbers.getBigInt64(31 + 26) : null;
}
