/**
 * A client of the chart server: bytes of frames in, pictures out.
 *
 * Its rules are those of docs/FORMATS.md: the tables of frames, and "From frames to pictures". It needs no library, and
 * runs in a browser and under node.
 *
 *     const client = new Client();
 *     for (const { frame, picture } of client.push(bytes)) { .. }
 *     client.end();
 *
 * What can't be drawn is thrown as a `Stopped`; a client that has thrown one takes nothing more.
 *
 * Times and values reach 2 * 10^18, where numbers aren't exact. A field of 8 bytes is a number up to 2^53 in size, else a
 * BigInt; and each sum is done in numbers where all that it can meet is exact, else in BigInts: `Number` or `BigInt`, as `of`.
 */

import { Cut, Fields, MOST_SLOTS, Stopped } from "./client/fields.js";
import { Picture } from "./client/picture.js";
import { readCatalog, readSwept, readValues } from "./client/told.js";
import { Rows, Session, View } from "./client/views.js";
import { REFUSALS, numberOf } from "./refusals.js";

export { Picture, Stopped };

const MOST_KEYS = 131072;
const KINDS = ["", "done", "refused", "opened", "closed", "view", "rows", "live", "catalog", "values", "swept"];
const [, DONE, REFUSED, OPENED, CLOSED, VIEW, ROWS, LIVE, CATALOG, VALUES, SWEPT] = KINDS.keys();

// The refusals that tell two numbers more, and those that tell one.
const NAMES_SECOND = ["ViewTooLarge", "Full", "LiveTooLarge"].map(numberOf);
const NAMES_FIRST = [...["BadLine", "BadFilter"].map(numberOf), ...NAMES_SECOND];

// For each kind of frame the length without items, the length of an item, and the most items.
const LENGTHS = new Map([
  [DONE, [9, 1, 0]],
  [REFUSED, [18, 1, 0]],
  [OPENED, [9, 1, 0]],
  [CLOSED, [5, 1, 0]],
  [VIEW, [84, 25, MOST_KEYS]],
  [ROWS, [27, 34, 4096]],
  [LIVE, [6, 1, 0]],
  [CATALOG, [11, 70, 512]],
  [VALUES, [16, 8, 6145]],
  [SWEPT, [8, 1, 0]],
]);

// What shows no picture and names no session.
const REPORTS = new Map([
  [CATALOG, readCatalog],
  [VALUES, readValues],
  [SWEPT, readSwept],
]);

/** The number of items of a frame of this kind and length, or null where it can have no such length. */
function itemsOf(kind, length) {
  const [own, item, most] = LENGTHS.get(kind);
  const items = (length - own) / item;
  const isWhole = Number.isInteger(items) && items >= 0 && items <= most;
  return isWhole && !(kind === VALUES && (items === 1 || items === 2)) ? items : null; // a run of two has a value
}

/** The name of a refusal and what it means, with its numbers where these tell something. */
export function refusalOf(number, a, b) {
  const [name, means, tells] = REFUSALS[number - 1];
  return { number, a, b, name, meaning: means + (tells && `: ${tells.replace("A", a).replace("B", b)}`) };
}

/** A Refused frame, with the name of the refusal and what it means. */
function readRefusal(fields) {
  const number = fields.byte(1, REFUSALS.length);
  const a = fields.unsigned(NAMES_FIRST.includes(number) ? 2n ** 64n : 0);
  const b = fields.unsigned(NAMES_SECOND.includes(number) ? 2n ** 64n : 0);
  return { kind: KINDS[REFUSED], ...refusalOf(number, a, b) };
}

/** The frame that the fields spell, as an object with its `kind`. Errors come at the first field that breaks its rule. */
function readFrame(fields) {
  const length = fields.long(0, 2 ** 32 - 1);
  fields.require([...LENGTHS.keys()].some((kind) => itemsOf(kind, length) !== null), 4);
  const kind = fields.byte(0, 255);
  fields.require(LENGTHS.has(kind) && itemsOf(kind, length) !== null, 1);
  if (kind === DONE) {
    return { kind: KINDS[kind], slots: fields.unsigned(MOST_SLOTS) };
  }
  if (kind === REFUSED) {
    return readRefusal(fields);
  }
  if (REPORTS.has(kind)) {
    return { kind: KINDS[kind], ...REPORTS.get(kind)(fields, itemsOf(kind, length)) };
  }
  const session = fields.long(1, 2 ** 32 - 1);
  if (kind === OPENED) {
    return { kind: KINDS[kind], session, cache: fields.long(1, MOST_KEYS) };
  }
  if (kind === CLOSED) {
    return { kind: KINDS[kind], session };
  }
  if (kind === LIVE) {
    return { kind: KINDS[kind], session, on: fields.byte(0, 1) === 1 };
  }
  const chart = new (kind === VIEW ? View : Rows)(fields, itemsOf(kind, length), session);
  return Object.assign(chart, { kind: KINDS[kind] });
}

/** Takes the bytes of a stream in pieces of any size, keeps its open sessions, and draws. */
export class Client {
  constructor() {
    this.sessions = new Map();
    this.offset = 0; // of the first byte that is kept
    this.kept = new Uint8Array(0);
    this.tried = 0; // how many bytes of a frame that isn't whole were tested
  }

  /** Takes more bytes, and gives each whole frame among them with its picture, null where it has none. */
  *push(bytes) {
    this.keep(bytes);
    while (this.kept.length > 0) {
      const frame = this.next();
      if (!frame) {
        return;
      }
      const size = this.size();
      const picture = this.told(() => this.apply(frame));
      this.kept = this.kept.subarray(size);
      this.offset += size;
      this.tried = 0;
      yield { frame, picture };
    }
  }

  keep(bytes) {
    const all = new Uint8Array(this.kept.length + bytes.length);
    all.set(this.kept);
    all.set(bytes, this.kept.length);
    this.kept = all;
  }

  /** The size of the frame that stands first in what is kept, as far as its length is there. */
  size() {
    return this.kept.length < 4 ? 4 : 4 + new DataView(this.kept.buffer, this.kept.byteOffset).getUint32(0);
  }

  /**
   * The frame that stands first in what is kept, or null where it isn't whole. A bad field of one that isn't whole may be
   * told before it is. So that no byte is tested often, that is tried when twice as many are there as the last time.
   */
  next() {
    if (this.kept.length < Math.min(2 * this.tried, this.size())) {
      return null;
    }
    this.tried = this.kept.length;
    return this.told(() => {
      try {
        return readFrame(new Fields(this.kept, this.offset));
      } catch (error) {
        if (error instanceof Cut) {
          return null;
        }
        throw error;
      }
    });
  }

  /** Says that the stream has ended; within a frame that is an error. */
  end() {
    if (this.kept.length > 0) {
      this.told(() => readFrame(new Fields(this.kept, this.offset)));
    }
  }

  /** What a step gives; where it stops, the message tells at which frame. */
  told(step) {
    try {
      return step();
    } catch (error) {
      throw error instanceof Stopped ? new Stopped(`the frame at byte ${this.offset}: ${error.message}`) : error;
    }
  }

  apply(frame) {
    if (["done", "refused", "catalog", "values", "swept"].includes(frame.kind)) {
      return null;
    }
    if (frame.kind === "opened") {
      this.sessions.set(frame.session, new Session(frame.cache));
      return null;
    }
    const session = this.sessions.get(frame.session);
    if (!session) {
      throw new Stopped(`session ${frame.session} isn't open`);
    }
    if (frame.kind === "closed") {
      this.sessions.delete(frame.session);
      return null;
    }
    if (frame.kind === "live") {
      return null;
    }
    return frame.draw(session);
  }
}
