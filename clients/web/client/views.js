/** What views and rows show, and what a session's client keeps for the next view, by the rules of docs/FORMATS.md. */
import { MOST, Stopped } from "./fields.js";
import { Picture, SMALL, divided, greatest, heightOf, isWithin, least } from "./picture.js";
import { readAxis } from "./told.js";

const EXACT = 2 ** 53; // up to this size whole numbers are exact
const SIZES = Array.from({ length: 36 }, (_, level) => 2 ** level); // the slots of a key, by its level

/**
 * One whole number below 2^35 for a key of level 1 to 35. The names of keys rise from the top level down, and in a level from
 * left to right.
 */
const nameOf = (level, index) => SIZES[35 - level] + index;

/** The list of a session: a ring of coefficients, on which its front stands behind `ring`, and its end before it. */
export class Session {
  constructor(cache) {
    this.cache = cache;
    this.size = 0;
    this.views = 0; // so many were drawn
    this.held = new Map(); // for each series its coefficients by their names
    this.ring = {};
    this.ring.next = this.ring.previous = this.ring;
  }

  /** The coefficients that are held of a series. */
  of(series) {
    let held = this.held.get(series);
    if (!held) {
      held = new Map();
      this.held.set(series, held);
    }
    return held;
  }

  /** The list after a view: the wanted keys that it has come to the front, and before them those that are new. */
  renew(series, wanted) {
    // A name and its place in one number, since numbers are sorted fastest. Each one was sent or held, so there are at most 2^18.
    const order = new Float64Array(wanted.length);
    for (let place = 0; place < order.length; place += 1) {
      order[place] = wanted[place].name * 2 ** 18 + place;
    }
    order.sort();
    const held = this.of(series);
    const unknown = [];
    for (const number of order) {
      const coefficient = wanted[number % 2 ** 18];
      const old = coefficient.held ? coefficient : held.get(coefficient.name);
      if (old) {
        this.replace(old, coefficient);
      } else {
        unknown.push(coefficient);
      }
    }
    for (const coefficient of unknown) {
      this.put(held, coefficient);
    }
    while (this.size > this.cache) {
      this.drop(this.ring.previous);
    }
  }

  /** Puts a coefficient that is new to the front. */
  put(held, coefficient) {
    held.set(coefficient.name, coefficient);
    coefficient.held = held;
    this.size += 1;
    this.link(coefficient);
  }

  /** Puts a coefficient to the front, in place of the one that was held for its key. */
  replace(old, coefficient) {
    this.unlink(old);
    if (old !== coefficient) {
      old.held.set(coefficient.name, coefficient);
      coefficient.held = old.held;
    }
    this.link(coefficient);
  }

  drop(coefficient) {
    coefficient.held.delete(coefficient.name);
    this.size -= 1;
    this.unlink(coefficient);
  }

  link(coefficient) {
    coefficient.previous = this.ring;
    coefficient.next = this.ring.next;
    this.ring.next.previous = coefficient;
    this.ring.next = coefficient;
  }

  unlink({ previous, next }) {
    previous.next = next;
    next.previous = previous;
  }
}

// What two views have to have in common to show the same, where no coefficient was sent between them.
const VIEW_FIELDS = ["series", "w", "h", "t0", "t1", "lo", "hi", "start", "step", "slots", "has", "min", "max"];

/** A View frame, and what it shows of its series. A node is a key with the least and the greatest stored value below it. */
export class View {
  constructor(fields, count, session) {
    this.session = session;
    this.series = fields.short(0, 511);
    this.w = fields.short(1, 4096);
    this.h = fields.short(1, 4096);
    this.t0 = fields.signed(-2 * MOST, 2 * MOST);
    this.t1 = fields.signed(-2 * MOST, 2 * MOST);
    fields.require(this.t0 < this.t1, 8);
    this.lo = fields.signed(-MOST, MOST);
    this.hi = fields.signed(this.lo, MOST);
    Object.assign(this, readAxis(fields));
    this.has = fields.byte(0, this.slots > 0 ? 1 : 0);
    const size = MOST * this.has;
    this.min = fields.signed(-size, size);
    this.max = fields.signed(this.min, size);
    fields.long(count, count);
    this.top = 7;
    while (2 ** this.top < this.slots) {
      this.top += 7;
    }
    this.sent = new Map();
    this.readCoefficients(fields, count);
  }

  readCoefficients(fields, count) {
    let before = 0;
    for (let n = 0; n < count; n += 1) {
      const at = fields.take(8);
      const high = fields.view.getUint32(at);
      const level = high >>> 8;
      const index = (high & 255) * 2 ** 32 + fields.view.getUint32(at + 4);
      const isKey = level > 0 && level <= this.top && index < 2 ** (this.top - level);
      const name = isKey ? nameOf(level, index) : 0;
      fields.require(before < name, 8);
      before = name;
      const flags = fields.byte(1, 3);
      const size = flags === 3 ? 2 * MOST : 0;
      const [dmin, dmax] = [fields.signed(-size, size), fields.signed(-size, size)];
      this.sent.set(name, { name, flags, dmin, dmax, view: 0, held: null, previous: null, next: null });
    }
  }

  draw(session) {
    if (this.sent.size === 0 && session.last && VIEW_FIELDS.every((name) => this[name] === session.last[name])) {
      // The list has all that the last view wanted in front, and stays as it is.
      return session.last.picture;
    }
    this.held = session.of(this.series);
    this.wanted = [];
    this.number = session.views += 1;
    this.pieces = new Map(); // for each column the nodes that are left in it
    this.of = [this.min, this.max, this.lo, this.hi].every((value) => isWithin(SMALL, value)) ? Number : BigInt;
    this.findWindow();
    if (this.has) {
      this.findPieces({ level: this.top, index: 0, min: this.of(this.min), max: this.of(this.max) });
    }
    const rows = [...this.pieces].map(([column, pieces]) => this.row(column, pieces));
    session.renew(this.series, this.wanted);
    const picture = new Picture(this.w, this.h, this.lo, this.hi, rows, this.of);
    session.last = null;
    if (this.wanted.length <= session.cache) {
      session.last = Object.fromEntries(VIEW_FIELDS.map((name) => [name, this[name]]));
      session.last.picture = picture;
    }
    return picture;
  }

  /** The window's slots, from `first` to below `behind`, and what `column` needs. */
  findWindow() {
    const ahead = BigInt(this.start) - BigInt(this.t0);
    const length = BigInt(this.t1) - BigInt(this.t0);
    const step = BigInt(this.step);
    this.first = Number(greatest(0n, -divided(ahead, step)));
    this.behind = Number(least(BigInt(this.slots), -divided(ahead - length, step)));
    const isExact = length * BigInt(this.w) < EXACT && isWithin(EXACT / 2, ahead) && this.slots * this.step < EXACT / 2;
    const of = isExact ? Number : BigInt;
    this.scaled = { ahead: of(ahead), length: of(length), step: of(step), w: of(this.w) };
  }

  /** The column of a slot of the window. */
  column(slot) {
    const { ahead, length, step, w } = this.scaled;
    if (typeof length === "number") {
      return Math.floor(((ahead + slot * step) * w) / length);
    }
    return Number(divided((ahead + BigInt(slot) * step) * w, length));
  }

  /** The coefficient of a node that is wanted, whose differences are of the kind of the node's values. */
  coefficient({ level, index, min, max }) {
    const name = nameOf(level, index);
    const coefficient = (this.sent.size > 0 && this.sent.get(name)) || this.held.get(name);
    if (!coefficient) {
      throw new Stopped(`the coefficient of level ${level}, index ${index} is missing`);
    }
    if (coefficient.view !== this.number) {
      coefficient.view = this.number; // the last one that wanted it
      this.wanted.push(coefficient);
    }
    // A difference past 2^53 may lose its last bits here. It fits no node of small values, with or without them.
    const { flags, dmin, dmax } = coefficient;
    const isAlike = typeof dmin === typeof min && typeof dmax === typeof min;
    const told = isAlike ? coefficient : { flags, dmin: this.of(dmin), dmax: this.of(dmax) };
    this.requireFit(min, max, told);
    return told;
  }

  /** Each half lies within the node's span, so none of its ends passes 10^18. */
  requireFit(min, max, { dmin, dmax }) {
    const leftFits = (dmin > 0 ? min + dmin : min) <= (dmax < 0 ? max + dmax : max);
    const rightFits = (dmin < 0 ? min - dmin : min) <= (dmax > 0 ? max - dmax : max);
    if (!leftFits || !rightFits) {
      throw new Stopped("a coefficient doesn't fit");
    }
  }

  /** A half of a node, the left one at side 0 and the right one at side 1, or null where nothing is stored there. */
  half({ level, index, min, max }, { flags, dmin, dmax }, side) {
    const half = { level: level - 1, index: 2 * index + side, min, max };
    if (flags < 3) {
      return flags === side + 1 ? half : null;
    }
    const [above, below] = side === 0 ? [dmin, dmax] : [-dmin, -dmax];
    half.min = above > 0 ? min + above : min;
    half.max = below < 0 ? max + below : max;
    return half;
  }

  /** Splits a node until what is left of it lies within columns, from the left to the right. */
  findPieces(node) {
    const size = SIZES[node.level];
    const first = node.index * size;
    const behind = first + size;
    if (this.first >= Math.min(behind, this.behind) || this.behind <= first) {
      return;
    }
    if (this.first <= first && behind <= this.behind) {
      const column = this.column(first);
      if (column === this.column(behind - 1)) {
        const pieces = this.pieces.get(column);
        if (pieces) {
          pieces.push(node);
        } else {
          this.pieces.set(column, [node]);
        }
        return;
      }
    }
    const coefficient = this.coefficient(node);
    for (let side = 0; side < 2; side += 1) {
      const half = this.half(node, coefficient, side);
      if (half) {
        this.findPieces(half);
      }
    }
  }

  row(column, pieces) {
    let [{ min, max }] = pieces;
    for (const piece of pieces) {
      min = least(min, piece.min);
      max = greatest(max, piece.max);
    }
    return { column, first: this.end(pieces[0], 0), least: min, greatest: max, last: this.end(pieces.at(-1), 1) };
  }

  /** Whether all values below a node have one height. */
  isFlat({ min, max }) {
    const { lo, hi, h, of } = this;
    return heightOf(min, of(lo), of(hi), h, of) === heightOf(max, of(lo), of(hi), h, of);
  }

  /** A value of the height of the first (side 0) or the last (side 1) stored one below a node. */
  end(node, side) {
    while (node.level > 0 && !this.isFlat(node)) {
      const coefficient = this.coefficient(node);
      node = this.half(node, coefficient, side) ?? this.half(node, coefficient, 1 - side);
    }
    return node.min;
  }
}

/** A Rows frame: the rows of a filtered view. */
export class Rows {
  constructor(fields, count, session) {
    this.session = session;
    this.w = fields.short(1, 4096);
    this.h = fields.short(1, 4096);
    this.lo = fields.signed(-MOST, MOST);
    this.hi = fields.signed(this.lo, MOST);
    fields.short(count, Math.min(count, this.w));
    this.rows = [];
    let column = -1;
    for (let n = 0; n < count; n += 1) {
      column = fields.short(column + 1, this.w - 1);
      const first = fields.signed(-MOST, MOST);
      const min = fields.signed(-MOST, first);
      const max = fields.signed(first, MOST);
      this.rows.push({ column, first, least: min, greatest: max, last: fields.signed(min, max) });
    }
  }

  draw() {
    const isSmall = [this.lo, this.hi, ...this.rows.flatMap((row) => [row.least, row.greatest])].every((value) => isWithin(SMALL, value));
    const of = isSmall ? Number : BigInt;
    const rows = this.rows.map(({ column, first, least, greatest, last }) => {
      return { column, first: of(first), least: of(least), greatest: of(greatest), last: of(last) };
    });
    return new Picture(this.w, this.h, this.lo, this.hi, rows, of);
  }
}
