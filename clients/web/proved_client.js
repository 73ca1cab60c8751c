/**
 * The proved client, which stands in a module for WebAssembly: bytes of frames in, pictures out, by the calls of `Client` in
 * chart_client.js.
 *
 *     const module = await WebAssembly.compile(bytes);        // of chart_client.wasm, which clients/native/build makes
 *     const client = new ProvedClient(module);
 *     for (const { frame, picture } of client.push(bytes)) { .. }
 *     client.end();
 *
 * This text isn't proved. It hands bytes to the module and takes numbers and bits from it; what it has to keep to stands in
 * crates/client_exports/src/lib.rt. What can't be drawn is thrown as a `Stopped`, and so is a module that traps or runs out of
 * memory; a client that has thrown one takes nothing more, and another one has a memory of its own.
 */
import { Stopped, refusalOf } from "./chart_client.js";

const KINDS = ["", "done", "refused", "opened", "closed", "view", "rows", "live", "catalog", "values", "swept"];
const [MORE, FRAME, BAD, MISSING, MISFIT, UNKNOWN, MEMORY] = Array.from({ length: 7 }, (_, code) => code);
const HANDLE = 8; // bytes
const ANSWER = 96;
const [LOW, HIGH] = [64, 72]; // where the least and the greatest value stand in an answer
const LEAST_ROOM = 65536;

/** A number where it is exact, as in chart_client.js. */
const whole = (big) => (-(2n ** 53n) < big && big < 2n ** 53n ? Number(big) : big);

/** A picture of w by h pixels: the bytes of a PBM, of which the rows begin at `front`. Of a cover no values are known. */
export class BitPicture {
  constructor(w, h, lo, hi, bytes, values = new Map()) {
    Object.assign(this, { w, h, lo, hi, bytes, values });
    this.size = Math.ceil(w / 8);
    this.front = bytes.length - h * this.size;
  }

  isBlank() {
    return this.bytes.subarray(this.front).every((byte) => byte === 0);
  }

  /** Puts one of two colours in the place of each pixel: 32 pixels of a row at once, and what is left of it eight. */
  colour(colours, ink, paper) {
    const { bytes, size, w, h } = this;
    const words = new DataView(bytes.buffer, bytes.byteOffset);
    colours.fill(paper);
    for (let y = 0, at = this.front; y < h; y += 1) {
      let first = y * w;
      for (const end = at + size - 3; at < end; at += 4, first += 32) {
        for (let bits = words.getInt32(at); bits !== 0; ) {
          const place = Math.clz32(bits);
          colours[first + place] = ink;
          bits ^= 1 << (31 - place);
        }
      }
      for (const end = (y + 1) * size + this.front; at < end; at += 1, first += 8) {
        for (let bits = bytes[at]; bits > 0; ) {
          const place = Math.clz32(bits) - 24;
          colours[first + place] = ink;
          bits -= 128 >> place;
        }
      }
    }
  }

  toPbm() {
    return this.bytes;
  }

  /** The least and the greatest value of a column, from 0 at the left; null where it has none. */
  column(x) {
    const [least, greatest] = this.values.get(x) ?? [];
    return least === undefined ? null : { least: whole(least), greatest: whole(greatest) };
  }
}

/** The values of columns from 0 on, as the module tells them: an answer for each. They are read where they are asked for. */
class ColumnValues {
  constructor(bytes) {
    this.answers = new DataView(bytes.buffer);
  }

  get(x) {
    const at = ANSWER * x;
    if (!(at >= 0 && at < this.answers.byteLength) || this.answers.getUint32(at, true) !== FRAME) {
      return undefined;
    }
    return [this.answers.getBigInt64(at + LOW, true), this.answers.getBigInt64(at + HIGH, true)];
  }
}

export class ProvedClient {
  constructor(module) {
    this.calls = new WebAssembly.Instance(module, {}).exports;
    this.sized = 0;
    this.handle = this.room(HANDLE + ANSWER);
    this.answer = this.handle + HANDLE;
    this.bytes(this.handle, HANDLE + ANSWER).fill(0);
    this.require(this.call("chart_open"));
  }

  /** Takes more bytes, and gives each whole frame among them with its picture, null where it has none. */
  *push(bytes) {
    this.feed(bytes);
    for (let frame = this.next(); frame; frame = this.next()) {
      yield { frame, picture: this.draw(frame) };
    }
  }

  feed(bytes) {
    this.require(this.call("chart_feed", this.write(bytes), BigInt(bytes.length)));
  }

  /** The next frame, or null where more bytes are needed. */
  next() {
    const told = this.ask("chart_next");
    this.pending = told.code === MORE ? told.a : 0;
    return told.code === MORE ? null : frameOf(told);
  }

  draw({ w, h, lo, hi }) {
    const { size } = this.ask("chart_draw");
    return size === 0 ? null : new BitPicture(w, h, lo, hi, this.picture(size), this.values(w));
  }

  /** The least and the greatest value of each column of the picture drawn last that has any. */
  values(w) {
    const size = ANSWER * w;
    const at = this.buffer(size);
    this.require(this.call("chart_columns", BigInt(at), BigInt(w)));
    return new ColumnValues(this.bytes(at, size).slice());
  }

  /** The cover of the view that `next` gave and that isn't drawn yet, after so many of its coefficients. */
  cover({ w, h, lo, hi }, count) {
    const { size } = this.ask("chart_cover", count);
    return new BitPicture(w, h, lo, hi, this.picture(size));
  }

  picture(size) {
    const at = this.buffer(size);
    this.require(this.call("chart_picture", BigInt(at), BigInt(size)));
    return this.bytes(at, size).slice();
  }

  /** Says that the stream has ended; within a frame that is an error. */
  end() {
    this.next();
    if (this.pending > 0) {
      throw new Stopped(`the stream ends within a frame, ${this.pending} bytes behind its first`);
    }
  }

  /** Gives the stream's memory back to the module. */
  close() {
    this.call("chart_close");
  }

  /** What a call answers; where that is why nothing can be drawn, it is thrown. */
  ask(name, ...words) {
    this.call(name, ...words, BigInt(this.answer));
    const view = new DataView(this.calls.memory.buffer, this.answer, ANSWER);
    const [code, kind, session, number, w, h, step, count] = Array.from({ length: 8 }, (_, at) => view.getUint32(4 * at, true));
    const [a, b] = [32, 40].map((at) => whole(view.getBigUint64(at, true)));
    const [t0, t1, lo, hi, start] = [48, 56, 64, 72, 80].map((at) => whole(view.getBigInt64(at, true)));
    const size = Number(view.getBigUint64(88, true));
    if (code > FRAME) {
      throw new Stopped(causeOf({ code, session, number, a }));
    }
    return { code, kind, session, number, w, h, step, count, a, b, t0, t1, lo, hi, start, size };
  }

  /** Calls the module with the handle. One that fails has to be given up. */
  call(name, ...words) {
    return guarded(() => this.calls[name](BigInt(this.handle), ...words));
  }

  require(holds) {
    if (!holds) {
      throw new Stopped("out of memory");
    }
  }

  bytes(at, size) {
    return new Uint8Array(this.calls.memory.buffer, at, size);
  }

  room(size) {
    const at = Number(this.calls.host_alloc(BigInt(size)));
    this.require(at);
    return at;
  }

  /** Room for so many bytes, which stays until more is asked for. */
  buffer(size) {
    if (size > this.sized) {
      if (this.sized > 0) {
        this.calls.host_free(BigInt(this.place));
      }
      this.sized = 0;
      this.place = this.room(Math.max(size, LEAST_ROOM));
      this.sized = Math.max(size, LEAST_ROOM);
    }
    return this.place;
  }

  write(bytes) {
    const at = this.buffer(Math.max(1, bytes.length));
    this.bytes(at, bytes.length).set(bytes);
    return BigInt(at);
  }
}

/** What calls of the module give; a trap of theirs is thrown as a `Stopped`. */
function guarded(calls) {
  try {
    return calls();
  } catch (error) {
    throw new Stopped(`the client's module fails: ${error.message}`);
  }
}

function causeOf({ code, session, number, a }) {
  const causes = new Map([
    [BAD, `the field at byte ${a} breaks its rule`],
    [MISSING, `the coefficient of level ${number}, index ${a} is missing`],
    [MISFIT, "a coefficient doesn't fit"],
    [UNKNOWN, `session ${session} isn't open`],
    [MEMORY, "out of memory"],
  ]);
  return causes.get(code) ?? "the client is closed";
}

/** The frame that an answer tells, as an object with its `kind`, with the names of chart_client.js. */
function frameOf({ kind, session, number, w, h, step, count, a, b, t0, t1, lo, hi, start }) {
  const fields = [
    {},
    { slots: a },
    kind === 2 ? refusalOf(number, a, b) : {},
    { session, cache: a },
    { session },
    { session, series: number, w, h, t0, t1, lo, hi, start, step, slots: a, count },
    { session, w, h, lo, hi, count },
    { session, on: a === 1 },
    { total: a, used: b },
    { series: number, next: a === 1 ? t0 : null },
    { clears: number, used: a, more: b === 1 },
  ];
  return { kind: KINDS[kind], ...fields[kind] };
}
