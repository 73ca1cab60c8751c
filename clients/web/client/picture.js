/** Pictures of rows: which pixels are black, by the rules of docs/FORMATS.md. Sums are done in numbers where all that they meet is exact. */

export const SMALL = 2 ** 39; // two values of this size, their difference times a height or a width: still exact as numbers

/** The quotient by a positive divisor, rounded towards minus infinity, of two BigInts or of two numbers below 2^53. */
export function divided(a, b) {
  if (typeof a === "number") {
    return Math.floor(a / b);
  }
  const quotient = a / b;
  return a < 0n && quotient * b !== a ? quotient - 1n : quotient;
}

export const least = (a, b) => (a < b ? a : b);
export const greatest = (a, b) => (a > b ? a : b);
export const isWithin = (size, number) => -size <= number && number <= size;

/** The row of a value, from the bottom, over the range lo to hi on h rows, all `of` one kind; it may lie off the canvas. */
export const heightOf = (value, lo, hi, h, of) => (lo < hi ? divided((value - lo) * of(h - 1), hi - lo) : of(0));

/** A canvas of w by h pixels, a byte each, 1 where it is black; rows count from the top. Its values are all `of` one kind. */
export class Picture {
  constructor(w, h, lo, hi, rows, of) {
    Object.assign(this, { w, h, lo: of(lo), hi: of(hi), of });
    this.pixels = new Uint8Array(w * h);
    this.rows = new Map();
    let before = null;
    for (const row of rows) {
      this.rows.set(row.column, row);
      this.fill(row.column, this.height(row.least), this.height(row.greatest));
      if (before) {
        this.join(before.column, this.height(before.last), row.column, this.height(row.first));
      }
      before = row;
    }
  }

  isBlank() {
    return !this.pixels.includes(1);
  }

  /** The least and the greatest value that a column shows, of the kind of lo and hi; null where it shows none. */
  column(x) {
    const row = this.rows.get(x);
    return row ? { least: row.least, greatest: row.greatest } : null;
  }

  /** Puts one of two colours in the place of each pixel. */
  colour(colours, ink, paper) {
    for (let at = 0; at < colours.length; at += 1) {
      colours[at] = this.pixels[at] ? ink : paper;
    }
  }

  height(value) {
    return heightOf(value, this.lo, this.hi, this.h, this.of);
  }

  /** Blackens what the canvas has of a column between two rows. */
  fill(x, y1, y2) {
    const low = Number(greatest(least(y1, y2), 0));
    const high = Number(least(greatest(y1, y2), this.h - 1));
    const end = (this.h - 1 - low) * this.w + x;
    for (let at = (this.h - 1 - high) * this.w + x; at <= end; at += this.w) {
      this.pixels[at] = 1;
    }
  }

  /** The segment between two points. Of a steep one, column n has those rows for which the rule gives n. */
  join(x1, y1, x2, y2) {
    const of = isWithin(SMALL / 2, y1) && isWithin(SMALL / 2, y2) ? Number : BigInt;
    const [from, dx, one, two] = [of(y1), of(x2 - x1), of(1), of(2)];
    const dy = of(greatest(y1, y2)) - of(least(y1, y2));
    const way = y1 <= y2 ? one : -one;
    let end = -one;
    for (let n = of(0); n <= dx; n += one) {
      let begin = end + one;
      if (dx >= dy) {
        begin = end = divided(two * n * dy + dx, two * dx);
      } else {
        end = least(divided((two * n + one) * dy - one, two * dx), dy);
      }
      this.fill(x1 + Number(n), from + way * begin, from + way * end);
    }
  }

  /** The bytes of the picture as a raw PBM. */
  toPbm() {
    const head = new TextEncoder().encode(`P4\n${this.w} ${this.h}\n`);
    const size = Math.ceil(this.w / 8);
    const bytes = new Uint8Array(head.length + this.h * size);
    bytes.set(head);
    for (let y = 0; y < this.h; y += 1) {
      for (let x = 0; x < this.w; x += 1) {
        if (this.pixels[y * this.w + x]) {
          bytes[head.length + y * size + (x >> 3)] |= 128 >> (x & 7);
        }
      }
    }
    return bytes;
  }
}
