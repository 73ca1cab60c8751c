/** Values as people read them: whole numbers with the decimals of their series, and the round ones of an axis. */
import { floorOf, roundNumbers } from "./numbers.js";

/** A whole number as a decimal one of so many decimals. */
export function decimal(value, scale) {
  const number = BigInt(value);
  const digits = String(number < 0n ? -number : number).padStart(scale + 1, "0");
  const front = digits.slice(0, digits.length - scale);
  return `${number < 0n ? "−" : ""}${front}${scale ? `.${digits.slice(-scale)}` : ""}`;
}

/** The whole number of a decimal text, or null where it has more decimals, or is none. */
export function wholeOf(text, scale) {
  const found = /^([-−]?)([0-9]{1,19})(?:\.([0-9]*))?$/.exec(text.trim());
  if (!found || (found[3] ?? "").length > scale) {
    return null;
  }
  const size = BigInt(found[2] + (found[3] ?? "").padEnd(scale, "0"));
  return found[1] ? -size : size;
}

/** The two values that a text as -5..15.5 names, or null; the first may not be above the second. */
export function rangeOf(text, scale) {
  const ends = text.split("..").map((end) => wholeOf(end, scale));
  return ends.length === 2 && !ends.includes(null) && ends[0] <= ends[1] ? { lo: ends[0], hi: ends[1] } : null;
}

const power = (scale) => 10n ** BigInt(scale);

/**
 * The range that holds those of several series, in units of the finest of their scales; its ends are whole numbers of the coarsest one,
 * so that each series has them as whole numbers of its own.
 */
export function sharedRange(ranges, scales) {
  const scale = Math.max(...scales);
  const coarse = power(scale - Math.min(...scales));
  let [lo, hi] = [null, null];
  for (const range of ranges) {
    const unit = power(scale - range.scale);
    const [first, last] = [BigInt(range.lo) * unit, BigInt(range.hi) * unit];
    lo = lo === null || first < lo ? first : lo;
    hi = hi === null || last > hi ? last : hi;
  }
  return { lo: floorOf(lo, coarse) * coarse, hi: -floorOf(-hi, coarse) * coarse, scale };
}

/** A range in units of one scale, in those of another one: exact, where it comes of `sharedRange`. */
export function rescaled({ lo, hi, scale }, to) {
  const [up, down] = to > scale ? [power(to - scale), 1n] : [1n, power(scale - to)];
  return { lo: (lo * up) / down, hi: (hi * up) / down, scale: to };
}

/** The row of a value from the bottom, as the picture of h rows has it. */
export function rowOf(value, { lo, hi }, h) {
  return lo < hi ? Number(floorOf((value - lo) * BigInt(h - 1), hi - lo)) : 0;
}

/** The round values of a range, at most so many, with their texts. */
export function valueTicks({ lo, hi, scale }, most) {
  return roundNumbers(lo, hi, most).map((value) => ({ value, text: decimal(value, scale) }));
}
