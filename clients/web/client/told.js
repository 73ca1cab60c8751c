/** What a server tells without a picture, by the rules of docs/FORMATS.md: its series, stored values, and sweeps. */
import { MOST, MOST_SLOTS } from "./fields.js";

const NAME_BYTES = 31;
const MOST_VALUES = 4096; // of a frame, and the slots from its first one to its last one

/** A catalog of so many series, behind its kind. */
export function readCatalog(fields, count) {
  const [total, used] = [fields.long(0, 2 ** 32 - 1), fields.long(0, 2 ** 32 - 1)];
  fields.short(count, count);
  return { total, used, series: Array.from({ length: count }, () => readListed(fields)) };
}

function readListed(fields) {
  const size = fields.byte(1, NAME_BYTES);
  const bytes = fields.bytes(NAME_BYTES);
  const name = String.fromCharCode(...bytes.subarray(0, size));
  fields.require(/^[A-Za-z0-9_.-]+$/.test(name) && bytes.subarray(size).every((byte) => byte === 0), NAME_BYTES);
  const scale = fields.byte(0, 9);
  const axis = readAxis(fields);
  return { name, scale, ...axis, span: readSpan(fields, axis.slots) };
}

/** The time of slot 0, the time from one slot to the next, and the number of slots. The last one stands no later than 2 * 10^18. */
export function readAxis(fields) {
  const start = fields.signed(-MOST, MOST);
  const step = fields.long(1, 2 ** 31);
  const slots = fields.unsigned(MOST_SLOTS);
  fields.require(slots === 0 || BigInt(start) + BigInt(slots - 1) * BigInt(step) <= 2 * MOST, 8);
  return { start, step, slots };
}

/** The least and the greatest stored value, or null where there is none. */
function readSpan(fields, slots) {
  const size = MOST * fields.byte(0, slots > 0 ? 1 : 0);
  const least = fields.signed(-size, size);
  const greatest = fields.signed(least, size);
  return size > 0 ? { least, greatest } : null;
}

/** Stored values of which the runs and the values take so many times eight bytes, behind their kind. */
export function readValues(fields, count) {
  const series = fields.short(0, 511);
  const more = fields.byte(0, 1);
  const time = fields.signed(-2 * MOST * more, 2 * MOST * more);
  const runs = fields.short(0, 2 ** 16 - 1);
  const left = fields.short(0, 2 ** 16 - 1);
  fields.require(2 * runs + left === count && runs <= left && left <= MOST_VALUES && (runs > 0 || left === 0), 2);
  const slots = readRuns(fields, runs, left);
  return {
    series,
    next: more ? time : null,
    runs: slots.map(([first, many]) => ({ first, values: Array.from({ length: many }, () => fields.signed(-MOST, MOST)) })),
  };
}

/** The first slot of each run, and how many it has; they don't touch, and have so many values together. */
function readRuns(fields, runs, left) {
  const read = [];
  let [from, limit] = [0, MOST_SLOTS];
  for (let behind = runs - 1; behind >= 0; behind -= 1) {
    const first = fields.unsigned(limit - 1);
    fields.require(first >= from, 8);
    const many = fields.unsigned(2n ** 64n);
    fields.require(many >= 1 && (behind > 0 ? many < left : many === left) && first + many <= limit, 8);
    read.push([first, many]);
    [from, limit, left] = [first + many + 1, Math.min(limit, first + MOST_VALUES), left - many];
  }
  return read;
}

/** What a sweep did, behind its kind. */
export function readSwept(fields) {
  return { clears: fields.short(0, 64), used: fields.long(0, 2 ** 32 - 1), more: fields.byte(0, 1) === 1 };
}
