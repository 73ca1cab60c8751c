/**
 * Times as people read them. A time is a whole number; its unit says what it counts: `seconds` or `milliseconds` since 1970, which are
 * written as dates in the viewer's zone or in UTC, or `numbers`, which are written as they are.
 */
import { roundNumbers, sizeOf, wholeNumber } from "./numbers.js";

const [SECOND, MINUTE, HOUR, DAY] = [1000, 60000, 3600000, 86400000];
const MONTHS = ["Jan", "Feb", "Mar", "Apr", "May", "Jun", "Jul", "Aug", "Sep", "Oct", "Nov", "Dec"];
// A date, and perhaps a time of day, to the minute, the second or its parts.
const DATE = /^(\d{1,6})-(\d{1,2})-(\d{1,2})(?:[ T](\d{1,2}):(\d{2})(?::(\d{2})(?:\.(\d{1,3}))?)?)?(?: ?UTC)?$/;
const LATEST = 8640000000000000; // milliseconds that a date has room for
const MONDAY = 4 * DAY; // the first Monday of 1970
const STEPS = [
  ...[1, 2, 5, 10, 20, 50, 100, 200, 500],
  ...[1, 2, 5, 10, 15, 30].map((count) => count * SECOND),
  ...[1, 2, 5, 10, 15, 30].map((count) => count * MINUTE),
  ...[1, 2, 3, 6, 12].map((count) => count * HOUR),
  ...[1, 2, 7].map((count) => count * DAY),
];
const STEPS_OF_MONTHS = [1, 3, 6, ...[1, 2, 5, 10, 20, 50, 100, 200, 500, 1000, 2000, 5000, 10000, 100000].map((years) => 12 * years)];

const millisecondsIn = (unit) => (unit === "seconds" ? 1000 : 1);
const toDate = (time, unit) => Number(time) * millisecondsIn(unit);
const two = (number) => String(number).padStart(2, "0");

/** Which unit the times of a series seem to have, by how far from 0 they reach: from 1973 to 5138 or so they are dates. */
export function guessUnit({ start, slots, step }) {
  const end = start + BigInt(slots) * BigInt(step);
  const size = sizeOf(start) > sizeOf(end) ? sizeOf(start) : sizeOf(end);
  if (size < 10n ** 8n || size >= 10n ** 14n) {
    return "numbers";
  }
  return size < 10n ** 11n ? "seconds" : "milliseconds";
}

/** Whether a time is written as a date. */
const isDate = (time, unit) => unit !== "numbers" && Math.abs(toDate(time, unit)) <= LATEST;

/** What a clock shows at a moment, as milliseconds from what it would show at the beginning of 1970. */
const clock = (moment, zone) => (zone === "utc" ? moment : moment - new Date(moment).getTimezoneOffset() * MINUTE);

/** The moment at which a clock shows this. */
function momentOf(shown, zone) {
  if (zone === "utc") {
    return shown;
  }
  const near = shown + new Date(shown).getTimezoneOffset() * MINUTE;
  return shown + new Date(near).getTimezoneOffset() * MINUTE;
}

/** A time in full: its date and its time of day, or the number. */
export function spelled(time, { unit, zone }) {
  if (!isDate(time, unit)) {
    return String(time);
  }
  const date = new Date(clock(toDate(time, unit), zone));
  const text = date.toISOString().replace("T", " ").replace(/(\.000)?Z$/, "");
  return zone === "utc" ? `${text} UTC` : text;
}

/** The time that a text names, as `spelled` writes it or shorter, or as a number; null where it is none. */
export function timeOf(text, { unit, zone }) {
  const number = wholeNumber(text.trim());
  const found = DATE.exec(text.trim());
  if (number !== null || !found || unit === "numbers") {
    return number;
  }
  const [year, month, day, hour, minute, second] = found.slice(1, 7).map((part) => Number(part ?? 0));
  const ofDay = hour * HOUR + minute * MINUTE + second * SECOND + Number((found[7] ?? "").padEnd(3, "0"));
  const moment = momentOf(new Date(0).setUTCFullYear(year, month - 1, day) + ofDay, zone);
  return Number.isNaN(moment) ? null : BigInt(Math.floor(moment / millisecondsIn(unit)));
}

/** A length of time in words. */
export function lengthInWords(length, unit) {
  if (unit === "numbers") {
    return `${length}`;
  }
  const parts = [["year", 31557600], ["day", 86400], ["hour", 3600], ["minute", 60], ["second", 1]];
  const seconds = Number(length) / (unit === "seconds" ? 1 : 1000);
  const [name, size] = parts.find(([, size]) => seconds >= size) ?? ["second", 1];
  const count = Math.round((seconds / size) * 10) / 10;
  return `${count.toLocaleString("en")} ${name}${count === 1 ? "" : "s"}`;
}

/** The text of a tick, by the step from one to the next. */
function tickText(shown, step) {
  const date = new Date(shown);
  const [year, month, day] = [date.getUTCFullYear(), MONTHS[date.getUTCMonth()], date.getUTCDate()];
  const rest = ((shown % DAY) + DAY) % DAY;
  if (step >= DAY || rest === 0) {
    return date.getUTCMonth() === 0 && day === 1 ? `${year}` : `${day} ${month}`;
  }
  const seconds = step < MINUTE ? `:${two(date.getUTCSeconds())}` : "";
  const parts = step < SECOND ? `.${String(date.getUTCMilliseconds()).padStart(3, "0")}` : "";
  return `${two(date.getUTCHours())}:${two(date.getUTCMinutes())}${seconds}${parts}`;
}

/** What the clock shows at the round times of a window, by a step of days or less. */
function roundTimes(first, last, step) {
  const front = step === 7 * DAY ? MONDAY : 0;
  const found = [];
  for (let at = Math.ceil((first - front) / step) * step + front; at <= last; at += step) {
    found.push({ shown: at, text: tickText(at, step) });
  }
  return found;
}

/** The same by a step of months. */
function roundMonths(first, last, step) {
  const monthOf = (shown) => 12 * new Date(shown).getUTCFullYear() + new Date(shown).getUTCMonth();
  const found = [];
  for (let at = Math.floor(monthOf(first) / step) * step; at <= monthOf(last); at += step) {
    const [year, month] = [Math.floor(at / 12), ((at % 12) + 12) % 12];
    const shown = new Date(0).setUTCFullYear(year, month, 1);
    if (shown >= first && shown <= last) {
      found.push({ shown, text: month === 0 ? `${year}` : MONTHS[month] });
    }
  }
  return found;
}

/** The round times of a window of dates. */
function dateTicks(t0, t1, most, { unit, zone }) {
  const [first, last] = [clock(toDate(t0, unit), zone), clock(toDate(t1, unit), zone)];
  const step = STEPS.find((size) => (last - first) / size < most);
  const months = STEPS_OF_MONTHS.find((count) => (last - first) / (count * 30.4 * DAY) < most) ?? STEPS_OF_MONTHS.at(-1);
  const found = step ? roundTimes(first, last, step) : roundMonths(first, last, months);
  return found.map(({ shown, text }) => ({ time: BigInt(Math.ceil(momentOf(shown, zone) / millisecondsIn(unit))), text }));
}

/** The round times of a window from t0 to below t1, at most so many or one more, with their texts. */
export function timeTicks(t0, t1, most, how) {
  const areDates = isDate(t0, how.unit) && isDate(t1, how.unit);
  const found = areDates ? dateTicks(t0, t1, most, how) : roundNumbers(t0, t1 - 1n, most).map((time) => ({ time, text: `${time}` }));
  return found.filter(({ time }) => t0 <= time && time < t1);
}

/** The lengths of windows that stay at the end, for a unit: texts with whole numbers. */
export function usualLengths(unit) {
  if (unit === "numbers") {
    return [100n, 1000n, 10000n, 100000n].map((length) => [length, `the last ${length}`]);
  }
  const second = unit === "seconds" ? 1n : 1000n;
  const lengths = [60n, 600n, 3600n, 21600n, 86400n, 604800n, 2592000n, 31557600n];
  const texts = ["minute", "10 minutes", "hour", "6 hours", "day", "week", "30 days", "year"];
  return lengths.map((length, at) => [length * second, `the last ${texts[at]}`]);
}
