/**
 * What is shown stands in the address, so that a link shows the same:
 *
 *     ?panel=NAME NAME ..&filter=TEXT&range=LO..HI&height=PIXELS&sum=A NAME B NAME&range=..&from=T0&to=T1&last=LENGTH&unit=UNIT&zone=utc&grid=off
 *
 * `panel` is a panel of series, and `sum` one of the sum of two, each times a whole number. A filter, a range and a height belong to the
 * panel before them; a sum has no filter. Without `from` and `to` the window is the last LENGTH of times, or without `last` all of them;
 * with all three it was at the last ones, and somebody looks back.
 */
import { wholeNumber } from "./numbers.js";

export const MOST_PANELS = 8;
export const MOST_SERIES = 4;
export const LEAST_HEIGHT = 80;
export const MOST_FACTOR = 10 ** 9;

const NAME = "[A-Za-z0-9_.-]{1,31}";
const [NAMED, SUM] = [new RegExp(`^${NAME}$`), new RegExp(`^(\\S+) (${NAME}) (\\S+) (${NAME})$`)];

const names = (text) => [...new Set(text.split(/[\s+]+/).filter((name) => NAMED.test(name)))].slice(0, MOST_SERIES);

/** A panel of some series; or of the sum of two of them, where it has a factor for each. */
export const newPanel = (names, more = {}) => ({ names, factors: null, filter: "", range: "", height: 0, ...more });

/** The factor that a text spells, a whole number of at most 10^9 in size; else null. */
export function factorOf(text) {
  const found = /^([-−]?)([0-9]{1,10})$/.exec(text.trim());
  const size = Number(found?.[2] ?? Infinity);
  return size <= MOST_FACTOR ? (found[1] ? 0 - size : size) : null;
}

/** The panel of a sum that a text names, or null. */
function sumOf(text) {
  const [, one, first, other, second] = SUM.exec(text) ?? [];
  const factors = [one, other].map((factor) => factorOf(factor ?? ""));
  return factors.includes(null) ? null : newPanel([first, second], { factors });
}

function readPanels(words) {
  const panels = [];
  for (const [key, value] of words) {
    const panel = key === "sum" ? sumOf(value) : key === "panel" && names(value).length > 0 ? newPanel(names(value)) : null;
    if (panel && panels.length < MOST_PANELS) {
      panels.push(panel);
    } else if (panels.length > 0 && (key === "range" || (key === "filter" && !panels.at(-1).factors))) {
      panels.at(-1)[key] = value.replace(/[\r\n]/g, " "); // so that it stays within a request line
    } else if (panels.length > 0 && key === "height" && /^[0-9]{2,4}$/.test(value)) {
      panels.at(-1).height = Math.max(LEAST_HEIGHT, Number(value));
    }
  }
  return panels;
}

/** What an address asks for. */
export function readAddress(query) {
  const words = new URLSearchParams(query);
  const [t0, t1, last] = ["from", "to", "last"].map((name) => wholeNumber(words.get(name)));
  const hasWindow = t0 !== null && t1 !== null && t0 < t1;
  const one = (name, values) => (values.includes(words.get(name)) ? words.get(name) : "");
  return {
    panels: readPanels(words),
    t0: hasWindow ? t0 : null,
    t1: hasWindow ? t1 : null,
    last: last !== null && last > 0n ? last : null,
    unit: one("unit", ["numbers", "seconds", "milliseconds"]),
    zone: one("zone", ["utc"]),
    grid: one("grid", ["off"]),
  };
}

/** The address of what is asked for. */
export function spellAddress({ panels, t0, t1, last, unit, zone, grid }) {
  const words = new URLSearchParams();
  const put = (name, value) => value !== null && value !== "" && value !== 0 && words.append(name, String(value));
  for (const panel of panels) {
    const [one, other] = panel.factors ?? [];
    put(panel.factors ? "sum" : "panel", panel.factors ? `${one} ${panel.names[0]} ${other} ${panel.names[1]}` : panel.names.join(" "));
    ["filter", "range", "height"].forEach((name) => put(name, panel[name]));
  }
  Object.entries({ from: t0, to: t1, last, unit, zone, grid }).forEach(([name, value]) => put(name, value));
  return `?${words}`;
}
