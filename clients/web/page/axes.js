/** Ticks and grid lines. Lines are elements behind the canvases, so none of them touches a pixel of a chart. */
import { make } from "./dom.js";
import { floorOf } from "./numbers.js";
import { rowOf, valueTicks } from "./values.js";
import { timeTicks } from "./times.js";

const [VALUE_ROOM, TIME_ROOM] = [22, 80]; // pixels that a tick with its text wants
const MOST_VALUES = 9;
const [DIGIT, MARGIN] = [7, 5]; // pixels of a character of a tick's text, and of the margin beside the charts

/** The places of a pixel's edge and of its middle, in the screen's lengths. */
const edge = (pixel) => `${pixel / devicePixelRatio}px`;
const middle = (pixel) => edge(pixel + 0.5);

/** The column of a time of the window, as pictures of w columns have it. */
export const columnOf = (time, { t0, t1 }, w) => Number(floorOf((time - t0) * BigInt(w), t1 - t0));

/**
 * The round values of a panel's range, as texts beside the chart, and as lines where a grid is wanted; gives how many characters the longest
 * text has.
 */
export function drawValues({ labels, lines }, range, h, hasGrid) {
  const ticks = range ? valueTicks(range, Math.max(2, Math.min(MOST_VALUES, Math.floor(h / devicePixelRatio / VALUE_ROOM)))) : [];
  const placed = ticks.map(({ value, text }) => ({ pixel: h - 1 - rowOf(value, range, h), text }));
  put(labels, placed, ({ pixel, text }) => place(make("span", {}, text), "top", middle(pixel)));
  put(lines, hasGrid ? placed : [], ({ pixel }) => place(make("i", { class: "across" }), "top", edge(pixel)));
  return Math.max(0, ...placed.map(({ text }) => text.length));
}

/** The round times of a window, with their places on w columns. */
export function placedTimes(window, w, how) {
  const most = Math.max(2, Math.floor(w / devicePixelRatio / TIME_ROOM));
  return timeTicks(window.t0, window.t1, most, how).map(({ time, text }) => ({ pixel: columnOf(time, window, w), text }));
}

/** Makes the lines of round times; gives what puts them where they belong. */
export function makeTimeLines(lines, placed) {
  return making(lines, placed, ({ pixel }) => place(make("i", { class: "down" }), "left", edge(pixel)));
}

/** Makes the texts of round times below w columns; gives what puts them where they belong. One that would pass the margin ends there. */
export function makeTimes(labels, placed, w) {
  const isLast = ({ pixel, text }) => (pixel - w) / devicePixelRatio + (text.length * DIGIT) / 2 > MARGIN;
  return making(labels, placed, (tick) => place(make("span", { class: isLast(tick) ? "last" : null }, tick.text), "left", middle(tick.pixel)));
}

/** Puts an element for each tick into a parent, where they aren't there already. */
const put = (parent, placed, elementOf) => making(parent, placed, elementOf)();

/** Makes an element for each tick of a parent, where they aren't there already; gives what puts them there. */
function making(parent, placed, elementOf) {
  const key = `${devicePixelRatio} ${placed.map(({ pixel, text }) => `${pixel} ${text}`)}`;
  const isThere = () => parent.dataset.ticks === key;
  const elements = isThere() ? null : placed.map(elementOf);
  return () => {
    if (!isThere()) {
      parent.dataset.ticks = key;
      parent.replaceChildren(...(elements ?? placed.map(elementOf)));
    }
  };
}

function place(element, side, where) {
  element.style[side] = where;
  return element;
}
