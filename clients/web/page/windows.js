/** The window of times that all panels have in common, and how it moves. */
import { floorOf, greatest, least, nextMultiple } from "./numbers.js";

const FARTHEST = 2n * 10n ** 18n; // the greatest size of an end of a window
const COLUMNS_ROUND = 8n; // a window that follows has whole columns where it has so many times more times than columns

/** A share of a length, to its 4,096th. */
const shareOf = (length, share) => (length * BigInt(Math.round(share * 4096))) / 4096n;

/** Where some series begin and end; null where there is none. */
export function extentsOf(series) {
  let found = null;
  for (const { start, step, slots } of series) {
    const end = start + greatest(BigInt(slots), 1n) * BigInt(step);
    found = found ? { t0: least(found.t0, start), t1: greatest(found.t1, end) } : { t0: start, t1: end };
  }
  return found;
}

/** A window within what a request may name. */
export function within({ t0, t1 }) {
  const first = greatest(-FARTHEST, least(t0, FARTHEST - 1n));
  return { t0: first, t1: least(FARTHEST, greatest(t1, first + 1n)) };
}

/**
 * The last so many times before an end. Where a column has many times its ends are multiples of a column's length, so that the columns
 * keep their values while the window moves on.
 */
function lastOf(length, end, w) {
  const columns = BigInt(w);
  if (length < COLUMNS_ROUND * columns) {
    return { t0: end - length, t1: end };
  }
  const column = -floorOf(-length, columns);
  const t1 = nextMultiple(end, column);
  return { t0: t1 - column * columns, t1 };
}

/** The window that is asked for, over these series and on w columns; null where there is none. */
export function windowOf({ t0, t1, last }, series, w) {
  const all = extentsOf(series);
  if (t0 !== null) {
    return within({ t0, t1 });
  }
  return all && within(last === null ? all : lastOf(last, all.t1, w));
}

/** Whether the window stays at the end. */
export const isFollowing = ({ t0, last }) => last !== null && t0 === null;

/** The window made this many times as long, with the time at a share of its width staying there. */
export function zoomed({ t0, t1 }, factor, share = 0.5) {
  const length = t1 - t0;
  const longer = greatest(factor > 1 ? length + 1n : 1n, shareOf(length, factor));
  const first = t0 + shareOf(length - longer, share);
  return within({ t0: first, t1: first + longer });
}

/** The window moved by a share of its length. */
export function panned({ t0, t1 }, share) {
  const by = greatest(1n, shareOf(t1 - t0, Math.abs(share))) * (share < 0 ? -1n : 1n);
  return within({ t0: t0 + by, t1: t1 + by });
}

/** The first time of a column of w, and the first one behind it. */
export function timesOf({ t0, t1 }, column, w) {
  const first = (at) => t0 - floorOf((t0 - t1) * BigInt(at), BigInt(w));
  return { from: first(column), to: first(column + 1) };
}
