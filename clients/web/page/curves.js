/** What a panel draws: each of its series, or the sum of two, each times a factor; and the lines that ask for it. */
import { numberOf } from "../refusals.js";
import { MOST_FACTOR } from "./address.js";
import { sizeOf } from "./numbers.js";

const UNKNOWN_SERIES = numberOf("UnknownSeries");

/** Of a view or a sum what its line has in common: the canvas, the window and the range. */
const placed = ({ w, h }, { t0, t1 }, range) => `${w} ${h} ${t0} ${t1} ${range ? `${range.lo}..${range.hi}` : "auto"}`;

/** A series, or a part of it that a filter lets through. */
class Series {
  constructor(name, filter, catalog) {
    Object.assign(this, { name, filter, label: catalog.shown(name), scale: catalog.get(name)?.scale ?? 0 });
  }

  fault() {
    return null;
  }

  /** Why it was refused. */
  told(refused) {
    return refused.message;
  }

  line(session, size, window, range) {
    return `view ${session} ${this.name} ${placed(size, window, range)}${this.filter ? ` where ${this.filter}` : ""}`;
  }
}

/** The sum of two series, each times a whole number, in the decimals of the finer one. */
class Sum {
  constructor(names, factors, catalog) {
    const scales = names.map((name) => catalog.get(name)?.scale ?? 0);
    this.name = titleOf(names, factors);
    this.shown = names.map((name) => catalog.shown(name));
    this.label = titleOf(this.shown, factors);
    this.scale = Math.max(...scales);
    this.terms = names.map((name, at) => ({ name, factor: BigInt(factors[at]) * 10n ** BigInt(this.scale - scales[at]) }));
  }

  /** Why it can't be asked for, or null. */
  fault(catalog) {
    if (!catalog.hasSums) {
      return "this server answers no sums";
    }
    const isTooLarge = this.terms.some(({ factor }) => sizeOf(factor) > MOST_FACTOR);
    return isTooLarge ? `with ${this.scale} decimals a factor is more than 10^9` : null;
  }

  /** Why it was refused, where both series are listed. */
  told({ message, frame: { number } }) {
    return number === UNKNOWN_SERIES ? "the two series aren't of one store" : message;
  }

  line(session, size, window, range) {
    const [one, other] = this.terms;
    return `sum ${session} ${one.name} ${other.name} ${one.factor} ${other.factor} ${placed(size, window, range)}`;
  }
}

/** A sum as people write it, as inflow − 2 outflow. */
export function titleOf(names, factors) {
  const terms = names.map((name, at) => {
    const size = Math.abs(factors[at]);
    return `${factors[at] < 0 ? "−" : "+"} ${size === 1 ? "" : `${size} `}${name}`;
  });
  return terms.join(" ").replace(/^\+ /, "");
}

/** The curves of a panel, in the order of its series. */
export function curvesOf({ names, factors, filter }, catalog) {
  return factors ? [new Sum(names, factors, catalog)] : names.map((name) => new Series(name, filter, catalog));
}
