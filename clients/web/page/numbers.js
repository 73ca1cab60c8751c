/** Whole numbers of any size: small helpers over BigInts. */

export const least = (a, b) => (a < b ? a : b);
export const greatest = (a, b) => (a > b ? a : b);
export const sizeOf = (a) => (a < 0n ? -a : a);

/** The quotient by a positive divisor, rounded towards minus infinity. */
export function floorOf(a, b) {
  const quotient = a / b;
  return a < 0n && quotient * b !== a ? quotient - 1n : quotient;
}

/** The least multiple of a positive step that isn't below a number. */
export const nextMultiple = (a, step) => -floorOf(-a, step) * step;

/** The largest multiples of a step are round where it is 1, 2 or 5 times a power of ten: the least such step that gives at most so many. */
export function roundStep(length, most) {
  for (let power = 1n; ; power *= 10n) {
    for (const digit of [1n, 2n, 5n]) {
      if (length / (digit * power) < BigInt(most)) {
        return digit * power;
      }
    }
  }
}

/** The round numbers from one number to another, the last one included, at most so many. */
export function roundNumbers(first, last, most) {
  const step = roundStep(last - first, most);
  const found = [];
  for (let at = nextMultiple(first, step); at <= last; at += step) {
    found.push(at);
  }
  return found;
}

/** The whole number that a text spells in decimal, or null; of the size that a request may name. */
export function wholeNumber(text) {
  return /^(0|-?[1-9][0-9]{0,18})$/.test(text ?? "") ? BigInt(text) : null;
}
