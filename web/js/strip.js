/**
 * The strip of a pool of numbers: what is given out and what is free, to scale.
 * @module
 */

/** @typedef {{start: number, end: number}} Pool */

/** The most parts that a strip has. */
export const MOST_PARTS = 256;

/** The numbers that are in a pool, in order. @param {Pool} pool @param {number[]} numbers */
export const takenIn = ({ start, end }, numbers) => numbers.filter((one) => start <= one && one <= end).sort((one, other) => one - other);

/**
 * @typedef {object} Part of a strip
 * @property {number} first
 * @property {number} last
 * @property {number} taken how many of its numbers are given out
 */

/** The runs of taken and of free numbers. @param {Pool} pool @param {number[]} taken in order @returns {Part[]} */
function runsOf({ start, end }, taken) {
  const parts = [];
  let next = start;
  for (const number of taken) {
    const last = parts[parts.length - 1];
    if (number > next) parts.push({ first: next, last: number - 1, taken: 0 });
    if (number === next && last?.taken > 0) Object.assign(last, { last: number, taken: last.taken + 1 });
    else parts.push({ first: number, last: number, taken: 1 });
    next = number + 1;
  }
  if (next <= end) parts.push({ first: next, last: end, taken: 0 });
  return parts;
}

/** Parts of the same size, where the runs are too many to be drawn. @param {Pool} pool @param {number[]} taken @returns {Part[]} */
function piecesOf({ start, end }, taken) {
  const size = Math.ceil((end - start + 1) / MOST_PARTS);
  const count = Math.ceil((end - start + 1) / size);
  const parts = Array.from({ length: count }, (_, index) =>
    ({ first: start + index * size, last: Math.min(end, start + (index + 1) * size - 1), taken: 0 }));
  for (const number of taken) parts[Math.floor((number - start) / size)].taken += 1;
  return parts;
}

/** The parts of the strip of a pool. @param {Pool} pool @param {number[]} taken in order @returns {Part[]} */
export function partsOfPool(pool, taken) {
  const runs = runsOf(pool, taken);
  return runs.length <= MOST_PARTS ? runs : piecesOf(pool, taken);
}

/** The lowest number that is free; null if none is. @param {Pool} pool @param {number[]} taken in order */
export function lowestFree({ start, end }, taken) {
  const at = taken.findIndex((number, index) => number !== start + index);
  const lowest = start + (at < 0 ? taken.length : at);
  return lowest <= end ? lowest : null;
}

/** How a part is named. @param {Part} part */
export function partName({ first, last, taken }) {
  const size = last - first + 1;
  const place = size === 1 ? String(first) : `${first} – ${last}`;
  if (taken === 0) return `${place}, free`;
  return taken === size ? `${place}, given out` : `${place}, ${taken.toLocaleString("en")} of ${size.toLocaleString("en")} given out`;
}
