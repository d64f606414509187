/**
 * Addresses and blocks of IPv4 and IPv6 as whole numbers. The texts are those of the register: canonical ones are written (RFC 5952
 * without a dotted tail), and every text that RFC 4291 2.2 allows is read.
 * @module
 */

/** @typedef {{family: 4|6, number: bigint}} Address */
/** @typedef {{family: 4|6, number: bigint, length: number}} Block */

/** How many bits an address of the family has. @param {4|6} family */
export const width = (family) => (family === 4 ? 32 : 128);

/** Reads four decimal numbers without leading zeros. @param {string} text @returns {?bigint} */
function readQuad(text) {
  const parts = text.split(".");
  if (parts.length !== 4 || !parts.every((part) => /^(0|[1-9][0-9]{0,2})$/.test(part) && Number(part) < 256)) return null;
  return parts.reduce((number, part) => number * 256n + BigInt(part), 0n);
}

/** Reads groups of hexadecimal digits, the last two perhaps as a dotted quad. @param {string} text @returns {?string[]} */
function readGroups(text) {
  if (text === "") return [];
  const groups = text.split(":");
  const last = groups[groups.length - 1];
  if (last.includes(".")) {
    const quad = readQuad(last);
    if (quad === null) return null;
    groups.splice(-1, 1, (quad >> 16n).toString(16), (quad & 0xffffn).toString(16));
  }
  return groups.every((group) => /^[0-9a-f]{1,4}$/i.test(group)) ? groups : null;
}

/** @param {string} text @returns {?bigint} */
function readColons(text) {
  const halves = text.split("::");
  if (halves.length > 2 || (halves.length === 2 && halves[0].includes("."))) return null;
  const sides = halves.map(readGroups);
  if (sides.includes(null)) return null;
  const written = sides.reduce((sum, side) => sum + side.length, 0);
  if (halves.length === 1 ? written !== 8 : written > 7) return null;
  const zeros = Array(8 - written).fill("0");
  const groups = halves.length === 1 ? sides[0] : [...sides[0], ...zeros, ...sides[1]];
  return groups.reduce((number, group) => number * 65536n + BigInt("0x" + group), 0n);
}

/** Reads an address without a mask; null if the text is none. @param {string} text @returns {?Address} */
export function readAddress(text) {
  const family = text.includes(":") ? 6 : 4;
  const number = family === 6 ? readColons(text) : readQuad(text);
  return number === null ? null : { family, number };
}

/** Reads an address with its mask, or a block: bits past the length may be set. @param {string} text @returns {?Block} */
export function readMasked(text) {
  const [host, mask, more] = text.split("/");
  if (mask === undefined || more !== undefined || !/^(0|[1-9][0-9]{0,2})$/.test(mask)) return null;
  const address = readAddress(host);
  return address === null || Number(mask) > width(address.family) ? null : { ...address, length: Number(mask) };
}

/** Reads a block without host bits; null if the text is none. @param {string} text @returns {?Block} */
export function readBlock(text) {
  const block = readMasked(text);
  return block !== null && block.number === firstOf(block) ? block : null;
}

/** @param {bigint} number */
const quadText = (number) => [24n, 16n, 8n, 0n].map((shift) => (number >> shift) & 255n).join(".");

/** @param {bigint} number */
function colonText(number) {
  const groups = Array.from({ length: 8 }, (_, index) => ((number >> BigInt(112 - 16 * index)) & 0xffffn).toString(16));
  let best = { start: 0, size: 1 };
  for (let start = 0; start < 8; start += 1) {
    let size = 0;
    while (groups[start + size] === "0") size += 1;
    if (size > best.size) best = { start, size };
  }
  if (best.size < 2) return groups.join(":");
  return groups.slice(0, best.start).join(":") + "::" + groups.slice(best.start + best.size).join(":");
}

/** @param {Address} address */
export const addressText = ({ family, number }) => (family === 4 ? quadText(number) : colonText(number));

/** @param {Block} block */
export const blockText = (block) => `${addressText(block)}/${block.length}`;

/** How many addresses a block has. @param {Block} block */
export const sizeOf = ({ family, length }) => 1n << BigInt(width(family) - length);

/** The first address of the block in which an address with its mask lies. @param {Block} block */
export function firstOf(block) {
  const size = sizeOf(block);
  return (block.number / size) * size;
}

/** The last address of a block. @param {Block} block */
export const lastOf = (block) => firstOf(block) + sizeOf(block) - 1n;

/** The block of a length around an address or a block. @param {Address} address @param {number} length @returns {Block} */
export function blockAround({ family, number }, length) {
  const block = { family, number, length };
  return { family, number: firstOf(block), length };
}

/** Whether the first block contains the second one, or equals it. @param {Block} outer @param {Block} inner */
export const contains = (outer, inner) =>
  outer.family === inner.family && outer.length <= inner.length && firstOf({ ...inner, length: outer.length }) === outer.number;

/** The order of the tree: family, first address, and the wider block first. @param {Block} one @param {Block} other */
export function compareBlocks(one, other) {
  if (one.family !== other.family) return one.family - other.family;
  if (one.number !== other.number) return one.number < other.number ? -1 : 1;
  return one.length - other.length;
}

/** The blocks of a length inside a block, in order. @param {Block} block @param {number} length @returns {Block[]} */
export function partsOf(block, length) {
  const size = sizeOf({ ...block, length });
  const count = 1 << (length - block.length);
  return Array.from({ length: count }, (_, index) => ({ family: block.family, number: block.number + size * BigInt(index), length }));
}

/**
 * The length of the parts that a large block is shown as: four bits more, of IPv6 up to the next hexadecimal digit.
 * @param {Block} block
 */
export function partLength({ family, length }) {
  const more = family === 4 ? 4 : 4 - (length % 4);
  return Math.min(length + more, width(family));
}

/** The fewest blocks that cover the addresses from a first to a last one. @returns {Block[]} */
export function blocksBetween(family, first, last) {
  const blocks = [];
  let number = first;
  while (number <= last) {
    let length = width(family);
    while (length > 0) {
      const wider = { family, number, length: length - 1 };
      if (firstOf(wider) !== number || lastOf(wider) > last) break;
      length -= 1;
    }
    blocks.push({ family, number, length });
    number += sizeOf({ family, number, length });
  }
  return blocks;
}

/** A number with separators, as 1,048,576; large powers as 2^80. @param {bigint} count */
export function countText(count) {
  if (count < 10n ** 12n) return count.toString().replace(/\B(?=(\d{3})+$)/g, ",");
  const bits = count.toString(2).length - 1;
  return 1n << BigInt(bits) === count ? `2^${bits}` : `about 2^${bits}`;
}
