/**
 * What the addresses of a block are: the parts of the map of a prefix.
 * @module
 */
import { addressText, blocksBetween, blockText, countText, firstOf, lastOf, partLength, partsOf, readAddress, readMasked, sizeOf } from "./address.js";

/** @typedef {import("./address.js").Block} Block */
/** @typedef {import("./plan.js").PlanNode} PlanNode */
/** @typedef {{first: bigint, last: bigint, kind: string, name: string, record?: object, block?: Block}} Span */

/** The most addresses of a block that is shown address by address. */
export const MOST_CELLS = 256n;

/** Whether a block is shown as a grid of its addresses. @param {Block} block */
export const isGrid = (block) => sizeOf(block) <= MOST_CELLS;

/**
 * The addresses that a prefix keeps back if it is no pool (RFC 919, RFC 4291 2.6.1; not in /31, /32, /127 and /128).
 * @param {Block} block @param {boolean} isPool
 */
export function keptBack(block, isPool) {
  const most = block.family === 4 ? 30 : 126;
  if (isPool || block.length > most) return [];
  return block.family === 4 ? [block.number, lastOf(block)] : [block.number];
}

/** The ends of a range. @param {object} record @returns {{first: bigint, last: bigint, family: 4|6}} */
export function rangeEnds(record) {
  const [start, end] = [record.start_address, record.end_address].map((text) => readAddress(text.split("/")[0]));
  return { family: start.family, first: start.number, last: end.number };
}

/** The ranges that have addresses of a block. @param {object[]} ranges @param {Block} block */
export const rangesIn = (ranges, block) =>
  ranges.filter((record) => {
    const { family, first, last } = rangeEnds(record);
    return family === block.family && first <= lastOf(block) && last >= block.number;
  });

/** The gaps between the outermost nodes of a block, as the fewest blocks. @param {Block} block @param {PlanNode[]} nodes @returns {Block[]} */
export function freeBlocks(block, nodes) {
  const free = [];
  let next = block.number;
  for (const node of nodes) {
    if (node.block.number > next) free.push(...blocksBetween(block.family, next, node.block.number - 1n));
    const end = lastOf(node.block) + 1n;
    if (end > next) next = end;
  }
  if (next <= lastOf(block)) free.push(...blocksBetween(block.family, next, lastOf(block)));
  return free;
}

/** @param {PlanNode} node @returns {Span} */
function spanOf(node) {
  const { block, kind, record, count } = node;
  const text = blockText(block);
  const name = kind === "part" ? `${text}, ${count.toLocaleString("en")} prefixes` : `${text}${record?.description ? `, ${record.description}` : ""}`;
  return { first: block.number, last: lastOf(block), kind, name, record, block };
}

/** The spans of a block in order: prefixes, parts with many of them, and what is free. @param {Block} block @param {PlanNode[]} nodes @returns {Span[]} */
export function spansOf(block, nodes) {
  const taken = nodes.filter((node) => node.block).map(spanOf);
  const free = freeBlocks(block, nodes.filter((node) => node.block));
  const spans = free.map((one) => ({ first: one.number, last: lastOf(one), kind: "free", name: `${blockText(one)}, no prefix`, block: one }));
  return [...taken, ...spans].sort((one, other) => (one.first === other.first ? 0 : one.first < other.first ? -1 : 1));
}

/** Where a span lies in a row, in parts of one. @param {Block} row @param {{first: bigint, last: bigint}} span */
export function placeIn(row, span) {
  const [first, last] = [row.number, lastOf(row)];
  const from = span.first > first ? span.first : first;
  const to = span.last < last ? span.last : last;
  if (from > to) return null;
  const scale = (number) => Number(((number - first) * 1_000_000n) / sizeOf(row)) / 1_000_000;
  return { left: scale(from), width: Math.max(scale(to + 1n) - scale(from), 0), begins: span.first >= first };
}

/** The rows of a large block. @param {Block} block @returns {Block[]} */
export const rowsOf = (block) => partsOf(block, partLength(block));

/**
 * What each address of a small block is, in order.
 * @param {Block} block the part that is shown
 * @param {Block} prefix the prefix whose map it is
 * @param {boolean} isPool
 * @param {{nodes: PlanNode[], ranges: object[], addresses: object[]}} found
 */
export function cellsOf(block, prefix, isPool, { nodes, ranges, addresses }) {
  const cells = Array.from({ length: Number(sizeOf(block)) }, (_, index) => {
    const address = addressText({ family: block.family, number: block.number + BigInt(index) });
    return { address, kind: "free", name: `${address}, free` };
  });
  const put = (first, last, give) => {
    const from = first > block.number ? first : block.number;
    const to = last < lastOf(block) ? last : lastOf(block);
    for (let number = from; number <= to; number += 1n) {
      const cell = cells[Number(number - block.number)];
      Object.assign(cell, give(cell));
    }
  };
  for (const number of keptBack(prefix, isPool)) put(number, number, (cell) =>
    ({ kind: "kept", name: `${cell.address}, kept back: ${number === prefix.number ? "the first" : "the last"} address of the prefix` }));
  for (const range of ranges) {
    const { first, last } = rangeEnds(range);
    const title = `range ${range.start_address.split("/")[0]} – ${range.end_address.split("/")[0]}`;
    put(first, last, (cell) => (range.mark_populated ? { kind: "withheld", range, name: `${cell.address}, withheld: ${title} is filled by others` }
      : { kind: cell.kind === "kept" ? "kept" : "range", range, name: `${cell.address}, free in ${title}` }));
  }
  for (const node of nodes.filter((one) => one.block)) {
    put(node.block.number, lastOf(node.block), (cell) => ({ kind: "prefix", prefix: node.record, name: `${cell.address}, in ${blockText(node.block)}` }));
  }
  for (const record of addresses) {
    const { number } = readMasked(record.address);
    put(number, number, (cell) => ({ kind: "address", record, name: [cell.address, record.dns_name || "taken", record.description,
      record.status.label].filter(Boolean).join(", ") }));
  }
  return cells;
}

/** What a block is in numbers. @param {Block} block */
export function factsOf(block) {
  const [first, last] = [firstOf(block), lastOf(block)].map((number) => addressText({ family: block.family, number }));
  const mask = block.family === 4 ? addressText({ family: 4, number: (1n << 32n) - sizeOf(block) }) : null;
  return { first, last, mask, size: countText(sizeOf(block)) };
}

/** Whether an address is free in its narrowest prefix, and why not. */
export function verdictOf(address, prefix, ranges, taken) {
  if (taken.length > 0) return { isFree: false, why: "taken" };
  if (!prefix) return { isFree: false, why: "in no prefix" };
  const block = readMasked(prefix.prefix);
  if (ranges.some((range) => range.mark_populated)) return { isFree: false, why: "in a range that others fill" };
  if (keptBack(block, prefix.is_pool).includes(address.number)) return { isFree: false, why: "kept back by its prefix: its first or last address" };
  return { isFree: true, why: "free" };
}
