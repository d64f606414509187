/**
 * What is read around a prefix: its ranges, what contains it, its children and addresses.
 * @module
 */
import { asides, get, PAGE, placeNow, readAll } from "./api.js";
import { blockText, readBlock } from "./address.js";
import { nodeOf, Reader } from "./plan.js";
import { rangesIn } from "./space.js";

/** The ranges of each table, with the place at which they were read. */
const books = new Map();

/** The ranges of a table: there is no filter for those inside a block, so they are read whole, and kept until the register changes. */
export async function rangesOf(vrf, family, signal) {
  const key = `${vrf} ${family}`;
  const kept = books.get(key);
  if (kept && kept.place !== null && kept.place === placeNow()) return kept.records;
  const records = await readAll("ip-ranges", { vrf_id: vrf, family }, signal);
  books.set(key, { place: placeNow(), records });
  return records;
}

/** The ranges of the table of a prefix that have addresses of a block. */
export const rangesAround = async (prefix, block, signal) => rangesIn(await rangesOf(prefix.vrf, prefix.family, signal), block);

/** Under a container of the global table the prefixes and addresses of all tables are meant, as for claims. @param {object} prefix */
export const tableBelow = (prefix) => (prefix.vrf === null && prefix.status.value === "container" ? undefined : prefix.vrf);

/** Reads prefixes for a tree or a map, six requests at once. @param {object[]} aggregates */
export function readerOf(aggregates, signal) {
  return new Reader({ page: (query) => asides.run(() => get("prefixes/", query, signal), signal), aggregates });
}

/** What is in a block of a prefix. @returns {Promise<{nodes: object[], ranges: object[], addresses: object[], total: number}>} */
export async function foundIn(prefix, block, signal) {
  const vrf = tableBelow(prefix);
  const text = blockText(block);
  const isWhole = text === prefix.prefix;
  const [nodes, ranges, page] = await Promise.all([
    readerOf([], signal).inside(block, vrf, !isWhole, 0),
    rangesAround(prefix, block, signal),
    get("ip-addresses/", { parent: text, vrf_id: vrf, limit: PAGE }, signal),
  ]);
  return { nodes, ranges, addresses: page.results, total: page.count };
}

/** The prefixes of a table around a block or an address, the widest first. */
export async function around(text, vrf, signal) {
  const page = await get("prefixes/", { contains: text, vrf_id: vrf, limit: PAGE }, signal);
  return page.results.sort((one, other) => readBlock(one.prefix).length - readBlock(other.prefix).length || one.id - other.id);
}

/** The root of a tree of what is inside a prefix or an aggregate. */
export const rootOf = (kind, record) => nodeOf(kind, { block: readBlock(record.prefix), record, vrf: kind === "prefix" ? record.vrf : null });
