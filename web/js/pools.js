/**
 * The pools of AS numbers and VLANs: their two kinds, and what is read of them.
 * @module
 */
import { ask, asides, POOLS } from "./api.js";
import { takenIn } from "./strip.js";

/**
 * @typedef {object} PoolKind
 * @property {string} title
 * @property {string} one what a pool is called
 * @property {string} member what one of its numbers is called
 * @property {string} members the path of its numbers
 * @property {string} number the member of a number that has it
 * @property {number} most the greatest number
 * @property {boolean} isShared whether a number that one pool gave out is taken in all
 */

/** @type {Object<string, PoolKind>} */
export const POOL_KINDS = {
  "asn-ranges": { title: "AS numbers", one: "range", member: "AS number", members: "asns", number: "asn", most: 4294967295, isShared: true },
  "vlan-groups": { title: "VLANs", one: "group", member: "VLAN", members: "vlans", number: "vid", most: 4094, isShared: false },
};

/** The value of a GET. @param {string} path @param {?AbortSignal} [signal] */
export const getPool = async (path, signal) => (await ask("GET", path, { signal, base: POOLS })).value;

/** What a pool gave out. @param {string} kind @param {number} id @param {?AbortSignal} [signal] @returns {Promise<object[]>} by id */
export const membersOf = (kind, id, signal) => getPool(`${kind}/${id}/${POOL_KINDS[kind].members}/`, signal);

/**
 * The pools of a kind, each with what it gave out and the numbers that are taken in it.
 * @param {string} kind @param {AbortSignal} signal
 * @returns {Promise<{pool: object, members: object[], taken: number[]}[]>}
 */
export async function readPools(kind, signal) {
  const pools = await getPool(`${kind}/`, signal);
  const lists = await Promise.all(pools.map((pool) => asides.run(() => membersOf(kind, pool.id, signal), signal)));
  const { isShared, number } = POOL_KINDS[kind];
  const all = isShared ? lists.flat() : null;
  return pools.map((pool, index) => ({ pool, members: lists[index], taken: takenIn(pool, (all ?? lists[index]).map((one) => one[number])) }));
}
