/**
 * The tree of a plan: tables, aggregates and prefixes. The register has no filter for direct children and lists by id, so a block with at
 * most 1,000 prefixes inside is read whole by one request, and a larger one is parted into sixteen blocks with counts, read when they are opened.
 * @module
 */
import { blockAround, blockText, compareBlocks, contains, partLength, partsOf, readBlock } from "./address.js";

/**
 * @typedef {object} PlanNode
 * @property {"table"|"aggregate"|"prefix"|"part"|"note"} kind
 * @property {?import("./address.js").Block} block
 * @property {?object} record of the VRF, aggregate or prefix
 * @property {?number} vrf the table: the id of the VRF, null for the global one
 * @property {?number} count the prefixes inside, null if it is not known
 * @property {?PlanNode[]} children null if they are not read
 * @property {boolean} open
 * @property {string} [text] of a note
 */

/**
 * Where a plan reads.
 * @typedef {object} Source
 * @property {function(object): Promise<{count: number, results: object[]}>} page a page of prefixes
 * @property {object[]} aggregates all of them
 */

const WHOLE = { 4: "0.0.0.0/0", 6: "::/0" };
/** What one request gives. */
const MOST = 1000;

/** @returns {PlanNode} */
export const nodeOf = (kind, given) => ({ kind, block: null, record: null, vrf: null, count: null, children: null, open: false, ...given });

/** @param {object} record a prefix */
export const prefixNode = (record) =>
  nodeOf("prefix", { block: readBlock(record.prefix), record, vrf: record.vrf, count: record.children, children: record.children === 0 ? [] : null });

/** @param {object} record an aggregate */
const aggregateNode = (record) => nodeOf("aggregate", { block: readBlock(record.prefix), record });

/** The table of a VRF, or the global one for null. @param {?object} record */
export const tableNode = (record) => nodeOf("table", { record, vrf: record?.id ?? null });

const RANK = { aggregate: 0, part: 1, prefix: 2, note: 3 };

/** The order of the rows of a tree: by block, an aggregate before its prefix. @param {PlanNode} one @param {PlanNode} other */
const compareNodes = (one, other) =>
  compareBlocks(one.block, other.block) || RANK[one.kind] - RANK[other.kind] || (one.record?.id ?? 0) - (other.record?.id ?? 0);

/** Whether a node's place is inside the other's. @param {PlanNode} outer @param {PlanNode} inner */
const isInside = (outer, inner) =>
  contains(outer.block, inner.block) && (outer.block.length < inner.block.length || (outer.kind !== "prefix" && outer.kind !== "note"));

/**
 * Nests nodes by their blocks: each becomes a child of the narrowest other one around it.
 * @param {PlanNode[]} nodes @returns {PlanNode[]} the outermost ones
 */
export function nest(nodes) {
  const outermost = [];
  const around = [];
  for (const node of [...nodes].sort(compareNodes)) {
    while (around.length > 0 && !isInside(around[around.length - 1], node)) around.pop();
    const parent = around[around.length - 1];
    if (parent) (parent.children ??= []).push(node);
    else outermost.push(node);
    around.push(node);
  }
  return outermost;
}

/** How many prefixes a node is or has inside. @param {PlanNode} node @returns {number} */
function weight(node) {
  const below = node.kind === "aggregate" ? (node.children ?? []).reduce((sum, child) => sum + weight(child), 0) : node.count ?? 0;
  return below + (node.kind === "prefix" ? 1 : 0);
}

/** Aggregates have the counts of what is nested in them. @param {PlanNode[]} nodes */
function countAggregates(nodes) {
  for (const node of nodes) {
    countAggregates(node.children ?? []);
    if (node.kind !== "aggregate") continue;
    node.children ??= [];
    node.count = weight(node);
  }
  return nodes;
}

/** Reads what is inside the nodes of a plan. */
export class Reader {
  /** @param {Source} source */
  constructor(source) {
    this.source = source;
  }

  /** Reads the children of a node if they are not read yet. @param {PlanNode} node */
  async read(node) {
    if (node.children === null) node.children = await this.childrenOf(node);
    return node.children;
  }

  /** @param {PlanNode} node @returns {Promise<PlanNode[]>} */
  async childrenOf(node) {
    if (node.kind !== "table") return this.inside(node.block, node.vrf, node.kind !== "prefix", node.kind === "aggregate" ? node.record.id : 0);
    const whole = await this.source.page({ vrf_id: node.vrf, limit: MOST });
    node.count = whole.count;
    if (whole.count <= MOST) return this.forest(whole.results, this.aggregatesIn(null, node.vrf, 0));
    const families = await Promise.all([4, 6].map((family) => this.inside(readBlock(WHOLE[family]), node.vrf, false, 0, 1)));
    return families.flat();
  }

  /** The aggregates inside a block, or all; they belong to the global table. @returns {PlanNode[]} */
  aggregatesIn(block, vrf, without) {
    if (vrf !== null) return [];
    return this.source.aggregates.filter((one) => one.id !== without).map(aggregateNode).filter((node) => block === null || contains(block, node.block));
  }

  /** @param {object[]} records prefixes @param {PlanNode[]} aggregates */
  forest(records, aggregates) {
    const nodes = records.map(prefixNode);
    for (const node of nodes) node.children = [];
    return countAggregates(nest([...nodes, ...aggregates]));
  }

  /**
   * The prefixes of a table inside a block.
   * @param {import("./address.js").Block} block @param {?number} vrf
   * @param {boolean} itself whether prefixes that equal the block are meant, too
   * @param {number} without the id of an aggregate that is left out
   * @param {number} [first] how many are asked for at first: one, if there are many in all likelihood
   */
  async inside(block, vrf, itself, without, first = MOST) {
    const aggregates = this.aggregatesIn(block, vrf, without).filter((node) => itself || node.block.length > block.length);
    const query = { vrf_id: vrf, [itself ? "within_include" : "within"]: blockText(block) };
    let page = await this.source.page({ ...query, limit: first });
    if (page.count <= MOST && page.results.length < page.count) page = await this.source.page({ ...query, limit: MOST });
    if (page.count <= MOST) return this.forest(page.results, aggregates);
    const tight = await this.tightened(block, vrf, page);
    return this.parts(block, tight, vrf, itself, page.count, aggregates);
  }

  /** The narrowest block that has all these prefixes inside. */
  async tightened(block, vrf, page) {
    const first = readBlock(page.results[0].prefix);
    let [low, high] = [block.length, first.length];
    while (low < high) {
      const middle = Math.ceil((low + high) / 2);
      const inner = await this.source.page({ vrf_id: vrf, within_include: blockText(blockAround(first, middle)), limit: 1 });
      if (inner.count === page.count) low = middle;
      else high = middle - 1;
    }
    return blockAround(first, low);
  }

  /** Parts a large block: its sixteen blocks with counts, and the prefixes that are wider than those. */
  async parts(block, tight, vrf, itself, total, aggregates) {
    const blocks = tight.length < partLength(tight) ? partsOf(tight, partLength(tight)) : [];
    const pages = await Promise.all(blocks.map((part) => this.source.page({ vrf_id: vrf, within_include: blockText(part), limit: 1 })));
    const full = blocks.map((part, index) => ({ part, page: pages[index] }));
    const wider = new Map();
    const note = (records) => {
      for (const record of records) {
        const one = readBlock(record.prefix);
        if (contains(block, one) && (itself || one.length > block.length)) wider.set(record.id, record);
      }
    };
    const look = async (some) => {
      const found = await Promise.all(some.map((part) => this.source.page({ vrf_id: vrf, contains: blockText(part), limit: MOST })));
      for (const page of found) note(page.results);
    };
    await look(full.filter(({ page }) => page.count > 0).map(({ part }) => part));
    const counted = full.reduce((sum, { page }) => sum + page.count, 0);
    const isPart = (record) => blocks.some((part) => blockText(part) === record.prefix);
    const known = () => counted + [...wider.values()].filter((record) => !isPart(record)).length;
    if (known() < total) await look([tight, ...full.filter(({ page }) => page.count === 0).map(({ part }) => part)]);
    return this.arranged(full, [...wider.values()], vrf, aggregates, total - known(), tight);
  }

  /** The rows of a parted block. */
  arranged(full, wider, vrf, aggregates, missing, tight) {
    const equal = new Set(wider.map((record) => record.prefix));
    const parts = full
      .filter(({ part, page }) => page.count > 0 && !equal.has(blockText(part)))
      .map(({ part, page }) => (page.count === 1 ? prefixNode(page.results[0]) : nodeOf("part", { block: part, vrf, count: page.count })));
    const hidden = full.filter(({ page }) => page.count > 1).map(({ part }) => part);
    const shown = aggregates.filter((node) => !hidden.some((part) => contains(part, node.block) && part.length < node.block.length));
    const nodes = [...wider.map((record) => nodeOf("prefix", { ...prefixNode(record), children: null })), ...parts, ...shown];
    if (missing > 0) nodes.push(nodeOf("note", { block: tight, vrf, children: [], text: `${missing.toLocaleString("en")} more prefixes of this block` }));
    return this.settle(countAggregates(nest(nodes)));
  }

  /** What one request can read is read anew when it is opened. @param {PlanNode[]} nodes */
  settle(nodes) {
    for (const node of nodes) {
      this.settle(node.children ?? []);
      if (node.kind === "prefix") node.children = node.count === 0 ? [] : node.count <= MOST ? null : node.children;
      if (node.kind === "aggregate" && node.count > 0 && node.count <= MOST) node.children = null;
    }
    return nodes;
  }
}

/** The rows in sight of open nodes, with their levels from 1. @param {PlanNode[]} nodes @returns {{node: PlanNode, level: number, at: number, of: number}[]} */
export function visibleRows(nodes) {
  const rows = [];
  const walk = (some, level) => {
    some.forEach((node, index) => {
      rows.push({ node, level, at: index + 1, of: some.length });
      if (node.open && node.children) walk(node.children, level + 1);
    });
  };
  walk(nodes, 1);
  return rows;
}

/** Whether a node can be opened. @param {PlanNode} node */
export const hasBelow = (node) => (node.children === null ? node.count !== 0 : node.children.length > 0);
