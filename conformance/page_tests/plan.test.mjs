// The tree of a plan over a register that is a list: every prefix is found once, below the narrowest one around it, whatever the sizes.
import assert from "node:assert/strict";
import test from "node:test";

import { blockText, contains, readBlock } from "../../web/js/address.js";
import { nest, Reader, tableNode, visibleRows } from "../../web/js/plan.js";

/** A register of prefixes with the filters that the tree uses, each by going over all rows. */
function registerOf(texts) {
  const records = texts.map((prefix, index) => ({ id: index + 1, prefix, vrf: null, block: readBlock(prefix) }));
  for (const one of records) one.children = records.filter((other) => contains(one.block, other.block) && other.block.length > one.block.length).length;
  let asked = 0;
  const passes = (query) => (record) =>
    (!query.within || (contains(readBlock(query.within), record.block) && record.block.length > readBlock(query.within).length)) &&
    (!query.within_include || contains(readBlock(query.within_include), record.block)) &&
      (!query.contains || contains(record.block, readBlock(query.contains)));
  const page = async (query) => {
    asked += 1;
    const found = records.filter(passes(query));
    return { count: found.length, results: found.slice(0, query.limit) };
  };
  return { page, aggregates: [], records, asked: () => asked };
}

/** Opens everything, and gives each prefix with the prefixes above it. */
async function openAll(reader, nodes, above = []) {
  const found = [];
  for (const node of nodes) {
    const here = node.kind === "prefix" ? [...above, node.record.prefix] : above;
    if (node.kind === "prefix") found.push([node.record.id, above]);
    found.push(...(await openAll(reader, await reader.read(node), here)));
  }
  return found;
}

/** For each prefix those that contain it, the widest first, as the list has them. */
const expected = (records) =>
  new Map(records.map((one) => [one.id, records.filter((other) => contains(other.block, one.block) && other.block.length < one.block.length)
    .sort((left, right) => left.block.length - right.block.length).map((other) => other.prefix)]));

async function check(texts, aggregates = []) {
  const register = registerOf(texts);
  register.aggregates = aggregates;
  const reader = new Reader(register);
  const root = tableNode(null);
  await reader.read(root);
  const first = register.asked();
  const found = await openAll(reader, root.children);
  const wanted = expected(register.records);
  assert.equal(found.length, texts.length, `${found.length} of ${texts.length} prefixes`);
  assert.equal(new Set(found.map(([id]) => id)).size, texts.length);
  for (const [id, above] of found) assert.deepEqual(above, wanted.get(id), `prefix ${id}`);
  return first;
}

const quad = (number) => [24, 16, 8, 0].map((shift) => (number >>> shift) & 255).join(".");

test("up to 1,000 prefixes are one request", async () => {
  const texts = ["10.0.0.0/8", "10.1.0.0/16", "2001:db8::/32", ...Array.from({ length: 900 }, (_, n) => `10.1.${n >> 4}.${(n & 15) << 4}/28`)];
  assert.equal(await check(texts), 1);
});

test("larger ones are parted, and prefixes between the parts are found", async () => {
  const texts = ["10.0.0.0/8", "10.0.0.0/9", "10.128.0.0/11", "10.64.0.0/10", "10.16.0.0/12", "10.0.0.0/12"];
  for (let n = 0; n < 2500; n += 1) texts.push(`${quad(0x0a000000 + (n * 6151 % 65536) * 256)}/24`);
  for (let n = 0; n < 1500; n += 1) texts.push(`10.16.${n >> 4}.${(n & 15) << 4}/28`);
  await check(texts);
});

test("many prefixes in one small place are found, and an empty one beside them", async () => {
  const texts = ["10.0.0.0/9", "10.128.0.0/9", "192.0.2.0/24"];
  for (let n = 0; n < 1200; n += 1) texts.push(`${quad(0x0a030000 + n * 4)}/30`);
  for (let n = 0; n < 1100; n += 1) texts.push(`2001:db8:0:${n.toString(16)}::/64`);
  await check(texts);
});

test("aggregates are rows, above the prefix that has their block", async () => {
  const texts = Array.from({ length: 1300 }, (_, n) => `${quad(0x0a000000 + n * 40 * 256)}/24`);
  const register = registerOf([...texts, "10.0.0.0/8"]);
  register.aggregates = [{ id: 1, prefix: "10.0.0.0/8", rir: 1 }, { id: 2, prefix: "192.0.2.0/24", rir: 1 }];
  const reader = new Reader(register);
  const root = tableNode(null);
  await reader.read(root);
  const kinds = root.children.map((node) => [node.kind, blockText(node.block)]);
  assert.deepEqual(kinds[0], ["aggregate", "10.0.0.0/8"]);
  assert.ok(kinds.some(([kind, text]) => kind === "aggregate" && text === "192.0.2.0/24"), JSON.stringify(kinds));
  assert.equal(root.children[0].children[0].kind, "prefix");
});

test("nodes of one block are beside each other, and rows have their levels", () => {
  const node = (id, prefix) => ({ kind: "prefix", block: readBlock(prefix), record: { id }, children: null, open: true });
  const nodes = nest([node(3, "10.0.0.0/24"), node(1, "10.0.0.0/24"), node(2, "10.0.0.0/8"), node(4, "11.0.0.0/8")]);
  assert.deepEqual(nodes.map(({ record }) => record.id), [2, 4]);
  assert.deepEqual(nodes[0].children.map(({ record }) => record.id), [1, 3]);
  assert.deepEqual(visibleRows(nodes).map(({ node: { record }, level, at, of }) => [record.id, level, at, of]),
    [[2, 1, 1, 2], [1, 2, 1, 2], [3, 2, 2, 2], [4, 1, 2, 2]]);
});
