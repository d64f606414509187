// The map of a prefix, forms of refusals, CSV and addresses of views.
import assert from "node:assert/strict";
import test from "node:test";

import { blockText, readBlock } from "../../web/js/address.js";
import { csvText } from "../../web/js/csv.js";
import { differences, fieldOfRefusal, KINDS } from "../../web/js/kinds.js";
import { prefixNode } from "../../web/js/plan.js";
import { hrefOf, readHash } from "../../web/js/router.js";
import { cellsOf, factsOf, freeBlocks, keptBack, placeIn, rangesIn, verdictOf } from "../../web/js/space.js";

const prefix = (text, given = {}) => prefixNode({ id: 1, prefix: text, vrf: null, children: 0, ...given });
const range = (first, last, populated = false) => ({ id: 1, start_address: `${first}/24`, end_address: `${last}/24`, mark_populated: populated });

test("what is free beside prefixes, as docs/USING.md's example of `free` has it", () => {
  const free = freeBlocks(readBlock("10.0.0.0/16"), [prefix("10.0.0.0/24"), prefix("10.0.4.0/22")]).map(blockText);
  assert.deepEqual(free, ["10.0.1.0/24", "10.0.2.0/23", "10.0.8.0/21", "10.0.16.0/20", "10.0.32.0/19", "10.0.64.0/18", "10.0.128.0/17"]);
});

test("the addresses that a prefix keeps back (RFC 3021, RFC 6164)", () => {
  const counts = [["10.0.0.0/24", 2], ["10.0.0.0/30", 2], ["10.0.0.0/31", 0], ["10.0.0.0/32", 0], ["2001:db8::/64", 1], ["2001:db8::/126", 1],
    ["2001:db8::/127", 0]];
  for (const [text, wanted] of counts) assert.equal(keptBack(readBlock(text), false).length, wanted, text);
  assert.equal(keptBack(readBlock("10.0.0.0/24"), true).length, 0);
});

test("the cells of a small prefix", () => {
  const block = readBlock("10.0.0.0/28");
  const address = { id: 7, address: "10.0.0.1/28", dns_name: "gw.example", description: "", status: { label: "Active" } };
  const cells = cellsOf(block, block, false, { nodes: [prefix("10.0.0.12/30")],
    ranges: [range("10.0.0.4", "10.0.0.5", true), range("10.0.0.6", "10.0.0.7")], addresses: [address] });
  const kinds = ["kept", "address", "free", "free", "withheld", "withheld", "range", "range", "free", "free", "free", "free", "prefix", "prefix",
    "prefix", "prefix"];
  assert.deepEqual(cells.map(({ kind }) => kind), kinds);
  assert.equal(cells[1].name, "10.0.0.1, gw.example, Active");
});

test("spans are to scale in a row", () => {
  const row = readBlock("10.0.16.0/20");
  assert.deepEqual(placeIn(row, { first: readBlock("10.0.24.0/21").number, last: readBlock("10.0.31.255/32").number }),
    { left: 0.5, width: 0.5, begins: true });
  assert.deepEqual(placeIn(row, { first: 0n, last: (1n << 32n) - 1n }), { left: 0, width: 1, begins: false });
  assert.equal(placeIn(row, { first: 0n, last: 5n }), null);
});

test("ranges of a block, facts, and whether an address is free", () => {
  assert.equal(rangesIn([range("10.0.0.200", "10.0.1.3"), range("10.0.2.1", "10.0.2.9")], readBlock("10.0.1.0/24")).length, 1);
  assert.deepEqual(factsOf(readBlock("10.0.0.0/20")), { first: "10.0.0.0", last: "10.0.15.255", mask: "255.255.240.0", size: "4,096" });
  const inside = { prefix: "10.0.0.0/24", is_pool: false };
  const at = (number) => ({ family: 4, number: 0x0a000000n + BigInt(number) });
  assert.equal(verdictOf(at(9), inside, [], []).isFree, true);
  assert.equal(verdictOf(at(0), inside, [], []).isFree, false);
  assert.equal(verdictOf(at(9), inside, [range("10.0.0.1", "10.0.0.20", true)], []).isFree, false);
  assert.equal(verdictOf(at(9), undefined, [], []).isFree, false);
});

test("a refusal is shown next to the field that it names", () => {
  const fields = KINDS.prefixes.fields;
  const rows = [["field", "status is missing or malformed", "status"], ["host_bits", "host bits are set, the prefix is 10.0.0.0/8", "prefix"],
    ["no_such", "vrfs 9 is not there", "vrf"],
    ["duplicate", "coincides with 1", "prefix"], ["limit", "prefixes would exceed 200000", null], ["keeper", "the store could not be written", null]];
  for (const [code, detail, wanted] of rows) assert.equal(fieldOfRefusal(code, detail, fields), wanted, code);
  assert.equal(fieldOfRefusal("range_overlap", "overlaps range 1", KINDS["ip-ranges"].fields), "start_address");
  assert.equal(fieldOfRefusal("rd_taken", "the rd is that of 2", KINDS.vrfs.fields), "rd");
});

test("records differ by their members, not by what is computed", () => {
  const one = { prefix: "10.0.0.0/8", vrf: null, status: { value: "active", label: "Active" }, role: null, is_pool: false, mark_utilized: false,
    description: "", children: 1 };
  assert.deepEqual(differences("prefixes", one, { ...one, children: 9 }), []);
  assert.deepEqual(differences("prefixes", one, { ...one, status: { value: "reserved", label: "Reserved" } }).map(({ name }) => name), ["status"]);
});

test("CSV as RFC 4180 has it, and without formulas", () => {
  assert.equal(csvText(["a", "b"], [["x,y", 'say "hi"'], ["=1+1", null]]), 'a,b\r\n"x,y","say ""hi"""\r\n\'=1+1,\r\n');
});

test("addresses of views are read as they were written", () => {
  const { path, query } = readHash(hrefOf(["search"], { q: "a/b?c=d&e #x%", none: null }));
  assert.deepEqual([path, query.get("q"), query.has("none")], [["search"], "a/b?c=d&e #x%", false]);
  assert.equal(hrefOf(["plan", "global"], { at: "2001:db8::/32" }), "#/plan/global?at=2001:db8::/32");
});
