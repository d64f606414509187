// Addresses and blocks of the page: the examples of RFC 4291 2.2 and RFC 5952, and as Python's ipaddress has random ones.
import assert from "node:assert/strict";
import { execFileSync } from "node:child_process";
import test from "node:test";

import { addressText, blockAround, blocksBetween, blockText, compareBlocks, contains, countText, lastOf, partLength, partsOf, readAddress, readBlock,
  readMasked } from "../../web/js/address.js";

const canonical = (text) => addressText(readAddress(text));

test("texts of RFC 4291 2.2 are read, and written as RFC 5952 4 says", () => {
  const rows = [
    ["ABCD:EF01:2345:6789:ABCD:EF01:2345:6789", "abcd:ef01:2345:6789:abcd:ef01:2345:6789"], ["2001:DB8:0:0:8:800:200C:417A", "2001:db8::8:800:200c:417a"],
    ["FF01:0:0:0:0:0:0:101", "ff01::101"], ["0:0:0:0:0:0:0:1", "::1"], ["0:0:0:0:0:0:0:0", "::"], ["0:0:0:0:0:0:13.1.68.3", "::d01:4403"],
    ["::FFFF:129.144.52.38", "::ffff:8190:3426"], ["2001:db8:0:1:1:1:1:1", "2001:db8:0:1:1:1:1:1"], ["2001:0:0:1:0:0:0:1", "2001:0:0:1::1"],
    ["2001:db8:0:0:1:0:0:1", "2001:db8::1:0:0:1"], ["1:2:3:4:5:6:7::", "1:2:3:4:5:6:7:0"],
  ];
  for (const [given, wanted] of rows) assert.equal(canonical(given), wanted);
});

test("what is no address is not read", () => {
  for (const text of ["", ":", ":::", "::::", ":1::", "1::2:", "1.2.3", "1.2.3.4.5", "01.2.3.4", "256.1.1.1", "1.2.3.4::", "12345::1",
    "1:2:3:4:5:6:7:8::", "::1.2.3", "g::1", "1.2.3.4/24", " 1.2.3.4", "::1::"]) {
    assert.equal(readAddress(text), null, text);
  }
  for (const text of ["10.0.0.0", "10.0.0.0/", "10.0.0.0/33", "10.0.0.0/08", "10.0.0.0/8/9", "::/129", "10.0.0.1/24"]) assert.equal(readBlock(text), null,
    text);
});

const RANDOM = `
import ipaddress, random, json
pick = random.Random(7)
rows = []
for family, width in ((4, 32), (6, 128)):
    make = ipaddress.IPv4Network if family == 4 else ipaddress.IPv6Network
    for _ in range(600):
        length = pick.randrange(1, width + 1)
        number = pick.getrandbits(width)
        if pick.random() < .5: number &= pick.getrandbits(width) & pick.getrandbits(width)
        number >>= width - length; number <<= width - length
        net = make((number, length))
        last = net[-1]
        inner = make((int(net[pick.randrange(min(net.num_addresses, 1 << 60))]), width))
        outer = net.supernet(new_prefix=pick.randrange(0, length))
        ends = sorted((int(net[0]), int(inner[0])))
        cover = [n.with_prefixlen for n in ipaddress.summarize_address_range(net[0], inner[0])] if inner[0] > net[0] else [str(net[0]) + "/" + str(width)]
        rows.append([net.exploded, net.with_prefixlen, str(last), inner.with_prefixlen, outer.with_prefixlen, cover])
print(json.dumps(rows))
`;

test("random blocks are as Python's ipaddress has them", () => {
  for (const [long, text, last, inner, outer, cover] of JSON.parse(execFileSync("python3", ["-c", RANDOM], { encoding: "utf8", maxBuffer: 1 << 26 }))) {
    const block = readBlock(long);
    assert.equal(blockText(block), text);
    assert.equal(addressText({ family: block.family, number: lastOf(block) }), last);
    const [small, wide] = [readBlock(inner), readBlock(outer)];
    assert.ok(contains(block, small) && contains(wide, block) && contains(block, block) && !contains(block, wide));
    assert.equal(blockText(blockAround(block, wide.length)), outer);
    assert.deepEqual(blocksBetween(block.family, block.number, small.number).map(blockText), cover);
    assert.ok(compareBlocks(wide, block) < 0 || wide.number === block.number);
  }
});

test("a block is parted into sixteen, IPv6 at hexadecimal digits", () => {
  assert.deepEqual(partsOf(readBlock("10.0.0.0/8"), partLength(readBlock("10.0.0.0/8"))).map(blockText).slice(0, 2), ["10.0.0.0/12", "10.16.0.0/12"]);
  assert.equal(partLength(readBlock("10.0.0.0/30")), 32);
  assert.equal(partLength(readBlock("2001:db8::/32")), 36);
  assert.equal(partLength(readBlock("2001:db8::/33")), 36);
});

test("sizes are said in words", () => {
  assert.equal(countText(1048576n), "1,048,576");
  assert.equal(countText(1n << 80n), "2^80");
  assert.equal(readMasked("10.0.0.5/24").length, 24);
});
