// The strip of a pool: by an example, and against a list of all numbers for random pools.
import assert from "node:assert/strict";
import test from "node:test";

import { lowestFree, MOST_PARTS, partName, partsOfPool, takenIn } from "../../web/js/strip.js";

test("runs of given and of free numbers", () => {
  const parts = partsOfPool({ start: 100, end: 199 }, takenIn({ start: 100, end: 199 }, [130, 101, 100, 199, 99, 200]));
  assert.deepEqual(parts.map(partName), ["100 – 101, given out", "102 – 129, free", "130, given out", "131 – 198, free", "199, given out"]);
  assert.deepEqual(partsOfPool({ start: 7, end: 7 }, []).map(partName), ["7, free"]);
  assert.equal(partName({ first: 64512, last: 64515, taken: 3 }), "64512 – 64515, 3 of 4 given out");
});

test("the lowest free number", () => {
  const pool = { start: 10, end: 13 };
  for (const [taken, wanted] of [[[], 10], [[10, 11], 12], [[11], 10], [[10, 12], 11], [[10, 11, 12, 13], null]]) {
    assert.equal(lowestFree(pool, taken), wanted);
  }
});

test("random pools: the parts are in order, have each number once, and count what is taken", () => {
  let seed = 7;
  const pick = (most) => {
    seed = (seed * 48271) % 2147483647;
    return seed % most;
  };
  for (let round = 0; round < 60; round += 1) {
    const start = 1 + pick(4294960000);
    const end = start + pick(round % 3 ? 1500 : 60);
    const taken = new Set();
    for (let n = pick(2 * (end - start + 1)); n > 0; n -= 1) taken.add(start + pick(end - start + 1));
    const parts = partsOfPool({ start, end }, takenIn({ start, end }, [...taken]));
    assert.ok(parts.length <= MOST_PARTS);
    let next = start;
    for (const { first, last, taken: count } of parts) {
      assert.equal(first, next);
      assert.ok(last >= first);
      assert.equal(count, [...taken].filter((number) => first <= number && number <= last).length);
      next = last + 1;
    }
    assert.equal(next, end + 1);
    const all = Array.from({ length: end - start + 1 }, (_, index) => start + index);
    assert.equal(lowestFree({ start, end }, takenIn({ start, end }, [...taken])), all.find((number) => !taken.has(number)) ?? null);
  }
});
