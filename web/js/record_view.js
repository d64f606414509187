/**
 * The views of single records of every kind but prefixes: `#/vrfs/3`, `#/ip-addresses/9`.
 * @module
 */
import { asides, count, get } from "./api.js";
import { addressText, blocksBetween, blockText, readMasked } from "./address.js";
import { around, rangesOf } from "./book.js";
import { columnsOf } from "./columns.js";
import { copyButton, el, fill } from "./dom.js";
import { KINDS, memberText, titleOf } from "./kinds.js";
import { recordTable } from "./list_view.js";
import { bar, factList, logLine, statusMark } from "./marks.js";
import { crumbs, treeInside } from "./prefix_view.js";
import { hrefOf } from "./router.js";
import { rangeEnds } from "./space.js";
import { loadFrom, RecordTable } from "./table.js";
import { countOf } from "./tree.js";

const HAS_FIGURE = ["aggregates", "ip-ranges"];

/** The members of a record but those that the head has. */
function memberFacts(kind, record, names) {
  const inHead = ["name", "prefix", "address", "description"];
  return KINDS[kind].fields.filter(({ name }) => !inHead.includes(name)).map((field) => {
    const value = record[field.name];
    if (field.name === "status") return ["Status", statusMark(value)];
    const text = memberText(field, value, names);
    const label = field.label.split(":")[0].split(",")[0];
    if (field.type === "record" && value !== null && field.of !== "vrfs") return [label, el("a", { href: hrefOf([field.of, value]) }, text)];
    if (field.name === "vrf") return [label, el("a", { href: hrefOf(value === null ? ["plan", "global"] : ["vrfs", value]) }, text)];
    if (field.type === "address" || field.name === "dns_name") return text &&
      [label, el("span", { class: "with-copy" }, el("span", { class: "address" }, text), copyButton(text))];
    return text && [label, text];
  });
}

/** How many records name this one, with links to them. */
async function linkedCounts(kind, record, signal) {
  const filters = { vrfs: ["vrf_id", "vrf", ["prefixes", "ip-ranges", "ip-addresses"]], roles: ["role_id", "role", ["prefixes", "ip-ranges"]],
    rirs: ["rir_id", "rir", ["aggregates"]] };
  const [filter, word, kinds] = filters[kind] ?? [null, null, []];
  const words = { prefixes: ["prefix", "prefixes"], "ip-ranges": ["range"], "ip-addresses": ["address", "addresses"], aggregates: ["aggregate"] };
  return Promise.all(kinds.map(async (one) => {
    const number = await asides.run(() => count(one, { [filter]: record.id }, signal), signal);
    return [KINDS[one].many, el("a", { href: hrefOf([one], { [word]: record.id }) }, countOf(number, ...words[one]))];
  }));
}

/** The addresses in a range: those in each of its blocks. */
async function addressesOf(record, signal) {
  const { family, first, last } = rangeEnds(record);
  const lists = await Promise.all(blocksBetween(family, first, last).map((block) => asides.run(async () => {
    const found = [];
    for (;;) {
      const page = await get("ip-addresses/", { parent: blockText(block), vrf_id: record.vrf, limit: 1000, offset: found.length }, signal);
      found.push(...page.results);
      if (page.results.length === 0 || found.length >= page.count) return found;
    }
  }, signal)));
  return lists.flat();
}

/** What is below the facts of a record. */
async function below(kind, record, context) {
  const { names, signal, onFault } = context;
  if (kind === "aggregates") {
    const tree = await treeInside("aggregate", record, context);
    return { element: [el("h2", { class: "below-title" }, "Prefixes in it"), tree.element], start: tree.start };
  }
  if (kind === "rirs") {
    const table = recordTable("aggregates", { rir_id: record.id }, context);
    return { element: [el("h2", { class: "below-title" }, "Aggregates from it"), table.element], start: () => table.load() };
  }
  if (kind === "roles") {
    const table = recordTable("prefixes", { role_id: record.id }, context);
    return { element: [el("h2", { class: "below-title" }, "Prefixes that have it"), table.element], start: () => table.load() };
  }
  if (kind === "ip-ranges") {
    const table = new RecordTable({ label: "Addresses in it", file: "addresses-of-range.csv", columns: columnsOf("ip-addresses", names),
      load: loadFrom(await addressesOf(record, signal)), empty: "No addresses here", onFault });
    context.onLeave(() => table.end());
    return { element: [el("h2", { class: "below-title" }, "Addresses in it"), table.element], start: () => table.load() };
  }
  if (kind === "vrfs") return { element: el("p", {}, el("a", { class: "button", href: hrefOf(["plan", record.id]) }, "Show its plan")), start: () => null };
  return { element: null, start: () => null };
}

/** The places of a record: the prefixes around it, and of an address the ranges. */
async function placesOf(kind, record, signal) {
  if (kind === "ip-addresses") {
    const block = readMasked(record.address);
    const text = addressText(block);
    const [outer, ranges] = await Promise.all([around(text, record.vrf, signal), rangesOf(record.vrf, record.family, signal)]);
    const holding = ranges.filter((range) => rangeEnds(range).first <= block.number && block.number <= rangeEnds(range).last);
    return { outer, facts: holding.map((range) => ["In range", el("a", { href: hrefOf(["ip-ranges", range.id]), class: "address" },
      titleOf("ip-ranges", range))]) };
  }
  if (kind !== "ip-ranges") return { outer: null, facts: [] };
  const [start, end] = [record.start_address, record.end_address].map((text) => text.split("/")[0]);
  const both = await Promise.all([start, end].map((text) => around(text, record.vrf, signal)));
  const ids = new Set(both[1].map((one) => one.id));
  return { outer: both[0].filter((one) => ids.has(one.id)), facts: [["Addresses", record.size.toLocaleString("en")]] };
}

/** @param {object} context of the view: see app.js */
export async function showRecord(main, context) {
  const { names, signal, route } = context;
  const [kind, id] = route.path;
  await names.load(signal);
  const record = await get(`${kind}/${id}/`, {}, signal);
  const [place, counts, figure] = await Promise.all([
    placesOf(kind, record, signal), linkedCounts(kind, record, signal), HAS_FIGURE.includes(kind) ? get(`${kind}/${id}/utilization/`, {}, signal) : null,
  ]);
  const rest = await below(kind, record, context);
  const text = titleOf(kind, record);
  const copied = kind === "ip-addresses" ? text.split("/")[0] : text;
  const title = el("h1", { class: KINDS[kind].isPlace ? "address with-copy" : "with-copy" }, text, copyButton(copied));
  const head = el("div", { class: "view-head" }, el("div", {}, title, el("p", { class: "muted about" }, record.description)),
    el("div", { class: "actions" }, context.recordActions?.(kind, record)));
  const up = place.outer ? crumbs(names, record.vrf, place.outer) : el("nav", { class: "crumbs", "aria-label": "Place" },
    el("ol", {}, el("li", {}, el("a", { href: hrefOf([kind]) }, KINDS[kind].many))));
  const facts = factList([figure && ["Used", bar(figure.utilization)], ...memberFacts(kind, record, names), ...place.facts, ...counts]);
  fill(main, up, head, facts, rest.element ? el("div", { class: "tab" }, rest.element) : null, logLine());
  await rest.start();
}
