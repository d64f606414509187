/**
 * The view of a prefix: `#/prefixes/12`, with `?tab=` for one of its lists and `?map=BLOCK` for a part of its map.
 * @module
 */
import { asides, count, get, isLeft, PAGE } from "./api.js";
import { blockText, contains, countText, readBlock } from "./address.js";
import { around, foundIn, rangesAround, readerOf, rootOf, tableBelow } from "./book.js";
import { columnsOf } from "./columns.js";
import { button, copyButton, el, fill } from "./dom.js";
import { SpaceMap } from "./map.js";
import { bar, factList, logLine, statusMark } from "./marks.js";
import { hrefOf } from "./router.js";
import { factsOf, isGrid, rowsOf } from "./space.js";
import { loadFrom, RecordTable } from "./table.js";
import { Tree } from "./tree.js";

const TABS = [["prefixes", "Prefixes"], ["addresses", "Addresses"], ["ranges", "Ranges"], ["blocks", "Free blocks"], ["free", "Free addresses"]];

/** Where a record is: its table, and the prefixes around it. */
export function crumbs(names, vrf, outer) {
  const links = [el("a", { href: hrefOf(["plan", vrf ?? "global"]) }, names.tableName(vrf)),
    ...outer.map((one) => el("a", { href: hrefOf(["prefixes", one.id]), class: "address" }, one.prefix))];
  return el("nav", { class: "crumbs", "aria-label": "Place" }, el("ol", {}, links.map((link) => el("li", {}, link))));
}

/** The facts of a prefix in a line of boxes. */
function facts(names, record, block, place) {
  const { first, last, mask, size } = factsOf(block);
  const marks = [record.is_pool && "pool", record.mark_utilized && "counted as fully used"].filter(Boolean).join(", ");
  return factList([
    ["Used", place],
    ["Status", statusMark(record.status)],
    ["Role", record.role === null ? "none" : el("a", { href: hrefOf(["roles", record.role]) }, names.roleName(record.role))],
    ["Addresses", size],
    ["From", el("span", { class: "with-copy" }, el("span", { class: "address" }, first), copyButton(first))],
    ["To", el("span", { class: "with-copy" }, el("span", { class: "address" }, last), copyButton(last))],
    mask && ["Netmask", el("span", { class: "with-copy" }, el("span", { class: "address" }, mask), copyButton(mask))],
    marks && ["Marks", marks],
  ]);
}

/** The map of the prefix or of a part of it. */
async function mapOf(context, record, block) {
  const asked = readBlock(context.route.query.get("map") ?? "");
  const shown = asked && contains(block, asked) ? asked : block;
  const found = await foundIn(record, shown, context.signal);
  const zoom = (part) => hrefOf(context.route.path, { map: blockText(part), tab: context.route.query.get("tab") });
  const map = new SpaceMap({ block: shown, prefix: block, record, found, mayChange: context.mayChange, zoom,
    onFree: (kind, first) => context.create(kind, first) });
  if (found.total > found.addresses.length && !isGrid(shown)) countRows(map, record, shown, context);
  const whole = shown === block ? null : el("a", { href: hrefOf(context.route.path, { tab: context.route.query.get("tab") }), class: "button small" },
    `Whole ${record.prefix}`);
  const title = el("div", { class: "section-head" }, el("h2", {}, "Space",
    shown === block ? null : [" of ", el("span", { class: "address" }, blockText(shown))]), whole);
  return el("section", { class: "panel" }, title, map.element);
}

/** Counts the addresses of each row of a map, where they are too many to be read. */
function countRows(map, record, block, { signal, onFault }) {
  rowsOf(block).forEach(async (row, index) => {
    try {
      const query = { parent: blockText(row), vrf_id: tableBelow(record) };
      map.sayCount(index, await asides.run(() => count("ip-addresses", query, signal), signal));
    } catch (fault) {
      if (!isLeft(fault)) onFault(fault);
    }
  });
}

/** The free blocks or addresses: the register answers the first thousand. */
function freeTable(record, what, context) {
  const name = what === "available-prefixes" ? "prefix" : "address";
  const offer = (one) => (name === "prefix" ? context.create("prefixes", { prefix: one.prefix, vrf: record.vrf })
    : context.create("ip-addresses", { address: one.address, vrf: record.vrf }));
  const place = { title: name === "prefix" ? "Block" : "Address", name, text: (one) => one[name],
    cell: (one) => el("span", { class: "with-copy" }, el("span", { class: "address" }, one[name]), copyButton(one[name])) };
  const size = { title: "Addresses", name: "size", text: (one) => countText(
    1n << BigInt((one.family === 4 ? 32 : 128) - Number(one.prefix.split("/")[1]))), rank: 2 };
  const offered = (one) => button("Create", () => offer(one), { class: "button small", "aria-label": `Create ${one[name]}` });
  const take = context.mayChange ? [{ title: "Create", isAction: true, text: () => "", cell: offered, size: "100px" }] : [];
  const load = async () => {
    const rows = await get(`prefixes/${record.id}/${what}/`, { limit: PAGE }, context.signal);
    return { rows, total: rows.length };
  };
  const label = name === "prefix" ? "Free blocks" : "Free addresses";
  const columns = name === "prefix" ? [place, size, ...take] : [place, ...take];
  const table = new RecordTable({ label, file: `free-in-${record.prefix.replace("/", "_")}.csv`, columns, load, empty: "Nothing is free",
    onFault: context.onFault });
  const show = table.show.bind(table);
  table.show = () => {
    show();
    if (table.total === PAGE) table.said.textContent = `The first ${PAGE.toLocaleString("en")}; there may be more`;
  };
  return table;
}

/** The list of a tab. */
async function listOf(tab, record, context) {
  const { names, signal, onFault } = context;
  if (tab === "blocks") return freeTable(record, "available-prefixes", context);
  if (tab === "free") return freeTable(record, "available-ips", context);
  const file = `${tab}-of-${record.prefix.replace("/", "_")}.csv`;
  if (tab === "ranges") {
    const load = loadFrom(await rangesAround(record, readBlock(record.prefix), signal));
    return new RecordTable({ label: "Ranges", file, columns: columnsOf("ip-ranges", names), load, empty: "No ranges here", onFault });
  }
  const load = async (offset, limit) => {
    const page = await get("ip-addresses/", { parent: record.prefix, vrf_id: tableBelow(record), limit, offset }, signal);
    return { rows: page.results, total: page.count };
  };
  return new RecordTable({ label: "Addresses", file, columns: columnsOf("ip-addresses", names), load, empty: "No addresses here", onFault });
}

/** A tree of what is inside a prefix or an aggregate. */
export async function treeInside(kind, record, context) {
  const reader = readerOf(context.names.lists.aggregates, context.signal);
  const nodes = await reader.childrenOf(rootOf(kind, record));
  const tree = new Tree(reader, nodes, {
    signal: context.signal, onFault: context.onFault, roleName: (id) => context.names.roleName(id), rirName: (id) => context.names.rirName(id),
  });
  tree.element.setAttribute("aria-label", `Prefixes in ${record.prefix}`);
  context.onLeave(() => tree.end());
  return { element: nodes.length === 0 ? el("p", { class: "muted none" }, "No prefixes here") : el("div", { class: "table-box" }, tree.element),
    start: () => nodes.length > 0 && tree.start() };
}

/** Shows the list of a tab below the map. */
async function showTab(place, tab, record, context) {
  place.setAttribute("aria-busy", "true");
  if (tab === "prefixes") {
    const tree = await treeInside("prefix", record, context);
    fill(place, tree.element);
    tree.start();
  } else {
    const table = await listOf(tab, record, context);
    fill(place, table.element);
    context.onLeave(() => table.end());
    await table.load();
  }
  place.removeAttribute("aria-busy");
}

/** The tabs, each with an address of its own. */
function tabs(context, asked) {
  const { route } = context;
  return el("nav", { class: "tabs", "aria-label": "Lists of the prefix" }, TABS.map(([name, text]) =>
    el("a", { href: hrefOf(route.path, { tab: name, map: route.query.get("map") }), "aria-current": name === asked ? "page" : null }, text)));
}

/** @param {object} context of the view: see app.js */
export async function showPrefix(main, context) {
  const { names, signal, route } = context;
  const id = route.path[1];
  await names.load(signal);
  const record = await get(`prefixes/${id}/`, {}, signal);
  const block = readBlock(record.prefix);
  const [outer, figure] = await Promise.all([around(record.prefix, record.vrf, signal), get(`prefixes/${id}/utilization/`, {}, signal)]);
  const tab = TABS.some(([name]) => name === route.query.get("tab")) ? route.query.get("tab") : record.status.value === "container" ? "prefixes" : "addresses";
  const list = el("div", { class: "tab" });
  const title = el("h1", { class: "address with-copy" }, record.prefix, copyButton(record.prefix));
  const inPlan = el("a", { class: "button", href: hrefOf(["plan", record.vrf ?? "global"], { at: record.prefix }) }, "Show in plan");
  const head = el("div", { class: "view-head" }, el("div", {}, title, el("p", { class: "muted about" }, record.description)),
    el("div", { class: "actions" }, context.recordActions?.("prefixes", record), inPlan));
  const map = el("div", {}, el("section", { class: "panel waiting" }));
  fill(main, crumbs(names, record.vrf, outer.filter((one) => one.id !== record.id && one.prefix !== record.prefix)), head,
    facts(names, record, block, bar(figure.utilization)), map, tabs(context, tab), list, logLine());
  await Promise.all([mapOf(context, record, block).then((made) => fill(map, made)), showTab(list, tab, record, context)]);
}
