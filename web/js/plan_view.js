/**
 * The view of the plan: `#/plan` has all tables, `#/plan/global` and `#/plan/3` one; `?at=BLOCK` opens the way to a block.
 * @module
 */
import { get } from "./api.js";
import { blockText, contains, readBlock } from "./address.js";
import { readerOf } from "./book.js";
import { el, fill } from "./dom.js";
import { tableChoice } from "./list_view.js";
import { hrefOf, replaceQuery } from "./router.js";
import { tableNode, visibleRows } from "./plan.js";
import { countOf, Tree } from "./tree.js";

/** The trees that were shown, by the path of the view, to come back to. */
const kept = new Map();

/** What a node is known by when a tree is read again. @param {import("./plan.js").PlanNode} node */
const keyOf = (node) => `${node.kind} ${node.vrf} ${node.block ? blockText(node.block) : ""} ${node.record?.id ?? ""}`;

/** Opens the nodes that were open before. @param {import("./plan.js").Reader} reader */
async function reopen(reader, nodes, keys) {
  for (const node of nodes) {
    if (!keys.has(keyOf(node))) continue;
    await reader.read(node);
    node.open = true;
    await reopen(reader, node.children, keys);
  }
}

/** Opens the way to a block; gives the node nearest to it. Where all tables are shown, the way begins in the one that is named. */
async function openWay(reader, nodes, block, table) {
  let [level, nearest] = [nodes, null];
  const root = nodes.find((node) => node.kind === "table" && String(node.vrf ?? "") === table);
  if (root) {
    level = await reader.read(root);
    root.open = true;
  }
  for (;;) {
    const next = level.find((node) => node.block && contains(node.block, block));
    if (!next) return nearest;
    nearest = next;
    if (blockText(next.block) === blockText(block) && next.kind === "prefix") return nearest;
    await reader.read(next);
    if (next.children.length === 0) return nearest;
    next.open = true;
    level = next.children;
  }
}

/** How many rows a plan begins with, if its first request has read them. */
const FIRST_ROWS = 40;

/** Opens what is read already, level by level, while it fits. */
function openFirst(roots) {
  for (;;) {
    const rows = visibleRows(roots);
    const next = rows.find(({ node }) => !node.open && node.children?.length > 0 && rows.length + node.children.length <= FIRST_ROWS);
    if (!next) return;
    next.node.open = true;
  }
}

/** The roots of a view: all tables, or what is inside one. */
async function rootsOf(reader, names, asked) {
  if (asked === undefined) {
    const roots = [tableNode(null), ...names.lists.vrfs.map(tableNode)];
    await reader.read(roots[0]);
    roots[0].open = true;
    return roots;
  }
  const vrf = asked === "global" ? null : Number(asked);
  const root = tableNode(vrf === null ? null : names.byId.vrfs.get(vrf) ?? { id: vrf, name: `VRF ${vrf}` });
  return reader.read(root);
}

/** What the top of the view says of the table. */
function headOf(names, asked, actions) {
  const vrf = asked === undefined || asked === "global" ? null : names.byId.vrfs.get(Number(asked));
  const title = asked === undefined ? "All tables" : vrf === null ? "Global table" : vrf?.name ?? `VRF ${asked}`;
  const about = el("p", { class: "muted about" }, vrf?.rd ? `${vrf.rd} · ` : "", vrf?.description ?? "");
  return el("div", { class: "view-head" }, el("div", {}, el("h1", {}, title), about), el("div", { class: "actions" }, switchOf(names, asked), actions));
}

/** The switch of the table that is shown. */
function switchOf(names, asked) {
  return tableChoice(names, asked ?? "", (value) => {
    window.location.hash = hrefOf(value === "" ? ["plan"] : ["plan", value]);
  });
}

/** Says how many records there are, once they are counted. */
async function showCounts(place, asked, signal) {
  const vrf = asked === undefined ? undefined : asked === "global" ? null : Number(asked);
  const kinds = [["prefixes", "prefix", "prefixes"], ["ip-ranges", "range"], ["ip-addresses", "address", "addresses"]];
  const counts = await Promise.all(kinds.map(([kind]) => get(`${kind}/`, { vrf_id: vrf, limit: 1 }, signal)));
  place.append(counts.map((page, index) => countOf(page.count, ...kinds[index].slice(1))).join(" · "));
}

/** The tree of the view: the one that was there, its open nodes read again, or a new one. */
async function treeModel(key, context, asked) {
  const { names, signal } = context;
  const reader = readerOf(names.lists.aggregates, signal);
  const before = kept.get(key);
  const roots = await rootsOf(reader, names, asked);
  if (before) await reopen(reader, roots, before.open);
  else if (!context.route.query.has("at")) openFirst(roots);
  return { reader, roots, before };
}

/** @param {object} context of the view: see app.js */
export async function showPlan(main, context) {
  const { names, signal, route } = context;
  await names.load(signal);
  const asked = route.path[1];
  const key = route.path.join("/");
  const { reader, roots, before } = await treeModel(key, context, asked);
  const at = readBlock(route.query.get("at") ?? "");
  const found = at ? await openWay(reader, roots, at, route.query.get("table") ?? "") : null;
  const tree = new Tree(reader, roots, {
    signal,
    roleName: (id) => names.roleName(id),
    rirName: (id) => names.rirName(id),
    onFault: context.onFault,
    onMove: (node) => node.block && replaceQuery({ at: blockText(node.block), table: asked === undefined ? node.vrf : null }),
  });
  const head = headOf(names, asked, context.planActions?.(asked) ?? []);
  const isEmpty = roots.length === 0 || (asked === undefined && roots.length === 1 && roots[0].children.length === 0);
  fill(main, head, isEmpty ? emptyPlan(asked) : tree.element);
  main.classList.add("filled");
  if (!isEmpty) begin(tree, found, before);
  showCounts(head.querySelector(".about"), asked, signal).catch(context.onFault);
  context.onLeave(() => {
    const open = new Set(visibleRows(roots).filter(({ node }) => node.open).map(({ node }) => keyOf(node)));
    kept.set(key, { open, top: tree.element.scrollTop });
    tree.end();
  });
}

/** Shows the row that the address names, or the place that was left. */
function begin(tree, found, before) {
  tree.start();
  const index = tree.rows.findIndex(({ node }) => node === found);
  if (index >= 0) {
    tree.active = index;
    tree.element.classList.add("located");
    tree.window.reveal(index);
    tree.markActive();
  } else if (before) {
    tree.element.scrollTop = before.top;
  }
}

/** What is said where there is nothing. @param {string|undefined} asked the table */
const emptyPlan = (asked) =>
  el("div", { class: "empty" }, el("h2", {}, "No prefixes yet"), el("p", { class: "muted" },
    asked === undefined ? "The register is empty." : "This table is empty."));
