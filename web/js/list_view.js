/**
 * All records of a kind as a table: `#/ip-ranges`, with `?vrf=global`, `?vrf=3`, `?status=` and `?family=` to choose from them.
 * @module
 */
import { get } from "./api.js";
import { columnsOf } from "./columns.js";
import { el, fill } from "./dom.js";
import { KINDS } from "./kinds.js";
import { hrefOf } from "./router.js";
import { RecordTable } from "./table.js";

/**
 * A choice that changes the address of the view.
 * @param {string} label @param {[string, string][]} options @param {string} value @param {function(string): void} onChange
 */
export function choice(label, options, value, onChange) {
  const select = el("select", { "aria-label": label, on: { change: () => onChange(select.value) } },
    options.map(([one, text]) => el("option", { value: one }, text)));
  select.value = options.some(([one]) => one === value) ? value : options[0][0];
  return el("label", { class: "choice" }, el("span", {}, label), select);
}

/** The switch of the table. @param {import("./names.js").Names} names */
export function tableChoice(names, value, onChange) {
  const vrfs = names.lists.vrfs.map((record) => [String(record.id), record.rd ? `${record.name} (${record.rd})` : record.name]);
  return choice("Table", [["", "All tables"], ["global", "Global table"], ...vrfs], value, onChange);
}

/** The choices of a kind: the tables, the statuses and the families that it has. */
function choicesOf(kind, context) {
  const { names, route } = context;
  const given = Object.fromEntries(route.query);
  const go = (name) => (value) => {
    window.location.hash = hrefOf(route.path, { ...given, [name]: value });
  };
  const fields = KINDS[kind].fields;
  const status = fields.find(({ name }) => name === "status");
  const made = [];
  if (fields.some(({ name }) => name === "vrf")) made.push(tableChoice(names, given.vrf, go("vrf")));
  if (status) made.push(choice("Status", [["", "Any status"], ...status.choices], given.status, go("status")));
  if (KINDS[kind].isPlace) made.push(choice("Family", [["", "Both families"], ["4", "IPv4"], ["6", "IPv6"]], given.family, go("family")));
  return made;
}

/** The filters of the register that the address of the view asks for. @param {URLSearchParams} query */
export function filtersOf(query) {
  const [vrf, status, family, role, rir] = ["vrf", "status", "family", "role", "rir"].map((name) => query.get(name) ?? undefined);
  return { vrf_id: vrf === "global" ? null : vrf, status, family, role_id: role, rir_id: rir };
}

/** A table of the records that pass filters. */
export function recordTable(kind, filters, context, label = KINDS[kind].many) {
  const load = async (offset, limit) => {
    const page = await get(`${kind}/`, { ...filters, limit, offset }, context.signal);
    return { rows: page.results, total: page.count };
  };
  const table = new RecordTable({ label, file: `${kind}.csv`, columns: columnsOf(kind, context.names), load,
    empty: `No ${KINDS[kind].many.toLowerCase().replace("vrfs", "VRFs").replace("rirs", "RIRs")} here`, onFault: context.onFault });
  context.onLeave(() => table.end());
  return table;
}

/** @param {object} context of the view: see app.js */
export async function showList(main, context) {
  const { names, signal, route } = context;
  const kind = route.path[0];
  await names.load(signal);
  const table = recordTable(kind, filtersOf(route.query), context);
  const head = el("div", { class: "view-head" }, el("h1", {}, KINDS[kind].many),
    el("div", { class: "actions" }, choicesOf(kind, context), context.listActions?.(kind, route)));
  main.classList.add("filled");
  fill(main, head, table.element);
  await table.load();
}
