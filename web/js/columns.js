/**
 * The columns of the tables of each kind.
 * @module
 */
import { readMasked } from "./address.js";
import { copyButton, el } from "./dom.js";
import { titleOf } from "./kinds.js";
import { statusMark } from "./marks.js";
import { hrefOf } from "./router.js";

/** A number by which addresses of both families are in order. @param {string} text */
export function placeKey(text) {
  const block = readMasked(text);
  return block ? (BigInt(block.family) << 136n) + (block.number << 8n) + BigInt(block.length) : -1n;
}

/** A link to a record. @param {string} kind @param {object} record @param {string} [text] */
export const recordLink = (kind, record, text = titleOf(kind, record)) =>
  el("a", { href: hrefOf([kind, record.id]), class: kind in PLACES ? "address" : "" }, text);

const PLACES = { aggregates: "prefix", prefixes: "prefix", "ip-ranges": "start_address", "ip-addresses": "address" };

/** The column of the place of a record. */
const place = (kind, title) => ({
  title,
  name: PLACES[kind],
  size: kind === "ip-ranges" ? "minmax(240px, 1.6fr)" : "minmax(170px, 1.3fr)",
  text: (record) => record[PLACES[kind]],
  cell: (record) => el("span", { class: "with-copy" }, recordLink(kind, record),
    copyButton(kind === "ip-addresses" ? record.address.split("/")[0] : titleOf(kind, record))),
  key: (record) => placeKey(record[PLACES[kind]]),
});
const text = (name, title, given = {}) => ({ title, name, text: (record) => String(record[name] ?? ""), rank: 3, ...given });
const flag = (name, title, rank = 3) => ({ title, name, text: (record) => (record[name] ? "yes" : "no"), rank, size: "110px" });
const status = { title: "Status", name: "status", text: (record) => record.status.value, cell: (record) => statusMark(record.status), size: "130px", rank: 2 };
const description = text("description", "Description", { size: "minmax(120px, 2fr)", rank: 2 });
const named = (kind) => ({ title: "Name", name: "name", text: (record) => record.name, cell: (record) => recordLink(kind, record),
  size: "minmax(140px, 1.2fr)" });
const table = (names) => ({
  title: "Table",
  name: "vrf",
  text: (record) => (record.vrf === null ? "" : names.tableName(record.vrf)),
  cell: (record) => el("a", { href: hrefOf(["plan", record.vrf ?? "global"]) }, names.tableName(record.vrf)),
  rank: 3,
});
const role = (names) => ({ title: "Role", name: "role", text: (record) => names.roleName(record.role), rank: 3 });

/** @param {string} kind @param {import("./names.js").Names} names @returns {import("./table.js").Column[]} */
export function columnsOf(kind, names) {
  const all = {
    vrfs: [named(kind), text("rd", "Route distinguisher", { rank: 2 }), flag("enforce_unique", "Only once"), description],
    rirs: [named(kind), text("slug", "Slug"), flag("is_private", "Private"), description],
    roles: [named(kind), text("slug", "Slug"), text("weight", "Weight", { key: (record) => record.weight, size: "90px" }), description],
    aggregates: [place(kind, "Block"), { title: "RIR", name: "rir", text: (record) => names.rirName(record.rir), rank: 2 }, description],
    prefixes: [place(kind, "Block"), table(names), status, role(names), flag("is_pool", "Pool"), description],
    "ip-ranges": [place(kind, "First and last address"), { ...text("end_address", "Last"), size: "0", rank: 9 },
      text("size", "Size", { key: (record) => record.size, size: "90px" }), table(names), status, role(names), flag("mark_populated", "Filled by others"),
        description],
    "ip-addresses": [place(kind, "Address"), text("dns_name", "DNS name", { size: "minmax(120px, 1.5fr)", rank: 2 }), table(names), status,
      { title: "Role", name: "role", text: (record) => record.role?.value ?? "", cell: (record) => record.role?.label ?? "", rank: 3, size: "100px" },
        description],
  };
  return all[kind];
}
