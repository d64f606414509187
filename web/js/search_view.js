/**
 * The search: `#/search?q=`. An address says who has it, in which prefix, and whether it is free; a block what is there; another text is
 * looked for as a DNS name, and in the texts of VRFs, roles, RIRs, aggregates, ranges and prefixes.
 * @module
 */
import { get, isLeft, readAll } from "./api.js";
import { addressText, blockAround, blockText, readAddress, readBlock, readMasked, width } from "./address.js";
import { columnsOf } from "./columns.js";
import { button, copyButton, el, fill } from "./dom.js";
import { KINDS } from "./kinds.js";
import { crumbs } from "./prefix_view.js";
import { hrefOf } from "./router.js";
import { verdictOf } from "./space.js";
import { loadFrom, RecordTable } from "./table.js";
import { countOf } from "./tree.js";

/** What a text asks for. @param {string} text */
export function readQuestion(text) {
  const words = text.trim();
  const masked = readMasked(words);
  const block = readBlock(words);
  const address = readAddress(words) ?? (masked && !block ? { family: masked.family, number: masked.number } : null);
  if (address) return { kind: "address", address };
  if (block && block.length === width(block.family)) return { kind: "address", address: { family: block.family, number: block.number } };
  return block ? { kind: "block", block } : { kind: "text", text: words };
}

/** A list of records with its title; nothing if there are none. */
function section(title, kind, records, context) {
  if (records.length === 0) return null;
  const table = new RecordTable({ label: title, file: `${kind}.csv`, columns: columnsOf(kind, context.names), load: loadFrom(records),
    onFault: context.onFault });
  context.onLeave(() => table.end());
  queueMicrotask(() => table.load());
  table.element.style.setProperty("--shown", String(Math.min(records.length, 12)));
  return el("section", { class: "found" }, el("h2", {}, title), table.element);
}

/** By table: what is around an address. */
function byTable(prefixes, ranges, addresses) {
  const tables = new Map();
  const at = (vrf) => tables.get(vrf) ?? tables.set(vrf, { vrf, prefixes: [], ranges: [], addresses: [] }).get(vrf);
  for (const one of prefixes) at(one.vrf).prefixes.push(one);
  for (const one of ranges) at(one.vrf).ranges.push(one);
  for (const one of addresses) at(one.vrf).addresses.push(one);
  return [...tables.values()].sort((one, other) => (one.vrf ?? 0) - (other.vrf ?? 0));
}

/** Who has an address in a table, where it is, and whether it is free. */
function answerOf(address, found, context) {
  const { names } = context;
  const outer = found.prefixes.sort((one, other) => readBlock(one.prefix).length - readBlock(other.prefix).length);
  const prefix = outer[outer.length - 1];
  const { isFree, why } = verdictOf(address, prefix, found.ranges, found.addresses);
  const text = addressText(address);
  const holders = found.addresses.map((one) =>
    el("li", {}, el("a", { href: hrefOf(["ip-addresses", one.id]), class: "address" }, one.address), one.dns_name ? ` ${one.dns_name}` : "",
      one.description ? ` · ${one.description}` : "", ` · ${one.status.label}`));
  const ranges = found.ranges.map((one) => el("li", {}, "in range ", el("a", { href: hrefOf(["ip-ranges", one.id]), class: "address" },
    KINDS["ip-ranges"].title(one))));
  const take = isFree && context.mayChange
    ? button("Create it", () => context.create("ip-addresses", { address: `${text}/${readBlock(prefix.prefix).length}`, vrf: found.vrf }),
      { class: "button small" }) : null;
  const word = found.addresses.length > 0 ? "Taken" : isFree ? "Free" : "Not free";
  return el("section", { class: "panel answer" },
    crumbs(names, found.vrf, outer),
    el("p", { class: "verdict-line" }, el("span", { class: `verdict ${isFree ? "free" : "taken"}` }, word),
      found.addresses.length > 0 || isFree ? null : ` ${why}`, take),
    el("ul", { class: "plain" }, holders, ranges));
}

async function showAddress(place, address, context) {
  const { signal } = context;
  const text = addressText(address);
  const host = blockText(blockAround(address, width(address.family)));
  const [prefixes, ranges, addresses] = await Promise.all([
    get("prefixes/", { contains: text, limit: 1000 }, signal), get("ip-ranges/", { contains: text, limit: 1000 }, signal),
      get("ip-addresses/", { parent: host, limit: 1000 }, signal),
  ]);
  const tables = byTable(prefixes.results, ranges.results, addresses.results);
  const none = el("p", { class: "muted none" }, "No prefix, range or address has it.");
  fill(place, el("h2", { class: "asked" }, el("span", { class: "address with-copy" }, text, copyButton(text))),
    tables.length === 0 ? none : tables.map((found) => answerOf(address, found, context)));
}

async function showBlock(place, block, context) {
  const { signal, names } = context;
  const text = blockText(block);
  const [same, outer, inner, addresses] = await Promise.all([
    get("prefixes/", { prefix: text, limit: 1000 }, signal), get("prefixes/", { contains: text, limit: 1000 }, signal),
    get("prefixes/", { within: text, limit: 1000 }, signal), get("ip-addresses/", { parent: text, limit: 1000 }, signal),
  ]);
  const aggregates = names.lists.aggregates.filter((one) => one.prefix === text);
  const wider = outer.results.filter((one) => one.prefix !== text);
  const some = (number) => number.toLocaleString("en");
  const more = ({ count, results }, what) => (count > results.length ? `${what} (the first ${some(results.length)} of ${some(count)})` : what);
  const free = same.count === 0 ? el("p", { class: "muted none" }, "No prefix is this block.",
    context.mayChange ? [" ", button("Create it", () => context.create("prefixes", { prefix: text }), { class: "button small" })] : null) : null;
  fill(place, el("h2", { class: "asked" }, el("span", { class: "address with-copy" }, text, copyButton(text))), free,
    section("The prefix", "prefixes", same.results, context), section("The aggregate", "aggregates", aggregates, context),
      section("Around it", "prefixes", wider, context),
    section(more(inner, "Prefixes inside it"), "prefixes", inner.results, context),
      section(more(addresses, "Addresses inside it"), "ip-addresses", addresses.results, context));
}

/** Whether a text of a record has the words, without regard to case. */
const mentions = (record, words) => ["name", "slug", "rd", "description"].some((name) => typeof record[name] === "string" &&
  record[name].toLowerCase().includes(words));

/** Reads all prefixes, says how far it is, and can be stopped. */
async function readPrefixes(place, words, context) {
  const abort = new AbortController();
  const said = el("p", { role: "status", class: "muted" });
  const progress = el("progress", { max: 1, value: 0, "aria-label": "Prefixes read" });
  const stop = button("Stop", () => abort.abort(), { class: "button small" });
  const list = el("div", {});
  fill(place, el("div", { class: "progress-line" }, progress, said, stop), list);
  context.onLeave(() => abort.abort());
  let [found, read, total] = [[], 0, 0];
  try {
    await readAll("prefixes", {}, abort.signal, (records, all) => {
      found = found.concat(records.slice(read).filter((record) => mentions(record, words)));
      [read, total] = [records.length, all];
      Object.assign(progress, { max: Math.max(1, all), value: read });
      said.textContent = `${read.toLocaleString("en")} of ${countOf(all, "prefix", "prefixes")} read, ${found.length.toLocaleString("en")} found`;
    });
  } catch (fault) {
    if (!isLeft(fault)) throw fault;
    said.textContent = `Stopped: ${read.toLocaleString("en")} of ${countOf(total, "prefix", "prefixes")} read, ${found.length.toLocaleString("en")} found`;
  }
  progress.hidden = true;
  stop.hidden = true;
  if (!context.signal.aborted) fill(list, section("Prefixes", "prefixes", found, context));
}

async function showText(place, text, context) {
  const { signal, names } = context;
  const words = text.toLowerCase();
  const [named, ranges] = await Promise.all([get("ip-addresses/", { dns_name: text, limit: 1000 }, signal), readAll("ip-ranges", {}, signal)]);
  const lists = ["vrfs", "roles", "rirs", "aggregates"].map((kind) => section(KINDS[kind].many, kind,
    names.lists[kind].filter((record) => mentions(record, words)), context));
  const reading = el("div", {});
  fill(place, section("Addresses with this DNS name", "ip-addresses", named.results, context), lists,
    section("Ranges", "ip-ranges", ranges.filter((record) => mentions(record, words)), context), reading);
  await readPrefixes(reading, words, context);
  if (!signal.aborted && place.querySelectorAll(".found").length === 0) place.append(el("p", { class: "muted none" }, "Nothing has this text."));
}

/** @param {object} context of the view: see app.js */
export async function showSearch(main, context) {
  const text = context.route.query.get("q") ?? "";
  await context.names.load(context.signal);
  const place = el("div", { class: "results" });
  fill(main, el("div", { class: "view-head" }, el("h1", {}, text ? "Search" : "Search for an address, a block, a DNS name or a text")), place);
  if (!text.trim()) return;
  const question = readQuestion(text);
  if (question.kind === "address") await showAddress(place, question.address, context);
  else if (question.kind === "block") await showBlock(place, question.block, context);
  else await showText(place, question.text, context);
}
