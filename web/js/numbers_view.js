/**
 * The views of AS numbers and VLANs: `#/numbers` has every pool as a strip, `#/asn-ranges/1` and `#/vlan-groups/3` one of them.
 * @module
 */
import { toast } from "./actions.js";
import { ask, POOLS, Unanswered } from "./api.js";
import { button, copyButton, copyText, el, fill } from "./dom.js";
import { Form } from "./form.js";
import { factList, logLine } from "./marks.js";
import { getPool, membersOf, POOL_KINDS, readPools } from "./pools.js";
import { hrefOf } from "./router.js";
import { lowestFree, partName, partsOfPool } from "./strip.js";
import { loadFrom, RecordTable } from "./table.js";
import { showUncertain } from "./uncertain.js";

const some = (number) => number.toLocaleString("en");
const NAME = { name: "name", label: "Name", type: "text", required: true, most: 100 };

/** The form of a change: what is not answered is said to be uncertain, and what the pools have now is shown before it is sent again. */
function openForm({ title, fields, submit, isDanger }, { send, look }, context) {
  const onSend = async (values, form) => {
    try {
      await send(values, form);
    } catch (fault) {
      if (!(fault instanceof Unanswered)) throw fault;
      const again = () => {
        form.restore(title, values);
        form.onSubmit();
      };
      showUncertain(form, () => look(values), { again, done: () => context.show() });
    }
  };
  new Form({ title, fields, values: {}, submit, isDanger, names: context.names, send: onSend }).open();
}

/** A new range or group. */
function createPool(kind, context) {
  const { one, most } = POOL_KINDS[kind];
  const bound = (name, label) => ({ name, label, type: "number", required: true, help: `1 to ${some(most)}` });
  const send = async (body, form) => {
    const { value } = await ask("POST", `${kind}/`, { body, base: POOLS });
    form.close();
    toast(`Created ${value.name}`, hrefOf([kind, value.id]));
    context.show();
  };
  const look = async ({ name }) => {
    const found = (await getPool(`${kind}/`)).find((pool) => pool.name === name);
    return found ? { text: "There is one of this name now:", list: el("a", { href: hrefOf([kind, found.id]) }, found.name) }
      : { text: "Nothing has this name. It was not created." };
  };
  openForm({ title: `New ${one} of ${POOL_KINDS[kind].title}`, fields: [NAME, bound("start", "First number"), bound("end", "Last number")], submit: "Create" },
    { send, look }, context);
}

/** Shows the numbers that a claim got. */
function showClaimed(form, made, context) {
  const texts = made.map((one) => String(one.asn ?? one.vid));
  const one = el("p", { class: "claimed" }, el("span", { class: "address" }, texts[0]), copyButton(texts[0]));
  const all = el("div", { class: "made-box", tabindex: 0 }, el("ul", { class: "plain made" }, texts.map((text) => el("li", {}, text))));
  form.replace(made.length === 1 ? "It is yours" : "They are yours", [made.length === 1 ? one : all],
    [button(made.length === 1 ? "Copy" : "Copy all", () => copyText(texts.join("\n"))), button("Done", () => form.close(), { class: "button main" })]);
  form.dialog.addEventListener("close", () => context.show(), { once: true });
}

/** Claims the lowest free numbers of a pool. */
function claim(kind, pool, context) {
  const { members, number, member, most } = POOL_KINDS[kind];
  const count = { name: "count", label: "How many", type: "number", initial: 1, help: "Up to 1,000, all of them or none" };
  let greatest = 0;
  const send = async ({ count: many, ...item }, form) => {
    if (!Number.isInteger(many) || many < 1 || many > 1000) {
      throw Object.assign(new Error("count is a whole number from 1 to 1,000"), { code: "field" });
    }
    greatest = Math.max(0, ...(await membersOf(kind, pool.id)).map((one) => one.id));
    const { value } = await ask("POST", `${kind}/${pool.id}/available-${members}/`, { body: Array(many).fill(item), base: POOLS });
    showClaimed(form, value, context);
  };
  const look = async () => {
    const fresh = (await membersOf(kind, pool.id)).filter((one) => one.id > greatest);
    if (fresh.length === 0) return { text: `Nothing is new in ${pool.name}: the claim was not made.` };
    return { text: `New in ${pool.name} since then (${fresh.length}); look whether they are yours:`,
      list: el("ul", { class: "plain made" }, fresh.map((one) => el("li", {}, `${one[number]} ${one.name ?? ""}`))) };
  };
  const title = `Next free ${member} of ${pool.name}`;
  openForm({ title, fields: [...(most === 4094 ? [NAME] : []), count], submit: "Claim" }, { send, look }, context);
}

/** Deletes a pool, or gives a number back, once its name was typed. */
function remove({ title, path, name, submit, after }, context) {
  const field = { name: "confirm", label: `Type ${name} to confirm`, type: "text" };
  const send = async ({ confirm }, form) => {
    if (confirm.trim() !== name) throw Object.assign(new Error("confirm is not its name. Nothing was changed."), { code: "field" });
    await ask("DELETE", path, { base: POOLS });
    form.close();
    after();
  };
  const look = async () => ({ text: "Look below whether it is still there.", isDone: true });
  openForm({ title, fields: [field], submit, isDanger: true }, { send, look }, context);
}

/** What is said below a strip while no part of it is pointed at. */
function lowestText({ pool, taken }) {
  const lowest = lowestFree(pool, taken);
  return lowest === null ? "Nothing is free" : `The lowest free one is ${lowest}`;
}

/** The strip of a pool: what is given out, to scale. */
function strip({ pool, taken }) {
  const said = el("p", { class: "map-said" }, lowestText({ pool, taken }));
  const size = pool.end - pool.start + 1;
  const lane = el("div", { class: "lane", role: "group", "aria-label": `Strip of ${pool.name}` }, partsOfPool(pool, taken).map((part) => {
    const whole = part.last - part.first + 1;
    return el("span", { class: `stop ${part.taken === 0 ? "free" : part.taken === whole ? "given" : "part"}`, role: "img", "aria-label": partName(part),
      style: { left: `${(100 * (part.first - pool.start)) / size}%`, width: `${(100 * whole) / size}%` } });
  }));
  lane.addEventListener("pointerover", (event) => {
    said.textContent = event.target.closest(".stop")?.getAttribute("aria-label") ?? lowestText({ pool, taken });
  });
  lane.addEventListener("pointerleave", () => {
    said.textContent = lowestText({ pool, taken });
  });
  const row = el("div", { class: "map-row" }, el("span", { class: "map-start" }, String(pool.start)), lane, el("span", { class: "map-end" }, String(pool.end)));
  return el("figure", { class: "map-box" }, row, said);
}

const usedText = ({ pool, taken }) => `${some(taken.length)} of ${some(pool.end - pool.start + 1)}`;

/** @param {object} context of the view: see app.js */
export async function showNumbers(main, context) {
  const kinds = Object.keys(POOL_KINDS);
  const found = await Promise.all(kinds.map((kind) => readPools(kind, context.signal)));
  const create = (kind) => button(`New ${POOL_KINDS[kind].one}`, () => createPool(kind, context));
  const head = el("div", { class: "view-head" }, el("h1", {}, "AS numbers and VLANs"));
  const next = (kind, pool) => button(`Next free ${POOL_KINDS[kind].member}`, () => claim(kind, pool, context),
    { class: "button small", "aria-label": `Next free ${POOL_KINDS[kind].member} of ${pool.name}` });
  const panel = (kind) => (one) => el("section", { class: "panel pool" }, el("div", { class: "section-head" },
    el("h3", {}, el("a", { href: hrefOf([kind, one.pool.id]) }, one.pool.name), el("span", { class: "count" }, `${usedText(one)} given out`)),
    context.mayChange ? next(kind, one.pool) : null), strip(one));
  fill(main, head, kinds.map((kind, index) => [
    el("div", { class: "section-head" }, el("h2", {}, POOL_KINDS[kind].title), context.mayChange ? create(kind) : null),
    found[index].length === 0 ? el("p", { class: "muted none" }, `No ${POOL_KINDS[kind].one} here`) : found[index].map(panel(kind)),
  ]), logLine());
}

/** The numbers that a pool gave out, as a table. */
function memberTable(kind, one, context) {
  const { number, member, members, most } = POOL_KINDS[kind];
  const place = { title: member, name: number, text: (row) => String(row[number]), key: (row) => row[number], size: "minmax(120px, 1fr)",
    cell: (row) => el("span", { class: "with-copy" }, el("span", { class: "address" }, String(row[number])), copyButton(String(row[number]))) };
  const name = { title: "Name", name: "name", text: (row) => row.name ?? "", size: "minmax(120px, 2fr)" };
  const back = (row) => remove({ title: `Give ${row[number]} back?`, path: `${members}/${row.id}/`, name: String(row[number]), submit: "Give back",
    after: () => context.show() }, context);
  const action = { title: "Give back", isAction: true, text: () => "", size: "120px",
    cell: (row) => button("Give back", () => back(row), { class: "button small", "aria-label": `Give ${row[number]} back` }) };
  const table = new RecordTable({ label: `${member}s of ${one.pool.name}`, file: `${members}-of-${one.pool.id}.csv`, load: loadFrom(one.members),
    columns: [place, ...(most === 4094 ? [name] : []), ...(context.mayChange ? [action] : [])], empty: "Nothing is given out", onFault: context.onFault });
  context.onLeave(() => table.end());
  return table;
}

/** @param {object} context of the view: see app.js */
export async function showPool(main, context) {
  const [kind, id] = context.route.path;
  const one = (await readPools(kind, context.signal)).find(({ pool }) => pool.id === Number(id));
  const { title, one: word, member } = POOL_KINDS[kind];
  if (!one) {
    fill(main, el("div", { class: "empty", role: "alert" }, el("h1", {}, "Not there"), el("p", {}, `There is no ${word} ${id}.`)));
    return;
  }
  const gone = () => {
    window.location.hash = hrefOf(["numbers"]);
  };
  const actions = context.mayChange ? [
    button(`Next free ${member}`, () => claim(kind, one.pool, context), { class: "button main" }),
    button("Delete", () => remove({ title: `Delete ${one.pool.name}?`, path: `${kind}/${id}/`, name: one.pool.name, submit: "Delete", after: gone }, context),
      { class: "button danger" })] : [];
  const up = el("nav", { class: "crumbs", "aria-label": "Place" }, el("ol", {}, el("li", {}, el("a", { href: hrefOf(["numbers"]) }, title))));
  const head = el("div", { class: "view-head" }, el("h1", {}, one.pool.name), el("div", { class: "actions" }, actions));
  const facts = factList([["First", String(one.pool.start)], ["Last", String(one.pool.end)], ["Given out", usedText(one)]]);
  const table = memberTable(kind, one, context);
  fill(main, up, head, facts, el("section", { class: "panel" }, strip(one)), el("div", { class: "tab" }, table.element), logLine());
  await table.load();
}
