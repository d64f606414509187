/**
 * Claims: the next free addresses or blocks of a prefix or a range.
 * @module
 */
import { ask, Unanswered } from "./api.js";
import { copyButton, copyText, button, el } from "./dom.js";
import { recordList } from "./actions.js";
import { Form } from "./form.js";
import { CLAIMS, titleOf } from "./kinds.js";
import { rangeEnds } from "./space.js";
import { blockText } from "./address.js";
import { blockOver, greatestId, newSince, showUncertain } from "./uncertain.js";

const MADE = { "available-ips": "ip-addresses", "available-prefixes": "prefixes" };

/** Where the records that a claim makes are found. */
function claimedIn(what, kind, record) {
  const vrf = { vrf_id: record.vrf };
  if (kind === "prefixes") return { ...vrf, [what === "available-ips" ? "parent" : "within"]: record.prefix };
  const { family, first, last } = rangeEnds(record);
  return { ...vrf, parent: blockText(blockOver(family, first, last)) };
}

/** The fields of a claim. */
function fieldsOf(what, record) {
  const number = { name: "number", label: "How many", type: "number", initial: 1, help: "Up to 1,000, all of them or none" };
  const length = Number(record.prefix?.split("/")[1]);
  const most = record.family === 4 ? 32 : 128;
  const usual = record.family === 4 ? Math.min(most, Math.max(length + 1, 26)) : Math.min(most, Math.max(length + 1, 64));
  const size = { name: "prefix_length", label: "Length", type: "number", required: true, initial: usual, help: `Above ${length}, up to ${most}` };
  return [...(what === "available-prefixes" ? [size] : []), number, ...CLAIMS[what]];
}

/** Shows what was claimed, to be copied. */
function showClaimed(form, what, made, context) {
  const texts = made.map((record) => (what === "available-ips" ? record.address.split("/")[0] : record.prefix));
  const one = el("p", { class: "claimed" }, el("span", { class: "address" }, texts[0]), copyButton(texts[0]));
  const all = el("div", {}, el("p", {}, `${made.length.toLocaleString("en")} are yours:`),
    el("div", { class: "made-box", tabindex: 0 }, recordList(MADE[what], made)));
  const copy = button(made.length === 1 ? "Copy" : "Copy all", () => copyText(texts.join("\n")), { class: "button" });
  form.replace(made.length === 1 ? "It is yours" : "They are yours", [made.length === 1 ? one : all],
    [copy, button("Done", () => form.close(), { class: "button main" })]);
  form.dialog.addEventListener("close", () => context.show(), { once: true });
}

/**
 * Asks for a claim and makes it.
 * @param {"available-ips"|"available-prefixes"} what @param {string} kind @param {object} record a prefix or a range @param {object} context of the view
 */
export function showClaim(what, kind, record, context) {
  const title = `${what === "available-ips" ? "Next free address" : "Next free block"} in ${titleOf(kind, record)}`;
  const query = claimedIn(what, kind, record);
  const send = async ({ number, ...item }, form) => {
    if (!Number.isInteger(number) || number < 1 || number > 1000) {
      form.showFault(Object.assign(new Error("number is a whole number from 1 to 1,000"), { code: "field" }));
      return;
    }
    const greatest = await greatestId(MADE[what], query);
    try {
      const { value } = await ask("POST", `${kind}/${record.id}/${what}/`, { body: Array(number).fill(item) });
      showClaimed(form, what, value, context);
    } catch (fault) {
      if (!(fault instanceof Unanswered)) throw fault;
      const look = async () => {
        const fresh = await newSince(MADE[what], query, greatest);
        if (fresh.length === 0) return { text: `Nothing is new in ${titleOf(kind, record)}: the claim was not made.` };
        return { text: `New in ${titleOf(kind, record)} since then (${fresh.length}); look whether they are yours:`,
          list: el("div", { class: "made-box", tabindex: 0 }, recordList(MADE[what], fresh)) };
      };
      const again = () => {
        form.restore(title, { number, ...item });
        form.onSubmit();
      };
      showUncertain(form, look, { again, done: () => context.show() });
    }
  };
  new Form({ title, fields: fieldsOf(what, record), values: {}, submit: "Claim", names: context.names, send }).open();
}
