/**
 * Changes: create, edit and delete records of each kind.
 * @module
 */
import { ask, get, Unanswered } from "./api.js";
import { showClaim } from "./claim.js";
import { button, el, fill } from "./dom.js";
import { Form } from "./form.js";
import { bodyValue, confirmOf, differences, KINDS, memberText, titleOf } from "./kinds.js";
import { hrefOf, replaceQuery } from "./router.js";
import { greatestId, newSince, queryOf, showUncertain } from "./uncertain.js";

/** Says what was done, with a link to it. @param {string} text @param {string} [href] */
export function toast(text, href) {
  const place = document.getElementById("toast");
  fill(place, el("span", {}, text), href ? el("a", { href }, "Open") : null,
    button("×", () => fill(place), { class: "close", "aria-label": "Close the message" }));
  clearTimeout(toast.timer);
  toast.timer = setTimeout(() => fill(place), 12_000);
}

/** A list of links to records. @param {string} kind @param {object[]} records */
export const recordList = (kind, records) =>
  el("ul", { class: "plain made" }, records.map((record) => el("li", {},
    el("a", { href: hrefOf([kind, record.id]), class: "address" }, titleOf(kind, record)), record.dns_name ? ` ${record.dns_name}` : "",
    record.description ? ` · ${record.description}` : "")));

/** The names of all kinds are read again, and the view is shown as it is now. */
function refresh(context) {
  context.names.forget();
  context.show();
}

/** A slug that fits a name. @param {string} name */
export const slugOf = (name) => name.normalize("NFKD").toLowerCase().replace(/[^a-z0-9_]+/g, "-").replace(/^-+|-+$/g, "").slice(0, 100);

/** The slug follows the name until it is written by hand. @param {Form} form */
function followName(form) {
  const { name, slug } = form.inputs;
  if (!name || !slug) return;
  let isOwn = false;
  slug.addEventListener("input", () => { isOwn = true; });
  name.addEventListener("input", () => { if (!isOwn) slug.value = slugOf(name.value); });
}

/** What is new since a creation that was not answered. */
async function lookForNew(kind, query, greatest) {
  const fresh = await newSince(kind, query, greatest);
  const many = KINDS[kind].many.toLowerCase();
  if (fresh.length === 0) return { text: `Nothing is new there. It was not created.` };
  return { text: `New since then (${fresh.length} ${fresh.length === 1 ? KINDS[kind].one : many}); look whether it is yours:`, list: recordList(kind, fresh) };
}

/** Creates a record. @param {string} kind @param {object} first values to begin with @param {object} context of the view */
export function createRecord(kind, first, context) {
  const { names } = context;
  const send = async (values, form) => {
    const query = queryOf(kind, values);
    const greatest = await greatestId(kind, query).catch((fault) => (fault instanceof Unanswered ? Promise.reject(fault) : 0));
    try {
      const { value: made } = await ask("POST", `${kind}/`, { body: values });
      form.close();
      toast(`Created ${titleOf(kind, made)}`, hrefOf([kind, made.id]));
      const { path } = context.route;
      if (path[0] === "plan" && kind === "prefixes") replaceQuery({ at: made.prefix, table: path.length === 1 ? made.vrf : null });
      refresh(context);
    } catch (fault) {
      if (!(fault instanceof Unanswered)) throw fault;
      const again = () => {
        form.restore(`New ${KINDS[kind].one}`, values);
        form.onSubmit();
      };
      showUncertain(form, () => lookForNew(kind, query, greatest), { again, done: () => refresh(context) });
    }
  };
  const form = new Form({ title: `New ${KINDS[kind].one}`, fields: KINDS[kind].fields, values: first, submit: "Create", names, send }).open();
  followName(form);
}

/** The members that a user changed. */
function changesOf(kind, shown, values) {
  const named = Object.entries(values).filter(([name, value]) => (bodyValue(shown[name]) ?? null) !== (value ?? null) &&
    !(value === "" && bodyValue(shown[name]) === null));
  return Object.fromEntries(named);
}

/** Shows the record as it was shown, as it is, and what was to be saved. */
function showBoth(form, kind, { shown, now, values }, names, { mine, theirs }) {
  const fields = KINDS[kind].fields.filter(({ name }) => differences(kind, shown, now).some((one) => one.name === name) ||
    name in changesOf(kind, shown, values));
  const rows = fields.map((field) => el("tr", {}, el("th", { scope: "row" }, field.label.split(":")[0]),
    [shown, now, values].map((one) => el("td", {}, memberText(field, one[field.name] ?? null, names)))));
  const head = el("tr", {}, el("td", {}), ["Shown to you", "In the register now", "Yours"].map((text) => el("th", { scope: "col" }, text)));
  form.replace("Somebody changed it meanwhile", [el("p", {}, "Nothing was saved. Both are here:"),
    el("div", { class: "both" }, el("table", {}, el("thead", {}, head), el("tbody", {}, rows)))],
    [button("Cancel", () => form.close()), button("Save mine", mine, { class: "button" }), button("Edit the new one", theirs, { class: "button main" })]);
}

/** Whether a change that was not answered was made. */
async function lookAtRecord(kind, record, changes) {
  const now = await get(`${kind}/${record.id}/`).catch((fault) => (fault.status === 404 ? null : Promise.reject(fault)));
  if (now === null) return { text: "The record is not there any more.", isDone: true };
  const open = Object.keys(changesOf(kind, now, changes));
  return open.length === 0 ? { text: "It is saved.", isDone: true } : { text: "It is not saved: the record is without your changes." };
}

/** Edits a record: before it is saved the record is read again. */
export function editRecord(kind, record, context) {
  const { names } = context;
  const title = `Edit ${titleOf(kind, record)}`;
  let shown = record;
  const save = async (values, form) => {
    const changes = changesOf(kind, shown, values);
    try {
      if (Object.keys(changes).length > 0) await ask("PATCH", `${kind}/${record.id}/`, { body: changes });
      form.close();
      if (Object.keys(changes).length > 0) toast(`Saved ${titleOf(kind, { ...record, ...values })}`);
      refresh(context);
    } catch (fault) {
      if (!(fault instanceof Unanswered)) throw fault;
      const again = () => {
        form.restore(title, values);
        form.onSubmit();
      };
      showUncertain(form, () => lookAtRecord(kind, record, changes), { again, done: () => refresh(context) });
    }
  };
  const send = async (values, form) => {
    const now = await get(`${kind}/${record.id}/`);
    if (differences(kind, shown, now).length === 0) return save(values, form);
    const go = (next, then) => () => {
      form.restore(title, next);
      shown = now;
      if (then) form.onSubmit();
    };
    const merged = { ...now, ...changesOf(kind, shown, values) };
    return showBoth(form, kind, { shown, now, values }, names, { mine: go(merged, true), theirs: go(now, false) });
  };
  new Form({ title, fields: KINDS[kind].fields, values: record, submit: "Save", names, send }).open();
}

/** Deletes a record once its name was typed. */
export function deleteRecord(kind, record, context) {
  const name = confirmOf(kind, record);
  const field = { name: "confirm", label: `Type ${name} to delete it`, type: "text" };
  const gone = (form) => {
    form?.close();
    toast(`Deleted ${titleOf(kind, record)}`);
    context.names.forget();
    window.location.hash = hrefOf(record.vrf === undefined ? [kind] : ["plan", record.vrf ?? "global"]);
  };
  const send = async ({ confirm }, form) => {
    if (confirm.trim() !== name) {
      form.faults.confirm.textContent = "That is not its name. Nothing was deleted.";
      form.inputs.confirm.setAttribute("aria-invalid", "true");
      form.inputs.confirm.focus();
      return;
    }
    try {
      await ask("DELETE", `${kind}/${record.id}/`);
      gone(form);
    } catch (fault) {
      if (!(fault instanceof Unanswered)) throw fault;
      const look = async () => {
        const now = await get(`${kind}/${record.id}/`).catch((other) => (other.status === 404 ? null : Promise.reject(other)));
        return now === null ? { text: "It is deleted.", isDone: true } : { text: "It is still there." };
      };
      const again = () => {
        form.restore(`Delete ${titleOf(kind, record)}`, { confirm: name });
        form.onSubmit();
      };
      showUncertain(form, look, { again, done: () => refresh(context) });
    }
  };
  new Form({ title: `Delete ${titleOf(kind, record)}?`, fields: [field], values: {}, submit: "Delete", isDanger: true, names: context.names, send }).open();
}

/** The buttons of a record. */
export function recordActions(kind, record, context) {
  const claims = [];
  if (kind === "prefixes") {
    const isContainer = record.status.value === "container";
    claims.push(button("Next free address", () => showClaim("available-ips", kind, record, context), { class: isContainer ? "button" : "button main" }));
    claims.push(button("Next free block", () => showClaim("available-prefixes", kind, record, context), { class: isContainer ? "button main" : "button" }));
  }
  if (kind === "ip-ranges" && !record.mark_populated) claims.push(button("Next free address", () => showClaim("available-ips", kind, record, context),
    { class: "button main" }));
  return [...claims, button("Edit", () => editRecord(kind, record, context)),
    button("Delete", () => deleteRecord(kind, record, context), { class: "button danger" })];
}

/** The button of a list. */
export const listActions = (kind, route, context) => {
  const vrf = Number(route.query.get("vrf")) || null;
  return button(`New ${KINDS[kind].one}`, () => createRecord(kind, { vrf }, context), { class: "button main" });
};

/** The buttons of the plan. @param {string|undefined} asked the table */
export const planActions = (asked, context) => [
  button("New prefix", () => createRecord("prefixes", { vrf: Number(asked) || null }, context), { class: "button main" }),
  button("New VRF", () => createRecord("vrfs", {}, context)),
];
