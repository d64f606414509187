/**
 * A change that was not answered: it may have been made or not. What the register has now is shown before the change can be sent again.
 * @module
 */
import { get, PAGE } from "./api.js";
import { blockText, firstOf, readMasked, width } from "./address.js";
import { button, el, fill } from "./dom.js";

const AGAIN_SECONDS = 2;

/** The smallest block around two addresses. */
export function blockOver(family, first, last) {
  for (let length = width(family); ; length -= 1) {
    const block = { family, number: firstOf({ family, number: first, length }), length };
    if (firstOf({ family, number: last, length }) === block.number) return block;
  }
}

/** The greatest id that a list has: the last one, since lists are by id. @param {string} kind @param {object} query */
export async function greatestId(kind, query) {
  const { count, results } = await get(`${kind}/`, { ...query, limit: 1 });
  if (count <= 1) return results[0]?.id ?? 0;
  const last = await get(`${kind}/`, { ...query, limit: PAGE, offset: count - 1 });
  return Math.max(0, ...last.results.map((record) => record.id));
}

/** The records of a list that came after an id. @param {string} kind @param {object} query @param {number} id */
export async function newSince(kind, query, id) {
  const { count } = await get(`${kind}/`, { ...query, limit: 1 });
  let found = [];
  for (let end = count; end > 0; end -= PAGE) {
    const offset = Math.max(0, end - PAGE);
    const page = await get(`${kind}/`, { ...query, limit: end === count ? PAGE : end - offset, offset });
    const fresh = page.results.filter((record) => record.id > id);
    found = [...fresh, ...found];
    if (fresh.length < page.results.length) break;
  }
  return found;
}

/** What a new record of a kind would be found by. @param {string} kind @param {object} body */
export function queryOf(kind, body) {
  const vrf = body.vrf ?? null;
  const address = readMasked(body.address ?? "") ?? readMasked(`${body.address}/32`);
  if (kind === "prefixes" && readMasked(body.prefix)) return { vrf_id: vrf, within_include: body.prefix };
  if (kind === "ip-addresses" && address) return { vrf_id: vrf, parent: blockText({ ...address, length: width(address.family) }) };
  if (kind === "ip-ranges" || kind === "ip-addresses") return { vrf_id: vrf };
  return {};
}

/**
 * Shows in the form's dialog that a change was not answered, asks until the register answers, and shows what it has.
 * @param {import("./form.js").Form} form
 * @param {function(): Promise<{text: string, list?: Node, isDone?: boolean}>} look reads what the register has now
 * @param {{again: function(): void, done: function(): void}} then
 */
export function showUncertain(form, look, { again, done }) {
  const said = el("p", { role: "status" }, "Waiting for the register …");
  const place = el("div", {});
  const close = button("Close", () => form.close());
  form.replace("Not answered", [el("p", { class: "warning" }, "The register did not answer: what you sent may have been done or not."), said, place], [close]);
  let timer = 0;
  let isOpen = true;
  form.dialog.addEventListener("close", () => {
    isOpen = false;
    clearTimeout(timer);
    done();
  }, { once: true });
  const ask = async () => {
    try {
      const found = await look();
      if (!isOpen) return;
      fill(said, found.text);
      fill(place, found.list);
      const send = button("Send again", again, { class: "button" });
      const end = button("Close", () => form.close(), { class: "button main" });
      fill(form.bar, found.isDone ? [end] : [send, end]);
      end.focus();
    } catch {
      if (isOpen) timer = setTimeout(ask, AGAIN_SECONDS * 1000);
    }
  };
  ask();
}
