/**
 * Requests to the register, and to the pools of AS numbers and VLANs. Their paths are below `register/`, beside the folder of the page, where nginx passes
 * them on.
 * @module
 */

/** The register refused: nothing has changed. */
export class Refusal extends Error {
  /** @param {number} status @param {string} code @param {string} detail */
  constructor(status, code, detail) {
    super(detail);
    Object.assign(this, { status, code, detail });
  }
}

/** No answer of the register came: what was asked may have been done or not. */
export class Unanswered extends Error {}

/** An address beside the folder of the page, without a name and a password that the page was opened with. @param {string} path */
function beside(path) {
  const url = new URL(path, document.baseURI);
  return Object.assign(url, { username: "", password: "", hash: "", search: "" });
}

export const REGISTER = beside("../register/api/ipam/");
export const POOLS = beside("../register/pools/api/ipam/");
const READ_SECONDS = 30;
const CHANGE_SECONDS = 60;

/** Tells of the answers: `place` with the place of each one, `silent` when none came; both with the base of the request. */
export const answers = new EventTarget();

/** The place of the last answer of the register. @type {?number} */
let lastPlace = null;
export const placeNow = () => lastPlace;

/** @param {Response} response @param {URL} base */
function notePlace(response, base) {
  const text = response.headers.get("Ipam-Place");
  if (text === null) return null;
  if (base === REGISTER) lastPlace = Number(text);
  answers.dispatchEvent(new CustomEvent("place", { detail: { place: Number(text), base } }));
  return Number(text);
}

/** Says that no answer came. @param {URL} base */
const noteSilence = (base) => answers.dispatchEvent(new CustomEvent("silent", { detail: { base } }));

/** What an answer that is no success says. @param {Response} response @param {string} text */
function faultOf(response, text) {
  let value = null;
  try {
    value = JSON.parse(text);
  } catch {
    value = null;
  }
  const isOfRegister = typeof value?.code === "string" || response.status < 500;
  if (typeof value?.detail === "string" && isOfRegister) return new Refusal(response.status, String(value.code ?? ""), value.detail);
  if (response.status === 401) return new Refusal(401, "stranger", "The password is not known. Load the page again to give another one.");
  if (response.status < 500) return new Refusal(response.status, "", `The server answered ${response.status} ${response.statusText}`);
  return new Unanswered("The register did not answer.");
}

/** A signal that ends with the caller's, or after so many seconds. @param {?AbortSignal} signal @param {number} seconds */
function until(signal, seconds) {
  const timeout = AbortSignal.timeout(seconds * 1000);
  return signal ? AbortSignal.any([signal, timeout]) : timeout;
}

/**
 * Sends a request and gives the answer with its place. Throws a Refusal or Unanswered, or an AbortError if the caller's signal ended.
 * @param {string} method
 * @param {string} path below /api/ipam/, as "prefixes/1/"
 * @param {{query?: object, body?: *, signal?: ?AbortSignal, base?: URL}} [given]
 * @returns {Promise<{value: *, place: ?number}>}
 */
export async function ask(method, path, { query, body, signal, base = REGISTER } = {}) {
  const target = new URL(path, base);
  for (const [name, value] of Object.entries(query ?? {})) {
    if (value !== undefined && value !== "") target.searchParams.set(name, value === null ? "null" : String(value));
  }
  const options = { method, cache: "no-store", redirect: "error", credentials: "same-origin" };
  options.signal = until(signal, method === "GET" ? READ_SECONDS : CHANGE_SECONDS);
  if (body !== undefined) Object.assign(options, { body: JSON.stringify(body), headers: { "Content-Type": "application/json" } });
  let response;
  let text;
  try {
    response = await fetch(target, options);
    text = await response.text();
  } catch (fault) {
    if (signal?.aborted) throw fault;
    noteSilence(base);
    throw new Unanswered("The register did not answer.");
  }
  const place = notePlace(response, base);
  if (response.ok) return { value: text === "" ? null : JSON.parse(text), place };
  const fault = faultOf(response, text);
  if (fault instanceof Unanswered) noteSilence(base);
  throw fault;
}

/** The value of a GET. @param {string} path @param {object} [query] @param {?AbortSignal} [signal] */
export const get = async (path, query, signal) => (await ask("GET", path, { query, signal })).value;

/** How many records pass the filters. @param {string} kind @param {object} query @param {?AbortSignal} [signal] */
export const count = async (kind, query, signal) => (await get(`${kind}/`, { ...query, limit: 1 }, signal)).count;

/** The most records that a page of the register has. */
export const PAGE = 1000;

/**
 * Reads all pages of a list. After each page `onPage` is called with the records so far and their number in all; if it returns false,
 * reading stops.
 * @param {string} kind @param {object} query @param {?AbortSignal} [signal] @param {function(object[], number): (boolean|void)} [onPage]
 * @returns {Promise<object[]>}
 */
export async function readAll(kind, query, signal, onPage) {
  const records = [];
  for (;;) {
    const page = await get(`${kind}/`, { ...query, limit: PAGE, offset: records.length }, signal);
    records.push(...page.results);
    if (onPage?.(records, page.count) === false || page.results.length === 0 || records.length >= page.count) return records;
  }
}

/** A queue that runs at most so many tasks at once; a task whose signal has ended is left out. */
export class Queue {
  /** @param {number} most */
  constructor(most) {
    Object.assign(this, { most, running: 0, waiting: [] });
  }

  /** @template T @param {function(): Promise<T>} task @param {?AbortSignal} [signal] @returns {Promise<T>} */
  run(task, signal) {
    return new Promise((resolve, reject) => {
      this.waiting.push({ task, signal, resolve, reject });
      this.next();
    });
  }

  /** Begins the tasks for which there is room. */
  next() {
    while (this.running < this.most && this.waiting.length > 0) {
      const { task, signal, resolve, reject } = this.waiting.shift();
      if (signal?.aborted) {
        reject(signal.reason);
        continue;
      }
      this.running += 1;
      task().then(resolve, reject).finally(() => {
        this.running -= 1;
        this.next();
      });
    }
  }
}

/** The figures and counts that a view asks for on the side: six at once. */
export const asides = new Queue(6);

/** Whether the error says only that the view was left. @param {Error} fault */
export const isLeft = (fault) => fault?.name === "AbortError";

/** Who is asking, whether that user may change, and whether there are pools; where the proxy does not say, changes are offered. */
export async function whoAsks() {
  try {
    const response = await fetch(beside("../register/user"), { cache: "no-store", credentials: "same-origin" });
    const value = response.ok ? await response.json() : {};
    return { user: typeof value.user === "string" ? value.user : "", mayChange: value.may_change !== false, hasPools: value.has_pools === true };
  } catch {
    return { user: "", mayChange: true, hasPools: false };
  }
}
