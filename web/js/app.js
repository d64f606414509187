/**
 * The page: its top, its views by their addresses, and whether what is shown is still so.
 * @module
 */
import { createRecord, listActions, planActions, recordActions } from "./actions.js";
import { answers, ask, isLeft, POOLS, REGISTER, Unanswered, whoAsks } from "./api.js";
import { el, fill } from "./dom.js";
import { KINDS } from "./kinds.js";
import { showList } from "./list_view.js";
import { Names } from "./names.js";
import { showNumbers, showPool } from "./numbers_view.js";
import { showPlan } from "./plan_view.js";
import { POOL_KINDS } from "./pools.js";
import { showPrefix } from "./prefix_view.js";
import { showRecord } from "./record_view.js";
import { hrefOf, readHash } from "./router.js";
import { showSearch } from "./search_view.js";

const POLL_SECONDS = 10;
const PAGES = [["plan", "Plan"], ...["prefixes", "ip-addresses", "ip-ranges", "aggregates", "vrfs", "roles", "rirs"].map((kind) => [kind, KINDS[kind].many])];

const main = document.getElementById("view");
const notice = document.getElementById("notice");
const state = { names: new Names(), user: { user: "", mayChange: true, hasPools: false }, leaving: [], abort: null, base: REGISTER, viewPlace: null,
  isOld: false, isSilent: false };

/** Shows that the register changed since the view was read, or that it does not answer. */
function showNotice() {
  const again = () => el("button", { type: "button", class: "button small", on: { click: show } }, "Read again");
  notice.hidden = !(state.isSilent || state.isOld);
  notice.className = state.isSilent ? "notice silent" : "notice old";
  if (state.isSilent) fill(notice, el("span", {}, "The register does not answer. It is asked again every 10 seconds."), again());
  else if (state.isOld) fill(notice, el("span", {}, "The register has changed since this was read."), again());
}

answers.addEventListener("place", ({ detail: { place, base } }) => {
  if (base !== state.base) return;
  state.viewPlace ??= place;
  const isOld = place !== state.viewPlace;
  if (isOld === state.isOld && !state.isSilent) return;
  Object.assign(state, { isOld: state.isOld || isOld, isSilent: false });
  showNotice();
});
answers.addEventListener("silent", ({ detail: { base } }) => {
  if (base !== state.base) return;
  state.isSilent = true;
  showNotice();
});

/** Asks for the place while the page is looked at. */
async function poll() {
  if (document.visibilityState !== "visible") return;
  const { base } = state;
  await (base === POOLS ? ask("GET", "vlan-groups/", { base }) : ask("GET", "vrfs/", { query: { limit: 1 } })).catch(() => null);
}

/** Shows a fault where the view would be, or above it. @param {Error} fault */
function showFault(fault) {
  if (isLeft(fault)) return;
  const again = el("button", { type: "button", class: "button", on: { click: show } }, "Try again");
  const text = fault instanceof Unanswered ? fault.message : fault.code ? `${fault.code}: ${fault.message}` : fault.message;
  fill(main, el("div", { class: "empty", role: "alert" }, el("h2", {}, fault.status === 404 ? "Not there" : "This could not be shown"), el("p", {}, text),
    again));
}

/** Leaves the view that is shown. */
function leave() {
  for (const task of state.leaving.splice(0)) task();
  state.abort?.abort();
  state.abort = new AbortController();
  main.classList.remove("filled");
}

/**
 * What a view is given: its address, a signal that ends when it is left, the names of records, and the changes that the user may make.
 * @param {{path: string[], query: URLSearchParams}} route @param {AbortSignal} signal
 */
function contextOf(route, signal) {
  const { mayChange } = state.user;
  const context = { route, signal, names: state.names, mayChange, onFault: noteFault, onLeave: (task) => state.leaving.push(task), show };
  if (!mayChange) return context;
  return Object.assign(context, {
    create: (kind, first) => createRecord(kind, first, context),
    recordActions: (kind, record) => recordActions(kind, record, context),
    listActions: (kind) => listActions(kind, route, context),
    planActions: (asked) => planActions(asked, context),
  });
}

/** @param {string|undefined} text */
const isId = (text) => text !== undefined && /^[1-9][0-9]{0,9}$/.test(text);

/** The view of an address. @param {string[]} path */
function viewOf([first, second, ...more]) {
  if (more.length > 0) return null;
  if (first === "plan") return showPlan;
  if (first === "search") return showSearch;
  if (first === "numbers") return second === undefined ? showNumbers : null;
  if (Object.hasOwn(POOL_KINDS, first)) return isId(second) ? showPool : null;
  if (!(first in KINDS)) return null;
  if (second === undefined) return showList;
  if (!isId(second)) return null;
  return first === "prefixes" ? showPrefix : showRecord;
}

/** Marks the page in the navigation, and has the search say what was asked. */
function showPlace(route) {
  const pages = document.getElementById("pages");
  const all = state.user.hasPools ? [...PAGES, ["numbers", "Numbers"]] : PAGES;
  const here = Object.hasOwn(POOL_KINDS, route.path[0]) ? "numbers" : route.path[0];
  fill(pages, all.map(([path, text]) => el("a", { href: hrefOf([path]), "aria-current": here === path ? "page" : null }, text)));
  pages.querySelector("[aria-current]")?.scrollIntoView({ block: "nearest", inline: "nearest" });
  const asked = document.getElementById("search-text");
  if (document.activeElement !== asked) asked.value = route.path[0] === "search" ? route.query.get("q") ?? "" : "";
  document.title = [...route.path.map((part) => KINDS[part]?.many ?? part), "Address plan"].join(" · ");
}

/** Shows the view that the address names. */
export async function show() {
  leave();
  const route = readHash(window.location.hash);
  if (route.path.length === 0) {
    window.location.replace(hrefOf(["plan"]));
    return;
  }
  const base = route.path[0] === "numbers" || Object.hasOwn(POOL_KINDS, route.path[0]) ? POOLS : REGISTER;
  Object.assign(state, { base, viewPlace: null, isOld: false, isSilent: state.isSilent && base === state.base });
  showNotice();
  const view = viewOf(route.path);
  showPlace(route);
  const { signal } = state.abort;
  const context = contextOf(route, signal);
  main.setAttribute("aria-busy", "true");
  try {
    if (view) await view(main, context);
    else fill(main, el("div", { class: "empty" }, el("h2", {}, "No such page"), el("p", {}, el("a", { href: hrefOf(["plan"]) }, "The plan"))));
  } catch (fault) {
    if (!isLeft(fault)) showFault(fault);
  } finally {
    if (!signal.aborted) main.removeAttribute("aria-busy");
  }
}

/** A fault of something on the side: the notice has what matters of it. @param {Error} fault */
function noteFault(fault) {
  if (!isLeft(fault) && !(fault instanceof Unanswered)) console.error(fault);
}

async function begin() {
  [state.user] = await Promise.all([whoAsks(), state.names.load().catch(() => null)]);
  const who = document.getElementById("who");
  fill(who, state.user.user ? el("span", { class: "user" }, state.user.user) : null,
    state.user.mayChange ? null : el("span", { class: "tag reading" }, "Reading only"));
  window.addEventListener("hashchange", show);
  document.getElementById("search").addEventListener("submit", (event) => {
    event.preventDefault();
    window.location.hash = hrefOf(["search"], { q: document.getElementById("search-text").value });
  });
  window.setInterval(poll, POLL_SECONDS * 1000);
  document.addEventListener("visibilitychange", poll);
  await show();
}

begin();
