/**
 * Views have addresses: the part behind # is a path and a query, as `#/prefixes/12?tab=addresses`.
 * @module
 */

/** The address of a view. @param {(string|number)[]} path @param {object} [query] names and values; null and undefined ones are left out */
export function hrefOf(path, query = {}) {
  const pairs = Object.entries(query).filter(([, value]) => value !== null && value !== undefined && value !== "");
  const words = new URLSearchParams(pairs.map(([name, value]) => [name, String(value)])).toString().replaceAll("%2F", "/").replaceAll("%3A", ":");
  return `#/${path.map((part) => encodeURIComponent(part)).join("/")}${words ? `?${words}` : ""}`;
}

/** @param {string} part */
function decoded(part) {
  try {
    return decodeURIComponent(part);
  } catch {
    return part;
  }
}

/** Reads the address of a view. @param {string} hash @returns {{path: string[], query: URLSearchParams}} */
export function readHash(hash) {
  const [path, ...query] = hash.replace(/^#?\/?/, "").split("?");
  return { path: path.split("/").filter((part) => part !== "").map(decoded), query: new URLSearchParams(query.join("?")) };
}

/** Changes the query of the view that is shown without a new entry of the history. @param {object} changes */
export function replaceQuery(changes) {
  const { path, query } = readHash(window.location.hash);
  const values = { ...Object.fromEntries(query), ...changes };
  window.history.replaceState(null, "", hrefOf(path, values));
}
