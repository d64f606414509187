/**
 * The VRFs, roles, RIRs and aggregates: at most 1,000 of each, so they are read whole, and read again when the register has changed.
 * @module
 */
import { get, placeNow, PAGE } from "./api.js";

const KINDS = ["vrfs", "roles", "rirs", "aggregates"];

export class Names {
  constructor() {
    Object.assign(this, { place: null, lists: {}, byId: {} });
  }

  /** Reads them if they are not those of the last place that was seen. @param {?AbortSignal} [signal] */
  async load(signal) {
    if (this.place !== null && this.place === placeNow()) return this;
    const pages = await Promise.all(KINDS.map((kind) => get(`${kind}/`, { limit: PAGE }, signal)));
    KINDS.forEach((kind, index) => {
      this.lists[kind] = pages[index].results;
      this.byId[kind] = new Map(pages[index].results.map((record) => [record.id, record]));
    });
    this.place = placeNow();
    return this;
  }

  /** They are read again the next time. */
  forget() {
    this.place = null;
  }

  /** @param {string} kind @param {?number} id @param {string} none */
  nameOf(kind, id, none = "") {
    return id === null ? none : this.byId[kind]?.get(id)?.name ?? `${kind} ${id}`;
  }

  /** @param {?number} id */
  tableName(id) {
    return this.nameOf("vrfs", id, "Global table");
  }

  /** @param {?number} id */
  roleName(id) {
    return this.nameOf("roles", id);
  }

  /** @param {number} id */
  rirName(id) {
    return this.nameOf("rirs", id);
  }
}
