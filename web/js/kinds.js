/**
 * The seven kinds of records: what they are called, their members, and how a member is shown and asked for.
 * @module
 */

/**
 * @typedef {object} Field
 * @property {string} name as the register calls the member
 * @property {string} label
 * @property {"text"|"block"|"address"|"choice"|"record"|"flag"|"number"} type
 * @property {boolean} [required]
 * @property {[string, string][]} [choices] values and their labels
 * @property {string} [of] the kind of a record that is named
 * @property {*} [initial] what a new record has
 * @property {number} [most] the longest text
 * @property {string} [help]
 */

const choices = (...values) => values.map((value) => [value, { dhcp: "DHCP", slaac: "SLAAC" }[value] ?? value[0].toUpperCase() + value.slice(1)]);
const ROLES = ["loopback", "secondary", "anycast", "vip", "vrrp", "hsrp", "glbp", "carp"].map((value) => [
  value,
  ["vip", "vrrp", "hsrp", "glbp", "carp"].includes(value) ? value.toUpperCase() : value[0].toUpperCase() + value.slice(1),
]);

const NAME = { name: "name", label: "Name", type: "text", required: true, most: 100 };
const SLUG = { name: "slug", label: "Slug", type: "text", required: true, most: 100, help: "Letters, digits, - and _" };
const DESCRIPTION = { name: "description", label: "Description", type: "text", most: 200, initial: "" };
const VRF = { name: "vrf", label: "Table", type: "record", of: "vrfs", none: "Global table", initial: null };
const ROLE = { name: "role", label: "Role", type: "record", of: "roles", none: "No role", initial: null };
const UTILIZED = { name: "mark_utilized", label: "Count as fully used", type: "flag", initial: false };
const POOL = { name: "is_pool", label: "Pool: the first and the last address may be given out", type: "flag", initial: false };
const PREFIX_STATUS = { name: "status", label: "Status", type: "choice", choices: choices("active", "container", "reserved", "deprecated"), initial: "active" };
const RANGE_STATUS = { ...PREFIX_STATUS, choices: choices("active", "reserved", "deprecated") };
const ADDRESS_STATUS = { ...PREFIX_STATUS, choices: choices("active", "reserved", "deprecated", "dhcp", "slaac") };
const ADDRESS_ROLE = { name: "role", label: "Role", type: "choice", choices: [["", "No role"], ...ROLES], initial: "" };
const DNS_NAME = { name: "dns_name", label: "DNS name", type: "text", most: 255, initial: "" };

export const KINDS = {
  vrfs: {
    one: "VRF",
    many: "VRFs",
    title: (record) => record.name,
    fields: [NAME, { name: "rd", label: "Route distinguisher", type: "text", most: 21, initial: "", help: "For example 65000:1" },
      { name: "enforce_unique", label: "Each block and address only once", type: "flag", initial: true }, DESCRIPTION],
  },
  rirs: {
    one: "RIR",
    many: "RIRs",
    title: (record) => record.name,
    fields: [NAME, SLUG, { name: "is_private", label: "Private space", type: "flag", initial: false }, DESCRIPTION],
  },
  roles: {
    one: "role",
    many: "Roles",
    title: (record) => record.name,
    fields: [NAME, SLUG, { name: "weight", label: "Weight", type: "number", initial: 1000, least: 0, most: 32767 }, DESCRIPTION],
  },
  aggregates: {
    one: "aggregate",
    many: "Aggregates",
    title: (record) => record.prefix,
    isPlace: true,
    fields: [{ name: "prefix", label: "Block", type: "block", required: true, help: "For example 10.0.0.0/8" },
      { name: "rir", label: "RIR", type: "record", of: "rirs", required: true }, DESCRIPTION],
  },
  prefixes: {
    one: "prefix",
    many: "Prefixes",
    title: (record) => record.prefix,
    isPlace: true,
    fields: [{ name: "prefix", label: "Block", type: "block", required: true, help: "For example 10.0.0.0/24" }, VRF, PREFIX_STATUS, ROLE, POOL, UTILIZED,
      DESCRIPTION],
  },
  "ip-ranges": {
    one: "range",
    many: "Ranges",
    title: (record) => `${record.start_address.split("/")[0]} – ${record.end_address.split("/")[0]}`,
    confirm: (record) => record.start_address.split("/")[0],
    isPlace: true,
    fields: [{ name: "start_address", label: "First address", type: "address", required: true, help: "With its mask, as 10.0.0.10/24" },
      { name: "end_address", label: "Last address", type: "address", required: true }, VRF, RANGE_STATUS, ROLE, UTILIZED,
      { name: "mark_populated", label: "Filled by others, as by a DHCP server: nothing is claimed here", type: "flag", initial: false }, DESCRIPTION],
  },
  "ip-addresses": {
    one: "address",
    many: "Addresses",
    title: (record) => record.address,
    confirm: (record) => record.address.split("/")[0],
    isPlace: true,
    fields: [{ name: "address", label: "Address", type: "address", required: true, help: "With its mask, as 10.0.0.1/24" }, VRF, ADDRESS_STATUS,
      ADDRESS_ROLE, DNS_NAME, DESCRIPTION],
  },
};

/** What an item of a claim has. */
export const CLAIMS = {
  "available-ips": [ADDRESS_STATUS, ADDRESS_ROLE, DNS_NAME, DESCRIPTION],
  "available-prefixes": [PREFIX_STATUS, ROLE, POOL, UTILIZED, DESCRIPTION],
};

/** What a record is called, and what is typed to delete it. @param {string} kind @param {object} record */
export const titleOf = (kind, record) => KINDS[kind].title(record);
export const confirmOf = (kind, record) => (KINDS[kind].confirm ?? KINDS[kind].title)(record);

/** The value of a member as a body has it: choices are answered with their labels. @param {*} value */
export const bodyValue = (value) => (value !== null && typeof value === "object" ? value.value : value);

/**
 * A member as a text for people.
 * @param {Field} field @param {*} value @param {import("./names.js").Names} names
 */
export function memberText(field, value, names) {
  if (field.type === "flag") return value ? "yes" : "no";
  if (field.type === "record") return names.nameOf(field.of, value, field.none ?? "");
  if (value !== null && typeof value === "object") return value.label;
  const chosen = field.choices?.find(([one]) => one === value);
  return chosen ? chosen[1] : value === null || value === undefined ? "" : String(value);
}

/** The members that differ. @param {string} kind @param {object} one @param {object} other @returns {Field[]} */
export const differences = (kind, one, other) =>
  KINDS[kind].fields.filter(({ name }) => (bodyValue(one[name]) || null) !== (bodyValue(other[name]) || null));

/** Which member a refusal is about; null if it is about none of them. @param {string} code @param {string} detail @param {Field[]} fields */
export function fieldOfRefusal(code, detail, fields) {
  const names = fields.map((field) => field.name);
  const first = (...some) => some.find((name) => names.includes(name)) ?? null;
  if (code === "field") return first(detail.split(" ")[0]);
  if (code === "no_such") return first({ vrfs: "vrf", rirs: "rir", roles: "role" }[detail.split(" ")[0]]);
  const place = ["prefix", "address", "start_address"];
  const known = {
    host_bits: place, zero_mask: place, duplicate: place, populated: place, aggregate_overlap: place, name_taken: ["name"], slug_taken: ["slug"],
      rd_taken: ["rd"],
    coincide: ["enforce_unique"], range_family: ["end_address"], range_mask: ["end_address"], range_order: ["end_address"], range_size: ["end_address"],
    range_overlap: ["start_address"], wanted_length: ["prefix_length"], no_space: ["prefix_length", "number", "count"], bounds: ["start"],
    slaac_family: ["status"], dns_name: ["dns_name"],
  };
  return first(...(known[code] ?? []));
}
