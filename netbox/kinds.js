/*
 * What the form knows of each kind of record: those of the register, and AS numbers and VLANs, which poold has.
 *
 * njs 0.7.9 runs these files. It has no for-of, destructuring, spread, default parameters, optional chaining, classes, Map or Set, and two faults that
 * njs.test.js looks for: after `await` a variable that a closure uses has an older value, unless it is a constant; and a list that is written with a
 * function in it makes a text of the number of its place, wherever that number stands in the program.
 */

/**
 * @typedef {Object} Kind
 * @property {string} source which program has it: `register` or `pools`
 * @property {string[]} members what a request can set
 * @property {string[]} required what POST and PUT have to set
 * @property {Object<string, string>} references a member, and the kind whose id it holds
 * @property {string[]} attributes by which a record that refers to this kind may name it, next to its id
 * @property {string[]} brief what a brief object has, next to id, url, display and description
 * @property {Object<string, string[]>} choices the values of members that have a label
 * @property {Object} constants what NetBox's records have and the register's do not
 * @property {Object<string, string>} [checked] a member that has to name a record of this kind, and is not kept
 * @property {boolean} [isWhole] whether its list has neither pages nor filters
 */

const STATUSES = ['active', 'reserved', 'deprecated'];
const ROLES = ['loopback', 'secondary', 'anycast', 'vip', 'vrrp', 'hsrp', 'glbp', 'carp'];
const PLACED = { comments: '', tenant: null };

/** By the part of the path that names the kind. @type {Object<string, Kind>} */
const KINDS = {
    'vrfs': {
        source: 'register',
        members: ['name', 'rd', 'enforce_unique', 'description'],
        required: ['name'],
        references: {},
        attributes: ['name', 'rd'],
        brief: ['name', 'rd'],
        choices: {},
        constants: Object.assign({ import_targets: [], export_targets: [] }, PLACED),
    },
    'rirs': {
        source: 'register',
        members: ['name', 'slug', 'is_private', 'description'],
        required: ['name', 'slug'],
        references: {},
        attributes: ['name', 'slug'],
        brief: ['name', 'slug'],
        choices: {},
        constants: {},
    },
    'roles': {
        source: 'register',
        members: ['name', 'slug', 'weight', 'description'],
        required: ['name', 'slug'],
        references: {},
        attributes: ['name', 'slug'],
        brief: ['name', 'slug'],
        choices: {},
        constants: {},
    },
    'aggregates': {
        source: 'register',
        members: ['prefix', 'rir', 'description'],
        required: ['prefix', 'rir'],
        references: { rir: 'rirs' },
        attributes: [],
        brief: ['family', 'prefix'],
        choices: {},
        constants: Object.assign({ date_added: null }, PLACED),
    },
    'prefixes': {
        source: 'register',
        members: ['prefix', 'vrf', 'status', 'role', 'is_pool', 'mark_utilized', 'description'],
        required: ['prefix'],
        references: { vrf: 'vrfs', role: 'roles' },
        attributes: [],
        brief: ['family', 'prefix', '_depth'],
        choices: { status: ['container'].concat(STATUSES) },
        constants: Object.assign({ site: null, scope_type: null, scope_id: null, vlan: null }, PLACED),
    },
    'ip-ranges': {
        source: 'register',
        members: ['start_address', 'end_address', 'vrf', 'status', 'role', 'mark_utilized', 'mark_populated', 'description'],
        required: ['start_address', 'end_address'],
        references: { vrf: 'vrfs', role: 'roles' },
        attributes: [],
        brief: ['family', 'start_address', 'end_address'],
        choices: { status: STATUSES },
        constants: PLACED,
    },
    'ip-addresses': {
        source: 'register',
        members: ['address', 'vrf', 'status', 'role', 'dns_name', 'description'],
        required: ['address'],
        references: { vrf: 'vrfs' },
        attributes: [],
        brief: ['family', 'address'],
        choices: { status: STATUSES.concat(['dhcp', 'slaac']), role: ROLES },
        constants: Object.assign({
            nat_inside: null, nat_outside: [], assigned_object: null, assigned_object_type: null, assigned_object_id: null,
        }, PLACED),
    },
    'asn-ranges': {
        source: 'pools',
        members: ['name', 'start', 'end'],
        required: ['name', 'start', 'end'],
        references: {},
        attributes: ['name', 'slug'],
        brief: ['name'],
        choices: {},
        constants: { rir: null, tenant: null },
        checked: { rir: 'rirs' },
        isWhole: true,
    },
    'asns': {
        source: 'pools',
        members: ['asn', 'description'],
        required: ['asn'],
        references: { range: 'asn-ranges' },
        attributes: [],
        brief: ['asn'],
        choices: {},
        constants: Object.assign({ rir: null }, PLACED),
        checked: { rir: 'rirs' },
    },
    'vlan-groups': {
        source: 'pools',
        members: ['name', 'start', 'end'],
        required: ['name'],
        references: {},
        attributes: ['name', 'slug'],
        brief: ['name', 'slug'],
        choices: {},
        constants: { scope_type: null, scope_id: null, scope: null },
        isWhole: true,
    },
    'vlans': {
        source: 'pools',
        members: ['vid', 'name'],
        required: ['vid', 'name'],
        references: { group: 'vlan-groups' },
        attributes: [],
        brief: ['vid', 'name'],
        choices: { status: ['active'] },
        constants: Object.assign({ site: null, role: null, l2vpn_termination: null }, PLACED),
    },
};

/** What every record of NetBox has, and none of the register's. */
const CONSTANTS = { tags: [], custom_fields: {}, created: null, last_updated: null };

/**
 * What is claimed out of a record: by the last part of the path, the kind that a claim makes, what an item of a claim can set, and the members that an item may
 * name if they are those of the record that is claimed from (by its own member's name).
 */
const CLAIMS = {
    'available-ips': {
        makes: 'ip-addresses',
        from: ['prefixes', 'ip-ranges'],
        members: ['status', 'role', 'dns_name', 'description'],
        required: [],
        references: {},
        same: { vrf: 'vrf', prefix: 'prefix', parent: 'prefix' },
    },
    'available-prefixes': {
        makes: 'prefixes',
        from: ['prefixes'],
        members: ['prefix_length', 'status', 'role', 'is_pool', 'mark_utilized', 'description'],
        required: ['prefix_length'],
        references: { role: 'roles' },
        same: { vrf: 'vrf', parent: 'prefix' },
    },
    'available-asns': {
        makes: 'asns',
        from: ['asn-ranges'],
        members: [],
        required: [],
        references: {},
        same: { range: 'id' },
        checked: { rir: 'rirs' },
    },
    'available-vlans': {
        makes: 'vlans',
        from: ['vlan-groups'],
        members: ['name'],
        required: ['name'],
        references: {},
        same: { group: 'id' },
    },
};

/** By the name of a member that a request may repeat, the kind whose record it names. */
const NAMING = { vrf: 'vrfs', group: 'vlan-groups', range: 'asn-ranges' };

/** The kinds whose records have `utilization/`. */
const MEASURED = ['prefixes', 'ip-ranges', 'aggregates'];

/** Members of a request that are ignored, since a client may send back what it was answered. Counts (`prefix_count`) are too. */
const READ_ONLY = ['id', 'url', 'display', 'display_url', 'family', 'size', 'children', '_depth', 'created', 'last_updated'];

/** The label of a choice. @param {string} value @returns {string} */
function labelOf(value) {
    return ['dhcp', 'slaac', 'vip', 'vrrp', 'hsrp', 'glbp', 'carp'].includes(value) ? value.toUpperCase() : value[0].toUpperCase() + value.slice(1);
}

/** Whether an object has a member of its own. @param {Object} object @param {string} name @returns {boolean} */
function has(object, name) {
    return Object.prototype.hasOwnProperty.call(object, name);
}

/** Gives an object a member of its own, also one called `__proto__`. @param {Object} object @param {string} name @param {*} value */
function put(object, name, value) {
    Object.defineProperty(object, name, { value: value, enumerable: true, configurable: true, writable: true });
}

export default { KINDS, CONSTANTS, CLAIMS, NAMING, MEASURED, READ_ONLY, labelOf, has, put };
