/* The filters of lists: what NetBox's are called, what they mean of a record, and which of them the register has itself. */
import address from './address.js';
import kinds from './kinds.js';
import refusals from './refusals.js';

/**
 * A filter: `read` makes a value of its text, or undefined if it is malformed; `test` says whether a record of the register has this value. One that
 * the register has itself has `native`, which writes the value for it.
 * @typedef {{read: Function, test: Function, native: (Function|undefined)}} Filter
 */

const NUMBER = /^(?:0|[1-9][0-9]{0,9})$/;

function id(text) {
    return /^[1-9][0-9]{0,9}$/.test(text) ? Number(text) : undefined;
}

function idOrNull(text) {
    return text === 'null' ? null : id(text);
}

function truth(text) {
    const low = text.toLowerCase();
    return low === 'true' || low === '1' ? true : low === 'false' || low === '0' ? false : undefined;
}

function block(text) {
    return address.blockOf(text) || undefined;
}

function same(text) {
    return text;
}

/** A filter for exactly the text of a member, which the register has itself if it is native. */
function text(name, native) {
    return { read: same, test: (row, value) => row[name] === value, native: native ? String : undefined };
}

/** A filter for the value of a choice. */
function choice(kind, name) {
    const words = kinds.KINDS[kind].choices[name];
    return {
        read: (value) => (words.includes(value) ? value : undefined),
        test: (row, value) => row[name] !== null && row[name].value === value,
        native: String,
    };
}

/** A filter for a number, which the program that has the records has itself if it is native. */
function number(name, native) {
    return {
        read: (value) => (NUMBER.test(value) ? Number(value) : undefined),
        test: (row, value) => row[name] === value,
        native: native ? String : undefined,
    };
}

function reference(name, read) {
    return { read: read, test: (row, value) => row[name] === value, native: String };
}

function flag(name) {
    return { read: truth, test: (row, value) => row[name] === value };
}

/** What a member of a record means, read once for all values of a filter. */
function reading(member, read) {
    let last = null;
    let value = null;
    return (row) => {
        if (row !== last) {
            last = row;
            value = read(row[member]);
        }
        return value;
    };
}

/** A filter for a block, with what has to hold for the block of a record and the one that is asked for. */
function blocks(member, holds, native) {
    const own = reading(member, address.blockOf);
    return { read: block, test: (row, value) => holds(own(row), value), native: native ? address.blockText : undefined };
}

/** A filter for an address, with its mask or with any. */
function host(member) {
    const own = reading(member, address.hostOf);
    return {
        read: (value) => address.hostOf(value) || undefined,
        test: (row, value) => own(row).digits === value.digits && (value.bare || own(row).length === value.length),
    };
}

function equal(own, asked) {
    return own.digits === asked.digits && own.length === asked.length;
}

function inside(own, asked) {
    return address.contains(asked, own);
}

/** Whether a range has all addresses of a block. */
function rangeHas(row, value) {
    const start = address.hostOf(row.start_address).digits;
    const last = value.digits.split('').map((digit, at) => {
        const fixed = Math.max(0, Math.min(4, value.length - 4 * at));
        return (parseInt(digit, 16) | (0xf >> fixed)).toString(16);
    }).join('');
    return start.length === last.length && start <= value.digits && last <= address.hostOf(row.end_address).digits;
}

/** A filter for addresses in a block, whatever their masks. */
function parent() {
    const own = reading('address', (text) => address.blockOf(text.split('/')[0]));
    return { read: block, test: (row, value) => address.contains(value, own(row)), native: address.blockText };
}

/** The filters of every kind. */
function common() {
    return { id: { read: id, test: (row, value) => row.id === value }, description: text('description') };
}

/** The filters of kinds that have a name and a slug. */
function named() {
    return Object.assign({ name: text('name', true), slug: text('slug', true) }, common());
}

function family() {
    return { read: (value) => (value === '4' ? 4 : value === '6' ? 6 : undefined), test: (row, value) => row.family === value, native: String };
}

function length() {
    return {
        read: (value) => (NUMBER.test(value) ? Number(value) : undefined),
        test: (row, value) => Number((row.prefix || row.address).split('/')[1]) === value,
    };
}

/** The filters of what is in a table. */
function placed(kind) {
    const own = { family: family(), vrf_id: reference('vrf', idOrNull), status: choice(kind, 'status') };
    return Object.assign(own, kinds.has(kinds.KINDS[kind].references, 'role') ? { role_id: reference('role', idOrNull) } : {}, common());
}

/**
 * By kind what makes the filters of its list, next to `q` and those that name what is referred to (NAMED). A handler runs for each request, so they are made
 * when they are asked for.
 * @type {Object<string, function(): Object<string, Filter>>}
 */
const FILTERS = {
    'vrfs': () => Object.assign({ name: text('name', true), rd: text('rd', true) }, common()),
    'rirs': named,
    'roles': named,
    'aggregates': () => Object.assign({ family: family(), rir_id: reference('rir', id), prefix: blocks('prefix', equal) }, common()),
    'prefixes': () => Object.assign({
        prefix: blocks('prefix', equal, true),
        within: blocks('prefix', (own, asked) => inside(own, asked) && own.length > asked.length, true),
        within_include: blocks('prefix', inside, true),
        contains: blocks('prefix', address.contains, true),
        mask_length: length(),
        is_pool: flag('is_pool'),
        mark_utilized: flag('mark_utilized'),
    }, placed('prefixes')),
    'ip-ranges': () => Object.assign({
        contains: { read: block, test: rangeHas, native: address.blockText },
        start_address: host('start_address'),
        end_address: host('end_address'),
    }, placed('ip-ranges')),
    'ip-addresses': () => Object.assign({
        role: choice('ip-addresses', 'role'),
        parent: parent(),
        dns_name: { read: (value) => value.toLowerCase(), test: (row, value) => row.dns_name === value, native: String },
        address: host('address'),
        mask_length: length(),
    }, placed('ip-addresses')),
    'asn-ranges': () => Object.assign({ name: text('name'), slug: text('slug'), start: number('start'), end: number('end') }, common()),
    'asns': () => Object.assign({ asn: number('asn', true), range_id: reference('range', id) }, common()),
    'vlan-groups': () => Object.assign({ name: text('name'), slug: text('slug'), min_vid: number('min_vid'), max_vid: number('max_vid') }, common()),
    'vlans': () => Object.assign({
        vid: number('vid', true),
        name: text('name', true),
        group_id: reference('group', id),
        status: { read: (value) => (value === 'active' ? value : undefined), test: () => true },
    }, common()),
};

/** By kind the filters that name a record that is referred to, by what of it, and the filter of its id. */
const VRF = { kind: 'vrfs', by: 'rd', filter: 'vrf_id' };
const ROLE = { kind: 'roles', by: 'slug', filter: 'role_id' };
const NAMED = {
    'vrfs': {},
    'rirs': {},
    'roles': {},
    'aggregates': { rir: { kind: 'rirs', by: 'slug', filter: 'rir_id' } },
    'prefixes': { vrf: VRF, role: ROLE },
    'ip-ranges': { vrf: VRF, role: ROLE },
    'ip-addresses': { vrf: VRF },
    'asn-ranges': {},
    'asns': {},
    'vlan-groups': {},
    'vlans': { group: { kind: 'vlan-groups', by: 'slug', filter: 'group_id' } },
};

/** The members that `q` looks into. */
const SEARCHED = ['name', 'rd', 'slug', 'dns_name', 'prefix', 'address', 'start_address', 'end_address', 'description'];

/** What `q` means: a text in any of the members, in upper or lower case; or an address or a block that a prefix or a range has. */
function search(kind) {
    return {
        read: (value) => {
            const word = value.trim();
            return { word: word.toLowerCase(), block: address.blockOf(word) };
        },
        test: (row, value) => {
            if (SEARCHED.some((name) => typeof row[name] === 'string' && row[name].toLowerCase().includes(value.word))) {
                return true;
            }
            if (value.block === null) {
                return false;
            }
            return kind === 'ip-ranges' ? rangeHas(row, value.block) : row.prefix !== undefined && address.contains(address.blockOf(row.prefix), value.block);
        },
    };
}

/** The filter of a kind that has this name; a refusal is thrown if there is none. @param {string} kind @param {string} name @returns {Filter} */
function filterOf(kind, name) {
    if (name === 'q') {
        return search(kind);
    }
    const own = FILTERS[kind]();
    if (!kinds.has(own, name)) {
        throw refusals.field(name, 'filter ' + name + ' is not served for ' + kind);
    }
    return own[name];
}

export default { NAMED, filterOf };
