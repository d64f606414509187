/* Requests of NetBox's form as the register reads them. */
import address from './address.js';
import kinds from './kinds.js';
import refusals from './refusals.js';
import register from './register.js';
import turns from './turns.js';

/** No record of NetBox has so many members. */
const MOST_MEMBERS = 100;
/** Why a member is refused that could only say what is so already. */
const SAME = {
    slug: 'the slug is made of the name',
    status: 'a VLAN is active',
    vid: 'the number of a VLAN stays: record another one',
    asn: 'an AS number stays: record another one',
};
/** After so many items of a claim, other requests are served. */
const ITEMS_AT_ONCE = 100;

/** Whether a member of a request says anything: null, the empty text, and a list or an object of such do not. @param {*} value @returns {boolean} */
function says(value) {
    if (value === null || value === '') {
        return false;
    }
    return typeof value !== 'object' || (Array.isArray(value) ? value : Object.values(value)).some(says);
}

/** @param {string} name @returns {boolean} whether NetBox only answers this member */
function isReadOnly(name) {
    return kinds.READ_ONLY.includes(name) || /^\w+_count$/.test(name);
}

/** An object of a request; a refusal is thrown if it is none. */
function objectOf(value) {
    if (value === null || typeof value !== 'object' || Array.isArray(value)) {
        throw refusals.detail(400, 'Invalid data. Expected a dictionary.');
    }
    return value;
}

/**
 * The id that a reference means: an id, an object with one, or what a record of the kind has.
 * @param {Object} call
 * @param {string} name of the member
 * @param {string} kind that is referred to
 * @param {*} value
 * @returns {Promise<*>} the id, or what the register refuses
 */
async function idOf(call, name, kind, value) {
    if (typeof value === 'string' && /^[1-9][0-9]{0,9}$/.test(value)) {
        return Number(value);
    }
    if (value === null || typeof value === 'number') {
        return value;
    }
    const attributes = kinds.KINDS[kind].attributes;
    const isObject = typeof value === 'object' && !Array.isArray(value);
    if (isObject && kinds.has(value, 'id') && typeof value.id !== 'object') {
        return await idOf(call, name, kind, value.id);
    }
    const asked = isObject ? Object.keys(value) : [];
    if (asked.length === 0 || !asked.every((one) => attributes.includes(one))) {
        throw refusals.field(name, 'a reference is an id, or an object with its id or with its ' + attributes.join(' or '));
    }
    const rows = await register.all(call, kind);
    const found = rows.filter((row) => asked.every((one) => row[one] === value[one]));
    if (found.length !== 1) {
        const why = found.length ? 'Multiple objects match' : 'Related object not found using';
        throw refusals.field(name, why + ' the provided attributes: ' + JSON.stringify(value));
    }
    return found[0].id;
}

/**
 * An object of a request with the members that the register has, references as ids. What cannot be kept is refused by name.
 * @param {Object} call
 * @param {Object} value
 * @param {{members: string[], references: Object<string, string>, checked: (Object<string, string>|undefined)}} kind
 * @param {Object<string, *>} same members that are left out if they are these
 * @param {string[]} required members that have to be there
 * @returns {Promise<Object>}
 */
async function plainOf(call, value, kind, same, required) {
    const out = {};
    const refused = {};
    const names = Object.keys(objectOf(value));
    if (names.length > MOST_MEMBERS) {
        throw refusals.detail(400, 'an object has at most ' + MOST_MEMBERS + ' members');
    }
    required.filter((name) => !kinds.has(value, name)).forEach((name) => {
        refused[name] = ['This field is required.'];
    });
    for (let n = 0; n < names.length; n += 1) {
        const name = names[n];
        if (kinds.has(same, name)) {
            await isSame(call, name, value[name], same[name]);
        } else if (kinds.has(kind.references, name)) {
            out[name] = await idOf(call, name, kind.references[name], value[name]);
        } else if (kind.members.includes(name)) {
            out[name] = value[name];
        } else if (kinds.has(kind.checked || {}, name)) {
            await isThere(call, name, kind.checked[name], value[name]);
        } else if (says(value[name]) && !isReadOnly(name)) {
            kinds.put(refused, name, ['the register has no ' + name + ' here']);
        }
    }
    if (Object.keys(refused).length) {
        throw new refusals.Refusal(400, refused);
    }
    return out;
}

/** Refuses a member that is not what is there already: that of the record that is claimed from, or that is changed. */
async function isSame(call, name, value, own) {
    if (!says(value)) {
        return;
    }
    let equal;
    if (kinds.has(kinds.NAMING, name)) {
        const id = await idOf(call, name, kinds.NAMING[name], value);
        equal = id === own;
    } else if (name === 'prefix' || name === 'parent') {
        const block = typeof value === 'string' ? address.blockOf(value) : null;
        equal = block !== null && own !== undefined && address.blockText(block) === own;
    } else {
        equal = String(kinds.has(value, 'value') ? value.value : value) === String(own);
    }
    if (!equal) {
        throw refusals.field(name, kinds.has(SAME, name) ? SAME[name] : 'a claim has the ' + name + ' of what it is claimed from');
    }
}

/** Refuses a member that names no record; it is not kept. */
async function isThere(call, name, kind, value) {
    if (!says(value)) {
        return;
    }
    const id = await idOf(call, name, kind, value);
    const rows = await register.all(call, kind);
    if (!rows.some((row) => row.id === id)) {
        throw refusals.field(name, 'Related object not found using the provided numeric ID: ' + JSON.stringify(value));
    }
}

/** The items of a claim as the register reads them: an object, or a list of them. */
async function claimOf(call, route, value) {
    const claim = kinds.CLAIMS[route.part];
    const items = Array.isArray(value) ? value : [value];
    if (items.length > register.PAGE) {
        throw new refusals.Refusal(507, { detail: 'claims would exceed ' + register.PAGE }, 'limit');
    }
    const same = {};
    const named = Object.keys(claim.same).filter((name) => items.some((item) => kinds.has(objectOf(item), name) && says(item[name])));
    if (named.length) {
        const answer = await register.read(call.r, route.kind + '/' + route.id + '/');
        const from = register.rowOf(answer, route.kind);
        Object.keys(claim.same).forEach((name) => {
            same[name] = from[claim.same[name]];
        });
    }
    const out = [];
    for (let n = 0; n < items.length; n += 1) {
        if (n > 0 && n % ITEMS_AT_ONCE === 0) {
            await turns.pause();
        }
        const item = await plainOf(call, items[n], claim, same, claim.required);
        out.push(item);
    }
    return Array.isArray(value) ? out : out[0];
}

export default { says, idOf, plainOf, claimOf, objectOf };
