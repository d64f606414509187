/* Changes of AS numbers and VLANs in NetBox's form, as poold reads them. */
import changes from './changes.js';
import kinds from './kinds.js';
import poolRows from './pool_rows.js';
import refusals from './refusals.js';
import register from './register.js';

/** The members of a record that stay as they are, by kind. */
const FIXED = { 'asn-ranges': [], 'asns': ['asn', 'range'], 'vlan-groups': [], 'vlans': ['vid', 'group'] };
/** The ends of a VLAN group that a request does not name. */
const ENDS = { start: 1, end: 4094 };

/** Whether a request gives a member a value. */
function gives(object, name) {
    return kinds.has(object, name) && changes.says(object[name]);
}

/** The ends that `vid_ranges` has: a group has one run of numbers. */
function endsOf(ranges) {
    const one = Array.isArray(ranges) && ranges.length === 1 ? ranges[0] : null;
    if (!Array.isArray(one) || one.length !== 2 || !one.every((end) => typeof end === 'number')) {
        throw refusals.field('vid_ranges', 'a group has one range of numbers here: [[1, 4094]]');
    }
    return { start: one[0], end: one[1] };
}

/** The object of a request for a group with `start` and `end` in the place of NetBox's members for them. */
function groupOf(object, isNew) {
    const out = {};
    const ends = Object.assign({}, isNew ? ENDS : {}, gives(object, 'vid_ranges') ? endsOf(object.vid_ranges) : {});
    const named = { min_vid: 'start', max_vid: 'end' };
    Object.keys(object).forEach((name) => {
        if (!kinds.has(named, name) && name !== 'vid_ranges') {
            kinds.put(out, name, object[name]);
        } else if (kinds.has(named, name) && gives(object, name)) {
            if (gives(object, 'vid_ranges') && ends[named[name]] !== object[name]) {
                throw refusals.field(name, 'vid_ranges has another end');
            }
            ends[named[name]] = object[name];
        }
    });
    return Object.assign(out, ends);
}

/** The record as it is. */
async function recordAt(call, kind, path) {
    const answer = await register.read(call.r, path);
    return register.rowOf(answer, kind);
}

/** What a request may repeat: the slug of the name that it gives or that the record has, the status, and what stays of a record. */
async function sameOf(call, kind, path, object, isNew) {
    const asked = isNew ? [] : FIXED[kind].filter((name) => gives(object, name));
    const isSlug = kinds.has(kinds.KINDS[kind], 'isWhole') && gives(object, 'slug');
    const row = !isNew && (asked.length || isSlug) ? await recordAt(call, kind, path) : { slug: '' };
    const same = kind === 'vlans' ? { status: 'active' } : {};
    asked.forEach((name) => {
        same[name] = row[name];
    });
    if (isSlug) {
        same.slug = typeof object.name === 'string' ? poolRows.slugOf(object.name) : row.slug;
    }
    return same;
}

/** The smallest range that has an AS number, of two as small the one with the lower id; a refusal is thrown if there is none. */
async function rangeOf(call, asn) {
    const rows = await register.all(call, 'asn-ranges');
    const found = rows.filter((row) => row.start <= asn && asn <= row.end);
    if (typeof asn !== 'number' || found.length === 0) {
        throw refusals.field('asn', 'no range of AS numbers has it');
    }
    return found.reduce((best, row) => (row.end - row.start < best.end - best.start ? row : best)).id;
}

/** The path at which a member is recorded: that of its range or group, which the body does not name then. */
async function recordingPath(call, kind, plain) {
    const name = kind === 'asns' ? 'range' : 'group';
    const id = kind === 'asns' && !gives(plain, 'range') ? await rangeOf(call, plain.asn) : plain[name];
    if (typeof id !== 'number') {
        throw refusals.field(name, 'This field is required.');
    }
    delete plain[name];
    return (kind === 'asns' ? 'asn-ranges/' : 'vlan-groups/') + id + '/' + kind + '/';
}

/**
 * The change of poold that POST, PUT or PATCH of a record means; a refusal is thrown.
 * @param {Object} call
 * @param {string} kind
 * @param {string} path of the list or the record
 * @param {Object} given
 * @returns {Promise<{method: string, kind: string, path: string, body: string}>}
 */
async function changeOf(call, kind, path, given) {
    const method = call.r.method;
    const isNew = method === 'POST';
    const object = kind === 'vlan-groups' ? groupOf(given, isNew) : given;
    const same = await sameOf(call, kind, path, object, isNew);
    const plain = await changes.plainOf(call, object, kinds.KINDS[kind], same, method === 'PATCH' ? [] : kinds.KINDS[kind].required);
    if (kinds.has(plain, 'description')) {
        if (!isNew || gives(plain, 'description')) {
            plain.name = plain.description === null ? '' : plain.description;
        }
        delete plain.description;
    }
    const target = isNew && kinds.has(FIXED, kind) && FIXED[kind].length ? await recordingPath(call, kind, plain) : path;
    return { method: method === 'PUT' ? 'PATCH' : method, kind: kind, path: target, body: JSON.stringify(plain) };
}

export default { changeOf };
