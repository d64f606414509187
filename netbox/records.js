/* Records of the register in NetBox's form. */
import kinds from './kinds.js';
import poolRows from './pool_rows.js';
import register from './register.js';
import turns from './turns.js';

/** After so many records, other requests are served. */
const ROWS_AT_ONCE = 250;

/** @param {Object} call @param {string} kind @param {number} id @returns {string} */
function urlOf(call, kind, id) {
    return call.base + '/api/ipam/' + kind + '/' + id + '/';
}

/**
 * What NetBox calls a range: what both ends begin with is there once, as in `10.20.0.100-199/24`.
 * @param {string} start with its mask
 * @param {string} end with its mask
 * @returns {string}
 */
function rangeText(start, end) {
    const host = start.split('/');
    const separator = host[0].includes(':') ? ':' : '.';
    const first = host[0].split(separator);
    const last = end.split('/')[0].split(separator);
    let same = 0;
    while (same < first.length - 1 && same < last.length - 1 && first[same] === last[same]) {
        same += 1;
    }
    return first.join(separator) + '-' + last.slice(same).join(separator) + '/' + host[1];
}

/** What a client shows for a record. @param {string} kind @param {Object} row of the register @returns {string} */
function displayOf(kind, row) {
    if (kind === 'ip-ranges') {
        return rangeText(row.start_address, row.end_address);
    }
    if (kind === 'vrfs' && row.rd) {
        return row.name + ' (' + row.rd + ')';
    }
    if (kind === 'asns') {
        return poolRows.asnText(row.asn);
    }
    if (kind === 'asn-ranges' || kind === 'vlans') {
        return row.name + ' (' + (kind === 'vlans' ? row.vid : row.start + '-' + row.end) + ')';
    }
    return row.address || row.prefix || row.name;
}

/** @param {number} family @returns {Object} */
function familyOf(family) {
    return { value: family, label: 'IPv' + family };
}

/** The members by which every object of NetBox begins. */
function beginning(call, kind, row) {
    return { id: row.id, url: urlOf(call, kind, row.id), display: displayOf(kind, row) };
}

/** The brief object of a record. @param {Object} call @param {string} kind @param {Object} row of the register @returns {Object} */
function briefOf(call, kind, row) {
    const out = beginning(call, kind, row);
    kinds.KINDS[kind].brief.forEach((name) => {
        out[name] = name === 'family' ? familyOf(row.family) : name === '_depth' ? row.depth : row[name];
    });
    out.description = row.description;
    return out;
}

/** The whole record, with the brief objects that it refers to. */
function recordOf(call, kind, row, briefs) {
    const out = beginning(call, kind, row);
    out.display_url = call.base + '/web/#/' + kind + '/' + row.id;
    const references = kinds.KINDS[kind].references;
    Object.keys(row).forEach((name) => {
        if (name === 'family') {
            out.family = familyOf(row.family);
        } else if (name === 'depth') {
            out._depth = row.depth;
        } else if (kinds.has(references, name) && row[name] !== null) {
            out[name] = briefs[references[name]][row[name]] || { id: row[name], url: urlOf(call, references[name], row[name]) };
        } else {
            out[name] = row[name];
        }
    });
    return Object.assign(out, kinds.KINDS[kind].constants, kinds.CONSTANTS);
}

/**
 * Brief objects by kind and id of what the rows refer to, by at most one further request for each kind. One that could not be read is missing, and nothing is
 * refused for it: the rows may be those of a change that was made.
 */
async function briefsOf(call, kind, rows) {
    const references = kinds.KINDS[kind].references;
    const names = Object.keys(references);
    const briefs = {};
    for (let n = 0; n < names.length; n += 1) {
        const name = names[n];
        const other = references[name];
        briefs[other] = {};
        const ids = {};
        rows.forEach((row) => {
            if (row[name]) {
                ids[row[name]] = true;
            }
        });
        try {
            const found = await recordsWith(call, other, Object.keys(ids));
            found.forEach((row) => {
                briefs[other][row.id] = briefOf(call, other, row);
            });
        } catch (e) {
            call.r.warn('the ' + other + ' could not be read: ' + (e.status || e));
        }
    }
    return briefs;
}

/** The records of these ids, and perhaps others. */
async function recordsWith(call, kind, ids) {
    if (ids.length === 1 && !kinds.has(call.tables, kind)) {
        const answer = await register.read(call.r, kind + '/' + ids[0] + '/');
        return [register.rowOf(answer, kind)];
    }
    return ids.length ? register.all(call, kind) : [];
}

/**
 * Rows of the register as NetBox's records.
 * @param {Object} call
 * @param {string} kind
 * @param {Object[]} rows
 * @returns {Promise<Object[]>}
 */
async function recordsOf(call, kind, rows) {
    const briefs = await briefsOf(call, kind, rows);
    let out = [];
    for (let at = 0; at < rows.length; at += ROWS_AT_ONCE) {
        if (at > 0) {
            await turns.pause();
        }
        out = out.concat(rows.slice(at, at + ROWS_AT_ONCE).map((row) => recordOf(call, kind, row, briefs)));
    }
    return out;
}

/** Free addresses or blocks, which are no records: the family is a number, and there is no `url`. */
async function freeOf(call, rows) {
    const briefs = await briefsOf(call, 'ip-addresses', rows);
    return rows.map((row) => {
        const vrf = row.vrf === null ? null : briefs.vrfs[row.vrf] || { id: row.vrf, url: urlOf(call, 'vrfs', row.vrf) };
        return Object.assign({}, row, { vrf });
    });
}

/** Free numbers of a range or a group. */
async function freeNumbersOf(call, part, id, numbers) {
    if (part === 'available-asns') {
        return numbers.map((number) => ({ rir: null, asn: number }));
    }
    const briefs = await briefsOf(call, 'vlans', [{ group: id }]);
    const group = briefs['vlan-groups'][id] || { id: id, url: urlOf(call, 'vlan-groups', id) };
    return numbers.map((number) => ({ vid: number, group: group }));
}

export default { freeNumbersOf, rangeText, briefOf, recordsOf, freeOf };
