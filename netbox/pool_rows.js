/* The records of poold as rows like the register's, with the members that NetBox's records have. */
import kinds from './kinds.js';

/** The letters U+00C0 to U+017F without their marks, as Unicode decomposes them; `?` has none. njs has no `normalize`. */
const LETTERS = 'AAAAAA?CEEEEIIII?NOOOOO??UUUUY??aaaaaa?ceeeeiiii?nooooo??uuuuy?y'
    + 'AaAaAaCcCcCcCcDd??EeEeEeEeEeGgGgGgGgHh??IiIiIiIiI???JjKk?LlLlLlL'
    + 'l??NnNnNnn??OoOoOo??RrRrRrSsSsSsSsTtTt??UuUuUuUuUuUuWwYyYZzZzZzs';

/** The slug that NetBox makes of a name. @param {string} name @returns {string} */
function slugOf(name) {
    const plain = name.split('').map((letter) => {
        const at = letter.charCodeAt(0) - 0xc0;
        return at < 0 ? letter : at < LETTERS.length ? LETTERS[at] : '?';
    }).join('').toLowerCase();
    return plain.replace(/[^a-z0-9_ -]/g, '').replace(/[ -]+/g, '-').replace(/^[-_]+|[-_]+$/g, '');
}

/** What makes a row of a record, by kind. */
const ROWS = {
    'asn-ranges': (row) => ({ id: row.id, name: row.name, slug: slugOf(row.name), start: row.start, end: row.end, description: '' }),
    'asns': (row) => ({ id: row.id, asn: row.asn, range: row.range, description: row.name || '' }),
    'vlan-groups': (row) => ({
        id: row.id, name: row.name, slug: slugOf(row.name), min_vid: row.start, max_vid: row.end, vid_ranges: [[row.start, row.end]], description: '',
    }),
    'vlans': (row) => ({
        id: row.id, vid: row.vid, name: row.name, group: row.group, status: { value: 'active', label: 'Active' }, description: '',
    }),
};

/** A record that was answered as a row. @param {string} kind @param {Object} record @returns {Object} */
function rowOf(kind, record) {
    return kinds.has(ROWS, kind) ? ROWS[kind](record) : record;
}

/** What NetBox calls an AS number: above 65535 with its two halves (RFC 5396). @param {number} asn @returns {string} */
function asnText(asn) {
    return 'AS' + asn + (asn > 65535 ? ' (' + Math.floor(asn / 65536) + '.' + asn % 65536 + ')' : '');
}

export default { slugOf, rowOf, asnText };
