/* The query of a list: its pages, its view, and its filters. */
import address from './address.js';
import filters from './filters.js';
import kinds from './kinds.js';
import refusals from './refusals.js';
import register from './register.js';

const DEFAULT_PAGE = 50;
/** Filters that are looked at first, since they leave few records. */
const NARROWING = ['id', 'address'];
/** How many values a filter may have, since each record is looked at for each of them. Ids, addresses and prefixes are looked up. */
const MOST_VALUES = 50;
const MOST_VALUES_OF = { id: 1000, address: 200, prefix: 200, q: 10 };
const NOT_FILTERS = ['limit', 'offset', 'brief', 'fields', 'ordering', 'format'];

/**
 * What a list is asked for. `native` is for the register; `tests` are looked at here; `ids` are the only ones that can be found, if it is no null; `narrow`
 * has the filters of the register by which to look, one list after the other.
 * @typedef {Object} Query
 * @property {Array<string[]>} pairs names and values, without limit and offset
 * @property {number} limit
 * @property {number} offset
 * @property {boolean} brief
 * @property {(string[]|null)} fields
 * @property {Object<string, string>} native
 * @property {Function[]} nativeTests what `native` means, for records that were not found by it
 * @property {Function[]} tests
 * @property {(number[]|null)} ids
 * @property {Object<string, string>[]} narrow
 */

/** The pairs of a query text, decoded; a refusal is thrown. @param {string} text @returns {Array<string[]>} */
function pairsOf(text) {
    return text.split('&').filter((one) => one !== '').map((one) => {
        const at = one.indexOf('=');
        const parts = at < 0 ? [one, ''] : [one.slice(0, at), one.slice(at + 1)];
        try {
            return parts.map((part) => decodeURIComponent(part.replace(/\+/g, ' ')));
        } catch (e) {
            throw refusals.detail(400, 'the query is not UTF-8 in percent encoding');
        }
    });
}

/** The query text of pairs. @param {Array<string[]>} pairs @returns {string} */
function textOf(pairs) {
    return pairs.map((pair) => encodeURIComponent(pair[0]) + '=' + encodeURIComponent(pair[1])).join('&');
}

/** Of pairs the last value of a name, or undefined. */
function lastOf(pairs, name) {
    const found = pairs.filter((pair) => pair[0] === name);
    return found.length ? found[found.length - 1][1] : undefined;
}

/** A number of at most ten digits. */
function numberOf(pairs, name, absent) {
    const text = lastOf(pairs, name);
    if (text === undefined) {
        return absent;
    }
    if (!/^(?:0|[1-9][0-9]{0,9})$/.test(text)) {
        throw refusals.field(name, name + ' is a whole number');
    }
    return Number(text);
}

/** How many records a page has: 0 and everything above a thousand count as a thousand. */
function limitOf(pairs, absent) {
    const limit = numberOf(pairs, 'limit', absent);
    return limit === 0 || limit > register.PAGE ? register.PAGE : limit;
}

/** Refuses what would change the form or the order of an answer and is not served. */
function checkView(pairs) {
    const format = lastOf(pairs, 'format');
    if (format !== undefined && format !== 'json') {
        throw refusals.field('format', 'answers are JSON');
    }
    const ordering = lastOf(pairs, 'ordering');
    if (ordering !== undefined && ordering !== 'id') {
        throw refusals.field('ordering', 'records are in the order of their ids');
    }
}

/** What of a record is answered: all, its brief form, or some of its members. */
function viewOf(pairs) {
    checkView(pairs);
    const fields = lastOf(pairs, 'fields');
    return { brief: ['true', '1'].includes((lastOf(pairs, 'brief') || '').toLowerCase()), fields: fields ? fields.split(',') : null };
}

/** The values of each filter, by its name and in the order in which the names come first. */
function groups(pairs) {
    const out = {};
    pairs.filter((pair) => !NOT_FILTERS.includes(pair[0])).forEach((pair) => {
        if (!kinds.has(out, pair[0])) {
            kinds.put(out, pair[0], []);
        }
        if (!out[pair[0]].includes(pair[1])) {
            out[pair[0]].push(pair[1]);
        }
    });
    return out;
}

/** The ids of the records that these texts name; a refusal is thrown for one that names none. */
async function idsOf(call, name, named, texts) {
    const out = [];
    const rows = texts.every((one) => one === 'null') ? [] : await register.all(call, named.kind);
    texts.forEach((one) => {
        const ids = one === 'null' ? ['null'] : rows.filter((row) => row[named.by] === one).map((row) => String(row.id));
        if (ids.length === 0) {
            throw refusals.field(name, 'Select a valid choice. ' + one + ' is not one of the available choices.');
        }
        ids.forEach((id) => out.push(id));
    });
    return out;
}

/** Takes a filter into the query: for the register if it has it and there is one value, else to be looked at here. */
function take(query, kind, name, texts) {
    const filter = filters.filterOf(kind, name);
    const most = MOST_VALUES_OF[name] || MOST_VALUES;
    if (texts.length > most) {
        throw refusals.field(name, 'filter ' + name + ' is served with at most ' + most + ' values');
    }
    const values = texts.map((one) => {
        const value = filter.read(one);
        if (value === undefined) {
            throw refusals.field(name, 'Select a valid choice. ' + one + ' is not one of the available choices.');
        }
        return value;
    });
    const isTaken = kinds.has(query.native, name) || kinds.has(query.narrow[0], name);
    const test = (row) => values.some((value) => filter.test(row, value));
    if (filter.native && values.length === 1 && !isTaken) {
        query.native[name] = filter.native(values[0]);
        query.nativeTests.push(test);
        return;
    }
    query.tests.push(test);
    if (name === 'id') {
        query.ids = values;
    } else if (name === 'address') {
        query.narrow = narrowBy('parent', values.map((value) => address.textOf(value.digits) + '/' + value.digits.length * 4));
    } else if (name === 'prefix' && filter.native) {
        query.narrow = narrowBy('prefix', values.map(filter.native));
    }
}

/** Lists of the register by one filter of it, one for each text. */
function narrowBy(name, texts) {
    return texts.filter((text, n) => texts.indexOf(text) === n).map((text) => {
        const native = {};
        native[name] = text;
        return native;
    });
}

/**
 * Reads the query of a list; a refusal is thrown.
 * @param {Object} call
 * @param {string} kind
 * @param {string} text
 * @returns {Promise<Query>}
 */
async function queryOf(call, kind, text) {
    const pairs = pairsOf(text);
    const query = Object.assign(viewOf(pairs), {
        pairs: pairs.filter((pair) => pair[0] !== 'limit' && pair[0] !== 'offset'),
        limit: limitOf(pairs, DEFAULT_PAGE),
        offset: numberOf(pairs, 'offset', 0),
        native: {},
        nativeTests: [],
        tests: [],
        ids: null,
        narrow: [{}],
    });
    const asked = groups(pairs);
    const names = Object.keys(asked).sort((a, b) => NARROWING.includes(b) - NARROWING.includes(a));
    for (let n = 0; n < names.length; n += 1) {
        const named = filters.NAMED[kind];
        if (kinds.has(named, names[n])) {
            const ids = await idsOf(call, names[n], named[names[n]], asked[names[n]]);
            take(query, kind, named[names[n]].filter, ids);
        } else {
            take(query, kind, names[n], asked[names[n]]);
        }
    }
    return query;
}

export default { pairsOf, textOf, limitOf, viewOf, queryOf };
