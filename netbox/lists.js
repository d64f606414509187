/* Lists of records: a page of the register's, or what is found in all its pages. */
import kinds from './kinds.js';
import queries from './queries.js';
import records from './records.js';
import refusals from './refusals.js';
import register from './register.js';
import turns from './turns.js';

/** As many records of the register are read for one list at most. */
const MOST_READ = 20000;
const TRIES = 3;
/** After so many milliseconds, other requests are served. */
const TURN = 20;

/** That two pages are of different moments. */
function Moved() {}

/** What was read of the register for a list, and of which moment. */
function Reading(call) {
    this.call = call;
    this.place = undefined;
    this.left = MOST_READ;
}

/** An answer, of the same moment as those before it; else Moved is thrown. */
function take(reading, answer) {
    if (reading.place !== undefined && answer.place !== reading.place) {
        throw new Moved();
    }
    reading.place = answer.place;
    return answer;
}

/** The query text of a page of the register. */
function pageText(native, limit, offset) {
    const pairs = Object.keys(native).map((name) => [name, native[name]]);
    return queries.textOf(pairs.concat([['limit', String(limit)], ['offset', String(offset)]]));
}

/** Adds to the rows those of a page that pass. Other requests are served from time to time. */
async function sift(page, tests, rows) {
    let begun = Date.now();
    for (let n = 0; n < page.length; n += 1) {
        const row = page[n];
        if (tests.every((test) => test(row))) {
            rows.push(row);
        }
        if (Date.now() - begun > TURN) {
            await turns.pause();
            begun = Date.now();
        }
    }
}

/** Adds to the rows those of a list of the register that pass, page by page. */
async function siftList(reading, kind, native, query, rows) {
    let count = 1;
    for (let offset = 0; offset < count; offset += register.PAGE) {
        const answer = await register.read(reading.call.r, kind + '/', pageText(native, register.PAGE, offset));
        const page = register.pageOf(take(reading, answer), kind);
        count = page.count;
        if (count - offset > reading.left) {
            throw refusals.detail(400, 'these filters have to be looked for in more than ' + MOST_READ + ' records: add one that the register has itself');
        }
        reading.left -= page.results.length;
        await sift(page.results, query.tests, rows);
    }
}

/** Adds to the rows those of these ids that are there and pass. */
async function siftIds(reading, kind, query, rows) {
    for (let n = 0; n < query.ids.length; n += 1) {
        const answer = await register.read(reading.call.r, kind + '/' + query.ids[n] + '/');
        take(reading, answer);
        if (answer.status !== 404) {
            await sift([register.rowOf(answer, kind)], query.tests.concat(query.nativeTests), rows);
        }
    }
}

/** The records that pass all filters, by id, as they were at one moment; Moved is thrown if there was none. */
async function look(call, kind, query) {
    const reading = new Reading(call);
    const rows = [];
    if (query.ids !== null) {
        await siftIds(reading, kind, query, rows);
    } else {
        for (let n = 0; n < query.narrow.length; n += 1) {
            await siftList(reading, kind, Object.assign({}, query.native, query.narrow[n]), query, rows);
        }
    }
    if (query.ids !== null || query.narrow.length > 1) {
        rows.sort((a, b) => a.id - b.id);
    }
    return { count: rows.length, rows: rows.slice(query.offset, query.offset + query.limit), place: reading.place };
}

/** What is found, read again if the register was changed meanwhile. */
async function found(call, kind, query) {
    for (let tries = 0; tries < TRIES; tries += 1) {
        try {
            return await look(call, kind, query);
        } catch (e) {
            if (!(e instanceof Moved)) {
                throw e;
            }
        }
    }
    throw refusals.detail(503, 'the register was changed each time that its pages were read; try again');
}

/** One page of the register, which has all the filters itself. */
async function passed(call, kind, query) {
    const answer = await register.read(call.r, kind + '/', pageText(query.native, query.limit, query.offset));
    const page = register.pageOf(answer, kind);
    return { count: page.count, rows: page.results, place: answer.place };
}

/** The target of another page. */
function linkOf(call, kind, query, offset) {
    const pairs = query.pairs.concat([['limit', String(query.limit)], ['offset', String(offset)]]);
    return call.base + '/api/ipam/' + kind + '/?' + queries.textOf(pairs);
}

/** Records as the view has them: whole, brief, or with some members. */
async function shown(call, kind, rows, view) {
    const out = view.brief ? rows.map((row) => records.briefOf(call, kind, row)) : await records.recordsOf(call, kind, rows);
    if (view.fields === null) {
        return out;
    }
    return out.map((record) => {
        const some = {};
        view.fields.filter((name) => kinds.has(record, name)).forEach((name) => {
            some[name] = record[name];
        });
        return some;
    });
}

/**
 * The answer to GET of a list.
 * @param {Object} call
 * @param {string} kind
 * @param {string} text the query
 * @returns {Promise<{value: Object, place: (string|undefined)}>}
 */
async function page(call, kind, text) {
    const query = await queries.queryOf(call, kind, text);
    const list = query.tests.length || kinds.KINDS[kind].isWhole ? await found(call, kind, query) : await passed(call, kind, query);
    return {
        place: list.place,
        value: {
            count: list.count,
            next: query.offset + query.limit < list.count ? linkOf(call, kind, query, query.offset + query.limit) : null,
            previous: query.offset > 0 ? linkOf(call, kind, query, Math.max(0, query.offset - query.limit)) : null,
            results: await shown(call, kind, list.rows, query),
        },
    };
}

export default { page, shown };
