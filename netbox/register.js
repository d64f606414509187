/*
 * Requests to the register, or to poold for the kinds that it has. nginx makes a GET of every reading one, whatever it is asked to send, so a request of a
 * client makes at most one change.
 */
import kinds from './kinds.js';
import poolRows from './pool_rows.js';
import refusals from './refusals.js';

const UNREADABLE = 'the answer of the register could not be read';
/** The register's longest page. */
const PAGE = 1000;

/** An answer of the register. @typedef {{status: number, text: string, place: (string|undefined)}} Answer */

/** @returns {Answer} */
function answerOf(reply) {
    return { status: reply.status, text: reply.responseText || '', place: reply.headersOut['Ipam-Place'] };
}

/** Where nginx hands a path on to the program that has its kind. @param {string} path @param {string} how `read` or `change` @returns {string} */
function targetOf(path, how) {
    return '/' + kinds.KINDS[path.slice(0, path.indexOf('/'))].source + '-' + how + '/api/ipam/' + path;
}

/**
 * A GET of the register.
 * @param {Object} r the request of the client
 * @param {string} path below /api/ipam/, as `prefixes/1/`
 * @param {string} [query] without its question mark
 * @returns {Promise<Answer>}
 */
async function read(r, path, query) {
    const reply = await r.subrequest(targetOf(path, 'read'), { method: 'GET', args: query || '' });
    return answerOf(reply);
}

/**
 * The one change of a request.
 * @param {Object} r the request of the client
 * @param {string} method POST, PATCH or DELETE
 * @param {string} path below /api/ipam/
 * @param {string} body
 * @returns {Promise<Answer>}
 */
async function change(r, method, path, body) {
    const reply = await r.subrequest(targetOf(path, 'change'), { method: method, body: body });
    return answerOf(reply);
}

/** The value of an answer that has to be 200; a refusal is thrown. @param {Answer} answer @param {string} kind @returns {*} */
function valueOf(answer, kind) {
    if (answer.status !== 200) {
        throw refusals.ofRegister(answer.status, answer.text, kind);
    }
    try {
        return JSON.parse(answer.text);
    } catch (e) {
        throw refusals.detail(502, UNREADABLE);
    }
}

/** The record of an answer. @param {Answer} answer @param {string} kind @returns {Object} */
function rowOf(answer, kind) {
    return poolRows.rowOf(kind, valueOf(answer, kind));
}

/** The page of an answer. A list of poold that has no pages is one. @param {Answer} answer @param {string} kind @returns {{count: number, results: Object[]}} */
function pageOf(answer, kind) {
    const value = valueOf(answer, kind);
    const rows = Array.isArray(value) ? value : (value || {}).results;
    if (!Array.isArray(rows) || !rows.every((row) => row !== null && typeof row === 'object')) {
        throw refusals.detail(502, UNREADABLE);
    }
    return { count: Array.isArray(value) ? value.length : value.count, results: rows.map((row) => poolRows.rowOf(kind, row)) };
}

/**
 * All records of a kind that has at most a thousand: VRFs, RIRs, roles, ranges of AS numbers, VLAN groups. They are read once for each request of a client.
 * @param {Object} call
 * @param {string} kind
 * @returns {Promise<Object[]>}
 */
async function all(call, kind) {
    if (!kinds.has(call.tables, kind)) {
        const answer = await read(call.r, kind + '/', 'limit=' + PAGE);
        call.tables[kind] = pageOf(answer, kind).results;
    }
    return call.tables[kind];
}

export default { PAGE, read, change, valueOf, rowOf, pageOf, all };
