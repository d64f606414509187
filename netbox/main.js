/*
 * NetBox's form of answers in front of the register: `handle` answers what nginx has at /api/. It reads and changes the register by requests of its own
 * (register.js), at most one change for each request of a client.
 */
import body from './body.js';
import changes from './changes.js';
import kinds from './kinds.js';
import lists from './lists.js';
import poolChanges from './pool_changes.js';
import poolRows from './pool_rows.js';
import queries from './queries.js';
import records from './records.js';
import refusals from './refusals.js';
import register from './register.js';

/** What a path asks for: a list, a record, or a part of a record. @typedef {{kind: string, id: (string|undefined), part: (string|undefined)}} Route */

/** @param {string} path @returns {(Route|null)} */
function routeOf(path) {
    const parts = /^\/api\/ipam\/([a-z-]+)\/(?:([1-9][0-9]{0,9})\/(?:([a-z-]+)\/)?)?$/.exec(path);
    if (!parts || !kinds.has(kinds.KINDS, parts[1]) || Number(parts[2] || 1) > 4294967295) {
        return null;
    }
    const part = parts[3];
    const isClaim = part !== undefined && kinds.has(kinds.CLAIMS, part) && kinds.CLAIMS[part].from.includes(parts[1]);
    if (part !== undefined && !isClaim && !(part === 'utilization' && kinds.MEASURED.includes(parts[1]))) {
        return null;
    }
    return { kind: parts[1], id: parts[2], part: part };
}

/** The methods of a path. @param {Route} route @returns {string[]} */
function methodsOf(route) {
    if (route.part !== undefined) {
        return route.part === 'utilization' ? ['GET'] : ['GET', 'POST'];
    }
    return route.id === undefined ? ['GET', 'POST', 'PUT', 'PATCH', 'DELETE', 'OPTIONS'] : ['GET', 'PUT', 'PATCH', 'DELETE'];
}

/** Answers a request. */
function send(r, status, value, place, code, headers) {
    r.headersOut['Content-Type'] = 'application/json';
    if (place !== undefined) {
        r.headersOut['Ipam-Place'] = place;
    }
    if (code !== undefined) {
        r.headersOut['Ipam-Code'] = code;
    }
    Object.keys(headers || {}).forEach((name) => {
        r.headersOut[name] = headers[name];
    });
    if (status === 204) {
        r.return(204);
    } else {
        r.return(status, typeof value === 'string' ? value : JSON.stringify(value));
    }
}

/** OPTIONS of a list: what POST may set of its choices. */
function options(call, route) {
    const actions = {};
    const choices = kinds.KINDS[route.kind].choices;
    Object.keys(choices).forEach((name) => {
        actions[name] = { choices: choices[name].map((value) => ({ value: value, display_name: kinds.labelOf(value) })) };
    });
    send(call.r, 200, { actions: { POST: actions } });
}

/** GET of a list, a record, or a part of it. */
async function get(call, route) {
    const r = call.r;
    const query = r.variables.args || '';
    if (route.id === undefined) {
        const list = await lists.page(call, route.kind, query);
        return send(r, 200, list.value, list.place);
    }
    const pairs = queries.pairsOf(query);
    const view = queries.viewOf(pairs);
    const path = route.kind + '/' + route.id + '/' + (route.part === undefined ? '' : route.part + '/');
    const isList = route.part !== undefined && route.part !== 'utilization';
    const limit = isList && pairs.some((pair) => pair[0] === 'limit') ? 'limit=' + queries.limitOf(pairs, 0) : '';
    const answer = await register.read(r, path, limit);
    if (isList) {
        const rows = register.valueOf(answer, route.kind);
        const free = kinds.KINDS[route.kind].source === 'pools' ? await records.freeNumbersOf(call, route.part, Number(route.id), rows)
            : await records.freeOf(call, rows);
        return send(r, 200, free, answer.place);
    }
    if (route.part !== undefined) {
        const measured = register.valueOf(answer, route.kind);
        return send(r, 200, measured, answer.place);
    }
    const shown = await lists.shown(call, route.kind, [register.rowOf(answer, route.kind)], view);
    return send(r, 200, shown[0], answer.place);
}

/** The object of a request for a record, which may be the one of a list. A longer list would be several changes; an empty one is none, and null here. */
function objectOf(call, route, value) {
    const method = call.r.method;
    if (route.id !== undefined || (!Array.isArray(value) && method === 'POST')) {
        return changes.objectOf(value);
    }
    if (!Array.isArray(value) || value.length > 1) {
        throw refusals.detail(400, 'a list has exactly one record here: send one request for each record');
    }
    call.isList = true;
    return value.length ? changes.objectOf(value[0]) : null;
}

/** The path of the record that an object of a list names. */
function pathOf(kind, object) {
    const path = kind + '/' + object.id + '/';
    if (!kinds.has(object, 'id') || !routeOf('/api/ipam/' + path)) {
        throw refusals.field('id', 'the id of a record is required');
    }
    return path;
}

/** The bytes of the body. nginx may have put those of many small chunks into a file, where they can't be read. */
function bytesOf(r) {
    try {
        return r.requestBuffer || Buffer.from('');
    } catch (e) {
        throw refusals.detail(413, 'the body came in too many chunks: send it with its length');
    }
}

/** The method, path and body of the one change that a request means, and the kind of the records that it answers; or null if it means none. */
async function changeOf(call, route) {
    const method = call.r.method;
    if (method === 'DELETE' && route.id !== undefined) {
        return { method: method, kind: route.kind, path: route.kind + '/' + route.id + '/', body: '' };
    }
    const value = await body.valueOf(bytesOf(call.r));
    if (route.part !== undefined) {
        const claim = await changes.claimOf(call, route, value);
        const path = route.kind + '/' + route.id + '/' + route.part + '/';
        return { method: method, kind: kinds.CLAIMS[route.part].makes, path: path, body: JSON.stringify(claim) };
    }
    const object = objectOf(call, route, value);
    if (object === null) {
        return null;
    }
    const path = route.id !== undefined ? route.kind + '/' + route.id + '/' : method === 'POST' ? route.kind + '/' : pathOf(route.kind, object);
    if (method === 'DELETE') {
        return { method: method, kind: route.kind, path: path, body: '' };
    }
    const kind = kinds.KINDS[route.kind];
    if (kind.source === 'pools') {
        return await poolChanges.changeOf(call, route.kind, path, object);
    }
    const plain = await changes.plainOf(call, object, kind, {}, method === 'PATCH' ? [] : kind.required);
    return { method: method === 'PUT' ? 'PATCH' : method, kind: route.kind, path: path, body: JSON.stringify(plain) };
}

/** The records of an accepted change in NetBox's form. The change is made, so nothing is refused here: what can't be read is said. */
async function changed(call, kind, text) {
    try {
        const value = JSON.parse(text);
        const made = (Array.isArray(value) ? value : [value]).map((one) => poolRows.rowOf(kind, one));
        const rows = await records.recordsOf(call, kind, made);
        return Array.isArray(value) || call.isList ? rows : rows[0];
    } catch (e) {
        call.r.error('the answer to a change could not be read: ' + e);
        return { detail: 'the change was made, but the answer of the register could not be read' };
    }
}

/** POST, PUT, PATCH, DELETE. */
async function make(call, route) {
    const wanted = await changeOf(call, route);
    if (wanted === null) {
        return send(call.r, call.r.method === 'DELETE' ? 204 : call.r.method === 'POST' ? 201 : 200, []);
    }
    const answer = await register.change(call.r, wanted.method, wanted.path, wanted.body);
    if (answer.status < 200 || answer.status > 299) {
        const refusal = refusals.ofRegister(answer.status, answer.text, wanted.kind);
        refusal.place = answer.place;
        throw refusal;
    }
    const value = answer.status === 204 ? '' : await changed(call, wanted.kind, answer.text);
    return send(call.r, answer.status, value, answer.place);
}

/** GET of `/api/ipam/`: where the lists are. */
function index(call) {
    const urls = {};
    Object.keys(kinds.KINDS).forEach((kind) => {
        urls[kind] = call.base + '/api/ipam/' + kind + '/';
    });
    send(call.r, 200, urls);
}

/** Answers what is thrown. */
function refuse(call, e) {
    if (!(e instanceof refusals.Refusal)) {
        call.r.error(e.stack || String(e));
        return send(call.r, 500, { detail: 'the request could not be served' });
    }
    const value = call.isList && e.status === 400 && e.body.detail === undefined ? [e.body] : e.body;
    return send(call.r, e.status, value, e.place, e.code, e.headers);
}

/**
 * Answers a request at /api/ipam/.
 * @param {Object} r
 * @returns {Promise<void>}
 */
async function handle(r) {
    const call = { r: r, base: r.variables.scheme + '://' + r.variables.asked_host, tables: {}, isList: false };
    try {
        const route = routeOf(r.uri);
        if (r.uri === '/api/ipam/' && r.method === 'GET') {
            return index(call);
        }
        if (route === null) {
            throw refusals.detail(404, 'Not found.');
        }
        const methods = methodsOf(route);
        if (!methods.includes(r.method)) {
            const refusal = refusals.detail(405, 'Method "' + r.method + '" not allowed.');
            refusal.headers.Allow = methods.join(', ');
            throw refusal;
        }
        if (r.method === 'OPTIONS') {
            options(call, route);
        } else {
            await (r.method === 'GET' ? get(call, route) : make(call, route));
        }
    } catch (e) {
        refuse(call, e);
    }
}

export default { handle, routeOf };
