/* What the tests of the handler ask by. */

/** What a request of a client is to njs; `told` answers the requests to both programs by method and target. */
function request(method, uri, args, body, told) {
    const out = { headersOut: {}, asked: [], log: [] };
    out.method = method;
    out.uri = uri;
    out.variables = { scheme: 'https', asked_host: 'h', args: args };
    out.requestBuffer = Buffer.from(body);
    out.warn = out.error = (text) => out.log.push(text);
    out.return = (status, text) => Object.assign(out, { status, text });
    out.subrequest = async (path, options) => {
        const asked = `${options.method} ${path}${options.args ? '?' + options.args : ''}`;
        out.asked.push(asked + (options.body ? ' ' + options.body : ''));
        const answer = told[asked] || { status: 404, text: '{"code":"not_found","detail":"not there"}' };
        return { status: answer.status, responseText: answer.text, headersOut: { 'Ipam-Place': '7' } };
    };
    return out;
}

const ok = (value, status) => ({ status: status || 200, text: JSON.stringify(value) });

export default { ok, request };
