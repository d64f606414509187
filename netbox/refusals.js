/* Refusals as NetBox writes them. */
import kinds from './kinds.js';

/** The member that a rule of the register is about: of each kind, or of this one. Others are answered as `__all__`. */
const MEMBERS = {
    name_taken: 'name',
    slug_taken: 'slug',
    rd_taken: 'rd',
    coincide: 'enforce_unique',
    aggregate_overlap: 'prefix',
    range_order: 'end_address',
    range_family: 'end_address',
    range_mask: 'end_address',
    wanted_length: 'prefix_length',
    slaac_family: 'status',
    dns_name: 'dns_name',
    populated: 'address',
};
/** The member that has the block or the address of a record. */
const PLACES = { 'aggregates': 'prefix', 'prefixes': 'prefix', 'ip-ranges': 'start_address', 'ip-addresses': 'address' };
/** The member that has the number of a record, or the last one of a range. */
const NUMBERS = { 'asn-ranges': 'end', 'asns': 'asn', 'vlan-groups': 'vid_ranges', 'vlans': 'vid' };
const REFERENCES = { vrfs: 'vrf', roles: 'role', rirs: 'rir' };
const UNANSWERED = 'the register did not answer; if this was a change, ask whether it was made before you send it again';

/** A refusal that is thrown: its status, its body, and its code if the register gave it. */
function Refusal(status, body, code) {
    this.status = status;
    this.body = body;
    this.code = code;
    this.headers = {};
}

/** A refusal without a member. @param {number} status @param {string} text @returns {Refusal} */
function detail(status, text) {
    return new Refusal(status, { detail: text });
}

/** 400 for one member or parameter. @param {string} name @param {string} text @returns {Refusal} */
function field(name, text) {
    const body = {};
    kinds.put(body, name, [text]);
    return new Refusal(400, body);
}

/** The member that a refusal of the register is about, or undefined. */
function memberOf(kind, code, text) {
    if (code === 'field') {
        const named = /^(\w+) is missing or malformed$/.exec(text);
        const isEnd = kind === 'vlan-groups' && named && ['start', 'end'].includes(named[1]);
        return isEnd ? 'vid_ranges' : named && named[1] !== 'body' ? named[1] : undefined;
    }
    if (code === 'no_such') {
        const named = /^([a-z-]+) \d+ is not there$/.exec(text);
        return named && kinds.has(REFERENCES, named[1]) ? REFERENCES[named[1]] : undefined;
    }
    if (code === 'host_bits') {
        return 'prefix';
    }
    if (code === 'zero_mask' || code === 'duplicate') {
        return PLACES[kind];
    }
    if (code === 'bounds') {
        return NUMBERS[kind];
    }
    return kinds.has(MEMBERS, code) ? MEMBERS[code] : undefined;
}

/**
 * What a refusal of the register is in NetBox's form: 400 for a member by its name, or for all; others with a `detail`.
 * @param {number} status
 * @param {string} text the body of the register's answer
 * @param {string} kind of the record that was asked for
 * @returns {Refusal}
 */
function ofRegister(status, text, kind) {
    let told;
    try {
        told = JSON.parse(text);
    } catch (e) {
        told = null;
    }
    if (told === null || typeof told !== 'object' || typeof told.detail !== 'string') {
        return detail(status >= 500 ? status : 502, UNANSWERED);
    }
    const code = typeof told.code === 'string' ? told.code : undefined;
    const body = {};
    if (code === 'taken' && kinds.has(NUMBERS, kind)) {
        body[NUMBERS[kind]] = [told.detail];
        return new Refusal(400, body, code);
    }
    if (status === 400 && code !== undefined && code !== 'bad_json') {
        const member = memberOf(kind, code, told.detail);
        if (member !== undefined || code !== 'field') {
            body[member || '__all__'] = [told.detail];
            return new Refusal(status, body, code);
        }
    }
    return new Refusal(status, { detail: told.detail }, code);
}

export default { Refusal, detail, field, ofRegister };
