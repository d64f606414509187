/* Addresses and blocks as texts. An address is its hexadecimal digits, 8 of IPv4 and 32 of IPv6, so that equal addresses are equal texts. */

/** An address with a length. @typedef {{digits: string, length: number}} Block */

/** @param {string} text @returns {(string|null)} */
function digitsOfQuad(text) {
    const parts = /^(\d{1,3})\.(\d{1,3})\.(\d{1,3})\.(\d{1,3})$/.exec(text);
    if (!parts) {
        return null;
    }
    const numbers = [1, 2, 3, 4].map((n) => Number(parts[n]));
    return numbers.every((n) => n < 256) ? numbers.map((n) => n.toString(16).padStart(2, '0')).join('') : null;
}

/** The groups of a part of an IPv6 address, four digits each, or null. @param {string} text @returns {(string[]|null)} */
function groupsOf(text) {
    if (text === '') {
        return [];
    }
    const parts = text.split(':');
    const last = parts[parts.length - 1];
    if (last.includes('.')) {
        const quad = digitsOfQuad(last);
        if (quad === null) {
            return null;
        }
        parts.splice(parts.length - 1, 1, quad.slice(0, 4), quad.slice(4));
    }
    return parts.every((part) => /^[0-9a-fA-F]{1,4}$/.test(part)) ? parts.map((part) => part.toLowerCase().padStart(4, '0')) : null;
}

/** The digits of an address, or null if the text is none. @param {string} text @returns {(string|null)} */
function digitsOf(text) {
    if (!text.includes(':')) {
        return digitsOfQuad(text);
    }
    const halves = text.split('::');
    if (halves.length > 2 || text.length > 45) {
        return null;
    }
    const front = groupsOf(halves[0]);
    const back = halves.length === 2 ? groupsOf(halves[1]) : [];
    if (front === null || back === null || (halves.length === 2 && halves[0].includes('.'))) {
        return null;
    }
    const missing = 8 - front.length - back.length;
    if (halves.length === 1 ? missing !== 0 : missing < 1) {
        return null;
    }
    return front.join('') + '0000'.repeat(missing) + back.join('');
}

/** The text of an address, as RFC 5952 has it. @param {string} digits @returns {string} */
function textOf(digits) {
    if (digits.length === 8) {
        return [0, 2, 4, 6].map((at) => parseInt(digits.slice(at, at + 2), 16)).join('.');
    }
    const groups = [0, 4, 8, 12, 16, 20, 24, 28].map((at) => parseInt(digits.slice(at, at + 4), 16).toString(16));
    let begin = -1;
    let longest = 1;
    for (let from = 0; from < 8; from += 1) {
        let to = from;
        while (to < 8 && groups[to] === '0') {
            to += 1;
        }
        if (to - from > longest) {
            begin = from;
            longest = to - from;
        }
    }
    return begin < 0 ? groups.join(':') : groups.slice(0, begin).join(':') + '::' + groups.slice(begin + longest).join(':');
}

/** The digits with all bits behind the length zero. @param {string} digits @param {number} length @returns {string} */
function masked(digits, length) {
    const whole = Math.floor(length / 4);
    if (whole === digits.length) {
        return digits;
    }
    const nibble = parseInt(digits[whole], 16) & (0xf0 >> (length % 4));
    return digits.slice(0, whole) + nibble.toString(16) + '0'.repeat(digits.length - whole - 1);
}

/**
 * An address with its length, or without one: then `length` is that of a host and `bare` is true.
 * @param {string} text
 * @returns {({digits: string, length: number, bare: boolean}|null)}
 */
function hostOf(text) {
    const parts = /^([0-9a-fA-F.:]{2,45})(?:\/(\d{1,3}))?$/.exec(text.trim());
    const digits = parts ? digitsOf(parts[1]) : null;
    if (digits === null) {
        return null;
    }
    const bare = parts[2] === undefined;
    const length = bare ? digits.length * 4 : Number(parts[2]);
    return length <= digits.length * 4 ? { digits, length, bare } : null;
}

/** A block; bits behind its length are taken off, as NetBox does in filters. @param {string} text @returns {(Block|null)} */
function blockOf(text) {
    const host = hostOf(text);
    return host === null ? null : { digits: masked(host.digits, host.length), length: host.length };
}

/** @param {Block} block @returns {string} */
function blockText(block) {
    return textOf(block.digits) + '/' + block.length;
}

/** Whether the outer block has the inner one, or is it. @param {Block} outer @param {Block} inner @returns {boolean} */
function contains(outer, inner) {
    return outer.digits.length === inner.digits.length && outer.length <= inner.length && masked(inner.digits, outer.length) === outer.digits;
}

export default { digitsOf, textOf, hostOf, blockOf, blockText, contains };
