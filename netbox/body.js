/*
 * The body of a change, read in bounded time and memory: the signs that make parts are counted first; the text is parsed; then it is looked through for
 * what the register would read otherwise. Between the steps of a large body other requests are served.
 */
import refusals from './refusals.js';
import turns from './turns.js';

const MOST_PARTS = 20000;
/** After so many bytes, or pieces of the text, other requests are served. */
const BYTES_AT_ONCE = 131072;
const PIECES_AT_ONCE = 64;
/** The text is looked through by pieces of so many characters, since an expression of njs looks at all of the text that it is given. */
const PIECE = 1024;
const SIGNS = [0x7b, 0x5b, 0x2c];

/** What a piece begins with outside of strings, and whole strings. A number is a plain whole one of at most 15 digits. */
const OUTSIDE = /^(?:[^"\d-]+|(?:0|-?[1-9]\d{0,14})(?=[\s,\]}])|"[^"\\]*(?:\\(?:[^u]|u(?=..)(?!d[89a-f])|ud[89ab]..\\ud[c-f])[^"\\]*)*")*/i;
/** What a piece begins with inside of a string. The escape of a surrogate has that of its other half after it. */
const INSIDE = /^[^"\\]*(?:\\(?:[^u]|u(?=..)(?!d[89a-f])|ud[89ab]..\\ud[c-f])[^"\\]*)*/i;

/** @param {Buffer} bytes @returns {number} how many of the signs `{`, `[` and `,` there are, but no more than one above the most */
function partsOf(bytes) {
    let count = 0;
    SIGNS.forEach((sign) => {
        let at = bytes.indexOf(sign);
        while (at >= 0 && count <= MOST_PARTS) {
            count += 1;
            at = bytes.indexOf(sign, at + 1);
        }
    });
    return count;
}

function malformed(why) {
    return refusals.detail(400, 'JSON parse error' + (why ? ': ' + why : ''));
}

/** The text of a body. @param {Buffer} bytes @returns {Promise<string>} */
async function textOf(bytes) {
    const decoder = new TextDecoder('utf-8', { fatal: true, ignoreBOM: true });
    const parts = [];
    for (let at = 0; at < bytes.length; at += BYTES_AT_ONCE) {
        if (at > 0) {
            await turns.pause();
        }
        try {
            parts.push(decoder.decode(bytes.slice(at, at + BYTES_AT_ONCE), { stream: at + BYTES_AT_ONCE < bytes.length }));
        } catch (e) {
            throw malformed('not UTF-8');
        }
    }
    return parts.join('');
}

/** The value of a text. njs refuses what is deeper than 31. @param {string} text @returns {*} */
function parsed(text) {
    try {
        return JSON.parse(text);
    } catch (e) {
        throw malformed('');
    }
}

/** Refuses a text of JSON that has another number than a plain whole one, or half a surrogate pair. @param {string} text @returns {Promise<void>} */
async function look(text) {
    let isInside = false;
    let at = 0;
    for (let pieces = 1; at < text.length; pieces += 1) {
        const piece = text.slice(at, at + PIECE);
        const passed = (isInside ? INSIDE : OUTSIDE).exec(piece)[0].length;
        if (piece[passed] === '"' && (isInside || passed === 0)) {
            isInside = !isInside;
            at += passed + 1;
        } else if (passed === 0) {
            throw malformed(isInside ? 'half a surrogate pair' : 'numbers are plain whole numbers of at most 15 digits');
        } else {
            at += passed;
        }
        if (pieces % PIECES_AT_ONCE === 0) {
            await turns.pause();
        }
    }
}

/**
 * The value of a body, an object or a list; a refusal is thrown.
 * @param {Buffer} bytes
 * @returns {Promise<*>}
 */
async function valueOf(bytes) {
    if (partsOf(bytes) > MOST_PARTS) {
        throw refusals.detail(413, 'the body has more than ' + MOST_PARTS + ' parts');
    }
    const text = await textOf(bytes);
    const isLarge = bytes.length > BYTES_AT_ONCE;
    if (isLarge) {
        await turns.pause();
    }
    const value = parsed(text);
    if (value === null || typeof value !== 'object') {
        throw malformed('an object or a list is asked for');
    }
    if (isLarge) {
        await turns.pause();
    }
    await look(text);
    return value;
}

export default { valueOf };
