import assert from 'node:assert';
import fs from 'node:fs';
import test from 'node:test';

const FOLDER = new URL('.', import.meta.url);
const FILES = fs.readdirSync(FOLDER).filter((name) => name.endsWith('.js') && !name.endsWith('.test.js'));

/** The texts of the functions that begin with `=>` in a text, up to where their brackets end. */
function closuresOf(text) {
    return [...text.matchAll(/=>/g)].map((found) => {
        let depth = 0;
        let at = found.index + 2;
        for (; at < text.length && depth >= 0 && !(depth === 0 && (text[at] === ',' || text[at] === ';')); at += 1) {
            depth += '([{'.includes(text[at]) ? 1 : ')]}'.includes(text[at]) ? -1 : 0;
        }
        return text.slice(found.index, at);
    });
}

function textOf(name) {
    return fs.readFileSync(new URL(name, FOLDER), 'utf8');
}

test('no closure of an async function uses a variable that is not constant', () => {
    for (const name of FILES) {
        for (const [body] of textOf(name).matchAll(/^async function [^]*?^}/gm)) {
            const variables = [...body.matchAll(/\blet (\w+)/g)].map((found) => found[1]);
            for (const closure of closuresOf(body)) {
                const used = variables.filter((variable) => new RegExp(`\\b${variable}\\b`).test(closure));
                assert.deepStrictEqual(used, [], `${name}: ${closure}`);
            }
        }
    }
});

test('no list begins with a function', () => {
    FILES.forEach((name) => assert.ok(!/\[\s*(?:\(?[\w, ]*\)?\s*=>|(?:async )?function\b)/.test(textOf(name)), name));
});
