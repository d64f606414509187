import assert from 'node:assert';
import test from 'node:test';
import body from './body.js';

const valueOf = (text) => body.valueOf(Buffer.from(text));
const refuses = (text, status) => assert.rejects(valueOf(text), (e) => e.status === status && typeof e.body.detail === 'string', String(text).slice(0, 80));

test('bodies of JSON', async () => {
    const long = 'a'.repeat(3000);
    const texts = ['{}', '[]', '[{},{}]', ' {"a" : [ 1 , -5 , 0 , true , false , null ] } ', '{"a":"1.5, 1e5"}', '{"a":"\\"1.5\\\\"}',
        '{"a":123456789012345}',
        '{"a":"\\ud83d\\ude00"}',
        '{"a":"\\\\ud800"}', '{"a":"\\u00e9\\uD7ff\\ue000"}', `{"a":"${long}","b":"${'\\"'.repeat(3000)}"}`, `{"${long}":${'1'.repeat(15)}}`,
        `[${'"\\\\",'.repeat(2000)}1]`, '{"a":"😀é"}'];
    for (const text of texts) {
        assert.deepStrictEqual(await valueOf(text), JSON.parse(text), text.slice(0, 60));
    }
    // a number, an escape and a pair at every place of the pieces that are looked at
    for (let at = 1000; at < 1050; at += 1) {
        for (const rest of ['\\ud83d\\ude00","b":1}', '","b":123456789012345}', '\\\\ud800","b":0}']) {
            const text = `{"a":"${'x'.repeat(at - 6)}${rest}`;
            assert.deepStrictEqual(await valueOf(text), JSON.parse(text), `${at} ${rest}`);
        }
        await refuses(`{"a":"${'x'.repeat(at - 6)}\\ud83d","b":1}`, 400);
        await refuses(`{"a":"${'x'.repeat(at - 6)}\\ude00","b":1}`, 400);
        await refuses(`{"a":"${'x'.repeat(at - 6)}","b":1.5}`, 400);
        await refuses(`{"a":"${'x'.repeat(at - 6)}","b":1234567890123456}`, 400);
    }
});

test('what is no body', async () => {
    for (const text of ['', '1', '"x"', 'null', '{', '[1', '{"a":1,}', '{"a":1.0}', '{"a":1e2}', '{"a":-0}', '{"a":1E2}', '[0.1]', '{"a":1234567890123456}',
        '{"a":"\\ud800"}', '{"a":"\\udc00"}', '{"a":"\\ud800\\ud800"}', '{"a":"\\uD800x"}', '{"a":"\\udc00\\ud800"}', '\ufeff{}', '{"a":"\n"}']) {
        await refuses(text, 400);
    }
    for (const bytes of [[0xff], [0x7b, 0xc3, 0x7d], [0x22, 0xed, 0xa0, 0x80, 0x22], [0x22, 0xc0, 0x80, 0x22], [0x22, 0xf5, 0x80, 0x80, 0x80, 0x22]]) {
        await refuses(Buffer.from(bytes), 400);
    }
});

test('the number of parts is bounded', async () => {
    assert.strictEqual((await valueOf('[' + '{},'.repeat(9998) + '{}]')).length, 9999);
    await refuses('[' + '{},'.repeat(10000) + '{}]', 413);
    await refuses('['.repeat(4000000), 413);
    await refuses(','.repeat(20001), 413);
});
