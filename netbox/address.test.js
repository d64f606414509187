import assert from 'node:assert';
import test from 'node:test';
import address from './address.js';

// texts of one address each, the first as RFC 5952 writes it
const SAME = [
    ['10.0.0.1'],
    ['0.0.0.0'],
    ['255.255.255.255'],
    ['2001:db8::1', '2001:DB8:0:0:0:0:0:1', '2001:0db8::0001', '2001:db8:0:0::1'],
    ['::', '0:0:0:0:0:0:0:0', '::0'],
    ['::1', '0::1', '::0:0:1'],
    ['1::', '1:0:0:0::'],
    ['2001:db8:0:1:1:1:1:1', '2001:db8::1:1:1:1:1'],
    ['2001:db8::1:0:0:1', '2001:db8:0:0:1:0:0:1'],
    ['::ffff:c000:201', '::ffff:192.0.2.1', '::FFFF:192.0.2.1'],
    ['64:ff9b::c000:221', '64:ff9b::192.0.2.33'],
];
const NONE = ['', ':', ':::', '1', '1.2.3', '1.2.3.4.5', '256.0.0.1', '1.2.3.-4', '1:2:3:4:5:6:7', '1:2:3:4:5:6:7:8:9', '1:2:3:4:5:6:7:8::', '::1::',
    '12345::', 'g::', '1.2.3.4::', '::1.2.3', '::1.2.3.256', '1:2:3:4:5:6:7:1.2.3.4', ' ', '10.0.0.1 ', '::%eth0', '1::2::3', ':1:2:3:4:5:6:7'];

test('an address has one text', () => {
    SAME.forEach((texts) => texts.forEach((text) => assert.strictEqual(address.textOf(address.digitsOf(text)), texts[0], text)));
});

test('what is no address', () => {
    NONE.forEach((text) => assert.strictEqual(address.digitsOf(text), null, text));
});

test('blocks lose the bits behind their length', () => {
    [['10.1.2.3/24', '10.1.2.0/24'], ['10.1.2.3', '10.1.2.3/32'], ['10.1.2.3/0', '0.0.0.0/0'], ['10.1.2.255/25', '10.1.2.128/25'],
        ['10.255.0.0/9', '10.128.0.0/9'],
        ['2001:DB8::1/32', '2001:db8::/32'], ['2001:db8::ffff/127', '2001:db8::fffe/127'], ['::1/128', '::1/128'], [' 10.0.0.0/8 ', '10.0.0.0/8'],
    ].forEach((pair) => assert.strictEqual(address.blockText(address.blockOf(pair[0])), pair[1]));
    ['10.0.0.0/33', '::/129', '10.0.0.0/', '10.0.0.0/x', '10.0.0.0/-1', '10.0.0.0/8/8', '/8', 'x/8'].forEach((text) => {
        assert.strictEqual(address.blockOf(text), null, text);
    });
});

test('a block contains blocks of its family alone', () => {
    const holds = (outer, inner) => address.contains(address.blockOf(outer), address.blockOf(inner));
    [['10.0.0.0/8', '10.0.0.0/8'], ['10.0.0.0/8', '10.255.0.0/16'], ['0.0.0.0/0', '10.0.0.1'], ['::/0', '2001:db8::/32'],
        ['2001:db8::/33', '2001:db8:7fff::/48'],
    ].forEach((pair) => assert.ok(holds(pair[0], pair[1]), pair.join()));
    [['10.0.0.0/8', '11.0.0.0/16'], ['10.0.0.0/16', '10.0.0.0/8'], ['::/0', '10.0.0.0/8'], ['0.0.0.0/0', '::/0'], ['2001:db8::/33', '2001:db8:8000::/48'],
    ].forEach((pair) => assert.ok(!holds(pair[0], pair[1]), pair.join()));
});
