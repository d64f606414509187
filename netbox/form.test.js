import assert from 'node:assert';
import test from 'node:test';
import asking from './asking.test.js';
import main from './main.js';
import records from './records.js';

const { ok, request } = asking;

const VRF = { description: '', enforce_unique: true, id: 1, name: 'guests', rd: '65000:10' };
const PREFIX = { children: 0, depth: 0, description: '', family: 4, id: 3, is_pool: false, mark_utilized: false, prefix: '10.0.0.0/24', role: null,
    status: { label: 'Active', value: 'active' }, vrf: 1 };

test('what a range is shown as', () => {
    [['10.20.0.100/24', '10.20.0.199/24', '10.20.0.100-199/24'], ['10.1.0.5/8', '10.2.0.5/8', '10.1.0.5-2.0.5/8'],
        ['2001:db8::1/64', '2001:db8::ff/64', '2001:db8::1-ff/64'],
    ].forEach((one) => assert.strictEqual(records.rangeText(one[0], one[1]), one[2]));
});

test('one reading for a record, and one for each kind that it refers to', async () => {
    const r = request('GET', '/api/ipam/prefixes/3/', '', '', {
        'GET /register-read/api/ipam/prefixes/3/': ok(PREFIX), 'GET /register-read/api/ipam/vrfs/1/': ok(VRF),
    });
    await main.handle(r);
    const value = JSON.parse(r.text);
    assert.strictEqual(r.status, 200);
    const url = 'https://h/api/ipam/vrfs/1/';
    assert.deepStrictEqual(value.vrf, { id: 1, url: url, display: 'guests (65000:10)', name: 'guests', rd: '65000:10', description: '' });
    assert.strictEqual(value._depth, 0);
    assert.strictEqual(value.depth, undefined);
    assert.deepStrictEqual(r.asked, ['GET /register-read/api/ipam/prefixes/3/', 'GET /register-read/api/ipam/vrfs/1/']);
    assert.strictEqual(r.headersOut['Ipam-Place'], '7');
});

test('a page with several VRFs has them by one reading', async () => {
    const r = request('GET', '/api/ipam/prefixes/', 'limit=2', '', {
        'GET /register-read/api/ipam/prefixes/?limit=2&offset=0': ok({ count: 3, next: 'x', previous: null, results: [PREFIX, { ...PREFIX, id: 4, vrf: 2 }] }),
        'GET /register-read/api/ipam/vrfs/?limit=1000': ok({ results: [VRF, { ...VRF, id: 2, rd: null, name: 'b' }] }),
    });
    await main.handle(r);
    const value = JSON.parse(r.text);
    assert.deepStrictEqual(value.results.map((one) => one.vrf.display), ['guests (65000:10)', 'b']);
    assert.strictEqual(value.next, 'https://h/api/ipam/prefixes/?limit=2&offset=2');
    assert.strictEqual(r.asked.length, 2);
});

test('a change that was made has its status, even if its VRF cannot be read', async () => {
    const r = request('POST', '/api/ipam/prefixes/3/available-prefixes/', '', '{"prefix_length":26}', {
        'POST /register-change/api/ipam/prefixes/3/available-prefixes/': ok({ ...PREFIX, id: 9 }, 201),
    });
    await main.handle(r);
    assert.strictEqual(r.status, 201);
    assert.deepStrictEqual(JSON.parse(r.text).vrf, { id: 1, url: 'https://h/api/ipam/vrfs/1/' });
});

test('members are refused by name before the register is asked', async () => {
    const r = request('PATCH', '/api/ipam/prefixes/3/', '', '{"tenant":1,"tags":[],"__proto__":{"x":1}}', {});
    await main.handle(r);
    assert.deepStrictEqual([r.status, r.text], [400, '{"tenant":["the register has no tenant here"],"__proto__":["the register has no __proto__ here"]}']);
    assert.deepStrictEqual(r.asked, []);
});

test('filters that the register has go to it in its own spelling', async () => {
    for (const [asked, sent] of [['within=2001:DB8::1/32', 'within=2001%3Adb8%3A%3A%2F32'], ['vrf_id=null&status=active', 'vrf_id=null&status=active'],
        ['prefix=10.0.0.7/24&prefix=10.0.0.7/24', 'prefix=10.0.0.0%2F24'], ['contains=10.0.0.1', 'contains=10.0.0.1%2F32']]) {
        const r = request('GET', '/api/ipam/prefixes/', asked, '', {});
        await main.handle(r);
        assert.deepStrictEqual(r.asked, [`GET /register-read/api/ipam/prefixes/?${sent}&limit=50&offset=0`]);
    }
});

test('filters of one member do not replace one another', async () => {
    const row = { ...PREFIX, id: 1, prefix: undefined, address: '10.0.0.1/24', vrf: null };
    const page = ok({ count: 1, next: null, previous: null, results: [row] });
    const base = 'GET /register-read/api/ipam/ip-addresses/?parent=';
    const told = { [`${base}10.0.0.1%2F32&limit=1000&offset=0`]: page };
    const lists = [['address=10.0.0.1&parent=11.0.0.0/8', 0], ['parent=10.0.0.0/8&address=10.0.0.1/24', 1], ['parent=10.0.0.0/8&address=10.0.0.1/25', 0],
        ['address=10.0.0.1&parent=10.0.0.0/25', 1], ['address=10.0.0.1&parent=10.0.0.0/25&parent=11.0.0.0/8', 1], ['address=10.0.0.1/24&address=10.0.0.1', 1]];
    for (const [args, count] of lists) {
        const r = request('GET', '/api/ipam/ip-addresses/', args, '', told);
        await main.handle(r);
        assert.strictEqual(JSON.parse(r.text).count, count, `${args} ${r.text} ${r.asked}`);
    }
});

test('a filter is there a bounded number of times', async () => {
    for (const [name, most] of [['q', 10], ['status', 50], ['within', 50], ['prefix', 200], ['id', 1000]]) {
        const args = Array.from({ length: most + 1 }, (_, n) => `${name}=${n + 1}`).join('&');
        const r = request('GET', '/api/ipam/prefixes/', args, '', {});
        await main.handle(r);
        assert.deepStrictEqual([r.status, JSON.parse(r.text)], [400, { [name]: [`filter ${name} is served with at most ${most} values`] }]);
    }
});

test('views: brief, fields; other forms and orders are refused', async () => {
    const told = { 'GET /register-read/api/ipam/prefixes/3/': ok({ ...PREFIX, vrf: null }) };
    const get = async (args) => {
        const r = request('GET', '/api/ipam/prefixes/3/', args, '', told);
        await main.handle(r);
        return [r.status, JSON.parse(r.text)];
    };
    assert.deepStrictEqual(await get('brief=true'), [200, { id: 3, url: 'https://h/api/ipam/prefixes/3/', display: '10.0.0.0/24', description: '',
        family: { value: 4, label: 'IPv4' }, prefix: '10.0.0.0/24', _depth: 0 }]);
    assert.deepStrictEqual(await get('fields=id,prefix,x'), [200, { id: 3, prefix: '10.0.0.0/24' }]);
    for (const args of ['format=csv', 'ordering=prefix', 'ordering=-id']) {
        assert.strictEqual((await get(args))[0], 400);
    }
    assert.strictEqual((await get('format=json&ordering=id'))[0], 200);
});
