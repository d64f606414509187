import assert from 'node:assert';
import test from 'node:test';
import asking from './asking.test.js';
import main from './main.js';
import poolRows from './pool_rows.js';

const { ok, request } = asking;
const GROUP = { id: 3, name: 'Floor 1', start: 100, end: 199 };
const VOICE = { group: 3, id: 5, name: 'voice', vid: 100 };
const RANGES = [{ id: 1, name: 'all', start: 64512, end: 65534 }, { id: 2, name: 'edge', start: 64520, end: 64529 },
    { id: 4, name: 'edge too', start: 64520, end: 64529 }];
const READ = '/pools-read/api/ipam/';
const CHANGE = '/pools-change/api/ipam/';

async function asked(method, uri, args, body, told) {
    const r = request(method, `/api/ipam/${uri}`, args, typeof body === 'string' ? body : JSON.stringify(body), told);
    await main.handle(r);
    return r;
}

test('what NetBox calls them', () => {
    [[1, 'AS1'], [65535, 'AS65535'], [65536, 'AS65536 (1.0)'], [4294967295, 'AS4294967295 (65535.65535)']].forEach((one) => {
        assert.strictEqual(poolRows.asnText(one[0]), one[1]);
    });
    // as Django's slugify
    [['Floor 1', 'floor-1'], ['  Two  blanks_', 'two-blanks'], ['Büro -- Süd', 'buro-sud'], ['a.b/c', 'abc'], ['_x-', 'x']].forEach((one) => {
        assert.strictEqual(poolRows.slugOf(one[0]), one[1]);
    });
});

test('a VLAN has its group', async () => {
    const r = await asked('GET', 'vlans/5/', '', '', { [`GET ${READ}vlans/5/`]: ok(VOICE), [`GET ${READ}vlan-groups/3/`]: ok(GROUP) });
    const value = JSON.parse(r.text);
    assert.strictEqual(value.display, 'voice (100)');
    assert.strictEqual(value.url, 'https://h/api/ipam/vlans/5/');
    assert.deepStrictEqual(value.status, { value: 'active', label: 'Active' });
    assert.deepStrictEqual(value.group, { id: 3, url: 'https://h/api/ipam/vlan-groups/3/', display: 'Floor 1', name: 'Floor 1', slug: 'floor-1', description: '' });
});

test('ranges and groups are pages', async () => {
    const r = await asked('GET', 'asn-ranges/', 'limit=1&offset=1', '', { [`GET ${READ}asn-ranges/?limit=1000&offset=0`]: ok(RANGES) });
    const value = JSON.parse(r.text);
    assert.deepStrictEqual([value.count, value.results.length, value.results[0].display], [3, 1, 'edge (64520-64529)']);
    assert.strictEqual(value.next, 'https://h/api/ipam/asn-ranges/?limit=1&offset=2');
    const named = await asked('GET', 'asn-ranges/', 'slug=edge-too', '', { [`GET ${READ}asn-ranges/?limit=1000&offset=0`]: ok(RANGES) });
    assert.deepStrictEqual(JSON.parse(named.text).results.map((one) => one.id), [4]);
});

test('filters of VLANs go to poold', async () => {
    const r = await asked('GET', 'vlans/', 'vid=100&group=floor-1&status=active', '', {
        [`GET ${READ}vlan-groups/?limit=1000`]: ok([GROUP]),
        [`GET ${READ}vlans/?vid=100&group_id=3&limit=1000&offset=0`]: ok({ count: 1, next: null, previous: null, results: [VOICE] }),
    });
    assert.deepStrictEqual(JSON.parse(r.text).results.map((one) => one.display), ['voice (100)']);
});

test('a VLAN is recorded in its group, an AS number in the smallest range that has it', async () => {
    const voice = await asked('POST', 'vlans/', '', { vid: 100, name: 'voice', group: { name: 'Floor 1' }, status: 'active', site: null, tags: [] }, {
        [`GET ${READ}vlan-groups/?limit=1000`]: ok([GROUP]), [`POST ${CHANGE}vlan-groups/3/vlans/`]: ok(VOICE, 201),
    });
    assert.deepStrictEqual([voice.status, voice.asked[1]], [201, `POST ${CHANGE}vlan-groups/3/vlans/ {"vid":100,"name":"voice"}`]);
    const told = {
        [`GET ${READ}asn-ranges/?limit=1000`]: ok(RANGES), 'GET /register-read/api/ipam/rirs/?limit=1000': ok({ results: [{ id: 8 }] }),
        [`POST ${CHANGE}asn-ranges/2/asns/`]: ok({ asn: 64525, id: 9, name: 'edge', range: 2 }, 201),
    };
    const edge = await asked('POST', 'asns/', '', { asn: 64525, rir: 8, description: 'edge' }, told);
    assert.deepStrictEqual([edge.status, edge.asked[2]], [201, `POST ${CHANGE}asn-ranges/2/asns/ {"asn":64525,"name":"edge"}`]);
    assert.deepStrictEqual([JSON.parse(edge.text).description, JSON.parse(edge.text).rir], ['edge', null]);
    for (const [body, refusal] of [[{ asn: 1 }, 'asn'], [{ asn: 64525, rir: 9 }, 'rir'], [{ asn: '64525' }, 'asn'], [{}, 'asn']]) {
        const r = await asked('POST', 'asns/', '', body, told);
        assert.deepStrictEqual([r.status, Object.keys(JSON.parse(r.text))], [400, [refusal]]);
        assert.ok(r.asked.every((one) => one.startsWith('GET ')), r.asked.join());
    }
    const none = await asked('POST', 'vlans/', '', { vid: 100, name: 'voice' }, told);
    assert.deepStrictEqual([none.status, none.text], [400, '{"group":["This field is required."]}']);
});

test('what stays of a VLAN may be repeated, and not changed', async () => {
    const told = { [`GET ${READ}vlans/5/`]: ok(VOICE), [`PATCH ${CHANGE}vlans/5/`]: ok({ ...VOICE, name: 'phones' }), [`GET ${READ}vlan-groups/3/`]: ok(GROUP) };
    const put = await asked('PUT', 'vlans/5/', '', { vid: 100, name: 'phones', group: 3, status: { value: 'active', label: 'Active' } }, told);
    assert.deepStrictEqual([put.status, put.asked[1]], [200, `PATCH ${CHANGE}vlans/5/ {"name":"phones"}`]);
    for (const body of [{ vid: 101 }, { group: 4 }, { status: 'reserved' }, { role: 1 }]) {
        const r = await asked('PATCH', 'vlans/5/', '', body, told);
        assert.deepStrictEqual([r.status, Object.keys(JSON.parse(r.text))], [400, Object.keys(body)]);
        assert.ok(r.asked.every((one) => one.startsWith('GET ')), r.asked.join());
    }
});

test('the ends of a group in each of their forms', async () => {
    const sent = async (method, body) => {
        const uri = method === 'POST' ? 'vlan-groups/' : 'vlan-groups/3/';
        const r = await asked(method, uri, '', body, { [`GET ${READ}vlan-groups/3/`]: ok(GROUP) });
        return r.asked.filter((one) => !one.startsWith('GET ')).concat(r.asked.length && !r.asked[0].startsWith('GET ') ? [] : r.text)[0];
    };
    const made = `POST ${CHANGE}vlan-groups/ `;
    assert.strictEqual(await sent('POST', { name: 'a b', slug: 'a-b' }), made + '{"name":"a b","start":1,"end":4094}');
    assert.strictEqual(await sent('POST', { name: 'a', vid_ranges: [[10, 20]] }), made + '{"name":"a","start":10,"end":20}');
    assert.strictEqual(await sent('POST', { name: 'a', min_vid: 10, max_vid: 20, vid_ranges: [[10, 20]] }), made + '{"name":"a","start":10,"end":20}');
    assert.strictEqual(await sent('PATCH', { max_vid: 299 }), `PATCH ${CHANGE}vlan-groups/3/ {"end":299}`);
    assert.strictEqual(await sent('PATCH', { slug: 'floor-1' }), `PATCH ${CHANGE}vlan-groups/3/ {}`);
    assert.ok((await sent('POST', { name: 'a', vid_ranges: [[1, 2], [5, 6]] })).startsWith('{"vid_ranges":['));
    assert.ok((await sent('POST', { name: 'a', min_vid: 9, vid_ranges: [[10, 20]] })).startsWith('{"min_vid":['));
    assert.ok((await sent('POST', { name: 'a', slug: 'b' })).startsWith('{"slug":['));
});

test('free numbers are objects, and claims make records', async () => {
    const told = {
        [`GET ${READ}asn-ranges/1/available-asns/`]: ok([64513, 64514]), [`GET ${READ}vlan-groups/3/available-vlans/?limit=2`]: ok([101, 102]),
        [`GET ${READ}vlan-groups/3/`]: ok(GROUP), [`POST ${CHANGE}vlan-groups/3/available-vlans/`]: ok([VOICE], 201),
    };
    const asns = await asked('GET', 'asn-ranges/1/available-asns/', '', '', told);
    assert.deepStrictEqual(JSON.parse(asns.text), [{ rir: null, asn: 64513 }, { rir: null, asn: 64514 }]);
    const vlans = await asked('GET', 'vlan-groups/3/available-vlans/', 'limit=2', '', told);
    assert.deepStrictEqual(JSON.parse(vlans.text).map((one) => [one.vid, one.group.id]), [[101, 3], [102, 3]]);
    const claim = await asked('POST', 'vlan-groups/3/available-vlans/', '', [{ name: 'voice', group: 3 }], told);
    assert.deepStrictEqual([claim.status, JSON.parse(claim.text)[0].url], [201, 'https://h/api/ipam/vlans/5/']);
    assert.strictEqual(claim.asked[1], `POST ${CHANGE}vlan-groups/3/available-vlans/ [{"name":"voice"}]`);
});

test('refusals of poold name their member', async () => {
    const bounds = { status: 400, text: '{"code":"bounds","detail":"number 7 is not in the range"}' };
    const r = await asked('POST', 'vlans/', '', { vid: 7, name: 'x', group: 3 }, { [`POST ${CHANGE}vlan-groups/3/vlans/`]: bounds });
    assert.deepStrictEqual([r.status, r.text], [400, '{"vid":["number 7 is not in the range"]}']);
});
