// One packet to all its receivers. Expected bytes are worked out by hand by RFC 3550, 5.1, RFC 8285, 4 and RFC 4588, 4.
import assert from 'node:assert/strict';
import { before, test } from 'node:test';
import * as rtp from '../rtp_wire.mjs';
import { bytes, hex, refuses } from './help.mjs';

const { Group, HeaderTemplate, NewIds } = rtp;
// A level of the id 1, and no payload; with P, padding of two bytes behind a payload of one.
const PACKET = bytes('90600005 00000064 0000002C BEDE0001 10AA0000');
const PADDED = bytes('A0600005 00000064 0000002C FF 0002');
const rows = ({ bytes: all, at, lengths }) => [...at].map((from, i) => hex(all.subarray(from, from + lengths[i])));
let ids;

before(async () => {
    await rtp.load();
    ids = new NewIds([[1, 3]]);
});

test('a header for each receiver, with its SSRC and its transport number', () => {
    const group = new Group(ids, [[4, 2]]), template = group.template(PACKET);
    assert.deepEqual([template.headerLen, template.dataLen], [24, 2]);
    assert.equal(hex(template.header), '90600005' + '00000064' + '0000002c' + 'bede0002' + '30aa410000000000');
    const made = template.write(3, {ssrc: Uint32Array.of(45, 46, 47), data: bytes('0007 0008 0009')});
    assert.deepEqual([[...made.at], [...made.lengths], made.bytes.length], [[0, 24, 48], [24, 24, 24], 72]);
    assert.deepEqual(rows(made), ['2d', '2e', '2f'].map((ssrc, i) =>
        `9060000500000064000000${ssrc}bede000230aa41000${7 + i}000000`));
});

test('each field, and rows that keep the packet\'s', () => {
    const template = new Group(ids).template(PACKET), none = undefined;
    assert.deepEqual([template.headerLen, template.dataLen], [20, 0]);
    const made = template.write(6, {
        ssrc: [0xFFFFFFFF, none, none, none, none, none], sequenceNumber: [none, 0xFFFE, none, none, none, none],
        timestamp: [none, none, 0x80000001, none, none, none], payloadType: [none, none, none, 127, none, none],
        marker: [none, none, none, none, true, false]});
    const block = 'bede000130aa0000';
    assert.deepEqual(rows(made), ['9060000500000064ffffffff', '9060fffe000000640000002c', '90600005800000010000002c',
        '907f0005000000640000002c', '90e00005000000640000002c', '90600005000000640000002c'].map(it => it + block));
    assert.deepEqual(rows(new Group(ids).template(bytes('80E00005 00000064 0000002C')).write(2, {marker: [false, none]})),
        ['80600005000000640000002c', '80e00005000000640000002c']);
});

test('retransmissions, and payloads without their padding', () => {
    const template = new Group(ids).template(PADDED), none = undefined;
    const made = template.write(3, {originalNumber: [none, 5, none], sequenceNumber: [none, 9, none], payloadType: [none, 97, none],
        clearsPadding: [false, none, true]});
    assert.deepEqual(rows(made), ['a0600005000000640000002c', '80610009000000640000002c0005', '80600005000000640000002c']);
    assert.deepEqual([[...made.at], [...made.lengths]], [[0, 12, 26], [12, 14, 12]]);
    assert.equal(hex(template.write(2, {originalNumber: [none, 0]}).bytes), 'a0600005000000640000002c80600005000000640000002c0000');
    assert.equal(hex(template.write(1, {originalNumber: [0]}).bytes), '80600005000000640000002c0000');
    assert.equal(hex(template.write(1, {clearsPadding: [0]}).bytes), 'a0600005000000640000002c');
});

test('a template with its elements\' data', () => {
    const template = HeaderTemplate.make(PACKET, ids, [[4, bytes('0007')], [5, bytes('')]], rtp.Form.TWO_BYTE_FORM);
    assert.equal(hex(template.header), '9060000500000064' + '0000002c' + '10000003' + '0301aa' + '04020007' + '0500' + '000000');
    assert.equal(template.dataLen, 2);
    assert.equal(hex(template.write(1, {data: bytes('FFFE')}).bytes).slice(32), '0301aa0402fffe0500000000');
    // an id above 14 asks for the two-byte form
    assert.equal(hex(new Group(new NewIds([[1, 15]])).template(PACKET).header).slice(24), '10000001' + '0f01aa00');
});

test('many receivers, and none', () => {
    const template = new Group(ids, [[4, 2]]).template(PACKET), count = 5000;
    const ssrc = Uint32Array.from({length: count}, (_, i) => 1000 + i), data = new Uint8Array(2 * count);
    new DataView(data.buffer).setUint16(2 * 4999, 0xABCD);
    const made = template.write(count, {ssrc, data});
    assert.equal(rows(made)[4999], '9060000500000064' + '0000176f' + 'bede000230aa41abcd000000');
    assert.equal(rtp.Packet.parse(made.bytes.subarray(24 * 77, 24 * 78)).ssrc, 1077);
    const nobody = template.write(0);
    assert.deepEqual([nobody.bytes.length, nobody.at.length, nobody.lengths.length], [0, 0, 0]);
});

test('as many elements as there can be, and a header that is nobody else\'s', () => {
    const sixteen = Array.from({length: 16}, (_, i) => [i + 1, 1]), template = new Group(ids, sixteen).template(PACKET);
    assert.equal(template.dataLen, 16);
    const elements = sixteen.map(([id]) => [id, bytes('5A')]), made = HeaderTemplate.make(PACKET, ids, elements);
    assert.equal(rtp.Packet.parse(made.header).elements().length, 16);
    const before = hex(template.header);
    template.header.fill(0);
    assert.equal(hex(template.header), before);
    assert.equal(rtp.Packet.parse(template.write(1, {data: new Uint8Array(16)}).bytes).ssrc, 44);
});

test('what is refused', () => {
    refuses('BAD_ID', () => new Group(ids, [[0, 1]]));
    refuses('BAD_FIELD', () => new Group(ids, [[1, 256]]));
    refuses('BAD_FIELD', () => new Group(ids, [[1, 1], [1, 1]]));
    refuses('BAD_FIELD', () => new Group(ids, Array.from({length: 17}, (_, i) => [i + 1, 1])));
    refuses('BAD_FIELD', () => new Group(ids, [], 3));
    assert.throws(() => new Group([[1, 3]]), TypeError);
    refuses('CUT_FIXED_PART', () => new Group(ids).template(bytes('90')));
    refuses('LONG_ID', () => new Group(new NewIds([[1, 15]]), [], rtp.Form.ONE_BYTE_FORM).template(PACKET));
    refuses('BAD_ID', () => HeaderTemplate.make(PACKET, ids, [[0, bytes('01')]]));
    const template = new Group(ids, [[4, 2]]).template(PACKET);
    refuses('BAD_FIELD', () => template.write(1));
    refuses('BAD_FIELD', () => template.write(1, {data: bytes('000700')}));
    refuses('BAD_FIELD', () => template.write(2, {ssrc: [1], data: bytes('00070008')}));
    refuses('BAD_FIELD', () => template.write(1, {ssrc: [1, 2], data: bytes('0007')}));
    refuses('BAD_FIELD', () => template.write(1, {payloadType: [128], data: bytes('0007')}));
    refuses('BAD_FIELD', () => template.write(1, {sequenceNumber: [65536], data: bytes('0007')}));
    refuses('BAD_FIELD', () => template.write(-1));
    for (const ssrc of ['x', '', '45', null, 45.5, true, 45n]) {
        assert.throws(() => template.write(1, {ssrc: [ssrc], data: bytes('0007')}), TypeError);
    }
    for (const ssrc of [45, new Set([45]), '4', null]) {
        assert.throws(() => template.write(1, {ssrc, data: bytes('0007')}), TypeError);
    }
    for (const name of ['SSRC', 'sequence_number', 'toString']) {
        refuses('BAD_FIELD', () => template.write(1, {[name]: [1], data: bytes('0007')}));
    }
    assert.throws(() => template.write(1, [5]), error => error.code === 'BAD_FIELD');
    assert.throws(() => template.write(1, 5), TypeError);
    assert.throws(() => template.write(1, {marker: [null], data: bytes('0007')}), TypeError);
    assert.throws(() => template.write(1, {data: Uint16Array.of(7)}), TypeError);
});
