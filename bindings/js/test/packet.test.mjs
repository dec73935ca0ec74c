// Packets, read and changed where they lie. Expected bytes are worked out by hand by RFC 3550, 5.1, and RFC 8285, 4.
import assert from 'node:assert/strict';
import { test } from 'node:test';
import * as rtp from '../rtp_wire.mjs';
import { bytes, hex, refuses } from './help.mjs';

test('before load', () => {
    refuses('NOT_LOADED', () => rtp.Packet.parse(bytes('8021B798000027100000002C')));
    refuses('NOT_LOADED', () => new rtp.ExtensionMap());
});

test('load, and again', async () => {
    await Promise.all([rtp.load(), rtp.load()]);
    const map = rtp.ExtensionMap.standard();
    await rtp.load();
    assert.equal(map.get(1), rtp.Kind.AUDIO_LEVEL);
});

test('a header without a block', () => {
    const packet = rtp.Packet.parse(bytes('8021B798 00002710 0000002C 010203'));
    assert.deepEqual([packet.payloadType, packet.sequenceNumber, packet.timestamp, packet.ssrc], [33, 47000, 10000, 44]);
    assert.deepEqual([packet.marker, packet.hasPadding, packet.csrcs, packet.form], [false, false, [], rtp.Form.NO_BLOCK]);
    assert.deepEqual([packet.headerLen, hex(packet.header), hex(packet.payload)], [12, '8021b798000027100000002c', '010203']);
    assert.deepEqual([packet.blockProfile, packet.body.length, packet.elements(), packet.values], [undefined, 0, [], {}]);
    assert.equal(hex(packet.unpaddedPayload), '010203');
    assert.equal(packet.element(1), undefined);
});

test('each field at its greatest', () => {
    const packet = rtp.Packet.parse(bytes('82FFFFFF FFFFFFFF FFFFFFFE FFFFFFFD 80000001 AA'));
    assert.deepEqual([packet.payloadType, packet.sequenceNumber, packet.timestamp, packet.ssrc, packet.marker],
        [127, 65535, 0xFFFFFFFF, 0xFFFFFFFE, true]);
    assert.deepEqual(packet.csrcs, [0xFFFFFFFD, 0x80000001]);
    assert.deepEqual([packet.headerLen, packet.payload.length], [20, 1]);
});

test('the causes for which bytes are none', () => {
    const causes = {CUT_FIXED_PART: '8021B798000027100000', OTHER_VERSION: '4021B798000027100000002C',
        CUT_SOURCES: '8121B798000027100000002C', CUT_BLOCK_HEADER: '9021B798000027100000002CBEDE00',
        CUT_BLOCK: '9021B798000027100000002CBEDE0001'};
    for (const [cause, datagram] of Object.entries(causes)) {
        assert.throws(() => rtp.Packet.parse(bytes(datagram)), it => it instanceof rtp.NotAPacket && it.code === cause
            && it instanceof rtp.RtpError && it.message.length > 10 && it.name === 'NotAPacket');
    }
    refuses('CUT_FIXED_PART', () => rtp.Packet.parse(new Uint8Array(0)));
});

test('RTCP', () => {
    const report = bytes('81C90007 00000009 00000007');
    refuses('RTCP', () => rtp.Packet.parse(report));
    assert.equal(rtp.isRtcp(report), true);
    assert.deepEqual(['80C0', '80DF', '80BF', '80E0', '40C8', '80'].map(it => rtp.isRtcp(bytes(it))),
        [true, true, false, false, false, false]);
    // What would be taken for RTCP is refused, and stays.
    const packet = rtp.Packet.parse(bytes('8048B798 00002710 0000002C'));
    refuses('RTCP', () => (packet.marker = true));
    refuses('RTCP', () => packet.setFields({marker: true, ssrc: 5}));
    assert.deepEqual([packet.marker, packet.ssrc, hex(packet.bytes)], [false, 44, '8048b798000027100000002c']);
    packet.setFields({marker: true, payloadType: 96});
    assert.equal(hex(packet.bytes), '80e0b798000027100000002c');
});

test('padding', () => {
    const packet = rtp.Packet.parse(bytes('A0600005 00000064 0000002C 6869 0002'));
    assert.deepEqual([packet.hasPadding, hex(packet.payload), hex(packet.unpaddedPayload)], [true, '68690002', '6869']);
    assert.equal(packet.removePadding(), 14);
    assert.deepEqual([packet.hasPadding, hex(packet.bytes)], [false, '80600005000000640000002c68690002']);
    const none = rtp.Packet.parse(bytes('A0600005 00000064 0000002C 6805'));
    assert.equal(none.unpaddedPayload, undefined);
    refuses('BAD_FIELD', () => none.removePadding());
    assert.throws(() => none.removePadding(), /padding is longer/);
    assert.equal(none.hasPadding, true);
});

test('a block of another form', () => {
    const packet = rtp.Packet.parse(bytes('90600005 00000064 0000002C ABAC0001 01020304 FF'), rtp.ExtensionMap.standard());
    assert.deepEqual([packet.form, packet.blockProfile, hex(packet.body)], [rtp.Form.OTHER_FORM, 0xABAC, '01020304']);
    assert.deepEqual([packet.elements(), packet.values, hex(packet.payload)], [[], {}, 'ff']);
    refuses('UNKNOWN_FORM', () => rtp.Header.parse(packet.bytes));
});

test('elements of both forms', () => {
    const one = rtp.Packet.parse(bytes('90600005 00000064 0000002C BEDE0003 10AA 31BBCC 00 10DD F0EE 0000'));
    assert.deepEqual(one.elements().map(({ id, data }) => [id, hex(data)]), [[1, 'aa'], [3, 'bbcc'], [1, 'dd']]);
    assert.deepEqual([hex(one.element(1)), hex(one.element(3)), one.element(2)], ['dd', 'bbcc', undefined]);
    assert.equal(one.element(1).buffer, one.bytes.buffer);
    const two = rtp.Packet.parse(bytes('90600005 00000064 0000002C 10000002 0100 FF02AABB 0000'));
    assert.deepEqual([two.form, two.blockProfile], [rtp.Form.TWO_BYTE_FORM, 0x1000]);
    assert.deepEqual(two.elements().map(({ id, data }) => [id, hex(data)]), [[1, ''], [255, 'aabb']]);
    assert.deepEqual([...rtp.elementsOf(bytes('10AA'), rtp.Form.ONE_BYTE_FORM)].map(it => it.id), [1]);
    refuses('BAD_FIELD', () => [...rtp.elementsOf(bytes('10AA'), 3)]);
});

test('values under a map', () => {
    const map = rtp.ExtensionMap.standard();
    const block = 'BEDE0005 108A 22040000 311234 4361756430 A066 B067 D001';
    const packet = rtp.Packet.parse(bytes('90600005 00000064 0000002C' + block), map);
    assert.deepEqual(packet.values, {mid: 'aud0', rid: 'f', repairedRid: 'g', audioLevel: -10, voiceActivity: true,
        sendTime: 1000000, transportNumber: 0x1234, videoOrientation: 270});
    assert.deepEqual(rtp.Packet.parse(packet.bytes).values, {});
    assert.deepEqual(rtp.Packet.parse(packet.bytes, new rtp.ExtensionMap([[4, rtp.Kind.MID]])).values, {mid: 'aud0'});
});

test('fields are set where they lie', () => {
    const all = bytes('FFFF 8021B798 00002710 0000002C 010203 FFFF'), packet = rtp.Packet.parse(all.subarray(2, 17));
    packet.payloadType = 96;
    packet.sequenceNumber = 0xABCD;
    packet.timestamp = 0xFEDCBA98;
    packet.ssrc = 0x89ABCDEF;
    packet.marker = true;
    packet.hasPadding = true;
    assert.equal(hex(all), 'ffff' + 'a0e0abcdfedcba9889abcdef010203' + 'ffff');
    assert.deepEqual([packet.payloadType, packet.sequenceNumber, packet.timestamp, packet.ssrc, packet.marker, packet.hasPadding],
        [96, 0xABCD, 0xFEDCBA98, 0x89ABCDEF, true, true]);
    packet.hasPadding = packet.marker = false;
    packet.setFields({sequenceNumber: 5, ssrc: 6});
    assert.equal(hex(packet.header), '80600005fedcba9800000006');
    packet.setFields({payloadType: 1, timestamp: 2, marker: true});
    assert.equal(hex(packet.header), '808100050000000200000006');
    packet.setFields({marker: false});
    packet.setFields({});
    assert.equal(hex(packet.header), '800100050000000200000006');
});

test('what is out of its range changes nothing', () => {
    const packet = rtp.Packet.parse(bytes('8121B798 00002710 0000002C 00000001'));
    const before = hex(packet.bytes);
    for (const fields of [{payloadType: 128}, {sequenceNumber: 65536}, {timestamp: 2 ** 32}, {ssrc: -1}]) {
        refuses('BAD_FIELD', () => packet.setFields({marker: true, ...fields}));
        refuses('BAD_FIELD', () => Object.assign(packet, fields));
    }
    for (const fields of [{payloadType: '1'}, {sequenceNumber: 1.5}, {ssrc: null}, {marker: 1}, {timestamp: 1n}]) {
        assert.throws(() => packet.setFields(fields), TypeError);
        assert.throws(() => Object.assign(packet, fields), TypeError);
    }
    refuses('NONE', () => packet.setCsrc(1, 7));
    refuses('BAD_FIELD', () => packet.setCsrc(0, 2 ** 32));
    refuses('BAD_FIELD', () => packet.setCsrc(-1, 7));
    assert.equal(hex(packet.bytes), before);
    packet.setCsrc(0, 0xFFFFFFFF);
    assert.deepEqual(packet.csrcs, [0xFFFFFFFF]);
});

test('elements are set, removed and renumbered where they lie', () => {
    const map = new rtp.ExtensionMap([[1, rtp.Kind.AUDIO_LEVEL], [3, rtp.Kind.TRANSPORT_NUMBER]]);
    const packet = rtp.Packet.parse(bytes('90600005 00000064 0000002C BEDE0002 108A 310001 000000 6869'), map);
    packet.setElement(3, bytes('1234'));
    assert.equal(packet.values.transportNumber, 0x1234);
    packet.setElement(3, packet.bytes.subarray(0, 2)); // data that lie in the packet
    assert.equal(hex(packet.element(3)), '9060');
    refuses('NONE', () => packet.setElement(3, bytes('01')));
    refuses('NONE', () => packet.setElement(2, bytes('01')));
    refuses('NONE', () => packet.removeElement(2));
    packet.renumber(new rtp.NewIds([[1, 5], [3, 1]]));
    assert.equal(hex(packet.body), '508a119060000000');
    packet.removeElement(5);
    assert.equal(hex(packet.body), '0000119060000000');
    assert.equal(packet.values.transportNumber, undefined);
    refuses('LONG_ID', () => packet.renumber(new rtp.NewIds([[1, 15]])));
    packet.renumber(new rtp.NewIds());
    assert.equal(hex(packet.bytes), '90600005000000640000002cbede000200000000000000006869');
});

test('a packet that grows', () => {
    const buffer = new Uint8Array(40).fill(0xEE);
    buffer.set(bytes('80600005 00000064 0000002C 6869'));
    let len = rtp.putElement(buffer, 14, 1, bytes('AA'));
    assert.equal(len, 22);
    assert.equal(hex(buffer.subarray(0, 23)), '90600005000000640000002cbede000110aa00006869ee');
    len = rtp.addElement(buffer, len, 1, bytes('BB'));
    assert.equal(hex(buffer.subarray(0, len)), '90600005000000640000002cbede000110aa10bb6869');
    len = rtp.changeForm(buffer, len, rtp.Form.TWO_BYTE_FORM);
    assert.equal(hex(buffer.subarray(0, len)), '90600005000000640000002c100000020101aa0101bb00006869');
    len = rtp.putElement(buffer, len, 1, bytes('CC'));
    len = rtp.compact(buffer, len);
    assert.equal(hex(buffer.subarray(0, len)), '90600005000000640000002c100000010101cc006869');
    refuses('FORM_NOT_ALLOWED', () => rtp.putElement(buffer, len, 1, bytes('CC'), rtp.Form.ONE_BYTE_FORM));
    refuses('SHORT_BUFFER', () => rtp.putElement(buffer, len, 2, new Uint8Array(100)));
    refuses('BAD_ID', () => rtp.putElement(buffer, len, 0, bytes('CC')));
    refuses('BAD_ID', () => rtp.addElement(buffer, len, 256, bytes('CC')));
    refuses('BAD_FIELD', () => rtp.putElement(buffer, len, 2, bytes('CC'), 3));
    refuses('BAD_FIELD', () => rtp.putElement(buffer, 41, 2, bytes('CC')));
    len = rtp.removeBlock(buffer, len);
    assert.equal(hex(buffer.subarray(0, len)), '80600005000000640000002c6869');
    len = rtp.putBlock(buffer, len, 0xABAC, bytes('01020304'));
    assert.equal(hex(buffer.subarray(0, len)), '90600005000000640000002cabac0001010203046869');
    refuses('BAD_FIELD', () => rtp.putBlock(buffer, len, 0x10000, bytes('01020304')));
    refuses('BAD_FIELD', () => rtp.putBlock(buffer, len, 0xABAC, bytes('010203')));
    assert.equal(hex(buffer.subarray(26)), 'ee'.repeat(14));
});

test('retransmissions', () => {
    const map = new rtp.ExtensionMap([[1, rtp.Kind.RID], [2, rtp.Kind.REPAIRED_RID]]);
    const buffer = new Uint8Array(32);
    buffer.set(bytes('B0E00005 00000064 0000002C BEDE0001 10660000 6869 0002'));
    const to = {ssrc: 47, payloadType: 97, sequenceNumber: 9};
    const len = rtp.toRetransmission(buffer, 24, to, rtp.NewIds.toRetransmission(map));
    assert.equal(hex(buffer.subarray(0, len)), '90e10009000000640000002fbede00012066000000056869');
    const back = rtp.fromRetransmission(buffer, len, {ssrc: 44, payloadType: 96}, rtp.NewIds.fromRetransmission(map));
    assert.equal(hex(buffer.subarray(0, back)), '90e00005000000640000002cbede0001106600006869');
    refuses('BAD_FIELD', () => rtp.toRetransmission(buffer, back, {...to, payloadType: 128}, new rtp.NewIds()));
    refuses('BAD_FIELD', () => rtp.toRetransmission(buffer, back, {...to, sequenceNumber: 65536}, new rtp.NewIds()));
    assert.throws(() => rtp.toRetransmission(buffer, back, to, map), TypeError);
    refuses('NONE', () => rtp.fromRetransmission(bytes('80600005 00000064 0000002C 68'), 13, to, new rtp.NewIds()));
});

test('bytes of any typed array', () => {
    const datagram = bytes('8021B798 00002710 0000002C');
    for (const it of [datagram.buffer, new DataView(datagram.buffer), new Int8Array(datagram.buffer), Buffer.from(datagram)]) {
        assert.equal(rtp.Packet.parse(it).ssrc, 44);
    }
    const words = new Uint16Array(8), at = new Int8Array(words.buffer, 4);
    new Uint8Array(words.buffer, 4).set(datagram);
    rtp.Packet.parse(at).ssrc = 45;
    assert.equal(hex(new Uint8Array(words.buffer)), '00000000' + '8021b798000027100000002d');
    for (const it of ['8021B798', [1, 2], null, undefined, 7]) {
        assert.throws(() => rtp.Packet.parse(it), TypeError);
    }
    assert.throws(() => rtp.Packet.parse(datagram, {}), TypeError);
    assert.throws(() => rtp.Packet.parse(datagram, null), TypeError);
});

test('a long datagram, after which views still hold', () => {
    const map = rtp.ExtensionMap.standard(), small = rtp.Packet.parse(bytes('90600005 00000064 0000002C BEDE0001 108A0000'), map);
    const long = new Uint8Array(3_000_000).fill(7);
    long.set(bytes('80600005 00000064 0000002C'));
    const packet = rtp.Packet.parse(long, map);
    assert.deepEqual([packet.payload.length, packet.unpaddedPayload.at(-1)], [2_999_988, 7]);
    small.ssrc = 45;
    assert.deepEqual([small.ssrc, small.values.audioLevel, map.get(1)], [45, -10, rtp.Kind.AUDIO_LEVEL]);
    const grown = new Uint8Array(4_000_000);
    grown.set(small.bytes);
    assert.equal(rtp.putElement(grown, 20, 5, new Uint8Array(16)), 36);
});

test('elements between which another packet is read', () => {
    const body = bytes('10AA 21BBCC 00'), found = [];
    for (const { id, data } of rtp.elementsOf(body, rtp.Form.ONE_BYTE_FORM)) {
        rtp.Packet.parse(bytes('90600005 00000064 0000002C BEDE0001 50FF0000'));
        found.push([id, hex(data)]);
    }
    assert.deepEqual(found, [[1, 'aa'], [2, 'bbcc']]);
});

test('a length that is none', () => {
    const buffer = new Uint8Array(40);
    buffer.set(bytes('80600005 00000064 0000002C'));
    for (const len of ['12', 12.5, undefined, NaN]) {
        assert.throws(() => rtp.pad(buffer, len, 4), TypeError);
    }
    refuses('BAD_FIELD', () => rtp.pad(buffer, 41, 4));
    refuses('BAD_FIELD', () => rtp.pad(buffer, -1, 4));
    assert.equal(rtp.pad(buffer, 12, 4), 16);
});

test('items of more than a byte are no bytes', () => {
    const ids = new rtp.NewIds(), buffer = bytes('80600005 00000064 0000002C 00000000'), data = Uint16Array.of(7);
    for (const call of [() => rtp.Packet.parse(new Uint16Array(10)), () => rtp.isRtcp(new Float32Array(3)),
        () => rtp.putElement(buffer, 12, 1, data), () => rtp.putElement(new Uint32Array(9), 12, 1, bytes('01')),
        () => rtp.writeElements([[1, data]], 1), () => rtp.HeaderTemplate.make(buffer, ids, [[1, data]]),
        () => rtp.readSendTime(new Int16Array(2)), () => rtp.Header.parse(new BigUint64Array(2))]) {
        assert.throws(call, /TypeError: the items of \w+ are \d bytes/);
    }
    assert.equal(rtp.Packet.parse(new Int8Array(buffer.buffer)).ssrc, 44);
    assert.equal(rtp.Packet.parse(new DataView(buffer.buffer)).ssrc, 44);
});
