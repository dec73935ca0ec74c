// Many datagrams at once: each row is what a packet says alone.
import assert from 'node:assert/strict';
import { before, test } from 'node:test';
import * as rtp from '../rtp_wire.mjs';
import { bytes, capturesOf, hex, refuses } from './help.mjs';

const { Columns, Kind } = rtp;
const NAMES = ['audioLevel', 'voiceActivity', 'sendTime', 'transportNumber', 'videoOrientation', 'transmissionOffset',
    'videoContentType', 'frameMarking', 'mid', 'rid', 'repairedRid'];
const PARTS = {captureSeconds: it => it.captureTime?.seconds, captureFraction: it => it.captureTime?.fraction,
    captureOffsetSeconds: it => it.captureOffset?.seconds, captureOffsetFraction: it => it.captureOffset?.fraction,
    playoutDelayMin: it => it.playoutDelayMin?.ticks, playoutDelayMax: it => it.playoutDelayMax?.ticks,
    encodeStart: it => it.videoTiming?.encodeStart, encodeFinish: it => it.videoTiming?.encodeFinish,
    packetizeComplete: it => it.videoTiming?.packetizeComplete, lastLeftPacer: it => it.videoTiming?.lastLeftPacer,
    timingFlags: it => it.videoTiming?.flags};
const ALL = [...NAMES, ...Object.keys(PARTS), 'layers'];
let captures;

before(async () => {
    captures = await capturesOf();
});

/** Datagrams in one buffer, with so many bytes between them. */
function together(datagrams, between = 0) {
    const at = [], lengths = [];
    let end = 0;
    for (const it of datagrams) {
        at.push(end), lengths.push(it.length);
        end += it.length + between;
    }
    const buffer = new Uint8Array(end).fill(0xEE);
    datagrams.forEach((it, i) => buffer.set(it, at[i]));
    return {buffer, at, lengths};
}

/** A packet, or the name of what it is not. */
function alone(datagram, map) {
    try {
        return {packet: rtp.Packet.parse(Uint8Array.from(datagram), map)};
    } catch (error) {
        return {code: error.code};
    }
}

/** That each row is what its datagram says alone. */
function agree(datagrams, map, between, values = ALL) {
    const { buffer, at, lengths } = together(datagrams, between), columns = Columns.parse(buffer, at, lengths, map, values);
    assert.equal(columns.length, datagrams.length);
    datagrams.forEach((datagram, row) => {
        const { packet, code } = alone(datagram, map);
        assert.equal(columns.isRtcp[row], rtp.isRtcp(datagram) ? 1 : 0);
        assert.equal(columns.status[row], packet ? 0 : rtp.Status[code], `row ${row}`);
        assert.equal(columns.isRtp[row], packet ? 1 : 0);
        assert.deepEqual([columns.payloadType[row], columns.marker[row]], [packet?.payloadType ?? 0, Number(packet?.marker ?? 0)]);
        const told = packet ?? {sequenceNumber: 0, timestamp: 0, ssrc: 0, headerLen: 0, payload: []};
        assert.deepEqual([columns.sequenceNumber[row], columns.timestamp[row], columns.ssrc[row], columns.headerLen[row]],
            [told.sequenceNumber, told.timestamp, told.ssrc, told.headerLen]);
        const unpadded = packet?.unpaddedPayload;
        assert.deepEqual([columns.payloadLen[row], columns.unpaddedLen[row], columns.paddingFits[row]],
            [told.payload.length, unpadded?.length ?? 0, unpadded ? 1 : 0]);
        assert.equal(hex(columns.datagram(row)), hex(datagram));
        assert.deepEqual(columns.payload(row) && hex(columns.payload(row)), packet && hex(packet.payload));
        assert.deepEqual(columns.unpaddedPayload(row) && hex(columns.unpaddedPayload(row)), unpadded && hex(unpadded));
        for (const name of values) {
            const value = name === 'layers' ? packet?.values.layers && 1 : PARTS[name]?.(packet?.values ?? {}) ?? packet?.values[name];
            const number = typeof value === 'boolean' ? Number(value) : value;
            assert.deepEqual(columns.value(name, row), number, `${name}, row ${row}: ${hex(datagram)}`);
            assert.equal(columns.has[name][row], value === undefined ? 0 : 1);
            if (value === undefined && columns.values[name].at(row) !== undefined) {
                assert.equal(columns.values[name].at(row), 0);
            }
        }
        if (values.includes('layers')) {
            assert.deepEqual(columns.layersOf(row), packet?.values.layers);
        }
    });
}

test('the captures', () => {
    for (const { datagrams, map } of captures) {
        agree(datagrams, map, 0);
        agree(datagrams, map, 7, ['mid', 'audioLevel']);
        agree(datagrams, map, 3000, []);
    }
});

test('damaged datagrams', () => {
    let state = 7;
    const random = below => (state = (Math.imul(state, 1103515245) + 12345) >>> 0) / 2 ** 32 * below | 0;
    for (const { datagrams, map } of captures) {
        const damaged = Array.from({length: 1500}, () => {
            const it = Uint8Array.from(datagrams[random(datagrams.length)]).slice(0, random(8) === 0 ? random(60) : undefined);
            for (let i = random(4); i >= 0 && it.length > 0; i--) {
                it[random(Math.min(it.length, random(3) === 0 ? 2 : 60))] = random(256);
            }
            return it;
        });
        agree(damaged, map, 0);
    }
});

test('padding, other forms, RTCP, and none', () => {
    const datagrams = ['A0600005 00000064 0000002C 6869 0002', 'A0E00005 00000064 0000002C 68FF', 'A0600005 00000064 0000002C',
        '90600006 00000065 0000002D ABAC0001 01020304 FF', 'B0600006 00000065 0000002D ABAC0001 01020304 FF02',
        '90600006 00000065 0000002D ABAC0002 01020304 FF', '81C90007 00000009 00000007', 'A1C90007 00000009 00000007 00000000',
        '', '80', '4021B798 00002710 0000002C', '90600005 000000A0 00000007 BEDE0001 108A0000 6869'].map(bytes);
    agree(datagrams, rtp.ExtensionMap.standard(), 0);
    agree([...datagrams].reverse(), rtp.ExtensionMap.standard(), 1);
});

test('each value', () => {
    const time = ticks => ({ticks, hertz: 100}), layers = {streams: [[{kbps: [300]}]], current: 0};
    const timing = {flags: 1, encodeStart: 2, encodeFinish: 3, packetizeComplete: 4, lastLeftPacer: 5};
    const values = {audioLevel: -127, voiceActivity: true, sendTime: 63_875_000, transportNumber: 65535, videoOrientation: 270,
        captureTime: {seconds: 0xFEDCBA98, fraction: 0x89ABCDEF}, captureOffset: {seconds: -2, fraction: 0xFFFFFFFF},
        transmissionOffset: 0xFFFFFFFF, playoutDelayMin: time(1), playoutDelayMax: time(4095), videoContentType: 255,
        frameMarking: 0xFFFFFFFE, videoTiming: timing, mid: 'a23456789_123456', rid: '12345678', repairedRid: 'z', layers};
    const map = new rtp.ExtensionMap(Array.from({length: 15}, (_, i) => [i + 1, i + 1]));
    const full = new rtp.Header({values}).write(map), empty = new rtp.Header().write(map);
    assert.deepEqual(rtp.Packet.parse(full, map).values, values);
    agree([full, empty, full, full.subarray(0, 40), empty], map, 0);
    for (const name of ALL) {
        agree([full, empty, full, bytes('80')], map, 0, [name]);
    }
    const { buffer, at, lengths } = together([full]);
    assert.deepEqual(Columns.parse(buffer, at, lengths, undefined, ALL).has.mid, Uint8Array.of(0));
});

test('more than are read at once, and texts that are alike', () => {
    const map = new rtp.ExtensionMap([[1, Kind.MID], [2, Kind.RID]]);
    const texts = ['', '0', '1', 'a', 'ab', 'abc', 'abcd', 'abce', 'abcdefgh', 'Aa', 'BB', '0', '12345678901234_6'];
    const datagrams = Array.from({length: 1337}, (_, i) => new rtp.Header({sequenceNumber: i, ssrc: i % 5,
        values: {mid: texts[i % texts.length], rid: texts[i % 6]}}).write(map));
    agree(datagrams, map, 0, ['mid', 'rid']);
    const { buffer, at, lengths } = together(datagrams), columns = Columns.parse(buffer, at, lengths, map, ['mid']);
    assert.equal(columns.values.mid.texts.length, 13);
    assert.deepEqual([...columns.values.mid].slice(0, 13), texts);
    assert.equal(columns.values.mid.length, 1337);
});

test('texts of one hash, of which one begins the other', () => {
    const map = new rtp.ExtensionMap([[1, Kind.MID]]), texts = ['bmgkAHx', 'b', 'bmgkAHx', 'b', 'c', 'cNgkAHy'];
    const { buffer, at, lengths } = together(texts.map(mid => new rtp.Header({values: {mid}}).write(map)));
    assert.deepEqual([...Columns.parse(buffer, at, lengths, map, ['mid']).values.mid], texts);
});

test('places that are far apart, out of order, twice, and not within the buffer', () => {
    const buffer = new Uint8Array(9_000_000), one = bytes('8021B798 00002710 0000002C 01');
    const at = [8_999_987, 0, 5_000_000, 0, 4_000_000, 8_999_988, 9_000_000, 9_000_001, -1, NaN, 2 ** 40];
    for (const it of [0, 4_000_000, 5_000_000, 8_999_987]) {
        buffer.set(one, it);
    }
    buffer[5_000_011] = 45;
    const lengths = [13, 13, 13, 0, 11, 13, 0, 0, 13, 13, 13], { BAD_FIELD, CUT_FIXED_PART } = rtp.Status;
    const columns = Columns.parse(buffer, at, lengths);
    assert.deepEqual([...columns.status], [0, 0, 0, CUT_FIXED_PART, CUT_FIXED_PART, BAD_FIELD, CUT_FIXED_PART, BAD_FIELD,
        BAD_FIELD, BAD_FIELD, BAD_FIELD]);
    assert.deepEqual([...columns.ssrc], [44, 44, 45, 0, 0, 0, 0, 0, 0, 0, 0]);
    assert.deepEqual([columns.datagram(5), columns.payload(5), hex(columns.payload(2))], [undefined, undefined, '01']);
    const near = Columns.parse(buffer, [13, 0, 0, 9_000_001], Uint32Array.of(13, 13, 12, 0));
    assert.deepEqual([...near.status], [rtp.Status.OTHER_VERSION, 0, 0, BAD_FIELD]);
    assert.deepEqual([...near.payloadLen], [0, 1, 0, 0]);
    assert.equal(Columns.parse(buffer, [], []).length, 0);
    assert.deepEqual([...Columns.parse(new Uint8Array(0), [0, 1], [0, 0]).status], [CUT_FIXED_PART, BAD_FIELD]);
    refuses('BAD_FIELD', () => Columns.parse(buffer, [0], []));
    refuses('BAD_FIELD', () => Columns.parse(buffer, [0], [13], undefined, ['loudness']));
    assert.throws(() => Columns.parse('8021', [0], [13]), TypeError);
    assert.throws(() => Columns.parse(new Uint16Array(8), [0], [13]), TypeError);
    refuses('BAD_FIELD', () => Columns.parse(buffer, [0], [13], undefined, ['toString']));
    refuses('BAD_FIELD', () => columns.value('audioLevel', 0));
    refuses('BAD_FIELD', () => columns.value('toString', 0));
    assert.throws(() => Columns.parse(buffer, [0], [13], {}, ['mid']), TypeError);
});

test('places that are no numbers, or no rows', () => {
    const one = bytes('8021B798 00002710 0000002C 01');
    for (const [at, lengths] of [[0, 13], [new Set([0]), new Set([13])], [[0].values(), [13].values()], [['0'], ['13']],
        [[0], [13n]], [[null], [13]], [[,], [13]], [BigUint64Array.of(0n), BigUint64Array.of(13n)], [[0], undefined],
        [new DataView(new ArrayBuffer(1)), [13]], ['0', [13]]]) {
        assert.throws(() => Columns.parse(one, at, lengths), TypeError);
    }
    assert.deepEqual([...Columns.parse(one, Float64Array.of(0, 0.5, 0), [13, 12, 12.5]).status],
        [0, rtp.Status.BAD_FIELD, rtp.Status.BAD_FIELD]);
});

test('a map that has changed since, and layers that were not asked for', () => {
    const map = new rtp.ExtensionMap([[1, Kind.MID]]), datagram = new rtp.Header({values: {mid: 'x'}}).write(map);
    const { buffer, at, lengths } = together([datagram]);
    const columns = Columns.parse(buffer, at, lengths, map, ['mid']);
    map.delete(1);
    assert.equal(columns.value('mid', 0), 'x');
    assert.equal(columns.layersOf(0), undefined);
    assert.equal(Columns.parse(buffer, at, lengths, map, ['mid']).value('mid', 0), undefined);
});
