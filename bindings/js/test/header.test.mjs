// Headers, written and read. Expected bytes are worked out by hand by RFC 3550, 5.1, RFC 8285, 4, and the layouts of the
// extensions.
import assert from 'node:assert/strict';
import { before, test } from 'node:test';
import * as rtp from '../rtp_wire.mjs';
import { bytes, hex, refuses } from './help.mjs';

const { Header, Kind } = rtp;
const BARE = '80000000' + '00000000' + '00000000';
let standard, none;

before(async () => {
    await rtp.load();
    standard = rtp.ExtensionMap.standard();
    none = new rtp.ExtensionMap();
});

test('fields', () => {
    assert.equal(hex(new Header().write(none)), BARE);
    const header = new Header({payloadType: 96, sequenceNumber: 0xFFFE, timestamp: 0xFEDCBA98, ssrc: 0x80000001,
        csrcs: [1, 0xFFFFFFFF], marker: true, hasPadding: true});
    assert.equal(hex(header.write(none)), 'a2e0fffefedcba9880000001' + '00000001ffffffff');
    assert.equal(header.wireLen(none), 20);
    const read = Header.parse(bytes('A2E0FFFE FEDCBA98 80000001 00000001 FFFFFFFF 01'));
    assert.deepEqual({...read}, {...header, hasExtension: false, headerLen: 20});
    assert.equal(hex(read.write(none)), hex(header.write(none)));
});

test('fields that are out of their range, or none', () => {
    const wrong = [{payloadType: 128}, {sequenceNumber: 65536}, {timestamp: -1}, {ssrc: 2 ** 32},
        {csrcs: Array(16).fill(1)}, {csrcs: [2 ** 32]}];
    for (const fields of wrong) {
        refuses('BAD_FIELD', () => new Header(fields).write(none));
    }
    assert.equal(new Header({csrcs: Array(15).fill(1)}).write(none).length, 72);
    for (const fields of [{marker: 1}, {hasPadding: 0}, {hasExtension: 'no'}, {ssrc: '1'}]) {
        assert.throws(() => new Header(fields).write(none), TypeError);
    }
    for (const name of ['sequence', 'write', 'toString']) {
        refuses('BAD_FIELD', () => new Header({[name]: 1}));
    }
    assert.throws(() => new Header().write(), TypeError);
    assert.throws(() => new Header(5), TypeError);
    for (const values of [5, null, 'mid']) {
        assert.throws(() => new Header({values}).write(none), TypeError);
    }
    assert.throws(() => rtp.writeMixerLevels(5), TypeError);
});

test('each value, written and read', () => {
    const cases = [
        [Kind.MID, {mid: 'aud_1'}, 'bede0002' + '146175645f310000'],
        [Kind.RID, {rid: 'hi'}, 'bede0001' + '11686900'],
        [Kind.REPAIRED_RID, {repairedRid: 'x'}, 'bede0001' + '10780000'],
        [Kind.AUDIO_LEVEL, {audioLevel: -127, voiceActivity: false}, 'bede0001' + '107f0000'],
        [Kind.AUDIO_LEVEL, {audioLevel: 0, voiceActivity: true}, 'bede0001' + '10800000'],
        [Kind.ABS_SEND_TIME, {sendTime: 1_500_000}, 'bede0001' + '12060000'],
        [Kind.TRANSPORT_NUMBER, {transportNumber: 0xFFFE}, 'bede0001' + '11fffe00'],
        [Kind.VIDEO_CONTENT_TYPE, {videoContentType: 1}, 'bede0001' + '10010000'],
        [Kind.ABS_CAPTURE_TIME, {captureTime: {seconds: 0xFEDCBA98, fraction: 0x76543210}},
            'bede0003' + '17fedcba9876543210' + '000000'],
        [Kind.ABS_CAPTURE_TIME, {captureTime: {seconds: 1, fraction: 2}, captureOffset: {seconds: -1, fraction: 0x80000000}},
            'bede0005' + '1f0000000100000002ffffffff80000000' + '000000'],
        [Kind.PLAYOUT_DELAY, {playoutDelayMin: {ticks: 1, hertz: 100}, playoutDelayMax: {ticks: 4095, hertz: 100}},
            'bede0001' + '12001fff'],
        [Kind.TRANSMISSION_OFFSET, {transmissionOffset: 0x89ABCDEF}, 'bede0002' + '1389abcdef000000'],
        [Kind.FRAME_MARKING, {frameMarking: 0x01020304}, 'bede0002' + '1301020304000000'],
        [Kind.VIDEO_TIMING, {videoTiming: {flags: 2, encodeStart: 0x0102, encodeFinish: 0x0304, packetizeComplete: 0x0506,
            lastLeftPacer: 0x0708}}, 'bede0004' + '1c02010203040506070800000000' + '0000'],
    ];
    for (const [kind, values, block] of cases) {
        const map = new rtp.ExtensionMap([[1, kind]]), written = new Header({values}).writeAll(map);
        assert.equal(hex(written), '90' + BARE.slice(2) + block, JSON.stringify(values));
        assert.deepEqual(Header.parse(written, map).values, values);
        assert.deepEqual(rtp.Packet.parse(written, map).values, values);
        assert.deepEqual(Header.parse(written).values, {});
    }
    const turned = new rtp.ExtensionMap([[1, Kind.VIDEO_ORIENTATION]]);
    for (const videoOrientation of [0, 90, 180, 270]) {
        assert.deepEqual(Header.parse(new Header({values: {videoOrientation}}).write(turned), turned).values, {videoOrientation});
    }
});

test('values that are out of their range, or none', () => {
    const time = {ticks: 1, hertz: 100};
    const wrong = [{mid: '12345678901234567'}, {mid: 'a-b'}, {rid: '123456789'}, {repairedRid: 'ä'}, {audioLevel: 1},
        {audioLevel: -128}, {transportNumber: 65536}, {videoOrientation: 45}, {videoOrientation: 360}, {sendTime: -1}, {sendTime: 2n ** 64n},
        {sendTime: 2 ** 53}, {captureTime: {seconds: 2 ** 32, fraction: 0}}, {captureOffset: {seconds: 2 ** 31, fraction: 0}},
        {captureOffset: {seconds: -(2 ** 31) - 1, fraction: 0}}, {captureTime: {seconds: 0, fraction: 2 ** 32}},
        {playoutDelayMin: {ticks: 1, hertz: 0}, playoutDelayMax: time}, {videoContentType: 256}, {frameMarking: 2 ** 32},
        {transmissionOffset: -1}, {videoTiming: {flags: 256, encodeStart: 0, encodeFinish: 0, packetizeComplete: 0,
            lastLeftPacer: 0}}, {videoTiming: {flags: 0, encodeStart: 65536, encodeFinish: 0, packetizeComplete: 0,
            lastLeftPacer: 0}}, {loudness: 1}, {toString: 1}];
    for (const values of wrong) {
        refuses('BAD_FIELD', () => new Header({values}).write(none));
        assert.throws(() => new Header({values}).write(none), ({ message }) => message.includes(Object.keys(values)[0])
            || message.includes('of video') || /encodeStart/.test(message), JSON.stringify(Object.keys(values)));
    }
    for (const values of [{mid: 1}, {videoOrientation: '90'}, {videoOrientation: 90.5}, {audioLevel: '1'}, {voiceActivity: 1}, {sendTime: 1.5}, {videoTiming: {}}]) {
        assert.throws(() => new Header({values}).write(none), TypeError);
    }
    assert.deepEqual(new Header({values: {mid: '1234567890123456', rid: '12345678'}}).leftOut(none).length, 2);
});

test('what is left out', () => {
    const header = new Header({values: {audioLevel: -42, mid: '1'}});
    assert.deepEqual(header.leftOut(new rtp.ExtensionMap([[3, Kind.AUDIO_LEVEL]])), [Kind.AUDIO_LEVEL, Kind.MID]);
    assert.throws(() => header.writeAll(standard), it => it.code === 'LEFT_OUT' && it.kinds.join() === '3');
    header.values.voiceActivity = false;
    assert.deepEqual(header.leftOut(standard), []);
    assert.equal(hex(header.writeAll(standard)), '90' + BARE.slice(2) + 'bede0001' + '102a4031');
    header.hasExtension = false;
    assert.deepEqual(header.leftOut(standard), [Kind.AUDIO_LEVEL, Kind.MID]);
    assert.equal(hex(header.write(standard)), BARE);
    assert.equal(hex(new Header({hasExtension: true}).write(standard)), '90' + BARE.slice(2) + 'bede0000');
    assert.equal(hex(new Header({values: {mid: undefined}}).write(standard)), BARE);
});

test('into a buffer', () => {
    const buffer = new Uint8Array(16).fill(0xEE), header = new Header({ssrc: 5});
    assert.equal(header.writeTo(buffer, none), 12);
    assert.equal(hex(buffer), '80000000' + '00000000' + '00000005' + 'eeeeeeee');
    refuses('SHORT_BUFFER', () => header.writeTo(buffer.subarray(0, 11), none));
});

test('layers', () => {
    const map = new rtp.ExtensionMap([[1, Kind.LAYERS]]);
    const layers = {streams: [[{kbps: [300, 500], width: 320, height: 180, framerate: 30}], [{kbps: [2 ** 40]}]], current: 1};
    const written = new Header({values: {layers}}).writeAll(map);
    assert.equal(new Header({values: {layers}}).wireLen(map), written.length);
    assert.deepEqual(Header.parse(written, map).values, {layers});
    const packet = rtp.Packet.parse(written, map);
    assert.deepEqual(packet.values, {layers});
    // A stream of one layer of one rate: the mask 1, one temporal layer, the rate, 319, 179, 30.
    const one = {streams: [[{kbps: [300], width: 320, height: 180, framerate: 30}]], current: 0};
    assert.equal(hex(new Header({values: {layers: one}}).write(map)).slice(32), '0109' + '01' + '00' + 'ac02' + '013f00b31e' + '00');
    const high = {streams: [[{kbps: [2n ** 63n - 1n]}]], current: 0};
    assert.deepEqual(Header.parse(new Header({values: {layers: high}}).write(map), map).values.layers, high);
    const wrong = [{streams: [[{kbps: [2n ** 63n]}]], current: 0}, {streams: [[{kbps: [1, 2, 3, 4, 5]}]], current: 0},
        {streams: [], current: 1}, {streams: [[{kbps: [1]}]], current: 4}, {streams: Array(5).fill([]), current: 0},
        {streams: [[{kbps: [1], width: 0, height: 1, framerate: 1}]], current: 0}, {streams: [Array(5).fill({kbps: [1]})], current: 0}];
    for (const it of wrong) {
        refuses('BAD_FIELD', () => new Header({values: {layers: it}}).write(map));
    }
    assert.throws(() => new Header({values: {layers: {streams: [[{kbps: [1], width: 2}]], current: 0}}}).write(map), TypeError);
    assert.deepEqual(new Header({values: {layers: one}}).leftOut(none), [Kind.LAYERS]);
});

test('a block of any elements', () => {
    const header = new Header({ssrc: 1}), elements = [[1, bytes('AA')], [14, bytes('BBCC')]];
    const front = '900000000000000000000001';
    assert.equal(hex(header.writeWith(elements)), front + 'bede0002' + '10aae1bbcc000000');
    assert.equal(hex(header.writeWith(elements, rtp.Form.TWO_BYTE_FORM)), front + '10000002' + '0101aa0e02bbcc00');
    assert.equal(hex(header.writeWith([[15, bytes('AA')], [1, bytes('')]])), front + '10000002' + '0f01aa0100000000');
    assert.equal(hex(header.writeWith([])), front + 'bede0000');
    refuses('BAD_FIELD', () => header.writeWith([[15, bytes('AA')]], rtp.Form.ONE_BYTE_FORM));
    refuses('BAD_FIELD', () => header.writeWith([[1, new Uint8Array(256)]]));
    refuses('BAD_FIELD', () => header.writeWith(elements, 3));
    refuses('BAD_ID', () => header.writeWith([[0, bytes('AA')]]));
    assert.equal(header.writeWith(Array.from({length: 255}, (_, i) => [i + 1, new Uint8Array(255)])).length, 12 + 4 + 65536);
    assert.equal(hex(rtp.writeElements(elements, rtp.Form.ONE_BYTE_FORM)), '10aae1bbcc');
    assert.equal(hex(rtp.writeElements(elements, rtp.Form.TWO_BYTE_FORM)), '0101aa0e02bbcc');
    refuses('BAD_FIELD', () => rtp.writeElements(elements, 0));
    refuses('BAD_FIELD', () => rtp.writeElements([[15, bytes('AA')]], rtp.Form.ONE_BYTE_FORM));
});

test('an element longer than the room it had before', () => {
    const map = new rtp.ExtensionMap([[1, Kind.MID]]);
    assert.equal(hex(new Header({values: {mid: '1234567890123456'}}).write(map)).slice(32), '1f31323334353637383930313233343536000000');
    assert.equal(hex(new Header({values: {mid: '7'}}).write(map)).slice(32), '10370000');
});
