// What a packet tells of itself: its values, which nobody changes, and its fields in a console and as JSON.
import assert from 'node:assert/strict';
import { before, test } from 'node:test';
import { inspect } from 'node:util';
import * as rtp from '../rtp_wire.mjs';
import { bytes, refuses } from './help.mjs';

before(() => rtp.load());

test('what is said of a packet can\'t be changed', () => {
    const map = new rtp.ExtensionMap([[1, rtp.Kind.AUDIO_LEVEL], [2, rtp.Kind.ABS_CAPTURE_TIME]]);
    const packet = rtp.Packet.parse(bytes('90600005 00000064 0000002C BEDE0003 108A 270000000100000002 00'), map);
    assert.throws(() => (packet.values.audioLevel = -77), TypeError);
    assert.throws(() => (packet.values.captureTime.seconds = 7), TypeError);
    assert.throws(() => (packet.values.audiolevel = -77), TypeError);
    const changed = {...packet.values, audioLevel: -77};
    packet.setElement(1, rtp.dataOf(rtp.Kind.AUDIO_LEVEL, changed));
    assert.deepEqual(packet.values, {audioLevel: -77, voiceActivity: true, captureTime: {seconds: 1, fraction: 2}});
    assert.throws(() => (packet.values.audioLevel = -1), TypeError);
    for (const name of ['sequence_number', 'hasPadding', 'toString']) {
        refuses('BAD_FIELD', () => packet.setFields({ssrc: 9, [name]: 5}));
    }
    for (const none of [undefined, null, 5]) {
        assert.throws(() => packet.setFields(none), TypeError);
    }
    assert.deepEqual([packet.ssrc, packet.sequenceNumber], [44, 5]);
    const header = rtp.Header.parse(packet.bytes, map);
    header.values.captureTime.seconds = 7; // which are the header's own
    assert.equal(header.values.captureTime.seconds, 7);
});

test('a packet in a console, and as JSON', () => {
    const map = new rtp.ExtensionMap([[1, rtp.Kind.AUDIO_LEVEL], [2, rtp.Kind.MID]]);
    const packet = rtp.Packet.parse(bytes('91E00005 00000064 0000002C 00000007 BEDE0001 108A2030 6869'), map);
    const told = {payloadType: 96, sequenceNumber: 5, timestamp: 100, ssrc: 44, csrcs: [7], marker: true, hasPadding: false,
        form: 1, headerLen: 24, payloadLen: 2, values: {mid: '0', audioLevel: -10, voiceActivity: true}};
    assert.deepEqual(JSON.parse(JSON.stringify(packet)), told);
    assert.equal(inspect(packet), `Packet ${inspect(told)}`);
    assert.equal(inspect([[[packet]]]), '[ [ [ [Packet] ] ] ]');
    const [layers, rate] = [new rtp.ExtensionMap([[1, rtp.Kind.LAYERS]]), 2n ** 60n];
    const header = new rtp.Header({values: {layers: {streams: [[{kbps: [rate]}]], current: 0}}}).writeAll(layers);
    assert.equal(rtp.Packet.parse(header, layers).values.layers.streams[0][0].kbps[0], rate);
    assert.equal(rtp.Packet.parse(header, layers).toJSON().values.layers.streams[0][0].kbps[0], 2 ** 60);
});
