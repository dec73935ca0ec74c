// Values of a body alone, the data of one value, and original numbers; and which functions of the module the package has.
import assert from 'node:assert/strict';
import { readFileSync, readdirSync } from 'node:fs';
import { before, test } from 'node:test';
import * as rtp from '../rtp_wire.mjs';
import { library, output, put, put64 } from '../src/memory.mjs';
import { bytes, capturesOf, hex, refuses } from './help.mjs';

const { Kind, Packet, dataOf, readOriginal, readValues, writeOriginal } = rtp;

before(() => rtp.load());

test('the values of a body are those of its packet', async () => {
    for (const { datagrams, map } of await capturesOf()) {
        for (const datagram of datagrams.filter(it => !rtp.isRtcp(it))) {
            const packet = Packet.parse(datagram, map), { layers, ...values } = packet.values;
            if (packet.form === rtp.Form.ONE_BYTE_FORM || packet.form === rtp.Form.TWO_BYTE_FORM) {
                assert.deepEqual(readValues(packet.body, packet.form, map), values);
                assert.deepEqual(readValues(packet.body, packet.form), {});
            } else {
                refuses('BAD_FIELD', () => readValues(packet.body, packet.form, map));
            }
        }
    }
    assert.throws(() => readValues(bytes('10FF'), 1, {}), TypeError);
});

test('the data of each value are what the packet gets by them', () => {
    const map = new rtp.ExtensionMap(Array.from({length: 15}, (_, i) => [i + 1, i + 1]));
    const values = {mid: 'a1', rid: 'b', repairedRid: 'c', audioLevel: -127, voiceActivity: false, sendTime: 63_000_000,
        transportNumber: 0, videoOrientation: 180, captureTime: {seconds: 1, fraction: 2}, transmissionOffset: 7,
        playoutDelayMin: {ticks: 0, hertz: 100}, playoutDelayMax: {ticks: 4095, hertz: 100}, videoContentType: 1,
        frameMarking: 0xFFFFFFFE,
        videoTiming: {flags: 1, encodeStart: 2, encodeFinish: 3, packetizeComplete: 4, lastLeftPacer: 5}};
    const packet = Packet.parse(new rtp.Header({values}).write(map), map);
    const elements = packet.elements();
    assert.equal(elements.length, 13);
    for (const { id, data } of elements) {
        assert.equal(hex(dataOf(id, values)), hex(data), `kind ${id}`);
        refuses('NONE', () => dataOf(id, {}));
    }
    packet.setElement(Kind.AUDIO_LEVEL, dataOf(Kind.AUDIO_LEVEL, {audioLevel: -5, voiceActivity: true}));
    assert.deepEqual([packet.values.audioLevel, packet.values.voiceActivity], [-5, true]);
    for (const kind of [Kind.COLOR_SPACE, Kind.LAYERS, Kind.NTP_56, Kind.OWN, 255]) {
        refuses('NONE', () => dataOf(kind, values));
    }
    for (const kind of [0, 21, 127, 256, -1]) {
        refuses('BAD_FIELD', () => dataOf(kind, values));
    }
    refuses('BAD_FIELD', () => dataOf(Kind.MID, {audioLevel: 1}));
});

test('original numbers', () => {
    const payload = bytes('123456');
    assert.equal(readOriginal(payload), 0x1234);
    writeOriginal(payload, 0x1FFFE);
    assert.equal(hex(payload), 'fffe56');
    writeOriginal(payload.subarray(1), 2n ** 64n - 2n ** 48n + 5n);
    assert.equal(hex(payload), 'ff0005');
    refuses('SHORT_BUFFER', () => readOriginal(bytes('12')));
    refuses('SHORT_BUFFER', () => writeOriginal(payload.subarray(2), 7));
    refuses('BAD_FIELD', () => writeOriginal(payload, -1));
    assert.equal(hex(payload), 'ff0005');
});

test('room for data that grows lies apart from what a call writes', () => {
    const parts = count => Array.from({length: count}, () => [1, new Uint8Array(255).fill(0xEE)]);
    for (const count of [270, 530]) {
        const body = rtp.writeElements(parts(count), rtp.Form.TWO_BYTE_FORM);
        assert.equal(body.filter(it => it === 0xEE).length, 255 * count);
    }
});

// The functions of the module that no file of src calls, and why.
const FIELDS_ALONE = 'Packet.parse and Columns.parse tell the same and the values, in one call';
const WINDOW = 'a Receiver or a RestartingReceiver of one word has the same window of 64 numbers';
const LEFT_OUT = {
    packet_parse: FIELDS_ALONE, packet_parse_many: FIELDS_ALONE, parse_many: FIELDS_ALONE,
    receiver_start: WINDOW, receiver_number_of: WINDOW, receiver_accepts: WINDOW, receiver_record: WINDOW,
    receiver_receive: WINDOW, receiver_standing_of: WINDOW, restarting_receive: WINDOW,
    next_elements: 'elements yields one after the other, by next_element',
    receive_many: 'Receivers.receive judges the packets of columns',
    version: 'VERSION_NUMBER of layout.mjs, which load.test.mjs compares with it',
    write_with: 'Header.writeWith without a form calls write_with_form',
};

test('each function of the module has a call, or a reason for none', () => {
    const folder = new URL('../src/', import.meta.url);
    const source = readdirSync(folder).map(it => readFileSync(new URL(it, folder), 'utf8')).join('');
    const called = new Set([...source.matchAll(/library\.(\w+)/g)].map(it => it[1]));
    for (const [, name] of source.matchAll(/'(\w+)'/g)) {
        [name, `read_${name}`, `write_${name}`].forEach(it => called.add(it));
    }
    const functions = Object.entries(library).filter(([, it]) => typeof it === 'function').map(([name]) => name);
    assert.deepEqual(functions.filter(it => !called.has(it)).sort(), Object.keys(LEFT_OUT).sort());
    assert.equal(functions.length, 109);
});

test('what is true is 1, and what is not 0', () => {
    const at = put(bytes('8021B798')), receiver = output(64), words = output(128);
    assert.deepEqual([library.is_rtcp(at, 4), library.is_rtcp(put(bytes('80C8')), 2)], [0, 1]);
    for (const name of ['is_token', 'is_stream_id']) {
        assert.deepEqual([library[name](put(bytes('61')), 1), library[name](put(bytes('20')), 1)], [1, 0]);
    }
    const dependent = [bytes('800001'), bytes('80000180')].map(it => library.has_structure(put(it), it.length));
    assert.deepEqual(dependent, [0, 1]);
    for (const [name, window] of [['receiver', []], ['wide_receiver', [words, 1]]]) {
        library[`${name}_start`](receiver, 0, 0);
        put64(words, 'words', 0);
        assert.equal(library[`${name}_accepts`](receiver, ...window, 7, 0), 1);
        library[`${name}_record`](receiver, ...window, 7, 0);
        const told = [7, 8, 6].map(it => library[`${name}_accepts`](receiver, ...window, it, 0));
        assert.deepEqual(told, [0, 1, 1]);
    }
});
