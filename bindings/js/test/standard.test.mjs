// Values as their standards lay them out. Expected data are worked out by hand by the sections that are named.
import assert from 'node:assert/strict';
import { before, test } from 'node:test';
import * as rtp from '../rtp_wire.mjs';
import { bytes, hex, refuses } from './help.mjs';

before(() => rtp.load());

/** That data are read as this value, and the value is written as these data. */
function both(name, data, value) {
    assert.deepEqual(rtp[`read${name}`](bytes(data)), value, `read${name}(${data})`);
    assert.equal(hex(rtp[`write${name}`](value)), data, `write${name}`);
}

function refusesData(name, ...all) {
    all.forEach(it => refuses('BAD_FIELD', () => rtp[`read${name}`](bytes(it))));
}

test('send time, in units of 2^-18 s', () => {
    both('SendTime', '060001', 6 * 65536 + 1);
    both('SendTime', 'ffffff', 0xFFFFFF);
    refusesData('SendTime', '', '0000', '00000000');
    refuses('BAD_FIELD', () => rtp.writeSendTime(2 ** 24));
    // 2^-18 s are 2^14 units of 2^-32 s, and 64 s are 2^24 of 2^-18 s
    assert.deepEqual(rtp.extendSendTime({seconds: 0xE0000000, fraction: 0xC0000000}, 0xFFFFFF), {seconds: 0xDFFFFFFF, fraction: 0xFFFFC000});
    assert.deepEqual(rtp.extendSendTime({seconds: 64, fraction: 0}, 0x040000), {seconds: 65, fraction: 0});
    assert.deepEqual(rtp.extendSendTime({seconds: 64, fraction: 0}, 0xFF040000), {seconds: 65, fraction: 0});
    assert.deepEqual(rtp.extendSendTime({seconds: 127, fraction: 0}, 0x040000), {seconds: 129, fraction: 0});
});

test('transmission time offset (RFC 5450, 3)', () => {
    both('TransmissionOffset', 'ffffa6', -90);
    both('TransmissionOffset', '7fffff', 8388607);
    both('TransmissionOffset', '800000', -8388608);
    refusesData('TransmissionOffset', '0000', '00000000');
    refuses('BAD_FIELD', () => rtp.writeTransmissionOffset(8388608));
    refuses('BAD_FIELD', () => rtp.writeTransmissionOffset(-8388609));
});

test('NTP timestamps (RFC 6051, 3.3)', () => {
    both('Ntp64', 'fedcba9876543210', {seconds: 0xFEDCBA98, fraction: 0x76543210});
    both('Ntp56', 'dcba9876543210', {seconds: 0xDCBA98, fraction: 0x76543210});
    assert.equal(hex(rtp.writeNtp56({seconds: 0xFEDCBA98, fraction: 1})), 'dcba9800000001');
    refusesData('Ntp64', '00000000000000', '000000000000000000');
    refusesData('Ntp56', '000000000000', '0000000000000000');
    assert.deepEqual(rtp.extendNtp56({seconds: 0xFF000001, fraction: 0}, {seconds: 0xFFFFFF, fraction: 5}), {seconds: 0xFEFFFFFF, fraction: 5});
    assert.deepEqual(rtp.extendNtp56({seconds: 0x10FFFFFF, fraction: 0}, {seconds: 1, fraction: 0}), {seconds: 0x11000001, fraction: 0});
    refuses('BAD_FIELD', () => rtp.writeNtp64({seconds: 2 ** 32, fraction: 0}));
});

test('frame marking (RFC 9626, 3)', () => {
    const bare = {start: true, end: false, independent: true, discardable: false};
    both('FrameMarking', 'a0', bare);
    both('FrameMarking', '50', {start: false, end: true, independent: false, discardable: true});
    both('FrameMarking', 'ad40', {...bare, layers: {baseLayerSync: true, temporalId: 5, layerId: 0x40}});
    both('FrameMarking', 'a70109', {...bare, layers: {baseLayerSync: false, temporalId: 7, layerId: 1, tl0PicIdx: 9}});
    both('FrameMarking', 'a70100', {...bare, layers: {baseLayerSync: false, temporalId: 7, layerId: 1, tl0PicIdx: 0}});
    refusesData('FrameMarking', '', '00000000');
    refuses('BAD_FIELD', () => rtp.writeFrameMarking({...bare, layers: {baseLayerSync: false, temporalId: 8, layerId: 0}}));
    assert.throws(() => rtp.writeFrameMarking({start: true}), TypeError);
});

test('what one call writes says nothing of the next', () => {
    const bare = {start: true, end: false, independent: true, discardable: false};
    rtp.writeFrameMarking({...bare, layers: {baseLayerSync: true, temporalId: 5, layerId: 1, tl0PicIdx: 9}});
    assert.equal(hex(rtp.writeFrameMarking(bare)), 'a0');
    rtp.writeTransportNumber({number: 7, request: {packets: 10, timestamps: true}});
    assert.equal(hex(rtp.writeTransportNumber({number: 8})), '0008');
});

test('video orientation (3GPP TS 26.114, 7.4.5)', () => {
    // 01 is a turn by 90 degrees clockwise at the receiver, which is 270 counter-clockwise
    both('Orientation', '0d', {turn: 270, camera: 'back', flip: true});
    both('Orientation', '02', {turn: 180, camera: 'front', flip: false});
    both('Orientation', '0b', {turn: 90, camera: 'back', flip: false});
    refusesData('Orientation', '', '0000');
    refuses('BAD_FIELD', () => rtp.writeOrientation({turn: 45, camera: 'front', flip: false}));
    refuses('BAD_FIELD', () => rtp.writeOrientation({turn: 90, camera: 'side', flip: false}));
});

test('video timing', () => {
    const times = {encodeStart: 1, encodeFinish: 0x0203, packetizeComplete: 4, lastLeftPacer: 5, network: 6, network2: 0xFFFE};
    both('Timing', '02000102030004000500' + '06fffe', {...times, flags: 2});
    both('Timing', '00000102030004000500' + '06fffe', {...times, flags: 0});
    both('Timing', '000102030004000500' + '06fffe', times);
    refusesData('Timing', '00'.repeat(11), '00'.repeat(14));
    refuses('BAD_FIELD', () => rtp.writeTiming({...times, network: 65536}));
});

test('transport-wide number with a request', () => {
    both('TransportNumber', 'fffe', {number: 0xFFFE});
    both('TransportNumber', '0007800a', {number: 7, request: {packets: 10, timestamps: true}});
    both('TransportNumber', '00078000', {number: 7, request: {packets: 0, timestamps: true}});
    both('TransportNumber', '00077fff', {number: 7, request: {packets: 32767, timestamps: false}});
    refusesData('TransportNumber', '00', '000000', '0000000000');
    refuses('BAD_FIELD', () => rtp.writeTransportNumber({number: 7, request: {packets: 32768, timestamps: false}}));
});

test('levels of contributing sources (RFC 6465, 4)', () => {
    assert.equal(hex(rtp.writeMixerLevels([0, -10, -127])), '000a7f');
    assert.deepEqual([0, 1].map(it => rtp.readMixerLevel(bytes('8a7f'), 2, it)), [-10, -127]);
    refuses('BAD_FIELD', () => rtp.readMixerLevel(bytes('8a7f'), 2, 2));
    refuses('BAD_FIELD', () => rtp.readMixerLevel(bytes('8a7f'), 1, 1));
    refuses('BAD_FIELD', () => rtp.writeMixerLevels([-128]));
    refuses('BAD_FIELD', () => rtp.writeMixerLevels([1]));
    refuses('BAD_FIELD', () => rtp.writeMixerLevels(Array(16).fill(0)));
});

test('color space', () => {
    const space = {primaries: 9, transfer: 16, matrix: 8, range: 2, horizontal: 1, vertical: 2};
    both('ColorSpace', '09100826', space);
    const hdr = {luminanceMax: 1000, luminanceMin: 5, maxContentLightLevel: 0x0102, maxFrameAverageLightLevel: 0x0304,
        red: {x: 0x1111, y: 0x1222}, green: {x: 0x2111, y: 0x2222}, blue: {x: 0x3111, y: 0x3222}, white: {x: 0x4111, y: 0x4222}};
    both('ColorSpace', '09100826' + '03e80005' + '11111222' + '21112222' + '31113222' + '41114222' + '01020304', {...space, hdr});
    refusesData('ColorSpace', '091008', '0910080c', '09100803', '00'.repeat(27));
    refuses('BAD_FIELD', () => rtp.writeColorSpace({...space, range: 4}));
    refuses('BAD_FIELD', () => rtp.writeColorSpace({...space, vertical: 3}));
});

test('dependency descriptor (AV1, A.8)', () => {
    both('DependencyDescriptor', 'bf1234', {frameNumber: 0x1234, startOfFrame: true, endOfFrame: false, templateId: 63});
    both('DependencyDescriptor', '410002', {frameNumber: 2, startOfFrame: false, endOfFrame: true, templateId: 1});
    refusesData('DependencyDescriptor', '4100');
    refuses('BAD_FIELD', () => rtp.writeDependencyDescriptor({frameNumber: 0, startOfFrame: true, endOfFrame: true, templateId: 64}));
    assert.deepEqual(['410002', '41000280', '4100027f', ''].map(it => rtp.hasStructure(bytes(it))), [false, true, false, false]);
});

test('ids that the peer chose', () => {
    assert.deepEqual(['a-b', '', 'a b', 'x'.repeat(255), 'x'.repeat(256), 'ä'].map(rtp.isToken), [true, false, false, true, false, false]);
    // a character whose low byte is a letter
    assert.deepEqual([rtp.isToken('\u0161'), rtp.isStreamId('\u0161')], [false, false]);
    assert.throws(() => rtp.hasStructure('41000280'), TypeError);
    assert.deepEqual(['hi9', 'a-b', ''].map(rtp.isStreamId), [true, false, false]);
    assert.equal(rtp.isStreamId(bytes('6869')), true);
});

test('padding (RFC 3550, 5.1)', () => {
    const buffer = bytes('80600005 00000064 0000002C AABB FFFFFFFFFFFF');
    assert.equal(rtp.pad(buffer, 14, 3, 4), 18);
    assert.equal(hex(buffer), 'a0600005000000640000002caabb00000004ffff');
    const plain = bytes('80600005 00000064 0000002C FF');
    assert.equal(rtp.pad(plain, 12, 1), 13);
    assert.equal(hex(plain), 'a0600005000000640000002c01');
    assert.equal(rtp.pad(plain, 12, 0), 12);
    refuses('SHORT_BUFFER', () => rtp.pad(plain, 12, 2));
    refuses('BAD_FIELD', () => rtp.pad(plain, 12, 1, 0));
    refuses('BAD_FIELD', () => rtp.pad(plain, 14, 0));
    refuses('BAD_FIELD', () => rtp.pad(plain, 12, 256));
    assert.equal(hex(plain), 'a0600005000000640000002c01');
});
