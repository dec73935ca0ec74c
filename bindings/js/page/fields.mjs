// SPDX-License-Identifier: MIT OR Apache-2.0
// Copyright (c) 2026 The rtp-wire developers (NOTICE)

// A packet's header field by field, each with its bytes.
import { hexOf } from './capture.mjs';
import { ssrcText } from './tables.mjs';

// So many bytes of a field are shown.
const SHOWN = 16;
const yesOrNo = flag => (flag ? 'yes' : 'no');

/** The rows of a datagram of which the capture hasn't the whole header. */
export function cutRows(datagram) {
    const bytes = hexOf(datagram.subarray(0, SHOWN)) + (datagram.length > SHOWN ? ' ..' : '');
    return [[`0-${datagram.length - 1}`, bytes, 'Header', 'The capture has only its beginning.']];
}

/** The rows of the table `fields` of tables.json. */
export function fieldRows(wire, datagram, map) {
    const packet = wire.Packet.parse(datagram, map), rows = [], end = datagram.length, { csrcs } = packet;
    const row = (at, to, field, value) => {
        const bytes = hexOf(datagram.subarray(at, Math.min(to, at + SHOWN))) + (to - at > SHOWN ? ' ..' : '');
        rows.push([to === at + 1 ? `${at}` : `${at}-${to - 1}`, bytes, field, `${value}`]);
    };
    row(0, 1, 'Version', 2);
    row(0, 1, 'Padding', yesOrNo(packet.hasPadding));
    row(0, 1, 'Extension', yesOrNo(packet.form !== wire.Form.NO_BLOCK));
    row(0, 1, 'CSRC count', csrcs.length);
    row(1, 2, 'Marker', yesOrNo(packet.marker));
    row(1, 2, 'Payload type', packet.payloadType);
    row(2, 4, 'Sequence number', packet.sequenceNumber);
    row(4, 8, 'Timestamp', packet.timestamp);
    row(8, 12, 'SSRC', ssrcText(packet.ssrc));
    csrcs.forEach((source, i) => row(12 + 4 * i, 16 + 4 * i, `CSRC ${i + 1}`, ssrcText(source)));
    if (packet.form !== wire.Form.NO_BLOCK) ofBlock(wire, packet, datagram, map, row);
    const { headerLen, unpaddedPayload: media } = packet, paddingAt = media === undefined ? end : headerLen + media.length;
    if (paddingAt > headerLen) row(headerLen, paddingAt, 'Payload', `${paddingAt - headerLen} bytes`);
    if (paddingAt < end) row(paddingAt, end, 'Padding', `${end - paddingAt} bytes`);
    return rows;
}

/** The rows of the header extension: its profile and length, and each element that has data. */
function ofBlock(wire, packet, datagram, map, row) {
    const { body, form, values } = packet, bodyAt = packet.headerLen - body.length, { Form, Kind } = wire;
    const forms = {[Form.ONE_BYTE_FORM]: 'one-byte form', [Form.TWO_BYTE_FORM]: 'two-byte form'};
    const profile = packet.blockProfile.toString(16).padStart(4, '0');
    row(bodyAt - 4, bodyAt - 2, 'Extension profile', `0x${profile}, ${forms[form] ?? 'another form'}`);
    row(bodyAt - 2, bodyAt, 'Extension length', `${body.length / 4} words`);
    const uris = new Map(map.uris);
    for (const { id, data } of packet.elements()) {
        const kind = map.get(id), at = data.byteOffset - datagram.byteOffset;
        if (!data.length) continue;
        const name = kind === undefined ? '' : `: ${namesOf(Kind).get(kind) ?? uris.get(id) ?? ''}`;
        row(at, at + data.length, `Element ${id}${name}`, toldOf(Kind, kind, values));
    }
}

const NAMES = {
    ABS_SEND_TIME: 'send time', ABS_CAPTURE_TIME: 'capture time', AUDIO_LEVEL: 'audio level',
    TRANSMISSION_OFFSET: 'transmission offset', VIDEO_ORIENTATION: 'video orientation', TRANSPORT_NUMBER: 'transport number',
    PLAYOUT_DELAY: 'playout delay', VIDEO_CONTENT_TYPE: 'video content type', VIDEO_TIMING: 'video timing', RID: 'rid',
    REPAIRED_RID: 'repaired rid', MID: 'mid', FRAME_MARKING: 'frame marking', COLOR_SPACE: 'color space', LAYERS: 'layers',
    MIXER_LEVELS: 'mixer levels', TRANSPORT_NUMBER_2: 'transport number, version 2',
    DEPENDENCY_DESCRIPTOR: 'dependency descriptor', NTP_64: 'NTP time', NTP_56: 'NTP time, 56 bits',
};
const namesOf = Kind => new Map(Object.entries(NAMES).map(([name, text]) => [Kind[name], text]));

function secondsOf(microseconds) {
    const thousandths = Math.floor(microseconds / 1000);
    return `${Math.floor(thousandths / 1000)}.${String(thousandths % 1000).padStart(3, '0')} s`;
}

/** Each layer of each stream with its size and rate: "0.1: 640x360, 30 fps, 500 kbit/s". */
function layersText({ streams }) {
    return streams.flatMap((spatial, stream) => spatial.map(({ kbps, width, height, framerate }, i) => {
        const size = width === undefined ? '' : `${width}x${height}, ${framerate} fps, `;
        return `${stream}.${i}: ${size}${kbps.length ? `${kbps.at(-1)} kbit/s` : 'not active'}`;
    })).join('; ');
}

/** What an element of the kind says, where its value is there and is one that is told in words. */
function toldOf(Kind, kind, values) {
    const told = (name, text = it => `${it}`) => (values[name] === undefined ? '' : text(values[name]));
    const voice = values.voiceActivity === undefined ? '' : values.voiceActivity ? ', voice' : ', no voice';
    switch (kind) {
        case Kind.ABS_SEND_TIME: return told('sendTime', secondsOf);
        case Kind.AUDIO_LEVEL: return told('audioLevel', it => `${it} dB${voice}`);
        case Kind.VIDEO_ORIENTATION: return told('videoOrientation', it => `${it} degrees`);
        case Kind.TRANSPORT_NUMBER: return told('transportNumber');
        case Kind.VIDEO_CONTENT_TYPE: return told('videoContentType', it => (it === 1 ? 'screen' : 'unspecified'));
        case Kind.RID: return told('rid');
        case Kind.REPAIRED_RID: return told('repairedRid');
        case Kind.MID: return told('mid');
        case Kind.LAYERS: return told('layers', layersText);
        default: return '';
    }
}
