// SPDX-License-Identifier: MIT OR Apache-2.0
// Copyright (c) 2026 The rtp-wire developers (NOTICE)

// The data of an element as its standard lays them out, where the values of a packet have something else, or nothing.
import { badField, check, flag, unsigned, within } from './errors.mjs';
import {
    CHROMATICITY, COLOR_SPACE, DEPENDENCY_DESCRIPTOR, FRAME_MARKING, HDR_METADATA, ORIENTATION, TIMING, TRANSPORT_NUMBER,
} from './layout.mjs';
import { bytesOf, i32, i8, library, output, put, putData, size, u16, u32, u8 } from './memory.mjs';

/** The most bytes that the data of an element have (RFC 8285, 4.3). */
export const MOST_DATA = 255;

// Where a call reads or writes a struct, and where it writes data.
const place = () => output(8);
const CAMERAS = ['front', 'back'];
const textEncoder = new TextEncoder();

/** Has the data read into the struct, or refused. */
function read(name, data, ...more) {
    const bytes = bytesOf(data);
    check(library[`read_${name}`](put(bytes), bytes.length, ...more, place()));
    return place();
}

/** The data that a call writes. */
function written(name, ...given) {
    const buf = output(1024);
    check(library[`write_${name}`](...given, buf, MOST_DATA, output()));
    return u8.slice(buf, buf + size(output()));
}

function cleared(bytes) {
    u8.fill(0, place(), place() + bytes);
    return place();
}

// Fields of a struct, all of 16 bits, of 8, or flags, by their names.
const numbers16 = (at, struct, names) => Object.fromEntries(names.map(it => [it, u16[at + struct[it] >> 1]]));
const numbers8 = (at, struct, names) => Object.fromEntries(names.map(it => [it, u8[at + struct[it]]]));
const flags = (at, struct, names) => Object.fromEntries(names.map(it => [it, u8[at + struct[it]] !== 0]));
const put16 = (at, struct, names, from) => names.forEach(it => (u16[at + struct[it] >> 1] = unsigned(it, from[it], 16)));
const put8 = (at, struct, names, from) => names.forEach(it => (u8[at + struct[it]] = unsigned(it, from[it], 8)));
const putFlags = (at, struct, names, from) => names.forEach(it => (u8[at + struct[it]] = flag(it, from[it])));

/** The send time as it lies: 24 bits in units of 2^-18 s, modulo 64 s. */
export const readSendTime = data => u32[read('send_time', data) >> 2];
export const writeSendTime = units => written('send_time', unsigned('units', units, 32));

// NTP timestamps: 32 bits of seconds and 32 of fraction.
const ntpAt = at => ({seconds: u32[(at >> 2) + 1], fraction: u32[at >> 2]});
const ntpOf = (name, { seconds, fraction }) =>
    [unsigned(`fraction of ${name}`, fraction, 32), unsigned(`seconds of ${name}`, seconds, 32)];

/** The time of which the send time is the low part and that is nearest to `near`, as the packet's arrival. */
export function extendSendTime(near, units) {
    library.extend_send_time(...ntpOf('near', near), unsigned('units', units, 32), place());
    return ntpAt(place());
}
/** NTP timestamps (RFC 6051, 3.3) of eight bytes, and of seven, whose seconds are the low 24 bits. */
export const readNtp64 = data => ntpAt(read('ntp_64', data));
export const writeNtp64 = time => written('ntp_64', ...ntpOf('time', time));
export const readNtp56 = data => ntpAt(read('ntp_56', data));
export const writeNtp56 = time => written('ntp_56', ...ntpOf('time', time));
/** The time that ends in the 56 bits and is nearest to `near`. */
export function extendNtp56(near, low) {
    library.extend_ntp_56(...ntpOf('near', near), ...ntpOf('low', low), place());
    return ntpAt(place());
}

/** The transmission time offset (RFC 5450, 3), in ticks: 24 bits with a sign. */
export const readTransmissionOffset = data => i32[read('transmission_offset', data) >> 2];
export const writeTransmissionOffset = ticks =>
    written('transmission_offset', within('ticks', ticks, -0x80000000, 0x7FFFFFFF));

const MARKED = ['start', 'end', 'independent', 'discardable'];
/** Frame marking (RFC 9626, 3). */
export function readFrameMarking(data) {
    const at = read('frame_marking', data), marking = flags(at, FRAME_MARKING, MARKED);
    if (u8[at + FRAME_MARKING.hasLayers] !== 0) {
        const sync = flags(at, FRAME_MARKING, ['baseLayerSync']);
        marking.layers = {...sync, ...numbers8(at, FRAME_MARKING, ['temporalId', 'layerId'])};
        if (u8[at + FRAME_MARKING.hasTl0PicIdx] !== 0) {
            marking.layers.tl0PicIdx = u8[at + FRAME_MARKING.tl0PicIdx];
        }
    }
    return marking;
}
export function writeFrameMarking(marking) {
    const at = cleared(FRAME_MARKING.size), { layers } = marking;
    putFlags(at, FRAME_MARKING, MARKED, marking);
    if (layers !== undefined) {
        u8[at + FRAME_MARKING.hasLayers] = 1;
        putFlags(at, FRAME_MARKING, ['baseLayerSync'], layers);
        put8(at, FRAME_MARKING, ['temporalId', 'layerId'], layers);
        if (layers.tl0PicIdx !== undefined) {
            u8[at + FRAME_MARKING.hasTl0PicIdx] = 1;
            put8(at, FRAME_MARKING, ['tl0PicIdx'], layers);
        }
    }
    return written('frame_marking', at);
}

/** Video orientation (3GPP TS 26.114, 7.4.5) with camera and flip. */
export function readOrientation(data) {
    const at = read('orientation', data);
    const camera = CAMERAS[u8[at + ORIENTATION.camera]];
    return {turn: u16[at + ORIENTATION.turn >> 1], camera, flip: u8[at + ORIENTATION.flip] !== 0};
}
export function writeOrientation({ turn, camera, flip }) {
    const at = cleared(ORIENTATION.size);
    if (!CAMERAS.includes(camera)) {
        throw badField(`camera is ${camera}, and not front or back`);
    }
    u16[at + ORIENTATION.turn >> 1] = unsigned('turn', turn, 16);
    u8[at + ORIENTATION.camera] = CAMERAS.indexOf(camera);
    u8[at + ORIENTATION.flip] = flag('flip', flip);
    return written('orientation', at);
}

const TIMING_TIMES = ['encodeStart', 'encodeFinish', 'packetizeComplete', 'lastLeftPacer', 'network', 'network2'];
/** Video timing with both network times; without `flags` in the older form. */
export function readTiming(data) {
    const at = read('timing', data), timing = numbers16(at, TIMING, TIMING_TIMES);
    return u8[at + TIMING.hasFlags] === 0 ? timing : {...timing, flags: u8[at + TIMING.flags]};
}
export function writeTiming(timing) {
    const at = cleared(TIMING.size);
    put16(at, TIMING, TIMING_TIMES, timing);
    if (timing.flags !== undefined) {
        u8[at + TIMING.hasFlags] = 1;
        put8(at, TIMING, ['flags'], timing);
    }
    return written('timing', at);
}

/** The transport-wide number with the request for feedback, if it has one (transport-wide-cc-02). */
export function readTransportNumber(data) {
    const at = read('transport_number', data), number = numbers16(at, TRANSPORT_NUMBER, ['number']);
    if (u8[at + TRANSPORT_NUMBER.hasRequest] !== 0) {
        number.request = {...numbers16(at, TRANSPORT_NUMBER, ['packets']), ...flags(at, TRANSPORT_NUMBER, ['timestamps'])};
    }
    return number;
}
export function writeTransportNumber(given) {
    const at = cleared(TRANSPORT_NUMBER.size);
    put16(at, TRANSPORT_NUMBER, ['number'], given);
    if (given.request !== undefined) {
        u8[at + TRANSPORT_NUMBER.hasRequest] = 1;
        put16(at, TRANSPORT_NUMBER, ['packets'], given.request);
        putFlags(at, TRANSPORT_NUMBER, ['timestamps'], given.request);
    }
    return written('transport_number', at);
}

/** The level of the contributing source at this index of so many, in dB (RFC 6465, 4). */
export function readMixerLevel(data, csrcCount, index) {
    return i8[read('mixer_level', data, unsigned('csrcCount', csrcCount, 32), unsigned('index', index, 32))];
}
export function writeMixerLevels(levels) {
    const given = Int8Array.from([...levels], it => within('a level', it, -127, 0));
    return written('mixer_levels', putData(bytesOf(given)), given.length);
}

const CODE_POINTS = ['primaries', 'transfer', 'matrix', 'range', 'horizontal', 'vertical'];
const LIGHT = ['luminanceMax', 'luminanceMin', 'maxContentLightLevel', 'maxFrameAverageLightLevel'];
const POINTS = ['red', 'green', 'blue', 'white'], POINT = ['x', 'y'];
/** The color space of a video, with its HDR metadata, if it has them. */
export function readColorSpace(data) {
    const at = read('color_space', data), space = numbers8(at, COLOR_SPACE, CODE_POINTS), hdr = at + COLOR_SPACE.hdr;
    if (u8[at + COLOR_SPACE.hasHdr] !== 0) {
        space.hdr = numbers16(hdr, HDR_METADATA, LIGHT);
        POINTS.forEach(it => (space.hdr[it] = numbers16(hdr + HDR_METADATA[it], CHROMATICITY, POINT)));
    }
    return space;
}
export function writeColorSpace(space) {
    const at = cleared(COLOR_SPACE.size), hdr = at + COLOR_SPACE.hdr;
    put8(at, COLOR_SPACE, CODE_POINTS, space);
    if (space.hdr !== undefined) {
        u8[at + COLOR_SPACE.hasHdr] = 1;
        put16(hdr, HDR_METADATA, LIGHT, space.hdr);
        POINTS.forEach(it => put16(hdr + HDR_METADATA[it], CHROMATICITY, POINT, space.hdr[it]));
    }
    return written('color_space', at);
}

const OF_FRAME = ['startOfFrame', 'endOfFrame'];
/** The first three bytes of a dependency descriptor (AV1's RTP payload format, A.8). */
export function readDependencyDescriptor(data) {
    const at = read('dependency_descriptor', data), ends = flags(at, DEPENDENCY_DESCRIPTOR, OF_FRAME);
    const number = numbers16(at, DEPENDENCY_DESCRIPTOR, ['frameNumber']);
    return {...number, ...ends, ...numbers8(at, DEPENDENCY_DESCRIPTOR, ['templateId'])};
}
export function writeDependencyDescriptor(descriptor) {
    const at = cleared(DEPENDENCY_DESCRIPTOR.size);
    put16(at, DEPENDENCY_DESCRIPTOR, ['frameNumber'], descriptor);
    putFlags(at, DEPENDENCY_DESCRIPTOR, OF_FRAME, descriptor);
    put8(at, DEPENDENCY_DESCRIPTOR, ['templateId'], descriptor);
    return written('dependency_descriptor', at);
}

function judged(name, text) {
    const bytes = typeof text === 'string' ? textEncoder.encode(text) : bytesOf(text);
    return library[name](put(bytes), bytes.length) !== 0;
}
/** Whether a descriptor brings a template dependency structure. */
export const hasStructure = data => judged('has_structure', bytesOf(data));
/** Whether the text or the data are a token of SDP of 1 to 255 characters, as a mid is (RFC 5888, 4). */
export const isToken = text => judged('is_token', text);
/** Whether they are 1 to 255 letters and digits, as a stream id has to be where it is sent (RFC 8852, 3). */
export const isStreamId = text => judged('is_stream_id', text);
