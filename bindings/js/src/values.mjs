// SPDX-License-Identifier: MIT OR Apache-2.0
// Copyright (c) 2026 The rtp-wire developers (NOTICE)

// What the elements of a block say.
import { badField, flag, named, unsigned, within } from './errors.mjs';
import { LAYER, LAYERS, STREAM, TIME, VALUES } from './layout.mjs';
import { i8, i32, number64, put64, text, u16, u32, u8 } from './memory.mjs';

const TIMES = ['encodeStart', 'encodeFinish', 'packetizeComplete', 'lastLeftPacer'];
const ORIENTATIONS = [0, 90, 180, 270];

function putText(at, name, value, most) {
    if (typeof value !== 'string') {
        throw new TypeError(`${name} is ${typeof value}, and no string`);
    }
    if (value.length > most || !/^\w*$/.test(value)) {
        throw badField(`${name} is ${JSON.stringify(value)}, and not up to ${most} letters, digits and underscores`);
    }
    for (let i = 0; i < value.length; i++) {
        u8[at + i] = value.charCodeAt(i);
    }
}

function putOrientation(at, value) {
    if (!ORIENTATIONS.includes(unsigned('videoOrientation', value, 16))) {
        throw badField(`videoOrientation is ${value}, and not 0, 90, 180 or 270`);
    }
    u16[at >> 1] = value;
}

function putTime(at, name, { ticks, hertz }) {
    put64(at + TIME.ticks, `ticks of ${name}`, ticks);
    u32[at + TIME.hertz >> 2] = within(`hertz of ${name}`, hertz, 1, 0xFFFFFFFF);
}

function putTiming(at, timing) {
    for (const name of TIMES) {
        u16[at + VALUES[name] >> 1] = unsigned(name, timing[name], 16);
    }
    u8[at + VALUES.timingFlags] = unsigned('flags of videoTiming', timing.flags, 8);
}

const timeAt = at => ({ticks: number64(at + TIME.ticks), hertz: u32[at + TIME.hertz >> 2]});
const of64 = name => [at => number64(at), (at, value) => put64(at, name, value)];
const of32 = name => [at => u32[at >> 2], (at, value) => (u32[at >> 2] = unsigned(name, value, 32))];
const of16 = name => [at => u16[at >> 1], (at, value) => (u16[at >> 1] = unsigned(name, value, 16))];
const ofText = (name, most) => [at => text(at, most + 1), (at, value) => putText(at, name, value, most)];

// 32 bits of seconds and 32 of fraction, as NTP has them: the fraction is the low half.
const ntp = at => ({seconds: u32[(at >> 2) + 1], fraction: u32[at >> 2]});
function putNtp(at, name, { seconds, fraction }, low, high) {
    i32[(at >> 2) + 1] = within(`seconds of ${name}`, seconds, low, high);
    u32[at >> 2] = unsigned(`fraction of ${name}`, fraction, 32);
}

// How each value is read from its place in the struct, and put there.
const VALUE_FIELDS = {
    mid: ofText('mid', 16),
    rid: ofText('rid', 8),
    repairedRid: ofText('repairedRid', 8),
    audioLevel: [at => i8[at], (at, value) => (i8[at] = within('audioLevel', value, -127, 0))],
    voiceActivity: [at => u8[at] !== 0, (at, value) => (u8[at] = flag('voiceActivity', value))],
    sendTime: of64('sendTime'),
    transportNumber: of16('transportNumber'),
    videoOrientation: [at => u16[at >> 1], putOrientation],
    captureTime: [ntp, (at, value) => putNtp(at, 'captureTime', value, 0, 0xFFFFFFFF)],
    captureOffset: [
        at => ({seconds: i32[(at >> 2) + 1], fraction: u32[at >> 2]}),
        (at, value) => putNtp(at, 'captureOffset', value, -0x80000000, 0x7FFFFFFF),
    ],
    transmissionOffset: of32('transmissionOffset'),
    playoutDelayMin: [timeAt, (at, value) => putTime(at, 'playoutDelayMin', value)],
    playoutDelayMax: [timeAt, (at, value) => putTime(at, 'playoutDelayMax', value)],
    videoContentType: [at => u8[at], (at, value) => (u8[at] = unsigned('videoContentType', value, 8))],
    frameMarking: of32('frameMarking'),
};
const NAMES = [...Object.keys(VALUE_FIELDS), 'videoTiming', 'layers'];
const hasOf = name => VALUES[`has${name[0].toUpperCase()}${name.slice(1)}`];
// The name of each value, where it stands and whether it is there, how it is read and put.
const TABLE = Object.entries(VALUE_FIELDS).map(([name, [read, put]]) => [name, VALUES[name], hasOf(name), read, put]);

/** The values of the struct, but for a layer allocation: one that isn't there is no property. */
export function valuesAt(at) {
    const values = {};
    for (const [name, place, has, read] of TABLE) {
        if (u8[at + has] !== 0) {
            values[name] = read(at + place);
        }
    }
    if (u8[at + VALUES.hasVideoTiming] !== 0) {
        values.videoTiming = {flags: u8[at + VALUES.timingFlags]};
        for (const name of TIMES) {
            values.videoTiming[name] = u16[at + VALUES[name] >> 1];
        }
    }
    return values;
}

/** Values that nobody changes any more. */
export function freeze(values) {
    for (const name in values) {
        if (typeof values[name] === 'object') {
            freeze(values[name]);
        }
    }
    Object.freeze(values);
}

/** The values as JSON has them, which knows no BigInt: a rate of a layer may be one. */
export const withoutBigInts = values =>
    JSON.parse(JSON.stringify(values, (_, it) => typeof it === 'bigint' ? Number(it) : it));

/** Puts the values into an empty struct, but for a layer allocation. */
export function putValues(at, values) {
    named('values', values, NAMES);
    for (const [name, place, has, , put] of TABLE) {
        if (values[name] !== undefined) {
            put(at + place, values[name]);
            u8[at + has] = 1;
        }
    }
    if (values.videoTiming !== undefined) {
        putTiming(at, values.videoTiming);
        u8[at + VALUES.hasVideoTiming] = 1;
    }
}

function layerAt(at) {
    const kbps = Array.from({length: u8[at + LAYER.rates]}, (_, i) => number64(at + LAYER.kbps + 8 * i));
    if (u8[at + LAYER.hasResolution] === 0) {
        return {kbps};
    }
    const [width, height] = [u16[at + LAYER.width >> 1], u16[at + LAYER.height >> 1]];
    return {kbps, width, height, framerate: u8[at + LAYER.framerate]};
}

/** A layer allocation of the struct. */
export function layersAt(at) {
    const streams = Array.from({length: u8[at + LAYERS.count]}, (_, stream) => {
        const from = at + LAYERS.streams + stream * STREAM.size;
        return Array.from({length: u8[from + STREAM.count]}, (_, i) => layerAt(from + STREAM.layers + i * LAYER.size));
    });
    return {streams, current: u8[at + LAYERS.current]};
}

function few(name, items) {
    if (!Array.isArray(items) || items.length > 4) {
        throw badField(`${name} are no array of up to 4`);
    }
    return items.length;
}

function putLayer(at, { kbps, width, height, framerate }) {
    u8[at + LAYER.rates] = few('kbps', kbps);
    kbps.forEach((rate, i) => put64(at + LAYER.kbps + 8 * i, 'a rate', rate));
    if (width !== undefined || height !== undefined || framerate !== undefined) {
        u8[at + LAYER.hasResolution] = 1;
        u16[at + LAYER.width >> 1] = within('width', width, 1, 0xFFFF);
        u16[at + LAYER.height >> 1] = within('height', height, 1, 0xFFFF);
        u8[at + LAYER.framerate] = unsigned('framerate', framerate, 8);
    }
}

/** Puts a layer allocation into an empty struct. */
export function putLayers(at, { streams, current }) {
    u8[at + LAYERS.count] = few('streams', streams);
    u8[at + LAYERS.current] = within('current', current, 0, 3);
    streams.forEach((layers, stream) => {
        const from = at + LAYERS.streams + stream * STREAM.size;
        u8[from + STREAM.count] = few('layers', layers);
        layers.forEach((layer, i) => putLayer(from + STREAM.layers + i * LAYER.size, layer));
    });
}
