// SPDX-License-Identifier: MIT OR Apache-2.0
// Copyright (c) 2026 The rtp-wire developers (NOTICE)

// A plain reader of RTP in JavaScript, to be timed beside Columns: the same columns of fields and of four values. Every
// byte is looked at within bounds; of elements of a kind the last well-formed one counts, as in the library.
export const LEVEL = 3, SEND = 1, TRANSPORT = 6, MID = 12;

/** The columns of so many datagrams. */
export const columnsOf = count => ({
    status: new Uint8Array(count), isRtcp: new Uint8Array(count), isRtp: new Uint8Array(count),
    sequenceNumber: new Uint16Array(count), timestamp: new Uint32Array(count), ssrc: new Uint32Array(count),
    payloadType: new Uint8Array(count), marker: new Uint8Array(count), headerLen: new Uint32Array(count),
    payloadLen: new Uint32Array(count), unpaddedLen: new Uint32Array(count), paddingFits: new Uint8Array(count),
    audioLevel: new Int8Array(count), hasAudioLevel: new Uint8Array(count), sendTime: new Uint32Array(count),
    hasSendTime: new Uint8Array(count), transportNumber: new Uint16Array(count), hasTransportNumber: new Uint8Array(count),
    mid: new Uint32Array(count), hasMid: new Uint8Array(count), texts: [undefined], known: new Map(),
});

function putMid(columns, row, bytes, at, len) {
    let hash = 0;
    for (let i = at; i < at + len; i++) hash = Math.imul(hash, 31) + bytes[i] | 0;
    for (;; hash = hash + 1 | 0) {
        const number = columns.known.get(hash);
        if (number === undefined) {
            columns.known.set(hash, columns.texts.length);
            columns.mid[row] = columns.texts.push(String.fromCharCode(...bytes.subarray(at, at + len))) - 1;
            break;
        }
        const text = columns.texts[number];
        let i = text.length === len ? 0 : Infinity;
        while (i < len && text.charCodeAt(i) === bytes[at + i]) i++;
        if (i === len) {
            columns.mid[row] = number;
            break;
        }
    }
    columns.hasMid[row] = 1;
}

/** Puts the last element of each kind of four into its columns; where the block ends. */
function elements(columns, row, view, bytes, here, stop, one, kinds) {
    let midAt = -1, midLen = 0;
    while (here < stop) {
        const byte = bytes[here];
        let id, size;
        if (one) {
            id = byte >> 4;
            if (id === 15) break;
            if (id === 0) {
                here += 1 + (byte === 0 ? 0 : (byte & 15) + 1);
                continue;
            }
            size = (byte & 15) + 1, here += 1;
        } else {
            id = byte;
            if (id === 0) {
                here += 1;
                continue;
            }
            if (here + 2 > stop) break;
            size = bytes[here + 1], here += 2;
        }
        if (here + size > stop) break;
        switch (kinds[id]) {
            case LEVEL: if (size >= 1) columns.audioLevel[row] = -(bytes[here] & 127), columns.hasAudioLevel[row] = 1; break;
            case SEND: if (size === 3) {
                const units = view.getUint16(here) << 8 | bytes[here + 2];
                columns.sendTime[row] = Math.floor(units * 15625 / 4096), columns.hasSendTime[row] = 1;
            } break;
            case TRANSPORT: if (size >= 2) columns.transportNumber[row] = view.getUint16(here), columns.hasTransportNumber[row] = 1; break;
            case MID: midAt = here, midLen = size; break;
        }
        here += size;
    }
    if (midAt >= 0) putMid(columns, row, bytes, midAt, midLen);
}

/** Reads one datagram into its row. */
export function read(columns, row, view, bytes, at, len, kinds) {
    if (len >= 2 && bytes[at] >> 6 === 2 && bytes[at + 1] >= 192 && bytes[at + 1] < 224) return columns.isRtcp[row] = 1, 17;
    if (len < 12) return 1;
    const first = bytes[at], second = bytes[at + 1];
    if (first >> 6 !== 2) return 2;
    const end = at + len;
    let here = at + 12 + 4 * (first & 15);
    if (here > end) return 3;
    if (first & 16) {
        if (here + 4 > end) return 4;
        const profile = view.getUint16(here), body = here + 4, stop = body + 4 * view.getUint16(here + 2);
        if (stop > end) return 6;
        const one = profile === 0xBEDE;
        if (one || (profile & 0xFFF0) === 0x1000) elements(columns, row, view, bytes, body, stop, one, kinds);
        here = stop;
    }
    columns.isRtp[row] = 1;
    columns.sequenceNumber[row] = view.getUint16(at + 2);
    columns.timestamp[row] = view.getUint32(at + 4);
    columns.ssrc[row] = view.getUint32(at + 8);
    columns.payloadType[row] = second & 127;
    columns.marker[row] = second >> 7;
    columns.headerLen[row] = here - at;
    const payload = end - here, padding = first & 32 && payload > 0 ? bytes[end - 1] : 0;
    columns.payloadLen[row] = payload;
    columns.unpaddedLen[row] = padding <= payload ? payload - padding : 0;
    columns.paddingFits[row] = padding <= payload ? 1 : 0;
    return 0;
}
