// SPDX-License-Identifier: MIT OR Apache-2.0
// Copyright (c) 2026 The rtp-wire developers (NOTICE)

// A header as a value of its own.
import { RtpError, check, elementId, flag, named, unsigned, within } from './errors.mjs';
import { ELEMENT, HEADER, KIND, LAYERS, VALUES } from './layout.mjs';
import { ExtensionMap } from './map.mjs';
import { allocate, bytesOf, inputOf, library, output, put, putData, size, u16, u32, u8 } from './memory.mjs';
import { layersAt, putLayers, putValues, valuesAt } from './values.mjs';

// What a call writes: a length, a header and layers, one after the other.
const headerPlace = () => output(8);
const layersPlace = () => output(8 + HEADER.size);
const NO_LAYERS = 'no element can carry the layers';
const TOO_LONG = 'the elements have more bytes than a block can, or the form carries no such element';
const MOST_WRITTEN = 65612;

/** Where a map lies; without one that of no id. */
let noMap;
export const placeOfMap = map => map === undefined ? (noMap ??= allocate(256)) : ExtensionMap.place(map);

/** The layer allocation of the header that the bytes at a place begin with. */
export function readLayers(at, len, map) {
    check(library.parse_layers(at, len, placeOfMap(map), headerPlace(), layersPlace()));
    return layersAt(layersPlace());
}

/** The contributing sources of a header in the struct. */
export function csrcsAt(at) {
    return Array.from(u32.subarray((at + HEADER.csrc) >> 2, ((at + HEADER.csrc) >> 2) + u8[at + HEADER.csrcCount]));
}

/** The header of a packet with the values of its block: read by `Header.parse`, or filled and written by `writeAll`. */
export class Header {
    payloadType = 0;
    sequenceNumber = 0;
    timestamp = 0;
    ssrc = 0;
    csrcs = [];
    marker = false;
    hasPadding = false;
    /** Whether there is a block; without it no value is written. Where it is undefined there is one if there is a
     * value. */
    hasExtension = undefined;
    values = {};
    /** How many bytes the header had that was read: the payload begins there. */
    headerLen = 0;

    constructor(fields = {}) {
        named('fields of a header', fields, Object.keys(this));
        Object.assign(this, fields);
    }

    /** Reads the header that the bytes begin with, and what its elements say under the map. */
    static parse(datagram, map) {
        const bytes = bytesOf(datagram), at = put(bytes), from = headerPlace();
        check(library.parse(at, bytes.length, placeOfMap(map), from));
        const header = new Header({
            payloadType: u8[from + HEADER.payloadType],
            sequenceNumber: u16[from + HEADER.sequenceNumber >> 1],
            timestamp: u32[from + HEADER.timestamp >> 2],
            ssrc: u32[from + HEADER.ssrc >> 2],
            csrcs: csrcsAt(from),
            marker: u8[from + HEADER.marker] !== 0,
            hasPadding: u8[from + HEADER.hasPadding] !== 0,
            hasExtension: u8[from + HEADER.hasExtension] !== 0,
            values: valuesAt(from + HEADER.values),
            headerLen: size(from + HEADER.headerLen),
        });
        if (hasLayers(from)) {
            header.values.layers = readLayers(at, bytes.length, map);
        }
        return header;
    }

    /** Puts the header where a call reads it. */
    #place(withValues = true) {
        const at = headerPlace();
        u8.fill(0, at, at + HEADER.size + LAYERS.size);
        u8[at + HEADER.payloadType] = unsigned('payloadType', this.payloadType, 7);
        u16[at + HEADER.sequenceNumber >> 1] = unsigned('sequenceNumber', this.sequenceNumber, 16);
        u32[at + HEADER.timestamp >> 2] = unsigned('timestamp', this.timestamp, 32);
        u32[at + HEADER.ssrc >> 2] = unsigned('ssrc', this.ssrc, 32);
        u8[at + HEADER.csrcCount] = within('the number of csrcs', this.csrcs.length, 0, 15);
        this.csrcs.forEach((it, i) => (u32[(at + HEADER.csrc >> 2) + i] = unsigned('a csrc', it, 32)));
        u8[at + HEADER.marker] = flag('marker', this.marker);
        u8[at + HEADER.hasPadding] = flag('hasPadding', this.hasPadding);
        const there = Object.values(this.values).some(it => it !== undefined);
        u8[at + HEADER.hasExtension] = flag('hasExtension', this.hasExtension ?? there);
        if (withValues) {
            putValues(at + HEADER.values, this.values);
            if (this.values.layers !== undefined) {
                putLayers(layersPlace(), this.values.layers);
            }
        }
        return at;
    }

    /** Calls one function, or the one for headers with layers. */
    #call(plain, layered, map, ...more) {
        const at = ExtensionMap.place(map), header = this.#place();
        const status = this.values.layers === undefined ? library[plain](at, header, ...more)
            : library[layered](at, header, layersPlace(), ...more);
        check(status, NO_LAYERS);
    }

    /** How many bytes `write` writes: a multiple of 4. */
    wireLen(map) {
        this.#call('wire_len', 'wire_len_layers', map, output());
        return size(output());
    }

    /** The bytes of the header. A value without an id, or without a block, is left out: `leftOut` tells these, and
     * `writeAll` refuses them. */
    write(map) {
        const at = inputOf(MOST_WRITTEN);
        this.#call('write', 'write_layers', map, at, MOST_WRITTEN, output());
        return u8.slice(at, at + size(output()));
    }

    /** Writes the header to the front of the buffer, and returns how many bytes it took. */
    writeTo(buffer, map) {
        const bytes = bytesOf(buffer), written = this.write(map);
        if (written.length > bytes.length) {
            throw new RtpError('SHORT_BUFFER');
        }
        bytes.set(written);
        return written.length;
    }

    /** The kinds of which there is a value that `write` leaves out. */
    leftOut(map) {
        this.#call('left_out', 'left_out_layers', map, output());
        const kinds = u32[output() >> 2];
        return Object.values(KIND).filter(kind => kind !== KIND.NONE && kind < 32 && kinds >>> kind & 1);
    }

    /** The bytes of the header, where no value is left out; else an error with the code LEFT_OUT and the `kinds`. */
    writeAll(map) {
        const kinds = this.leftOut(map);
        if (kinds.length !== 0) {
            throw Object.assign(new RtpError('LEFT_OUT'), {kinds});
        }
        return this.write(map);
    }

    /**
     * The bytes of the header with a block of these elements, pairs of an id and its data, whatever the values are: in
     * the one-byte form where that can carry them, or in the form that is given.
     */
    writeWith(elements, form = 0) {
        const header = this.#place(false), { data, dataLen, at, count } = placeElements(elements, layersPlace());
        const room = dataLen + 2 * count + 84, buf = inputOf(room);
        const status = library.write_with_form(header, data, dataLen, at, count, within('a form', form, 0, 2), buf, room,
            output());
        check(status, TOO_LONG);
        return u8.slice(buf, buf + size(output()));
    }
}

/** Whether a header in the struct has a layer allocation. */
function hasLayers(at) {
    return u8[at + HEADER.values + VALUES.hasLayers] !== 0;
}

/** Puts elements where a call reads them, and their data. */
export function placeElements(elements, at) {
    const parts = [...elements].map(([id, data]) => [elementId(id), bytesOf(data)]);
    const data = new Uint8Array(parts.reduce((sum, [, it]) => sum + it.length, 0));
    let from = 0;
    parts.forEach(([id, it], i) => {
        const to = at + i * ELEMENT.size;
        u32.fill(0, to >> 2, to + ELEMENT.size >> 2);
        u32[to + ELEMENT.dataAt >> 2] = from;
        u32[to + ELEMENT.dataLen >> 2] = it.length;
        u8[to + ELEMENT.id] = id;
        data.set(it, from);
        from += it.length;
    });
    return {data: putData(data), dataLen: data.length, at, count: parts.length};
}

/** Elements, pairs of an id and its data, one after the other as the body of a block has them. */
export function writeElements(elements, form) {
    const { data, dataLen, at, count } = placeElements(elements, headerPlace());
    const room = dataLen + 2 * count + 3, buf = inputOf(room);
    check(library.write_elements(data, dataLen, at, count, within('a form', form, 1, 2), buf, room, output()), TOO_LONG);
    return u8.slice(buf, buf + size(output()));
}
