// SPDX-License-Identifier: MIT OR Apache-2.0
// Copyright (c) 2026 The rtp-wire developers (NOTICE)

// A packet where it lies in its datagram.
import { check, flag, named, unsigned, within } from './errors.mjs';
import { csrcsAt, placeOfMap, readLayers } from './header.mjs';
import { ELEMENT, FIELDS, FORM, HEADER, STATUS, VALUES, WHOLE_PACKET } from './layout.mjs';
import { NewIds } from './map.mjs';
import { bytesOf, library, output, put, putData, size, u16, u32, u8 } from './memory.mjs';
import { freeze, valuesAt, withoutBigInts } from './values.mjs';

const LONG_PADDING = 'the padding is longer than the payload';
const SET_TOGETHER = ['payloadType', 'sequenceNumber', 'timestamp', 'ssrc', 'marker'];

/** Whether a datagram on a port that RTP and RTCP share is RTCP (RFC 5761, 4). */
export function isRtcp(datagram) {
    const bytes = bytesOf(datagram);
    return library.is_rtcp(put(bytes.subarray(0, 4)), Math.min(bytes.length, 4)) !== 0;
}

/** The elements of a block's body in order, each with its id and its data where they lie. */
export function* elementsOf(body, form) {
    const bytes = bytesOf(body);
    within('a form', form, 1, 2);
    for (let end = 0; ;) {
        const at = put(bytes), status = library.next_element(at, bytes.length, form, end, output());
        if (status === STATUS.NONE) {
            return;
        }
        check(status);
        end = size(output(ELEMENT.end));
        yield {id: u8[output(ELEMENT.id)], data: bytes.subarray(size(output(ELEMENT.dataAt)), end)};
    }
}

/** A packet where it lies. No byte of its datagram is kept but by reference: the payload is a view, and a change of the
 * packet changes the datagram. */
export class Packet {
    #bytes;
    #map;
    #told;

    /** Use `Packet.parse`. */
    constructor(bytes, map) {
        this.#bytes = bytes;
        this.#map = map;
        this.#read(put(bytes));
    }

    /**
     * Reads the packet that the datagram is, and what its elements say under the map. Bytes that are none throw
     * NotAPacket, with the first cause as `code`; RTCP throws RtpError with the code RTCP.
     */
    static parse(datagram, map) {
        placeOfMap(map); // which it has to be, also where there is no element
        return new Packet(bytesOf(datagram), map);
    }

    /** Reads the packet at a place of the module's memory. */
    #read(at) {
        const whole = output(8), header = whole + WHOLE_PACKET.header, values = header + HEADER.values;
        check(library.read(at, this.#bytes.length, placeOfMap(this.#map), whole));
        this.#told = {
            payloadType: u8[header + HEADER.payloadType],
            sequenceNumber: u16[header + HEADER.sequenceNumber >> 1],
            timestamp: u32[header + HEADER.timestamp >> 2],
            ssrc: u32[header + HEADER.ssrc >> 2],
            marker: u8[header + HEADER.marker] !== 0,
            hasPadding: u8[header + HEADER.hasPadding] !== 0,
            csrcs: csrcsAt(header),
            headerLen: size(header + HEADER.headerLen),
            unpaddedLen: size(whole + WHOLE_PACKET.unpaddedLen),
            paddingFits: u8[whole + WHOLE_PACKET.paddingFits] !== 0,
            bodyAt: size(whole + WHOLE_PACKET.bodyAt),
            form: u8[whole + WHOLE_PACKET.blockForm],
            profile: u16[whole + WHOLE_PACKET.blockProfile >> 1],
            values: valuesAt(values),
        };
        if (u8[values + VALUES.hasLayers] !== 0) {
            this.#told.values.layers = readLayers(at, this.#bytes.length, this.#map);
        }
    }

    // ---- The header, and by setting a field the way to change it where it lies ----

    /** What the payload is, 0 to 127. */
    get payloadType() {
        return this.#told.payloadType;
    }

    set payloadType(payloadType) {
        this.#change('set_payload_type', unsigned('payloadType', payloadType, 7));
    }

    /** The low 16 bits of the packet's number. */
    get sequenceNumber() {
        return this.#told.sequenceNumber;
    }

    set sequenceNumber(number) {
        this.#change('set_sequence_number', unsigned('sequenceNumber', number, 16));
    }

    /** In ticks of the payload's clock, 32 bits. */
    get timestamp() {
        return this.#told.timestamp;
    }

    set timestamp(timestamp) {
        this.#change('set_timestamp', unsigned('timestamp', timestamp, 32));
    }

    /** The stream's source, 32 bits. */
    get ssrc() {
        return this.#told.ssrc;
    }

    set ssrc(ssrc) {
        this.#change('set_ssrc', unsigned('ssrc', ssrc, 32));
    }

    /** M. */
    get marker() {
        return this.#told.marker;
    }

    set marker(marker) {
        this.#change('set_marker', flag('marker', marker));
    }

    /** P: the payload ends with padding. To set or clear it changes no other bit: `removePadding` tells where the packet
     * then ends. */
    get hasPadding() {
        return this.#told.hasPadding;
    }

    set hasPadding(hasPadding) {
        this.#change('set_padding', flag('hasPadding', hasPadding));
    }

    /** The contributing sources, up to 15. */
    get csrcs() {
        return [...this.#told.csrcs];
    }

    /** Sets the contributing source at this place, counted from 0. */
    setCsrc(index, source) {
        this.#change('set_csrc', unsigned('index', index, 32), unsigned('a csrc', source, 32));
    }

    /** Sets those that are given after one look at the packet: all of them or, where one is refused, none. */
    setFields(fields) {
        const at = output();
        named('fields', fields, SET_TOGETHER);
        u8.fill(0, at, at + FIELDS.size);
        const table = [
            ['payloadType', 7, u8, 0], ['sequenceNumber', 16, u16, 1], ['timestamp', 32, u32, 2], ['ssrc', 32, u32, 2],
        ];
        for (const [name, bits, view, shift] of table) {
            if (fields[name] !== undefined) {
                view[at + FIELDS[name] >> shift] = unsigned(name, fields[name], bits);
                u8[at + FIELDS[`has${name[0].toUpperCase()}${name.slice(1)}`]] = 1;
            }
        }
        if (fields.marker !== undefined) {
            u8[at + FIELDS.marker] = flag('marker', fields.marker);
            u8[at + FIELDS.hasMarker] = 1;
        }
        this.#change('set_fields', at);
    }

    /** Changes the packet where it lies, by a call of the library that keeps its length, and reads it again. What would
     * be taken for RTCP then has the code RTCP, and stays. */
    #change(name, ...given) {
        const at = put(this.#bytes), len = this.#bytes.length;
        check(library[name](at, len, ...given), name === 'remove_padding' ? LONG_PADDING : undefined);
        this.#read(at);
        this.#bytes.set(u8.subarray(at, at + this.headerLen));
    }

    // ---- The payload ----

    /** How many bytes the header has: the payload begins there. */
    get headerLen() {
        return this.#told.headerLen;
    }

    /** The header where it lies: a packet without a payload. */
    get header() {
        return this.#bytes.subarray(0, this.headerLen);
    }

    /** The whole packet where it lies. */
    get bytes() {
        return this.#bytes;
    }

    /** The payload where it lies, with any padding: what is passed on. */
    get payload() {
        return this.#bytes.subarray(this.headerLen);
    }

    /** The payload without its padding; undefined where the padding is longer than it. With SRTP the padding is known
     * only once the payload is decrypted. */
    get unpaddedPayload() {
        const { headerLen, unpaddedLen, paddingFits } = this.#told;
        return paddingFits ? this.#bytes.subarray(headerLen, headerLen + unpaddedLen) : undefined;
    }

    /** Clears P, and returns how many bytes the packet then has, which are its first ones. */
    removePadding() {
        const len = output();
        this.#change('remove_padding', len);
        return size(len);
    }

    // ---- The elements of its block ----

    /** The form of the block, a number of `Form`. */
    get form() {
        return this.#told.form;
    }

    /** The 16 bits that the block begins with; undefined where there is none. */
    get blockProfile() {
        return this.form === FORM.NO_BLOCK ? undefined : this.#told.profile;
    }

    /** The body of the block where it lies. */
    get body() {
        return this.#bytes.subarray(this.#told.bodyAt, this.headerLen);
    }

    /** What the elements say under the map; a value that isn't there is no property. They are frozen: `setElement` changes
     * the packet. */
    get values() {
        const told = this.#told;
        if (!told.isFrozen) {
            told.isFrozen = true;
            freeze(told.values);
        }
        return told.values;
    }

    /** The fields, the values and how many bytes the payload has, for JSON. */
    toJSON() {
        const { payloadType, sequenceNumber, timestamp, ssrc, marker, hasPadding, csrcs, form, headerLen, values } = this;
        const fields = {payloadType, sequenceNumber, timestamp, ssrc, csrcs, marker, hasPadding, form, headerLen};
        return {...fields, payloadLen: this.payload.length, values: withoutBigInts(values)};
    }

    /** The same for Node's console. */
    [Symbol.for('nodejs.util.inspect.custom')](depth, options, inspect) {
        return depth < 0 ? '[Packet]' : `Packet ${inspect(this.toJSON(), options)}`;
    }

    #hasElements() {
        return this.form === FORM.ONE_BYTE_FORM || this.form === FORM.TWO_BYTE_FORM;
    }

    /** The elements of the block in order, each with its id and its data where they lie. */
    elements() {
        return this.#hasElements() ? [...elementsOf(this.body, this.form)] : [];
    }

    /** The data of the last element of this id, which is the one that counts; undefined where there is none. */
    element(id) {
        const body = this.body, at = put(body);
        const status = library.last_element(at, body.length, this.form, within('id', id, 0, 255), output());
        return status === STATUS.OK ? body.subarray(size(output(ELEMENT.dataAt)), size(output(ELEMENT.end))) : undefined;
    }

    /** Gives the last element of this id these data, which may lie in the packet. */
    setElement(id, data) {
        const bytes = bytesOf(data);
        this.#change('set_element', within('id', id, 0, 255), putData(bytes), bytes.length);
    }

    /** Makes each element of this id padding. */
    removeElement(id) {
        this.#change('remove_element', within('id', id, 0, 255));
    }

    /** Gives each element its new id, and makes one that gets none padding. */
    renumber(ids) {
        this.#change('renumber', NewIds.place(ids));
    }
}
