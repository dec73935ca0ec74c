// SPDX-License-Identifier: MIT OR Apache-2.0
// Copyright (c) 2026 The rtp-wire developers (NOTICE)

// Many datagrams at once, each field and value of them in a column.
import { badField, rowsOf } from './errors.mjs';
import { placeOfMap, readLayers } from './header.mjs';
import { HEADER, KIND, STATUS, TIME, VALUES, WHOLE_DATAGRAM, WHOLE_PACKET } from './layout.mjs';
import { ExtensionMap } from './map.mjs';
import { allocate, bytesOf, inputOf, library, put, u16, u32, u8 } from './memory.mjs';
import { TextColumn } from './text_column.mjs';

const AT_ONCE = 512;
const SLOT = WHOLE_DATAGRAM.size, PACKET_AT = WHOLE_DATAGRAM.packet, HEADER_AT = PACKET_AT + WHOLE_PACKET.header;
const VALUES_AT = HEADER_AT + HEADER.values;
// Bytes between datagrams are copied with them where these are not many.
const MOST_BETWEEN = 1 << 20;

// The columns of values: their kind, the array, where they stand in the struct, and what says there that one is there.
const column = (kind, array, place, has) => ({kind, array, place: VALUES_AT + place, has: VALUES_AT + has});
const timing = (array, place) => column(KIND.VIDEO_TIMING, array, place, VALUES.hasVideoTiming);
const time = (offset, place) => column(KIND.ABS_CAPTURE_TIME, offset < 0 ? Int32Array : Uint32Array, place,
    Math.abs(offset));
const NUMBERS = {
    audioLevel: column(KIND.AUDIO_LEVEL, Int8Array, VALUES.audioLevel, VALUES.hasAudioLevel),
    voiceActivity: column(KIND.AUDIO_LEVEL, Uint8Array, VALUES.voiceActivity, VALUES.hasVoiceActivity),
    sendTime: column(KIND.ABS_SEND_TIME, Uint32Array, VALUES.sendTime, VALUES.hasSendTime),
    transportNumber: column(KIND.TRANSPORT_NUMBER, Uint16Array, VALUES.transportNumber, VALUES.hasTransportNumber),
    videoOrientation: column(KIND.VIDEO_ORIENTATION, Uint16Array, VALUES.videoOrientation, VALUES.hasVideoOrientation),
    captureSeconds: time(VALUES.hasCaptureTime, VALUES.captureTime + 4),
    captureFraction: time(VALUES.hasCaptureTime, VALUES.captureTime),
    captureOffsetSeconds: time(-VALUES.hasCaptureOffset, VALUES.captureOffset + 4),
    captureOffsetFraction: time(VALUES.hasCaptureOffset, VALUES.captureOffset),
    transmissionOffset: column(KIND.TRANSMISSION_OFFSET, Uint32Array, VALUES.transmissionOffset,
        VALUES.hasTransmissionOffset),
    playoutDelayMin: column(KIND.PLAYOUT_DELAY, Uint32Array, VALUES.playoutDelayMin + TIME.ticks,
        VALUES.hasPlayoutDelayMin),
    playoutDelayMax: column(KIND.PLAYOUT_DELAY, Uint32Array, VALUES.playoutDelayMax + TIME.ticks,
        VALUES.hasPlayoutDelayMax),
    videoContentType: column(KIND.VIDEO_CONTENT_TYPE, Uint8Array, VALUES.videoContentType, VALUES.hasVideoContentType),
    frameMarking: column(KIND.FRAME_MARKING, Uint32Array, VALUES.frameMarking, VALUES.hasFrameMarking),
    encodeStart: timing(Uint16Array, VALUES.encodeStart),
    encodeFinish: timing(Uint16Array, VALUES.encodeFinish),
    packetizeComplete: timing(Uint16Array, VALUES.packetizeComplete),
    lastLeftPacer: timing(Uint16Array, VALUES.lastLeftPacer),
    timingFlags: timing(Uint8Array, VALUES.timingFlags),
    layers: column(KIND.LAYERS, Uint8Array, VALUES.hasLayers, VALUES.hasLayers),
};
const TEXTS = {
    mid: column(KIND.MID, TextColumn, VALUES.mid, VALUES.hasMid),
    rid: column(KIND.RID, TextColumn, VALUES.rid, VALUES.hasRid),
    repairedRid: column(KIND.REPAIRED_RID, TextColumn, VALUES.repairedRid, VALUES.hasRepairedRid),
};

// Where many datagrams are read: their structs, and a map of the kinds alone that are asked for.
let slots, askedMap;
const words = new Uint32Array(AT_ONCE);

/** What is known of the column of this name. */
function askedColumn(name) {
    const table = Object.hasOwn(NUMBERS, name) ? NUMBERS : TEXTS;
    if (!Object.hasOwn(table, name)) {
        throw badField(`there is no column of ${String(name)}`);
    }
    return table[name];
}

/** The places or lengths of datagrams, all of them numbers. */
function numbersOf(name, rows) {
    if (rowsOf(name, rows) instanceof BigInt64Array || rows instanceof BigUint64Array) {
        throw new TypeError(`${name} are BigInts, and no numbers`);
    }
    for (let i = 0; Array.isArray(rows) && i < rows.length; i++) {
        if (typeof rows[i] !== 'number') {
            throw new TypeError(`${name} have ${typeof rows[i]} in row ${i}, and no number`);
        }
    }
    return rows;
}

const isWithinBuffer = (from, len, whole) =>
    from >= 0 && len >= 0 && from + len <= whole && from % 1 === 0 && len % 1 === 0;

/** A map of those ids that mean one of these kinds; nothing where no value is asked for. */
function mapOf(map, kinds) {
    if (map === undefined || kinds.size === 0) {
        return undefined;
    }
    const from = ExtensionMap.place(map);
    for (let id = 0; id < 256; id++) {
        u8[askedMap + id] = kinds.has(u8[from + id]) ? u8[from + id] : 0;
    }
    return askedMap;
}

/** Copies the numbers of one column out of the structs. They are taken as parts of whole words, since the arrays of all
 * columns would be of many types at one place; the array then keeps as many bits as it has. */
function copyNumbers({ place, has }, row, count, to, there) {
    const shift = 8 * (place % 4), step = SLOT >> 2, [bytes, whole] = [u8, u32];
    let from = slots + place >> 2, flag = slots + has;
    for (let i = 0; i < count; i++, from += step, flag += SLOT) {
        const isThere = bytes[flag];
        words[i] = isThere === 0 ? 0 : whole[from] >>> shift;
        there[row + i] = isThere;
    }
    to.set(count === AT_ONCE ? words : words.subarray(0, count), row);
}

/** What many datagrams of one buffer are: a column for each field, and for each kind of value that is asked for, with a
 * row for each datagram. One that is no packet of RTP spoils no other: `isRtp` tells which are. */
export class Columns {
    #bytes;
    #at;
    #lengths;
    #map;

    /** Use `Columns.parse`. */
    constructor(bytes, at, lengths, map) {
        this.#bytes = bytes;
        this.#at = at;
        this.#lengths = lengths;
        this.#map = map;
        const count = at.length;
        /** How many datagrams there are. */
        this.length = count;
        /** A number of `Status` of each: 0 of a packet, RTCP, or the first cause for which it is none; BAD_FIELD where it
         * isn't within the buffer. */
        this.status = new Uint8Array(count);
        /** 1 where the datagram is RTCP: nothing else is told of it. */
        this.isRtcp = new Uint8Array(count);
        /** 1 where the datagram is a packet of RTP. */
        this.isRtp = new Uint8Array(count);
        this.sequenceNumber = new Uint16Array(count);
        this.timestamp = new Uint32Array(count);
        this.ssrc = new Uint32Array(count);
        this.payloadType = new Uint8Array(count);
        this.marker = new Uint8Array(count);
        /** The payload begins so many bytes behind the datagram's first one. */
        this.headerLen = new Uint32Array(count);
        /** How many bytes the payload has with any padding, */
        this.payloadLen = new Uint32Array(count);
        /** and without; 0 where `paddingFits` is. */
        this.unpaddedLen = new Uint32Array(count);
        /** 0 where the padding is longer than the payload, or there is no packet. */
        this.paddingFits = new Uint8Array(count);
        /** The columns of the values that were asked for, by their names; 0 where one isn't there. */
        this.values = {};
        /** For each such column 1 where the value is there. */
        this.has = {};
    }

    /**
     * Reads the datagrams that begin at these places of the buffer and have so many bytes: arrays, or typed arrays, of
     * as many rows. They may overlap. The values are names as those of a packet's; in place of `videoTiming` its parts,
     * of `captureTime` `captureSeconds` and `captureFraction`, and `layers` is 1 where `layersOf` tells an allocation.
     */
    static parse(buffer, at, lengths, map, values = []) {
        if (numbersOf('places', at).length !== numbersOf('lengths', lengths).length) {
            throw badField(`there are ${at.length} places and ${lengths.length} lengths`);
        }
        slots ??= allocate(AT_ONCE * SLOT);
        askedMap ??= allocate(256);
        const columns = new Columns(bytesOf(buffer), at, lengths, map), kinds = new Set();
        for (const name of values) {
            const it = askedColumn(name);
            kinds.add(it.kind);
            columns.values[name] = new it.array(at.length);
            columns.has[name] = new Uint8Array(at.length);
        }
        const asked = mapOf(map, kinds);
        for (let row = 0; row < at.length; row += AT_ONCE) {
            columns.#read(row, Math.min(AT_ONCE, at.length - row), asked);
        }
        return columns;
    }

    /** Copies so many datagrams to the module's memory, and names them there. */
    #place(row, count) {
        const bytes = this.#bytes, at = this.#at, lengths = this.#lengths, whole = bytes.length;
        let first = Infinity, last = 0, sum = 0;
        for (let i = row; i < row + count; i++) {
            const from = at[i], len = lengths[i];
            if (!isWithinBuffer(from, len, whole)) {
                continue;
            }
            first = from < first ? from : first;
            last = from + len > last ? from + len : last;
            sum += len;
        }
        const together = last - first <= sum + MOST_BETWEEN;
        const room = Math.max(0, together ? last - first : sum), buffer = inputOf(room);
        if (together && room > 0) {
            u8.set(bytes.subarray(first, last), buffer);
        }
        const of32 = u32;
        let to = 0;
        for (let i = row, slot = slots >> 2; i < row + count; i++, slot += SLOT >> 2) {
            const from = at[i], len = lengths[i];
            const isWithin = isWithinBuffer(from, len, whole);
            if (isWithin && !together) {
                u8.set(bytes.subarray(from, from + len), buffer + to);
            }
            // One that isn't within the buffer begins behind its end, and so gets that status.
            of32[slot] = !isWithin ? room + 1 : together ? from - first : to;
            of32[slot + 2] = isWithin ? len : 0;
            to += isWithin ? len : 0;
        }
        return [buffer, room];
    }

    /** Reads so many datagrams, from one on. */
    #read(row, count, map) {
        const [buffer, room] = this.#place(row, count);
        library.read_many(buffer, room, map ?? placeOfMap(), slots, count);
        this.#fields(row, count);
        for (const [name, it] of map === undefined ? [] : Object.entries(this.values)) {
            if (it instanceof TextColumn) {
                it.copy(slots + TEXTS[name].place, slots + TEXTS[name].has, SLOT, row, count, this.has[name]);
            } else {
                copyNumbers(NUMBERS[name], row, count, it, this.has[name]);
            }
        }
    }

    /** The fields of so many datagrams. */
    #fields(row, count) {
        const { status, isRtcp, isRtp, sequenceNumber, timestamp, ssrc, payloadType, marker } = this;
        const { headerLen, payloadLen, unpaddedLen, paddingFits } = this;
        const [of8, of16, of32] = [u8, u16, u32];
        for (let i = row, slot = slots; i < row + count; i++, slot += SLOT) {
            const told = of32[slot + WHOLE_DATAGRAM.status >> 2], header = slot + HEADER_AT, packet = slot + PACKET_AT;
            if (told !== STATUS.OK) {
                status[i] = told;
                isRtcp[i] = told === STATUS.RTCP ? 1 : 0;
                of8.fill(0, slot + VALUES_AT, slot + VALUES_AT + VALUES.size); // which are those of another one
                continue;
            }
            isRtp[i] = 1;
            sequenceNumber[i] = of16[header + HEADER.sequenceNumber >> 1];
            timestamp[i] = of32[header + HEADER.timestamp >> 2];
            ssrc[i] = of32[header + HEADER.ssrc >> 2];
            payloadType[i] = of8[header + HEADER.payloadType];
            marker[i] = of8[header + HEADER.marker];
            const begins = of32[header + HEADER.headerLen >> 2];
            headerLen[i] = begins;
            payloadLen[i] = of32[slot + WHOLE_DATAGRAM.len >> 2] - begins;
            unpaddedLen[i] = of32[packet + WHOLE_PACKET.unpaddedLen >> 2];
            paddingFits[i] = of8[packet + WHOLE_PACKET.paddingFits];
        }
    }

    /** The bytes of a datagram where they lie; undefined where it isn't within the buffer. */
    datagram(row) {
        const from = this.#at[row];
        return this.status[row] === STATUS.BAD_FIELD ? undefined : this.#bytes.subarray(from, from + this.#lengths[row]);
    }

    /** The payload of a packet where it lies, with any padding; undefined where the datagram is none. */
    payload(row) {
        return this.status[row] === STATUS.OK ? this.datagram(row).subarray(this.headerLen[row]) : undefined;
    }

    /** The payload without its padding; undefined also where that is longer than the payload. */
    unpaddedPayload(row) {
        return this.paddingFits[row] ? this.payload(row).subarray(0, this.unpaddedLen[row]) : undefined;
    }

    /** A value that was asked for; undefined where it isn't there. */
    value(name, row) {
        if (!Object.hasOwn(this.has, name)) {
            throw badField(`the column ${String(name)} wasn't asked for`);
        }
        return this.has[name][row] ? this.values[name].at(row) : undefined;
    }

    /** The layer allocation of a packet, where the column `layers` was asked for and is 1; else undefined. */
    layersOf(row) {
        if (!this.has.layers?.[row]) {
            return undefined;
        }
        const bytes = this.datagram(row);
        return readLayers(put(bytes), bytes.length, this.#map);
    }
}
