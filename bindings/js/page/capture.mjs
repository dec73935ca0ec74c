// SPDX-License-Identifier: MIT OR Apache-2.0
// Copyright (c) 2026 The rtp-wire developers (NOTICE)

// The datagrams of a capture: a file of pcap or pcapng, or of lines of hexadecimal digits. It is read in slices, and a
// datagram lies where it was read.
import { PCAPNG, PcapReader, PcapngReader } from './frames.mjs';
import { LineReader, isLines } from './lines.mjs';

export const SLICE = 4 << 20;

/** The datagrams of a slice, by columns. */
export class Datagrams {
    count = 0;
    /** The bytes of the slice, and where in the file they begin. */
    bytes = new Uint8Array(0);
    fileAt = 0;
    fileSize = 0;

    constructor(room = 1024) {
        this.at = new Uint32Array(room);
        this.lengths = new Uint32Array(room);
        this.sizes = new Uint32Array(room);
        this.flows = new Uint32Array(room);
        this.times = new Float64Array(room);
        /** Where each lies in the file, and how many bytes it has there. */
        this.places = new Float64Array(room);
        this.placeLengths = new Uint32Array(room);
    }
    static COLUMNS = ['at', 'lengths', 'sizes', 'flows', 'times', 'places', 'placeLengths'];

    clear(bytes, fileAt, fileSize) {
        this.count = 0;
        this.bytes = bytes;
        this.fileAt = fileAt;
        this.fileSize = fileSize;
    }
    /** Whether the slice is the last one of the file. */
    get isLast() { return this.fileAt + this.bytes.length >= this.fileSize; }

    add(time, at, length, size, flow, place = this.fileAt + at, placeLength = length) {
        const row = this.count++;
        if (row === this.at.length) this.grow();
        this.at[row] = at;
        this.lengths[row] = length;
        this.sizes[row] = size;
        this.flows[row] = flow;
        this.times[row] = time;
        this.places[row] = place;
        this.placeLengths[row] = placeLength;
    }
    grow() {
        for (const name of Datagrams.COLUMNS) {
            const larger = new this[name].constructor(2 * this[name].length);
            larger.set(this[name]);
            this[name] = larger;
        }
    }
}

/** The flows of a capture: the addresses and ports of each, the sender's first, by an index. */
class Flows {
    list = [];
    #indices = new Map();
    #last = -1;

    indexOf(bytes, addressesAt, addressesLength, portsAt) {
        if (this.#last >= 0 && this.#is(this.list[this.#last], bytes, addressesAt, addressesLength, portsAt)) return this.#last;
        const flow = new Uint8Array(addressesLength && addressesLength + 4);
        if (addressesLength) {
            flow.set(bytes.subarray(addressesAt, addressesAt + addressesLength));
            flow.set(bytes.subarray(portsAt, portsAt + 4), addressesLength);
        }
        const key = String.fromCharCode(...flow);
        let index = this.#indices.get(key);
        if (index === undefined) {
            this.#indices.set(key, index = this.list.length);
            this.list.push(flow);
        }
        return this.#last = index;
    }
    #is(flow, bytes, addressesAt, addressesLength, portsAt) {
        if (flow.length !== (addressesLength && addressesLength + 4)) return false;
        for (let i = 0; i < addressesLength; i++) if (flow[i] !== bytes[addressesAt + i]) return false;
        for (let i = 0; i < 4; i++) if (flow[addressesLength + i] !== bytes[portsAt + i]) return false;
        return true;
    }
}

/** A capture while it is read, and what is to be said of it. */
export class Capture {
    flows = new Flows();
    isTimed = true;
    /** Whether the file has lines, and no bytes of datagrams. */
    isText = false;
    /** By its id the URI of each map line. */
    mapLines = new Map();
    /** What is told beside the tables: names of sentences of tables.json, with their words. */
    sentences = [];
    count = 0;

    say(name, words = {}) { this.sentences.push({name, words}); }

    /**
     * Reads a file, and has `take` take the datagrams of each slice, one slice after the other, which are gone
     * thereafter. `take` returns false to end. `progress` is told how many bytes are read.
     */
    static async read(file, take, progress = () => {}) {
        const capture = new Capture();
        const head = new Uint8Array(await file.slice(0, 4096).arrayBuffer());
        const reader = readerOf(capture, head);
        if (!reader) return capture;
        const datagrams = new Datagrams();
        let at = 0, slice = SLICE;
        while (at < file.size) {
            const bytes = new Uint8Array(await file.slice(at, at + slice).arrayBuffer());
            datagrams.clear(bytes, at, file.size);
            const { isLast } = datagrams;
            const used = reader.read(datagrams);
            capture.count += datagrams.count;
            if (await take(datagrams, capture) === false) return capture;
            if (reader.hasEnded || isLast) break;
            // What begins in the slice and goes on behind it is read with the next one, which is larger where it has to be.
            slice = used === 0 ? 2 * slice : SLICE;
            at += used;
            progress(at);
        }
        progress(file.size);
        reader.finish();
        if (capture.count === 0 && capture.sentences.length === 0) capture.say('no_datagram');
        return capture;
    }
}

function readerOf(capture, head) {
    const view = new DataView(head.buffer), magic = head.length >= 4 ? view.getUint32(0) : 0;
    if (head.length === 0) capture.say('empty');
    else if (pcapFormOf(magic)) return new PcapReader(capture, pcapFormOf(magic));
    else if (magic === PCAPNG) return new PcapngReader(capture);
    else if (magic >>> 16 === 0x1F8B || magic === 0x28B52FFD) capture.say('compressed');
    else if (isLines(head)) return new LineReader(capture);
    else capture.say('no_capture', {bytes: hexOf(head.subarray(0, 4))});
    return undefined;
}

export const hexOf = bytes => Array.from(bytes, it => it.toString(16).padStart(2, '0')).join(' ');

// The byte order, and the nanoseconds of a fraction, by the first four bytes of a file of pcap.
function pcapFormOf(magic) {
    switch (magic) {
        case 0xA1B2C3D4: return {isLittle: false, unit: 1000};
        case 0xD4C3B2A1: return {isLittle: true, unit: 1000};
        case 0xA1B23C4D: return {isLittle: false, unit: 1};
        case 0x4D3CB2A1: return {isLittle: true, unit: 1};
        default: return undefined;
    }
}
