// SPDX-License-Identifier: MIT OR Apache-2.0
// Copyright (c) 2026 The rtp-wire developers (NOTICE)

// The frames of a file of pcap or pcapng.
import { isKnown, payloadOf } from './links.mjs';

export const PCAPNG = 0x0A0D0D0A;
const INTERFACE = 1, OLD_PACKET = 2, SIMPLE_PACKET = 3, PACKET = 6, SECOND = 1e9;
const RESOLUTION = 9, OFFSET = 14;
// A record of pcap has no more bytes, whatever it says.
const LONGEST = 1 << 18;
// So many causes are told, for which frames were left out.
const MOST_CAUSES = 6;

/** What the two forms of captures have in common: frames, and what is counted of those that aren't read. */
class FrameReader {
    hasEnded = false;
    rests = 0;
    first = 0;
    short = 0;
    unknown = new Map();
    /** By its cause how many frames were left out. */
    #left = new Map();
    /** How many datagrams have no time of their own, and an earlier one than that before them. */
    #untimed = 0;
    #earlier = 0;
    #before = NaN;
    #hasTimes = false;

    constructor(capture) { this.capture = capture; }

    /**
     * Takes a frame, whose time from the first datagram is told by `time`, where it is asked for: NaN where neither it nor
     * one before it has one.
     */
    frame(datagrams, view, at, length, link, time, hasTime = true) {
        if (!isKnown(link)) {
            this.unknown.set(link, (this.unknown.get(link) ?? 0) + 1);
            return;
        }
        const found = payloadOf(view, at, at + length, link);
        if (found.cause) this.leave(found);
        else if (found.isRest) this.rests++;
        else this.#add(datagrams, found, time(), hasTime);
    }
    #add(datagrams, found, time, hasTime) {
        if (!hasTime) this.#untimed++;
        if (time < this.#before) this.#earlier++;
        if (!Number.isNaN(time)) this.#hasTimes = true;
        this.#before = time;
        this.first += found.isFragment;
        this.short += found.length < found.size && !found.isFragment;
        const flow = this.capture.flows.indexOf(datagrams.bytes, found.addressesAt, found.addressesLength, found.portsAt);
        datagrams.add(time, found.at, found.length, found.size, flow);
    }
    /** Counts a frame that is left out. */
    leave({ cause, number = 0 }) {
        const key = `${cause} ${number}`, there = this.#left.get(key) ?? {cause, number, count: 0};
        there.count++;
        this.#left.set(key, there);
    }
    /** Why frames were left out: the causes with their numbers and counts, that of most first. */
    #causes() {
        const listed = [...this.#left.values()].sort((a, b) => b.count - a.count
            || (a.cause < b.cause ? -1 : a.cause > b.cause ? 1 : a.number - b.number));
        if (listed.length <= MOST_CAUSES) return listed;
        const rest = listed.splice(MOST_CAUSES - 1);
        return [...listed, {cause: 'others', number: 0, count: rest.reduce((sum, it) => sum + it.count, 0)}];
    }
    /**
     * Whether the slice has all bytes of what begins there; where the file itself hasn't them, or the number of them
     * can't be right, reading ends.
     */
    isWhole(datagrams, at, want, isRight = true) {
        const here = datagrams.fileAt + at, got = datagrams.fileSize - here;
        if (!isRight || want > got) {
            this.hasEnded = true;
            this.capture.say(isRight ? 'cut' : 'bad_block', isRight ? {at: here, got, want} : {at: here, want});
            return false;
        }
        return at + want <= datagrams.bytes.length;
    }
    finish() {
        for (const [link, count] of [...this.unknown].sort((a, b) => a[0] - b[0])) this.capture.say('links', {count, link});
        if (this.rests || this.first) this.capture.say('fragments', {count: this.rests, first: this.first});
        if (this.short) this.capture.say('short', {count: this.short});
        const causes = this.#causes();
        if (causes.length) this.capture.say('left_out', {count: causes.reduce((sum, it) => sum + it.count, 0), causes});
        if (!this.#hasTimes) this.capture.isTimed = this.capture.count === 0;
        else if (this.#earlier) this.capture.say('unordered', {count: this.#earlier});
        if (this.#hasTimes && this.#untimed) this.capture.say('untimed_some', {count: this.#untimed});
    }
}

export class PcapReader extends FrameReader {
    #link;
    #start;

    constructor(capture, form) {
        super(capture);
        this.form = form;
    }
    /** Reads the whole records of the slice, and returns how many bytes they have. */
    read(datagrams) {
        const { bytes } = datagrams, view = new DataView(bytes.buffer), { isLittle, unit } = this.form;
        let at = 0;
        if (datagrams.fileAt === 0) {
            if (!this.isWhole(datagrams, 0, 24)) return 0;
            this.#link = view.getUint32(20, isLittle) & 0xFFFF;
            at = 24;
        }
        let seconds = 0, part = 0;
        const time = () => {
            this.#start ??= {seconds, part};
            return (seconds - this.#start.seconds) * SECOND + (part - this.#start.part) * unit;
        };
        while (at < bytes.length) {
            if (!this.isWhole(datagrams, at, 16)) break;
            const length = view.getUint32(at + 8, isLittle);
            if (!this.isWhole(datagrams, at, 16 + length, length <= LONGEST)) break;
            seconds = view.getUint32(at, isLittle);
            part = view.getUint32(at + 4, isLittle);
            this.frame(datagrams, view, at + 16, length, this.#link, time);
            at += 16 + length;
        }
        return at;
    }
}

export class PcapngReader extends FrameReader {
    #isLittle = true;
    #interfaces = [];
    #time;
    #start;

    read(datagrams) {
        const { bytes } = datagrams, view = new DataView(bytes.buffer);
        const time = () => {
            if (this.#time === undefined) return NaN;
            this.#start ??= this.#time;
            return Number(this.#time - this.#start);
        };
        let at = 0;
        while (at < bytes.length) {
            if (!this.isWhole(datagrams, at, 12)) break;
            if (view.getUint32(at) === PCAPNG) {
                this.#isLittle = view.getUint32(at + 8, true) === 0x1A2B3C4D;
                this.#interfaces = [];
            }
            const kind = view.getUint32(at, this.#isLittle), size = view.getUint32(at + 4, this.#isLittle);
            if (!this.isWhole(datagrams, at, size, size >= 12 && size % 4 === 0)) break;
            this.#block(datagrams, view, kind, at, size, time);
            at += size;
        }
        return at;
    }
    #block(datagrams, view, kind, at, size, time) {
        const little = this.#isLittle;
        if (kind === INTERFACE && size >= 20) this.#interfaces.push(interfaceOf(view, at, size, little));
        else if (kind === SIMPLE_PACKET) { // it has the time of the one before it
            if (size < 16 || !this.#interfaces.length) return this.leave({cause: size < 16 ? 'block' : 'interface'});
            const length = Math.min(view.getUint32(at + 8, little), size - 16);
            this.frame(datagrams, view, at + 12, length, this.#interfaces[0].link, time, false);
        } else if (kind === PACKET || kind === OLD_PACKET) {
            if (size < 32) return this.leave({cause: 'block'});
            const index = kind === PACKET ? view.getUint32(at + 8, little) : view.getUint16(at + 8, little);
            const length = view.getUint32(at + 20, little), of = this.#interfaces[index];
            if (!of || length > size - 32) return this.leave({cause: of ? 'block' : 'interface'});
            const ticks = BigInt(view.getUint32(at + 12, little)) << 32n | BigInt(view.getUint32(at + 16, little));
            this.#time = ticks * 1000000000n / of.perSecond + of.offset;
            this.frame(datagrams, view, at + 28, length, of.link, time);
        }
        return undefined;
    }
}

function interfaceOf(view, at, size, little) {
    const made = {link: view.getUint16(at + 8, little), perSecond: 1000000n, offset: 0n};
    const end = at + size - 4;
    for (let here = at + 16; here + 4 <= end;) {
        const code = view.getUint16(here, little), length = view.getUint16(here + 2, little);
        if (code === 0 || here + 4 + length > end) break;
        if (code === RESOLUTION && length === 1) {
            const unit = view.getUint8(here + 4);
            made.perSecond = unit & 128 ? 2n ** BigInt(unit & 127) : 10n ** BigInt(unit);
        } else if (code === OFFSET && length === 8) made.offset = view.getBigInt64(here + 4, little) * 1000000000n;
        here += 4 + length + (-length & 3);
    }
    return made;
}
