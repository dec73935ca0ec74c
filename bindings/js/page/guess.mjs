// SPDX-License-Identifier: MIT OR Apache-2.0
// Copyright (c) 2026 The rtp-wire developers (NOTICE)

// What the ids of header extensions mean, guessed from the data of the elements.

/** So many packets of a capture are looked at. */
export const LOOKED_AT = 4096;
// A send time has a fraction of 18 bits, modulo 64 seconds.
const SEND_TIME_HZ = 2 ** 18, SEND_TIMES = 2 ** 24, SECOND = 1e9;
// Transport-wide numbers of packets that are lost or come late are as far apart.
const NEAR = 64;
const ascii = new TextDecoder('latin1');

/** The elements of an id. */
class Seen {
    count = 0;
    lengths = new Set();
    texts = new Map(); // by source: '' of what is no text
    changes = 0; // from an element of the source to its next one
    steps = 0; // from one to the next of the flow
    ones = 0; // where the number rises by one
    near = 0; // where it is near to the one before
    paced = 0; // where it runs with the time
    loud = false; // whether one is another level than silence
    #lastOfSource = new Map();
    #lastOfFlow = new Map();

    take(flow, source, time, data) {
        this.count++;
        this.lengths.add(data.length);
        this.loud ||= data[0] !== 0x7F && data[0] !== 0xFF;
        const text = ascii.decode(data);
        if (!this.texts.has(source)) this.texts.set(source, new Set());
        this.texts.get(source).add(/^[0-9A-Za-z_-]{1,16}$/.test(text) ? text : '');
        if ((this.#lastOfSource.get(source) ?? text) !== text) this.changes++;
        this.#lastOfSource.set(source, text);
        this.#step(flow, time, data.subarray(0, 3).reduce((number, byte) => 256 * number + byte, 0));
    }
    #step(flow, time, number) {
        const before = this.#lastOfFlow.get(flow);
        this.#lastOfFlow.set(flow, {time, number});
        if (!before) return;
        this.steps++;
        const up = number - before.number & 0xFFFF;
        if (up === 1 || up === 2) this.ones++;
        if ((up + NEAR & 0xFFFF) <= 2 * NEAR) this.near++;
        const passed = Math.floor((time - before.time) * SEND_TIME_HZ / SECOND);
        const off = Math.abs((number - before.number - passed) % SEND_TIMES);
        if (Math.min(off, SEND_TIMES - off) < Math.floor(SEND_TIME_HZ / 10)) this.paced++;
    }
    hasLength(length) { return this.lengths.size === 1 && this.lengths.has(length); }

    /** What the elements are by their form alone, where they are not texts. */
    kind(Kind) {
        if (this.hasLength(3) && this.changes && 10 * this.paced >= 9 * this.steps) return Kind.ABS_SEND_TIME;
        if (this.hasLength(2) && 2 * this.ones > this.steps) return Kind.TRANSPORT_NUMBER;
        if (this.hasLength(1) && this.changes && !this.isText) return Kind.AUDIO_LEVEL;
        return undefined;
    }
    /** Whether each source has one text, and always the same. */
    get isText() { return [...this.texts.values()].every(it => it.size === 1 && !it.has('')); }
}

/** What the packets of a capture say of the meaning of their ids. */
export class Guess {
    looked = 0;
    #seen = new Map();

    /** Looks at the elements of a packet: their ids and data. */
    look(flow, ssrc, time, elements) {
        this.looked++;
        for (const { id, data } of elements) {
            if (!this.#seen.has(id)) this.#seen.set(id, new Seen());
            this.#seen.get(id).take(flow, flow * 2 ** 32 + ssrc, time, data);
        }
    }

    /** The ids that occur. */
    get ids() { return [...this.#seen.keys()].sort((a, b) => a - b); }

    /**
     * By its id each kind, and how it was found. What the data don't tell is what the id usually means, where they don't
     * gainsay that. `usual` has the usual kinds by their ids.
     */
    kinds(Kind, usual) {
        const made = new Map(), seen = [...this.#seen].sort((a, b) => a[0] - b[0]);
        const isTold = kind => [...made.values()].some(it => it.kind === kind);
        for (const [id, it] of seen) {
            const kind = it.kind(Kind);
            if (kind !== undefined && !isTold(kind)) made.set(id, {kind, origin: 'guess'});
        }
        const texts = seen.filter(([id, it]) => !made.has(id) && it.isText);
        // That of most sources is the mid, and of the others the first is the rid.
        texts.sort((a, b) => b[1].texts.size - a[1].texts.size || a[0] - b[0]);
        [Kind.MID, Kind.RID, Kind.REPAIRED_RID].slice(0, texts.length)
            .forEach((kind, i) => made.set(texts[i][0], {kind, origin: 'guess'}));
        for (const [id, kind] of usual) {
            const there = this.#seen.get(id);
            if (!made.has(id) && !isTold(kind) && (!there || mayBe(Kind, kind, there))) made.set(id, {kind, origin: 'usual'});
        }
        return made;
    }
}

/**
 * Whether the elements of an id may be of the kind that it usually means, though their data aren't as those of its: one
 * that comes again has to run, to rise or to change, but for the level of silence.
 */
function mayBe(Kind, kind, seen) {
    if ([Kind.MID, Kind.RID, Kind.REPAIRED_RID].includes(kind)) return seen.isText;
    if (kind === Kind.ABS_SEND_TIME) return seen.hasLength(3) && seen.steps === 0;
    if (kind === Kind.TRANSPORT_NUMBER) {
        return seen.hasLength(2) && (seen.steps === 0 || seen.changes > 0 && 10 * seen.near >= 9 * seen.steps);
    }
    const comesAgain = seen.count > seen.texts.size;
    return seen.hasLength(1) && !(kind === Kind.AUDIO_LEVEL && comesAgain && seen.loud);
}
