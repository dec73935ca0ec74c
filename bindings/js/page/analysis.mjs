// SPDX-License-Identifier: MIT OR Apache-2.0
// Copyright (c) 2026 The rtp-wire developers (NOTICE)

// What a capture says: its datagrams by kind, its sources, and its packets. Each header is read by the module.
import { Capture } from './capture.mjs';
import { Guess, LOOKED_AT } from './guess.mjs';
import { NO_LEVEL, NO_TRANSPORT, NO_VOICE, Packets } from './packets.mjs';
import { Sdp } from './sdp.mjs';
import { NONE, NO_JITTER, Source, lostBySecond, worstOf } from './source.mjs';

/** So many sources are told; of others packets are only counted. */
export const MOST_SOURCES = 4096;
const TEXTS = ['mid', 'rid', 'repairedRid'];
/** The columns that the fixed part of a header tells, of so many bytes. */
const FIXED = ['isRtp', 'sequenceNumber', 'timestamp', 'ssrc', 'payloadType', 'marker'], FIXED_LENGTH = 12;
const VALUES = ['audioLevel', 'voiceActivity', 'transportNumber', 'layers', ...TEXTS];
// Kinds of datagrams by the first byte (RFC 7983, 7): each with the first one and the last one of its range.
const FIRST_BYTES = {stun: [0, 3], zrtp: [16, 19], dtls: [20, 63], turn: [64, 79]};
const SECOND = 1e9;

/** Of each first byte the kind of datagram that it begins; undefined of RTP and RTCP. */
const KIND_OF = Array.from({length: 256}, (_, first) => {
    if (first >= 128 && first <= 191) return undefined;
    return Object.keys(FIRST_BYTES).find(it => FIRST_BYTES[it][0] <= first && first <= FIRST_BYTES[it][1]) ?? 'other';
});

export class Analysis {
    packets = new Packets();
    sources = [];
    counts = Object.fromEntries(['rtp', 'rtcp', 'unreadable', ...Object.keys(FIRST_BYTES), 'other'].map(it => [it, [0, 0]]));
    /** The earliest and the latest time, in nanoseconds from the first datagram, and once all is read from the earliest. */
    firstTime = Infinity;
    lastTime = 0;
    /** Of each id that occurs what tells its meaning: a name of `origins` in tables.json. */
    origins = new Map();
    #indices = new Map();
    #leftOut = 0;
    #cut = 0;
    #datagrams = 0;

    /**
     * Reads a file, where there is one with the words of an SDP. `wire` is the module's package, and `described` what
     * tables.json has.
     */
    static async of(wire, described, file, sdpText, progress) {
        const made = new Analysis();
        made.wire = wire;
        made.sdp = new Sdp(sdpText ?? '');
        const told = await made.#findMap(file);
        made.capture = await Capture.read(file, it => made.#take(it), progress);
        if (!told && made.capture.count) made.capture.say(sdpText === undefined ? 'guessed' : 'sdp');
        if (made.#cut) made.capture.say('cut_headers', {count: made.#cut});
        made.#sayLeftOut();
        made.#countTimes();
        made.#dropDoubtful();
        for (const it of made.sources) it.tellClock(made.capture.isTimed ? made.sdp.clocks : new Map(), described);
        if (!made.capture.isTimed) for (const it of made.sources) it.clock = it.clockBy = undefined;
        made.#judge();
        made.#pair();
        return made;
    }

    /** Finds the map, and says whether the SDP or the file tells it. */
    async #findMap(file) {
        const { wire } = this, guess = new Guess();
        let lines;
        await Capture.read(file, (datagrams, capture) => {
            lines = capture.mapLines;
            this.#look(datagrams, guess);
            return guess.looked < LOOKED_AT;
        });
        const uris = this.sdp.uris.size ? this.sdp.uris : lines;
        if (uris?.size) {
            this.map = wire.ExtensionMap.fromUris(uris, new wire.OwnUris());
            const origin = this.sdp.uris.size ? 'sdp' : 'lines';
            for (const id of guess.ids) this.origins.set(id, uris.has(id) ? origin : 'unknown');
            return true;
        }
        this.map = new wire.ExtensionMap();
        const kinds = guess.kinds(wire.Kind, wire.ExtensionMap.standard());
        for (const [id, { kind }] of kinds) this.map.set(id, kind);
        for (const id of guess.ids) this.origins.set(id, kinds.get(id)?.origin ?? 'unknown');
        return false;
    }
    #look(datagrams, guess) {
        const { wire } = this;
        for (let i = 0; i < datagrams.count && guess.looked < LOOKED_AT; i++) {
            const at = datagrams.at[i], datagram = datagrams.bytes.subarray(at, at + datagrams.lengths[i]);
            if (!datagram.length || KIND_OF[datagram[0]] || wire.isRtcp(datagram)) continue;
            const packet = parsed(wire, datagram);
            const time = Number.isNaN(datagrams.times[i]) ? i * SECOND : datagrams.times[i];
            if (packet) guess.look(datagrams.flows[i], packet.ssrc, time, [...packet.elements()]);
        }
    }

    /** Takes the datagrams of a slice. */
    #take(datagrams) {
        const { count, bytes } = datagrams;
        const columns = this.wire.Columns.parse(bytes, datagrams.at.subarray(0, count), datagrams.lengths.subarray(0, count),
            this.map, VALUES);
        this.#takeCut(datagrams, columns);
        for (let i = 0; i < count; i++) {
            const first = datagrams.lengths[i] ? bytes[datagrams.at[i]] : 255, kind = KIND_OF[first];
            const counted = this.counts[kind ?? (columns.isRtcp[i] ? 'rtcp' : columns.isRtp[i] ? 'rtp' : 'unreadable')];
            counted[0]++;
            counted[1] += datagrams.sizes[i];
            if (datagrams.times[i] < this.firstTime) this.firstTime = datagrams.times[i];
            if (datagrams.times[i] > this.lastTime) this.lastTime = datagrams.times[i];
            if (columns.isRtp[i]) this.#takePacket(datagrams, columns, i);
        }
        this.#datagrams += count;
    }
    /** Takes packets of whose header the capture has the fixed part alone, which says all that counts of losses. */
    #takeCut({ count, bytes, at, lengths, sizes }, columns) {
        const isCut = i => lengths[i] >= FIXED_LENGTH && lengths[i] < sizes[i] && bytes[at[i]] >> 6 === 2
            && !columns.isRtp[i] && !columns.isRtcp[i];
        const cut = Array.from({length: count}, (_, i) => i).filter(isCut);
        if (!cut.length) return;
        const headers = new Uint8Array(FIXED_LENGTH * cut.length), places = cut.map((_, i) => FIXED_LENGTH * i);
        cut.forEach((row, i) => {
            headers.set(bytes.subarray(at[row], at[row] + FIXED_LENGTH), places[i]);
            headers[places[i]] = 0x80; // without X and CSRCs it is a whole header
        });
        const read = this.wire.Columns.parse(headers, places, cut.map(() => FIXED_LENGTH));
        for (const it of FIXED) cut.forEach((row, i) => { columns[it][row] = read[it][i]; });
        this.#cut += cut.length;
    }
    #takePacket(datagrams, columns, i) {
        const { packets } = this, it = packets.add(), { values, has } = columns;
        packets.row[it] = this.#datagrams + i;
        packets.time[it] = datagrams.times[i];
        packets.ssrc[it] = columns.ssrc[i];
        packets.type[it] = columns.payloadType[i];
        packets.number[it] = columns.sequenceNumber[i];
        packets.timestamp[it] = columns.timestamp[i];
        packets.marker[it] = columns.marker[i];
        packets.size[it] = datagrams.sizes[i];
        packets.level[it] = has.audioLevel[i] ? values.audioLevel[i] : NO_LEVEL;
        packets.voice[it] = has.voiceActivity[i] ? values.voiceActivity[i] : NO_VOICE;
        packets.transport[it] = has.transportNumber[i] ? values.transportNumber[i] : NO_TRANSPORT;
        packets.place[it] = datagrams.places[i];
        packets.placeLength[it] = datagrams.placeLengths[i];
        packets.verdict[it] = NONE;
        packets.jitter[it] = NO_JITTER;
        packets.source[it] = this.#see(datagrams, columns, i, it);
    }
    /** Has the times count from the earliest one; where none is told they are places, as those of lines. */
    #countTimes() {
        const { packets, capture, sources } = this, { time, row } = packets, start = this.firstTime;
        for (let i = 0; i < packets.count; i++) {
            if (!capture.isTimed) time[i] = row[i] * SECOND;
            else time[i] = Number.isNaN(time[i]) ? 0 : time[i] - start;
            if (packets.source[i] < 0) continue;
            sources[packets.source[i]].see(time[i], packets.type[i], packets.number[i], packets.timestamp[i], packets.size[i]);
        }
        for (const { allocations } of sources) for (const it of allocations) it.time = time[it.packet];
        this.firstTime = 0;
        this.lastTime = capture.isTimed ? Math.max(0, this.lastTime - start) : Math.max(0, capture.count - 1) * SECOND;
    }
    /**
     * Leaves out what is hardly a source: RFC 3550, A.1, has two packets in a row tell one. Here two numbers of one stream
     * do, since packets may be lost, and the SDP or a mid or rid.
     */
    #dropDoubtful() {
        const { packets, sources } = this, kept = sources.filter(it => this.#isSource(it));
        const count = sources.length - kept.length, places = new Map(kept.map((it, place) => [it, place]));
        if (!count) return;
        const sum = of => of.reduce((all, it) => all + it.packets, 0);
        this.capture.say('doubtful', {count, packets: sum(sources) - sum(kept)});
        for (let i = 0; i < packets.count; i++) {
            if (packets.source[i] >= 0) packets.source[i] = places.get(sources[packets.source[i]]) ?? -1;
        }
        this.sources = kept;
    }
    #isSource({ isProbable, types, ssrc, texts }) {
        const { names, repaired } = this.sdp, told = repaired.has(ssrc) || [...repaired.values()].includes(ssrc);
        return isProbable || told || types.some(it => names.has(it)) || Object.values(texts).some(it => it.length);
    }
    /** Finds the source of a packet, and returns its index; -1 where there are too many. */
    #see(datagrams, columns, i, packet) {
        const flow = datagrams.flows[i], ssrc = columns.ssrc[i], key = flow * 2 ** 32 + ssrc;
        let index = this.#indices.get(key);
        if (index === undefined) {
            index = this.#indices.size;
            this.#indices.set(key, index);
            if (index < MOST_SOURCES) this.sources.push(new Source(this.wire, ssrc, flow));
        }
        if (index >= MOST_SOURCES) {
            this.#leftOut++;
            return -1;
        }
        const source = this.sources[index];
        for (const it of TEXTS) {
            if (columns.has[it][i]) source.name(it, columns.values[it].at(i));
        }
        if (columns.has.layers[i]) {
            source.allocations.push({packet, streams: columns.layersOf(i).streams});
        }
        return index;
    }
    #sayLeftOut() {
        if (this.#leftOut) {
            this.capture.say('sources', {count: this.#indices.size, most: MOST_SOURCES, packets: this.#leftOut});
        }
    }

    #judge() {
        const { packets } = this, into = {}, following = this.#following();
        for (let i = 0; i < packets.count; i++) {
            if (packets.source[i] < 0) continue;
            this.sources[packets.source[i]].judge(packets.number[i], packets.timestamp[i], packets.time[i], following[i], into);
            packets.extended[i] = into.number;
            packets.verdict[i] = into.verdict;
            packets.jitter[i] = into.jitter;
        }
        for (const it of this.sources) it.found = it.gaps;
    }

    /** Of each packet the number of the one of its source that came behind it, or -1. */
    #following() {
        const { count, source, number } = this.packets, following = new Int32Array(count).fill(-1);
        const nextOf = new Int32Array(this.sources.length).fill(-1);
        for (let i = count - 1; i >= 0; i--) {
            if (source[i] < 0) continue;
            following[i] = nextOf[source[i]];
            nextOf[source[i]] = number[i];
        }
        return following;
    }

    /**
     * Finds what each source of retransmissions repairs: by the SDP's groups, by its repaired rid, or by the payload type
     * and the mid.
     */
    #pair() {
        const { repaired, repairedTypes } = this.sdp;
        const bySsrc = new Map(this.sources.map(it => [it.flow * 2 ** 32 + it.ssrc, it]));
        for (const source of this.sources) {
            let of = repaired.has(source.ssrc) ? bySsrc.get(source.flow * 2 ** 32 + repaired.get(source.ssrc)) : undefined;
            if (!of && (source.texts.repairedRid.length || repairedTypes.has(source.types[0]))) {
                of = this.sources.find(it => it !== source && it.flow === source.flow && this.#repairs(source, it));
            }
            source.repairs = of;
        }
    }
    #repairs({ texts, types }, other) {
        const others = other.texts;
        if (texts.mid.length && others.mid.length && texts.mid.at(-1) !== others.mid.at(-1)) return false;
        if (texts.repairedRid.length) return texts.repairedRid.at(-1) === others.rid.at(-1);
        if (!texts.mid.length || !others.mid.length || others.rid.length) return false;
        return other.types.includes(this.sdp.repairedTypes.get(types[0]));
    }

    /** The sources, those with most packets first, and each of retransmissions behind what it repairs. */
    inOrder() {
        const order = [...this.sources].sort((a, b) => b.packets - a.packets), behind = new Map();
        for (const it of order) {
            const of = it.repairs && !it.repairs.repairs ? it.repairs : it;
            if (of !== it) behind.set(of, [...(behind.get(of) ?? []), it]);
        }
        return order.filter(it => !it.repairs || it.repairs.repairs).flatMap(it => [it, ...(behind.get(it) ?? [])]);
    }

    /**
     * The seconds around the one in which most packets were missed, over all sources, for as long as a tenth as many are
     * missed; undefined where none is or there are no times.
     */
    worst() {
        const lost = lostBySecond(this.sources.flatMap(it => it.found)), worst = worstOf(lost);
        if (worst === undefined || !this.capture.isTimed) return undefined;
        let begin = worst, end = worst, missed = 0, taken = 0;
        while (10 * (lost.get(begin - 1) ?? 0) >= lost.get(worst)) begin--;
        while (10 * (lost.get(end + 1) ?? 0) >= lost.get(worst)) end++;
        for (let second = begin; second <= end; second++) missed += lost.get(second) ?? 0;
        for (const { epochs } of this.sources) {
            for (const { times } of epochs) taken += times.filter(it => it >= begin * SECOND && it < (end + 1) * SECOND).length;
        }
        return {begin, end: end + 1, lost: missed, expected: missed + taken};
    }
}

/** The packet that a datagram is; undefined where it is none. */
export function parsed(wire, datagram, map) {
    try {
        return wire.Packet.parse(datagram, map);
    } catch (error) {
        if (error instanceof wire.NotAPacket) return undefined;
        throw error;
    }
}
