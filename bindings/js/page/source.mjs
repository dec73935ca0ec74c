// SPDX-License-Identifier: MIT OR Apache-2.0
// Copyright (c) 2026 The rtp-wire developers (NOTICE)

// One source of a capture, and what a receiver of it would say of each packet.

const SECOND = 1e9;
// The timestamps of so many nanoseconds tell a clock.
const TOLD_BY = SECOND / 2;
// A packet that is so many numbers ahead is outside of the stream, by the bounds of `RestartingReceiver`.
const MOST_AHEAD = 3000;

/** What is said of a packet, by its place in `verdicts` of tables.json. */
export const TAKEN = 0, DUPLICATE = 1, LATE = 2, OUTSIDE = 3, RESTART = 4, NONE = 5;
/** The jitter of a packet that has none. */
export const NO_JITTER = 0xFFFFFFFF;

/** The numbers that were taken between two starts of the sender, and their times. */
class Epoch {
    numbers = [];
    times = [];
    isInOrder = true;

    add(number, time) {
        this.isInOrder &&= this.numbers.length === 0 || number > this.numbers.at(-1);
        this.numbers.push(number);
        this.times.push(time);
    }
    /** Calls `found` with what is lost between each two numbers, by the time at which the higher one came. */
    gaps(found) {
        const { numbers, times } = this;
        const order = this.isInOrder ? undefined : Uint32Array.from(numbers.keys()).sort((a, b) => numbers[a] - numbers[b]);
        for (let i = 1; i < numbers.length; i++) {
            const before = order ? order[i - 1] : i - 1, it = order ? order[i] : i;
            const lost = numbers[it] - numbers[before] - 1;
            if (lost > 0) found(times[it], lost, numbers[before]);
        }
    }
    get expected() {
        if (this.isInOrder) return this.numbers.at(-1) - this.numbers[0] + 1;
        return this.numbers.reduce((a, b) => Math.max(a, b)) - this.numbers.reduce((a, b) => Math.min(a, b)) + 1;
    }
}

/** An SSRC of a flow. */
export class Source {
    packets = 0;
    bytes = 0;
    /** Whether two packets came one behind the other whose numbers are of one stream. */
    isProbable = false;
    #number;
    types = [];
    texts = {mid: [], rid: [], repairedRid: []};
    first = 0;
    last = 0;
    clock = undefined;
    /** What tells it: a name of `clocks` in tables.json. */
    clockBy = undefined;
    repairs = undefined;
    counts = [0, 0, 0, 0, 0, 0];
    reordered = 0;
    jitter = undefined;
    jitterHighest = undefined;
    epochs = [];
    /** The layer allocations, with the time of each. */
    allocations = [];
    #wire;
    #began;
    #told;
    #highest = 0;
    /** What the numbers of the receiver are less than those of the source. */
    #base = 0;
    /** The packet with the highest number that was taken. */
    #top;
    #receiver;
    #statistics;

    /** `wire` is the module's package. */
    constructor(wire, ssrc, flow) {
        this.#wire = wire;
        this.ssrc = ssrc;
        this.flow = flow;
        this.#receiver = new wire.RestartingReceiver();
        this.#statistics = new wire.ReceptionStatistics();
    }

    /** Counts a packet, and looks at its number and timestamp. */
    see(time, payloadType, number, timestamp, size) {
        const apart = number - (this.#number ?? number) & 0xFFFF;
        this.isProbable ||= apart !== 0 && Math.min(apart, 2 ** 16 - apart) < MOST_AHEAD;
        this.#number = number;
        if (!this.#began) {
            this.first = this.last = time;
            this.#began = {time, timestamp};
        } else if (!this.#told || this.#told.time - this.#began.time < TOLD_BY) this.#told = {time, timestamp};
        this.first = Math.min(this.first, time);
        this.last = Math.max(this.last, time);
        this.packets++;
        this.bytes += size;
        if (!this.types.includes(payloadType)) this.types.push(payloadType);
    }

    /** Keeps a text of an element: a mid, a rid or a repaired rid. */
    name(kind, text) {
        if (!this.texts[kind].includes(text)) this.texts[kind].push(text);
    }

    /**
     * The clock by the payload types that the SDP names, or by those that have always the same one (RFC 3551, 6), or of the
     * usual ones that which is nearest to the timestamps: these two are told by tables.json.
     */
    tellClock(clocks, { static_types: types, usual_clocks: usual }) {
        const fixed = new Map(Object.entries(types).flatMap(([clock, of]) => of.map(it => [it, Number(clock)])));
        for (const [of, by] of [[clocks, 'sdp'], [fixed, 'static']]) {
            const type = this.types.find(it => of.get(it));
            if (type === undefined) continue;
            this.clock = of.get(type);
            this.clockBy = by;
            return;
        }
        if (this.#told?.time > this.#began.time) {
            const ticks = (this.#told.timestamp - this.#began.timestamp) >>> 0;
            const ran = ticks * SECOND / (this.#told.time - this.#began.time);
            // 48,000 Hz is likelier, and near where packets are late: it has 120 ticks in 2.5 ms, of which Opus has some.
            const likely = usual.filter(it => it !== 44100 || ticks % 120);
            const far = it => Math.max(it / ran, ran / it);
            this.clock = ran ? likely.reduce((best, it) => (far(it) < far(best) ? it : best)) : usual.at(-1);
            this.clockBy = 'guess';
        }
    }

    /**
     * Has the receiver judge a packet, behind which that of the number `following` came, or none where that is -1: the
     * verdict, the extended number (0 where it isn't taken), and the jitter.
     */
    judge(sequenceNumber, timestamp, time, following, into) {
        if (following === (sequenceNumber + 1 & 0xFFFF) && this.#endsOutage(sequenceNumber, timestamp, time)) {
            // All that the window told of is far behind: a new receiver says the same of what comes now.
            const { number } = this.#top;
            this.#receiver = new this.#wire.RestartingReceiver();
            this.#base = number + (sequenceNumber - number & 0xFFFF) - 2 ** 16 - sequenceNumber;
        }
        const got = this.#receiver.receive(sequenceNumber), { restarted } = this.#receiver;
        const number = got === undefined ? undefined : this.#base + got;
        into.number = number ?? 0;
        into.verdict = number === undefined ? this.#refused(sequenceNumber) : restarted ? RESTART : TAKEN;
        into.jitter = NO_JITTER;
        this.counts[into.verdict]++;
        if (number !== undefined) this.#take(number, restarted, time, timestamp);
        if (into.verdict === OUTSIDE || this.clock === undefined) return;
        if (restarted) this.#statistics = new this.#wire.ReceptionStatistics();
        const ofStream = number ?? this.#base + this.#receiver.numberOf(sequenceNumber);
        this.#statistics.record(ofStream, timestamp, arrivalOf(time, this.clock));
        into.jitter = this.jitter = Math.floor(this.#statistics.jitter);
        this.jitterHighest = Math.max(this.jitterHighest ?? 0, this.jitter);
    }
    #take(number, restarted, time, timestamp) {
        if (restarted || this.epochs.length === 0) this.epochs.push(new Epoch());
        this.epochs.at(-1).add(number, time);
        if (number < this.#highest) this.reordered++;
        if (number > this.#highest) this.#top = {number, time, timestamp};
        this.#highest = Math.max(this.#highest, number);
    }
    /**
     * Whether a packet from outside of the stream, behind which the next number came, goes on with it after an outage:
     * its timestamp went on by as much as the time, within a second or a tenth of it, and the numbers went on forwards,
     * at most four times as fast as they did before. Where they may have rolled over nothing is known.
     */
    #endsOutage(sequenceNumber, timestamp, time) {
        if (this.clock === undefined || !this.#top) return false;
        const { number, time: before, timestamp: stamp } = this.#top, ahead = sequenceNumber - number & 0xFFFF;
        if (time <= before || ahead < MOST_AHEAD || ahead >= 2 ** 15) return false;
        const { numbers: [first], times: [began] } = this.epochs.at(-1);
        // how many numbers there were at the rate of before, times the time that these took
        const took = BigInt(before - began), atThatRate = BigInt(number - first) * BigInt(time - before);
        if (took <= 0 || atThatRate >= 32768n * took || BigInt(ahead) * took > 4n * atThatRate) return false;
        const ticks = Number(BigInt(time - before) * BigInt(this.clock) / 1000000000n);
        const off = (timestamp - stamp - ticks) % 2 ** 32 | 0;
        return Math.abs(off) <= Math.max(this.clock, Math.floor(ticks / 10));
    }
    #refused(sequenceNumber) {
        if (this.#receiver.inRow) return OUTSIDE;
        const standing = this.#receiver.standingOf(this.#receiver.numberOf(sequenceNumber));
        return standing === this.#wire.Standing.TAKEN ? DUPLICATE : LATE;
    }

    /** The numbers from the lowest to the highest that was taken, of each epoch. */
    get expected() { return this.epochs.reduce((sum, it) => sum + it.expected, 0); }

    /** The numbers that are lost, in their order: when the next higher one came, how many, and the one before them. */
    get gaps() {
        const found = [];
        for (const epoch of this.epochs) epoch.gaps((time, lost, before) => found.push({time, lost, before}));
        return found;
    }
}

/** How many packets are missed in each second, where some are. */
export function lostBySecond(gaps) {
    const lost = new Map();
    for (const it of gaps) {
        const second = Math.floor(it.time / SECOND);
        lost.set(second, (lost.get(second) ?? 0) + it.lost);
    }
    return lost;
}

/** The second in which most packets were missed, the first of several; undefined where none was. */
export function worstOf(lost) {
    let worst;
    for (const [second, count] of lost) {
        if (worst === undefined || count > lost.get(worst) || (count === lost.get(worst) && second < worst)) worst = second;
    }
    return worst;
}

/** A time in nanoseconds, in ticks of a clock modulo 2^32. */
function arrivalOf(time, clock) {
    const seconds = Math.floor(time / SECOND);
    return (seconds * clock + Math.floor((time - seconds * SECOND) * clock / SECOND)) % 2 ** 32 >>> 0;
}
