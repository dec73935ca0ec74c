// SPDX-License-Identifier: MIT OR Apache-2.0
// Copyright (c) 2026 The rtp-wire developers (NOTICE)

// Receivers of many sources.
import { Columns } from './columns.mjs';
import { badField, rowsOf, unsigned } from './errors.mjs';
import { STANDING } from './layout.mjs';
import { RestartingReceiver, boundsOf } from './receiver.mjs';
import { ReceptionStatistics, ticksOf } from './reception.mjs';

/** One source: its receiver, its statistics, and how often its sender has started again. */
export class Source {
    restarts = 0;
    duplicates = 0;
    tooOld = 0;
    /** Packets that are far from the stream. */
    outside = 0;
    // Of the epochs before this one.
    #received = 0;
    #expected = 0;
    #missing = 0;
    // Of this one: how many numbers were taken, the lowest and the highest.
    #taken = 0;
    #lowest = 0;
    #highest = 0;

    constructor(ssrc, bounds) {
        this.ssrc = unsigned('ssrc', ssrc, 32);
        this.receiver = new RestartingReceiver(bounds);
        this.statistics = new ReceptionStatistics();
    }

    /** Judges the next packet, and records it; its extended number, or undefined where it is refused. The time of its
     * arrival is a whole number of ticks, which counts modulo 2^32. */
    receive(sequenceNumber, timestamp, arrival) {
        const came = ticksOf(arrival); // before anything is taken, as the timestamp
        timestamp >>> 0 === timestamp || unsigned('timestamp', timestamp, 32);
        const { receiver } = this, number = receiver.receive(sequenceNumber);
        if (receiver.restarted) {
            this.#beginAnew();
        }
        if (number !== undefined) {
            this.statistics.record(number, timestamp, came);
            this.#count(Number(number));
        } else if (receiver.inRow !== 0) {
            this.outside++;
        } else {
            const refused = receiver.numberOf(sequenceNumber);
            this.statistics.record(refused, timestamp, came);
            if (receiver.standingOf(refused) === STANDING.TAKEN) {
                this.duplicates++;
            } else {
                this.tooOld++;
            }
        }
        return number;
    }

    /** Keeps what is told of the epoch that has ended. */
    #beginAnew() {
        this.restarts++;
        this.#missing = this.missing;
        this.#received += this.statistics.received;
        this.#expected += this.statistics.expected;
        [this.#taken, this.statistics] = [0, new ReceptionStatistics()];
    }

    #count(number) {
        if (this.#taken++ === 0) {
            this.#lowest = this.#highest = number;
        } else if (number > this.#highest) {
            this.#highest = number;
        } else if (number < this.#lowest) {
            this.#lowest = number;
        }
    }

    /** Packets of the stream that came, duplicates and late ones too, */
    get received() {
        return this.#received + this.statistics.received;
    }

    /** and that were expected, from the first one's number to the highest. Less those that came it is the loss of RFC
     * 3550, 6.4.1, which a duplicate lowers, so that it may be less than 0: `missing` isn't. */
    get expected() {
        return this.#expected + this.statistics.expected;
    }

    /** How many numbers between the lowest and the highest that were taken weren't taken themselves. */
    get missing() {
        return this.#missing + (this.#taken === 0 ? 0 : this.#highest - this.#lowest + 1 - this.#taken);
    }
}

/** Refuses arrivals of which there isn't one for each packet. */
function lookAt(arrivals, columns) {
    if (rowsOf('arrivals', arrivals).length !== columns.length) {
        throw badField(`arrivals have ${arrivals.length} rows, and there are ${columns.length} datagrams`);
    }
    for (let row = 0; row < columns.length; row++) {
        if (columns.isRtp[row]) {
            ticksOf(arrivals[row]);
        }
    }
}

/** The receivers of many sources, by their SSRCs. */
export class Receivers {
    #sources = new globalThis.Map();
    #bounds;

    /** The bounds are those of each `RestartingReceiver`. */
    constructor(bounds = {}) {
        this.#bounds = boundsOf(bounds);
    }

    /** The source of an SSRC, a new one where it is seen for the first time. */
    source(ssrc) {
        let it = this.#sources.get(ssrc);
        if (it === undefined) {
            this.#sources.set(ssrc, it = new Source(ssrc, this.#bounds));
        }
        return it;
    }

    get size() {
        return this.#sources.size;
    }

    [Symbol.iterator]() {
        return this.#sources.values();
    }

    /**
     * Judges the packets of columns in order. `arrivals` has a row for each datagram, the time of the packet's arrival
     * as a whole number of ticks of the timestamp's clock, which counts modulo 2^32; without it there is no jitter. They
     * are looked at before any packet is judged. A row is 0 in `taken` where the packet is refused or the datagram is
     * none, and its extended number is in `numbers`, of which none passes 2^53 before 2^36 restarts.
     */
    receive(columns, arrivals) {
        if (!(columns instanceof Columns)) {
            throw new TypeError(`columns are ${columns === null ? 'null' : typeof columns}, and no Columns`);
        }
        if (arrivals !== undefined) {
            lookAt(arrivals, columns);
        }
        const taken = new Uint8Array(columns.length), numbers = new Float64Array(columns.length);
        for (let row = 0; row < columns.length; row++) {
            if (columns.isRtp[row]) {
                const source = this.source(columns.ssrc[row]), timestamp = columns.timestamp[row];
                const arrival = arrivals === undefined ? timestamp : arrivals[row];
                const number = source.receive(columns.sequenceNumber[row], timestamp, arrival);
                if (number !== undefined) {
                    taken[row] = 1;
                    numbers[row] = Number(number);
                }
            }
        }
        return {taken, numbers};
    }
}
