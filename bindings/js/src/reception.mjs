// SPDX-License-Identifier: MIT OR Apache-2.0
// Copyright (c) 2026 The rtp-wire developers (NOTICE)

// What a receiver reports of the packets that came from a source.
import { badField, check, unsigned, within } from './errors.mjs';
import { RECEPTION, REPORT, STATUS } from './layout.mjs';
import { allocate, halves, i32, library, number64, output, u32, u8 } from './memory.mjs';

/** The time of an arrival modulo 2^32: any whole number of ticks, as `Date.now() * 48` is. */
export function ticksOf(arrival) {
    const ticks = typeof arrival === 'number' ? arrival >>> 0 : undefined;
    if (ticks === arrival && ticks !== undefined) {
        return ticks;
    }
    if (!Number.isInteger(arrival)) {
        const told = typeof arrival === 'number' ? arrival : typeof arrival;
        throw new TypeError(`arrival is ${told}, and no whole number of ticks: Math.round makes one`);
    }
    if (!Number.isSafeInteger(arrival)) {
        throw badField(`arrival is ${arrival}, and not up to 2^53 - 1`);
    }
    return ticks;
}

/**
 * Statistics of the packets that came from one source (RFC 3550, 6.4.1, A.3 and A.8). Record each packet of the source,
 * late ones and duplicates too, by its extended number. Of packets that a `RestartingReceiver` refuses record those
 * after which its `inRow` is 0, and where `restarted` is true begin anew.
 */
export class ReceptionStatistics {
    #at = allocate(RECEPTION.size, this);

    /** Records a packet by its extended number, its timestamp and the time of its arrival, a whole number of ticks of the
     * timestamp's clock from any moment on, which counts modulo 2^32. */
    record(number, timestamp, arrival) {
        const at = this.#at, ticks = unsigned('timestamp', timestamp, 32), came = ticksOf(arrival);
        if (number >= 0 && number <= Number.MAX_SAFE_INTEGER && Number.isInteger(number)) {
            library.reception_record(at, number % 0x100000000, Math.floor(number / 0x100000000), ticks, came);
        } else {
            library.reception_record(at, ...halves('number', number), ticks, came);
        }
    }

    /** How many packets came. */
    get received() {
        return number64(this.#at + RECEPTION.received);
    }

    /** How many were expected, from the first one's number to the highest; 0 where none came. */
    get expected() {
        if (this.received === 0) {
            return 0;
        }
        const highest = BigInt(number64(this.#at + RECEPTION.highest));
        return Number(highest - BigInt(number64(this.#at + RECEPTION.first)) + 1n);
    }

    /** The interarrival jitter as it is now, in ticks of the timestamp's clock with four bits of fraction. */
    get jitter() {
        return Number(number64(this.#at + RECEPTION.scaledJitter)) / 16;
    }

    /** Reports on the packets that were recorded, and begins the interval of the next report; undefined where none was
     * recorded since the last one. */
    report() {
        const at = output();
        if (library.reception_report(this.#at, at) === STATUS.NONE) {
            return undefined;
        }
        return {
            fractionLost: u8[at + REPORT.fractionLost],
            cumulativeLost: i32[at + REPORT.cumulativeLost >> 2],
            extendedHighest: u32[at + REPORT.extendedHighest >> 2],
            jitter: u32[at + REPORT.jitter >> 2],
        };
    }
}

/** The 24 bytes of a report block (6.4.1) of a report on this source: `lastReport` is LSR and `delay` is DLSR. */
export function reportBlock({ fractionLost, cumulativeLost, extendedHighest, jitter }, ssrc, lastReport = 0, delay = 0) {
    const at = output(64), to = output(128);
    u8[at + REPORT.fractionLost] = unsigned('fractionLost', fractionLost, 8);
    i32[at + REPORT.cumulativeLost >> 2] = within('cumulativeLost', cumulativeLost, -0x800000, 0x7FFFFF);
    u32[at + REPORT.extendedHighest >> 2] = unsigned('extendedHighest', extendedHighest, 32);
    u32[at + REPORT.jitter >> 2] = unsigned('jitter', jitter, 32);
    const given = [unsigned('ssrc', ssrc, 32), unsigned('lastReport', lastReport, 32), unsigned('delay', delay, 32)];
    check(library.write_report(at, ...given, to, 24, output()));
    return u8.slice(to, to + 24);
}
