// SPDX-License-Identifier: MIT OR Apache-2.0
// Copyright (c) 2026 The rtp-wire developers (NOTICE)

// The numbers of a stream, extended, and which of them were taken.
import { check, named, unsigned, within } from './errors.mjs';
import { STATUS, WIDE_RECEIVER, WIDE_RESTARTING_RECEIVER } from './layout.mjs';
import { allocate, halves, library, number64, output, put64, u16, u8 } from './memory.mjs';

const MAX_DROPOUT = 3000;
const wordsOf = words => within('words', words, 1, 512);

/**
 * The receive state of one stream: a replay window of 64 numbers for each of 1 to 512 words (RFC 3711, 3.3.1 and 3.3.2).
 * Keep one for each SSRC. An extended number is a Number, or a BigInt where it is above 2^53 - 1.
 *
 * With SRTP: `numberOf`, `accepts`, authenticate the packet, `record`; the rollover count is that which was signalled,
 * or 0. Where nothing is authenticated: `receive`, and a rollover count of 1, so that a packet from before the first one
 * has a number too.
 */
export class Receiver {
    #at;
    #words;
    #count;

    constructor(options = {}) {
        named('options of a receiver', options, ['rolloverCount', 'words']);
        const { rolloverCount = 1, words = 2 } = options;
        this.#count = wordsOf(words);
        const count = halves('rolloverCount', rolloverCount);
        this.#at = allocate(WIDE_RECEIVER.size + 8 * words, this);
        this.#words = this.#at + WIDE_RECEIVER.size;
        check(library.wide_receiver_start(this.#at, ...count));
    }

    /** The highest number taken; undefined where none is. */
    get highest() {
        return u8[this.#at + WIDE_RECEIVER.started] !== 0 ? number64(this.#at + WIDE_RECEIVER.highest) : undefined;
    }

    /** The extended number of a packet: the nearest to the highest taken that ends in these 16 bits. */
    numberOf(sequenceNumber) {
        library.wide_receiver_number_of(this.#at, unsigned('sequenceNumber', sequenceNumber, 16), output());
        return number64(output());
    }

    /** Whether the number may be taken. */
    accepts(number) {
        return library.wide_receiver_accepts(this.#at, this.#words, this.#count, ...halves('number', number)) !== 0;
    }

    /** Records that the number is taken; false, and nothing changes, where it isn't accepted. */
    record(number) {
        return library.wide_receiver_record(this.#at, this.#words, this.#count, ...halves('number', number)) === STATUS.OK;
    }

    /** Takes a packet, and returns its extended number; undefined where it is a replay, or too old to tell. */
    receive(sequenceNumber) {
        const number = unsigned('sequenceNumber', sequenceNumber, 16);
        const status = library.wide_receiver_receive(this.#at, this.#words, this.#count, number, output());
        return status === STATUS.OK ? number64(output()) : undefined;
    }

    /** What is known of a number, a number of `Standing`: it is NEW, TAKEN, or TOO_OLD. */
    standingOf(number) {
        return library.wide_receiver_standing_of(this.#at, this.#words, this.#count, ...halves('number', number));
    }
}

/** The bounds of a `RestartingReceiver` where each is in its range. */
export function boundsOf(given) {
    named('bounds', given, ['words', 'maxDropout', 'maxMisorder', 'minSequential']);
    const { words = 16, maxDropout = MAX_DROPOUT, minSequential = 1 } = given;
    wordsOf(words);
    const { maxMisorder = Math.max(MAX_DROPOUT, 64 * words) } = given;
    within('maxDropout', maxDropout, 1, 0xFFFF);
    within('maxMisorder', maxMisorder, 1, 0xFFFF);
    return {words, maxDropout, maxMisorder, minSequential: unsigned('minSequential', minSequential, 8)};
}

/**
 * The receive state of one stream that isn't authenticated and whose sender may start again under the same SSRC (RFC
 * 3550, A.1). Not for SRTP.
 *
 * A packet is of the stream where its number is less than `maxDropout` above the highest one taken, or less than
 * `maxMisorder` below it: it is judged by the window. Any other is refused; but where the very next packet has the
 * number after it and is outside of the stream too, the sender has started again, and that packet is taken.
 */
export class RestartingReceiver {
    #at;
    #words;
    #count;

    /** Whether the packet that was received last is the first one after its sender has started again. */
    restarted = false;

    constructor(bounds = {}) {
        const { words, maxDropout, maxMisorder, minSequential } = boundsOf(bounds);
        this.#count = words;
        this.#at = allocate(WIDE_RESTARTING_RECEIVER.size + 8 * words, this);
        this.#words = this.#at + WIDE_RESTARTING_RECEIVER.size;
        u16[this.#at + WIDE_RESTARTING_RECEIVER.maxDropout >> 1] = maxDropout;
        u16[this.#at + WIDE_RESTARTING_RECEIVER.maxMisorder >> 1] = maxMisorder;
        u8[this.#at + WIDE_RESTARTING_RECEIVER.minSequential] = minSequential;
    }

    /** Judges the next packet of the source, and returns its extended number; undefined where it is refused. */
    receive(sequenceNumber) {
        const number = unsigned('sequenceNumber', sequenceNumber, 16);
        const status = library.wide_restarting_receive(this.#at, this.#words, this.#count, number, output());
        this.restarted = status === STATUS.RESTARTED;
        return status === STATUS.REFUSED ? undefined : number64(output());
    }

    /** How many packets outside of the stream came last in a row; 0 where the last one was of the stream. So it tells
     * why a packet was refused just now: where it is 0 that is a replay or too old, and counts in the statistics. */
    get inRow() {
        return u8[this.#at + WIDE_RESTARTING_RECEIVER.inRow];
    }

    /** The highest number taken in the epoch; undefined where none is. */
    get highest() {
        const at = this.#at;
        return u8[at + WIDE_RESTARTING_RECEIVER.started] !== 0 ? number64(at + WIDE_RESTARTING_RECEIVER.highest) : undefined;
    }

    /** The epoch as a receiver has it, put where a call reads it. */
    #epoch() {
        const at = output(16), started = u8[this.#at + WIDE_RESTARTING_RECEIVER.started];
        put64(at + WIDE_RECEIVER.highest, 'highest', this.highest ?? 0x10000);
        u8[at + WIDE_RECEIVER.started] = started;
        return at;
    }

    /** The extended number of a packet of the stream, taken or refused. */
    numberOf(sequenceNumber) {
        const number = unsigned('sequenceNumber', sequenceNumber, 16);
        library.wide_receiver_number_of(this.#epoch(), number, output());
        return number64(output());
    }

    /** What is known of a number in the epoch, a number of `Standing`. */
    standingOf(number) {
        const [low, high] = halves('number', number);
        return library.wide_receiver_standing_of(this.#epoch(), this.#words, this.#count, low, high);
    }
}

const extension = (name, bits) => (previous, number) => {
    library[name](...halves('previous', previous), unsigned('number', number, bits), output());
    return number64(output());
};
/** The number nearest to the previous one, modulo 2^64, that ends in these 8, 15, 16 or 32 bits. */
export const extendU8 = extension('extend_u8', 8);
export const extendU15 = extension('extend_u15', 15);
export const extendU16 = extension('extend_u16', 16);
export const extendU32 = extension('extend_u32', 32);
