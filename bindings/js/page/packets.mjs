// SPDX-License-Identifier: MIT OR Apache-2.0
// Copyright (c) 2026 The rtp-wire developers (NOTICE)

// The packets of RTP in a capture, by columns that grow.

const COLUMNS = {
    row: Uint32Array, // the place among the datagrams, from 0
    time: Float64Array, // nanoseconds from the earliest datagram
    source: Int32Array, // -1 where there are too many
    ssrc: Uint32Array,
    type: Uint8Array,
    number: Uint16Array,
    extended: Float64Array, // 0 where the packet isn't taken
    timestamp: Uint32Array,
    marker: Uint8Array,
    size: Uint32Array,
    verdict: Uint8Array,
    jitter: Uint32Array, // in ticks
    level: Int8Array, // 1 where there is none
    voice: Uint8Array, // 2 where that isn't told
    transport: Int32Array, // -1 where there is none
    place: Float64Array, // where the datagram lies in the file
    placeLength: Uint32Array,
};
/** What stands in a column where a packet has no value. */
export const NO_LEVEL = 1, NO_VOICE = 2, NO_TRANSPORT = -1;

export class Packets {
    count = 0;

    constructor(room = 4096) {
        for (const [name, type] of Object.entries(COLUMNS)) this[name] = new type(room);
    }
    /** The place of one packet more. */
    add() {
        if (this.count === this.row.length) this.#resize(2 * this.count);
        return this.count++;
    }
    #resize(room) {
        for (const [name, type] of Object.entries(COLUMNS)) {
            const made = new type(room);
            made.set(this[name].subarray(0, this.count));
            this[name] = made;
        }
    }
    /** The columns as they are sent to another thread, which has them then, and nobody else. */
    given() {
        this.#resize(this.count);
        const columns = Object.fromEntries(Object.keys(COLUMNS).map(name => [name, this[name]]));
        return {columns: {count: this.count, ...columns}, buffers: Object.values(columns).map(it => it.buffer)};
    }
}
