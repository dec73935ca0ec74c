// SPDX-License-Identifier: MIT OR Apache-2.0
// Copyright (c) 2026 The rtp-wire developers (NOTICE)

// Values of a body and data of an element, without a packet; and what the payload of a retransmission begins with.
import { check, within } from './errors.mjs';
import { placeOfMap } from './header.mjs';
import { VALUES } from './layout.mjs';
import { bytesOf, halves, library, output, put, size, u16, u8 } from './memory.mjs';
import { MOST_DATA } from './standard.mjs';
import { putValues, valuesAt } from './values.mjs';

/** What the elements of a block's body say under the map, but for a layer allocation, which a packet or a header tells. */
export function readValues(body, form, map) {
    const bytes = bytesOf(body), at = output(8);
    check(library.values_read(put(bytes), bytes.length, within('a form', form, 0, 255), placeOfMap(map), at));
    return valuesAt(at);
}

/** The data that an element of the kind has for these values. What has no value here, or has no place among them, throws
 * an error with the code NONE: the calls of its standard write it, as `writeColorSpace`. */
export function dataOf(kind, values) {
    const at = output(8), buf = output(1024);
    u8.fill(0, at, at + VALUES.size);
    putValues(at, values);
    check(library.data_of(within('a kind', kind, 0, 255), at, buf, MOST_DATA, output()));
    return u8.slice(buf, buf + size(output()));
}

/** The number that the payload of a retransmission begins with (RFC 4588, 4): that of the packet which it repeats. */
export function readOriginal(payload) {
    const bytes = bytesOf(payload).subarray(0, 2);
    check(library.read_original(put(bytes), bytes.length, output()));
    return u16[output() >> 1];
}

/** Writes the low 16 bits of a number to the front of the payload of a retransmission. */
export function writeOriginal(payload, number) {
    const bytes = bytesOf(payload), room = Math.min(bytes.length, 2), at = output();
    check(library.write_original(at, room, ...halves('number', number)));
    bytes.set(u8.subarray(at, at + room));
}
