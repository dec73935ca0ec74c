// SPDX-License-Identifier: MIT OR Apache-2.0
// Copyright (c) 2026 The rtp-wire developers (NOTICE)

// Packets that grow where they lie, or are made short.
import { check, elementId, unsigned, within } from './errors.mjs';
import { NewIds } from './map.mjs';
import { bytesOf, inputOf, library, output, putData, size, u32, u8 } from './memory.mjs';

/** Changes a packet in a buffer that may have room behind it, by a call that may change its length; the new one. */
function grow(name, buffer, len, ...given) {
    const bytes = bytesOf(buffer), at = inputOf(bytes.length);
    u8.set(bytes, at);
    const place = output(2048);
    u32[place >> 2] = within('len', len, 0, bytes.length);
    u32[(place >> 2) + 1] = 0;
    check(library[name](at, bytes.length, place, ...given));
    const now = size(place);
    bytes.set(u8.subarray(at, at + Math.max(now, Math.min(len, bytes.length))));
    return now;
}

function withData(name, buffer, len, id, data, allowed) {
    const bytes = bytesOf(data);
    return grow(name, buffer, len, elementId(id), putData(bytes), bytes.length, within('allowed', allowed, 0, 2));
}

/** Puts an element into the packet that is the first `len` bytes of the buffer; returns the packet's new length. */
export const putElement = (buffer, len, id, data, allowed = 0) => withData('put_element', buffer, len, id, data, allowed);
/** Puts an element behind all others, and those of its id stay. */
export const addElement = (buffer, len, id, data, allowed = 0) => withData('add_element', buffer, len, id, data, allowed);
/** Makes the packet as short as its elements allow. */
export const compact = (buffer, len) => grow('compact', buffer, len);
/** Makes a block of the other form one of this form. */
export const changeForm = (buffer, len, form) => grow('change_form', buffer, len, within('a form', form, 1, 2));
/** Takes the block off. */
export const removeBlock = (buffer, len) => grow('remove_block', buffer, len);
/** Gives the packet a block that begins with these 16 bits, and has this body. */
export function putBlock(buffer, len, profile, body) {
    const bytes = bytesOf(body);
    return grow('put_block', buffer, len, unsigned('profile', profile, 16), putData(bytes), bytes.length);
}
/** Makes the packet a retransmission (RFC 4588, 4), with this SSRC, payload type and number. */
export function toRetransmission(buffer, len, { ssrc, payloadType, sequenceNumber }, ids) {
    return grow('to_retransmission', buffer, len, unsigned('ssrc', ssrc, 32), unsigned('payloadType', payloadType, 7),
        unsigned('sequenceNumber', sequenceNumber, 16), NewIds.place(ids));
}
/** Makes the retransmission the packet that it repeats, with this SSRC and payload type. */
export function fromRetransmission(buffer, len, { ssrc, payloadType }, ids) {
    return grow('from_retransmission', buffer, len, unsigned('ssrc', ssrc, 32), unsigned('payloadType', payloadType, 7),
        NewIds.place(ids));
}
/**
 * Pads the packet that is the first `len` bytes of the buffer and has no padding: with so many bytes, rounded up to whole
 * blocks of `blockSize`, at most 240 (RFC 3550, 5.1). Returns its new length.
 */
export function pad(buffer, len, padLen, blockSize = 1) {
    const bytes = bytesOf(buffer), at = inputOf(bytes.length);
    u8.set(bytes, at);
    within('len', len, 0, bytes.length);
    check(library.pad(at, bytes.length, len, unsigned('padLen', padLen, 8), unsigned('blockSize', blockSize, 32), output()));
    const now = len + size(output());
    bytes.set(u8.subarray(at, at + now));
    return now;
}
