// SPDX-License-Identifier: MIT OR Apache-2.0
// Copyright (c) 2026 The rtp-wire developers (NOTICE)

// Where the payload of UDP lies in a captured frame.

const ETHERNET = 1, NULL = 0, LOOP = 108, COOKED = 113, COOKED_2 = 276;
const RAW = new Set([12, 14, 101, 228, 229]);
const KNOWN = new Set([ETHERNET, NULL, LOOP, COOKED, COOKED_2, ...RAW]);
const UDP = 17, IPV4 = 0x0800, IPV6 = 0x86DD;
// Tags of virtual LANs, which stand before the type of what is carried (IEEE 802.1Q).
const TAGS = new Set([0x8100, 0x88A8, 0x9100]);
// The extension headers of IPv6 that may stand before UDP (RFC 8200, 4): all but two count words of eight bytes.
const EXTENSIONS = new Set([0, 43, 44, 51, 60, 135]);
const FRAGMENT = 44, AUTHENTICATION = 51;

/** Whether frames of this link type are read. */
export const isKnown = link => KNOWN.has(link);

/**
 * Finds the payload of UDP in the frame that `view` has from `at` to `end`. Returns the one object `found`, which the
 * next call writes anew: `at` and `length` of what is captured, `size` of what there was, where the addresses and the
 * ports lie, and whether the datagram's first fragment is all there is; `rest` where it is a fragment that isn't the
 * first one; and where there is no payload an object with the cause, a name of `left` in tables.json, and a number.
 */
export function payloadOf(view, at, end, link) {
    const ip = networkAt(view, at, end, link);
    if (typeof ip !== 'number') return ip;
    if (ip >= end) return CUT;
    const version = view.getUint8(ip) >> 4;
    return version === 4 ? ofIpv4(view, ip, end) : version === 6 ? ofIpv6(view, ip, end) : NO_IP;
}

const found = {at: 0, length: 0, size: 0, addressesAt: 0, addressesLength: 0, portsAt: 0, isFragment: false};
const rest = Object.freeze({isRest: true});
const CUT = Object.freeze({cause: 'cut'}), NO_IP = Object.freeze({cause: 'no_ip'});
// Below these types the number says how long a frame of IEEE 802.3 is.
const FIRST_TYPE = 0x0600;

function networkAt(view, at, end, link) {
    if (RAW.has(link)) return at;
    if (link === NULL || link === LOOP) return at + 4;
    const typeAt = link === ETHERNET ? 12 : link === COOKED ? 14 : 0;
    let ip = at + (link === ETHERNET ? 14 : link === COOKED ? 16 : 20);
    if (ip > end) return CUT;
    let kind = view.getUint16(at + typeAt);
    while (TAGS.has(kind) && ip + 4 <= end) {
        kind = view.getUint16(ip + 2);
        ip += 4;
    }
    if (kind === IPV4 || kind === IPV6) return ip;
    return TAGS.has(kind) ? CUT : kind >= FIRST_TYPE ? {cause: 'type', number: kind} : {cause: 'no_type'};
}

function ofIpv4(view, at, end) {
    const length = 4 * (view.getUint8(at) & 15);
    if (at + 20 > end || length < 20) return at + 20 > end ? CUT : NO_IP;
    if (view.getUint8(at + 9) !== UDP) return {cause: 'protocol', number: view.getUint8(at + 9)};
    const flags = view.getUint16(at + 6);
    if (flags & 0x1FFF) return rest;
    return ofUdp(view, at + length, end, at + 12, 8, (flags & 0x2000) !== 0);
}

function ofIpv6(view, at, end) {
    if (at + 40 > end) return CUT;
    let kind = view.getUint8(at + 6), here = at + 40, isFragment = false;
    while (EXTENSIONS.has(kind)) {
        if (here + 8 > end) return CUT;
        if (kind === FRAGMENT) {
            const offset = view.getUint16(here + 2);
            if (offset >> 3) return rest;
            isFragment = (offset & 1) !== 0;
        }
        const next = view.getUint8(here);
        here += extensionLength(view, kind, here);
        kind = next;
    }
    return kind === UDP ? ofUdp(view, here, end, at + 8, 32, isFragment) : {cause: 'protocol', number: kind};
}

function extensionLength(view, kind, at) {
    if (kind === FRAGMENT) return 8;
    return kind === AUTHENTICATION ? 4 * (view.getUint8(at + 1) + 2) : 8 * (view.getUint8(at + 1) + 1);
}

function ofUdp(view, at, end, addressesAt, addressesLength, isFragment) {
    if (at + 8 > end) return CUT;
    const said = view.getUint16(at + 4);
    // A length of 0 is that of a datagram above 65,535 bytes (RFC 2675), or of one that the card has yet to split.
    found.size = said >= 8 ? said - 8 : end - at - 8;
    found.length = Math.min(found.size, end - at - 8);
    found.at = at + 8;
    found.addressesAt = addressesAt;
    found.addressesLength = addressesLength;
    found.portsAt = at;
    found.isFragment = isFragment;
    return found;
}

/** The sender and the receiver of a flow, as address and port; no text where they aren't known. */
export function endsOf(flow) {
    if (flow.length === 0) return ['', ''];
    const half = (flow.length - 4) / 2, ports = new DataView(flow.buffer, flow.byteOffset + flow.length - 4);
    return [0, 1].map(it => `${addressOf(flow.subarray(it * half, (it + 1) * half))}:${ports.getUint16(2 * it)}`);
}

function addressOf(bytes) {
    return bytes.length === 4 ? bytes.join('.') : `[${ipv6Of(bytes)}]`;
}

// As RFC 5952 writes it: the longest run of two or more zeros, the first of several, is cut out.
function ipv6Of(bytes) {
    const words = Array.from({length: 8}, (_, i) => bytes[2 * i] << 8 | bytes[2 * i + 1]);
    let from = 0, most = 1;
    for (let i = 0; i < 8; i++) {
        let run = 0;
        while (i + run < 8 && words[i + run] === 0) run++;
        if (run > most) [from, most] = [i, run];
    }
    const texts = words.map(it => it.toString(16));
    return most < 2 ? texts.join(':') : `${texts.slice(0, from).join(':')}::${texts.slice(from + most).join(':')}`;
}
