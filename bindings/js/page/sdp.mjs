// SPDX-License-Identifier: MIT OR Apache-2.0
// Copyright (c) 2026 The rtp-wire developers (NOTICE)

// What an SDP says of the packets of its call.

/**
 * What is read of an SDP, of an offer and its answer, or of what holds one, as a dump with escaped line ends. Where two
 * lines disagree the last one counts.
 */
export class Sdp {
    /** By its id the URI of each extension. */
    uris = new Map();
    /** By its payload type each encoding's name, and its clock. */
    names = new Map();
    clocks = new Map();
    /** By the payload type of retransmissions that of what they repair (RFC 4588, 8.1). */
    repairedTypes = new Map();
    /** By the SSRC of retransmissions that of what they repair (RFC 5576, 4.2). */
    repaired = new Map();

    constructor(text = '') {
        text = text.replace(/\\r|\\n/g, '\n');
        for (const [, id, uri] of text.matchAll(/extmap:([0-9]{1,5})(?:\/[a-z]+)?[ \t]+([^\s"]+)/g)) {
            if (+id >= 1 && +id <= 255) this.uris.set(+id, uri);
        }
        for (const [, number, name, clock] of text.matchAll(/rtpmap:([0-9]{1,3})[ \t]+([^\s/]+)\/([0-9]{1,9})/g)) {
            this.names.set(+number, name);
            this.clocks.set(+number, +clock);
        }
        for (const [, number, repaired] of text.matchAll(/fmtp:([0-9]{1,3})[ \t]+[^\n]*?\bapt=([0-9]{1,3})/g)) {
            this.repairedTypes.set(+number, +repaired);
        }
        for (const [, first, second] of text.matchAll(/ssrc-group:FID[ \t]+([0-9]{1,10})[ \t]+([0-9]{1,10})/g)) {
            this.repaired.set(+second, +first);
        }
    }
}
