// SPDX-License-Identifier: MIT OR Apache-2.0
// Copyright (c) 2026 The rtp-wire developers (NOTICE)

// What reads a capture beside the page, so that this stays alive: it is asked by messages, and answers each by one.
import * as wire from '../rtp_wire.mjs';
import { Analysis, parsed } from './analysis.mjs';
import { cutRows, fieldRows } from './fields.mjs';
import { bytesOf } from './lines.mjs';
import { datagramRows, extensionRows, sentencesOf, sourceRow } from './tables.mjs';

let described, file, analysis, ready;

const REQUESTS = {
    /** The module's bytes, and the description of the tables. */
    begin({ bytes, tables }) {
        described = tables;
        ready = wire.load(bytes);
    },

    /** Reads a file. */
    async open(asked) {
        await ready;
        file = asked.file;
        let before = 0;
        analysis = await Analysis.of(wire, described, file, asked.sdp, read => {
            if (read - before > file.size / 100 || read === file.size) postMessage({progress: (before = read) / file.size});
        });
        const order = analysis.inOrder(), { columns, buffers } = analysis.packets.given();
        postMessage({told: {
            sentences: sentencesOf(analysis, described), isTimed: analysis.capture.isTimed,
            isText: analysis.capture.isText, worst: analysis.worst(),
            firstTime: analysis.firstTime, lastTime: analysis.lastTime, datagrams: datagramRows(analysis, described),
            extensions: extensionRows(analysis, described), sources: order.map(it => sourceRow(analysis, it, described)),
            order: order.map(it => analysis.sources.indexOf(it)), clocks: analysis.sources.map(it => it.clock),
            gaps: analysis.sources.map(it => it.found), allocations: analysis.sources.map(it => it.allocations),
            packets: columns,
        }}, buffers);
    },

    /** The header of a packet, by where it lies in the file. */
    async header({ place, length, isText }) {
        const read = new Uint8Array(await file.slice(place, place + length).arrayBuffer());
        const bytes = isText ? bytesOf(read) : read, isWhole = parsed(wire, bytes, analysis.map) !== undefined;
        postMessage({header: isWhole ? fieldRows(wire, bytes, analysis.map) : cutRows(bytes), place});
    },
};

onmessage = async ({ data }) => {
    try {
        await REQUESTS[data.request](data);
    } catch (error) {
        postMessage({failed: error.message});
    }
};
