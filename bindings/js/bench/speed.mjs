// SPDX-License-Identifier: MIT OR Apache-2.0
// Copyright (c) 2026 The rtp-wire developers (NOTICE)

// 100,000 packets with four values by columns: the package, and a plain reader in JavaScript (plain.mjs), of which each is
// timed in turn. Told is the least of the rounds, in milliseconds: in Node of the processors' time, and in a browser by the
// clock.
//
// usage: node speed.mjs [ROUNDS [MOST]]     with MOST: fails where the package takes more than so many times the plain one's
import { Columns, ExtensionMap, load } from '../rtp_wire.mjs';
import { columnsOf, read } from './plain.mjs';

export const COUNT = 100000, VALUES = ['audioLevel', 'sendTime', 'transportNumber', 'mid'];

/** Lines of a capture: what they map, and its datagrams one after the other until there are so many. */
export function corpusOf(lines) {
    const words = lines.split('\n').filter(it => it !== '').map(it => it.split(' '));
    const map = ExtensionMap.fromUris(words.filter(it => it[0] === 'map').map(([, id, uri]) => [Number(id), uri]));
    const datagrams = words.filter(it => it[0] !== 'map').map(([it]) => Uint8Array.from(it.match(/../g), byte => parseInt(byte, 16)));
    const at = new Uint32Array(COUNT), lengths = new Uint32Array(COUNT);
    let end = 0;
    for (let i = 0; i < COUNT; i++) {
        at[i] = end, lengths[i] = datagrams[i % datagrams.length].length;
        end += lengths[i];
    }
    const buffer = new Uint8Array(end);
    at.forEach((it, i) => buffer.set(datagrams[i % datagrams.length], it));
    const kinds = new Uint8Array(256);
    for (const [id, kind] of map) kinds[id] = kind;
    return {map, at, lengths, buffer, kinds};
}

/** A sum over all that was asked for, so that both have to tell the same. */
function sumOf(fields, values, has, texts) {
    let sum = 0;
    for (let i = 0; i < COUNT; i++) {
        sum += fields.ssrc[i] + fields.sequenceNumber[i] + fields.timestamp[i] + fields.payloadType[i] + fields.marker[i]
            + fields.headerLen[i] + fields.unpaddedLen[i] + (has[0][i] ? values[0][i] : 0) + (has[1][i] ? values[1][i] : 0)
            + (has[2][i] ? values[2][i] : 0) + (has[3][i] ? texts[values[3][i]].length : 0);
    }
    return sum;
}

const ways = {
    package({ buffer, at, lengths, map }) {
        const columns = Columns.parse(buffer, at, lengths, map, VALUES), { values, has } = columns;
        return () => sumOf(columns, [values.audioLevel, values.sendTime, values.transportNumber, values.mid.numbers],
            VALUES.map(it => has[it]), values.mid.texts);
    },
    plain({ buffer, at, lengths, kinds }) {
        const view = new DataView(buffer.buffer), it = columnsOf(COUNT);
        for (let i = 0; i < COUNT; i++) it.status[i] = read(it, i, view, buffer, at[i], lengths[i], kinds);
        return () => sumOf(it, [it.audioLevel, it.sendTime, it.transportNumber, it.mid],
            [it.hasAudioLevel, it.hasSendTime, it.hasTransportNumber, it.hasMid], it.texts);
    },
};

/** The least time of each way, in milliseconds. */
export function time(corpus, rounds, clock) {
    const least = {}, sums = {};
    for (let round = 0; round < rounds; round++) {
        for (const [name, way] of Object.entries(ways)) {
            const start = clock(), sum = way(corpus);
            least[name] = Math.min(least[name] ?? Infinity, clock() - start);
            sums[name] ??= sum();
        }
    }
    if (sums.package !== sums.plain) throw new Error(`the package tells ${sums.package}, and the plain reader ${sums.plain}`);
    return least;
}

function processorTime() {
    const { user, system } = process.cpuUsage();
    return (user + system) / 1000;
}

if (typeof process === 'object' && process.argv[1] === new URL(import.meta.url).pathname) {
    const { readFileSync, readdirSync } = await import('node:fs');
    const captures = new URL('../../../captures/', import.meta.url), [, , rounds = 15, most = Infinity] = process.argv;
    await load();
    for (const name of readdirSync(captures).filter(it => it.endsWith('.lines'))) {
        const corpus = corpusOf(readFileSync(new URL(name, captures), 'utf8'));
        const { package: own, plain } = time(corpus, Number(rounds), processorTime);
        console.log(`${name}: ${own.toFixed(1)} ms, plain ${plain.toFixed(1)} ms, ${(own / plain).toFixed(2)} times`);
        if (own > plain * Number(most)) process.exitCode = 1;
    }
}
