// SPDX-License-Identifier: MIT OR Apache-2.0
// Copyright (c) 2026 The rtp-wire developers (NOTICE)

// The tables of what a capture says, as tables.json describes them, which Python reads too.
import { endsOf } from './links.mjs';
import { NO_LEVEL, NO_TRANSPORT, NO_VOICE } from './packets.mjs';
import { DUPLICATE, LATE, NO_JITTER, OUTSIDE, RESTART, TAKEN, lostBySecond, worstOf } from './source.mjs';


/** What stands in the table for a cell: a number in units of the column's last decimal, a text, or undefined. */
export function shown(cell, { decimals = 0 } = {}) {
    if (cell === undefined) return '';
    if (typeof cell === 'string') return cell;
    const digits = String(Math.abs(cell)).padStart(decimals + 1, '0'), whole = digits.length - decimals;
    return (cell < 0 ? '-' : '') + (decimals ? `${digits.slice(0, whole)}.${digits.slice(whole)}` : digits);
}

export const headingOf = ({ heading, unit }) => (unit ? `${heading} (${unit})` : heading);

/** A table as CSV (RFC 4180), whose first line has the headings. */
export function asCsv({ columns }, rows) {
    const quoted = it => (/[",\r\n]/.test(it) ? `"${it.replaceAll('"', '""')}"` : it);
    const line = cells => `${cells.map(quoted).join(',')}\r\n`;
    return [line(columns.map(headingOf)), ...rows.map(row => line(row.map((it, i) => shown(it, columns[i]))))].join('');
}

export const ssrcText = ssrc => `0x${ssrc.toString(16).padStart(8, '0')}`;

/** The number times the factor over the divisor, rounded down; undefined where one isn't there. */
function ratio(number, factor, divisor) {
    if (number === undefined || !divisor) return undefined;
    const product = number * factor;
    if (product <= Number.MAX_SAFE_INTEGER) return Math.floor((product - product % divisor) / divisor);
    return Number(BigInt(number) * BigInt(factor) / BigInt(divisor));
}

export function datagramRows({ counts }, { kinds }) {
    return Object.entries(counts).filter(([, [count]]) => count).map(([kind, [count, size]]) => [kinds[kind], count, size]);
}

export function extensionRows({ map, origins: found }, { origins }) {
    const uris = new Map(map.uris);
    return [...found].map(([id, origin]) => [id, uris.get(id) ?? '', origins[origin]]);
}

export function sourceRow({ capture, sdp }, source, { clocks }) {
    const { isTimed } = capture, { texts, counts, found, expected } = source;
    const lost = found.reduce((sum, it) => sum + it.lost, 0), seconds = lostBySecond(found);
    const worst = isTimed ? worstOf(seconds) : undefined, took = source.last - source.first;
    const types = [...source.types].sort((a, b) => a - b);
    return [
        ssrcText(source.ssrc),
        source.repairs ? ssrcText(source.repairs.ssrc) : '',
        ...endsOf(capture.flows.list[source.flow]),
        types.map(it => (sdp.names.has(it) ? `${it} ${sdp.names.get(it)}` : `${it}`)).join(', '),
        texts.mid.join(', '),
        (texts.rid.length ? texts.rid : texts.repairedRid).join(', '),
        source.packets,
        expected,
        lost,
        ratio(lost, 1000, expected),
        found.reduce((most, it) => Math.max(most, it.lost), 0),
        counts[DUPLICATE],
        counts[LATE],
        source.reordered,
        counts[OUTSIDE],
        counts[RESTART],
        ratio(source.jitter, 10000, source.clock),
        ratio(source.jitterHighest, 10000, source.clock),
        isTimed ? ratio(source.bytes, 8000000, took) : undefined,
        source.clock,
        clocks[source.clockBy] ?? '',
        isTimed ? Math.floor(source.first / 1e6) : undefined,
        isTimed ? Math.floor(took / 1e6) : undefined,
        worst,
        worst === undefined ? undefined : seconds.get(worst),
    ];
}

/** The row of a packet of the columns, whose sources have these clocks. */
export function packetRow(packets, i, { isTimed, clocks, verdicts }) {
    const { verdict, level, voice, transport, jitter } = packets, isTaken = verdict[i] === TAKEN || verdict[i] === RESTART;
    return [
        packets.row[i] + 1,
        isTimed ? Math.floor(packets.time[i] / 1000) : undefined,
        ssrcText(packets.ssrc[i]),
        packets.type[i],
        packets.number[i],
        isTaken ? packets.extended[i] : undefined,
        packets.timestamp[i],
        packets.marker[i],
        packets.size[i],
        verdicts[verdict[i]],
        jitter[i] === NO_JITTER ? undefined : ratio(jitter[i], 10000, clocks[packets.source[i]]),
        level[i] === NO_LEVEL ? undefined : level[i],
        voice[i] === NO_VOICE ? undefined : voice[i] ? 'yes' : 'no',
        transport[i] === NO_TRANSPORT ? undefined : transport[i],
    ];
}

const filled = (text, words) => text.replace(/\{(\w+)\}/g, (_, name) => words[name]);

/** How many frames were left out for each cause: "95 of TCP, 3 of the Ethernet type 0x0806". */
function causesText(causes, { left, protocols }) {
    return causes.map(({ cause, number, count }) => {
        const hex = `0x${number.toString(16).padStart(4, '0')}`;
        const of = cause === 'type' ? hex : protocols[number] ?? `the IP protocol ${number}`;
        return `${count} ${filled(left[cause], {of})}`;
    }).join(', ');
}

/** What is told of a capture in words. */
export function sentencesOf(analysis, described) {
    const { sentences } = described;
    const { capture, counts, sources } = analysis, told = [];
    if (capture.count) {
        const [rtp, rtcp] = [counts.rtp[0], counts.rtcp[0]], worst = analysis.worst();
        const words = {datagrams: capture.count, rtp, rtcp, other: capture.count - rtp - rtcp, sources: sources.length};
        words.seconds = shown(Math.floor(analysis.lastTime / 1e6), {decimals: 3});
        told.push(filled(sentences[capture.isTimed ? 'read' : 'untimed'], words));
        const restarts = sources.reduce((sum, it) => sum + it.counts[RESTART], 0);
        if (worst) told.push(filled(sentences.worst, worst));
        else if (sources.length && !restarts && !sources.some(it => it.found.length)) told.push(sentences.none_lost);
        if (restarts) told.push(filled(sentences.restarts, {count: restarts}));
    }
    const all = words => (words.causes ? {...words, causes: causesText(words.causes, described)} : words);
    return [...told, ...capture.sentences.map(({ name, words }) => filled(sentences[name], all(words)))];
}

