// SPDX-License-Identifier: MIT OR Apache-2.0
// Copyright (c) 2026 The rtp-wire developers (NOTICE)

// The pictures of a capture and of a source, all over the one time axis.
import { Chart } from './chart.mjs';
import { NO_LEVEL, NO_TRANSPORT } from './packets.mjs';
import { DUPLICATE, LATE, NO_JITTER, OUTSIDE, RESTART, TAKEN } from './source.mjs';

// So many sources have a row in the first picture.
const MOST_ROWS = 12;
const SECOND = 1e9, COLORS = ['--one', '--two', '--three', '--four'];
// What is told of a packet that wasn't taken, or not in order.
const MARKED = {[DUPLICATE]: '--four', [LATE]: '--three', [OUTSIDE]: '--soft', [RESTART]: '--ink'};

/** The first place in sorted times that isn't before the time. */
export function placeOf(times, time) {
    let low = 0, high = times.length;
    while (low < high) {
        const middle = (low + high) >> 1;
        if (times[middle] < time) low = middle + 1;
        else high = middle;
    }
    return low;
}

/** The place of the time that is nearest; undefined where there is none. */
export function nearest(times, time) {
    const place = placeOf(times, time);
    if (place > 0 && (place === times.length || time - times[place - 1] <= times[place] - time)) return place - 1;
    return times.length ? place : undefined;
}

/** Values that are summed in equal parts of the time that is shown. */
class Bins {
    constructor(axis, count = 300) {
        this.count = count;
        this.from = axis.from;
        this.width = (axis.to - axis.from) / count;
        this.values = new Float64Array(count);
    }
    /** Adds the values of the places whose times are shown; the times are sorted. */
    add(times, value) {
        const end = this.from + this.width * this.count;
        for (let i = placeOf(times, this.from); i < times.length && times[i] <= end; i++) {
            this.values[Math.min(this.count - 1, Math.floor((times[i] - this.from) / this.width))] += value(i);
        }
        return this;
    }
    at(time) { return this.values[Math.min(this.count - 1, Math.max(0, Math.floor((time - this.from) / this.width)))]; }
    get highest() { return this.values.reduce((a, b) => Math.max(a, b), 0); }
}

/** Draws bars that stand on the lowest value. */
function bars(chart, bins, color) {
    chart.g.fillStyle = chart.color(color);
    bins.values.forEach((value, i) => {
        if (!value) return;
        const x = chart.x(bins.from + i * bins.width), y = chart.y(value);
        chart.g.fillRect(x, y, Math.max(1.5, chart.inner / bins.count - 0.5), chart.bottom - y);
    });
}

/** Draws points, of those that fall on one pixel one. */
function points(chart, times, values, color, keep = () => true, size = 2) {
    const { g, axis } = chart, drawn = new Set();
    g.fillStyle = chart.color(color);
    for (let i = placeOf(times, axis.from); i < times.length && times[i] <= axis.to; i++) {
        if (!keep(i)) continue;
        const x = Math.round(chart.x(times[i])), y = Math.round(chart.y(values[i])), key = x * 4096 + y;
        if (drawn.has(key)) continue;
        drawn.add(key);
        g.fillRect(x - size / 2, y - size / 2, size, size);
    }
}

/** Draws steps from each value to the next one. */
function steps(chart, times, values, color, keep = () => true) {
    const { g, axis } = chart;
    g.strokeStyle = chart.color(color);
    g.lineWidth = 1.5;
    g.beginPath();
    let last, begun = false;
    for (let i = Math.max(0, placeOf(times, axis.from) - 1); i < times.length; i++) {
        if (!keep(i)) continue;
        const x = chart.x(times[i]), y = chart.y(values[i]);
        if (!begun) g.moveTo(x, y);
        else {
            g.lineTo(x, last);
            g.lineTo(x, y);
        }
        [last, begun] = [y, true];
        if (times[i] > axis.to) break;
    }
    if (begun) g.lineTo(chart.x(axis.to), last);
    g.stroke();
    g.lineWidth = 1;
}

/** The lowest and the highest of the values that are shown. */
function shownBounds(axis, times, values, keep = () => true) {
    let low = Infinity, high = -Infinity;
    for (let i = placeOf(times, axis.from); i < times.length && times[i] <= axis.to; i++) {
        if (!keep(i)) continue;
        low = Math.min(low, values[i]);
        high = Math.max(high, values[i]);
    }
    return low > high ? [0, 1] : [low, Math.max(high, low + 1)];
}

const plural = (count, one) => `${count} ${one}${count === 1 ? '' : 's'}`;

/** Where packets are lost: a row for each source, which is darker where more are. */
export function overview(axis, told) {
    const sources = told.order.slice(0, MOST_ROWS).map((it, place) => ({
        gaps: told.gaps[it], times: told.gaps[it].map(gap => gap.time), name: told.sources[place][0],
    }));
    const count = sources.length || 1, binsOf = it => new Bins(axis).add(it.times, i => it.gaps[i].lost);
    const chart = new Chart(axis, {
        title: 'Lost packets by source', height: 30 + 16 * count, keys: [['--two', 'lost: the darker the more']],
        bounds: () => [-0.5, count - 0.5],
        paint(it) {
            it.g.fillStyle = it.color('--two');
            const all = sources.map(binsOf), most = all.reduce((high, bins) => Math.max(high, bins.highest), 1);
            all.forEach((bins, row) => bins.values.forEach((value, i) => {
                if (!value) return;
                it.g.globalAlpha = 0.25 + 0.75 * value / most;
                const x = it.x(bins.from + i * bins.width), width = Math.max(2, it.inner / bins.count);
                it.g.fillRect(x, it.y(count - 1 - row) - 6, width, 12);
            }));
            it.g.globalAlpha = 1;
        },
        tell: time => {
            const isNear = gap => Math.abs(gap.time - time) <= SECOND / 2;
            const second = it => it.gaps.filter(isNear).reduce((sum, gap) => sum + gap.lost, 0);
            const lost = sources.map(it => [it.name, second(it)]).filter(([, number]) => number);
            const words = lost.map(([name, number]) => `${number} of ${name}`).join(', ');
            return lost.length ? `within a second ${words}` : 'none lost within a second';
        },
        sum: () => sources.map(it => `${it.name}: ${it.gaps.reduce((sum, gap) => sum + gap.lost, 0)} lost`).join('; '),
    });
    chart.marks = sources.map((_, row) => row);
    chart.label = row => sources[count - 1 - row]?.name.slice(2) ?? '';
    return chart;
}

/** The pictures of a source, by its packets' columns. */
export function picturesOf(axis, columns, { gaps, allocations, clock, isTimed }) {
    const lossTimes = gaps.map(it => it.time);
    return [
        numbers(axis, columns, gaps, lossTimes),
        loss(axis, gaps, lossTimes, columns.verdict.includes(RESTART)),
        ...(isTimed && clock ? [jitter(axis, columns, clock)] : []),
        ...(isTimed ? [rate(axis, columns)] : []),
        ...(columns.level.some(it => it !== NO_LEVEL) ? [levels(axis, columns)] : []),
        ...(allocations.length ? [layers(axis, allocations)] : []),
        ...(columns.transport.some(it => it !== NO_TRANSPORT) ? [transport(axis, columns)] : []),
    ];
}

function numbers(axis, { time, extended, verdict, number }, gaps, lossTimes) {
    const isTaken = i => verdict[i] === TAKEN || verdict[i] === RESTART;
    return new Chart(axis, {
        title: 'Number', height: 120,
        keys: [['--one', 'taken'], ['--two', 'gap'], ['--four', 'duplicate'], ['--three', 'too late'], ['--soft', 'outside']],
        bounds: () => shownBounds(axis, time, extended, isTaken),
        paint(it) {
            it.g.fillStyle = it.color('--two');
            for (let i = placeOf(lossTimes, axis.from); i < gaps.length && lossTimes[i] <= axis.to; i++) {
                const top = it.y(gaps[i].before + gaps[i].lost), height = it.y(gaps[i].before) - top;
                it.g.fillRect(it.x(lossTimes[i]) - 1, top - 3, 2, height + 6);
            }
            points(it, time, extended, '--one', isTaken);
            const low = Float64Array.from(extended, (value, i) => (isTaken(i) ? value : it.low + (it.high - it.low) * 0.04));
            for (const [kind, color] of Object.entries(MARKED)) points(it, time, low, color, i => verdict[i] === +kind, 4);
        },
        tell: at => {
            const i = nearest(time, at);
            return i === undefined ? '' : `number ${number[i]}${isTaken(i) ? `, extended ${extended[i]}` : ', not taken'}`;
        },
        sum: () => `${plural(time.length, 'packet')}, ${plural(gaps.length, 'gap')}.`,
    });
}

function loss(axis, gaps, times, hasRestarts) {
    let bins = new Bins(axis);
    return new Chart(axis, {
        title: 'Lost packets', keys: [['--two', 'missed in a 300th of the range']],
        bounds: () => [0, Math.max(2, (bins = new Bins(axis).add(times, i => gaps[i].lost)).highest)],
        paint: it => bars(it, bins, '--two'),
        tell: time => plural(bins.at(time), 'packet'),
        sum: () => {
            const worst = gaps.reduce((most, it) => (it.lost > (most?.lost ?? 0) ? it : most), undefined);
            const lost = gaps.reduce((sum, it) => sum + it.lost, 0);
            return worst ? `${lost} lost; the longest gap of ${worst.lost} at ${axis.text(worst.time)}.`
                : hasRestarts ? 'None is known to be lost: the sender began anew.' : 'None is lost.';
        },
    });
}

function jitter(axis, { time, jitter: ticks }, clock) {
    const there = i => ticks[i] !== NO_JITTER;
    const values = Float64Array.from(ticks, it => (it === NO_JITTER ? 0 : it * 1000 / clock));
    return new Chart(axis, {
        title: 'Jitter', unit: 'ms',
        bounds: () => [0, Math.max(1, shownBounds(axis, time, values, there)[1])],
        paint: it => points(it, time, values, '--one', there),
        tell: at => `${(values[nearest(time, at)] ?? 0).toFixed(1)} ms`,
        sum: () => `At most ${values.reduce((a, b) => Math.max(a, b), 0).toFixed(1)} ms.`,
    });
}

function rate(axis, { time, size }) {
    let bins = new Bins(axis, 150);
    return new Chart(axis, {
        title: 'Rate', unit: 'kbit/s',
        bounds: () => {
            bins = new Bins(axis, 150).add(time, i => size[i] * 8);
            bins.values = bins.values.map(it => it * 1e6 / bins.width);
            return [0, Math.max(1, bins.highest)];
        },
        paint(it) {
            const times = Float64Array.from(bins.values, (_, i) => bins.from + i * bins.width);
            steps(it, times, bins.values, '--one');
        },
        tell: at => `${bins.at(at).toFixed(0)} kbit/s`,
        sum: () => `At most ${bins.highest.toFixed(0)} kbit/s in a 150th of the range.`,
    });
}

function levels(axis, { time, level, voice }) {
    const there = i => level[i] !== NO_LEVEL;
    return new Chart(axis, {
        title: 'Audio level', unit: 'dB', keys: [['--one', 'without voice'], ['--three', 'with voice']],
        bounds: () => [-127, 0],
        paint(it) {
            points(it, time, level, '--one', i => there(i) && voice[i] !== 1);
            points(it, time, level, '--three', i => there(i) && voice[i] === 1);
        },
        tell: at => {
            const i = nearest(time, at);
            return i === undefined || !there(i) ? 'none' : `${level[i]} dB${voice[i] === 1 ? ', voice' : ''}`;
        },
        sum: () => {
            const told = level.filter(it => it !== NO_LEVEL).length, voiced = voice.filter(it => it === 1).length;
            return `${plural(told, 'packet')} with a level, ${voiced} with voice.`;
        },
    });
}

/** The rate of each layer of each stream, with all of its temporal layers. */
function layers(axis, allocations) {
    const lines = new Map(), size = it => (it.width === undefined ? '' : ` ${it.width}x${it.height} ${it.framerate} fps`);
    for (const { time, streams } of allocations) {
        streams.forEach((spatial, stream) => spatial.forEach((layer, i) => {
            const key = `${stream}.${i}`;
            if (!lines.has(key)) lines.set(key, {times: [], values: [], layers: []});
            const line = lines.get(key);
            line.times.push(time);
            line.values.push(Number(layer.kbps.at(-1) ?? 0));
            line.layers.push(layer);
        }));
    }
    const all = [...lines], isActive = layer => layer.kbps.length > 0;
    const text = ({ layers: of, values }, i) => (isActive(of[i]) ? `${values[i]} kbit/s${size(of[i])}` : 'not active');
    return new Chart(axis, {
        title: 'Rates of the layers', unit: 'kbit/s', keys: all.map(([key], i) => [COLORS[i % 4], key]),
        bounds: () => [0, all.reduce((high, [, line]) => Math.max(high, ...line.values), 100)],
        paint: it => all.forEach(([, line], i) => steps(it, line.times, line.values, COLORS[i % 4])),
        tell: at => all.map(([key, line]) => {
            const i = placeOf(line.times, at + 1) - 1;
            return i < 0 ? '' : `${key}: ${text(line, i)}`;
        }).filter(Boolean).join('; '),
        sum: () => all.map(([key, line]) => `${key}: ${text(line, line.times.length - 1)} at the end`).join('; '),
    });
}

function transport(axis, { time, transport: values }) {
    const there = i => values[i] !== NO_TRANSPORT;
    return new Chart(axis, {
        title: 'Transport-wide number',
        bounds: () => shownBounds(axis, time, values, there),
        paint: it => points(it, time, values, '--one', there),
        tell: at => {
            const i = nearest(time, at);
            return i === undefined || !there(i) ? 'none' : `${values[i]}`;
        },
        sum: () => `${plural(values.filter(it => it !== NO_TRANSPORT).length, 'packet')} with one.`,
    });
}
