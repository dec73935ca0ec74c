// SPDX-License-Identifier: MIT OR Apache-2.0
// Copyright (c) 2026 The rtp-wire developers (NOTICE)

// The page: it hands a file to the worker, and shows what that tells.
import { Axis } from './chart.mjs';
import { nearest, overview, picturesOf } from './pictures.mjs';
import { asCsv, headingOf, packetRow, shown } from './tables.mjs';

const $ = id => document.getElementById(id);
const described = JSON.parse($('tables').textContent);
// So many rows of a table are shown, and so many packets around the cursor.
const MOST_ROWS = 200, AROUND = 7;
const LOSSY = 10; // tenths of a percent

let file, told, axis, charts = [], overviewChart, chosen, headerOf;

const worker = begun();

/** The bytes that an element of this page has, packed by gzip. */
function unpacked(id) {
    const bytes = Uint8Array.from(atob($(id).textContent), it => it.charCodeAt(0));
    return new Response(new Blob([bytes]).stream().pipeThrough(new DecompressionStream('gzip'))).arrayBuffer();
}

async function begun() {
    const made = new Worker(URL.createObjectURL(new Blob([await unpacked('worker')], {type: 'text/javascript'})));
    made.onmessage = ({ data }) => {
        if (data.progress !== undefined) $('progress').value = data.progress;
        else if (data.told) show(data.told);
        else if (data.header) showHeader(data);
        else if (data.failed) fail(data.failed);
    };
    made.onerror = ({ message }) => fail(message);
    made.postMessage({request: 'begin', bytes: await unpacked('module'), tables: described});
    return made;
}

/** Asks the worker for something; where this browser can't have it, that is said. */
const asked = request => worker.then(it => it.postMessage(request)).catch(error => fail(error.message));

function fail(why) {
    $('working').hidden = true;
    say([`This can't be read: ${why}`]);
}

function open(given) {
    file = given;
    $('progress').value = 0;
    $('working').hidden = false;
    $('told').hidden = true;
    say([]);
    const sdp = $('sdp').value.trim();
    asked({request: 'open', file, sdp: sdp === '' ? undefined : sdp});
}

function say(sentences) {
    $('said').replaceChildren(...sentences.map((text, i) => {
        const p = document.createElement('p');
        p.textContent = text;
        if (i === 1 && told?.worst) p.className = 'worst';
        return p;
    }));
}

/** Fills a table; `mark(cell, row, column)` may change what a cell looks like. */
function fill(table, name, rows, mark = () => {}) {
    const { title, columns } = described.tables[name], caption = document.createElement('caption');
    const kept = columns.map((_, i) => i).filter(i => !rows.length || rows.some(row => shown(row[i], columns[i]) !== ''));
    caption.textContent = title;
    const line = (cells, tag) => {
        const tr = document.createElement('tr');
        tr.append(...kept.map(i => {
            const cell = document.createElement(tag);
            if (columns[i].text) cell.className = 'text';
            cells(cell, i);
            return cell;
        }));
        return tr;
    };
    const head = document.createElement('thead'), body = document.createElement('tbody');
    head.append(line((cell, i) => {
        cell.scope = 'col';
        cell.title = columns[i].meaning;
        cell.textContent = headingOf(columns[i]);
    }, 'th'));
    body.append(...rows.map((row, place) => {
        const tr = line((cell, i) => {
            cell.textContent = shown(row[i], columns[i]);
            mark(cell, place, columns[i].name, row[i]);
        }, 'td');
        tr.dataset.place = place;
        return tr;
    }));
    table.replaceChildren(caption, head, body);
    return body.rows;
}

/** The packets of each source, as columns of their own. */
function splitBySource(packets, count) {
    const counts = new Uint32Array(count + 1), starts = new Uint32Array(count + 2);
    const of = i => (packets.source[i] < 0 ? count : packets.source[i]);
    for (let i = 0; i < packets.count; i++) counts[of(i)]++;
    counts.forEach((number, i) => { starts[i + 1] = starts[i] + number; });
    const order = new Uint32Array(packets.count), at = starts.slice();
    for (let i = 0; i < packets.count; i++) order[at[of(i)]++] = i;
    return source => {
        const places = order.subarray(starts[source], starts[source + 1]), columns = {places};
        for (const [name, column] of Object.entries(packets)) {
            if (name !== 'count') columns[name] = column.constructor.from(places, it => column[it]);
        }
        return sorted(columns);
    };
}

/** The pictures look for a time among sorted ones: a capture whose clock ran back is put in order. */
function sorted(columns) {
    if (columns.time.every((time, i, times) => i === 0 || times[i - 1] <= time)) return columns;
    const order = Uint32Array.from(columns.time.keys()).sort((a, b) => columns.time[a] - columns.time[b]);
    const inOrder = ([name, column]) => [name, column.constructor.from(order, it => column[it])];
    return Object.fromEntries(Object.entries(columns).map(inOrder));
}

function show(given) {
    told = given;
    headerOf = undefined;
    told.columnsOf = splitBySource(told.packets, told.clocks.length);
    for (const gaps of told.gaps) gaps.sort((a, b) => a.time - b.time);
    $('working').hidden = true;
    say(told.sentences);
    $('told').hidden = told.sources.length === 0;
    fill($('datagrams'), 'datagrams', told.datagrams);
    fill($('extensions'), 'extensions', told.extensions);
    showSources();
    if (told.sources.length === 0) return;
    axis = new Axis(told.firstTime, told.lastTime, told.isTimed);
    axis.watch(moved);
    overviewChart = overview(axis, told);
    $('overview').replaceChildren(overviewChart.element);
    choose(0);
    axis.point(told.worst ? (told.worst.begin + told.worst.end) / 2 * 1e9 : 0);
}

function showSources() {
    const rows = told.sources.slice(0, MOST_ROWS), { columns } = described.tables.sources;
    const share = columns.findIndex(it => it.name === 'lost_share');
    fill($('sources'), 'sources', rows, (cell, place, name, value) => {
        if ((name === 'lost' || name === 'lost_share') && rows[place][share] >= LOSSY) cell.className = 'bad';
        if (name !== 'ssrc') return;
        const button = document.createElement('button');
        button.type = 'button';
        button.textContent = value;
        button.onclick = () => choose(place);
        cell.replaceChildren(button);
    });
    const left = told.sources.length - rows.length;
    $('more').textContent = left > 0 ? `${rows.length} of ${told.sources.length} are shown; the CSV has all.` : '';
}

/** Shows the pictures and packets of a source, by its place in the table. */
function choose(place) {
    const index = told.order[place];
    chosen = {index, place, columns: told.columnsOf(index)};
    [...$('sources').tBodies[0].rows].forEach((row, i) => row.setAttribute('aria-selected', i === place));
    const { columns } = described.tables.sources, row = told.sources[place];
    const value = name => shown(row[columns.findIndex(it => it.name === name)]);
    const words = [value('ssrc'), value('mid') && `mid ${value('mid')}`, value('rid') && `rid ${value('rid')}`,
        value('repairs') && `retransmissions of ${value('repairs')}`, value('types') && `type ${value('types')}`];
    $('h-source').textContent = `Source ${words.filter(Boolean).join(', ')}`;
    const { gaps, allocations, clocks, isTimed } = told;
    const of = {gaps: gaps[index], allocations: allocations[index], clock: clocks[index], isTimed};
    charts = picturesOf(axis, chosen.columns, of);
    $('pictures').replaceChildren(...charts.map(it => it.element));
    drawAll();
    showPackets();
}

function drawAll() {
    for (const it of [overviewChart, ...charts]) it.draw();
    $('range').textContent = `${axis.text(axis.from)} to ${axis.text(axis.to)} of ${axis.text(axis.end)}`;
}

let isDue = false;
function moved(what) {
    if (what === 'range') drawAll();
    if (isDue) return;
    isDue = true;
    requestAnimationFrame(() => {
        isDue = false;
        for (const it of [overviewChart, ...charts]) it.mark();
        showPackets();
    });
}

const rowOf = i => packetRow(told.packets, i, {isTimed: told.isTimed, clocks: told.clocks, verdicts: described.verdicts});

/** The packets of the source around the cursor; the header of the one at it. */
function showPackets() {
    const { columns } = chosen, at = nearest(columns.time, axis.cursor ?? 0) ?? 0, from = Math.max(0, at - AROUND);
    const places = [...columns.places.subarray(from, at + AROUND + 1)];
    const rows = fill($('packets'), 'packets', places.map(rowOf), (cell, place, name, value) => {
        if (name === 'verdict' && value !== 'taken') cell.classList.add('bad');
        if (name !== 'row') return;
        const button = document.createElement('button');
        button.type = 'button';
        button.textContent = value;
        button.onclick = () => header(place);
        cell.replaceChildren(button);
    });
    const header = place => {
        [...rows].forEach((row, i) => row.setAttribute('aria-selected', i === place));
        ask(places[place]);
    };
    header(at - from);
}

function ask(i) {
    const { place, placeLength, row } = told.packets;
    if (headerOf === row[i]) return;
    headerOf = row[i];
    $('h-header').textContent = `Header of datagram ${row[i] + 1}`;
    asked({request: 'header', place: place[i], length: placeLength[i], isText: told.isText});
}

function showHeader({ header }) {
    fill($('fields'), 'fields', header, (cell, _, name) => { if (name === 'bytes') cell.className = 'code'; });
}

function save(name) {
    const rows = name === 'sources' ? told.sources : Array.from(chosen.columns.places, rowOf);
    const link = document.createElement('a');
    link.href = URL.createObjectURL(new Blob([asCsv(described.tables[name], rows)], {type: 'text/csv'}));
    link.download = `${file.name.replace(/\.\w+$/, '')}-${name}.csv`;
    link.click();
    setTimeout(() => URL.revokeObjectURL(link.href), 1000);
}

$('file').onchange = ({ target }) => target.files[0] && open(target.files[0]);
$('again').onclick = () => file && open(file);
$('whole').onclick = () => axis.showAll();
for (const it of document.querySelectorAll('[data-csv]')) it.onclick = () => save(it.dataset.csv);
$('drop').ondragover = event => {
    event.preventDefault();
    $('drop').classList.add('over');
};
$('drop').ondragleave = () => $('drop').classList.remove('over');
$('drop').ondrop = event => {
    event.preventDefault();
    $('drop').classList.remove('over');
    if (event.dataTransfer.files[0]) open(event.dataTransfer.files[0]);
};
addEventListener('resize', () => told?.sources.length && drawAll());
matchMedia('(prefers-color-scheme: dark)').addEventListener('change', () => told?.sources.length && drawAll());
