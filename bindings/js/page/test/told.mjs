// Prints what the page's code tells of each capture of a folder, as CSV, without a browser.
// usage: node told.mjs FOLDER
import { readFileSync, readdirSync } from 'node:fs';
import * as wire from '../../rtp_wire.mjs';
import { Analysis } from '../analysis.mjs';
import { asCsv, datagramRows, extensionRows, packetRow, sentencesOf, sourceRow } from '../tables.mjs';

const at = name => new URL(name, import.meta.url);
const described = JSON.parse(readFileSync(at('../../../python/src/rtp_wire/tables.json')));
const [, , folder] = process.argv;

/** All tables of an analysis. */
function tablesOf(analysis) {
    const { packets, capture, sources } = analysis, { verdicts } = described;
    const words = {isTimed: capture.isTimed, clocks: sources.map(it => it.clock), verdicts};
    return {
        datagrams: datagramRows(analysis, described),
        extensions: extensionRows(analysis, described),
        sources: analysis.inOrder().map(it => sourceRow(analysis, it, described)),
        packets: Array.from({length: packets.count}, (_, i) => packetRow(packets, i, words)),
    };
}

await wire.load(readFileSync(at('../../rtp_wire.wasm')));
for (const name of readdirSync(folder).sort()) {
    const analysis = await Analysis.of(wire, described, new Blob([readFileSync(`${folder}/${name}`)]));
    const tables = Object.entries(tablesOf(analysis)).map(([table, rows]) => asCsv(described.tables[table], rows));
    process.stdout.write([name, ...sentencesOf(analysis, described), ...tables].join('\n'));
}
