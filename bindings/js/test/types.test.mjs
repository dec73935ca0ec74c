// What rtp_wire.d.ts declares is what the package has: each export, each member of a class, and each constant.
import assert from 'node:assert/strict';
import { readFileSync } from 'node:fs';
import { before, test } from 'node:test';
import * as rtp from '../rtp_wire.mjs';

const declared = readFileSync(new URL('../rtp_wire.d.ts', import.meta.url), 'utf8').replaceAll(/\/\*\*.*?\*\/|\/\/[^\n]*/gs, '');
const isClass = it => typeof it === 'function' && /^class/.test(String(it));
// What is there for other files of the package.
const INNER = ['place', 'copy'];

before(() => rtp.load());

test('exports', () => {
    const names = [...declared.matchAll(/^export (?:class|function|const) (\w+)/gm)].map(it => it[1]);
    assert.deepEqual(names.sort(), Object.keys(rtp).sort());
});

/** The names of the members of a class, those of an instance and of the class itself. */
function membersOf(type, instance) {
    const own = [...Object.getOwnPropertyNames(type.prototype), ...Object.keys(instance ?? {})]
        .filter(it => !['constructor', ...INNER].includes(it));
    const ofClass = Object.getOwnPropertyNames(type).filter(it => !['length', 'name', 'prototype', ...INNER].includes(it));
    return [...new Set(own), ...ofClass.map(it => `static ${it}`)].sort();
}

test('members', () => {
    const bytes = Buffer.from('8021B798000027100000002C', 'hex');
    const instances = {Packet: rtp.Packet.parse(bytes), Header: new rtp.Header(), Columns: rtp.Columns.parse(bytes, [0], [12]),
        HeaderTemplate: new rtp.Group(new rtp.NewIds()).template(bytes), TextColumn: new rtp.TextColumn(1), RestartingReceiver: new rtp.RestartingReceiver(), Source: new rtp.Source(1)};
    for (const [name, type] of Object.entries(rtp).filter(([name, it]) => isClass(it) && !/^(RtpError|NotAPacket)$/.test(name))) {
        const body = new RegExp(`^export class ${name}\\b[^{]*\\{\\n(.*?)^\\}`, 'ms').exec(declared)[1];
        const told = [...body.matchAll(/^    (static )?(?:readonly )?(\w+)[?(:]/gm)].map(([, of, it]) => `${of ?? ''}${it}`);
        const names = [...new Set(told)].filter(it => it !== 'constructor');
        assert.deepEqual(names.sort(), membersOf(type, instances[name]), name);
    }
});

test('constants', () => {
    for (const name of ['Status', 'Form', 'Standing', 'Kind']) {
        const body = new RegExp(`^export const ${name}: \\{(.*?)\\};`, 'ms').exec(declared)[1];
        const told = [...body.matchAll(/readonly (\w+): (\d+)/g)].map(([, key, value]) => [key, Number(value)]);
        assert.deepEqual(told, Object.entries(rtp[name]), name);
    }
    const columns = /NumberColumn = (.*?);/s.exec(declared)[1].match(/\w+/g), texts = /TextName = (.*?);/s.exec(declared)[1].match(/\w+/g);
    const made = rtp.Columns.parse(new Uint8Array(0), [], [], undefined, [...columns, ...texts]);
    assert.deepEqual(Object.keys(made.values), [...columns, ...texts]);
    assert.ok(columns.every(it => ArrayBuffer.isView(made.values[it])) && texts.every(it => made.values[it] instanceof rtp.TextColumn));
});
