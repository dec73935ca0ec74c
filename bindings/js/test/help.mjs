// What several tests call.
import assert from 'node:assert/strict';
import { readFileSync, readdirSync } from 'node:fs';
import { ExtensionMap, load } from '../rtp_wire.mjs';

const captures = new URL('../../../captures/', import.meta.url);

export const bytes = text => Uint8Array.from(text.replaceAll(/\s/g, '').match(/../g) ?? [], it => parseInt(it, 16));
export const hex = data => Buffer.from(data).toString('hex');

/** The map and the datagrams of each capture. */
export async function capturesOf() {
    await load();
    return readdirSync(captures).filter(it => it.endsWith('.lines')).map(name => {
        const lines = readFileSync(new URL(name, captures), 'utf8').split('\n').map(it => it.split(' '));
        const map = ExtensionMap.fromUris(lines.filter(it => it[0] === 'map').map(([, id, uri]) => [Number(id), uri]));
        return {name, map, datagrams: lines.filter(([it]) => it && it !== 'map').map(([it]) => bytes(it))};
    });
}

/** That a call throws an error with this code. */
export function refuses(code, call) {
    assert.throws(call, error => error.code === code || assert.fail(`${error.code ?? error.stack}, and not ${code}`));
}
