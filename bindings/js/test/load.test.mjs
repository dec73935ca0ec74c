// The module is loaded of whatever it is given as. Each test has a memory of its own.
import assert from 'node:assert/strict';
import { readFileSync } from 'node:fs';
import { createServer } from 'node:http';
import { after, before, test } from 'node:test';
import { load } from '../rtp_wire.mjs';
import { VERSION_NUMBER } from '../src/layout.mjs';

const bytes = readFileSync(new URL('../rtp_wire.wasm', import.meta.url));
const server = createServer((_, answer) => answer.end(bytes));
let url, count = 0;

before(() => new Promise(go => server.listen(0, '127.0.0.1', () => {
    url = `http://127.0.0.1:${server.address().port}/rtp_wire.wasm`;
    go();
})));
after(() => {
    server.close();
    server.closeAllConnections();
});

const anew = () => import(`../src/memory.mjs?${count++}`);
const sources = {
    'the file beside the package': () => undefined,
    'a Buffer': () => bytes,
    'an ArrayBuffer': () => bytes.buffer.slice(bytes.byteOffset, bytes.byteOffset + bytes.length),
    'a text': () => url,
    'a URL': () => new URL(url),
    'a Response': () => fetch(url),
    'a Response that is there': async () => fetch(url),
    'a module': () => new WebAssembly.Module(bytes),
};
for (const [name, source] of Object.entries(sources)) {
    test(name, async () => {
        const memory = await anew();
        assert.throws(() => memory.library.version, {code: 'NOT_LOADED'});
        await memory.load(await source());
        assert.equal(memory.library.version(), VERSION_NUMBER);
    });
}

test('a promise of one', async () => {
    const memory = await anew();
    await memory.load(fetch(url));
    assert.equal(memory.library.version(), VERSION_NUMBER);
});

test('what is no module, and then one', async () => {
    const memory = await anew();
    await assert.rejects(memory.load(new Uint8Array(8)), WebAssembly.CompileError);
    await assert.rejects(memory.load(7), TypeError);
    await Promise.all([memory.load(bytes), memory.load(bytes)]);
    const { library } = memory;
    await memory.load(new Uint8Array(8));
    assert.equal(memory.library, library);
    await load();
});
