// Runs the tests of the library for C over the module, which they call in place of the library: those that beside.sh
// compiled. usage: node beside.mjs RTP_WIRE.wasm FOLDER [SEED [ROUNDS]]
import { readFileSync, readdirSync } from 'node:fs';

const [, , wasm, folder, seed = 1, rounds = 20000] = process.argv;
const library = await WebAssembly.compile(readFileSync(wasm));
const PAGES = 512; // more than what a test has before it asks for more

async function run(name) {
    const { exports } = await WebAssembly.instantiate(library), { memory } = exports;
    memory.grow(PAGES - memory.buffer.byteLength / 65536);
    const say = (at, len) => process.stdout.write(Buffer.from(memory.buffer, at >>> 0, len));
    const imports = {env: {memory}, host: {say}, rtp_wire: exports};
    const test = await WebAssembly.instantiate(await WebAssembly.compile(readFileSync(`${folder}/${name}`)), imports);
    try {
        const status = test.exports.run(Number(seed), Number(rounds));
        if (status !== 0) {
            console.log(`${name}: ${status === 2 ? 'a byte in front of a buffer or behind it was written' : `status ${status}`}`);
        }
        return status;
    } catch (error) {
        console.log(`${name}: ${error}`);
        return 1;
    }
}

// Those that take no time come first.
const names = readdirSync(folder).filter(it => it.endsWith('.wasm') && it !== 'hostile.wasm');
for (const name of [...names, 'hostile.wasm']) {
    if (await run(name) !== 0) {
        process.exit(1);
    }
}
console.log(`${names.length} tests by hand, and ${rounds} rounds of those with random bytes`);
