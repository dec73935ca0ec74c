// SPDX-License-Identifier: MIT OR Apache-2.0
// Copyright (c) 2026 The rtp-wire developers (NOTICE)

// The module, and its one linear memory.
import { RtpError } from './errors.mjs';

/** The functions of the module, which have pointers and sizes of 32 bits; a number of 64 bits is given as two. */
export let library = new Proxy({}, {
    get() {
        throw new RtpError('NOT_LOADED');
    },
});
/** The memory as bytes, as numbers of 16 and 32 bits, and as numbers with a sign. */
export let u8, u16, u32, i8, i32;

const PAGE = 65536, ALIGNED = 8;
let memory, top;
const blocks = new globalThis.Map(); // by their size those that were given back
const owners = new FinalizationRegistry(({ at, size }) => blocks.get(size).push(at));
// Where a call finds its bytes and the data of elements, and where it writes.
const places = {input: 0, inputSize: 0, data: 0, dataSize: 0, output: 0};

async function moduleBeside() {
    const url = new URL('../rtp_wire.wasm', import.meta.url);
    if (url.protocol !== 'file:') {
        return fetch(url);
    }
    const { readFile } = await import('node:fs/promises');
    return readFile(url);
}

async function compiled(given) {
    let source = await given;
    if (typeof source === 'string' || source instanceof URL) {
        source = await fetch(source);
    }
    if (typeof Response === 'function' && source instanceof Response) {
        source = await source.arrayBuffer();
    }
    return source instanceof WebAssembly.Module ? source : WebAssembly.compile(source);
}

/**
 * Makes the module ready, which comes before each other call: of its bytes, a URL, a Response or a WebAssembly.Module,
 * or of rtp_wire.wasm beside the package. It is done once; a later call changes nothing.
 */
export async function load(source) {
    if (!memory) {
        const { exports } = await WebAssembly.instantiate(await compiled(source ?? await moduleBeside()));
        memory ?? begin(exports);
    }
}

function begin(exports) {
    library = exports;
    memory = exports.memory;
    top = Math.ceil(Number(exports.__heap_base.value) / ALIGNED) * ALIGNED;
    look();
    places.output = allocate(PAGE);
    [places.input, places.inputSize] = [allocate(PAGE), PAGE];
    [places.data, places.dataSize] = [allocate(PAGE), PAGE];
}

function look() {
    const { buffer } = memory;
    u8 = new Uint8Array(buffer), u16 = new Uint16Array(buffer), u32 = new Uint32Array(buffer);
    i8 = new Int8Array(buffer), i32 = new Int32Array(buffer);
}

/** Room for so many bytes, all of them 0. Where it has an owner it is given back once nothing refers to that. */
export function allocate(bytes, owner) {
    const size = Math.ceil(bytes / ALIGNED) * ALIGNED;
    let at = blocks.get(size)?.pop();
    if (at === undefined) {
        at = top;
        const lacks = at + size - (memory ?? library.memory).buffer.byteLength;
        if (lacks > 0) {
            memory.grow(Math.ceil(lacks / PAGE));
            look();
        }
        top = at + size;
    }
    u8.fill(0, at, at + size);
    if (owner) {
        blocks.has(size) || blocks.set(size, []);
        owners.register(owner, {at, size});
    }
    return at;
}

/** The bytes of an ArrayBuffer, a typed array or a DataView, where they lie. Items of more than a byte, which lie in the
 * machine's order, are none. */
export function bytesOf(data) {
    if (data instanceof Uint8Array) {
        return data;
    }
    if (ArrayBuffer.isView(data)) {
        if (data.BYTES_PER_ELEMENT > 1) {
            throw new TypeError(`the items of ${data.constructor.name} are ${data.BYTES_PER_ELEMENT} bytes: give its bytes`);
        }
        return new Uint8Array(data.buffer, data.byteOffset, data.byteLength);
    }
    if (data instanceof ArrayBuffer || (typeof SharedArrayBuffer === 'function' && data instanceof SharedArrayBuffer)) {
        return new Uint8Array(data);
    }
    throw new TypeError(`bytes are ${data === null ? 'null' : typeof data}, and no typed array`);
}

/** Room for the bytes that a call reads or changes. */
export function inputOf(size) {
    if (size > places.inputSize) {
        [places.input, places.inputSize] = [allocate(2 * size), 2 * size];
    }
    return places.input;
}

/** Copies bytes to where a call finds them. */
export function put(bytes) {
    const at = inputOf(bytes.length);
    u8.set(bytes, at);
    return at;
}

/** Copies the data of elements, which have a place of their own: so they overlap nothing. */
export function putData(bytes) {
    if (bytes.length > places.dataSize) {
        [places.data, places.dataSize] = [allocate(2 * bytes.length), 2 * bytes.length];
    }
    u8.set(bytes, places.data);
    return places.data;
}

/** Room for a struct that a call writes: at most 32,768 bytes, of which `more` of them are another one's. */
export const output = (more = 0) => places.output + more;

/** The size that a call wrote. */
export const size = at => u32[at >> 2];

/** A number of 64 bits: a BigInt where it is above 2^53 - 1. */
export function number64(at) {
    const low = u32[at >> 2], high = u32[(at >> 2) + 1];
    return high < 0x200000 ? high * 0x100000000 + low : BigInt(high) << 32n | BigInt(low);
}

/** The two halves of a number of 64 bits, the low one first. */
export function halves(name, value) {
    if (typeof value === 'bigint') {
        if (value < 0n || value >> 64n !== 0n) {
            throw new RtpError('BAD_FIELD', `${name} is ${value}, and no number of 64 bits`);
        }
        return [Number(value & 0xFFFFFFFFn), Number(value >> 32n)];
    }
    if (!Number.isInteger(value)) {
        throw new TypeError(`${name} is ${typeof value === 'number' ? value : typeof value}, and no whole number`);
    }
    if (value < 0 || value > Number.MAX_SAFE_INTEGER) {
        throw new RtpError('BAD_FIELD', `${name} is ${value}: give a BigInt for one above 2^53 - 1`);
    }
    return [value % 0x100000000, Math.floor(value / 0x100000000)];
}

/** Puts a number of 64 bits into a struct. */
export function put64(at, name, value) {
    [u32[at >> 2], u32[(at >> 2) + 1]] = halves(name, value);
}

/** A text that ends at a zero, or after so many bytes. */
export function text(at, most) {
    let made = '';
    for (let i = at; i < at + most && u8[i] !== 0; i++) {
        made += String.fromCharCode(u8[i]);
    }
    return made;
}
