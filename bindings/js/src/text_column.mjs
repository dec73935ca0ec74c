// SPDX-License-Identifier: MIT OR Apache-2.0
// Copyright (c) 2026 The rtp-wire developers (NOTICE)

// A column of texts.
import { text, u8 } from './memory.mjs';

/** The texts of a kind, a row for each datagram. Equal texts are kept once: `numbers` has for each row the place of its
 * text in `texts`, and 0 where it isn't there. */
export class TextColumn {
    texts = [undefined];
    #known = new globalThis.Map();

    constructor(count) {
        this.numbers = new Uint32Array(count);
        this.length = count;
    }

    /** The text of a row; undefined where it isn't there. */
    at(row) {
        return this.texts[this.numbers[row]];
    }

    *[Symbol.iterator]() {
        for (const number of this.numbers) {
            yield this.texts[number];
        }
    }

    /** Takes so many texts out of structs. */
    copy(from, flag, step, row, count, there) {
        const { numbers } = this, bytes = u8;
        for (let i = row; i < row + count; i++, from += step, flag += step) {
            if (bytes[flag] !== 0) {
                numbers[i] = this.#numberOf(bytes, from);
                there[i] = 1;
            }
        }
    }

    /** The place of the text that begins there, and ends at a zero. */
    #numberOf(bytes, from) {
        let hash = 0, end = from;
        for (; bytes[end] !== 0; end++) {
            hash = Math.imul(hash, 31) + bytes[end] | 0;
        }
        for (; ; hash = hash + 1 | 0) {
            const number = this.#known.get(hash);
            if (number === undefined) {
                this.#known.set(hash, this.texts.length);
                return this.texts.push(text(from, end - from)) - 1;
            }
            if (this.#isText(number, bytes, from, end - from)) {
                return number;
            }
        }
    }

    #isText(number, bytes, from, len) {
        const known = this.texts[number];
        if (known.length !== len) {
            return false;
        }
        for (let i = 0; i < len; i++) {
            if (known.charCodeAt(i) !== bytes[from + i]) {
                return false;
            }
        }
        return true;
    }
}
