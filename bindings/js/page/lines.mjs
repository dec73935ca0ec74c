// SPDX-License-Identifier: MIT OR Apache-2.0
// Copyright (c) 2026 The rtp-wire developers (NOTICE)

// Lines of hexadecimal digits, one for each datagram, with lines `map ID URI` before them.

const LF = 10, CR = 13, SECOND = 1e9;
const text = new TextDecoder();
const MAP_LINE = /^map ([0-9]{1,3}) ([^]+)$/;

// The value of each digit's character, and 255 of every other one.
const DIGITS = new Uint8Array(256).fill(255);
for (let i = 0; i < 16; i++) {
    DIGITS[i.toString(16).charCodeAt(0)] = DIGITS[i.toString(16).toUpperCase().charCodeAt(0)] = i;
}

const withoutReturn = (bytes, at, end) => end > at && bytes[end - 1] === CR ? end - 1 : end;

/** How many bytes a mark of UTF-8 has before the first line. */
const markOf = bytes => (bytes[0] === 0xEF && bytes[1] === 0xBB && bytes[2] === 0xBF ? 3 : 0);

/** Whether the file begins with a line of digits, or one that maps an id. Empty lines may stand before it. */
export function isLines(head) {
    for (let at = markOf(head), lf = 0; lf >= 0; at = lf + 1) {
        lf = head.indexOf(LF, at);
        const line = head.subarray(at, withoutReturn(head, at, lf < 0 ? head.length : lf));
        if (line.length) return line.every(it => DIGITS[it] !== 255) || MAP_LINE.test(text.decode(line));
    }
    return false;
}

/** The bytes that digits spell; undefined where the characters are other ones, or an odd number of them. */
export function bytesOf(characters) {
    if (characters.length % 2) return undefined;
    const made = new Uint8Array(characters.length / 2);
    for (let i = 0; i < made.length; i++) {
        const high = DIGITS[characters[2 * i]], low = DIGITS[characters[2 * i + 1]];
        if ((high | low) === 255) return undefined;
        made[i] = high << 4 | low;
    }
    return made;
}

/** A bad line, at which the program rtp_lines ends, is left out. */
export class LineReader {
    hasEnded = false;
    #line = 0;
    #bad = 0;
    #firstBad = 0;
    #count = 0;

    constructor(capture) {
        this.capture = capture;
        capture.isTimed = false;
        capture.isText = true;
    }
    /** Reads the whole lines of the slice, and returns how many bytes they have. Their datagrams stand in its place. */
    read(datagrams) {
        const { bytes, isLast } = datagrams, decoded = new Uint8Array(bytes.length >> 1);
        let at = datagrams.fileAt === 0 ? markOf(bytes) : 0, made = 0;
        while (at < bytes.length) {
            const lf = bytes.indexOf(LF, at);
            if (lf < 0 && !isLast) break;
            const end = withoutReturn(bytes, at, lf < 0 ? bytes.length : lf);
            this.#line++;
            const line = bytes.subarray(at, end), datagram = this.#isMapLine(line) ? null : bytesOf(line);
            if (datagram) {
                decoded.set(datagram, made);
                datagrams.add(this.#count++ * SECOND, made, datagram.length, datagram.length, this.#flow(bytes),
                    datagrams.fileAt + at, line.length);
                made += datagram.length;
            } else if (datagram === undefined) {
                this.#bad++;
                this.#firstBad ||= this.#line;
            }
            at = lf < 0 ? bytes.length : lf + 1;
        }
        datagrams.bytes = decoded;
        return at;
    }
    #flow(bytes) { return this.capture.flows.indexOf(bytes, 0, 0, 0); }

    #isMapLine(line) {
        if (this.#count > 0 || line[0] !== 109) return false;
        const words = MAP_LINE.exec(text.decode(line));
        if (!words || +words[1] < 1 || +words[1] > 255) return false;
        this.capture.mapLines.set(+words[1], words[2]);
        return true;
    }
    finish() {
        if (this.#bad) this.capture.say('lines', {count: this.#bad, line: this.#firstBad});
    }
}
