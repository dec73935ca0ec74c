// SPDX-License-Identifier: MIT OR Apache-2.0
// Copyright (c) 2026 The rtp-wire developers (NOTICE)

// Why a call is refused.
import { STATUS, STATUS_TEXTS } from './layout.mjs';

const MESSAGES = {
    ...STATUS_TEXTS,
    LEFT_OUT: 'values that no element carries',
    NOT_LOADED: 'the module is not loaded: await load() comes first',
};
const CODES = Object.freeze(Object.fromEntries(Object.entries(STATUS).map(([code, status]) => [status, code])));

/** A call was refused, and changed nothing. `code` says why: a name of `Status`, LEFT_OUT or NOT_LOADED. */
export class RtpError extends Error {
    constructor(code, message = MESSAGES[code]) {
        super(message);
        this.name = 'RtpError';
        this.code = code;
    }
}

/** The bytes are no RTP packet. */
export class NotAPacket extends RtpError {
    constructor(code) {
        super(code);
        this.name = 'NotAPacket';
    }
}

/** The name of a status, as `code` has it. */
export const codeOf = status => CODES[status];

/** Throws the error for a status that isn't OK. */
export function check(status, message) {
    if (status === STATUS.OK) {
        return;
    }
    throw status <= STATUS.CUT_BLOCK && status !== STATUS.UNKNOWN_FORM ? new NotAPacket(CODES[status])
        : new RtpError(CODES[status], status === STATUS.BAD_FIELD ? message : undefined);
}

export const badField = message => new RtpError('BAD_FIELD', message);

/** The value, where it is a whole number in this range. */
export function within(name, value, low, high) {
    if (!Number.isInteger(value)) {
        throw new TypeError(`${name} is ${typeof value === 'number' ? value : typeof value}, and no whole number`);
    }
    if (value < low || value > high) {
        throw badField(`${name} is ${value}, and not ${low} to ${high}`);
    }
    return value;
}

/** The value, where it is a whole number of so many bits, up to 32. */
export const unsigned = (name, value, bits) => within(name, value, 0, 2 ** bits - 1);

/** The value as a flag. */
export function flag(name, value) {
    if (typeof value !== 'boolean') {
        throw new TypeError(`${name} is ${typeof value}, and no boolean`);
    }
    return value ? 1 : 0;
}

/** The rows of a column, an array of any kind of numbers. */
export function rowsOf(name, column) {
    if (!Array.isArray(column) && !(ArrayBuffer.isView(column) && !(column instanceof DataView))) {
        throw new TypeError(`${name} are ${column === null ? 'null' : typeof column}, and no array`);
    }
    return column;
}

/** Refuses what is given by another name than these. */
export function named(what, given, names) {
    if (typeof given !== 'object' || given === null) {
        throw new TypeError(`${what} are ${given === null ? 'null' : typeof given}, and no object`);
    }
    for (const name of Object.keys(given)) {
        if (!names.includes(name)) {
            throw badField(`there is no ${name} among ${what}: there are ${names.join(', ')}`);
        }
    }
}

/** The id of an element. */
export function elementId(id) {
    if (Number.isInteger(id) && (id < 1 || id > 255)) {
        throw new RtpError('BAD_ID', `id is ${id}, and not 1 to 255`);
    }
    return within('id', id, 1, 255);
}
