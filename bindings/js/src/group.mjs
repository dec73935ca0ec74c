// SPDX-License-Identifier: MIT OR Apache-2.0
// Copyright (c) 2026 The rtp-wire developers (NOTICE)

// One packet to all its receivers: a header for each, before the one payload.
import { badField, check, elementId, named, rowsOf, unsigned, within } from './errors.mjs';
import { placeElements } from './header.mjs';
import { ELEMENT, FIELDS, GROUP, ROUTED_HEADER, TEMPLATE } from './layout.mjs';
import { NewIds } from './map.mjs';
import { allocate, bytesOf, library, output, put, putData, size, u16, u32, u8 } from './memory.mjs';

const LONGEST_HEADER = 262216, MOST_ELEMENTS = 16, NO_BYTES = new Uint8Array(0);
// Where the header of a group lies, its receivers, and the headers that they get: rooms that grow.
const rooms = {header: {at: 0, size: 0}, receivers: {at: 0, size: 0}, headers: {at: 0, size: 0}};

function roomOf(name, bytes) {
    if (bytes > rooms[name].size) {
        rooms[name] = {at: allocate(2 * bytes), size: 2 * bytes};
    }
    return rooms[name].at;
}

const fewElements = elements => {
    const all = [...elements];
    within('the number of elements', all.length, 0, MOST_ELEMENTS);
    return all;
};

// The columns of receivers that are fields of a packet: the bits of each, where it stands, and what says that it is there.
const columnOf = (name, bits, place, has) =>
    ({name, bits, place: ROUTED_HEADER.fields + place, has: ROUTED_HEADER.fields + has});
const COLUMNS = [
    columnOf('timestamp', 32, FIELDS.timestamp, FIELDS.hasTimestamp),
    columnOf('ssrc', 32, FIELDS.ssrc, FIELDS.hasSsrc),
    columnOf('sequenceNumber', 16, FIELDS.sequenceNumber, FIELDS.hasSequenceNumber),
    columnOf('payloadType', 7, FIELDS.payloadType, FIELDS.hasPayloadType),
    columnOf('marker', 1, FIELDS.marker, FIELDS.hasMarker),
    {name: 'originalNumber', bits: 16, place: ROUTED_HEADER.originalNumber, has: ROUTED_HEADER.isRetransmission},
    {name: 'clearsPadding', bits: 1, place: ROUTED_HEADER.clearsPadding, has: ROUTED_HEADER.clearsPadding},
];
const COLUMN_NAMES = [...COLUMNS.map(it => it.name), 'data'];

/** A row of a column, which of a flag may be a boolean. */
const rowOf = (name, value, bits) => unsigned(name, bits === 1 && typeof value === 'boolean' ? Number(value) : value, bits);

function putColumn(to, count, { name, bits, place, has }, column) {
    if (rowsOf(name, column).length !== count) {
        throw badField(`${name} has ${column.length} rows, and there are ${count} receivers`);
    }
    for (let i = 0, at = to; i < count; i++, at += ROUTED_HEADER.size) {
        if (column[i] !== undefined) {
            const value = rowOf(name, column[i], bits);
            u8[at + has] = 1;
            if (bits === 32) {
                u32[at + place >> 2] = value;
            } else if (bits === 16) {
                u16[at + place >> 1] = value;
            } else {
                u8[at + place] = value;
            }
        }
    }
}

/** The header that a packet gets for a group, of which each receiver gets a copy with fields and data of its own. */
export class HeaderTemplate {
    #made;
    #header;

    /** Use `group.template`, or `HeaderTemplate.make`. */
    constructor(made, header) {
        this.#made = u8.slice(made, made + TEMPLATE.size);
        /** How many bytes of data each receiver brings. */
        this.dataLen = u16[made + TEMPLATE.dataTotal >> 1];
        /** How many bytes each header has, without the number behind that of a retransmission. */
        this.headerLen = size(made + TEMPLATE.headerLen);
        this.#header = u8.slice(header, header + this.headerLen);
    }

    /**
     * Of a packet: its elements under their new ids, and those without one gone, and these elements put, pairs of an id
     * and its data. Only the packet's header is looked at.
     */
    static make(datagram, ids, elements = [], allowed = 0) {
        const { data, dataLen, at, count } = placeElements(fewElements(elements), output(512)), packet = bytesOf(datagram);
        const given = [NewIds.place(ids), data, dataLen, at, count, within('allowed', allowed, 0, 2)];
        return HeaderTemplate.#of(packet, count, (from, ...to) => library.make_template(from, packet.length, ...given, ...to));
    }

    /** The same of a group that was prepared; for `group.template`. */
    static place(group, count, datagram) {
        const packet = bytesOf(datagram);
        return HeaderTemplate.#of(packet, count, (from, ...to) => library.make_from_group(group, from, packet.length, ...to));
    }

    static #of(packet, count, make) {
        const room = 2 * Math.min(packet.length, LONGEST_HEADER) + 264 * count + 8;
        const to = roomOf('header', room), made = output(8);
        check(make(put(packet), to, room, made));
        return new HeaderTemplate(made, to);
    }

    /** The bytes of the header, before any receiver's fields and data. */
    get header() {
        return this.#header.slice();
    }

    /**
     * The headers of all receivers, one after another in one buffer. Columns tell the receivers, a row for each:
     * `ssrc`, `sequenceNumber`, `timestamp`, `payloadType`, `marker`, where it isn't the packet's; `originalNumber` of
     * those that get it as a retransmission (RFC 4588, 4), which stands in two bytes behind the header; `clearsPadding`
     * where the payload is sent without its padding. A row that is undefined is as without the column, and any other is
     * a number, or of a flag a boolean. `data` are the data of the elements, `dataLen` bytes for each receiver.
     */
    write(count, columns = {}) {
        named('columns of receivers', columns, COLUMN_NAMES);
        const to = roomOf('receivers', within('the number of receivers', count, 0, 0xFFFFF) * ROUTED_HEADER.size);
        const room = count * (this.headerLen + 2), buf = roomOf('headers', room);
        const made = output(8), header = roomOf('header', this.headerLen);
        const data = bytesOf(columns.data ?? NO_BYTES), dataAt = putData(data);
        if (data.length !== count * this.dataLen) {
            throw badField(`data are ${data.length} bytes, and ${count} times ${this.dataLen} are wanted`);
        }
        u8.fill(0, to, to + count * ROUTED_HEADER.size);
        for (const it of COLUMNS) {
            if (columns[it.name] !== undefined) {
                putColumn(to, count, it, columns[it.name]);
            }
        }
        for (let i = 0; i < count; i++) {
            u32[to + i * ROUTED_HEADER.size + ROUTED_HEADER.dataAt >> 2] = i * this.dataLen;
        }
        u8.set(this.#made, made);
        u8.set(this.#header, header);
        check(library.write_headers(made, header, this.headerLen, dataAt, data.length, to, count, buf, room));
        return HeaderTemplate.#told(to, count, buf);
    }

    static #told(from, count, buf) {
        const at = new Uint32Array(count), lengths = new Uint32Array(count);
        for (let i = 0; i < count; i++) {
            const it = from + i * ROUTED_HEADER.size;
            at[i] = size(it + ROUTED_HEADER.at);
            lengths[i] = size(it + ROUTED_HEADER.len);
        }
        const end = count === 0 ? 0 : at[count - 1] + lengths[count - 1];
        return {bytes: u8.slice(buf, buf + end), at, lengths};
    }
}

/** Receivers that have in common the new ids of a packet's elements, and the elements that are put into it: checked once,
 * when the ids are agreed on. */
export class Group {
    #at = allocate(GROUP.size, this);
    #count;

    /** Of new ids, pairs of the id of an element and how many bytes of data it has, and the form that a block may get. */
    constructor(ids, elements = [], allowed = 0) {
        const given = fewElements(elements), at = output(8);
        given.forEach(([id, dataLen], i) => {
            const to = at + i * ELEMENT.size;
            u8.fill(0, to, to + ELEMENT.size);
            u32[to + ELEMENT.dataLen >> 2] = within('dataLen', dataLen, 0, 255);
            u8[to + ELEMENT.id] = elementId(id);
        });
        this.#count = given.length;
        check(library.prepare_group(NewIds.place(ids), at, given.length, within('allowed', allowed, 0, 2), this.#at));
    }

    /** The header that this packet gets for the group. */
    template(datagram) {
        return HeaderTemplate.place(this.#at, this.#count, datagram);
    }
}
