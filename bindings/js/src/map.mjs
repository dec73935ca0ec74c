// SPDX-License-Identifier: MIT OR Apache-2.0
// Copyright (c) 2026 The rtp-wire developers (NOTICE)

// Which extension each id means, and the ids of another map.
import { check, within } from './errors.mjs';
import { KIND } from './layout.mjs';
import { allocate, library, output, putData, size, text, u8 } from './memory.mjs';

const MOST_URI = 1024, encoder = new TextEncoder();

/** The URI, which has to be a text. */
function uriText(uri) {
    if (typeof uri !== 'string') {
        throw new TypeError(`a URI is ${uri === null ? 'null' : typeof uri}, and no string`);
    }
    return uri;
}

/** The kind of a URI, a number of `Kind`; undefined where the library doesn't know it, also where it is misspelled. */
export function kindOfUri(uri) {
    const bytes = encoder.encode(uriText(uri));
    if (bytes.length > MOST_URI) {
        return undefined;
    }
    return library.kind_of_uri(putData(bytes), bytes.length) || undefined;
}

/** The URI that names a kind in SDP; undefined of a kind of your own. */
export function uriOfKind(kind) {
    const at = output(8), status = library.uri_of_kind(within('a kind', kind, 0, 255), at, MOST_URI, output());
    return status === 0 ? text(at, size(output())) : undefined;
}

/**
 * Numbers of your own, 128 to 255, for URIs that the library doesn't know. Maps that share a table give one URI the
 * same number, so its elements go on from one map to the other (`NewIds.between`). A server that takes SDPs from
 * strangers makes one for each call.
 */
export class OwnUris {
    #kinds = new globalThis.Map();

    /** The number of a URI, a new one where it has none; undefined where all 128 are given. */
    kindOf(uri) {
        uriText(uri);
        const kind = this.#kinds.get(uri) ?? KIND.OWN + this.#kinds.size;
        if (kind > 255) {
            return undefined;
        }
        this.#kinds.set(uri, kind);
        return kind;
    }

    /** The URI of a number; undefined where it has none. */
    uriOf(kind) {
        return [...this.#kinds].find(([, number]) => number === kind)?.[0];
    }
}

const SHARED = new OwnUris();

/** The text of an SDP. */
function textOf(sdp) {
    if (Array.isArray(sdp) && sdp.every(it => typeof it === 'string')) {
        return sdp.join('\n');
    }
    const text = sdp?.sdp ?? sdp;
    if (typeof text !== 'string') {
        throw new TypeError(`an SDP is ${sdp === null ? 'null' : typeof sdp}, and no text, lines or object with the text sdp`);
    }
    return text;
}

/** The lines `a=extmap:ID URI` of an SDP, as pairs. Ids that no element has are passed over. */
export function extensionsOf(sdp) {
    return [...textOf(sdp).matchAll(/^\s*a=extmap:(\d+)(?:\/\w+)?[ \t]+(\S+)/gm)].map(([, id, uri]) => [Number(id), uri])
        .filter(([id]) => id >= 1 && id <= 255);
}

/** Which extension each id means (RFC 8285, 5). */
export class ExtensionMap {
    #at = allocate(256, this);
    #unknown = new globalThis.Map();
    #own = SHARED;

    /** Of pairs of an id and a kind, if any. */
    constructor(kinds = []) {
        for (const [id, kind] of kinds) {
            this.set(id, kind);
        }
    }

    /** The usual ids: 1 audio level, 2 send time, 3 transport number, 4 mid, 10 rid, 11 repaired rid, 13 video
     * orientation. */
    static standard() {
        const map = new ExtensionMap();
        library.map_standard(map.#at);
        return map;
    }

    /** The map of an SDP's lines `a=extmap:ID URI`: of its text, of an array of lines, or of an object whose `sdp` is the
     * text, as `remoteDescription` of an RTCPeerConnection is. */
    static fromSdp(sdp, own = SHARED) {
        return ExtensionMap.fromUris(extensionsOf(sdp), own);
    }

    /** The map of pairs of an id and a URI. One that isn't known gets a number of your own; `leftOut` tells those for
     * which there was none left. */
    static fromUris(uris, own = SHARED) {
        const map = new ExtensionMap();
        map.#own = own;
        for (const [id, uri] of uris) {
            const known = kindOfUri(uri), kind = known ?? own.kindOf(uri);
            map.delete(within('an id', id, 1, 255));
            if (kind !== undefined) {
                map.set(id, kind);
            }
            if (known === undefined) {
                map.#unknown.set(id, uri);
            }
        }
        return map;
    }

    /** Where the map lies in the module's memory. */
    static place(map) {
        if (!(map instanceof ExtensionMap)) {
            throw new TypeError(`a map is ${map === null ? 'null' : typeof map}, and no ExtensionMap`);
        }
        return map.#at;
    }

    /** The kind that an id means; undefined where it means none. */
    get(id) {
        return library.map_get(this.#at, within('an id', id, 0, 255)) || undefined;
    }

    /** The id means the kind from now on. */
    set(id, kind) {
        check(library.map_set(this.#at, within('an id', id, 1, 255), within('a kind', kind, 0, 255)));
        this.#unknown.delete(id);
    }

    /** The id means nothing from now on; whether it did. */
    delete(id) {
        const there = this.get(id) !== undefined;
        library.map_remove(this.#at, id);
        return this.#unknown.delete(id) || there;
    }

    /** The lowest id that means the kind; undefined where none does. */
    idOf(kind) {
        return library.id_of(this.#at, within('a kind', kind, 0, 255)) || undefined;
    }

    /** Pairs of each id and its kind. */
    *[Symbol.iterator]() {
        for (let id = 1; id < 256; id++) {
            const kind = u8[this.#at + id];
            if (kind !== 0) {
                yield [id, kind];
            }
        }
    }

    /** Pairs of each id and its URI, as an answer in SDP says it; a number of your own that was set by hand has none. */
    get uris() {
        const named = [...this].map(([id, kind]) => [id, this.#unknown.get(id) ?? uriOfKind(kind)]);
        return named.filter(([, uri]) => uri !== undefined);
    }

    /** Pairs of an id and its URI, where the library doesn't know that and it has a number. */
    get unknown() {
        return [...this.#unknown].filter(([id]) => this.get(id) !== undefined);
    }

    /** Those for which no number was left: their elements go on to nobody. */
    get leftOut() {
        return [...this.#unknown].filter(([id]) => this.get(id) === undefined);
    }

    /** Whether two maps have their own numbers of one table. */
    sharesNumbersWith(other) {
        return this.#own === other.#own;
    }
}

/** The new id that elements of each id get; those of an id that has none become padding. */
export class NewIds {
    #at = allocate(256, this);

    /** Of pairs of an id and its new one, if any. */
    constructor(ids = []) {
        for (const [id, to] of ids) {
            this.set(id, to);
        }
    }

    /** For each id of a kind in the sender's map, your own kinds too, its lowest id in the receiver's. */
    static between(sender, receiver) {
        const ids = new NewIds();
        library.new_ids_between(ExtensionMap.place(sender), ExtensionMap.place(receiver), ids.#at);
        if (!sender.sharesNumbersWith(receiver)) {
            ids.#compare(sender.unknown, receiver.unknown);
        }
        return ids;
    }

    /** Of ids whose numbers are of two tables, and so say nothing of each other, the URIs tell which go on. */
    #compare(sender, receiver) {
        const known = new globalThis.Map([...receiver].reverse().map(([id, uri]) => [uri, id]));
        const theirs = new Set(receiver.map(([id]) => id));
        for (const [id, uri] of sender) {
            const to = this.get(id);
            if (to === undefined || theirs.has(to)) {
                u8[this.#at + id] = known.get(uri) ?? 0;
            }
        }
    }

    /** The new ids where packets become retransmissions (RFC 8852, 3): a stream's id becomes the repaired one's. */
    static toRetransmission(map) {
        const ids = new NewIds();
        library.new_ids_to_retransmission(ExtensionMap.place(map), ids.#at);
        return ids;
    }

    /** The same on the way back. */
    static fromRetransmission(map) {
        const ids = new NewIds();
        library.new_ids_from_retransmission(ExtensionMap.place(map), ids.#at);
        return ids;
    }

    /** Where they lie in the module's memory. */
    static place(ids) {
        if (!(ids instanceof NewIds)) {
            throw new TypeError(`new ids are ${ids === null ? 'null' : typeof ids}, and no NewIds`);
        }
        return ids.#at;
    }

    /** The new id of an id; undefined where it has none. */
    get(id) {
        return u8[this.#at + within('an id', id, 1, 255)] || undefined;
    }

    set(id, to) {
        u8[this.#at + within('an id', id, 1, 255)] = within('a new id', to, 1, 255);
    }

    /** Elements of the id become padding; whether they had a new one. */
    delete(id) {
        const there = this.get(id) !== undefined;
        u8[this.#at + id] = 0;
        return there;
    }

    /** Pairs of each id and its new one. */
    *[Symbol.iterator]() {
        for (let id = 1; id < 256; id++) {
            const to = u8[this.#at + id];
            if (to !== 0) {
                yield [id, to];
            }
        }
    }
}
