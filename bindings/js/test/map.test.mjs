// Maps of SDP lines, and new ids.
import assert from 'node:assert/strict';
import { before, test } from 'node:test';
import { setFlagsFromString } from 'node:v8';
import { runInNewContext } from 'node:vm';
import * as rtp from '../rtp_wire.mjs';
import { refuses } from './help.mjs';

const { ExtensionMap, Kind, NewIds, OwnUris } = rtp;
const MID = 'urn:ietf:params:rtp-hdrext:sdes:mid', LEVEL = 'urn:ietf:params:rtp-hdrext:ssrc-audio-level';

before(() => rtp.load());

test('the lines of an SDP', () => {
    const sdp = ['v=0', 'm=audio 9 UDP/TLS/RTP/SAVPF 111', `a=extmap:1 ${LEVEL}`, `a=extmap:14/sendonly ${MID} attribute`,
        `a=extmap:0 ${MID}`, `a=extmap:256 ${MID}`, `a=extmap:4096 ${MID}`, 'a=extmap:3', `b=extmap:5 ${MID}`,
        'a=extmap-allow-mixed', 'a=extmap:255\turn:x:mine'].join('\r\n');
    const listed = [[1, LEVEL], [14, MID], [255, 'urn:x:mine']];
    assert.deepEqual(rtp.extensionsOf(sdp), listed);
    assert.deepEqual(rtp.extensionsOf(sdp.split('\r\n')), listed);
    const map = ExtensionMap.fromSdp(sdp);
    assert.deepEqual([map.get(1), map.get(14), map.get(3), map.get(255) >= 128], [Kind.AUDIO_LEVEL, Kind.MID, undefined, true]);
    assert.deepEqual(map.uris, listed);
    assert.deepEqual([map.unknown, map.leftOut], [[[255, 'urn:x:mine']], []]);
    assert.deepEqual([...ExtensionMap.fromSdp('')], []);
    assert.deepEqual(ExtensionMap.fromSdp({type: 'offer', sdp}).uris, listed);
    assert.deepEqual([rtp.extensionsOf({sdp}), rtp.extensionsOf({sdp: ''})], [listed, []]);
    for (const none of [undefined, null, 5, {}, {sdp: 5}, {sdp: null}, [5], ['v=0', null], Symbol('v=0')]) {
        assert.throws(() => ExtensionMap.fromSdp(none), TypeError);
        assert.throws(() => rtp.extensionsOf(none), TypeError);
    }
});

test('the kinds and their URIs', () => {
    const uris = {
        ABS_SEND_TIME: 'http://www.webrtc.org/experiments/rtp-hdrext/abs-send-time',
        AUDIO_LEVEL: LEVEL,
        MID,
        LAYERS: 'http://www.webrtc.org/experiments/rtp-hdrext/video-layers-allocation00',
        DEPENDENCY_DESCRIPTOR: 'https://aomediacodec.github.io/av1-rtp-spec/#dependency-descriptor-rtp-header-extension',
        NTP_56: 'urn:ietf:params:rtp-hdrext:ntp-56',
    };
    for (const [kind, uri] of Object.entries(uris)) {
        assert.deepEqual([rtp.kindOfUri(uri), rtp.uriOfKind(Kind[kind])], [Kind[kind], uri]);
    }
    for (const uri of [undefined, null, 5, ['urn:x']]) {
        assert.throws(() => rtp.kindOfUri(uri), TypeError);
        assert.throws(() => new OwnUris().kindOf(uri), TypeError);
        assert.throws(() => ExtensionMap.fromUris([[1, uri]]), TypeError);
    }
    assert.deepEqual([rtp.kindOfUri('urn:x'), rtp.kindOfUri(''), rtp.kindOfUri(MID + ' '), rtp.kindOfUri('u'.repeat(2000))],
        [undefined, undefined, undefined, undefined]);
    assert.deepEqual([rtp.uriOfKind(0), rtp.uriOfKind(128), rtp.uriOfKind(21)], [undefined, undefined, undefined]);
    refuses('BAD_FIELD', () => rtp.uriOfKind(256));
});

test('a map by hand', () => {
    const map = new ExtensionMap([[1, Kind.AUDIO_LEVEL], [7, Kind.MID]]);
    map.set(3, Kind.MID);
    assert.deepEqual([map.idOf(Kind.MID), map.idOf(Kind.RID), map.idOf(0)], [3, undefined, undefined]);
    assert.deepEqual([...map], [[1, Kind.AUDIO_LEVEL], [3, Kind.MID], [7, Kind.MID]]);
    assert.deepEqual([map.delete(3), map.delete(3), map.get(3), map.idOf(Kind.MID)], [true, false, undefined, 7]);
    for (const [id, kind] of [[0, 1], [256, 1], [1, 0], [1, 21], [1, 127], [1, 256], [-1, 1]]) {
        refuses('BAD_FIELD', () => map.set(id, kind));
    }
    assert.throws(() => map.set('1', 1), TypeError);
    assert.throws(() => map.get(1.5), TypeError);
    map.set(255, 255);
    assert.deepEqual([map.get(255), map.get(0), map.uris], [255, undefined, [[1, LEVEL], [7, MID]]]);
    assert.deepEqual([...ExtensionMap.standard()].map(([id]) => id), [1, 2, 3, 4, 10, 11, 13]);
    assert.deepEqual([...new ExtensionMap()], []);
});

test('numbers of your own', () => {
    const own = new OwnUris(), one = ExtensionMap.fromUris([[1, 'urn:a'], [2, 'urn:b']], own);
    const other = ExtensionMap.fromUris([[5, 'urn:b'], [6, 'urn:c'], [7, 'urn:b']], own);
    assert.deepEqual([...one, ...other], [[1, 128], [2, 129], [5, 129], [6, 130], [7, 129]]);
    assert.deepEqual([own.uriOf(129), own.uriOf(131), own.kindOf('urn:a')], ['urn:b', undefined, 128]);
    const many = Array.from({length: 130}, (_, i) => [i + 1, `urn:${i}`]), full = ExtensionMap.fromUris(many, new OwnUris());
    assert.deepEqual([full.get(128), full.get(129), full.leftOut], [255, undefined, [[129, 'urn:128'], [130, 'urn:129']]]);
    one.set(1, Kind.MID);
    assert.deepEqual([one.unknown, one.uris], [[[2, 'urn:b']], [[1, MID], [2, 'urn:b']]]);
    one.delete(2);
    assert.deepEqual([one.unknown, one.leftOut], [[], []]);
    refuses('BAD_FIELD', () => ExtensionMap.fromUris([[256, 'urn:a']]));
    const last = ExtensionMap.fromUris([[1, 'urn:a'], [1, MID], [2, MID], [2, 'urn:a']], own);
    assert.deepEqual([[...last], last.unknown], [[[1, Kind.MID], [2, 128]], [[2, 'urn:a']]]);
});

test('new ids between maps', () => {
    const sender = ExtensionMap.fromUris([[1, MID], [2, LEVEL], [5, 'urn:x:mine'], [6, 'urn:y']]);
    const receiver = ExtensionMap.fromUris([[3, MID], [4, MID], [7, 'urn:x:mine']]);
    assert.deepEqual([...NewIds.between(sender, receiver)], [[1, 3], [5, 7]]);
    // Of two tables, whose numbers say nothing of each other.
    const stranger = ExtensionMap.fromUris([[8, 'urn:z'], [7, 'urn:y'], [9, 'urn:x:mine'], [10, 'urn:x:mine'], [3, MID]], new OwnUris());
    assert.deepEqual([...NewIds.between(sender, stranger)], [[1, 3], [5, 9], [6, 7]]);
    assert.deepEqual([...NewIds.between(stranger, sender)], [[3, 1], [7, 6], [9, 5], [10, 5]]);
    assert.throws(() => NewIds.between(sender, {}), TypeError);
});

test('new ids by hand, and for retransmissions', () => {
    const ids = new NewIds([[1, 2], [255, 254]]);
    assert.deepEqual([ids.get(1), ids.get(2), ids.delete(1), ids.delete(1), ids.get(1)], [2, undefined, true, false, undefined]);
    assert.deepEqual([...ids], [[255, 254]]);
    for (const [id, to] of [[0, 1], [1, 0], [256, 1], [1, 256]]) {
        refuses('BAD_FIELD', () => ids.set(id, to));
    }
    const map = new ExtensionMap([[10, Kind.RID], [11, Kind.REPAIRED_RID]]);
    const there = NewIds.toRetransmission(map), back = NewIds.fromRetransmission(map);
    assert.deepEqual([there.get(10), there.get(11), there.get(1), back.get(11), back.get(10)], [11, undefined, 1, 10, undefined]);
});

test('a map that is gone gives its room to another, which is empty', async () => {
    setFlagsFromString('--expose-gc');
    const collect = runInNewContext('gc'), places = new Set();
    let again;
    for (let i = 0; i < 50 && again === undefined; i++) {
        for (let j = 0; j < 100; j++) {
            places.add(ExtensionMap.place(new ExtensionMap([[5, Kind.MID]])));
        }
        collect();
        await new Promise(go => setTimeout(go, 5));
        const map = new ExtensionMap();
        again = places.has(ExtensionMap.place(map)) ? map : undefined;
    }
    assert.deepEqual([...again], []);
});
