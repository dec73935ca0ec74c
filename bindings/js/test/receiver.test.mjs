// Receivers and statistics. Expected numbers are worked out by hand by RFC 3711, 3.3.1, and RFC 3550, A.1, A.3 and A.8.
import assert from 'node:assert/strict';
import { before, test } from 'node:test';
import * as rtp from '../rtp_wire.mjs';
import { bytes, hex, refuses } from './help.mjs';

const { Receiver, RestartingReceiver, ReceptionStatistics, Receivers, Standing } = rtp;

before(() => rtp.load());

test('a receiver', () => {
    const receiver = new Receiver();
    assert.equal(receiver.highest, undefined);
    assert.equal(receiver.numberOf(5), 65541);
    assert.equal(receiver.accepts(65541), true);
    assert.deepEqual([65535, 0, 0, 65534, 65535, 1, 127, 0].map(it => receiver.receive(it)),
        [131071, 131072, undefined, 131070, undefined, 131073, 131199, undefined]);
    assert.equal(receiver.highest, 131199);
    assert.equal(receiver.receive(2), 131074);
    assert.deepEqual([131071, 131072, 131073, 131075, 131200].map(it => receiver.standingOf(it)),
        [Standing.TOO_OLD, Standing.TAKEN, Standing.TAKEN, Standing.NEW, Standing.NEW]);
    assert.deepEqual([receiver.accepts(131075), receiver.accepts(131074)], [true, false]);
    assert.deepEqual([receiver.record(131075), receiver.record(131075), receiver.receive(3)], [true, false, undefined]);
    assert.equal(receiver.numberOf(65000), 130536);
    refuses('BAD_FIELD', () => receiver.receive(65536));
    assert.throws(() => receiver.receive('1'), TypeError);
    assert.throws(() => receiver.numberOf(-0.5), TypeError);
});

test('a window of another size, and another rollover count', () => {
    const receiver = new Receiver({words: 16, rolloverCount: 0});
    assert.deepEqual([2000, 977, 976, 977, 978].map(it => receiver.receive(it)), [2000, 977, undefined, undefined, 978]);
    assert.equal(new Receiver({rolloverCount: 7}).receive(1), 7 * 65536 + 1);
    for (const words of [0, 513, -1]) {
        refuses('BAD_FIELD', () => new Receiver({words}));
        refuses('BAD_FIELD', () => new RestartingReceiver({words}));
    }
    refuses('BAD_FIELD', () => new Receiver({rolloverCount: 2 ** 48}));
    refuses('BAD_FIELD', () => new Receiver({rolloverCount: -1}));
    assert.throws(() => new Receiver({rolloverCount: 1.5}), TypeError);
});

test('numbers past 2^53', () => {
    const receiver = new Receiver({rolloverCount: 2 ** 37 - 1});
    assert.equal(receiver.receive(65535), Number.MAX_SAFE_INTEGER);
    assert.equal(receiver.receive(0), 2n ** 53n);
    assert.equal(receiver.highest, 2n ** 53n);
    assert.equal(receiver.standingOf(2n ** 53n), Standing.TAKEN);
    assert.equal(receiver.standingOf(Number.MAX_SAFE_INTEGER), Standing.TAKEN);
    assert.equal(receiver.accepts(2n ** 53n + 1n), true);
    assert.equal(receiver.record(2n ** 53n + 2n), true);
    assert.equal(new Receiver({rolloverCount: 2n ** 48n - 1n}).receive(65535), 2n ** 64n - 1n);
    for (const number of [2 ** 53, -1, 2n ** 64n, -1n]) {
        refuses('BAD_FIELD', () => receiver.accepts(number));
    }
    assert.throws(() => receiver.record('1'), TypeError);
    const low = new Receiver({rolloverCount: 0});
    low.receive(5);
    assert.equal(low.numberOf(65533), 2n ** 64n - 3n);
});

test('a sender that starts again', () => {
    const receiver = new RestartingReceiver(), told = [];
    for (const low of [60000, 60000, 58000, 7, 8, 9]) {
        told.push([receiver.receive(low), receiver.restarted, receiver.inRow]);
    }
    assert.deepEqual(told, [[125536, false, 0], [undefined, false, 0], [undefined, false, 0], [undefined, false, 1],
        [196616, true, 0], [196617, false, 0]]);
    assert.deepEqual([receiver.highest, receiver.numberOf(6), receiver.standingOf(196616), receiver.standingOf(196614)],
        [196617, 196614, Standing.TAKEN, Standing.NEW]);
    const fresh = new RestartingReceiver();
    assert.deepEqual([fresh.highest, fresh.numberOf(5), fresh.standingOf(5)], [undefined, 65541, Standing.NEW]);
});

test('bounds', () => {
    const receiver = new RestartingReceiver({words: 2, maxDropout: 100, maxMisorder: 100, minSequential: 2});
    assert.deepEqual([1000, 1001, 1100, 1201, 1202, 1000].map(it => receiver.receive(it)),
        [undefined, 66537, 66636, undefined, 66636 + 131072 + 1202 - 1100, undefined]);
    const late = new RestartingReceiver({words: 1, maxMisorder: 100});
    assert.deepEqual([1000, 936, 937, 901, 900, 901].map(it => late.receive(it)),
        [66536, undefined, 66473, undefined, undefined, undefined]);
    const wide = new RestartingReceiver({words: 100});
    assert.deepEqual([10000, 3601, 3600, 3599].map(it => [wide.receive(it), wide.inRow]),
        [[75536, 0], [69137, 0], [undefined, 1], [undefined, 1]]);
    for (const bounds of [{maxDropout: 0}, {maxDropout: 65536}, {maxMisorder: 0}, {maxMisorder: 65536}, {minSequential: 256}]) {
        refuses('BAD_FIELD', () => new RestartingReceiver(bounds));
    }
    assert.equal(new RestartingReceiver({minSequential: 0}).receive(1), 65537);
});

test('statistics', () => {
    const statistics = new ReceptionStatistics();
    assert.deepEqual([statistics.report(), statistics.received, statistics.expected, statistics.jitter], [undefined, 0, 0, 0]);
    statistics.record(65541, 0, 1000);
    statistics.record(65542, 3000, 4016);
    statistics.record(65544, 9000, 10000);
    // Transits 1000, 1016 and 1000: the jitter is 1, and then 1 + (16 - 1) / 16.
    assert.deepEqual([statistics.received, statistics.expected, statistics.jitter], [3, 4, 1.9375]);
    assert.deepEqual(statistics.report(), {fractionLost: 64, cumulativeLost: 1, extendedHighest: 8, jitter: 1});
    assert.equal(statistics.report(), undefined);
    statistics.record(2n ** 53n, 0xFFFFFFFF, 0xFFFFFFFF);
    assert.equal(statistics.report().extendedHighest, (2 ** 53 - 65536) % 2 ** 32);
    for (const given of [[-1, 0, 0], [1, -1, 0], [1, 0, 2 ** 53], [2 ** 53, 0, 0]]) {
        refuses('BAD_FIELD', () => statistics.record(...given));
    }
    assert.throws(() => statistics.record(1.5, 0, 0), TypeError);
    assert.throws(() => statistics.record(1, 0, 0.5), TypeError);
    // an arrival counts modulo 2^32: transits 1000, and 1016 above 2^32
    const late = new ReceptionStatistics();
    late.record(65541, 0, 1000 - 2 ** 32);
    late.record(65542, 3000, 4016 + 2 ** 45);
    assert.equal(late.jitter, 1);
    const report = {fractionLost: 64, cumulativeLost: -2, extendedHighest: 65544, jitter: 1};
    assert.equal(hex(rtp.reportBlock(report, 44, 0x12345678, 65536)), '0000002c40fffffe000100080000000112345678' + '00010000');
    assert.equal(hex(rtp.reportBlock(report, 44)).slice(32), '00000000' + '00000000');
    for (const wrong of [{fractionLost: 256}, {cumulativeLost: 0x800000}, {cumulativeLost: -0x800001}, {jitter: -1}]) {
        refuses('BAD_FIELD', () => rtp.reportBlock({...report, ...wrong}, 44));
    }
});

test('extended numbers', () => {
    assert.deepEqual([rtp.extendU16(65535, 0), rtp.extendU16(65536, 65535), rtp.extendU8(255, 1), rtp.extendU15(32767, 2),
        rtp.extendU32(2 ** 32 - 1, 3)], [65536, 65535, 257, 32770, 2 ** 32 + 3]);
    assert.equal(rtp.extendU16(0, 65535), 2n ** 64n - 1n);
    refuses('BAD_FIELD', () => rtp.extendU8(0, 256));
    refuses('BAD_FIELD', () => rtp.extendU15(0, 32768));
});

/** Columns of packets, each an SSRC, a number and a timestamp. */
function columnsOf(packets) {
    const buffer = bytes(packets.map(([ssrc, number, timestamp = 0]) => `8060${number.toString(16).padStart(4, '0')}`
        + timestamp.toString(16).padStart(8, '0') + ssrc.toString(16).padStart(8, '0')).join(''));
    return rtp.Columns.parse(buffer, packets.map((_, i) => 12 * i), packets.map(() => 12));
}

test('many sources', () => {
    const packets = [[7, 5], [8, 60000], [7, 6], [7, 6], [7, 9], [8, 60000], [8, 7], [8, 8], [8, 9]];
    const receivers = new Receivers(), { taken, numbers } = receivers.receive(columnsOf(packets));
    assert.deepEqual([...taken], [1, 1, 1, 0, 1, 0, 0, 1, 1]);
    assert.deepEqual([...numbers], [65541, 125536, 65542, 0, 65545, 0, 0, 196616, 196617]);
    assert.deepEqual([...receivers].map(({ ssrc, received, expected, restarts, duplicates, tooOld, outside }) =>
        [ssrc, received, expected, restarts, duplicates, tooOld, outside]), [[7, 4, 5, 0, 1, 0, 0], [8, 4, 3, 1, 1, 0, 1]]);
    assert.equal(receivers.size, 2);
    assert.equal(receivers.source(7), [...receivers][0]);
    receivers.source(7).receive(9 - 2000 + 65536, 0, 0);
    assert.deepEqual([receivers.source(7).tooOld, receivers.source(7).duplicates, receivers.source(7).received], [1, 1, 5]);
    assert.equal(new Receivers().receive(rtp.Columns.parse(bytes('81C90007 00000009 00000007'), [0], [12])).taken[0], 0);
});

test('arrivals', () => {
    const receivers = new Receivers({words: 1});
    receivers.receive(columnsOf([[7, 5, 0], [7, 6, 3000], [7, 8, 9000]]), Uint32Array.of(1000, 4016, 10000));
    assert.equal(receivers.source(7).statistics.jitter, 1.9375);
    const none = new Receivers();
    none.receive(columnsOf([[7, 5, 0], [7, 6, 3000], [7, 8, 9000]]));
    assert.equal(none.source(7).statistics.jitter, 0);
    assert.equal(receivers.source(7).receiver.receive(8 - 64 + 65536), undefined);
});

test('an arrival is looked at before a packet is taken', () => {
    const { source, told } = {source: new rtp.Receivers().source(7), told: it => [it.received, it.duplicates, it.missing]};
    for (const [timestamp, arrival] of [[0, 12.5], [0, undefined], [0, '1'], [0, 1n], [0.5, 0], [0, NaN]]) {
        assert.throws(() => source.receive(1, timestamp, arrival), TypeError);
    }
    refuses('BAD_FIELD', () => source.receive(1, 0, 2 ** 53));
    refuses('BAD_FIELD', () => source.receive(1, 2 ** 32, 0));
    assert.deepEqual(told(source), [0, 0, 0]);
    assert.deepEqual([source.receive(1, 0, 1000 + 2 ** 40), source.receive(2, 3000, 4016)], [65537, 65538]);
    assert.deepEqual([told(source), source.statistics.jitter], [[2, 0, 0], 1]);
    const columns = columnsOf([[7, 5, 0], [7, 6, 3000], [7, 8, 9000]]), receivers = new Receivers();
    for (const arrivals of [[0, 1, 1.5], [0, 1, undefined], [0, , 2], Float64Array.of(0, 1, NaN), BigInt64Array.of(0n, 1n, 2n),
        new Set([0, 1, 2]), 5, null]) {
        assert.throws(() => receivers.receive(columns, arrivals), TypeError);
    }
    for (const arrivals of [[], [0, 1], [0, 1, 2, 3], [0, 1, 2 ** 53]]) {
        refuses('BAD_FIELD', () => receivers.receive(columns, arrivals));
    }
    assert.equal(receivers.size, 0);
    const now = 86210106950496;
    assert.deepEqual([...receivers.receive(columns, [1000, 4016, 10000].map(it => it + now)).taken], [1, 1, 1]);
    assert.equal(receivers.source(7).statistics.jitter, 1.9375);
    // a datagram that is no packet needs none
    const report = rtp.Columns.parse(bytes('81C90007 00000009 00000007'), [0], [12]);
    assert.deepEqual([...receivers.receive(report, [undefined]).taken], [0]);
});

test('numbers that are missing', () => {
    const missing = numbers => {
        const source = new rtp.Source(7);
        numbers.forEach(it => source.receive(it, 0, 0));
        return [source.missing, source.expected - source.received];
    };
    assert.deepEqual(missing([]), [0, 0]);
    assert.deepEqual(missing([1, 2, 2, 3, 3, 6, 7, 8]), [2, 0]);
    assert.deepEqual(missing([3, 1, 2, 4, 6]), [1, -1]); // the first one isn't the lowest
    assert.deepEqual(missing([65534, 1, 65533]), [2, 1]);
    assert.deepEqual(missing([1, 4, 30000, 30001, 30003]), [3, 3]);
    assert.deepEqual(missing([1, 4, 30000, 30001, 30003, 9, 10, 12]), [4, 4]);
});

test('what is no receiver\'s', () => {
    for (const [make, names] of [[it => new Receiver(it), ['rollover', 'maxDropout', 'toString']],
        [it => new RestartingReceiver(it), ['max_dropout', 'rolloverCount', 'toString']],
        [it => new Receivers(it), ['max_dropout', 'toString']]]) {
        names.forEach(it => refuses('BAD_FIELD', () => make({[it]: 9})));
        assert.throws(() => make(9), TypeError);
        assert.throws(() => make(null), TypeError);
        refuses('BAD_FIELD', () => make({words: 0}));
    }
    const receivers = new Receivers(), it = receivers.source(7);
    for (const ssrc of ['7', 7.5, undefined, 7n]) {
        assert.throws(() => receivers.source(ssrc), TypeError);
    }
    refuses('BAD_FIELD', () => receivers.source(2 ** 32));
    assert.deepEqual([receivers.size, receivers.source(7)], [1, it]);
    assert.throws(() => receivers.receive({length: 1, isRtp: [0]}), TypeError);
    assert.throws(() => receivers.receive(null), TypeError);
});

test('a source that starts again twice', () => {
    const source = new rtp.Receivers().source(7);
    const told = [1, 2, 4, 40000, 40001, 20000, 20001].map(it => source.receive(it, 0, 0) !== undefined);
    assert.deepEqual(told, [true, true, true, false, true, false, true]);
    assert.deepEqual([source.restarts, source.outside, source.received, source.expected], [2, 2, 5, 6]);
});
