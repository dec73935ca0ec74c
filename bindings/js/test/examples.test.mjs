// The example prints what rtp_lines does.
import assert from 'node:assert/strict';
import { spawnSync } from 'node:child_process';
import { readFileSync, readdirSync } from 'node:fs';
import { test } from 'node:test';

const top = new URL('../../../', import.meta.url), program = new URL('../examples/lines.mjs', import.meta.url);
const printed = input => spawnSync(process.execPath, [program.pathname], {input, encoding: 'utf8'});

test('the captures, and lines by hand', () => {
    const captures = readdirSync(new URL('captures/', top)).filter(it => it.endsWith('.lines')).map(it => `captures/${it}`);
    for (const lines of [...captures, 'bindings/test/by_hand.lines']) {
        const expected = readFileSync(new URL(lines.replace(/lines$/, 'expected'), top), 'utf8');
        const { stdout, status } = printed(readFileSync(new URL(lines, top)));
        assert.equal(stdout, expected, lines);
        assert.equal(status, 0);
    }
});

test('a line that is none', () => {
    const { stdout, status } = printed('8021B798000027100000002C\nxyz\n');
    assert.match(stdout, /^packet 1: pt 33 seq 47000 .*\nverdict 1: taken 47000\nline 2: neither a map line nor hex\n$/);
    assert.equal(status, 2);
});
