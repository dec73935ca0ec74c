// Runs the programs of README.md, in a folder of its own: those with `// value` behind an expression have to be so.
// usage, from the top of the repository: node readme.mjs FOLDER
import assert from 'node:assert/strict';
import { execFileSync } from 'node:child_process';
import { readFileSync, writeFileSync } from 'node:fs';

const here = new URL('.', import.meta.url), text = readFileSync(new URL('../README.md', here), 'utf8');
const programs = [...text.matchAll(/^```js\n(.*?)^```\n(?:\n[^\n`]+:\n\n```\n(.*?)^```$)?/gms)];
const entry = new URL('../rtp_wire.mjs', here).href;
let compared = 0;
for (const [i, [, program, printed]] of programs.entries()) {
    const changed = program.replaceAll("'rtp-wire'", `'${entry}'`)
        .replace(/^(?!const |let |import |await )(\S.*?); \/\/ (.+?)(?::.*)?$/gm, (_, expression, told) => {
            compared++;
            return `told(${expression}, ${JSON.stringify(told)});`;
        });
    const file = `${process.argv[2]}/readme_${i}.mjs`;
    writeFileSync(file, `import assert from 'node:assert/strict';
const listed = it => typeof it === 'object' && it !== null ? Array.from(it).join(', ') : String(it);
const told = (it, text) => assert.equal(listed(it), text);
${changed}`);
    const said = execFileSync('node', [file], {encoding: 'utf8'});
    if (printed !== undefined) {
        assert.equal(said, printed);
        compared++;
    }
}
assert.ok(programs.length >= 2 && compared >= 10, `${programs.length} programs, ${compared} results`);
console.log(`README.md: ${programs.length} programs, ${compared} results as told`);
