// Reads datagrams from standard input, one a line in hexadecimal, and prints of each its header, the values of its
// extensions, and whether a receiver takes it. Each SSRC has a receiver of its own. Lines `map ID URI` before the first
// datagram say which extension an id means.
import { readFileSync } from 'node:fs';
import { ExtensionMap, Header, Receiver, RtpError, kindOfUri, load } from '../rtp_wire.mjs';

const yesOrNo = it => it ? 'yes' : 'no';

/** Whether the line maps an id, which is done. */
function isMapLine(line, map) {
    const [, digits, uri] = /^map ([0-9]{1,3}) (.+)$/.exec(line) ?? [], id = Number(digits);
    if (uri === undefined || id < 1 || id > 255) {
        return false;
    }
    const kind = kindOfUri(uri);
    kind === undefined ? map.delete(id) : map.set(id, kind);
    return true;
}

/** The header, where the datagram is a packet with one that is read. */
function headerOf(datagram, map) {
    try {
        return Header.parse(datagram, map);
    } catch (error) {
        if (error instanceof RtpError) {
            return undefined;
        }
        throw error;
    }
}

function told(header) {
    const { values } = header;
    const voice = values.voiceActivity === undefined ? undefined : yesOrNo(values.voiceActivity);
    const listed = {mid: values.mid, rid: values.rid, repaired: values.repairedRid, level: values.audioLevel, voice,
        send: values.sendTime, transport: values.transportNumber};
    return `pt ${header.payloadType} seq ${header.sequenceNumber} ts ${header.timestamp} ssrc ${header.ssrc} marker `
        + `${yesOrNo(header.marker)} padding ${yesOrNo(header.hasPadding)} extension ${yesOrNo(header.hasExtension)} csrc `
        + `${header.csrcs.length} header ${header.headerLen}`
        + Object.entries(listed).map(([name, value]) => value === undefined ? '' : ` ${name} ${value}`).join('');
}

/** The status of the program. */
function run(lines) {
    const map = new ExtensionMap(), receivers = new Map();
    let count = 0;
    for (const [place, line] of lines.entries()) {
        if (count === 0 && isMapLine(line, map)) {
            continue;
        }
        if (!/^([0-9a-fA-F]{2})*$/.test(line)) {
            console.log(`line ${place + 1}: neither a map line nor hex`);
            return 2;
        }
        count++;
        const header = headerOf(Buffer.from(line, 'hex'), map);
        if (header === undefined) {
            console.log(`packet ${count}: unreadable\nverdict ${count}: unreadable`);
            continue;
        }
        // From the rollover count 0, as the program rtp_lines has it; from 1 a packet from before the first one has a
        // number too.
        receivers.has(header.ssrc) || receivers.set(header.ssrc, new Receiver({rolloverCount: 0}));
        const number = receivers.get(header.ssrc).receive(header.sequenceNumber);
        console.log(`packet ${count}: ${told(header)}`);
        console.log(`verdict ${count}: ${number === undefined ? 'refused' : `taken ${number}`}`);
    }
    return 0;
}

await load();
const lines = readFileSync(0, 'utf8').split('\n').map(it => it.replace(/\r$/, ''));
if (lines.at(-1) === '') {
    lines.pop();
}
process.exitCode = run(lines);
