// What callers write, which tsc is to take: each line of `@ts-expect-error` is before one that it has to refuse.
import { Group, HeaderTemplate, NewIds, load, readFrameMarking, readColorSpace, writeOrientation, pad, Columns, Packet, ExtensionMap, Receivers, extendSendTime, RtpError, Header, Kind } from '../rtp_wire';
async function it() {
    await load();
    const group = new Group(new NewIds([[1, 3]]), [[4, 2]]);
    const made = group.template(new Uint8Array(12)).write(2, {ssrc: Uint32Array.of(1, 2), marker: [true, undefined], data: new Uint8Array(4)});
    const first: Uint8Array = made.bytes.subarray(made.at[0], made.at[0] + made.lengths[0]);
    const layer: number | undefined = readFrameMarking(first).layers?.tl0PicIdx;
    writeOrientation({turn: 90, camera: 'front', flip: false});
    const seconds: number = extendSendTime({seconds: 1, fraction: 0}, 5).seconds;
    const hdr = readColorSpace(first).hdr?.red.x;
    const packet = Packet.parse(new Uint8Array(12), ExtensionMap.standard());
    packet.marker = true;
    const level: number | undefined = packet.values.audioLevel;
    const columns = Columns.parse(first, [0], [12], undefined, ['audioLevel', 'mid']);
    const text: string | undefined = columns.values.mid?.at(0);
    const taken: Uint8Array = new Receivers({maxDropout: 100}).receive(columns).taken;
    for (const source of new Receivers()) { source.restarts.toFixed(); }
    try { new Header({payloadType: 96, values: {mid: '0'}}).writeAll(new ExtensionMap([[1, Kind.MID]])); }
    catch (error) { if (error instanceof RtpError && error.code === 'LEFT_OUT') { error.kinds?.length; } }
    ExtensionMap.fromSdp({type: 'offer', sdp: 'a=extmap:1 urn:x'});
    new Receivers().receive(columns, [1, 2]);
    Packet.parse(new ArrayBuffer(12)), Packet.parse(new DataView(new ArrayBuffer(12)));
    // @ts-expect-error
    ExtensionMap.fromSdp(null);
    // @ts-expect-error
    Packet.parse(new Uint16Array(6));
    // @ts-expect-error
    Columns.parse(first, 0, 12);
    // @ts-expect-error
    packet.values.audioLevel = -5;
    // @ts-expect-error
    packet.setFields({sequence_number: 5});
    // @ts-expect-error
    writeOrientation({turn: 45, camera: 'front', flip: false});
    // @ts-expect-error
    Packet.parse('90');
    // @ts-expect-error
    new HeaderTemplate();
    return [layer, seconds, hdr, level, text, taken, pad(first, 12, 1)];
}
it();
