// SPDX-License-Identifier: MIT OR Apache-2.0
// Copyright (c) 2026 The rtp-wire developers (NOTICE)

/** A number of 64 bits: a BigInt where it is above 2^53 - 1. */
export type Extended = number | bigint;
/** Bytes, where they lie: arrays of items of more than a byte are none. */
export type Bytes = ArrayBuffer & { readonly BYTES_PER_ELEMENT?: undefined } | DataView | Uint8Array | Uint8ClampedArray
    | Int8Array;
/** An array, or a typed array, of numbers. */
export type Numbers = readonly number[] | Uint8Array | Uint8ClampedArray | Int8Array | Uint16Array | Int16Array | Uint32Array
    | Int32Array | Float32Array | Float64Array;
/** The text of an SDP, its lines, or what has the text, as `remoteDescription` of an RTCPeerConnection. */
export type Sdp = string | readonly string[] | { readonly type?: string; readonly sdp: string };

/** Makes the module ready, which comes before each other call. Without a source it is rtp_wire.wasm beside the package. */
export function load(
    source?: BufferSource | string | URL | Response | WebAssembly.Module | Promise<Response>,
): Promise<void>;

export const Status: {
    readonly OK: 0; readonly CUT_FIXED_PART: 1; readonly OTHER_VERSION: 2; readonly CUT_SOURCES: 3;
    readonly CUT_BLOCK_HEADER: 4; readonly UNKNOWN_FORM: 5; readonly CUT_BLOCK: 6; readonly SHORT_BUFFER: 8;
    readonly BAD_FIELD: 9; readonly REFUSED: 10; readonly NONE: 11; readonly RESTARTED: 12; readonly BAD_ID: 13;
    readonly FORM_NOT_ALLOWED: 14; readonly LONG_BLOCK: 15; readonly LONG_ID: 16; readonly RTCP: 17;
};
export const Form: {
    readonly NO_BLOCK: 0; readonly ONE_BYTE_FORM: 1; readonly TWO_BYTE_FORM: 2; readonly OTHER_FORM: 3;
};
/** What is known of a number. */
export const Standing: { readonly NEW: 0; readonly TAKEN: 1; readonly TOO_OLD: 2; readonly NO_WINDOW: 3 };
export const Kind: {
    readonly NONE: 0; readonly ABS_SEND_TIME: 1; readonly ABS_CAPTURE_TIME: 2; readonly AUDIO_LEVEL: 3;
    readonly TRANSMISSION_OFFSET: 4; readonly VIDEO_ORIENTATION: 5; readonly TRANSPORT_NUMBER: 6;
    readonly PLAYOUT_DELAY: 7; readonly VIDEO_CONTENT_TYPE: 8; readonly VIDEO_TIMING: 9; readonly RID: 10;
    readonly REPAIRED_RID: 11; readonly MID: 12; readonly FRAME_MARKING: 13; readonly COLOR_SPACE: 14;
    readonly LAYERS: 15; readonly MIXER_LEVELS: 16; readonly TRANSPORT_NUMBER_2: 17;
    readonly DEPENDENCY_DESCRIPTOR: 18; readonly NTP_64: 19; readonly NTP_56: 20; readonly OWN: 128;
};

/** A call was refused, and changed nothing. */
export class RtpError extends Error {
    /** A name of `Status`, LEFT_OUT or NOT_LOADED. */
    readonly code: keyof typeof Status | 'LEFT_OUT' | 'NOT_LOADED';
    /** Of LEFT_OUT: the kinds of the values that no element would carry. */
    readonly kinds?: number[];
}
/** The bytes are no RTP packet. */
export class NotAPacket extends RtpError {}

/** Ticks / hertz seconds. */
export interface Time { ticks: Extended; hertz: number }
/** Seconds with a fraction in units of 2^-32 s, as NTP has them. */
export interface NtpTime { seconds: number; fraction: number }
/** Milliseconds after the frame's capture. */
export interface VideoTiming {
    encodeStart: number; encodeFinish: number; packetizeComplete: number; lastLeftPacer: number; flags: number;
}
/** A spatial layer: the rates of its temporal layers, in kilobits per second, and its resolution, if it is told. */
export interface Layer { kbps: Extended[]; width?: number; height?: number; framerate?: number }
/** Which simulcast streams and layers the sender keeps active. */
export interface Layers { streams: Layer[][]; current: number }

/** What the elements of a block say; a value that isn't there is no property. */
export interface Values {
    mid?: string;
    rid?: string;
    repairedRid?: string;
    /** Decibels relative to the overload point, -127 to 0. */
    audioLevel?: number;
    voiceActivity?: boolean;
    /** Microseconds, as read modulo 64 seconds. */
    sendTime?: Extended;
    transportNumber?: number;
    /** Degrees counter-clockwise. */
    videoOrientation?: 0 | 90 | 180 | 270;
    captureTime?: NtpTime;
    captureOffset?: NtpTime;
    transmissionOffset?: number;
    playoutDelayMin?: Time;
    playoutDelayMax?: Time;
    videoContentType?: number;
    videoTiming?: VideoTiming;
    frameMarking?: number;
    layers?: Layers;
}

export class OwnUris {
    kindOf(uri: string): number | undefined;
    uriOf(kind: number): string | undefined;
}
/** Which extension each id means (RFC 8285, 5). */
export class ExtensionMap implements Iterable<[number, number]> {
    constructor(kinds?: Iterable<[number, number]>);
    static standard(): ExtensionMap;
    static fromSdp(sdp: Sdp, own?: OwnUris): ExtensionMap;
    static fromUris(uris: Iterable<[number, string]>, own?: OwnUris): ExtensionMap;
    get(id: number): number | undefined;
    set(id: number, kind: number): void;
    delete(id: number): boolean;
    idOf(kind: number): number | undefined;
    readonly uris: [number, string][];
    readonly unknown: [number, string][];
    readonly leftOut: [number, string][];
    sharesNumbersWith(other: ExtensionMap): boolean;
    [Symbol.iterator](): Iterator<[number, number]>;
}
/** The new id that elements of each id get. */
export class NewIds implements Iterable<[number, number]> {
    constructor(ids?: Iterable<[number, number]>);
    static between(sender: ExtensionMap, receiver: ExtensionMap): NewIds;
    static toRetransmission(map: ExtensionMap): NewIds;
    static fromRetransmission(map: ExtensionMap): NewIds;
    get(id: number): number | undefined;
    set(id: number, to: number): void;
    delete(id: number): boolean;
    [Symbol.iterator](): Iterator<[number, number]>;
}
export function extensionsOf(sdp: Sdp): [number, string][];
export function kindOfUri(uri: string): number | undefined;
export function uriOfKind(kind: number): string | undefined;

export interface Element { id: number; data: Uint8Array }
/** Fields to be set together. */
export interface Fields {
    payloadType?: number; sequenceNumber?: number; timestamp?: number; ssrc?: number; marker?: boolean;
}
/** A packet where it lies: a field that is set is changed in the datagram. */
export class Packet {
    private constructor();
    /** @throws NotAPacket, or RtpError with the code RTCP */
    static parse(datagram: Bytes, map?: ExtensionMap): Packet;
    payloadType: number;
    sequenceNumber: number;
    timestamp: number;
    ssrc: number;
    marker: boolean;
    hasPadding: boolean;
    readonly csrcs: number[];
    readonly headerLen: number;
    readonly bytes: Uint8Array;
    readonly header: Uint8Array;
    readonly payload: Uint8Array;
    readonly unpaddedPayload: Uint8Array | undefined;
    readonly form: number;
    readonly blockProfile: number | undefined;
    readonly body: Uint8Array;
    /** Frozen: `setElement` changes the packet. */
    readonly values: Readonly<Values>;
    elements(): Element[];
    element(id: number): Uint8Array | undefined;
    setFields(fields: Fields): void;
    setCsrc(index: number, source: number): void;
    setElement(id: number, data: Bytes): void;
    removeElement(id: number): void;
    renumber(ids: NewIds): void;
    removePadding(): number;
    /** The fields, the values and how many bytes the payload has. */
    toJSON(): object;
}
export function isRtcp(datagram: Bytes): boolean;
export function elementsOf(body: Bytes, form: number): IterableIterator<Element>;
/** What the elements of a body say under the map, but for a layer allocation. */
export function readValues(body: Bytes, form: number, map?: ExtensionMap): Values;
/** The data that an element of the kind has for these values. */
export function dataOf(kind: number, values: Values): Uint8Array;
/** The original number that the payload of a retransmission begins with (RFC 4588, 4). */
export function readOriginal(payload: Bytes): number;
/** Writes the low 16 bits of it there. */
export function writeOriginal(payload: Bytes, number: Extended): void;
export function writeElements(elements: Iterable<[number, Bytes]>, form: number): Uint8Array;

// Of a packet that is the first `len` bytes of a buffer: each returns the packet's new length.
export function putElement(buffer: Bytes, len: number, id: number, data: Bytes, allowed?: number): number;
export function addElement(buffer: Bytes, len: number, id: number, data: Bytes, allowed?: number): number;
export function compact(buffer: Bytes, len: number): number;
export function changeForm(buffer: Bytes, len: number, form: number): number;
export function removeBlock(buffer: Bytes, len: number): number;
export function putBlock(buffer: Bytes, len: number, profile: number, body: Bytes): number;
export function toRetransmission(
    buffer: Bytes, len: number, to: { ssrc: number; payloadType: number; sequenceNumber: number }, ids: NewIds,
): number;
export function fromRetransmission(
    buffer: Bytes, len: number, to: { ssrc: number; payloadType: number }, ids: NewIds,
): number;

/** Pads a packet without padding: `padLen` bytes, rounded up to whole blocks, at most 240. */
export function pad(buffer: Bytes, len: number, padLen: number, blockSize?: number): number;

/** Receivers of a packet, a row of each column for each of them; a row that is undefined keeps what the packet has. */
export interface ReceiverColumns {
    ssrc?: Numbers | readonly (number | undefined)[];
    sequenceNumber?: Numbers | readonly (number | undefined)[];
    timestamp?: Numbers | readonly (number | undefined)[];
    payloadType?: Numbers | readonly (number | undefined)[];
    marker?: Numbers | readonly (boolean | number | undefined)[];
    /** The number that a receiver got the packet with, to which it now gets it as a retransmission (RFC 4588, 4). */
    originalNumber?: Numbers | readonly (number | undefined)[];
    /** Whether the payload is sent without its padding. */
    clearsPadding?: Numbers | readonly (boolean | number | undefined)[];
    /** The data of the group's elements, `dataLen` bytes for each receiver. */
    data?: Bytes;
}
/** The headers of all receivers in one buffer: where each begins, and how many bytes it has. */
export interface ReceiverHeaders { bytes: Uint8Array; at: Uint32Array; lengths: Uint32Array }
/** The header that a packet gets for a group, of which each receiver gets a copy with fields and data of its own. */
export class HeaderTemplate {
    private constructor();
    static make(datagram: Bytes, ids: NewIds, elements?: Iterable<[number, Bytes]>, allowed?: number): HeaderTemplate;
    readonly dataLen: number;
    readonly headerLen: number;
    readonly header: Uint8Array;
    write(count: number, columns?: ReceiverColumns): ReceiverHeaders;
}
/** Receivers that have in common the new ids of a packet's elements, and the elements that are put into it: pairs of an
 * id and how many bytes of data it has. */
export class Group {
    constructor(ids: NewIds, elements?: Iterable<[number, number]>, allowed?: number);
    template(datagram: Bytes): HeaderTemplate;
}

// The data of an element as its standard lays them out, where `values` have something else, or nothing.
/** 24 bits in units of 2^-18 s. */
export function readSendTime(data: Bytes): number;
export function writeSendTime(units: number): Uint8Array;
/** The time that ends in the send time and is nearest to `near`. */
export function extendSendTime(near: NtpTime, units: number): NtpTime;
export function readNtp64(data: Bytes): NtpTime;
export function writeNtp64(time: NtpTime): Uint8Array;
/** The seconds are the low 24 bits. */
export function readNtp56(data: Bytes): NtpTime;
export function writeNtp56(time: NtpTime): Uint8Array;
export function extendNtp56(near: NtpTime, low: NtpTime): NtpTime;
/** Ticks of the stream's clock, -8,388,608 to 8,388,607. */
export function readTransmissionOffset(data: Bytes): number;
export function writeTransmissionOffset(ticks: number): Uint8Array;
export interface FrameMarking {
    start: boolean; end: boolean; independent: boolean; discardable: boolean;
    layers?: { baseLayerSync: boolean; temporalId: number; layerId: number; tl0PicIdx?: number };
}
export function readFrameMarking(data: Bytes): FrameMarking;
export function writeFrameMarking(marking: FrameMarking): Uint8Array;
/** `turn` is how the receiver has to turn the picture, counter-clockwise. */
export interface Orientation { turn: 0 | 90 | 180 | 270; camera: 'front' | 'back'; flip: boolean }
export function readOrientation(data: Bytes): Orientation;
export function writeOrientation(orientation: Orientation): Uint8Array;
/** Milliseconds after the frame's capture; without `flags` in the older form. */
export interface Timing {
    encodeStart: number; encodeFinish: number; packetizeComplete: number; lastLeftPacer: number;
    network: number; network2: number; flags?: number;
}
export function readTiming(data: Bytes): Timing;
export function writeTiming(timing: Timing): Uint8Array;
/** With what feedback the sender asks for: on so many packets, and whether with their times. */
export interface TransportNumber { number: number; request?: { packets: number; timestamps: boolean } }
export function readTransportNumber(data: Bytes): TransportNumber;
export function writeTransportNumber(number: TransportNumber): Uint8Array;
export function readMixerLevel(data: Bytes, csrcCount: number, index: number): number;
export function writeMixerLevels(levels: Iterable<number>): Uint8Array;
/** A point of the CIE 1931 chromaticity diagram, in 0.00002. */
export interface Chromaticity { x: number; y: number }
export interface HdrMetadata {
    luminanceMax: number; luminanceMin: number; maxContentLightLevel: number; maxFrameAverageLightLevel: number;
    red: Chromaticity; green: Chromaticity; blue: Chromaticity; white: Chromaticity;
}
/** Code points of H.273; range 0 to 3, and the chroma's siting 0 to 2. */
export interface ColorSpace {
    primaries: number; transfer: number; matrix: number; range: number; horizontal: number; vertical: number;
    hdr?: HdrMetadata;
}
export function readColorSpace(data: Bytes): ColorSpace;
export function writeColorSpace(space: ColorSpace): Uint8Array;
export interface DependencyDescriptor {
    frameNumber: number; startOfFrame: boolean; endOfFrame: boolean; templateId: number;
}
export function readDependencyDescriptor(data: Bytes): DependencyDescriptor;
export function writeDependencyDescriptor(descriptor: DependencyDescriptor): Uint8Array;
export function hasStructure(descriptor: Bytes): boolean;
export function isToken(text: string | Bytes): boolean;
export function isStreamId(text: string | Bytes): boolean;

/** A header as a value of its own. */
export class Header {
    constructor(fields?: Partial<Pick<Header, 'payloadType' | 'sequenceNumber' | 'timestamp' | 'ssrc' | 'csrcs' | 'marker'
        | 'hasPadding' | 'hasExtension' | 'values' | 'headerLen'>>);
    static parse(datagram: Bytes, map?: ExtensionMap): Header;
    payloadType: number;
    sequenceNumber: number;
    timestamp: number;
    ssrc: number;
    csrcs: number[];
    marker: boolean;
    hasPadding: boolean;
    hasExtension: boolean | undefined;
    values: Values;
    headerLen: number;
    wireLen(map: ExtensionMap): number;
    write(map: ExtensionMap): Uint8Array;
    writeTo(buffer: Bytes, map: ExtensionMap): number;
    leftOut(map: ExtensionMap): number[];
    writeAll(map: ExtensionMap): Uint8Array;
    writeWith(elements: Iterable<[number, Bytes]>, form?: number): Uint8Array;
}

/** The texts of a kind, a row for each datagram. */
export class TextColumn implements Iterable<string | undefined> {
    readonly length: number;
    readonly numbers: Uint32Array;
    readonly texts: (string | undefined)[];
    at(row: number): string | undefined;
    [Symbol.iterator](): Iterator<string | undefined>;
}
export type NumberColumn = 'audioLevel' | 'voiceActivity' | 'sendTime' | 'transportNumber' | 'videoOrientation'
    | 'captureSeconds' | 'captureFraction' | 'captureOffsetSeconds' | 'captureOffsetFraction' | 'transmissionOffset'
    | 'playoutDelayMin' | 'playoutDelayMax' | 'videoContentType' | 'frameMarking' | 'encodeStart' | 'encodeFinish'
    | 'packetizeComplete' | 'lastLeftPacer' | 'timingFlags' | 'layers';
export type TextName = 'mid' | 'rid' | 'repairedRid';
export type NumberArray = Int8Array | Uint8Array | Uint16Array | Int32Array | Uint32Array;
/** What many datagrams of one buffer are, a row for each. */
export class Columns {
    private constructor();
    static parse(
        buffer: Bytes, at: Numbers, lengths: Numbers, map?: ExtensionMap,
        values?: Iterable<NumberColumn | TextName>,
    ): Columns;
    readonly length: number;
    readonly status: Uint8Array;
    readonly isRtcp: Uint8Array;
    readonly isRtp: Uint8Array;
    readonly sequenceNumber: Uint16Array;
    readonly timestamp: Uint32Array;
    readonly ssrc: Uint32Array;
    readonly payloadType: Uint8Array;
    readonly marker: Uint8Array;
    readonly headerLen: Uint32Array;
    readonly payloadLen: Uint32Array;
    readonly unpaddedLen: Uint32Array;
    readonly paddingFits: Uint8Array;
    readonly values: { [name in NumberColumn]?: NumberArray } & { [name in TextName]?: TextColumn };
    readonly has: { [name in NumberColumn | TextName]?: Uint8Array };
    datagram(row: number): Uint8Array | undefined;
    payload(row: number): Uint8Array | undefined;
    unpaddedPayload(row: number): Uint8Array | undefined;
    value(name: NumberColumn, row: number): number | undefined;
    value(name: TextName, row: number): string | undefined;
    layersOf(row: number): Layers | undefined;
}

/** The receive state of one stream: a replay window of 64 numbers for each of 1 to 512 words. */
export class Receiver {
    constructor(options?: { rolloverCount?: Extended; words?: number });
    readonly highest: Extended | undefined;
    numberOf(sequenceNumber: number): Extended;
    accepts(number: Extended): boolean;
    record(number: Extended): boolean;
    receive(sequenceNumber: number): Extended | undefined;
    standingOf(number: Extended): number;
}
export interface Bounds { words?: number; maxDropout?: number; maxMisorder?: number; minSequential?: number }
/** The same of a stream that isn't authenticated and whose sender may start again. */
export class RestartingReceiver {
    constructor(bounds?: Bounds);
    readonly restarted: boolean;
    readonly inRow: number;
    readonly highest: Extended | undefined;
    receive(sequenceNumber: number): Extended | undefined;
    numberOf(sequenceNumber: number): Extended;
    standingOf(number: Extended): number;
}
export interface Report { fractionLost: number; cumulativeLost: number; extendedHighest: number; jitter: number }
/** Statistics of the packets that came from one source. */
export class ReceptionStatistics {
    /** The arrival is a whole number of ticks, which counts modulo 2^32. */
    record(number: Extended, timestamp: number, arrival: number): void;
    readonly received: Extended;
    readonly expected: number;
    readonly jitter: number;
    report(): Report | undefined;
}
export function reportBlock(report: Report, ssrc: number, lastReport?: number, delay?: number): Uint8Array;
/** One source: its receiver and its statistics. */
export class Source {
    constructor(ssrc: number, bounds?: Bounds);
    readonly ssrc: number;
    readonly receiver: RestartingReceiver;
    readonly statistics: ReceptionStatistics;
    readonly restarts: number;
    readonly duplicates: number;
    readonly tooOld: number;
    readonly outside: number;
    readonly received: number;
    /** Less `received` the loss of RFC 3550, 6.4.1, which a duplicate lowers. */
    readonly expected: number;
    /** How many numbers between the lowest and the highest that were taken weren't taken themselves. */
    readonly missing: number;
    /** The arrival is a whole number of ticks, which counts modulo 2^32. */
    receive(sequenceNumber: number, timestamp: number, arrival: number): Extended | undefined;
}
/** The receivers of many sources, by their SSRCs. */
export class Receivers implements Iterable<Source> {
    constructor(bounds?: Bounds);
    readonly size: number;
    source(ssrc: number): Source;
    /** `arrivals` has a row for each datagram. */
    receive(columns: Columns, arrivals?: Numbers): { taken: Uint8Array; numbers: Float64Array };
    [Symbol.iterator](): Iterator<Source>;
}
export function extendU8(previous: Extended, number: number): Extended;
export function extendU15(previous: Extended, number: number): Extended;
export function extendU16(previous: Extended, number: number): Extended;
export function extendU32(previous: Extended, number: number): Extended;
