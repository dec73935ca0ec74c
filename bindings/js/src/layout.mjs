// SPDX-License-Identifier: MIT OR Apache-2.0
// Copyright (c) 2026 The rtp-wire developers (NOTICE)

// Where each field lies, the constants, and what each status says. Made from bindings/c/rtp_wire.h by
// generated/wasm/glue.py.
export const VERSION_NUMBER = 65792;
export const PACKET = Object.freeze({
    size: 64,
    payloadAt: 0,
    payloadLen: 8,
    unpaddedLen: 16,
    bodyAt: 24,
    bodyLen: 32,
    timestamp: 40,
    ssrc: 44,
    sequenceNumber: 48,
    payloadType: 50,
    csrcCount: 51,
    marker: 52,
    hasPadding: 53,
    paddingFits: 54,
    blockForm: 55,
    blockProfile: 56,
});
export const FIELDS = Object.freeze({
    size: 20,
    timestamp: 0,
    ssrc: 4,
    sequenceNumber: 8,
    payloadType: 10,
    marker: 11,
    hasTimestamp: 12,
    hasSsrc: 13,
    hasSequenceNumber: 14,
    hasPayloadType: 15,
    hasMarker: 16,
});
export const ELEMENT = Object.freeze({
    size: 32,
    dataAt: 0,
    dataLen: 8,
    end: 16,
    id: 24,
});
export const MAP = Object.freeze({
    size: 256,
    kind: 0,
});
export const TIME = Object.freeze({
    size: 16,
    ticks: 0,
    hertz: 8,
});
export const VALUES = Object.freeze({
    size: 136,
    sendTime: 0,
    captureTime: 8,
    captureOffset: 16,
    playoutDelayMin: 24,
    playoutDelayMax: 40,
    transmissionOffset: 56,
    frameMarking: 60,
    transportNumber: 64,
    videoOrientation: 66,
    encodeStart: 68,
    encodeFinish: 70,
    packetizeComplete: 72,
    lastLeftPacer: 74,
    timingFlags: 76,
    videoContentType: 77,
    audioLevel: 78,
    voiceActivity: 79,
    mid: 80,
    rid: 97,
    repairedRid: 106,
    hasSendTime: 115,
    hasCaptureTime: 116,
    hasCaptureOffset: 117,
    hasTransmissionOffset: 118,
    hasFrameMarking: 119,
    hasTransportNumber: 120,
    hasVideoOrientation: 121,
    hasVideoContentType: 122,
    hasAudioLevel: 123,
    hasVoiceActivity: 124,
    hasPlayoutDelayMin: 125,
    hasPlayoutDelayMax: 126,
    hasVideoTiming: 127,
    hasMid: 128,
    hasRid: 129,
    hasRepairedRid: 130,
    hasLayers: 131,
});
export const HEADER = Object.freeze({
    size: 224,
    headerLen: 0,
    timestamp: 8,
    ssrc: 12,
    csrc: 16,
    sequenceNumber: 76,
    payloadType: 78,
    csrcCount: 79,
    marker: 80,
    hasPadding: 81,
    hasExtension: 82,
    values: 88,
});
export const WHOLE_PACKET = Object.freeze({
    size: 256,
    header: 0,
    unpaddedLen: 224,
    bodyAt: 232,
    bodyLen: 240,
    blockProfile: 248,
    blockForm: 250,
    paddingFits: 251,
});
export const LAYER = Object.freeze({
    size: 40,
    kbps: 0,
    width: 32,
    height: 34,
    framerate: 36,
    hasResolution: 37,
    rates: 38,
});
export const STREAM = Object.freeze({
    size: 168,
    layers: 0,
    count: 160,
});
export const LAYERS = Object.freeze({
    size: 680,
    streams: 0,
    count: 672,
    current: 673,
});
export const FRAME_MARKING = Object.freeze({
    size: 10,
    start: 0,
    end: 1,
    independent: 2,
    discardable: 3,
    hasLayers: 4,
    baseLayerSync: 5,
    temporalId: 6,
    layerId: 7,
    hasTl0PicIdx: 8,
    tl0PicIdx: 9,
});
export const ORIENTATION = Object.freeze({
    size: 4,
    turn: 0,
    camera: 2,
    flip: 3,
});
export const TIMING = Object.freeze({
    size: 14,
    encodeStart: 0,
    encodeFinish: 2,
    packetizeComplete: 4,
    lastLeftPacer: 6,
    network: 8,
    network2: 10,
    flags: 12,
    hasFlags: 13,
});
export const TRANSPORT_NUMBER = Object.freeze({
    size: 6,
    number: 0,
    packets: 2,
    hasRequest: 4,
    timestamps: 5,
});
export const CHROMATICITY = Object.freeze({
    size: 4,
    x: 0,
    y: 2,
});
export const HDR_METADATA = Object.freeze({
    size: 24,
    luminanceMax: 0,
    luminanceMin: 2,
    red: 4,
    green: 8,
    blue: 12,
    white: 16,
    maxContentLightLevel: 20,
    maxFrameAverageLightLevel: 22,
});
export const COLOR_SPACE = Object.freeze({
    size: 32,
    hdr: 0,
    primaries: 24,
    transfer: 25,
    matrix: 26,
    range: 27,
    horizontal: 28,
    vertical: 29,
    hasHdr: 30,
});
export const DEPENDENCY_DESCRIPTOR = Object.freeze({
    size: 6,
    frameNumber: 0,
    startOfFrame: 2,
    endOfFrame: 3,
    templateId: 4,
});
export const NEW_IDS = Object.freeze({
    size: 256,
    id: 0,
});
export const RECEIVER = Object.freeze({
    size: 32,
    highest: 0,
    recordedLow: 8,
    recordedHigh: 16,
    started: 24,
});
export const WIDE_RECEIVER = Object.freeze({
    size: 16,
    highest: 0,
    started: 8,
});
export const RESTARTING_RECEIVER = Object.freeze({
    size: 32,
    highest: 0,
    words: 8,
    maxDropout: 24,
    next: 26,
    minSequential: 28,
    inRow: 29,
    started: 30,
});
export const RECEPTION = Object.freeze({
    size: 56,
    first: 0,
    highest: 8,
    received: 16,
    receivedBefore: 24,
    expectedBefore: 32,
    scaledJitter: 40,
    transit: 48,
});
export const REPORT = Object.freeze({
    size: 16,
    fractionLost: 0,
    cumulativeLost: 4,
    extendedHighest: 8,
    jitter: 12,
});
export const WIDE_RESTARTING_RECEIVER = Object.freeze({
    size: 24,
    highest: 0,
    maxDropout: 8,
    maxMisorder: 10,
    next: 12,
    minSequential: 14,
    inRow: 15,
    started: 16,
});
export const WHOLE_DATAGRAM = Object.freeze({
    size: 280,
    at: 0,
    len: 8,
    packet: 16,
    status: 272,
});
export const DATAGRAM = Object.freeze({
    size: 88,
    at: 0,
    len: 8,
    packet: 16,
    status: 80,
    isRtcp: 84,
});
export const DATAGRAM_HEADER = Object.freeze({
    size: 248,
    at: 0,
    len: 8,
    header: 16,
    status: 240,
    isRtcp: 244,
});
export const ARRIVAL = Object.freeze({
    size: 24,
    receiver: 0,
    number: 8,
    sequenceNumber: 16,
    status: 20,
});
export const TEMPLATE = Object.freeze({
    size: 88,
    headerLen: 0,
    dataAt: 4,
    dataTotal: 68,
    count: 70,
    dataLen: 71,
});
export const GROUP = Object.freeze({
    size: 550,
    newIds: 0,
    numbers: 256,
    elementIds: 512,
    dataLens: 528,
    dataTotal: 544,
    count: 546,
    allowed: 547,
    oneByte: 548,
});
export const ROUTED_HEADER = Object.freeze({
    size: 48,
    dataAt: 0,
    at: 8,
    fields: 16,
    originalNumber: 36,
    isRetransmission: 38,
    clearsPadding: 39,
    status: 40,
    len: 44,
});
export const STATUS = Object.freeze({
    OK: 0,
    CUT_FIXED_PART: 1,
    OTHER_VERSION: 2,
    CUT_SOURCES: 3,
    CUT_BLOCK_HEADER: 4,
    UNKNOWN_FORM: 5,
    CUT_BLOCK: 6,
    SHORT_BUFFER: 8,
    BAD_FIELD: 9,
    REFUSED: 10,
    NONE: 11,
    RESTARTED: 12,
    BAD_ID: 13,
    FORM_NOT_ALLOWED: 14,
    LONG_BLOCK: 15,
    LONG_ID: 16,
    RTCP: 17,
});
export const FORM = Object.freeze({
    NO_BLOCK: 0,
    ONE_BYTE_FORM: 1,
    TWO_BYTE_FORM: 2,
    OTHER_FORM: 3,
});
export const KIND = Object.freeze({
    NONE: 0,
    ABS_SEND_TIME: 1,
    ABS_CAPTURE_TIME: 2,
    AUDIO_LEVEL: 3,
    TRANSMISSION_OFFSET: 4,
    VIDEO_ORIENTATION: 5,
    TRANSPORT_NUMBER: 6,
    PLAYOUT_DELAY: 7,
    VIDEO_CONTENT_TYPE: 8,
    VIDEO_TIMING: 9,
    RID: 10,
    REPAIRED_RID: 11,
    MID: 12,
    FRAME_MARKING: 13,
    COLOR_SPACE: 14,
    LAYERS: 15,
    MIXER_LEVELS: 16,
    TRANSPORT_NUMBER_2: 17,
    DEPENDENCY_DESCRIPTOR: 18,
    NTP_64: 19,
    NTP_56: 20,
    OWN: 128,
});
export const STANDING = Object.freeze({
    NEW: 0,
    TAKEN: 1,
    TOO_OLD: 2,
    NO_WINDOW: 3,
});
export const STATUS_TEXTS = Object.freeze({
    OK: "done",
    CUT_FIXED_PART: "fewer than twelve bytes",
    OTHER_VERSION: "another version than 2",
    CUT_SOURCES: "the CSRC list is cut short",
    CUT_BLOCK_HEADER: "the header of the extension block is cut short",
    UNKNOWN_FORM: "a header extension of an unknown form",
    CUT_BLOCK: "the extension block is cut short",
    SHORT_BUFFER: "a buffer is too short",
    BAD_FIELD: "an argument is out of its range",
    REFUSED: "a replay, or too old to tell",
    NONE: "no such element",
    RESTARTED: "taken, and the sender has started again",
    BAD_ID: "the id 0, which no element has",
    FORM_NOT_ALLOWED: "a form of the extension block that isn't allowed",
    LONG_BLOCK: "an extension block of more than 65,535 words",
    LONG_ID: "an id above 14, which the one-byte form can't carry",
    RTCP: "a packet of RTCP",
});
