// SPDX-License-Identifier: MIT OR Apache-2.0
// Copyright (c) 2026 The rtp-wire developers (NOTICE)

// rtp-wire for JavaScript: RTP packets read, written and changed where they lie, and the receive state of streams.
export { Columns } from './src/columns.mjs';
export { dataOf, readOriginal, readValues, writeOriginal } from './src/elements.mjs';
export { NotAPacket, RtpError } from './src/errors.mjs';
export {
    addElement, changeForm, compact, fromRetransmission, pad, putBlock, putElement, removeBlock, toRetransmission,
} from './src/growing.mjs';
export { Group, HeaderTemplate } from './src/group.mjs';
export { Header, writeElements } from './src/header.mjs';
export { FORM as Form, KIND as Kind, STANDING as Standing, STATUS as Status } from './src/layout.mjs';
export { ExtensionMap, NewIds, OwnUris, extensionsOf, kindOfUri, uriOfKind } from './src/map.mjs';
export { load } from './src/memory.mjs';
export { Packet, elementsOf, isRtcp } from './src/packet.mjs';
export { Receivers, Source } from './src/receivers.mjs';
export { ReceptionStatistics, reportBlock } from './src/reception.mjs';
export { Receiver, RestartingReceiver, extendU15, extendU16, extendU32, extendU8 } from './src/receiver.mjs';
export {
    extendNtp56, extendSendTime, hasStructure, isStreamId, isToken, readColorSpace, readDependencyDescriptor, readFrameMarking,
    readMixerLevel, readNtp56, readNtp64, readOrientation, readSendTime, readTiming, readTransmissionOffset,
    readTransportNumber, writeColorSpace, writeDependencyDescriptor, writeFrameMarking, writeMixerLevels, writeNtp56,
    writeNtp64, writeOrientation, writeSendTime, writeTiming, writeTransmissionOffset, writeTransportNumber,
} from './src/standard.mjs';
export { TextColumn } from './src/text_column.mjs';
