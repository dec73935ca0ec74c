// Package rtpwire reads and writes RTP packets where they lie in memory (RFC 3550, 5.1) with their header extensions
// (RFC 8285), changes them there, and judges what a receiver gets: extended sequence numbers and a replay window of 128.
// It does no input or output.
//
// The work is done by a library each function of which is proved: it returns for every input, and its result is what its
// contract says. Its text is in this package as Go's assembler takes it, for amd64 (x86-64-v2) and arm64: go build needs no
// cgo and no C compiler. The Go code around it isn't proved: it is tested.
//
// What a server needs first, of packets that it reads:
//
//   - [Packet.Parse]: the fields, values and places of a packet, without any memory
//   - [Packet.ParseMuxed]: the same on a port that RTP and RTCP share, where it tells RTCP
//   - [Packet.Values]: what the elements of the extension block say
//   - [Packet.Element]: the data of one, for [ParseSendTime] and the like
//   - [Packet.UnpaddedPayload]: the media
//   - [PeekSSRC]: whose packet it is, before it is read
//   - [HeaderBatch.Parse]: many packets of one buffer
//
// Of the numbers of a stream:
//
//   - [NewReceiver]: the state of one, with the rollover count: 1 where nothing is authenticated
//   - [Receiver.ReceivePacket]: reads a packet, and takes it or tells a replay
//   - [Receiver.CheckPacket]: the same with SRTP, before the packet is authenticated
//   - [Receiver.Record]: and after that
//   - [ReceptionStatistics.Report]: what a receiver report says
//
// Of packets that it sends on:
//
//   - [Map.SetURI]: what an id means, by a line a=extmap of SDP
//   - [NewIDsBetween]: the ids that elements get at another peer
//   - [Group.Prepare]: what receivers have in common
//   - [RouteBatch.RoutePrepared]: their headers, each with fields and data of its own
//   - [RouteBatch.At]: each of them, in front of the payload, which stays where it lies
//
// Of packets that it changes or writes:
//
//   - [Fields.Apply]: other fields
//   - [PutElement]: an element
//   - [ToRetransmission]: a packet that is sent again
//   - [Header.WriteAll]: the header of a packet of one's own
//
// [Values] have some elements as str0m reads and writes them, and others not at all. For any peer the data of an element
// are read by [ParseSendTime], [ParseTransmissionOffset], [ParseFrameMarking], [ParseOrientation], [ParseTiming],
// [ParseTransportNumber], [ParseColorSpace], [ParseDependencyDescriptor], [ParseMixerLevel], [ParseNTP64] and [ParseNTP56],
// each with what writes them, and [Packet.Token] has a mid as it lies. What is no standard's: an element of the id 0 with
// length bits, at which reading ends by RFC 8285, 4.2, is passed over, and the elements behind it are read.
// [Packet.AppendPlaces] lists it with the id 0, which no call writes.
//
// [WideReceiver] has a window of another size. [RestartingReceiver] and [WideRestartingReceiver], which are not for SRTP,
// tell that a sender has started again: drop what is [Refused] alone, since what is [Restarted] is taken.
//
// [PutElement], [AddElement], [ChangeForm], [PutBlock] and [ToRetransmission] use the capacity of the packet's slice, as
// append does: what they return lies where the packet lay where that has room, and in new memory else. The packet that is
// passed to one of them, or to [FromRetransmission], is used up: its bytes may have changed, and those behind it up to its
// capacity. Copy a packet first that goes to several receivers, or into a history of packets that are sent again.
//
// No function keeps a pointer to what it is given, but a Packet the datagram that it was read from ([Packet.HasChanged]
// tells whether its places still hold), and a batch the buffer. Calls from several goroutines at once are safe as long as
// nothing that one of them changes is used by another; an [OwnURIs] may be. With go test -race two goroutines at one
// Receiver or one datagram are reported: each call tells what it reads, and what it changes, of a header all of it.
//
// A nil pointer panics as elsewhere in Go. While a call runs no other goroutine has its turn on that processor: the
// longest one, of a packet whose block takes 262,140 bytes, less than a millisecond.
package rtpwire

// Version is the version of this package and of its library.
const Version = "1.1.0-dev"
