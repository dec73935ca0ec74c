package rtpwire

import "fmt"

// A Packet is a packet in the bytes of its datagram, as they were when it was read: its methods tell the fields and the
// values, and lend parts of the datagram: an append to one copies, so that nothing of the packet or behind it changes. To
// change it, change the bytes ([Fields], [PutElement]), and read what they become ([Packet.HasChanged]), or write a
// [Packet.Header]. Use one again for the next packet: the parts of the datagram that it lent stay as they are, and what it
// lent of its own memory, [Packet.CSRC] and [Packet.Values], is then that of the next packet.
type Packet struct {
	fields    PacketFields
	values    ReadValues // zero where the form has no elements
	csrc      [15]uint32 // zero from csrcCount on
	csrcCount uint8
	form      Form
	datagram  []byte // its capacity is its length
}

// wholePacket is rtpw_whole_packet in C.
type wholePacket struct {
	header          Header
	unpaddedLen     int
	bodyAt, bodyLen int
	profile         uint16
	form            Form
	paddingFits     bool
}

// PacketFields are what the header of a packet says without its values, and where the parts of the packet lie:
// rtpw_packet in C. [PacketBatch] reads them.
type PacketFields struct {
	payloadAt, payloadLen, unpaddedLen int
	bodyAt, bodyLen                    int
	// Timestamp is the moment of the payload's first byte, in ticks of the payload's own clock.
	Timestamp uint32
	// SSRC is the stream's source.
	SSRC uint32
	// SequenceNumber is the low 16 bits of the packet's number.
	SequenceNumber uint16
	// PayloadType says what the payload is, 0 to 127.
	PayloadType uint8
	csrcCount   uint8
	// Marker is M.
	Marker bool
	// HasPadding is P: whether there is padding at the end of the payload ([PacketBatch.UnpaddedPayload]).
	HasPadding  bool
	paddingFits bool
	form        Form
	profile     uint16
}

// Parse reads the fields of the packet that the datagram is, and where its parts lie, and no value of its block: in half of
// the time of [Packet.Parse]. On a port that RTP and RTCP share [IsRTCP] comes first.
//
// It returns the first Cause for which the datagram is no packet; nothing changes then.
func (p *PacketFields) Parse(datagram []byte) error {
	if racing {
		return errorOf(packetParse(datagram, p))
	}
	return errorsOf[text_packet_parse(first(datagram), uintptr(len(datagram)), p.c())&31]
}

// HeaderLen is how many bytes the header takes: 12 to 262,216.
func (p *PacketFields) HeaderLen() int {
	return p.payloadAt
}

// CSRCCount is how many contributing sources the packet has, 0 to 15: [Packet.Parse] reads them.
func (p *PacketFields) CSRCCount() int {
	return int(p.csrcCount)
}

// Block is the form and the body of the extension block of the datagram that was read last, as [Packet.Block] tells them.
func (p *PacketFields) Block(datagram []byte) (Form, []byte) {
	return p.form, datagram[p.bodyAt:p.payloadAt:p.payloadAt]
}

// BlockProfile is the 16 bits that the block begins with, and 0 where there is none.
func (p *PacketFields) BlockProfile() uint16 {
	return p.profile
}

// AppendPlaces appends the places of the elements of the block of the datagram that was read last, as
// [Packet.AppendPlaces] does.
func (p *PacketFields) AppendPlaces(places []Place, datagram []byte) []Place {
	return appendPlaces(places, p.form, datagram[p.bodyAt:p.payloadAt])
}

// NextPlace makes of the place of an element that of the next one in the block of the datagram that was read last, and of a
// zero Place that of the first one. It is false, and the place stays, where there is none: as AppendPlaces tells them.
func (p *PacketFields) NextPlace(place *Place, datagram []byte) bool {
	return p.form.hasElements() && place.end < p.bodyLen && place.next(datagram[p.bodyAt:p.payloadAt], p.form)
}

// UnpaddedPayload is the payload of the datagram that was read last without its padding. It is not ok where the padding's
// last byte counts more bytes than the payload has; a last byte of 0 takes nothing away ([Packet.UnpaddedPayload]).
func (p *PacketFields) UnpaddedPayload(datagram []byte) (payload []byte, ok bool) {
	if !p.paddingFits {
		return nil, false
	}
	end := p.payloadAt + p.unpaddedLen
	return datagram[p.payloadAt:end:end], true
}

// Payload is the payload of the datagram that was read last, with any padding.
func (p *PacketFields) Payload(datagram []byte) []byte {
	end := p.payloadAt + p.payloadLen
	return datagram[p.payloadAt:end:end]
}

// Parse reads the packet that the datagram is, in one call of the library: the fields, the values of its block under the
// map, and where its parts lie. A block of another form gives no values. On a port that RTP and RTCP share
// [Packet.ParseMuxed] tells RTCP.
//
// It returns the first Cause for which the datagram is no packet; nothing changes then.
func (p *Packet) Parse(datagram []byte, m *Map) error {
	return p.parse(datagram, m, false)
}

// ParseMuxed reads as [Packet.Parse] does from a port that RTP and RTCP share (RFC 5761), and returns [ErrRTCP] of RTCP
// ([IsRTCP]), before any Cause: such a datagram isn't lost, nor taken for RTP. Nothing changes then.
func (p *Packet) ParseMuxed(datagram []byte, m *Map) error {
	return p.parse(datagram, m, true)
}

// HasChanged is whether the bytes of the datagram say other fields or contributing sources now than when the packet was
// read, or that its parts lie elsewhere: so it is after each call that moves the payload where it lies. A call that made the
// packet anew in new memory, as [PutElement] does where the slice has no room, changed no byte of the datagram, and this is
// false: so always read the slice that the call returned. It takes the time of [PacketFields.Parse]. What it can't tell:
// elements that changed where they lie, and a retransmission ([ToRetransmission]) of the same SSRC, payload type and number.
func (p *Packet) HasChanged() bool {
	return p.hasChanged()
}

// String says in a line what packet it is: its SSRC, payload type, sequence number and timestamp, and how many bytes the
// header and the payload with any padding have.
func (p Packet) String() string {
	return fmt.Sprintf("%s, payload %d bytes", p.Header(), p.fields.payloadLen)
}

// Datagram is the whole datagram.
func (p *Packet) Datagram() []byte {
	return p.datagram
}

// HeaderLen is how many bytes the header takes: 12 to 262,216.
func (p *Packet) HeaderLen() int {
	return p.fields.payloadAt
}

// SequenceNumber is the low 16 bits of the packet's number.
func (p *Packet) SequenceNumber() uint16 {
	return p.fields.SequenceNumber
}

// Timestamp is the moment of the payload's first byte, in ticks of the payload's own clock.
func (p *Packet) Timestamp() uint32 {
	return p.fields.Timestamp
}

// SSRC is the stream's source.
func (p *Packet) SSRC() uint32 {
	return p.fields.SSRC
}

// PayloadType says what the payload is, 0 to 127.
func (p *Packet) PayloadType() uint8 {
	return p.fields.PayloadType
}

// Marker is M.
func (p *Packet) Marker() bool {
	return p.fields.Marker
}

// HasPadding is P: whether there is padding at the end of the payload ([Packet.UnpaddedPayload]).
func (p *Packet) HasPadding() bool {
	return p.fields.HasPadding
}

// HasExtension is X: whether there is a block of extensions ([Packet.Block]).
func (p *Packet) HasExtension() bool {
	return p.fields.form != NoBlock
}

// CSRC is the contributing sources, at most 15, in order: those that were read, not bytes of the datagram. They are a part
// of the Packet, so that they change when it is used again: copy them to keep them.
func (p *Packet) CSRC() []uint32 {
	return p.csrc[:p.csrcCount:p.csrcCount]
}

// Values are what the elements of the block say under the map that the packet was read with: none without a block, or in a
// block of another form. They are a part of the Packet, so that they change when it is used again: copy them to keep them.
func (p *Packet) Values() *ReadValues {
	return &p.values
}

// Header is a copy of the header, to be changed and written. It takes no memory where the compiler sees that it isn't kept.
// It has the values of the block's elements and not the elements: those of kinds that have no value, of URIs that aren't
// known and of a block of another form aren't in it. To send a packet on with all of its elements, change it where it lies
// ([Fields], [Renumber]).
func (p *Packet) Header() *Header {
	f := &p.fields
	return &Header{
		f.payloadAt, f.Timestamp, f.SSRC, p.csrc, f.SequenceNumber, f.PayloadType, p.csrcCount, f.Marker, f.HasPadding,
		f.form != NoBlock, Values{p.values},
	}
}

// Payload is the payload with any padding, as the packet is sent on. What is played is [Packet.UnpaddedPayload]: of a
// packet with P set the last bytes of this one are no media.
func (p *Packet) Payload() []byte {
	return p.datagram[p.fields.payloadAt:]
}

// UnpaddedPayload is the payload without its padding: the media. It is not ok where the padding's last byte counts more
// bytes than the payload has: drop the packet. Where P is set and that byte is 0, which no padding has (RFC 3550, 5.1),
// nothing is taken away, and P of a packet without a payload takes nothing away either. Of SRTP the padding is encrypted:
// decrypt first.
func (p *Packet) UnpaddedPayload() (payload []byte, ok bool) {
	return p.fields.UnpaddedPayload(p.datagram)
}

// Block is the form and the body of the extension block, after the four bytes of its header. Where there is none (X is
// clear) the form is NoBlock. Of a block of OtherForm [Packet.BlockProfile] says more.
func (p *Packet) Block() (Form, []byte) {
	return p.fields.Block(p.datagram)
}

// BlockProfile is the 16 bits that the extension block begins with, those of a form or others, which the block's
// profile defines (RFC 3550, 5.3.1): 0xABAC of ONVIF's cameras, say, and 0xC0DE and 0xC2DE of Cryptex (RFC 9335).
// It is 0 where there is no block.
func (p *Packet) BlockProfile() uint16 {
	return p.fields.profile
}

// PeekSSRC is the SSRC of a packet, to find the Receiver of a datagram before [Receiver.ReceivePacket] reads it. It is not
// ok of what is no packet, nor of RTCP ([IsRTCP]), whose bytes 8 to 11 are something else: there is no receiver to find
// then, and ReceivePacket would return an error. A stream with payload types 64 to 95, on a port of its own, is read by
// [Packet.Parse], which tells its SSRC.
func PeekSSRC(datagram []byte) (ssrc uint32, ok bool) {
	var fields PacketFields
	if isRTCP(datagram) || packetParse(datagram, &fields) != statusOK {
		return 0, false
	}
	return fields.SSRC, true
}

// IsRTCP is whether a datagram on a port that RTP and RTCP share is RTCP (RFC 5761, 4): it has version 2, and its
// second byte, the RTCP packet type, is 192 to 223. [Packet.ParseMuxed], [Receiver.ReceivePacket] and
// [Receiver.CheckPacket] tell it too; [Packet.Parse] would take a receiver report for RTP: as RTP that byte is M and a
// payload type of 64 to 95, which a stream on such a port must not have.
func IsRTCP(datagram []byte) bool {
	return isRTCP(datagram)
}
