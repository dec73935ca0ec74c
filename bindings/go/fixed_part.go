package rtpwire

// A FixedPart is the fixed part of a header (RFC 3550, 5.1) but for how many contributing sources there are: for a program
// that keeps headers in structs of its own, and reads or writes one for each packet. All else writes a [Header].
type FixedPart struct {
	// Version is 2 as it is read, and 2 is written whatever it is.
	Version uint8
	// HasPadding is P.
	HasPadding bool
	// HasExtension is X as it is read; what is written says itself whether there is a block.
	HasExtension bool
	// Marker is M.
	Marker bool
	// PayloadType says what the payload is, 0 to 127.
	PayloadType uint8
	// SequenceNumber is the low 16 bits of the packet's number.
	SequenceNumber uint16
	// Timestamp is the moment of the payload's first byte, in ticks of the payload's own clock.
	Timestamp uint32
	// SSRC is the stream's source.
	SSRC uint32
}

// A Layout is where the parts of a packet lie that stand behind its fixed part.
type Layout struct {
	payloadAt, unpaddedLen, bodyAt int
	profile                        uint16
	form                           Form
	csrcCount                      uint8
	paddingFits                    bool
}

// A DataElement is an element to be written, whose data lie anywhere.
type DataElement struct {
	// ID is 1 to 14 in the one-byte form, and 1 to 255 in the two-byte form.
	ID uint8
	// Data are 1 to 16 bytes in the one-byte form, and 0 to 255 in the two-byte form.
	Data []byte
}

// Parse reads the fixed part of the packet that the datagram is, and where its other parts lie. It returns 0, which is no
// Cause, or the first Cause for which the datagram is no packet; nothing changes then.
func (f *FixedPart) Parse(datagram []byte, layout *Layout) Cause {
	if racing {
		return Cause(readFixedPart(datagram, f, layout))
	}
	return Cause(text_read_fixed_part(first(datagram), uintptr(len(datagram)), f.c(), layout.c()))
}

// WriteInto writes a header that is the fixed part alone, without contributing sources and block, to the front of the
// buffer: 12 bytes, and those after them stay. It is false where the payload type is above 127 or the buffer has fewer, and
// nothing is written then.
func (f *FixedPart) WriteInto(buf []byte) bool {
	if racing {
		return writeFixedPart(f, buf) == nil
	}
	return text_write_fixed_part(f.c(), first(buf), uintptr(len(buf))) == statusOK
}

// WriteWith writes the fixed part, without contributing sources, and behind it a block of these elements in this form, to
// the front of the buffer, and returns how many bytes they took; those after them stay. Data that overlap the buffer are
// copied first.
//
// It returns ErrBadField where the payload type is above 127, the form is neither of the two or can't carry an element, or
// all of them are too long for a block; and else ErrShortBuffer. Nothing is written then.
func (f *FixedPart) WriteWith(buf []byte, form Form, elements []DataElement) (int, error) {
	return putDataElements(f, elements, form, buf)
}

// HeaderLen is how many bytes the header takes: 12 to 262,216.
func (l *Layout) HeaderLen() int {
	return l.payloadAt
}

// CSRCCount is how many contributing sources the packet has, 0 to 15: [Packet.Parse] reads them.
func (l *Layout) CSRCCount() int {
	return int(l.csrcCount)
}

// Block is the form and the body of the extension block of the datagram that was read last, as [Packet.Block] tells them.
func (l *Layout) Block(datagram []byte) (Form, []byte) {
	return l.form, datagram[l.bodyAt:l.payloadAt:l.payloadAt]
}

// BlockAt is the form of the block, and where in the datagram its body begins.
func (l *Layout) BlockAt() (Form, int) {
	return l.form, l.bodyAt
}

// BlockProfile is the 16 bits that the block begins with, and 0 where there is none.
func (l *Layout) BlockProfile() uint16 {
	return l.profile
}

// UnpaddedPayload is the payload of the datagram that was read last without its padding. It is not ok where the padding's
// last byte counts more bytes than the payload has; a last byte of 0 takes nothing away ([Packet.UnpaddedPayload]).
func (l *Layout) UnpaddedPayload(datagram []byte) (payload []byte, ok bool) {
	if !l.paddingFits {
		return nil, false
	}
	end := l.payloadAt + l.unpaddedLen
	return datagram[l.payloadAt:end:end], true
}

// Places is room for the places of some elements of a block.
type Places [5]Place

// Fill writes the places of the elements of a block's body into the room, from an offset on, which is 0 or where an element
// ends, and returns how many they are. Where the room is full, reading goes on where the last one ends; else it ends there,
// as [Packet.AppendPlaces] tells. Of a whole header the offset is where the body begins ([Layout.BlockAt]), or where an element
// ends, and the places are counted from the header's first byte.
func (p *Places) Fill(form Form, body []byte, at int) int {
	if racing {
		return nextElements(p[:], form, body, at)
	}
	return int(text_next_elements(first(body), uintptr(len(body)), uint8(form), uintptr(at), p.c(), 5))
}
