package rtpwire

// A Group is what several receivers of a packet have in common, so that one header is made for all of them: the ids that
// its elements get, the elements that each receiver gets beside them, and how many bytes of data each of these has.
type Group struct {
	// IDs are the new ids of the packet's elements ([NewIDsBetween]); an element that gets none goes. In a nil one none
	// gets one.
	IDs *NewIDs
	// Elements are put into the packet in their order, at most 16, of ids of their own. Each is a place in the data that
	// the header is made with, anywhere in them. The data of a receiver are those of all elements one after another, in this
	// order, whatever the places here are ([RouteBatch.Add]).
	Elements []Place
	// Allowed are the forms that the block may get, where an element is put ([PutElement]) or gets an id above 14; else
	// it keeps its form.
	Allowed Forms
}

// template is what a header that was made for a group is: rtpw_template in C.
type template struct {
	headerLen uint32
	dataAt    [16]uint32
	dataTotal uint16
	count     uint8
	dataLen   [16]uint8
}

// A HeaderTemplate is the header that a packet gets for a group of receivers: made once, and written for each receiver
// with fields and data of its own ([RouteBatch.Write]). It has a copy of what it was made from, and several goroutines may
// write by it at once, each with a batch of its own. Use one again: then no memory is taken but where a header is longer
// than ever before. A copy of a HeaderTemplate is as one that was never made.
type HeaderTemplate struct {
	made template
	buf  []byte          // begins with the header
	self *HeaderTemplate // whose buffer it is: a copy has that of the other
}

// isCopy is whether the buffer isn't its own.
func (t *HeaderTemplate) isCopy() bool {
	return t.self != t
}

// claim gives the buffer up where it isn't its own.
func (t *HeaderTemplate) claim() {
	if t.isCopy() {
		*t = HeaderTemplate{self: t}
	}
}

// mostHeader is how many bytes a header has at most.
const mostHeader = 12 + 15*4 + 4 + 4*65535

// Make makes the header that the packet in the datagram gets for the group: each element has its new id ([Renumber]), in
// the two-byte form where one of them is above 14 and that form is allowed ([ChangeForm]), those of the group are put,
// with their data, one after the other ([PutElement]), and the block is as short as it can be ([Compact]). The payload
// isn't looked at.
//
// It returns ErrBadField, before all else, where Allowed is none of the three forms, there are more than 16 elements, or
// the data of one reach past the data; the first [Cause] for which the datagram is no packet; ErrBadField where two
// elements have one id; and then what the first of these calls returns that refuses: [ErrLongID] where a new id is above
// 14, the packet's form is the one-byte form, and OnlyOneByteForm is allowed; [ErrLongBlock] where the packet's own
// elements have no room in the two-byte form; and of the group's elements in turn [ErrBadID], ErrBadField of more than 255
// bytes of data, ErrOtherForm, ErrLongID, [ErrFormNotAllowed] or ErrLongBlock. No header is made then.
func (t *HeaderTemplate) Make(datagram []byte, group *Group, data []byte) error {
	t.claim()
	status := t.make(datagram, group, data)
	if status == statusShortBuffer {
		status = t.makeWithRoom(datagram, group, data)
	}
	return t.ended(status)
}

// grow gives the buffer the room that any header of such a datagram takes, and is whether it hadn't it.
func (t *HeaderTemplate) grow(datagram []byte, elements int) bool {
	length := len(datagram)
	if length > mostHeader {
		length = mostHeader
	}
	room := 2*length + 264*elements
	if len(t.buf) >= room {
		return false
	}
	t.buf = make([]byte, room)
	return true
}

// ended is the error that the status means: of a header that wasn't made nothing stays.
func (t *HeaderTemplate) ended(status int32) error {
	if status != 0 {
		t.made = template{}
	}
	return errorOf(status)
}

// HeaderLen is how many bytes the header has, and each that is written: 12 to 262,216; 0 where none is made. That of a
// retransmission has 2 more.
func (t *HeaderTemplate) HeaderLen() int {
	if t.isCopy() {
		return 0
	}
	return int(t.made.headerLen)
}

// DataLen is how many bytes of data each receiver brings, those of all elements together: 0 to 4,080.
func (t *HeaderTemplate) DataLen() int {
	if t.isCopy() {
		return 0
	}
	return int(t.made.dataTotal)
}

// routedHeader is a receiver and the header that it gets: rtpw_routed_header in C.
type routedHeader struct {
	dataAt, at int
	Fields
	originalNumber   uint16
	isRetransmission bool
	clearsPadding    bool
	status           int32
	length           uint32
}

// A RouteBatch writes the headers of all receivers of a group in one call of the library, each with fields and data of
// its own. With the packet's payload behind it each is the packet that goes to the receiver: what [Fields.Apply],
// [Renumber], [PutElement] for each element and [Compact] make of a copy, one after the other, with [ChangeForm] before
// Renumber where a new id is above 14 and the two-byte form is allowed. One receiver that gets none spoils no other. Use
// one again, as a [HeaderBatch]. The zero RouteBatch is ready; a copy shares the receivers with the other, and so only one
// of the two may be used.
//
// The headers lie one after another in the buffer, from its first byte on, and [RouteBatch.At] tells each. So a buffer
// is long enough that has room for the longest header of all packets as often as there are receivers, and for two bytes
// more for each retransmission.
//
//	group := rtpwire.Group{IDs: ids, Elements: []rtpwire.Place{{ID: 4, At: 0, Len: 2}}} // two bytes of the id 4
//	batch.Reset()
//	for i, receiver := range receivers {
//		fields := batch.Add(2 * i) // the data from the byte 2*i on
//		fields.SetSSRC(receiver.ssrc)
//	}
//	err := batch.Route(datagram, &group, data, buf)
//	if err != nil {
//		return err // no packet, or none of it can be made for the group
//	}
//	for i := 0; i < batch.Len(); i++ {
//		header, err := batch.At(i)
//		...
//	}
//
// P is the packet's, so that its payload is sent with its padding ([Packet.Payload]); where [RouteBatch.ClearPadding]
// cleared it, without ([Packet.UnpaddedPayload]).
type RouteBatch struct {
	buf   []byte
	given []routedHeader
	count int // of those given, so many are written
	own   HeaderTemplate
}

// Reset takes all receivers away.
func (b *RouteBatch) Reset() {
	b.buf, b.given, b.count = nil, b.given[:0], 0
}

// Add adds a receiver. Its data begin there in the data: those of the group's elements, one after the other in the
// elements' order, whatever their places in the data are that the header is made with. It returns the receiver's fields, of
// which none is set yet; later [RouteBatch.Fields] tells them.
func (b *RouteBatch) Add(dataAt int) RoutedFields {
	n := len(b.given)
	if n < cap(b.given) {
		b.given = b.given[:n+1]
	} else {
		b.given = append(b.given, routedHeader{})
	}
	r := &b.given[n]
	*r = routedHeader{dataAt: dataAt}
	return RoutedFields{b, n}
}

// AddRetransmission adds a receiver as Add does, which gets the packet as a retransmission (RFC 4588, 4). Its fields are
// those of the retransmission's stream, with the timestamp and marker that it got the packet with where these were its
// own. P is clear, and original, the number that it got the packet with, stands behind the header in two bytes. The
// packet's payload follows without its padding, which isn't looked at here. That is what [ToRetransmission] makes of what
// the receiver got, where each id stays.
func (b *RouteBatch) AddRetransmission(dataAt int, original uint16) RoutedFields {
	fields := b.Add(dataAt)
	r := &b.given[len(b.given)-1]
	r.originalNumber, r.isRetransmission = original, true
	return fields
}

// Fields are those of a receiver that was added, to be set for the next packet: a retransmission keeps its original
// number.
func (b *RouteBatch) Fields(i int) RoutedFields {
	return RoutedFields{b, i}
}

// RoutedFields are the fields of a receiver of a RouteBatch ([Fields]): those of the batch itself, until its next Reset.
type RoutedFields struct {
	batch *RouteBatch
	i     int
}

// Set makes them these: what isn't set in them is the packet's.
func (f RoutedFields) Set(fields Fields) {
	f.batch.given[f.i].Fields = fields
}

// SetTimestamp gives the receiver's header this timestamp.
func (f RoutedFields) SetTimestamp(timestamp uint32) {
	f.batch.given[f.i].SetTimestamp(timestamp)
}

// SetSSRC gives the receiver's header this source.
func (f RoutedFields) SetSSRC(ssrc uint32) {
	f.batch.given[f.i].SetSSRC(ssrc)
}

// SetSequenceNumber gives the receiver's header this number.
func (f RoutedFields) SetSequenceNumber(number uint16) {
	f.batch.given[f.i].SetSequenceNumber(number)
}

// SetPayloadType gives the receiver's header this payload type, 0 to 127.
func (f RoutedFields) SetPayloadType(payloadType uint8) {
	f.batch.given[f.i].SetPayloadType(payloadType)
}

// SetMarker sets or clears M in the receiver's header.
func (f RoutedFields) SetMarker(marker bool) {
	f.batch.given[f.i].SetMarker(marker)
}

// ClearPadding says whether P is clear in the header of a receiver that was added, for a payload that is sent without
// its padding: where P stays set the receiver takes the last bytes of the media for padding. It is so until it is said
// anew, or a Reset.
func (b *RouteBatch) ClearPadding(i int, clears bool) {
	b.given[i].clearsPadding = clears
}

// Write writes the headers of the receivers that were added to the buffer, in the order in which they were, one after
// another from the first byte on; those behind the last one stay. The batch keeps the buffer until it writes into another
// one or is Reset. Data that overlap the buffer are copied first.
//
// It returns ErrBadField where the template has no header: it was never made, the last Make failed, or it is a copy of
// another one. Nothing is written then, and Len is 0.
func (b *RouteBatch) Write(t *HeaderTemplate, data, buf []byte) error {
	b.count = 0
	made := int32(statusOK)
	if t.HeaderLen() == 0 {
		made = statusBadField
	}
	return b.write(t, made, data, buf)
}

// Route makes the header of a packet for a group and writes it for all receivers that were added, as
// [HeaderTemplate.Make] and then Write with the same data do. The headers may be written over the datagram.
//
// It returns the errors of Make. Nothing is written then, and Len is 0.
func (b *RouteBatch) Route(datagram []byte, group *Group, data, buf []byte) error {
	b.count = 0
	made := b.own.make(datagram, group, data)
	if made == statusShortBuffer {
		made = b.own.makeWithRoom(datagram, group, data)
	}
	return b.write(&b.own, made, data, buf)
}

// Len is for how many receivers the last Write or Route wrote; 0 after a Reset.
func (b *RouteBatch) Len() int {
	return b.count
}

// At is the header of a receiver, and behind that of a retransmission the number: a part of the buffer, which an append
// copies.
//
// It returns nil, and ErrBadField where the receiver's fields have a payload type above 127, or its data reach past the
// data; and else ErrShortBuffer where its header would reach past the buffer. It takes no bytes of the buffer then.
func (b *RouteBatch) At(i int) ([]byte, error) {
	r := &b.given[:b.count][i]
	if r.status != 0 {
		return nil, errorOf(r.status)
	}
	end := r.at + int(r.length)
	return b.buf[r.at:end:end], nil
}
