package rtpwire

// Each function here changes the part that it names of the packet that the datagram is, and no other byte. It
// returns the first Cause for which the datagram is no packet; where it returns an error nothing changes. All but
// RemovePadding need the header alone: its bytes are a packet without a payload, and what they become is, with the
// payload behind it, what the whole would become. So a server copies and changes only the header for each receiver.

// Fields are to be set together. A field that isn't set stays as it is in the packet.
type Fields struct {
	timestamp, ssrc           uint32
	sequenceNumber            uint16
	payloadType               uint8
	marker                    bool
	hasTimestamp, hasSSRC     bool
	hasSequenceNumber         bool
	hasPayloadType, hasMarker bool
}

// SetTimestamp gives the packet this timestamp.
func (f *Fields) SetTimestamp(timestamp uint32) {
	f.timestamp, f.hasTimestamp = timestamp, true
}

// SetSSRC gives the packet this source.
func (f *Fields) SetSSRC(ssrc uint32) {
	f.ssrc, f.hasSSRC = ssrc, true
}

// SetSequenceNumber gives the packet this number.
func (f *Fields) SetSequenceNumber(number uint16) {
	f.sequenceNumber, f.hasSequenceNumber = number, true
}

// SetPayloadType gives the packet this payload type, 0 to 127.
func (f *Fields) SetPayloadType(payloadType uint8) {
	f.payloadType, f.hasPayloadType = payloadType, true
}

// SetMarker sets or clears M.
func (f *Fields) SetMarker(marker bool) {
	f.marker, f.hasMarker = marker, true
}

// Apply sets them in the packet that the datagram is, and leaves the others. It returns ErrBadField where there is a
// payload type above 127.
func (f *Fields) Apply(datagram []byte) error {
	return setFields(datagram, f)
}

// SetCSRCAt sets the contributing source at this place of the packet's list, counted from 0. It returns ErrNotFound
// where the list has no such place.
func SetCSRCAt(datagram []byte, index int, source uint32) error {
	return setCSRC(datagram, index, source)
}

// SetElement gives the last element of this id these data. It returns ErrNotFound where the packet has no element of
// the id, or its last one has another number of bytes. Data that overlap the datagram are copied first.
func SetElement(datagram []byte, id uint8, data []byte) error {
	return setElement(datagram, id, data)
}

// RemoveElement makes each element of this id padding. It returns ErrNotFound where the packet has none.
func RemoveElement(datagram []byte, id uint8) error {
	return removeElement(datagram, id)
}

// Renumber gives each element its new id, and makes one that has none padding. It returns [ErrLongID] where the
// packet's form can't carry a new id that an element gets: one above 14 in the one-byte form, of which [ChangeForm]
// makes the other.
func Renumber(datagram []byte, ids *NewIDs) error {
	return renumber(datagram, ids)
}

// SetPadding sets or clears P, and no other bit: the padding is the caller's to write ([Pad]), or to keep.
func SetPadding(datagram []byte, hasPadding bool) error {
	return setPadding(datagram, hasPadding)
}

// RemovePadding takes the padding off: it clears P, and returns the bytes that the packet then has, the first ones of
// the datagram; where P is clear, all of them. It returns ErrBadField where the padding's last byte counts more bytes
// than the payload has. Of SRTP the padding is encrypted: decrypt first.
func RemovePadding(datagram []byte) ([]byte, error) {
	return removePadding(datagram)
}

// PutElementIn puts an element, of an id from 1 on with at most 255 bytes of data, into the packet in the first length
// bytes of the buffer, whose other bytes are the room for it, and returns the packet's bytes. It then has exactly one
// element of the id, in place of the last one of the id or as the last of all; the other elements stay, in order, but
// those of the id 0, behind which a receiver that follows RFC 8285, 4.2, reads nothing, and all other parts stay too.
// Without a block the packet gets one. Where the element is the only one of its id and has as many bytes, none is of
// the id 0, and the block keeps its form, only these bytes change. Else the block is made anew: its padding is used up,
// and then the payload moves by whole words; a body never becomes shorter ([Compact]). What stands where reading ends,
// an element that is cut short or what follows the id 15, is no element, and goes where the block is made anew. A
// header alone is enough. Data that overlap the buffer are copied first.
//
// A one-byte block that can't carry the element becomes a two-byte one, where the forms that are allowed let it:
// AnyForm; OnlyOneByteForm, as for a peer that hasn't agreed to both in one stream (RFC 8285, 4.1.2); or
// OnlyTwoByteForm, which the block then gets.
//
// It returns ErrBadField where the length isn't one of the buffer, allowed is none of the three, or there are more than
// 255 bytes of data; [ErrBadID] where the id is 0; ErrOtherForm where the block has another form, and so carries no
// elements; [ErrLongID] where the id is above 14, and OnlyOneByteForm is allowed; [ErrFormNotAllowed] where else it
// has, or the element needs, a form that isn't allowed (OnlyOneByteForm: it has TwoByteForm, or the element has no
// data or more than 16 bytes of them); [ErrLongBlock] where it would have more than 65,535 words; and ErrShortBuffer
// where the buffer has no room. Where it returns an error nothing changes.
func PutElementIn(buf []byte, length int, id uint8, data []byte, allowed Forms) ([]byte, error) {
	return putElement(buf, length, id, data, allowed)
}

// AddElementIn puts an element behind all others, and those of its id stay: an id may have several, of which the last one
// counts ([Packet.Element]). The id, the data, the forms that are allowed, the form that the block gets, the room behind
// the packet and the errors are as those of [PutElementIn]. The block is always made anew: elements of the id 0, which is
// padding's, go, and so does what stands where reading ends.
func AddElementIn(buf []byte, length int, id uint8, data []byte, allowed Forms) ([]byte, error) {
	return addElement(buf, length, id, data, allowed)
}

// ChangeFormIn makes a block of the other form one of this form, OneByteForm or TwoByteForm, in the packet in the first
// length bytes of the buffer, and returns the packet's bytes. Its elements stay, in order, and all other parts of the
// packet too; the payload moves where the body has to grow, and a body never becomes shorter ([Compact]). Elements of
// the id 0, which is padding's, go, and so does what stands where reading ends. A block that has the form, and a packet
// without a block, stay as they are. In the two-byte form elements may have ids above 14, as new ones by [Renumber], no
// data, and more than 16 bytes. A header alone is enough.
//
// It returns ErrBadField where the length isn't one of the buffer, or the form is none of the two; ErrOtherForm where
// the block has another form; [ErrLongID] where an element has an id above 14, which the one-byte form can't carry;
// [ErrFormNotAllowed] where none has, and one has no data or more than 16 bytes of them; [ErrLongBlock] where the block
// would have more than 65,535 words; and ErrShortBuffer where the buffer has no room. Where it returns an error nothing
// changes.
func ChangeFormIn(buf []byte, length int, form Form) ([]byte, error) {
	return changeForm(buf, length, form)
}

// PutBlockIn gives the packet in the first length bytes of the buffer a block that begins with these 16 bits, which a
// profile defines (RFC 3550, 5.3.1), and has this body, in place of the block that is there, and returns the packet's
// bytes: X is set, and the payload moves. What the body holds isn't looked at: of 0xBEDE and 0x1000 to 0x100F it is read
// as elements. A header alone is enough. A body that overlaps the buffer is copied first.
//
// It returns ErrBadField where the length isn't one of the buffer, or the body is no whole number of words of four
// bytes; [ErrLongBlock] where it has more than 65,535 words; and ErrShortBuffer where the buffer has no room. Where it
// returns an error nothing changes.
func PutBlockIn(buf []byte, length int, profile uint16, body []byte) ([]byte, error) {
	return putBlock(buf, length, profile, body)
}

// RemoveBlock takes the block off, of whatever form, and clears X, and returns the bytes that the packet then has, the
// first ones of the datagram: the payload moves to the end of the CSRC list. Without a block nothing changes. So the
// block of no words goes that [RemoveElement] and Compact leave. A header alone is enough.
func RemoveBlock(datagram []byte) ([]byte, error) {
	return removeBlock(datagram, len(datagram))
}

// Compact makes the packet as short as its elements allow, and returns the bytes that it then has, the first ones of
// the datagram: the elements stand in a row, the body is filled up to whole words, and the payload moves to the front.
// Elements of the id 0 go, and so does what stands where reading ends; a block of another form stays. So
// [RemoveElement] and then this gives bytes back. A header alone is enough.
func Compact(datagram []byte) ([]byte, error) {
	return compact(datagram, len(datagram))
}

// Pad makes a packet of padding alone after its header: it sets P, and writes the padding from headerLen on, zeros and
// in the last byte their count, which is returned. It is padLen in whole blocks, but at most 240 bytes; with a padLen
// of 0 nothing changes, and no room is wanted. To pad a packet with a payload, pass the end of the payload as
// headerLen. Whether the bytes are a packet isn't looked at.
//
// It returns ErrBadField where the block size is below 1, and else ErrShortBuffer where there is no room.
func Pad(buf []byte, headerLen int, padLen uint8, blockSize int) (int, error) {
	if blockSize < 0 {
		return 0, ErrBadField
	}
	return pad(buf, headerLen, padLen, blockSize)
}

// ReadOriginal is the original sequence number that the payload of a retransmission packet begins with (RFC 4588, 4),
// and the original payload behind it. It returns ErrShortBuffer of fewer than two bytes.
func ReadOriginal(payload []byte) (number uint16, original []byte, err error) {
	number, err = readOriginal(payload)
	if err != nil {
		return 0, nil, err
	}
	return number, payload[2:], nil
}

// WriteOriginal writes the low 16 bits of the original sequence number to the front of the payload of a
// retransmission packet. It returns ErrShortBuffer of fewer than two bytes.
func WriteOriginal(payload []byte, number uint64) error {
	return writeOriginal(payload, number)
}

// ToRetransmissionIn makes the packet in the first length bytes of the buffer a retransmission, in place, and returns its
// bytes (RFC 4588, 4): it has this SSRC, payload type and number of its own, the elements under their new ids
// ([NewIDsToRetransmission]), and as payload the original number in two bytes and the original payload without its
// padding. P becomes clear, and all else stays, M and the timestamp too, and so do the bytes behind it.
//
// It returns the first that applies: ErrBadField where the payload type is above 127 or the length isn't one of the
// buffer; a [Cause]; ErrBadField where the padding's last byte counts more bytes than the payload has; [ErrLongID] where
// the packet's form can't carry a new id; ErrShortBuffer where there is no room for the two bytes. Nothing changes then.
func ToRetransmissionIn(
	buf []byte, length int, ssrc uint32, payloadType uint8, number uint16, ids *NewIDs,
) ([]byte, error) {
	return toRetransmission(buf, length, ssrc, payloadType, number, ids)
}

// FromRetransmissionIn makes the retransmission in the first length bytes of the buffer the packet that it repeats, in
// place, and returns its bytes: it has this SSRC and payload type, the original number, the elements under their new
// ids ([NewIDsFromRetransmission]), and as payload what follows that number, without padding. P becomes clear, and all
// else stays, and so do the bytes behind it.
//
// It returns errors as ToRetransmissionIn does, but for the last one; and before ErrLongID ErrNotFound, where the payload
// without its padding has fewer than the two bytes of a number. Nothing changes then.
func FromRetransmissionIn(buf []byte, length int, ssrc uint32, payloadType uint8, ids *NewIDs) ([]byte, error) {
	return fromRetransmission(buf, length, ssrc, payloadType, ids)
}

// LibraryVersion is the version of the library that is linked: 65,536 times its major number, 256 times the minor
// one, and the patch.
func LibraryVersion() uint32 {
	return version()
}
