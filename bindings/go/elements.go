package rtpwire

// A Form is that of an extension block (RFC 8285, 4.2 and 4.3).
type Form uint8

// The forms of a block.
const (
	NoBlock     Form = 0 // X is clear
	OneByteForm Form = 1 // 0xBEDE: ids up to 14, and 1 to 16 bytes of data
	TwoByteForm Form = 2 // 0x1000 to 0x100F: ids up to 255, and up to 255 bytes of data
	OtherForm   Form = 3 // another one ([Packet.BlockProfile]), in which no elements are read
)

// Forms are those that a block may get where an element is put ([PutElement]).
type Forms uint8

// The forms that are allowed.
const (
	AnyForm         Forms = 0 // either of the two
	OnlyOneByteForm Forms = 1 // as for a peer that hasn't agreed to both in one stream (RFC 8285, 4.1.2)
	OnlyTwoByteForm Forms = 2
)

// String names the form.
func (f Form) String() string {
	switch f {
	case NoBlock:
		return "no block"
	case OneByteForm:
		return "one-byte form"
	case TwoByteForm:
		return "two-byte form"
	case OtherForm:
		return "other form"
	default:
		return "unknown form"
	}
}

// hasElements is whether a block of the form has elements.
func (f Form) hasElements() bool {
	return f == OneByteForm || f == TwoByteForm
}

// A Place says where the data of an element lie: in the body of a packet's block ([Packet.AppendPlaces]), or in the
// data that elements are written from ([Header.WriteWith], [WriteElements]).
type Place struct {
	// At is where they begin.
	At int
	// Len is how many bytes they are: 0 to 255.
	Len int
	end int
	// ID is the element's: as read 0 to 14 in the one-byte form, 1 to 255 in the two-byte form. One of the id 0 is told as
	// read ([Packet.AppendPlaces]), and never written.
	ID uint8
}

// AppendPlaces appends the places of the elements of the packet's block, in order. They end where one is cut short,
// and in the one-byte form where one has the id 15. An element of the id 0 with length bits, which is none by RFC 8285, 4.2,
// is listed with the id 0, which no call writes, and reading goes on behind it: take it out of places that are written
// again. Where the slice has room for them, and one more, it takes one
// call of the library and no memory.
func (p *Packet) AppendPlaces(places []Place) []Place {
	form, body := p.Block()
	return appendPlaces(places, form, body)
}

// Data is the data at a place that AppendPlaces told of this packet: a part of the datagram, which an append copies.
func (p *Packet) Data(place Place) []byte {
	_, body := p.Block()
	end := place.At + place.Len
	return body[place.At:end:end]
}

// Element is the data of the last element of this id, which is the one that counts: a part of the datagram, which an
// append copies. It is not ok where the packet has no element of the id.
func (p *Packet) Element(id uint8) (data []byte, ok bool) {
	form, body := p.Block()
	if !form.hasElements() {
		return nil, false
	}
	place, err := lastElement(body, form, id)
	if err != nil {
		return nil, false
	}
	return body[place.At:place.end:place.end], true
}

// WriteElements writes elements, one after the other, as a block's body has them, to the front of the buffer, and
// returns how many bytes they took; those after them stay. Each place is one in data, which is copied where it overlaps
// the buffer.
//
// It returns ErrBadField where the form is none of the two or can't carry one of them, or one has bytes past the end
// of data; and else ErrShortBuffer. Nothing is written then.
func WriteElements(buf []byte, form Form, data []byte, places []Place) (int, error) {
	return writeElements(data, places, form, buf)
}
