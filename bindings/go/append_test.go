package rtpwire_test

import (
	"bytes"
	"testing"

	"rtp-wire.example/rtpwire"
)

// growing has a call that makes a packet longer, of the sample what it becomes, and how many bytes that are more.
type growing struct {
	name string
	call func(packet []byte) ([]byte, error)
	more int
}

func calls() []growing {
	return []growing{
		// The sample's elements take 7 bytes of 8, with one of four bytes 12, and in the two-byte form 10.
		{"put", func(p []byte) ([]byte, error) { return rtpwire.PutElement(p, 3, []byte{6, 7, 8, 9}, rtpwire.AnyForm) }, 4},
		{"added", func(p []byte) ([]byte, error) { return rtpwire.AddElement(p, 3, []byte{6, 7, 8, 9}, rtpwire.AnyForm) }, 4},
		{"255 bytes", func(p []byte) ([]byte, error) { return rtpwire.PutElement(p, 3, make([]byte, 255), rtpwire.AnyForm) }, 260},
		{"form", func(p []byte) ([]byte, error) { return rtpwire.ChangeForm(p, rtpwire.TwoByteForm) }, 4},
		{"block", func(p []byte) ([]byte, error) { return rtpwire.PutBlock(p, 0xABAC, make([]byte, 400)) }, 392},
	}
}

// A packet grows where it lies as far as its slice has room, and else in new memory, which leaves the old one as it was.
func TestPacketGrowsAsAppendDoes(t *testing.T) {
	for _, it := range calls() {
		length := len(sample()) + it.more
		buf := append(sample(), bytes.Repeat([]byte{0xEE}, it.more+3)...)
		made, err := it.call(buf[:len(sample()):length])
		same(t, it.name, []any{len(made), err, &made[0] == &buf[0]}, []any{length, nil, true})
		same(t, it.name+": behind it", buf[length:], []byte{0xEE, 0xEE, 0xEE})

		short := append(sample(), bytes.Repeat([]byte{0xEE}, it.more-1)...)
		left := append([]byte(nil), short...)
		copied, err := it.call(short[: len(sample()) : length-1])
		same(t, it.name+" in new memory", []any{copied, err, &copied[0] == &short[0]}, []any{made, nil, false})
		same(t, it.name+": the old memory", short, left)

		no, err := it.call(short[:11])
		same(t, it.name+": no packet", []any{no, err}, []any{short[:11], rtpwire.CutFixedPart})
	}
}

// In the two-byte form each element takes a byte more: 80,000 of them 240,000 bytes, and 88,000 too many.
func TestFormOfManyElementsGrows(t *testing.T) {
	with := func(elements int) []byte {
		words := elements / 2
		header := []byte{0x90, 96, 0, 1, 0, 0, 0, 2, 0, 0, 0, 3, 0xBE, 0xDE, byte(words >> 8), byte(words)}
		return append(header, bytes.Repeat([]byte{0x10, 7}, elements)...)
	}
	made, err := rtpwire.ChangeForm(with(80000), rtpwire.TwoByteForm)
	same(t, "in the other form", []any{len(made), err}, []any{240016, nil})
	_, err = rtpwire.ChangeForm(with(88000), rtpwire.TwoByteForm)
	same(t, "three bytes each", err, rtpwire.ErrLongBlock)
}

func TestRetransmissionGrows(t *testing.T) {
	ids := new(rtpwire.NewIDs)
	packet := []byte{0x80, 96, 0, 5, 0, 0, 0, 100, 0, 0, 0, 44, 1}
	again, err := rtpwire.ToRetransmission(packet[:13:13], 45, 97, 9, ids)
	same(t, "made", []any{again, err}, []any{[]byte{0x80, 97, 0, 9, 0, 0, 0, 100, 0, 0, 0, 45, 0, 5, 1}, nil})
	same(t, "the old memory", packet, []byte{0x80, 96, 0, 5, 0, 0, 0, 100, 0, 0, 0, 44, 1})
	back, err := rtpwire.FromRetransmission(again, 44, 96, ids)
	same(t, "back", []any{back, err}, []any{packet, nil})
	_, err = rtpwire.FromRetransmission(back[:12], 44, 96, ids)
	same(t, "no number", err, rtpwire.ErrNotFound)
}

// What repeats no packet is returned as it was, with the error: the payload has no whole number, the payload type is above
// 127, or it is no packet.
func TestWhatRepeatsNoPacketStays(t *testing.T) {
	for _, it := range []struct {
		length      int
		payloadType uint8
		err         error
	}{{12, 96, rtpwire.ErrNotFound}, {13, 96, rtpwire.ErrNotFound}, {14, 128, rtpwire.ErrBadField}, {11, 96, rtpwire.CutFixedPart}} {
		packet := []byte{0x80, 97, 0, 9, 0, 0, 0, 100, 0, 0, 0, 45, 0, 5}
		made, err := rtpwire.FromRetransmission(packet[:it.length], 44, it.payloadType, new(rtpwire.NewIDs))
		same(t, "returned", []any{len(made), err}, []any{it.length, it.err})
		same(t, "as it was", []any{packet, &made[0] == &packet[0]}, []any{[]byte{0x80, 97, 0, 9, 0, 0, 0, 100, 0, 0, 0, 45, 0, 5}, true})
	}
}

func TestHeaderIsAppended(t *testing.T) {
	var values rtpwire.Values
	values.SetTransportNumber(7)
	header, m := rtpwire.NewHeader(values), new(rtpwire.Map)
	same(t, "set", m.Set(3, rtpwire.KindTransportNumber), nil)
	wanted := []byte{1, 2, 0x90, 0, 0, 0, 0, 0, 0, 0, 0, 0, 0, 0, 0xBE, 0xDE, 0, 1, 0x31, 0, 7, 0}
	places, layers := []rtpwire.Place{{ID: 3, Len: 2}}, new(rtpwire.Layers)
	for name, call := range map[string]func([]byte) ([]byte, error){
		"values":   func(buf []byte) ([]byte, error) { return header.Append(buf, m) },
		"layers":   func(buf []byte) ([]byte, error) { return header.AppendLayers(buf, m, layers) },
		"elements": func(buf []byte) ([]byte, error) { return header.AppendWith(buf, []byte{0, 7}, places) },
	} {
		room := make([]byte, 30)
		copy(room, []byte{1, 2})
		made, err := call(room[:2:22])
		same(t, name, []any{made, err, &made[0] == &room[0], room[22:]}, []any{wanted, nil, true, make([]byte, 8)})
		room = []byte{1, 2, 3, 4}
		made, err = call(room[:2:3])
		same(t, name+" in new memory", []any{made, err, room}, []any{wanted, nil, []byte{1, 2, 3, 4}})
		header.PayloadType = 128
		made, err = call(room[:2])
		same(t, name+" of no type", []any{made, err}, []any{[]byte{1, 2}, rtpwire.ErrBadField})
		header.PayloadType = 0
	}
}

func TestLengthOfElements(t *testing.T) {
	data := make([]byte, 300)
	for _, places := range [][]rtpwire.Place{
		nil, {{ID: 1, Len: 1}}, {{ID: 14, Len: 16}, {ID: 2, Len: 2}}, {{ID: 15, Len: 1}}, {{ID: 1}}, {{ID: 1, Len: 17}, {ID: 2, Len: 1}},
		{{ID: 255, Len: 255}, {ID: 1, Len: 3}}, {{ID: 0, Len: 1}}, {{ID: 1, At: 299, Len: 2}}, {{ID: 1, Len: 256}},
	} {
		header, buf := new(rtpwire.Header), make([]byte, 400)
		same(t, "sources", header.SetCSRC([]uint32{7}), nil)
		written, wanted := header.WriteWith(buf, data, places)
		length, err := header.WireLenWith(data, places)
		same(t, "length", []any{length, err}, []any{written, wanted})
		for form := rtpwire.NoBlock; form <= rtpwire.OtherForm; form++ {
			written, wanted = header.WriteWithForm(buf, form, data, places)
			length, err = header.WireLenWithForm(form, data, places)
			same(t, form.String(), []any{length, err}, []any{written, wanted})
		}
	}
}

// An element without data needs the two-byte form, in which each takes two bytes more, and the length is that. The fixed part
// has 12 bytes, the source 4 and the beginning of the block 4; behind them are whole words.
func TestLengthOfElementsWithoutData(t *testing.T) {
	var header rtpwire.Header
	same(t, "source", header.SetCSRC([]uint32{7}), nil)
	for _, it := range []struct {
		places []rtpwire.Place
		length int
	}{
		{[]rtpwire.Place{{ID: 1}, {ID: 2, Len: 2}}, 28},                    // 2 + 4
		{[]rtpwire.Place{{ID: 1, Len: 1}, {ID: 2}}, 28},                    // 3 + 2
		{[]rtpwire.Place{{ID: 1}, {ID: 2}}, 24},                            // 2 + 2
		{[]rtpwire.Place{{ID: 1}, {ID: 2}, {ID: 3}}, 28},                   // 2 + 2 + 2
		{[]rtpwire.Place{{ID: 1, Len: 1}, {ID: 2, At: 1, Len: 1}}, 24},     // in the one-byte form 2 + 2
		{[]rtpwire.Place{{ID: 1, Len: 3}, {ID: 2, Len: 2}, {ID: 3}}, 32},   // 5 + 4 + 2
		{[]rtpwire.Place{{ID: 14, Len: 16}, {ID: 2, Len: 2}, {ID: 3}}, 44}, // 18 + 4 + 2
	} {
		length, err := header.WireLenWith(make([]byte, 16), it.places)
		same(t, "length", []any{length, err}, []any{it.length, nil})
		made, err := header.AppendWith(nil, make([]byte, 16), it.places)
		same(t, "appended", []any{len(made), err}, []any{it.length, nil})
	}
}

// What a receiver's fields are stays told by its place, also where the batch has grown.
func TestFieldsStayThoseOfTheBatch(t *testing.T) {
	var batch rtpwire.RouteBatch
	first := batch.Add(0)
	for i := 0; i < 100; i++ {
		batch.Add(0)
	}
	first.SetSSRC(46)
	first.SetMarker(true)
	buf := make([]byte, 4096)
	same(t, "routed", batch.Route([]byte{0x80, 96, 0, 5, 0, 0, 0, 100, 0, 0, 0, 44}, new(rtpwire.Group), nil, buf), nil)
	header, err := batch.At(0)
	same(t, "the first", []any{header, err}, []any{[]byte{0x80, 0xE0, 0, 5, 0, 0, 0, 100, 0, 0, 0, 46}, nil})
}

// What a call changes is the packet that it was passed, and the bytes behind it: each of two receivers of one packet gets
// its own element where the packet was copied first, and with the slice itself both have the last one.
func TestThePacketThatIsPassedIsUsedUp(t *testing.T) {
	put := func(packet []byte, receiver byte) []byte {
		made, err := rtpwire.PutElement(packet, 3, []byte{receiver, 7, 8, 9}, rtpwire.AnyForm)
		same(t, "put", err, nil)
		return made
	}
	of := func(packet []byte) byte {
		data, _ := parsed(t, packet, nil).Element(3)
		return data[0]
	}
	shared := append(make([]byte, 0, 200), sample()...)
	first, second := put(shared, 1), put(shared, 2)
	same(t, "the bytes passed have changed", []bool{bytes.Equal(shared, sample()), &first[0] == &second[0]}, []bool{false, true})
	same(t, "one element", []byte{of(first), of(second)}, []byte{2, 2})

	whole := append(make([]byte, 0, 200), sample()...)
	first, second = put(append([]byte(nil), whole...), 1), put(append([]byte(nil), whole...), 2)
	same(t, "each its own", []byte{of(first), of(second)}, []byte{1, 2})
	same(t, "as it was", []any{whole, whole[:200][37:]}, []any{sample(), make([]byte, 163)})
	again, err := rtpwire.ToRetransmission(append([]byte(nil), whole...), 8, 97, 1, new(rtpwire.NewIDs))
	same(t, "sent again", []any{err, len(again), whole}, []any{nil, 37, sample()})
}
