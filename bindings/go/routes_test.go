package rtpwire_test

import (
	"bytes"
	"fmt"
	"math"
	"math/rand"
	"testing"

	"rtp-wire.example/rtpwire"
)

// The expected bytes are worked out by hand from RFC 3550, 5.1, and RFC 8285, 4.1.2, 4.2 and 4.3.

// routable is a packet with the timestamp 100, the SSRC 44, the element 1 (AA), padding, and a payload of a byte.
func routable() []byte {
	return []byte{0x90, 96, 0, 5, 0, 0, 0, 100, 0, 0, 0, 44, 0xBE, 0xDE, 0, 1, 0x10, 0xAA, 0, 0, 'p'}
}

// newIDs gives each first one of a pair the second as its new id.
func newIDs(pairs ...[2]uint8) *rtpwire.NewIDs {
	ids := new(rtpwire.NewIDs)
	for _, pair := range pairs {
		ids.Set(pair[0], pair[1])
	}
	return ids
}

// each is the ids 1 to 255, which stay.
func each() *rtpwire.NewIDs {
	ids := new(rtpwire.NewIDs)
	for id := 1; id < 256; id++ {
		ids.Set(uint8(id), uint8(id))
	}
	return ids
}

// numbered is the group whose receivers get the element 1 as 3, and two bytes of the id 4.
func numbered() *rtpwire.Group {
	return &rtpwire.Group{IDs: newIDs([2]uint8{1, 3}), Elements: []rtpwire.Place{{ID: 4, Len: 2}}}
}

func TestTwoReceivers(t *testing.T) {
	wanted := [2][]byte{
		{0x90, 96, 0, 9, 0, 0, 0, 100, 0, 0, 0, 45, 0xBE, 0xDE, 0, 2, 0x30, 0xAA, 0x41, 0, 7, 0, 0, 0},
		{0x90, 0xE1, 0, 5, 1, 2, 3, 4, 0, 0, 0, 44, 0xBE, 0xDE, 0, 2, 0x30, 0xAA, 0x41, 0, 8, 0, 0, 0},
	}
	data := []byte{0, 7, 0, 8}
	var template rtpwire.HeaderTemplate
	var batch rtpwire.RouteBatch
	fields := batch.Add(0)
	fields.SetSequenceNumber(9)
	fields.SetSSRC(45)
	fields = batch.Add(2)
	fields.SetTimestamp(0x01020304)
	fields.SetPayloadType(97)
	fields.SetMarker(true)
	same(t, "not yet", []int{batch.Len(), template.HeaderLen(), template.DataLen()}, []int{0, 0, 0})
	packet := routable()
	same(t, "made", template.Make(packet, numbered(), data), nil)
	same(t, "lengths", []int{template.HeaderLen(), template.DataLen()}, []int{24, 2})
	same(t, "the packet", packet, routable())
	for i, write := range []func(buf []byte) error{
		func(buf []byte) error { return batch.Route(packet, numbered(), data, buf) },
		func(buf []byte) error { return batch.Write(&template, data, buf) },
	} {
		buf := bytes.Repeat([]byte{0xEE}, 50)
		same(t, "written", []any{write(buf), batch.Len()}, []any{nil, 2})
		first, err := batch.At(0)
		second, otherErr := batch.At(1)
		same(t, fmt.Sprint("headers ", i), []any{first, second, err, otherErr}, []any{wanted[0], wanted[1], nil, nil})
		same(t, "behind them", buf[48:], []byte{0xEE, 0xEE})
		same(t, "their places", []bool{&first[0] == &buf[0], &second[0] == &buf[24]}, []bool{true, true})
		same(t, "no room behind", []int{cap(first), cap(second)}, []int{24, 24})
	}
	same(t, "data", data, []byte{0, 7, 0, 8})

	// For the next packet the fields that were set stay, and others are set.
	batch.Fields(0).SetSequenceNumber(10)
	batch.Fields(1).SetMarker(false)
	buf := make([]byte, 50)
	same(t, "again", batch.Route(routable(), numbered(), []byte{1, 2, 3, 4}, buf), nil)
	first, _ := batch.At(0)
	second, _ := batch.At(1)
	same(t, "the first", [][]byte{first[:12], first[18:21]}, [][]byte{{0x90, 96, 0, 10, 0, 0, 0, 100, 0, 0, 0, 45}, {0x41, 1, 2}})
	same(t, "the second", [][]byte{second[:12], second[18:21]}, [][]byte{{0x90, 97, 0, 5, 1, 2, 3, 4, 0, 0, 0, 44}, {0x41, 3, 4}})
}

// routedAs is the header that the packet gets for one receiver without fields of its own, whose data are those of the
// elements in their order.
func routedAs(t *testing.T, packet string, group *rtpwire.Group, data string) string {
	t.Helper()
	var batch rtpwire.RouteBatch
	batch.Add(0)
	buf := make([]byte, 100)
	if err := batch.Route(written(t, packet), group, []byte(data), buf); err != nil {
		return err.Error()
	}
	header, err := batch.At(0)
	same(t, packet, err, nil)
	return fmt.Sprintf("% X", header[:1]) + fmt.Sprintf("% X", header[12:])
}

func TestGroups(t *testing.T) {
	const one, two, both = rtpwire.OnlyOneByteForm, rtpwire.OnlyTwoByteForm, rtpwire.AnyForm
	four := []rtpwire.Place{{ID: 4, Len: 2}}
	three := "90 BEDE0002 1061 216263 1064 00 09" // the elements 1, 2 and 1 again
	none := []rtpwire.Place(nil)
	rows := []struct {
		packet   string
		ids      *rtpwire.NewIDs
		elements []rtpwire.Place
		allowed  rtpwire.Forms
		data     string
		wanted   string
	}{
		{three, newIDs([2]uint8{2, 3}), []rtpwire.Place{{ID: 5, Len: 2}}, one, "\x00\x07", "90BE DE 00 02 31 62 63 51 00 07 00 00"},
		{three, newIDs([2]uint8{9, 9}), none, one, "", "90BE DE 00 00"},
		{three, nil, none, both, "", "90BE DE 00 00"},
		{three, nil, four, both, "\x00\x07", "90BE DE 00 01 41 00 07 00"},
		// In place of the last of its id, and no other of that id stays.
		{three, each(), []rtpwire.Place{{ID: 1, Len: 1}}, one, "\x77", "90BE DE 00 02 21 62 63 10 77 00 00 00"},
		// An id above 14 and no data ask for the two-byte form.
		{three, each(), []rtpwire.Place{{ID: 20}}, both, "", "9010 00 00 03 01 01 61 02 02 62 63 01 01 64 14 00"},
		{three, each(), []rtpwire.Place{{ID: 20}}, one, "", rtpwire.ErrLongID.Error()},
		{three, each(), []rtpwire.Place{{ID: 14}}, one, "", rtpwire.ErrFormNotAllowed.Error()},
		// So does a new id above 14.
		{three, newIDs([2]uint8{2, 15}), none, both, "", "9010 00 00 01 0F 02 62 63"},
		{three, newIDs([2]uint8{2, 15}), none, two, "", "9010 00 00 01 0F 02 62 63"},
		{three, newIDs([2]uint8{2, 15}), none, one, "", rtpwire.ErrLongID.Error()},
		{three, newIDs([2]uint8{2, 15}), four, both, "\x00\x07", "9010 00 00 02 0F 02 62 63 04 02 00 07"},
		{three, each(), four, two, "\x00\x07", "9010 00 00 04 01 01 61 02 02 62 63 01 01 64 04 02 00 07 00 00"},
		{"80 0900", each(), four, both, "\x00\x07", "90BE DE 00 01 41 00 07 00"},
		{"80 0900", each(), none, both, "", "80"},
		{"90 ABAC0001 01020304 09", each(), none, both, "", "90AB AC 00 01 01 02 03 04"},
		{"90 ABAC0001 01020304 09", each(), four, both, "\x00\x07", rtpwire.ErrOtherForm.Error()},
		// The application's bits of the profile stay.
		{"90 10070001 04010900", newIDs([2]uint8{4, 6}), four, both, "\x00\x07", "9010 07 00 02 06 01 09 04 02 00 07 00"},
		// Elements in their order, each with its own data; one has the place of that which is renumbered to its id.
		{"90 BEDE0001 10AA20BB", newIDs([2]uint8{1, 2}, [2]uint8{2, 5}), []rtpwire.Place{{ID: 6, At: 2, Len: 1}, {ID: 2, Len: 2}},
			one, "\x01\x02\x03", "90BE DE 00 02 21 02 03 50 BB 60 01 00"},
	}
	for _, row := range rows {
		group := &rtpwire.Group{IDs: row.ids, Elements: row.elements, Allowed: row.allowed}
		same(t, row.packet, routedAs(t, row.packet, group, row.data), row.wanted)
	}
}

// The data of a receiver are those of the elements one after another in their order, wherever they lay in the data that the
// header was made with: here the first element's lie behind those of the second.
func TestDataInTheOrderOfTheElements(t *testing.T) {
	group := &rtpwire.Group{IDs: each(), Elements: []rtpwire.Place{{ID: 6, At: 5, Len: 1}, {ID: 2, At: 0, Len: 2}}}
	made := []byte{0x20, 0x21, 9, 9, 9, 0x60}
	var template rtpwire.HeaderTemplate
	same(t, "made", []any{template.Make(routable(), group, made), template.DataLen()}, []any{nil, 3})
	prepared, err := group.Prepare()
	same(t, "prepared", []any{err, prepared.DataLen()}, []any{nil, 3})
	data := []byte{0xEE, 0x16, 0x12, 0x13, 0x26, 0x22, 0x23} // of two receivers, from the byte 1 on
	var batch rtpwire.RouteBatch
	batch.Add(1)
	batch.Add(4)
	buf := make([]byte, 100)
	for _, write := range []func() error{
		func() error { return batch.Write(&template, data, buf) },
		func() error { return batch.RoutePrepared(routable(), prepared, data, buf) },
	} {
		same(t, "written", write(), nil)
		for i, wanted := range [][]byte{
			{0xBE, 0xDE, 0, 2, 0x10, 0xAA, 0x60, 0x16, 0x21, 0x12, 0x13, 0}, {0xBE, 0xDE, 0, 2, 0x10, 0xAA, 0x60, 0x26, 0x21, 0x22, 0x23, 0},
		} {
			header, err := batch.At(i)
			same(t, "header", []any{header[12:], err}, []any{wanted, nil})
		}
	}
}

// A copy of a batch shares its receivers.
func TestCopiesOfABatchShareItsReceivers(t *testing.T) {
	var batch rtpwire.RouteBatch
	batch.Add(0)
	copied := batch
	copied.Fields(0).SetSSRC(45)
	same(t, "routed", batch.Route(routable(), &rtpwire.Group{IDs: each()}, nil, make([]byte, 100)), nil)
	header, err := batch.At(0)
	same(t, "the fields of the copy", []any{header[11], err}, []any{byte(45), nil})
}

// What no header can be made of is told as the calls tell it, and nothing is written.
func TestHeadersThatAreNotMade(t *testing.T) {
	sixteen := make([]rtpwire.Place, 17)
	for i := range sixteen {
		sixteen[i] = rtpwire.Place{ID: uint8(20 + i), At: i, Len: 1}
	}
	with := func(place rtpwire.Place) []rtpwire.Place {
		return []rtpwire.Place{{ID: 20, Len: 1}, place}
	}
	cutSources, otherVersion, cutBlock := append([]byte{0x91}, routable()[1:12]...), append([]byte{0x50}, routable()[1:]...), routable()[:19]
	rows := []struct {
		packet   []byte
		ids      *rtpwire.NewIDs
		elements []rtpwire.Place
		allowed  rtpwire.Forms
		err      error
	}{
		{routable(), nil, sixteen[:16], rtpwire.AnyForm, nil},
		{routable(), nil, sixteen, rtpwire.AnyForm, rtpwire.ErrBadField},
		{routable(), nil, sixteen[:1], 3, rtpwire.ErrBadField},
		{routable()[:11], nil, sixteen[:1], 3, rtpwire.ErrBadField},
		{routable()[:11], nil, sixteen[:1], rtpwire.AnyForm, rtpwire.CutFixedPart},
		{nil, nil, nil, rtpwire.AnyForm, rtpwire.CutFixedPart},
		{otherVersion, nil, sixteen[:1], rtpwire.AnyForm, rtpwire.OtherVersion},
		{cutSources, nil, nil, rtpwire.AnyForm, rtpwire.CutSources},
		{routable()[:15], nil, nil, rtpwire.AnyForm, rtpwire.CutBlockHeader},
		{cutBlock, nil, nil, rtpwire.AnyForm, rtpwire.CutBlock},
		{routable(), nil, with(rtpwire.Place{ID: 21, At: 299, Len: 1}), rtpwire.AnyForm, nil},
		{routable(), nil, with(rtpwire.Place{ID: 21, At: 300, Len: 1}), rtpwire.AnyForm, rtpwire.ErrBadField},
		{routable(), nil, with(rtpwire.Place{ID: 21, At: -1, Len: 1}), rtpwire.AnyForm, rtpwire.ErrBadField},
		{routable(), nil, with(rtpwire.Place{ID: 21, At: 1, Len: -1}), rtpwire.AnyForm, rtpwire.ErrBadField},
		{routable(), nil, with(rtpwire.Place{ID: 21, At: 1 << 32, Len: 1}), rtpwire.AnyForm, rtpwire.ErrBadField},
		{routable(), nil, with(rtpwire.Place{ID: 21, At: 1, Len: 1 << 32}), rtpwire.AnyForm, rtpwire.ErrBadField},
		{routable(), nil, with(rtpwire.Place{ID: 21, Len: 255}), rtpwire.AnyForm, nil},
		{routable(), nil, with(rtpwire.Place{ID: 21, Len: 256}), rtpwire.AnyForm, rtpwire.ErrBadField},
		{routable(), nil, with(rtpwire.Place{ID: 20, Len: 1}), rtpwire.AnyForm, rtpwire.ErrBadField},
		{routable(), nil, with(rtpwire.Place{ID: 0, Len: 1}), rtpwire.AnyForm, rtpwire.ErrBadID},
		{routable(), nil, with(rtpwire.Place{ID: 0, Len: 1}), rtpwire.OnlyOneByteForm, rtpwire.ErrLongID}, // 20, before that
		{routable(), newIDs([2]uint8{1, 15}), nil, rtpwire.OnlyOneByteForm, rtpwire.ErrLongID},
		{routable(), newIDs([2]uint8{1, 15}), nil, rtpwire.AnyForm, nil},
		{routable(), newIDs([2]uint8{1, 14}), nil, rtpwire.AnyForm, nil},
		{routable(), nil, with(rtpwire.Place{ID: 21, Len: 1}), rtpwire.OnlyOneByteForm, rtpwire.ErrLongID},
	}
	var template rtpwire.HeaderTemplate
	var batch rtpwire.RouteBatch
	data := make([]byte, 300)
	for i, row := range rows {
		what := fmt.Sprint("row ", i)
		group := &rtpwire.Group{IDs: row.ids, Elements: row.elements, Allowed: row.allowed}
		buf := bytes.Repeat([]byte{0xEE}, 900)
		batch.Reset()
		batch.Add(0).SetSSRC(45)
		same(t, what, []error{template.Make(row.packet, group, data), batch.Route(row.packet, group, data, buf)}, []error{row.err, row.err})
		if row.err == nil {
			header, err := batch.At(0)
			same(t, what, []any{len(header), err, batch.Len()}, []any{template.HeaderLen(), nil, 1})
			continue
		}
		same(t, what, []any{template.HeaderLen(), template.DataLen(), batch.Len(), buf[0]}, []any{0, 0, 0, uint8(0xEE)})
		same(t, what+", and a template of none", []any{batch.Write(&template, data, buf), batch.Len(), buf[0]},
			[]any{rtpwire.ErrBadField, 0, uint8(0xEE)})
	}
}

// Twenty receivers, of which the ninth can't be served, each time for another cause: it gets an error and no byte, and
// all others are as alone, one behind the other.
func TestTheNinthOfTwenty(t *testing.T) {
	const count, length, ninth = 20, 24, 8
	data, buf := make([]byte, 2*count), make([]byte, length*count+1)
	for i := range data {
		data[i] = byte(100 + i)
	}
	rows := []struct {
		dataAt      int
		payloadType uint8
		err         error
	}{
		{16, 128, rtpwire.ErrBadField},
		{2*count - 1, 127, rtpwire.ErrBadField},
		{-1, 127, rtpwire.ErrBadField},
		{-2, 127, rtpwire.ErrBadField},
		{1 << 32, 127, rtpwire.ErrBadField},
		{math.MinInt, 127, rtpwire.ErrBadField},
		{-1, 128, rtpwire.ErrBadField},
		{2*count - 2, 127, nil},
	}
	var template rtpwire.HeaderTemplate
	var batch rtpwire.RouteBatch
	same(t, "made", template.Make(routable(), numbered(), data), nil)
	for i, row := range rows {
		for j := range buf {
			buf[j] = 0xEE
		}
		batch.Reset()
		for r := 0; r < count; r++ {
			dataAt := 2 * r
			if r == ninth {
				dataAt = row.dataAt
			}
			fields := batch.Add(dataAt)
			fields.SetSequenceNumber(uint16(1000 + r))
			if r == ninth {
				fields.SetPayloadType(row.payloadType)
			}
		}
		same(t, "written", []any{batch.Write(&template, data, buf), batch.Len()}, []any{nil, count})
		at := 0
		for r := 0; r < count; r++ {
			what := fmt.Sprintf("row %d, receiver %d", i, r)
			number := 1000 + r
			dataAt := 2 * r
			wanted := []byte{0x90, 96, byte(number >> 8), byte(number), 0, 0, 0, 100, 0, 0, 0, 44, 0xBE, 0xDE, 0, 2, 0x30, 0xAA, 0x41, 0, 0, 0, 0, 0}
			if r == ninth {
				dataAt = row.dataAt
				wanted[1] = row.payloadType
			}
			header, err := batch.At(r)
			if r == ninth && row.err != nil {
				same(t, what, []any{header, err}, []any{[]byte(nil), row.err})
				continue
			}
			wanted[19], wanted[20] = data[dataAt], data[dataAt+1]
			same(t, what, []any{header, err}, []any{wanted, nil})
			same(t, what, buf[at:at+length], wanted)
			at += length
		}
		same(t, "behind them", buf[at:], bytes.Repeat([]byte{0xEE}, len(buf)-at))
	}
}

// A buffer that is a byte short serves one receiver fewer, and its bytes stay.
func TestRoomOfHeaders(t *testing.T) {
	data := []byte{1, 2, 3, 4, 5, 6}
	var template rtpwire.HeaderTemplate
	var batch rtpwire.RouteBatch
	same(t, "made", template.Make(routable(), numbered(), data), nil)
	for r := 0; r < 3; r++ {
		batch.Add(2 * r)
	}
	short, bad := rtpwire.ErrShortBuffer, rtpwire.ErrBadField
	for _, row := range []struct {
		room, data, written int
		errs                [3]error
	}{
		{72, 6, 72, [3]error{}},
		{71, 6, 48, [3]error{2: short}},
		{47, 6, 24, [3]error{1: short, 2: short}},
		{23, 6, 0, [3]error{short, short, short}},
		{0, 6, 0, [3]error{short, short, short}},
		{72, 5, 48, [3]error{2: bad}},
		{48, 5, 48, [3]error{2: bad}},
		{47, 1, 0, [3]error{bad, bad, bad}},
		{72, 0, 0, [3]error{bad, bad, bad}},
	} {
		what := fmt.Sprint(row.room, " bytes, and of data ", row.data)
		buf := bytes.Repeat([]byte{0xEE}, 72)
		same(t, what, batch.Write(&template, data[:row.data], buf[:row.room]), nil)
		for i, wanted := range row.errs {
			header, err := batch.At(i)
			same(t, what, []any{len(header) == 24, err}, []any{wanted == nil, wanted})
		}
		same(t, what, buf[row.written:], bytes.Repeat([]byte{0xEE}, 72-row.written))
	}
}

// A template has a copy of all that it was made from, until the next Make, and serves any batch.
func TestTemplatesKeepNothing(t *testing.T) {
	packet, group, data := routable(), numbered(), []byte{0, 7}
	var template, other rtpwire.HeaderTemplate
	same(t, "made", template.Make(packet, group, data), nil)
	same(t, "an empty one", other.Make(routable(), &rtpwire.Group{}, nil), nil)
	wanted := []byte{0x90, 96, 0, 5, 0, 0, 0, 100, 0, 0, 0, 44, 0xBE, 0xDE, 0, 2, 0x30, 0xAA, 0x41, 1, 2, 0, 0, 0}
	for i := range packet {
		packet[i] = 0xFF
	}
	group.IDs.Set(1, 9)
	group.Elements[0], group.Allowed = rtpwire.Place{ID: 7, Len: 3}, 3
	data[0], data[1] = 1, 2
	buf := make([]byte, 100)
	var batch, second rtpwire.RouteBatch
	batch.Add(0)
	second.Add(0)
	for i := 0; i < 2; i++ {
		same(t, "written", []error{batch.Write(&template, data, buf), second.Write(&template, data, buf[60:])}, []error{nil, nil})
		header, _ := batch.At(0)
		later, _ := second.At(0)
		same(t, "headers", [][]byte{header, later}, [][]byte{wanted, wanted})
	}
	// Of another template another length counts, and a copy of a template that is made anew isn't touched by its header.
	same(t, "another template", batch.Write(&other, nil, buf), nil)
	header, err := batch.At(0)
	same(t, "of 16 bytes", []any{len(header), err, template.HeaderLen()}, []any{16, nil, 24})
	same(t, "made anew", template.Make(routable()[:15], numbered(), data), rtpwire.CutBlockHeader)
	same(t, "not of the last packet", []any{batch.Write(&template, data, buf), batch.Len()}, []any{rtpwire.ErrBadField, 0})
	same(t, "routed", batch.Route(routable(), numbered(), data, buf), nil)
	same(t, "no packet", []any{batch.Route(nil, numbered(), data, buf), batch.Len()}, []any{rtpwire.CutFixedPart, 0})
	same(t, "routed", []any{batch.Route(routable(), numbered(), data, buf), batch.Len()}, []any{nil, 1})
	batch.Fields(0).SetSSRC(45)
	same(t, "with an SSRC", []any{batch.Route(routable(), numbered(), data, buf), buf[11]}, []any{nil, uint8(45)})
	batch.Reset()
	same(t, "after a reset", batch.Len(), 0)
	batch.Add(0)
	same(t, "without one", []any{batch.Route(routable(), numbered(), data, buf), buf[11]}, []any{nil, uint8(44)})
	batch.Reset()
	same(t, "none", []any{batch.Route(routable(), numbered(), data, buf), batch.Len()}, []any{nil, 0})
	batch.Add(0)
	same(t, "added and not written", batch.Len(), 0)
}

// Headers may be written over the datagram that they are made from, and over the data.
func TestHeadersOverTheirPacketAndData(t *testing.T) {
	buf := append(routable(), make([]byte, 60)...)
	copy(buf[50:], []byte{7, 8, 9, 10})
	var batch rtpwire.RouteBatch
	batch.Add(0).SetSSRC(45)
	batch.Add(2).SetSSRC(46)
	batch.Add(1)
	same(t, "routed", batch.Route(buf[:21], numbered(), buf[50:54], buf), nil)
	wanted := func(ssrc, first, second byte) []byte {
		return []byte{0x90, 96, 0, 5, 0, 0, 0, 100, 0, 0, 0, ssrc, 0xBE, 0xDE, 0, 2, 0x30, 0xAA, 0x41, first, second, 0, 0, 0}
	}
	same(t, "all", headersOf(&batch), []any{wanted(45, 7, 8), wanted(46, 9, 10), wanted(44, 8, 9)})

	var template rtpwire.HeaderTemplate
	same(t, "made", template.Make(routable(), numbered(), []byte{1, 2}), nil)
	copy(buf[20:], []byte{11, 12, 13, 14})
	batch.Reset()
	batch.Add(0).SetSSRC(47)
	batch.Add(2).SetSSRC(48)
	same(t, "written", batch.Write(&template, buf[20:24], buf[2:]), nil)
	same(t, "both", buf[2:50], append(wanted(47, 11, 12), wanted(48, 13, 14)...))
}

// A header may be as long as a block allows: here of 131,070 elements of one byte.
func TestTheLongestBlock(t *testing.T) {
	packet := append([]byte{0x90, 96, 0, 5, 0, 0, 0, 100, 0, 0, 0, 44, 0xBE, 0xDE, 0xFF, 0xFF}, bytes.Repeat([]byte{0x10, 0xAA}, 131070)...)
	packet = append(packet, 'p')
	group, data, buf := &rtpwire.Group{IDs: newIDs([2]uint8{1, 3})}, []byte{1, 2}, make([]byte, 2*262156+262155)
	wanted := append(append([]byte(nil), packet[:16]...), bytes.Repeat([]byte{0x30, 0xAA}, 131070)...)
	var batch rtpwire.RouteBatch
	var template rtpwire.HeaderTemplate
	batch.Add(0)
	batch.Add(0).SetSSRC(45)
	batch.Add(0)
	same(t, "written", []error{batch.Route(packet, group, nil, buf), template.Make(packet, group, nil)}, []error{nil, nil})
	first, _ := batch.At(0)
	second, _ := batch.At(1)
	_, err := batch.At(2)
	same(t, "served", []any{err, template.HeaderLen(), len(first), len(second)}, []any{rtpwire.ErrShortBuffer, 262156, 262156, 262156})
	same(t, "bytes", []bool{bytes.Equal(first, wanted), bytes.Equal(second[12:], wanted[12:]), second[11] == 45}, []bool{true, true, true})
	group.Elements = []rtpwire.Place{{ID: 4, Len: 2}}
	same(t, "and one more", []error{batch.Route(packet, group, data, buf), template.Make(packet, group, data)},
		[]error{rtpwire.ErrLongBlock, rtpwire.ErrLongBlock})
	packet[14] = 0x7F // the rest is payload
	same(t, "one more, of half as many", batch.Route(packet, group, data, buf), nil)
	header, err := batch.At(1)
	same(t, "length", []any{len(header), err}, []any{16 + 4*0x8000, nil})
	// In the other form each of the 65,534 elements takes three bytes, which a new batch has room for too.
	group.Allowed = rtpwire.OnlyTwoByteForm
	batch, template = rtpwire.RouteBatch{}, rtpwire.HeaderTemplate{}
	batch.Add(0)
	packet = packet[:16+4*0x7FFF]
	same(t, "in the other form", []error{batch.Route(packet, group, data, buf), template.Make(packet, group, data)}, []error{nil, nil})
	header, err = batch.At(0)
	same(t, "length", []any{len(header), err, template.HeaderLen()}, []any{16 + 3*65534 + 4 + 2, nil, 16 + 3*65534 + 4 + 2})
}

// Batches and templates of many goroutines at once, with one group and one more template, give what each gives alone.
func TestRoutesOfManyGoroutines(t *testing.T) {
	group := numbered()
	var shared rtpwire.HeaderTemplate
	same(t, "made", shared.Make(routable(), group, []byte{0, 0}), nil)
	done := make(chan error)
	for own := byte(1); own <= 8; own++ {
		go func(own byte) {
			var batch, plain rtpwire.RouteBatch
			var template rtpwire.HeaderTemplate
			var err error
			buf := make([]byte, 64)
			for round := 0; round < 1000; round++ {
				packet := routable()
				packet[11], packet[17] = own, byte(round)
				batch.Reset()
				batch.Add(0).SetSequenceNumber(uint16(round))
				plain.Reset()
				plain.Add(0)
				data := []byte{own, byte(round)}
				failed := batch.Route(packet, group, data, buf)
				header, _ := batch.At(0)
				header = append([]byte(nil), header...)
				made := template.Make(packet, group, data)
				byOwn := plain.Write(&template, data, buf)
				other, _ := plain.At(0)
				wanted := []byte{0x90, 96, 0, 5, 0, 0, 0, 100, 0, 0, 0, own, 0xBE, 0xDE, 0, 2, 0x30, byte(round), 0x41, own, byte(round), 0, 0, 0}
				is := byOwn == nil && bytes.Equal(other, wanted)
				written := plain.Write(&shared, data, buf)
				wanted[11], wanted[17] = 44, 0xAA
				is = is && bytes.Equal(other, wanted)
				wanted[2], wanted[3], wanted[11], wanted[17] = byte(round>>8), byte(round), own, byte(round)
				if failed != nil || made != nil || written != nil || !is || !bytes.Equal(header, wanted) {
					err = fmt.Errorf("% x and % x, wanted % x: %v %v %v", header, other, wanted, failed, made, written)
				}
			}
			done <- err
		}(own)
	}
	for i := 0; i < 8; i++ {
		same(t, "goroutine", <-done, nil)
	}
}

func TestRoutesTakeNoMemory(t *testing.T) {
	packets := [][]byte{sample(), camera(), routable(), append(plain(7), make([]byte, 1200)...)}
	group := numbered()
	group.Elements = append(group.Elements, rtpwire.Place{ID: 9, At: 2, Len: 3})
	data, buf := make([]byte, 5*40), make([]byte, 60*40)
	var template rtpwire.HeaderTemplate
	var batch rtpwire.RouteBatch
	once := func() {
		batch.Reset()
		for r := 0; r < 40; r++ {
			batch.Add(5 * r).SetSSRC(uint32(r))
			batch.ClearPadding(r, r%2 == 0)
		}
		for i, packet := range packets {
			if err := batch.Route(packet, group, data, buf); err != nil && i != 1 {
				t.Fatal(err)
			}
			if err := template.Make(packet, group, data); err != nil && i != 1 || batch.Write(&template, data, buf) != nil && i != 1 {
				t.Fatal(err)
			}
			for r := 0; r < batch.Len(); r++ {
				if _, err := batch.At(r); err != nil {
					t.Fatal(err)
				}
			}
		}
	}
	once()
	same(t, "how often", testing.AllocsPerRun(100, once), 0.0)
}

// byCalls is what the calls for one packet make of a copy of its header, one after another.
func byCalls(packet []byte, fields rtpwire.Fields, group *rtpwire.Group, data []byte) ([]byte, error) {
	var read rtpwire.Packet
	if err := read.Parse(packet, nil); err != nil {
		return nil, err
	}
	header := packet[:read.HeaderLen()]
	buf := append(append([]byte(nil), header...), make([]byte, len(header)+264*len(group.Elements))...)
	header = buf[:len(header)]
	if err := fields.Apply(header); err != nil {
		return nil, err
	}
	ids := group.IDs
	if ids == nil {
		ids = new(rtpwire.NewIDs)
	}
	err := rtpwire.Renumber(header, ids)
	if err == rtpwire.ErrLongID && group.Allowed != rtpwire.OnlyOneByteForm {
		if header, err = rtpwire.ChangeFormIn(buf, len(header), rtpwire.TwoByteForm); err != nil {
			return nil, err
		}
		err = rtpwire.Renumber(header, ids)
	}
	if err != nil {
		return nil, err
	}
	for _, element := range group.Elements {
		var err error
		if header, err = rtpwire.PutElementIn(buf, len(header), element.ID, data[:element.Len], group.Allowed); err != nil {
			return nil, err
		}
		data = data[element.Len:]
	}
	return rtpwire.Compact(header)
}

// sentAgain is the header that ToRetransmission makes of what the receiver with these fields gets by byCalls, in front of
// the original number.
func sentAgain(packet []byte, fields rtpwire.Fields, original uint16, group *rtpwire.Group, data []byte) ([]byte, error) {
	header, err := byCalls(packet, fields, group, data)
	if err != nil {
		return nil, err
	}
	var own rtpwire.Packet
	if err := own.Parse(header, nil); err != nil {
		return nil, err
	}
	fields.SetSequenceNumber(original)
	if header, err = byCalls(packet, fields, group, data); err != nil {
		return nil, err
	}
	if own.HasPadding() {
		header = append(header, 1) // a payload that is padding alone
	}
	buf := append(header[:len(header):len(header)], 0, 0)
	return rtpwire.ToRetransmissionIn(buf, len(header), own.SSRC(), own.PayloadType(), own.SequenceNumber(), each())
}

// receiver is one of a group, the number of the packet that it gets again, if it does, and whether its P is cleared.
type receiver struct {
	rtpwire.Fields
	original uint16
	isAgain  bool
	clears   bool
}

// receiverOf is a receiver by bits: of its fields by fieldsOf, and by the highest ones whether it gets a retransmission,
// and whether its P is cleared.
func receiverOf(bits uint64) receiver {
	return receiver{fieldsOf(bits), uint16(bits >> 40), bits>>62 == 3, bits>>60&3 == 1}
}

func (r receiver) add(batch *rtpwire.RouteBatch, dataAt int) {
	if r.isAgain {
		batch.AddRetransmission(dataAt, r.original).Set(r.Fields)
	} else {
		batch.Add(dataAt).Set(r.Fields)
	}
}

func (r receiver) byCalls(packet []byte, group *rtpwire.Group, data []byte) ([]byte, error) {
	if r.isAgain {
		return sentAgain(packet, r.Fields, r.original, group, data)
	}
	header, err := byCalls(packet, r.Fields, group, data)
	if err == nil && r.clears {
		err = rtpwire.SetPadding(header, false)
	}
	return header, err
}

// asTheCalls is whether the group's headers of the packet for these receivers are those of the calls for
// one packet, and the same by a template.
func asTheCalls(t *testing.T, packet []byte, group *rtpwire.Group, data []byte, receivers []receiver) (served int) {
	t.Helper()
	var template rtpwire.HeaderTemplate
	var batch, other rtpwire.RouteBatch
	total, repeated := 0, false
	for i, element := range group.Elements {
		total += element.Len
		for _, before := range group.Elements[:i] {
			repeated = repeated || before.ID == element.ID
		}
	}
	for r, it := range receivers {
		it.add(&batch, r)
		batch.ClearPadding(r, it.clears)
		it.add(&other, r)
		other.ClearPadding(r, it.clears)
	}
	buf := bytes.Repeat([]byte{0xEE}, len(receivers)*(2*len(packet)+264*len(group.Elements)+3))
	err := batch.Route(packet, group, data, buf)
	if made := template.Make(packet, group, data); made != err {
		t.Fatalf("% x: %v, and by a template %v", packet, err, made)
	}
	if err != nil {
		_, wanted := byCalls(packet, rtpwire.Fields{}, group, data)
		if wanted != err && !(repeated && err == rtpwire.ErrBadField) {
			t.Fatalf("% x: %v, wanted %v", packet, err, wanted)
		}
		return 0
	}
	again := bytes.Repeat([]byte{0xEE}, len(buf))
	if err := other.Write(&template, data, again); err != nil || !bytes.Equal(again, buf) {
		t.Fatalf("% x: written by a template: %v, % x, wanted % x", packet, err, again, buf)
	}
	var expected []byte
	for r, it := range receivers {
		header, err := batch.At(r)
		if r+total > len(data) {
			if err != rtpwire.ErrBadField {
				t.Fatalf("% x: receiver %d without its data: %v", packet, r, err)
			}
			continue
		}
		wanted, wantedErr := it.byCalls(packet, group, data[r:])
		if err != wantedErr || !bytes.Equal(header, wanted) {
			t.Fatalf("% x: receiver %d: % x, %v, wanted % x, %v", packet, r, header, err, wanted, wantedErr)
		}
		expected = append(expected, wanted...)
		served++
	}
	expected = append(expected, bytes.Repeat([]byte{0xEE}, len(buf)-len(expected))...)
	if !bytes.Equal(buf, expected) {
		t.Fatalf("% x: % x, wanted % x", packet, buf, expected)
	}
	return served
}

// fieldsOf are fields by bits: those from 4 on say which are set.
func fieldsOf(bits uint64) (fields rtpwire.Fields) {
	if bits&1 != 0 {
		fields.SetSequenceNumber(uint16(bits >> 8))
	}
	if bits&2 != 0 {
		fields.SetTimestamp(uint32(bits >> 16))
	}
	if bits&4 != 0 {
		fields.SetSSRC(uint32(bits >> 24))
	}
	if bits&8 != 0 {
		fields.SetPayloadType(uint8(bits>>40) % 130)
	}
	if bits&16 != 0 {
		fields.SetMarker(bits>>48&1 != 0)
	}
	return fields
}

// Packets that are cut and changed anywhere, sent to groups of all kinds, get the headers that the calls for one packet
// make of each.
func TestRoutesAtRandom(t *testing.T) {
	random := rand.New(rand.NewSource(1))
	packets := [][]byte{sample(), everyValue, camera(), plain(5), routable(), long(random), written(t, "90 10070002 040109 14020708 00")}
	served := 0
	for round := 0; round < 20000; round++ {
		packet := append([]byte(nil), packets[random.Intn(len(packets))]...)
		if round%3 == 0 {
			packet = changedAnywhere(packet, random)
		}
		if round%8 == 0 {
			packet = packet[:random.Intn(len(packet)+1)]
		}
		group := rtpwire.Group{Allowed: rtpwire.Forms(random.Intn(3)), IDs: new(rtpwire.NewIDs)}
		for id := 1; id < 256; id++ {
			switch random.Intn(4) {
			case 0:
			case 1:
				group.IDs.Set(uint8(id), uint8(1+random.Intn(14+random.Intn(2)*random.Intn(2)*200)))
			default:
				group.IDs.Set(uint8(id), uint8(id))
			}
		}
		data := make([]byte, 80)
		random.Read(data)
		for i := random.Intn(4); i > 0; i-- {
			place := rtpwire.Place{ID: uint8(1 + random.Intn(16)), At: random.Intn(40), Len: random.Intn(18)}
			group.Elements = append(group.Elements, place)
		}
		receivers := make([]receiver, random.Intn(4))
		for i := range receivers {
			receivers[i] = receiverOf(random.Uint64())
		}
		served += asTheCalls(t, packet, &group, data, receivers)
	}
	same(t, "many are served", served > 10000, true)
}

func FuzzRoutes(f *testing.F) {
	f.Add(sample(), []byte{1, 3, 2, 5}, uint8(0), uint8(4), uint8(2), uint8(9), uint8(3), []byte("0123456789"), uint64(0x1234567890ABCDEF), uint64(31))
	f.Add(camera(), []byte{}, uint8(1), uint8(4), uint8(0), uint8(4), uint8(3), []byte("0123"), uint64(7), uint64(8<<40|8))
	f.Add(everyValue, []byte{4, 20, 20, 4}, uint8(2), uint8(200), uint8(17), uint8(0), uint8(3), make([]byte, 40), uint64(1), uint64(129<<40|8))
	f.Fuzz(func(t *testing.T, packet, pairs []byte, allowed, id, length, otherID, otherLength uint8, data []byte, first, second uint64) {
		group := rtpwire.Group{IDs: each(), Allowed: rtpwire.Forms(allowed % 3)}
		for i := 0; i+1 < len(pairs); i += 2 {
			group.IDs.Set(pairs[i], pairs[i+1])
		}
		group.Elements = []rtpwire.Place{{ID: id, Len: int(length)}, {ID: otherID, At: len(data) / 2, Len: int(otherLength)}}
		for len(data) < int(length)+int(otherLength) || len(data)-len(data)/2 < int(otherLength) {
			data = append(data, 0x5A)
		}
		group.Elements[1].At = len(data) / 2
		asTheCalls(t, packet, &group, data, []receiver{receiverOf(first), receiverOf(second), {isAgain: true}, {}})
	})
}
