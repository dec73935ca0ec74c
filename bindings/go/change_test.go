package rtpwire_test

import (
	"bytes"
	"errors"
	"testing"

	"rtp-wire.example/rtpwire"
)

// changed is what the call makes of the sample, which has to be the sample with these bytes at these places.
func changed(t *testing.T, what string, call func([]byte) error, wanted error, places map[int]byte) {
	t.Helper()
	got, expected := sample(), sample()
	if err := call(got); !errors.Is(err, wanted) || wanted == nil && err != nil {
		t.Errorf("%s: %v, wanted %v", what, err, wanted)
	}
	for at, b := range places {
		expected[at] = b
	}
	same(t, what, got, expected)
}

func TestFields(t *testing.T) {
	set := func(change func(*rtpwire.Fields)) func([]byte) error {
		return func(datagram []byte) error {
			var fields rtpwire.Fields
			change(&fields)
			return fields.Apply(datagram)
		}
	}
	changed(t, "none", set(func(*rtpwire.Fields) {}), nil, nil)
	changed(t, "M", set(func(f *rtpwire.Fields) { f.SetMarker(false) }), nil, map[int]byte{1: 0x21})
	changed(t, "PT", set(func(f *rtpwire.Fields) { f.SetPayloadType(8) }), nil, map[int]byte{1: 0x88})
	changed(t, "number", set(func(f *rtpwire.Fields) { f.SetSequenceNumber(0x0102) }), nil, map[int]byte{2: 1, 3: 2})
	changed(t, "timestamp", set(func(f *rtpwire.Fields) { f.SetTimestamp(0x01020304) }), nil,
		map[int]byte{4: 1, 5: 2, 6: 3, 7: 4})
	changed(t, "SSRC", set(func(f *rtpwire.Fields) { f.SetSSRC(0x01020304) }), nil,
		map[int]byte{8: 1, 9: 2, 10: 3, 11: 4})
	changed(t, "several", set(func(f *rtpwire.Fields) {
		f.SetSSRC(77)
		f.SetSequenceNumber(5)
	}), nil, map[int]byte{2: 0, 3: 5, 11: 77})
	changed(t, "PT 128", set(func(f *rtpwire.Fields) {
		f.SetPayloadType(128)
		f.SetSSRC(77)
	}), rtpwire.ErrBadField, nil)
	changed(t, "no packet", func(datagram []byte) error {
		var fields rtpwire.Fields
		fields.SetSSRC(77)
		return fields.Apply(datagram[:31])
	}, rtpwire.CutBlock, nil)
}

func TestParts(t *testing.T) {
	changed(t, "a source", func(d []byte) error { return rtpwire.SetCSRCAt(d, 1, 0x0A0B0C0D) }, nil,
		map[int]byte{16: 10, 17: 11, 18: 12, 19: 13})
	for _, index := range []int{2, 15, -1} {
		changed(t, "no source", func(d []byte) error { return rtpwire.SetCSRCAt(d, index, 1) }, rtpwire.ErrNotFound, nil)
	}
	changed(t, "an element", func(d []byte) error { return rtpwire.SetElement(d, 2, []byte{1, 2}) }, nil,
		map[int]byte{27: 1, 28: 2})
	changed(t, "the last element", func(d []byte) error { return rtpwire.SetElement(d, 1, []byte{9}) }, nil, map[int]byte{30: 9})
	changed(t, "another length", func(d []byte) error { return rtpwire.SetElement(d, 2, nil) }, rtpwire.ErrNotFound, nil)
	changed(t, "no element", func(d []byte) error { return rtpwire.SetElement(d, 3, []byte{1}) }, rtpwire.ErrNotFound, nil)
	changed(t, "removed", func(d []byte) error { return rtpwire.RemoveElement(d, 1) }, nil,
		map[int]byte{24: 0, 25: 0, 29: 0, 30: 0})
	changed(t, "none removed", func(d []byte) error { return rtpwire.RemoveElement(d, 3) }, rtpwire.ErrNotFound, nil)
	changed(t, "P cleared", func(d []byte) error { return rtpwire.SetPadding(d, false) }, nil, map[int]byte{0: 0x92})
	changed(t, "P set", func(d []byte) error { return rtpwire.SetPadding(d, true) }, nil, nil)
}

func TestNewIDs(t *testing.T) {
	from, to := new(rtpwire.Map), new(rtpwire.Map)
	for _, err := range []error{
		from.Set(1, rtpwire.KindAudioLevel), from.Set(2, rtpwire.KindMID),
		to.Set(9, rtpwire.KindAudioLevel), to.Set(4, rtpwire.KindAudioLevel),
	} {
		same(t, "set", err, nil)
	}
	ids := rtpwire.NewIDsBetween(from, to)
	same(t, "ids", []uint8{ids.Get(1), ids.Get(2), ids.Get(0)}, []uint8{4, 0, 0})
	changed(t, "renumbered", func(d []byte) error { return rtpwire.Renumber(d, ids) }, nil,
		map[int]byte{24: 0x40, 26: 0, 27: 0, 28: 0, 29: 0x40})
	ids.Set(2, 15)
	ids.Set(0, 5)
	same(t, "ids", []uint8{ids.Get(2), ids.Get(0)}, []uint8{15, 0})
	changed(t, "an id of 15", func(d []byte) error { return rtpwire.Renumber(d, ids) }, rtpwire.ErrLongID, nil)
	same(t, "of no map", *rtpwire.NewIDsBetween(nil, nil), rtpwire.NewIDs{})
}

func TestPutElement(t *testing.T) {
	buf := append(sample(), make([]byte, 27)...)
	datagram := buf[:37]
	put := func(at string, id uint8, data []byte, allowed rtpwire.Forms, length int, err error) {
		t.Helper()
		grown, found := rtpwire.PutElementIn(buf, len(datagram), id, data, allowed)
		same(t, at, []any{len(grown), found}, []any{length, err})
		if err == nil {
			datagram = grown
		}
	}
	put("in place", 2, []byte{1, 2}, rtpwire.AnyForm, 37, nil)
	same(t, "body", datagram[24:32], []byte{0x10, 0xAA, 0x21, 1, 2, 0x10, 0xDD, 0})
	put("longer", 2, []byte{3, 3, 3, 3, 3}, rtpwire.OnlyOneByteForm, 41, nil)
	same(t, "body", datagram[22:36], []byte{0, 3, 0x10, 0xAA, 0x24, 3, 3, 3, 3, 3, 0x10, 0xDD, 0, 0})
	same(t, "payload", datagram[36:], sample()[32:])
	put("form not allowed", 14, nil, rtpwire.OnlyOneByteForm, 0, rtpwire.ErrFormNotAllowed)
	put("long id", 15, []byte{4}, rtpwire.OnlyOneByteForm, 0, rtpwire.ErrLongID)
	put("no such form", 1, []byte{4}, 3, 0, rtpwire.ErrBadField)
	put("in the two-byte form", 15, []byte{4}, rtpwire.AnyForm, 45, nil)
	_, err := rtpwire.PutElementIn(buf[:48], 45, 16, []byte{4, 5, 6}, rtpwire.AnyForm)
	same(t, "no room", err, error(rtpwire.ErrShortBuffer))
	for _, data := range [][]byte{make([]byte, 256), make([]byte, 300), make([]byte, 65537)} {
		_, err := rtpwire.PutElementIn(make([]byte, 70000), 12, 1, data, rtpwire.AnyForm)
		same(t, "more than 255 bytes", err, error(rtpwire.ErrBadField))
	}
	for _, length := range []int{-1, 65} {
		_, err := rtpwire.PutElementIn(buf, length, 1, nil, rtpwire.AnyForm)
		same(t, "no length", err, error(rtpwire.ErrBadField))
	}
	same(t, "removed", rtpwire.RemoveElement(datagram, 2), nil)
	short, err := rtpwire.Compact(datagram)
	same(t, "short", []any{len(short), err}, []any{41, nil})
	same(t, "payload", short[36:], sample()[32:])
	_, err = rtpwire.Compact(datagram[:11])
	same(t, "no packet", err, error(rtpwire.CutFixedPart))
}

func TestPadding(t *testing.T) {
	datagram := sample()
	rest, err := rtpwire.RemovePadding(datagram)
	same(t, "removed", []any{len(rest), err, datagram[0]}, []any{35, nil, byte(0x92)})
	rest, err = rtpwire.RemovePadding(datagram)
	same(t, "removed again", []any{len(rest), err}, []any{37, nil})
	datagram = sample()
	datagram[36] = 6
	_, err = rtpwire.RemovePadding(datagram)
	same(t, "too long", []any{err, datagram[0]}, []any{rtpwire.ErrBadField, byte(0xB2)})

	rows := []struct {
		size, headerLen int
		padLen          uint8
		blockSize       int
		count           int
		err             error
	}{
		{16, 12, 3, 4, 4, nil},
		{252, 12, 255, 16, 240, nil},
		{12, 12, 0, 4, 0, nil},
		{0, 12, 0, 4, 0, nil},
		{15, 12, 3, 4, 0, rtpwire.ErrShortBuffer},
		{16, 12, 3, 0, 0, rtpwire.ErrBadField},
		{16, 12, 3, -1, 0, rtpwire.ErrBadField},
		{16, -1, 3, 4, 0, rtpwire.ErrShortBuffer},
	}
	for _, row := range rows {
		buf := bytes.Repeat([]byte{0x80}, row.size)
		wanted := bytes.Repeat([]byte{0x80}, row.size)
		if row.count > 0 {
			wanted[0] = 0xA0
			copy(wanted[row.headerLen:], append(make([]byte, row.count-1), byte(row.count)))
		}
		count, err := rtpwire.Pad(buf, row.headerLen, row.padLen, row.blockSize)
		same(t, "count", []any{count, err}, []any{row.count, row.err})
		same(t, "bytes", buf, wanted)
	}
}

func TestOriginals(t *testing.T) {
	number, original, err := rtpwire.ReadOriginal([]byte{0xFF, 1, 9})
	same(t, "read", []any{number, original, err}, []any{uint16(0xFF01), []byte{9}, nil})
	payload := []byte{7, 7, 7}
	same(t, "written", rtpwire.WriteOriginal(payload, 65536+258), nil)
	same(t, "payload", payload, []byte{1, 2, 7})
	for _, short := range [][]byte{nil, {7}} {
		number, original, err := rtpwire.ReadOriginal(short)
		same(t, "short", []any{number, original, err}, []any{uint16(0), []byte(nil), rtpwire.ErrShortBuffer})
		same(t, "short", rtpwire.WriteOriginal(short, 1), rtpwire.ErrShortBuffer)
	}
}

func TestRetransmissions(t *testing.T) {
	there, back := rtpwire.NewIDsToRetransmission(rtpwire.StandardMap()), rtpwire.NewIDsFromRetransmission(rtpwire.StandardMap())
	packet := []byte{0xB0, 0xE0, 0xFF, 0xFE, 1, 2, 3, 4, 5, 6, 7, 8, 0xBE, 0xDE, 0, 2, 0x40, 0x61,
		0xA1, 0x68, 0x69, 0xB0, 0x78, 0, 0xCC, 0xDD, 0xEE, 0, 2, 0x77, 0x77}
	sent := []byte{0x90, 0xE3, 0, 1, 1, 2, 3, 4, 9, 10, 11, 12, 0xBE, 0xDE, 0, 2, 0x40, 0x61,
		0xB1, 0x68, 0x69, 0, 0, 0, 0xFF, 0xFE, 0xCC, 0xDD, 0xEE}
	restored := []byte{0x90, 0xE0, 0xFF, 0xFE, 1, 2, 3, 4, 5, 6, 7, 8, 0xBE, 0xDE, 0, 2, 0x40, 0x61,
		0xA1, 0x68, 0x69, 0, 0, 0, 0xCC, 0xDD, 0xEE}
	buf := append([]byte(nil), packet...)
	for _, row := range []struct {
		size, length int
		payloadType  uint8
		err          error
	}{
		{31, 29, 128, rtpwire.ErrBadField},
		{31, 32, 99, rtpwire.ErrBadField},
		{31, -1, 99, rtpwire.ErrBadField},
		{31, 11, 99, rtpwire.CutFixedPart},
		{27, 27, 99, rtpwire.ErrBadField},
	} {
		_, err := rtpwire.ToRetransmissionIn(buf[:row.size], row.length, 7, row.payloadType, 1, there)
		same(t, "refused", err, row.err)
		_, err = rtpwire.FromRetransmissionIn(buf[:row.size], row.length, 7, row.payloadType, back)
		same(t, "refused", err, row.err)
		same(t, "unchanged", buf, packet)
	}
	made, err := rtpwire.ToRetransmissionIn(buf, 29, 0x090A0B0C, 99, 1, there)
	same(t, "sent", []any{made, err}, []any{sent, nil})
	_, err = rtpwire.ToRetransmissionIn(buf[:30], 29, 7, 98, 2, there)
	same(t, "no room", err, rtpwire.ErrShortBuffer)
	same(t, "behind it", buf, append(append([]byte(nil), sent...), 0x77, 0x77))
	made, err = rtpwire.FromRetransmissionIn(buf, 29, 0x05060708, 96, back)
	same(t, "restored", []any{made, err}, []any{restored, nil})
	_, err = rtpwire.FromRetransmissionIn(buf, 25, 1, 2, back)
	same(t, "no number", err, rtpwire.ErrNotFound)
}

// A block of another form stays.
func TestOtherFormsAreChanged(t *testing.T) {
	datagram := append(make([]byte, 0, 64), camera()...)
	var fields rtpwire.Fields
	fields.SetPayloadType(97)
	fields.SetSequenceNumber(0x0102)
	fields.SetTimestamp(0x03040506)
	fields.SetSSRC(0x0708090A)
	fields.SetMarker(false)
	same(t, "fields", fields.Apply(datagram), nil)
	same(t, "header", datagram[:12], []byte{0x90, 97, 1, 2, 3, 4, 5, 6, 7, 8, 9, 10})
	same(t, "behind it", datagram[12:], camera()[12:])
	for _, refused := range []struct{ got, wanted error }{
		{rtpwire.SetElement(datagram, 14, []byte{7}), rtpwire.ErrNotFound},
		{rtpwire.RemoveElement(datagram, 14), rtpwire.ErrNotFound},
		{rtpwire.SetCSRCAt(datagram, 0, 1), rtpwire.ErrNotFound},
		{rtpwire.Renumber(datagram, new(rtpwire.NewIDs)), nil},
	} {
		same(t, "no elements", refused.got, refused.wanted)
	}
	_, err := rtpwire.PutElementIn(datagram[:64], 31, 1, []byte{7}, rtpwire.AnyForm)
	same(t, "put", err, rtpwire.ErrOtherForm)
	same(t, "a packet", errors.Is(err, rtpwire.ErrNotAPacket), false)
	_, err = rtpwire.PutElementIn(datagram[:64], 31, 1, []byte{7}, 3)
	same(t, "no form to put", err, rtpwire.ErrBadField)
	short, err := rtpwire.Compact(datagram)
	same(t, "compact", []any{len(short), err}, []any{31, nil})
	sent, err := rtpwire.ToRetransmissionIn(datagram[:33], 31, 45, 99, 9, new(rtpwire.NewIDs))
	same(t, "sent", []any{len(sent), err}, []any{33, nil})
	same(t, "block", sent[12:28], camera()[12:28])
	same(t, "payload", sent[28:], []byte{1, 2, 0x41, 0x42, 0x43})
	back, err := rtpwire.FromRetransmissionIn(datagram[:33], 33, 44, 96, new(rtpwire.NewIDs))
	same(t, "back", []any{len(back), err}, []any{31, nil})
	same(t, "behind the header", back[12:], camera()[12:])
}

func TestHeadersAreWritten(t *testing.T) {
	header := rtpwire.Header{PayloadType: 33, SequenceNumber: 47000, Timestamp: 10000, SSRC: 44, Marker: true}
	same(t, "sources", header.SetCSRC([]uint32{9}), nil)
	buf := bytes.Repeat([]byte{0xEE}, 20)
	n, err := header.WriteInto(buf, nil)
	same(t, "written", []any{n, err}, []any{16, nil})
	same(t, "bytes", buf, []byte{
		0x81, 0xA1, 0xB7, 0x98, 0, 0, 0x27, 0x10, 0, 0, 0, 0x2C, 0, 0, 0, 9, 0xEE, 0xEE, 0xEE, 0xEE,
	})
	same(t, "16 sources", header.SetCSRC(make([]uint32, 16)), rtpwire.ErrBadField)
	same(t, "sources", header.CSRC(), []uint32{9})
	same(t, "15 sources", header.SetCSRC(make([]uint32, 15)), nil)
	same(t, "none", []any{header.SetCSRC(nil), len(header.CSRC())}, []any{nil, 0})

	for _, short := range [][]byte{nil, make([]byte, 11)} {
		n, err = header.WriteInto(short, nil)
		same(t, "short", []any{n, err}, []any{0, rtpwire.ErrShortBuffer})
	}
	header.PayloadType = 128
	n, err = header.WriteInto(buf, nil)
	same(t, "PT 128", []any{n, err}, []any{0, rtpwire.ErrBadField})
	_, err = header.WireLen(nil)
	same(t, "PT 128", err, rtpwire.ErrBadField)
}

func TestElementsAreWritten(t *testing.T) {
	data := []byte{0xAA, 0xBB, 0xCC}
	places := []rtpwire.Place{{ID: 1, Len: 1}, {ID: 2, At: 1, Len: 2}}
	buf := make([]byte, 40)
	n, err := rtpwire.WriteElements(buf, rtpwire.OneByteForm, data, places)
	same(t, "one-byte form", []any{buf[:n], err}, []any{[]byte{0x10, 0xAA, 0x21, 0xBB, 0xCC}, nil})
	n, err = rtpwire.WriteElements(buf, rtpwire.TwoByteForm, data, places)
	same(t, "two-byte form", []any{buf[:n], err}, []any{[]byte{1, 1, 0xAA, 2, 2, 0xBB, 0xCC}, nil})
	n, err = rtpwire.WriteElements(nil, rtpwire.OneByteForm, nil, nil)
	same(t, "none", []any{n, err}, []any{0, nil})
	for _, form := range []rtpwire.Form{rtpwire.NoBlock, rtpwire.OtherForm} {
		_, err = rtpwire.WriteElements(buf, form, data, places)
		same(t, "no form", err, rtpwire.ErrBadField)
		_, err = rtpwire.WriteElements(buf, form, nil, nil)
		same(t, "no form, and no elements", err, rtpwire.ErrBadField)
	}
	_, err = rtpwire.WriteElements(buf[:4], rtpwire.OneByteForm, data, places)
	same(t, "short", err, rtpwire.ErrShortBuffer)

	header := rtpwire.Header{SequenceNumber: 1}
	n, err = header.WriteWith(buf, data, places)
	same(t, "with a header", []any{buf[:n], err}, []any{[]byte{
		0x90, 0, 0, 1, 0, 0, 0, 0, 0, 0, 0, 0, 0xBE, 0xDE, 0, 2, 0x10, 0xAA, 0x21, 0xBB, 0xCC, 0, 0, 0,
	}, nil})
	for _, place := range []rtpwire.Place{
		{ID: 0, Len: 1}, {ID: 1, Len: 4}, {ID: 1, At: 3, Len: 1}, {ID: 1, At: -1, Len: 1}, {ID: 1, Len: -1}, {ID: 1, At: 4},
	} {
		_, err = header.WriteWith(buf, data, []rtpwire.Place{place})
		same(t, "a bad place", err, rtpwire.ErrBadField)
	}

	// Without elements there is a block of no words.
	n, err = header.WriteWith(buf, nil, nil)
	same(t, "no elements", []any{buf[:n], err}, []any{[]byte{0x90, 0, 0, 1, 0, 0, 0, 0, 0, 0, 0, 0, 0xBE, 0xDE, 0, 0}, nil})

	// One form alone.
	n, err = header.WriteWithForm(buf[:24], rtpwire.TwoByteForm, data, places)
	same(t, "two-byte form alone", []any{buf[12:n], err}, []any{[]byte{0x10, 0, 0, 2, 1, 1, 0xAA, 2, 2, 0xBB, 0xCC, 0}, nil})
	_, err = header.WriteWithForm(buf[:23], rtpwire.TwoByteForm, data, places)
	same(t, "two-byte form, short", err, rtpwire.ErrShortBuffer)
	n, err = header.WriteWithForm(buf, rtpwire.OneByteForm, data, places)
	same(t, "one-byte form alone", []any{buf[12:n], err}, []any{[]byte{0xBE, 0xDE, 0, 2, 0x10, 0xAA, 0x21, 0xBB, 0xCC, 0, 0, 0}, nil})
	for _, place := range []rtpwire.Place{{ID: 15, Len: 1}, {ID: 1}} {
		_, err = header.WriteWithForm(buf, rtpwire.OneByteForm, data, []rtpwire.Place{place})
		same(t, "not in the one-byte form", err, rtpwire.ErrBadField)
		n, err = header.WriteWith(buf, data, []rtpwire.Place{place})
		same(t, "in any form", []any{n, err}, []any{20, nil})
	}
	for _, form := range []rtpwire.Form{rtpwire.NoBlock, rtpwire.OtherForm} {
		_, err = header.WriteWithForm(buf, form, data, places)
		same(t, "no form", err, rtpwire.ErrBadField)
	}

	// The elements of a packet, under other ids.
	packet := parsed(t, sample(), nil)
	read := packet.AppendPlaces(nil)
	_, body := packet.Block()
	for at := range read {
		read[at].ID += 20
	}
	n, err = header.WriteWith(buf, body, read)
	same(t, "renumbered", []any{buf[12:n], err}, []any{[]byte{
		0x10, 0, 0, 3, 21, 1, 0xAA, 22, 2, 0xBB, 0xCC, 21, 1, 0xDD, 0, 0,
	}, nil})
}

// The same fields are set in one packet after another.
func TestFieldsAreSetAgain(t *testing.T) {
	var fields rtpwire.Fields
	fields.SetMarker(false)
	fields.SetPayloadType(8)
	fields.SetSequenceNumber(0x0102)
	fields.SetTimestamp(0x03040506)
	fields.SetSSRC(0x0708090A)
	for range [3]int{} {
		changed(t, "all", fields.Apply, nil, map[int]byte{1: 8, 2: 1, 3: 2, 4: 3, 5: 4, 6: 5, 7: 6, 8: 7, 9: 8, 10: 9, 11: 10})
	}
}
