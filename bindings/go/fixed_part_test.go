package rtpwire_test

import (
	"bytes"
	"testing"

	"rtp-wire.example/rtpwire"
)

// A packet with padding, a source, and a block of three words with six elements in the one-byte form.
var sixElements = []byte{
	0xB1, 0xE0, 0, 5, 0, 0, 0, 160, 0, 0, 0, 7, 0, 0, 0, 9, 0xBE, 0xDE, 0, 3,
	0x10, 1, 0x20, 2, 0x30, 3, 0x40, 4, 0x50, 5, 0x60, 6, 'h', 'i', 0, 2,
}

func TestFixedPartIsRead(t *testing.T) {
	fixed, layout := rtpwire.FixedPart{SSRC: 1}, rtpwire.Layout{}
	for length, wanted := range map[int]rtpwire.Cause{
		11: rtpwire.CutFixedPart, 15: rtpwire.CutSources, 19: rtpwire.CutBlockHeader, 31: rtpwire.CutBlock,
	} {
		if cause := fixed.Parse(sixElements[:length], &layout); cause != wanted || fixed.SSRC != 1 || layout.HeaderLen() != 0 {
			t.Error(length, cause, fixed, layout)
		}
	}
	if cause := fixed.Parse(make([]byte, 12), &layout); cause != rtpwire.OtherVersion {
		t.Error(cause)
	}
	if cause := fixed.Parse(sixElements, &layout); cause != 0 {
		t.Fatal(cause)
	}
	wanted := rtpwire.FixedPart{
		Version: 2, HasPadding: true, HasExtension: true, Marker: true, PayloadType: 96, SequenceNumber: 5, Timestamp: 160, SSRC: 7,
	}
	form, body := layout.Block(sixElements)
	payload, ok := layout.UnpaddedPayload(sixElements)
	if fixed != wanted || layout.HeaderLen() != 32 || layout.CSRCCount() != 1 || layout.BlockProfile() != 0xBEDE ||
		form != rtpwire.OneByteForm || !bytes.Equal(body, sixElements[20:32]) || cap(body) != 12 ||
		!ok || string(payload) != "hi" || cap(payload) != 2 {
		t.Error(fixed, layout, form, body, payload, ok)
	}
	if form, at := layout.BlockAt(); form != rtpwire.OneByteForm || at != 20 {
		t.Error(form, at)
	}
	var places rtpwire.Places
	if n := places.Fill(form, sixElements[:32], 20); n != 5 || places[0].At != 21 || places[4].ID != 5 || places[4].At != 29 {
		t.Error(n, places)
	}
	if n := places.Fill(form, body, 0); n != 5 || places[0].ID != 1 || places[4].ID != 5 || places[4].At != 9 || places[4].Len != 1 {
		t.Error(n, places)
	}
	if n := places.Fill(form, body, 10); n != 1 || places[0].ID != 6 || places[0].At != 11 || places[1].ID != 2 {
		t.Error(n, places)
	}
	if n := places.Fill(form, nil, 0) + places.Fill(form, body, 13) + places.Fill(rtpwire.OtherForm, body, 0); n != 0 {
		t.Error(n)
	}
	short := append([]byte{0xA0}, sixElements[1:12]...)
	if cause := fixed.Parse(append(short, 9), &layout); cause != 0 {
		t.Error(cause)
	}
	if _, ok := layout.UnpaddedPayload(append(short, 9)); ok || fixed.HasExtension || layout.CSRCCount() != 0 || layout.BlockProfile() != 0 {
		t.Error(fixed, layout)
	}
}

// Where the padding's last byte counts more bytes than the payload has, no media are lent: of a payload of one byte that
// says 2, and of one of four bytes, behind a source and a block, whose last one says 5.
func TestNoMediaBehindWrongPadding(t *testing.T) {
	fixedAlone := []byte{0xA0, 0xE0, 0, 5, 0, 0, 0, 160, 0, 0, 0, 7, 2}
	withBlock := append(append([]byte(nil), sixElements[:35]...), 5)
	for _, datagram := range [][]byte{fixedAlone, withBlock} {
		var fixed rtpwire.FixedPart
		var layout rtpwire.Layout
		if cause := fixed.Parse(datagram, &layout); cause != 0 {
			t.Fatal(cause)
		}
		if payload, ok := layout.UnpaddedPayload(datagram); payload != nil || ok {
			t.Error("a layout", payload, ok)
		}
		var fields rtpwire.PacketFields
		if err := fields.Parse(datagram); err != nil {
			t.Fatal(err)
		}
		if payload, ok := fields.UnpaddedPayload(datagram); payload != nil || ok {
			t.Error("fields", payload, ok)
		}
		var packet rtpwire.Packet
		if err := packet.Parse(datagram, nil); err != nil {
			t.Fatal(err)
		}
		if payload, ok := packet.UnpaddedPayload(); payload != nil || ok {
			t.Error("a packet", payload, ok)
		}
		var headers rtpwire.HeaderBatch
		var packets rtpwire.PacketBatch
		headers.Add(0, len(datagram))
		packets.Add(0, len(datagram))
		headers.Parse(datagram, nil)
		packets.Parse(datagram)
		if payload, ok := headers.UnpaddedPayload(0); payload != nil || ok {
			t.Error("a batch of headers", payload, ok)
		}
		if payload, ok := packets.UnpaddedPayload(0); payload != nil || ok {
			t.Error("a batch of packets", payload, ok)
		}
	}
}

func TestFixedPartIsWritten(t *testing.T) {
	fixed := rtpwire.FixedPart{
		Version: 1, HasPadding: true, HasExtension: true, Marker: true, PayloadType: 127, SequenceNumber: 0xB798, Timestamp: 10000, SSRC: 44,
	}
	buf := bytes.Repeat([]byte{0xEE}, 16)
	if fixed.WriteInto(buf[:11]) || buf[0] != 0xEE {
		t.Error(buf)
	}
	if !fixed.WriteInto(buf) || !bytes.Equal(buf, []byte{0xA0, 0xFF, 0xB7, 0x98, 0, 0, 0x27, 0x10, 0, 0, 0, 0x2C, 0xEE, 0xEE, 0xEE, 0xEE}) {
		t.Error(buf)
	}
	fixed.PayloadType = 128
	if fixed.WriteInto(buf) || buf[1] != 0xFF {
		t.Error(buf)
	}
}

func TestDataElementsAreWritten(t *testing.T) {
	fixed := rtpwire.FixedPart{PayloadType: 33, SequenceNumber: 47000, Timestamp: 10000, SSRC: 44}
	elements := []rtpwire.DataElement{{ID: 1, Data: []byte{0xAA}}, {ID: 2, Data: []byte{0xBB, 0xCC}}}
	front := []byte{0x90, 0x21, 0xB7, 0x98, 0, 0, 0x27, 0x10, 0, 0, 0, 0x2C}
	oneByte := append(front[:12:12], 0xBE, 0xDE, 0, 2, 0x10, 0xAA, 0x21, 0xBB, 0xCC, 0, 0, 0)
	twoByte := append(front[:12:12], 0x10, 0, 0, 2, 1, 1, 0xAA, 2, 2, 0xBB, 0xCC, 0)
	buf := bytes.Repeat([]byte{0xEE}, 25)
	for form, wanted := range map[rtpwire.Form][]byte{rtpwire.OneByteForm: oneByte, rtpwire.TwoByteForm: twoByte} {
		if n, err := fixed.WriteWith(buf[:23], form, elements); n != 0 || err != rtpwire.ErrShortBuffer {
			t.Error(form, n, err)
		}
		if n, err := fixed.WriteWith(buf, form, elements); n != 24 || err != nil || !bytes.Equal(buf, append(wanted, 0xEE)) {
			t.Error(form, n, err, buf)
		}
	}
	for _, form := range []rtpwire.Form{rtpwire.NoBlock, rtpwire.OtherForm, 4} {
		if n, err := fixed.WriteWith(buf, form, elements); n != 0 || err != rtpwire.ErrBadField {
			t.Error(form, n, err)
		}
	}
	if n, err := fixed.WriteWith(buf, rtpwire.TwoByteForm, []rtpwire.DataElement{{ID: 255}}); n != 20 || err != nil ||
		!bytes.Equal(buf[12:20], []byte{0x10, 0, 0, 1, 255, 0, 0, 0}) {
		t.Error(n, err, buf)
	}
	fixed.PayloadType = 128
	if n, err := fixed.WriteWith(buf, rtpwire.OneByteForm, nil); n != 0 || err != rtpwire.ErrBadField {
		t.Error(n, err)
	}
}

// Data that lie in the buffer are written as they were, wherever they lie there; those beside it aren't copied.
func TestDataElementsOfTheBuffer(t *testing.T) {
	fixed := rtpwire.FixedPart{PayloadType: 33}
	for _, at := range []int{0, 1, 13, 20, 38} {
		whole := make([]byte, 60)
		for i := range whole {
			whole[i] = byte(100 + i)
		}
		buf, wanted := whole[10:50], append([]byte(nil), whole[10+at:12+at]...)
		elements := []rtpwire.DataElement{{ID: 1, Data: whole[10+at : 12+at]}, {ID: 2, Data: whole[9:11]}}
		n, err := fixed.WriteWith(buf, rtpwire.OneByteForm, elements)
		if n != 24 || err != nil || !bytes.Equal(buf[17:19], wanted) || !bytes.Equal(buf[20:22], []byte{109, 110}) {
			t.Error(at, n, err, buf)
		}
		if &elements[0].Data[0] != &whole[10+at] {
			t.Error("the caller's elements were changed")
		}
	}
	whole := make([]byte, 44)
	beside := []rtpwire.DataElement{{ID: 1, Data: whole[:2]}, {ID: 2, Data: whole[42:]}, {ID: 3, Data: whole[42:42]}}
	allocations := testing.AllocsPerRun(10, func() {
		_, _ = fixed.WriteWith(whole[2:42], rtpwire.TwoByteForm, beside)
	})
	if allocations != 0 {
		t.Error(allocations)
	}
}

// One element's data are written as they were wherever they begin in the buffer, with no other element that lies there.
func TestOneDataElementOfTheBuffer(t *testing.T) {
	fixed := rtpwire.FixedPart{PayloadType: 33}
	for at := 0; at <= 18; at++ {
		buf := make([]byte, 20)
		for i := range buf {
			buf[i] = byte(100 + i)
		}
		n, err := fixed.WriteWith(buf, rtpwire.OneByteForm, []rtpwire.DataElement{{ID: 1, Data: buf[at : at+2]}})
		wanted := []byte{0xBE, 0xDE, 0, 1, 0x11, byte(100 + at), byte(101 + at), 0}
		if n != 20 || err != nil || !bytes.Equal(buf[12:], wanted) {
			t.Error(at, n, err, buf)
		}
	}
}

// The data of the only element may begin before the buffer and reach into it: 16 bytes, of which these many lie before it.
func TestDataElementThatReachesIntoTheBuffer(t *testing.T) {
	fixed := rtpwire.FixedPart{PayloadType: 33}
	for before := 0; before <= 16; before++ {
		whole := make([]byte, 60)
		for i := range whole {
			whole[i] = byte(100 + i)
		}
		buf, wanted := whole[16:52], []byte{0xBE, 0xDE, 0, 5, 0x1F}
		for i := 0; i < 16; i++ {
			wanted = append(wanted, byte(116-before+i))
		}
		n, err := fixed.WriteWith(buf, rtpwire.OneByteForm, []rtpwire.DataElement{{ID: 1, Data: whole[16-before : 32-before]}})
		if n != 36 || err != nil || !bytes.Equal(buf[12:], append(wanted, 0, 0, 0)) {
			t.Error(before, n, err, buf)
		}
	}
}
