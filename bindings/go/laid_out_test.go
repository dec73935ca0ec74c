package rtpwire_test

import (
	"bytes"
	"fmt"
	"strings"
	"testing"

	"rtp-wire.example/rtpwire"
)

// The expected bytes are worked out by hand from RFC 3550, 5.1, RFC 4588, 4, and RFC 8285, 4.3.

// mids is a packet of this number, whose SSRC is the number too, with so many elements of 16 bytes in the two-byte form,
// of the ids 101, 102 and so on, each of one letter, and a payload of one byte.
func mids(number byte, count int) []byte {
	packet := []byte{0x90, 96, 0, number, 0, 0, 0, 100, 0, 0, 0, number, 0x10, 0, byte(18 * count / 4 >> 8), byte(18 * count / 4)}
	for i := 0; i < count; i++ {
		packet = append(packet, byte(101+i), 16)
		packet = append(packet, strings.Repeat(string(rune('A'+i)), 16)...)
	}
	return append(packet, 'p')
}

// Headers of 740 bytes, of a packet with 40 mids of 16 characters and a transport number for each receiver, and then those
// of a short one in the same buffer: each lies behind the one before it, and each is whole.
func TestLongHeadersOfManyReceivers(t *testing.T) {
	const receivers = 30
	group := &rtpwire.Group{IDs: each(), Elements: []rtpwire.Place{{ID: 9, Len: 2}}}
	data, buf := make([]byte, 2*receivers), make([]byte, 740*receivers)
	var batch rtpwire.RouteBatch
	for r := 0; r < receivers; r++ {
		batch.Add(2 * r).SetSSRC(uint32(1000 + r))
		data[2*r], data[2*r+1] = byte(r), byte(100+r)
	}
	for _, row := range []struct {
		number byte
		mids   int
		words  byte // in the low byte of the body's length; 40 mids are 180 words
		after  []byte
	}{
		{5, 40, 181, nil},
		{6, 2, 10, nil},
		{7, 40, 181, nil},
	} {
		packet := mids(row.number, row.mids)
		same(t, "routed", []any{batch.Route(packet, group, data, buf), batch.Len()}, []any{nil, receivers})
		at := 0
		for r := 0; r < receivers; r++ {
			what := fmt.Sprintf("the packet %d, receiver %d", row.number, r)
			wanted := append([]byte(nil), packet[:len(packet)-1]...)
			copy(wanted[8:], []byte{0, 0, byte((1000 + r) >> 8), byte((1000 + r) & 255)})
			wanted[15] = row.words
			wanted = append(wanted, 9, 2, byte(r), byte(100+r))
			header, err := batch.At(r)
			same(t, what, []any{header, err}, []any{wanted, nil})
			same(t, what+", its place", &header[0] == &buf[at], true)
			at += len(wanted)
		}
	}
	_, err := batch.At(receivers - 1)
	same(t, "the last one, in all of the buffer", err, nil)
	same(t, "routed", batch.Route(mids(8, 40), group, data, buf[:740*receivers-1]), nil)
	_, before := batch.At(receivers - 2)
	_, err = batch.At(receivers - 1)
	same(t, "the last one, in a byte less", []error{before, err}, []error{nil, rtpwire.ErrShortBuffer})
}

// What is refused takes no bytes: a retransmission behind it stands where it would have stood, with its number, and the
// next receiver behind that number.
func TestRetransmissionBehindARefusedOne(t *testing.T) {
	data := []byte{0, 7, 0, 8}
	plain := []byte{0x90, 96, 0, 5, 0, 0, 0, 100, 0, 0, 0, 46, 0xBE, 0xDE, 0, 2, 0x30, 0xAA, 0x41, 0, 8, 0, 0, 0}
	var batch rtpwire.RouteBatch
	batch.Add(2).SetSSRC(46)
	batch.Add(0).SetPayloadType(128)
	addAgain(&batch, 0, 0xABCD)
	batch.Add(3).SetSSRC(47) // its data reach past the data
	batch.Add(2).SetSSRC(46)
	buf := atEnd(t, make([]byte, 24+26+24))
	for round := 0; round < 2; round++ {
		same(t, "routed", batch.Route(routable(), numbered(), data, buf), nil)
		same(t, "headers", headersOf(&batch), []any{plain, rtpwire.ErrBadField, again(0xABCD), rtpwire.ErrBadField, plain})
		same(t, "the buffer", buf, append(append(append([]byte(nil), plain...), again(0xABCD)...), plain...))
	}
}

// Fields that aren't set are the packet's, of a retransmission too: but P, which is clear.
func TestFieldsOfThePacket(t *testing.T) {
	packet := []byte{0xA0, 0xE0, 0x12, 0x34, 1, 2, 3, 4, 5, 6, 7, 8, 'h', 'i', 0, 2}
	var batch rtpwire.RouteBatch
	batch.Add(0)
	batch.AddRetransmission(0, 0x5678)
	same(t, "routed", batch.Route(packet, &rtpwire.Group{}, nil, make([]byte, 26)), nil)
	same(t, "headers", headersOf(&batch), []any{packet[:12], []byte{0x80, 0xE0, 0x12, 0x34, 1, 2, 3, 4, 5, 6, 7, 8, 0x56, 0x78}})
}

// P of a receiver is the packet's, or clear where that is said, until it is said anew or the batch is Reset: with the
// payload without its padding behind it the second is a whole packet.
func TestPaddingIsClearedWhereItIsSaid(t *testing.T) {
	packet := []byte{0xA0, 96, 0, 5, 0, 0, 0, 100, 0, 0, 0, 44, 'h', 'i', 0, 2}
	var template rtpwire.HeaderTemplate
	same(t, "made", template.Make(packet, &rtpwire.Group{}, nil), nil)
	var batch rtpwire.RouteBatch
	buf := make([]byte, 64)
	firsts := func(what string, wanted ...byte) {
		t.Helper()
		for _, write := range []error{batch.Route(packet, &rtpwire.Group{}, nil, buf), batch.Write(&template, nil, buf)} {
			same(t, what, write, nil)
			for i, first := range wanted {
				header, err := batch.At(i)
				whole := append([]byte{first, 96, 0, 5, 0, 0, 0, 100, 0, 0, 0}, byte(44+i))
				same(t, fmt.Sprint(what, ", receiver ", i), []any{header, err}, []any{whole, nil})
			}
		}
	}
	for i := 0; i < 3; i++ {
		batch.Add(0).SetSSRC(uint32(44 + i))
	}
	batch.ClearPadding(1, true)
	firsts("the second", 0xA0, 0x80, 0xA0)
	firsts("and again", 0xA0, 0x80, 0xA0)
	header, _ := batch.At(1)
	read := parsed(t, append(append([]byte(nil), header...), packet[12:14]...), nil)
	payload, ok := read.UnpaddedPayload()
	same(t, "a packet", []any{string(payload), ok, read.HasPadding()}, []any{"hi", true, false})
	batch.ClearPadding(1, false)
	batch.ClearPadding(2, true)
	firsts("the third", 0xA0, 0xA0, 0x80)
	batch.Reset()
	for i := 0; i < 3; i++ {
		batch.Add(0).SetSSRC(uint32(44 + i))
	}
	firsts("after a reset", 0xA0, 0xA0, 0xA0)
	packet[0] = 0x80
	same(t, "made", template.Make(packet, &rtpwire.Group{}, nil), nil)
	batch.ClearPadding(0, true)
	firsts("of a packet without", 0x80, 0x80, 0x80)
}

// The room that is taken at first is enough for 16 elements of 255 bytes, the most that a group can ask for, behind the
// shortest header: 16 times 257 bytes and the four of the block, in whole words.
func TestRoomOfTheLongestElements(t *testing.T) {
	for count := 1; count <= 16; count++ {
		group := &rtpwire.Group{}
		for i := 0; i < count; i++ {
			group.Elements = append(group.Elements, rtpwire.Place{ID: uint8(20 + i), At: i, Len: 255})
		}
		data := bytes.Repeat([]byte{0x5A}, 16*255)
		var template rtpwire.HeaderTemplate
		var batch rtpwire.RouteBatch
		batch.Add(0)
		buf := make([]byte, 12+4+16*260)
		packet := plain(7)[:12]
		same(t, "made", []error{template.Make(packet, group, data), batch.Route(packet, group, data, buf)}, []error{nil, nil})
		length := 12 + 4 + (257*count+3)/4*4
		header, err := batch.At(0)
		same(t, "length", []any{template.HeaderLen(), len(header), err}, []any{length, length, nil})
		same(t, "the last byte of data", header[16+257*count-1], byte(0x5A))
	}
}

// A copy of a template has no header until it is made itself, and from then on the one of the two isn't touched by the
// other: also of one that had room for a longer header.
func TestCopiedTemplates(t *testing.T) {
	first, second := routable(), routable()
	second[11], second[17] = 45, 0xBB
	var template rtpwire.HeaderTemplate
	same(t, "made", template.Make(mids(5, 20), &rtpwire.Group{IDs: each()}, nil), nil)
	same(t, "made", template.Make(first, numbered(), []byte{0, 0}), nil)
	copied := template
	var batch rtpwire.RouteBatch
	batch.Add(0)
	buf, data := make([]byte, 100), []byte{0, 7}
	headers := func(what string, of *rtpwire.HeaderTemplate, wanted ...any) {
		t.Helper()
		err := batch.Write(of, data, buf)
		same(t, what, append([]any{err, of.HeaderLen(), of.DataLen()}, headersOf(&batch)...), wanted)
	}
	header := func(ssrc, element byte) []byte {
		return []byte{0x90, 96, 0, 5, 0, 0, 0, 100, 0, 0, 0, ssrc, 0xBE, 0xDE, 0, 2, 0x30, element, 0x41, 0, 7, 0, 0, 0}
	}
	headers("the first", &template, nil, 24, 2, header(44, 0xAA))
	headers("a copy", &copied, rtpwire.ErrBadField, 0, 0)
	headers("never made", new(rtpwire.HeaderTemplate), rtpwire.ErrBadField, 0, 0)
	same(t, "made", copied.Make(second, numbered(), []byte{0, 0}), nil)
	headers("the copy", &copied, nil, 24, 2, header(45, 0xBB))
	headers("the first still", &template, nil, 24, 2, header(44, 0xAA))
	second[11] = 46
	same(t, "made", template.Make(second, numbered(), []byte{0, 0}), nil)
	headers("the copy still", &copied, nil, 24, 2, header(45, 0xBB))
	headers("the first anew", &template, nil, 24, 2, header(46, 0xBB))
}
