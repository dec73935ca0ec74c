package rtp_test

import (
	"bytes"
	"errors"
	"io"
	"math/rand"
	"reflect"
	"testing"
	"time"

	"rtp-wire.example/rtpwire"
	"rtp-wire.example/rtpwire/rtp"
)

// A packet with a source, two elements, a payload of two bytes and padding of two.
var datagram = []byte{
	0xB1, 0xE0, 0, 5, 0, 0, 0, 160, 0, 0, 0, 7, 0, 0, 0, 9,
	0xBE, 0xDE, 0, 2, 0x10, 0x8A, 0x32, 1, 2, 3, 0, 0, 'h', 'i', 0, 2,
}

func TestReadAndWritten(t *testing.T) {
	var packet rtp.Packet
	if err := packet.Unmarshal(datagram); err != nil {
		t.Fatal(err)
	}
	if packet.Version != 2 || !packet.Marker || packet.PayloadType != 96 || packet.SequenceNumber != 5 || packet.Timestamp != 160 ||
		packet.SSRC != 7 || !reflect.DeepEqual(packet.CSRC, []uint32{9}) || string(packet.Payload) != "hi" || packet.PaddingSize != 2 {
		t.Error(packet)
	}
	if !bytes.Equal(packet.GetExtension(1), []byte{0x8A}) || !bytes.Equal(packet.GetExtension(3), []byte{1, 2, 3}) ||
		packet.GetExtension(2) != nil || !reflect.DeepEqual(packet.GetExtensionIDs(), []uint8{1, 3}) {
		t.Error(packet.Extensions)
	}
	written, err := packet.Clone().Marshal()
	if err != nil || !bytes.Equal(written, datagram) || packet.MarshalSize() != len(datagram) {
		t.Error(written, err)
	}
	for length := range datagram[:28] {
		if err := packet.Unmarshal(datagram[:length]); err == nil {
			t.Error(length)
		}
	}
}

// What no header can carry isn't written, and a block with appbits keeps them (RFC 8285, 4.3).
func TestWhatIsNotWritten(t *testing.T) {
	appbits := rtp.Header{Extension: true, ExtensionProfile: 0x1003}
	if err := appbits.SetExtension(200, []byte{1, 2, 3}); err != nil {
		t.Fatal(err)
	}
	written, err := appbits.Marshal()
	if err != nil || !bytes.Equal(written[12:], []byte{0x10, 0x03, 0, 2, 200, 3, 1, 2, 3, 0, 0, 0}) {
		t.Error(written, err)
	}
	var again rtp.Header
	if n, err := again.Unmarshal(written); n != 24 || err != nil || !bytes.Equal(again.GetExtension(200), []byte{1, 2, 3}) {
		t.Error(n, err, again)
	}
	other := rtp.Header{Extension: true, ExtensionProfile: 0xABAC}
	if err := other.SetExtension(0, []byte{1, 2, 3, 4}); err != nil {
		t.Fatal(err)
	}
	if written, err = other.Marshal(); err != nil || !bytes.Equal(written[12:], []byte{0xAB, 0xAC, 0, 1, 1, 2, 3, 4}) {
		t.Error(written, err)
	}
	for _, it := range []rtp.Header{{PayloadType: 128}, {CSRC: make([]uint32, 16)}} {
		if _, err := it.Marshal(); err != rtpwire.ErrBadField {
			t.Error(it, err)
		}
	}
	var one rtp.Header
	if one.SetExtension(1, []byte{1}) != nil || one.SetExtension(15, []byte{1}) == nil || one.SetExtension(2, nil) == nil ||
		one.SetExtension(2, make([]byte, 17)) == nil || one.DelExtension(2) == nil || one.DelExtension(1) != nil {
		t.Error(one)
	}
}

// An extension is taken to the ends of what its block can carry (RFC 8285, 4.2 and 4.3), also where the two-byte form has
// appbits; a first one gets the form that can carry it. Where it is refused nothing changes.
func TestEndsOfExtensions(t *testing.T) {
	block := func(profile uint16) rtp.Header { return rtp.Header{Extension: true, ExtensionProfile: profile} }
	for _, it := range []struct {
		header  rtp.Header
		id      uint8
		length  int
		profile uint16 // that the block then has; 0 where it is refused
	}{
		{rtp.Header{}, 1, 1, 0xBEDE}, {rtp.Header{}, 14, 16, 0xBEDE}, {rtp.Header{}, 1, 0, 0x1000}, {rtp.Header{}, 15, 1, 0x1000},
		{rtp.Header{}, 1, 17, 0x1000}, {rtp.Header{}, 255, 255, 0x1000}, {rtp.Header{}, 1, 256, 0}, {rtp.Header{}, 0, 1, 0},
		{rtp.Header{}, 0, 0, 0},
		{block(0xBEDE), 14, 16, 0xBEDE}, {block(0xBEDE), 15, 1, 0}, {block(0xBEDE), 0, 1, 0}, {block(0xBEDE), 1, 0, 0},
		{block(0xBEDE), 1, 17, 0},
		{block(0x1000), 255, 255, 0x1000}, {block(0x1000), 1, 0, 0x1000}, {block(0x1000), 0, 1, 0}, {block(0x1000), 1, 256, 0},
		{block(0x1007), 255, 255, 0x1007}, {block(0x1007), 1, 0, 0x1007}, {block(0x1007), 0, 1, 0}, {block(0x1007), 1, 256, 0},
		{block(0x1010), 0, 4, 0x1010}, {block(0x1010), 1, 4, 0}, {block(0xABAC), 0, 4, 0xABAC}, {block(0xABAC), 1, 4, 0},
	} {
		header := it.header
		err := header.SetExtension(it.id, make([]byte, it.length))
		if it.profile == 0 {
			if err == nil || !reflect.DeepEqual(header, it.header) {
				t.Error(it, err, header)
			}
			continue
		}
		if err != nil || !header.Extension || header.ExtensionProfile != it.profile || len(header.GetExtension(it.id)) != it.length ||
			!reflect.DeepEqual(header.GetExtensionIDs(), []uint8{it.id}) {
			t.Error(it, err, header)
		}
		if _, err := header.Marshal(); err != nil {
			t.Error(it, err)
		}
	}
}

// Of several extensions of an id the first is told, set and taken away. The block stays where the last of all is taken away, as
// pion's does; a header that isn't marked as one with a block has none.
func TestExtensionsOfOneID(t *testing.T) {
	fixed := []byte{0x90, 96, 0, 5, 0, 0, 0, 160, 0, 0, 0, 7}
	var header rtp.Header
	if _, err := header.Unmarshal(append(fixed[:12:12], 0xBE, 0xDE, 0, 2, 0x10, 0xA, 0x20, 0xB, 0x10, 0xC, 0, 0)); err != nil {
		t.Fatal(err)
	}
	unmarked := header
	unmarked.Extension = false
	if unmarked.GetExtensionIDs() != nil || unmarked.GetExtension(1) != nil || unmarked.DelExtension(1) == nil {
		t.Error(unmarked)
	}
	if !bytes.Equal(header.GetExtension(1), []byte{0xA}) || header.SetExtension(1, []byte{0xD}) != nil ||
		!bytes.Equal(header.GetExtension(1), []byte{0xD}) || !reflect.DeepEqual(header.GetExtensionIDs(), []uint8{1, 2, 1}) {
		t.Error(header)
	}
	if header.DelExtension(1) != nil || !reflect.DeepEqual(header.GetExtensionIDs(), []uint8{2, 1}) ||
		!bytes.Equal(header.GetExtension(1), []byte{0xC}) {
		t.Error(header)
	}
	if header.DelExtension(2) != nil || header.DelExtension(1) != nil || header.DelExtension(1) == nil || !header.Extension {
		t.Error(header)
	}
	if written, err := header.Marshal(); err != nil || !bytes.Equal(written, append(fixed[:12:12], 0xBE, 0xDE, 0, 0)) {
		t.Error(written, err)
	}
}

// The ids are nil where a block has no extension: one of padding alone, read anew or where another was read before, one of no
// words, and one of which the last extension was taken away.
func TestIDsOfABlockWithoutExtensions(t *testing.T) {
	fixed := []byte{0x90, 96, 0, 5, 0, 0, 0, 160, 0, 0, 0, 7}
	padding := append(fixed[:12:12], 0xBE, 0xDE, 0, 1, 0, 0, 0, 0)
	noWords := append(fixed[:12:12], 0x10, 0, 0, 0)
	var again rtp.Header
	for _, buf := range [][]byte{padding, noWords} {
		if _, err := again.Unmarshal(datagram); err != nil || len(again.GetExtensionIDs()) == 0 {
			t.Fatal(again, err)
		}
		var anew rtp.Header
		for _, header := range []*rtp.Header{&anew, &again} {
			if _, err := header.Unmarshal(buf); err != nil || !header.Extension || header.GetExtensionIDs() != nil {
				t.Error(buf, header, err)
			}
		}
	}
	if err := again.SetExtension(3, []byte{1}); err != nil || !bytes.Equal(again.GetExtensionIDs(), []byte{3}) {
		t.Error(again, err)
	}
	if err := again.DelExtension(3); err != nil || !again.Extension || again.GetExtensionIDs() != nil {
		t.Error(again, err)
	}
}

// With sources each form is written as it is without them, and read so, whatever sources the header had before.
func TestWrittenWithSources(t *testing.T) {
	var read rtp.Header
	for _, profile := range []uint16{0xBEDE, 0x1000, 0x1007} {
		for _, length := range []int{1, 4, 5, 16} {
			for count := 1; count <= 14; count++ {
				without := blockOf(profile, length, count)
				var header rtp.Header
				if _, err := header.Unmarshal(without); err != nil {
					t.Fatal(err)
				}
				header.CSRC = []uint32{0x01020304, 0xFFFFFFFE}
				wanted := append([]byte{0x92}, without[1:12]...)
				wanted = append(append(wanted, 1, 2, 3, 4, 0xFF, 0xFF, 0xFF, 0xFE), without[12:]...)
				if written, err := header.Marshal(); err != nil || !bytes.Equal(written, wanted) || header.MarshalSize() != len(wanted) {
					t.Fatal(profile, length, count, written, err)
				}
				for _, it := range []struct {
					buf     []byte
					sources []uint32
				}{{wanted, header.CSRC}, {wanted, header.CSRC}, {without, []uint32{}}} {
					if n, err := read.Unmarshal(it.buf); n != len(it.buf) || err != nil || !reflect.DeepEqual(read.CSRC, it.sources) ||
						!reflect.DeepEqual(read.Extensions, header.Extensions) {
						t.Fatal(profile, length, count, n, err, read)
					}
				}
			}
		}
	}
	other := rtp.Header{Extension: true, ExtensionProfile: 0xABAC, PayloadType: 96, CSRC: []uint32{9}}
	wanted := []byte{0x91, 96, 0, 0, 0, 0, 0, 0, 0, 0, 0, 0, 0, 0, 0, 9, 0xAB, 0xAC, 0, 1, 1, 2, 3, 4}
	if err := other.SetExtension(0, []byte{1, 2, 3, 4}); err != nil {
		t.Fatal(err)
	}
	if written, err := other.Marshal(); err != nil || !bytes.Equal(written, wanted) {
		t.Error(written, err)
	}
}

// A block of another form is written by its first extension, whose data are whole words (RFC 3550, 5.3.1), and has its size;
// without one it has no words. An append to what was read of it copies.
func TestBlocksOfAnotherForm(t *testing.T) {
	var header rtp.Header
	if _, err := header.Unmarshal(blockOf(0xBEDE, 4, 2)); err != nil {
		t.Fatal(err)
	}
	header.ExtensionProfile = 0xABAC
	wanted := append(blockOf(0xBEDE, 4, 2)[:12], 0xAB, 0xAC, 0, 1, 1, 2, 3, 4)
	if written, err := header.Marshal(); err != nil || !bytes.Equal(written, wanted) || header.MarshalSize() != len(wanted) {
		t.Error(written, err, header.MarshalSize())
	}
	if _, err := header.Unmarshal(append(wanted, 5, 6)); err != nil || !bytes.Equal(header.GetExtension(0), []byte{1, 2, 3, 4}) ||
		cap(header.GetExtension(0)) != 4 {
		t.Error(err, header)
	}
	empty := rtp.Header{Extension: true, ExtensionProfile: 0xABAC, PayloadType: 96}
	wanted = []byte{0x90, 96, 0, 0, 0, 0, 0, 0, 0, 0, 0, 0, 0xAB, 0xAC, 0, 0}
	if written, err := empty.Marshal(); err != nil || !bytes.Equal(written, wanted) || empty.MarshalSize() != 16 {
		t.Error(written, err, empty.MarshalSize())
	}
	for length := 1; length < 4; length++ {
		cut := rtp.Header{Extension: true, ExtensionProfile: 0xABAC}
		if err := cut.SetExtension(0, make([]byte, length)); err != nil {
			t.Fatal(err)
		}
		if n, err := cut.MarshalTo(make([]byte, 100)); n != 0 || err != io.ErrShortBuffer {
			t.Error(length, n, err)
		}
	}
}

// A block of another form may be written where it was read, behind sources that it hadn't.
func TestBlockWrittenWhereItWasRead(t *testing.T) {
	buf := []byte{0x90, 96, 0, 5, 0, 0, 0, 160, 0, 0, 0, 7, 0xAB, 0xAC, 0, 2, 1, 2, 3, 4, 5, 6, 7, 8, 24: 0xEE, 33: 0xEE}
	var header rtp.Header
	if n, err := header.Unmarshal(buf[:24]); n != 24 || err != nil {
		t.Fatal(n, err)
	}
	header.CSRC = []uint32{0x11111111, 0x22222222}
	wanted := []byte{0x92, 96, 0, 5, 0, 0, 0, 160, 0, 0, 0, 7, 0x11, 0x11, 0x11, 0x11, 0x22, 0x22, 0x22, 0x22,
		0xAB, 0xAC, 0, 2, 1, 2, 3, 4, 5, 6, 7, 8, 0, 0xEE}
	if n, err := header.MarshalTo(buf); n != 32 || err != nil || !bytes.Equal(buf, wanted) {
		t.Error(n, err, buf)
	}
}

// A packet may be written where it was read: its payload moves on, or back, with the end of the header.
func TestPacketWrittenWhereItWasRead(t *testing.T) {
	front := []byte{0x90, 96, 0, 5, 0, 0, 0, 160, 0, 0, 0, 7}
	read := append(front[:12:12], 0xBE, 0xDE, 0, 2, 0x10, 0x8A, 0x32, 1, 2, 3, 0, 0, 'a', 'b', 'c', 'd', 'e', 'f')
	for what, row := range map[string]struct {
		change func(header *rtp.Header) error
		wanted []byte
	}{
		"as it was": {func(header *rtp.Header) error { return nil }, read},
		"a longer header": {
			func(header *rtp.Header) error { return header.SetExtension(4, []byte{9, 8}) },
			append(front[:12:12], 0xBE, 0xDE, 0, 3, 0x10, 0x8A, 0x32, 1, 2, 3, 0x41, 9, 8, 0, 0, 0, 'a', 'b', 'c', 'd', 'e', 'f'),
		},
		"a shorter header": {
			func(header *rtp.Header) error { return header.DelExtension(3) },
			append(front[:12:12], 0xBE, 0xDE, 0, 1, 0x10, 0x8A, 0, 0, 'a', 'b', 'c', 'd', 'e', 'f'),
		},
	} {
		buf := append(read[:len(read):len(read)], make([]byte, 20)...)
		var packet rtp.Packet
		if err := packet.Unmarshal(buf[:len(read)]); err != nil {
			t.Fatal(err)
		}
		if err := row.change(&packet.Header); err != nil {
			t.Fatal(err)
		}
		if n, err := packet.MarshalTo(buf); err != nil || !bytes.Equal(buf[:n], row.wanted) {
			t.Errorf("%s: %v, % x", what, err, buf[:n])
		}
	}
}

// Nor is a part of a packet written whose payload or padding has no room.
func TestPacketWithoutRoom(t *testing.T) {
	for _, packet := range []rtp.Packet{
		{Header: rtp.Header{Version: 2, PayloadType: 96, SSRC: 7}, Payload: []byte("abc")},
		{Header: rtp.Header{Version: 2, PayloadType: 96, SSRC: 7}, Payload: []byte("a"), PaddingSize: 2},
	} {
		for size := 0; size < 15; size++ {
			buf := bytes.Repeat([]byte{0xEE}, size)
			if n, err := packet.MarshalTo(buf); n != 0 || !errors.Is(err, io.ErrShortBuffer) || bytes.Count(buf, []byte{0xEE}) != size {
				t.Errorf("%d bytes: %d, %v, % x", size, n, err, buf)
			}
		}
		packet.PayloadType = 128
		if n, err := packet.MarshalTo(nil); n != 0 || !errors.Is(err, rtpwire.ErrBadField) {
			t.Error(n, err)
		}
	}
}

// Where there is no room nothing is written, whatever the form of the block is.
func TestWithoutRoomNothingIsWritten(t *testing.T) {
	for _, profile := range []uint16{0xBEDE, 0x1000, 0x1001, 0xABAC} {
		header := rtp.Header{Version: 2, Extension: true, ExtensionProfile: profile}
		id := uint8(1)
		if profile == 0xABAC {
			id = 0
		}
		if err := header.SetExtension(id, []byte{1, 2, 3, 4}); err != nil {
			t.Fatal(err)
		}
		size := header.MarshalSize()
		buf := bytes.Repeat([]byte{0xEE}, size-1)
		if n, err := header.MarshalTo(buf); n != 0 || !errors.Is(err, io.ErrShortBuffer) || !bytes.Equal(buf, bytes.Repeat([]byte{0xEE}, size-1)) {
			t.Errorf("%x: %d, %v, % x", profile, n, err, buf)
		}
		if n, err := header.MarshalTo(make([]byte, size)); n != size || err != nil {
			t.Errorf("%x: %d, %v", profile, n, err)
		}
	}
}

// A packet is written over whatever lies in the buffer: its padding is zeros and the byte that counts it (RFC 3550, 5.1), and
// without padding P is clear, whatever the header holds. The bytes behind it stay.
func TestPaddingIsWritten(t *testing.T) {
	fixed := []byte{0x80, 96, 0, 5, 0, 0, 0, 160, 0, 0, 0, 7}
	for _, it := range []struct {
		size   byte
		first  byte
		behind []byte
	}{
		{0, 0x80, []byte{'h', 'i'}}, {1, 0xA0, []byte{'h', 'i', 1}}, {4, 0xA0, []byte{'h', 'i', 0, 0, 0, 4}},
		{255, 0xA0, append(append([]byte{'h', 'i'}, make([]byte, 254)...), 255)},
	} {
		for _, isMarked := range []bool{false, true} {
			packet := rtp.Packet{Payload: []byte("hi"), PaddingSize: it.size}
			if _, err := packet.Header.Unmarshal(fixed); err != nil {
				t.Fatal(err)
			}
			packet.Padding = isMarked
			wanted := append(append([]byte{it.first}, fixed[1:]...), it.behind...)
			buf := bytes.Repeat([]byte{0xEE}, len(wanted)+1)
			if n, err := packet.MarshalTo(buf[:len(wanted)-1]); n != 0 || err != io.ErrShortBuffer {
				t.Error(it.size, n, err)
			}
			if n, err := packet.MarshalTo(buf); n != len(wanted) || err != nil || !bytes.Equal(buf, append(wanted, 0xEE)) {
				t.Error(it.size, n, err, buf)
			}
		}
	}
}

// What is written through a clone changes neither the packet nor the bytes that it was read from.
func TestClonesShareNothing(t *testing.T) {
	buf := append([]byte(nil), datagram...)
	var packet, again rtp.Packet
	if packet.Unmarshal(buf) != nil || again.Unmarshal(datagram) != nil {
		t.Fatal("no packet")
	}
	clone := packet.Clone()
	if !reflect.DeepEqual(*clone, packet) {
		t.Error(clone)
	}
	clone.CSRC[0]++
	clone.Payload[0]++
	clone.GetExtension(1)[0]++
	clone.GetExtension(3)[2]++
	if err := clone.SetExtension(1, []byte{7}); err != nil || !bytes.Equal(buf, datagram) || !reflect.DeepEqual(packet, again) {
		t.Error(err, buf, packet)
	}
}

// A clone has room of its own also where there is nothing in it, and what is nil or has no bytes is so in the clone.
func TestClonesOfNothing(t *testing.T) {
	packet := rtp.Packet{Payload: []byte{}}
	packet.Extension, packet.ExtensionProfile = true, 0x1000
	packet.CSRC, packet.Extensions = make([]uint32, 0, 4), make([]rtp.Extension, 0, 4)
	clone := packet.Clone()
	if !reflect.DeepEqual(*clone, packet) || !reflect.DeepEqual(*(rtp.Packet{}).Clone(), rtp.Packet{}) {
		t.Error(clone)
	}
	clone.CSRC = append(clone.CSRC, 7)
	if err := clone.SetExtension(1, []byte{}); err != nil || packet.CSRC[:1][0] != 0 ||
		!reflect.DeepEqual(packet.Extensions[:1], make([]rtp.Extension, 1)) {
		t.Error(err, packet)
	}
	if !reflect.DeepEqual(*clone.Clone(), *clone) {
		t.Error(clone)
	}
}

// The fields in lines, as pion's package says them.
func TestPacketInLines(t *testing.T) {
	var packet rtp.Packet
	if err := packet.Unmarshal(datagram); err != nil {
		t.Fatal(err)
	}
	packet.SSRC = 0xABC
	const wanted = "RTP PACKET:\n\tVersion: 2\n\tMarker: true\n\tPayload Type: 96\n\tSequence Number: 5\n\tTimestamp: 160\n" +
		"\tSSRC: 2748 (abc)\n\tPayload Length: 2\n"
	if packet.String() != wanted {
		t.Error(packet.String())
	}
}

// As many elements as fit, of each length, in each form: they are read, and written as they were.
func TestElementsOfEachLength(t *testing.T) {
	type form struct {
		profile     uint16
		least, most int
	}
	for _, it := range []form{{0xBEDE, 1, 16}, {0x1000, 0, 255}, {0x1007, 0, 255}} {
		for length := it.least; length <= it.most; length++ {
			for count := 1; count <= 14; count++ {
				wanted := blockOf(it.profile, length, count)
				var header rtp.Header
				if n, err := header.Unmarshal(append(wanted, 1, 2, 3)); n != len(wanted) || err != nil || len(header.Extensions) != count {
					t.Fatal(it, length, count, n, err)
				}
				for id := 1; id <= count; id++ {
					data := header.GetExtension(uint8(id))
					if len(data) != length || cap(data) != length || length != 0 && (data[0] != byte(id) || data[length-1] != byte(id+length-1)) {
						t.Fatal(it, length, count, id, data)
					}
				}
				if written, err := header.Marshal(); !bytes.Equal(written, wanted) || err != nil {
					t.Fatal(it, length, count, written, err)
				}
			}
		}
	}
}

// blockOf is a header whose elements have the ids from 1 on, and so many bytes each: the id, and each one more than the last.
func blockOf(profile uint16, length, count int) []byte {
	var body []byte
	for id := 1; id <= count; id++ {
		if profile == 0xBEDE {
			body = append(body, byte(id<<4|(length-1)))
		} else {
			body = append(body, byte(id), byte(length))
		}
		for i := 0; i < length; i++ {
			body = append(body, byte(id+i))
		}
	}
	for len(body)%4 != 0 {
		body = append(body, 0)
	}
	words := len(body) / 4
	return append([]byte{0x90, 96, 0, 5, 0, 0, 0, 160, 0, 0, 0, 7, byte(profile >> 8), byte(profile), byte(words >> 8), byte(words)}, body...)
}

// In the two-byte form a block has more elements than the one-byte form has ids (RFC 8285, 4.3): all of them are written, with
// a source and without one, and read.
func TestMoreElementsThanTheOneByteFormHasIDs(t *testing.T) {
	for _, count := range []int{14, 15, 16, 64, 255} {
		wanted := blockOf(0x1000, 2, count)
		header := rtp.Header{PayloadType: 96, SequenceNumber: 5, Timestamp: 160, SSRC: 7, Extension: true, ExtensionProfile: 0x1000}
		var ids []uint8
		for id := 1; id <= count; id++ {
			if err := header.SetExtension(uint8(id), []byte{byte(id), byte(id + 1)}); err != nil {
				t.Fatal(count, id, err)
			}
			ids = append(ids, uint8(id))
		}
		if written, err := header.Marshal(); err != nil || !bytes.Equal(written, wanted) || header.MarshalSize() != len(wanted) {
			t.Error(count, written, err, header.MarshalSize())
		}
		var read rtp.Header
		if n, err := read.Unmarshal(wanted); n != len(wanted) || err != nil || !bytes.Equal(read.GetExtensionIDs(), ids) {
			t.Error(count, n, err, read)
		}
		header.CSRC = []uint32{9}
		withSource := append(append(append([]byte{0x91}, wanted[1:12]...), 0, 0, 0, 9), wanted[12:]...)
		if written, err := header.Marshal(); err != nil || !bytes.Equal(written, withSource) {
			t.Error(count, written, err)
		}
	}
}

// A header of twelve bytes is written as one with a source and without it, whatever lies in the buffer, and no byte behind it.
func TestFixedPart(t *testing.T) {
	for flags := 0; flags < 4; flags++ {
		header := rtp.Header{Padding: flags&1 != 0, Marker: flags&2 != 0, PayloadType: 127, SequenceNumber: 0x1234, Timestamp: 0xDEADBEEF, SSRC: 0x89ABCDEF}
		buf := bytes.Repeat([]byte{0xFF}, 14)
		n, err := header.MarshalTo(buf)
		wanted := []byte{byte(0x80 | flags&1<<5), byte(127 | flags>>1<<7), 0x12, 0x34, 0xDE, 0xAD, 0xBE, 0xEF, 0x89, 0xAB, 0xCD, 0xEF, 0xFF, 0xFF}
		if n != 12 || err != nil || !bytes.Equal(buf, wanted) {
			t.Error(flags, n, err, buf)
		}
		if n, err := header.MarshalTo(make([]byte, 11)); n != 0 || err != io.ErrShortBuffer {
			t.Error(flags, n, err)
		}
		header.CSRC = []uint32{0xFFFFFFFF}
		wanted[0]++
		if n, err := header.MarshalTo(make([]byte, 15)); n != 0 || err != io.ErrShortBuffer {
			t.Error(flags, n, err)
		}
		if written, err := header.Marshal(); err != nil || !bytes.Equal(written, append(wanted, 0xFF, 0xFF)) {
			t.Error(flags, written, err)
		}
	}
}

// A header takes the elements whatever room it has from the packet before, also more of them than are told at once, and where
// one of the id 0 stands anywhere among them.
func TestElementsInTheRoomThereIs(t *testing.T) {
	fixed := []byte{0x90, 96, 0, 5, 0, 0, 0, 160, 0, 0, 0, 7}
	for room := 0; room <= 16; room++ {
		for count := 0; count <= 14; count++ {
			for none := 0; none <= count+1; none++ { // behind the elements up to this one; the last is that it stands nowhere
				var body, wanted []byte
				for id := 1; id <= count; id++ {
					if none == id-1 {
						body = append(body, 0x01, 0xA, 0xB)
					}
					body, wanted = append(body, byte(id<<4), byte(100+id)), append(wanted, byte(id))
				}
				if none == count {
					body = append(body, 0x01, 0xA, 0xB)
				}
				for len(body)%4 != 0 {
					body = append(body, 0)
				}
				packet := append(append(fixed[:12:12], 0xBE, 0xDE, 0, byte(len(body)/4)), body...)
				before := blockOf(0x1000, 3, room)
				var header rtp.Header
				if _, err := header.Unmarshal(before); err != nil || len(header.Extensions) != room {
					t.Fatal(room, err)
				}
				n, err := header.Unmarshal(append(packet, 1, 2, 3, 4))
				if n != len(packet) || err != nil || header.ExtensionProfile != 0xBEDE || len(header.Extensions) != count ||
					!bytes.Equal(header.GetExtensionIDs(), wanted) {
					t.Fatal(room, count, none, n, err, header)
				}
				for id := 1; id <= count; id++ {
					if data := header.GetExtension(uint8(id)); len(data) != 1 || cap(data) != 1 || data[0] != byte(100+id) {
						t.Fatal(room, count, none, id, data)
					}
				}
			}
		}
	}
}

// The sources of a header without any are none and not nil, as pion's are, whatever it was read into.
func TestSourcesOfAFirstHeader(t *testing.T) {
	var header rtp.Header
	if n, err := header.Unmarshal(append([]byte{0x80}, datagram[1:12]...)); n != 12 || err != nil || header.CSRC == nil || len(header.CSRC) != 0 {
		t.Error(n, err, header)
	}
}

// One header is read into again: nothing of the packet before stays, and no memory is taken.
func TestReadAgain(t *testing.T) {
	var packet rtp.Packet
	plain := append([]byte{0x80}, datagram[1:12]...)
	other := append([]byte{0x90}, append(datagram[1:12:12], 0xAB, 0xAC, 0, 1, 1, 2, 3, 4)...)
	all := [][]byte{datagram, plain, blockOf(0xBEDE, 2, 5), other, plain, datagram}
	read := func() {
		for _, it := range all {
			if err := packet.Unmarshal(it); err != nil {
				t.Fatal(err)
			}
		}
	}
	read()
	if packet.Unmarshal(plain) != nil || packet.Extension || packet.ExtensionProfile != 0 || len(packet.Extensions) != 0 ||
		packet.CSRC == nil || len(packet.CSRC) != 0 || packet.Padding || packet.PaddingSize != 0 || len(packet.Payload) != 0 {
		t.Error(packet)
	}
	if packet.Unmarshal(other) != nil || packet.ExtensionProfile != 0xABAC || !bytes.Equal(packet.GetExtension(0), []byte{1, 2, 3, 4}) {
		t.Error(packet)
	}
	buf := make([]byte, 100)
	if taken := testing.AllocsPerRun(10, func() {
		read()
		if _, err := packet.MarshalTo(buf); err != nil {
			t.Fatal(err)
		}
	}); taken != 0 {
		t.Error(taken)
	}
}

// A packet whose padding has no room gives its header alone.
func TestPaddingWithoutRoom(t *testing.T) {
	var packet rtp.Packet
	if err := packet.Unmarshal(datagram); err != nil {
		t.Fatal(err)
	}
	payload := string(packet.Payload)
	bad := []byte{0xB1, 97, 0, 6, 0, 0, 0, 9, 0, 0, 0, 8, 0, 0, 0, 5, 0xBE, 0xDE, 0, 1, 0x20, 7, 0, 0, 1, 3}
	if err := packet.Unmarshal(bad); err == nil || errors.Is(err, rtpwire.ErrNotAPacket) {
		t.Error(err)
	}
	ids := packet.GetExtensionIDs()
	if packet.SequenceNumber != 6 || packet.SSRC != 8 || !packet.Padding || len(packet.CSRC) != 1 || packet.CSRC[0] != 5 ||
		packet.ExtensionProfile != 0xBEDE || len(ids) != 1 || ids[0] != 2 || !bytes.Equal(packet.GetExtension(2), []byte{7}) ||
		string(packet.Payload) != payload {
		t.Error(packet)
	}
}

func TestValues(t *testing.T) {
	data, err := rtp.AudioLevelExtension{Level: 10, Voice: true}.Marshal()
	var level rtp.AudioLevelExtension
	if err != nil || !bytes.Equal(data, []byte{0x8A}) || level.Unmarshal(data) != nil || level != (rtp.AudioLevelExtension{Level: 10, Voice: true}) {
		t.Error(data, err, level)
	}
	data, err = rtp.AudioLevelExtension{Level: 127}.Marshal()
	if err != nil || !bytes.Equal(data, []byte{0x7F}) || level.Unmarshal(data) != nil || level != (rtp.AudioLevelExtension{Level: 127}) {
		t.Error(data, err, level)
	}
	if _, err = (rtp.AudioLevelExtension{Level: 128}).Marshal(); err == nil {
		t.Error("a level of 128")
	}
	data, err = rtp.TransportCCExtension{TransportSequence: 0x1234}.Marshal()
	var number rtp.TransportCCExtension
	if err != nil || !bytes.Equal(data, []byte{0x12, 0x34}) || number.Unmarshal(data) != nil || number.TransportSequence != 0x1234 {
		t.Error(data, err, number)
	}
	data, err = rtp.AbsSendTimeExtension{Timestamp: 0x1ABCDEF}.Marshal()
	var sent rtp.AbsSendTimeExtension
	if err != nil || !bytes.Equal(data, []byte{0xAB, 0xCD, 0xEF}) || sent.Unmarshal(data) != nil || sent.Timestamp != 0xABCDEF {
		t.Error(data, err, sent)
	}
}

// A value is read from the front of the data, as pion's are: what stands behind it isn't looked at. Fewer bytes are none.
func TestValuesOfLongerData(t *testing.T) {
	data := append([]byte{0x8A, 0x34, 0x56, 0x78, 0x9A}, make([]byte, 251)...)
	for _, length := range []int{0, 1, 2, 3, 4, 5, 255, 256} { // no element has 256
		var level rtp.AudioLevelExtension
		var number rtp.TransportCCExtension
		var sent rtp.AbsSendTimeExtension
		errs := []error{level.Unmarshal(data[:length]), number.Unmarshal(data[:length]), sent.Unmarshal(data[:length])}
		if (errs[0] == nil) != (length >= 1) || (errs[1] == nil) != (length >= 2) || (errs[2] == nil) != (length >= 3) {
			t.Error(length, errs)
		}
		if errs[0] == nil && level != (rtp.AudioLevelExtension{Level: 10, Voice: true}) ||
			errs[1] == nil && number.TransportSequence != 0x8A34 || errs[2] == nil && sent.Timestamp != 0x8A3456 {
			t.Error(length, level, number, sent)
		}
	}
}

// A header that isn't marked as one with a block gets its extensions in memory of its own: those of a shallow copy stay, as
// pion's do.
func TestShallowCopies(t *testing.T) {
	var header rtp.Header
	if _, err := header.Unmarshal(datagram); err != nil {
		t.Fatal(err)
	}
	shallow := header
	shallow.Extension = false
	if err := shallow.SetExtension(5, []byte{7}); err != nil || !reflect.DeepEqual(shallow.GetExtensionIDs(), []uint8{5}) {
		t.Error(err, shallow)
	}
	if !reflect.DeepEqual(header.GetExtensionIDs(), []uint8{1, 3}) || !bytes.Equal(header.GetExtension(1), []byte{0x8A}) {
		t.Error(header)
	}
	if written, err := header.Marshal(); err != nil || !bytes.Equal(written, datagram[:28]) {
		t.Error(written, err)
	}
}

// The whole NTP time in units of 2^-18 seconds, as pion's is, by hand: 2208988800 seconds from 1900 to 1970, and 2^18 units a
// second. The low 24 bits are written.
func TestSendTimesOfMoments(t *testing.T) {
	for _, it := range []struct {
		moment time.Time
		units  uint64
	}{
		{time.Unix(0, 0), 2208988800 << 18},
		{time.Unix(1, 500000000), 2208988801<<18 + 1<<17},
		{time.Unix(1700000000, 250000000), 3908988800<<18 + 1<<16},
		{time.Unix(1700000000, 999999999), 3908988801<<18 - 1},
		{time.Unix(1<<32-2208988800, 0), 0}, // the next era
		{time.Unix(1<<32-2208988801, 0), 1<<50 - 1<<18},
	} {
		sent := rtp.NewAbsSendTimeExtension(it.moment)
		data, err := sent.Marshal()
		low := []byte{byte(it.units >> 16), byte(it.units >> 8), byte(it.units)}
		if sent.Timestamp != it.units || err != nil || !bytes.Equal(data, low) ||
			rtpwire.SendTime(it.units&0xFFFFFF) != rtpwire.SendTimeOf(it.moment) {
			t.Error(it, sent, data, err)
		}
		// The nearest moment, also where it is after the arrival.
		for _, off := range []time.Duration{-31 * time.Second, -time.Second, 0, time.Second, 31 * time.Second} {
			if away := sent.Estimate(it.moment.Add(off)).Sub(it.moment); away < -4*time.Microsecond || away > 0 {
				t.Error(it, off, away)
			}
		}
	}
}

// Each cause is told beside pion's error, as errors of Go tell several.
func TestCausesAreTold(t *testing.T) {
	other := append([]byte(nil), datagram...)
	other[0] = 0x71
	for _, it := range []struct {
		buf   []byte
		cause rtpwire.Cause
		pions string
	}{
		{nil, rtpwire.CutFixedPart, "rtp: the header is cut short: "},
		{datagram[:11], rtpwire.CutFixedPart, "rtp: the header is cut short: "},
		{other, rtpwire.OtherVersion, ""},
		{datagram[:15], rtpwire.CutSources, "rtp: the header is cut short: "},
		{datagram[:19], rtpwire.CutBlockHeader, "rtp: the extension block is cut short: "},
		{datagram[:27], rtpwire.CutBlock, "rtp: the extension block is cut short: "},
	} {
		var header rtp.Header
		_, err := header.Unmarshal(it.buf)
		for _, err := range []error{err, new(rtp.Packet).Unmarshal(it.buf)} {
			var cause rtpwire.Cause
			if !errors.Is(err, rtpwire.ErrNotAPacket) || !errors.As(err, &cause) || cause != it.cause || !errors.Is(err, it.cause) ||
				err.Error() != it.pions+it.cause.Error() {
				t.Error(it, err)
			}
			if errors.Is(err, rtpwire.ErrRefused) || errors.Is(err, rtpwire.OtherVersion) != (it.cause == rtpwire.OtherVersion) {
				t.Error(it, err)
			}
		}
		if taken := testing.AllocsPerRun(10, func() { _, _ = header.Unmarshal(it.buf) }); taken != 0 {
			t.Error(it, taken)
		}
	}
	padded := append([]byte{0xA0}, datagram[1:12]...)
	if err := new(rtp.Packet).Unmarshal(append(padded, 2)); err == nil || errors.Is(err, rtpwire.ErrNotAPacket) {
		t.Error(err)
	}
}

// What is read can be written: an element of the id 0 with length bits isn't taken, and those behind it are.
func TestElementsOfTheID0AreNotTaken(t *testing.T) {
	fixed := []byte{0x90, 96, 0, 5, 0, 0, 0, 160, 0, 0, 0, 7}
	buf := append(fixed[:12:12], 0xBE, 0xDE, 0, 3, 0x10, 0x8A, 0x02, 7, 8, 9, 0x20, 1, 0x01, 2, 3, 0)
	var header rtp.Header
	if _, err := header.Unmarshal(buf); err != nil || !reflect.DeepEqual(header.GetExtensionIDs(), []uint8{1, 2}) ||
		header.GetExtension(0) != nil || !bytes.Equal(header.GetExtension(2), []byte{1}) {
		t.Error(err, header)
	}
	if written, err := header.Marshal(); err != nil || !bytes.Equal(written[12:], []byte{0xBE, 0xDE, 0, 1, 0x10, 0x8A, 0x20, 1}) {
		t.Error(written, err)
	}
	random := rand.New(rand.NewSource(1))
	for i := 0; i < 20000; i++ {
		words := random.Intn(6)
		buf := append(fixed[:12:12], [][]byte{{0xBE, 0xDE}, {0x10, 0}, {0x10, 7}, {0xAB, 0xAC}}[i%4]...)
		buf = append(buf, 0, byte(words))
		for at := 0; at < 4*words; at++ {
			buf = append(buf, byte(random.Intn(4)<<(random.Intn(2)*4)|random.Intn(3)))
		}
		var again rtp.Header
		if _, err := header.Unmarshal(buf); err != nil {
			t.Fatal(err)
		}
		written, err := header.Marshal()
		if err != nil || len(written) > len(buf) {
			t.Fatalf("% X: % X, %v", buf, written, err)
		}
		if n, err := again.Unmarshal(written); n != len(written) || err != nil || len(header.Extensions) != len(again.Extensions) ||
			len(again.Extensions) != 0 && !reflect.DeepEqual(header, again) {
			t.Fatalf("% X: %v, %v", buf, again, err)
		}
	}
}
