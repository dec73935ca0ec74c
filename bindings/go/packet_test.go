package rtpwire_test

import (
	"bytes"
	"errors"
	"fmt"
	"os"
	"reflect"
	"strings"
	"testing"

	"rtp-wire.example/rtpwire"
)

// sample is V=2, P, X, CC=2; M, PT=33; 47,000; 10,000; 44; the sources 1 and 2; a block of two words in the one-byte
// form: 1 (AA), 2 (BB CC), 1 (DD), and padding; a payload of 3 bytes and 2 of padding.
func sample() []byte {
	return []byte{
		0xB2, 0xA1, 0xB7, 0x98, 0, 0, 0x27, 0x10, 0, 0, 0, 0x2C, 0, 0, 0, 1, 0, 0, 0, 2,
		0xBE, 0xDE, 0, 2, 0x10, 0xAA, 0x21, 0xBB, 0xCC, 0x10, 0xDD, 0, 1, 2, 3, 0, 2,
	}
}

func parsed(t *testing.T, datagram []byte, m *rtpwire.Map) *rtpwire.Packet {
	t.Helper()
	packet := new(rtpwire.Packet)
	if err := packet.Parse(datagram, m); err != nil {
		t.Fatal(err)
	}
	return packet
}

func same(t *testing.T, what string, got, wanted any) {
	t.Helper()
	if !reflect.DeepEqual(got, wanted) {
		t.Errorf("%s: %v, wanted %v", what, got, wanted)
	}
}

func TestPacketIsRead(t *testing.T) {
	packet := parsed(t, sample(), nil)
	same(t, "marker", packet.Marker(), true)
	same(t, "payload type", packet.PayloadType(), uint8(33))
	same(t, "sequence number", packet.SequenceNumber(), uint16(47000))
	same(t, "timestamp", packet.Timestamp(), uint32(10000))
	same(t, "SSRC", packet.SSRC(), uint32(44))
	same(t, "CSRC", packet.CSRC(), []uint32{1, 2})
	same(t, "P", packet.HasPadding(), true)
	same(t, "X", packet.HasExtension(), true)
	same(t, "header", packet.HeaderLen(), 32)
	same(t, "payload", packet.Payload(), []byte{1, 2, 3, 0, 2})
	unpadded, ok := packet.UnpaddedPayload()
	same(t, "unpadded", unpadded, []byte{1, 2, 3})
	same(t, "padding fits", ok, true)
	form, body := packet.Block()
	same(t, "form", form, rtpwire.OneByteForm)
	same(t, "body", body, sample()[24:32])
	same(t, "values", packet.Header().Values, rtpwire.Values{})
	same(t, "datagram", packet.Datagram(), sample())
}

func TestPacketWithoutParts(t *testing.T) {
	packet := parsed(t, []byte{0x80, 0, 0, 1, 0, 0, 0, 2, 0, 0, 0, 3}, rtpwire.StandardMap())
	same(t, "CSRC", len(packet.CSRC()), 0)
	same(t, "payload", packet.Payload(), []byte{})
	form, body := packet.Block()
	same(t, "form", form, rtpwire.NoBlock)
	same(t, "body", body, []byte{})
	same(t, "places", packet.AppendPlaces(nil), []rtpwire.Place(nil))
	_, ok := packet.Element(1)
	same(t, "an element", ok, false)

	// Nothing of an earlier packet stays.
	packet = parsed(t, sample(), rtpwire.StandardMap())
	if err := packet.Parse([]byte{0x80, 0, 0, 1, 0, 0, 0, 2, 0, 0, 0, 3}, rtpwire.StandardMap()); err != nil {
		t.Fatal(err)
	}
	same(t, "CSRC", len(packet.CSRC()), 0)
	same(t, "values", packet.Header().Values, rtpwire.Values{})
	same(t, "header", packet.HeaderLen(), 12)
}

func TestPaddingTooLong(t *testing.T) {
	datagram := sample()
	datagram[36] = 6
	if _, ok := parsed(t, datagram, nil).UnpaddedPayload(); ok {
		t.Error("6 bytes of padding in a payload of 5")
	}
}

func TestCauses(t *testing.T) {
	rows := []struct {
		cause    rtpwire.Cause
		datagram []byte
		name     string
	}{
		{rtpwire.CutFixedPart, nil, "CUT_FIXED_PART"},
		{rtpwire.CutFixedPart, sample()[:11], "CUT_FIXED_PART"},
		{rtpwire.OtherVersion, append([]byte{0x72}, sample()[1:]...), "OTHER_VERSION"},
		{rtpwire.CutSources, sample()[:19], "CUT_SOURCES"},
		{rtpwire.CutBlockHeader, sample()[:23], "CUT_BLOCK_HEADER"},
		{rtpwire.CutBlock, sample()[:31], "CUT_BLOCK"},
	}
	header, err := os.ReadFile("rtp_wire.h")
	if err != nil {
		t.Fatal(err)
	}
	for _, row := range rows {
		packet := parsed(t, sample(), nil)
		before := *packet
		err := packet.Parse(row.datagram, nil)
		if !errors.Is(err, row.cause) || !errors.Is(err, rtpwire.ErrNotAPacket) {
			t.Errorf("%s: %v", row.name, err)
		}
		for _, other := range rows {
			if other.cause != row.cause && errors.Is(err, other.cause) {
				t.Errorf("%s is %s too", row.name, other.name)
			}
		}
		same(t, "the packet after "+row.name, *packet, before)
		text := strings.TrimPrefix(err.Error(), "rtpwire: ")
		if !strings.Contains(string(header), `case RTPW_`+row.name+`: return "`+text+`";`) {
			t.Errorf("%s: %q", row.name, err.Error())
		}
	}
	if errors.Is(rtpwire.ErrShortBuffer, rtpwire.ErrNotAPacket) {
		t.Error("a short buffer is no packet")
	}
}

func TestVersion(t *testing.T) {
	header, err := os.ReadFile("rtp_wire.h")
	if err != nil {
		t.Fatal(err)
	}
	for _, line := range []string{
		fmt.Sprintf("#define RTPW_VERSION %q\n", rtpwire.Version),
		fmt.Sprintf("#define RTPW_VERSION_NUMBER %d\n", rtpwire.LibraryVersion()),
	} {
		same(t, line, strings.Contains(string(header), line), true)
	}
}

func TestElements(t *testing.T) {
	packet := parsed(t, sample(), nil)
	var data [][]byte
	var ids []uint8
	for _, place := range packet.AppendPlaces(nil) {
		ids = append(ids, place.ID)
		data = append(data, packet.Data(place))
	}
	same(t, "ids", ids, []uint8{1, 2, 1})
	same(t, "data", data, [][]byte{{0xAA}, {0xBB, 0xCC}, {0xDD}})
	last, ok := packet.Element(1)
	same(t, "the last of the id 1", last, []byte{0xDD})
	same(t, "there is one", ok, true)
	_, ok = packet.Element(3)
	same(t, "one of the id 3", ok, false)

	// 300 elements of an audio level each: as many at once as there is room for, and those before them stay.
	datagram := append([]byte{0x90, 0, 0, 1, 0, 0, 0, 2, 0, 0, 0, 3, 0xBE, 0xDE, 0, 150}, bytes.Repeat([]byte{0x50, 7}, 300)...)
	for _, room := range []int{0, 1, 2, 299, 300, 301, 1000} {
		first := rtpwire.Place{ID: 9, At: 8, Len: 7}
		places := parsed(t, datagram, nil).AppendPlaces(append(make([]rtpwire.Place, 0, room+1), first))
		same(t, "places", len(places), 301)
		same(t, "the one before them", places[0], first)
		for at, place := range places[1:] {
			if place.ID != 5 || place.At != 2*at+1 || place.Len != 1 {
				t.Fatalf("room %d: %v is %v", room, at, place)
			}
		}
	}
}

// camera is what a camera sends of a recording (ONVIF, streaming specification): after 0xABAC and the length 3 the
// seconds and the fraction of an NTP time, C, E and D in the top bits of a byte, CSeq, and two bytes of padding.
func camera() []byte {
	return []byte{
		0x90, 0xE0, 0, 5, 0, 1, 0x5F, 0x90, 0, 0, 0, 0x2C, 0xAB, 0xAC, 0, 3, 0xE5, 0x8B, 0x3C, 0x40,
		0x80, 0, 0, 0, 0xE0, 7, 0, 0, 0x41, 0x42, 0x43,
	}
}

func TestOtherForms(t *testing.T) {
	for _, profile := range []uint16{0xABAC, 0xC0DE, 0xC2DE, 0, 0x0FFF, 0x1010, 0xBEDF, 0xFFFF} {
		datagram := camera()
		datagram[12], datagram[13] = byte(profile>>8), byte(profile)
		packet := parsed(t, datagram, rtpwire.StandardMap())
		form, body := packet.Block()
		same(t, "form", form, rtpwire.OtherForm)
		same(t, "body", body, datagram[16:28])
		same(t, "profile", packet.BlockProfile(), profile)
		same(t, "values", packet.Header().Values, rtpwire.Values{})
		same(t, "places", packet.AppendPlaces(nil), []rtpwire.Place(nil))
		_, ok := packet.Element(14)
		same(t, "an element", ok, false)
		same(t, "marker", packet.Marker(), true)
		same(t, "payload type", packet.PayloadType(), uint8(96))
		same(t, "sequence number", packet.SequenceNumber(), uint16(5))
		same(t, "timestamp", packet.Timestamp(), uint32(90000))
		same(t, "SSRC", packet.SSRC(), uint32(44))
		same(t, "X", packet.HasExtension(), true)
		same(t, "header", packet.HeaderLen(), 28)
		same(t, "payload", packet.Payload(), []byte{0x41, 0x42, 0x43})
		for length, cause := range map[int]rtpwire.Cause{15: rtpwire.CutBlockHeader, 27: rtpwire.CutBlock} {
			before := *packet
			if err := packet.Parse(datagram[:length], nil); !errors.Is(err, cause) {
				t.Errorf("%04X, %d bytes: %v", profile, length, err)
			}
			same(t, "the packet after that", *packet, before)
		}
	}
	same(t, "profile of a form", parsed(t, sample(), nil).BlockProfile(), uint16(0xBEDE))
	same(t, "form", rtpwire.OtherForm.String(), "other form")

	// With sources, and where X is clear.
	datagram := append([]byte{0xB2}, camera()[1:12]...)
	datagram = append(append(datagram, 0, 0, 0, 1, 0, 0, 0, 2), camera()[12:]...)
	packet := parsed(t, datagram, nil)
	same(t, "CSRC", packet.CSRC(), []uint32{1, 2})
	same(t, "P", packet.HasPadding(), true)
	same(t, "header", packet.HeaderLen(), 36)
	datagram[0] = 0x82
	same(t, "no profile", parsed(t, datagram, nil).BlockProfile(), uint16(0))

	// A receiver takes them.
	var receiver rtpwire.Receiver
	number, err := receiver.ReceivePacket(camera(), nil, packet)
	same(t, "number", number, uint64(5))
	same(t, "error", err, nil)
	_, err = receiver.ReceivePacket(camera(), nil, packet)
	same(t, "a replay", err, rtpwire.ErrRefused)
	layers := rtpwire.Layers{}
	same(t, "no layers", layers.Parse(camera(), rtpwire.StandardMap()), nil)
	same(t, "streams", len(layers.Streams()), 0)
}

func TestRTCP(t *testing.T) {
	// version 2 is 0x80 to 0xBF of the first byte; the packet types of RTCP are 192 to 223
	found := 0
	for high := 0; high < 256; high++ {
		same(t, "one byte", rtpwire.IsRTCP([]byte{byte(high)}), false)
		for low := 0; low < 256; low++ {
			if rtpwire.IsRTCP([]byte{byte(high), byte(low)}) {
				found++
				if high < 0x80 || high > 0xBF || low < 0xC0 || low > 0xDF {
					t.Errorf("%02X %02X", high, low)
				}
			}
		}
	}
	same(t, "how many pairs", found, 64*32)
	same(t, "none", rtpwire.IsRTCP(nil), false)
}

// A packet and a header say in a line what they are, by value and by pointer, and a zero one and nil too.
func TestPacketsInALine(t *testing.T) {
	packet := parsed(t, sample(), nil)
	const fields = "SSRC 44, payload type 33, number 47000, timestamp 10000"
	var none *rtpwire.Packet
	changed := packet.Header()
	changed.SSRC = 7
	written := rtpwire.NewHeader(rtpwire.Values{})
	written.PayloadType, written.SequenceNumber, written.Timestamp, written.SSRC = 127, 65535, 1<<32-1, 1<<32-1
	shortest := parsed(t, []byte{0x80, 33, 0, 5, 0, 0, 0, 160, 0, 0, 0, 7}, nil)
	same(t, "lines", []string{
		packet.String(), fmt.Sprint(packet), fmt.Sprintf("%v", *packet), fmt.Sprint(packet.Header()), fmt.Sprint(*packet.Header()),
		changed.String(), written.String(), fmt.Sprint(rtpwire.Packet{}), fmt.Sprint(none),
		shortest.String(), shortest.Header().String(),
	}, []string{
		fields + ", header 32 bytes, payload 5 bytes", fields + ", header 32 bytes, payload 5 bytes",
		fields + ", header 32 bytes, payload 5 bytes", fields + ", header 32 bytes", fields + ", header 32 bytes",
		"SSRC 7" + fields[len("SSRC 44"):] + ", header 32 bytes",
		"SSRC 4294967295, payload type 127, number 65535, timestamp 4294967295",
		"SSRC 0, payload type 0, number 0, timestamp 0, payload 0 bytes", "<nil>",
		"SSRC 7, payload type 33, number 5, timestamp 160, header 12 bytes, payload 0 bytes",
		"SSRC 7, payload type 33, number 5, timestamp 160, header 12 bytes",
	})
}

func TestPeekSSRC(t *testing.T) {
	for length := 0; length < 12; length++ {
		if _, ok := rtpwire.PeekSSRC(sample()[:length]); ok {
			t.Errorf("an SSRC of %d bytes", length)
		}
	}
	ssrc, ok := rtpwire.PeekSSRC([]byte{0x80, 0, 0, 1, 0, 0, 0, 2, 0xFE, 0xDC, 0xBA, 0x98})
	same(t, "SSRC", ssrc, uint32(0xFEDCBA98))
	same(t, "there is one", ok, true)
	for what, datagram := range map[string][]byte{
		"of version 1":            {0x40, 0, 0, 1, 0, 0, 0, 2, 0, 0, 0, 3},
		"with a source cut short": {0x81, 0, 0, 1, 0, 0, 0, 2, 0, 0, 0, 3, 0, 0, 4},
		"with a block cut short":  {0x90, 0, 0, 1, 0, 0, 0, 2, 0, 0, 0, 3, 0xBE, 0xDE, 0, 1, 0x10, 0x8A},
		"that is a whole payload": []byte("twelve bytes"),
	} {
		ssrc, ok := rtpwire.PeekSSRC(datagram)
		same(t, what, []any{ssrc, ok}, []any{uint32(0), false})
	}
	for second := 0; second < 256; second++ {
		datagram := sample()
		datagram[1] = byte(second)
		ssrc, ok := rtpwire.PeekSSRC(datagram)
		if 192 <= second && second <= 223 {
			same(t, "of RTCP", []any{ssrc, ok}, []any{uint32(0), false})
		} else {
			same(t, "of RTP", []any{ssrc, ok}, []any{uint32(44), true})
		}
	}
}

func FuzzParse(f *testing.F) {
	f.Add(sample())
	f.Add([]byte{0x90, 0, 0, 1, 0, 0, 0, 2, 0, 0, 0, 3, 0x10, 0, 0, 1, 4, 1, 7, 0})
	m := rtpwire.StandardMap()
	f.Fuzz(func(t *testing.T, datagram []byte) {
		var packet rtpwire.Packet
		err := packet.Parse(datagram, m)
		if err != nil {
			if !errors.Is(err, rtpwire.ErrNotAPacket) {
				t.Fatal(err)
			}
			return
		}
		if ssrc, ok := rtpwire.PeekSSRC(datagram); ok == rtpwire.IsRTCP(datagram) || ok && ssrc != packet.SSRC() {
			t.Fatal("SSRC")
		}
		if packet.HeaderLen()+len(packet.Payload()) != len(datagram) {
			t.Fatal("the parts are not the whole")
		}
		last := make(map[uint8][]byte)
		for _, place := range packet.AppendPlaces(nil) {
			last[place.ID] = packet.Data(place)
		}
		for id := 0; id < 256; id++ {
			data, ok := packet.Element(uint8(id))
			wanted, is := last[uint8(id)]
			if ok != is || !bytes.Equal(data, wanted) {
				t.Fatalf("the last element of the id %d", id)
			}
		}
		packet.UnpaddedPayload()
	})
}

// A Packet that has read nothing has no datagram, also where it was given bytes that are no packet.
func TestNothingIsRead(t *testing.T) {
	var packet rtpwire.Packet
	for _, datagram := range [][]byte{sample()[:11], sample()[:31]} {
		same(t, "no packet", packet.Parse(datagram, nil) != nil, true)
		same(t, "as before", packet, rtpwire.Packet{})
	}
}

// A header of a Packet is a copy: what is changed in it changes no other, and not the packet.
func TestHeaderIsACopy(t *testing.T) {
	packet := parsed(t, sample(), nil)
	header := packet.Header()
	*header = *parsed(t, camera(), nil).Header()
	same(t, "sources", header.SetCSRC([]uint32{7, 8, 9}), nil)
	header.Values.SetTransportNumber(7)
	_, has := packet.Values().TransportNumber()
	same(t, "fields", []any{packet.SSRC(), packet.CSRC(), packet.HeaderLen(), has}, []any{uint32(44), []uint32{1, 2}, 32, false})
	same(t, "another", *packet.Header(), *parsed(t, sample(), nil).Header())
}

// Where there are no elements, room for one place is enough.
func TestRoomForOnePlace(t *testing.T) {
	packet := parsed(t, []byte{0x90, 0, 0, 1, 0, 0, 0, 2, 0, 0, 0, 3, 0xBE, 0xDE, 0, 1, 0, 0, 0, 0}, nil)
	room := make([]rtpwire.Place, 0, 1)
	taken := testing.AllocsPerRun(100, func() {
		room = packet.AppendPlaces(room)
	})
	same(t, "no memory", []any{taken, len(room), cap(room)}, []any{0.0, 0, 1})
}

func TestEachCountOfSources(t *testing.T) {
	var fields rtpwire.PacketFields
	for count := 0; count <= 15; count++ {
		datagram := append([]byte{0x80 | byte(count), 0, 0, 1, 0, 0, 0, 2, 0, 0, 0, 3}, make([]byte, 4*count)...)
		same(t, "parsed", fields.Parse(datagram), nil)
		same(t, "sources", []int{fields.CSRCCount(), fields.HeaderLen()}, []int{count, len(datagram)})
	}
}

// The fields alone are those of a whole packet, and where it is none nothing changes.
func TestFieldsAlone(t *testing.T) {
	var fields rtpwire.PacketFields
	for length := 0; length <= len(sample()); length++ {
		datagram, before := sample()[:length], fields
		var packet rtpwire.Packet
		err := packet.Parse(datagram, nil)
		same(t, "error", fields.Parse(datagram), err)
		if err != nil {
			same(t, "fields", fields, before)
			continue
		}
		same(t, "number", fields.SequenceNumber, packet.SequenceNumber())
		same(t, "timestamp", fields.Timestamp, packet.Timestamp())
		same(t, "SSRC", fields.SSRC, packet.SSRC())
		same(t, "payload type", fields.PayloadType, packet.PayloadType())
		same(t, "marker", fields.Marker, packet.Marker())
		same(t, "padding", fields.HasPadding, packet.HasPadding())
		same(t, "payload", string(fields.Payload(datagram)), string(packet.Payload()))
		same(t, "room", cap(fields.Payload(datagram)), len(packet.Payload()))
		var place rtpwire.Place
		var places []rtpwire.Place
		for fields.NextPlace(&place, datagram) {
			places = append(places, place)
		}
		same(t, "places", places, packet.AppendPlaces(nil))
		same(t, "places at once", fields.AppendPlaces(nil, datagram), packet.AppendPlaces(nil))
		form, body := fields.Block(datagram)
		wantedForm, wantedBody := packet.Block()
		same(t, "block", []any{form, string(body), fields.BlockProfile()}, []any{wantedForm, string(wantedBody), packet.BlockProfile()})
		same(t, "room behind the block", cap(body), len(body))
		same(t, "header", []int{fields.HeaderLen(), fields.CSRCCount()}, []int{packet.HeaderLen(), len(packet.CSRC())})
		unpadded, ok := fields.UnpaddedPayload(datagram)
		wantedUnpadded, wantedOK := packet.UnpaddedPayload()
		same(t, "unpadded", []any{string(unpadded), ok}, []any{string(wantedUnpadded), wantedOK})
	}
}

// The last element is found where no padding follows it, and where it is as short as one can be: one byte of data behind its
// header in the one-byte form, and none in the two-byte form (RFC 8285, 4.2 and 4.3).
func TestLastPlaceWithoutPadding(t *testing.T) {
	fixed := []byte{0x90, 96, 0, 5, 0, 0, 0, 160, 0, 0, 0, 7}
	for _, it := range []struct {
		block  []byte
		wanted [][3]int // the id, and where the data begin and how many they are
	}{
		{[]byte{0xBE, 0xDE, 0, 1, 0x10, 0xAA, 0x20, 0xBB}, [][3]int{{1, 1, 1}, {2, 3, 1}}},
		{[]byte{0xBE, 0xDE, 0, 1, 0x12, 1, 2, 3}, [][3]int{{1, 1, 3}}},
		{[]byte{0x10, 0, 0, 1, 5, 0, 6, 0}, [][3]int{{5, 2, 0}, {6, 4, 0}}},
		{[]byte{0x10, 0, 0, 1, 0, 5, 1, 9}, [][3]int{{5, 3, 1}}},
	} {
		datagram := append(fixed[:12:12], it.block...)
		var fields rtpwire.PacketFields
		same(t, "read", fields.Parse(datagram), nil)
		var place rtpwire.Place
		var places [][3]int
		for fields.NextPlace(&place, datagram) {
			places = append(places, [3]int{int(place.ID), place.At, place.Len})
		}
		same(t, "places", places, it.wanted)
	}
}
