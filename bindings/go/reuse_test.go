package rtpwire_test

import (
	"bytes"
	"errors"
	"testing"
	"time"

	"rtp-wire.example/rtpwire"
)

// plain is a packet without sources, block or padding.
func plain(number uint16) []byte {
	return []byte{0x80, 96, byte(number >> 8), byte(number), 0, 0, 0, 1, 0, 0, 0, 7, 'h', 'i'}
}

// A value that is used again is as one that is new.
func TestNothingOfTheLastPacketStays(t *testing.T) {
	m := everyKind(t)
	mixed := []byte{0x82, 96, 0, 5, 0, 0, 0, 1, 0, 0, 0, 7, 0, 0, 0, 8, 0, 0, 0, 9, 'h', 'i'}
	datagrams := [][]byte{everyValue, sample(), camera(), plain(5), mixed}
	for _, first := range datagrams {
		for _, second := range datagrams {
			packet, fresh := parsed(t, first, m), parsed(t, second, m)
			same(t, "parsed", packet.Parse(second, m), nil)
			same(t, "again", packet, fresh)
			var layers, none rtpwire.Layers
			same(t, "parsed", []error{layers.Parse(first, m), layers.Parse(second, m), none.Parse(second, m)}, []error{nil, nil, nil})
			same(t, "layers again", layers, none)
		}
	}
	packet := parsed(t, everyValue, m)
	same(t, "parsed", packet.Parse(everyValue, nil), nil)
	same(t, "without a map", packet.Header().Values, rtpwire.Values{})
}

// What was lent stays, whatever the Packet reads next, and what it read stays, whatever becomes of the datagram.
func TestDatagramsAreChangedAndGivenBack(t *testing.T) {
	m := everyKind(t)
	datagram := append([]byte(nil), everyValue...)
	packet := parsed(t, datagram, m)
	payload, header := packet.Payload(), packet.Header()
	element, _ := packet.Element(12)
	same(t, "parsed", packet.Parse(plain(5), m), nil)
	same(t, "lent", []any{string(payload), string(element)}, []any{"p", "audio_1"})
	for at := range datagram {
		datagram[at] = 0xFF
	}
	mid, _ := header.Values.MID()
	same(t, "copied", []any{mid, header.SSRC, string(payload)}, []any{"audio_1", uint32(3), "\xFF"})
	same(t, "the next", []any{string(packet.Payload()), packet.SSRC()}, []any{"hi", uint32(7)})
}

func TestShortTextsAfterLongOnes(t *testing.T) {
	var used, fresh rtpwire.Values
	same(t, "long", []error{used.SetMID("0123456789abcdef"), used.SetRID("01234567"), used.SetRepairedRID("abcdefgh")}, []error{nil, nil, nil})
	for _, v := range []*rtpwire.Values{&used, &fresh} {
		same(t, "short", []error{v.SetMID("a"), v.SetRID(""), v.SetRepairedRID("bc")}, []error{nil, nil, nil})
	}
	same(t, "values", used, fresh)
	mid, ok := used.MID()
	rid, has := used.RID()
	same(t, "texts", []any{mid, ok, rid, has}, []any{"a", true, "", true})
}

// there is whether each value is there, by its kind; of two in an element whether one of them is.
func there(v *rtpwire.ReadValues) map[rtpwire.Kind]bool {
	is := make(map[rtpwire.Kind]bool)
	_, is[rtpwire.KindAbsSendTime] = v.SendTime()
	_, captured := v.CaptureTime()
	_, offset := v.CaptureOffset()
	is[rtpwire.KindAbsCaptureTime] = captured || offset
	_, _, is[rtpwire.KindAudioLevel] = v.AudioLevel()
	_, is[rtpwire.KindTransmissionOffset] = v.TransmissionOffset()
	_, is[rtpwire.KindVideoOrientation] = v.VideoOrientation()
	_, is[rtpwire.KindTransportNumber] = v.TransportNumber()
	_, _, is[rtpwire.KindPlayoutDelay] = v.PlayoutDelay()
	_, is[rtpwire.KindVideoContentType] = v.VideoContentType()
	_, is[rtpwire.KindVideoTiming] = v.VideoTiming()
	_, is[rtpwire.KindRID] = v.RID()
	_, is[rtpwire.KindRepairedRID] = v.RepairedRID()
	_, is[rtpwire.KindMID] = v.MID()
	_, is[rtpwire.KindFrameMarking] = v.FrameMarking()
	is[rtpwire.KindLayers] = v.HasLayers()
	return is
}

// Each value is taken away by its kind alone, and written no more.
func TestClear(t *testing.T) {
	m := everyKind(t)
	for kind := 0; kind < 256; kind++ {
		header := parsed(t, everyValue, m).Header()
		before := there(&header.Values.ReadValues)
		same(t, "all", len(before), 14)
		for it, is := range before {
			same(t, it.String(), is, true)
		}
		header.Values.Clear(rtpwire.Kind(kind))
		for it, is := range there(&header.Values.ReadValues) {
			same(t, it.String()+" without "+rtpwire.Kind(kind).String(), is, it != rtpwire.Kind(kind))
		}
		buf := make([]byte, 200)
		n, err := header.WriteInto(buf, m)
		same(t, "written", err, nil)
		again := parsed(t, buf[:n], m)
		for it, is := range there(again.Values()) {
			same(t, it.String()+" as written", is, it != rtpwire.Kind(kind) && it != rtpwire.KindLayers)
		}
	}
	// A level without its voice, and a delay without one of its times, is none.
	var v rtpwire.Values
	v.SetAudioLevel(-1, true)
	v.Clear(rtpwire.KindAudioLevel)
	_, err := v.DataOf(rtpwire.KindAudioLevel, make([]byte, 20))
	same(t, "no level", err, rtpwire.ErrNotFound)
}

// A value is told as it was set, to the nanosecond and the bit, and in each order.
func TestValuesAreToldAsTheyWereSet(t *testing.T) {
	var v rtpwire.Values
	v.SetPlayoutDelay(1500*time.Microsecond+1, time.Hour)
	least, most, ok := v.PlayoutDelay()
	same(t, "delay", []any{least, most, ok}, []any{1500001 * time.Nanosecond, time.Hour, true})
	v.SetCaptureOffset(7)
	v.SetCaptureTime(1 << 63)
	offset, ok := v.CaptureOffset()
	captured, has := v.CaptureTime()
	same(t, "capture", []any{offset, ok, captured, has}, []any{int64(7), true, uint64(1 << 63), true})
	timing := rtpwire.VideoTiming{Flags: 0xFE, EncodeStart: 0x8001, EncodeFinish: 0x8002, PacketizeComplete: 0x8003, LastLeftPacer: 0x8004}
	v.SetVideoTiming(timing)
	told, ok := v.VideoTiming()
	same(t, "timing", []any{told, ok}, []any{timing, true})
	v.SetAudioLevel(-127, false)
	level, voice, ok := v.AudioLevel()
	same(t, "level", []any{level, voice, ok}, []any{int8(-127), false, true})
	v.SetSendTime(1<<64 - 1)
	v.SetTransmissionOffset(1<<32 - 1)
	v.SetFrameMarking(1<<32 - 2)
	v.SetTransportNumber(65535)
	v.SetVideoContentType(255)
	v.SetVideoOrientation(90)
	sent, _ := v.SendTime()
	ticks, _ := v.TransmissionOffset()
	marking, _ := v.FrameMarking()
	number, _ := v.TransportNumber()
	content, _ := v.VideoContentType()
	degrees, _ := v.VideoOrientation()
	same(t, "numbers", []any{sent, ticks, marking, number, content, degrees},
		[]any{uint64(1<<64 - 1), uint32(1<<32 - 1), uint32(1<<32 - 2), uint16(65535), uint8(255), uint16(90)})
	for _, degrees := range []uint16{1, 45, 89, 91, 271, 360, 450, 65535} {
		v.SetVideoOrientation(degrees)
		told, ok := v.VideoOrientation()
		same(t, "orientation", []any{told, ok}, []any{degrees, true})
		_, err := (&rtpwire.Header{Values: v}).WireLen(nil)
		same(t, "none of the four", err, rtpwire.ErrBadField)
	}
	var layer rtpwire.Layer
	for _, resolution := range []rtpwire.Resolution{{Width: 65535, Height: 1}, {Width: 1, Height: 65535, Framerate: 255}, {}} {
		layer.SetResolution(resolution)
		read, ok := layer.Resolution()
		same(t, "resolution", []any{read, ok}, []any{resolution, true})
	}
}

// 0, false and nothing are values, and are read and written as such.
func TestZerosAreThere(t *testing.T) {
	m := everyKind(t)
	header := rtpwire.Header{HasExtension: true}
	v := &header.Values
	v.SetSendTime(0)
	v.SetCaptureTime(0)
	v.SetCaptureOffset(0)
	v.SetAudioLevel(0, false)
	v.SetTransmissionOffset(0)
	v.SetVideoOrientation(0)
	v.SetTransportNumber(0)
	v.SetPlayoutDelay(0, 0)
	v.SetVideoContentType(0)
	v.SetVideoTiming(rtpwire.VideoTiming{})
	v.SetFrameMarking(0)
	same(t, "texts", []error{v.SetMID(""), v.SetRID(""), v.SetRepairedRID("")}, []error{nil, nil, nil})
	buf := make([]byte, 200)
	n, err := header.WriteInto(buf, m)
	// The two-byte form, for the texts: 14 elements of 2 bytes, and 3 + 16 + 1 + 4 + 1 + 2 + 3 + 1 + 13 + 4 of data
	// are 74, and 2 of padding.
	same(t, "written", []any{n, err}, []any{16 + 76, nil})
	packet := parsed(t, buf[:n], m)
	for it, is := range there(packet.Values()) {
		same(t, it.String(), is, it != rtpwire.KindLayers)
	}
	level, voice, _ := packet.Values().AudioLevel()
	least, most, _ := packet.Values().PlayoutDelay()
	offset, _ := packet.Values().CaptureOffset()
	timing, _ := packet.Values().VideoTiming()
	mid, _ := packet.Values().MID()
	same(t, "zeros", []any{level, voice, least, most, offset, timing, mid},
		[]any{int8(0), false, time.Duration(0), time.Duration(0), int64(0), rtpwire.VideoTiming{}, ""})

	// A timestamp of 0 is set, and a field that isn't given stays.
	datagram := sample()
	var fields rtpwire.Fields
	fields.SetTimestamp(0)
	same(t, "set", fields.Apply(datagram), nil)
	same(t, "header", datagram[:12], []byte{0xB2, 0xA1, 0xB7, 0x98, 0, 0, 0, 0, 0, 0, 0, 0x2C})
	fields = rtpwire.Fields{}
	fields.SetSSRC(0)
	fields.SetSequenceNumber(0)
	fields.SetPayloadType(0)
	same(t, "set", fields.Apply(datagram), nil)
	same(t, "header", datagram[:12], []byte{0xB2, 0x80, 0, 0, 0, 0, 0, 0, 0, 0, 0, 0})
	fields.SetMarker(false)
	fields.SetSSRC(9)
	same(t, "set", fields.Apply(datagram), nil)
	same(t, "header", datagram[:12], []byte{0xB2, 0, 0, 0, 0, 0, 0, 0, 0, 0, 0, 9})
	fields = rtpwire.Fields{}
	fields.SetMarker(true)
	same(t, "set", fields.Apply(datagram), nil)
	same(t, "M", datagram[1], byte(0x80))
}

func TestElementsAndBodiesOfNoBytes(t *testing.T) {
	// In the two-byte form an element of the id 1 without data, and one of the id 2 with one byte.
	datagram := []byte{0x90, 0, 0, 1, 0, 0, 0, 2, 0, 0, 0, 3, 0x10, 0, 0, 2, 1, 0, 2, 1, 9, 0, 0, 0}
	packet := parsed(t, datagram, nil)
	data, ok := packet.Element(1)
	same(t, "element", []any{len(data), ok}, []any{0, true})
	data, ok = packet.Element(3)
	same(t, "none", []any{data == nil, ok}, []any{true, false})
	places := packet.AppendPlaces(nil)
	same(t, "places", len(places), 2)
	same(t, "of no bytes", []any{places[0].ID, places[0].At, places[0].Len, len(packet.Data(places[0]))}, []any{uint8(1), 2, 0, 0})
	same(t, "behind it", []any{places[1].ID, places[1].At, places[1].Len, packet.Data(places[1])}, []any{uint8(2), 4, 1, []byte{9}})
	same(t, "set", []error{rtpwire.SetElement(datagram, 1, nil), rtpwire.SetElement(datagram, 1, []byte{}),
		rtpwire.SetElement(datagram, 2, nil)}, []error{nil, nil, rtpwire.ErrNotFound})
	buf := append(plain(5), make([]byte, 10)...)
	grown, err := rtpwire.PutElementIn(buf, 14, 7, nil, rtpwire.AnyForm)
	same(t, "put", []any{grown, err}, []any{append([]byte{0x90, 96, 0, 5, 0, 0, 0, 1, 0, 0, 0, 7, 0x10, 0, 0, 1, 7, 0, 0, 0}, 'h', 'i'), nil})

	// A block of no words has a form, and no body.
	packet = parsed(t, []byte{0x90, 0, 0, 1, 0, 0, 0, 2, 0, 0, 0, 3, 0xBE, 0xDE, 0, 0, 7}, everyKind(t))
	form, body := packet.Block()
	same(t, "block", []any{form, len(body), packet.HasExtension(), packet.HeaderLen()}, []any{rtpwire.OneByteForm, 0, true, 16})
	same(t, "elements", []any{len(packet.AppendPlaces(nil)), *packet.Values()}, []any{0, rtpwire.ReadValues{}})
	same(t, "payload", packet.Payload(), []byte{7})
	unpadded, ok := packet.UnpaddedPayload()
	same(t, "unpadded", []any{unpadded, ok}, []any{[]byte{7}, true})
	form, body = parsed(t, plain(1), nil).Block()
	same(t, "no block", []any{form, len(body)}, []any{rtpwire.NoBlock, 0})
}

// What a refused packet leaves, and bytes that are no packet, in each kind of receiver.
func TestWhatReceiversLeave(t *testing.T) {
	plainReceiver, err := rtpwire.NewReceiver(1)
	same(t, "made", err, nil)
	wideReceiver, restarting := wide(t, 2, 1), new(rtpwire.RestartingReceiver)
	type call = func([]byte, *rtpwire.Map, *rtpwire.Packet) (uint64, error)
	judge := func(datagram []byte, m *rtpwire.Map, p *rtpwire.Packet) (uint64, error) {
		number, verdict, err := restarting.ReceivePacket(datagram, m, p)
		if err == nil && verdict == rtpwire.Refused {
			err = rtpwire.ErrRefused
		}
		return number, err
	}
	number := uint64(65541)
	rows := []struct {
		what           string
		receive, check call
		state          func() any
		refused        uint64 // the number that a refused check tells
	}{
		{"receiver", plainReceiver.ReceivePacket, plainReceiver.CheckPacket, func() any { return *plainReceiver }, number},
		{"wide", wideReceiver.ReceivePacket, wideReceiver.CheckPacket, func() any { return wideReceiver.Accepts(number) }, number},
		{"restarting", judge, nil, func() any { return *restarting }, 0},
	}
	// A packet's number is that of its header, whatever else the header has.
	padded := append([]byte{0xA0}, plain(9)[1:]...)
	told, _, err := new(rtpwire.RestartingReceiver).ReceivePacket(append(padded, 1), nil, new(rtpwire.Packet))
	same(t, "with padding", []any{told, err}, []any{uint64(65545), nil})
	m := everyKind(t)
	for _, row := range rows {
		packet := parsed(t, everyValue, m)
		before := *packet
		cut := [][]byte{nil, plain(5)[:11], sample()[:31], camera()[:27]}
		for _, datagram := range cut {
			for _, call := range []call{row.receive, row.check} {
				if call != nil {
					state := row.state()
					told, err := call(datagram, m, packet)
					same(t, row.what+", no packet", []any{told, errors.Is(err, rtpwire.ErrNotAPacket), *packet, row.state()},
						[]any{uint64(0), true, before, state})
				}
			}
		}
		if row.check != nil {
			state := row.state()
			told, err := row.check(plain(5), m, packet)
			same(t, row.what+", checked", []any{told, err, packet, row.state()}, []any{number, nil, parsed(t, plain(5), m), state})
		}
		told, err := row.receive(plain(5), m, packet)
		same(t, row.what+", taken", []any{told, err}, []any{number, nil})
		// The replay has other bytes: they are read, and nothing is taken.
		replay := append(append([]byte(nil), everyValue...), 'x')
		replay[3] = 5
		for _, call := range []call{row.receive, row.check} {
			if call != nil {
				same(t, "parsed", packet.Parse(sample(), m), nil)
				state := row.state()
				told, err = call(replay, m, packet)
				same(t, row.what+", refused", []any{err, packet, row.state()}, []any{rtpwire.ErrRefused, parsed(t, replay, m), state})
			}
		}
		same(t, row.what+", the number", told, row.refused)
		told, err = row.receive(plain(6), m, packet)
		same(t, row.what+", the next", []any{told, err}, []any{number + 1, nil})
	}
}

// Buffers of no bytes are as buffers of none.
func TestNil(t *testing.T) {
	var packet rtpwire.Packet
	var fields rtpwire.Fields
	for _, none := range [][]byte{nil, {}} {
		for what, err := range map[string]error{
			"parse": packet.Parse(none, nil), "fields": fields.Apply(none), "csrc": rtpwire.SetCSRCAt(none, 0, 1),
			"set": rtpwire.SetElement(none, 1, none), "remove": rtpwire.RemoveElement(none, 1),
			"padding": rtpwire.SetPadding(none, true), "renumber": rtpwire.Renumber(none, new(rtpwire.NewIDs)),
		} {
			same(t, what, err, rtpwire.CutFixedPart)
		}
		refused := func(what string, made []byte, err error) {
			t.Helper()
			same(t, what, []any{made, err}, []any{[]byte(nil), rtpwire.CutFixedPart})
		}
		made, err := rtpwire.PutElementIn(none, 0, 1, none, rtpwire.AnyForm)
		refused("put", made, err)
		made, err = rtpwire.RemovePadding(none)
		refused("padding", made, err)
		made, err = rtpwire.ToRetransmissionIn(none, 0, 1, 2, 3, new(rtpwire.NewIDs))
		refused("sent again", made, err)
		made, err = rtpwire.FromRetransmissionIn(none, 0, 1, 2, new(rtpwire.NewIDs))
		refused("restored", made, err)
		made, err = rtpwire.Compact(none)
		refused("compact", made, err)
		_, err = new(rtpwire.Header).WriteInto(none, nil)
		same(t, "write", err, rtpwire.ErrShortBuffer)
		for _, places := range [][]rtpwire.Place{nil, {}} {
			n, err := rtpwire.WriteElements(none, rtpwire.TwoByteForm, none, places)
			same(t, "no elements", []any{n, err}, []any{0, nil})
		}
	}
	same(t, "a packet of none", bytes.Equal(packet.Datagram(), nil), true)
}

// Each bit of each number is written and read.
func TestNoBitIsLost(t *testing.T) {
	m := everyKind(t)
	datagram := plain(0)[:12]
	for bit := 0; bit < 64; bit++ {
		number := uint64(1) << bit
		word, half := uint32(1)<<(bit%32), uint16(1)<<(bit%16)
		var fields rtpwire.Fields
		fields.SetSSRC(^word) // which is set again
		fields.SetTimestamp(word)
		fields.SetSequenceNumber(^half)
		fields.SetPayloadType(200)
		fields.SetMarker(bit%2 != 0)
		fields.SetSSRC(word)
		fields.SetTimestamp(^word)
		fields.SetSequenceNumber(half)
		fields.SetPayloadType(uint8(half) & 127)
		fields.SetMarker(bit%2 == 0)
		same(t, "set", fields.Apply(datagram), nil)
		header := rtpwire.Header{SSRC: word, Timestamp: ^word, SequenceNumber: half, PayloadType: uint8(half) & 127, Marker: bit%2 == 0}
		same(t, "sources", header.SetCSRC([]uint32{word, ^word}), nil)
		buf := make([]byte, 200)
		n, err := header.WriteInto(buf, nil)
		same(t, "written", []any{n, err, buf[1:12], buf[0]}, []any{20, nil, datagram[1:], byte(0x82)})
		packet := parsed(t, buf[:n], nil)
		same(t, "read", []any{packet.SSRC(), packet.Timestamp(), packet.SequenceNumber(), packet.PayloadType(), packet.Marker(), packet.CSRC()},
			[]any{word, ^word, half, uint8(half) & 127, bit%2 == 0, []uint32{word, ^word}})
		ssrc, ok := rtpwire.PeekSSRC(datagram)
		if rtpwire.IsRTCP(datagram) {
			same(t, "no SSRC", []any{ssrc, ok}, []any{uint32(0), false})
		} else {
			same(t, "SSRC", []any{ssrc, ok}, []any{word, true})
		}

		header.HasExtension, header.HasPadding = true, bit%3 == 0
		v := &header.Values
		v.SetCaptureTime(number)
		v.SetCaptureOffset(int64(^number))
		v.SetTransmissionOffset(word)
		v.SetFrameMarking(^word)
		v.SetTransportNumber(half)
		v.SetVideoContentType(uint8(half))
		v.SetAudioLevel(-int8(half&127), bit%2 == 0)
		v.SetVideoTiming(rtpwire.VideoTiming{Flags: ^uint8(half), EncodeStart: half, EncodeFinish: ^half,
			PacketizeComplete: half<<1 | half>>15, LastLeftPacer: half<<2 | half>>14})
		n, err = header.WriteInto(buf, m)
		same(t, "written", err, nil)
		packet = parsed(t, buf[:n], m)
		same(t, "values", packet.Header().Values, header.Values)
		same(t, "P", packet.HasPadding(), bit%3 == 0)
	}
}

// When a packet is used again, the parts of the datagram that it lent stay, and what it lent of its own memory is that of
// the next packet.
func TestWhatWasLentByAPacketThatIsUsedAgain(t *testing.T) {
	m := everyKind(t)
	var packet rtpwire.Packet
	same(t, "read", packet.Parse(sample(), m), nil)
	_, body := packet.Block()
	element, _ := packet.Element(2)
	lent := [][]byte{packet.Datagram(), packet.Payload(), body, element}
	kept := []string{string(lent[0]), string(lent[1]), string(lent[2]), string(lent[3])}
	sources, values, header := packet.CSRC(), packet.Values(), packet.Header()
	same(t, "sources", []any{sources, header.CSRC()}, []any{[]uint32{1, 2}, []uint32{1, 2}})

	next := sample()
	next[15], next[19], next[24] = 8, 9, 0xF0 // the id 15, where reading ends
	same(t, "read", packet.Parse(next, m), nil)
	same(t, "parts of the datagram", []string{string(lent[0]), string(lent[1]), string(lent[2]), string(lent[3])}, kept)
	same(t, "of the packet", []any{sources, values == packet.Values()}, []any{[]uint32{8, 9}, true})
	same(t, "a copy", header.CSRC(), []uint32{1, 2})
}
