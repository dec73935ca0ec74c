package rtpwire_test

import (
	"bytes"
	"errors"
	"strings"
	"testing"
	"time"

	"rtp-wire.example/rtpwire"
)

// The ids 1 to 14 mean the kinds of the numbers 1 to 14, and 15 a layer allocation.
func everyKind(t *testing.T) *rtpwire.Map {
	m := new(rtpwire.Map)
	for kind := rtpwire.KindAbsSendTime; kind <= rtpwire.KindLayers; kind++ {
		if err := m.Set(uint8(kind), kind); err != nil {
			t.Fatal(err)
		}
	}
	return m
}

// everyValue is a block of the two-byte form with an element of each kind that has a value.
var everyValue = []byte{
	0x90, 0, 0, 1, 0, 0, 0, 2, 0, 0, 0, 3, 0x10, 0, 0, 24,
	1, 3, 0xA0, 0, 0, // 40 s: 40 * 2^18
	2, 16, 1, 2, 3, 4, 5, 6, 7, 8, 0xFF, 0xFF, 0xFF, 0xFF, 0xFF, 0xFF, 0xFF, 0xFE,
	3, 1, 0x8A, // -10 dB with voice
	4, 4, 0, 0, 1, 0, // 256 ticks
	5, 1, 1, // 270 degrees: 90 clockwise
	6, 2, 0x12, 0x34,
	7, 3, 0, 0x50, 0x64, // 5 and 100 hundredths
	8, 1, 1, // a screen
	9, 13, 1, 0, 10, 0, 20, 0, 30, 0, 40, 0, 0, 0, 0,
	10, 2, 'r', '1',
	11, 2, 'r', '2',
	12, 7, 'a', 'u', 'd', 'i', 'o', '_', '1',
	13, 4, 0xDE, 0xAD, 0xBE, 0xEF,
	15, 8, 1, 0, 5, 1, 0x3F, 0, 0xEF, 30, // a stream of a layer of 5 kbps, 320 by 240, 30 frames
	0,
	'p',
}

func TestEveryValueIsRead(t *testing.T) {
	packet := parsed(t, everyValue, everyKind(t))
	same(t, "payload", packet.Payload(), []byte("p"))
	v := packet.Values()
	sendTime, ok := v.SendTime()
	same(t, "send time", []any{sendTime, ok}, []any{uint64(40_000_000), true})
	captureTime, ok := v.CaptureTime()
	same(t, "capture time", []any{captureTime, ok}, []any{uint64(0x0102030405060708), true})
	offset, ok := v.CaptureOffset()
	same(t, "capture offset", []any{offset, ok}, []any{int64(-2), true})
	level, voice, ok := v.AudioLevel()
	same(t, "audio level", []any{level, voice, ok}, []any{int8(-10), true, true})
	ticks, ok := v.TransmissionOffset()
	same(t, "transmission offset", []any{ticks, ok}, []any{uint32(256), true})
	degrees, ok := v.VideoOrientation()
	same(t, "orientation", []any{degrees, ok}, []any{uint16(270), true})
	number, ok := v.TransportNumber()
	same(t, "transport number", []any{number, ok}, []any{uint16(0x1234), true})
	least, most, ok := v.PlayoutDelay()
	same(t, "playout delay", []any{least, most, ok}, []any{50 * time.Millisecond, time.Second, true})
	contentType, ok := v.VideoContentType()
	same(t, "content type", []any{contentType, ok}, []any{uint8(1), true})
	timing, ok := v.VideoTiming()
	same(t, "timing", []any{timing, ok}, []any{rtpwire.VideoTiming{1, 10, 20, 30, 40}, true})
	rid, ok := v.RID()
	same(t, "rid", []any{rid, ok}, []any{"r1", true})
	repaired, ok := v.RepairedRID()
	same(t, "repaired rid", []any{repaired, ok}, []any{"r2", true})
	mid, ok := v.MID()
	same(t, "mid", []any{mid, ok}, []any{"audio_1", true})
	marking, ok := v.FrameMarking()
	same(t, "frame marking", []any{marking, ok}, []any{uint32(0xDEADBEEF), true})
	same(t, "layers", v.HasLayers(), true)
}

func TestNoValueIsThere(t *testing.T) {
	for _, m := range []*rtpwire.Map{nil, new(rtpwire.Map)} {
		packet := parsed(t, everyValue, m)
		same(t, "values", packet.Header().Values, rtpwire.Values{})
	}
	var v rtpwire.Values
	_, sendTime := v.SendTime()
	_, captureTime := v.CaptureTime()
	_, offset := v.CaptureOffset()
	_, _, level := v.AudioLevel()
	_, ticks := v.TransmissionOffset()
	_, degrees := v.VideoOrientation()
	_, number := v.TransportNumber()
	least, most, delay := v.PlayoutDelay()
	_, contentType := v.VideoContentType()
	_, timing := v.VideoTiming()
	rid, isRID := v.RID()
	_, repaired := v.RepairedRID()
	_, mid := v.MID()
	_, marking := v.FrameMarking()
	if sendTime || captureTime || offset || level || ticks || degrees || number || delay || contentType || timing ||
		isRID || repaired || mid || marking || v.HasLayers() || rid != "" || least != 0 || most != 0 {
		t.Error("a value is there")
	}
}

// What is set is written and read again; a layer allocation alone isn't written.
func TestEveryValueIsWritten(t *testing.T) {
	m := everyKind(t)
	header := rtpwire.Header{SequenceNumber: 1, Timestamp: 2, SSRC: 3, HasExtension: true}
	v := &header.Values
	v.SetSendTime(40_000_000)
	v.SetCaptureTime(0x0102030405060708)
	v.SetCaptureOffset(-2)
	v.SetAudioLevel(-10, true)
	v.SetTransmissionOffset(256)
	v.SetVideoOrientation(270)
	v.SetTransportNumber(0x1234)
	v.SetPlayoutDelay(50*time.Millisecond+9*time.Millisecond, time.Second)
	v.SetVideoContentType(1)
	v.SetVideoTiming(rtpwire.VideoTiming{1, 10, 20, 30, 40})
	v.SetFrameMarking(0xDEADBEEF)
	for _, err := range []error{v.SetRID("r1"), v.SetRepairedRID("r2"), v.SetMID("audio_1")} {
		if err != nil {
			t.Fatal(err)
		}
	}
	buf := bytes.Repeat([]byte{0xEE}, 200)
	n, err := header.WriteInto(buf, m)
	if err != nil {
		t.Fatal(err)
	}
	wireLen, err := header.WireLen(m)
	same(t, "length", []any{wireLen, err}, []any{n, nil})
	// 22 words: the elements above without the allocation's ten bytes are 85 bytes, and three of padding
	same(t, "length", n, 16+88)
	wanted := append([]byte(nil), everyValue[:16+85]...)
	wanted[15] = 22
	wanted = append(wanted, 0, 0, 0)
	same(t, "bytes", buf[:n], wanted)
	same(t, "bytes after them", buf[n:], bytes.Repeat([]byte{0xEE}, 200-n))

	for kind := rtpwire.KindAbsSendTime; kind < rtpwire.KindLayers; kind++ {
		v.Clear(kind)
	}
	n, err = header.WriteInto(buf, m)
	same(t, "an empty block", []any{buf[12:n], err}, []any{[]byte{0x10, 0, 0, 0}, nil})
}

func TestTexts(t *testing.T) {
	var v rtpwire.Values
	for _, text := range []string{"", "a", "A_z09", "abcdefgh"} {
		for _, err := range []error{v.SetMID(text), v.SetRID(text), v.SetRepairedRID(text)} {
			if err != nil {
				t.Fatal(text, err)
			}
		}
		mid, _ := v.MID()
		rid, _ := v.RID()
		repaired, _ := v.RepairedRID()
		same(t, "texts", []string{mid, rid, repaired}, []string{text, text, text})
	}
	same(t, "16 characters", v.SetMID("0123456789_bcdef"), nil)
	before := v
	for _, text := range []string{"a b", "ä", "a-b", "a\x00", "@", "[", "`", "{", "/", ":", strings.Repeat("a", 17)} {
		for _, err := range []error{v.SetMID(text), v.SetRID(text), v.SetRepairedRID(text)} {
			same(t, text, err, rtpwire.ErrBadField)
		}
	}
	same(t, "nine characters", v.SetRID("abcdefghi"), rtpwire.ErrBadField)
	same(t, "the values", v, before)
	var none rtpwire.Values
	refused := []error{none.SetMID("a-b"), none.SetRID("123456789"), none.SetRepairedRID("a-b")}
	same(t, "refused", refused, []error{rtpwire.ErrBadField, rtpwire.ErrBadField, rtpwire.ErrBadField})
	same(t, "no values", none, rtpwire.Values{})
}

func TestDelaysBelowZero(t *testing.T) {
	var v rtpwire.Values
	v.SetPlayoutDelay(-time.Second, 40950*time.Millisecond)
	least, most, _ := v.PlayoutDelay()
	same(t, "delays", []time.Duration{least, most}, []time.Duration{0, 40950 * time.Millisecond})
}

func TestLayers(t *testing.T) {
	m := everyKind(t)
	var layers rtpwire.Layers
	if err := layers.Parse(everyValue, m); err != nil {
		t.Fatal(err)
	}
	same(t, "streams", []int{len(layers.Streams()), layers.Current()}, []int{1, 0})
	stream := layers.Streams()[0]
	same(t, "layers", len(stream.Layers()), 1)
	layer := stream.Layers()[0]
	same(t, "kbps", layer.Kbps(), []uint64{5})
	resolution, ok := layer.Resolution()
	same(t, "resolution", []any{resolution, ok}, []any{rtpwire.Resolution{320, 240, 30}, true})

	before := layers
	err := layers.Parse(everyValue[:100], m)
	if !errors.Is(err, rtpwire.CutBlock) || layers != before {
		t.Errorf("%v, %v", err, layers)
	}
	if err := layers.Parse(everyValue, nil); err != nil || layers != (rtpwire.Layers{}) {
		t.Errorf("%v, %v", err, layers)
	}
}

func TestLayersAreWritten(t *testing.T) {
	// in the two-byte form, 5: two streams, of which the second is the packet's own; 5 kbit/s at 640 by 360, and 300
	datagram := []byte{0x90, 0, 0, 1, 0, 0, 0, 2, 0, 0, 0, 3, 0x10, 0, 0, 3,
		5, 10, 0x51, 0, 5, 0xAC, 2, 2, 127, 1, 103, 30}
	m := new(rtpwire.Map)
	same(t, "map", m.Set(5, rtpwire.KindLayers), nil)
	packet := parsed(t, datagram, m)
	var read, made rtpwire.Layers
	same(t, "read", read.Parse(datagram, m), nil)

	var small, large rtpwire.Layer
	var streams [2]rtpwire.Stream
	small.SetResolution(rtpwire.Resolution{Width: 640, Height: 360, Framerate: 30})
	same(t, "rates", []error{small.SetKbps(5), large.SetKbps(300)}, []error{nil, nil})
	same(t, "layers", []error{streams[0].SetLayers(small), streams[1].SetLayers(large)}, []error{nil, nil})
	same(t, "streams", made.SetStreams(streams[:]...), nil)
	made.SetCurrent(1)
	same(t, "made", made, read)

	buf := atEnd(t, make([]byte, 28))
	n, err := packet.Header().WriteLayers(buf[:27], m, &made)
	same(t, "no room", []any{n, err, buf[0]}, []any{0, rtpwire.ErrShortBuffer, uint8(0)})
	n, err = packet.Header().WireLenLayers(m, &made)
	same(t, "length", []any{n, err}, []any{28, nil})
	n, err = packet.Header().WriteLayers(buf, m, &made)
	same(t, "written", []any{n, err, buf}, []any{28, nil, datagram})
	n, err = packet.Header().WriteLayers(buf, nil, &made)
	same(t, "not mapped", []any{n, err, buf[12:16]}, []any{16, nil, []byte{0xBE, 0xDE, 0, 0}})

	same(t, "five", []error{made.SetStreams(make([]rtpwire.Stream, 5)...), streams[0].SetLayers(make([]rtpwire.Layer, 5)...),
		small.SetKbps(1, 2, 3, 4, 5)}, []error{rtpwire.ErrBadField, rtpwire.ErrBadField, rtpwire.ErrBadField})
	same(t, "unchanged", []any{made, streams[0].Layers()[0], small.Kbps()}, []any{read, small, []uint64{5}})
	made.SetCurrent(4)
	for _, m := range []*rtpwire.Map{m, nil} {
		n, err = packet.Header().WireLenLayers(m, &made)
		same(t, "length of none", []any{n, err}, []any{0, rtpwire.ErrBadField})
		n, err = packet.Header().WriteLayers(nil, m, &made)
		same(t, "none", []any{n, err}, []any{0, rtpwire.ErrBadField})
	}
	same(t, "nothing sent", made.SetStreams(), nil)
	made.SetCurrent(0)
	same(t, "zero", made, rtpwire.Layers{})
	n, err = packet.Header().WriteLayers(buf, m, &made)
	same(t, "nothing is sent", []any{n, err, buf[12:20]}, []any{20, nil, []byte{0x10, 0, 0, 1, 5, 1, 0, 0}})
}

func TestMaps(t *testing.T) {
	m := new(rtpwire.Map)
	same(t, "the id 0", m.Set(0, rtpwire.KindMID), rtpwire.ErrBadField)
	same(t, "no kind", m.Set(1, rtpwire.KindNTP56+1), rtpwire.ErrBadField)
	same(t, "the map", *m, rtpwire.Map{})
	same(t, "an id of none", m.IDOf(rtpwire.KindMID), uint8(0))

	kind, err := m.SetURI(9, "urn:ietf:params:rtp-hdrext:sdes:mid")
	same(t, "by URI", []any{kind, err}, []any{rtpwire.KindMID, nil})
	same(t, "255", m.Set(255, rtpwire.KindMID), nil)
	same(t, "3", m.Set(3, rtpwire.KindRID), nil)
	same(t, "kinds", []rtpwire.Kind{m.Get(9), m.Get(255), m.Get(3), m.Get(4)},
		[]rtpwire.Kind{rtpwire.KindMID, rtpwire.KindMID, rtpwire.KindRID, rtpwire.KindNone})
	same(t, "the lowest", m.IDOf(rtpwire.KindMID), uint8(9))
	same(t, "none of none", m.IDOf(rtpwire.KindNone), uint8(0))
	same(t, "none of nil", (*rtpwire.Map)(nil).IDOf(rtpwire.KindMID), uint8(0))
	same(t, "no kind", []any{m.Set(3, rtpwire.KindNone), m.Get(3)}, []any{rtpwire.ErrBadField, rtpwire.KindRID})
	m.Remove(3)
	m.Remove(0)
	same(t, "removed", []rtpwire.Kind{m.Get(3), m.Get(255), m.Get(9)}, []rtpwire.Kind{rtpwire.KindNone, rtpwire.KindMID, rtpwire.KindMID})
	_, err = m.SetURI(0, "urn:ietf:params:rtp-hdrext:sdes:mid")
	same(t, "the id 0 by URI", err, rtpwire.ErrBadField)
	kind, err = m.SetURI(0, "urn:x")
	same(t, "the id 0 by an unknown URI", []any{kind, err}, []any{rtpwire.KindNone, rtpwire.ErrBadField})

	standard := rtpwire.StandardMap()
	usual := map[uint8]rtpwire.Kind{
		1: rtpwire.KindAudioLevel, 2: rtpwire.KindAbsSendTime, 3: rtpwire.KindTransportNumber, 4: rtpwire.KindMID,
		10: rtpwire.KindRID, 11: rtpwire.KindRepairedRID, 13: rtpwire.KindVideoOrientation,
	}
	for id := 0; id < 256; id++ {
		same(t, "standard", standard.Get(uint8(id)), usual[uint8(id)])
		same(t, "nil", (*rtpwire.Map)(nil).Get(uint8(id)), rtpwire.KindNone)
	}
	names := []string{rtpwire.KindNone.String(), rtpwire.KindLayers.String(), rtpwire.Kind(21).String()}
	same(t, "names", names, []string{"none", "layers", "kind 21"})
}

func TestOwnKinds(t *testing.T) {
	from, to := new(rtpwire.Map), new(rtpwire.Map)
	for id, kind := range map[uint8]rtpwire.Kind{5: 255, 6: rtpwire.KindMID, 7: rtpwire.KindOwn} {
		same(t, "set", []any{from.Set(id, kind), from.Get(id)}, []any{nil, kind})
	}
	same(t, "ids", []uint8{from.IDOf(255), from.IDOf(rtpwire.KindOwn), from.IDOf(200)}, []uint8{5, 7, 0})
	for _, kind := range []rtpwire.Kind{21, 127} {
		same(t, "no kind", []any{to.Set(1, kind), to.IDOf(kind)}, []any{rtpwire.ErrBadField, uint8(0)})
	}
	same(t, "set", []error{to.Set(12, 255), to.Set(8, 255), to.Set(9, rtpwire.KindMID)}, []error{nil, nil, nil})
	same(t, "the lowest", []uint8{to.IDOf(255), (*rtpwire.Map)(nil).IDOf(255)}, []uint8{8, 0})
	ids := rtpwire.NewIDsBetween(from, to)
	same(t, "new ids", []uint8{ids.Get(5), ids.Get(6), ids.Get(7)}, []uint8{8, 9, 0})

	datagram := []byte{0x90, 96, 0, 5, 0, 0, 0, 1, 0, 0, 0, 7, 0xBE, 0xDE, 0, 1, 0x50, 0xAB, 0x60, 'a'}
	packet := parsed(t, datagram, from)
	mid, ok := packet.Values().MID()
	same(t, "the mid alone", []any{mid, ok}, []any{"a", true})
	same(t, "renumbered", rtpwire.Renumber(datagram, ids), nil)
	same(t, "elements", datagram[16:], []byte{0x80, 0xAB, 0x90, 'a'})
}

func TestDataOf(t *testing.T) {
	var v rtpwire.Values
	v.SetSendTime(40_000_000)
	v.SetTransportNumber(0x4142)
	v.SetAudioLevel(-93, true)
	if err := v.SetMID("mid_0123456789AB"); err != nil {
		t.Fatal(err)
	}
	rows := []struct {
		kind rtpwire.Kind
		data string
	}{
		{rtpwire.KindAbsSendTime, "\xA0\x00\x00"}, // 40 of 64 seconds, of 2^24
		{rtpwire.KindTransportNumber, "\x41\x42"},
		{rtpwire.KindAudioLevel, "\xDD"},
		{rtpwire.KindMID, "mid_0123456789AB"},
	}
	for _, row := range rows {
		buf := [rtpwire.MostData + 1]byte{rtpwire.MostData: 7}
		data, err := v.DataOf(row.kind, buf[:])
		same(t, "data", []any{string(data), err, buf[rtpwire.MostData]}, []any{row.data, nil, uint8(7)})
		_, err = v.DataOf(row.kind, buf[:len(row.data)-1])
		same(t, "too short", err, rtpwire.ErrShortBuffer)
	}
	buf := make([]byte, rtpwire.MostData)
	for _, kind := range []rtpwire.Kind{
		rtpwire.KindRID, rtpwire.KindColorSpace, rtpwire.KindLayers, rtpwire.KindMixerLevels, rtpwire.KindTransportNumber2,
		rtpwire.KindDependencyDescriptor, rtpwire.KindNTP64, rtpwire.KindNTP56, rtpwire.KindOwn, 255,
	} {
		data, err := v.DataOf(kind, buf)
		same(t, "no value", []any{len(data), err}, []any{0, rtpwire.ErrNotFound})
	}
	for _, kind := range []rtpwire.Kind{rtpwire.KindNone, 21, 127} {
		_, err := v.DataOf(kind, buf)
		same(t, "no kind", err, rtpwire.ErrBadField)
	}
	v.SetVideoOrientation(45)
	_, err := v.DataOf(rtpwire.KindMID, buf)
	same(t, "a value of another kind", err, rtpwire.ErrBadField)
	same(t, "unchanged", buf, make([]byte, rtpwire.MostData))
}

// A datagram that is no packet changes no layers, whatever the form of its block.
func TestLayersOfNoPacketStay(t *testing.T) {
	var layers rtpwire.Layers
	same(t, "set", layers.SetStreams(rtpwire.Stream{}, rtpwire.Stream{}), nil)
	layers.SetCurrent(1)
	for _, datagram := range [][]byte{sample()[:31], camera()[:27]} { // the last byte of the body is cut off
		same(t, "no packet", layers.Parse(datagram, nil), rtpwire.CutBlock)
		same(t, "as before", []int{len(layers.Streams()), layers.Current()}, []int{2, 1})
	}
}

// A URI is compared letter for letter (RFC 8285, 5): nothing is left out at its ends.
func TestLettersOfURIs(t *testing.T) {
	const uri = "urn:ietf:params:rtp-hdrext:sdes:mid"
	same(t, "mid", rtpwire.KindOfURI(uri), rtpwire.KindMID)
	for _, other := range []string{uri + " ", " " + uri, uri + "\r", uri + "\n", uri + "\t", uri + "\x00", uri + "/", uri[:len(uri)-1]} {
		same(t, other, rtpwire.KindOfURI(other), rtpwire.KindNone)
	}
}

// The data of an element are read and written without a packet around them.
func TestValuesWithoutAPacket(t *testing.T) {
	values, err := rtpwire.ParseValue(rtpwire.KindAudioLevel, []byte{0x8A}) // V, and 10 below 0 dBov (RFC 6464, 3)
	same(t, "error", err, nil)
	level, voice, ok := values.AudioLevel()
	same(t, "level", []any{level, voice, ok}, []any{int8(-10), true, true})
	_, ok = values.TransportNumber()
	same(t, "number", ok, false)
	data, err := values.AppendData([]byte{7}, rtpwire.KindAudioLevel)
	same(t, "data", []any{data, err}, []any{[]byte{7, 0x8A}, nil})
	data, err = values.AppendData([]byte{7}, rtpwire.KindMID)
	same(t, "none", []any{data, err}, []any{[]byte{7}, rtpwire.ErrNotFound})

	values, err = rtpwire.ParseValue(rtpwire.KindTransportNumber, []byte{0x12, 0x34})
	number, ok := values.TransportNumber()
	same(t, "number", []any{number, ok, err}, []any{uint16(0x1234), true, nil})
	values, err = rtpwire.ParseValue(rtpwire.KindMID, []byte("audio"))
	mid, ok := values.MID()
	same(t, "mid", []any{mid, ok, err}, []any{"audio", true, nil})
	for _, it := range []struct {
		kind rtpwire.Kind
		data []byte
	}{
		{rtpwire.KindAudioLevel, nil}, {rtpwire.KindTransportNumber, []byte{1}}, {rtpwire.KindNone, []byte{1}},
		{rtpwire.KindMID, make([]byte, 300)}, {rtpwire.Kind(200), []byte{1}},
	} {
		values, err = rtpwire.ParseValue(it.kind, it.data)
		same(t, "bad", []any{values, err}, []any{rtpwire.Values{}, rtpwire.ErrBadField})
	}
}
