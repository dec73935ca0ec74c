package rtpwire_test

import (
	"math"
	"testing"
	"time"

	"rtp-wire.example/rtpwire"
)

// Of each kind the data are those of the element in a packet with all of them, in a buffer of so many bytes and no fewer.
func TestDataOfEachKind(t *testing.T) {
	packet := parsed(t, everyValue, everyKind(t))
	for kind := rtpwire.KindAbsSendTime; kind < rtpwire.KindColorSpace; kind++ {
		wanted, ok := packet.Element(uint8(kind))
		same(t, kind.String(), ok, true)
		buf := make([]byte, len(wanted)+1)
		buf[len(wanted)] = 7
		data, err := packet.Values().DataOf(kind, buf)
		same(t, kind.String(), []any{data, err, buf[len(wanted)]}, []any{wanted, nil, byte(7)})
		data, err = packet.Values().DataOf(kind, buf[:len(wanted)-1])
		same(t, kind.String()+", short", []any{data, err}, []any{[]byte(nil), rtpwire.ErrShortBuffer})
		_, err = new(rtpwire.Values).DataOf(kind, buf)
		same(t, kind.String()+", none", err, rtpwire.ErrNotFound)
	}
}

// Each value is set alone: all others stay what they were, there or not.
func TestOneValueAlone(t *testing.T) {
	setters := map[rtpwire.Kind]func(*rtpwire.Values){
		rtpwire.KindAbsSendTime:        func(v *rtpwire.Values) { v.SetSendTime(1) },
		rtpwire.KindAbsCaptureTime:     func(v *rtpwire.Values) { v.SetCaptureTime(1) },
		rtpwire.KindAudioLevel:         func(v *rtpwire.Values) { v.SetAudioLevel(-1, true) },
		rtpwire.KindTransmissionOffset: func(v *rtpwire.Values) { v.SetTransmissionOffset(1) },
		rtpwire.KindVideoOrientation:   func(v *rtpwire.Values) { v.SetVideoOrientation(90) },
		rtpwire.KindTransportNumber:    func(v *rtpwire.Values) { v.SetTransportNumber(1) },
		rtpwire.KindPlayoutDelay:       func(v *rtpwire.Values) { v.SetPlayoutDelay(time.Second, time.Second) },
		rtpwire.KindVideoContentType:   func(v *rtpwire.Values) { v.SetVideoContentType(1) },
		rtpwire.KindVideoTiming:        func(v *rtpwire.Values) { v.SetVideoTiming(rtpwire.VideoTiming{Flags: 1}) },
		rtpwire.KindRID:                func(v *rtpwire.Values) { _ = v.SetRID("a") },
		rtpwire.KindRepairedRID:        func(v *rtpwire.Values) { _ = v.SetRepairedRID("a") },
		rtpwire.KindMID:                func(v *rtpwire.Values) { _ = v.SetMID("a") },
		rtpwire.KindFrameMarking:       func(v *rtpwire.Values) { v.SetFrameMarking(1) },
	}
	same(t, "kinds", len(setters), 13)
	all := parsed(t, everyValue, everyKind(t)).Header().Values
	for kind, set := range setters {
		var v rtpwire.Values
		set(&v)
		for it, is := range there(&v.ReadValues) {
			same(t, it.String()+" where "+kind.String()+" is set", is, it == kind)
		}
		_, offset := v.CaptureOffset()
		same(t, "an offset", offset, false)
		// Of two Values that differ in this one value setting it makes the same, and taking it away leaves the others.
		first, second := all, all
		first.Clear(kind)
		set(&first)
		set(&second)
		if kind == rtpwire.KindAbsCaptureTime {
			second.Clear(kind) // with the offset, which isn't set
			set(&second)
		}
		for it := rtpwire.KindAbsSendTime; it < rtpwire.KindColorSpace; it++ {
			one, err := first.DataOf(it, make([]byte, rtpwire.MostData))
			other, found := second.DataOf(it, make([]byte, rtpwire.MostData))
			same(t, it.String(), []any{one, err}, []any{other, found})
			if it != kind {
				kept, err := all.DataOf(it, make([]byte, rtpwire.MostData))
				same(t, it.String()+" stays", []any{one, nil}, []any{kept, err})
			}
		}
	}
	var v rtpwire.Values
	v.SetCaptureOffset(7)
	_, captured := v.CaptureTime()
	offset, ok := v.CaptureOffset()
	same(t, "an offset alone", []any{captured, offset, ok}, []any{false, int64(7), true})
	_, err := v.DataOf(rtpwire.KindAbsCaptureTime, make([]byte, rtpwire.MostData))
	same(t, "no capture time", err, rtpwire.ErrNotFound)
	v.SetCaptureTime(1)
	data, err := v.DataOf(rtpwire.KindAbsCaptureTime, make([]byte, rtpwire.MostData))
	same(t, "with its offset", []any{data, err}, []any{[]byte{0, 0, 0, 0, 0, 0, 0, 1, 0, 0, 0, 0, 0, 0, 0, 7}, nil})
}

// Times of a playout delay, in 12 bits each: whole hundredths of a second, and below 0 as 0. They may be in any order.
func TestPlayoutDelays(t *testing.T) {
	const hundredth = 10 * time.Millisecond
	for _, row := range []struct {
		least, most, toldLeast, toldMost time.Duration
		data                             []byte
	}{
		{2 * hundredth, hundredth, 2 * hundredth, hundredth, []byte{0, 0x20, 1}},
		{-1, -time.Hour, 0, 0, []byte{0, 0, 0}},
		{1, hundredth - 1, 1, hundredth - 1, []byte{0, 0, 0}},
		{hundredth, hundredth + 1, hundredth, hundredth + 1, []byte{0, 0x10, 1}},
		{0, 4095 * hundredth, 0, 4095 * hundredth, []byte{0, 0x0F, 0xFF}},
		{4095 * hundredth, 0, 4095 * hundredth, 0, []byte{0xFF, 0xF0, 0}},
		{4096 * hundredth, 4097 * hundredth, 4096 * hundredth, 4097 * hundredth, []byte{0, 0, 1}},
		// 2^63 - 1 nanoseconds are 922,337,203,685 hundredths, 225,179,981 * 4,096 of them and 1,509 (0x5E5).
		{math.MinInt64, math.MaxInt64, 0, math.MaxInt64, []byte{0, 0x05, 0xE5}},
	} {
		var v rtpwire.Values
		v.SetPlayoutDelay(row.least, row.most)
		least, most, ok := v.PlayoutDelay()
		same(t, "told", []any{least, most, ok}, []any{row.toldLeast, row.toldMost, true})
		data, err := v.DataOf(rtpwire.KindPlayoutDelay, make([]byte, 3))
		same(t, "written", []any{data, err}, []any{row.data, nil})
	}
	// As read: each hundredth.
	datagram := []byte{0x90, 0, 0, 1, 0, 0, 0, 2, 0, 0, 0, 3, 0xBE, 0xDE, 0, 1, 0x72, 0, 0, 0}
	for _, hundredths := range []int{0, 1, 255, 256, 4094, 4095} {
		other := 4095 - hundredths
		datagram[17], datagram[18], datagram[19] = byte(hundredths>>4), byte(hundredths<<4|other>>8), byte(other)
		least, most, ok := parsed(t, datagram, everyKind(t)).Values().PlayoutDelay()
		same(t, "read", []any{least, most, ok}, []any{time.Duration(hundredths) * hundredth, time.Duration(other) * hundredth, true})
	}
}

// A level is 0 to -127 dB, and written as its magnitude (RFC 6464, 3); another one is refused.
func TestLevels(t *testing.T) {
	for _, level := range []int8{1, 30, 127, -128} {
		var v rtpwire.Values
		v.SetAudioLevel(level, true)
		header := rtpwire.NewHeader(v)
		_, err := v.DataOf(rtpwire.KindAudioLevel, make([]byte, 1))
		_, written := header.WriteInto(make([]byte, 100), rtpwire.StandardMap())
		_, whole := header.WriteAll(make([]byte, 100), nil)
		_, length := header.WireLen(nil)
		_, left := header.LeftOut(nil)
		for _, err := range []error{err, written, whole, length, left} {
			same(t, "refused", err, rtpwire.ErrBadField)
		}
	}
	for level, written := range map[int8]byte{0: 0, -1: 1, -10: 10, -126: 126, -127: 127} {
		for _, voice := range []bool{false, true} {
			var v rtpwire.Values
			v.SetAudioLevel(level, voice)
			told, is, ok := v.AudioLevel()
			same(t, "told", []any{told, is, ok}, []any{level, voice, true})
			data, err := v.DataOf(rtpwire.KindAudioLevel, make([]byte, 1))
			wanted := written
			if voice {
				wanted |= 0x80
			}
			same(t, "written", []any{data, err}, []any{[]byte{wanted}, nil})
		}
	}
}

// Each byte in a text, and each length.
func TestCharactersOfTexts(t *testing.T) {
	const allowed = "0123456789ABCDEFGHIJKLMNOPQRSTUVWXYZ_abcdefghijklmnopqrstuvwxyz"
	is := make(map[byte]bool)
	for at := range allowed {
		is[allowed[at]] = true
	}
	for c := 0; c < 256; c++ {
		for _, text := range []string{string([]byte{byte(c)}), string([]byte{'a', byte(c)}), string([]byte{byte(c), 'a'})} {
			var v rtpwire.Values
			for _, err := range []error{v.SetMID(text), v.SetRID(text), v.SetRepairedRID(text)} {
				same(t, text, err == nil, is[byte(c)])
				same(t, text, err == nil || err == rtpwire.ErrBadField, true)
			}
			mid, ok := v.MID()
			same(t, text, []any{mid == text, ok}, []any{is[byte(c)], is[byte(c)]})
		}
	}
	for length := 0; length <= 300; length++ {
		text := string(make([]byte, 0, length))
		for len(text) < length {
			text += string(allowed[len(text)%len(allowed)])
		}
		var v rtpwire.Values
		same(t, "lengths", []bool{v.SetMID(text) == nil, v.SetRID(text) == nil, v.SetRepairedRID(text) == nil},
			[]bool{length <= 16, length <= 8, length <= 8})
		mid, isMID := v.MID()
		rid, isRID := v.RID()
		repaired, isRepaired := v.RepairedRID()
		same(t, "there", []bool{isMID, isRID, isRepaired}, []bool{length <= 16, length <= 8, length <= 8})
		if length <= 8 {
			same(t, "texts", []string{mid, rid, repaired}, []string{text, text, text})
		}
	}
}

// The stream that the packet is of is told as it was set, and one that can't be written isn't.
func TestCurrentStreams(t *testing.T) {
	for current := 0; current < 256; current++ {
		var l rtpwire.Layers
		l.SetCurrent(uint8(current))
		same(t, "current", l.Current(), current)
		// Without a stream it is 0.
		_, err := new(rtpwire.Header).WireLenLayers(nil, &l)
		same(t, "of none", err == nil, current == 0)
		same(t, "set", l.SetStreams(rtpwire.Stream{}, rtpwire.Stream{}, rtpwire.Stream{}, rtpwire.Stream{}), nil)
		same(t, "current", l.Current(), current)
	}
}

// Rates, widths and heights at the ends of their ranges.
func TestEndsOfLayers(t *testing.T) {
	m := everyKind(t)
	for _, row := range []struct {
		kbps       []uint64
		resolution rtpwire.Resolution
		err        error
	}{
		{[]uint64{0}, rtpwire.Resolution{Width: 1, Height: 1}, nil},
		{[]uint64{127, 128, 16383, 16384}, rtpwire.Resolution{Width: 65535, Height: 65535, Framerate: 255}, nil},
		{[]uint64{1<<63 - 1}, rtpwire.Resolution{Width: 256, Height: 255, Framerate: 1}, nil},
		{[]uint64{1 << 63}, rtpwire.Resolution{Width: 1, Height: 1}, rtpwire.ErrBadField},
		{[]uint64{1, 1, 1, math.MaxUint64}, rtpwire.Resolution{Width: 1, Height: 1}, rtpwire.ErrBadField},
		{[]uint64{1}, rtpwire.Resolution{Width: 0, Height: 1}, rtpwire.ErrBadField},
		{[]uint64{1}, rtpwire.Resolution{Width: 1, Height: 0}, rtpwire.ErrBadField},
		{nil, rtpwire.Resolution{Width: 1, Height: 1}, rtpwire.ErrBadField}, // it isn't active
	} {
		var layer rtpwire.Layer
		var stream rtpwire.Stream
		var layers, read rtpwire.Layers
		layer.SetResolution(row.resolution)
		same(t, "rates", layer.SetKbps(row.kbps...), nil)
		told, ok := layer.Resolution()
		same(t, "told", []any{told, ok, append([]uint64(nil), layer.Kbps()...)}, []any{row.resolution, true, row.kbps})
		same(t, "set", []error{stream.SetLayers(layer), layers.SetStreams(stream)}, []error{nil, nil})
		header := rtpwire.Header{HasExtension: true}
		buf := make([]byte, 100)
		n, err := header.WriteLayers(buf, m, &layers)
		length, found := header.WireLenLayers(m, &layers)
		same(t, "written", []any{err, found, n}, []any{row.err, row.err, length})
		if err == nil {
			same(t, "read", []any{read.Parse(buf[:n], m), read}, []any{nil, layers})
		}
	}
}
