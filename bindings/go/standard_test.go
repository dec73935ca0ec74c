package rtpwire_test

import (
	"bytes"
	"errors"
	"math"
	"strings"
	"testing"

	"rtp-wire.example/rtpwire"
)

// read is what a Parse function returns, in one.
func read[T any](value T, err error) []any {
	return []any{value, err}
}

// appended is what an Append appends to two bytes, which stay.
func appended(t *testing.T, appendTo func([]byte) ([]byte, error)) []byte {
	t.Helper()
	data, err := appendTo([]byte{0xE1, 0xE2})
	same(t, "error", err, nil)
	same(t, "the bytes before", data[:2], []byte{0xE1, 0xE2})
	return data[2:]
}

// certain makes an Append that can't fail one that could.
func certain(appendTo func([]byte) []byte) func([]byte) ([]byte, error) {
	return func(data []byte) ([]byte, error) { return appendTo(data), nil }
}

// refused is that an Append leaves the bytes as they were and says what is amiss.
func refused(t *testing.T, appendTo func([]byte) ([]byte, error), text string) {
	t.Helper()
	room := []byte{0xE1, 0xE2, 0xE3, 0xE4}
	data, err := appendTo(room[:1])
	same(t, "an ErrBadField", errors.Is(err, rtpwire.ErrBadField), true)
	same(t, "of nothing else", errors.Is(err, rtpwire.ErrShortBuffer) || errors.Is(err, rtpwire.ErrNotAPacket), false)
	same(t, "text", err.Error(), "rtpwire: "+text)
	same(t, "as it was", [][]byte{data, room}, [][]byte{{0xE1}, {0xE1, 0xE2, 0xE3, 0xE4}})
}

// notOf is that data of each length up to 40 but these are refused.
func notOf[T comparable](t *testing.T, parse func([]byte) (T, error), lengths ...int) {
	t.Helper()
	var none T
	for length := 0; length <= 40; length++ {
		value, err := parse(make([]byte, length))
		isOne := false
		for _, it := range lengths {
			isOne = isOne || it == length
		}
		same(t, "taken", err == nil, isOne)
		if !isOne {
			same(t, "refused", read(value, err), read(none, rtpwire.ErrBadField))
		}
	}
	_, err := parse(nil)
	same(t, "of none", err, rtpwire.ErrBadField)
}

// RFC 5450, 3: 24 bits with a sign.
func TestTransmissionOffsets(t *testing.T) {
	for _, row := range []struct {
		data  []byte
		ticks int32
	}{
		{[]byte{0, 0, 0}, 0},
		{[]byte{0, 0, 1}, 1},
		{[]byte{0xFF, 0xFF, 0xFE}, -2},
		{[]byte{0x01, 0x02, 0x03}, 66051},
		{[]byte{0xFE, 0xFD, 0xFD}, -66051},
		{[]byte{0x7F, 0xFF, 0xFF}, 8388607},
		{[]byte{0x80, 0, 0}, -8388608},
	} {
		same(t, "read", read(rtpwire.ParseTransmissionOffset(row.data)), read(row.ticks, nil))
		same(t, "written", appended(t, func(data []byte) ([]byte, error) {
			return rtpwire.AppendTransmissionOffset(data, row.ticks)
		}), row.data)
	}
	for ticks, text := range map[int32]string{
		8388608:       "8388608",
		-8388609:      "-8388609",
		math.MaxInt32: "2147483647",
		math.MinInt32: "-2147483648",
	} {
		refused(t, func(data []byte) ([]byte, error) { return rtpwire.AppendTransmissionOffset(data, ticks) },
			"the transmission offset is "+text+", and not -8388608 to 8388607")
	}
	notOf(t, rtpwire.ParseTransmissionOffset, 3)
}

// RFC 9626, 3: S E I D B TID, then LID, then TL0PICIDX.
func TestFrameMarkings(t *testing.T) {
	for _, row := range []struct {
		data    []byte
		marking rtpwire.FrameMarking
	}{
		{[]byte{0x80}, rtpwire.FrameMarking{Start: true}},
		{[]byte{0x40}, rtpwire.FrameMarking{End: true}},
		{[]byte{0x20}, rtpwire.FrameMarking{Independent: true}},
		{[]byte{0x10}, rtpwire.FrameMarking{Discardable: true}},
		{[]byte{0x00}, rtpwire.FrameMarking{}},
		{[]byte{0x08, 0}, rtpwire.FrameMarking{HasLayers: true, BaseLayerSync: true}},
		{[]byte{0xA9, 2, 7}, rtpwire.FrameMarking{Start: true, Independent: true, HasLayers: true, BaseLayerSync: true,
			TemporalID: 1, LayerID: 2, HasTL0PicIdx: true, TL0PicIdx: 7}},
		{[]byte{0x57, 0xFE}, rtpwire.FrameMarking{End: true, Discardable: true, HasLayers: true, TemporalID: 7,
			LayerID: 254}},
		{[]byte{0xF4, 0, 0}, rtpwire.FrameMarking{Start: true, End: true, Independent: true, Discardable: true,
			HasLayers: true, TemporalID: 4, HasTL0PicIdx: true}},
	} {
		same(t, "read", read(rtpwire.ParseFrameMarking(row.data)), read(row.marking, nil))
		same(t, "written", appended(t, row.marking.Append), row.data)
	}
	// Of a stream without layers the low four bits are not looked at, nor is what stands beside a flag that is false.
	same(t, "read", read(rtpwire.ParseFrameMarking([]byte{0x8F})), read(rtpwire.FrameMarking{Start: true}, nil))
	ignored := rtpwire.FrameMarking{End: true, BaseLayerSync: true, TemporalID: 8, LayerID: 9, HasTL0PicIdx: true}
	same(t, "written", appended(t, ignored.Append), []byte{0x40})
	ignored = rtpwire.FrameMarking{HasLayers: true, TemporalID: 2, LayerID: 3, TL0PicIdx: 4}
	same(t, "written", appended(t, ignored.Append), []byte{0x02, 3})
	refused(t, rtpwire.FrameMarking{HasLayers: true, TemporalID: 8}.Append, "TemporalID is 8, and not 0 to 7")
	refused(t, rtpwire.FrameMarking{HasLayers: true, TemporalID: 255}.Append, "TemporalID is 255, and not 0 to 7")
	notOf(t, rtpwire.ParseFrameMarking, 1, 2, 3)
}

// 3GPP TS 26.114, 7.4.5: 0 0 0 0 C F R1 R0, and 01 is to be turned by 90 degrees clockwise.
func TestOrientations(t *testing.T) {
	for data, orientation := range map[byte]rtpwire.Orientation{
		0x00: {Turn: 0, Camera: rtpwire.FrontCamera},
		0x01: {Turn: 270, Camera: rtpwire.FrontCamera},
		0x02: {Turn: 180, Camera: rtpwire.FrontCamera},
		0x03: {Turn: 90, Camera: rtpwire.FrontCamera},
		0x04: {Turn: 0, Camera: rtpwire.FrontCamera, Flip: true},
		0x08: {Turn: 0, Camera: rtpwire.BackCamera},
		0x0D: {Turn: 270, Camera: rtpwire.BackCamera, Flip: true},
		0x0B: {Turn: 90, Camera: rtpwire.BackCamera},
	} {
		same(t, "read", read(rtpwire.ParseOrientation([]byte{data})), read(orientation, nil))
		same(t, "with other high bits", read(rtpwire.ParseOrientation([]byte{data | 0xF0})), read(orientation, nil))
		same(t, "written", appended(t, orientation.Append), []byte{data})
	}
	for turn, text := range map[uint16]string{1: "1", 45: "45", 271: "271", 360: "360", 65430: "65430"} {
		refused(t, rtpwire.Orientation{Turn: turn}.Append, "Turn is "+text+", and none of 0, 90, 180 and 270")
	}
	refused(t, rtpwire.Orientation{Camera: 2}.Append, "Camera is 2, and not 0 to 1")
	refused(t, rtpwire.Orientation{Camera: 255}.Append, "Camera is 255, and not 0 to 1")
	notOf(t, rtpwire.ParseOrientation, 1)
}

// RFC 8866, 9: the characters of a token are these.
func TestTokens(t *testing.T) {
	const characters = "!#$%&'*+-.0123456789ABCDEFGHIJKLMNOPQRSTUVWXYZ^_`abcdefghijklmnopqrstuvwxyz{|}~"
	for c := 0; c <= 255; c++ {
		text := []byte{'a', byte(c), 'b'}
		token, err := rtpwire.ParseToken(text)
		if strings.IndexByte(characters, byte(c)) >= 0 {
			same(t, "a token", []any{token, err}, []any{string(text), nil})
		} else {
			same(t, "no token", []any{token, err}, []any{"", rtpwire.ErrBadField})
		}
	}
	for length, isOne := range map[int]bool{0: false, 1: true, 17: true, 255: true, 256: false} {
		_, err := rtpwire.ParseToken(bytes.Repeat([]byte{'x'}, length))
		same(t, "a token", err == nil, isOne)
	}
}

// A mid as it lies, beside what Values make of it.
func TestTokensOfAPacket(t *testing.T) {
	m := new(rtpwire.Map)
	for id, kind := range map[uint8]rtpwire.Kind{1: rtpwire.KindMID, 2: rtpwire.KindRID, 3: rtpwire.KindRepairedRID} {
		same(t, "mapped", m.Set(id, kind), nil)
	}
	for _, row := range []struct{ kind, told, token string }{
		{"mid", "cam_1", "cam-1"},
		{"mid", "cam_1", "cam.1"},
		{"mid", "cam_1", "cam_1"},
		{"mid", "abcdefghijklmnop", "abcdefghijklmnopq"},
		{"mid", "abcdefghijklmnop", "abcdefghijklmnop"},
		{"rid", "h_i", "h-i"},
		{"rid", "12345678", "123456789"},
		{"rid", "12345678", "12345678"},
		{"repaired", "h_i", "h~i"},
		{"repaired", "x", "x"},
	} {
		datagram := make([]byte, 200)
		datagram[0] = 0x80
		id := map[string]uint8{"mid": 1, "rid": 2, "repaired": 3}[row.kind]
		datagram, err := rtpwire.PutElementIn(datagram, 12, id, []byte(row.token), rtpwire.AnyForm)
		same(t, "put", err, nil)
		packet := parsed(t, datagram, m)
		mid, _ := packet.Values().MID()
		rid, _ := packet.Values().RID()
		repaired, _ := packet.Values().RepairedRID()
		same(t, "told", mid+rid+repaired, row.told)
		token, ok := packet.Token(id)
		same(t, "token", []any{token, ok}, []any{row.token, true})
		same(t, "kept", m.Get(id).Keeps(token), row.token == row.told)
		_, ok = packet.Token(id + 1)
		same(t, "of another id", ok, false)
	}
	// No token: a space, and an empty element.
	for _, text := range []string{"a b", ""} {
		datagram := make([]byte, 100)
		datagram[0] = 0x80
		datagram, err := rtpwire.PutElementIn(datagram, 12, 1, []byte(text), rtpwire.AnyForm)
		same(t, "put", err, nil)
		token, ok := parsed(t, datagram, m).Token(1)
		same(t, "no token", []any{token, ok}, []any{"", false})
	}
}

func TestTextsThatAreKept(t *testing.T) {
	for kind := rtpwire.KindNone; kind < 130; kind++ {
		most := map[rtpwire.Kind]int{rtpwire.KindMID: 16, rtpwire.KindRID: 8, rtpwire.KindRepairedRID: 8}[kind]
		for length := 0; length < 20; length++ {
			same(t, kind.String(), kind.Keeps(strings.Repeat("Z", length)), most > 0 && length <= most)
		}
		for c := 0; c <= 255; c++ {
			isPlain := strings.IndexByte("0123456789ABCDEFGHIJKLMNOPQRSTUVWXYZ_abcdefghijklmnopqrstuvwxyz", byte(c)) >= 0
			same(t, kind.String(), kind.Keeps("a"+string([]byte{byte(c)})), most > 0 && isPlain)
		}
	}
}

func TestTimings(t *testing.T) {
	for _, row := range []struct {
		data   []byte
		timing rtpwire.Timing
	}{
		{[]byte{0x81, 1, 2, 3, 4, 5, 6, 7, 8, 9, 10, 11, 12},
			rtpwire.Timing{0x0102, 0x0304, 0x0506, 0x0708, 0x090A, 0x0B0C, 0x81, true}},
		{[]byte{0, 1, 2, 3, 4, 5, 6, 7, 8, 9, 10, 11, 12},
			rtpwire.Timing{0x0102, 0x0304, 0x0506, 0x0708, 0x090A, 0x0B0C, 0, true}},
		{[]byte{0xF1, 2, 0xF3, 4, 0xF5, 6, 0xF7, 8, 0xF9, 10, 0xFB, 12},
			rtpwire.Timing{0xF102, 0xF304, 0xF506, 0xF708, 0xF90A, 0xFB0C, 0, false}},
	} {
		same(t, "read", read(rtpwire.ParseTiming(row.data)), read(row.timing, nil))
		same(t, "written", appended(t, certain(row.timing.Append)), row.data)
	}
	same(t, "flags beside none", rtpwire.Timing{EncodeFinish: 1, Flags: 7}.Append(nil),
		[]byte{0, 0, 0, 1, 0, 0, 0, 0, 0, 0, 0, 0})
	notOf(t, rtpwire.ParseTiming, 12, 13)
}

// transport-wide-cc-02: a number, then a bit for the times and 15 bits that count packets.
func TestTransportNumbers(t *testing.T) {
	for _, row := range []struct {
		data   []byte
		number rtpwire.TransportNumber
	}{
		{[]byte{0x12, 0x34}, rtpwire.TransportNumber{Number: 0x1234}},
		{[]byte{0xFE, 0xDC, 0, 1}, rtpwire.TransportNumber{Number: 0xFEDC, HasRequest: true, Packets: 1}},
		{[]byte{0x12, 0x34, 0x80, 5},
			rtpwire.TransportNumber{Number: 0x1234, HasRequest: true, Packets: 5, Timestamps: true}},
		{[]byte{0, 7, 0xFF, 0xFF},
			rtpwire.TransportNumber{Number: 7, HasRequest: true, Packets: 32767, Timestamps: true}},
		{[]byte{0, 7, 0x7F, 0xFE}, rtpwire.TransportNumber{Number: 7, HasRequest: true, Packets: 32766}},
		// On no packet.
		{[]byte{0, 9, 0, 0}, rtpwire.TransportNumber{Number: 9, HasRequest: true}},
		{[]byte{0, 9, 0x80, 0}, rtpwire.TransportNumber{Number: 9, HasRequest: true, Timestamps: true}},
	} {
		same(t, "read", read(rtpwire.ParseTransportNumber(row.data)), read(row.number, nil))
		same(t, "written", appended(t, row.number.Append), row.data)
	}
	ignored := rtpwire.TransportNumber{Number: 9, Packets: 40000, Timestamps: true}
	same(t, "without a request", appended(t, ignored.Append), []byte{0, 9})
	for packets, text := range map[uint16]string{32768: "32768", 65535: "65535"} {
		refused(t, rtpwire.TransportNumber{HasRequest: true, Packets: packets}.Append,
			"Packets is "+text+", and not 0 to 32767")
	}
	notOf(t, rtpwire.ParseTransportNumber, 2, 4)
}

// RFC 6465, 4: a byte for each source, of which the high bit is not looked at.
func TestMixerLevels(t *testing.T) {
	data := []byte{0x7F, 0x0A, 0x00, 0x8B}
	for index, level := range []int8{-127, -10, 0, -11} {
		same(t, "read", read(rtpwire.ParseMixerLevel(data, 15, index)), read(level, nil))
		same(t, "of the last source", read(rtpwire.ParseMixerLevel(data, index+1, index)), read(level, nil))
		same(t, "no such source", read(rtpwire.ParseMixerLevel(data, index, index)), read(int8(0), rtpwire.ErrBadField))
		same(t, "no byte", read(rtpwire.ParseMixerLevel(data[:index], 15, index)), read(int8(0), rtpwire.ErrBadField))
	}
	for _, row := range [][2]int{
		{15, -1}, {-1, 0}, {-1, -2}, {0, 0}, {math.MaxInt, 4}, {math.MinInt, math.MinInt}, {15, math.MaxInt},
	} {
		same(t, "refused", read(rtpwire.ParseMixerLevel(data, row[0], row[1])), read(int8(0), rtpwire.ErrBadField))
	}
	for _, row := range []struct {
		levels []int8
		data   []byte
	}{
		{nil, []byte{}},
		{[]int8{}, []byte{}},
		{[]int8{-127, -10, 0, -11}, []byte{0x7F, 0x0A, 0x00, 0x0B}},
		{
			[]int8{0, -1, -2, -3, -4, -5, -6, -7, -8, -9, -10, -11, -12, -13, -14},
			[]byte{0, 1, 2, 3, 4, 5, 6, 7, 8, 9, 10, 11, 12, 13, 14},
		},
	} {
		same(t, "written", appended(t, func(data []byte) ([]byte, error) {
			return rtpwire.AppendMixerLevels(data, row.levels)
		}), row.data)
	}
	for text, levels := range map[string][]int8{
		"the level 0 is 1, and not -127 to 0":    {1},
		"the level 2 is -128, and not -127 to 0": {0, -127, -128, 5},
		"the level 1 is 127, and not -127 to 0":  {-3, 127},
	} {
		refused(t, func(data []byte) ([]byte, error) { return rtpwire.AppendMixerLevels(data, levels) }, text)
	}
}

// RFC 6051, 3.3: 64 bits, and the low 56 of them.
func TestNTPTimes(t *testing.T) {
	const time = 0x8182838485868788
	whole, low := []byte{0x81, 0x82, 0x83, 0x84, 0x85, 0x86, 0x87, 0x88}, uint64(0x82838485868788)
	same(t, "read", read(rtpwire.ParseNTP64(whole)), read(uint64(time), nil))
	same(t, "read", read(rtpwire.ParseNTP56(whole[1:])), read(low, nil))
	written := func(write func([]byte, uint64) []byte, time uint64) []byte {
		return appended(t, certain(func(data []byte) []byte { return write(data, time) }))
	}
	same(t, "written", written(rtpwire.AppendNTP64, time), whole)
	same(t, "written", written(rtpwire.AppendNTP56, time), whole[1:])
	same(t, "written", written(rtpwire.AppendNTP56, low), whole[1:])
	notOf(t, rtpwire.ParseNTP64, 8)
	notOf(t, rtpwire.ParseNTP56, 7)

	const half, all = 1 << 55, 1 << 56
	for _, row := range []struct{ near, low, time uint64 }{
		{0x0100_0000_0000_0000 - 0x8000_0000, 0x8000_0000, 0x0100_0000_8000_0000},
		{0x0100_0000_8000_0000, 0x00FF_FFFF_8000_0000, 0x00FF_FFFF_8000_0000},
		{5, 7, 7},
		{7, 5, 5},
		{7, 5 | 3*all, 5}, // only the low 56 bits
		{3 * all, half - 1, 3*all + half - 1},
		{3 * all, half, 3*all + half}, // equally near: the later one
		{3 * all, half + 1, 2*all + half + 1},
		{0, half + 1, math.MaxUint64 - half + 2}, // modulo 2^64
		{math.MaxUint64, 1, 1},
	} {
		same(t, "extended", rtpwire.ExtendNTP56(row.near, row.low), row.time)
	}
}

func TestColorSpaces(t *testing.T) {
	hdr := []byte{
		0x01, 0x02, 0x03, 0x04, 0x05, 0x06, 0x07, 0x08, 0x09, 0x0A, 0x0B, 0x0C,
		0x0D, 0x0E, 0x0F, 0x10, 0x11, 0x12, 0x13, 0x14, 0x15, 0x16, 0x17, 0x18,
	}
	for _, row := range []struct {
		data  []byte
		space rtpwire.ColorSpace
	}{
		{[]byte{1, 2, 3, 0x24}, rtpwire.ColorSpace{Primaries: 1, Transfer: 2, Matrix: 3,
			Range: rtpwire.FullRange, Horizontal: rtpwire.CollocatedSiting}},
		{[]byte{9, 16, 255, 0x19}, rtpwire.ColorSpace{Primaries: 9, Transfer: 16, Matrix: 255,
			Range: rtpwire.LimitedRange, Horizontal: rtpwire.HalfSiting, Vertical: rtpwire.CollocatedSiting}},
		{[]byte{0, 0, 0, 0x32}, rtpwire.ColorSpace{Range: rtpwire.DerivedRange, Vertical: rtpwire.HalfSiting}},
		{append([]byte{4, 5, 6, 0x00}, hdr...), rtpwire.ColorSpace{Primaries: 4, Transfer: 5, Matrix: 6, HasHDR: true,
			HDR: rtpwire.HDRMetadata{
				LuminanceMax: 0x0102, LuminanceMin: 0x0304,
				Red: rtpwire.Chromaticity{0x0506, 0x0708}, Green: rtpwire.Chromaticity{0x090A, 0x0B0C},
				Blue: rtpwire.Chromaticity{0x0D0E, 0x0F10}, White: rtpwire.Chromaticity{0x1112, 0x1314},
				MaxContentLightLevel: 0x1516, MaxFrameAverageLightLevel: 0x1718,
			}}},
	} {
		same(t, "read", read(rtpwire.ParseColorSpace(row.data)), read(row.space, nil))
		same(t, "written", appended(t, row.space.Append), row.data)
		other := append([]byte(nil), row.data...)
		other[3] |= 0xC0
		same(t, "with other high bits", read(rtpwire.ParseColorSpace(other)), read(row.space, nil))
	}
	ignored := rtpwire.ColorSpace{Matrix: 1, HDR: rtpwire.HDRMetadata{LuminanceMax: 7}}
	same(t, "without metadata", appended(t, ignored.Append), []byte{0, 0, 1, 0})
	for _, sampling := range []byte{0x03, 0x0C, 0x0F, 0x1D, 0x37} {
		for _, length := range []int{4, 28} {
			data := make([]byte, length)
			data[3] = sampling
			_, err := rtpwire.ParseColorSpace(data)
			same(t, "a siting of 3", err, rtpwire.ErrBadField)
		}
	}
	refused(t, rtpwire.ColorSpace{Range: 4}.Append, "Range is 4, and not 0 to 3")
	refused(t, rtpwire.ColorSpace{Horizontal: 3}.Append, "Horizontal is 3, and not 0 to 2")
	refused(t, rtpwire.ColorSpace{Vertical: 255, HasHDR: true}.Append, "Vertical is 255, and not 0 to 2")
	notOf(t, rtpwire.ParseColorSpace, 4, 28)
}

// AV1's RTP payload format, A.8: two bits, six of the template, and 16 of the frame.
func TestDependencyDescriptors(t *testing.T) {
	for _, row := range []struct {
		data       []byte
		descriptor rtpwire.DependencyDescriptor
	}{
		{[]byte{0x83, 1, 2}, rtpwire.DependencyDescriptor{StartOfFrame: true, TemplateID: 3, FrameNumber: 0x0102}},
		{[]byte{0x40, 0xFF, 0xFE}, rtpwire.DependencyDescriptor{EndOfFrame: true, FrameNumber: 0xFFFE}},
		{[]byte{0x3F, 0, 0}, rtpwire.DependencyDescriptor{TemplateID: 63}},
		{[]byte{0xE0, 0, 9},
			rtpwire.DependencyDescriptor{StartOfFrame: true, EndOfFrame: true, TemplateID: 32, FrameNumber: 9}},
	} {
		same(t, "read", read(rtpwire.ParseDependencyDescriptor(row.data)), read(row.descriptor, nil))
		longer := append(append([]byte(nil), row.data...), 0x80, 7, 8)
		same(t, "with more", read(rtpwire.ParseDependencyDescriptor(longer)), read(row.descriptor, nil))
		same(t, "written", appended(t, row.descriptor.Append), row.data)
	}
	refused(t, rtpwire.DependencyDescriptor{TemplateID: 64}.Append, "TemplateID is 64, and not 0 to 63")
	refused(t, rtpwire.DependencyDescriptor{TemplateID: 255}.Append, "TemplateID is 255, and not 0 to 63")
	for length := 0; length < 300; length++ {
		_, err := rtpwire.ParseDependencyDescriptor(make([]byte, length))
		same(t, "taken", err == nil, length >= 3)
		data := bytes.Repeat([]byte{0x80}, length)
		same(t, "structure", rtpwire.HasDependencyStructure(data), length > 3)
		if length > 3 {
			data[3] = 0x7F
			same(t, "no structure", rtpwire.HasDependencyStructure(data), false)
		}
	}
}

// What a peer sent, refused or not, takes no memory, and neither does what is appended where there is room.
func TestStandardValuesTakeNoMemory(t *testing.T) {
	data, room := make([]byte, 28), make([]byte, 0, 100)
	marking, descriptor := rtpwire.FrameMarking{HasLayers: true}, rtpwire.DependencyDescriptor{EndOfFrame: true}
	taken := testing.AllocsPerRun(100, func() {
		for _, length := range []int{0, 1, 4, 13, 28} {
			_, _ = rtpwire.ParseFrameMarking(data[:length])
			_, _ = rtpwire.ParseOrientation(data[:length])
			_, _ = rtpwire.ParseTiming(data[:length])
			_, _ = rtpwire.ParseTransportNumber(data[:length])
			_, _ = rtpwire.ParseColorSpace(data[:length])
			_, _ = rtpwire.ParseDependencyDescriptor(data[:length])
			_, _ = rtpwire.ParseMixerLevel(data[:length], 2, 1)
			_, _ = rtpwire.ParseTransmissionOffset(data[:length])
			_, _ = rtpwire.ParseNTP56(data[:length])
		}
		_, _ = marking.Append(room)
		_, _ = descriptor.Append(room)
		_, _ = rtpwire.ColorSpace{HasHDR: true}.Append(room)
		_ = rtpwire.AppendNTP64(room, 1)
	})
	same(t, "memory taken", taken, 0.0)
}
