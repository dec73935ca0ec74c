package rtpwire_test

import (
	"errors"
	"fmt"
	"testing"

	"rtp-wire.example/rtpwire"
)

// A datagram that is no packet tells nothing of the one that stood at its place before.
func TestNothingOfThePacketBeforeIsTold(t *testing.T) {
	m := everyKind(t)
	notAPacket := []struct {
		at, length int
		err        error
	}{{0, 11, rtpwire.CutFixedPart}, {4, 20, rtpwire.OtherVersion}, {0, 38, rtpwire.ErrBadField}}
	for _, row := range notAPacket {
		var headers rtpwire.HeaderBatch
		var packets rtpwire.PacketBatch
		headers.Add(0, 37)
		packets.Add(0, 37)
		headers.Parse(sample(), m)
		packets.Parse(sample())
		same(t, "before", []any{headers.HeaderLen(0), packets.HeaderLen(0), packets.BlockProfile(0)}, []any{32, 32, uint16(0xBEDE)})
		headers.Reset()
		packets.Reset()
		headers.Add(row.at, row.length)
		packets.Add(row.at, row.length)
		headers.Parse(sample(), m)
		packets.Parse(sample())
		what := fmt.Sprint(row)
		header, err := headers.At(0)
		fields, otherErr := packets.At(0)
		same(t, what, []any{header == nil, fields == nil, err, otherErr}, []any{true, true, row.err, row.err})
		same(t, what+": lengths", []int{headers.HeaderLen(0), packets.HeaderLen(0)}, []int{0, 0})
		same(t, what+": payloads", [][]byte{headers.Payload(0), packets.Payload(0)}, [][]byte{nil, nil})
		unpadded, fits := headers.UnpaddedPayload(0)
		otherUnpadded, otherFits := packets.UnpaddedPayload(0)
		same(t, what+": unpadded", []any{unpadded, fits, otherUnpadded, otherFits}, []any{[]byte(nil), false, []byte(nil), false})
		form, body := packets.Block(0)
		same(t, what+": block", []any{form, body, packets.BlockProfile(0)}, []any{rtpwire.NoBlock, []byte(nil), uint16(0)})
	}
}

// After a Reset a batch tells of none, until it has read or judged again.
func TestResetBatchesTellOfNone(t *testing.T) {
	var headers rtpwire.HeaderBatch
	var packets rtpwire.PacketBatch
	var arrivals rtpwire.ArrivalBatch
	receivers := make([]rtpwire.Receiver, 1)
	for round := 1; round <= 2; round++ {
		for i := 0; i < 3; i++ {
			headers.Add(0, 37)
			packets.Add(0, 37)
			arrivals.Add(0, uint16(3*round+i))
		}
		headers.Parse(sample(), nil)
		packets.Parse(sample())
		arrivals.Receive(receivers)
		lengths := func() []int { return []int{headers.Len(), packets.Len(), arrivals.Len()} }
		same(t, "read and judged", lengths(), []int{3, 3, 3})
		headers.Reset()
		packets.Reset()
		arrivals.Reset()
		same(t, "of none", lengths(), []int{0, 0, 0})
		headers.Add(0, 37)
		packets.Add(0, 37)
		arrivals.Add(0, 1)
		same(t, "of one that isn't read yet", lengths(), []int{0, 0, 0})
		headers.Reset()
		packets.Reset()
		arrivals.Reset()
	}
}

// Each part of a packet of a batch ends where it does: what is appended to it is no part of the buffer. What is written
// through it is.
func TestPartsOfABatchEnd(t *testing.T) {
	var headers rtpwire.HeaderBatch
	var packets rtpwire.PacketBatch
	buf := append(sample(), sample()...)
	headers.Add(0, 37)
	packets.Add(0, 37)
	headers.Parse(buf, nil)
	packets.Parse(buf)
	_, body := packets.Block(0)
	unpadded, _ := headers.UnpaddedPayload(0)
	otherUnpadded, _ := packets.UnpaddedPayload(0)
	parts := []struct {
		what       string
		part       []byte
		at, length int
	}{
		{"datagram", headers.Datagram(0), 0, 37}, {"other datagram", packets.Datagram(0), 0, 37},
		{"payload", headers.Payload(0), 32, 5}, {"other payload", packets.Payload(0), 32, 5},
		{"unpadded", unpadded, 32, 3}, {"other unpadded", otherUnpadded, 32, 3}, {"body", body, 24, 8},
	}
	for _, row := range parts {
		same(t, row.what, []any{row.part, cap(row.part)}, []any{sample()[row.at:][:row.length], row.length})
		_ = append(row.part, 0x77)
	}
	same(t, "after appends", buf, append(sample(), sample()...))
	for i, row := range parts {
		row.part[row.length-1] = byte(0xE0 + i)
		same(t, row.what+" is a part of the buffer", buf[row.at+row.length-1], byte(0xE0+i))
	}
}

// What At lends is a part of the batch, and no copy.
func TestAtLendsAPartOfTheBatch(t *testing.T) {
	var headers rtpwire.HeaderBatch
	var packets rtpwire.PacketBatch
	headers.Add(0, 37)
	packets.Add(0, 37)
	headers.Parse(sample(), nil)
	packets.Parse(sample())
	first, _ := headers.At(0)
	second, _ := headers.At(0)
	same(t, "a header", first == second, true)
	one, _ := packets.At(0)
	other, _ := packets.At(0)
	same(t, "fields", one == other, true)
	allocated := testing.AllocsPerRun(10, func() {
		headers.Reset()
		packets.Reset()
		headers.Add(0, 37)
		packets.Add(0, 37)
		headers.Parse(nil, nil)
		packets.Parse(nil)
		_, _ = headers.At(0)
		_, _ = packets.At(0)
	})
	same(t, "memory for a batch that is used again", allocated, 0.0)
}

// A row of packets that a WideRestartingReceiver refuses is read packet by packet, and so is a replay.
func TestRefusedPacketsAreRead(t *testing.T) {
	receivers := []interface {
		ReceivePacket([]byte, *rtpwire.Map, *rtpwire.Packet) (uint64, rtpwire.Verdict, error)
	}{new(rtpwire.RestartingReceiver), wideRestarting(t, 2, rtpwire.RestartBounds{})}
	for _, r := range receivers {
		var p rtpwire.Packet
		for _, row := range []judged{
			{1000, 66536, rtpwire.Taken}, {1000, 0, rtpwire.Refused}, {30000, 0, rtpwire.Refused}, {30001, 226609, rtpwire.Restarted},
		} {
			datagram := append(plain(row.low), byte(row.low))
			number, verdict, err := r.ReceivePacket(datagram, nil, &p)
			same(t, "verdict", []any{judged{row.low, number, verdict}, err}, []any{row, nil})
			same(t, "read", []any{p.SequenceNumber(), p.Payload()}, []any{row.low, []byte{'h', 'i', byte(row.low)}})
			same(t, "of this datagram", &p.Datagram()[0] == &datagram[0], true)
		}
		before := p
		number, verdict, err := r.ReceivePacket(plain(5)[:11], nil, &p)
		same(t, "no packet", []any{number, verdict, err}, []any{uint64(0), rtpwire.Refused, rtpwire.CutFixedPart})
		same(t, "nothing changes", p, before)
	}
}

// How many came is of all intervals, and not of the last one.
func TestReceivedIsOfAllReports(t *testing.T) {
	var s rtpwire.ReceptionStatistics
	for number := uint64(10); number < 13; number++ {
		s.Record(number, 0, 0)
	}
	reports(t, &s, 0, 0, 12, 0)
	same(t, "after a report", s.Received(), uint64(3))
	s.Record(13, 0, 0)
	same(t, "and one more", s.Received(), uint64(4))
	reports(t, &s, 0, 0, 13, 0)
	same(t, "after two", s.Received(), uint64(4))
}

// Values that were set and taken away again are those that were never set, and a header with them has no block.
func TestClearedValuesAreNone(t *testing.T) {
	all := parsed(t, everyValue, everyKind(t)).Header().Values
	for kind := rtpwire.KindAbsSendTime; kind <= rtpwire.KindLayers; kind++ {
		same(t, "with "+kind.String(), rtpwire.NewHeader(all).HasExtension, true)
		all.Clear(kind)
	}
	same(t, "none is left", all, rtpwire.Values{})
	same(t, "a block", rtpwire.NewHeader(all).HasExtension, false)
	for kind := rtpwire.KindAbsSendTime; kind <= rtpwire.KindLayers; kind++ {
		one := parsed(t, everyValue, everyKind(t)).Header().Values
		for it := rtpwire.KindAbsSendTime; it <= rtpwire.KindLayers; it++ {
			if it != kind {
				one.Clear(it)
			}
		}
		same(t, "a block for "+kind.String()+" alone", rtpwire.NewHeader(one).HasExtension, kind != rtpwire.KindColorSpace)
		one.Clear(kind)
		same(t, "none without "+kind.String(), rtpwire.NewHeader(one).HasExtension, false)
	}
}

// A batch that reads another buffer, with or without a Reset, lends parts of that one.
func TestEachParseHasItsOwnBuffer(t *testing.T) {
	var headers rtpwire.HeaderBatch
	var packets rtpwire.PacketBatch
	headers.Add(0, 37)
	packets.Add(0, 37)
	buffers := [][]byte{sample(), append(sample()[:32:32], 7, 8, 9, 0, 2, 0xEE), sample()}
	for i, buf := range buffers {
		headers.Parse(buf, nil)
		packets.Parse(buf)
		for what, part := range map[string][]byte{
			"payload": headers.Payload(0), "other payload": packets.Payload(0),
			"datagram": headers.Datagram(0)[32:], "other datagram": packets.Datagram(0)[32:],
		} {
			same(t, fmt.Sprint(what, i), []any{part, &part[0] == &buf[32]}, []any{buf[32:37], true})
		}
		_, body := packets.Block(0)
		same(t, "body", &body[0] == &buf[24], true)
	}
	// One that is shorter has the datagram no more.
	headers.Parse(sample()[:36], nil)
	packets.Parse(sample()[:36:36])
	same(t, "shorter", [][]byte{headers.Payload(0), packets.Payload(0), headers.Datagram(0), packets.Datagram(0)}, make([][]byte, 4))
}

// What lies behind the slices that are given is neither read nor judged: a datagram, a receiver.
func TestWhatLiesBehindTheSlices(t *testing.T) {
	var headers rtpwire.HeaderBatch
	var packets rtpwire.PacketBatch
	for _, length := range []int{36, 37} {
		headers.Add(0, length)
		packets.Add(0, length)
	}
	headers.Parse(sample()[:36], nil)
	packets.Parse(sample()[:36])
	for i, wanted := range []error{nil, rtpwire.ErrBadField} {
		_, err := headers.At(i)
		_, otherErr := packets.At(i)
		same(t, "datagrams", []error{err, otherErr}, []error{wanted, wanted})
	}
	receivers := make([]rtpwire.Receiver, 2)
	var arrivals rtpwire.ArrivalBatch
	arrivals.Add(0, 5)
	arrivals.Add(1, 6)
	arrivals.Receive(receivers[:1])
	number, err := arrivals.At(0)
	same(t, "the first", []any{number, err}, []any{uint64(5), nil})
	number, err = arrivals.At(1)
	same(t, "the one behind", []any{number, err, receivers[1]}, []any{uint64(0), rtpwire.ErrBadField, rtpwire.Receiver{}})
}

// How many are read or judged in one call isn't limited: 65,836 headers, each with its number as timestamp.
func TestHowManyAreReadAtOnce(t *testing.T) {
	const many = 1<<16 + 300
	buf := make([]byte, 0, 12*many)
	var headers rtpwire.HeaderBatch
	var packets rtpwire.PacketBatch
	var arrivals rtpwire.ArrivalBatch
	for i := 0; i < many; i++ {
		buf = append(buf, 0x80, 96, byte(i>>8), byte(i), byte(i>>24), byte(i>>16), byte(i>>8), byte(i), 0, 0, 0, 7)
		headers.Add(12*i, 12)
		packets.Add(12*i, 12)
		arrivals.Add(i, uint16(i))
	}
	headers.Parse(buf, nil)
	packets.Parse(buf)
	arrivals.Receive(make([]rtpwire.Receiver, many))
	same(t, "how many", []int{headers.Len(), packets.Len(), arrivals.Len()}, []int{many, many, many})
	for i := 0; i < many; i++ {
		header, err := headers.At(i)
		fields, otherErr := packets.At(i)
		number, refused := arrivals.At(i)
		if err != nil || otherErr != nil || refused != nil {
			t.Fatal(i, err, otherErr, refused)
		}
		if header.Timestamp != uint32(i) || fields.Timestamp != uint32(i) || number != uint64(uint16(i)) {
			t.Fatal(i, header.Timestamp, fields.Timestamp, number)
		}
	}
}

// HDR metadata of zeros is there, where it is said to be.
func TestZerosOfAColorSpaceAreThere(t *testing.T) {
	space := rtpwire.ColorSpace{HasHDR: true}
	data, err := space.Append(nil)
	same(t, "written", []any{data, err}, []any{make([]byte, 28), nil})
	read, err := rtpwire.ParseColorSpace(data)
	same(t, "read", []any{read, err}, []any{space, nil})
	read, err = rtpwire.ParseColorSpace(data[:4])
	same(t, "without", []any{read, err}, []any{rtpwire.ColorSpace{}, nil})
}

// What is known of a number hangs on all of its 64 bits.
func TestStandingOfNumbersOf64Bits(t *testing.T) {
	const first = 1<<63 | 1<<40 | 5
	narrow, err := rtpwire.NewReceiver(first >> 16 & (1<<48 - 1))
	same(t, "made", err, nil)
	wide, err := rtpwire.NewWideReceiver(2, first>>16)
	same(t, "made", err, nil)
	for _, r := range []interface {
		Receive(uint16) (uint64, bool)
		NumberOf(uint16) uint64
		Accepts(uint64) bool
		StandingOf(uint64) rtpwire.Standing
	}{narrow, wide} {
		number, ok := r.Receive(5)
		same(t, "taken", []any{number, ok, r.NumberOf(5), r.NumberOf(4)}, []any{uint64(first), true, uint64(first), uint64(first - 1)})
		for number, wanted := range map[uint64]rtpwire.Standing{
			first: rtpwire.StandingTaken, first - 1: rtpwire.StandingNew, first - 127: rtpwire.StandingNew,
			first - 128: rtpwire.StandingTooOld, first + 1: rtpwire.StandingNew, first ^ 1<<63: rtpwire.StandingTooOld,
			first ^ 1<<40: rtpwire.StandingTooOld, 5: rtpwire.StandingTooOld, 1<<64 - 1: rtpwire.StandingNew, 0: rtpwire.StandingTooOld,
		} {
			same(t, fmt.Sprintf("%#x", number), []any{r.StandingOf(number), r.Accepts(number)}, []any{wanted, wanted == rtpwire.StandingNew})
		}
	}
	for _, r := range []interface {
		Receive(uint16) (uint64, rtpwire.Verdict)
		StandingOf(uint64) rtpwire.Standing
	}{new(rtpwire.RestartingReceiver), wideRestarting(t, 2, rtpwire.RestartBounds{})} {
		r.Receive(5) // 65,541
		for number, wanted := range map[uint64]rtpwire.Standing{
			65541: rtpwire.StandingTaken, 65541 | 1<<32: rtpwire.StandingNew, 65541 | 1<<63: rtpwire.StandingNew, 1 << 32: rtpwire.StandingNew,
			5: rtpwire.StandingTooOld, 1<<64 - 1: rtpwire.StandingNew,
		} {
			same(t, fmt.Sprintf("%#x of the epoch", number), r.StandingOf(number), wanted)
		}
	}
}

// A value of 0, of false or without a character is there: a header has a block for each alone.
func TestEachZeroMakesABlock(t *testing.T) {
	set := map[rtpwire.Kind]func(*rtpwire.Values){
		rtpwire.KindAbsSendTime:        func(v *rtpwire.Values) { v.SetSendTime(0) },
		rtpwire.KindAbsCaptureTime:     func(v *rtpwire.Values) { v.SetCaptureTime(0) },
		rtpwire.KindAudioLevel:         func(v *rtpwire.Values) { v.SetAudioLevel(0, false) },
		rtpwire.KindTransmissionOffset: func(v *rtpwire.Values) { v.SetTransmissionOffset(0) },
		rtpwire.KindVideoOrientation:   func(v *rtpwire.Values) { v.SetVideoOrientation(0) },
		rtpwire.KindTransportNumber:    func(v *rtpwire.Values) { v.SetTransportNumber(0) },
		rtpwire.KindPlayoutDelay:       func(v *rtpwire.Values) { v.SetPlayoutDelay(0, 0) },
		rtpwire.KindVideoContentType:   func(v *rtpwire.Values) { v.SetVideoContentType(0) },
		rtpwire.KindVideoTiming:        func(v *rtpwire.Values) { v.SetVideoTiming(rtpwire.VideoTiming{}) },
		rtpwire.KindRID:                func(v *rtpwire.Values) { same(t, "rid", v.SetRID(""), nil) },
		rtpwire.KindRepairedRID:        func(v *rtpwire.Values) { same(t, "repaired", v.SetRepairedRID(""), nil) },
		rtpwire.KindMID:                func(v *rtpwire.Values) { same(t, "mid", v.SetMID(""), nil) },
		rtpwire.KindFrameMarking:       func(v *rtpwire.Values) { v.SetFrameMarking(0) },
	}
	for kind, set := range set {
		var v rtpwire.Values
		set(&v)
		h := rtpwire.NewHeader(v)
		kinds, err := h.LeftOut(nil)
		same(t, kind.String(), []any{h.HasExtension, kinds.Kinds(), err}, []any{true, []rtpwire.Kind{kind}, nil})
	}
	var v rtpwire.Values
	v.SetCaptureOffset(0)
	same(t, "an offset alone", rtpwire.NewHeader(v).HasExtension, true)
}

// No packet has more than 15 sources (RFC 3550, 5.1), and the last of these levels is judged too.
func TestManyLevels(t *testing.T) {
	levels := make([]int8, 15, 1000)
	data, err := rtpwire.AppendMixerLevels([]byte{7}, levels)
	same(t, "written", []any{len(data), data[0], err}, []any{16, byte(7), nil})
	levels[14] = 1
	data, err = rtpwire.AppendMixerLevels([]byte{7}, levels)
	same(t, "refused", []any{data, err.Error()}, []any{[]byte{7}, "rtpwire: the level 14 is 1, and not -127 to 0"})
	levels[14] = 0
	for _, count := range []int{16, 255, 256, 300, 1000} {
		data, err = rtpwire.AppendMixerLevels([]byte{7}, levels[:count])
		wanted := fmt.Sprintf("rtpwire: the number of levels is %d, and not 0 to 15", count)
		same(t, "too many", []any{data, err.Error(), errors.Is(err, rtpwire.ErrBadField)}, []any{[]byte{7}, wanted, true})
	}
}

// No bit of a number is lost on the way to the library: those of a report and of its block, and of a level's place.
func TestBitsOfReports(t *testing.T) {
	report := rtpwire.ReceptionReport{FractionLost: 0x81, CumulativeLost: -8388608, ExtendedHighest: 0x82838485, Jitter: 0x92939495}
	block := report.AppendBlock(nil, 0xA2A3A4A5, 0xB2B3B4B5, 0xC2C3C4C5)
	same(t, "a block", fmt.Sprintf("%X", block), "A2A3A4A5"+"81800000"+"82838485"+"92939495"+"B2B3B4B5"+"C2C3C4C5")
	// Three were due and two came, whatever the rollovers; transit times of 2^31 and 2^31 + 32 ticks.
	for _, first := range []uint64{0, 1<<32 - 1, 1<<48 - 1, 1<<63 - 1} {
		var s rtpwire.ReceptionStatistics
		s.Record(first, 1<<31, 0)
		s.Record(first+2, 1<<31|1<<16, 1<<16|32)
		report, ok := s.Report()
		same(t, fmt.Sprintf("%#x", first), []any{report.CumulativeLost, report.FractionLost, report.Jitter, ok}, []any{int32(1), uint8(85), uint32(2), true})
	}
	for _, index := range []int{2, 256, 1 << 16, 1 << 32} {
		_, err := rtpwire.ParseMixerLevel([]byte{1, 2}, 2, index)
		level, found := rtpwire.ParseMixerLevel([]byte{1, 2}, index, 1)
		same(t, fmt.Sprint(index), []any{err, level, found}, []any{rtpwire.ErrBadField, int8(-2), nil})
	}
}

// Each number but those of the forms is none, where a form is asked for or allowed.
func TestEachNumberOfAForm(t *testing.T) {
	for number := 0; number < 256; number++ {
		form := rtpwire.Form(number)
		buf := append(sample(), make([]byte, 40)...)
		_, err := rtpwire.ChangeFormIn(buf, 37, form)
		same(t, "changed to "+form.String(), err == nil, number == 1 || number == 2)
		_, err = rtpwire.AddElementIn(append(sample(), make([]byte, 40)...), 37, 3, []byte{1}, rtpwire.Forms(form))
		same(t, "added in "+form.String(), err == nil, number <= 2)
		_, err = rtpwire.PutElementIn(append(sample(), make([]byte, 40)...), 37, 3, []byte{1}, rtpwire.Forms(form))
		same(t, "put in "+form.String(), err == nil, number <= 2)
	}
}

// A set may have each kind at once.
func TestASetOfAllKinds(t *testing.T) {
	all := rtpwire.KindSet(1<<(rtpwire.KindLayers+1) - 2)
	var kinds []rtpwire.Kind
	for kind := rtpwire.KindAbsSendTime; kind <= rtpwire.KindLayers; kind++ {
		kinds = append(kinds, kind)
		same(t, kind.String(), all.Contains(kind), true)
		same(t, kind.String()+" alone", rtpwire.KindSet(1<<kind).Kinds(), []rtpwire.Kind{kind})
	}
	same(t, "all", all.Kinds(), kinds)
}
