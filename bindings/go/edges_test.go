package rtpwire_test

import (
	"errors"
	"math"
	"testing"

	"rtp-wire.example/rtpwire"
)

// with is a packet with this number and payload.
func with(number uint16, payload string) []byte {
	return append(plain(number)[:12], payload...)
}

// The bytes of a Packet are those of the datagram whose fields it has, whatever became of that.
func TestFieldsAndBytesAreOfOneDatagram(t *testing.T) {
	type call = func([]byte, *rtpwire.Map, *rtpwire.Packet) (uint64, error)
	receiver, err := rtpwire.NewReceiver(1)
	same(t, "made", err, nil)
	wideReceiver := wide(t, 2, 1)
	for what, calls := range map[string][2]call{
		"receiver": {receiver.CheckPacket, receiver.ReceivePacket}, "wide": {wideReceiver.CheckPacket, wideReceiver.ReceivePacket},
	} {
		var packet rtpwire.Packet
		reads := func(call call, datagram []byte, wanted error) {
			t.Helper()
			_, err := call(datagram, nil, &packet)
			same(t, what, []any{err, packet.SequenceNumber(), packet.Payload(), packet.Datagram()},
				[]any{wanted, uint16(datagram[2])<<8 | uint16(datagram[3]), datagram[12:], datagram})
		}
		reads(calls[0], with(5, "checked"), nil)
		reads(calls[1], with(5, "taken"), nil)
		reads(calls[0], with(5, "checked again"), rtpwire.ErrRefused)
		reads(calls[1], with(5, "taken again"), rtpwire.ErrRefused)
		reads(calls[0], with(700, "far ahead"), nil)
		reads(calls[1], with(700, "taken too"), nil)
		reads(calls[0], with(6, "too old"), rtpwire.ErrRefused)
		reads(calls[1], with(7, "too old again"), rtpwire.ErrRefused)
	}
	var restarting rtpwire.RestartingReceiver
	var packet rtpwire.Packet
	for _, row := range []struct {
		datagram []byte
		number   uint64
		verdict  rtpwire.Verdict
	}{
		{with(5, "taken"), 65541, rtpwire.Taken},
		{with(5, "a replay"), 0, rtpwire.Refused},
		{with(20000, "outside"), 0, rtpwire.Refused},
		{with(20001, "restarted"), 216609, rtpwire.Restarted},
		{with(20002, "taken then"), 216610, rtpwire.Taken},
	} {
		number, verdict, err := restarting.ReceivePacket(row.datagram, nil, &packet)
		same(t, "verdict", []any{number, verdict, err}, []any{row.number, row.verdict, nil})
		same(t, "read", []any{packet.SequenceNumber(), packet.Payload(), packet.Datagram()},
			[]any{uint16(row.number) | uint16(row.datagram[2])<<8 | uint16(row.datagram[3]), row.datagram[12:], row.datagram})
	}
	same(t, "verdicts", []rtpwire.Verdict{rtpwire.Refused, rtpwire.Taken, rtpwire.Restarted}, []rtpwire.Verdict{0, 1, 2})
}

// A fresh receiver is as the zero one where it says so, and keeps no number that it doesn't take.
func TestFreshReceivers(t *testing.T) {
	r, err := rtpwire.NewReceiver(0)
	same(t, "as the zero one", []any{*r, err}, []any{rtpwire.Receiver{}, nil})
	same(t, "the first", []uint64{r.NumberOf(0), r.NumberOf(65535)}, []uint64{0, 65535})
	for _, number := range []uint64{0, 1 << 32, math.MaxUint64} {
		one, w := rtpwire.Receiver{}, wide(t, 1, 0)
		one.Record(number)
		same(t, "recorded", w.Record(number), true)
		for _, r := range []stateful{&one, w} {
			highest, ok := r.Highest()
			same(t, "highest", []any{highest, ok, r.Accepts(number), r.NumberOf(uint16(number))}, []any{number, true, false, number})
		}
	}
	w := wide(t, 1, 0)
	same(t, "not yet", []any{w.NumberOf(7), w.Accepts(7), w.Accepts(math.MaxUint64)}, []any{uint64(7), true, true})
	// Too many words, and a rollover count that is too great, each alone and together.
	for _, row := range []struct {
		words int
		count uint64
	}{{513, 0}, {0, 1 << 48}, {1 << 32, 0}, {1<<32 + 1, 0}, {math.MinInt64, 0}, {512, 1 << 48}, {512, math.MaxUint64}} {
		w, err := rtpwire.NewWideReceiver(row.words, row.count)
		same(t, "none", []any{w, err}, []any{(*rtpwire.WideReceiver)(nil), rtpwire.ErrBadField})
	}
	none, err := rtpwire.NewReceiver(math.MaxUint64)
	same(t, "none", []any{none, err}, []any{(*rtpwire.Receiver)(nil), rtpwire.ErrBadField})
}

// The bounds of a restarting receiver are those that it was given.
func TestBoundsOfARestartingReceiver(t *testing.T) {
	// One below the bound is of the stream; 0 stands for 3,000, and 65,535 are all that are ahead.
	for _, row := range []struct{ bound, within, outside uint16 }{{0, 2999, 3000}, {1, 0, 1}, {2, 1, 2}, {256, 255, 256}, {3001, 3000, 3001}} {
		r := rtpwire.RestartingReceiver{MaxDropout: row.bound}
		judges(t, &r, []judged{{100, 65636, rtpwire.Taken}, {100 + row.outside, 0, rtpwire.Refused}})
		if row.within != 0 {
			judges(t, &r, []judged{{100 + row.within, 65636 + uint64(row.within), rtpwire.Taken}})
		}
		same(t, "bound", r.MaxDropout, row.bound)
	}
	// As many in a row as are wanted, up to 255.
	for _, row := range []uint8{0, 1, 2, 3, 128, 255} {
		r := rtpwire.RestartingReceiver{MinSequential: row}
		for at := uint16(1); at < uint16(row); at++ {
			judges(t, &r, []judged{{at, 0, rtpwire.Refused}})
		}
		last := uint16(row)
		if row == 0 {
			last = 1
		}
		judges(t, &r, []judged{{last, 65536 + uint64(last), rtpwire.Taken}})
		same(t, "bound", r.MinSequential, row)
	}
}

// What a call makes of a buffer is the first bytes of that, with the room behind them.
func TestFirstBytesOfTheBuffer(t *testing.T) {
	buf := append(sample(), make([]byte, 27)...)
	is := func(what string, made []byte, err error, length int) {
		t.Helper()
		if err != nil || len(made) != length || &made[0] != &buf[0] || cap(made) != cap(buf) {
			t.Errorf("%s: %d of %d bytes, %v", what, len(made), cap(made), err)
		}
	}
	made, err := rtpwire.PutElementIn(buf, 37, 3, []byte{1}, rtpwire.AnyForm)
	is("put", made, err, 41)
	made, err = rtpwire.RemovePadding(made)
	is("without padding", made, err, 39)
	made, err = rtpwire.Compact(made)
	is("compact", made, err, 39)
	made, err = rtpwire.ToRetransmissionIn(buf, 39, 1, 2, 3, new(rtpwire.NewIDs))
	is("sent again", made, err, 41)
	made, err = rtpwire.FromRetransmissionIn(buf, 41, 1, 2, new(rtpwire.NewIDs))
	is("restored", made, err, 39)
	data, err := new(rtpwire.Values).DataOf(rtpwire.KindMID, buf)
	same(t, "no mid", []any{data, err}, []any{[]byte(nil), rtpwire.ErrNotFound})
	var v rtpwire.Values
	v.SetTransportNumber(7)
	data, err = v.DataOf(rtpwire.KindTransportNumber, buf)
	is("data", data, err, 2)
}

// What Pad is given, at the ends of its range and outside.
func TestEndsOfPad(t *testing.T) {
	for _, row := range []struct {
		headerLen int
		padLen    uint8
		blockSize int
		count     int
		err       error
	}{
		{12, 0, -1, 0, rtpwire.ErrBadField},
		{12, 0, 0, 0, rtpwire.ErrBadField},
		{12, 0, math.MinInt64, 0, rtpwire.ErrBadField},
		{12, 1, math.MinInt64, 0, rtpwire.ErrBadField},
		{300, 1, -1, 0, rtpwire.ErrBadField},
		{300, 1, 0, 0, rtpwire.ErrBadField},
		{300, 0, 1, 0, nil},
		{-1, 0, 1, 0, nil},
		{math.MinInt64, 1, 1, 0, rtpwire.ErrShortBuffer},
		{math.MaxInt64, 1, 1, 0, rtpwire.ErrShortBuffer},
		{12, 1, 1, 1, nil},
		{12, 5, 4, 8, nil},
		{12, 1, 240, 240, nil},
		{12, 1, 241, 240, nil},
		{12, 1, math.MaxInt64, 240, nil},
		{12, 240, 1, 240, nil},
		{12, 241, 1, 240, nil},
	} {
		buf := make([]byte, 252)
		count, err := rtpwire.Pad(buf, row.headerLen, row.padLen, row.blockSize)
		same(t, "pad", []any{count, err}, []any{row.count, row.err})
		same(t, "P", buf[0] == 0x20, row.count != 0)
	}
}

// Lengths that are none of the buffer.
func TestLengthsOfNoBuffer(t *testing.T) {
	buf := append(sample(), make([]byte, 27)...)
	before := append([]byte(nil), buf...)
	for _, length := range []int{-1, math.MinInt64, 65, math.MaxInt64, -1 << 32, 1<<32 + 37} {
		made, err := rtpwire.PutElementIn(buf, length, 1, nil, rtpwire.AnyForm)
		same(t, "put", []any{made, err}, []any{[]byte(nil), rtpwire.ErrBadField})
		made, err = rtpwire.ToRetransmissionIn(buf, length, 1, 2, 3, new(rtpwire.NewIDs))
		same(t, "sent again", []any{made, err}, []any{[]byte(nil), rtpwire.ErrBadField})
		made, err = rtpwire.FromRetransmissionIn(buf, length, 1, 2, new(rtpwire.NewIDs))
		same(t, "restored", []any{made, err}, []any{[]byte(nil), rtpwire.ErrBadField})
	}
	for _, index := range []int{2, math.MaxInt64, math.MinInt64, 1 << 32, 1 << 8} {
		same(t, "no source", rtpwire.SetCSRCAt(buf, index, 9), rtpwire.ErrNotFound)
	}
	same(t, "unchanged", buf, before)
	// Data whose length has the low bits of another one: 1 byte, 2 bytes, and none.
	for _, length := range []int{256, 257, 258, 65536, 65537, 65538} {
		for id := uint8(1); id <= 2; id++ {
			same(t, "another length", rtpwire.SetElement(buf, id, make([]byte, length)), rtpwire.ErrNotFound)
		}
	}
	same(t, "unchanged", buf, before)
	// All forms that may be allowed, and all others. The id 0 is none.
	for form := 0; form < 256; form++ {
		_, err := rtpwire.PutElementIn(append([]byte(nil), buf...), 37, 1, []byte{9}, rtpwire.Forms(form))
		same(t, "form", err == nil, form <= 2)
		same(t, "no form", err == rtpwire.ErrBadField, form > 2)
		places := []rtpwire.Place{{ID: 1, Len: 1}}
		_, err = rtpwire.WriteElements(make([]byte, 64), rtpwire.Form(form), []byte{9}, places)
		is := form == 1 || form == 2
		same(t, "form of elements", []bool{err == nil, err == rtpwire.ErrBadField}, []bool{is, !is})
		_, err = new(rtpwire.Header).WriteWithForm(make([]byte, 64), rtpwire.Form(form), []byte{9}, places)
		same(t, "form of a header", []bool{err == nil, err == rtpwire.ErrBadField}, []bool{is, !is})
	}
	_, err := rtpwire.PutElementIn(buf, 37, 0, nil, rtpwire.AnyForm)
	same(t, "the id 0", []any{err, errors.Is(err, rtpwire.ErrBadField)}, []any{rtpwire.ErrBadID, true})
	same(t, "unchanged", buf, before)
}

// The bytes behind a slice aren't the caller's, though its capacity goes on.
func TestNothingBehindASliceIsRead(t *testing.T) {
	buf := append(sample(), make([]byte, 27)...)
	before := append([]byte(nil), buf...)
	for length := 0; length < 2; length++ {
		number, original, err := rtpwire.ReadOriginal(buf[:length])
		same(t, "no number", []any{number, original, err}, []any{uint16(0), []byte(nil), rtpwire.ErrShortBuffer})
		same(t, "no number", rtpwire.WriteOriginal(buf[:length], 0x1234), rtpwire.ErrShortBuffer)
	}
	for _, length := range []int{36, 20, 0} {
		for _, err := range []error{
			func() error { _, err := rtpwire.PutElementIn(buf[:length], 37, 1, nil, rtpwire.AnyForm); return err }(),
			func() error {
				_, err := rtpwire.ToRetransmissionIn(buf[:length], 37, 1, 2, 3, new(rtpwire.NewIDs))
				return err
			}(),
			func() error {
				_, err := rtpwire.FromRetransmissionIn(buf[:length], 37, 1, 2, new(rtpwire.NewIDs))
				return err
			}(),
		} {
			same(t, "no length", err, rtpwire.ErrBadField)
		}
	}
	_, err := rtpwire.Pad(buf[:36], 36, 1, 1)
	same(t, "no room", err, rtpwire.ErrShortBuffer)
	var v rtpwire.Values
	v.SetTransportNumber(7)
	_, err = v.DataOf(rtpwire.KindTransportNumber, buf[:1])
	same(t, "no room", err, rtpwire.ErrShortBuffer)
	for _, n := range []int{0, 4} {
		places := []rtpwire.Place{{ID: 1, At: n, Len: 1}}
		_, err = rtpwire.WriteElements(buf, rtpwire.OneByteForm, []byte{1, 2, 3, 4, 5}[:n], places)
		same(t, "data behind", err, rtpwire.ErrBadField)
		_, err = new(rtpwire.Header).WriteWith(buf, []byte{1, 2, 3, 4, 5}[:n], places)
		same(t, "data behind", err, rtpwire.ErrBadField)
	}
	_, ok := rtpwire.PeekSSRC(buf[:11])
	same(t, "no SSRC", ok, false)
	same(t, "no RTCP", rtpwire.IsRTCP([]byte{0x80, 200}[:1]), false)
	same(t, "unchanged", buf, before)
}

// Each change of what is no packet says why, and changes nothing.
func TestChangesOfNoPackets(t *testing.T) {
	for length, cause := range map[int]rtpwire.Cause{
		11: rtpwire.CutFixedPart, 19: rtpwire.CutSources, 23: rtpwire.CutBlockHeader, 31: rtpwire.CutBlock,
	} {
		for what, call := range map[string]func([]byte) error{
			"fields":   func(d []byte) error { return new(rtpwire.Fields).Apply(d) },
			"csrc":     func(d []byte) error { return rtpwire.SetCSRCAt(d, 0, 7) },
			"set":      func(d []byte) error { return rtpwire.SetElement(d, 1, []byte{7}) },
			"remove":   func(d []byte) error { return rtpwire.RemoveElement(d, 1) },
			"renumber": func(d []byte) error { return rtpwire.Renumber(d, new(rtpwire.NewIDs)) },
			"P":        func(d []byte) error { return rtpwire.SetPadding(d, false) },
			"padding":  func(d []byte) error { _, err := rtpwire.RemovePadding(d); return err },
			"compact":  func(d []byte) error { _, err := rtpwire.Compact(d); return err },
			"put": func(d []byte) error {
				_, err := rtpwire.PutElementIn(d, len(d), 1, []byte{7}, rtpwire.AnyForm)
				return err
			},
			"sent again": func(d []byte) error {
				_, err := rtpwire.ToRetransmissionIn(d, len(d), 1, 2, 3, new(rtpwire.NewIDs))
				return err
			},
			"restored": func(d []byte) error {
				_, err := rtpwire.FromRetransmissionIn(d, len(d), 1, 2, new(rtpwire.NewIDs))
				return err
			},
		} {
			datagram := sample()
			same(t, what, []any{call(datagram[:length]), datagram}, []any{error(cause), sample()})
		}
	}
	datagram := sample()
	datagram[0] ^= 0xC0
	same(t, "version 1", rtpwire.SetPadding(datagram, false), rtpwire.OtherVersion)
}

// A Packet that has read nothing has no part.
func TestPartsOfNothing(t *testing.T) {
	var packet rtpwire.Packet
	form, body := packet.Block()
	unpadded, fits := packet.UnpaddedPayload()
	element, is := packet.Element(1)
	same(t, "block", []any{form, len(body), packet.BlockProfile(), packet.HeaderLen()}, []any{rtpwire.NoBlock, 0, uint16(0), 0})
	same(t, "payload", []any{len(packet.Payload()), len(unpadded), fits}, []any{0, 0, false})
	same(t, "elements", []any{element, is, packet.AppendPlaces(nil)}, []any{[]byte(nil), false, []rtpwire.Place(nil)})
	same(t, "datagram", packet.Datagram(), []byte(nil))
	same(t, "sources", len(packet.CSRC()), 0)
}

// A copy of new ids, and of a map, is another one; and the ends of both.
func TestEndsOfMaps(t *testing.T) {
	var m rtpwire.Map
	kind, err := m.SetURI(255, "")
	same(t, "no URI", []any{kind, err, m}, []any{rtpwire.KindNone, nil, rtpwire.Map{}})
	for kind := 0; kind < 256; kind++ {
		is := 1 <= kind && kind <= 20 || kind >= 128
		for _, id := range []uint8{1, 14, 15, 255} {
			m = rtpwire.Map{}
			err := m.Set(id, rtpwire.Kind(kind))
			same(t, "set", []bool{err == nil, err == rtpwire.ErrBadField}, []bool{is, !is})
			got := rtpwire.KindNone
			if is {
				got = rtpwire.Kind(kind)
			}
			same(t, "got", m.Get(id), got)
			wanted := id
			if !is {
				wanted = 0
			}
			same(t, "id", m.IDOf(rtpwire.Kind(kind)), wanted)
		}
		m = rtpwire.Map{}
		same(t, "the id 0", []any{m.Set(0, rtpwire.Kind(kind)), m}, []any{rtpwire.ErrBadField, rtpwire.Map{}})
	}
	same(t, "set", []error{m.Set(7, rtpwire.KindMID), m.Set(7, 21)}, []error{nil, rtpwire.ErrBadField})
	same(t, "as before", m.Get(7), rtpwire.KindMID)
	ids := *rtpwire.NewIDsBetween(&m, &m)
	copied := ids
	copied.Set(7, 255)
	copied.Set(255, 1)
	same(t, "apart", []uint8{ids.Get(7), ids.Get(255), copied.Get(7), copied.Get(255)}, []uint8{7, 0, 255, 1})
	same(t, "of one map", []any{*rtpwire.NewIDsBetween(&m, nil), *rtpwire.NewIDsBetween(nil, &m)}, []any{rtpwire.NewIDs{}, rtpwire.NewIDs{}})
}

// A nil Map is read as one in which no id means anything, and can't be set: what is read with one afterwards has no
// value either.
func TestNilMapsAreNotSet(t *testing.T) {
	panics := func(set func()) (is bool) {
		defer func() { is = recover() != nil }()
		set()
		return false
	}
	var none *rtpwire.Map
	const uri = "urn:ietf:params:rtp-hdrext:sdes:rtp-stream-id"
	same(t, "set", panics(func() { _ = none.Set(1, rtpwire.KindMID) }), true)
	same(t, "set by URI", panics(func() { _, _ = none.SetURI(2, uri) }), true)
	same(t, "set by an unknown URI", panics(func() { _, _ = none.SetURI(2, "urn:unknown") }), true)
	same(t, "removed", panics(func() { none.Remove(3) }), true)

	// elements of the ids 1 and 2: the mid "a" and the rid "b" where a map says so
	datagram := []byte{0x90, 0, 0, 5, 0, 0, 0, 1, 0, 0, 0, 0x2C, 0xBE, 0xDE, 0, 1, 0x10, 'a', 0x20, 'b'}
	same(t, "values", parsed(t, datagram, nil).Header().Values, rtpwire.Values{})
	same(t, "ids", []uint8{none.IDOf(rtpwire.KindMID), none.IDOf(rtpwire.KindRID)}, []uint8{0, 0})
	var values rtpwire.Values
	same(t, "the mid", values.SetMID("a"), nil)
	header := rtpwire.Header{HasExtension: true, Values: values}
	length, err := header.WireLen(nil)
	same(t, "written", []any{length, err}, []any{16, nil})
}

// A cause is an error of its own, and wraps none.
func TestCausesAreErrors(t *testing.T) {
	for cause := 0; cause < 256; cause++ {
		it := rtpwire.Cause(cause)
		same(t, "no packet", []bool{errors.Is(it, rtpwire.ErrNotAPacket), errors.Is(it, it), errors.Unwrap(it) == nil},
			[]bool{true, true, true})
		for _, other := range []error{rtpwire.ErrOtherForm, rtpwire.ErrShortBuffer, rtpwire.ErrBadField, rtpwire.ErrRefused,
			rtpwire.ErrNotFound, rtpwire.Cause(cause + 1)} {
			same(t, "another", errors.Is(it, other), false)
		}
	}
	numbers := []rtpwire.Cause{rtpwire.CutFixedPart, rtpwire.OtherVersion, rtpwire.CutSources, rtpwire.CutBlockHeader, rtpwire.CutBlock}
	same(t, "numbers", numbers, []rtpwire.Cause{1, 2, 3, 4, 6})
}
