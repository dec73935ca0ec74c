package rtpwire_test

import (
	"bytes"
	"errors"
	"fmt"
	"os"
	"regexp"
	"strings"
	"testing"
	"time"

	"rtp-wire.example/rtpwire"
)

const far = uint64(1) << 40 // past 2^32

// stateful is what a Receiver and a WideReceiver both do.
type stateful interface {
	Receive(uint16) (uint64, bool)
	NumberOf(uint16) uint64
	Accepts(uint64) bool
	Highest() (uint64, bool)
	ReceivePacket([]byte, *rtpwire.Map, *rtpwire.Packet) (uint64, error)
	CheckPacket([]byte, *rtpwire.Map, *rtpwire.Packet) (uint64, error)
}

func record(r stateful, number uint64) {
	switch r := r.(type) {
	case *rtpwire.Receiver:
		r.Record(number)
	case *rtpwire.WideReceiver:
		r.Record(number)
	}
}

// The numbers that are taken are told from the others in the whole window, and only there.
func TestWindows(t *testing.T) {
	receiver, err := rtpwire.NewReceiver(far >> 16)
	same(t, "made", err, nil)
	sizes := map[uint64]stateful{128: receiver}
	for _, words := range []int{1, 3, 16, 512} {
		sizes[uint64(64*words)] = wide(t, words, far>>16)
	}
	for size, r := range sizes {
		number, ok := r.Highest()
		same(t, "nothing is taken", []any{number, ok}, []any{uint64(0), false})
		same(t, "the first", []any{r.NumberOf(9), r.Accepts(0), r.Accepts(far)}, []any{far + 9, true, true})
		number, ok = r.Receive(40000)
		same(t, "taken", []any{number, ok}, []any{far + 40000, true})
		highest, ok := r.Highest()
		same(t, "highest", []any{highest, ok}, []any{far + 40000, true})
		for below := uint64(1); below < size; below += 3 {
			same(t, "of the window", r.Accepts(highest-below), true)
			if below%2 == 0 {
				record(r, highest-below)
				record(r, highest-below) // which changes nothing
			} else {
				number, ok := r.Receive(uint16(highest - below))
				same(t, "taken", []any{number, ok}, []any{highest - below, true})
			}
			number, ok := r.Receive(uint16(highest - below))
			same(t, "a replay", []any{number, ok, r.Accepts(highest - below)}, []any{uint64(0), false, false})
		}
		var packet rtpwire.Packet
		for below := uint64(2); below < size; below += 15 { // none of them is taken yet
			datagram := plain(uint16(highest - below))
			number, err := r.CheckPacket(datagram, nil, &packet)
			same(t, "checked", []any{number, err}, []any{highest - below, nil})
			number, err = r.ReceivePacket(datagram, nil, &packet)
			same(t, "taken", []any{number, err}, []any{highest - below, nil})
			_, err = r.ReceivePacket(datagram, nil, &packet)
			same(t, "a replay", []any{err, r.Accepts(highest - below)}, []any{rtpwire.ErrRefused, false})
			number, err = r.CheckPacket(datagram, nil, &packet)
			same(t, "a replay", []any{number, err}, []any{highest - below, rtpwire.ErrRefused})
		}
		for below := uint64(0); below < size+200; below++ {
			is := below < size && below%3 != 1 && below%15 != 2 && below != 0
			if r.Accepts(highest-below) != is {
				t.Fatalf("window of %d, %d below: %v", size, below, !is)
			}
		}
		record(r, highest-size)
		highest, _ = r.Highest()
		same(t, "highest", []any{highest, r.NumberOf(39999), r.NumberOf(7)}, []any{far + 40000, far + 39999, far + 65536 + 7})
		record(r, highest+size)
		number, ok = r.Receive(uint16(highest + 1))
		same(t, "in the window that moved on", []any{number, ok}, []any{highest + 1, true})
		same(t, "behind it", r.Accepts(highest), false)
	}
	for _, count := range []uint64{1, 1 << 16, 1 << 31, 1 << 32, 1 << 47, 1<<48 - 1} {
		r, err := rtpwire.NewReceiver(count)
		same(t, "made", err, nil)
		for _, r := range []stateful{r, wide(t, 2, count)} {
			highest := count<<16 + 0x8000
			same(t, "number", r.NumberOf(0x8000), highest)
			record(r, highest)
			number, ok := r.Highest()
			same(t, "highest", []any{number, ok, r.NumberOf(0x7FFF)}, []any{highest, true, highest - 1})
			same(t, "accepted", []bool{r.Accepts(highest - 128), r.Accepts(highest - 127), r.Accepts(highest), r.Accepts(highest + 1),
				r.Accepts(1<<64 - 1), r.Accepts(0x8000)}, []bool{false, true, false, true, true, false})
			number, ok = r.Receive(0x8001)
			same(t, "taken", []any{number, ok}, []any{highest + 1, true})
		}
	}
	// The highest number may be 0.
	var zero rtpwire.Receiver
	number, ok := zero.Receive(0)
	same(t, "taken", []any{number, ok}, []any{uint64(0), true})
	number, ok = zero.Highest()
	same(t, "highest", []any{number, ok}, []any{uint64(0), true})
	w := wide(t, 1, 0)
	same(t, "recorded", []bool{w.Record(0), w.Record(0)}, []bool{true, false})
	number, ok = w.Highest()
	same(t, "highest", []any{number, ok}, []any{uint64(0), true})
}

func TestCopies(t *testing.T) {
	first, err := rtpwire.NewReceiver(1)
	same(t, "made", err, nil)
	fresh := *first
	first.Record(65536 + 5)
	second := *first
	second.Record(65536 + 6)
	same(t, "apart", []bool{first.Accepts(65536 + 6), second.Accepts(65536 + 6), second.Accepts(65536 + 5), fresh.Accepts(65536 + 5)},
		[]bool{true, false, false, true})
	same(t, "the rollover count", fresh.NumberOf(3), uint64(65539))
	var restarting rtpwire.RestartingReceiver
	restarting.Receive(5)
	other := restarting
	_, verdict := restarting.Receive(5)
	same(t, "a replay", verdict, rtpwire.Refused)
	other.Receive(6)
	same(t, "apart", restarting == other, false)
	number, verdict := restarting.Receive(6)
	same(t, "taken", []any{number, verdict}, []any{uint64(65542), rtpwire.Taken})
	m := rtpwire.StandardMap()
	changed := *m
	changed.Remove(1)
	same(t, "apart", []rtpwire.Kind{m.Get(1), changed.Get(1)}, []rtpwire.Kind{rtpwire.KindAudioLevel, rtpwire.KindNone})
	same(t, "each its own", rtpwire.StandardMap() == m, false)
}

func TestRestartingReceiversStart(t *testing.T) {
	var r rtpwire.RestartingReceiver
	number, ok := r.Highest()
	same(t, "nothing is taken", []any{number, ok}, []any{uint64(0), false})
	number, verdict := r.Receive(0)
	same(t, "taken", []any{number, verdict}, []any{uint64(65536), rtpwire.Taken})
	number, ok = r.Highest()
	same(t, "highest", []any{number, ok}, []any{uint64(65536), true})
	patient := rtpwire.RestartingReceiver{MinSequential: 3}
	judges(t, &patient, []judged{{7, 0, rtpwire.Refused}, {8, 0, rtpwire.Refused}})
	number, ok = patient.Highest()
	same(t, "two of three in a row", []any{number, ok}, []any{uint64(0), false})
	judges(t, &patient, []judged{{9, 65545, rtpwire.Taken}})
	judges(t, &rtpwire.RestartingReceiver{MaxDropout: 65535}, []judged{
		{7, 65543, rtpwire.Taken}, {32774, 98310, rtpwire.Taken},
	})
}

// No argument is cut to fewer bits, and what is told has 64.
func TestNumbersPastTwoToThe32(t *testing.T) {
	same(t, "8 bits", []uint64{rtpwire.Extend8(far+255, 0), rtpwire.Extend8(far, 255)}, []uint64{far + 256, far - 1})
	same(t, "15 bits", []uint64{rtpwire.Extend15(far+32767, 0), rtpwire.Extend15(far, 0x7FFF)}, []uint64{far + 32768, far - 1})
	same(t, "16 bits", []uint64{rtpwire.Extend16(far+65535, 0), rtpwire.Extend16(far, 65535)}, []uint64{far + 65536, far - 1})
	same(t, "32 bits", []uint64{rtpwire.Extend32(far-1, 0), rtpwire.Extend32(far, 1<<32-1)}, []uint64{far, far - 1})
	r, err := rtpwire.NewReceiver(far >> 16)
	same(t, "made", err, nil)
	w := wide(t, 2, far>>16)
	var packet rtpwire.Packet
	for _, call := range []func([]byte, *rtpwire.Map, *rtpwire.Packet) (uint64, error){
		r.CheckPacket, r.ReceivePacket, w.CheckPacket, w.ReceivePacket,
	} {
		number, err := call(plain(7), nil, &packet)
		same(t, "number", []any{number, err}, []any{far + 7, nil})
	}

	datagram := append(sample(), make([]byte, 300)...)
	before := append([]byte(nil), datagram...)
	for _, at := range []int{1 << 32, 1<<32 + 1, -1 << 32} {
		same(t, "no source", rtpwire.SetCSRCAt(datagram[:37], at, 7), rtpwire.ErrNotFound)
		for what, call := range map[string]func() error{
			"put": func() error { _, err := rtpwire.PutElementIn(datagram, at+37, 1, nil, rtpwire.AnyForm); return err },
			"sent": func() error {
				_, err := rtpwire.ToRetransmissionIn(datagram, at+37, 1, 2, 3, new(rtpwire.NewIDs))
				return err
			},
			"back": func() error {
				_, err := rtpwire.FromRetransmissionIn(datagram, at+37, 1, 2, new(rtpwire.NewIDs))
				return err
			},
		} {
			same(t, what, call(), rtpwire.ErrBadField)
		}
		_, err := rtpwire.Pad(datagram, at+37, 1, 1)
		same(t, "pad", err, rtpwire.ErrShortBuffer)
		for _, place := range []rtpwire.Place{{ID: 1, At: at}, {ID: 1, Len: at}} {
			_, err = rtpwire.WriteElements(datagram, rtpwire.TwoByteForm, []byte{1, 2}, []rtpwire.Place{place})
			same(t, "place", err, rtpwire.ErrBadField)
		}
	}
	same(t, "unchanged", datagram, before)
	count, err := rtpwire.Pad(datagram, 37, 1, 1<<32)
	same(t, "a block of many bytes", []any{count, err}, []any{240, nil})
	payload := []byte{0, 0}
	same(t, "written", rtpwire.WriteOriginal(payload, far+0x1234), nil)
	same(t, "its low bits", payload, []byte{0x12, 0x34})

	// Values: the send time modulo 64 s, 2^40 microseconds are 17,179 * 64 s and 55.627776 s, which are 14,582,487.7
	// units of 2^-18 s.
	var v rtpwire.Values
	v.SetSendTime(far)
	v.SetCaptureTime(far << 20)
	v.SetCaptureOffset(-1 << 63)
	data, err := v.DataOf(rtpwire.KindAbsSendTime, make([]byte, 16))
	same(t, "send time", []any{data, err}, []any{[]byte{0xDE, 0x82, 0xD7}, nil})
	data, err = v.DataOf(rtpwire.KindAbsCaptureTime, make([]byte, 16))
	same(t, "capture time", []any{data, err}, []any{[]byte{0x10, 0, 0, 0, 0, 0, 0, 0, 0x80, 0, 0, 0, 0, 0, 0, 0}, nil})
	v.SetPlayoutDelay(10*time.Second, 4096*time.Hour+30*time.Millisecond)
	data, err = v.DataOf(rtpwire.KindPlayoutDelay, make([]byte, 16))
	// 1,000 hundredths, and 1,474,560,000 = 360,000 * 4,096 of them and 3
	same(t, "playout delay", []any{data, err}, []any{[]byte{0x3E, 0x80, 0x03}, nil})
	var layer rtpwire.Layer
	var stream rtpwire.Stream
	var layers, read rtpwire.Layers
	same(t, "set", []error{layer.SetKbps(far, far+1), stream.SetLayers(layer), layers.SetStreams(stream)}, []error{nil, nil, nil})
	m := everyKind(t)
	buf := make([]byte, 100)
	n, err := (&rtpwire.Header{HasExtension: true}).WriteLayers(buf, m, &layers)
	same(t, "written", err, nil)
	same(t, "read", []any{read.Parse(buf[:n], m), read.Streams()[0].Layers()[0].Kbps()}, []any{nil, []uint64{far, far + 1}})
}

// Lists have the ends that are told, and an order.
func TestEnds(t *testing.T) {
	most := make([]uint32, 15)
	for at := range most {
		most[at] = uint32(at+1) << 24
	}
	header := rtpwire.Header{SSRC: 5}
	same(t, "set", header.SetCSRC(most), nil)
	buf := make([]byte, 72)
	n, err := header.WriteInto(buf, nil)
	same(t, "written", []any{n, err, buf[0]}, []any{72, nil, byte(0x8F)})
	packet := parsed(t, buf, nil)
	same(t, "sources", packet.CSRC(), most)
	same(t, "not set", []any{header.SetCSRC(make([]uint32, 16)), header.CSRC()}, []any{rtpwire.ErrBadField, most})
	same(t, "the last source", []error{rtpwire.SetCSRCAt(buf, 14, 9), rtpwire.SetCSRCAt(buf, 15, 9)}, []error{nil, rtpwire.ErrNotFound})
	same(t, "bytes", buf[68:], []byte{0, 0, 0, 9})

	// Of a block of another form the sources are read too, all of them.
	datagram := append(append([]byte{0x9F, 96}, buf[2:]...), 0xAB, 0xAC, 0, 0, 7)
	other := parsed(t, datagram, everyKind(t))
	most[14] = 9
	same(t, "sources", []any{other.CSRC(), other.HeaderLen(), other.SSRC(), other.HasExtension(), other.HasPadding(), other.Marker()},
		[]any{most, 76, uint32(5), true, false, false})

	var layer rtpwire.Layer
	var stream rtpwire.Stream
	var layers rtpwire.Layers
	four := []error{layer.SetKbps(1, 2, 3, 4), stream.SetLayers(layer, layer, layer, layer), layers.SetStreams(stream, stream, stream, stream)}
	same(t, "four of each", four, []error{nil, nil, nil})
	same(t, "four", []int{len(layers.Streams()), len(layers.Streams()[3].Layers()), len(layer.Kbps())}, []int{4, 4, 4})
	same(t, "none of each", []error{layer.SetKbps(), stream.SetLayers(), layers.SetStreams()}, []error{nil, nil, nil})
	same(t, "zero", []any{layer, stream, layers}, []any{rtpwire.Layer{}, rtpwire.Stream{}, rtpwire.Layers{}})
	resolution, ok := layer.Resolution()
	same(t, "no resolution", []any{resolution, ok}, []any{rtpwire.Resolution{}, false})
	layers.SetCurrent(3)
	same(t, "current", layers.Current(), 3)
}

// The text of each error is that of its status in the header file, and each is told apart from all others.
func TestErrors(t *testing.T) {
	header, err := os.ReadFile("rtp_wire.h")
	same(t, "read", err, nil)
	statuses := map[string]error{
		"CUT_FIXED_PART": rtpwire.CutFixedPart, "OTHER_VERSION": rtpwire.OtherVersion, "CUT_SOURCES": rtpwire.CutSources,
		"CUT_BLOCK_HEADER": rtpwire.CutBlockHeader, "CUT_BLOCK": rtpwire.CutBlock, "UNKNOWN_FORM": rtpwire.ErrOtherForm,
		"SHORT_BUFFER": rtpwire.ErrShortBuffer, "BAD_FIELD": rtpwire.ErrBadField, "REFUSED": rtpwire.ErrRefused,
		"NONE": rtpwire.ErrNotFound, "BAD_ID": rtpwire.ErrBadID, "FORM_NOT_ALLOWED": rtpwire.ErrFormNotAllowed,
		"LONG_BLOCK": rtpwire.ErrLongBlock, "LONG_ID": rtpwire.ErrLongID,
	}
	// of a bad field these say which one
	narrow := regexp.MustCompile("BAD_ID|FORM_NOT_ALLOWED|LONG_BLOCK|LONG_ID")
	for name, it := range statuses {
		text := regexp.MustCompile(`case RTPW_` + name + `: return "(.*)";`).FindStringSubmatch(string(header))
		same(t, name, it.Error(), "rtpwire: "+text[1])
		cause, isCause := it.(rtpwire.Cause)
		same(t, name+" is no packet", errors.Is(it, rtpwire.ErrNotAPacket), isCause)
		if isCause {
			number := regexp.MustCompile(fmt.Sprintf(`RTPW_%s = %d,`, name, cause))
			same(t, name+" has its number", number.Match(header), true)
		}
		for other, that := range statuses {
			isNarrow := other == "BAD_FIELD" && narrow.MatchString(name) || other == "FORM_NOT_ALLOWED" && name == "LONG_ID"
			same(t, name+" is "+other, errors.Is(it, that), name == other || isNarrow)
		}
		wrapped := fmt.Errorf("a datagram: %w", it)
		same(t, "wrapped", []bool{errors.Is(wrapped, it), errors.Is(wrapped, rtpwire.ErrNotAPacket)}, []bool{true, isCause})
	}
	same(t, "no packet", rtpwire.ErrNotAPacket.Error(), "rtpwire: no RTP packet")
	for _, none := range []rtpwire.Cause{0, 5, 7, 255} {
		same(t, "no cause", none.Error(), "rtpwire: no cause")
	}
}

func TestNames(t *testing.T) {
	header, err := os.ReadFile("rtp_wire.h")
	same(t, "read", err, nil)
	found := regexp.MustCompile(`RTPW_KIND_(\w+) = (\d+)`).FindAllStringSubmatch(string(header), -1)
	same(t, "kinds", len(found), 22)
	for _, it := range found[:21] {
		var number uint8
		_, err := fmt.Sscan(it[2], &number)
		same(t, it[1], []any{err, rtpwire.Kind(number).String()}, []any{nil, strings.ToLower(strings.ReplaceAll(it[1], "_", " "))})
	}
	same(t, "own", []any{rtpwire.KindOwn, rtpwire.KindOwn.String(), rtpwire.Kind(255).String()}, []any{rtpwire.Kind(128), "kind 128", "kind 255"})
	var forms []string
	for form := rtpwire.NoBlock; form < 5; form++ {
		forms = append(forms, form.String())
	}
	same(t, "forms", forms, []string{"no block", "one-byte form", "two-byte form", "other form", "unknown form"})
	same(t, "numbers", []rtpwire.Form{rtpwire.NoBlock, rtpwire.OneByteForm, rtpwire.TwoByteForm, rtpwire.OtherForm}, []rtpwire.Form{0, 1, 2, 3})
	same(t, "allowed", []rtpwire.Forms{rtpwire.AnyForm, rtpwire.OnlyOneByteForm, rtpwire.OnlyTwoByteForm}, []rtpwire.Forms{0, 1, 2})
	same(t, "no verdict", rtpwire.Verdict(9).String(), "refused")
	same(t, "room", rtpwire.MostData, 16)
}

// Each new id is set and read by its own id, and each kind of a map.
func TestEveryID(t *testing.T) {
	var ids rtpwire.NewIDs
	var m rtpwire.Map
	for id := 1; id < 256; id++ {
		ids.Set(uint8(id), uint8(256-id))
		same(t, "set", m.Set(uint8(id), rtpwire.Kind(1+id%15)), nil)
	}
	for id := 1; id < 256; id++ {
		same(t, "new id", ids.Get(uint8(id)), uint8(256-id))
		same(t, "kind", m.Get(uint8(id)), rtpwire.Kind(1+id%15))
	}
	same(t, "of 0", []any{ids.Get(0), m.Get(0)}, []any{uint8(0), rtpwire.KindNone})
	ids.Set(7, 0)
	same(t, "none", ids.Get(7), uint8(0))

	// Where the map has both kinds of stream id, where it has one, and where there is no map.
	for id := 0; id < 256; id++ {
		there, back := rtpwire.NewIDsToRetransmission(nil), rtpwire.NewIDsFromRetransmission(nil)
		same(t, "of no map", []uint8{there.Get(uint8(id)), back.Get(uint8(id))}, []uint8{uint8(id), uint8(id)})
	}
	m = rtpwire.Map{}
	same(t, "set", []error{m.Set(3, rtpwire.KindRID), m.Set(5, rtpwire.KindRID)}, []error{nil, nil})
	there, back := rtpwire.NewIDsToRetransmission(&m), rtpwire.NewIDsFromRetransmission(&m)
	for id := 1; id < 256; id++ {
		same(t, "itself", []uint8{there.Get(uint8(id)), back.Get(uint8(id))}, []uint8{uint8(id), uint8(id)})
	}
	same(t, "set", []error{m.Set(9, rtpwire.KindRepairedRID), m.Set(7, rtpwire.KindRepairedRID)}, []error{nil, nil})
	there, back = rtpwire.NewIDsToRetransmission(&m), rtpwire.NewIDsFromRetransmission(&m)
	for _, row := range [][3]uint8{{3, 7, 0}, {5, 7, 0}, {7, 0, 3}, {9, 0, 3}, {4, 4, 4}, {255, 255, 255}, {0, 0, 0}} {
		same(t, "there and back", []uint8{there.Get(row[0]), back.Get(row[0])}, []uint8{row[1], row[2]})
	}
}

// The padding of a packet whose padding is all its payload, and of one without P.
func TestUnpadded(t *testing.T) {
	for _, row := range []struct {
		first    byte
		payload  []byte
		unpadded []byte
		ok       bool
	}{
		{0xA0, []byte{9, 9, 3}, []byte{}, true},
		{0xA0, []byte{9, 9, 4}, nil, false},
		{0xA0, []byte{9, 9, 0}, []byte{9, 9, 0}, true},
		{0xA0, []byte{}, []byte{}, true},
		{0x80, []byte{9, 9, 4}, []byte{9, 9, 4}, true},
	} {
		datagram := append(append([]byte{row.first}, plain(1)[1:12]...), row.payload...)
		unpadded, ok := parsed(t, datagram, nil).UnpaddedPayload()
		same(t, "unpadded", []any{bytes.Equal(unpadded, row.unpadded), unpadded == nil, ok}, []any{true, row.unpadded == nil, row.ok})
		rest, err := rtpwire.RemovePadding(datagram)
		if row.ok {
			same(t, "removed", []any{err, rest[12:], rest[0]}, []any{nil, append([]byte{}, row.unpadded...), byte(0x80)})
		} else {
			same(t, "kept", []any{err, rest, datagram[0]}, []any{rtpwire.ErrBadField, []byte(nil), row.first})
		}
	}
}

// A datagram may be longer than 65,535 bytes, and so may a buffer.
func TestLongBuffers(t *testing.T) {
	// 4 + 65,540 bytes of a block, and 70,000 of payload
	datagram := append([]byte{0x90, 96, 0, 5, 0, 0, 0, 1, 0, 0, 0, 7, 0xBE, 0xDE, 0x40, 1}, make([]byte, 65540+70000)...)
	copy(datagram[65552:], []byte{0x61, 8, 9})
	number, ok := parsed(t, datagram, everyKind(t)).Values().TransportNumber()
	same(t, "value", []any{number, ok}, []any{uint16(0x0809), true})
	packet := parsed(t, datagram, nil)
	same(t, "lengths", []int{packet.HeaderLen(), len(packet.Payload())}, []int{65556, 70000})
	element, ok := packet.Element(6)
	same(t, "element", []any{element, ok}, []any{[]byte{8, 9}, true})
	places := packet.AppendPlaces(nil)
	same(t, "places", []any{len(places), places[0].At, packet.Data(places[0])}, []any{1, 65537, []byte{8, 9}})
	same(t, "set", rtpwire.SetElement(datagram, 6, []byte{6, 7}), nil)
	buf := make([]byte, 70000)
	n, err := new(rtpwire.Header).WriteWith(buf, datagram[16:], places)
	same(t, "written", []any{n, err, buf[16:20]}, []any{20, nil, []byte{0x61, 6, 7, 0}})
	length := len(datagram)
	datagram = append(datagram, 0, 0)
	sent, err := rtpwire.ToRetransmissionIn(datagram, length, 9, 97, 0xFFFE, new(rtpwire.NewIDs))
	same(t, "sent again", []any{len(sent), err, sent[2:4]}, []any{length + 2, nil, []byte{0xFF, 0xFE}})
	short, err := rtpwire.Compact(sent)
	same(t, "without its block", []any{len(short), err}, []any{16 + 70002, nil})
	grown, err := rtpwire.PutElementIn(datagram, len(short), 300-45, make([]byte, 255), rtpwire.AnyForm)
	same(t, "put", []any{len(grown), err}, []any{16 + 260 + 70002, nil})
	count, err := rtpwire.Pad(datagram, len(grown), 3, 1)
	same(t, "padded", []any{count, err, datagram[len(grown)+2]}, []any{3, nil, byte(3)})
	rest, err := rtpwire.RemovePadding(datagram[:len(grown)+3])
	same(t, "without its padding", []any{len(rest), err}, []any{len(grown), nil})

	// As many places as there are: 300 of one byte each.
	places = make([]rtpwire.Place, 300)
	for at := range places {
		places[at] = rtpwire.Place{ID: uint8(1 + at%14), At: at, Len: 1}
	}
	n, err = rtpwire.WriteElements(buf, rtpwire.OneByteForm, datagram, places)
	same(t, "elements", []any{n, err, buf[598:600]}, []any{600, nil, []byte{0x60, datagram[299]}})
	n, err = new(rtpwire.Header).WriteWithForm(buf, rtpwire.TwoByteForm, datagram, places)
	same(t, "header", []any{n, err, buf[16+897 : 16+900]}, []any{916, nil, []byte{6, 1, datagram[299]}})
}
