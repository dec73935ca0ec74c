package rtpwire_test

import (
	"bytes"
	"math/rand"
	"testing"

	"rtp-wire.example/rtpwire"
)

// A setter may be given a part of what it sets.
func TestPartsOfOwnValues(t *testing.T) {
	var header rtpwire.Header
	sources := func(set []uint32, wanted ...uint32) {
		t.Helper()
		same(t, "set", header.SetCSRC(set), nil)
		same(t, "sources", header.CSRC(), append([]uint32{}, wanted...))
	}
	sources([]uint32{1, 2, 3}, 1, 2, 3)
	sources(header.CSRC()[1:], 2, 3)
	sources(header.CSRC()[:1], 2)
	sources(header.CSRC(), 2)
	sources([]uint32{1, 2, 3, 4, 5, 6, 7, 8, 9, 10, 11, 12, 13, 14, 15}, 1, 2, 3, 4, 5, 6, 7, 8, 9, 10, 11, 12, 13, 14, 15)
	sources(header.CSRC(), 1, 2, 3, 4, 5, 6, 7, 8, 9, 10, 11, 12, 13, 14, 15)
	sources(header.CSRC()[14:], 15)
	sources([]uint32{2}, 2)
	same(t, "those behind them", header, func() (plain rtpwire.Header) {
		same(t, "set", plain.SetCSRC([]uint32{2}), nil)
		return plain
	}())

	var layer, other rtpwire.Layer
	same(t, "rates", []error{layer.SetKbps(5, 6, 7, 8), other.SetKbps(9)}, []error{nil, nil})
	same(t, "of itself", layer.SetKbps(layer.Kbps()[2:]...), nil)
	same(t, "rates", layer.Kbps(), []uint64{7, 8})
	var plain rtpwire.Layer
	same(t, "set", plain.SetKbps(7, 8), nil)
	same(t, "those behind them", layer, plain)

	var stream, only rtpwire.Stream
	same(t, "layers", []error{stream.SetLayers(layer, other, layer), only.SetLayers(other, layer)}, []error{nil, nil})
	same(t, "of itself", stream.SetLayers(stream.Layers()[1:]...), nil)
	same(t, "those behind them", stream, only)

	var layers, wanted rtpwire.Layers
	same(t, "streams", []error{layers.SetStreams(stream, rtpwire.Stream{}, only), wanted.SetStreams(stream)}, []error{nil, nil})
	same(t, "of itself", layers.SetStreams(layers.Streams()[:1]...), nil)
	same(t, "those behind them", layers, wanted)
	same(t, "of the last", layers.SetStreams(append(layers.Streams(), only)[1:]...), nil)
	same(t, "stream", layers.Streams(), []rtpwire.Stream{only})
}

// long is a packet with an element of the id 7 with 16 bytes.
func long(random *rand.Rand) []byte {
	packet := append([]byte{0x90, 0, 0, 1, 0, 0, 0, 2, 0, 0, 0, 3, 0xBE, 0xDE, 0, 5, 0x7F}, make([]byte, 23)...)
	random.Read(packet[17:33])
	return packet
}

// Data that overlap what is written give what a copy of them gives, wherever they lie.
func TestDataOfTheBufferItself(t *testing.T) {
	random := rand.New(rand.NewSource(1))
	both := func(what string, packet []byte, call func(buf, data []byte) (int, error), at, end int) {
		t.Helper()
		apart, within := append([]byte(nil), packet...), append([]byte(nil), packet...)
		n, err := call(apart, append([]byte(nil), packet[at:end]...))
		m, found := call(within, within[at:end])
		same(t, what, []any{m, found, within}, []any{n, err, apart})
	}
	form := map[bool]rtpwire.Form{true: rtpwire.OneByteForm, false: rtpwire.TwoByteForm}
	for i := 0; i < 3000; i++ {
		packet := append(sample(), make([]byte, 30)...)
		random.Read(packet[32:])
		at := random.Intn(50)
		end, id, offset := at+random.Intn(17), uint8(1+random.Intn(3)), random.Intn(40)
		both("put", packet, func(buf, data []byte) (int, error) {
			grown, err := rtpwire.PutElementIn(buf, 37, id, data, rtpwire.AnyForm)
			return len(grown), err
		}, at, end)
		// The packet fills the buffer then, over data that end where that does.
		full := append(sample(), byte(i), byte(i>>8), 3, 4)
		both("put up to the end", full, func(buf, data []byte) (int, error) {
			grown, err := rtpwire.PutElementIn(buf, 37, 3, data[:3], rtpwire.AnyForm)
			return len(grown), err
		}, 38-i%8, 41)
		long, from := long(random), random.Intn(24)
		both("set", long, func(buf, data []byte) (int, error) {
			return 0, rtpwire.SetElement(buf, 7, data)
		}, from, from+16)
		places := []rtpwire.Place{{ID: 3, At: (end - at) / 2, Len: (end - at + 1) / 2}, {ID: 4, Len: (end - at) / 3}}
		both("elements", packet, func(buf, data []byte) (int, error) {
			return rtpwire.WriteElements(buf[offset:], form[i%2 == 0], data, places)
		}, at, end)
		both("header", packet, func(buf, data []byte) (int, error) {
			return new(rtpwire.Header).WriteWith(buf[offset:], data, places)
		}, at, end)
		both("header in one form", packet, func(buf, data []byte) (int, error) {
			return new(rtpwire.Header).WriteWithForm(buf[offset:], rtpwire.TwoByteForm, data, places)
		}, at, end)
	}
}

// Data may begin in the last byte of the buffer, which the packet then fills.
func TestDataThatBeginInTheLastByte(t *testing.T) {
	whole := append(sample(), 0, 0, 0, 7, 8, 9)
	grown, err := rtpwire.PutElementIn(whole[:41], 37, 3, whole[40:], rtpwire.AnyForm)
	same(t, "put", []any{len(grown), err}, []any{41, nil})
	same(t, "block", whole[20:36], []byte{0xBE, 0xDE, 0, 3, 0x10, 0xAA, 0x21, 0xBB, 0xCC, 0x10, 0xDD, 0x32, 7, 8, 9, 0})
	same(t, "payload, and what is behind it", whole[36:], []byte{1, 2, 3, 0, 2, 8, 9})
}

// What lies behind the slice that is handed over stays, also where its capacity goes on.
func TestNothingBehindASliceIsWritten(t *testing.T) {
	buf := append(sample(), bytes.Repeat([]byte{0xEE}, 27)...)
	before := append([]byte(nil), buf...)
	header := buf[:32]
	_, err := rtpwire.PutElementIn(header, len(header), 9, []byte{1, 2, 3}, rtpwire.AnyForm)
	same(t, "no room", []any{err, buf}, []any{rtpwire.ErrShortBuffer, before})
	for _, length := range []int{33, 64} {
		_, err = rtpwire.PutElementIn(header, length, 9, []byte{1}, rtpwire.AnyForm)
		same(t, "no length", []any{err, buf}, []any{rtpwire.ErrBadField, before})
	}
	_, err = rtpwire.Pad(header, 30, 3, 1)
	same(t, "padding", []any{err, buf}, []any{rtpwire.ErrShortBuffer, before})
	_, err = rtpwire.ToRetransmissionIn(buf[:37], 37, 7, 8, 9, new(rtpwire.NewIDs))
	same(t, "sent again", []any{len(buf), err, buf[37:]}, []any{64, nil, before[37:]})

	before = append([]byte(nil), buf...)
	for _, size := range []int{0, 11} {
		n, err := new(rtpwire.Header).WriteInto(buf[:size], nil)
		same(t, "written", []any{n, err, buf}, []any{0, rtpwire.ErrShortBuffer, before})
	}
}

// An append to a slice that a packet or header lent writes over nothing of it; a write through it does.
func TestWhatIsLent(t *testing.T) {
	datagram := append(sample(), 0xEE)[:37]
	packet := parsed(t, datagram, nil)
	_, body := packet.Block()
	element, _ := packet.Element(2)
	unpadded, _ := packet.UnpaddedPayload()
	lent := map[string][]byte{
		"body": body, "element": element, "data": packet.Data(packet.AppendPlaces(nil)[0]), "unpadded": unpadded,
	}
	for what, part := range lent {
		_ = append(part, 0x77)
		same(t, what+" after an append", datagram, sample())
	}
	for at, part := range map[int][]byte{
		24: body, 27: element, 25: lent["data"], 32: unpadded, 33: packet.Payload()[1:], 0: packet.Datagram(),
	} {
		datagram[at] = 0x55
		same(t, "shared", part[0], byte(0x55))
		part[0] = 0x66
		same(t, "shared", datagram[at], byte(0x66))
	}
	number, original, err := rtpwire.ReadOriginal(datagram[33:])
	same(t, "original", []any{number, len(original), err}, []any{uint16(0x6603), 2, nil})
	original[0] = 9
	same(t, "shared", datagram[35], byte(9))

	read := packet.Header()
	_, _ = append(packet.CSRC(), 7), append(read.CSRC(), 8)
	same(t, "header after an append", []any{packet.Header(), read}, []any{parsed(t, sample(), nil).Header(), parsed(t, sample(), nil).Header()})
	packet.CSRC()[0] = 5
	same(t, "shared", []any{packet.CSRC(), read.CSRC(), datagram[15]}, []any{[]uint32{5, 2}, []uint32{1, 2}, byte(1)})

	var layers rtpwire.Layers
	var stream rtpwire.Stream
	var layer rtpwire.Layer
	same(t, "set", []error{layer.SetKbps(1), stream.SetLayers(layer), layers.SetStreams(stream)}, []error{nil, nil, nil})
	before := layers
	_ = append(layers.Streams(), stream)
	_ = append(layers.Streams()[0].Layers(), layer)
	_ = append(layers.Streams()[0].Layers()[0].Kbps(), 9)
	same(t, "after appends", layers, before)
	layers.Streams()[0].Layers()[0].Kbps()[0] = 3
	same(t, "shared", layers.Streams()[0].Layers()[0].Kbps(), []uint64{3})
	same(t, "a copy", before.Streams()[0].Layers()[0].Kbps(), []uint64{1})
	same(t, "of a copy", stream.Layers()[0].Kbps(), []uint64{1})
}
