package rtpwire_test

import (
	"bytes"
	"fmt"
	"math"
	"math/rand"
	"reflect"
	"testing"

	"rtp-wire.example/rtpwire"
)

// joined is the datagrams in one buffer, each behind a byte of no datagram, and where each begins.
func joined(datagrams ...[]byte) (buf []byte, at []int) {
	for _, datagram := range datagrams {
		buf = append(buf, 0xEE)
		at = append(at, len(buf))
		buf = append(buf, datagram...)
	}
	return append(buf, 0xEE), at
}

// report is the fixed part of a receiver report without a report block: V=2, PT=201, a length of 1 word, an SSRC.
var report = []byte{0x80, 201, 0, 1, 0, 0, 0, 9}

// Each datagram of a batch is read as Packet.Parse reads it alone, and one that is no packet spoils no other.
func TestManyAreReadAsEachAlone(t *testing.T) {
	m := everyKind(t)
	cutCamera := camera()[:27]
	longPadding := sample()
	longPadding[36] = 6
	emptyPadded := []byte{0xA0, 96, 0, 5, 0, 0, 0, 1, 0, 0, 0, 7}
	noPadding := append(append([]byte(nil), emptyPadded...), 'h', 0)
	rows := []struct {
		datagram []byte
		err      error
	}{
		{sample(), nil},
		{nil, rtpwire.CutFixedPart},
		{sample()[:11], rtpwire.CutFixedPart},
		{everyValue, nil},
		{append([]byte{0x72}, sample()[1:]...), rtpwire.OtherVersion},
		{sample()[:19], rtpwire.CutSources},
		{sample()[:23], rtpwire.CutBlockHeader},
		{camera(), nil},
		{cutCamera, rtpwire.CutBlock},
		{sample()[:31], rtpwire.CutBlock},
		{plain(5), nil},
		{report, rtpwire.CutFixedPart},
		{append(append([]byte(nil), report...), 0, 0, 0, 0), nil}, // as RTP a header alone
		{longPadding, nil},
		{emptyPadded, nil},
		{noPadding, nil},
	}
	var datagrams [][]byte
	for _, row := range rows {
		datagrams = append(datagrams, row.datagram)
	}
	buf, at := joined(datagrams...)
	before := append([]byte(nil), buf...)
	var headers rtpwire.HeaderBatch
	var packets rtpwire.PacketBatch
	for i, row := range rows {
		headers.Add(at[i], len(row.datagram))
		packets.Add(at[i], len(row.datagram))
	}
	same(t, "not yet", []int{headers.Len(), packets.Len()}, []int{0, 0})
	headers.Parse(buf, m)
	packets.Parse(buf)
	same(t, "how many", []int{headers.Len(), packets.Len()}, []int{len(rows), len(rows)})
	same(t, "the buffer", buf, before)
	for i, row := range rows {
		what := fmt.Sprintf("datagram %d", i)
		header, err := headers.At(i)
		fields, otherErr := packets.At(i)
		same(t, what, []any{err, otherErr}, []any{row.err, row.err})
		isRTCP := row.datagram != nil && row.datagram[1] == 201
		same(t, what+" is RTCP", []bool{headers.IsRTCP(i), packets.IsRTCP(i)}, []bool{isRTCP, isRTCP})
		for _, got := range [][]byte{headers.Datagram(i), packets.Datagram(i)} {
			same(t, what+" as a whole", [][]byte{got, {byte(cap(got))}}, [][]byte{append([]byte{}, row.datagram...), {byte(len(row.datagram))}})
		}
		lengths := []int{headers.HeaderLen(i), packets.HeaderLen(i)}
		payloads := [][]byte{headers.Payload(i), packets.Payload(i)}
		unpadded, fits := headers.UnpaddedPayload(i)
		otherUnpadded, otherFits := packets.UnpaddedPayload(i)
		form, body := packets.Block(i)
		parts := []any{unpadded, fits, otherUnpadded, otherFits, form, body, packets.BlockProfile(i)}
		if row.err != nil {
			same(t, what, []any{header == nil, fields == nil, lengths, payloads}, []any{true, true, []int{0, 0}, [][]byte{nil, nil}})
			same(t, what, parts, []any{[]byte(nil), false, []byte(nil), false, rtpwire.NoBlock, []byte(nil), uint16(0)})
			continue
		}
		alone := parsed(t, row.datagram, m)
		same(t, what+": header", *header, *alone.Header())
		same(t, what+": fields",
			[]any{fields.Timestamp, fields.SSRC, fields.SequenceNumber, fields.PayloadType, fields.Marker, fields.HasPadding},
			[]any{alone.Timestamp(), alone.SSRC(), alone.SequenceNumber(), alone.PayloadType(), alone.Marker(), alone.HasPadding()})
		same(t, what+": lengths", lengths, []int{alone.HeaderLen(), alone.HeaderLen()})
		same(t, what+": payloads", payloads, [][]byte{alone.Payload(), alone.Payload()})
		wanted, ok := alone.UnpaddedPayload()
		wantedForm, wantedBody := alone.Block()
		same(t, what+": parts", parts, []any{wanted, ok, wanted, ok, wantedForm, wantedBody, alone.BlockProfile()})
	}
}

// The values worked out by hand, so that what reads one datagram isn't all that tells what many are.
func TestManyByHand(t *testing.T) {
	level := []byte{0x90, 96, 0, 5, 0, 0, 0, 160, 0, 0, 0, 7, 0xBE, 0xDE, 0, 1, 0x10, 0x80, 0, 0, 'h', 'i'}
	buf, at := joined(level, sample())
	var headers rtpwire.HeaderBatch
	headers.Add(at[1], len(sample()))
	headers.Add(at[0], len(level))
	headers.Parse(buf, rtpwire.StandardMap())
	header, err := headers.At(0)
	same(t, "the first that was added", []any{header.SSRC, header.SequenceNumber, header.CSRC(), header.Marker, err},
		[]any{uint32(44), uint16(47000), []uint32{1, 2}, true, nil})
	header, err = headers.At(1)
	same(t, "the second", []any{header.SSRC, header.SequenceNumber, header.Timestamp, header.PayloadType, header.Marker, err},
		[]any{uint32(7), uint16(5), uint32(160), uint8(96), false, nil})
	db, voice, ok := header.Values.AudioLevel()
	same(t, "0 dB is there", []any{db, voice, ok}, []any{int8(0), true, true})
	number, ok := header.Values.TransportNumber()
	same(t, "no number", []any{number, ok}, []any{uint16(0), false})
	same(t, "payloads", []string{string(headers.Payload(0)), string(headers.Payload(1))}, []string{"\x01\x02\x03\x00\x02", "hi"})
	same(t, "lengths", []int{headers.HeaderLen(0), headers.HeaderLen(1)}, []int{32, 20})
}

// Places that aren't within the buffer are told of, and the others are read.
func TestPlacesPastTheBuffer(t *testing.T) {
	buf := plain(5)
	places := []struct{ at, length, wanted int }{
		{0, 14, 14}, {0, 15, -1}, {1, 14, -1}, {14, 0, 0}, {14, 1, -1}, {15, 0, -1}, {-1, 2, -1}, {-1, 15, -1}, {1, -1, -1},
		{0, -1, -1}, {0, math.MinInt, -1}, {math.MinInt, math.MinInt, -1}, {math.MaxInt, 1, -1}, {math.MaxInt, math.MaxInt, -1},
		{2, math.MaxInt, -1}, {-14, 14, -1}, {1 << 32, 14, -1}, {0, 14 + 1<<32, -1}, {0, 14, 14}, {0, 12, 12}, {2, 12, 12},
	}
	var headers rtpwire.HeaderBatch
	var packets rtpwire.PacketBatch
	for _, place := range places {
		headers.Add(place.at, place.length)
		packets.Add(place.at, place.length)
	}
	headers.Parse(buf, nil)
	packets.Parse(buf)
	for i, place := range places {
		what := fmt.Sprint(place)
		_, err := headers.At(i)
		_, otherErr := packets.At(i)
		wanted := map[bool]error{true: rtpwire.ErrBadField}[place.wanted < 0]
		if place.wanted >= 0 && place.at == 14 {
			wanted = rtpwire.CutFixedPart
		}
		if place.at == 2 && place.wanted == 12 {
			wanted = rtpwire.OtherVersion // 0, the number's high byte
		}
		same(t, what, []any{err, otherErr, headers.IsRTCP(i), packets.IsRTCP(i)}, []any{wanted, wanted, false, false})
		for _, datagram := range [][]byte{headers.Datagram(i), packets.Datagram(i)} {
			same(t, what, []any{datagram != nil, len(datagram)}, []any{place.wanted >= 0, map[bool]int{true: place.wanted}[place.wanted >= 0]})
		}
	}
	headers.Parse(nil, nil)
	packets.Parse([]byte{})
	for i, place := range places {
		_, err := headers.At(i)
		_, otherErr := packets.At(i)
		same(t, fmt.Sprint(place, " of no buffer"), []any{err, otherErr, headers.Datagram(i)}, []any{rtpwire.ErrBadField, rtpwire.ErrBadField, []byte(nil)})
	}
	headers.Reset()
	headers.Add(0, 0)
	headers.Parse(nil, nil)
	_, err := headers.At(0)
	same(t, "no bytes of no buffer", []any{headers.Len(), err}, []any{1, rtpwire.CutFixedPart})
}

// A batch of none is one, and what lies outside of a batch isn't told.
func TestManyThatAreNone(t *testing.T) {
	var headers rtpwire.HeaderBatch
	var packets rtpwire.PacketBatch
	var arrivals rtpwire.ArrivalBatch
	for round := 0; round < 2; round++ {
		headers.Parse(sample(), nil)
		packets.Parse(nil)
		arrivals.Receive(nil)
		same(t, "none", []int{headers.Len(), packets.Len(), arrivals.Len()}, []int{0, 0, 0})
		headers.Reset()
		packets.Reset()
		arrivals.Reset()
	}
	headers.Add(0, 37)
	headers.Parse(sample(), nil)
	headers.Add(0, 37)
	same(t, "of those that were read", headers.Len(), 1)
	for _, i := range []int{-1, 1} {
		func() {
			defer func() {
				if recover() == nil {
					t.Errorf("datagram %d of 1", i)
				}
			}()
			_, _ = headers.At(i)
		}()
	}
	headers.Parse(sample(), nil)
	same(t, "with the one that was added", headers.Len(), 2)
	headers.Reset()
	same(t, "none again", headers.Len(), 0)
}

// Of a batch that is used again nothing stays: not a datagram, not a value.
func TestBatchesAreUsedAgain(t *testing.T) {
	m := everyKind(t)
	buf, at := joined(everyValue, sample(), plain(5), camera(), everyValue[:40])
	lengths := []int{len(everyValue), len(sample()), len(plain(5)), len(camera()), 40}
	var headers rtpwire.HeaderBatch
	var packets rtpwire.PacketBatch
	for _, order := range [][]int{{0, 1, 2, 3, 4}, {2, 0, 3}, {4, 2}, {1, 0}, {3}, {4}, {0, 1, 2, 3, 4, 0, 1, 2, 3, 4}} {
		headers.Reset()
		packets.Reset()
		var fresh rtpwire.HeaderBatch
		for _, i := range order {
			headers.Add(at[i], lengths[i])
			packets.Add(at[i], lengths[i])
			fresh.Add(at[i], lengths[i])
		}
		headers.Parse(buf, m)
		packets.Parse(buf)
		fresh.Parse(buf, m)
		same(t, fmt.Sprint(order), []int{headers.Len(), packets.Len()}, []int{len(order), len(order)})
		for place, i := range order {
			what := fmt.Sprint(order, place)
			header, err := headers.At(place)
			wanted, wantedErr := fresh.At(place)
			same(t, what, []any{header, err, headers.Payload(place)}, []any{wanted, wantedErr, fresh.Payload(place)})
			same(t, what, wantedErr, map[bool]error{true: rtpwire.CutBlock}[i == 4])
			fields, err := packets.At(place)
			same(t, what, []any{err, packets.Payload(place)}, []any{wantedErr, fresh.Payload(place)})
			if err == nil {
				same(t, what, fields.SequenceNumber, wanted.SequenceNumber)
			}
		}
	}
	headers.Reset()
	headers.Add(at[2], lengths[2])
	headers.Parse(buf, m)
	header, err := headers.At(0)
	same(t, "without a value", []any{header.Values, header.HasExtension, len(header.CSRC()), err}, []any{rtpwire.Values{}, false, 0, nil})
	headers.Reset()
	headers.Add(at[0], lengths[0])
	headers.Parse(buf, nil)
	header, err = headers.At(0)
	same(t, "without a map", []any{header.Values, header.HasExtension, err}, []any{rtpwire.Values{}, true, nil})
}

// Datagrams may overlap; and what is lent ends where its datagram does.
func TestOverlappingDatagrams(t *testing.T) {
	buf := append(sample(), 0xEE)
	var headers rtpwire.HeaderBatch
	var packets rtpwire.PacketBatch
	for length := 32; length <= 38; length++ {
		headers.Add(0, length)
		packets.Add(0, length)
	}
	headers.Add(0, 37)
	headers.Parse(buf, nil)
	packets.Parse(buf)
	for i := 0; i < 7; i++ {
		same(t, "payloads", []int{len(headers.Payload(i)), len(packets.Payload(i))}, []int{i, i})
	}
	_, body := packets.Block(0)
	unpadded, _ := headers.UnpaddedPayload(5)
	otherUnpadded, _ := packets.UnpaddedPayload(5)
	for what, part := range map[string][]byte{
		"datagram": headers.Datagram(2), "payload": headers.Payload(3), "unpadded": unpadded, "body": body,
		"other payload": packets.Payload(4), "other unpadded": otherUnpadded, "other datagram": packets.Datagram(0),
	} {
		_ = append(part, 0x77)
		same(t, what+" after an append", buf, append(sample(), 0xEE))
	}
	headers.Payload(7)[0] = 9
	same(t, "shared", []byte{buf[32], headers.Payload(1)[0], packets.Payload(6)[0]}, []byte{9, 9, 9})
}

// A header that was copied stays; one that was lent is read anew.
func TestHeadersOfABatchAreCopied(t *testing.T) {
	buf, at := joined(sample(), plain(5))
	var batch rtpwire.HeaderBatch
	batch.Add(at[0], 37)
	batch.Parse(buf, nil)
	lent, _ := batch.At(0)
	copied := *lent
	batch.Reset()
	batch.Add(at[1], 14)
	batch.Parse(buf, nil)
	same(t, "lent and copied", []uint32{lent.SSRC, copied.SSRC}, []uint32{7, 44})
}

// Each packet is judged by the receiver at its index, in the order in which they were added.
func TestArrivals(t *testing.T) {
	receivers := make([]rtpwire.Receiver, 3)
	second, err := rtpwire.NewReceiver(1)
	same(t, "made", err, nil)
	receivers[1] = *second
	rows := []struct {
		receiver int
		low      uint16
		number   uint64
		err      error
	}{
		{0, 65535, 65535, nil},
		{1, 65535, 131071, nil},
		{3, 7, 0, rtpwire.ErrBadField},
		{0, 0, 65536, nil},
		{0, 0, 0, rtpwire.ErrRefused},
		{1, 65534, 131070, nil},
		{-1, 7, 0, rtpwire.ErrBadField},
		{math.MinInt, 7, 0, rtpwire.ErrBadField},
		{2, 0, 0, nil},
		{2, 0, 0, rtpwire.ErrRefused},
		{0, 200, 65736, nil},
		{0, 72, 0, rtpwire.ErrRefused}, // 128 below
		{0, 73, 65609, nil},
		{1, 65535, 0, rtpwire.ErrRefused},
	}
	var batch rtpwire.ArrivalBatch
	for _, row := range rows {
		batch.Add(row.receiver, row.low)
	}
	same(t, "not yet", []any{batch.Len(), receivers[0]}, []any{0, rtpwire.Receiver{}})
	batch.Receive(receivers)
	same(t, "how many", batch.Len(), len(rows))
	wanted := [3]rtpwire.Receiver{{}, *second, {}}
	for i, row := range rows {
		number, err := batch.At(i)
		same(t, fmt.Sprint("packet ", i), []any{number, err}, []any{row.number, row.err})
		if row.err != rtpwire.ErrBadField {
			alone, ok := wanted[row.receiver].Receive(row.low)
			same(t, fmt.Sprint("packet ", i, " alone"), []any{alone, ok}, []any{row.number, row.err == nil})
		}
	}
	same(t, "receivers", receivers, wanted[:])

	// Used again with fewer, and once more without Reset.
	batch.Reset()
	batch.Add(1, 3)
	batch.Add(0, 204)
	batch.Receive(receivers)
	for i, wanted := range []uint64{131075, 65740} {
		number, err := batch.At(i)
		same(t, "again", []any{number, err, batch.Len()}, []any{wanted, nil, 2})
	}
	batch.Receive(receivers)
	batch.Add(2, 1)
	same(t, "all that were added", batch.Len(), 2)
	for i := 0; i < 2; i++ {
		_, err := batch.At(i)
		same(t, "twice", err, rtpwire.ErrRefused)
	}
	batch.Receive(nil)
	for i := 0; i < 3; i++ {
		number, err := batch.At(i)
		same(t, "no receivers", []any{number, err, batch.Len()}, []any{uint64(0), rtpwire.ErrBadField, 3})
	}
}

func TestBatchesTakeNoMemory(t *testing.T) {
	buf, at := joined(sample(), plain(5), sample()[:11])
	m := rtpwire.StandardMap()
	var headers rtpwire.HeaderBatch
	var packets rtpwire.PacketBatch
	var arrivals rtpwire.ArrivalBatch
	receivers := make([]rtpwire.Receiver, 2)
	number := uint16(0)
	once := func() {
		headers.Reset()
		packets.Reset()
		arrivals.Reset()
		for i := 0; i < 30; i++ {
			headers.Add(at[i%3], 11+i%3)
			packets.Add(at[i%3], 14)
			arrivals.Add(i%3, number)
			number++
		}
		headers.Parse(buf, m)
		packets.Parse(buf)
		arrivals.Receive(receivers)
		for i := 0; i < 30; i++ {
			_, err := headers.At(i)
			_, otherErr := packets.At(i)
			_, lastErr := arrivals.At(i)
			if err == nil && otherErr == nil && lastErr == nil && len(headers.Payload(i)) > 14 {
				t.Fatal(i)
			}
		}
	}
	once()
	same(t, "how often", testing.AllocsPerRun(100, once), 0.0)
}

// Datagrams that are cut out of packets anywhere, with some bytes changed, are read as each alone.
func TestManyAtRandom(t *testing.T) {
	random := rand.New(rand.NewSource(1))
	m := everyKind(t)
	source, _ := joined(sample(), everyValue, camera(), plain(5), report)
	var headers rtpwire.HeaderBatch
	var packets rtpwire.PacketBatch
	for round := 0; round < 2000; round++ {
		buf := changedAnywhere(append([]byte(nil), source...), random)
		headers.Reset()
		packets.Reset()
		for i := 0; i < 16; i++ {
			at, length := random.Intn(len(buf)+2), random.Intn(len(buf)+2)
			headers.Add(at, length)
			packets.Add(at, length)
		}
		headers.Parse(buf, m)
		packets.Parse(buf)
		agree(t, buf, m, &headers, &packets)
	}
}

// changedAnywhere is the bytes with some of them changed.
func changedAnywhere(buf []byte, random *rand.Rand) []byte {
	for i := random.Intn(8); i > 0; i-- {
		buf[random.Intn(len(buf))] = byte(random.Intn(256))
	}
	return buf
}

// agree is whether both batches have what each datagram alone is.
func agree(t *testing.T, buf []byte, m *rtpwire.Map, headers *rtpwire.HeaderBatch, packets *rtpwire.PacketBatch) {
	t.Helper()
	for i := 0; i < headers.Len(); i++ {
		datagram := headers.Datagram(i)
		header, err := headers.At(i)
		fields, otherErr := packets.At(i)
		if datagram == nil {
			if err != rtpwire.ErrBadField || otherErr != rtpwire.ErrBadField {
				t.Fatal(err, otherErr)
			}
			continue
		}
		var alone rtpwire.Packet
		wanted := alone.Parse(datagram, m)
		if err != wanted || otherErr != wanted || headers.IsRTCP(i) != rtpwire.IsRTCP(datagram) || packets.IsRTCP(i) != headers.IsRTCP(i) {
			t.Fatalf("% x: %v and %v, wanted %v", datagram, err, otherErr, wanted)
		}
		if err != nil {
			continue
		}
		unpadded, ok := headers.UnpaddedPayload(i)
		otherUnpadded, otherOK := packets.UnpaddedPayload(i)
		aloneUnpadded, aloneOK := alone.UnpaddedPayload()
		form, body := packets.Block(i)
		aloneForm, aloneBody := alone.Block()
		if *header != *alone.Header() || fields.SSRC != alone.SSRC() || ok != aloneOK || otherOK != aloneOK || form != aloneForm ||
			!bytes.Equal(unpadded, aloneUnpadded) || !bytes.Equal(otherUnpadded, aloneUnpadded) || !bytes.Equal(body, aloneBody) ||
			!bytes.Equal(headers.Payload(i), alone.Payload()) || !bytes.Equal(packets.Payload(i), alone.Payload()) {
			t.Fatalf("% x", datagram)
		}
	}
}

func FuzzParseMany(f *testing.F) {
	f.Add(append(sample(), everyValue...), uint16(0), uint16(37), uint16(37), uint16(200))
	f.Add(camera(), uint16(0), uint16(28), uint16(65535), uint16(65535))
	m := rtpwire.StandardMap()
	f.Fuzz(func(t *testing.T, buf []byte, at, length, otherAt, otherLength uint16) {
		var headers rtpwire.HeaderBatch
		var packets rtpwire.PacketBatch
		for _, place := range [][2]int{{int(at), int(length)}, {int(otherAt), int(otherLength)}, {0, len(buf)}} {
			headers.Add(place[0], place[1])
			packets.Add(place[0], place[1])
		}
		headers.Parse(buf, m)
		packets.Parse(buf)
		agree(t, buf, m, &headers, &packets)
	})
}

// Batches of many goroutines at once, each with buffers of its own and one map, give what each gives alone.
func TestBatchesOfManyGoroutines(t *testing.T) {
	m := everyKind(t)
	done := make(chan error)
	for own := byte(1); own <= 8; own++ {
		go func(own byte) {
			datagram := with(uint16(own), "payload of another")
			datagram[11] = own
			buf, at := joined(datagram, everyValue)
			var batch rtpwire.HeaderBatch
			var arrivals rtpwire.ArrivalBatch
			var err error
			for round := 0; round < 1000; round++ {
				batch.Reset()
				arrivals.Reset()
				batch.Add(at[0], len(datagram))
				batch.Add(at[1], len(everyValue))
				batch.Parse(buf, m)
				header, _ := batch.At(0)
				other, _ := batch.At(1)
				mid, _ := other.Values.MID()
				receivers := make([]rtpwire.Receiver, int(own))
				arrivals.Add(int(own)-1, uint16(own)<<8|uint16(round))
				arrivals.Receive(receivers)
				number, _ := arrivals.At(0)
				got := []any{header.SSRC, mid, number}
				if wanted := []any{uint32(own), "audio_1", uint64(own)<<8 | uint64(round)&0xFFFF}; !reflect.DeepEqual(got, wanted) {
					err = fmt.Errorf("%v, wanted %v", got, wanted)
				}
			}
			done <- err
		}(own)
	}
	for i := 0; i < 8; i++ {
		same(t, "goroutine", <-done, nil)
	}
}
