package rtpwire_test

import (
	"errors"
	"testing"

	"rtp-wire.example/rtpwire"
)

func wide(t *testing.T, words int, rolloverCount uint64) *rtpwire.WideReceiver {
	t.Helper()
	r, err := rtpwire.NewWideReceiver(words, rolloverCount)
	if err != nil {
		t.Fatal(err)
	}
	return r
}

func TestWindowOf1024(t *testing.T) {
	r := wide(t, 16, 1)
	if _, ok := r.Highest(); ok {
		t.Error("a number was taken")
	}
	rows := []struct {
		low    uint16
		number uint64
		ok     bool
	}{
		{5000, 70536, true},
		{3977, 69513, true}, // 1,023 below the highest
		{3977, 0, false},
		{3976, 0, false}, // 1,024 below it
		{5001, 70537, true},
		{3978, 69514, true},
	}
	for _, row := range rows {
		number, ok := r.Receive(row.low)
		same(t, "verdict", []any{number, ok}, []any{row.number, row.ok})
	}
	highest, ok := r.Highest()
	same(t, "highest", []any{highest, ok}, []any{uint64(70537), true})
}

func TestWords(t *testing.T) {
	for _, words := range []int{1, 512} {
		r := wide(t, words, 1)
		r.Record(105536)
		size := uint64(64 * words)
		same(t, "accepted", []bool{r.Accepts(105536 - size + 1), r.Accepts(105536 - size)}, []bool{true, false})
	}
	for _, words := range []int{-1, 0, 513} {
		if r, err := rtpwire.NewWideReceiver(words, 1); err != rtpwire.ErrBadField || r != nil {
			t.Error(r, err)
		}
	}
	wide(t, 1, 1<<48-1)
	if r, err := rtpwire.NewWideReceiver(1, 1<<48); err != rtpwire.ErrBadField || r != nil {
		t.Error(r, err)
	}
	// without words it takes nothing
	var none rtpwire.WideReceiver
	number, ok := none.Receive(5)
	same(t, "of none", []any{number, ok, none.Accepts(5), none.Record(5)}, []any{uint64(0), false, false, false})
}

func TestThreeStepsOfWideReceivers(t *testing.T) {
	r := wide(t, 2, 0)
	same(t, "recorded", []bool{r.Record(r.NumberOf(65535)), r.Record(r.NumberOf(0))}, []bool{true, true})
	same(t, "number", r.NumberOf(65535), uint64(65535))
	same(t, "accepted", []bool{r.Accepts(65536), r.Accepts(65537), r.Accepts(65536 - 127)}, []bool{false, true, true})
	same(t, "recorded", []bool{r.Record(65536), r.Record(65536 - 128), r.Record(65536 - 127)}, []bool{false, false, true})
}

func TestPacketsAreReceivedByWideReceivers(t *testing.T) {
	r := wide(t, 16, 1)
	var packet rtpwire.Packet
	datagram := []byte{0x80, 96, 0, 5, 0, 0, 0, 1, 0, 0, 0, 7, 'h', 'i'}
	for range [2]int{} {
		number, err := r.CheckPacket(datagram, nil, &packet)
		same(t, "checked", []any{number, err}, []any{uint64(65541), nil})
	}
	number, err := r.ReceivePacket(datagram, nil, &packet)
	same(t, "received", []any{number, err, string(packet.Payload())}, []any{uint64(65541), nil, "hi"})
	_, err = r.ReceivePacket(datagram, nil, &packet)
	same(t, "a replay", err, rtpwire.ErrRefused)
	number, err = r.CheckPacket(datagram, nil, &packet)
	same(t, "a replay", []any{number, err}, []any{uint64(65541), rtpwire.ErrRefused})
	for _, call := range []func([]byte, *rtpwire.Map, *rtpwire.Packet) (uint64, error){r.ReceivePacket, r.CheckPacket} {
		if _, err := call(datagram[:11], nil, &packet); !errors.Is(err, rtpwire.CutFixedPart) {
			t.Error(err)
		}
	}
}
