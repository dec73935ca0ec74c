package rtpwire_test

import (
	"errors"
	"testing"

	"rtp-wire.example/rtpwire"
)

func TestStandings(t *testing.T) {
	first, err := rtpwire.NewReceiver(1)
	same(t, "made", err, nil)
	words := wide(t, 16, 1)
	same(t, "nothing is taken", []any{first.StandingOf(0), words.StandingOf(0)}, []any{rtpwire.StandingNew, rtpwire.StandingNew})
	first.Record(66536)
	words.Record(66536)
	for _, row := range []struct {
		number      uint64
		first, wide rtpwire.Standing
	}{
		{66537, rtpwire.StandingNew, rtpwire.StandingNew},
		{66536, rtpwire.StandingTaken, rtpwire.StandingTaken},
		{66409, rtpwire.StandingNew, rtpwire.StandingNew}, // before the first one taken, and within the window
		{66408, rtpwire.StandingTooOld, rtpwire.StandingNew},
		{65513, rtpwire.StandingTooOld, rtpwire.StandingNew},
		{65512, rtpwire.StandingTooOld, rtpwire.StandingTooOld},
	} {
		same(t, "standing", []any{first.StandingOf(row.number), words.StandingOf(row.number)}, []any{row.first, row.wide})
	}
	var none rtpwire.WideReceiver
	same(t, "no words", none.StandingOf(0), rtpwire.StandingTooOld)
	names := []string{rtpwire.StandingNew.String(), rtpwire.StandingTaken.String(), rtpwire.StandingTooOld.String()}
	same(t, "names", names, []string{"new", "taken already", "too old to tell"})
}

// A packet from before the first one has a number where the rollover count is 1, and one near 2^64 where it is 0.
func TestPacketFromBeforeTheFirst(t *testing.T) {
	first, err := rtpwire.NewReceiver(1)
	same(t, "made", err, nil)
	number, ok := first.Receive(5)
	same(t, "first", []any{number, ok}, []any{uint64(65541), true})
	var zero rtpwire.Receiver
	words := wide(t, 16, 1)
	words.Receive(5)
	zero.Receive(5)
	for _, row := range []struct {
		low          uint16
		number       uint64
		fromZero     uint64
		isTakenAfter bool
	}{{65533, 65533, 1<<64 - 3, true}, {6, 65542, 0, false}, {7, 65543, 0, false}} {
		number, ok = first.Receive(row.low)
		same(t, "from 1", []any{number, ok}, []any{row.number, true})
		number, ok = words.Receive(row.low)
		same(t, "wide, from 1", []any{number, ok}, []any{row.number, true})
		number, ok = zero.Receive(row.low)
		same(t, "from 0", []any{number, ok}, []any{row.fromZero, row.isTakenAfter})
	}
}

func TestReceiver(t *testing.T) {
	var r rtpwire.Receiver
	if _, ok := r.Highest(); ok {
		t.Error("a number was taken")
	}
	rows := []struct {
		low    uint16
		number uint64
		ok     bool
	}{
		{65535, 65535, true},
		{0, 65536, true}, // a rollover
		{65535, 0, false},
		{200, 65736, true},
		{72, 0, false}, // 128 below the highest
		{73, 65609, true},
		{73, 0, false},
	}
	for _, row := range rows {
		before := r
		number, ok := r.Receive(row.low)
		same(t, "verdict", []any{number, ok}, []any{row.number, row.ok})
		if !row.ok {
			same(t, "the receiver", r, before)
		}
	}
	highest, ok := r.Highest()
	same(t, "highest", []any{highest, ok}, []any{uint64(65736), true})
}

// A packet whose block has another form is judged as any other is, and so is a replay of it: 5 with the rollover count 1
// is 65,541.
func TestOtherFormsAreJudged(t *testing.T) {
	receiver, err := rtpwire.NewReceiver(1)
	same(t, "started", err, nil)
	words, restarting := wide(t, 1, 1), new(rtpwire.RestartingReceiver)
	for _, row := range []struct {
		what   string
		call   func([]byte, *rtpwire.Map, *rtpwire.Packet) (uint64, error)
		number uint64
		err    error
	}{
		{"checked", receiver.CheckPacket, 65541, nil},
		{"received", receiver.ReceivePacket, 65541, nil},
		{"a replay is checked", receiver.CheckPacket, 65541, rtpwire.ErrRefused},
		{"a replay is received", receiver.ReceivePacket, 0, rtpwire.ErrRefused},
		{"checked by words", words.CheckPacket, 65541, nil},
		{"received by words", words.ReceivePacket, 65541, nil},
		{"a replay is checked by words", words.CheckPacket, 65541, rtpwire.ErrRefused},
		{"a replay is received by words", words.ReceivePacket, 0, rtpwire.ErrRefused},
	} {
		var packet rtpwire.Packet
		number, err := row.call(camera(), rtpwire.StandardMap(), &packet)
		same(t, row.what, []any{number, err, packet.BlockProfile()}, []any{row.number, row.err, uint16(0xABAC)})
	}
	for _, wanted := range [][]any{{uint64(65541), rtpwire.Taken, nil}, {uint64(0), rtpwire.Refused, nil}} {
		var packet rtpwire.Packet
		number, verdict, err := restarting.ReceivePacket(camera(), rtpwire.StandardMap(), &packet)
		same(t, "of a source", []any{number, verdict, err}, wanted)
		same(t, "the packet", packet.BlockProfile(), uint16(0xABAC))
	}
}

func TestRolloverCounts(t *testing.T) {
	r, err := rtpwire.NewReceiver(1)
	if err != nil {
		t.Fatal(err)
	}
	// one from before the first
	for _, row := range [][2]uint64{{5, 65541}, {65533, 65533}, {6, 65542}} {
		number, ok := r.Receive(uint16(row[0]))
		same(t, "number", []any{number, ok}, []any{row[1], true})
	}
	if _, err := rtpwire.NewReceiver(1<<48 - 1); err != nil {
		t.Error(err)
	}
	if r, err := rtpwire.NewReceiver(1 << 48); err != rtpwire.ErrBadField || r != nil {
		t.Error(r, err)
	}
}

func TestThreeSteps(t *testing.T) {
	var r rtpwire.Receiver
	r.Record(r.NumberOf(100))
	before := r
	same(t, "number", r.NumberOf(99), uint64(99))
	same(t, "accepted", []bool{r.Accepts(99), r.Accepts(100), r.Accepts(101)}, []bool{true, false, true})
	same(t, "the receiver", r, before)
	same(t, "recorded", []bool{r.Record(99), r.Record(99)}, []bool{true, false})
	same(t, "accepted", r.Accepts(99), false)
}

func TestPacketsAreReceived(t *testing.T) {
	r, err := rtpwire.NewReceiver(1)
	if err != nil {
		t.Fatal(err)
	}
	var packet rtpwire.Packet
	m := rtpwire.StandardMap()
	datagram := []byte{0x90, 96, 0, 5, 0, 0, 0, 1, 0, 0, 0, 7, 0xBE, 0xDE, 0, 1, 0x10, 0x8A, 0, 0, 'h', 'i'}

	// It isn't recorded by a test.
	for range [2]int{} {
		number, err := r.CheckPacket(datagram, m, &packet)
		same(t, "checked", []any{number, err}, []any{uint64(65541), nil})
	}
	number, err := r.ReceivePacket(datagram, m, &packet)
	same(t, "received", []any{number, err}, []any{uint64(65541), nil})
	level, voice, ok := packet.Values().AudioLevel()
	same(t, "level", []any{level, voice, ok, string(packet.Payload())}, []any{int8(-10), true, true, "hi"})

	// A replay is read, and changes nothing of the receiver.
	before := *r
	replay := append([]byte(nil), datagram...)
	replay[21] = 'o'
	_, err = r.ReceivePacket(replay, m, &packet)
	same(t, "a replay", []any{err, string(packet.Payload()), *r}, []any{rtpwire.ErrRefused, "ho", before})
	number, err = r.CheckPacket(datagram, m, &packet)
	same(t, "a replay", []any{number, err, string(packet.Payload()), *r}, []any{uint64(65541), rtpwire.ErrRefused, "hi", before})

	// What is no packet changes neither.
	read := packet
	for _, call := range []func([]byte, *rtpwire.Map, *rtpwire.Packet) (uint64, error){r.ReceivePacket, r.CheckPacket} {
		_, err = call(datagram[:19], m, &packet)
		if !errors.Is(err, rtpwire.CutBlock) {
			t.Error(err)
		}
		same(t, "both", []any{packet, *r}, []any{read, before})
	}
	r.Record(65542)
	datagram[3] = 6
	_, err = r.ReceivePacket(datagram, m, &packet)
	same(t, "one that was recorded", err, rtpwire.ErrRefused)
}

func TestExtend(t *testing.T) {
	same(t, "8 bits", []uint64{rtpwire.Extend8(255, 0), rtpwire.Extend8(256, 255)}, []uint64{256, 255})
	same(t, "15 bits", []uint64{rtpwire.Extend15(32767, 0), rtpwire.Extend15(32767, 0x8000)}, []uint64{32768, 32768})
	same(t, "16 bits", []uint64{rtpwire.Extend16(65530, 4), rtpwire.Extend16(65536, 65535)}, []uint64{65540, 65535})
	same(t, "32 bits", rtpwire.Extend32(1<<32-1, 0), uint64(1<<32))
}

func TestNoMemoryIsTaken(t *testing.T) {
	m := rtpwire.StandardMap()
	ids := rtpwire.NewIDsBetween(m, m)
	datagram := []byte{0x90, 96, 0, 5, 0, 0, 0, 1, 0, 0, 0, 7, 0xBE, 0xDE, 0, 1, 0x10, 0x8A, 0, 0, 'h', 'i'}
	buf := make([]byte, 100)
	places := make([]rtpwire.Place, 0, 4)
	var packet rtpwire.Packet
	var receiver rtpwire.Receiver
	wideReceiver := wide(t, 16, 1)
	var restarting rtpwire.RestartingReceiver
	var elementData [rtpwire.MostData]byte
	var layers rtpwire.Layers
	header := parsed(t, datagram, m).Header()
	number := uint16(0)
	taken := testing.AllocsPerRun(100, func() {
		number++
		var fields rtpwire.Fields
		fields.SetSequenceNumber(number)
		err := fields.Apply(datagram)
		if err == nil {
			_, err = receiver.ReceivePacket(datagram, m, &packet)
		}
		if err == nil {
			_, err = wideReceiver.ReceivePacket(datagram, m, &packet)
		}
		if err == nil {
			_, _, err = restarting.ReceivePacket(datagram, m, &packet)
		}
		if err == nil {
			_, err = packet.Values().DataOf(rtpwire.KindAudioLevel, elementData[:])
		}
		if err == nil {
			err = rtpwire.Renumber(datagram, ids)
		}
		if err == nil {
			_, err = header.WriteInto(buf, m)
		}
		if err == nil {
			err = layers.Parse(datagram, m)
		}
		if err == nil {
			_, err = header.WriteLayers(buf, m, &layers)
		}
		places = packet.AppendPlaces(places[:0])
		_, isThere := packet.Element(1)
		if err != nil || len(places) != 1 || !isThere {
			t.Fatal(err, places)
		}
		if err := packet.Parse(datagram[:19], m); err == nil {
			t.Fatal("cut")
		}
	})
	same(t, "how often", taken, 0.0)
}
