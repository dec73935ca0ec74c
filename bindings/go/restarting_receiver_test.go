package rtpwire_test

import (
	"errors"
	"testing"

	"rtp-wire.example/rtpwire"
)

type judged struct {
	low     uint16
	number  uint64
	verdict rtpwire.Verdict
}

// judges compares the verdicts on packets, one after another, with those of RFC 3550, A.1, by hand.
func judges(t *testing.T, r interface {
	Receive(uint16) (uint64, rtpwire.Verdict)
}, rows []judged) {
	t.Helper()
	for _, row := range rows {
		number, verdict := r.Receive(row.low)
		same(t, "verdict", judged{row.low, number, verdict}, row)
	}
}

// Of a new source the last one of so many packets in a row is the first that is taken, and those before it are refused. One of
// these that comes again is before the first one taken, where the window reaches it.
func TestFirstPacketThatIsTaken(t *testing.T) {
	rows := []judged{
		{7, 0, rtpwire.Refused}, {9, 0, rtpwire.Refused}, {10, 0, rtpwire.Refused}, {11, 65547, rtpwire.Taken}, {12, 65548, rtpwire.Taken},
	}
	judges(t, &rtpwire.RestartingReceiver{MinSequential: 3}, rows)
	r, err := rtpwire.NewWideRestartingReceiver(16, rtpwire.RestartBounds{MinSequential: 3})
	same(t, "made", err, nil)
	judges(t, r, rows)
	same(t, "before the first one", r.StandingOf(65546), rtpwire.StandingNew)
	number, verdict := r.Receive(10)
	same(t, "it comes again", []any{number, verdict}, []any{uint64(65546), rtpwire.Taken})
}

func TestLargeJump(t *testing.T) {
	var r rtpwire.RestartingReceiver
	if _, ok := r.Highest(); ok {
		t.Error("a number was taken")
	}
	// 2,999 ahead is of the stream, and 3,000 isn't.
	judges(t, &r, []judged{
		{1000, 66536, rtpwire.Taken},
		{3999, 69535, rtpwire.Taken},
		{6999, 0, rtpwire.Refused},
		{7001, 0, rtpwire.Refused},
		{7000, 0, rtpwire.Refused},
		{7001, 203609, rtpwire.Restarted},
		{7001, 0, rtpwire.Refused},
		{7000, 203608, rtpwire.Taken},
		{7002, 203610, rtpwire.Taken},
	})
	highest, ok := r.Highest()
	same(t, "highest", []any{highest, ok}, []any{uint64(203610), true})
}

func TestVeryNextPacket(t *testing.T) {
	judges(t, new(rtpwire.RestartingReceiver), []judged{
		{1000, 66536, rtpwire.Taken},
		{29999, 0, rtpwire.Refused},
		{1001, 66537, rtpwire.Taken},
		{30000, 0, rtpwire.Refused},
		{30001, 226609, rtpwire.Restarted},
	})
}

func TestBounds(t *testing.T) {
	judges(t, &rtpwire.RestartingReceiver{MaxDropout: 100, MinSequential: 2}, []judged{
		{500, 0, rtpwire.Refused},
		{502, 0, rtpwire.Refused},
		{503, 66039, rtpwire.Taken},
		{603, 0, rtpwire.Refused},
		{602, 66138, rtpwire.Taken},
	})
}

// Retransmissions are no restart: 1,023 below is in the window, and 2,999 below is of the stream.
func TestLatePackets(t *testing.T) {
	rows := []judged{
		{5000, 70536, rtpwire.Taken},
		{4800, 70336, rtpwire.Taken},
		{4801, 70337, rtpwire.Taken},
		{4801, 0, rtpwire.Refused},
		{3977, 69513, rtpwire.Taken},
		{3976, 0, rtpwire.Refused},
		{2001, 0, rtpwire.Refused},
		{2002, 0, rtpwire.Refused},
		{2000, 0, rtpwire.Refused},
		{2001, 0, rtpwire.Refused},
		{1999, 0, rtpwire.Refused},
		{2000, 198608, rtpwire.Restarted},
	}
	judges(t, new(rtpwire.RestartingReceiver), rows)
	judges(t, wideRestarting(t, 16, rtpwire.RestartBounds{}), rows)
	// a window of 32,768 numbers is the bound
	judges(t, wideRestarting(t, 512, rtpwire.RestartBounds{}), []judged{{40000, 105536, rtpwire.Taken}, {7233, 72769, rtpwire.Taken}})
}

// A sender that starts again at 4,999 after 5,000 and 5,002 isn't seen: what was taken is refused, and all else is late.
func TestARestartThatIsNotSeen(t *testing.T) {
	rows := []judged{
		{5000, 70536, rtpwire.Taken},
		{5002, 70538, rtpwire.Taken},
		{4999, 70535, rtpwire.Taken},
		{5000, 0, rtpwire.Refused},
		{5001, 70537, rtpwire.Taken},
		{5002, 0, rtpwire.Refused},
		{5003, 70539, rtpwire.Taken},
	}
	judges(t, new(rtpwire.RestartingReceiver), rows)
	judges(t, wideRestarting(t, 16, rtpwire.RestartBounds{}), rows)
}

// By RFC 3550's bounds 99 below is of the stream and 100 isn't, and a source is valid with its second packet.
func TestBoundsOfTheRFC(t *testing.T) {
	rows := []judged{
		{999, 0, rtpwire.Refused},
		{1000, 66536, rtpwire.Taken},
		{901, 66437, rtpwire.Taken},
		{899, 0, rtpwire.Refused},
		{900, 197508, rtpwire.Restarted},
		{1000, 197608, rtpwire.Taken},
		{4000, 0, rtpwire.Refused},
	}
	judges(t, &rtpwire.RestartingReceiver{MaxMisorder: 100, MinSequential: 2}, rows)
	judges(t, wideRestarting(t, 2, rtpwire.RestartBounds{MaxMisorder: 100, MinSequential: 2}), rows)
	judges(t, wideRestarting(t, 1, rtpwire.RestartBounds{MaxDropout: 10}), []judged{{5, 65541, rtpwire.Taken}, {15, 0, rtpwire.Refused}})
}

func wideRestarting(t *testing.T, words int, bounds rtpwire.RestartBounds) *rtpwire.WideRestartingReceiver {
	t.Helper()
	r, err := rtpwire.NewWideRestartingReceiver(words, bounds)
	same(t, "made", err, nil)
	return r
}

func TestWideRestartingReceivers(t *testing.T) {
	for _, words := range []int{-1, 0, 513} {
		r, err := rtpwire.NewWideRestartingReceiver(words, rtpwire.RestartBounds{})
		same(t, "words", []any{r, err}, []any{(*rtpwire.WideRestartingReceiver)(nil), rtpwire.ErrBadField})
	}
	var none rtpwire.WideRestartingReceiver
	judges(t, &none, []judged{{5, 0, rtpwire.Refused}})
	var packet rtpwire.Packet
	datagram := []byte{0x80, 96, 0, 5, 0, 0, 0, 1, 0, 0, 0, 7, 'h', 'i'}
	_, _, err := none.ReceivePacket(datagram, nil, &packet)
	same(t, "no words", err, rtpwire.ErrBadField)
	r := wideRestarting(t, 3, rtpwire.RestartBounds{})
	highest, ok := r.Highest()
	same(t, "nothing is taken", []any{highest, ok}, []any{uint64(0), false})
	number, verdict, err := r.ReceivePacket(datagram, nil, &packet)
	same(t, "taken", []any{number, verdict, err, string(packet.Payload())}, []any{uint64(65541), rtpwire.Taken, nil, "hi"})
	_, _, err = r.ReceivePacket(datagram[:11], nil, &packet)
	same(t, "no packet", errors.Is(err, rtpwire.CutFixedPart), true)
	highest, ok = r.Highest()
	same(t, "highest", []any{highest, ok}, []any{uint64(65541), true})
}

func TestPacketsAreJudged(t *testing.T) {
	var r rtpwire.RestartingReceiver
	var packet rtpwire.Packet
	datagram := []byte{0x80, 96, 0, 5, 0, 0, 0, 1, 0, 0, 0, 7, 'h', 'i'}
	rows := []judged{
		{5, 65541, rtpwire.Taken},
		{5, 0, rtpwire.Refused},
		{20000, 0, rtpwire.Refused},
		{20001, 216609, rtpwire.Restarted},
	}
	for _, row := range rows {
		datagram[2], datagram[3] = byte(row.low>>8), byte(row.low)
		number, verdict, err := r.ReceivePacket(datagram, nil, &packet)
		same(t, "judged", []any{number, verdict, err}, []any{row.number, row.verdict, nil})
		same(t, "read", []any{packet.SequenceNumber(), string(packet.Payload())}, []any{row.low, "hi"})
	}
	read, before := packet, r
	number, verdict, err := r.ReceivePacket(datagram[:11], nil, &packet)
	if !errors.Is(err, rtpwire.CutFixedPart) {
		t.Error(err)
	}
	same(t, "no packet", []any{number, verdict, packet, r}, []any{uint64(0), rtpwire.Refused, read, before})
	names := []string{rtpwire.Refused.String(), rtpwire.Taken.String(), rtpwire.Restarted.String()}
	same(t, "names", names, []string{"refused", "taken", "restarted"})
}

// Each epoch begins with the rollover count 2 more than that of the highest number before: after 2^15 of them the
// numbers are past 2^32.
func TestEpochsPastTwoToThe32(t *testing.T) {
	var r rtpwire.RestartingReceiver
	judges(t, &r, []judged{{0, 65536, rtpwire.Taken}})
	const epochs = 1<<15 + 2
	for epoch := uint64(1); epoch <= epochs; epoch++ {
		low := uint16(20000 + epoch%2*30000)
		r.Receive(low)
		number, verdict := r.Receive(low + 1)
		if number != (1+2*epoch)<<16+uint64(low+1) || verdict != rtpwire.Restarted {
			t.Fatal(epoch, number, verdict)
		}
	}
	judges(t, &r, []judged{{20002, 1<<32 + 5<<16 + 20002, rtpwire.Taken}})
	highest, ok := r.Highest()
	same(t, "highest", []any{highest, ok}, []any{uint64(1<<32 + 5<<16 + 20002), true})
	var packet rtpwire.Packet
	number, verdict, err := r.ReceivePacket(plain(20003), nil, &packet)
	same(t, "taken", []any{number, verdict, err}, []any{uint64(1<<32 + 5<<16 + 20003), rtpwire.Taken, nil})
}

// What tells of a refused packet whether it is of the stream, and why it is refused. The window has 1,024 numbers, and
// 3,000 below is outside.
func TestRefusedPackets(t *testing.T) {
	type inEpoch interface {
		Receive(uint16) (uint64, rtpwire.Verdict)
		InRow() int
		NumberOf(uint16) uint64
		StandingOf(uint64) rtpwire.Standing
	}
	for _, r := range []inEpoch{new(rtpwire.RestartingReceiver), wideRestarting(t, 16, rtpwire.RestartBounds{})} {
		same(t, "nothing is taken", []any{r.InRow(), r.NumberOf(0), r.NumberOf(65535), r.StandingOf(5)},
			[]any{0, uint64(65536), uint64(131071), rtpwire.StandingNew})
		for _, row := range []struct {
			judged
			inRow    int
			of       uint64
			standing rtpwire.Standing
		}{
			{judged{60000, 125536, rtpwire.Taken}, 0, 125536, rtpwire.StandingTaken},
			{judged{60000, 0, rtpwire.Refused}, 0, 125536, rtpwire.StandingTaken},
			{judged{58977, 124513, rtpwire.Taken}, 0, 124513, rtpwire.StandingTaken},
			{judged{58976, 0, rtpwire.Refused}, 0, 124512, rtpwire.StandingTooOld},
			{judged{57001, 0, rtpwire.Refused}, 0, 122537, rtpwire.StandingTooOld},
			{judged{57000, 0, rtpwire.Refused}, 1, 122536, rtpwire.StandingTooOld},
			{judged{7, 0, rtpwire.Refused}, 1, 131079, rtpwire.StandingNew},
			{judged{60000, 0, rtpwire.Refused}, 0, 125536, rtpwire.StandingTaken},
			{judged{8, 0, rtpwire.Refused}, 1, 131080, rtpwire.StandingNew},
			{judged{9, 196617, rtpwire.Restarted}, 0, 196617, rtpwire.StandingTaken},
			{judged{9, 0, rtpwire.Refused}, 0, 196617, rtpwire.StandingTaken},
			{judged{8, 196616, rtpwire.Taken}, 0, 196616, rtpwire.StandingTaken},
		} {
			judges(t, r, []judged{row.judged})
			same(t, "in a row", r.InRow(), row.inRow)
			same(t, "number", r.NumberOf(row.low), row.of)
			same(t, "standing", r.StandingOf(row.of), row.standing)
		}
		same(t, "not yet", r.StandingOf(196618), rtpwire.StandingNew)
		same(t, "of the epoch before", r.StandingOf(125536), rtpwire.StandingTooOld)
	}
	// Of a new source the packets before it is valid are outside, and count too.
	for _, r := range []inEpoch{
		&rtpwire.RestartingReceiver{MinSequential: 255}, wideRestarting(t, 1, rtpwire.RestartBounds{MinSequential: 255}),
	} {
		for low := uint16(1); low < 255; low++ {
			judges(t, r, []judged{{low, 0, rtpwire.Refused}})
			same(t, "in a row", r.InRow(), int(low))
			same(t, "number", []any{r.NumberOf(low), r.StandingOf(65536)}, []any{65536 + uint64(low), rtpwire.StandingNew})
		}
		judges(t, r, []judged{{255, 65791, rtpwire.Taken}})
		same(t, "in a row", r.InRow(), 0)
	}
	var none rtpwire.WideRestartingReceiver
	none.Receive(5)
	same(t, "no words", []any{none.InRow(), none.NumberOf(5), none.StandingOf(65541)}, []any{0, uint64(65541), rtpwire.StandingTooOld})
}

// The packets of the stream are received, those that are refused too, and no others: two were expected, and four came.
func TestPacketsOfTheStreamAreReported(t *testing.T) {
	var r rtpwire.RestartingReceiver
	var s rtpwire.ReceptionStatistics
	for _, low := range []uint16{5, 6, 6, 40000, 5} {
		r.Receive(low)
		if r.InRow() == 0 {
			s.Record(r.NumberOf(low), 0, 0)
		}
	}
	reports(t, &s, 0, -2, 6, 0)
}
