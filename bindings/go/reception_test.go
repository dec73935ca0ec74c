package rtpwire_test

import (
	"testing"

	"rtp-wire.example/rtpwire"
)

// reports compares the next report with that of RFC 3550, A.3 and A.8, by hand.
func reports(t *testing.T, s *rtpwire.ReceptionStatistics, fraction uint8, lost int32, highest, jitter uint32) {
	t.Helper()
	report, ok := s.Report()
	same(t, "ok", ok, true)
	same(t, "report", report, rtpwire.ReceptionReport{
		FractionLost: fraction, CumulativeLost: lost, ExtendedHighest: highest, Jitter: jitter,
	})
}

// Four were due at first, and seven then; a number below the first one's changes nothing of that.
func TestLateOnesAndDuplicates(t *testing.T) {
	var s rtpwire.ReceptionStatistics
	report, ok := s.Report()
	same(t, "nothing", []any{report, ok}, []any{rtpwire.ReceptionReport{}, false})
	for _, number := range []uint64{10, 11, 13, 13, 9} {
		s.Record(number, 0, 0)
	}
	same(t, "received", s.Received(), uint64(5))
	reports(t, &s, 0, -1, 13, 0)
	if _, ok := s.Report(); ok {
		t.Error("a report is owed, though none came")
	}
	s.Record(20, 0, 0)
	reports(t, &s, 219, 5, 20, 0)
}

// The rollovers are those since the first packet.
func TestCycles(t *testing.T) {
	var s rtpwire.ReceptionStatistics
	s.Record(196613, 0, 0)
	s.Record(196615, 0, 0)
	reports(t, &s, 85, 1, 7, 0)
	s.Record(262144, 0, 0)
	reports(t, &s, 255, 65529, 65536, 0)
}

// Transit times of 100, 130 and 110 ticks, while the timestamps roll over: 30, and then 30 + 20 - 2 sixteenths.
func TestJitter(t *testing.T) {
	var s rtpwire.ReceptionStatistics
	s.Record(1, 4294967040, 4294967140)
	s.Record(2, 4294967200, 34)
	s.Record(3, 64, 174)
	reports(t, &s, 0, 0, 3, 3)
}

func TestReportBlock(t *testing.T) {
	report := rtpwire.ReceptionReport{FractionLost: 64, CumulativeLost: -2, ExtendedHighest: 65544, Jitter: 1}
	block := report.AppendBlock([]byte{7}, 44, 0x12345678, 65536)
	same(t, "block", string(block), "\x07\x00\x00\x00\x2C\x40\xFF\xFF\xFE\x00\x01\x00\x08\x00\x00\x00\x01\x12\x34\x56\x78\x00\x01\x00\x00")
	report.CumulativeLost = 8388608
	same(t, "too many", string(report.AppendBlock(nil, 44, 0, 0)[5:8]), "\x7F\xFF\xFF")
}
