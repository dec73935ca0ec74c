package rtpwire

// ReceptionStatistics are those of the packets that came from one source, by which its receiver reports what it got
// (RFC 3550, 6.4.1, A.3 and A.8).
//
// Record each packet of the source, those that are late and duplicates too, whether the receiver then takes it or
// refuses it: they count as received, so that the loss may be negative. Its number is that of [Receiver.NumberOf].
// With SRTP record it once it is authentic. A packet that is outside of the stream, after which
// [RestartingReceiver.InRow] isn't 0, isn't recorded; where the sender has started again, begin anew with the packet
// that says so. Packets are expected from the first one's number on, even where one with a lower number comes later.
//
// The zero ReceptionStatistics have recorded nothing yet. They are 56 bytes, and may be copied.
type ReceptionStatistics struct {
	firstNumber    uint64
	highest        uint64
	received       uint64
	receivedBefore uint64
	expectedBefore uint64
	scaledJitter   uint64
	transit        uint32
}

// A ReceptionReport is what a report block says of a source, but for its SSRC and the times of the last sender report
// (RFC 3550, 6.4.1).
type ReceptionReport struct {
	// FractionLost is the fraction of the packets expected since the last report that is lost, in 256ths, rounded
	// down; 0 where the loss is negative.
	FractionLost uint8
	// CumulativeLost is the packets expected less those received, since the first one: -8,388,608 to 8,388,607, and
	// one of these two where it is beyond them.
	CumulativeLost int32
	// ExtendedHighest is the highest sequence number, and in the high 16 bits how often they rolled over since the
	// first packet.
	ExtendedHighest uint32
	// Jitter is the interarrival jitter, in ticks of the timestamp's clock.
	Jitter uint32
}

// Record records a packet that came, by its extended sequence number, its timestamp and the time of its arrival: in
// ticks of the timestamp's clock, from any moment on, modulo 2^32.
func (s *ReceptionStatistics) Record(number uint64, timestamp, arrival uint32) {
	receptionRecord(s, number, timestamp, arrival)
}

// Received is how many packets came.
func (s *ReceptionStatistics) Received() uint64 {
	return s.received
}

// Expected is how many packets were expected, from the first one's number to the highest; 0 where none came.
func (s *ReceptionStatistics) Expected() uint64 {
	if s.received == 0 {
		return 0
	}
	if s.highest-s.firstNumber == 1<<64-1 {
		return 1<<64 - 1
	}
	return s.highest - s.firstNumber + 1
}

// Report reports on the packets that were recorded, and begins the interval of the next report. It is not ok where none
// was recorded since the last report, since no report on the source is owed then (6.4).
func (s *ReceptionStatistics) Report() (report ReceptionReport, ok bool) {
	report, err := receptionReport(s)
	return report, err == nil
}

// AppendBlock appends the 24 bytes of the report block on this source (6.4.1). lastReport is LSR, the middle 32 bits of
// the NTP time of the last sender report, and delay is DLSR, the time since it came in units of 1/65,536 s: both 0
// where none came yet. A CumulativeLost that 24 bits can't carry is appended as the nearest that they can.
func (r ReceptionReport) AppendBlock(data []byte, ssrc, lastReport, delay uint32) []byte {
	data, _ = appendReport(data, &r, ssrc, lastReport, delay)
	return data
}
