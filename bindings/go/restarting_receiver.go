package rtpwire

// A RestartingReceiver is the receive state of one stream that isn't authenticated and whose sender may start again
// under the same SSRC (RFC 3550, appendix A.1), with a window of 1,024 numbers. Not for SRTP: there a packet that isn't
// authentic must change nothing, and a sender that starts again would use the numbers of its key anew.
//
// A packet is of the stream where its number is less than MaxDropout above the highest one taken, or less than
// MaxMisorder below it: it is judged by the window, as by a [WideReceiver]. Any other is outside of the stream, and is
// refused; but where the very next packet of the source has the number after it and is outside of the stream too, the
// sender has started again. That second packet is taken as the first one of a new epoch, with a new window.
//
// The first packet of all has the rollover count 1, and the first one of each later epoch 2 more than the highest
// number before it: so all numbers of an epoch are above those of the epochs before it.
//
// The zero RestartingReceiver has taken nothing yet, with bounds that are safe where packets are sent again under the
// stream's own SSRC: late packets are no restart, copies are refused, and no packet of a source is lost. A sender that
// starts again less than MaxMisorder below the highest number, or less than MaxDropout above it, isn't seen: until its
// packets pass the highest number they are judged as late ones, and refused where their numbers were taken or are too old
// to tell. RFC 3550 has a MAX_MISORDER of 100 and a MIN_SEQUENTIAL of 2. It is plain memory, and may be copied and
// compared; [WideRestartingReceiver] has a window of another size.
type RestartingReceiver struct {
	highest uint64
	// MaxDropout is by how much a number has to be above the highest to be outside of the stream; 0 stands for 3,000.
	MaxDropout uint16
	// MaxMisorder is by how much a number has to be below the highest to be outside of the stream; 0 stands for 3,000.
	MaxMisorder uint16
	next        uint16
	// MinSequential is how many packets in a row, each with the number after that of the one before, a new source needs:
	// the first packet of it that is taken is the last one of so many, and those before it are refused. 0 is as 1.
	MinSequential uint8
	inRow         uint8
	started       bool
	words         [16]uint64
}

// A Verdict is what a [RestartingReceiver] says of a packet. Two of the three take it: drop a packet where it is Refused,
// and not where it isn't Taken, which would lose the first packet of each epoch.
//
//	number, verdict := receiver.Receive(packet.SequenceNumber())
//	if verdict == rtpwire.Refused {
//		continue
//	}
//	if verdict == rtpwire.Restarted {
//		beginAnew() // and go on: the packet is taken
//	}
type Verdict uint8

// The verdicts.
const (
	// Refused: of the stream and a replay, or too old to tell; or outside of the stream. [RestartingReceiver.InRow]
	// tells these two apart.
	Refused Verdict = iota
	// Taken: the packet is of the stream, or the first one of all.
	Taken
	// Restarted: the packet is taken as with Taken, and is the first one after its sender has started again. What hangs
	// on numbers begins anew.
	Restarted
)

// String names the verdict.
func (v Verdict) String() string {
	switch v {
	case Taken:
		return "taken"
	case Restarted:
		return "restarted"
	default:
		return "refused"
	}
}

// Receive judges the next packet of the source, and returns its extended number; 0 where it is refused.
func (r *RestartingReceiver) Receive(sequenceNumber uint16) (number uint64, verdict Verdict) {
	return receiveRestarting(r.c(), r.words[:], sequenceNumber)
}

// ReceivePacket reads the packet that the datagram is ([Packet.ParseMuxed]), and judges it. Of one transport with many
// sources [PeekSSRC] finds the receiver. It returns an error of ParseMuxed, and nothing changes: [ErrRTCP] before all
// else, as [Receiver.ReceivePacket] does. A packet that is refused is read too.
func (r *RestartingReceiver) ReceivePacket(datagram []byte, m *Map, p *Packet) (number uint64, verdict Verdict, err error) {
	return receiveRestartingPacket(r.c(), r.words[:], datagram, m, p)
}

// Highest is the highest number taken. It is not ok where nothing is taken yet.
func (r *RestartingReceiver) Highest() (number uint64, ok bool) {
	if !r.started {
		return 0, false
	}
	return r.highest, true
}

// InRow is how many packets outside of the stream came last in a row, each with the number after that of the one before,
// up to 255, and 0 where the last packet was of the stream or taken. So it tells why a packet was refused just now: where
// it is 0 the packet is of the stream, and a replay or too old (StandingOf), and counts in [ReceptionStatistics]; else the
// packet is far from the stream, and remembered as what may lead up to a new epoch.
func (r *RestartingReceiver) InRow() int {
	return int(r.inRow)
}

// NumberOf is the extended sequence number of a packet of the stream, taken or refused: the nearest to the highest taken
// that ends in these 16 bits; where nothing is taken yet the one with the rollover count 1.
func (r *RestartingReceiver) NumberOf(sequenceNumber uint16) uint64 {
	return numberIn(r.highest, r.started, sequenceNumber)
}

// StandingOf is what is known of the number in the epoch, as [Receiver.StandingOf]. After Refused, and with an InRow of
// 0, r.StandingOf(r.NumberOf(p.SequenceNumber())) says why.
func (r *RestartingReceiver) StandingOf(number uint64) Standing {
	return standingIn(r.c(), r.words[:], number)
}

// numberIn is the number of a packet of an epoch with this highest number.
func numberIn(highest uint64, started bool, sequenceNumber uint16) uint64 {
	if !started {
		return 1<<16 + uint64(sequenceNumber)
	}
	return Extend16(highest, sequenceNumber)
}
