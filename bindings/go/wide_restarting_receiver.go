package rtpwire

// RestartBounds are those of a [WideRestartingReceiver]. The zero ones are safe where packets are sent again under the
// stream's own SSRC.
type RestartBounds struct {
	// MaxDropout is by how much a number has to be above the highest to be outside of the stream; 0 stands for 3,000.
	MaxDropout uint16
	// MaxMisorder is by how much a number has to be below the highest to be outside of the stream; 0 stands for 3,000,
	// or for the size of the window where that is more.
	MaxMisorder uint16
	// MinSequential is how many packets in a row, each with the number after that of the one before, a new source needs:
	// the first packet of it that is taken is the last one of so many, and those before it are refused. 0 is as 1.
	MinSequential uint8
}

// A WideRestartingReceiver is the receive state of one stream whose sender may start again as a [RestartingReceiver]
// is, with a window of another size: 64 numbers for each of 1 to 512 words. Choose it so that the window is longer than
// a packet can be late.
//
// Make it by [NewWideRestartingReceiver]: the zero one has no words, and takes no packet. A copy has the same words,
// so only one of the two may be used.
type WideRestartingReceiver struct {
	state wideRestartingState
	words []uint64
}

type wideRestartingState struct {
	highest       uint64
	maxDropout    uint16
	maxMisorder   uint16
	next          uint16
	minSequential uint8
	inRow         uint8
	started       bool
}

// NewWideRestartingReceiver is a receiver that has taken nothing yet, with these bounds. It returns ErrBadField where
// the words aren't 1 to 512.
func NewWideRestartingReceiver(words int, bounds RestartBounds) (*WideRestartingReceiver, error) {
	if words < 1 || words > 512 {
		return nil, ErrBadField
	}
	return &WideRestartingReceiver{
		state: wideRestartingState{
			maxDropout:    bounds.MaxDropout,
			maxMisorder:   bounds.MaxMisorder,
			minSequential: bounds.MinSequential,
		},
		words: make([]uint64, words),
	}, nil
}

// Receive judges the next packet of the source, and returns its extended number; 0 where it is refused.
func (r *WideRestartingReceiver) Receive(sequenceNumber uint16) (number uint64, verdict Verdict) {
	return receiveRestarting(r.c(), r.words, sequenceNumber)
}

// ReceivePacket reads the packet that the datagram is, and judges it, as [RestartingReceiver.ReceivePacket] does.
func (r *WideRestartingReceiver) ReceivePacket(datagram []byte, m *Map, p *Packet) (number uint64, verdict Verdict, err error) {
	return receiveRestartingPacket(r.c(), r.words, datagram, m, p)
}

// Highest is the highest number taken. It is not ok where nothing is taken yet.
func (r *WideRestartingReceiver) Highest() (number uint64, ok bool) {
	if !r.state.started {
		return 0, false
	}
	return r.state.highest, true
}

// InRow is how many packets outside of the stream came last in a row, as [RestartingReceiver.InRow].
func (r *WideRestartingReceiver) InRow() int {
	return int(r.state.inRow)
}

// NumberOf is the extended sequence number of a packet of the stream, as [RestartingReceiver.NumberOf].
func (r *WideRestartingReceiver) NumberOf(sequenceNumber uint16) uint64 {
	return numberIn(r.state.highest, r.state.started, sequenceNumber)
}

// StandingOf is what is known of the number, as [RestartingReceiver.StandingOf]; of the zero WideRestartingReceiver it
// is StandingTooOld.
func (r *WideRestartingReceiver) StandingOf(number uint64) Standing {
	if len(r.words) == 0 {
		return StandingTooOld
	}
	return standingIn(r.c(), r.words, number)
}
