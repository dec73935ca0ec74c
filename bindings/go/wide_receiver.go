package rtpwire

// A WideReceiver is the receive state of one stream as a [Receiver] is, with a window of another size: 64 numbers for
// each of 1 to 512 words. Choose it so that the window is longer than a packet can be late: at 30 Mbit/s the 128
// numbers of a Receiver are 43 ms, and 16 words are 1,024 numbers.
//
// Make it by [NewWideReceiver]: the zero WideReceiver has no words, and takes no packet. A copy has the same words, so
// only one of the two may be used.
type WideReceiver struct {
	state wideState
	words []uint64
}

type wideState struct {
	highest uint64
	started bool
}

// NewWideReceiver is a receiver that has taken nothing yet, whose first packet has this rollover count: 1 where nothing
// is authenticated, as [NewReceiver] says. It returns ErrBadField where the words aren't 1 to 512, or the count is 2^48
// or more.
func NewWideReceiver(words int, rolloverCount uint64) (*WideReceiver, error) {
	if words < 1 || words > 512 {
		return nil, ErrBadField
	}
	r := new(WideReceiver)
	if err := wideReceiverStart(&r.state, rolloverCount); err != nil {
		return nil, err
	}
	r.words = make([]uint64, words)
	return r, nil
}

// ReceivePacket reads the packet that the datagram is, and takes it, as [Receiver.ReceivePacket] does.
func (r *WideReceiver) ReceivePacket(datagram []byte, m *Map, p *Packet) (uint64, error) {
	if err := p.parse(datagram, m, true); err != nil {
		return 0, err
	}
	return wideReceiverReceive(&r.state, r.words, p.fields.SequenceNumber)
}

// CheckPacket reads the packet that the datagram is, and tests whether it may be taken, as [Receiver.CheckPacket] does.
func (r *WideReceiver) CheckPacket(datagram []byte, m *Map, p *Packet) (uint64, error) {
	if err := p.parse(datagram, m, true); err != nil {
		return 0, err
	}
	number := r.NumberOf(p.fields.SequenceNumber)
	if !r.Accepts(number) {
		return number, ErrRefused
	}
	return number, nil
}

// Receive takes a packet that was read already and needn't be authenticated, and returns its extended number. It is
// not ok, and nothing changes, where the packet is a replay or too old to tell.
func (r *WideReceiver) Receive(sequenceNumber uint16) (number uint64, ok bool) {
	number, err := wideReceiverReceive(&r.state, r.words, sequenceNumber)
	return number, err == nil
}

// Highest is the highest number taken. It is not ok where nothing is taken yet.
func (r *WideReceiver) Highest() (number uint64, ok bool) {
	if !r.state.started {
		return 0, false
	}
	return r.state.highest, true
}

// NumberOf is the extended sequence number of a packet, as [Receiver.NumberOf].
func (r *WideReceiver) NumberOf(sequenceNumber uint16) uint64 {
	return wideReceiverNumberOf(&r.state, sequenceNumber)
}

// Accepts is whether the number may be taken.
func (r *WideReceiver) Accepts(number uint64) bool {
	return wideReceiverAccepts(&r.state, r.words, number)
}

// StandingOf is what is known of the number, as [Receiver.StandingOf]; of the zero WideReceiver it is StandingTooOld.
func (r *WideReceiver) StandingOf(number uint64) Standing {
	if len(r.words) == 0 {
		return StandingTooOld
	}
	return Standing(wideReceiverStandingOf(&r.state, r.words, number))
}

// Record records that the number is taken. It is not ok, and nothing changes, where the number isn't accepted.
func (r *WideReceiver) Record(number uint64) (ok bool) {
	return wideReceiverRecord(&r.state, r.words, number) == nil
}
