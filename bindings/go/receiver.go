package rtpwire

// A Receiver is the receive state of one stream: a replay window of 128 numbers, and the rollover count (RFC 3711,
// 3.3.1 and 3.3.2). Keep one for each SSRC. Make it by [NewReceiver], at the rollover count 1 where nothing is
// authenticated: a packet from before the first one then has a number too. It is 32 bytes, and may be copied and
// compared.
//
// The zero Receiver has taken nothing yet either, and its first packet has the rollover count 0: it is for SRTP, where
// a stream's packet indices begin there. Without authentication 65,533 after 5 gets a number near 2^64, and once that
// is taken nearly all later ones are refused.
//
// A packet is taken where its number is above the highest taken, or less than 128 below it and not taken. With SRTP
// a forged packet must change nothing: CheckPacket, authenticate it, Record.
type Receiver struct {
	highest      uint64
	recordedLow  uint64
	recordedHigh uint64
	started      bool
}

// NewReceiver is a receiver that has taken nothing yet, whose first packet has this rollover count: 1 where nothing is
// authenticated, so that a packet from before the first one has a number too, and with SRTP the count that was
// signalled, or 0. It returns ErrBadField where the count is 2^48 or more.
func NewReceiver(rolloverCount uint64) (*Receiver, error) {
	r := new(Receiver)
	if err := receiverStart(r, rolloverCount); err != nil {
		return nil, err
	}
	return r, nil
}

// ReceivePacket reads the packet that the datagram is ([Packet.ParseMuxed]), and takes it, which needn't be authenticated:
// it returns the extended sequence number. Of one transport with many sources [PeekSSRC] finds the receiver.
//
// It returns an error of ParseMuxed, and nothing changes: [ErrRTCP] before all else of what [IsRTCP] is true of, whose
// bytes 2 and 3 are no sequence number, and else a [Cause]. Or it returns ErrRefused where the packet is a replay or too
// old to tell: then only p is changed, to what was read. A stream with payload types 64 to 95, on a port of its own, is
// read by [Packet.Parse] and then judged by its number: [Receiver.Receive].
func (r *Receiver) ReceivePacket(datagram []byte, m *Map, p *Packet) (uint64, error) {
	if err := p.parse(datagram, m, true); err != nil {
		return 0, err
	}
	return receiverReceive(r, p.fields.SequenceNumber)
}

// CheckPacket reads the packet that the datagram is ([Packet.ParseMuxed]), and tests whether it may be taken: it
// returns the extended sequence number, whose low 48 bits are SRTP's packet index. Authenticate
// the packet, and then Record the number. The receiver doesn't change.
//
// It returns an error of ParseMuxed, and nothing changes: [ErrRTCP] before all else, as ReceivePacket does, of SRTCP
// too. Or it returns ErrRefused where the packet is a replay or too old to tell: then p is changed to what was read, and
// the number is told too. A stream with payload types 64 to 95, on a port of its own, is read by [Packet.Parse], and
// [Receiver.NumberOf] and [Receiver.Accepts] check its number.
func (r *Receiver) CheckPacket(datagram []byte, m *Map, p *Packet) (uint64, error) {
	if err := p.parse(datagram, m, true); err != nil {
		return 0, err
	}
	number := r.NumberOf(p.fields.SequenceNumber)
	if !r.Accepts(number) {
		return number, ErrRefused
	}
	return number, nil
}

// Receive takes a packet that was read already and needn't be authenticated, and returns its extended number. It is
// not ok, and nothing changes, where the packet is a replay or too old to tell.
func (r *Receiver) Receive(sequenceNumber uint16) (number uint64, ok bool) {
	number, err := receiverReceive(r, sequenceNumber)
	return number, err == nil
}

// Highest is the highest number taken. It is not ok where nothing is taken yet.
func (r *Receiver) Highest() (number uint64, ok bool) {
	if !r.started {
		return 0, false
	}
	return r.highest, true
}

// NumberOf is the extended sequence number of a packet: the nearest to the highest taken that ends in these 16 bits,
// and of the first packet the one with the rollover count of the start.
func (r *Receiver) NumberOf(sequenceNumber uint16) uint64 {
	return receiverNumberOf(r, sequenceNumber)
}

// Accepts is whether the number may be taken.
func (r *Receiver) Accepts(number uint64) bool {
	return receiverAccepts(r, number)
}

// A Standing is what a receiver knows of a number: why it isn't accepted.
type Standing uint8

// What is known of a number.
const (
	// StandingNew: it may be taken.
	StandingNew Standing = iota
	// StandingTaken: it is in the window and was taken, so that its packet is a replay.
	StandingTaken
	// StandingTooOld: it is behind the window, which doesn't tell any more whether it was taken.
	StandingTooOld
)

// String names what is known.
func (s Standing) String() string {
	switch s {
	case StandingNew:
		return "new"
	case StandingTaken:
		return "taken already"
	default:
		return "too old to tell"
	}
}

// StandingOf is what is known of the number. A packet that was refused changed nothing, so after ErrRefused
// r.StandingOf(r.NumberOf(p.SequenceNumber())) says why. Numbers before the first one taken count as new too where the
// window reaches them: none of them was taken.
func (r *Receiver) StandingOf(number uint64) Standing {
	return Standing(receiverStandingOf(r, number))
}

// Record records that the number is taken. It is not ok, and nothing changes, where the number isn't accepted.
func (r *Receiver) Record(number uint64) (ok bool) {
	ok = receiverAccepts(r, number)
	receiverRecord(r, number)
	return ok
}

// Extend16 is the number nearest to the previous one, modulo 2^64, that ends in these 16 bits. Where two are equally
// near it is the one with the rollover count of the previous one.
func Extend16(previous uint64, number uint16) uint64 {
	return extendU16(previous, number)
}

// Extend8 is Extend16 of 8 bits.
func Extend8(previous uint64, number uint8) uint64 {
	return extendU8(previous, number)
}

// Extend15 is Extend16 of 15 bits, as a picture id has: the sixteenth bit of number isn't looked at.
func Extend15(previous uint64, number uint16) uint64 {
	return extendU15(previous, number)
}

// Extend32 is Extend16 of 32 bits, as a timestamp has.
func Extend32(previous uint64, number uint32) uint64 {
	return extendU32(previous, number)
}
