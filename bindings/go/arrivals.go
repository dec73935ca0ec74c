package rtpwire

// arrival is a packet for a receiver, and what became of it: rtpw_arrival in C.
type arrival struct {
	receiver       int
	number         uint64
	sequenceNumber uint16
	status         int32
}

// An ArrivalBatch has packets that were read already and needn't be authenticated judged in one call of the library,
// in order, each by one of several receivers. Use one again, as a [HeaderBatch]. The zero ArrivalBatch is ready.
//
//	receiver, err := rtpwire.NewReceiver(1) // 1, so that a packet from before the first one has a number too
//	receivers := []rtpwire.Receiver{*receiver, *receiver}
//	batch.Reset()
//	batch.Add(1, 47000)
//	batch.Add(1, 47000)
//	batch.Receive(receivers)
//	number, err := batch.At(0) // 112536, nil
//	_, err = batch.At(1)       // ErrRefused: a replay
type ArrivalBatch struct {
	given  []arrival
	judged []arrival
}

// Reset takes all packets away.
func (b *ArrivalBatch) Reset() {
	b.given, b.judged = b.given[:0], nil
}

// Add adds the packet with this sequence number, for the receiver at this index. So many receivers, each of an SSRC,
// stand in a slice, and a map from SSRCs to indices says which one is whose.
func (b *ArrivalBatch) Add(receiver int, sequenceNumber uint16) {
	b.given = append(b.given, arrival{receiver: receiver, sequenceNumber: sequenceNumber})
}

// Receive has the packets that were added judged in order, as [Receiver.Receive] of its receiver judges each.
func (b *ArrivalBatch) Receive(receivers []Receiver) {
	b.judged = b.given
	receiveMany(receivers, b.judged)
}

// Len is how many packets the last Receive judged; 0 after a Reset.
func (b *ArrivalBatch) Len() int {
	return len(b.judged)
}

// At is the extended sequence number of a packet that is taken. It returns ErrRefused where it is a replay or too old
// to tell, and ErrBadField where there is no receiver at its index.
func (b *ArrivalBatch) At(i int) (number uint64, err error) {
	a := &b.judged[i]
	if a.status != 0 {
		return 0, errorOf(a.status)
	}
	return a.number, nil
}
