package rtpwire

// A place in a buffer, and what a call of the library writes of the datagram there: each of these is as C has it.
type (
	place struct {
		at, len int
	}
	result struct {
		status int32
		isRTCP bool
	}
	// datagram is rtpw_datagram.
	datagram struct {
		place
		packet PacketFields
		result
	}
	// datagramHeader is rtpw_datagram_header.
	datagramHeader struct {
		place
		header Header
		result
	}
)

// of is the bytes at the place, from an offset on; nil where the place isn't within the buffer.
func (p *place) of(buf []byte, from int) []byte {
	if uint(p.at) > uint(len(buf)) || uint(p.len) > uint(len(buf)-p.at) {
		return nil
	}
	end := p.at + p.len
	return buf[p.at+from : end : end]
}

// A HeaderBatch reads many datagrams of one buffer in one call of the library: of each its header, with the values of
// its block, as [Packet.Parse] reads them. One that is no packet spoils no other. Use one again: what it read is then
// replaced, and no memory is taken but where there are more datagrams than ever before. The zero HeaderBatch is ready.
//
// So 32 datagrams, each in 2,048 bytes of one buffer, as ReadBatch of golang.org/x/net/ipv4 leaves them, with their
// lengths in n:
//
//	batch.Reset()
//	for i := range n {
//		batch.Add(2048*i, n[i])
//	}
//	batch.Parse(buf, &m)
//	for i := 0; i < batch.Len(); i++ {
//		header, err := batch.At(i)
//		media, ok := batch.UnpaddedPayload(i)
//		if err != nil || batch.IsRTCP(i) || !ok {
//			continue
//		}
//		deliver(header.SSRC, header.Timestamp, media)
//	}
type HeaderBatch struct {
	buf   []byte
	given []datagramHeader
	read  []datagramHeader
}

// Reset takes all datagrams away.
func (b *HeaderBatch) Reset() {
	b.buf, b.given, b.read = nil, b.given[:0], nil
}

// Add adds the datagram of so many bytes that begins there in the buffer. Datagrams may overlap.
func (b *HeaderBatch) Add(at, length int) {
	if n := len(b.given); n < cap(b.given) {
		b.given = b.given[:n+1]
		b.given[n].place = place{at, length}
		return
	}
	b.given = append(b.given, datagramHeader{place: place{at, length}})
}

// Parse reads the datagrams that were added, in the order in which they were: where they lie in this buffer, and with
// the values under the map. The batch keeps the buffer until it reads another one or is Reset.
func (b *HeaderBatch) Parse(buf []byte, m *Map) {
	b.buf, b.read = buf, b.given
	parseHeaders(buf, m, b.read)
}

// Len is how many datagrams the last Parse read; 0 after a Reset.
func (b *HeaderBatch) Len() int {
	return len(b.read)
}

// At is the header of a datagram: a part of the batch, which its next Parse replaces, and which tells Payload where to
// begin. Copy it to keep it, or to change it.
//
// It returns the first Cause for which the datagram is no packet; or ErrBadField where it doesn't lie within the
// buffer.
func (b *HeaderBatch) At(i int) (*Header, error) {
	d := &b.read[i]
	if d.status != 0 {
		return nil, errorOf(d.status)
	}
	return &d.header, nil
}

// IsRTCP is whether the datagram is RTCP ([IsRTCP]), on a port that RTP and RTCP share: it comes before At, which
// would take a receiver report for RTP.
func (b *HeaderBatch) IsRTCP(i int) bool {
	return b.read[i].isRTCP
}

// Datagram is the whole datagram, a part of the buffer; nil where it doesn't lie within that.
func (b *HeaderBatch) Datagram(i int) []byte {
	return b.read[i].of(b.buf, 0)
}

// HeaderLen is how many bytes the header takes, 12 to 262,216; 0 where At returns an error.
func (b *HeaderBatch) HeaderLen(i int) int {
	if b.read[i].status != 0 {
		return 0
	}
	return b.read[i].header.headerLen
}

// Payload is the payload with any padding ([Packet.Payload]), a part of the buffer; nil where At returns an error.
func (b *HeaderBatch) Payload(i int) []byte {
	d := &b.read[i]
	if d.status != 0 {
		return nil
	}
	end := d.at + d.len
	return b.buf[d.at+d.header.headerLen : end : end]
}

// UnpaddedPayload is the payload without its padding, the media ([Packet.UnpaddedPayload]). It is not ok also where At
// returns an error.
func (b *HeaderBatch) UnpaddedPayload(i int) (payload []byte, ok bool) {
	d := &b.read[i]
	if d.status != 0 {
		return nil, false
	}
	payload = b.Payload(i)
	if !d.header.HasPadding || len(payload) == 0 {
		return payload, true
	}
	end := len(payload) - int(payload[len(payload)-1])
	if end < 0 {
		return nil, false
	}
	return payload[:end:end], true
}

// A PacketBatch is a HeaderBatch without values and contributing sources: so it is the faster one. It tells where the
// parts of each packet lie, also of one whose block has another form.
//
//	batch.Reset()
//	batch.Add(0, 12)
//	batch.Add(12, 5)
//	batch.Parse(buf)           // buf has 0x80, 0x21, 0xB7, 0x98 and 13 other bytes
//	fields, err := batch.At(0) // fields.SequenceNumber is 47000, and err is nil
//	_, err = batch.At(1)       // err is CutFixedPart
type PacketBatch struct {
	buf   []byte
	given []datagram
	read  []datagram
}

// Reset takes all datagrams away.
func (b *PacketBatch) Reset() {
	b.buf, b.given, b.read = nil, b.given[:0], nil
}

// Add adds the datagram of so many bytes that begins there in the buffer. Datagrams may overlap.
func (b *PacketBatch) Add(at, length int) {
	if n := len(b.given); n < cap(b.given) {
		b.given = b.given[:n+1]
		b.given[n].place = place{at, length}
		return
	}
	b.given = append(b.given, datagram{place: place{at, length}})
}

// Parse reads the datagrams that were added, in the order in which they were: where they lie in this buffer. The batch
// keeps the buffer until it reads another one or is Reset.
func (b *PacketBatch) Parse(buf []byte) {
	b.buf, b.read = buf, b.given
	packetParseMany(buf, b.read)
}

// Len is how many datagrams the last Parse read; 0 after a Reset.
func (b *PacketBatch) Len() int {
	return len(b.read)
}

// At is the fields of a datagram: a part of the batch, which its next Parse replaces. Copy it to keep it. It returns an
// error as [HeaderBatch.At] does.
func (b *PacketBatch) At(i int) (*PacketFields, error) {
	d := &b.read[i]
	if d.status != 0 {
		return nil, errorOf(d.status)
	}
	return &d.packet, nil
}

// IsRTCP is whether the datagram is RTCP ([HeaderBatch.IsRTCP]).
func (b *PacketBatch) IsRTCP(i int) bool {
	return b.read[i].isRTCP
}

// Datagram is the whole datagram, a part of the buffer; nil where it doesn't lie within that.
func (b *PacketBatch) Datagram(i int) []byte {
	return b.read[i].of(b.buf, 0)
}

// HeaderLen is how many bytes the header takes, 12 to 262,216; 0 where At returns an error.
func (b *PacketBatch) HeaderLen(i int) int {
	if b.read[i].status != 0 {
		return 0
	}
	return b.read[i].packet.payloadAt
}

// Payload is the payload with any padding ([Packet.Payload]), a part of the buffer; nil where At returns an error.
func (b *PacketBatch) Payload(i int) []byte {
	d := &b.read[i]
	if d.status != 0 {
		return nil
	}
	end := d.at + d.len
	return b.buf[d.at+d.packet.payloadAt : end : end]
}

// UnpaddedPayload is the payload without its padding, the media ([Packet.UnpaddedPayload]). It is not ok also where At
// returns an error.
func (b *PacketBatch) UnpaddedPayload(i int) (payload []byte, ok bool) {
	d := &b.read[i]
	if d.status != 0 || !d.packet.paddingFits {
		return nil, false
	}
	end := d.packet.unpaddedLen
	return b.Payload(i)[:end:end], true
}

// Block is the form and the body of the extension block ([Packet.Block]), and BlockProfile what it begins with
// ([Packet.BlockProfile]): NoBlock, no bytes and 0 where At returns an error.
func (b *PacketBatch) Block(i int) (Form, []byte) {
	d := &b.read[i]
	if d.status != 0 {
		return NoBlock, nil
	}
	return d.packet.form, d.of(b.buf, d.packet.bodyAt)[:d.packet.bodyLen:d.packet.bodyLen]
}

// BlockProfile is the 16 bits that the extension block begins with.
func (b *PacketBatch) BlockProfile(i int) uint16 {
	if b.read[i].status != 0 {
		return 0
	}
	return b.read[i].packet.profile
}
