package rtp

import (
	"fmt"

	"rtp-wire.example/rtpwire"
)

// A Packet is an RTP packet.
type Packet struct {
	Header
	Payload     []byte // without the padding
	PaddingSize byte
}

// Unmarshal reads the packet that the buffer is. Its payload and the data of its extensions are parts of the buffer. It
// returns the errors of [Header.Unmarshal], and one that is no rtpwire.Cause where the padding's last byte counts more bytes
// than the payload has: the header is the packet's then, and the payload stays.
func (p *Packet) Unmarshal(buf []byte) error {
	var layout rtpwire.Layout
	if cause := p.Header.fixedPart().Parse(buf, &layout); cause != 0 {
		return errorOf(cause)
	}
	if !p.Header.takeNone(&layout) {
		p.Header.takeMore(&layout, buf)
	}
	payload, ok := layout.UnpaddedPayload(buf)
	if !ok {
		return errTooSmall
	}
	p.Payload, p.PaddingSize = payload, byte(len(buf)-layout.HeaderLen()-len(payload))
	return nil
}

// Marshal is the packet's bytes.
func (p Packet) Marshal() (buf []byte, err error) {
	buf = make([]byte, p.MarshalSize())
	n, err := p.MarshalTo(buf)
	if err != nil {
		return nil, err
	}
	return buf[:n], nil
}

// MarshalTo writes the packet to the front of the buffer, and returns how many bytes it took. P is set exactly where there
// is padding, which is zeros before the byte that counts it. The payload may lie in the buffer. It returns the errors of
// [Header.MarshalTo], also where the packet has no room; nothing is written then.
func (p Packet) MarshalTo(buf []byte) (n int, err error) {
	p.Header.Padding = p.PaddingSize != 0
	behind := len(p.Payload) + int(p.PaddingSize)
	room := len(buf) - behind
	if room < 0 {
		room = 0
	}
	payload := p.Payload
	if overlap(payload, buf) {
		if size := p.Header.MarshalSize(); size <= room && overlap(payload, buf[:size]) {
			payload = clone(payload)
		}
	}
	n, err = p.Header.MarshalTo(buf[:room])
	if err != nil {
		return 0, err
	}
	end := n + behind
	n += copy(buf[n:], payload)
	if p.PaddingSize != 0 {
		for i := range buf[n:end] {
			buf[n+i] = 0
		}
		buf[end-1] = p.PaddingSize
	}
	return end, nil
}

// MarshalSize is how many bytes MarshalTo writes.
func (p Packet) MarshalSize() int {
	return p.Header.MarshalSize() + len(p.Payload) + int(p.PaddingSize)
}

// Clone is a copy that shares no memory with the packet.
func (p Packet) Clone() *Packet {
	return &Packet{Header: p.Header.Clone(), Payload: clone(p.Payload), PaddingSize: p.PaddingSize}
}

// Clone is a copy that shares no memory with the header.
func (h Header) Clone() Header {
	if h.CSRC != nil {
		h.CSRC = append([]uint32{}, h.CSRC...)
	}
	if h.Extensions != nil {
		extensions := make([]Extension, len(h.Extensions))
		for i, it := range h.Extensions {
			extensions[i] = Extension{it.id, clone(it.payload)}
		}
		h.Extensions = extensions
	}
	return h
}

func clone(bytes []byte) []byte {
	if bytes == nil {
		return nil
	}
	return append([]byte{}, bytes...)
}

// String says the packet's fields, in lines.
func (p Packet) String() string {
	return fmt.Sprintf("RTP PACKET:\n\tVersion: %v\n\tMarker: %v\n\tPayload Type: %d\n\tSequence Number: %d\n\tTimestamp: %d\n"+
		"\tSSRC: %d (%x)\n\tPayload Length: %d\n", p.Version, p.Marker, p.PayloadType, p.SequenceNumber, p.Timestamp, p.SSRC, p.SSRC, len(p.Payload))
}
