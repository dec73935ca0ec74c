// Package rtp has the headers and packets of pion's package rtp (github.com/pion/rtp 1.7), by the same names, read and
// written by rtpwire: for a server that has code for those.
//
// By import its types aren't pion's, and pion's interceptors, SRTP and WebRTC don't take them. They work with these in a
// module that replaces github.com/pion/rtp, by a line replace of its go.mod, with a copy of that package in which the files
// of this one stand in place of packet.go, error.go, abssendtimeextension.go, audiolevelextension.go and
// transportccextension.go: bindings/test/go_pion.sh in the repository makes such a copy, and runs pion's tests over it.
//
// What is read and written is as RFC 3550 and RFC 8285 have it. So it differs from pion's package where that doesn't: a
// packet of another version than 2 is none, a block is in the two-byte form also where its appbits aren't 0, elements end
// where one is cut short, an element of the id 0 with length bits isn't taken, and what no header can carry isn't written.
// [AbsSendTimeExtension.Estimate] takes the moment nearest to that of arrival, where pion's takes the latest one that isn't
// after it.
package rtp

import (
	"io"

	"rtp-wire.example/rtpwire"
)

// The profiles of the two forms of an extension block (RFC 8285, 4.2 and 4.3).
const (
	extensionProfileOneByte = 0xBEDE
	extensionProfileTwoByte = 0x1000
)

// An Extension is an element of the extension block; of a block of another form it is the whole body, under the id 0.
type Extension struct {
	id      uint8
	payload []byte
}

// A Header is the header of a packet (RFC 3550, 5.1).
type Header struct {
	Version          uint8 // 2, also where it is written
	Padding          bool
	Extension        bool
	Marker           bool
	PayloadType      uint8
	SequenceNumber   uint16
	Timestamp        uint32
	SSRC             uint32
	CSRC             []uint32
	ExtensionProfile uint16
	Extensions       []Extension
}

// Unmarshal reads the header in front of the buffer, and returns how many bytes it takes. The data of its extensions are
// parts of the buffer. An element of the id 0 with length bits is none (RFC 8285, 4.2), and isn't taken: so what was read
// can be written.
//
// Where the buffer has no header, errors.As finds the rtpwire.Cause in the error, and errors.Is rtpwire.ErrNotAPacket.
func (h *Header) Unmarshal(buf []byte) (n int, err error) {
	var layout rtpwire.Layout
	if cause := h.fixedPart().Parse(buf, &layout); cause != 0 {
		return 0, errorOf(cause)
	}
	if !h.takeNone(&layout) {
		h.takeMore(&layout, buf)
	}
	return layout.HeaderLen(), nil
}

// takeNone takes away what stood behind the fixed part of the packet before. It is false where takeMore has to give the header
// what the one that is laid out so has there, and nothing changes then.
func (h *Header) takeNone(layout *rtpwire.Layout) bool {
	if layout.HeaderLen() != 12 || h.CSRC == nil {
		return false
	}
	h.ExtensionProfile, h.CSRC, h.Extensions = 0, h.CSRC[:0], h.Extensions[:0]
	return true
}

// takeMore gives the header the contributing sources, and the elements of the block. Where there is room for them and they are
// as usual it calls the library once, and takeBehind takes what else there is.
func (h *Header) takeMore(layout *rtpwire.Layout, buf []byte) {
	h.ExtensionProfile, h.CSRC = layout.BlockProfile(), h.CSRC[:0]
	if h.CSRC == nil || layout.CSRCCount() != 0 {
		h.takeSources(layout, buf)
	}
	form, at := layout.BlockAt()
	if form != rtpwire.OneByteForm && form != rtpwire.TwoByteForm || cap(h.Extensions) == 0 {
		h.takeBehind(0, layout, buf, at)
		return
	}
	var places rtpwire.Places
	header := buf[:layout.HeaderLen()] // the places are counted from its first byte
	count, to := places.Fill(form, header, at), h.Extensions
	if count > cap(to) {
		_, at := layout.BlockAt()
		h.takeBehind(0, layout, buf, at)
		return
	}
	to = to[:count]
	h.Extensions = to
	for i := range places[:count] {
		it := &places[i]
		end := it.At + it.Len
		if it.ID == 0 {
			h.takeBehind(i, layout, buf, end)
			return
		}
		to[i] = Extension{it.ID, header[it.At:end:end]}
	}
	if count == len(places) {
		last := &places[len(places)-1]
		h.takeBehind(count, layout, buf, last.At+last.Len)
	}
}

// takeBehind gives the header, behind so many extensions that it keeps, the elements of the block from this place of the
// packet on, without those that have the id 0; of a block of another form the body.
func (h *Header) takeBehind(kept int, layout *rtpwire.Layout, buf []byte, at int) {
	h.Extensions = h.Extensions[:kept]
	form, body := layout.Block(buf)
	switch form {
	case rtpwire.NoBlock:
		return
	case rtpwire.OtherForm:
		h.Extensions = append(h.Extensions, Extension{0, body})
		return
	}
	var places rtpwire.Places
	header := buf[:layout.HeaderLen()]
	for count := len(places); count == len(places); {
		count = places.Fill(form, header, at)
		all := h.Extensions
		if cap(all)-len(all) < count {
			all = append(all, make([]Extension, count)...)[:len(all)]
		}
		for i := range places[:count] {
			it := &places[i]
			at = it.At + it.Len
			if it.ID != 0 {
				all = append(all, Extension{it.ID, header[it.At:at:at]})
			}
		}
		h.Extensions = all
	}
}

func (h *Header) takeSources(layout *rtpwire.Layout, buf []byte) {
	if h.CSRC == nil {
		h.CSRC = []uint32{}
	}
	var packet rtpwire.Packet
	if layout.CSRCCount() != 0 && packet.Parse(buf, nil) == nil {
		h.CSRC = append(h.CSRC, packet.CSRC()...)
	}
}

// Marshal is the header's bytes.
func (h Header) Marshal() (buf []byte, err error) {
	buf = make([]byte, h.MarshalSize())
	n, err := h.MarshalTo(buf)
	if err != nil {
		return nil, err
	}
	return buf[:n], nil
}

// MarshalTo writes the header to the front of the buffer, and returns how many bytes it took.
//
// It returns io.ErrShortBuffer where the buffer has too few bytes, or the body of a block of another form is no whole
// number of words; and rtpwire.ErrBadField where no header can carry what there is: a payload type above 127, more than 15
// contributing sources, or an element whose id or length its form can't carry.
func (h Header) MarshalTo(buf []byte) (n int, err error) {
	if h.Extension || len(h.CSRC) != 0 {
		return h.writeLists(buf)
	}
	if !h.fixedPart().WriteInto(buf) {
		return 0, h.fault()
	}
	return 12, nil
}

// fault is why no header without contributing sources and block is written.
func (h *Header) fault() error {
	if h.PayloadType > 127 {
		return rtpwire.ErrBadField
	}
	return io.ErrShortBuffer
}

// writeLists writes a header with contributing sources or a block to the front of the buffer, as MarshalTo does.
func (h *Header) writeLists(buf []byte) (n int, err error) {
	switch {
	case len(h.CSRC) != 0:
		n, err = h.write(buf)
	case h.ExtensionProfile == extensionProfileOneByte:
		n, err = h.fixedPart().WriteWith(buf, rtpwire.OneByteForm, h.elements())
	case h.ExtensionProfile == extensionProfileTwoByte:
		n, err = h.fixedPart().WriteWith(buf, rtpwire.TwoByteForm, h.elements())
	default:
		n, err = h.write(buf)
	}
	if err == rtpwire.ErrShortBuffer {
		err = io.ErrShortBuffer
	}
	return n, err
}

// write writes a header with contributing sources, or a block of another form than the two.
func (h *Header) write(buf []byte) (n int, err error) {
	var w rtpwire.Header
	w.Timestamp, w.SSRC, w.SequenceNumber = h.Timestamp, h.SSRC, h.SequenceNumber
	w.PayloadType, w.Marker, w.HasPadding = h.PayloadType, h.Marker, h.Padding
	if len(h.CSRC) != 0 {
		if err := w.SetCSRC(h.CSRC); err != nil {
			return 0, err
		}
	}
	switch {
	case !h.Extension:
		n, err = w.WriteInto(buf, nil)
	case h.ExtensionProfile == extensionProfileOneByte:
		n, err = h.writeElements(&w, buf, rtpwire.OneByteForm)
	case h.ExtensionProfile == extensionProfileTwoByte:
		n, err = h.writeElements(&w, buf, rtpwire.TwoByteForm)
	default:
		n, err = h.writeBlock(&w, buf)
	}
	return n, err
}

// writeElements writes a header with a block of elements, which takes no memory where they are as usual.
func (h *Header) writeElements(w *rtpwire.Header, buf []byte, form rtpwire.Form) (int, error) {
	var data [64]byte
	var places [8]rtpwire.Place
	if n, fit := h.layOut(data[:], places[:]); fit {
		return w.WriteWithForm(buf, form, data[:n], places[:len(h.Extensions)])
	}
	all, each := h.laidOut()
	return w.WriteWithForm(buf, form, all, each)
}

// laidOut is the elements' data one after another, and where each lies.
func (h *Header) laidOut() ([]byte, []rtpwire.Place) {
	data, places := make([]byte, h.bodySize()), make([]rtpwire.Place, len(h.Extensions))
	n, _ := h.layOut(data, places)
	return data[:n], places
}

// layOut puts the elements' data one after another, with the place of each, and returns how many bytes they are. It is
// false where there are too few bytes or places.
func (h *Header) layOut(data []byte, places []rtpwire.Place) (n int, fit bool) {
	all := h.Extensions
	if len(all) > len(places) {
		return 0, false
	}
	for i := range all {
		payload, it := all[i].payload, &places[i]
		if len(payload) > len(data)-n {
			return 0, false
		}
		it.ID, it.At, it.Len = all[i].id, n, len(payload)
		if len(payload) > 4 {
			n += copy(data[n:], payload)
			continue
		}
		for _, b := range payload { // of so few bytes it is faster than copy
			data[n] = b
			n++
		}
	}
	return n, true
}

// writeBlock writes a header with a block of another profile, or one in the two-byte form with appbits. It is made apart, since
// the body may lie in the buffer.
func (h *Header) writeBlock(w *rtpwire.Header, buf []byte) (int, error) {
	body, err := h.body()
	if err != nil {
		return 0, err
	}
	if len(buf) < h.MarshalSize() {
		return 0, io.ErrShortBuffer
	}
	made := make([]byte, h.MarshalSize())
	n, err := w.WriteInto(made, nil)
	if err != nil {
		return 0, err
	}
	whole, err := rtpwire.PutBlockIn(made, n, h.ExtensionProfile, body)
	if err != nil {
		return 0, err
	}
	return copy(buf, whole), nil
}

// body is that of the block.
func (h *Header) body() ([]byte, error) {
	if h.ExtensionProfile&0xFFF0 != extensionProfileTwoByte {
		if len(h.Extensions) == 0 {
			return nil, nil
		}
		if len(h.Extensions[0].payload)%4 != 0 {
			return nil, io.ErrShortBuffer
		}
		return h.Extensions[0].payload, nil
	}
	data, places := h.laidOut()
	body := make([]byte, h.bodySize())
	_, err := rtpwire.WriteElements(body, rtpwire.TwoByteForm, data, places)
	return body, err
}

// bodySize is how many bytes the block's body takes.
func (h *Header) bodySize() int {
	size, each := 0, 2
	if h.ExtensionProfile == extensionProfileOneByte {
		each = 1
	} else if h.ExtensionProfile&0xFFF0 != extensionProfileTwoByte {
		each = 0
	}
	for _, it := range h.Extensions {
		size += each + len(it.payload)
		if each == 0 {
			break
		}
	}
	return (size + 3) / 4 * 4
}

// MarshalSize is how many bytes MarshalTo writes.
func (h Header) MarshalSize() int {
	size := 12 + 4*len(h.CSRC)
	if h.Extension {
		size += 4 + h.bodySize()
	}
	return size
}
