package rtpwire

// PutElement puts an element into the packet, as [PutElementIn] does, whose errors but ErrShortBuffer it returns, and
// returns what the packet becomes, as append does: where it lay where the slice's capacity has room for it, and in new
// memory else. With an error it returns the packet, as it was.
//
//	packet, err = rtpwire.PutElement(packet, id, data, rtpwire.AnyForm)
//
// The packet that is passed is used up: its bytes may have changed, and those behind it up to the slice's capacity. Where
// it goes to several receivers, or into a history of packets that are sent again, copy it first.
func PutElement(packet []byte, id uint8, data []byte, allowed Forms) ([]byte, error) {
	return longer(packet, func(buf []byte) ([]byte, error) { return PutElementIn(buf, len(packet), id, data, allowed) })
}

// AddElement adds an element behind all others, as [AddElementIn] does, whose errors but ErrShortBuffer it returns. It
// returns what the packet becomes, and uses up the packet that is passed, as [PutElement] does.
func AddElement(packet []byte, id uint8, data []byte, allowed Forms) ([]byte, error) {
	return longer(packet, func(buf []byte) ([]byte, error) { return AddElementIn(buf, len(packet), id, data, allowed) })
}

// ChangeForm makes the packet's block one of this form, as [ChangeFormIn] does, whose errors but ErrShortBuffer it
// returns. It returns what the packet becomes, and uses up the packet that is passed, as [PutElement] does.
func ChangeForm(packet []byte, form Form) ([]byte, error) {
	return longer(packet, func(buf []byte) ([]byte, error) { return ChangeFormIn(buf, len(packet), form) })
}

// PutBlock gives the packet a block, as [PutBlockIn] does, whose errors but ErrShortBuffer it returns. It returns what the
// packet becomes, and uses up the packet that is passed, as [PutElement] does.
func PutBlock(packet []byte, profile uint16, body []byte) ([]byte, error) {
	change := func(buf []byte) ([]byte, error) { return PutBlockIn(buf, len(packet), profile, body) }
	made, err := change(packet[:cap(packet)])
	if err == ErrShortBuffer {
		made, err = change(withRoom(packet, 4+len(body)))
	}
	return orAsItWas(packet, made, err)
}

// ToRetransmission makes the packet a retransmission, as [ToRetransmissionIn] does, whose errors but ErrShortBuffer it
// returns. It returns what the packet becomes, and uses up the packet that is passed, as [PutElement] does: one of a
// history, which may be asked for again, is copied first.
func ToRetransmission(packet []byte, ssrc uint32, payloadType uint8, number uint16, ids *NewIDs) ([]byte, error) {
	return longer(packet, func(buf []byte) ([]byte, error) {
		return ToRetransmissionIn(buf, len(packet), ssrc, payloadType, number, ids)
	})
}

// FromRetransmission makes the retransmission the packet that it repeats, as [FromRetransmissionIn] does, whose errors it
// returns, and with one the packet, as it was. What it returns lies where the packet lay. The packet that is passed is used
// up: its bytes have changed. For several receivers, or a history, copy it first.
func FromRetransmission(packet []byte, ssrc uint32, payloadType uint8, ids *NewIDs) ([]byte, error) {
	made, err := FromRetransmissionIn(packet, len(packet), ssrc, payloadType, ids)
	return orAsItWas(packet, made, err)
}

// Append appends the header, as [Header.WriteInto] writes it, and returns its error, and with that the slice as it was.
func (h *Header) Append(buf []byte, m *Map) ([]byte, error) {
	n, err := write(m, h, buf[len(buf):cap(buf)])
	if err == ErrShortBuffer {
		n, err = wireLen(m, h)
		if err == nil {
			buf = withRoom(buf, n)[:len(buf)]
			n, err = write(m, h, buf[len(buf):cap(buf)])
		}
	}
	return appended(buf, n, err)
}

// AppendLayers appends the header with these layers, as [Header.WriteLayers] writes it, and returns its error, and with
// that the slice as it was.
func (h *Header) AppendLayers(buf []byte, m *Map, layers *Layers) ([]byte, error) {
	n, err := wireLenLayers(m, h, layers)
	if err != nil {
		return buf, err
	}
	buf = withRoomFor(buf, n)
	n, err = writeLayers(m, h, layers, buf[len(buf):cap(buf)])
	return appended(buf, n, err)
}

// AppendWith appends the header with a block of these elements, as [Header.WriteWith] writes it, and returns its error,
// and with that the slice as it was.
func (h *Header) AppendWith(buf, data []byte, places []Place) ([]byte, error) {
	n, err := h.WireLenWith(data, places)
	if err != nil {
		return buf, err
	}
	buf = withRoomFor(buf, n)
	n, err = h.WriteWith(buf[len(buf):cap(buf)], data, places)
	return appended(buf, n, err)
}

// longer is what change makes of a packet in all the room that its slice has: where that isn't enough, of a copy that has
// it.
func longer(packet []byte, change func(buf []byte) ([]byte, error)) ([]byte, error) {
	made, err := change(packet[:cap(packet)])
	if err == ErrShortBuffer {
		header := len(packet)
		if header > mostHeader {
			header = mostHeader
		}
		made, err = change(withRoom(packet, header+264)) // a block whose elements each get a byte, and one of 255 bytes
	}
	return orAsItWas(packet, made, err)
}

// withRoom is a copy of the bytes, and at least so many behind them.
func withRoom(bytes []byte, room int) []byte {
	return append(bytes[:len(bytes):len(bytes)], make([]byte, room)...)
}

// withRoomFor is the bytes, or a copy of them, with a capacity for so many more.
func withRoomFor(bytes []byte, room int) []byte {
	if cap(bytes)-len(bytes) >= room {
		return bytes
	}
	return withRoom(bytes, room)[:len(bytes)]
}

func orAsItWas(packet, made []byte, err error) ([]byte, error) {
	if err != nil {
		return packet, err
	}
	return made, nil
}

// appended is the slice with so many bytes more.
func appended(buf []byte, n int, err error) ([]byte, error) {
	if err != nil {
		return buf, err
	}
	return buf[:len(buf)+n], nil
}
