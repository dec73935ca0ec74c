package rtpwire

import "unsafe"

// This file and calls.go have all calls of the library, and with the race*.go beside them all that is unsafe. Structs of
// Go that lie in memory as those of rtp_wire.h, which layout_test.go tests, are given to it by their addresses: none of
// them holds a pointer of Go, the library keeps none, and an empty slice is given as nil.

// apart is the data, copied where they overlap the buffer: what the library writes may overlap nothing that it reads.
func apart(data, buf []byte) []byte {
	if len(data) == 0 || len(buf) == 0 {
		return data
	}
	dataAt, bufAt := uintptr(unsafe.Pointer(&data[0])), uintptr(unsafe.Pointer(&buf[0]))
	if dataAt-bufAt < uintptr(len(buf)) || bufAt-dataAt < uintptr(len(data)) {
		return append([]byte(nil), data...)
	}
	return data
}

// haveApart is whether none of the elements has data that overlap the buffer.
func haveApart(elements []DataElement, buf []byte) bool {
	at, size := uintptr(unsafe.Pointer(first(buf))), uintptr(len(buf))
	for i := range elements {
		data := elements[i].Data
		dataAt, n := uintptr(unsafe.Pointer(first(data))), uintptr(len(data))
		if dataAt-at < size || at-dataAt < n {
			return false
		}
	}
	return true
}

// upTo is so many bytes of a buffer, where the status is that of a call that did what it is for.
func upTo(buf []byte, n uintptr, status int32) ([]byte, error) {
	if status != statusOK {
		return nil, errorOf(status)
	}
	return buf[:n], nil
}

// written is room for the data of a value: at most those of a color space.
type written struct {
	data [28]byte
	n    uintptr
}

// after is the data, and after them those that were written; the data alone where the value can't be written.
func (w *written) after(data []byte, status int32) ([]byte, error) {
	return append(data, w.data[:w.n]...), errorOf(status)
}

// The map in which no id means anything, and the new ids where no element gets one.
var (
	noKinds Map
	noIDs   NewIDs
)

func (m *Map) orNone() *Map {
	if m == nil {
		return &noKinds
	}
	return m
}

func (g *Group) ids() *NewIDs {
	if g.IDs == nil {
		return &noIDs
	}
	return g.IDs
}

// exact is the datagram in a slice without room for more: what is appended to it, or to a part of it, is a copy.
func exact(datagram []byte) []byte {
	return datagram[:len(datagram):len(datagram)]
}

func putDataElements(fixed *FixedPart, elements []DataElement, form Form, buf []byte) (int, error) {
	if !haveApart(elements, buf) {
		elements = append([]DataElement(nil), elements...)
		for i := range elements {
			elements[i].Data = append([]byte(nil), elements[i].Data...)
		}
	}
	var n uintptr
	status := rtpw_write_data_elements(fixed.c(), firstDataElement(elements), uintptr(len(elements)), uint8(form), first(buf), uintptr(len(buf)), &n)
	return int(n), errorOf(status)
}

// parse reads the packet: whatever it looks like, but on a port that RTP and RTCP share, where it tells RTCP.
func (p *Packet) parse(datagram []byte, m *Map, muxed bool) error {
	datagram = exact(datagram)
	at, n, kinds := first(datagram), uintptr(len(datagram)), m.orNone().c()
	var status int32
	if muxed {
		status = rtpw_packet_read_muxed(at, n, kinds, p.fields.c(), p.values.c())
	} else {
		status = rtpw_packet_read(at, n, kinds, p.fields.c(), p.values.c())
	}
	if status != statusOK {
		return errorOf(status)
	}
	p.datagram = datagram
	if p.fields.csrcCount|p.csrcCount != 0 || p.fields.form != p.form {
		p.parseOthers()
	}
	return nil
}

// parseOthers reads the contributing sources, and takes away what the packet before had and this one doesn't have.
func (p *Packet) parseOthers() {
	p.form = p.fields.form
	if !p.form.hasElements() {
		p.values = ReadValues{}
	}
	var whole wholePacket
	if p.fields.csrcCount != 0 && parse(p.datagram, nil, &whole.header) != statusOK && read(p.datagram, nil, &whole) != statusOK {
		// The block has another form, and the packet looks like RTCP: they are read from a copy that doesn't look so.
		header := append([]byte(nil), p.datagram[:p.fields.payloadAt]...)
		_ = setPayloadType(header, 0)
		_ = read(header, nil, &whole)
	}
	p.csrc, p.csrcCount = whole.header.csrc, p.fields.csrcCount
}

// hasChanged is whether the datagram is no packet any more, or one with other fields, places or contributing sources.
func (p *Packet) hasChanged() bool {
	var now PacketFields
	if packetParse(p.datagram, &now) != statusOK || now != p.fields {
		return true
	}
	if now.csrcCount == 0 {
		return false
	}
	again := Packet{datagram: p.datagram, fields: now}
	again.parseOthers()
	return again.csrc != p.csrc
}

func (l *Layers) parse(datagram []byte, m *Map) error {
	var header Header
	status := parseLayers(datagram, m, &header, l)
	if status == statusUnknownForm {
		var parts PacketFields
		status = packetParse(datagram, &parts)
		if status == statusOK {
			*l.c() = rtpw_layers{}
		}
	}
	return errorOf(status)
}

// parseHeaders reads each as Packet.parse does: also one whose block has another form.
func parseHeaders(buf []byte, m *Map, datagrams []datagramHeader) {
	parseMany(buf, m, datagrams)
	for i := range datagrams {
		if it := &datagrams[i]; it.status == statusUnknownForm {
			it.parseOther(buf[it.at:it.at+it.len], m)
		}
	}
}

// parseOther reads one whose block has another form.
func (d *datagramHeader) parseOther(datagram []byte, m *Map) {
	var packet Packet
	d.status = packetParse(datagram, &packet.fields)
	if packet.parse(datagram, m, false) == nil {
		d.header = *packet.Header()
	}
}

// next makes it the place of the element behind it.
func (p *Place) next(body []byte, form Form) bool {
	return nextElement(body, form, p.end, p) == statusOK
}

func (p *Places) c() *rtpw_element {
	return (*rtpw_element)(unsafe.Pointer(p))
}

// nextElements tells the places of the elements of a block's body from an offset on, as many as there is room for.
func nextElements(room []Place, form Form, body []byte, at int) int {
	return int(rtpw_next_elements(first(body), uintptr(len(body)), uint8(form), uintptr(at), firstElement(room), uintptr(len(room))))
}

// appendPlaces appends the places of the elements: as many as there is room for in each call.
func appendPlaces(places []Place, form Form, body []byte) []Place {
	if !form.hasElements() {
		return places
	}
	for at := 0; ; {
		room := places[len(places):cap(places)]
		count := nextElements(room, form, body, at)
		places = places[:len(places)+count]
		if count < len(room) {
			return places
		}
		if count != 0 {
			at = room[count-1].end
		}
		places = append(places, make([]Place, 8)...)[:len(places)]
	}
}

// parseValue lets the data be those of the one element of a body.
func parseValue(kind Kind, data []byte) (values Values, err error) {
	var body [257]byte
	var m Map
	n, err := writeElements(data, []Place{{ID: 1, Len: len(data)}}, TwoByteForm, body[:])
	if err != nil || mapSet(&m, 1, kind) != nil {
		return Values{}, ErrBadField
	}
	status := valuesRead(body[:n], TwoByteForm, &m, &values.ReadValues)
	if status != statusOK || values == (Values{}) {
		return Values{}, ErrBadField
	}
	return values, nil
}

func (r *RestartingReceiver) c() *rtpw_wide_restarting_receiver {
	return (*rtpw_wide_restarting_receiver)(unsafe.Pointer(&r.highest))
}

func (r *WideRestartingReceiver) c() *rtpw_wide_restarting_receiver {
	return (*rtpw_wide_restarting_receiver)(unsafe.Pointer(&r.state))
}

// judge is the verdict of a receiver for a sender that may start again; an error where it has no window.
func judge(r *rtpw_wide_restarting_receiver, words []uint64, sequenceNumber uint16) (uint64, Verdict, error) {
	switch number, status := wideRestartingReceive(r, words, sequenceNumber); status {
	case statusOK:
		return number, Taken, nil
	case statusRestarted:
		return number, Restarted, nil
	case statusRefused:
		return 0, Refused, nil
	default:
		return 0, Refused, errorOf(status)
	}
}

func receiveRestarting(r *rtpw_wide_restarting_receiver, words []uint64, sequenceNumber uint16) (uint64, Verdict) {
	number, verdict, _ := judge(r, words, sequenceNumber)
	return number, verdict
}

func receiveRestartingPacket(
	r *rtpw_wide_restarting_receiver, words []uint64, datagram []byte, m *Map, p *Packet,
) (uint64, Verdict, error) {
	if err := p.parse(datagram, m, true); err != nil {
		return 0, Refused, err
	}
	return judge(r, words, p.fields.SequenceNumber)
}

// standingIn is what the receiver knows of a number in its epoch, whose window is that of a wide receiver.
func standingIn(r *rtpw_wide_restarting_receiver, words []uint64, number uint64) Standing {
	epoch := wideState{highest: r.highest, started: r.started != 0}
	return Standing(wideReceiverStandingOf(&epoch, words, number))
}

// make makes the header in the buffer that there is, which may be too short.
func (t *HeaderTemplate) make(datagram []byte, group *Group, data []byte) int32 {
	return rtpw_make_template(first(datagram), uintptr(len(datagram)), group.ids().c(), first(data), uintptr(len(data)),
		firstElement(group.Elements), uintptr(len(group.Elements)), uint8(group.Allowed), first(t.buf),
		uintptr(len(t.buf)), t.made.c())
}

// makeWithRoom makes the header where the buffer was too short for make, and any header of the datagram has room in
// another one.
func (t *HeaderTemplate) makeWithRoom(datagram []byte, group *Group, data []byte) int32 {
	if !t.grow(datagram, len(group.Elements)) {
		return statusShortBuffer
	}
	return t.make(datagram, group, data)
}

// makePrepared makes the header, where the buffer is too short in one that isn't.
func (t *HeaderTemplate) makePrepared(datagram []byte, group *PreparedGroup) int32 {
	status := rtpw_make_from_group(group.c(), first(datagram), uintptr(len(datagram)), first(t.buf), uintptr(len(t.buf)), t.made.c())
	if status == statusShortBuffer && t.grow(datagram, int(group.count)) {
		return t.makePrepared(datagram, group)
	}
	return status
}

// write writes the headers of the receivers, whose data may lie in the buffer, where that of the template was made: else
// made is the status of the call that didn't.
func (b *RouteBatch) write(t *HeaderTemplate, made int32, data, buf []byte) error {
	status := made
	if made == statusOK {
		data = apart(data, buf)
		status = rtpw_write_headers(t.made.c(), first(t.buf), uintptr(len(t.buf)), first(data), uintptr(len(data)),
			firstRoutedHeader(b.given), uintptr(len(b.given)), first(buf), uintptr(len(buf)))
	}
	if status != statusOK {
		b.buf = nil
		return errorOf(status)
	}
	b.buf, b.count = buf, len(b.given)
	return nil
}
