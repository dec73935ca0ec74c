package rtpwire_test

import (
	"bytes"
	"errors"
	"math"
	"testing"

	"rtp-wire.example/rtpwire"
)

// What a caller meets with other peers than str0m, and what its hand finds first. The expected values are worked out
// by hand from RFC 3550, RFC 5450, RFC 8285, 4.2 and 4.3, RFC 9626 and 3GPP TS 26.114, 7.4.5.

func putsElement(id uint8, data string, allowed rtpwire.Forms) blockCall {
	return func(buf []byte, length int) ([]byte, error) {
		return rtpwire.PutElementIn(buf, length, id, []byte(data), allowed)
	}
}

// Behind an element of the id 0 with length bits a receiver that follows the RFC reads nothing: it goes, also where
// only as many bytes of another element would change.
func TestElementsOfTheID0Go(t *testing.T) {
	const one, both = rtpwire.OnlyOneByteForm, rtpwire.AnyForm
	becomes(t, "90 BEDE0001 01AABB00 09", putsElement(1, "\xCC", both), "90 BEDE0001 10CC0000 09")
	becomes(t, "90 BEDE0002 01AABB00 10770000 09", putsElement(1, "\xCC", one), "90 BEDE0002 10CC0000 00000000 09")
	becomes(t, "90 BEDE0002 107701AA BB000000 09", putsElement(1, "\xCC", both), "90 BEDE0002 10CC0000 00000000 09")
	becomes(t, "90 BEDE0002 01AABB10 77000000 09", putsElement(2, "\xCC", one), "90 BEDE0002 107720CC 00000000 09")
	short, err := rtpwire.Compact(written(t, "90 BEDE0002 01AABB00 10770000 09"))
	same(t, "compact", []any{short, err}, []any{written(t, "90 BEDE0001 10770000 09"), nil})
}

// It is listed as read, with the id 0, and what is behind it too: places that are written again are those without it.
func TestElementsOfTheID0AreListed(t *testing.T) {
	packet := parsed(t, written(t, "90 BEDE0002 01AABB00 10770000 09"), nil)
	_, body := packet.Block()
	places := packet.AppendPlaces(nil)
	same(t, "listed", []any{len(places), places[0].ID, places[0].Len, places[1].ID}, []any{2, uint8(0), 2, uint8(1)})
	buf := make([]byte, 40)
	_, err := packet.Header().WriteWith(buf, body, places)
	same(t, "with it", err, rtpwire.ErrBadField)
	n, err := packet.Header().WriteWith(buf, body, places[1:])
	same(t, "without it", []any{buf[12:n], err}, []any{[]byte{0xBE, 0xDE, 0, 1, 0x10, 0x77, 0, 0}, nil})
}

// And none is written, neither from places nor under a map.
func TestNoElementOfTheID0IsWritten(t *testing.T) {
	header, data := rtpwire.NewHeader(rtpwire.Values{}), []byte{0xAA, 0xBB}
	places := []rtpwire.Place{{ID: 1, At: 0, Len: 1}, {ID: 0, At: 1, Len: 1}}
	buf := bytes.Repeat([]byte{0xEE}, 32)
	for _, form := range []rtpwire.Form{rtpwire.NoBlock, rtpwire.OneByteForm, rtpwire.TwoByteForm} {
		n, err := header.WriteWithForm(buf, form, data, places)
		same(t, "written with it", []any{n, err, buf[0]}, []any{0, rtpwire.ErrBadField, uint8(0xEE)})
	}
	_, err := rtpwire.WriteElements(buf, rtpwire.TwoByteForm, data, places)
	same(t, "an element of the id 0", err, rtpwire.ErrBadField)
	same(t, "mapped", new(rtpwire.Map).Set(0, rtpwire.KindMID), rtpwire.ErrBadField)
}

// The form is the one that alone is allowed, also where an element would only change; and where it isn't put the form
// of the block tells whether that or the element is at fault.
func TestFormsOfAPutElement(t *testing.T) {
	const one, two = rtpwire.OnlyOneByteForm, rtpwire.OnlyTwoByteForm
	becomes(t, "90 BEDE0001 10AA0000 09", putsElement(1, "\xBB", one), "90 BEDE0001 10BB0000 09")
	becomes(t, "90 BEDE0001 10AA0000 09", putsElement(1, "\xBB", two), "90 10000001 0101BB00 09")
	becomes(t, "90 10050001 0101AA00 09", putsElement(1, "\xBB", two), "90 10050001 0101BB00 09")
	for before, form := range map[string]rtpwire.Forms{
		"90 10050001 0101AA00 09": two, "90 BEDE0001 10AA0000 09": one,
	} {
		stays(t, before, putsElement(15, "\xBB", one), rtpwire.ErrLongID)
		stays(t, before, putsElement(14, "", one), rtpwire.ErrFormNotAllowed)
		found, _ := parsed(t, written(t, before), nil).Block()
		same(t, before, rtpwire.Forms(found), form)
	}
	stays(t, "90 BEDE0001 10AA0000 09", putsElement(0, "\xBB", one), rtpwire.ErrBadID)
	for _, err := range []error{rtpwire.ErrBadID, rtpwire.ErrLongID, rtpwire.ErrFormNotAllowed, rtpwire.ErrLongBlock} {
		same(t, "told apart", []bool{errors.Is(err, rtpwire.ErrBadField), errors.Is(rtpwire.ErrBadField, err)}, []bool{true, false})
	}
}

// A one-byte block takes ids above 14 once its form is changed.
func TestIDsAbove14AfterAChangeOfForm(t *testing.T) {
	buf := append(written(t, "90 BEDE0001 10AA20BB 09"), 0, 0, 0, 0)
	ids := new(rtpwire.NewIDs)
	ids.Set(1, 200)
	ids.Set(2, 15)
	same(t, "too high", rtpwire.Renumber(buf[:21], ids), rtpwire.ErrLongID)
	datagram, err := rtpwire.ChangeFormIn(buf, 21, rtpwire.TwoByteForm)
	same(t, "changed", err, nil)
	same(t, "renumbered", rtpwire.Renumber(datagram, ids), nil)
	same(t, "packet", datagram, written(t, "90 10000002 C801AA0F 01BB0000 09"))
}

// An offset of three bytes and a marking of three are no values of a header; a header that is read and written keeps
// the turn of an orientation, and loses the camera and the flip.
func TestElementsOfTheStandards(t *testing.T) {
	m := new(rtpwire.Map)
	for id, kind := range []rtpwire.Kind{rtpwire.KindTransmissionOffset, rtpwire.KindFrameMarking, rtpwire.KindVideoOrientation} {
		same(t, "mapped", m.Set(uint8(id+1), kind), nil)
	}
	datagram := written(t, "90 BEDE0003 12FFFFA6 22A90207 300D0000 09")
	packet := parsed(t, datagram, m)
	_, hasOffset := packet.Values().TransmissionOffset()
	_, hasMarking := packet.Values().FrameMarking()
	turn, ok := packet.Values().VideoOrientation()
	same(t, "values", []any{hasOffset, hasMarking, turn, ok}, []any{false, false, uint16(270), true})
	data := func(id uint8) []byte {
		data, _ := packet.Element(id)
		return data
	}
	offset, err := rtpwire.ParseTransmissionOffset(data(1))
	same(t, "offset", []any{offset, err}, []any{int32(-90), nil})
	marking, err := rtpwire.ParseFrameMarking(data(2))
	same(t, "marking", []any{marking, err}, []any{rtpwire.FrameMarking{
		Start: true, Independent: true, HasLayers: true, BaseLayerSync: true, TemporalID: 1, LayerID: 2, HasTL0PicIdx: true, TL0PicIdx: 7,
	}, nil})
	orientation, err := rtpwire.ParseOrientation(data(3))
	same(t, "orientation", []any{orientation, err}, []any{rtpwire.Orientation{Turn: 270, Camera: rtpwire.BackCamera, Flip: true}, nil})

	buf := make([]byte, 32)
	n, err := packet.Header().WriteInto(buf, m)
	same(t, "written", []any{buf[12:n], err}, []any{[]byte{0xBE, 0xDE, 0, 1, 0x30, 0x01, 0, 0}, nil})
	again, err := orientation.Append(nil)
	same(t, "appended", err, nil)
	same(t, "set", rtpwire.SetElement(buf[:n], 3, again), nil)
	same(t, "whole", buf[17], uint8(0x0D))
}

// What lies behind a datagram stays, whatever is appended to a part of its packet.
func TestAppendsToAPacket(t *testing.T) {
	buf := append(sample(), 0xEE, 0xEE)
	packet := parsed(t, buf[:37], nil)
	payload := append(packet.Payload(), 0x77)
	same(t, "appended", []any{payload[5], len(payload), buf}, []any{byte(0x77), 6, append(sample(), 0xEE, 0xEE)})
	whole := append(packet.Datagram(), 0x77)
	same(t, "appended to the whole", []any{whole, buf}, []any{append(sample(), 0x77), append(sample(), 0xEE, 0xEE)})
	packet.Payload()[4] = 0x66
	same(t, "shared, but for the copy", []byte{buf[36], payload[4]}, []byte{0x66, 2})
	same(t, "of no packet", len(new(rtpwire.Packet).Payload()), 0)
}

// Expected are those from the first one's number to the highest, whatever else came.
func TestExpected(t *testing.T) {
	var s rtpwire.ReceptionStatistics
	same(t, "none", s.Expected(), uint64(0))
	for i, expected := range []uint64{1, 4, 4, 4} {
		s.Record([]uint64{65541, 65544, 65540, 65544}[i], 0, 0)
		same(t, "expected", s.Expected(), expected)
	}
	report, ok := s.Report()
	same(t, "report", []any{report.CumulativeLost, report.FractionLost, ok, s.Expected()}, []any{int32(0), uint8(0), true, uint64(4)})
	var all rtpwire.ReceptionStatistics
	all.Record(0, 0, 0)
	same(t, "the number 0", all.Expected(), uint64(1))
	all.Record(math.MaxUint64-1, 0, 0)
	same(t, "nearly all", all.Expected(), uint64(math.MaxUint64))
	all.Record(math.MaxUint64, 0, 0)
	same(t, "all, and no more than 64 bits have", all.Expected(), uint64(math.MaxUint64))
	var last rtpwire.ReceptionStatistics
	last.Record(math.MaxUint64-5, 0, 0)
	last.Record(math.MaxUint64, 0, 0)
	same(t, "the last six", last.Expected(), uint64(6))
}
