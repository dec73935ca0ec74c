package rtpwire_test

import (
	"bytes"
	"fmt"
	"math"
	"testing"

	"rtp-wire.example/rtpwire"
)

// The expected bytes are worked out by hand from RFC 3550, 5.1, RFC 4588, 4, and RFC 8285, 4.2.

// again is the header that a receiver of the group numbered gets as a retransmission with the payload type 97, the
// number 9 and the SSRC 45, in front of its original number; the data are 0 and 7.
func again(original uint16) []byte {
	return []byte{0x90, 97, 0, 9, 0, 0, 0, 100, 0, 0, 0, 45, 0xBE, 0xDE, 0, 2, 0x30, 0xAA, 0x41, 0, 7, 0, 0, 0,
		byte(original >> 8), byte(original)}
}

// addAgain adds the receiver of which again has the header.
func addAgain(batch *rtpwire.RouteBatch, dataAt int, original uint16) rtpwire.RoutedFields {
	fields := batch.AddRetransmission(dataAt, original)
	fields.SetPayloadType(97)
	fields.SetSequenceNumber(9)
	fields.SetSSRC(45)
	return fields
}

// headersOf are the headers of the batch, or the errors that stand for them.
func headersOf(batch *rtpwire.RouteBatch) (headers []any) {
	for i := 0; i < batch.Len(); i++ {
		header, err := batch.At(i)
		if err != nil {
			headers = append(headers, err)
		} else {
			headers = append(headers, header)
		}
	}
	return headers
}

// A retransmission lies between two receivers that get the packet, and its header has the two bytes more that are its
// own. Where P is set it is cleared in the retransmission alone.
func TestRetransmissionBetweenOthers(t *testing.T) {
	data := []byte{0, 7, 0, 8}
	for _, first := range []byte{0x90, 0xB0} {
		packet := append(routable(), 0, 2)
		packet[0] = first
		plain := []byte{first, 96, 0, 5, 0, 0, 0, 100, 0, 0, 0, 44, 0xBE, 0xDE, 0, 2, 0x30, 0xAA, 0x41, 0, 8, 0, 0, 0}
		for _, original := range []uint16{0, 1, 0xFF, 0x102, 0xFF00, 65535} {
			what := fmt.Sprintf("% X, %d", first, original)
			var template rtpwire.HeaderTemplate
			var batch rtpwire.RouteBatch
			batch.Add(2)
			addAgain(&batch, 0, original)
			batch.Add(2)
			same(t, what, []any{template.Make(packet, numbered(), data), template.HeaderLen()}, []any{nil, 24})
			for _, write := range []func(buf []byte) error{
				func(buf []byte) error { return batch.Route(packet, numbered(), data, buf) },
				func(buf []byte) error { return batch.Write(&template, data, buf) },
			} {
				buf := atEnd(t, make([]byte, 74))
				same(t, what, write(buf), nil)
				same(t, what, headersOf(&batch), []any{plain, again(original), plain})
				same(t, what, buf, append(append(append([]byte(nil), plain...), again(original)...), plain...))
				header, _ := batch.At(1)
				same(t, what, []any{cap(header), &header[0] == &buf[24]}, []any{26, true})
			}
		}
	}
}

// A retransmission's header reaches past the buffer where its number does; and one that has room stands where that of the
// receiver before it does, which gets none.
func TestRoomForTheOriginalNumber(t *testing.T) {
	data := []byte{0, 7}
	rows := []struct {
		dataAt, room int
		payloadType  uint8
		err          error
	}{
		{0, 26, 97, nil},
		{0, 25, 97, rtpwire.ErrShortBuffer},
		{0, 24, 97, rtpwire.ErrShortBuffer},
		{0, 1, 97, rtpwire.ErrShortBuffer},
		{0, 0, 97, rtpwire.ErrShortBuffer},
		{0, 30, 97, nil},
		{0, 0, 128, rtpwire.ErrBadField},
		{1, 0, 97, rtpwire.ErrBadField},
		{math.MaxInt, 30, 97, rtpwire.ErrBadField},
	}
	for i, row := range rows {
		what := fmt.Sprint("row ", i)
		var batch rtpwire.RouteBatch
		batch.Add(0).SetPayloadType(128)
		addAgain(&batch, row.dataAt, 7).SetPayloadType(row.payloadType)
		buf := atEnd(t, bytes.Repeat([]byte{0xEE}, row.room))
		same(t, what, batch.Route(routable(), numbered(), data, buf), nil)
		if row.err != nil {
			same(t, what, headersOf(&batch), []any{rtpwire.ErrBadField, row.err})
			same(t, what, buf, bytes.Repeat([]byte{0xEE}, row.room))
			continue
		}
		same(t, what, headersOf(&batch), []any{rtpwire.ErrBadField, again(7)})
		same(t, what, [][]byte{buf[:26], buf[26:]}, [][]byte{again(7), bytes.Repeat([]byte{0xEE}, row.room-26)})
	}
}

// A batch that is used again has no retransmission of the receivers before, and one that isn't Reset keeps its own.
func TestBatchesWithRetransmissionsAreUsedAgain(t *testing.T) {
	data, buf := []byte{0, 7}, make([]byte, 100)
	plain := []byte{0x90, 96, 0, 5, 0, 0, 0, 100, 0, 0, 0, 44, 0xBE, 0xDE, 0, 2, 0x30, 0xAA, 0x41, 0, 7, 0, 0, 0}
	var batch rtpwire.RouteBatch
	routed := func(what string, wanted ...any) {
		t.Helper()
		same(t, what, batch.Route(routable(), numbered(), data, buf), nil)
		same(t, what, headersOf(&batch), wanted)
	}
	addAgain(&batch, 0, 300)
	addAgain(&batch, 0, 301)
	routed("two", again(300), again(301))
	batch.Fields(0).SetMarker(true)
	marked := again(300)
	marked[1] |= 0x80
	routed("with another field", marked, again(301))
	batch.Add(0)
	routed("and one more", marked, again(301), plain)
	batch.Reset()
	batch.Add(0)
	addAgain(&batch, 0, 0)
	routed("of other kinds", plain, again(0))
	batch.Reset()
	addAgain(&batch, 0, 5)
	batch.Add(0)
	routed("of other kinds once more", again(5), plain)
	batch.Reset()
	batch.Add(0)
	batch.Add(0)
	routed("of none", plain, plain)

	same(t, "how often", testing.AllocsPerRun(100, func() {
		batch.Reset()
		batch.Add(0)
		addAgain(&batch, 0, 5)
	}), 0.0)
}

// Of several causes the first one is told: the padding before the id, and that before the room.
func TestFirstCauseOfARetransmission(t *testing.T) {
	header := "B0 BEDE0001 10AA0000"
	for _, row := range []struct {
		payload  string
		to, from error
	}{
		{"0102 0A", rtpwire.ErrBadField, rtpwire.ErrBadField}, // ten bytes of padding in three
		{"0102 02", rtpwire.ErrLongID, rtpwire.ErrNotFound},   // one byte without the padding
		{"0102 01", rtpwire.ErrLongID, rtpwire.ErrLongID},
	} {
		packet := written(t, header+row.payload)
		before := append([]byte(nil), packet...)
		_, to := rtpwire.ToRetransmissionIn(packet, len(packet), 45, 97, 9, newIDs([2]uint8{1, 15}))
		_, from := rtpwire.FromRetransmissionIn(packet, len(packet), 45, 97, newIDs([2]uint8{1, 15}))
		same(t, row.payload, []any{to, from, packet}, []any{row.to, row.from, before})
	}
}
