package rtp

import (
	"testing"
	"unsafe"

	"rtp-wire.example/rtpwire"
)

// A header begins with what rtpwire.FixedPart is, and an extension is what rtpwire.DataElement is: field by field.
func TestHeadersLieAsWhatIsWritten(t *testing.T) {
	var (
		h     Header
		fixed rtpwire.FixedPart
		it    Extension
		data  rtpwire.DataElement
	)
	rows := []struct {
		name        string
		got, wanted uintptr
	}{
		{"Version", unsafe.Offsetof(h.Version), unsafe.Offsetof(fixed.Version)},
		{"Padding", unsafe.Offsetof(h.Padding), unsafe.Offsetof(fixed.HasPadding)},
		{"Extension", unsafe.Offsetof(h.Extension), unsafe.Offsetof(fixed.HasExtension)},
		{"Marker", unsafe.Offsetof(h.Marker), unsafe.Offsetof(fixed.Marker)},
		{"PayloadType", unsafe.Offsetof(h.PayloadType), unsafe.Offsetof(fixed.PayloadType)},
		{"SequenceNumber", unsafe.Offsetof(h.SequenceNumber), unsafe.Offsetof(fixed.SequenceNumber)},
		{"Timestamp", unsafe.Offsetof(h.Timestamp), unsafe.Offsetof(fixed.Timestamp)},
		{"SSRC", unsafe.Offsetof(h.SSRC), unsafe.Offsetof(fixed.SSRC)},
		{"CSRC", unsafe.Offsetof(h.CSRC), unsafe.Sizeof(fixed)},
		{"an extension", unsafe.Sizeof(it), unsafe.Sizeof(data)},
		{"id", unsafe.Offsetof(it.id), unsafe.Offsetof(data.ID)},
		{"payload", unsafe.Offsetof(it.payload), unsafe.Offsetof(data.Data)},
	}
	for _, row := range rows {
		if row.got != row.wanted {
			t.Errorf("%s: %d, and not %d", row.name, row.got, row.wanted)
		}
	}
	h = Header{Version: 2, Marker: true, PayloadType: 96, SequenceNumber: 5, Timestamp: 160, SSRC: 7}
	h.Extensions = []Extension{{1, []byte{1, 2}}, {2, nil}}
	wanted := rtpwire.FixedPart{Version: 2, Marker: true, PayloadType: 96, SequenceNumber: 5, Timestamp: 160, SSRC: 7}
	if all := h.elements(); *h.fixedPart() != wanted || len(all) != 2 || all[0].ID != 1 || &all[0].Data[0] != &h.Extensions[0].payload[0] ||
		len(all[0].Data) != 2 || all[1].ID != 2 || all[1].Data != nil {
		t.Error(*h.fixedPart(), all)
	}
}
