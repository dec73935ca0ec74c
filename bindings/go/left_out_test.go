package rtpwire

import (
	"bytes"
	"errors"
	"testing"
)

// Of a mid and an orientation, the second under an id above 14; the level that is mapped isn't there.
func someLeft(t *testing.T) (*Map, *Header) {
	t.Helper()
	m := new(Map)
	if err := m.Set(1, KindAudioLevel); err != nil {
		t.Fatal(err)
	}
	if err := m.Set(200, KindVideoOrientation); err != nil {
		t.Fatal(err)
	}
	var values Values
	if err := values.SetMID("a"); err != nil {
		t.Fatal(err)
	}
	values.SetVideoOrientation(90)
	return m, NewHeader(values)
}

func TestLeftOutIsToldOrRefused(t *testing.T) {
	m, h := someLeft(t)
	if !h.HasExtension || NewHeader(Values{}).HasExtension {
		t.Fatal("X is set where there is a value")
	}
	kinds, err := h.LeftOut(m)
	if err != nil || kinds != 1<<KindMID || kinds.String() != "mid" {
		t.Fatal(kinds, err)
	}
	buf := bytes.Repeat([]byte{0xEE}, 40)
	_, err = h.WriteAll(buf, m)
	var left *LeftOutError
	if !errors.As(err, &left) || left.Kinds != kinds || left.Error() != "rtpwire: values that no element carries: mid" {
		t.Fatal(err)
	}
	if buf[0] != 0xEE {
		t.Fatal("something is written")
	}
	if n, err := h.WriteInto(buf, m); n != 20 || err != nil {
		t.Fatal(n, err)
	}
	h.HasExtension = false
	kinds, err = h.LeftOut(m)
	all := kinds.Kinds()
	if err != nil || len(all) != 2 || all[0] != KindVideoOrientation || all[1] != KindMID {
		t.Fatal(kinds, err)
	}
	if kinds.Contains(KindAudioLevel) || kinds.Contains(KindOwn+12) || kinds.String() != "video orientation, mid" {
		t.Fatal(kinds)
	}
	h.HasExtension = true
	if err := m.Set(255, KindMID); err != nil {
		t.Fatal(err)
	}
	n, err := h.WriteAll(buf, m)
	if n != 24 || err != nil || !bytes.Equal(buf[12:24], []byte{0x10, 0, 0, 2, 200, 1, 3, 255, 1, 'a', 0, 0}) {
		t.Fatal(n, err, buf)
	}
	if _, err := h.WriteAll(buf[:23], m); err != ErrShortBuffer {
		t.Fatal(err)
	}
	h.PayloadType = 128
	if _, err := h.LeftOut(m); err != ErrBadField {
		t.Fatal(err)
	}
	if _, err := h.WriteAll(buf, m); err != ErrBadField {
		t.Fatal(err)
	}
}

func TestLayersAreLeftOutWithoutAnID(t *testing.T) {
	m, layers, h := new(Map), new(Layers), &Header{HasExtension: true}
	buf := make([]byte, 24)
	kinds, err := h.LeftOutLayers(m, layers)
	if err != nil || kinds != 1<<KindLayers {
		t.Fatal(kinds, err)
	}
	var left *LeftOutError
	if n, err := h.WriteAllLayers(buf, m, layers); n != 0 || !errors.As(err, &left) || left.Kinds != kinds {
		t.Fatal(n, err)
	}
	if !bytes.Equal(buf, make([]byte, 24)) {
		t.Fatal("something is written")
	}
	if _, err := h.WriteAllLayers(nil, m, layers); !errors.As(err, &left) {
		t.Fatal(err) // before ErrShortBuffer
	}
	if err := m.Set(5, KindLayers); err != nil {
		t.Fatal(err)
	}
	if n, err := h.WriteAllLayers(buf, m, layers); n != 20 || err != nil {
		t.Fatal(n, err)
	}
	layers.SetCurrent(1)
	if _, err := h.WriteAllLayers(buf, m, layers); err != ErrBadField {
		t.Fatal(err)
	}
}

func TestEachKindHasItsURI(t *testing.T) {
	for kind := KindAbsSendTime; kind <= KindNTP56; kind++ {
		if KindOfURI(kind.URI()) != kind {
			t.Error(kind, kind.URI())
		}
	}
	for kind, wanted := range map[Kind]string{
		KindMID:                  "urn:ietf:params:rtp-hdrext:sdes:mid",
		KindMixerLevels:          "urn:ietf:params:rtp-hdrext:csrc-audio-level",
		KindTransportNumber2:     "http://www.webrtc.org/experiments/rtp-hdrext/transport-wide-cc-02",
		KindDependencyDescriptor: "https://aomediacodec.github.io/av1-rtp-spec/#dependency-descriptor-rtp-header-extension",
		KindNTP64:                "urn:ietf:params:rtp-hdrext:ntp-64",
		KindNTP56:                "urn:ietf:params:rtp-hdrext:ntp-56",
	} {
		if uri := kind.URI(); uri != wanted {
			t.Errorf("%v: %s", kind, uri)
		}
	}
	if KindNone.URI() != "" || Kind(21).URI() != "" || KindOwn.URI() != "" {
		t.Error("a URI of no kind")
	}
}

// The last kind of a set is one too, and those behind it are none.
func TestTheLastKindOfASet(t *testing.T) {
	set := KindSet(1<<KindMID | 1<<KindLayers | 1<<(KindLayers+1))
	if got := set.String(); got != KindMID.String()+", "+KindLayers.String() || !set.Contains(KindLayers) {
		t.Errorf("the set has %v", got)
	}
	if set.Contains(KindLayers+1) || set.Contains(KindLayers+32) || set.Contains(KindLayers-1) {
		t.Error("the set has a kind that is not in it")
	}
}

// Elements that have no value are no part of a header that was read: neither LeftOut nor WriteAll sees them. A copy of the
// packet that is changed where it lies has them all.
func TestElementsWithoutAValueAreNotSeen(t *testing.T) {
	m := new(Map)
	if m.Set(1, KindMID) != nil || m.Set(2, KindDependencyDescriptor) != nil || m.Set(3, KindOwn) != nil {
		t.Fatal("not set")
	}
	body := []byte{0x10, 'a', 0x20, 7, 0x30, 8, 0x40, 9} // a mid, two without a value, and one of an id that means nothing
	packet := append([]byte{0x90, 96, 0, 5, 0, 0, 0, 160, 0, 0, 0, 7, 0xBE, 0xDE, 0, 2}, body...)
	other := append([]byte(nil), packet...)
	other[12] = 0xAB
	for _, it := range []struct {
		datagram []byte
		block    []byte
	}{{packet, []byte{0xBE, 0xDE, 0, 1, 0x10, 'a', 0, 0}}, {other, []byte{0xBE, 0xDE, 0, 0}}} {
		var read Packet
		if err := read.Parse(it.datagram, m); err != nil {
			t.Fatal(err)
		}
		header := read.Header()
		kinds, err := header.LeftOut(m)
		buf := make([]byte, 40)
		n, all := header.WriteAll(buf, m)
		if kinds != 0 || err != nil || all != nil || !bytes.Equal(buf[12:n], it.block) {
			t.Error(kinds, err, all, buf[:n])
		}
		sent := append([]byte(nil), it.datagram...)
		var fields Fields
		fields.SetSSRC(9)
		if fields.Apply(sent) != nil || sent[11] != 9 || !bytes.Equal(sent[12:], it.datagram[12:]) {
			t.Error(sent)
		}
	}
}
