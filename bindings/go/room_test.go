package rtpwire_test

import (
	"bytes"
	"testing"

	"rtp-wire.example/rtpwire"
)

// A packet without a block, in a slice without room, gets one with its header.
func TestFirstBlockGrows(t *testing.T) {
	packet := []byte{0x80, 96, 0, 5, 0, 0, 0, 100, 0, 0, 0, 44, 1}
	made, err := rtpwire.PutBlock(packet[:13:13], 0xABAC, make([]byte, 8))
	wanted := append([]byte{0x90, 96, 0, 5, 0, 0, 0, 100, 0, 0, 0, 44, 0xAB, 0xAC, 0, 2}, append(make([]byte, 8), 1)...)
	same(t, "made", []any{made, err}, []any{wanted, nil})
}

// A header alone, in a slice without room, gets an element of 255 bytes too: with the first four bytes of the block, its id
// and its length these are 261 bytes, and 264 in whole words, 65 of them behind the first.
func TestLongestElementBehindAHeaderAlone(t *testing.T) {
	data := bytes.Repeat([]byte{7}, 255)
	wanted := append([]byte{0x90, 96, 0, 5, 0, 0, 0, 100, 0, 0, 0, 44, 0x10, 0, 0, 65, 3, 255}, data...)
	wanted = append(wanted, 0, 0, 0)
	for name, call := range map[string]func([]byte, uint8, []byte, rtpwire.Forms) ([]byte, error){
		"put": rtpwire.PutElement, "added": rtpwire.AddElement,
	} {
		header := []byte{0x80, 96, 0, 5, 0, 0, 0, 100, 0, 0, 0, 44}
		made, err := call(header[:12:12], 3, data, rtpwire.AnyForm)
		same(t, name, []any{made, err}, []any{wanted, nil})
	}
}

// A long payload is copied with the room that a header takes at most, and not with as much again.
func TestRoomBehindALongPayload(t *testing.T) {
	const payload = 8 << 20
	packet := append([]byte{0x80, 96, 0, 5, 0, 0, 0, 100, 0, 0, 0, 44}, make([]byte, payload)...)
	made, err := rtpwire.PutElement(packet[:len(packet):len(packet)], 1, []byte{7}, rtpwire.AnyForm)
	same(t, "made", []any{len(made), err}, []any{len(packet) + 8, nil})
	if cap(made) > payload+payload/2 {
		t.Error(cap(made))
	}
}

// The room of a slice is what is behind it: also where all of it would be enough.
func TestHeaderIsAppendedBehindMuch(t *testing.T) {
	var m rtpwire.Map
	header, layers, data := rtpwire.Header{HasExtension: true}, new(rtpwire.Layers), make([]byte, 64)
	places := []rtpwire.Place{{ID: 3, Len: 40}}
	for name, it := range map[string]struct {
		call   func([]byte) ([]byte, error)
		length int
	}{
		"values":   {func(buf []byte) ([]byte, error) { return header.Append(buf, &m) }, 16},
		"layers":   {func(buf []byte) ([]byte, error) { return header.AppendLayers(buf, &m, layers) }, 16},
		"elements": {func(buf []byte) ([]byte, error) { return header.AppendWith(buf, data, places) }, 60},
	} {
		before := make([]byte, 50, 64)
		made, err := it.call(before)
		same(t, name, []any{len(made), err, &made[0] == &before[0]}, []any{50 + it.length, nil, false})
		before = make([]byte, 50, 150)
		made, err = it.call(before)
		same(t, name+" in its room", []any{len(made), err, cap(made)}, []any{50 + it.length, nil, 150})
		made, err = it.call(nil)
		same(t, name+" alone", []any{len(made), err}, []any{it.length, nil})
	}
}

// What takes bytes off gives back all of a packet of more than 65,535 bytes.
func TestLongPacketsBecomeShorter(t *testing.T) {
	long := func() []byte {
		header := []byte{0xB0, 96, 0, 5, 0, 0, 0, 100, 0, 0, 0, 44, 0xBE, 0xDE, 0, 2, 0x10, 7, 0, 0, 0, 0, 0, 0}
		packet := append(header, make([]byte, 1<<17)...)
		packet[len(packet)-1] = 4
		return packet
	}
	for name, it := range map[string]struct {
		call func([]byte) ([]byte, error)
		less int
	}{
		"RemoveBlock": {rtpwire.RemoveBlock, 12}, "Compact": {rtpwire.Compact, 4}, "RemovePadding": {rtpwire.RemovePadding, 4},
	} {
		made, err := it.call(long())
		same(t, name, []any{len(made), err}, []any{len(long()) - it.less, nil})
	}
}

// A layer allocation that was read is left out by WriteAll too.
func TestLayersThatWereReadAreLeftOut(t *testing.T) {
	var m rtpwire.Map
	same(t, "set", m.Set(1, rtpwire.KindLayers), nil)
	packet := parsed(t, []byte{0x90, 96, 0, 5, 0, 0, 0, 100, 0, 0, 0, 44, 0xBE, 0xDE, 0, 1, 0x10, 0, 0, 0}, &m)
	same(t, "layers", packet.Values().HasLayers(), true)
	_, err := packet.Header().WriteAll(make([]byte, 100), &m)
	left, ok := err.(*rtpwire.LeftOutError)
	same(t, "left out", ok && left.Kinds == 1<<rtpwire.KindLayers, true)
}

// The data of an element are at most 255 bytes.
func TestLongestDataOfAValue(t *testing.T) {
	for length, wanted := range map[int]error{254: nil, 255: nil, 256: rtpwire.ErrBadField} {
		values, err := rtpwire.ParseValue(rtpwire.KindAudioLevel, make([]byte, length))
		_, _, ok := values.AudioLevel()
		same(t, "value", []any{err, ok}, []any{wanted, wanted == nil})
	}
}
