package rtpwire_test

import (
	"testing"

	"rtp-wire.example/rtpwire"
)

// After each call that moves the payload, the packet that was read before says so; after one that changes no place it
// doesn't, but where a field is another.
func TestHasChanged(t *testing.T) {
	const room = 64
	padded := []byte{
		0xB1, 96, 0, 5, 0, 0, 0, 160, 0, 0, 0, 7, 0, 0, 0, 9, 0xBE, 0xDE, 0, 2, 0x10, 0x8A, 0, 0, 0, 0, 0, 0, 0, 6, 'h', 'i', 0, 2,
	}
	none := rtpwire.NewIDsBetween(nil, nil)
	long, any := make([]byte, 20), rtpwire.AnyForm
	for name, it := range map[string]struct {
		moves bool
		call  func(buf []byte, n int) ([]byte, error)
	}{
		"PutElement":       {true, func(buf []byte, n int) ([]byte, error) { return rtpwire.PutElement(buf[:n], 2, long, any) }},
		"PutElementIn":     {true, func(buf []byte, n int) ([]byte, error) { return rtpwire.PutElementIn(buf, n, 2, long, any) }},
		"AddElement":       {true, func(buf []byte, n int) ([]byte, error) { return rtpwire.AddElement(buf[:n], 1, long, any) }},
		"AddElementIn":     {true, func(buf []byte, n int) ([]byte, error) { return rtpwire.AddElementIn(buf, n, 1, long, any) }},
		"ChangeForm":       {true, func(buf []byte, n int) ([]byte, error) { return rtpwire.ChangeForm(buf[:n], rtpwire.TwoByteForm) }},
		"ChangeFormIn":     {true, func(buf []byte, n int) ([]byte, error) { return rtpwire.ChangeFormIn(buf, n, rtpwire.TwoByteForm) }},
		"PutBlock":         {true, func(buf []byte, n int) ([]byte, error) { return rtpwire.PutBlock(buf[:n], 0xABAC, long) }},
		"PutBlockIn":       {true, func(buf []byte, n int) ([]byte, error) { return rtpwire.PutBlockIn(buf, n, 0xABAC, long) }},
		"RemoveBlock":      {true, func(buf []byte, n int) ([]byte, error) { return rtpwire.RemoveBlock(buf[:n]) }},
		"Compact":          {true, func(buf []byte, n int) ([]byte, error) { return rtpwire.Compact(buf[:n]) }},
		"RemovePadding":    {true, func(buf []byte, n int) ([]byte, error) { return rtpwire.RemovePadding(buf[:n]) }},
		"ToRetransmission": {true, func(buf []byte, n int) ([]byte, error) { return rtpwire.ToRetransmission(buf[:n], 8, 97, 1, none) }},
		"ToRetransmissionIn": {true, func(buf []byte, n int) ([]byte, error) {
			return rtpwire.ToRetransmissionIn(buf, n, 8, 97, 1, none)
		}},
		"FromRetransmission": {true, func(buf []byte, n int) ([]byte, error) { return rtpwire.FromRetransmission(buf[:n], 8, 97, none) }},
		"FromRetransmissionIn": {true, func(buf []byte, n int) ([]byte, error) {
			return rtpwire.FromRetransmissionIn(buf, n, 8, 97, none)
		}},
		"SetElement": {false, func(buf []byte, n int) ([]byte, error) { return buf, rtpwire.SetElement(buf[:n], 1, []byte{3}) }},
		"no call":    {false, func(buf []byte, n int) ([]byte, error) { return buf, nil }},
		"SetPadding": {true, func(buf []byte, n int) ([]byte, error) { return buf, rtpwire.SetPadding(buf[:n], false) }},
		"SetCSRCAt":  {true, func(buf []byte, n int) ([]byte, error) { return buf, rtpwire.SetCSRCAt(buf[:n], 0, 10) }},
		"no packet": {true, func(buf []byte, n int) ([]byte, error) {
			buf[0] = 0x71
			return buf, nil
		}},
	} {
		buf := make([]byte, len(padded)+room)
		n := copy(buf, padded)
		var packet rtpwire.Packet
		if err := packet.Parse(buf[:n], nil); err != nil || packet.HasChanged() {
			t.Fatal(err)
		}
		moved, err := it.call(buf, n)
		if err != nil || packet.HasChanged() != it.moves {
			t.Errorf("%s: % x, %v", name, moved, err)
		}
		if it.moves && name != "no packet" && (packet.Parse(moved, nil) != nil || packet.HasChanged()) {
			t.Errorf("%s: what was read anew has changed", name)
		}
	}
}

// Where a call made the packet anew in new memory the datagram that was read hasn't changed: only what the call returned
// tells what the packet became.
func TestHasChangedInNewMemory(t *testing.T) {
	datagram := sample()
	packet := parsed(t, datagram[:len(datagram):len(datagram)], nil)
	for name, call := range map[string]func(p []byte) ([]byte, error){
		"PutElement":       func(p []byte) ([]byte, error) { return rtpwire.PutElement(p, 3, make([]byte, 9), rtpwire.AnyForm) },
		"AddElement":       func(p []byte) ([]byte, error) { return rtpwire.AddElement(p, 3, make([]byte, 9), rtpwire.AnyForm) },
		"ChangeForm":       func(p []byte) ([]byte, error) { return rtpwire.ChangeForm(p, rtpwire.TwoByteForm) },
		"PutBlock":         func(p []byte) ([]byte, error) { return rtpwire.PutBlock(p, 0xABAC, make([]byte, 12)) },
		"ToRetransmission": func(p []byte) ([]byte, error) { return rtpwire.ToRetransmission(p, 8, 97, 1, new(rtpwire.NewIDs)) },
	} {
		made, err := call(packet.Datagram())
		isMoved := name != "ToRetransmission" // it has as much room as the padding took
		same(t, name, []any{err, &made[0] != &datagram[0], packet.HasChanged()}, []any{nil, isMoved, !isMoved})
		if isMoved {
			same(t, name, []any{datagram, parsed(t, made, nil).HasChanged()}, []any{sample(), false})
		}
		copy(datagram, sample())
	}
}

// A contributing source that is another one is told by each of its bytes, and no memory is taken.
func TestHasChangedBySources(t *testing.T) {
	datagram := append([]byte{0x8F, 96, 0, 5, 0, 0, 0, 160, 0, 0, 0, 7}, make([]byte, 60)...)
	datagram = append(datagram, 'h', 'i')
	packet := parsed(t, datagram, nil)
	for at := 12; at < 72; at++ {
		datagram[at] ^= 0x80
		changed := packet.HasChanged()
		datagram[at] ^= 0x80
		same(t, "changed", []bool{changed, packet.HasChanged()}, []bool{true, false})
	}
	datagram[72]++
	same(t, "the payload", packet.HasChanged(), false)
	same(t, "how often", testing.AllocsPerRun(10, func() { packet.HasChanged() }), 0.0)
}
