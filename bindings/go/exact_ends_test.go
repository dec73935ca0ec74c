package rtpwire_test

import (
	"bytes"
	"testing"

	"rtp-wire.example/rtpwire"
)

func TestNothingPastTheEndIsTouched(t *testing.T) {
	m := everyKind(t)
	for _, datagram := range [][]byte{sample(), everyValue} {
		for length := 0; length <= len(datagram); length++ {
			cut := atEnd(t, datagram[:length])
			var packet rtpwire.Packet
			var receiver rtpwire.Receiver
			var layers rtpwire.Layers
			var fields rtpwire.Fields
			fields.SetSSRC(7)
			rtpwire.IsRTCP(cut)
			rtpwire.PeekSSRC(cut)
			calls := map[string]error{
				"Parse":    packet.Parse(cut, m),
				"layers":   layers.Parse(cut, m),
				"fields":   fields.Apply(cut),
				"renumber": rtpwire.Renumber(cut, rtpwire.NewIDsBetween(m, m)),
			}
			_, calls["ReceivePacket"] = receiver.ReceivePacket(cut, m, &packet)
			for what, err := range calls {
				if (err == nil) != (calls["Parse"] == nil) {
					t.Fatalf("%s of %d bytes: %v", what, length, err)
				}
			}
			if calls["Parse"] != nil {
				continue
			}
			places := packet.AppendPlaces(nil)
			buf := atEnd(t, make([]byte, packet.HeaderLen()))
			_, body := packet.Block()
			if n, err := packet.Header().WriteWith(buf, body, places); err != nil || n > len(buf) {
				t.Fatal(n, err)
			}
			buf = atEnd(t, make([]byte, 20))
			n, err := packet.Header().WriteInto(buf, m)
			if err != rtpwire.ErrShortBuffer || n != 0 {
				t.Fatal(n, err)
			}
			n, err = packet.Header().WriteLayers(buf, m, &layers)
			if err != rtpwire.ErrShortBuffer || n != 0 {
				t.Fatal(n, err)
			}
			packet.UnpaddedPayload()
		}
	}
}

// The places of a block of 68,000 bytes, 4,000 elements of 16 bytes each: in a slice that has to grow, from nothing on,
// and where its room ended behind the byte 65,536.
func TestPlacesOfALongBlock(t *testing.T) {
	const count = 4000
	datagram := []byte{0x90, 96, 0, 5, 0, 0, 0, 1, 0, 0, 0, 2, 0xBE, 0xDE, byte(17 * count / 4 >> 8), byte(17 * count / 4 & 255)}
	for i := 0; i < count; i++ {
		datagram = append(datagram, byte(1+i%14)<<4|15)
		datagram = append(datagram, bytes.Repeat([]byte{byte(i)}, 16)...)
	}
	packet := parsed(t, append(datagram, 'p'), nil)
	for _, places := range [][]rtpwire.Place{packet.AppendPlaces(nil), packet.AppendPlaces(make([]rtpwire.Place, 0, 3900))} {
		same(t, "how many", len(places), count)
		for i, place := range places {
			if place.ID != byte(1+i%14) || place.At != 17*i+1 || place.Len != 16 || packet.Data(place)[15] != byte(i) {
				t.Fatalf("element %d: %+v", i, place)
			}
		}
	}
}
