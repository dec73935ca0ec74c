// Package bench compares rtpwire with github.com/pion/rtp: nanoseconds for each whole packet.
//
//	go test -bench . -benchmem
//
// It takes pion's package from Debian's golang-github-pion-rtp-dev, and is a module of its own so that rtpwire
// depends on nothing.
package bench

import (
	"testing"

	"github.com/pion/rtp"
	"rtp-wire.example/rtpwire"
)

// plain is V=2, PT=96, 47,000, a timestamp and an SSRC, and a payload of 100 bytes.
var plain = append([]byte{0x80, 96, 0xB7, 0x98, 0, 0, 0x27, 0x10, 0, 0, 0, 0x2C}, make([]byte, 100)...)

// four is the same with the elements 1 (audio level, a byte), 2 (send time, three bytes), 3 (transport number, two
// bytes) and 4 (mid, one character), in the one-byte form.
var four = append([]byte{
	0x90, 96, 0xB7, 0x98, 0, 0, 0x27, 0x10, 0, 0, 0, 0x2C, 0xBE, 0xDE, 0, 3,
	0x10, 0x8A, 0x22, 0x04, 0x00, 0x00, 0x31, 0x12, 0x34, 0x40, '0', 0,
}, make([]byte, 100)...)

var m = func() *rtpwire.Map {
	m := new(rtpwire.Map)
	for id, kind := range []rtpwire.Kind{
		rtpwire.KindAudioLevel, rtpwire.KindAbsSendTime, rtpwire.KindTransportNumber, rtpwire.KindMID,
	} {
		if err := m.Set(uint8(id+1), kind); err != nil {
			panic(err)
		}
	}
	return m
}()

var sink int

// BenchmarkCall is a call of the library that does nothing.
func BenchmarkCall(b *testing.B) {
	for i := 0; i < b.N; i++ {
		sink += int(rtpwire.LibraryVersion())
	}
}

func BenchmarkReadPlainRtpwire(b *testing.B) {
	b.ReportAllocs()
	var packet rtpwire.Packet
	for i := 0; i < b.N; i++ {
		if err := packet.Parse(plain, m); err != nil {
			b.Fatal(err)
		}
		sink += len(packet.Payload())
	}
}

func BenchmarkReadPlainPion(b *testing.B) {
	b.ReportAllocs()
	var packet rtp.Packet
	for i := 0; i < b.N; i++ {
		if err := packet.Unmarshal(plain); err != nil {
			b.Fatal(err)
		}
		sink += len(packet.Payload)
	}
}

func BenchmarkReadFourRtpwire(b *testing.B) {
	b.ReportAllocs()
	var packet rtpwire.Packet
	for i := 0; i < b.N; i++ {
		if err := packet.Parse(four, m); err != nil {
			b.Fatal(err)
		}
		level, _, _ := packet.Values().AudioLevel()
		sent, _ := packet.Values().SendTime()
		number, _ := packet.Values().TransportNumber()
		mid, _ := packet.Values().MID()
		sink += int(level) + int(sent) + int(number) + len(mid) + len(packet.Payload())
	}
}

// readFour reads the four values, as pion does: each from its own bytes.
func readFour(b *testing.B, packet *rtp.Packet) int {
	var level rtp.AudioLevelExtension
	var sent rtp.AbsSendTimeExtension
	var number rtp.TransportCCExtension
	if err := level.Unmarshal(packet.GetExtension(1)); err != nil {
		b.Fatal(err)
	}
	if err := sent.Unmarshal(packet.GetExtension(2)); err != nil {
		b.Fatal(err)
	}
	if err := number.Unmarshal(packet.GetExtension(3)); err != nil {
		b.Fatal(err)
	}
	mid := string(packet.GetExtension(4))
	return int(level.Level) + int(sent.Timestamp) + int(number.TransportSequence) + len(mid)
}

func BenchmarkReadFourPion(b *testing.B) {
	b.ReportAllocs()
	var packet rtp.Packet
	for i := 0; i < b.N; i++ {
		if err := packet.Unmarshal(four); err != nil {
			b.Fatal(err)
		}
		sink += readFour(b, &packet) + len(packet.Payload)
	}
}
