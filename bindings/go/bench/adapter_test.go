package bench

import (
	"testing"

	pion "github.com/pion/rtp"
	ours "rtp-wire.example/rtpwire/rtp"
)

// A header by the subpackage rtp, beside pion's own: read, and written.
var plainPacket = append([]byte{0x80, 96, 0xB7, 0x98, 0, 0, 0x27, 0x10, 0, 0, 0, 0x2C}, make([]byte, 100)...)
var fourElements = append([]byte{
	0x90, 96, 0xB7, 0x98, 0, 0, 0x27, 0x10, 0, 0, 0, 0x2C, 0xBE, 0xDE, 0, 3,
	0x10, 0x8A, 0x22, 0x04, 0x00, 0x00, 0x31, 0x12, 0x34, 0x40, '0', 0,
}, make([]byte, 100)...)

func BenchmarkAdapterPlain(b *testing.B) {
	var packet ours.Packet
	for i := 0; i < b.N; i++ {
		if err := packet.Unmarshal(plainPacket); err != nil {
			b.Fatal(err)
		}
	}
}

func BenchmarkAdapterPlainPion(b *testing.B) {
	var packet pion.Packet
	for i := 0; i < b.N; i++ {
		if err := packet.Unmarshal(plainPacket); err != nil {
			b.Fatal(err)
		}
	}
}

func BenchmarkAdapterFour(b *testing.B) {
	var packet ours.Packet
	for i := 0; i < b.N; i++ {
		if err := packet.Unmarshal(fourElements); err != nil {
			b.Fatal(err)
		}
	}
}

func BenchmarkAdapterFourPion(b *testing.B) {
	var packet pion.Packet
	for i := 0; i < b.N; i++ {
		if err := packet.Unmarshal(fourElements); err != nil {
			b.Fatal(err)
		}
	}
}

func BenchmarkAdapterWritesPlain(b *testing.B) {
	var packet ours.Packet
	buf := make([]byte, 200)
	_ = packet.Unmarshal(plainPacket)
	for i := 0; i < b.N; i++ {
		if _, err := packet.Header.MarshalTo(buf); err != nil {
			b.Fatal(err)
		}
	}
}

func BenchmarkAdapterWritesPlainPion(b *testing.B) {
	var packet pion.Packet
	buf := make([]byte, 200)
	_ = packet.Unmarshal(plainPacket)
	for i := 0; i < b.N; i++ {
		if _, err := packet.Header.MarshalTo(buf); err != nil {
			b.Fatal(err)
		}
	}
}

func BenchmarkAdapterWritesFour(b *testing.B) {
	var packet ours.Packet
	buf := make([]byte, 200)
	_ = packet.Unmarshal(fourElements)
	for i := 0; i < b.N; i++ {
		if _, err := packet.Header.MarshalTo(buf); err != nil {
			b.Fatal(err)
		}
	}
}

func BenchmarkAdapterWritesFourPion(b *testing.B) {
	var packet pion.Packet
	buf := make([]byte, 200)
	_ = packet.Unmarshal(fourElements)
	for i := 0; i < b.N; i++ {
		if _, err := packet.Header.MarshalTo(buf); err != nil {
			b.Fatal(err)
		}
	}
}
