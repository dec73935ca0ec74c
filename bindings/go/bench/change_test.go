package bench

import (
	"testing"

	"github.com/pion/rtp"
	"rtp-wire.example/rtpwire"
)

func BenchmarkReadFieldsRtpwire(b *testing.B) {
	b.ReportAllocs()
	var fields rtpwire.PacketFields
	for i := 0; i < b.N; i++ {
		if err := fields.Parse(plain); err != nil {
			b.Fatal(err)
		}
		sink += int(fields.SSRC) + len(fields.Payload(plain))
	}
}

// An element of three bytes is put into the header of a packet that is sent on, behind the four that it has.

func BenchmarkPutRtpwire(b *testing.B) {
	b.ReportAllocs()
	buf := make([]byte, 1500)
	data := []byte{1, 2, 3}
	for i := 0; i < b.N; i++ {
		data[0] = byte(i)
		packet, err := rtpwire.PutElementIn(buf, copy(buf, four[:28]), 5, data, rtpwire.AnyForm)
		if err != nil {
			b.Fatal(err)
		}
		sink += len(packet)
	}
}

func BenchmarkPutPion(b *testing.B) {
	b.ReportAllocs()
	buf := make([]byte, 1500)
	data := []byte{1, 2, 3}
	var packet rtp.Packet
	for i := 0; i < b.N; i++ {
		if err := packet.Unmarshal(four); err != nil {
			b.Fatal(err)
		}
		data[0] = byte(i)
		if err := packet.SetExtension(5, data); err != nil {
			b.Fatal(err)
		}
		n, err := packet.Header.MarshalTo(buf)
		if err != nil {
			b.Fatal(err)
		}
		sink += n
	}
}

func BenchmarkSetSSRCRtpwire(b *testing.B) {
	b.ReportAllocs()
	datagram := append([]byte(nil), four...)
	var fields rtpwire.Fields
	for i := 0; i < b.N; i++ {
		fields.SetSSRC(uint32(i))
		if err := fields.Apply(datagram); err != nil {
			b.Fatal(err)
		}
	}
	sink += int(datagram[11])
}

func BenchmarkSetSSRCPion(b *testing.B) {
	b.ReportAllocs()
	datagram := append([]byte(nil), four...)
	var packet rtp.Packet
	for i := 0; i < b.N; i++ {
		if err := packet.Unmarshal(datagram); err != nil {
			b.Fatal(err)
		}
		packet.SSRC = uint32(i)
		if _, err := packet.Header.MarshalTo(datagram); err != nil {
			b.Fatal(err)
		}
	}
	sink += int(datagram[11])
}
