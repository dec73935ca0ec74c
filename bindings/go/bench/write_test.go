package bench

import (
	"testing"

	"github.com/pion/rtp"
	"rtp-wire.example/rtpwire"
)

func BenchmarkReceiveFourRtpwire(b *testing.B) {
	b.ReportAllocs()
	datagram := append([]byte(nil), four...)
	var packet rtpwire.Packet
	receiver, err := rtpwire.NewReceiver(1)
	if err != nil {
		b.Fatal(err)
	}
	for i := 0; i < b.N; i++ {
		datagram[2], datagram[3] = byte(i>>8), byte(i)
		if _, err := receiver.ReceivePacket(datagram, m, &packet); err != nil {
			b.Fatal(err)
		}
		sink += len(packet.Payload())
	}
}

func BenchmarkWritePlainRtpwire(b *testing.B) {
	b.ReportAllocs()
	buf, payload := make([]byte, 1500), four[28:]
	header := rtpwire.Header{PayloadType: 96, SSRC: 44}
	for i := 0; i < b.N; i++ {
		header.SequenceNumber = uint16(i)
		n, err := header.WriteInto(buf, m)
		if err != nil {
			b.Fatal(err)
		}
		sink += n + copy(buf[n:], payload)
	}
}

func BenchmarkWritePlainPion(b *testing.B) {
	b.ReportAllocs()
	buf := make([]byte, 1500)
	packet := rtp.Packet{Header: rtp.Header{Version: 2, PayloadType: 96, SSRC: 44}, Payload: four[28:]}
	for i := 0; i < b.N; i++ {
		packet.SequenceNumber = uint16(i)
		n, err := packet.MarshalTo(buf)
		if err != nil {
			b.Fatal(err)
		}
		sink += n
	}
}

func BenchmarkWriteFourRtpwire(b *testing.B) {
	b.ReportAllocs()
	buf, payload := make([]byte, 1500), four[28:]
	header := rtpwire.Header{PayloadType: 96, SSRC: 44, HasExtension: true}
	if err := header.Values.SetMID("0"); err != nil {
		b.Fatal(err)
	}
	for i := 0; i < b.N; i++ {
		header.SequenceNumber = uint16(i)
		header.Values.SetAudioLevel(-10, true)
		header.Values.SetSendTime(uint64(i))
		header.Values.SetTransportNumber(uint16(i))
		n, err := header.WriteInto(buf, m)
		if err != nil {
			b.Fatal(err)
		}
		sink += n + copy(buf[n:], payload)
	}
}

func BenchmarkWriteFourPion(b *testing.B) {
	b.ReportAllocs()
	buf := make([]byte, 1500)
	packet := rtp.Packet{Header: rtp.Header{Version: 2, PayloadType: 96, SSRC: 44}, Payload: four[28:]}
	set := func(id uint8, data []byte, err error) {
		if err == nil {
			err = packet.SetExtension(id, data)
		}
		if err != nil {
			b.Fatal(err)
		}
	}
	set(4, []byte("0"), nil)
	for i := 0; i < b.N; i++ {
		packet.SequenceNumber = uint16(i)
		level, err := rtp.AudioLevelExtension{Level: 10, Voice: true}.Marshal()
		set(1, level, err)
		sent, err := rtp.AbsSendTimeExtension{Timestamp: uint64(i) & 0xFFFFFF}.Marshal()
		set(2, sent, err)
		number, err := rtp.TransportCCExtension{TransportSequence: uint16(i)}.Marshal()
		set(3, number, err)
		n, err := packet.MarshalTo(buf)
		if err != nil {
			b.Fatal(err)
		}
		sink += n
	}
}
