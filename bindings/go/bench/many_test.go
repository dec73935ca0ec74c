package bench

import (
	"strconv"
	"testing"

	"github.com/pion/rtp"
	"rtp-wire.example/rtpwire"
)

// atOnce is how many datagrams lie in one buffer, each in so many bytes of it: a time is that of one of them.
const atOnce, slot = 32, 2048

// eachCount has so many of the datagrams read in a call.
func eachCount(b *testing.B, read func(b *testing.B, count int)) {
	for _, count := range []int{1, 8, atOnce} {
		b.Run(strconv.Itoa(count), func(b *testing.B) {
			b.ReportAllocs()
			read(b, count)
		})
	}
}

// filled is a buffer with the datagram in each of its slots.
func filled(datagram []byte) []byte {
	buf := make([]byte, atOnce*slot)
	for i := 0; i < atOnce; i++ {
		copy(buf[i*slot:], datagram)
	}
	return buf
}

func BenchmarkManyPlainRtpwire(b *testing.B) {
	eachCount(b, func(b *testing.B, count int) {
		buf := filled(plain)
		var batch rtpwire.PacketBatch
		for done := 0; done < b.N; done += count {
			batch.Reset()
			for i := 0; i < count; i++ {
				batch.Add(i*slot, len(plain))
			}
			batch.Parse(buf)
			for i := 0; i < batch.Len(); i++ {
				fields, err := batch.At(i)
				if err != nil {
					b.Fatal(err)
				}
				sink += int(fields.SSRC) + len(batch.Payload(i))
			}
		}
	})
}

func BenchmarkManyPlainPion(b *testing.B) {
	b.ReportAllocs()
	buf := filled(plain)
	var packet rtp.Packet
	for done := 0; done < b.N; done += atOnce {
		for i := 0; i < atOnce; i++ {
			if err := packet.Unmarshal(buf[i*slot : i*slot+len(plain)]); err != nil {
				b.Fatal(err)
			}
			sink += int(packet.SSRC) + len(packet.Payload)
		}
	}
}

func BenchmarkManyFourRtpwire(b *testing.B) {
	eachCount(b, func(b *testing.B, count int) {
		buf := filled(four)
		var batch rtpwire.HeaderBatch
		for done := 0; done < b.N; done += count {
			batch.Reset()
			for i := 0; i < count; i++ {
				batch.Add(i*slot, len(four))
			}
			batch.Parse(buf, m)
			for i := 0; i < batch.Len(); i++ {
				header, err := batch.At(i)
				if err != nil {
					b.Fatal(err)
				}
				level, _, _ := header.Values.AudioLevel()
				sent, _ := header.Values.SendTime()
				number, _ := header.Values.TransportNumber()
				mid, _ := header.Values.MID()
				sink += int(header.SSRC) + int(level) + int(sent) + int(number) + len(mid) + len(batch.Payload(i))
			}
		}
	})
}

// BenchmarkManyFourPion finds the elements, and reads no value of them.
func BenchmarkManyFourPion(b *testing.B) {
	b.ReportAllocs()
	buf := filled(four)
	var packet rtp.Packet
	for done := 0; done < b.N; done += atOnce {
		for i := 0; i < atOnce; i++ {
			if err := packet.Unmarshal(buf[i*slot : i*slot+len(four)]); err != nil {
				b.Fatal(err)
			}
			sink += int(packet.SSRC) + len(packet.Payload)
		}
	}
}

func BenchmarkManyFourValuesPion(b *testing.B) {
	b.ReportAllocs()
	buf := filled(four)
	var packet rtp.Packet
	for done := 0; done < b.N; done += atOnce {
		for i := 0; i < atOnce; i++ {
			if err := packet.Unmarshal(buf[i*slot : i*slot+len(four)]); err != nil {
				b.Fatal(err)
			}
			sink += int(packet.SSRC) + readFour(b, &packet) + len(packet.Payload)
		}
	}
}

func BenchmarkManyReceivedRtpwire(b *testing.B) {
	eachCount(b, func(b *testing.B, count int) {
		receivers := make([]rtpwire.Receiver, 4)
		var batch rtpwire.ArrivalBatch
		for done := 0; done < b.N; done += count {
			batch.Reset()
			for i := 0; i < count; i++ {
				batch.Add(i%4, uint16(done+i))
			}
			batch.Receive(receivers)
			for i := 0; i < batch.Len(); i++ {
				number, err := batch.At(i)
				if err != nil {
					b.Fatal(err)
				}
				sink += int(number)
			}
		}
	})
}
