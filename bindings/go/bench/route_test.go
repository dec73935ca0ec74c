package bench

import (
	"strconv"
	"testing"

	"github.com/pion/rtp"
	"rtp-wire.example/rtpwire"
)

// A packet of four elements is sent to each of several receivers, with an SSRC, a number, a timestamp, a mid and a
// transport number of its own, and the elements under the ids of the receivers: 1, 2 and 3 become 2, 3 and 4, and the mid,
// 4, becomes 1.

// eachGroup has the headers of so many receivers made. A time is that of a packet to all of them.
func eachGroup(b *testing.B, route func(b *testing.B, receivers int)) {
	for _, receivers := range []int{1, 3, 32} {
		b.Run(strconv.Itoa(receivers), func(b *testing.B) {
			b.ReportAllocs()
			route(b, receivers)
		})
	}
}

// eachRoute has a packet sent to each of so many receivers by what route makes of their group.
func eachRoute(b *testing.B, made func(group *rtpwire.Group) route) {
	eachGroup(b, func(b *testing.B, receivers int) {
		ids := new(rtpwire.NewIDs)
		for id := uint8(1); id <= 4; id++ {
			ids.Set(id, id%4+1)
		}
		group := rtpwire.Group{IDs: ids, Elements: []rtpwire.Place{{ID: 1, At: 0, Len: 1}, {ID: 4, At: 1, Len: 2}}}
		write := made(&group)
		buf, data := make([]byte, 64*receivers), make([]byte, 3*receivers)
		var batch rtpwire.RouteBatch
		for r := 0; r < receivers; r++ {
			batch.Add(3 * r)
		}
		for i := 0; i < b.N; i++ {
			for r := 0; r < receivers; r++ {
				fields := batch.Fields(r)
				fields.SetSequenceNumber(uint16(47000 + 1000*r))
				fields.SetTimestamp(uint32(10000 + 77*r))
				fields.SetSSRC(uint32(0x1000 + r))
				own := data[3*r : 3*r+3]
				own[0], own[1], own[2] = byte('x'+r), byte(i>>8), byte(i)
			}
			if err := write(&batch, data, buf); err != nil {
				b.Fatal(err)
			}
			for r := 0; r < batch.Len(); r++ {
				header, err := batch.At(r)
				if err != nil {
					b.Fatal(err)
				}
				sink += len(header) + int(header[3]) + int(header[17])
			}
		}
	})
}

// A route writes the headers of a packet for the receivers of a group.
type route func(batch *rtpwire.RouteBatch, data, buf []byte) error

func BenchmarkRouteRtpwire(b *testing.B) {
	eachRoute(b, func(group *rtpwire.Group) route {
		return func(batch *rtpwire.RouteBatch, data, buf []byte) error { return batch.Route(four, group, data, buf) }
	})
}

func BenchmarkRoutePreparedRtpwire(b *testing.B) {
	eachRoute(b, func(group *rtpwire.Group) route {
		prepared, err := group.Prepare()
		if err != nil {
			b.Fatal(err)
		}
		return func(batch *rtpwire.RouteBatch, data, buf []byte) error {
			return batch.RoutePrepared(four, prepared, data, buf)
		}
	})
}

// routedByPion is the header for each receiver: the extensions are put anew under their ids.
func routedByPion(b *testing.B, receivers int, extensions func(own []rtp.Extension) []rtp.Extension) {
	const stride = 64
	buf := make([]byte, stride*receivers)
	mids, numbers := make([][1]byte, receivers), make([][2]byte, receivers)
	var packet rtp.Packet
	var own []rtp.Extension
	for i := 0; i < b.N; i++ {
		if err := packet.Unmarshal(four); err != nil {
			b.Fatal(err)
		}
		for r := 0; r < receivers; r++ {
			header := packet.Header
			header.Extensions = extensions(own)
			header.SequenceNumber += uint16(1000 * r)
			header.Timestamp += uint32(77 * r)
			header.SSRC = uint32(0x1000 + r)
			mids[r] = [1]byte{byte('x' + r)}
			numbers[r] = [2]byte{byte(i >> 8), byte(i)}
			for id := uint8(1); id <= 4; id++ {
				data := packet.GetExtension(id)
				switch {
				case data == nil:
					continue
				case id == 3:
					data = numbers[r][:]
				case id == 4:
					data = mids[r][:]
				}
				if err := header.SetExtension(id%4+1, data); err != nil {
					b.Fatal(err)
				}
			}
			n, err := header.MarshalTo(buf[stride*r : stride*r+stride])
			if err != nil {
				b.Fatal(err)
			}
			own = header.Extensions
			sink += n + int(buf[stride*r+3]) + int(buf[stride*r+17])
		}
	}
}

// BenchmarkRoutePion takes memory for the extensions of each header.
func BenchmarkRoutePion(b *testing.B) {
	eachGroup(b, func(b *testing.B, receivers int) {
		routedByPion(b, receivers, func([]rtp.Extension) []rtp.Extension { return nil })
	})
}

// BenchmarkRouteReusedPion uses that of the header before.
func BenchmarkRouteReusedPion(b *testing.B) {
	eachGroup(b, func(b *testing.B, receivers int) {
		routedByPion(b, receivers, func(own []rtp.Extension) []rtp.Extension { return own[:0] })
	})
}
