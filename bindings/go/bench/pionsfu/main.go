// Pionsfu is the SFU of examples/sfu written with pion's packages: with the same arguments, input and output it sends
// and counts the same, but that it doesn't tell a sender that starts again under its SSRC.
package main

import (
	"fmt"
	"math"
	"os"
	"time"

	"github.com/pion/rtp"
	"github.com/pion/transport/v2/replaydetector"
	"rtp-wire.example/rtpwire/examples/sfu/udp"
)

const (
	streams = 16   // so many SSRCs of the sender, at most
	window  = 1024 // numbers of a stream in which a replay is told
)

// The ids of the receivers.
const (
	midID, transportNumberID, sendTimeID, audioLevelID = 2, 5, 7, 9
)

const audioLevelURI = "urn:ietf:params:rtp-hdrext:ssrc-audio-level"

// A stream is what is known of an SSRC of the sender.
type stream struct {
	index    int
	detector replaydetector.ReplayDetector
	highest  uint16 // of the numbers that were taken
}

// An sfu is the core of the SFU, without sockets and clock.
type sfu struct {
	receivers    int
	audioLevelID uint8 // the sender's
	streams      map[uint32]*stream
	header       rtp.Header
	extensions   []rtp.Extension // of a receiver's header
	own          [8]byte         // its mid, transport number and send time
	packet       [udp.Room + 65536]byte
	transport    uint16 // the next packet's transport number to the first receiver
	counts       udp.Counts
}

// newSFU is an SFU with so many receivers, which have agreed to the same ids.
func newSFU(receivers int) *sfu {
	return &sfu{receivers: receivers, streams: make(map[uint32]*stream)}
}

// Map maps an id of the sender.
func (s *sfu) Map(id uint8, uri string) error {
	if uri == audioLevelURI {
		s.audioLevelID = id
	}
	return nil
}

// Take takes the datagram in buf[udp.Room:].
func (s *sfu) Take(buf []byte, now time.Duration, send udp.Send) {
	datagram := buf[udp.Room:]
	if len(datagram) >= 2 && datagram[1] >= 192 && datagram[1] <= 223 { // RFC 5761, 4
		s.counts.RTCP++
		return
	}
	headerLen, err := s.header.Unmarshal(datagram)
	if err != nil || s.header.Version != 2 {
		s.counts.Unreadable++
		return
	}
	from := s.stream()
	if from == nil {
		s.counts.Strangers++
		return
	}
	number := s.header.SequenceNumber
	accept, ok := from.detector.Check(uint64(number))
	behind := int16(from.highest - number)
	switch {
	case ok:
		accept()
		if behind < 0 {
			from.highest = number
		}
		s.counts.Taken++
		s.forward(datagram[headerLen:], from, now, send)
	case behind < window:
		s.counts.Replays++
	default:
		s.counts.Late++
	}
}

// stream is that of the packet, nil where it is of one more than there is room for.
func (s *sfu) stream() *stream {
	from := s.streams[s.header.SSRC]
	if from == nil && len(s.streams) < streams {
		detector := replaydetector.WithWrap(window, math.MaxUint16)
		from = &stream{index: len(s.streams), detector: detector, highest: s.header.SequenceNumber}
		s.streams[s.header.SSRC] = from
	}
	return from
}

// forward sends the packet to all receivers, where its header isn't longer than udp.Room.
func (s *sfu) forward(payload []byte, from *stream, now time.Duration, send udp.Send) {
	sent := rtp.NewAbsSendTimeExtension(time.Unix(0, 0).Add(now)).Timestamp
	for i := 0; i < s.receivers; i++ {
		if n, err := s.write(from, i, sent); err == nil {
			n += copy(s.packet[n:], payload)
			if send(i, s.packet[:n]) == nil {
				s.counts.Sent++
				continue
			}
		}
		s.counts.Unsent++
	}
	s.transport++
}

// write writes the header of a receiver, with its SSRC of the stream, the number, its mid of the stream, the transport
// number and the time at which it is sent, and returns how many bytes it has.
func (s *sfu) write(from *stream, i int, sent uint64) (int, error) {
	header := s.header
	header.SSRC = uint32(1000*(i+1) + from.index)
	header.SequenceNumber += uint16(1000 * i)
	if header.Extension && header.ExtensionProfile != 0xBEDE && header.ExtensionProfile != 0x1000 { // it stays as it is
		return header.MarshalTo(s.packet[:udp.Room])
	}
	number := s.transport + uint16(i)
	s.own = [...]byte{
		byte('0' + i/10%10), byte('0' + i%10), "0123456789ABCDEF"[from.index],
		byte(number >> 8), byte(number), byte(sent >> 16), byte(sent >> 8), byte(sent),
	}
	header.Extensions = s.extensions[:0]
	if level := s.header.GetExtension(s.audioLevelID); level != nil {
		if err := header.SetExtension(audioLevelID, level); err != nil {
			return 0, err
		}
	}
	if err := header.SetExtension(midID, s.own[:3]); err != nil {
		return 0, err
	}
	if err := header.SetExtension(transportNumberID, s.own[3:5]); err != nil {
		return 0, err
	}
	if err := header.SetExtension(sendTimeID, s.own[5:]); err != nil {
		return 0, err
	}
	s.extensions = header.Extensions
	return header.MarshalTo(s.packet[:udp.Room])
}

func main() {
	s := newSFU(len(os.Args) - 1)
	back, err := udp.Serve(os.Stdin, os.Stdout, os.Args[1:], s)
	if err != nil {
		fmt.Fprintln(os.Stderr, err)
		os.Exit(1)
	}
	fmt.Println(s.counts, "back", back)
}
