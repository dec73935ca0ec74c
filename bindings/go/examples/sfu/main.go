// Sfu is an SFU on 127.0.0.1: the packets of a sender go on to each of several receivers, under SSRCs, numbers, ids of
// extensions and mids of their own. No packet is written anew: one call of the library makes the headers for all
// receivers, and the payload stays where it lies.
//
// usage: sfu PORT..
//
// udp.Serve says what is read and printed; at the end comes a line that says what became of the datagrams.
package main

import (
	"fmt"
	"os"
	"time"

	"rtp-wire.example/rtpwire"
	"rtp-wire.example/rtpwire/examples/sfu/udp"
)

const (
	streams = 16 // so many SSRCs of the sender, at most
	own     = 8  // what each receiver has in each packet: a mid of three characters, a transport number, a send time
)

// The ids of the receivers.
const (
	midID, transportNumberID, sendTimeID, audioLevelID = 2, 5, 7, 9
)

// A stream is what is known of an SSRC of the sender.
type stream struct {
	index    int
	receiver rtpwire.RestartingReceiver // as no packet is authenticated
}

// An sfu is the core of the SFU, without sockets and clock.
type sfu struct {
	receivers int
	streams   map[uint32]*stream
	packet    rtpwire.PacketFields
	group     rtpwire.Group // of all receivers
	batch     rtpwire.RouteBatch
	data      []byte // own bytes for each receiver
	headers   []byte
	transport uint16 // the next packet's transport number to the first receiver
	counts    udp.Counts
}

// newSFU is an SFU with so many receivers, which have agreed to the same ids.
func newSFU(receivers int) *sfu {
	s := &sfu{
		receivers: receivers,
		streams:   make(map[uint32]*stream),
		data:      make([]byte, own*receivers),
		headers:   make([]byte, udp.Room*receivers),
	}
	s.group.IDs = new(rtpwire.NewIDs)
	s.group.Elements = []rtpwire.Place{
		{ID: midID, At: 0, Len: 3}, {ID: transportNumberID, At: 3, Len: 2}, {ID: sendTimeID, At: 5, Len: 3},
	}
	for i := 0; i < receivers; i++ {
		s.batch.Add(own * i)
	}
	return s
}

// Map maps an id of the sender.
func (s *sfu) Map(id uint8, uri string) error {
	if rtpwire.KindOfURI(uri) == rtpwire.KindAudioLevel {
		s.group.IDs.Set(id, audioLevelID)
	}
	return nil
}

// Take takes the datagram in buf[udp.Room:].
func (s *sfu) Take(buf []byte, now time.Duration, send udp.Send) {
	datagram := buf[udp.Room:]
	if rtpwire.IsRTCP(datagram) {
		s.counts.RTCP++
		return
	}
	if err := s.packet.Parse(datagram); err != nil {
		s.counts.Unreadable++
		return
	}
	from := s.stream()
	if from == nil {
		s.counts.Strangers++
		return
	}
	switch _, verdict := from.receiver.Receive(s.packet.SequenceNumber); {
	case verdict != rtpwire.Refused:
		s.counts.Taken++
		s.forward(buf, from, now, send)
	case from.receiver.StandingOf(from.receiver.NumberOf(s.packet.SequenceNumber)) == rtpwire.StandingTaken:
		s.counts.Replays++
	default:
		s.counts.Late++
	}
}

// stream is that of the packet, nil where it is of one more than there is room for.
func (s *sfu) stream() *stream {
	from := s.streams[s.packet.SSRC]
	if from == nil && len(s.streams) < streams {
		from = &stream{index: len(s.streams)}
		s.streams[s.packet.SSRC] = from
	}
	return from
}

// forward sends the packet to all receivers: the header of each is copied before the payload in its turn, if there is
// room for it in udp.Room bytes.
func (s *sfu) forward(buf []byte, from *stream, now time.Duration, send udp.Send) {
	s.describe(from, now)
	datagram, group := buf[udp.Room:], &s.group
	if form, _ := s.packet.Block(datagram); form == rtpwire.OtherForm { // it stays as it is
		group = new(rtpwire.Group)
	}
	if err := s.batch.Route(datagram, group, s.data, s.headers); err != nil {
		s.counts.Unsent += uint64(s.receivers)
		return
	}
	payloadAt := udp.Room + s.packet.HeaderLen()
	for i := 0; i < s.receivers; i++ {
		if header, err := s.batch.At(i); err == nil && len(header) <= udp.Room {
			at := payloadAt - copy(buf[payloadAt-len(header):], header)
			if send(i, buf[at:]) == nil {
				s.counts.Sent++
				continue
			}
		}
		s.counts.Unsent++
	}
}

// describe sets what each receiver gets of its own: its SSRC of the stream, the number, its mid of the stream, and the
// transport number and the time at which it is sent.
func (s *sfu) describe(from *stream, now time.Duration) {
	sent := rtpwire.SendTimeOf(time.Unix(0, 0).Add(now))
	for i := 0; i < s.receivers; i++ {
		fields := s.batch.Fields(i)
		fields.SetSSRC(uint32(1000*(i+1) + from.index))
		fields.SetSequenceNumber(s.packet.SequenceNumber + uint16(1000*i))
		number := s.transport + uint16(i)
		copy(s.data[own*i:own*i+own], []byte{
			byte('0' + i/10%10), byte('0' + i%10), "0123456789ABCDEF"[from.index],
			byte(number >> 8), byte(number), byte(sent >> 16), byte(sent >> 8), byte(sent),
		})
	}
	s.transport++
}

func main() {
	s := newSFU(len(os.Args) - 1)
	back, err := udp.Serve(os.Stdin, os.Stdout, os.Args[1:], s)
	if err != nil {
		fmt.Fprintln(os.Stderr, err)
		os.Exit(1)
	}
	fmt.Println(s.counts, "back", back)
}
