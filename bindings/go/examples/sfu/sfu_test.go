package main

import (
	"bufio"
	"bytes"
	"encoding/hex"
	"fmt"
	"io"
	"net"
	"reflect"
	"strings"
	"testing"
	"time"

	"rtp-wire.example/rtpwire/examples/sfu/udp"
)

const levelURI = "urn:ietf:params:rtp-hdrext:ssrc-audio-level"

// sent is what a datagram, in hexadecimal, that comes after so much time, becomes for each receiver.
func sent(t *testing.T, s *sfu, datagram string, now time.Duration) (packets []string) {
	t.Helper()
	bytes, err := hex.DecodeString(strings.ReplaceAll(datagram, " ", ""))
	if err != nil {
		t.Fatal(err)
	}
	s.Take(append(make([]byte, udp.Room), bytes...), now, func(receiver int, packet []byte) error {
		if receiver != len(packets) {
			t.Errorf("%s: receiver %d after %d", datagram, receiver, len(packets))
		}
		packets = append(packets, strings.ToUpper(hex.EncodeToString(packet)))
		return nil
	})
	return packets
}

// The expected bytes are worked out by hand from RFC 3550, 5.1, and RFC 8285, 4.2 and 4.3.
func TestPacketsOfEachReceiver(t *testing.T) {
	s := newSFU(2)
	if err := s.Map(1, levelURI); err != nil {
		t.Fatal(err)
	}
	rows := []struct {
		datagram string
		now      time.Duration
		wanted   []string
	}{
		// The level 1 becomes 9; a mid, 2, a transport number, 5, and half a second, 131,072 units, 7, are put.
		{"906F 0005 00000064 0000002C BEDE0001 108A0000 7071", time.Second / 2, []string{
			"906F0005" + "00000064" + "000003E8" + "BEDE0004" + "908A" + "22303030" + "510000" + "72020000" + "0000" + "00" + "7071",
			"906F03ED" + "00000064" + "000007D0" + "BEDE0004" + "908A" + "22303130" + "510001" + "72020000" + "0000" + "00" + "7071",
		}},
		{"906F 0005 00000064 0000002C BEDE0001 108A0000 7071", time.Second / 2, nil},
		// Another stream, without a block.
		{"80E0 FFFF 00000065 0000002D 72", 64*time.Second + 1*time.Second, []string{
			"90E0FFFF" + "00000065" + "000003E9" + "BEDE0003" + "22303031" + "510001" + "72040000" + "00" + "72",
			"90E003E7" + "00000065" + "000007D1" + "BEDE0003" + "22303131" + "510002" + "72040000" + "00" + "72",
		}},
		// A block of another form stays.
		{"906F 0006 00000066 0000002C ABAC0001 01020304 73", 0, []string{
			"906F0006" + "00000066" + "000003E8" + "ABAC0001" + "01020304" + "73",
			"906F03EE" + "00000066" + "000007D0" + "ABAC0001" + "01020304" + "73",
		}},
		// A header of 512 bytes has room before the payload, and one of 516 hasn't.
		{"906F 0007 00000067 0000002C ABAC007C" + strings.Repeat("00000000", 124) + "74", 0, []string{
			"906F0007" + "00000067" + "000003E8" + "ABAC007C" + strings.Repeat("00000000", 124) + "74",
			"906F03EF" + "00000067" + "000007D0" + "ABAC007C" + strings.Repeat("00000000", 124) + "74",
		}},
		{"906F 0008 00000068 0000002C ABAC007D" + strings.Repeat("00000000", 125) + "74", 0, nil},
		{"80C9 0001 00000009", 0, nil},
		{"80E0 FFFF 000000", 0, nil},
		{"8060 FC08 00000064 0000002C", 0, nil}, // 1,024 before 8
		// The sender starts again: the second packet far from 8 is taken, and the sixth that is.
		{"8060 7000 00000069 0000002C", 0, nil},
		{"8060 7001 0000006A 0000002C", 0, []string{
			"90607001" + "0000006A" + "000003E8" + "BEDE0003" + "22303030" + "510005" + "72000000" + "00",
			"906073E9" + "0000006A" + "000007D0" + "BEDE0003" + "22303130" + "510006" + "72000000" + "00",
		}},
	}
	for _, row := range rows {
		if got := sent(t, s, row.datagram, row.now); !reflect.DeepEqual(got, row.wanted) {
			t.Errorf("%s: %v, wanted %v", row.datagram, got, row.wanted)
		}
	}
	wanted := udp.Counts{Taken: 6, Replays: 1, Late: 2, RTCP: 1, Unreadable: 1, Sent: 10, Unsent: 2}
	if s.counts != wanted {
		t.Errorf("%+v, wanted %+v", s.counts, wanted)
	}
	for ssrc := 1; ssrc <= 20; ssrc++ {
		sent(t, s, fmt.Sprintf("8060 0001 00000000 000000%02X", ssrc), 0)
	}
	if wanted := uint64(6); s.counts.Strangers != wanted {
		t.Errorf("%d strangers, wanted %d", s.counts.Strangers, wanted)
	}
}

// No datagram takes memory once its source is known, whatever becomes of it, nor does a stranger's.
func TestNoDatagramTakesMemory(t *testing.T) {
	s := newSFU(3)
	if err := s.Map(1, levelURI); err != nil {
		t.Fatal(err)
	}
	datagrams := [][]byte{ // with elements, without a block, with one of another form; RTCP; a cut one; a stranger
		{0x90, 111, 0, 0, 0, 0, 0, 0, 0, 0, 0, 0, 0xBE, 0xDE, 0, 1, 0x10, 0x8A, 0, 0, 'm'},
		{0x80, 111, 0, 0, 0, 0, 0, 0, 0, 0, 0, 1, 'm'},
		{0x90, 111, 0, 0, 0, 0, 0, 0, 0, 0, 0, 2, 0xAB, 0xAC, 0, 1, 1, 2, 3, 4, 'm'},
		{0x80, 201, 0, 1, 0, 0, 0, 9},
		{0x80, 111, 0, 0, 0, 0, 0},
		{0x80, 111, 0, 0, 0, 0, 0, 0, 0, 0, 0, streams},
	}
	for ssrc := byte(0); ssrc < streams; ssrc++ {
		sent(t, s, fmt.Sprintf("806F 0000 00000000 000000%02X", ssrc), 0)
	}
	s.counts = udp.Counts{}
	buf := make([]byte, udp.Room+1500)
	number := byte(0)
	taken := testing.AllocsPerRun(100, func() {
		number++
		for _, datagram := range datagrams {
			for times := 0; times < 2; times++ {
				n := copy(buf[udp.Room:], datagram)
				buf[udp.Room+3] = number
				s.Take(buf[:udp.Room+n], time.Second, func(int, []byte) error { return nil })
			}
		}
	})
	if taken != 0 {
		t.Errorf("%v allocations", taken)
	}
	wanted := udp.Counts{Taken: 303, Replays: 303, RTCP: 202, Unreadable: 202, Strangers: 202, Sent: 909} // of 101 runs
	if s.counts != wanted {
		t.Errorf("%v, wanted %v", s.counts, wanted)
	}
}

// blocked is a server that takes its first datagram for as long as the end of the input leaves time to come.
type blocked struct {
	taken chan byte
}

func (b blocked) Map(uint8, string) error { return nil }

func (b blocked) Take(buf []byte, _ time.Duration, _ udp.Send) {
	b.taken <- buf[len(buf)-1]
}

// What the socket holds when its time has ended is taken too, each datagram once and in order.
func TestLastDatagrams(t *testing.T) {
	in, lines := io.Pipe()
	said, out := io.Pipe()
	server, ended := blocked{make(chan byte)}, make(chan error, 1)
	go func() {
		_, err := udp.Serve(in, out, nil, server)
		close(server.taken)
		ended <- err
	}()
	fmt.Fprintf(lines, "\n")
	var port int
	if _, err := fmt.Fscanf(bufio.NewReader(said), "port %d\n", &port); err != nil {
		t.Fatal(err)
	}
	sender, err := net.DialUDP("udp4", nil, &net.UDPAddr{IP: net.IPv4(127, 0, 0, 1), Port: port})
	if err != nil {
		t.Fatal(err)
	}
	defer sender.Close()
	for i := byte(0); i < 100; i++ {
		if _, err := sender.Write([]byte{0x80, 96, 0, i}); err != nil {
			t.Fatal(err)
		}
	}
	lines.Close()
	time.Sleep(500 * time.Millisecond) // more than Serve leaves once its input has ended
	for i := byte(0); i < 100; i++ {
		if got, ok := <-server.taken; !ok || got != i {
			t.Fatalf("the datagram %d: %d, %v", i, got, ok)
		}
	}
	if got, ok := <-server.taken; ok {
		t.Errorf("one more: %d", got)
	}
	if err := <-ended; err != nil {
		t.Error(err)
	}
}

// Over sockets each receiver gets each packet once, also of those that come twice, and the counters say the same.
func TestOverUDP(t *testing.T) {
	const receivers, packets = 3, 300
	var ports []string
	var peers []*net.UDPConn
	for i := 0; i < receivers; i++ {
		peer, err := net.ListenUDP("udp4", &net.UDPAddr{IP: net.IPv4(127, 0, 0, 1)})
		if err != nil {
			t.Fatal(err)
		}
		defer peer.Close()
		peers, ports = append(peers, peer), append(ports, fmt.Sprint(peer.LocalAddr().(*net.UDPAddr).Port))
	}
	in, lines := io.Pipe()
	said, out := io.Pipe()
	s, ended := newSFU(receivers), make(chan error)
	go func() {
		back, err := udp.Serve(in, out, ports, s)
		if err == nil && back != 1 {
			err = fmt.Errorf("%d came back", back)
		}
		ended <- err
	}()
	fmt.Fprintf(lines, "map 1 %s\n\n", levelURI)
	var port int
	if _, err := fmt.Fscanf(bufio.NewReader(said), "port %d\n", &port); err != nil {
		t.Fatal(err)
	}
	sender, err := net.DialUDP("udp4", nil, &net.UDPAddr{IP: net.IPv4(127, 0, 0, 1), Port: port})
	if err != nil {
		t.Fatal(err)
	}
	defer sender.Close()
	buf := make([]byte, 2048)
	for i := 0; i < packets; i++ {
		datagram := append([]byte{0x90, 111, byte(i >> 8), byte(i), 0, 0, 0, 7, 0, 0, 0, 44, 0xBE, 0xDE, 0, 1, 0x10, 0x8A, 0, 0}, byte(i>>8), byte(i))
		for times := 0; times == 0 || times == 1 && i%10 == 9; times++ {
			if _, err := sender.Write(datagram); err != nil {
				t.Fatal(err)
			}
		}
		for r, peer := range peers {
			if err := peer.SetReadDeadline(time.Now().Add(20 * time.Second)); err != nil {
				t.Fatal(err)
			}
			n, from, err := peer.ReadFromUDP(buf)
			if err != nil {
				t.Fatal(err)
			}
			number := i + 1000*r
			wanted := []byte{0x90, 111, byte(number >> 8), byte(number), 0, 0, 0, 7, 0, 0, byte((1000 * (r + 1)) >> 8), byte((1000 * (r + 1)) & 0xFF),
				0xBE, 0xDE, 0, 4, 0x90, 0x8A, 0x22, '0', byte('0' + r), '0', 0x51, byte((i + r) >> 8), byte(i + r), 0x72}
			if !bytes.Equal(buf[:26], wanted) || n != 34 || buf[32] != byte(i>>8) || buf[33] != byte(i) {
				t.Fatalf("packet %d of receiver %d: % x, wanted % x ...", i, r, buf[:n], wanted)
			}
			if i == 0 && r == 0 { // a report
				if _, err := peer.WriteToUDP([]byte{0x80, 201, 0, 1, 0, 0, 0, 9}, from); err != nil {
					t.Fatal(err)
				}
			}
		}
	}
	lines.Close()
	if err := <-ended; err != nil {
		t.Error(err)
	}
	if wanted := (udp.Counts{Taken: packets, Replays: packets / 10, Sent: receivers * packets}); s.counts != wanted {
		t.Errorf("%+v, wanted %+v", s.counts, wanted)
	}
}
