// Load has SFUs send packets on 127.0.0.1, to 1, 3 and 30 receivers, and prints how many packets of the sender each takes
// in a second, and the processor time that each takes of them.
//
//	go build -o sfu rtp-wire.example/rtpwire/examples/sfu && go build -o pionsfu ./pionsfu && go run ./load ./sfu ./pionsfu
//
// Each packet has a payload of 1,200 bytes, and one of sixteen is sent twice. With -loss 5 five of a hundred are lost
// on the way to the SFU, and sent again after sixteen others. At most 32 are on their way at a time, so that no socket
// has to lose any. Each receiver counts what comes: the packets that are lost, those that come twice, and those that
// aren't what it has to get. The last datagrams are of each other kind that an SFU counts, and what it says of all has
// to be so.
package main

import (
	"bufio"
	"bytes"
	"encoding/binary"
	"errors"
	"flag"
	"fmt"
	"io"
	"net"
	"os"
	"os/exec"
	"strings"
	"sync/atomic"
	"syscall"
	"time"

	"rtp-wire.example/rtpwire/examples/sfu/udp"
)

const (
	atOnce  = 32
	payload = 1200
	patient = 5 * time.Second // for which nothing may come
	others  = 16              // SSRCs beside that of the packets: for the last of them an SFU has no room
)

// A peer is a receiver: how many packets came to it, each counted once, how many of them came again, and how many
// weren't what it has to get.
type peer struct {
	conn               *net.UDPConn
	place              int
	came, twice, wrong atomic.Uint64
}

// receive counts the packets, by the number that their payload begins with, and tells of each sixteenth.
func (p *peer) receive(packets int, tell chan<- struct{}) {
	buf := make([]byte, 2048)
	seen := make([]bool, packets)
	for {
		n, err := p.conn.Read(buf)
		if err != nil {
			return
		}
		if n < payload {
			continue
		}
		number := binary.BigEndian.Uint32(buf[n-payload:])
		if int(number) >= packets || seen[number] {
			p.twice.Add(1)
			continue
		}
		seen[number] = true
		if !bytes.Equal(buf[:23], p.wanted(number)) || n != 32+payload {
			p.wrong.Add(1)
		}
		if p.came.Add(1)%(atOnce/2) == 0 {
			select {
			case tell <- struct{}{}:
			default:
			}
		}
	}
}

// wanted is what the peer's packet of this number begins with: its own number and SSRC, and in 16 bytes of elements the
// audio level under 9 and its mid under 2, before the transport number and the send time.
func (p *peer) wanted(number uint32) []byte {
	wanted := []byte{0x90, 111, 0, 0, 0, 0, 0, 0, 0, 0, 0, 0, 0xBE, 0xDE, 0, 4, 0x90, 0x8A, 0x22,
		byte('0' + p.place/10), byte('0' + p.place%10), '0', 0x51}
	binary.BigEndian.PutUint16(wanted[2:], uint16(number)+uint16(1000*p.place))
	binary.BigEndian.PutUint32(wanted[4:], 960*number)
	binary.BigEndian.PutUint32(wanted[8:], uint32(1000*(p.place+1)))
	return wanted
}

func listen() (*net.UDPConn, error) {
	conn, err := net.ListenUDP("udp4", &net.UDPAddr{IP: net.IPv4(127, 0, 0, 1)})
	if err != nil {
		return nil, err
	}
	return conn, conn.SetReadBuffer(4 << 20)
}

// packet is the first packet: V=2, X, PT=111, the SSRC 44, and the audio level.
func packet() []byte {
	header := []byte{0x90, 111, 0, 0, 0, 0, 0, 0, 0, 0, 0, 44, 0xBE, 0xDE, 0, 1, 0x10, 0x8A, 0, 0}
	return append(header, make([]byte, payload)...)
}

// A sender sends the packets, and counts what has to become of them.
type sender struct {
	conn    *net.UDPConn
	packets int
	loss    int // of a hundred packets so many are lost when they are first sent
	peers   []*peer
	tell    <-chan struct{}
	counts  udp.Counts
}

// least is how many packets have come to each receiver.
func (s *sender) least() int {
	least := s.packets
	for _, peer := range s.peers {
		if came := int(peer.came.Load()); came < least {
			least = came
		}
	}
	return least
}

func (s *sender) isLost(i int) bool {
	return i >= 0 && i%100 >= 100-s.loss
}

// send sends the packets, and returns how long it took until the last one had come to each receiver, or nothing came any
// more.
func (s *sender) send() (time.Duration, error) {
	datagram := packet()
	begun := time.Now()
	for i := 0; i < s.packets+atOnce/2; i++ {
		for i < s.packets && i-s.least() >= atOnce {
			select {
			case <-s.tell:
			case <-time.After(patient):
				return time.Since(begun), nil
			}
		}
		if again := i - atOnce/2; s.isLost(again) {
			if err := s.write(datagram, again); err != nil {
				return 0, err
			}
		}
		if i < s.packets && !s.isLost(i) {
			if err := s.write(datagram, i); err != nil {
				return 0, err
			}
		}
	}
	for waited := time.Now(); s.least() < s.packets && time.Since(waited) < patient; {
		time.Sleep(time.Millisecond)
	}
	return time.Since(begun), nil
}

// write sends a packet, and each sixteenth twice.
func (s *sender) write(datagram []byte, i int) error {
	binary.BigEndian.PutUint16(datagram[2:], uint16(i))
	binary.BigEndian.PutUint32(datagram[4:], uint32(960*i))
	binary.BigEndian.PutUint32(datagram[20:], uint32(i))
	if i%16 == 0 {
		s.counts.Replays++
		if _, err := s.conn.Write(datagram); err != nil {
			return err
		}
	}
	s.counts.Taken++
	_, err := s.conn.Write(datagram)
	return err
}

// end sends what isn't taken, a packet that is 2,000 late, a receiver report and a cut header, and packets of other
// SSRCs: without a payload, so that no receiver counts them.
func (s *sender) end() error {
	late := uint16(s.packets - 2000)
	datagrams := [][]byte{
		{0x80, 111, byte(late >> 8), byte(late), 0, 0, 0, 0, 0, 0, 0, 44},
		{0x80, 201, 0, 1, 0, 0, 0, 9},
		{0x80, 111, 0, 0, 0, 0, 0},
	}
	for ssrc := byte(100); ssrc < 100+others; ssrc++ {
		datagrams = append(datagrams, []byte{0x80, 111, 0, 0, 0, 0, 0, 0, 0, 0, 0, ssrc})
	}
	s.counts.Late, s.counts.RTCP, s.counts.Unreadable, s.counts.Strangers = 1, 1, 1, 1
	s.counts.Taken += others - 1
	s.counts.Sent = s.counts.Taken * uint64(len(s.peers))
	for _, datagram := range datagrams {
		if _, err := s.conn.Write(datagram); err != nil {
			return err
		}
	}
	return nil
}

// run has the program send packets to so many receivers, and prints what became of them.
func run(program string, receivers, packets, loss int) error {
	tell := make(chan struct{}, 1)
	peers := make([]*peer, receivers)
	ports := make([]string, receivers)
	for i := range peers {
		conn, err := listen()
		if err != nil {
			return err
		}
		defer conn.Close()
		peers[i] = &peer{conn: conn, place: i}
		ports[i] = fmt.Sprint(conn.LocalAddr().(*net.UDPAddr).Port)
		go peers[i].receive(packets, tell)
	}
	child := exec.Command(program, ports...)
	child.Stderr = os.Stderr
	in, err := child.StdinPipe()
	if err != nil {
		return err
	}
	out, err := child.StdoutPipe()
	if err != nil {
		return err
	}
	if err := child.Start(); err != nil {
		return err
	}
	s := &sender{packets: packets, loss: loss, peers: peers, tell: tell}
	took, err := drive(in, bufio.NewReader(out), s)
	in.Close()
	rest, _ := io.ReadAll(out)
	if waited := child.Wait(); err == nil {
		err = waited
	}
	if err != nil {
		return err
	}
	came, twice, wrong := uint64(0), uint64(0), uint64(0)
	for _, peer := range peers {
		came, twice, wrong = came+peer.came.Load(), twice+peer.twice.Load(), wrong+peer.wrong.Load()
	}
	usage := child.ProcessState.SysUsage().(*syscall.Rusage)
	user, all := usage.Utime.Nano(), usage.Utime.Nano()+usage.Stime.Nano()
	fmt.Printf("%-12s receivers %2d: %7.0f packets/s, %6.2f us of a processor each (%.2f in the program itself), "+
		"lost %d, twice %d, wrong %d; %s",
		program[strings.LastIndex(program, "/")+1:], receivers, float64(packets)/took.Seconds(),
		float64(all)/1000/float64(packets), float64(user)/1000/float64(packets),
		uint64(packets*receivers)-came, twice, wrong, rest)
	if came != uint64(packets*receivers) || twice != 0 || wrong != 0 {
		return errors.New("packets were lost, came twice, or were wrong")
	}
	if wanted := fmt.Sprintln(s.counts, "back 0"); string(rest) != wanted {
		return fmt.Errorf("what became of the datagrams is %s", wanted)
	}
	return nil
}

// drive tells the program the sender's ids, and has it sent the packets.
func drive(in io.Writer, out *bufio.Reader, s *sender) (time.Duration, error) {
	fmt.Fprint(in, "map 1 urn:ietf:params:rtp-hdrext:ssrc-audio-level\n\n")
	var port int
	if _, err := fmt.Fscanf(out, "port %d\n", &port); err != nil {
		return 0, err
	}
	conn, err := net.DialUDP("udp4", nil, &net.UDPAddr{IP: net.IPv4(127, 0, 0, 1), Port: port})
	if err != nil {
		return 0, err
	}
	defer conn.Close()
	s.conn = conn
	took, err := s.send()
	if err != nil {
		return 0, err
	}
	return took, s.end()
}

func main() {
	packets := flag.Int("packets", 50000, "how many, at most 65536")
	loss := flag.Int("loss", 0, "how many of a hundred are lost before the SFU, and sent again")
	flag.Parse()
	if *packets < 1 || *packets > 65536 || *loss < 0 || *loss > 100 {
		fmt.Fprintln(os.Stderr, "load: 1 to 65536 packets, of which 0 to 100 of a hundred are lost")
		os.Exit(2)
	}
	failed := false
	for _, receivers := range []int{1, 3, 30} {
		for _, program := range flag.Args() {
			if err := run(program, receivers, *packets, *loss); err != nil {
				fmt.Fprintln(os.Stderr, "load:", program, err)
				failed = true
			}
		}
	}
	if failed {
		os.Exit(1)
	}
}
