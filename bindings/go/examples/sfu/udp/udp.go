// Package udp has the sockets of an SFU on 127.0.0.1, each with a goroutine of its own: one takes the datagrams of a
// sender, and one for each receiver sends it packets and takes what comes back.
package udp

import (
	"bufio"
	"errors"
	"fmt"
	"io"
	"net"
	"os"
	"strconv"
	"sync/atomic"
	"syscall"
	"time"
)

// Room is how many bytes stand in front of each datagram: so a longer header can be written before its payload.
const Room = 512

const (
	longest = time.Minute            // for which an SFU works
	after   = 200 * time.Millisecond // for which it still takes what has come, where its input has ended
	buffer  = 4 << 20                // what a socket is to hold while a goroutine waits for a processor
	most    = 1 << 16                // so many datagrams are still taken at the end
)

// A Send sends a packet to the receiver of this place.
type Send func(receiver int, packet []byte) error

// A Server takes the datagrams, each in buf[Room:].
type Server interface {
	// Map is told the lines `map ID URI`, the sender's ids of extensions.
	Map(id uint8, uri string) error
	// Take takes the datagram that came at this moment, and may change the buffer.
	Take(buf []byte, now time.Duration, send Send)
}

// Serve reads the lines `map ID URI` and an empty line, prints `port N`, at which it takes the datagrams of the sender,
// and has the server send to the receivers at these ports. It returns how many datagrams came back from them, once the
// input has ended and what has come by then is sent, or after a minute.
func Serve(in io.Reader, out io.Writer, ports []string, server Server) (back uint64, err error) {
	lines := bufio.NewScanner(in)
	for lines.Scan() && lines.Text() != "" {
		var id uint8
		var uri string
		if _, err := fmt.Sscanf(lines.Text(), "map %d %s", &id, &uri); err != nil {
			return 0, fmt.Errorf("%q: %w", lines.Text(), err)
		}
		if err := server.Map(id, uri); err != nil {
			return 0, err
		}
	}
	receivers, err := dialed(ports)
	if err != nil {
		return 0, err
	}
	var fromReceivers atomic.Uint64
	ended := make(chan struct{})
	for _, receiver := range receivers {
		go func(receiver *net.UDPConn) {
			count(receiver, &fromReceivers)
			ended <- struct{}{}
		}(receiver)
	}
	sender, err := net.ListenUDP("udp4", local(0))
	if err != nil {
		return 0, err
	}
	if err := sender.SetReadBuffer(buffer); err != nil {
		return 0, err
	}
	fmt.Fprintf(out, "port %d\n", sender.LocalAddr().(*net.UDPAddr).Port)
	if err := sender.SetReadDeadline(time.Now().Add(longest)); err != nil {
		return 0, err
	}
	go func() {
		for lines.Scan() {
		}
		_ = sender.SetReadDeadline(time.Now().Add(after))
	}()
	err = take(sender, server, func(receiver int, packet []byte) error {
		_, err := receivers[receiver].Write(packet)
		return err
	})
	if err != nil {
		return 0, err
	}
	for _, receiver := range receivers {
		receiver.Close()
		<-ended
	}
	return fromReceivers.Load(), sender.Close()
}

func local(port int) *net.UDPAddr {
	return &net.UDPAddr{IP: net.IPv4(127, 0, 0, 1), Port: port}
}

// dialed are the sockets to these ports.
func dialed(ports []string) (receivers []*net.UDPConn, err error) {
	for _, text := range ports {
		port, err := strconv.ParseUint(text, 10, 16)
		if err != nil {
			return nil, err
		}
		receiver, err := net.DialUDP("udp4", nil, local(int(port)))
		if err != nil {
			return nil, err
		}
		receivers = append(receivers, receiver)
	}
	return receivers, nil
}

// take has the server take each datagram until the socket's time ends, and then those that it still holds.
func take(sender *net.UDPConn, server Server, send Send) error {
	buf := make([]byte, Room+65536)
	begun := time.Now()
	for {
		n, _, err := sender.ReadFromUDPAddrPort(buf[Room:])
		if errors.Is(err, os.ErrDeadlineExceeded) {
			break
		}
		if err != nil {
			return err
		}
		server.Take(buf[:Room+n], time.Since(begun), send)
	}
	held, err := sender.SyscallConn()
	if err != nil {
		return err
	}
	return held.Control(func(fd uintptr) {
		for left := most; left > 0; left-- {
			n, err := syscall.Read(int(fd), buf[Room:])
			if err != nil {
				return // EAGAIN: no more
			}
			server.Take(buf[:Room+n], time.Since(begun), send)
		}
	})
}

// count counts what a receiver sends: reports, which nobody answers here.
func count(receiver *net.UDPConn, datagrams *atomic.Uint64) {
	var buf [2048]byte
	for {
		switch _, err := receiver.Read(buf[:]); {
		case err == nil:
			datagrams.Add(1)
		case errors.Is(err, net.ErrClosed):
			return // and else nobody is at its port, for now
		}
	}
}
