// Lines reads datagrams from standard input, one a line in hexadecimal, and prints of each its header, the values of
// its extensions, and whether a receiver takes it. Each SSRC has a receiver of its own. Lines `map ID URI` before the
// first datagram say which extension an id means. It prints what the program rtp_lines does: a mid and a stream id with
// an underscore for each character that isn't a letter or a digit, as cam_1 for a mid cam-1, and the first 16 characters
// of a mid and 8 of a stream id. To compare one with that of an SDP take Packet.Token, the text as it lies.
package main

import (
	"bufio"
	"bytes"
	"encoding/hex"
	"errors"
	"fmt"
	"io"
	"os"
	"strconv"
	"strings"
	"unicode/utf8"

	"rtp-wire.example/rtpwire"
)

// errBadLine: the program ends with the status 2.
var errBadLine = errors.New("neither a map line nor hex")

func main() {
	out := bufio.NewWriter(os.Stdout)
	err := printAll(out, os.Stdin)
	if flushed := out.Flush(); err == nil {
		err = flushed
	}
	switch {
	case err == nil:
	case errors.Is(err, errBadLine):
		os.Exit(2)
	default:
		fmt.Fprintln(os.Stderr, err)
		os.Exit(1)
	}
}

func printAll(out io.Writer, in io.Reader) error {
	var m rtpwire.Map
	receivers := make(map[uint32]*rtpwire.Receiver)
	count := 0
	lines := bufio.NewScanner(in)
	lines.Buffer(nil, 1<<20)
	lines.Split(splitLines)
	for number := 1; lines.Scan(); number++ {
		if count == 0 && isMapped(&m, lines.Text()) {
			continue
		}
		datagram, err := hex.DecodeString(lines.Text())
		if err != nil {
			fmt.Fprintf(out, "line %d: %v\n", number, errBadLine)
			return errBadLine
		}
		count++
		if err := printPacket(out, count, datagram, &m, receivers); err != nil {
			return err
		}
	}
	return lines.Err()
}

// splitLines splits at line feeds, and takes off a carriage return before one, but none that the input ends in.
func splitLines(data []byte, atEOF bool) (int, []byte, error) {
	if at := bytes.IndexByte(data, '\n'); at >= 0 {
		return at + 1, bytes.TrimSuffix(data[:at], []byte("\r")), nil
	}
	if atEOF && len(data) > 0 {
		return len(data), data, nil
	}
	return 0, nil, nil
}

// isMapped maps the id of the line, of one to three digits, where it is a map line.
func isMapped(m *rtpwire.Map, line string) bool {
	words := strings.SplitN(line, " ", 3)
	if len(words) < 3 || words[0] != "map" || len(words[1]) > 3 || words[2] == "" {
		return false
	}
	id, err := strconv.ParseUint(words[1], 10, 8)
	if err != nil || !utf8.ValidString(words[2]) {
		return false
	}
	_, err = m.SetURI(uint8(id), words[2])
	return err == nil
}

func printPacket(out io.Writer, count int, datagram []byte, m *rtpwire.Map, receivers map[uint32]*rtpwire.Receiver) error {
	var packet rtpwire.Packet
	err := packet.Parse(datagram, m)
	form, _ := packet.Block()
	if errors.Is(err, rtpwire.ErrNotAPacket) || form == rtpwire.OtherForm {
		fmt.Fprintf(out, "packet %d: unreadable\nverdict %d: unreadable\n", count, count)
		return nil
	}
	if err != nil {
		return err
	}
	printHeader(out, count, &packet)
	receiver, isKnown := receivers[packet.SSRC()]
	if !isKnown {
		// From the rollover count 0, as the program rtp_lines has it. NewReceiver(1) also has a number for a packet
		// from before the first one.
		receiver = new(rtpwire.Receiver)
		receivers[packet.SSRC()] = receiver
	}
	if number, ok := receiver.Receive(packet.SequenceNumber()); ok {
		fmt.Fprintf(out, "verdict %d: taken %d\n", count, number)
	} else {
		fmt.Fprintf(out, "verdict %d: refused\n", count)
	}
	return nil
}

func printHeader(out io.Writer, count int, packet *rtpwire.Packet) {
	fmt.Fprintf(out, "packet %d: pt %d seq %d ts %d ssrc %d", count, packet.PayloadType(), packet.SequenceNumber(),
		packet.Timestamp(), packet.SSRC())
	fmt.Fprintf(out, " marker %s padding %s extension %s csrc %d header %d", yesOrNo(packet.Marker()),
		yesOrNo(packet.HasPadding()), yesOrNo(packet.HasExtension()), len(packet.CSRC()), packet.HeaderLen())
	values := packet.Values()
	if mid, ok := values.MID(); ok {
		fmt.Fprintf(out, " mid %s", mid)
	}
	if rid, ok := values.RID(); ok {
		fmt.Fprintf(out, " rid %s", rid)
	}
	if rid, ok := values.RepairedRID(); ok {
		fmt.Fprintf(out, " repaired %s", rid)
	}
	if level, voice, ok := values.AudioLevel(); ok {
		fmt.Fprintf(out, " level %d voice %s", level, yesOrNo(voice))
	}
	if micros, ok := values.SendTime(); ok {
		fmt.Fprintf(out, " send %d", micros)
	}
	if number, ok := values.TransportNumber(); ok {
		fmt.Fprintf(out, " transport %d", number)
	}
	fmt.Fprintln(out)
}

func yesOrNo(flag bool) string {
	if flag {
		return "yes"
	}
	return "no"
}
