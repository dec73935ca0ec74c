package rtpwire_test

import (
	"os"
	"path/filepath"
	"regexp"
	"strings"
	"sync"
	"testing"

	"rtp-wire.example/rtpwire"
)

// Calls of many goroutines at once, each with values of its own, give what they give one after another.
func TestManyGoroutines(t *testing.T) {
	var group sync.WaitGroup
	for i := 0; i < 8; i++ {
		group.Add(1)
		go func(own byte) {
			defer group.Done()
			for round := 0; round < 3000; round++ {
				alone(t, own, uint16(round))
			}
		}(byte(i + 1))
	}
	group.Wait()
}

// So do those of more goroutines than any stack was made for beforehand, all of which are there before the first call.
func TestEachGoroutineItsOwnStack(t *testing.T) {
	if testing.Short() {
		t.Skip("it takes as many stacks")
	}
	var there, done sync.WaitGroup
	begin := make(chan struct{})
	there.Add(manyGoroutines)
	done.Add(manyGoroutines)
	for i := 0; i < manyGoroutines; i++ {
		go func(i int) {
			defer done.Done()
			there.Done()
			<-begin
			alone(t, byte(i%8+1), uint16(i/8%4096))
		}(i)
	}
	there.Wait()
	close(begin)
	done.Wait()
}

// No call keeps anything in memory that goroutines share: no word of data is in the texts but those that are only read.
func TestNothingIsKept(t *testing.T) {
	names, err := filepath.Glob("rtp_wire_*.s")
	same(t, "there are", len(names) > 0 && err == nil, true)
	for _, name := range names {
		text, err := os.ReadFile(name)
		same(t, "read", err, nil)
		found := regexp.MustCompile(`(?m)^GLOBL .*$`).FindAllString(string(text), -1)
		same(t, "there is one", len(found) > 0, true)
		for _, it := range found {
			same(t, it, strings.Contains(it, ", RODATA, "), true)
		}
	}
}

// alone makes calls with numbers that no other goroutine has, of as many bytes as none of the others.
func alone(t *testing.T, own byte, round uint16) {
	is := func(what string, got, wanted uint64, err error) {
		if got != wanted || err != nil {
			t.Errorf("%s: %d, wanted %d: %v", what, got, wanted, err)
		}
	}
	number := uint16(own)<<12 | round
	datagram := with(number, "payload of another")
	datagram[11] = own
	buf := make([]byte, 64)
	var packet rtpwire.Packet
	var receiver rtpwire.Receiver
	var restarting rtpwire.RestartingReceiver
	is("parse", 0, 0, packet.Parse(datagram, nil))
	is("SSRC", uint64(packet.SSRC()), uint64(own), nil)
	extended, err := receiver.CheckPacket(datagram, nil, &packet)
	is("checked", extended, uint64(number), err)
	extended, err = receiver.ReceivePacket(datagram, nil, &packet)
	is("taken", extended, uint64(number), err)
	extended, verdict := restarting.Receive(number)
	is("judged", extended, 65536+uint64(number), nil)
	is("verdict", uint64(verdict), uint64(rtpwire.Taken), nil)
	extended, ok := receiver.Receive(number + 1)
	is("the next", extended, uint64(number)+1, nil)
	is("taken", map[bool]uint64{true: 1}[ok], 1, nil)
	original, _, err := rtpwire.ReadOriginal(datagram[2:])
	is("original", uint64(original), uint64(number), err)

	header := rtpwire.Header{SequenceNumber: number}
	is("sources", 0, 0, header.SetCSRC(make([]uint32, own)))
	length, err := header.WriteInto(buf, nil)
	is("written", uint64(length), 12+4*uint64(own), err)
	length, err = header.WireLen(nil)
	is("length", uint64(length), 12+4*uint64(own), err)
	length, err = rtpwire.WriteElements(buf, rtpwire.TwoByteForm, buf[:own], []rtpwire.Place{{ID: own, Len: int(own)}})
	is("elements", uint64(length), 2+uint64(own), err)
	length, err = rtpwire.Pad(buf, 12, own, 1)
	is("padding", uint64(length), uint64(own), err)
	var v rtpwire.Values
	is("mid", 0, 0, v.SetMID("0123456789"[:own]))
	data, err := v.DataOf(rtpwire.KindMID, buf)
	is("data", uint64(len(data)), uint64(own), err)
	copy(buf, datagram)
	made, err := rtpwire.PutElementIn(buf, 14, own, make([]byte, own), rtpwire.AnyForm)
	is("put", uint64(len(made)), 14+4+(uint64(own)+1+3)/4*4, err)
	element, ok := func() ([]byte, bool) {
		is("parse", 0, 0, packet.Parse(made, nil))
		return packet.Element(own)
	}()
	is("element", uint64(len(element)), uint64(own), nil)
	is("there", map[bool]uint64{true: 1}[ok], 1, nil)
	made, err = rtpwire.ToRetransmissionIn(buf, len(made), 1, 2, 3, new(rtpwire.NewIDs))
	is("sent again", uint64(len(made)), 16+4+(uint64(own)+1+3)/4*4, err)
	made, err = rtpwire.FromRetransmissionIn(buf, len(made), 1, 2, new(rtpwire.NewIDs))
	is("restored", uint64(len(made)), 14+4+(uint64(own)+1+3)/4*4, err)
	made, err = rtpwire.Compact(made)
	is("compact", uint64(len(made)), 18, err)
	made, err = rtpwire.RemovePadding(made)
	is("without padding", uint64(len(made)), 18, err)
	made, err = rtpwire.AddElementIn(buf, 18, own, make([]byte, own), rtpwire.OnlyOneByteForm)
	is("added", uint64(len(made)), 18+(uint64(own)+1+3)/4*4, err)
	made, err = rtpwire.ChangeFormIn(buf, len(made), rtpwire.TwoByteForm)
	is("changed", uint64(len(made)), 18+(uint64(own)+2+3)/4*4, err)
	made, err = rtpwire.PutBlockIn(buf, len(made), 0xABAC, make([]byte, 4*int(own)))
	is("block", uint64(len(made)), 18+4*uint64(own), err)
	made, err = rtpwire.RemoveBlock(made)
	is("no block", uint64(len(made)), 14, err)
}
