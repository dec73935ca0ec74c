//go:build race

package rtpwire_test

import (
	"bytes"
	"os"
	"os/exec"
	"testing"

	"rtp-wire.example/rtpwire"
)

// manyGoroutines are half as many as the race detector knows at once.
const manyGoroutines = 4_000

// What two goroutines do at once, each in a program of its own, and whether a race detector has to report it.
var races = map[string]struct {
	isReported bool
	one, other func()
}{
	"one receiver":                      {true, func() { shared.receiver.Receive(7) }, func() { shared.receiver.Receive(8) }},
	"one receiver, looked at":           {true, func() { shared.receiver.Receive(7) }, func() { shared.receiver.Accepts(8) }},
	"two receivers of a slice":          {false, func() { shared.receivers[0].Receive(7) }, func() { shared.receivers[1].Receive(8) }},
	"a wide receiver":                   {true, func() { shared.wide.Receive(7) }, func() { shared.wide.Receive(8) }},
	"statistics":                        {true, func() { shared.statistics.Record(1, 2, 3) }, func() { shared.statistics.Record(2, 3, 4) }},
	"a datagram that is read":           {false, parse, parse},
	"a datagram that is changed":        {true, parse, setSSRC},
	"a datagram that is written by Go":  {true, parse, func() { shared.datagram[3]++ }},
	"a payload beside a changed header": {false, setSSRC, func() { shared.datagram[60]++ }},
	"a payload that moves": {true, func() { _, _ = rtpwire.PutElementIn(shared.datagram, 64, 9, []byte{1}, rtpwire.AnyForm) },
		func() { shared.datagram[60]++ }},
	"a packet that is read anew": {true, func() { _ = shared.packet.Parse(sample(), nil) }, func() { sinkhole = shared.packet.SSRC() }},
	"a map that is set":          {true, func() { _ = shared.m.Set(3, rtpwire.KindMID) }, func() { _ = new(rtpwire.Packet).Parse(sample(), &shared.m) }},
	"a map that is read": {false, func() { _ = new(rtpwire.Packet).Parse(sample(), &shared.m) },
		func() { _ = new(rtpwire.Packet).Parse(sample(), &shared.m) }},
	"a buffer that headers are written to":  {true, writeHeader, writeHeader},
	"a buffer that headers are laid out in": {true, route, func() { shared.buf[13]++ }},
	"a buffer behind the headers":           {false, route, func() { shared.buf[len(shared.buf)-1]++ }},
	"a batch's datagrams":                   {true, parseBatch, setSSRC},
}

var sinkhole uint32
var shared struct {
	receiver   rtpwire.Receiver
	receivers  [2]rtpwire.Receiver
	wide       *rtpwire.WideReceiver
	statistics rtpwire.ReceptionStatistics
	datagram   []byte
	packet     rtpwire.Packet
	m          rtpwire.Map
	buf        []byte
}

func parse() { _ = new(rtpwire.Packet).Parse(shared.datagram[:64], nil) }

func parseBatch() {
	var batch rtpwire.HeaderBatch
	batch.Add(0, 64)
	batch.Parse(shared.datagram, nil)
}

func setSSRC() {
	var fields rtpwire.Fields
	fields.SetSSRC(7)
	_ = fields.Apply(shared.datagram[:64])
}

func writeHeader() { _, _ = new(rtpwire.Header).WriteInto(shared.buf, nil) }

func route() {
	var batch rtpwire.RouteBatch
	batch.Add(0)
	batch.Add(0)
	_ = batch.Route(sample(), &rtpwire.Group{}, nil, shared.buf)
}

func TestRacesAreReported(t *testing.T) {
	if name := os.Getenv("RTPWIRE_RACE"); name != "" {
		shared.datagram = append(sample(), make([]byte, 200)...)
		shared.buf = make([]byte, 1000)
		shared.wide, _ = rtpwire.NewWideReceiver(2, 1)
		done := make(chan int)
		go func() {
			races[name].one()
			done <- 1
		}()
		races[name].other()
		<-done
		return
	}
	for name, it := range races {
		command := exec.Command(os.Args[0], "-test.run", "^TestRacesAreReported$")
		command.Env = append(os.Environ(), "RTPWIRE_RACE="+name)
		said, err := command.CombinedOutput()
		if isReported := bytes.Contains(said, []byte("WARNING: DATA RACE")); isReported != it.isReported || (err != nil) != it.isReported {
			t.Errorf("%s: reported %v, wanted %v\n%s", name, isReported, it.isReported, said)
		}
	}
}
