package rtpwire_test

import (
	"errors"
	"testing"

	"rtp-wire.example/rtpwire"
)

// On a port that RTP and RTCP share RTCP is told before all else (RFC 5761, 4), and all else is read as it is elsewhere.
func TestMuxed(t *testing.T) {
	var packet rtpwire.Packet
	same(t, "a packet", packet.ParseMuxed(sample(), nil), nil)
	before := packet
	for _, second := range []byte{192, 201, 207, 223} {
		for _, length := range []int{2, 8, 12, 13} {
			rtcp := append([]byte{0x81, second}, make([]byte, 40)...)[:length]
			err := packet.ParseMuxed(rtcp, nil)
			same(t, "RTCP", []any{err, errors.Is(err, rtpwire.ErrNotAPacket), rtpwire.IsRTCP(rtcp)}, []any{rtpwire.ErrRTCP, false, true})
			same(t, "the packet", packet, before)
		}
	}
	for length := 0; length <= len(sample()); length++ {
		var muxed, other rtpwire.Packet
		same(t, "error", muxed.ParseMuxed(sample()[:length], nil), other.Parse(sample()[:length], nil))
		same(t, "packet", muxed, other)
	}
}

// A packet with M and a payload type of 64 to 95 looks like RTCP, and on a port of its own it is read as any other, also
// with a block of another form.
func TestPacketsThatLookLikeRTCP(t *testing.T) {
	for _, profile := range []byte{0xBE, 0xAB} {
		datagram := sample()
		datagram[20] = profile
		var wanted rtpwire.Packet
		same(t, "wanted", wanted.Parse(datagram, everyKind(t)), nil)
		for payloadType := uint8(64); payloadType <= 95; payloadType++ {
			datagram[1] = 0x80 | payloadType
			var packet rtpwire.Packet
			same(t, "alike", rtpwire.IsRTCP(datagram), true)
			same(t, "error", packet.Parse(datagram, everyKind(t)), nil)
			same(t, "M and the payload type", []any{packet.Marker(), packet.PayloadType()}, []any{true, payloadType})
			header := packet.Header()
			header.Marker, header.PayloadType = wanted.Marker(), wanted.PayloadType()
			same(t, "header", header, wanted.Header())
			form, body := packet.Block()
			wantedForm, wantedBody := wanted.Block()
			same(t, "block", []any{form, string(body), packet.BlockProfile()}, []any{wantedForm, string(wantedBody), wanted.BlockProfile()})
			media, ok := packet.UnpaddedPayload()
			wantedMedia, wantedOK := wanted.UnpaddedPayload()
			same(t, "payload", []any{string(media), ok, string(packet.Payload()), packet.HeaderLen()},
				[]any{string(wantedMedia), wantedOK, string(wanted.Payload()), wanted.HeaderLen()})

			var batch rtpwire.HeaderBatch
			batch.Add(0, len(datagram))
			batch.Parse(datagram, everyKind(t))
			read, err := batch.At(0)
			same(t, "of a batch", []any{*read, err, batch.IsRTCP(0)}, []any{*packet.Header(), nil, true})
		}
	}
}

// One packet of RTCP on a port that both share changes no receiver, and nothing of the packet, however few bytes it has;
// so the stream goes on. A stream that looks like RTCP, on a port of its own, is read and then judged by its number.
func TestReceiversTellRTCP(t *testing.T) {
	receiver, err := rtpwire.NewReceiver(1)
	same(t, "made", err, nil)
	words, restarting := wide(t, 16, 1), &rtpwire.RestartingReceiver{MinSequential: 2}
	wideRestarting, err := rtpwire.NewWideRestartingReceiver(16, rtpwire.RestartBounds{MinSequential: 2})
	same(t, "made", err, nil)
	judged := func(r interface {
		ReceivePacket([]byte, *rtpwire.Map, *rtpwire.Packet) (uint64, rtpwire.Verdict, error)
	}) func([]byte, *rtpwire.Map, *rtpwire.Packet) (uint64, error) {
		return func(datagram []byte, m *rtpwire.Map, p *rtpwire.Packet) (uint64, error) {
			number, verdict, err := r.ReceivePacket(datagram, m, p)
			if err == nil && verdict == rtpwire.Refused {
				err = rtpwire.ErrRefused
			}
			return number, err
		}
	}
	type call func([]byte, *rtpwire.Map, *rtpwire.Packet) (uint64, error)
	states := map[string]struct {
		calls []call
		state func() any
	}{
		"receiver": {[]call{receiver.CheckPacket, receiver.ReceivePacket}, func() any { return *receiver }},
		"wide": {[]call{words.CheckPacket, words.ReceivePacket}, func() any {
			highest, ok := words.Highest()
			return []any{highest, ok, words.Accepts(highest + 1), words.Accepts(65541)}
		}},
		"restarting": {[]call{judged(restarting)}, func() any { return *restarting }},
		"wide restarting": {[]call{judged(wideRestarting)}, func() any {
			highest, ok := wideRestarting.Highest()
			return []any{highest, ok, wideRestarting.InRow()}
		}},
	}
	const senderReport, payloadFeedback = 200, 206
	for name, it := range states {
		var packet rtpwire.Packet
		for number := byte(4); number < 6; number++ { // two in a row
			datagram := []byte{0x80, 96, 0, number, 0, 0, 0, 1, 0, 0, 0, 7, 'h', 'i'}
			_, err := it.calls[len(it.calls)-1](datagram, nil, &packet)
			same(t, name, []any{err == nil || number == 4, packet.SequenceNumber()}, []any{true, uint16(number)})
		}
		before, read := it.state(), packet
		for _, second := range []byte{senderReport, payloadFeedback, 192, 223} {
			for _, length := range []int{2, 8, 12, 28} {
				for _, call := range it.calls {
					rtcp := append([]byte{0x81, second, 0x9C, 0x40}, make([]byte, 40)...)[:length]
					number, err := call(rtcp, nil, &packet)
					same(t, name, []any{number, err, packet, it.state()}, []any{uint64(0), rtpwire.ErrRTCP, read, before})
				}
			}
		}
		for _, second := range []byte{191, 224} {
			_, err := it.calls[0]([]byte{0x80, second, 0, 6, 0, 0, 0, 1, 0, 0, 0, 7}, nil, &packet)
			same(t, name, []any{err, packet.SequenceNumber()}, []any{nil, uint16(6)})
			if name != "receiver" && name != "wide" {
				break // it has taken the number
			}
		}
	}
	alike := []byte{0x80, 0x80 | 72, 0, 7, 0, 0, 0, 1, 0, 0, 0, 7}
	number, ok := receiver.Receive(parsed(t, alike, nil).SequenceNumber())
	same(t, "of a port of its own", []any{number, ok}, []any{uint64(65543), true})
}
