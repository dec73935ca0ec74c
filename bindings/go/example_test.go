package rtpwire_test

import (
	"errors"
	"fmt"
	"log"
	"time"

	"rtp-wire.example/rtpwire"
)

// This receives a stream whose packets needn't be authenticated: a replay is refused.
func Example() {
	var m rtpwire.Map // the ids of the lines a=extmap of SDP
	if _, err := m.SetURI(1, "urn:ietf:params:rtp-hdrext:ssrc-audio-level"); err != nil {
		log.Fatal(err)
	}
	receiver, err := rtpwire.NewReceiver(1) // one for each SSRC; 1, as no packet is authenticated
	if err != nil {
		log.Fatal(err)
	}
	// P is set: the last two bytes are padding.
	datagram := []byte{0xB0, 96, 0, 5, 0, 0, 0, 160, 0, 0, 0, 7, 0xBE, 0xDE, 0, 1, 0x10, 0x8A, 0, 0, 'h', 'i', 0, 2}

	var packet rtpwire.Packet // used again for each packet
	for _, received := range [][]byte{datagram, datagram, datagram[:19]} {
		number, err := receiver.ReceivePacket(received, &m, &packet)
		switch {
		case errors.Is(err, rtpwire.ErrRefused):
			fmt.Println("a replay, or too old")
			continue
		case err != nil:
			fmt.Println(err)
			continue
		}
		media, ok := packet.UnpaddedPayload()
		if !ok {
			fmt.Println("padding that is longer than its payload")
			continue
		}
		fmt.Printf("%d: payload type %d, %q\n", number, packet.PayloadType(), media)
		if level, voice, ok := packet.Values().AudioLevel(); ok {
			fmt.Println("audio at", level, "dB, voice", voice)
		}
	}
	// Output:
	// 65541: payload type 96, "hi"
	// audio at -10 dB, voice true
	// a replay, or too old
	// rtpwire: the extension block is cut short
}

// With SRTP a forged packet must change nothing: the number is recorded once the packet is authenticated.
func ExampleReceiver_CheckPacket() {
	isAuthentic := func(packet *rtpwire.Packet, number uint64) bool { return packet.SSRC() == 7 }
	var receiver rtpwire.Receiver // the packet indices of a new key begin at the rollover count 0
	var packet rtpwire.Packet
	for _, ssrc := range []byte{8, 7, 7} {
		datagram := []byte{0x80, 96, 0, 5, 0, 0, 0, 160, 0, 0, 0, ssrc}
		number, err := receiver.CheckPacket(datagram, nil, &packet)
		if err != nil || !isAuthentic(&packet, number) {
			fmt.Println("a replay, too old, or forged")
			continue
		}
		receiver.Record(number)
		fmt.Println("taken as", number)
	}
	// Output:
	// a replay, too old, or forged
	// taken as 5
	// a replay, too old, or forged
}

// A packet like one that was read, under another SSRC and number: without the padding of that, and so without P.
func ExampleHeader_WriteInto() {
	datagram := []byte{0xA0, 96, 0, 5, 0, 0, 0, 160, 0, 0, 0, 7, 'h', 'i', 0, 2}
	var packet rtpwire.Packet
	if err := packet.Parse(datagram, nil); err != nil {
		log.Fatal(err)
	}
	media, ok := packet.UnpaddedPayload()
	if !ok {
		log.Fatal("padding that is longer than its payload")
	}
	header := packet.Header() // a copy
	header.SSRC, header.SequenceNumber = 44, 47000
	header.HasPadding = false
	buf := make([]byte, 1500)
	n, err := header.WriteInto(buf, nil)
	if err != nil {
		log.Fatal(err)
	}
	n += copy(buf[n:], media)
	fmt.Printf("% X, and then %q\n", buf[:12], buf[12:n])
	// Output: 80 60 B7 98 00 00 00 A0 00 00 00 2C, and then "hi"
}

func ExampleHeader_WriteAll() {
	m := rtpwire.StandardMap()
	var values rtpwire.Values
	if err := values.SetMID("audio"); err != nil {
		log.Fatal(err)
	}
	header := rtpwire.NewHeader(values) // a block is written, as there is a value
	header.PayloadType, header.SequenceNumber, header.SSRC = 111, 47000, 44
	buf := make([]byte, 1500)
	n, err := header.WriteAll(buf, m) // refused where m has no mid
	if err != nil {
		log.Fatal(err)
	}
	n += copy(buf[n:], "payload")
	fmt.Printf("% X\n%q\n", buf[:16], buf[16:n])
	// Output:
	// 90 6F B7 98 00 00 00 00 00 00 00 2C BE DE 00 02
	// "Daudio\x00\x00payload"
}

// A server sends a packet on under another SSRC and number, with the ids of the other side.
func ExampleRenumber() {
	publisher, subscriber := new(rtpwire.Map), new(rtpwire.Map)
	for _, err := range []error{publisher.Set(1, rtpwire.KindAudioLevel), subscriber.Set(5, rtpwire.KindAudioLevel)} {
		if err != nil {
			log.Fatal(err)
		}
	}
	ids := rtpwire.NewIDsBetween(publisher, subscriber) // once for two streams

	datagram := []byte{0x90, 96, 0, 5, 0, 0, 0, 160, 0, 0, 0, 7, 0xBE, 0xDE, 0, 1, 0x10, 0x8A, 0, 0, 'h', 'i'}
	var fields rtpwire.Fields
	fields.SetSSRC(77)
	fields.SetSequenceNumber(1)
	if err := fields.Apply(datagram); err != nil {
		log.Fatal(err)
	}
	if err := rtpwire.Renumber(datagram, ids); err != nil {
		log.Fatal(err)
	}
	fmt.Printf("% X\n", datagram)
	// Output: 90 60 00 01 00 00 00 A0 00 00 00 4D BE DE 00 01 50 8A 00 00 68 69
}

func ExamplePacket_AppendPlaces() {
	datagram := []byte{0x90, 96, 0, 5, 0, 0, 0, 160, 0, 0, 0, 7, 0xBE, 0xDE, 0, 2, 0x10, 0x8A, 0x21, 1, 2, 0, 0, 0}
	var packet rtpwire.Packet
	if err := packet.Parse(datagram, nil); err != nil {
		log.Fatal(err)
	}
	var places []rtpwire.Place // places[:0] for the next packet
	places = packet.AppendPlaces(places)
	for _, place := range places {
		fmt.Printf("%d: % X\n", place.ID, packet.Data(place))
	}
	// Output:
	// 1: 8A
	// 2: 01 02
}

func ExampleCause() {
	var packet rtpwire.Packet
	err := packet.Parse([]byte{0x80, 96, 0, 5}, nil)
	fmt.Println(errors.Is(err, rtpwire.ErrNotAPacket), errors.Is(err, rtpwire.CutFixedPart), err)
	// Output: true true rtpwire: fewer than twelve bytes
}

// This reads many datagrams of one buffer in one call, and has each judged by the receiver of its SSRC in another.
func ExampleHeaderBatch() {
	const slot = 32
	buf, lengths := make([]byte, 4*slot), make([]int, 4)
	for i, datagram := range [][]byte{
		{0x90, 96, 0, 5, 0, 0, 0, 160, 0, 0, 0, 7, 0xBE, 0xDE, 0, 1, 0x10, 0x8A, 0, 0, 'h', 'i'},
		{0x80, 96, 0, 5, 0, 0, 0, 160, 0, 0, 0, 8},
		{0x80, 96, 0, 6},
		{0x90, 96, 0, 5, 0, 0, 0, 160, 0, 0, 0, 7, 0xBE, 0xDE, 0, 1, 0x10, 0x8A, 0, 0, 'h', 'i'},
	} {
		lengths[i] = copy(buf[i*slot:], datagram)
	}
	m := rtpwire.StandardMap()           // 1 is the audio level
	first, err := rtpwire.NewReceiver(1) // nothing is authenticated: a packet from before the first one has a number too
	if err != nil {
		log.Fatal(err)
	}
	receivers := make([]rtpwire.Receiver, 0, 8)
	indices := make(map[uint32]int) // of each SSRC

	var batch rtpwire.HeaderBatch // both used again for each buffer
	var arrivals rtpwire.ArrivalBatch
	batch.Reset()
	for i, length := range lengths {
		batch.Add(i*slot, length)
	}
	batch.Parse(buf, m)
	arrivals.Reset()
	for i := 0; i < batch.Len(); i++ {
		header, err := batch.At(i)
		if err != nil {
			fmt.Println(err)
			continue
		}
		index, ok := indices[header.SSRC]
		if !ok {
			index = len(receivers)
			indices[header.SSRC], receivers = index, append(receivers, *first)
		}
		arrivals.Add(index, header.SequenceNumber)
		level, _, hasLevel := header.Values.AudioLevel()
		media, ok := batch.UnpaddedPayload(i)
		if !ok {
			fmt.Println("padding that is longer than its payload")
			continue
		}
		fmt.Printf("SSRC %d, audio at %d dB: %v, %q\n", header.SSRC, level, hasLevel, media)
	}
	arrivals.Receive(receivers)
	for i := 0; i < arrivals.Len(); i++ {
		number, err := arrivals.At(i)
		fmt.Println(number, err)
	}
	// Output:
	// SSRC 7, audio at -10 dB: true, "hi"
	// SSRC 8, audio at 0 dB: false, ""
	// rtpwire: fewer than twelve bytes
	// SSRC 7, audio at -10 dB: true, "hi"
	// 65541 <nil>
	// 65541 <nil>
	// 0 rtpwire: a replay, or too old to tell
}

// The fields alone take less time.
func ExamplePacketBatch() {
	buf := []byte{0x80, 0x21, 0xB7, 0x98, 0, 0, 0x27, 0x10, 0, 0, 0, 0x2C, 0x80, 0x21, 0xB7, 0x99, 0}
	var batch rtpwire.PacketBatch
	batch.Add(0, 12)
	batch.Add(12, 5)
	batch.Add(12, 6)
	batch.Parse(buf)
	for i := 0; i < batch.Len(); i++ {
		fields, err := batch.At(i)
		if err != nil {
			fmt.Println(err)
			continue
		}
		fmt.Println(fields.SequenceNumber, fields.Timestamp, fields.SSRC)
	}
	// Output:
	// 47000 10000 44
	// rtpwire: fewer than twelve bytes
	// rtpwire: an argument is out of its range
}

// A packet goes to two receivers, which have agreed to the same ids: each gets an SSRC and a transport number of its own.
func ExampleRouteBatch() {
	publisher, subscribers := new(rtpwire.Map), new(rtpwire.Map)
	for _, err := range []error{
		publisher.Set(1, rtpwire.KindAudioLevel), subscribers.Set(3, rtpwire.KindAudioLevel),
		subscribers.Set(4, rtpwire.KindTransportNumber),
	} {
		if err != nil {
			log.Fatal(err)
		}
	}
	group := rtpwire.Group{ // once for these receivers
		IDs:      rtpwire.NewIDsBetween(publisher, subscribers),
		Elements: []rtpwire.Place{{ID: 4, At: 0, Len: 2}},
	}
	buf := make([]byte, 1024) // for the headers of both
	var batch rtpwire.RouteBatch
	for i, ssrc := range []uint32{45, 46} {
		batch.Add(2 * i).SetSSRC(ssrc)
	}

	// For each packet:
	datagram := []byte{0x90, 96, 0, 5, 0, 0, 0, 160, 0, 0, 0, 7, 0xBE, 0xDE, 0, 1, 0x10, 0x8A, 0, 0, 'h', 'i'}
	data := []byte{0, 7, 0, 8} // two bytes for each receiver
	if err := batch.Route(datagram, &group, data, buf); err != nil {
		log.Fatal(err)
	}
	for i := 0; i < batch.Len(); i++ {
		header, err := batch.At(i)
		if err != nil {
			log.Fatal(err)
		}
		fmt.Printf("% X, and then %q\n", header, datagram[20:])
	}
	// Output:
	// 90 60 00 05 00 00 00 A0 00 00 00 2D BE DE 00 02 30 8A 41 00 07 00 00 00, and then "hi"
	// 90 60 00 05 00 00 00 A0 00 00 00 2E BE DE 00 02 30 8A 41 00 08 00 00 00, and then "hi"
}

// A receiver that lost a packet gets it again in its stream for retransmissions, beside one that gets it for the first time.
func ExampleRouteBatch_AddRetransmission() {
	datagram := []byte{0xA0, 96, 0, 5, 0, 0, 0, 160, 0, 0, 0, 7, 'h', 'i', 0, 2} // two bytes of padding
	var batch rtpwire.RouteBatch
	batch.Add(0).SetSSRC(46)
	fields := batch.AddRetransmission(0, 5)
	fields.SetPayloadType(97)
	fields.SetSequenceNumber(9)
	fields.SetSSRC(45)
	if err := batch.Route(datagram, &rtpwire.Group{}, nil, make([]byte, 1024)); err != nil {
		log.Fatal(err)
	}
	for i, payload := range [][]byte{datagram[12:], datagram[12:14]} {
		header, err := batch.At(i)
		if err != nil {
			log.Fatal(err)
		}
		fmt.Printf("% X, and then %q\n", header, payload)
	}
	// Output:
	// A0 60 00 05 00 00 00 A0 00 00 00 2E, and then "hi\x00\x02"
	// 80 61 00 09 00 00 00 A0 00 00 00 2D 00 05, and then "hi"
}

// Two mids that the peer chose are one text to Values: the bytes of the element tell them apart.
func ExamplePacket_Token() {
	m := new(rtpwire.Map)
	if err := m.Set(4, rtpwire.KindMID); err != nil {
		log.Fatal(err)
	}
	header := []byte{0x90, 96, 0, 5, 0, 0, 0, 160, 0, 0, 0, 7, 0xBE, 0xDE, 0, 2, 0x44}
	for _, text := range []string{"cam-1", "cam.1", "cam_1"} {
		datagram := append(append(header[:17:17], text...), 0, 0)
		var packet rtpwire.Packet
		if err := packet.Parse(datagram, m); err != nil {
			log.Fatal(err)
		}
		mid, _ := packet.Values().MID()
		token, ok := packet.Token(m.IDOf(rtpwire.KindMID))
		fmt.Println(mid, token, ok, rtpwire.KindMID.Keeps(token))
	}
	// Output:
	// cam_1 cam-1 true false
	// cam_1 cam.1 true false
	// cam_1 cam_1 true true
}

// Only what is refused is dropped: the first packet after a restart is taken.
func ExampleVerdict() {
	var receiver rtpwire.RestartingReceiver
	for _, sequenceNumber := range []uint16{60000, 60000, 7, 8, 9} {
		number, verdict := receiver.Receive(sequenceNumber)
		if verdict == rtpwire.Refused {
			fmt.Println(sequenceNumber, "is dropped")
			continue
		}
		if verdict == rtpwire.Restarted {
			fmt.Println("what hangs on numbers begins anew")
		}
		fmt.Println(sequenceNumber, "is taken as", number)
	}
	// Output:
	// 60000 is taken as 125536
	// 60000 is dropped
	// 7 is dropped
	// what hangs on numbers begins anew
	// 8 is taken as 196616
	// 9 is taken as 196617
}

// What was refused of the stream counts as received, and what is far from it does not.
func ExampleRestartingReceiver_InRow() {
	var receiver rtpwire.RestartingReceiver
	for _, sequenceNumber := range []uint16{60000, 60000, 58000, 7, 8} {
		number, verdict := receiver.Receive(sequenceNumber)
		switch {
		case verdict != rtpwire.Refused:
			fmt.Println(sequenceNumber, verdict, number)
		case receiver.InRow() == 0:
			number = receiver.NumberOf(sequenceNumber)
			fmt.Println(sequenceNumber, verdict, number, receiver.StandingOf(number))
		default:
			fmt.Println(sequenceNumber, verdict, "far from the stream")
		}
	}
	// Output:
	// 60000 taken 125536
	// 60000 refused 125536 taken already
	// 58000 refused 123536 too old to tell
	// 7 refused far from the stream
	// 8 restarted 196616
}

// A server that takes the SDP of strangers has a table for each call. Two peers agreed on an extension that the library
// doesn't know: its elements go from one to the other.
func ExampleOwnURIs() {
	var uris rtpwire.OwnURIs // of the call
	var publisher, subscriber rtpwire.Map
	for _, line := range []struct {
		m   *rtpwire.Map
		id  uint8
		uri string
	}{
		{&publisher, 1, "urn:ietf:params:rtp-hdrext:ssrc-audio-level"},
		{&publisher, 3, "urn:ietf:params:rtp-hdrext:framemarking"},
		{&subscriber, 5, "urn:ietf:params:rtp-hdrext:framemarking"},
	} {
		kind, err := uris.SetURI(line.m, line.id, line.uri)
		if err != nil {
			log.Fatal(err)
		}
		if kind == rtpwire.KindNone || kind.IsOwn() {
			fmt.Println(line.id, "isn't known:", line.uri)
		}
	}
	ids := rtpwire.NewIDsBetween(&publisher, &subscriber)
	fmt.Println(ids.Get(1), ids.Get(3), uris.URI(subscriber.Get(5)))
	// Output:
	// 3 isn't known: urn:ietf:params:rtp-hdrext:framemarking
	// 5 isn't known: urn:ietf:params:rtp-hdrext:framemarking
	// 0 5 urn:ietf:params:rtp-hdrext:framemarking
}

// How long a packet was on its way, by two clocks that agree.
func ExampleSendTime_Estimate() {
	arrival := time.Date(2026, 2, 3, 4, 5, 6, 0, time.UTC)
	sent, err := rtpwire.ParseSendTime([]byte{0xC7, 0xEF, 0x9D}) // 49 s and 257,949 of 262,144; the arrival is 50 s
	if err != nil {
		log.Fatal(err)
	}
	fmt.Println(arrival.Sub(sent.Estimate(arrival)))
	data, err := sent.Append(nil) // as it came
	fmt.Printf("% X %v\n", data, err)
	// Output:
	// 16.002655ms
	// C7 EF 9D <nil>
}

// The offset of RFC 5450 has three bytes and a sign, and is put into a packet and read as any element.
func ExampleAppendTransmissionOffset() {
	const id = 3
	buf := make([]byte, 100)
	copy(buf, []byte{0x80, 96, 0, 5, 0, 0, 0, 160, 0, 0, 0, 7})
	data, err := rtpwire.AppendTransmissionOffset(nil, -90)
	if err != nil {
		log.Fatal(err)
	}
	datagram, err := rtpwire.PutElementIn(buf, 12, id, data, rtpwire.AnyForm)
	if err != nil {
		log.Fatal(err)
	}
	fmt.Printf("% X\n", datagram[12:])

	var packet rtpwire.Packet
	if err := packet.Parse(datagram, nil); err != nil {
		log.Fatal(err)
	}
	data, _ = packet.Element(id)
	fmt.Println(rtpwire.ParseTransmissionOffset(data))
	// Output:
	// BE DE 00 01 32 FF FF A6
	// -90 <nil>
}

// one is a packet whose block has one element: the id 1, and AA. The buffer has room for a block that grows.
func one() (buf []byte, length int) {
	packet := []byte{0x90, 96, 0, 5, 0, 0, 0, 100, 0, 0, 0, 44, 0xBE, 0xDE, 0, 1, 0x10, 0xAA, 0, 0, 1}
	return append(packet, make([]byte, 100)...), len(packet)
}

func ExampleAddElement() {
	buf, length := one()
	datagram, err := rtpwire.AddElementIn(buf, length, 1, []byte{0xBB}, rtpwire.AnyForm)
	fmt.Printf("% X %v\n", datagram[12:], err)
	_, err = rtpwire.AddElementIn(buf, length, 15, []byte{0xBB}, rtpwire.OnlyOneByteForm)
	fmt.Println(errors.Is(err, rtpwire.ErrLongID), errors.Is(err, rtpwire.ErrFormNotAllowed))
	// Output:
	// BE DE 00 01 10 AA 10 BB 01 <nil>
	// true true
}

// In the two-byte form an element may have an id above 14.
func ExampleChangeForm() {
	buf, length := one()
	datagram, err := rtpwire.ChangeFormIn(buf, length, rtpwire.TwoByteForm)
	fmt.Printf("% X %v\n", datagram[12:], err)
	ids := new(rtpwire.NewIDs)
	ids.Set(1, 200)
	err = rtpwire.Renumber(datagram, ids)
	fmt.Printf("% X %v\n", datagram[12:], err)
	// Output:
	// 10 00 00 01 01 01 AA 00 01 <nil>
	// 10 00 00 01 C8 01 AA 00 01 <nil>
}

func ExamplePutBlock() {
	buf, length := one()
	datagram, err := rtpwire.PutBlockIn(buf, length, 0xABAC, []byte{1, 2, 3, 4, 5, 6, 7, 8})
	fmt.Printf("% X %v\n", datagram[12:], err)
	_, err = rtpwire.PutBlockIn(buf, length, 0xABAC, make([]byte, 4*65536))
	fmt.Println(errors.Is(err, rtpwire.ErrLongBlock))
	// Output:
	// AB AC 00 02 01 02 03 04 05 06 07 08 01 <nil>
	// true
}

func ExampleRemoveBlock() {
	buf, length := one()
	datagram, err := rtpwire.RemoveBlock(buf[:length])
	fmt.Printf("% X %v\n", datagram, err)
	// Output: 80 60 00 05 00 00 00 64 00 00 00 2C 01 <nil>
}

func ExampleParseFrameMarking() {
	marking, err := rtpwire.ParseFrameMarking([]byte{0xA9, 2, 7})
	if err != nil {
		log.Fatal(err)
	}
	fmt.Println(marking.Start, marking.End, marking.Independent, marking.Discardable)
	if marking.HasLayers {
		fmt.Println(marking.BaseLayerSync, marking.TemporalID, marking.LayerID, marking.TL0PicIdx)
	}
	marking.TemporalID = 8
	data, err := marking.Append(nil)
	fmt.Println(data, errors.Is(err, rtpwire.ErrBadField), err)
	// Output:
	// true false true false
	// true 1 2 7
	// [] true rtpwire: TemporalID is 8, and not 0 to 7
}

func ExampleOrientation_Append() {
	orientation := rtpwire.Orientation{Turn: 270, Camera: rtpwire.BackCamera, Flip: true}
	data, err := orientation.Append(nil)
	fmt.Printf("% X %v\n", data, err)
	// Output: 0D <nil>
}

func ExampleParseTransportNumber() {
	number, err := rtpwire.ParseTransportNumber([]byte{0x12, 0x34, 0x80, 5})
	if err != nil {
		log.Fatal(err)
	}
	fmt.Printf("%#x: feedback on %d packets, with times %v\n", number.Number, number.Packets, number.Timestamps)
	// Output: 0x1234: feedback on 5 packets, with times true
}

func ExampleExtendNTP56() {
	low, err := rtpwire.ParseNTP56([]byte{0, 0, 0, 0x80, 0, 0, 0})
	if err != nil {
		log.Fatal(err)
	}
	// Half a second before the 24 bits of the seconds begin again, and half a second after.
	fmt.Printf("%#x\n", rtpwire.ExtendNTP56(0x00FFFFFF_80000000, low))
	// Output: 0x100000080000000
}
