package rtpwire_test

import (
	"math/rand"
	"testing"

	"rtp-wire.example/rtpwire"
)

// What is routed by a group that was prepared is byte for byte what is routed by the group, with an error where that has
// one: of a group that can't be prepared before it sees a packet.
func TestPreparedGroupIsTheGroup(t *testing.T) {
	random, served := rand.New(rand.NewSource(84)), 0
	var by, prepared rtpwire.RouteBatch
	for round := 0; round < 4000; round++ {
		group := rtpwire.Group{Allowed: rtpwire.Forms(random.Intn(4)), IDs: new(rtpwire.NewIDs)}
		for id := 1; id < 256; id++ {
			group.IDs.Set(uint8(id), uint8(random.Intn(3)*id))
		}
		data := make([]byte, 300)
		random.Read(data)
		for i := random.Intn(4); i > 0; i-- {
			group.Elements = append(group.Elements, rtpwire.Place{ID: uint8(random.Intn(20)), Len: random.Intn(18)})
		}
		packet := [][]byte{sample(), camera(), everyValue, routable(), plain(5), sample()[:11]}[random.Intn(6)]
		one, other := make([]byte, 800), make([]byte, 800)
		by.Reset()
		prepared.Reset()
		for i := 0; i < 2; i++ {
			by.Add(40 * i).SetSSRC(uint32(i))
			prepared.Add(40 * i).SetSSRC(uint32(i))
		}
		wanted := by.Route(packet, &group, data, one)
		it, err := group.Prepare()
		if err == nil {
			err = prepared.RoutePrepared(packet, it, data, other)
		}
		if wanted != nil {
			same(t, "refused", []any{err != nil, prepared.Len()}, []any{true, 0})
			continue
		}
		served++
		same(t, "headers", []any{err, other, prepared.Len()}, []any{nil, one, 2})
	}
	same(t, "many are served", served > 500, true)
}

func TestGroupsThatAreNotPrepared(t *testing.T) {
	sixteen := make([]rtpwire.Place, 16)
	for i := range sixteen {
		sixteen[i] = rtpwire.Place{ID: uint8(i + 1), Len: 255}
	}
	it, err := (&rtpwire.Group{Elements: sixteen}).Prepare()
	same(t, "sixteen", err, nil)
	same(t, "data", it.DataLen(), 4080)
	for _, row := range []struct {
		group rtpwire.Group
		err   error
	}{
		{rtpwire.Group{Allowed: 3}, rtpwire.ErrBadField},
		{rtpwire.Group{Elements: append(sixteen[:16:16], rtpwire.Place{ID: 17})}, rtpwire.ErrBadField},
		{rtpwire.Group{Elements: []rtpwire.Place{{ID: 1, Len: 256}}}, rtpwire.ErrBadField},
		{rtpwire.Group{Elements: []rtpwire.Place{{ID: 1}, {ID: 1}}}, rtpwire.ErrBadField},
		{rtpwire.Group{Elements: []rtpwire.Place{{ID: 0}}}, rtpwire.ErrBadID},
	} {
		it, err = row.group.Prepare()
		same(t, "refused", []any{it, err}, []any{(*rtpwire.PreparedGroup)(nil), row.err})
	}
	var batch rtpwire.RouteBatch
	batch.Add(0)
	odd, err := (&rtpwire.Group{Elements: []rtpwire.Place{{ID: 7, Len: 2}}}).Prepare()
	same(t, "prepared", err, nil)
	same(t, "a packet", batch.RoutePrepared(routable(), odd, []byte{8, 9}, make([]byte, 64)), nil)
	header, err := batch.At(0)
	same(t, "header", []any{header[12:], err}, []any{[]byte{0xBE, 0xDE, 0, 1, 0x71, 8, 9, 0}, nil})
	same(t, "no packet", batch.RoutePrepared(routable()[:11], odd, []byte{8, 9}, make([]byte, 64)), rtpwire.CutFixedPart)
	same(t, "none", batch.Len(), 0)
	batch.Reset()
	batch.Add(0)
	var made rtpwire.HeaderTemplate
	same(t, "made", made.MakePrepared(routable(), odd), nil)
	same(t, "lengths", []int{made.HeaderLen(), made.DataLen()}, []int{20, 2})
	same(t, "written", batch.Write(&made, []byte{8, 9}, make([]byte, 64)), nil)
	header, err = batch.At(0)
	same(t, "header", []any{header[12:], err}, []any{[]byte{0xBE, 0xDE, 0, 1, 0x71, 8, 9, 0}, nil})
	same(t, "not made", made.MakePrepared(routable()[:11], odd), rtpwire.CutFixedPart)
	same(t, "none", made.HeaderLen(), 0)
	room, packet, data := make([]byte, 64), routable(), []byte{8, 9}
	taken := testing.AllocsPerRun(100, func() {
		if batch.RoutePrepared(packet, odd, data, room) != nil {
			t.Error("not routed")
		}
	})
	same(t, "memory", taken, 0.0)
}
