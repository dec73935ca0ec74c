package rtpwire_test

import (
	"fmt"
	"sync"
	"testing"

	"rtp-wire.example/rtpwire"
)

const (
	mid     = "urn:ietf:params:rtp-hdrext:sdes:mid"
	marking = "urn:ietf:params:rtp-hdrext:framemarking" // of RFC 9626, which has no number here
	spelled = "urn:ietf:params:rtp-hdrext:sdes:mld"
)

// Two maps of URIs carry an extension that the library doesn't know: its element gets the id of the other peer, as that
// of a known one does, and one that the other peer hasn't agreed to becomes padding.
func TestUnknownURIsArePassedOn(t *testing.T) {
	var from, to rtpwire.Map
	for _, row := range []struct {
		m       *rtpwire.Map
		id      uint8
		uri     string
		isOwn   bool
		element string
	}{
		{&from, 1, mid, false, ""},
		{&from, 2, marking, true, ""},
		{&from, 3, spelled, true, ""},
		{&to, 7, marking, true, ""},
		{&to, 9, mid, false, ""},
	} {
		kind, err := row.m.SetURI(row.id, row.uri)
		same(t, row.uri, []any{err, kind.IsOwn(), row.m.Get(row.id) == kind}, []any{nil, row.isOwn, true})
		same(t, row.uri, rtpwire.KindOfURI(row.uri) == rtpwire.KindNone, row.isOwn)
	}
	same(t, "one kind", []bool{from.Get(2) == to.Get(7), from.Get(2) == from.Get(3)}, []bool{true, false})
	datagram := []byte{0x90, 96, 0, 5, 0, 0, 0, 1, 0, 0, 0, 2, 0xBE, 0xDE, 0, 2, 0x10, 'a', 0x20, 0x80, 0x30, 'b', 0, 0, 'p'}
	same(t, "renumbered", rtpwire.Renumber(datagram, rtpwire.NewIDsBetween(&from, &to)), nil)
	same(t, "elements", datagram[16:], []byte{0x90, 'a', 0x70, 0x80, 0, 0, 0, 0, 'p'})
}

// A table has room for 128 URIs, whose kinds are all of one's own. One more has none: its id means nothing, and that is
// no error, and what is known is found as before.
func TestTablesOfURIs(t *testing.T) {
	var own rtpwire.OwnURIs
	var m rtpwire.Map
	same(t, "no URI", []any{own.KindOf(""), own.URI(255)}, []any{rtpwire.KindNone, ""})
	seen := make(map[rtpwire.Kind]bool)
	for i := 0; i < 128; i++ {
		uri := fmt.Sprint("urn:own:", i)
		kind, err := own.SetURI(&m, uint8(1+i), uri)
		same(t, uri, []any{err, kind >= rtpwire.KindOwn, kind.IsOwn(), seen[kind]}, []any{nil, true, true, false})
		seen[kind] = true
		same(t, uri, []any{own.KindOf(uri), m.Get(uint8(1 + i)), own.URI(kind)}, []any{kind, kind, uri})
	}
	same(t, "set", m.Set(200, rtpwire.KindRID), nil)
	kind, err := own.SetURI(&m, 200, "urn:own:128")
	same(t, "one more", []any{kind, err, m.Get(200), own.KindOf("urn:own:128")},
		[]any{rtpwire.KindNone, nil, rtpwire.KindNone, rtpwire.KindNone})
	kind, err = own.SetURI(&m, 201, "urn:own:7")
	same(t, "one of them", []any{kind, err, m.Get(201)}, []any{m.Get(8), nil, m.Get(8)})
	kind, err = own.SetURI(&m, 202, mid)
	same(t, "a known one", []any{kind, err, m.Get(202), own.URI(kind), kind.IsOwn()}, []any{rtpwire.KindMID, nil, rtpwire.KindMID, mid, false})

	same(t, "nothing kept", rtpwire.Kind(255).URI(), "")
}

// The id 0 takes no room in a table, and each table has its own. Their kinds don't meet: no map has those of two, and
// between maps of two the elements of known kinds alone go on.
func TestTwoTablesOfURIs(t *testing.T) {
	var first, second rtpwire.OwnURIs
	var from, to, known rtpwire.Map
	for i := 0; i < 200; i++ {
		kind, err := second.SetURI(&to, 0, fmt.Sprint("urn:", i))
		same(t, "the id 0", []any{kind, err}, []any{rtpwire.KindNone, rtpwire.ErrBadField})
	}
	for _, row := range []struct {
		own *rtpwire.OwnURIs
		m   *rtpwire.Map
		id  uint8
		uri string
	}{
		{&first, &from, 1, "urn:a"}, {&first, &from, 2, mid}, {&first, &from, 3, "urn:b"},
		{&second, &to, 4, "urn:b"}, {&second, &to, 5, mid}, {&first, &known, 6, mid}, {&second, &known, 7, "urn:b"},
	} {
		kind, err := row.own.SetURI(row.m, row.id, row.uri)
		same(t, row.uri, []any{err, row.own.URI(kind)}, []any{nil, row.uri})
	}
	same(t, "one number", []bool{from.Get(1) == to.Get(4), second.URI(254) == ""}, []bool{true, true})
	before := to
	for _, set := range []func() (rtpwire.Kind, error){
		func() (rtpwire.Kind, error) { return first.SetURI(&to, 9, "urn:b") },
		func() (rtpwire.Kind, error) { return to.SetURI(4, "urn:b") },
	} {
		kind, err := set()
		same(t, "of another table", []any{kind, err, to == before}, []any{rtpwire.KindNone, rtpwire.ErrBadField, true})
	}
	kind, err := first.SetURI(&to, 9, mid)
	same(t, "a known one", []any{kind, err}, []any{rtpwire.KindMID, nil})
	for i := 0; i < 128; i++ {
		kind, err := first.SetURI(&to, 9, fmt.Sprint("urn:refused:", i))
		same(t, "of another table", []any{kind, err}, []any{rtpwire.KindNone, rtpwire.ErrBadField})
	}
	same(t, "the first after urn:a and urn:b, since what is refused takes none", first.KindOf("urn:c"), rtpwire.Kind(253))
	kind, err = first.SetURI(&to, 9, "")
	same(t, "no URI", []any{kind, err, to.Get(9)}, []any{rtpwire.KindNone, nil, rtpwire.KindNone})

	for _, row := range []struct {
		from, to *rtpwire.Map
		ids      [4]uint8 // of 1, 2, 3 and 4
	}{
		{&from, &to, [4]uint8{0, 5, 0, 0}},
		{&to, &from, [4]uint8{}},
		{&from, &from, [4]uint8{1, 2, 3, 0}},
		{&to, &known, [4]uint8{3: 7}},
		{&from, nil, [4]uint8{}},
	} {
		ids := rtpwire.NewIDsBetween(row.from, row.to)
		same(t, "ids", [4]uint8{ids.Get(1), ids.Get(2), ids.Get(3), ids.Get(4)}, row.ids)
	}
	// Numbers that were taken from a table by hand are those of any.
	var byHand rtpwire.Map
	same(t, "set", byHand.Set(8, second.KindOf("urn:b")), nil)
	same(t, "by hand", rtpwire.NewIDsBetween(&to, &byHand).Get(4), uint8(8))
}

// Between maps of two tables the elements of each known kind go on, also of those that have no value here.
func TestKnownKindsBetweenTwoTables(t *testing.T) {
	var first, second rtpwire.OwnURIs
	var from, to rtpwire.Map
	for kind := rtpwire.KindAbsSendTime; kind <= rtpwire.KindNTP56; kind++ {
		same(t, kind.String(), []error{from.Set(uint8(kind), kind), to.Set(100+uint8(kind), kind)}, []error{nil, nil})
	}
	_, errFrom := first.SetURI(&from, 50, "urn:a")
	_, errTo := second.SetURI(&to, 60, "urn:a")
	same(t, "set", []error{errFrom, errTo}, []error{nil, nil})
	ids := rtpwire.NewIDsBetween(&from, &to)
	for kind := rtpwire.KindAbsSendTime; kind <= rtpwire.KindNTP56; kind++ {
		same(t, kind.String(), ids.Get(uint8(kind)), 100+uint8(kind))
	}
	same(t, "of two tables", ids.Get(50), uint8(0))
}

// The last kind that a full table gives is KindOwn, and is of its table as the others are.
func TestTheLastKindOfAFullTable(t *testing.T) {
	var first, second rtpwire.OwnURIs
	for i := 1; i < 128; i++ {
		first.KindOf(fmt.Sprint("urn:first:", i))
		second.KindOf(fmt.Sprint("urn:second:", i))
	}
	var from, to rtpwire.Map
	kind, err := first.SetURI(&from, 1, "urn:last")
	same(t, "the last one", []any{kind, err}, []any{rtpwire.KindOwn, nil})
	kind, err = second.SetURI(&to, 2, "urn:last of the second")
	same(t, "the last one of the second", []any{kind, err}, []any{rtpwire.KindOwn, nil})
	same(t, "of two tables", rtpwire.NewIDsBetween(&from, &to).Get(1), uint8(0))
	kind, err = second.SetURI(&from, 3, "urn:second:1")
	same(t, "of another table", []any{kind, err, from.Get(3)}, []any{rtpwire.KindNone, rtpwire.ErrBadField, rtpwire.KindNone})
	from.Remove(1)
	same(t, "none is left", from == rtpwire.Map{}, true)
}

// A URI is known by all of its letters, as it is written (RFC 8285, 5).
func TestLettersOfOwnURIs(t *testing.T) {
	var own rtpwire.OwnURIs
	seen := make(map[rtpwire.Kind]bool)
	for _, uri := range []string{"urn:x", "urn:X", "URN:x", "urn:x ", "urn:x\x00", " urn:x", "urn:x/", "urn:"} {
		kind := own.KindOf(uri)
		same(t, uri, []any{kind.IsOwn(), seen[kind], own.KindOf(uri), own.URI(kind)}, []any{true, false, kind, uri})
		seen[kind] = true
	}
}

// Numbers that are chosen by hand, from KindOwn on, aren't those of URIs.
func TestKindsByHandAndByURI(t *testing.T) {
	var own rtpwire.OwnURIs
	for i := 0; i < 64; i++ {
		same(t, "apart", own.KindOf(fmt.Sprint("urn:", i)) >= rtpwire.KindOwn+64, true)
	}
}

// Many goroutines that name the same URIs get the same kinds.
func TestURIsOfManyGoroutines(t *testing.T) {
	const goroutines, uris = 8, 101
	var own rtpwire.OwnURIs
	var maps [goroutines]rtpwire.Map
	var all sync.WaitGroup
	for g := range maps {
		all.Add(1)
		go func(m *rtpwire.Map, g int) {
			defer all.Done()
			for i := 0; i < uris; i++ {
				of := (i*(2*g+1) + g) % uris
				if _, err := own.SetURI(m, uint8(1+of), fmt.Sprint("urn:", of)); err != nil || own.URI(m.Get(uint8(1+of))) == "" {
					t.Error(of, err)
				}
			}
		}(&maps[g], g)
	}
	all.Wait()
	for _, m := range maps {
		same(t, "maps", m, maps[0])
	}
	same(t, "all of them", maps[0].Get(uris).IsOwn(), true)
}

// A map of the program's own table takes no kind of another one.
func TestMapOfTheProgramsTable(t *testing.T) {
	var m rtpwire.Map
	var other rtpwire.OwnURIs
	_, err := m.SetURI(1, "urn:of-the-program")
	same(t, "of the program", err, nil)
	kind, err := other.SetURI(&m, 2, "urn:of-another-table")
	same(t, "of another", []any{kind, err, m.Get(2)}, []any{rtpwire.KindNone, rtpwire.ErrBadField, rtpwire.KindNone})
}

// After the last kind that a table gave a map, whichever call took it off, the map may have those of another table, and is
// as one that never had any; before that it may not. A kind that a program chose by hand is of no table.
func TestTheLastKindOfATableIsRemoved(t *testing.T) {
	for name, remove := range map[string]func(m *rtpwire.Map, id uint8) error{
		"removed": func(m *rtpwire.Map, id uint8) error { m.Remove(id); return nil },
		"no URI": func(m *rtpwire.Map, id uint8) error {
			_, err := m.SetURI(id, "")
			return err
		},
	} {
		var first, second rtpwire.OwnURIs
		var m, byHand rtpwire.Map
		for id, uri := range []string{1: "urn:a", 2: "urn:b", 3: "urn:c", 4: "urn:a"} {
			if id != 0 {
				_, err := first.SetURI(&m, uint8(id), uri)
				same(t, name, err, nil)
			}
		}
		same(t, name, []error{m.Set(9, rtpwire.KindOwn), byHand.Set(9, rtpwire.KindOwn)}, []error{nil, nil})
		for _, id := range []uint8{2, 1, 4, 3} {
			_, err := second.SetURI(&m, 5, "urn:d")
			same(t, name+": not yet", []any{err, m.Get(5)}, []any{rtpwire.ErrBadField, rtpwire.KindNone})
			same(t, name, []any{remove(&m, id), m.Get(id)}, []any{nil, rtpwire.KindNone})
		}
		same(t, name, []bool{m == byHand, m == rtpwire.Map{}}, []bool{true, false})
		kind, err := second.SetURI(&m, 5, "urn:d")
		same(t, name+": of another table", []any{kind, err, m.Get(5)}, []any{second.KindOf("urn:d"), nil, kind})
		m.Remove(5)
		m.Remove(9)
		same(t, name, m == rtpwire.Map{}, true)
	}
}

// A known kind in place of the last one that a table gave leaves none of the table.
func TestTheLastKindOfATableIsReplaced(t *testing.T) {
	for name, replace := range map[string]func(m *rtpwire.Map) error{
		"set":          func(m *rtpwire.Map) error { return m.Set(1, rtpwire.KindMID) },
		"set by a URI": func(m *rtpwire.Map) error { _, err := m.SetURI(1, mid); return err },
	} {
		var first, second rtpwire.OwnURIs
		var m, known rtpwire.Map
		_, err := first.SetURI(&m, 1, "urn:a")
		same(t, name, []error{err, replace(&m), known.Set(1, rtpwire.KindMID)}, []error{nil, nil, nil})
		same(t, name, m == known, true)
		kind, err := second.SetURI(&m, 2, "urn:b")
		same(t, name+": of another table", []any{kind.IsOwn(), err}, []any{true, nil})
	}
}

// A kind that isn't set, as the id is 0 or the kind none of the library, takes none off.
func TestWhatIsNotSetStaysOfItsTable(t *testing.T) {
	var first, second rtpwire.OwnURIs
	var m rtpwire.Map
	_, err := first.SetURI(&m, 1, "urn:a")
	same(t, "set", []error{err, m.Set(1, rtpwire.KindNone), m.Set(1, 21), m.Set(0, rtpwire.KindMID)},
		[]error{nil, rtpwire.ErrBadField, rtpwire.ErrBadField, rtpwire.ErrBadField})
	m.Remove(7)
	_, err = second.SetURI(&m, 2, "urn:a")
	same(t, "of another table", []any{err, m.Get(1)}, []any{rtpwire.ErrBadField, first.KindOf("urn:a")})
}
