package rtpwire_test

import (
	"bytes"
	"encoding/hex"
	"math"
	"math/rand"
	"strings"
	"testing"

	"rtp-wire.example/rtpwire"
)

// written is the packet that is written as its first byte, and what follows its twelve.
func written(t *testing.T, text string) []byte {
	t.Helper()
	bytes, err := hex.DecodeString(strings.ReplaceAll(text, " ", ""))
	if err != nil || len(bytes) == 0 {
		t.Fatal(text, err)
	}
	return append([]byte{bytes[0], 0x60, 0, 5, 0, 0, 0, 100, 0, 0, 0, 44}, bytes[1:]...)
}

// largest is how many bytes the longer one has.
func largest(one, other []byte) int {
	if len(one) < len(other) {
		return len(other)
	}
	return len(one)
}

type blockCall func(buf []byte, length int) ([]byte, error)

// becomes makes one packet the other in each buffer that has room for both, and in none with less.
func becomes(t *testing.T, before string, call blockCall, after string) {
	t.Helper()
	packet, wanted := written(t, before), written(t, after)
	for _, room := range []int{0, 1, 40} {
		size := largest(packet, wanted) + room
		buf := append(append([]byte(nil), packet...), bytes.Repeat([]byte{0xEE}, size-len(packet)+8)...)
		left := append([]byte(nil), buf...)
		made, err := call(buf[:size], len(packet))
		if err != nil || !bytes.Equal(made, wanted) || !bytes.Equal(buf[len(wanted):], left[len(wanted):]) {
			t.Errorf("%s: % X, % X, %v, wanted % X", before, made, buf, err, wanted)
		}
	}
	exact := atEnd(t, append(append([]byte(nil), packet...), wanted...)[:largest(packet, wanted)])
	made, err := call(exact, len(packet))
	same(t, "up to the end of the memory", []any{made, err}, []any{wanted, nil})
	if len(wanted) > len(packet) {
		buf := append(packet, bytes.Repeat([]byte{0xEE}, len(wanted))...)
		left := append([]byte(nil), buf...)
		made, err := call(buf[:len(wanted)-1], len(packet))
		same(t, "no room", []any{made, err, buf}, []any{[]byte(nil), rtpwire.ErrShortBuffer, left})
	}
}

// stays is refused with exactly this error, and leaves the buffer as it was.
func stays(t *testing.T, before string, call blockCall, wanted error) {
	t.Helper()
	packet := written(t, before)
	buf := append(packet, bytes.Repeat([]byte{0xEE}, 40)...)
	left := append([]byte(nil), buf...)
	made, err := call(buf, len(packet))
	same(t, before, []any{made, err, buf}, []any{[]byte(nil), wanted, left})
}

func adds(id uint8, data string, allowed rtpwire.Forms) blockCall {
	return func(buf []byte, length int) ([]byte, error) {
		return rtpwire.AddElementIn(buf, length, id, []byte(data), allowed)
	}
}

// By RFC 8285, 4.2 and 4.3: an element behind all others, in the one-byte form where that can carry it.
func TestAddElement(t *testing.T) {
	const one, two, both = rtpwire.OnlyOneByteForm, rtpwire.OnlyTwoByteForm, rtpwire.AnyForm
	becomes(t, "90 BEDE0001 10AA0000 01", adds(1, "\xBB", both), "90 BEDE0001 10AA10BB 01")
	becomes(t, "90 BEDE0001 10AA0000 01", adds(1, "\xBB", one), "90 BEDE0001 10AA10BB 01")
	becomes(t, "90 BEDE0001 10AA0000 01", adds(2, "\x07\x08", both), "90 BEDE0002 10AA2107 08000000 01")
	becomes(t, "90 BEDE0001 10AA0000 01", adds(15, "\x07", both), "90 10000002 0101AA0F 01070000 01")
	becomes(t, "90 BEDE0001 10AA0000 01", adds(1, "", both), "90 10000002 0101AA01 00000000 01")
	becomes(t, "90 BEDE0001 10AA0000 01", adds(2, "\x07", two), "90 10000002 0101AA02 01070000 01")
	becomes(t, "80 01", adds(1, "\x07", both), "90 BEDE0001 10070000 01")
	becomes(t, "80", adds(1, "\x07", two), "90 10000001 01010700")
	becomes(t, "90 100F0001 01010700 01", adds(1, "\x08", both), "90 100F0002 01010701 01080000 01")
	// An element of the id 0 goes, and what stands where reading ends: behind the id 15, and cut short.
	becomes(t, "90 BEDE0001 01AABB00 01", adds(1, "\x07", both), "90 BEDE0001 10070000 01")
	becomes(t, "90 BEDE0001 F0556677 01", adds(1, "\x07", both), "90 BEDE0001 10070000 01")
	becomes(t, "90 BEDE0001 10AA2355 01", adds(1, "\x07", both), "90 BEDE0001 10AA1007 01")

	stays(t, "90 BEDE0001 10AA0000 01", adds(15, "\x07", one), rtpwire.ErrLongID)
	stays(t, "90 10000001 01010700 01", adds(255, "", one), rtpwire.ErrLongID)
	stays(t, "90 ABAC0001 01020304 01", adds(15, "\x07", one), rtpwire.ErrOtherForm)
	stays(t, "90 BEDE0001 10AA0000 01", adds(2, "", one), rtpwire.ErrFormNotAllowed)
	stays(t, "90 BEDE0001 10AA0000 01", adds(2, strings.Repeat("7", 17), one), rtpwire.ErrFormNotAllowed)
	stays(t, "90 10000001 01010700 01", adds(1, "\x08", one), rtpwire.ErrFormNotAllowed)
	stays(t, "90 ABAC0001 01020304 01", adds(1, "\x08", both), rtpwire.ErrOtherForm)
	stays(t, "90 BEDE0001 10AA0000 01", adds(0, "\x07", both), rtpwire.ErrBadID)
	stays(t, "90 BEDE0001 10AA0000 01", adds(1, strings.Repeat("7", 256), both), rtpwire.ErrBadField)
	stays(t, "90 BEDE0001 10AA0000 01", adds(1, strings.Repeat("7", 65537), both), rtpwire.ErrBadField)
	stays(t, "90 BEDE0001 10AA0000 01", adds(1, "\x07", 3), rtpwire.ErrBadField)
	stays(t, "90 BEDE0002 10AA0000 01", adds(1, "\x07", both), rtpwire.CutBlock)
	// What an element of 16 bytes is in one form, one of 17 is in the other.
	becomes(t, "80", adds(14, strings.Repeat("7", 16), both), "90 BEDE0005 EF"+strings.Repeat("37", 16)+"000000")
	becomes(t, "80", adds(14, strings.Repeat("7", 17), both), "90 10000005 0E11"+strings.Repeat("37", 17)+"00")
	becomes(t, "80", adds(255, strings.Repeat("7", 255), both), "90 10000041 FFFF"+strings.Repeat("37", 255)+"000000")
}

// Several elements have one id: the last one counts, and PutElement puts one in place of them.
func TestElementsOfOneID(t *testing.T) {
	buf := make([]byte, 64)
	datagram := buf[:copy(buf, written(t, "90 BEDE0001 10AA0000 01"))]
	for _, data := range []string{"\xBB", "\xCC\xDD", "\xEE"} {
		var err error
		datagram, err = rtpwire.AddElementIn(buf, len(datagram), 1, []byte(data), rtpwire.OnlyOneByteForm)
		same(t, "added", err, nil)
	}
	same(t, "four", datagram, written(t, "90 BEDE0003 10AA10BB 11CCDD10 EE000000 01"))
	packet := parsed(t, datagram, nil)
	data, ok := packet.Element(1)
	same(t, "the last", []any{data, ok, len(packet.AppendPlaces(nil))}, []any{[]byte{0xEE}, true, 4})
	datagram, err := rtpwire.PutElementIn(buf, len(datagram), 1, []byte{7}, rtpwire.OnlyOneByteForm)
	same(t, "put", []any{datagram, err}, []any{written(t, "90 BEDE0003 10070000 00000000 00000000 01"), nil})
}

func changes(form rtpwire.Form) blockCall {
	return func(buf []byte, length int) ([]byte, error) {
		return rtpwire.ChangeFormIn(buf, length, form)
	}
}

func TestChangeForm(t *testing.T) {
	one, two := changes(rtpwire.OneByteForm), changes(rtpwire.TwoByteForm)
	becomes(t, "90 BEDE0001 10AA0000 01", two, "90 10000001 0101AA00 01")
	becomes(t, "90 10000001 0101AA00 01", one, "90 BEDE0001 10AA0000 01")
	becomes(t, "90 BEDE0001 10AA20BB 01", two, "90 10000002 0101AA02 01BB0000 01")
	becomes(t, "90 BEDE0002 0010AA00 0021BBCC 01", two, "90 10000002 0101AA02 02BBCC00 01")
	becomes(t, "90 BEDE0001 01AABB00 01", two, "90 10000001 00000000 01")
	becomes(t, "90 BEDE0001 10AAF055 01", two, "90 10000001 0101AA00 01")
	becomes(t, "90 BEDE0001 10AA2355 01", two, "90 10000001 0101AA00 01")
	becomes(t, "90 BEDE0000 01", two, "90 10000000 01")
	becomes(t, "90 100F0001 0101AA00 01", one, "90 BEDE0001 10AA0000 01")
	becomes(t, "90 10000002 01010701 01080000 01", one, "90 BEDE0002 10071008 00000000 01")
	sixteen, seventeen := strings.Repeat("37", 16), strings.Repeat("37", 17)
	becomes(t, "90 10000005 0E10"+sixteen+"0000 01", one, "90 BEDE0005 EF"+sixteen+"000000 01")
	// It has the form, or has no block.
	becomes(t, "90 BEDE0001 01AABB00 01", one, "90 BEDE0001 01AABB00 01")
	becomes(t, "90 100F0001 0F01AA00 01", two, "90 100F0001 0F01AA00 01")
	becomes(t, "80 01", one, "80 01")
	becomes(t, "80 01", two, "80 01")

	stays(t, "90 10000001 0F01AA00 01", one, rtpwire.ErrLongID)
	stays(t, "90 10000001 0100FF00 01", one, rtpwire.ErrLongID)
	stays(t, "90 10000001 01000000 01", one, rtpwire.ErrFormNotAllowed)
	stays(t, "90 10000005 0111"+seventeen+"00 01", one, rtpwire.ErrFormNotAllowed)
	stays(t, "90 ABAC0001 01020304 01", one, rtpwire.ErrOtherForm)
	stays(t, "90 ABAC0001 01020304 01", two, rtpwire.ErrOtherForm)
	for _, form := range []rtpwire.Form{rtpwire.NoBlock, rtpwire.OtherForm, 4, 255} {
		stays(t, "90 BEDE0001 10AA0000 01", changes(form), rtpwire.ErrBadField)
		stays(t, "80 01", changes(form), rtpwire.ErrBadField)
	}
	stays(t, "90 BEDE0002 10AA0000 01", two, rtpwire.CutBlock)
	// An id above 14 is put then.
	buf := append(written(t, "90 BEDE0001 10AA0000 01"), make([]byte, 20)...)
	ids := new(rtpwire.NewIDs)
	ids.Set(1, 200)
	same(t, "in the one-byte form", rtpwire.Renumber(buf[:21], ids), rtpwire.ErrLongID)
	datagram, err := rtpwire.ChangeFormIn(buf, 21, rtpwire.TwoByteForm)
	same(t, "changed", []any{len(datagram), err, rtpwire.Renumber(datagram, ids)}, []any{21, nil, nil})
	same(t, "renumbered", datagram, written(t, "90 10000001 C801AA00 01"))
}

func puts(profile uint16, body string) blockCall {
	return func(buf []byte, length int) ([]byte, error) {
		return rtpwire.PutBlockIn(buf, length, profile, []byte(body))
	}
}

// By RFC 3550, 5.3.1: 16 bits of a profile, the number of words, and these.
func TestPutBlock(t *testing.T) {
	becomes(t, "80 01", puts(0xABAC, "\x01\x02\x03\x04"), "90 ABAC0001 01020304 01")
	becomes(t, "80", puts(0xBEDE, "\x10\xAA\x00\x00"), "90 BEDE0001 10AA0000")
	becomes(t, "90 BEDE0001 10AA0000 01", puts(0xC0DE, ""), "90 C0DE0000 01")
	becomes(t, "90 ABAC0002 0102030405060708 01", puts(0x1000, "\x0F\x01\xAA\x00"), "90 10000001 0F01AA00 01")
	becomes(t, "90 ABAC0001 01020304 01", puts(0xFFFF, "12345678"), "90 FFFF0002 3132333435363738 01")
	becomes(t, "A1 00000009 0102", puts(0x1234, "\xAA\xBB\xCC\xDD"), "B1 00000009 12340001 AABBCCDD 0102")
	becomes(t, "80 01", puts(0, strings.Repeat("7", 1200)), "90 0000012C"+strings.Repeat("37", 1200)+"01")
	for _, length := range []int{1, 2, 3, 5, 262141, 262143, 262145} {
		stays(t, "90 BEDE0001 10AA0000 01", puts(0xABAC, strings.Repeat("7", length)), rtpwire.ErrBadField)
	}
	stays(t, "80 01", puts(0xABAC, strings.Repeat("7", 262144)), rtpwire.ErrLongBlock)
	stays(t, "80 01", puts(0xABAC, strings.Repeat("7", 262140)), rtpwire.ErrShortBuffer)
	stays(t, "40 01", puts(0xABAC, ""), rtpwire.OtherVersion)
	stays(t, "90 BEDE0002 10AA0000 01", puts(0xABAC, ""), rtpwire.CutBlock)
	buf := append([]byte{0x80}, make([]byte, 12+4+262140)...)
	datagram, err := rtpwire.PutBlockIn(buf, 13, 0xABAC, bytes.Repeat([]byte{7}, 262140))
	same(t, "the longest", []any{len(datagram), err, datagram[:18]},
		[]any{13 + 4 + 262140, nil, []byte{0x90, 0, 0, 0, 0, 0, 0, 0, 0, 0, 0, 0, 0xAB, 0xAC, 0xFF, 0xFF, 7, 7}})
}

func removes(buf []byte, length int) ([]byte, error) {
	return rtpwire.RemoveBlock(buf[:length])
}

func TestRemoveBlock(t *testing.T) {
	becomes(t, "90 BEDE0001 10AA0000 01", removes, "80 01")
	becomes(t, "90 BEDE0000", removes, "80")
	becomes(t, "90 100F0001 01010700 01", removes, "80 01")
	becomes(t, "90 ABAC0001 01020304 0102", removes, "80 0102")
	becomes(t, "B1 00000009 12340001 AABBCCDD 0102", removes, "A1 00000009 0102")
	becomes(t, "80 01", removes, "80 01")
	becomes(t, "A1 00000009 0102", removes, "A1 00000009 0102")
	stays(t, "90 BEDE0002 10AA0000 01", removes, rtpwire.CutBlock)
	stays(t, "40 01", removes, rtpwire.OtherVersion)
	none, err := rtpwire.RemoveBlock(nil)
	same(t, "no bytes", []any{none, err}, []any{[]byte(nil), rtpwire.CutFixedPart})
	// What is left of a block whose last element is gone.
	datagram := written(t, "90 BEDE0001 10AA0000 01")
	same(t, "removed", rtpwire.RemoveElement(datagram, 1), nil)
	datagram, err = rtpwire.Compact(datagram)
	same(t, "no words", []any{datagram, err}, []any{written(t, "90 BEDE0000 01"), nil})
	datagram, err = rtpwire.RemoveBlock(datagram)
	same(t, "no block", []any{datagram, err}, []any{written(t, "80 01"), nil})
}

// A block of 65,535 words is filled by 1,020 elements of 255 bytes in the two-byte form, and by 15,420 of 16 in the
// one-byte form.
func TestLongBlocks(t *testing.T) {
	begin := []byte{0x90, 0x60, 0, 5, 0, 0, 0, 100, 0, 0, 0, 44}
	element := append([]byte{3, 255}, bytes.Repeat([]byte{7}, 255)...)
	full := append(append(append([]byte(nil), begin...), 0x10, 0, 0xFF, 0xFF), bytes.Repeat(element, 1020)...)
	short := append(append(append([]byte(nil), begin...), 0xBE, 0xDE, 0xFF, 0xFF),
		bytes.Repeat(append([]byte{0x3F}, element[:16]...), 15420)...)
	same(t, "lengths", []int{len(full), len(short)}, []int{16 + 262140, 16 + 262140})
	for what, call := range map[string]func(buf []byte) ([]byte, error){
		"put":   func(buf []byte) ([]byte, error) { return rtpwire.PutElementIn(buf, len(full), 4, nil, rtpwire.AnyForm) },
		"added": func(buf []byte) ([]byte, error) { return rtpwire.AddElementIn(buf, len(full), 3, nil, rtpwire.AnyForm) },
	} {
		buf := append(append([]byte(nil), full...), make([]byte, 600)...)
		made, err := call(buf)
		same(t, what, []any{made, err, bytes.Equal(buf[:len(full)], full)}, []any{[]byte(nil), rtpwire.ErrLongBlock, true})
	}
	buf := append(append([]byte(nil), short...), make([]byte, 70000)...)
	made, err := rtpwire.ChangeFormIn(buf, len(short), rtpwire.TwoByteForm)
	same(t, "changed", []any{made, err, bytes.Equal(buf[:len(short)], short)}, []any{[]byte(nil), rtpwire.ErrLongBlock, true})
	// One element fewer, and there is room for one of 255 bytes.
	buf = append(append([]byte(nil), full...), 1)
	copy(buf[16+1019*257:], make([]byte, 257))
	made, err = rtpwire.AddElementIn(buf, len(buf), 9, element[2:], rtpwire.OnlyTwoByteForm)
	same(t, "the last", []any{len(made), err, made[16+1019*257 : 16+1019*257+3]}, []any{len(full) + 1, nil, []byte{9, 255, 7}})
}

// PutElement tells a bad id, one above 14 and a form that isn't allowed from other bad fields.
func TestWhatIsRefusedOfElements(t *testing.T) {
	stays(t, "90 BEDE0001 10AA0000 01", func(buf []byte, length int) ([]byte, error) {
		return rtpwire.PutElementIn(buf, length, 0, nil, rtpwire.AnyForm)
	}, rtpwire.ErrBadID)
	stays(t, "90 BEDE0001 10AA0000 01", func(buf []byte, length int) ([]byte, error) {
		return rtpwire.PutElementIn(buf, length, 15, nil, rtpwire.OnlyOneByteForm)
	}, rtpwire.ErrLongID)
	stays(t, "90 BEDE0001 10AA0000 01", func(buf []byte, length int) ([]byte, error) {
		return rtpwire.PutElementIn(buf, length, 14, nil, rtpwire.OnlyOneByteForm)
	}, rtpwire.ErrFormNotAllowed)
	stays(t, "90 10000001 0101AA00 01", func(buf []byte, length int) ([]byte, error) {
		return rtpwire.PutElementIn(buf, length, 1, []byte{7}, rtpwire.OnlyOneByteForm)
	}, rtpwire.ErrFormNotAllowed)
}

// Lengths that are none of the buffer, and no byte behind a slice, whose capacity goes on.
func TestBlocksOfNoBuffer(t *testing.T) {
	buf := append(sample(), bytes.Repeat([]byte{0xEE}, 27)...)
	before := append([]byte(nil), buf...)
	calls := map[string]blockCall{
		"added": adds(9, "\x07\x08\x09", rtpwire.AnyForm), "changed": changes(rtpwire.TwoByteForm), "put": puts(0xABAC, "123456789012"),
	}
	for what, call := range calls {
		for _, length := range []int{-1, math.MinInt64, 65, math.MaxInt64, -1 << 32, 1<<32 + 37} {
			made, err := call(buf, length)
			same(t, what, []any{made, err}, []any{[]byte(nil), rtpwire.ErrBadField})
		}
		made, err := call(buf[:32], 32)
		same(t, what, []any{made, err}, []any{[]byte(nil), rtpwire.ErrShortBuffer})
		same(t, "unchanged", buf, before)
	}
}

// Data that overlap what is written give what a copy of them gives, wherever they lie.
func TestDataOfTheBufferInABlock(t *testing.T) {
	random := rand.New(rand.NewSource(2))
	both := func(what string, packet []byte, call func(buf, data []byte) ([]byte, error), at, end int) {
		t.Helper()
		apart, within := append([]byte(nil), packet...), append([]byte(nil), packet...)
		wanted, err := call(apart, append([]byte(nil), packet[at:end]...))
		made, found := call(within, within[at:end])
		same(t, what, []any{made, found, within}, []any{wanted, err, apart})
	}
	for i := 0; i < 3000; i++ {
		packet := append(sample(), make([]byte, 30)...)
		random.Read(packet[32:])
		at := random.Intn(50)
		end, id, words := at+random.Intn(17), uint8(1+random.Intn(20)), random.Intn(8)
		both("added", packet, func(buf, data []byte) ([]byte, error) {
			return rtpwire.AddElementIn(buf, 37, id, data, rtpwire.AnyForm)
		}, at, end)
		from := random.Intn(len(packet) - 4*words)
		both("block", packet, func(buf, data []byte) ([]byte, error) {
			return rtpwire.PutBlockIn(buf, 37, 0xABAC, data)
		}, from, from+4*words)
	}
}

// elementsOf is the elements of a packet, but for those of the id 0, and its payload.
func elementsOf(t *testing.T, datagram []byte) (elements []string, payload []byte) {
	t.Helper()
	packet := parsed(t, datagram, nil)
	for _, place := range packet.AppendPlaces(nil) {
		if place.ID != 0 {
			elements = append(elements, string(append([]byte{place.ID}, packet.Data(place)...)))
		}
	}
	return elements, packet.Payload()
}

// A block that was taken off is put again, and what is read of a block that was changed is what was read before.
func FuzzBlocks(f *testing.F) {
	f.Add(sample(), uint8(3), []byte{7})
	f.Add(camera(), uint8(1), []byte{})
	f.Add([]byte{0x90, 0, 0, 1, 0, 0, 0, 2, 0, 0, 0, 3, 0x10, 1, 0, 2, 4, 1, 7, 0, 15, 2, 8, 9}, uint8(255), make([]byte, 17))
	f.Add([]byte{0x90, 0, 0, 1, 0, 0, 0, 2, 0, 0, 0, 3, 0xBE, 0xDE, 0, 2, 1, 7, 8, 0, 0x1F, 2, 8, 9}, uint8(1), make([]byte, 16))
	f.Fuzz(func(t *testing.T, datagram []byte, id uint8, data []byte) {
		copied := func() []byte { return append(append([]byte(nil), datagram...), make([]byte, len(datagram)+512)...) }
		var packet rtpwire.Packet
		refused := packet.Parse(datagram, nil)
		bare, err := rtpwire.RemoveBlock(copied()[:len(datagram)])
		same(t, "taken off", err, refused)
		if refused != nil {
			return
		}
		before, payload := elementsOf(t, datagram)
		form, body := packet.Block()
		if form == rtpwire.NoBlock {
			same(t, "none was there", bare, datagram)
		} else {
			buf := append(bare, make([]byte, 4+len(body))...)
			back, err := rtpwire.PutBlockIn(buf, len(bare), packet.BlockProfile(), body)
			same(t, "put again", []any{back, err}, []any{datagram, nil})
		}
		if made, err := rtpwire.AddElementIn(copied(), len(datagram), id, data, rtpwire.AnyForm); err == nil {
			elements, behind := elementsOf(t, made)
			same(t, "added", []any{elements, behind}, []any{append(before, string(append([]byte{id}, data...))), payload})
		}
		for _, form := range []rtpwire.Form{rtpwire.OneByteForm, rtpwire.TwoByteForm} {
			if made, err := rtpwire.ChangeFormIn(copied(), len(datagram), form); err == nil {
				elements, behind := elementsOf(t, made)
				same(t, "changed", []any{elements, behind}, []any{before, payload})
			}
		}
	})
}
