//go:build (linux || darwin) && !race

package rtpwire_test

import (
	"runtime"
	"runtime/debug"
	"strings"
	"syscall"
	"testing"
	"unsafe"

	"rtp-wire.example/rtpwire"
)

// untouchable is so many bytes of which each access faults.
func untouchable(t *testing.T, n int) []byte {
	t.Helper()
	pages, err := syscall.Mmap(-1, 0, 1<<16, syscall.PROT_NONE, syscall.MAP_ANON|syscall.MAP_PRIVATE)
	if err != nil {
		t.Fatal(err)
	}
	t.Cleanup(func() { _ = syscall.Munmap(pages) })
	return pages[:n:n]
}

// A fault within the library panics with a traceback that has the function of the library and its callers, also where the
// stack moves meanwhile, and what recovered goes on.
func TestFaults(t *testing.T) {
	debug.SetPanicOnFault(true)
	bad, good := untouchable(t, 40), datagramOf(t)
	places := unsafe.Slice((*rtpwire.Place)(unsafe.Pointer(&bad[0])), 1)
	element := []rtpwire.Place{{ID: 5, At: 0, Len: 3}}
	var m rtpwire.Map
	for name, it := range map[string]func(){
		"text_packet_read": func() { _ = new(rtpwire.Packet).Parse(bad, &m) },
		"text_put_element": func() {
			_, _ = rtpwire.PutElementIn(append(good, make([]byte, 9)...), len(good), 5, bad[:3], rtpwire.AnyForm)
		},
		"text_prepare_group":  func() { _, _ = (&rtpwire.Group{Elements: places}).Prepare() },
		"text_make_template":  func() { _ = new(rtpwire.HeaderTemplate).Make(bad, new(rtpwire.Group), nil) },
		"text_make_template ": func() { _ = new(rtpwire.HeaderTemplate).Make(good, &rtpwire.Group{Elements: element}, bad) },
		"text_make_template*": func() { _ = new(rtpwire.HeaderTemplate).Make(good, &rtpwire.Group{Elements: places}, good) },
	} {
		callers := faulted(it)
		for _, wanted := range []string{"rtpwire." + strings.Trim(name, " *"), "rtpwire_test.TestFaults", "testing.tRunner"} {
			if !strings.Contains(callers, wanted) {
				t.Errorf("%s: %s is not among %s", name, wanted, callers)
			}
		}
	}
}

func datagramOf(t *testing.T) []byte {
	t.Helper()
	return []byte{0x90, 96, 0, 5, 0, 0, 0, 160, 0, 0, 0, 7, 0xBE, 0xDE, 0, 1, 0x10, 0x8A, 0, 0, 'h', 'i'}
}

// faulted is which functions are told where the call faults; none where it doesn't.
func faulted(call func()) (callers string) {
	defer func() {
		if recover() == nil {
			return
		}
		moveStack(100)
		pcs := make([]uintptr, 100)
		frames := runtime.CallersFrames(pcs[:runtime.Callers(0, pcs)])
		for more := true; more; {
			var it runtime.Frame
			it, more = frames.Next()
			callers += it.Function + "\n"
		}
	}()
	call()
	return ""
}

func moveStack(depth int) byte {
	var room [1024]byte
	if depth != 0 {
		room[depth] = moveStack(depth - 1)
	}
	return room[depth]
}
