package rtpwire_test

import (
	"runtime"
	"testing"
	"time"

	"rtp-wire.example/rtpwire"
)

// isGivenUp is whether the memory of a buffer is free once it was used: whatever used it keeps it no longer.
func isGivenUp(use func(buf []byte)) bool {
	freed := make(chan struct{})
	func() {
		buf := new([4096]byte)
		copy(buf[:], sample())
		runtime.SetFinalizer(buf, func(*[4096]byte) { close(freed) })
		use(buf[:])
	}()
	for i := 0; i < 50; i++ {
		runtime.GC()
		select {
		case <-freed:
			return true
		case <-time.After(10 * time.Millisecond):
		}
	}
	return false
}

// A batch that was Reset keeps no buffer.
func TestResetGivesTheBufferUp(t *testing.T) {
	var headers rtpwire.HeaderBatch
	var packets rtpwire.PacketBatch
	var routes rtpwire.RouteBatch
	for name, use := range map[string]func(buf []byte){
		"HeaderBatch": func(buf []byte) {
			headers.Add(0, len(sample()))
			headers.Parse(buf, nil)
			headers.Reset()
		},
		"PacketBatch": func(buf []byte) {
			packets.Add(0, len(sample()))
			packets.Parse(buf)
			packets.Reset()
		},
		"RouteBatch": func(buf []byte) {
			routes.Add(0)
			if err := routes.Route(sample(), new(rtpwire.Group), nil, buf); err != nil {
				t.Error(err)
			}
			routes.Reset()
		},
	} {
		if !isGivenUp(use) {
			t.Error(name)
		}
	}
	runtime.KeepAlive(&headers)
	runtime.KeepAlive(&packets)
	runtime.KeepAlive(&routes)
}
