package rtp

import (
	"unsafe"

	"rtp-wire.example/rtpwire"
)

// What is unsafe here: a header and its extensions lie in memory as the structs of rtpwire that are read and written, which
// layout_test.go tests, and are given to it where they lie; and the addresses of bytes are compared.

// fixedPart is what the header begins with: its fields before CSRC.
func (h *Header) fixedPart() *rtpwire.FixedPart {
	return (*rtpwire.FixedPart)(unsafe.Pointer(h))
}

// elements are the extensions as they are written.
func (h *Header) elements() []rtpwire.DataElement {
	return *(*[]rtpwire.DataElement)(unsafe.Pointer(&h.Extensions))
}

// overlap is whether the two have a byte in common.
func overlap(one, other []byte) bool {
	if len(one) == 0 || len(other) == 0 {
		return false
	}
	at, otherAt := uintptr(unsafe.Pointer(&one[0])), uintptr(unsafe.Pointer(&other[0]))
	return at-otherAt < uintptr(len(other)) || otherAt-at < uintptr(len(one))
}
