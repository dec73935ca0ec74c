//go:build race

package rtpwire

import (
	"runtime"
	"unsafe"
)

// racing is whether a race detector is told what the library reads and writes, into which it doesn't look.
const racing = true

// noEscape hides an address from the compiler, which would take what lies there from the stack: nothing keeps it.
func noEscape(at unsafe.Pointer) unsafe.Pointer {
	number := uintptr(at)
	return *(*unsafe.Pointer)(unsafe.Pointer(&number))
}

func reads(at unsafe.Pointer, size uintptr) {
	if size != 0 {
		runtime.RaceReadRange(noEscape(at), int(size))
	}
}

func writes(at unsafe.Pointer, size uintptr) {
	if size != 0 {
		runtime.RaceWriteRange(noEscape(at), int(size))
	}
}

func least(one, other uintptr) uintptr {
	if one < other {
		return one
	}
	return other
}

// headerLen is how many of the datagram's bytes are its header: of what is no packet at most those of a fixed part.
func headerLen(datagram *byte, n uintptr) uintptr {
	var packet PacketFields
	if text_packet_parse(datagram, n, packet.c()) != statusOK {
		return least(n, 12)
	}
	return uintptr(packet.payloadAt)
}

// readsPacket tells of the header, and of the last byte, which may tell the length of padding.
func readsPacket(datagram *byte, n uintptr) {
	reads(unsafe.Pointer(datagram), headerLen(datagram, n))
	if n != 0 {
		reads(unsafe.Add(unsafe.Pointer(datagram), n-1), 1)
	}
}

func writesHeader(datagram *byte, n uintptr) {
	writes(unsafe.Pointer(datagram), headerLen(datagram, n))
}

// readsDatagrams tells of each datagram that lies in the buffer.
func readsDatagrams(buf *byte, size uintptr, first *rtpw_datagram, count uintptr) {
	for _, it := range unsafe.Slice(first, count) {
		readsAt(buf, size, it.at, it.len)
	}
}

func readsDatagramHeaders(buf *byte, size uintptr, first *rtpw_datagram_header, count uintptr) {
	for i := range unsafe.Slice(first, count) {
		it := &unsafe.Slice(first, count)[i]
		readsAt(buf, size, it.at, it.len)
	}
}

func readsAt(buf *byte, size, at, n uintptr) {
	if n != 0 && at < size && n <= size-at {
		readsPacket((*byte)(unsafe.Add(unsafe.Pointer(buf), at)), n)
	}
}

// readsDataElements tells of the elements, and of the data of each.
func readsDataElements(first *rtpw_data_element, count uintptr) {
	for i := range unsafe.Slice(first, count) {
		it := &unsafe.Slice(first, count)[i]
		reads(unsafe.Pointer(it), unsafe.Sizeof(*it))
		reads(unsafe.Pointer(it.data), it.data_len)
	}
}

// writesReceivers tells of the receivers that packets are for.
func writesReceivers(first *rtpw_receiver, receivers uintptr, arrivals *rtpw_arrival, count uintptr) {
	for _, it := range unsafe.Slice(arrivals, count) {
		if it.receiver < receivers {
			it := &unsafe.Slice(first, receivers)[it.receiver]
			writes(unsafe.Pointer(it), unsafe.Sizeof(*it))
		}
	}
}

// endOf is where the last header ends of those that were written.
func endOf(first *rtpw_routed_header, count uintptr) (end uintptr) {
	for _, it := range unsafe.Slice(first, count) {
		if it.status == statusOK && it.at+uintptr(it.len) > end {
			end = it.at + uintptr(it.len)
		}
	}
	return end
}
