//go:build !race

package rtpwire

import "unsafe"

const racing = false

func reads(unsafe.Pointer, uintptr) {}

func writes(unsafe.Pointer, uintptr) {}

func least(one, _ uintptr) uintptr { return one }

func readsPacket(*byte, uintptr) {}

func writesHeader(*byte, uintptr) {}

func readsDatagrams(*byte, uintptr, *rtpw_datagram, uintptr) {}

func readsDatagramHeaders(*byte, uintptr, *rtpw_datagram_header, uintptr) {}

func readsDataElements(*rtpw_data_element, uintptr) {}

func writesReceivers(*rtpw_receiver, uintptr, *rtpw_arrival, uintptr) {}

func endOf(*rtpw_routed_header, uintptr) uintptr { return 0 }
