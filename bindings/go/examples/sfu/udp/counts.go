package udp

import "fmt"

// Counts say what became of the datagrams of the sender: each one is counted in one of the first six.
type Counts struct {
	Taken      uint64
	Replays    uint64 // taken before
	Late       uint64 // too old to tell, or far from the stream
	RTCP       uint64 // for who answers it: here nobody
	Unreadable uint64
	Strangers  uint64 // of one more SSRC than there is room for
	Sent       uint64 // packets to receivers
	Unsent     uint64 // to a receiver whose header had no room, or that the system didn't send
}

// String says them in a line.
func (c Counts) String() string {
	return fmt.Sprintf("taken %d replays %d late %d rtcp %d unreadable %d strangers %d sent %d unsent %d", c.Taken,
		c.Replays, c.Late, c.RTCP, c.Unreadable, c.Strangers, c.Sent, c.Unsent)
}
