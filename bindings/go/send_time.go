package rtpwire

import "time"

// A SendTime is when a packet left its sender (http://www.webrtc.org/experiments/rtp-hdrext/abs-send-time), in the 24
// bits of its element: units of 2^-18 seconds, modulo 64 seconds, of the sender's clock. [ReadValues.SendTime] has whole
// microseconds, of which nearly all of the 2^24 times lose one unit where they are read and written: who sends a time on
// as it came, or reckons with it, takes this.
type SendTime uint32

// SendTimeOf is the send time at this moment: the whole units of its NTP timestamp.
func SendTimeOf(t time.Time) SendTime {
	return SendTime(ntpOf(t) >> 14 & (1<<24 - 1))
}

// ParseSendTime reads a send time: FF FF FF is the last unit of the 64 seconds. It returns ErrBadField where there are
// not three bytes.
func ParseSendTime(data []byte) (SendTime, error) {
	units, err := readSendTime(data)
	return SendTime(units), err
}

// Append appends the three bytes of the send time. It returns ErrBadField where it is 2^24 or more.
func (s SendTime) Append(data []byte) ([]byte, error) {
	if err := inRange("the send time", int(s), 0, 1<<24-1); err != nil {
		return data, err
	}
	return appendSendTime(data, uint32(s))
}

// Estimate is the moment at which the packet was sent that arrived then: of those that have this send time the one that
// is nearest to the arrival, and of two that are equally near the later one, in the location of the arrival, and with
// its monotonic clock. It is so where the clocks of the two are less than 32 seconds apart. A unit is no whole number of
// nanoseconds: it is the first one within it, so that its SendTimeOf is this one.
func (s SendTime) Estimate(arrival time.Time) time.Time {
	near := ntpOf(arrival)
	sent := extendSendTime(near, uint32(s))
	seconds := int64(int32(uint32(sent>>32) - uint32(near>>32)))
	nanoseconds := int64((uint64(uint32(sent))*1e9 + 1<<32 - 1) >> 32)
	return arrival.Add(time.Duration(seconds*1e9 + nanoseconds - int64(arrival.Nanosecond())))
}

// ntpOf is the NTP timestamp of this moment, with 32 bits of fraction (RFC 5905, 6): of the era that it is in.
func ntpOf(t time.Time) uint64 {
	const from1900To1970 = 2208988800
	seconds := uint64(t.Unix() + from1900To1970)
	return seconds<<32 | uint64(t.Nanosecond())<<32/1e9
}
