package rtpwire_test

import (
	"strings"
	"testing"
	"time"

	"rtp-wire.example/rtpwire"
)

// Each of the 2^24 times is read and appended as it lies.
func TestEverySendTime(t *testing.T) {
	buf := make([]byte, 0, 3)
	for units := rtpwire.SendTime(0); units < 1<<24; units += 1 + units%7 {
		data, err := units.Append(buf)
		if err != nil || len(data) != 3 || data[0] != byte(units>>16) || data[1] != byte(units>>8) || data[2] != byte(units) {
			t.Fatal(units, data, err)
		}
		if read, err := rtpwire.ParseSendTime(data); err != nil || read != units {
			t.Fatal(units, read, err)
		}
	}
	same(t, "the last", read(rtpwire.ParseSendTime([]byte{0xFF, 0xFF, 0xFF})), read(rtpwire.SendTime(1<<24-1), nil))
	same(t, "appended", appended(t, rtpwire.SendTime(0x123456).Append), []byte{0x12, 0x34, 0x56})
	refused(t, rtpwire.SendTime(1<<24).Append, "the send time is 16777216, and not 0 to 16777215")
	refused(t, rtpwire.SendTime(1<<32-1).Append, "the send time is 4294967295, and not 0 to 16777215")
	notOf(t, rtpwire.ParseSendTime, 3)
}

// A unit is 2^-18 seconds, 3,814.697265625 ns, and NTP's seconds are those since 1900: 1970 began 2,208,988,800 seconds
// after it, which are a multiple of 64.
func TestSendTimesOfMoments(t *testing.T) {
	for _, row := range []struct {
		seconds, nanoseconds int64
		units                rtpwire.SendTime
	}{
		{0, 0, 0},
		{0, 3814, 0},
		{0, 3815, 1},
		{0, 7629, 1},
		{0, 7630, 2},
		{1, 0, 1 << 18},
		{1, 500000000, 3 << 17},
		{63, 999999999, 1<<24 - 1},
		{64, 0, 0},
		{1700000000, 0, 0},         // 26,562,500 times 64
		{1700000033, 0, 33 << 18},  //
		{2085978495, 0, 63 << 18},  // the last second of NTP's first era, which is 2^32 - 1
		{2085978496, 0, 0},         // the first one of its second
		{-1, 999999999, 1<<24 - 1}, // a nanosecond before 1970
	} {
		at := time.Unix(row.seconds, row.nanoseconds)
		same(t, at.UTC().String(), rtpwire.SendTimeOf(at), row.units)
	}
}

// The moment is the nearest to the arrival, across the 64 seconds and NTP's eras; half of them away it is the later one.
func TestEstimatedSendTimes(t *testing.T) {
	const second = int64(time.Second)
	for _, row := range []struct {
		arrival int64 // in seconds, and then
		after   int64 // in nanoseconds
		units   rtpwire.SendTime
		seconds int64
		sent    int64 // in nanoseconds: the unit's, rounded up
	}{
		{1700000000, 0, 0, 1700000000, 0},
		{1700000000, 20000000, 0, 1700000000, 0},
		{1700000000, 20000000, 1, 1700000000, 3815},              // 3,814.70
		{1700000000, 20000000, 131072, 1700000000, 500000000},    // after its arrival, by a clock that is ahead
		{1700000000, 20000000, 1<<24 - 1, 1699999999, 999996186}, // 999,996,185.3
		{1700000063, 999999999, 0, 1700000064, 0},
		{1700000031, 0, 63 << 18, 1700000063, 0}, // as far from both
		{1700000031, 1, 63 << 18, 1700000063, 0}, // 32 seconds less a nanosecond after it
		{1700000032, 0, 0, 1700000064, 0},
		{1700000031, 999999999, 0, 1700000000, 0},
		{1700000032, 1, 0, 1700000064, 0},
		{1700000000, 0, 32 << 18, 1700000032, 0},
		{1700000000, 0, 32<<18 + 1, 1699999968, 3815},
		{2085978496, 0, 63 << 18, 2085978495, 0},
		{2085978495, second / 2, 1 << 18, 2085978497, 0},
		{-1, 0, 1 << 18, 1, 0},
	} {
		arrival, sent := time.Unix(row.arrival, row.after).UTC(), time.Unix(row.seconds, row.sent).UTC()
		got := row.units.Estimate(arrival)
		same(t, arrival.String(), []any{got, rtpwire.SendTimeOf(got)}, []any{sent, row.units})
	}
	// Bits above the 24 aren't looked at; the arrival's location and monotonic clock are kept.
	arrival := time.Now()
	sent := (rtpwire.SendTimeOf(arrival.Add(-20*time.Millisecond)) | 0xFF000000).Estimate(arrival)
	since := arrival.Sub(sent)
	same(t, "a monotonic clock", strings.Contains(sent.String(), " m="), true)
	same(t, "20 ms", since >= 20*time.Millisecond-time.Nanosecond && since < 20*time.Millisecond+4*time.Microsecond, true)
	elsewhere := arrival.In(time.FixedZone("elsewhere", 3600))
	same(t, "elsewhere", rtpwire.SendTime(7).Estimate(elsewhere).Location(), elsewhere.Location())
}

// Each time is that of its moment again: none loses a unit.
func TestEstimatesLoseNothing(t *testing.T) {
	arrival := time.Unix(1700000000, 123456789)
	for units := rtpwire.SendTime(0); units < 1<<24; units += 1 + units%997 {
		sent := units.Estimate(arrival)
		if got := rtpwire.SendTimeOf(sent); got != units {
			t.Fatalf("%d: %v, and so %d", units, sent, got)
		}
		if got := rtpwire.SendTimeOf(sent.Add(-1)); got != (units-1)&(1<<24-1) {
			t.Fatalf("%d: %v isn't its first nanosecond", units, sent)
		}
	}
}

// RFC 8852, 3: letters and digits alone; a=rid and a mid have more (RFC 8851, 10; RFC 8866, 9).
func TestStreamIDs(t *testing.T) {
	letters := make([]byte, 256)
	for i := range letters {
		letters[i] = 'z' - byte(i%26)
	}
	for text, is := range map[string]bool{
		"": false, "a": true, "Z": true, "0": true, "hi9": true, "cam-1": false, "cam_1": false, "cam.1": false,
		" a": false, "a ": false, "\x00": false, "é": false, "@": false, "[": false, "`": false, "{": false, "/": false, ":": false,
		string(letters[:255]): true, string(letters): false,
	} {
		same(t, text, rtpwire.IsStreamID(text), is)
	}
	for _, text := range []string{"cam-1", "cam_1"} {
		same(t, text, read(rtpwire.ParseToken([]byte(text))), read(text, nil))
	}
}
