package rtpwire

import "time"

// Values are what the elements of a packet say under a map: for each kind the last element whose id means it and whose
// data are well-formed for it, to be set and written. They may be copied, and those that were read may be compared with ==.
type Values struct {
	ReadValues
}

// ReadValues are what the elements of a packet say ([Packet.Values]), each told with whether it is there. Some are read as
// str0m does and not as the standard of the extension has them: what says so names the call that does.
type ReadValues struct {
	sendTime              uint64
	captureTime           uint64
	captureOffset         int64
	playoutMin            ticks
	playoutMax            ticks
	transmissionOffset    uint32
	frameMarking          uint32
	transportNumber       uint16
	videoOrientation      uint16
	videoTiming           times
	timingFlags           uint8
	videoContentType      uint8
	audioLevel            int8
	voiceActivity         bool
	mid                   [17]byte
	rid                   [9]byte
	repairedRID           [9]byte
	hasSendTime           bool
	hasCaptureTime        bool
	hasCaptureOffset      bool
	hasTransmissionOffset bool
	hasFrameMarking       bool
	hasTransportNumber    bool
	hasVideoOrientation   bool
	hasVideoContentType   bool
	hasAudioLevel         bool
	hasVoiceActivity      bool
	hasPlayoutMin         bool
	hasPlayoutMax         bool
	hasVideoTiming        bool
	hasMID                bool
	hasRID                bool
	hasRepairedRID        bool
	hasLayers             bool
}

// ticks is a time: so many of so many a second.
type ticks struct {
	ticks uint64
	hertz uint32
}

// times are those of a VideoTiming.
type times struct {
	encodeStart, encodeFinish, packetizeComplete, lastLeftPacer uint16
}

// A VideoTiming says when a frame passed each step on its way out, in milliseconds after its capture.
type VideoTiming struct {
	Flags             uint8  // why the times were sent: bit 0 a timer, bit 1 a large frame
	EncodeStart       uint16 // when its encoding began,
	EncodeFinish      uint16 // and ended,
	PacketizeComplete uint16 // its last packet was made,
	LastLeftPacer     uint16 // and left the pacer
}

// SendTime is when the packet left its sender, in whole microseconds: as read modulo 64 seconds. [ParseSendTime] has the
// exact units.
func (v *ReadValues) SendTime() (micros uint64, ok bool) {
	return v.sendTime, v.hasSendTime
}

// SetSendTime sets the send time, in microseconds. Its whole units of 2^-18 seconds are written, modulo 64 seconds: of
// what was read nearly always one unit less ([SendTime.Append]).
func (v *Values) SetSendTime(micros uint64) {
	v.sendTime, v.hasSendTime = micros, true
}

// CaptureTime is when the frame was captured, as an NTP timestamp with 32 bits of fraction.
func (v *ReadValues) CaptureTime() (ntp uint64, ok bool) {
	return v.captureTime, v.hasCaptureTime
}

// SetCaptureTime sets the capture time, as an NTP timestamp with 32 bits of fraction.
func (v *Values) SetCaptureTime(ntp uint64) {
	v.captureTime, v.hasCaptureTime = ntp, true
}

// CaptureOffset is how far the capturer's clock is ahead of the sender's, in seconds with 32 bits of fraction.
func (v *ReadValues) CaptureOffset() (offset int64, ok bool) {
	return v.captureOffset, v.hasCaptureOffset
}

// SetCaptureOffset sets the capture offset, which is written with a capture time alone.
func (v *Values) SetCaptureOffset(offset int64) {
	v.captureOffset, v.hasCaptureOffset = offset, true
}

// PlayoutDelay is for how long the receiver may hold the frame at least and at most: whole hundredths of a second, up
// to 40.95 seconds.
func (v *ReadValues) PlayoutDelay() (least, most time.Duration, ok bool) {
	return v.playoutMin.duration(), v.playoutMax.duration(), v.hasPlayoutMin && v.hasPlayoutMax
}

// SetPlayoutDelay sets the playout delay, of which whole hundredths of a second are written, modulo 40.96 seconds. One
// below 0 counts as 0.
func (v *Values) SetPlayoutDelay(least, most time.Duration) {
	v.playoutMin, v.hasPlayoutMin = ticksOf(least), true
	v.playoutMax, v.hasPlayoutMax = ticksOf(most), true
}

func (t ticks) duration() time.Duration {
	if t.hertz == 0 {
		return 0
	}
	return time.Duration(t.ticks) * (time.Second / time.Duration(t.hertz))
}

func ticksOf(d time.Duration) ticks {
	if d < 0 {
		d = 0
	}
	return ticks{uint64(d), uint32(time.Second)}
}

// TransmissionOffset is str0m's, in ticks of the stream's clock: an element of four bytes without a sign. RFC 5450 has
// three, which this never reads: [ParseTransmissionOffset] does.
func (v *ReadValues) TransmissionOffset() (ticks uint32, ok bool) {
	return v.transmissionOffset, v.hasTransmissionOffset
}

// SetTransmissionOffset sets the transmission offset, of which four bytes are written. Only str0m takes those: for any
// other peer [AppendTransmissionOffset].
func (v *Values) SetTransmissionOffset(ticks uint32) {
	v.transmissionOffset, v.hasTransmissionOffset = ticks, true
}

// FrameMarking is the first four bytes of the frame marking, which is str0m's reading and not that of RFC 9626:
// [ParseFrameMarking].
func (v *ReadValues) FrameMarking() (marking uint32, ok bool) {
	return v.frameMarking, v.hasFrameMarking
}

// SetFrameMarking sets the four bytes of the frame marking, which are none of RFC 9626: [FrameMarking.Append].
func (v *Values) SetFrameMarking(marking uint32) {
	v.frameMarking, v.hasFrameMarking = marking, true
}

// TransportNumber is the packet's number over all streams of the transport, without the request for feedback of
// transport-wide-cc-02: [ParseTransportNumber].
func (v *ReadValues) TransportNumber() (number uint16, ok bool) {
	return v.transportNumber, v.hasTransportNumber
}

// SetTransportNumber sets the transport number.
func (v *Values) SetTransportNumber(number uint16) {
	v.transportNumber, v.hasTransportNumber = number, true
}

// VideoOrientation is how the picture is to be turned, in degrees counter-clockwise: 0, 90, 180 or 270. The element
// also says which camera it is of and whether it is mirrored, which is lost here: [ParseOrientation].
func (v *ReadValues) VideoOrientation() (degrees uint16, ok bool) {
	return v.videoOrientation, v.hasVideoOrientation
}

// SetVideoOrientation sets the orientation: Write returns ErrBadField where it is none of the four. A front camera and
// no flip are written: [Orientation.Append].
func (v *Values) SetVideoOrientation(degrees uint16) {
	v.videoOrientation, v.hasVideoOrientation = degrees, true
}

// VideoTiming is when the frame was encoded and sent. Of 12 bytes, the older form, it takes the first for flags, and it
// has neither network time: [ParseTiming].
func (v *ReadValues) VideoTiming() (timing VideoTiming, ok bool) {
	t := v.videoTiming
	return VideoTiming{v.timingFlags, t.encodeStart, t.encodeFinish, t.packetizeComplete, t.lastLeftPacer}, v.hasVideoTiming
}

// SetVideoTiming sets the video timing, of which 13 bytes are written, with network times of 0: [Timing.Append].
func (v *Values) SetVideoTiming(t VideoTiming) {
	v.videoTiming = times{t.EncodeStart, t.EncodeFinish, t.PacketizeComplete, t.LastLeftPacer}
	v.timingFlags, v.hasVideoTiming = t.Flags, true
}

// VideoContentType is 0 unspecified, 1 a screen.
func (v *ReadValues) VideoContentType() (contentType uint8, ok bool) {
	return v.videoContentType, v.hasVideoContentType
}

// SetVideoContentType sets the content type.
func (v *Values) SetVideoContentType(contentType uint8) {
	v.videoContentType, v.hasVideoContentType = contentType, true
}

// AudioLevel is in decibels relative to the overload point, -127 to 0, and whether the audio has voice.
func (v *ReadValues) AudioLevel() (level int8, voice, ok bool) {
	return v.audioLevel, v.voiceActivity, v.hasAudioLevel && v.hasVoiceActivity
}

// SetAudioLevel sets the audio level and the voice activity: Write returns ErrBadField where the level is none of -127
// to 0.
func (v *Values) SetAudioLevel(level int8, voice bool) {
	v.audioLevel, v.hasAudioLevel = level, true
	v.voiceActivity, v.hasVoiceActivity = voice, true
}

// MID is the media section that the packet is of (RFC 9143), up to 16 characters. Each other character than a letter or a
// digit is read as an underscore, and what is longer is cut: "cam-1", "cam_1" and "cam.1" are one. [Packet.Token] has
// the text as it lies, for a mid that the peer chose.
func (v *ReadValues) MID() (mid string, ok bool) {
	return textOf(v.mid[:]), v.hasMID
}

// SetMID sets the media section. It returns ErrBadField, and changes nothing, where it has more than 16 characters, or
// others than ASCII letters, digits and underscores.
func (v *Values) SetMID(mid string) error {
	return setText(v.mid[:], mid, &v.hasMID)
}

// RID is the stream that the packet is of (RFC 8852), up to 8 characters where the RFC has up to 255, changed and cut as
// MID is: [Packet.Token].
func (v *ReadValues) RID() (rid string, ok bool) {
	return textOf(v.rid[:]), v.hasRID
}

// SetRID sets the stream. It returns ErrBadField as SetMID does, and where it has more than 8 characters.
func (v *Values) SetRID(rid string) error {
	return setText(v.rid[:], rid, &v.hasRID)
}

// RepairedRID is the stream that this one repairs (RFC 8852), cut as RID is: [Packet.Token].
func (v *ReadValues) RepairedRID() (rid string, ok bool) {
	return textOf(v.repairedRID[:]), v.hasRepairedRID
}

// SetRepairedRID sets the stream that this one repairs. It returns ErrBadField as SetRID does.
func (v *Values) SetRepairedRID(rid string) error {
	return setText(v.repairedRID[:], rid, &v.hasRepairedRID)
}

// MostData is enough room for the data of an element of each kind.
const MostData = 16

// DataOf writes the data that an element of the kind has for these values, as [Header.WriteInto] would, to the front of the
// buffer, and returns them; the bytes after them stay. So one value is set where it lies:
//
//	var buf [rtpwire.MostData]byte
//	data, err := values.DataOf(rtpwire.KindAbsSendTime, buf[:])
//	if err == nil {
//		err = rtpwire.SetElement(datagram, m.IDOf(rtpwire.KindAbsSendTime), data)
//	}
//
// It returns ErrBadField where the kind is KindNone or one of 21 to 127, or a value, of this kind or not, is one that
// can't be written; ErrNotFound where a value that the kind needs isn't there, and always for KindColorSpace
// ([ColorSpace.Append]), KindLayers, those behind it and your own kinds; ErrShortBuffer. Then nothing changes.
func (v *ReadValues) DataOf(kind Kind, buf []byte) ([]byte, error) {
	length, err := dataOf(kind, v, buf)
	if err != nil {
		return nil, err
	}
	return buf[:length], nil
}

// AppendData appends the data of an element of this kind, as DataOf tells them, to the data: without a packet around them.
//
// It returns ErrNotFound where the value isn't there or the kind has no data here, and the data alone then.
func (v *ReadValues) AppendData(data []byte, kind Kind) ([]byte, error) {
	var room [MostData]byte
	own, err := v.DataOf(kind, room[:])
	if err != nil {
		return data, err
	}
	return append(data, own...), nil
}

// ParseValue is the value that these data of an element mean under this kind, as [Packet.Parse] has it: an audio level, say,
// without a packet around them. All other values aren't there.
//
// It returns ErrBadField where the data aren't well-formed for the kind, or it has no value among [Values].
func ParseValue(kind Kind, data []byte) (Values, error) {
	return parseValue(kind, data)
}

// Clear takes the value of the kind away, and those that an element of it has beside it: none of them is then left.
func (v *Values) Clear(kind Kind) {
	switch kind {
	case KindAbsSendTime:
		v.sendTime, v.hasSendTime = 0, false
	case KindAbsCaptureTime:
		v.captureTime, v.hasCaptureTime = 0, false
		v.captureOffset, v.hasCaptureOffset = 0, false
	case KindAudioLevel:
		v.audioLevel, v.hasAudioLevel = 0, false
		v.voiceActivity, v.hasVoiceActivity = false, false
	case KindTransmissionOffset:
		v.transmissionOffset, v.hasTransmissionOffset = 0, false
	case KindVideoOrientation:
		v.videoOrientation, v.hasVideoOrientation = 0, false
	case KindTransportNumber:
		v.transportNumber, v.hasTransportNumber = 0, false
	case KindPlayoutDelay:
		v.playoutMin, v.hasPlayoutMin = ticks{}, false
		v.playoutMax, v.hasPlayoutMax = ticks{}, false
	case KindVideoContentType:
		v.videoContentType, v.hasVideoContentType = 0, false
	case KindVideoTiming:
		v.videoTiming, v.timingFlags, v.hasVideoTiming = times{}, 0, false
	case KindRID:
		v.rid, v.hasRID = [9]byte{}, false
	case KindRepairedRID:
		v.repairedRID, v.hasRepairedRID = [9]byte{}, false
	case KindMID:
		v.mid, v.hasMID = [17]byte{}, false
	case KindFrameMarking:
		v.frameMarking, v.hasFrameMarking = 0, false
	case KindLayers:
		v.hasLayers = false
	}
}

// HasLayers is whether there is a layer allocation: [Layers.Parse] reads it.
func (v *ReadValues) HasLayers() bool {
	return v.hasLayers
}

// ofOneByte has the text of each byte.
var ofOneByte = func() (texts [256]string) {
	for i := range texts {
		texts[i] = string([]byte{byte(i)})
	}
	return texts
}()

// textOf is the text that a zero ends. Of one character, as nearly each mid is, it is no copy.
func textOf(room []byte) string {
	if c := room[0]; room[1] == 0 && c != 0 {
		return ofOneByte[c]
	}
	for n, c := range room {
		if c == 0 {
			return string(room[:n])
		}
	}
	return string(room)
}

func setText(room []byte, text string, has *bool) error {
	if !fits(text, len(room)) {
		return ErrBadField
	}
	for i := copy(room, text); i < len(room); i++ {
		room[i] = 0
	}
	*has = true
	return nil
}

// fits is whether the text is letters, digits and underscores, of which a zero ends so much room.
func fits(text string, room int) bool {
	for _, c := range []byte(text) {
		isLetter := 'a' <= c|0x20 && c|0x20 <= 'z'
		if !isLetter && (c < '0' || c > '9') && c != '_' {
			return false
		}
	}
	return len(text) < room
}
