package rtpwire

import (
	"fmt"
	"strconv"
)

// The data of one element as the standard of its extension has them, where Values has another reading, that of str0m,
// or none. What is read is what Packet.Element lends, and what is appended is for PutElement, SetElement and
// WriteElements.
//
// Each Parse function returns ErrBadField where the data are not well-formed for the value, and each Append, with the
// data as they were, where a field is out of its range: the error says which.

// A fieldError is an ErrBadField that says which field is out of its range.
type fieldError string

func (e fieldError) Error() string {
	return "rtpwire: " + string(e)
}

func (e fieldError) Is(target error) bool {
	return target == ErrBadField
}

// inRange is nil where the value of the field is in this range.
func inRange(field string, value, least, most int) error {
	if least <= value && value <= most {
		return nil
	}
	return fieldError(fmt.Sprintf("%s is %d, and not %d to %d", field, value, least, most))
}

// ParseTransmissionOffset reads a transmission time offset, in three bytes with a sign: how long after the time of its
// timestamp the packet was sent, in ticks of the stream's clock, -8,388,608 to 8,388,607 (RFC 5450, 3). FF FF FE is -2.
// It returns ErrBadField where there are not three bytes. [ReadValues.TransmissionOffset] has str0m's, which are four.
func ParseTransmissionOffset(data []byte) (ticks int32, err error) {
	return readTransmissionOffset(data)
}

// AppendTransmissionOffset appends the data of a transmission time offset in ticks of the stream's clock: -2 is
// FF FF FE. It returns ErrBadField where it is none of -8,388,608 to 8,388,607.
func AppendTransmissionOffset(data []byte, ticks int32) ([]byte, error) {
	if err := inRange("the transmission offset", int(ticks), -1<<23, 1<<23-1); err != nil {
		return data, err
	}
	return appendTransmissionOffset(data, ticks)
}

// A FrameMarking is what a packet is to its frame, and the frame to its stream (RFC 9626, 3): one byte for a stream
// without layers, and two or three for one with. [ReadValues.FrameMarking] has str0m's number of four bytes, which is none.
// KindFrameMarking is of the draft's URI; that of RFC 9626, urn:ietf:params:rtp-hdrext:framemarking, has none, and so one
// of your own by [Map.SetURI].
type FrameMarking struct {
	Start         bool  // the packet is the first of its frame
	End           bool  // it is the last of its frame
	Independent   bool  // the frame can be decoded without any frame before it
	Discardable   bool  // no other frame needs this one
	HasLayers     bool  // the stream has layers: without them none of what follows is looked at
	BaseLayerSync bool  // the frame depends on the base temporal layer alone; with a TemporalID of 0 RFC 9626 has false
	TemporalID    uint8 // the temporal layer, 0 to 7; 0 is the base layer
	LayerID       uint8 // the spatial and quality layer, by the numbers of its codec
	HasTL0PicIdx  bool  // the next one is sent
	TL0PicIdx     uint8 // the running number of the frame of the base temporal layer
}

// ParseFrameMarking reads a frame marking: A9 02 07 is the first packet of a frame that is independent, in the temporal
// layer 1 with BaseLayerSync, the layer 2 and the number 7. Of one byte the low four bits are not looked at. It returns
// ErrBadField where there are none or more than three bytes.
func ParseFrameMarking(data []byte) (FrameMarking, error) {
	return readFrameMarking(data)
}

// Append appends the data of the marking. It returns ErrBadField where there are layers and the temporal one is above
// 7.
func (m FrameMarking) Append(data []byte) ([]byte, error) {
	if m.HasLayers {
		if err := inRange("TemporalID", int(m.TemporalID), 0, 7); err != nil {
			return data, err
		}
	}
	return appendFrameMarking(data, &m)
}

// A Camera says which way the camera of a video faces.
type Camera uint8

// The cameras.
const (
	FrontCamera Camera = 0 // towards the user
	BackCamera  Camera = 1 // away from the user
)

// An Orientation is how a picture was taken, and is to be shown (3GPP TS 26.114, 7.4.5): one byte. Of it
// [ReadValues.VideoOrientation] has the turn alone, and writes a front camera and no flip.
type Orientation struct {
	Turn   uint16 // how the receiver has to turn the picture, in degrees counter-clockwise: 0, 90, 180 or 270
	Camera Camera // which way the camera faces
	Flip   bool   // the picture is mirrored, left for right, as it is sent, before the receiver turns it
}

// ParseOrientation reads an orientation: 0D is of the back camera, mirrored, and to be turned by 270 degrees. The high
// four bits are not looked at. It returns ErrBadField where there is not one byte.
func ParseOrientation(data []byte) (Orientation, error) {
	return readOrientation(data)
}

// Append appends the data of the orientation. It returns ErrBadField where the turn is none of the four, or the camera
// neither of the two.
func (o Orientation) Append(data []byte) ([]byte, error) {
	if o.Turn > 270 || o.Turn%90 != 0 {
		return data, fieldError(fmt.Sprintf("Turn is %d, and none of 0, 90, 180 and 270", o.Turn))
	}
	if err := inRange("Camera", int(o.Camera), int(FrontCamera), int(BackCamera)); err != nil {
		return data, err
	}
	return appendOrientation(data, &o)
}

// ParseToken reads the text of a mid or of a stream id as it lies, to be compared with the SDP's byte by byte: a token
// (RFC 8866, 9), as a mid is (RFC 5888, 4), "cam-1" say. It returns ErrBadField where the data are none, or have more
// than 255 bytes. What is written is the text itself: PutElementIn(buf, length, id, []byte("cam-1"), AnyForm). For one that
// is sent as a stream id see [IsStreamID].
func ParseToken(data []byte) (string, error) {
	if !isToken(data) {
		return "", ErrBadField
	}
	return string(data), nil
}

// IsStreamID is whether the text is 1 to 255 ASCII letters and digits, as a stream id and a repaired one have to be where
// they are sent (RFC 8852, 3). In SDP a=rid also allows - and _ (RFC 8851, 10): a stream whose id has one can't be told by
// it, so choose one without. To compare what came with the SDP's text [ParseToken] is enough.
func IsStreamID(text string) bool {
	return isStreamID([]byte(text))
}

// Token is the text of the last element of this id as it lies, as [ParseToken] reads it: that of [Map.IDOf] of KindMID,
// say. It is not ok where the packet has no element of the id, or its data are no token. Where the kind doesn't keep it
// ([Kind.Keeps]) the text of [Values] is another one.
func (p *Packet) Token(id uint8) (token string, ok bool) {
	data, ok := p.Element(id)
	if !ok || !isToken(data) {
		return "", false
	}
	return string(data), true
}

// Keeps is whether the [Values] have this text of an element of the kind as it is: KindMID up to 16 ASCII letters,
// digits and underscores, and KindRID and KindRepairedRID up to 8. They have "cam_1" of "cam_1", "cam-1" and "cam.1",
// and the first 16 of 17 letters. A peer whose SDP has texts that aren't kept is understood by [Packet.Token].
func (k Kind) Keeps(text string) bool {
	switch k {
	case KindMID:
		return fits(text, len(Values{}.mid))
	case KindRID, KindRepairedRID:
		return fits(text, len(Values{}.rid))
	default:
		return false
	}
}

// A Timing is when a frame passed each step on its way, in milliseconds after its capture (WebRTC's video-timing): 13
// bytes, or 12 in the older form. [ReadValues.VideoTiming] reads 12 bytes askew, and has neither network time.
type Timing struct {
	EncodeStart       uint16 // its encoding began,
	EncodeFinish      uint16 // and ended,
	PacketizeComplete uint16 // its last packet was made,
	LastLeftPacer     uint16 // and left the pacer
	Network           uint16 // a time that a server on the way fills in; what it means is the application's
	Network2          uint16 // another such time
	Flags             uint8  // why the times were sent: bit 0 a timer, bit 1 a large frame; of 255 the times mean nothing
	HasFlags          bool   // false in the older form, which has no flags
}

// ParseTiming reads a timing: 01 00 0A 00 14 00 1E 00 28 00 32 00 3C has the flags 1 and the times 10, 20, 30, 40, 50
// and 60. It returns ErrBadField where there are neither 12 nor 13 bytes.
func ParseTiming(data []byte) (Timing, error) {
	return readTiming(data)
}

// Append appends the data of the timing: 13 bytes, or 12 without flags.
func (t Timing) Append(data []byte) []byte {
	data, _ = appendTiming(data, &t)
	return data
}

// A TransportNumber is the packet's number on its transport, and what feedback it asks for (KindTransportNumber2,
// http://www.webrtc.org/experiments/rtp-hdrext/transport-wide-cc-02): two bytes, or four with a request. Each that is
// read is appended byte for byte. [ReadValues.TransportNumber] has the number alone, of the older URI, where feedback is on
// all packets.
type TransportNumber struct {
	Number     uint16 // the packet's number over all streams of the transport
	Packets    uint16 // for how many packets the feedback is to be, of which this one is the last; 0 asks for none
	HasRequest bool   // the sender asks for feedback with this packet: without it the fields of one aren't looked at
	Timestamps bool   // the feedback is to have the times at which the packets arrived
}

// ParseTransportNumber reads a number: 12 34 80 05 is 0x1234, with a request for five packets with their times. It
// returns ErrBadField where there are neither two nor four bytes.
func ParseTransportNumber(data []byte) (TransportNumber, error) {
	return readTransportNumber(data)
}

// Append appends the data of the number. It returns ErrBadField where there is a request for more than 32,767 packets.
func (n TransportNumber) Append(data []byte) ([]byte, error) {
	if n.HasRequest {
		if err := inRange("Packets", int(n.Packets), 0, 1<<15-1); err != nil {
			return data, err
		}
	}
	return appendTransportNumber(data, &n)
}

// ParseMixerLevel reads the audio level of the contributing source at this index of the csrcCount that the packet has
// (KindMixerLevels; RFC 6465, 4), in decibels relative to the overload point, -127 (silence) to 0: of 7F 0A it is -10 at
// index 1 of 2. It returns ErrBadField where the packet doesn't have that source, or the data no byte for it; what stands
// behind the last source's isn't looked at.
func ParseMixerLevel(data []byte, csrcCount, index int) (level int8, err error) {
	if csrcCount < 0 || index < 0 {
		return 0, ErrBadField
	}
	return readMixerLevel(data, csrcCount, index)
}

// AppendMixerLevels appends the levels of a packet's contributing sources, in their order, a byte for each: -127 and
// -10 are 7F 0A. It returns ErrBadField where there are more than 15, which no packet has, or one is none of -127 to 0.
func AppendMixerLevels(data []byte, levels []int8) ([]byte, error) {
	if err := inRange("the number of levels", len(levels), 0, 15); err != nil {
		return data, err
	}
	for i, level := range levels {
		if err := inRange("the level "+strconv.Itoa(i), int(level), -127, 0); err != nil {
			return data, err
		}
	}
	at := len(data)
	data = append(data, make([]byte, len(levels))...)
	count, err := writeMixerLevels(levels, data[at:])
	return data[:at+count], err
}

// ParseNTP64 reads an NTP timestamp of eight bytes (KindNTP64; RFC 6051, 3.3), in units of 2^-32 seconds since 1900. It
// returns ErrBadField where there are not eight bytes.
func ParseNTP64(data []byte) (time uint64, err error) {
	return readNTP64(data)
}

// AppendNTP64 appends the eight bytes of the timestamp.
func AppendNTP64(data []byte, time uint64) []byte {
	data, _ = appendNTP64(data, time)
	return data
}

// ParseNTP56 reads the low 56 bits of an NTP timestamp, in seven bytes (KindNTP56; RFC 6051, 3.3): [ExtendNTP56] finds
// the others. It returns ErrBadField where there are not seven bytes.
func ParseNTP56(data []byte) (low uint64, err error) {
	return readNTP56(data)
}

// AppendNTP56 appends the seven bytes of the low 56 bits of the timestamp.
func AppendNTP56(data []byte, time uint64) []byte {
	data, _ = appendNTP56(data, time)
	return data
}

// ExtendNTP56 is the NTP timestamp that ends in the low 56 bits of low and is nearest to near, modulo 2^64; of two that
// are equally near the later one. Where near is less than 97 days off, as the time at which the packet arrived, it is
// the time that the sender meant: near 0x00FFFFFF_80000000 it is 0x01000000_80000000 of 0x80000000.
func ExtendNTP56(near, low uint64) uint64 {
	return extendNTP56(near, low)
}

// A DependencyDescriptor has the fields of a dependency descriptor that each packet has (KindDependencyDescriptor; AV1's
// RTP payload format, A.8): its first three bytes. What follows them needs the structure that the sender sent before:
// hand it on as it is.
type DependencyDescriptor struct {
	FrameNumber  uint16 // the number of the frame, which rolls over
	StartOfFrame bool   // the packet is the first of its frame
	EndOfFrame   bool   // it is the last of its frame
	TemplateID   uint8  // the template that the frame's dependencies are like, 0 to 63
}

// ParseDependencyDescriptor reads the first three bytes: 83 01 02 is the first packet of the frame 258, by the template
// 3. It returns ErrBadField where there are fewer.
func ParseDependencyDescriptor(data []byte) (DependencyDescriptor, error) {
	return readDependencyDescriptor(data)
}

// Append appends three bytes, which are a whole descriptor. It returns ErrBadField where the template is above 63.
func (d DependencyDescriptor) Append(data []byte) ([]byte, error) {
	if err := inRange("TemplateID", int(d.TemplateID), 0, 63); err != nil {
		return data, err
	}
	return appendDependencyDescriptor(data, &d)
}

// HasDependencyStructure is whether a dependency descriptor brings a template dependency structure, as that of the
// first packet of a key frame does: the first bit of its fourth byte is set, if it has one.
func HasDependencyStructure(data []byte) bool {
	return hasStructure(data)
}
