package rtp

import (
	"time"

	"rtp-wire.example/rtpwire"
)

// An AudioLevelExtension is the data of an audio level of a client (RFC 6464, 3): how far it is below 0 dBov, 0 to 127,
// and whether there is voice.
type AudioLevelExtension struct {
	Level uint8
	Voice bool
}

// Marshal is the data's bytes.
func (a AudioLevelExtension) Marshal() ([]byte, error) {
	if a.Level > 127 {
		return nil, errAudioLevelOverflow
	}
	var values rtpwire.Values
	values.SetAudioLevel(-int8(a.Level), a.Voice)
	return values.AppendData(nil, rtpwire.KindAudioLevel)
}

// Unmarshal reads the data.
func (a *AudioLevelExtension) Unmarshal(data []byte) error {
	if len(data) < 1 {
		return errTooSmall
	}
	values, err := rtpwire.ParseValue(rtpwire.KindAudioLevel, data[:1])
	if err != nil {
		return err
	}
	level, voice, _ := values.AudioLevel()
	a.Level, a.Voice = uint8(-int(level)), voice
	return nil
}

// A TransportCCExtension is the data of a transport-wide sequence number
// (http://www.ietf.org/id/draft-holmer-rmcat-transport-wide-cc-extensions-01).
type TransportCCExtension struct {
	TransportSequence uint16
}

// Marshal is the data's bytes.
func (t TransportCCExtension) Marshal() ([]byte, error) {
	return rtpwire.TransportNumber{Number: t.TransportSequence}.Append(nil)
}

// Unmarshal reads the data.
func (t *TransportCCExtension) Unmarshal(data []byte) error {
	if len(data) < 2 {
		return errTooSmall
	}
	number, err := rtpwire.ParseTransportNumber(data[:2])
	if err != nil {
		return err
	}
	t.TransportSequence = number.Number
	return nil
}

// An AbsSendTimeExtension is the data of a send time (abs-send-time): the low 24 bits of Timestamp are written, the seconds
// modulo 64 in units of 2^-18, and a time that was read has those alone.
type AbsSendTimeExtension struct {
	Timestamp uint64
}

// NewAbsSendTimeExtension is the send time of a moment: its Timestamp is all of the NTP time in units of 2^-18 seconds, as
// pion's is, and Marshal writes the low 24 bits of it.
func NewAbsSendTimeExtension(sendTime time.Time) *AbsSendTimeExtension {
	const from1900To1970 = 2208988800
	ntp := uint64(sendTime.Unix()+from1900To1970)<<32 | uint64(sendTime.Nanosecond())<<32/1e9
	return &AbsSendTimeExtension{ntp >> 14}
}

// Marshal is the data's bytes.
func (t AbsSendTimeExtension) Marshal() ([]byte, error) {
	return rtpwire.SendTime(t.Timestamp & 0xFFFFFF).Append(nil)
}

// Unmarshal reads the data.
func (t *AbsSendTimeExtension) Unmarshal(data []byte) error {
	if len(data) < 3 {
		return errTooSmall
	}
	sent, err := rtpwire.ParseSendTime(data[:3])
	if err != nil {
		return err
	}
	t.Timestamp = uint64(sent)
	return nil
}

// Estimate is the moment nearest to that of arrival, before or after it, which the send time means.
func (t *AbsSendTimeExtension) Estimate(receive time.Time) time.Time {
	return rtpwire.SendTime(t.Timestamp & 0xFFFFFF).Estimate(receive)
}
