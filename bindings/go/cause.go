package rtpwire

import "errors"

// A Cause says why bytes are no RTP packet. It is an error: errors.Is finds each cause, and ErrNotAPacket for all
// of them.
type Cause uint8

// The causes in the order in which they are looked for: the first that applies is returned.
const (
	// CutFixedPart: there are fewer than the twelve bytes that every header has.
	CutFixedPart Cause = 1 + iota
	// OtherVersion: the version is another than 2.
	OtherVersion
	// CutSources: the CSRC list is cut short.
	CutSources
	// CutBlockHeader: X is set, and the first four bytes of the block are cut short.
	CutBlockHeader
	_
	// CutBlock: the block is longer than what is left.
	CutBlock
)

// What a call returns that did nothing, beside a Cause.
var (
	// ErrNotAPacket is what every Cause is, by errors.Is.
	ErrNotAPacket = errors.New("rtpwire: no RTP packet")
	// ErrOtherForm: the block's form is neither 0xBEDE nor 0x1000 to 0x100F, and so has no elements.
	ErrOtherForm = errors.New("rtpwire: a header extension of an unknown form")
	// ErrShortBuffer: the buffer has too few bytes, and nothing else is amiss.
	ErrShortBuffer = errors.New("rtpwire: a buffer is too short")
	// ErrBadField: what was given is out of its range, no packet can carry it, or data are not those of a value.
	ErrBadField = errors.New("rtpwire: an argument is out of its range")
	// ErrBadID: the id is 0, which no element has. By errors.Is it is an ErrBadField too.
	ErrBadID error = badField("rtpwire: the id 0, which no element has")
	// ErrFormNotAllowed: the block has, or an element needs, a form that isn't allowed. By errors.Is it is an
	// ErrBadField too.
	ErrFormNotAllowed error = badField("rtpwire: a form of the extension block that isn't allowed")
	// ErrLongID: an id is above 14, which the one-byte form can't carry. By errors.Is it is an ErrFormNotAllowed and
	// an ErrBadField too.
	ErrLongID error = longID("rtpwire: an id above 14, which the one-byte form can't carry")
	// ErrLongBlock: the block would have more than 65,535 words. By errors.Is it is an ErrBadField too.
	ErrLongBlock error = badField("rtpwire: an extension block of more than 65,535 words")
	// ErrRefused: a replay, or too old to tell.
	ErrRefused = errors.New("rtpwire: a replay, or too old to tell")
	// ErrRTCP: the datagram is one of RTCP, on a port that RTP and RTCP share ([Packet.ParseMuxed],
	// [Receiver.ReceivePacket]).
	ErrRTCP = errors.New("rtpwire: a packet of RTCP")
	// ErrNotFound: the packet has no such element, or no such place in its CSRC list.
	ErrNotFound = errors.New("rtpwire: no such element")
)

// A badField is an ErrBadField that says which one.
type badField string

// Error says it in words.
func (e badField) Error() string {
	return string(e)
}

// Is makes it an ErrBadField.
func (e badField) Is(target error) bool {
	return target == ErrBadField
}

// A longID is an ErrFormNotAllowed that says why.
type longID string

// Error says it in words.
func (e longID) Error() string {
	return string(e)
}

// Is makes it an ErrFormNotAllowed, and so an ErrBadField.
func (e longID) Is(target error) bool {
	return target == ErrFormNotAllowed || target == ErrBadField
}

var causes = [...]string{
	CutFixedPart:   "rtpwire: fewer than twelve bytes",
	OtherVersion:   "rtpwire: another version than 2",
	CutSources:     "rtpwire: the CSRC list is cut short",
	CutBlockHeader: "rtpwire: the header of the extension block is cut short",
	CutBlock:       "rtpwire: the extension block is cut short",
}

// Error says the cause in words.
func (c Cause) Error() string {
	if int(c) >= len(causes) || causes[c] == "" {
		return "rtpwire: no cause"
	}
	return causes[c]
}

// Is makes every cause an ErrNotAPacket.
func (c Cause) Is(target error) bool {
	return target == ErrNotAPacket
}

// errorsOf has the error that each status of the library means, and nil for that of a call that did what it is for.
var errorsOf = func() (errors [32]error) {
	for status := 1; status < len(errors); status++ {
		errors[status] = Cause(status)
	}
	for status, err := range map[int]error{
		statusUnknownForm:    ErrOtherForm,
		statusShortBuffer:    ErrShortBuffer,
		statusBadField:       ErrBadField,
		statusRefused:        ErrRefused,
		statusNone:           ErrNotFound,
		statusBadID:          ErrBadID,
		statusFormNotAllowed: ErrFormNotAllowed,
		statusLongBlock:      ErrLongBlock,
		statusLongID:         ErrLongID,
		statusRTCP:           ErrRTCP,
	} {
		errors[status] = err
	}
	return errors
}()

func errorOf(status int32) error {
	return errorsOf[uint32(status)%uint32(len(errorsOf))]
}
