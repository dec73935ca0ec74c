package rtp

import (
	"errors"

	"rtp-wire.example/rtpwire"
)

var (
	errHeaderSizeInsufficient             = errors.New("rtp: the header is cut short")
	errHeaderSizeInsufficientForExtension = errors.New("rtp: the extension block is cut short")
	errTooSmall                           = errors.New("rtp: too few bytes")
	errHeaderExtensionsNotEnabled         = errors.New("rtp: the header has no extension block")
	errHeaderExtensionNotFound            = errors.New("rtp: no such extension")
	errAudioLevelOverflow                 = errors.New("rtp: an audio level above 127")

	errRFC8285OneByteHeaderIDRange = errors.New("rtp: the id of an extension in the one-byte form is 1 to 14")
	errRFC8285OneByteHeaderSize    = errors.New("rtp: an extension in the one-byte form has 1 to 16 bytes")
	errRFC8285TwoByteHeaderIDRange = errors.New("rtp: the id of an extension in the two-byte form is 1 to 255")
	errRFC8285TwoByteHeaderSize    = errors.New("rtp: an extension in the two-byte form has at most 255 bytes")
	errRFC3550HeaderIDRange        = errors.New("rtp: what isn't of RFC 8285 has the id 0")
)

// A cutError is pion's error of bytes that are cut short, and the cause that rtpwire has for it.
type cutError struct {
	pions error
	cause rtpwire.Cause
}

// Error says both in words.
func (e cutError) Error() string {
	return e.pions.Error() + ": " + e.cause.Error()
}

// Is makes it pion's error.
func (e cutError) Is(target error) bool {
	return target == e.pions
}

// Unwrap makes it the cause.
func (e cutError) Unwrap() error {
	return e.cause
}

var (
	errCutFixedPart   error = cutError{errHeaderSizeInsufficient, rtpwire.CutFixedPart}
	errCutSources     error = cutError{errHeaderSizeInsufficient, rtpwire.CutSources}
	errCutBlockHeader error = cutError{errHeaderSizeInsufficientForExtension, rtpwire.CutBlockHeader}
	errCutBlock       error = cutError{errHeaderSizeInsufficientForExtension, rtpwire.CutBlock}
)

// errorOf is the error for which bytes are no packet: pion's too, where it has one.
func errorOf(cause rtpwire.Cause) error {
	switch cause {
	case rtpwire.CutFixedPart:
		return errCutFixedPart
	case rtpwire.CutSources:
		return errCutSources
	case rtpwire.CutBlockHeader:
		return errCutBlockHeader
	case rtpwire.CutBlock:
		return errCutBlock
	default:
		return cause
	}
}
