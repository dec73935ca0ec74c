package rtpwire

// A ColorRange says which numbers stand for the colors of a video.
type ColorRange uint8

// The ranges.
const (
	UnknownRange ColorRange = 0
	LimitedRange ColorRange = 1 // as in broadcasting, 16 to 235 where there are 8 bits
	FullRange    ColorRange = 2 // all numbers
	DerivedRange ColorRange = 3 // by the transfer and matrix code points
)

// A ChromaSiting says where the chroma samples lie in one direction.
type ChromaSiting uint8

// The sitings.
const (
	UnspecifiedSiting ChromaSiting = 0
	CollocatedSiting  ChromaSiting = 1 // on the luma samples
	HalfSiting        ChromaSiting = 2 // half way between two of them
)

// A Chromaticity is a point of the CIE 1931 chromaticity diagram, in 0.00002.
type Chromaticity struct {
	X, Y uint16
}

// An HDRMetadata is the screen on which a video of high dynamic range was made, and its light (SMPTE ST 2086,
// CTA-861.3).
type HDRMetadata struct {
	LuminanceMax              uint16 // of the screen, in cd/m^2
	LuminanceMin              uint16 // in 0.0001 cd/m^2
	Red, Green, Blue, White   Chromaticity
	MaxContentLightLevel      uint16 // of a pixel, in cd/m^2
	MaxFrameAverageLightLevel uint16 // the greatest mean of a frame, in cd/m^2
}

// A ColorSpace is that of a video, as WebRTC's color-space has it: four bytes, or 28 with HDR metadata, for which an
// element needs the two-byte form. [Values] have none, though KindColorSpace can be mapped. libwebrtc passes over one with
// a code point that H.273 reserves, as the primaries 0 or 3, or with HDR metadata beyond 20,000 cd/m^2 (LuminanceMin
// beyond 5), or with a chromaticity above 1; all of them are read and appended here.
type ColorSpace struct {
	HDR        HDRMetadata  // of a video of high dynamic range: without HasHDR it isn't looked at
	Primaries  uint8        // the color primaries, a code point of H.273, 8.1
	Transfer   uint8        // the transfer characteristics, a code point of H.273, 8.2
	Matrix     uint8        // the matrix coefficients, a code point of H.273, 8.3
	Range      ColorRange   // which numbers stand for the colors
	Horizontal ChromaSiting // where the chroma samples lie, from left to right
	Vertical   ChromaSiting // and from top to bottom
	HasHDR     bool         // there is HDR metadata
}

// ParseColorSpace reads a color space: 01 01 01 24 is BT.709 with the full range, whose chroma samples lie on the luma
// samples from left to right. The high two bits of the fourth byte are not looked at. It returns ErrBadField where
// there are neither four nor 28 bytes, or a siting is 3.
func ParseColorSpace(data []byte) (ColorSpace, error) {
	return readColorSpace(data)
}

// Append appends the data of the color space: four bytes, or 28 with HDR metadata. It returns ErrBadField where the
// range or a siting is none of those above.
func (c ColorSpace) Append(data []byte) ([]byte, error) {
	for _, err := range []error{
		inRange("Range", int(c.Range), int(UnknownRange), int(DerivedRange)),
		inRange("Horizontal", int(c.Horizontal), int(UnspecifiedSiting), int(HalfSiting)),
		inRange("Vertical", int(c.Vertical), int(UnspecifiedSiting), int(HalfSiting)),
	} {
		if err != nil {
			return data, err
		}
	}
	return appendColorSpace(data, &c)
}
