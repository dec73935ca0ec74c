use super::{read_of_data, written};
use crate::error::{NotAValue, NotWritten};
use crate::sys;
use crate::views::ColorSpaceView;

/// A point of the CIE 1931 chromaticity diagram, in 0.00002.
#[repr(C)]
#[derive(Clone, Copy, Debug, Default, PartialEq, Eq, Hash)]
pub struct Chromaticity {
    /// From left to right.
    pub x: u16,
    /// Upwards.
    pub y: u16,
}

/// The screen on which a video of high dynamic range was made, and its light (SMPTE ST 2086, CTA-861.3).
#[repr(C)]
#[derive(Clone, Copy, Debug, Default, PartialEq, Eq, Hash)]
pub struct HdrMetadata {
    /// The greatest luminance of the screen, in cd/m^2.
    pub luminance_max: u16,
    /// Its least luminance, in 0.0001 cd/m^2.
    pub luminance_min: u16,
    /// Its red.
    pub red: Chromaticity,
    /// Its green.
    pub green: Chromaticity,
    /// Its blue.
    pub blue: Chromaticity,
    /// Its white.
    pub white: Chromaticity,
    /// The greatest light level of a pixel, in cd/m^2.
    pub max_content_light_level: u16,
    /// The greatest mean light level of a frame, in cd/m^2.
    pub max_frame_average_light_level: u16,
}

/// Which numbers stand for the colors of a video.
#[derive(Clone, Copy, Debug, Default, PartialEq, Eq, Hash)]
pub enum ColorRange {
    /// It isn't known.
    #[default]
    Unknown,
    /// As in broadcasting, 16 to 235 where there are 8 bits.
    Limited,
    /// All numbers.
    Full,
    /// By the transfer and matrix code points.
    Derived,
}

/// Where the chroma samples lie in one direction.
#[derive(Clone, Copy, Debug, Default, PartialEq, Eq, Hash)]
pub enum ChromaSiting {
    /// It isn't known.
    #[default]
    Unspecified,
    /// On the luma samples.
    Collocated,
    /// Half way between two of them.
    Half,
}

/// The color space of a video, as WebRTC's `color-space` has it: four bytes, or 28 with HDR metadata, for which an
/// element needs the two-byte form. [`Values`](crate::Values) have none, though
/// [`Kind::ColorSpace`](crate::Kind::ColorSpace) can be mapped.
///
/// All numbers are read and written. libwebrtc passes over an element with a code point that H.273 reserves, as the
/// primaries 0 or 3, or with HDR metadata beyond 20,000 cd/m^2 (`luminance_min` beyond 5), or with a chromaticity above
/// 1.
///
/// ```
/// use rtp_wire::standard::{ChromaSiting, ColorRange, ColorSpace};
///
/// let space = ColorSpace::parse(&[1, 1, 1, 0x24])?; // BT.709
/// assert_eq!((space.primaries, space.range), (1, ColorRange::Full));
/// assert_eq!(space.horizontal, ChromaSiting::Collocated);
/// assert_eq!(space.vertical, ChromaSiting::Unspecified);
/// assert_eq!(space.hdr, None);
/// # Ok::<(), rtp_wire::NotAValue>(())
/// ```
#[derive(Clone, Copy, Debug, Default, PartialEq, Eq, Hash)]
pub struct ColorSpace {
    /// The color primaries, a code point of H.273, 8.1.
    pub primaries: u8,
    /// The transfer characteristics, a code point of H.273, 8.2.
    pub transfer: u8,
    /// The matrix coefficients, a code point of H.273, 8.3.
    pub matrix: u8,
    /// Which numbers stand for the colors.
    pub range: ColorRange,
    /// Where the chroma samples lie, from left to right.
    pub horizontal: ChromaSiting,
    /// Where they lie from top to bottom.
    pub vertical: ChromaSiting,
    /// The screen on which the video was made, and its light, for one of high dynamic range.
    pub hdr: Option<HdrMetadata>,
}

impl ColorRange {
    const ALL: [ColorRange; 4] = [
        ColorRange::Unknown,
        ColorRange::Limited,
        ColorRange::Full,
        ColorRange::Derived,
    ];

    fn number(self) -> u8 {
        match self {
            ColorRange::Unknown => 0,
            ColorRange::Limited => 1,
            ColorRange::Full => 2,
            ColorRange::Derived => 3,
        }
    }

    fn of_number(number: u8) -> Result<ColorRange, NotAValue> {
        let found = ColorRange::ALL.get(usize::from(number));
        found.copied().ok_or(NotAValue)
    }
}

impl ChromaSiting {
    const ALL: [ChromaSiting; 3] = [
        ChromaSiting::Unspecified,
        ChromaSiting::Collocated,
        ChromaSiting::Half,
    ];

    fn number(self) -> u8 {
        match self {
            ChromaSiting::Unspecified => 0,
            ChromaSiting::Collocated => 1,
            ChromaSiting::Half => 2,
        }
    }

    fn of_number(number: u8) -> Result<ChromaSiting, NotAValue> {
        let found = ChromaSiting::ALL.get(usize::from(number));
        found.copied().ok_or(NotAValue)
    }
}

impl ColorSpace {
    /// Reads a color space. The high two bits of the fourth byte aren't looked at.
    ///
    /// # Errors
    ///
    /// [`NotAValue`] where there are neither four nor 28 bytes, or a siting is 3.
    pub fn parse(data: &[u8]) -> Result<ColorSpace, NotAValue> {
        let view = sys::read_color_space(data).ok_or(NotAValue)?;
        Ok(ColorSpace {
            primaries: view.primaries,
            transfer: view.transfer,
            matrix: view.matrix,
            range: ColorRange::of_number(view.range)?,
            horizontal: ChromaSiting::of_number(view.horizontal)?,
            vertical: ChromaSiting::of_number(view.vertical)?,
            hdr: (view.has_hdr != 0).then_some(view.hdr),
        })
    }

    /// Writes the data to the front of the buffer, and returns how many bytes they are: four, or 28 with HDR
    /// metadata. Those after them stay.
    ///
    /// # Errors
    ///
    /// [`NotWritten::ShortBuffer`]; nothing is written then.
    pub fn write_to(&self, buf: &mut [u8]) -> Result<usize, NotWritten> {
        let view = ColorSpaceView {
            hdr: self.hdr.unwrap_or_default(),
            primaries: self.primaries,
            transfer: self.transfer,
            matrix: self.matrix,
            range: self.range.number(),
            horizontal: self.horizontal.number(),
            vertical: self.vertical.number(),
            has_hdr: u8::from(self.hdr.is_some()),
        };
        written(|len| sys::write_color_space(&view, buf, len))
    }
}

read_of_data!(ColorSpace);
