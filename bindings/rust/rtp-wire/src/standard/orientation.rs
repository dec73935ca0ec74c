use super::{read_of_data, written};
use crate::error::{NotAValue, NotWritten};
use crate::sys;
use crate::views::OrientationView;

/// Which way the camera of a video faces.
#[derive(Clone, Copy, Debug, Default, PartialEq, Eq, Hash)]
pub enum Camera {
    /// Towards the user.
    #[default]
    Front,
    /// Away from the user.
    Back,
}

/// How a receiver has to turn a picture, counter-clockwise.
#[derive(Clone, Copy, Debug, Default, PartialEq, Eq, Hash)]
pub enum Turn {
    /// Not at all.
    #[default]
    Deg0,
    /// By a quarter.
    Deg90,
    /// By a half.
    Deg180,
    /// By three quarters, which is one quarter clockwise.
    Deg270,
}

impl Turn {
    const ALL: [Turn; 4] = [Turn::Deg0, Turn::Deg90, Turn::Deg180, Turn::Deg270];

    /// The turn by so many degrees; `None` where they are none of 0, 90, 180 and 270.
    ///
    /// ```
    /// use rtp_wire::standard::Turn;
    ///
    /// assert_eq!(Turn::by(270), Some(Turn::Deg270));
    /// assert_eq!(Turn::by(45), None);
    /// ```
    #[must_use]
    pub fn by(degrees: u16) -> Option<Turn> {
        Turn::ALL.into_iter().find(|it| it.degrees() == degrees)
    }

    /// The degrees: 0, 90, 180 or 270.
    #[must_use]
    pub const fn degrees(self) -> u16 {
        match self {
            Turn::Deg0 => 0,
            Turn::Deg90 => 90,
            Turn::Deg180 => 180,
            Turn::Deg270 => 270,
        }
    }
}

/// How a picture was taken, and is to be shown (3GPP TS 26.114, 7.4.5): one byte. Of it
/// [`Values`](crate::Values) have the turn alone, and write a front camera and no flip.
///
/// ```
/// use rtp_wire::standard::{Camera, Orientation, Turn};
///
/// let orientation = Orientation::parse(&[0x0E])?;
/// assert_eq!(orientation.camera, Camera::Back);
/// assert!(orientation.flip);
/// assert_eq!(orientation.turn, Turn::Deg180);
/// # Ok::<(), rtp_wire::NotAValue>(())
/// ```
#[derive(Clone, Copy, Debug, Default, PartialEq, Eq, Hash)]
pub struct Orientation {
    /// Which way the camera faces.
    pub camera: Camera,
    /// Whether the picture is mirrored, left for right, as it is sent, before the receiver turns it.
    pub flip: bool,
    /// How the receiver has to turn the picture.
    pub turn: Turn,
}

impl Orientation {
    /// Reads an orientation. The high four bits aren't looked at.
    ///
    /// # Errors
    ///
    /// [`NotAValue`] where there is not one byte.
    pub fn parse(data: &[u8]) -> Result<Orientation, NotAValue> {
        let view = sys::read_orientation(data).ok_or(NotAValue)?;
        Ok(Orientation {
            camera: match view.camera {
                sys::CAMERA_FRONT => Camera::Front,
                _ => Camera::Back,
            },
            flip: view.flip != 0,
            turn: Turn::by(view.turn).ok_or(NotAValue)?,
        })
    }

    /// Writes the one byte of the data to the front of the buffer, and returns 1; those after it stay.
    ///
    /// # Errors
    ///
    /// [`NotWritten::ShortBuffer`].
    pub fn write_to(&self, buf: &mut [u8]) -> Result<usize, NotWritten> {
        let view = OrientationView {
            turn: self.turn.degrees(),
            camera: match self.camera {
                Camera::Front => sys::CAMERA_FRONT,
                Camera::Back => sys::CAMERA_BACK,
            },
            flip: u8::from(self.flip),
        };
        written(|len| sys::write_orientation(&view, buf, len))
    }
}

read_of_data!(Orientation);
