use super::{read_of_data, written};
use crate::error::{NotAValue, NotWritten, OutOfRange};
use crate::sys::{self, range};
use crate::views::DependencyDescriptorView;

/// The fields of a dependency descriptor that each packet has (AV1's RTP payload format, A.8;
/// [`Kind::DependencyDescriptor`](crate::Kind::DependencyDescriptor)): its first three bytes. What follows them needs the structure that the sender sent before: hand it on as it is.
///
/// ```
/// use rtp_wire::standard::DependencyDescriptor;
///
/// let read = DependencyDescriptor::parse(&[0x83, 1, 2])?;
/// assert!(read.start_of_frame && !read.end_of_frame);
/// assert_eq!((read.template_id, read.frame_number), (3, 258));
///
/// let mut data = [0; 3];
/// let wrong = DependencyDescriptor { template_id: 64, ..read };
/// let error = wrong.write_to(&mut data).unwrap_err();
/// assert_eq!(error.to_string(), "template_id is 64, and not 0 to 63");
/// # Ok::<(), rtp_wire::NotAValue>(())
/// ```
#[derive(Clone, Copy, Debug, Default, PartialEq, Eq, Hash)]
pub struct DependencyDescriptor {
    /// Whether the packet is the first of its frame.
    pub start_of_frame: bool,
    /// Whether it is the last of its frame.
    pub end_of_frame: bool,
    /// The template that the frame's dependencies are like, 0 to 63.
    pub template_id: u8,
    /// The number of the frame, which rolls over.
    pub frame_number: u16,
}

impl DependencyDescriptor {
    /// Reads the first three bytes.
    ///
    /// # Errors
    ///
    /// [`NotAValue`] where there are fewer.
    pub fn parse(data: &[u8]) -> Result<DependencyDescriptor, NotAValue> {
        let view = sys::read_dependency_descriptor(data).ok_or(NotAValue)?;
        Ok(DependencyDescriptor {
            start_of_frame: view.start_of_frame != 0,
            end_of_frame: view.end_of_frame != 0,
            template_id: view.template_id,
            frame_number: view.frame_number,
        })
    }

    /// Writes the three bytes, which are a whole descriptor, to the front of the buffer, and returns 3; those after
    /// them stay.
    ///
    /// # Errors
    ///
    /// [`NotWritten::OutOfRange`] where the template is above 63, and else [`NotWritten::ShortBuffer`]; nothing is
    /// written then.
    pub fn write_to(&self, buf: &mut [u8]) -> Result<usize, NotWritten> {
        let range = range::DEPENDENCY_DESCRIPTOR_TEMPLATE_ID;
        OutOfRange::check("template_id", self.template_id.into(), range)?;
        let view = DependencyDescriptorView {
            frame_number: self.frame_number,
            start_of_frame: u8::from(self.start_of_frame),
            end_of_frame: u8::from(self.end_of_frame),
            template_id: self.template_id,
        };
        written(|len| sys::write_dependency_descriptor(&view, buf, len))
    }
}

read_of_data!(DependencyDescriptor);

/// Whether a dependency descriptor brings a template dependency structure, as that of the first packet of a key frame
/// does: the first bit of its fourth byte is set, if it has one.
///
/// ```
/// use rtp_wire::standard::has_dependency_structure;
///
/// assert!(has_dependency_structure(&[0x83, 1, 2, 0x80]));
/// assert!(!has_dependency_structure(&[0x83, 1, 2]));
/// ```
#[must_use]
pub fn has_dependency_structure(data: &[u8]) -> bool {
    sys::has_structure(data)
}
