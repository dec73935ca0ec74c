use super::{read_of_data, written};
use crate::error::{NotAValue, NotWritten, OutOfRange};
use crate::sys::{self, range};
use crate::views::FrameMarkingView;

/// What a packet is to its frame, and the frame to its stream (RFC 9626, 3): one byte for a stream without layers,
/// and two or three for one with. [`Values`](crate::Values) have str0m's number of four bytes, which is none.
///
/// ```
/// use rtp_wire::standard::{FrameLayers, FrameMarking};
///
/// let marking = FrameMarking::parse(&[0xA9, 2, 7])?;
/// assert!(marking.start && !marking.end && marking.independent && !marking.discardable);
/// let layers = FrameLayers { base_layer_sync: true, temporal_id: 1, layer_id: 2, tl0_pic_idx: Some(7) };
/// assert_eq!(marking.layers, Some(layers));
///
/// let mut data = [0; 3];
/// let last = FrameMarking { end: true, ..FrameMarking::default() };
/// assert_eq!((last.write_to(&mut data)?, data), (1, [0x40, 0, 0]));
/// # Ok::<(), Box<dyn std::error::Error>>(())
/// ```
#[derive(Clone, Copy, Debug, Default, PartialEq, Eq, Hash)]
#[expect(clippy::struct_excessive_bools, reason = "the flags of the RFC")]
pub struct FrameMarking {
    /// Whether the packet is the first of its frame.
    pub start: bool,
    /// Whether it is the last of its frame.
    pub end: bool,
    /// Whether the frame can be decoded without any frame before it.
    pub independent: bool,
    /// Whether no other frame needs this one.
    pub discardable: bool,
    /// Where the frame is among the layers, for a stream that has some.
    pub layers: Option<FrameLayers>,
}

/// Where a frame is among the layers of its stream (RFC 9626, 3.1).
#[derive(Clone, Copy, Debug, Default, PartialEq, Eq, Hash)]
pub struct FrameLayers {
    /// Whether the frame depends on the base temporal layer alone. By RFC 9626 it isn't set where the temporal layer is
    /// 0, which isn't looked at: it is read as it lies, and written as it is given.
    pub base_layer_sync: bool,
    /// The temporal layer, 0 to 7; 0 is the base layer.
    pub temporal_id: u8,
    /// The spatial and quality layer, by the numbers of its codec.
    pub layer_id: u8,
    /// The running number of the frame of the base temporal layer, where it is sent.
    pub tl0_pic_idx: Option<u8>,
}

impl FrameMarking {
    /// Reads a frame marking. Of one byte the low four bits aren't looked at.
    ///
    /// # Errors
    ///
    /// [`NotAValue`] where there are none or more than three bytes.
    pub fn parse(data: &[u8]) -> Result<FrameMarking, NotAValue> {
        let view = sys::read_frame_marking(data).ok_or(NotAValue)?;
        let layers = FrameLayers {
            base_layer_sync: view.base_layer_sync != 0,
            temporal_id: view.temporal_id,
            layer_id: view.layer_id,
            tl0_pic_idx: (view.has_tl0_pic_idx != 0).then_some(view.tl0_pic_idx),
        };
        Ok(FrameMarking {
            start: view.start != 0,
            end: view.end != 0,
            independent: view.independent != 0,
            discardable: view.discardable != 0,
            layers: (view.has_layers != 0).then_some(layers),
        })
    }

    /// Writes the data to the front of the buffer, and returns how many bytes they are; those after them stay.
    ///
    /// # Errors
    ///
    /// [`NotWritten::OutOfRange`] where the temporal layer is above 7, and else [`NotWritten::ShortBuffer`]; nothing
    /// is written then.
    pub fn write_to(&self, buf: &mut [u8]) -> Result<usize, NotWritten> {
        let mut view = FrameMarkingView {
            start: u8::from(self.start),
            end: u8::from(self.end),
            independent: u8::from(self.independent),
            discardable: u8::from(self.discardable),
            ..FrameMarkingView::default()
        };
        if let Some(layers) = self.layers {
            let range = range::FRAME_MARKING_TEMPORAL_ID;
            OutOfRange::check("temporal_id", layers.temporal_id.into(), range)?;
            view.has_layers = 1;
            view.base_layer_sync = u8::from(layers.base_layer_sync);
            view.temporal_id = layers.temporal_id;
            view.layer_id = layers.layer_id;
            if let Some(index) = layers.tl0_pic_idx {
                view.has_tl0_pic_idx = 1;
                view.tl0_pic_idx = index;
            }
        }
        written(|len| sys::write_frame_marking(&view, buf, len))
    }
}

read_of_data!(FrameMarking);
