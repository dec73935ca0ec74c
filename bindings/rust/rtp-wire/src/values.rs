use core::time::Duration;

use crate::error::NotWritten;
use crate::map::{Kind, Map};
use crate::packet::Packet;
use crate::sys;
use crate::text::{Mid, Rid};
use crate::views::{Time, ValuesView};

/// When a frame passed each step on its way out, in milliseconds after its capture.
#[derive(Clone, Copy, Debug, Default, PartialEq, Eq, Hash)]
pub struct VideoTiming {
    /// Why the times were sent: bit 0 a timer, bit 1 a large frame.
    pub flags: u8,
    /// When its encoding began.
    pub encode_start: u16,
    /// When its encoding ended.
    pub encode_finish: u16,
    /// When its last packet was made.
    pub packetize_complete: u16,
    /// When its last packet left the pacer.
    pub last_left_pacer: u16,
}

/// What the elements of a packet say under a map, all but a layer allocation
/// ([`Header::parse_with_layers`](crate::Header::parse_with_layers)). Some are read as str0m does and not as the
/// standard of the extension has them: what says so names the call of [`standard`](crate::standard) that does.
#[derive(Clone, Copy, Debug, Default, PartialEq, Eq, Hash)]
#[non_exhaustive]
pub struct Values {
    /// When the packet left its sender, in microseconds: as read modulo 64 seconds. The whole ones, so that nearly all of
    /// the 2^24 times lose one unit where they are read and written:
    /// [`parse_send_time`](crate::standard::parse_send_time).
    pub send_time: Option<u64>,
    /// When the frame was captured, as an NTP timestamp with 32 bits of fraction.
    pub capture_time: Option<u64>,
    /// How far the capturer's clock is ahead of the sender's, in seconds with 32 bits of fraction. It is
    /// written with a capture time alone.
    pub capture_offset: Option<i64>,
    /// For how long the receiver may hold the frame at least: whole hundredths of a second, up to 40.95
    /// seconds. Of the two delays both are written, or none.
    pub playout_delay_min: Option<Duration>,
    /// And for how long at most.
    pub playout_delay_max: Option<Duration>,
    /// str0m's, in ticks of the stream's clock: an element of four bytes without a sign. RFC 5450 has three, which
    /// are never read so, and no other peer takes the four that are written:
    /// [`parse_transmission_offset`](crate::standard::parse_transmission_offset).
    pub transmission_offset: Option<u32>,
    /// The first four bytes of the frame marking, which is str0m's reading and not that of RFC 9626:
    /// [`FrameMarking`](crate::standard::FrameMarking).
    pub frame_marking: Option<u32>,
    /// The packet's number over all streams of the transport, without the request for feedback of
    /// `transport-wide-cc-02`: [`TransportNumber`](crate::standard::TransportNumber).
    pub transport_number: Option<u16>,
    /// How the picture is to be turned, in degrees counter-clockwise: 0, 90, 180 or 270. Which camera it is of and
    /// whether it is mirrored is lost, and written as a front camera and no flip:
    /// [`Orientation`](crate::standard::Orientation).
    pub video_orientation: Option<u16>,
    /// When the frame was encoded and sent. Of 12 bytes, the older form, the first is taken for flags, and neither
    /// network time is read or written: [`Timing`](crate::standard::Timing).
    pub video_timing: Option<VideoTiming>,
    /// 0 unspecified, 1 a screen.
    pub video_content_type: Option<u8>,
    /// Decibels relative to the overload point, -127 to 0; any other isn't written ([`NotWritten::BadField`]). It is
    /// written together with the voice activity, or not.
    pub audio_level: Option<i8>,
    /// Whether the audio has voice.
    pub voice_activity: Option<bool>,
    /// The media section that the packet is of. As read each other character than a letter or a digit is an
    /// underscore, and what is longer is cut: `cam-1`, `cam_1` and `cam.1` are one. [`Packet::token`] has the text
    /// as it lies, for a mid that the peer chose.
    pub mid: Option<Mid>,
    /// The stream that the packet is of, changed and cut as the mid is: [`Packet::token`].
    pub rid: Option<Rid>,
    /// The stream that this one repairs, changed and cut as the mid is: [`Packet::token`].
    pub repaired_rid: Option<Rid>,
}

/// The value, where it is there.
fn held<T>(is_there: u8, value: T) -> Option<T> {
    (is_there != 0).then_some(value)
}

/// Whether the value is there, and the value.
fn told<T: Default>(value: Option<T>) -> (u8, T) {
    value.map_or((0, T::default()), |value| (1, value))
}

const NANOS: u32 = 1_000_000_000;

fn duration_of(time: Time) -> Duration {
    let hertz = u64::from(time.hertz);
    let nanos = time.ticks % hertz * u64::from(NANOS) / hertz;
    Duration::new(time.ticks / hertz, nanos as u32) // below 10^9
}

/// The time in nanoseconds, and after 584 years the greatest that there is.
fn time_of(duration: Duration) -> Time {
    Time {
        ticks: u64::try_from(duration.as_nanos()).unwrap_or(u64::MAX),
        hertz: NANOS,
    }
}

impl Values {
    #[inline]
    pub(crate) fn of(view: &ValuesView) -> Values {
        let delay = |is_there, time| held(is_there, time).map(duration_of);
        Values {
            send_time: held(view.has_send_time, view.send_time),
            capture_time: held(view.has_capture_time, view.capture_time),
            capture_offset: held(view.has_capture_offset, view.capture_offset),
            playout_delay_min: delay(view.has_playout_delay_min, view.playout_delay_min),
            playout_delay_max: delay(view.has_playout_delay_max, view.playout_delay_max),
            transmission_offset: held(view.has_transmission_offset, view.transmission_offset),
            frame_marking: held(view.has_frame_marking, view.frame_marking),
            transport_number: held(view.has_transport_number, view.transport_number),
            video_orientation: held(view.has_video_orientation, view.video_orientation),
            video_timing: held(
                view.has_video_timing,
                VideoTiming {
                    flags: view.timing_flags,
                    encode_start: view.encode_start,
                    encode_finish: view.encode_finish,
                    packetize_complete: view.packetize_complete,
                    last_left_pacer: view.last_left_pacer,
                },
            ),
            video_content_type: held(view.has_video_content_type, view.video_content_type),
            audio_level: held(view.has_audio_level, view.audio_level),
            voice_activity: held(view.has_voice_activity, view.voice_activity != 0),
            mid: held(view.has_mid, Mid::of(view.mid)),
            rid: held(view.has_rid, Rid::of(view.rid)),
            repaired_rid: held(view.has_repaired_rid, Rid::of(view.repaired_rid)),
        }
    }

    /// Writes the data that an element of the kind has for these values to the front of the buffer, to set
    /// it where it lies ([`PacketMut::set_element`](crate::PacketMut::set_element)), and tells how many
    /// bytes they are; `None` where a value that the kind needs isn't there, as always for the layer
    /// allocation and the kinds that have no field here.
    ///
    /// # Errors
    ///
    /// [`NotWritten::BadField`] where the orientation is none of the four or the audio level none of -127 to 0, whatever
    /// the kind is, and else [`NotWritten::ShortBuffer`]; nothing is written then.
    ///
    /// ```
    /// use rtp_wire::{Kind, Values};
    ///
    /// let mut values = Values::default();
    /// values.transport_number = Some(0x0102);
    /// let mut data = [0; 16];
    /// assert_eq!(values.data_of(Kind::TransportNumber, &mut data), Ok(Some(2)));
    /// assert_eq!(data[..2], [1, 2]);
    /// assert_eq!(values.data_of(Kind::Mid, &mut data), Ok(None));
    /// ```
    pub fn data_of(&self, kind: Kind, buf: &mut [u8]) -> Result<Option<usize>, NotWritten> {
        let mut len = 0;
        match sys::data_of(kind.number(), &self.view(), buf, &mut len) {
            sys::NONE => Ok(None),
            status => NotWritten::of_status(status).map(|()| Some(len)),
        }
    }

    pub(crate) fn view(&self) -> ValuesView {
        let (has_send_time, send_time) = told(self.send_time);
        let (has_capture_time, capture_time) = told(self.capture_time);
        let (has_capture_offset, capture_offset) = told(self.capture_offset);
        let (has_playout_delay_min, playout_delay_min) = told(self.playout_delay_min.map(time_of));
        let (has_playout_delay_max, playout_delay_max) = told(self.playout_delay_max.map(time_of));
        let (has_transmission_offset, transmission_offset) = told(self.transmission_offset);
        let (has_frame_marking, frame_marking) = told(self.frame_marking);
        let (has_transport_number, transport_number) = told(self.transport_number);
        let (has_video_orientation, video_orientation) = told(self.video_orientation);
        let (has_video_timing, timing) = told(self.video_timing);
        let (has_video_content_type, video_content_type) = told(self.video_content_type);
        let (has_audio_level, audio_level) = told(self.audio_level);
        let (has_voice_activity, voice_activity) = told(self.voice_activity.map(u8::from));
        let (has_mid, mid) = told(self.mid.map(|mid| mid.bytes()));
        let (has_rid, rid) = told(self.rid.map(|rid| rid.bytes()));
        let (has_repaired_rid, repaired_rid) = told(self.repaired_rid.map(|rid| rid.bytes()));
        ValuesView {
            send_time,
            capture_time,
            capture_offset,
            playout_delay_min,
            playout_delay_max,
            transmission_offset,
            frame_marking,
            transport_number,
            video_orientation,
            encode_start: timing.encode_start,
            encode_finish: timing.encode_finish,
            packetize_complete: timing.packetize_complete,
            last_left_pacer: timing.last_left_pacer,
            timing_flags: timing.flags,
            video_content_type,
            audio_level,
            voice_activity,
            mid,
            rid,
            repaired_rid,
            has_send_time,
            has_capture_time,
            has_capture_offset,
            has_transmission_offset,
            has_frame_marking,
            has_transport_number,
            has_video_orientation,
            has_video_content_type,
            has_audio_level,
            has_voice_activity,
            has_playout_delay_min,
            has_playout_delay_max,
            has_video_timing,
            has_mid,
            has_rid,
            has_repaired_rid,
            has_layers: 0,
        }
    }
}

impl Packet<'_> {
    /// What the elements say under the map: for each kind the last one whose id means it and whose data
    /// are well-formed for it.
    ///
    /// ```
    /// use rtp_wire::{Kind, Map, Packet};
    ///
    /// const MAP: Map = Map::new().with(3, Kind::AudioLevel);
    /// let datagram = [0x90, 0, 0, 1, 0, 0, 0, 2, 0, 0, 0, 3, 0xBE, 0xDE, 0, 1, 0x30, 0x8A, 0, 0];
    /// let values = Packet::parse(&datagram)?.values(&MAP);
    /// assert_eq!(values.audio_level, Some(-10));
    /// assert_eq!(values.voice_activity, Some(true));
    /// # Ok::<(), Box<dyn std::error::Error>>(())
    /// ```
    #[must_use]
    pub fn values(&self, map: &Map) -> Values {
        let mut view = ValuesView::default();
        if let Some((form, body)) = self.block() {
            sys::values_read(body, form.number(), &map.kinds, &mut view);
        }
        Values::of(&view)
    }
}
