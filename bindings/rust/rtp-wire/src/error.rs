use core::error::Error;
use core::fmt;
use core::ops::RangeInclusive;

use crate::kind_set::KindSet;
use crate::sys::{self, text};

/// Why bytes are no RTP packet: the first of these causes that applies, in this order.
#[derive(Clone, Copy, Debug, PartialEq, Eq, Hash)]
#[non_exhaustive]
pub enum NotAPacket {
    /// There are fewer than the twelve bytes that every header has.
    CutFixedPart,
    /// The version is another than 2.
    OtherVersion,
    /// The CSRC list is cut short.
    CutSources,
    /// X is set, and the first four bytes of the block are cut short.
    CutBlockHeader,
    /// The block is longer than what is left.
    CutBlock,
}

impl NotAPacket {
    /// What the status says: nothing where the call did what it is for.
    pub(crate) fn of_status(status: i32) -> Result<(), NotAPacket> {
        match status {
            sys::OK => Ok(()),
            sys::CUT_FIXED_PART => Err(NotAPacket::CutFixedPart),
            sys::OTHER_VERSION => Err(NotAPacket::OtherVersion),
            sys::CUT_SOURCES => Err(NotAPacket::CutSources),
            sys::CUT_BLOCK_HEADER => Err(NotAPacket::CutBlockHeader),
            sys::CUT_BLOCK => Err(NotAPacket::CutBlock),
            _ => unreachable!("status {status} of bytes that are no packet"),
        }
    }
}

impl fmt::Display for NotAPacket {
    fn fmt(&self, f: &mut fmt::Formatter<'_>) -> fmt::Result {
        f.write_str(match self {
            NotAPacket::CutFixedPart => text::CUT_FIXED_PART,
            NotAPacket::OtherVersion => text::OTHER_VERSION,
            NotAPacket::CutSources => text::CUT_SOURCES,
            NotAPacket::CutBlockHeader => text::CUT_BLOCK_HEADER,
            NotAPacket::CutBlock => text::CUT_BLOCK,
        })
    }
}

impl Error for NotAPacket {}

/// Why a datagram is no packet of RTP.
#[derive(Clone, Copy, Debug, PartialEq, Eq, Hash)]
#[non_exhaustive]
pub enum NotRtp {
    /// It is RTCP ([`is_rtcp`](crate::is_rtcp)), however short it is: no fault, but for who answers it.
    Rtcp,
    /// The bytes are no packet: [`source`](Error::source) says why.
    NotAPacket(NotAPacket),
}

impl NotRtp {
    pub(crate) fn of_status(status: i32) -> Result<(), NotRtp> {
        match status {
            sys::RTCP => Err(NotRtp::Rtcp),
            other => NotAPacket::of_status(other).map_err(NotRtp::NotAPacket),
        }
    }
}

impl fmt::Display for NotRtp {
    fn fmt(&self, f: &mut fmt::Formatter<'_>) -> fmt::Result {
        f.write_str(match self {
            NotRtp::Rtcp => text::RTCP,
            NotRtp::NotAPacket(_) => "no RTP packet",
        })
    }
}

impl Error for NotRtp {
    fn source(&self) -> Option<&(dyn Error + 'static)> {
        match self {
            NotRtp::Rtcp => None,
            NotRtp::NotAPacket(cause) => Some(cause),
        }
    }
}

impl From<NotAPacket> for NotRtp {
    fn from(cause: NotAPacket) -> NotRtp {
        NotRtp::NotAPacket(cause)
    }
}

/// Why a header wasn't read.
#[derive(Clone, Copy, Debug, PartialEq, Eq, Hash)]
#[non_exhaustive]
pub enum NotAHeader {
    /// The bytes are no packet: [`source`](Error::source) says why.
    NotAPacket(NotAPacket),
    /// The block's form is neither 0xBEDE nor 0x1000 to 0x100F: [`Packet`](crate::Packet) reads all else. It comes
    /// before [`NotAPacket::CutBlock`].
    UnknownForm,
}

impl NotAHeader {
    pub(crate) fn of_status(status: i32) -> Result<(), NotAHeader> {
        match status {
            sys::UNKNOWN_FORM => Err(NotAHeader::UnknownForm),
            other => NotAPacket::of_status(other).map_err(NotAHeader::NotAPacket),
        }
    }
}

impl fmt::Display for NotAHeader {
    fn fmt(&self, f: &mut fmt::Formatter<'_>) -> fmt::Result {
        match self {
            NotAHeader::NotAPacket(_) => f.write_str("no RTP packet"),
            NotAHeader::UnknownForm => f.write_str(text::UNKNOWN_FORM),
        }
    }
}

impl Error for NotAHeader {
    fn source(&self) -> Option<&(dyn Error + 'static)> {
        match self {
            NotAHeader::NotAPacket(cause) => Some(cause),
            NotAHeader::UnknownForm => None,
        }
    }
}

impl From<NotAPacket> for NotAHeader {
    fn from(cause: NotAPacket) -> NotAHeader {
        NotAHeader::NotAPacket(cause)
    }
}

/// Why a datagram of several wasn't read.
#[derive(Clone, Copy, Debug, PartialEq, Eq, Hash)]
#[non_exhaustive]
pub enum NotRead {
    /// The bytes are no packet: [`source`](Error::source) says why.
    NotAPacket(NotAPacket),
    /// No header was read: the block's form is neither 0xBEDE nor 0x1000 to 0x100F, as with
    /// [`NotAHeader::UnknownForm`].
    UnknownForm,
    /// It is RTCP, as with [`NotRtp::Rtcp`]: of [`read_packets`](crate::read_packets) alone.
    Rtcp,
    /// The datagram doesn't lie within the buffer.
    OutsideOfTheBuffer,
}

impl NotRead {
    #[inline]
    pub(crate) fn of_status(status: i32) -> Result<(), NotRead> {
        match status {
            sys::OK => Ok(()),
            sys::UNKNOWN_FORM => Err(NotRead::UnknownForm),
            sys::RTCP => Err(NotRead::Rtcp),
            sys::BAD_FIELD => Err(NotRead::OutsideOfTheBuffer),
            other => NotAPacket::of_status(other).map_err(NotRead::NotAPacket),
        }
    }
}

impl fmt::Display for NotRead {
    fn fmt(&self, f: &mut fmt::Formatter<'_>) -> fmt::Result {
        f.write_str(match self {
            NotRead::NotAPacket(_) => "no RTP packet",
            NotRead::UnknownForm => text::UNKNOWN_FORM,
            NotRead::Rtcp => text::RTCP,
            NotRead::OutsideOfTheBuffer => "the datagram doesn't lie within the buffer",
        })
    }
}

impl Error for NotRead {
    fn source(&self) -> Option<&(dyn Error + 'static)> {
        match self {
            NotRead::NotAPacket(cause) => Some(cause),
            _ => None,
        }
    }
}

/// Why one of several receivers didn't take a sequence number.
#[derive(Clone, Copy, Debug, PartialEq, Eq, Hash)]
#[non_exhaustive]
pub enum NotTaken {
    /// A replay, or too old to tell.
    Refused,
    /// There is no such receiver, or none was asked yet.
    NoReceiver,
}

impl fmt::Display for NotTaken {
    fn fmt(&self, f: &mut fmt::Formatter<'_>) -> fmt::Result {
        f.write_str(match self {
            NotTaken::Refused => text::REFUSED,
            NotTaken::NoReceiver => "no such receiver",
        })
    }
}

impl Error for NotTaken {}

/// Why nothing was written.
#[derive(Clone, Copy, Debug, PartialEq, Eq, Hash)]
#[non_exhaustive]
pub enum NotWritten {
    /// No packet can carry what was given.
    BadField,
    /// This field of a value of [`standard`](crate::standard) can't be written.
    OutOfRange(OutOfRange),
    /// The buffer has too few bytes, and nothing else is amiss.
    ShortBuffer,
    /// Values of these kinds would be left out ([`Header::write_all`](crate::Header::write_all)).
    LeftOut(KindSet),
}

impl NotWritten {
    pub(crate) fn of_status(status: i32) -> Result<(), NotWritten> {
        match status {
            sys::OK => Ok(()),
            sys::SHORT_BUFFER => Err(NotWritten::ShortBuffer),
            _ => Err(NotWritten::BadField),
        }
    }
}

impl fmt::Display for NotWritten {
    fn fmt(&self, f: &mut fmt::Formatter<'_>) -> fmt::Result {
        match self {
            NotWritten::BadField => f.write_str(text::BAD_FIELD),
            NotWritten::OutOfRange(field) => field.fmt(f),
            NotWritten::ShortBuffer => f.write_str(text::SHORT_BUFFER),
            NotWritten::LeftOut(kinds) => write!(f, "values that no element carries: {kinds:?}"),
        }
    }
}

impl Error for NotWritten {}

impl From<OutOfRange> for NotWritten {
    fn from(field: OutOfRange) -> NotWritten {
        NotWritten::OutOfRange(field)
    }
}

/// A field is out of its range.
#[derive(Clone, Copy, Debug, PartialEq, Eq, Hash)]
pub struct OutOfRange {
    /// The name of the field.
    pub field: &'static str,
    /// What was given; 2^31 - 1 also where that was more.
    pub value: i32,
    /// The least that can be written.
    pub least: i32,
    /// The most that can be written.
    pub most: i32,
}

impl OutOfRange {
    /// Nothing where the value of the field is in this range.
    pub(crate) fn check(
        field: &'static str,
        value: i32,
        range: RangeInclusive<i32>,
    ) -> Result<(), OutOfRange> {
        if range.contains(&value) {
            return Ok(());
        }
        let (least, most) = range.into_inner();
        Err(OutOfRange {
            field,
            value,
            least,
            most,
        })
    }
}

impl fmt::Display for OutOfRange {
    fn fmt(&self, f: &mut fmt::Formatter<'_>) -> fmt::Result {
        let OutOfRange {
            field,
            value,
            least,
            most,
        } = self;
        write!(f, "{field} is {value}, and not {least} to {most}")
    }
}

impl Error for OutOfRange {}

/// The data of an element are not well-formed for a value of [`standard`](crate::standard).
#[derive(Clone, Copy, Debug, PartialEq, Eq, Hash)]
pub struct NotAValue;

impl fmt::Display for NotAValue {
    fn fmt(&self, f: &mut fmt::Formatter<'_>) -> fmt::Result {
        f.write_str("data that are not well-formed for the value")
    }
}

impl Error for NotAValue {}

/// More than four streams, layers or temporal layers were given.
#[derive(Clone, Copy, Debug, PartialEq, Eq, Hash)]
pub struct TooManyLayers;

impl fmt::Display for TooManyLayers {
    fn fmt(&self, f: &mut fmt::Formatter<'_>) -> fmt::Result {
        f.write_str("more than four streams, layers or temporal layers")
    }
}

impl Error for TooManyLayers {}

/// Why an element or a block wasn't put into a packet ([`put_element`](crate::put_element),
/// [`add_element`](crate::add_element), [`put_block`](crate::put_block)), or a block kept its form
/// ([`change_form`](crate::change_form)).
#[derive(Clone, Copy, Debug, PartialEq, Eq, Hash)]
#[non_exhaustive]
pub enum NotPut {
    /// The packet is longer than the buffer, there are more than 255 bytes of data, or a body is no whole number of
    /// words of four bytes.
    BadField,
    /// The id is 0, which no element has.
    BadId,
    /// An id is above 14, which the one-byte form can't carry: that of the element, where this form alone is allowed,
    /// or one of the block's, which is to get this form. It comes before [`NotPut::FormNotAllowed`].
    LongId,
    /// The block has, or an element needs, a form that isn't allowed; or an element can't be in the form that the
    /// block is to get. Where the one-byte form alone is allowed, [`Packet::form`](crate::Packet::form) tells which:
    /// the two-byte form, or else the element has no data or more than 16 bytes of them.
    FormNotAllowed,
    /// The block would have more than 65,535 words.
    LongBlock,
    /// The bytes are no packet: [`source`](Error::source) says why.
    NotAPacket(NotAPacket),
    /// The block's form is neither 0xBEDE nor 0x1000 to 0x100F.
    OtherForm,
    /// The buffer has no room behind the packet.
    ShortBuffer,
}

impl NotPut {
    pub(crate) fn of_status(status: i32) -> Result<(), NotPut> {
        match status {
            sys::BAD_FIELD => Err(NotPut::BadField),
            sys::BAD_ID => Err(NotPut::BadId),
            sys::LONG_ID => Err(NotPut::LongId),
            sys::FORM_NOT_ALLOWED => Err(NotPut::FormNotAllowed),
            sys::LONG_BLOCK => Err(NotPut::LongBlock),
            sys::UNKNOWN_FORM => Err(NotPut::OtherForm),
            sys::SHORT_BUFFER => Err(NotPut::ShortBuffer),
            _ => NotAPacket::of_status(status).map_err(NotPut::NotAPacket),
        }
    }
}

impl fmt::Display for NotPut {
    fn fmt(&self, f: &mut fmt::Formatter<'_>) -> fmt::Result {
        f.write_str(match self {
            NotPut::BadField => text::BAD_FIELD,
            NotPut::BadId => text::BAD_ID,
            NotPut::LongId => text::LONG_ID,
            NotPut::FormNotAllowed => text::FORM_NOT_ALLOWED,
            NotPut::LongBlock => text::LONG_BLOCK,
            NotPut::NotAPacket(_) => "no RTP packet",
            NotPut::OtherForm => text::UNKNOWN_FORM,
            NotPut::ShortBuffer => text::SHORT_BUFFER,
        })
    }
}

impl Error for NotPut {
    fn source(&self) -> Option<&(dyn Error + 'static)> {
        match self {
            NotPut::NotAPacket(cause) => Some(cause),
            _ => None,
        }
    }
}

impl From<NotAPacket> for NotPut {
    fn from(cause: NotAPacket) -> NotPut {
        NotPut::NotAPacket(cause)
    }
}

/// Why no header was made for the receivers of a packet ([`HeaderTemplate::new`](crate::HeaderTemplate::new)), or what
/// they have in common was not prepared ([`PreparedGroup::new`](crate::PreparedGroup::new)).
#[derive(Clone, Copy, Debug, PartialEq, Eq, Hash)]
#[non_exhaustive]
pub enum NotRouted {
    /// There are more than 16 elements to put.
    ManyElements,
    /// Two of the elements have one id.
    RepeatedId,
    /// An element would have an id above 14, which the one-byte form can't carry, and that form alone is allowed: one
    /// of the packet's gets it, whose block has that form, or one that is put has it.
    LongId,
    /// An element isn't put, or the buffer, or the block in the two-byte form that a new id asks for, has no room:
    /// [`source`](Error::source) says why. It is [`NotPut::BadField`] where there are more than 255 bytes of data, or
    /// these reach past what they lie in.
    NotPut(NotPut),
}

impl fmt::Display for NotRouted {
    fn fmt(&self, f: &mut fmt::Formatter<'_>) -> fmt::Result {
        f.write_str(match self {
            NotRouted::ManyElements => "more than 16 elements",
            NotRouted::RepeatedId => "two elements of one id",
            NotRouted::LongId => text::LONG_ID,
            NotRouted::NotPut(_) => "an element can't be put, or there is no room",
        })
    }
}

impl Error for NotRouted {
    fn source(&self) -> Option<&(dyn Error + 'static)> {
        match self {
            NotRouted::NotPut(cause) => Some(cause),
            _ => None,
        }
    }
}

/// Why a packet or a header was left as it was.
#[derive(Clone, Copy, Debug, PartialEq, Eq, Hash)]
#[non_exhaustive]
pub enum NotChanged {
    /// The payload type is above 127.
    BadPayloadType,
    /// There are more contributing sources than the 15 that a header has room for.
    TooManySources,
    /// The CSRC list has no such place.
    NoSource,
    /// No element has the id, or the last one has another number of bytes.
    NoElement,
    /// An element would get an id that the packet's form can't carry: one above 14 in the one-byte form.
    BadNewId,
    /// The padding's last byte counts more bytes than the payload has.
    BadPadding,
}

impl NotChanged {
    /// What the status of a change says that has one cause beside those for which bytes are no packet.
    pub(crate) fn of_status(status: i32, cause: NotChanged) -> Result<(), NotChanged> {
        match status {
            sys::OK => Ok(()),
            _ => Err(cause),
        }
    }
}

impl fmt::Display for NotChanged {
    fn fmt(&self, f: &mut fmt::Formatter<'_>) -> fmt::Result {
        f.write_str(match self {
            NotChanged::BadPayloadType => "the payload type is above 127",
            NotChanged::TooManySources => "more than 15 contributing sources",
            NotChanged::NoSource => "no such place in the CSRC list",
            NotChanged::NoElement => "no element of the id and of this length",
            NotChanged::BadNewId => "the block's form can't carry a new id",
            NotChanged::BadPadding => "the padding is longer than the payload",
        })
    }
}

impl Error for NotChanged {}

/// Why a packet didn't become a retransmission, or a retransmission the packet that it repeats.
#[derive(Clone, Copy, Debug, PartialEq, Eq, Hash)]
#[non_exhaustive]
pub enum NotRetransmitted {
    /// The payload type is above 127.
    BadPayloadType,
    /// The packet is said to be longer than the buffer.
    BadLength,
    /// The bytes are no packet: [`source`](Error::source) says why.
    NotAPacket(NotAPacket),
    /// The padding's last byte counts more bytes than the payload has.
    BadPadding,
    /// The payload has fewer than the two bytes of the original number.
    NoNumber,
    /// An element would get an id that the packet's form can't carry: one above 14 in the one-byte form.
    BadNewId,
    /// The buffer has no room for the original number.
    ShortBuffer,
}

impl fmt::Display for NotRetransmitted {
    fn fmt(&self, f: &mut fmt::Formatter<'_>) -> fmt::Result {
        f.write_str(match self {
            NotRetransmitted::BadPayloadType => "the payload type is above 127",
            NotRetransmitted::BadLength => "the packet is longer than the buffer",
            NotRetransmitted::NotAPacket(_) => "no RTP packet",
            NotRetransmitted::BadPadding => "the padding is longer than the payload",
            NotRetransmitted::NoNumber => "the payload has no original sequence number",
            NotRetransmitted::BadNewId => "the block's form can't carry a new id",
            NotRetransmitted::ShortBuffer => text::SHORT_BUFFER,
        })
    }
}

impl Error for NotRetransmitted {
    fn source(&self) -> Option<&(dyn Error + 'static)> {
        match self {
            NotRetransmitted::NotAPacket(cause) => Some(cause),
            _ => None,
        }
    }
}

impl From<NotAPacket> for NotRetransmitted {
    fn from(cause: NotAPacket) -> NotRetransmitted {
        NotRetransmitted::NotAPacket(cause)
    }
}

/// The rollover count of a stream's first packet was 2^48 or more.
#[derive(Clone, Copy, Debug, PartialEq, Eq, Hash)]
pub struct BadRolloverCount;

impl fmt::Display for BadRolloverCount {
    fn fmt(&self, f: &mut fmt::Formatter<'_>) -> fmt::Result {
        f.write_str("a rollover count of 2^48 or more")
    }
}

impl Error for BadRolloverCount {}

/// The id 0 was given, which is padding and can't mean a kind.
#[derive(Clone, Copy, Debug, PartialEq, Eq, Hash)]
pub struct BadId;

impl fmt::Display for BadId {
    fn fmt(&self, f: &mut fmt::Formatter<'_>) -> fmt::Result {
        f.write_str("the id 0 is padding")
    }
}

impl Error for BadId {}
