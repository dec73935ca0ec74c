#![doc = include_str!("../README.md")]
//!
//! # Where to look
//!
//! - What was agreed on in SDP: [`OwnUris`] makes a [`Map`] of each peer's lines, and [`NewIds`] go from one to another.
//! - To receive: [`Packet::read`] gives a [`Packet`] with its [`Elements`] and a [`Header`] with its [`Values`] under a
//!   [`Map`]; [`Receiver`].
//! - To receive many at once: [`read_packets`], [`parse_packets`], [`receive_many`].
//! - To report what came: [`ReceptionStatistics`].
//! - To send: [`Header::with_values`], [`Header::write_all`], [`Header::write_to`], [`Header::write_with`],
//!   [`Header::write_with_layers`], [`write_elements`], [`pad`].
//! - To send on: [`PacketMut`], [`put_element`], [`add_element`], [`change_form`], [`put_block`], [`remove_block`],
//!   [`compact`], [`Fields`], [`Values::data_of`], [`NewIds`].
//! - To send to many receivers: [`HeaderTemplate`], [`Group`], [`PreparedGroup`], [`RoutedSlot`].
//! - To send again: [`to_retransmission`], [`from_retransmission`], [`read_original`], [`write_original`].
//! - Elements as their standards have them, for any peer: [`standard`], [`Packet::token`].
//! - What went wrong: [`NotRtp`], [`NotAPacket`], [`NotAHeader`], [`NotAValue`], [`NotRead`], [`NotTaken`], [`NotWritten`], [`OutOfRange`], [`NotChanged`],
//!   [`NotPut`], [`NotRouted`], [`NotRetransmitted`], [`NotAText`], [`NotMapped`], [`BadId`], [`BadRolloverCount`], [`TooManyLayers`].
#![no_std]
#![deny(unsafe_code)]
#![warn(missing_docs, missing_debug_implementations)]

#[macro_use]
mod assembly;
mod elements;
mod error;
mod group;
mod growing;
mod header;
mod kind_set;
mod layers;
mod many;
mod map;
mod new_ids;
mod own_uris;
mod packet;
mod packet_mut;
mod payload;
mod receiver;
mod reception;
mod restarting;
mod routed_slot;
pub mod standard;
#[rustfmt::skip]
mod sys;
mod template;
mod text;
mod uri;
mod values;
#[rustfmt::skip]
mod views;
mod wide_receiver;

pub use elements::{write_elements, Element, Elements, Place, Places};
pub use error::{
    BadId, BadRolloverCount, NotAHeader, NotAPacket, NotAValue, NotChanged, NotPut, NotRead,
    NotRetransmitted, NotRouted, NotRtp, NotTaken, NotWritten, OutOfRange, TooManyLayers,
};
pub use group::{Group, PreparedGroup};
pub use growing::{add_element, change_form, compact, put_block, put_element, remove_block};
pub use header::Header;
pub use kind_set::KindSet;
pub use layers::{Layer, Layers, Resolution, Stream};
pub use many::{
    parse_headers, parse_packets, read_packets, receive_many, ArrivalSlot, Datagram, Datagrams,
    HeaderSlot, PacketSlot, WholeSlot,
};
pub use map::{Kind, Map, OwnKind};
pub use new_ids::NewIds;
pub use own_uris::{NotMapped, OwnUris};
pub use packet::{is_rtcp, Csrcs, Form, Packet};
pub use packet_mut::{Fields, PacketMut};
pub use payload::{
    from_retransmission, pad, read_original, to_retransmission, version, write_original,
};
pub use receiver::{extend_u15, extend_u16, extend_u32, extend_u8, Receiver, Standing};
pub use reception::{ReceptionReport, ReceptionStatistics};
pub use restarting::{Arrival, RestartingReceiver, WideRestartingReceiver};
pub use routed_slot::RoutedSlot;
pub use template::{HeaderTemplate, RoutedHeaders};
pub use text::{Mid, NotAText, Rid, Text};
pub use uri::Uri;
pub use values::{Values, VideoTiming};
pub use wide_receiver::WideReceiver;
