"""RTP packets (RFC 3550, 5.1), their header extensions (RFC 8285) and the receive state of a stream.

`Packet` reads a packet where it lies, and changes it in place; `Columns` reads many at once; `HeaderTemplate` writes a
header for each receiver of a packet; `Header` is the header as a value, to be read or written; `Map` says which extension
each id means; `Receiver` judges the packets of a stream. The work is done by the functions of librtp_wire, each of which
is proved.
"""

from . import _loaded
from ._color_space import ChromaSiting, Chromaticity, ColorRange, ColorSpace, HdrMetadata
from ._column import Column, TextColumn
from ._columns import Columns, Verdict, Verdicts
from ._errors import (
    BadField,
    BadId,
    Cause,
    FormNotAllowed,
    LeftOut,
    LongBlock,
    LongId,
    NoElement,
    NotAPacket,
    OtherForm,
    RtpError,
    ShortBuffer,
    Status,
)
from ._group import Group
from ._growing import add_element, change_form, compact, put_block, put_element, remove_block
from ._header import Header, write_elements
from ._kind import OWN_URIS, Kind, OwnUris
from ._layers import Layer, Layers, Resolution
from ._map import Map, NewIds
from ._numbers import (
    extend_ntp_56,
    extend_send_time,
    mixer_levels_data,
    ntp_56_data,
    ntp_64_data,
    read_mixer_level,
    read_ntp_56,
    read_ntp_64,
    read_send_time,
    read_transmission_offset,
    send_time_data,
    transmission_offset_data,
)
from ._packet import Element, Form, Packet, elements, is_rtcp
from ._payload import from_retransmission, pad, read_original, to_retransmission, write_original
from ._receiver import (
    Receiver,
    RestartingReceiver,
    Standing,
    Taken,
    WideReceiver,
    extend_u8,
    extend_u15,
    extend_u16,
    extend_u32,
)
from ._reception import ReceptionReport, ReceptionStatistics
from ._standard import (
    Camera,
    DependencyDescriptor,
    FeedbackRequest,
    FrameLayers,
    FrameMarking,
    Orientation,
    Timing,
    TransportNumber,
    has_dependency_structure,
    is_stream_id,
    read_token,
)
from ._structured import structured_array
from ._template import HeaderTemplate, Route
from ._values import Time, Values, VideoTiming

__all__ = [
    "BadField",
    "BadId",
    "Camera",
    "Cause",
    "ChromaSiting",
    "Chromaticity",
    "ColorRange",
    "ColorSpace",
    "Column",
    "Columns",
    "DependencyDescriptor",
    "Element",
    "FeedbackRequest",
    "Form",
    "FormNotAllowed",
    "FrameLayers",
    "FrameMarking",
    "Group",
    "HdrMetadata",
    "Header",
    "HeaderTemplate",
    "Kind",
    "Layer",
    "Layers",
    "LeftOut",
    "LongBlock",
    "LongId",
    "Map",
    "NewIds",
    "NoElement",
    "NotAPacket",
    "OWN_URIS",
    "Orientation",
    "OtherForm",
    "OwnUris",
    "Packet",
    "Receiver",
    "ReceptionReport",
    "ReceptionStatistics",
    "Resolution",
    "RestartingReceiver",
    "Route",
    "RtpError",
    "ShortBuffer",
    "Standing",
    "Status",
    "Taken",
    "TextColumn",
    "Time",
    "Timing",
    "TransportNumber",
    "Values",
    "Verdict",
    "Verdicts",
    "VideoTiming",
    "WideReceiver",
    "add_element",
    "change_form",
    "compact",
    "elements",
    "extend_ntp_56",
    "extend_send_time",
    "extend_u15",
    "extend_u16",
    "extend_u32",
    "extend_u8",
    "from_retransmission",
    "has_dependency_structure",
    "is_rtcp",
    "is_stream_id",
    "mixer_levels_data",
    "ntp_56_data",
    "ntp_64_data",
    "pad",
    "put_block",
    "put_element",
    "read_mixer_level",
    "read_ntp_56",
    "read_ntp_64",
    "read_original",
    "read_send_time",
    "read_token",
    "read_transmission_offset",
    "remove_block",
    "send_time_data",
    "structured_array",
    "to_retransmission",
    "transmission_offset_data",
    "write_elements",
    "write_original",
]

__version__: str = _loaded.package_version().decode()
"""The version of the package and of its library, as pip has it."""
