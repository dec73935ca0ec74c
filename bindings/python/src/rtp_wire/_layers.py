"""A layer allocation: which simulcast streams and layers a sender of video keeps active."""

from __future__ import annotations

from dataclasses import dataclass
from typing import NamedTuple, Optional, Sized, Tuple

from . import _library
from ._errors import BadField, Status, unsigned, within


class Resolution(NamedTuple):
    """The size of a picture in pixels, and at most so many of them per second."""

    width: int
    height: int
    framerate: int


@dataclass(frozen=True)
class Layer:
    """A spatial layer."""

    kbps: Tuple[int, ...]
    """Of each temporal layer with those below it, in kilobits per second: none where the layer isn't active."""
    resolution: Optional[Resolution]


@dataclass(frozen=True)
class Layers:
    """A layer allocation (video-layers-allocation00)."""

    streams: Tuple[Tuple[Layer, ...], ...]
    """The spatial layers of each simulcast stream, by rising resolution: no stream where nothing is sent."""
    current: int
    """Which of the streams the packet is of, from 0."""


def _layer_of(raw: _library.RawLayer) -> Layer:
    resolution = Resolution(raw.width, raw.height, raw.framerate) if raw.has_resolution else None
    return Layer(tuple(raw.kbps[: raw.rates]), resolution)


def layers_of(raw: _library.RawLayers) -> Layers:
    streams = (stream.layers[: stream.count] for stream in raw.streams[: raw.count])
    return Layers(tuple(tuple(map(_layer_of, layers)) for layers in streams), raw.current)


def _few(name: str, items: Sized) -> int:
    """How many items there are: at most four."""
    if len(items) > 4:
        raise BadField(Status.BAD_FIELD, f"{name} are {len(items)}, and not up to 4")
    return len(items)


def _put_layer(raw: _library.RawLayer, layer: Layer) -> None:
    raw.rates = _few("rates", layer.kbps)
    raw.kbps[: raw.rates] = [unsigned("a rate", rate, 63) for rate in layer.kbps]
    if layer.resolution is not None:
        raw.has_resolution = 1
        raw.width = within("width", layer.resolution.width, 1, 0xFFFF)
        raw.height = within("height", layer.resolution.height, 1, 0xFFFF)
        raw.framerate = unsigned("framerate", layer.resolution.framerate, 8)


def raw_layers_of(layers: Layers) -> _library.RawLayers:
    """The layers for the library. BadField where one is out of its range; TypeError where they are none."""
    if not isinstance(layers, Layers):
        raise TypeError(f"layers are {type(layers).__name__}, and not Layers")
    raw = _library.RawLayers()
    raw.count = _few("streams", layers.streams)
    raw.current = within("current", layers.current, 0, 3 if raw.count else 0)
    for raw_stream, stream in zip(raw.streams, layers.streams):
        raw_stream.count = _few("layers", stream)
        for raw_layer, layer in zip(raw_stream.layers, stream):
            _put_layer(raw_layer, layer)
    return raw
