package rtpwire

// Layers says which simulcast streams and layers a sender of video keeps active (video-layers-allocation00). It is
// read by [Layers.Parse], or filled and written by [Header.WriteLayers].
type Layers struct {
	streams [4]Stream
	count   uint8
	current uint8
}

// A Stream is a simulcast stream of a Layers.
type Stream struct {
	layers [4]Layer
	count  uint8
}

// A Layer is a spatial layer of a Stream.
type Layer struct {
	kbps          [4]uint64
	width, height uint16
	framerate     uint8
	hasResolution bool
	rates         uint8
}

// A Resolution is that of a Layer, and its frame rate.
type Resolution struct {
	Width, Height uint16 // in pixels, 1 to 65,535
	Framerate     uint8  // the highest, in frames per second
}

// Parse reads the layer allocation of the packet that the datagram is, where it has one ([ReadValues.HasLayers]); else
// there is no stream. It returns an error as [Packet.Parse], and nothing changes then.
func (l *Layers) Parse(datagram []byte, m *Map) error {
	return l.parse(datagram, m)
}

// Current is which of the streams the packet is of, from 0.
func (l *Layers) Current() int {
	return int(l.current)
}

// SetCurrent sets which of the streams the packet is of, from 0.
func (l *Layers) SetCurrent(current uint8) {
	l.current = current
}

// Streams is the streams, at most 4: none where nothing is sent. It is a part of the Layers, as [Header.CSRC] of its
// header, and so are [Stream.Layers] and [Layer.Kbps].
func (l *Layers) Streams() []Stream {
	return l.streams[:l.count:l.count]
}

// SetStreams sets the streams, which may be a part of those that are there. It returns ErrBadField, and changes
// nothing, where there are more than 4.
func (l *Layers) SetStreams(streams ...Stream) error {
	if len(streams) > len(l.streams) {
		return ErrBadField
	}
	count := copy(l.streams[:], streams)
	for i := count; i < len(l.streams); i++ {
		l.streams[i] = Stream{}
	}
	l.count = uint8(count)
	return nil
}

// Layers is the spatial layers by rising resolution, at most 4.
func (s *Stream) Layers() []Layer {
	return s.layers[:s.count:s.count]
}

// SetLayers sets the spatial layers, by rising resolution. It returns ErrBadField, and changes nothing, where there are
// more than 4.
func (s *Stream) SetLayers(layers ...Layer) error {
	if len(layers) > len(s.layers) {
		return ErrBadField
	}
	count := copy(s.layers[:], layers)
	for i := count; i < len(s.layers); i++ {
		s.layers[i] = Layer{}
	}
	s.count = uint8(count)
	return nil
}

// Kbps is the rate of each temporal layer with those below it, in kilobits per second, at most 4: none where the
// layer isn't active.
func (l *Layer) Kbps() []uint64 {
	return l.kbps[:l.rates:l.rates]
}

// SetKbps sets the rates: none where the layer isn't active. It returns ErrBadField, and changes nothing, where there
// are more than 4.
func (l *Layer) SetKbps(kbps ...uint64) error {
	if len(kbps) > len(l.kbps) {
		return ErrBadField
	}
	count := copy(l.kbps[:], kbps)
	for i := count; i < len(l.kbps); i++ {
		l.kbps[i] = 0
	}
	l.rates = uint8(count)
	return nil
}

// Resolution is the resolution, where the sender tells it.
func (l *Layer) Resolution() (resolution Resolution, ok bool) {
	return Resolution{l.width, l.height, l.framerate}, l.hasResolution
}

// SetResolution sets the resolution.
func (l *Layer) SetResolution(resolution Resolution) {
	l.width, l.height, l.framerate = resolution.Width, resolution.Height, resolution.Framerate
	l.hasResolution = true
}
