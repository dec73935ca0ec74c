package rtpwire

import "strconv"

// A Kind is what a header extension says of its packet. Its numbers are this library's own, and from KindOwn to 255
// yours: those of extensions that the library doesn't know ([OwnURIs]).
type Kind uint8

// The kinds of extension; KindNone is that of an id that means nothing, and of a URI that has none. Those to KindLayers
// but KindColorSpace have a value in [Values]. The elements of the others, and of yours, are read and written by their
// data, and go from one map to another ([NewIDsBetween]).
const (
	KindNone Kind = iota
	KindAbsSendTime
	KindAbsCaptureTime
	KindAudioLevel
	KindTransmissionOffset
	KindVideoOrientation
	KindTransportNumber
	KindPlayoutDelay
	KindVideoContentType
	KindVideoTiming
	KindRID
	KindRepairedRID
	KindMID
	KindFrameMarking
	KindColorSpace
	KindLayers
	KindMixerLevels          // of the contributing sources: ParseMixerLevel
	KindTransportNumber2     // with what feedback it asks for: ParseTransportNumber
	KindDependencyDescriptor // of AV1: ParseDependencyDescriptor
	KindNTP64                // ParseNTP64
	KindNTP56                // ParseNTP56
)

// KindOwn is the first of the caller's own kinds.
const KindOwn Kind = 128

var kinds = [...]string{
	KindNone:                 "none",
	KindAbsSendTime:          "abs send time",
	KindAbsCaptureTime:       "abs capture time",
	KindAudioLevel:           "audio level",
	KindTransmissionOffset:   "transmission offset",
	KindVideoOrientation:     "video orientation",
	KindTransportNumber:      "transport number",
	KindPlayoutDelay:         "playout delay",
	KindVideoContentType:     "video content type",
	KindVideoTiming:          "video timing",
	KindRID:                  "rid",
	KindRepairedRID:          "repaired rid",
	KindMID:                  "mid",
	KindFrameMarking:         "frame marking",
	KindColorSpace:           "color space",
	KindLayers:               "layers",
	KindMixerLevels:          "mixer levels",
	KindTransportNumber2:     "transport number 2",
	KindDependencyDescriptor: "dependency descriptor",
	KindNTP64:                "ntp 64",
	KindNTP56:                "ntp 56",
}

// String names the kind.
func (k Kind) String() string {
	if int(k) >= len(kinds) {
		return "kind " + strconv.Itoa(int(k))
	}
	return kinds[k]
}

// KindOfURI is the kind that this URI names in SDP (RFC 8285, 5), letter for letter; KindNone where the library doesn't
// know it, as where it is misspelled: [Map.SetURI] has a kind for it too.
func KindOfURI(uri string) Kind {
	return Kind(kindOfURI([]byte(uri)))
}

// URI is the URI that names the kind in SDP (RFC 8285, 5), as an answer says it: "" for KindNone, and for yours, whose
// URIs [OwnURIs.URI] tells.
func (k Kind) URI() string {
	var buf [87]byte // the longest has as many
	n, err := uriOfKind(k, buf[:])
	if err != nil {
		return ""
	}
	return string(buf[:n])
}

// A Map says which kind of extension each id means, as the two peers agreed (RFC 8285, 5). In the zero Map no id
// means anything, and a nil *Map is read as that. It may be copied, and compared with ==.
type Map struct {
	kinds [256]uint8
	own   *OwnURIs // what gave the kinds of one's own that URIs have
}

// StandardMap is the map of the usual ids: 1 audio level, 2 send time, 3 transport number, 4 mid, 10 rid, 11
// repaired rid, 13 video orientation.
func StandardMap() *Map {
	m := new(Map)
	mapStandard(m)
	return m
}

// Set makes the id mean the kind from now on. It returns ErrBadField, and changes nothing, where the id is 0, or the kind
// is KindNone, as of a URI that [KindOfURI] doesn't know, or one of 21 to 127.
func (m *Map) Set(id uint8, kind Kind) error {
	err := mapSet(m, id, kind)
	m.letGo()
	return err
}

// SetURI makes the id mean the kind that the URI names, as a line a=extmap:ID URI of SDP says, and returns it. One that
// the library doesn't know has a kind of its own ([Kind.IsOwn]), the same in all maps of the program that are made so:
// its elements go from one to the other ([NewIDsBetween]). There is room for 128 such URIs, and any further one makes
// the id mean nothing, and KindNone is returned: so a server whose peers are strangers has [OwnURIs] for each call. It
// returns ErrBadField, and changes nothing, where the id is 0, or [OwnURIs.SetURI] gave the map kinds of its own and the
// URI isn't known.
func (m *Map) SetURI(id uint8, uri string) (Kind, error) {
	return ownURIs.SetURI(m, id, uri)
}

// Remove makes the id mean nothing from now on. After the last kind that an [OwnURIs] gave the map may have kinds of another
// one.
func (m *Map) Remove(id uint8) {
	m.kinds[id] = uint8(KindNone)
	m.letGo()
}

// letGo lets the OwnURIs go where no id means a kind of it any more.
func (m *Map) letGo() {
	if m.own == nil {
		return
	}
	last := m.own.last()
	for _, kind := range m.kinds {
		if Kind(kind) >= last {
			return
		}
	}
	m.own = nil
}

// Get is the kind that the id means; KindNone where it means none.
func (m *Map) Get(id uint8) Kind {
	if m == nil {
		return KindNone
	}
	return Kind(m.kinds[id])
}

// IDOf is the lowest id that means the kind: that of the element to set, say. It is 0 where none means it.
func (m *Map) IDOf(kind Kind) uint8 {
	return idOf(m, kind)
}

// NewIDs says which ids elements get where a packet goes from one map to another. In the zero NewIDs none gets
// one. It may be copied, and compared with ==.
type NewIDs struct {
	ids [256]uint8
}

// NewIDsBetween has for each id that means a kind in from, one of your own too, the lowest id that means it in to. Make
// it once for two streams. Kinds of your own that two [OwnURIs] gave are no common ones: of such maps their ids get none.
func NewIDsBetween(from, to *Map) *NewIDs {
	if from != nil && to != nil && from.own != nil && to.own != nil && from.own != to.own {
		from = from.withoutOwn()
	}
	n := new(NewIDs)
	newIDsBetween(from, to, n)
	return n
}

// withoutOwn is a map in which no id means a kind of one's own.
func (m *Map) withoutOwn() *Map {
	known := new(Map)
	for id, kind := range m.kinds {
		if !Kind(kind).IsOwn() {
			known.kinds[id] = kind
		}
	}
	return known
}

// NewIDsToRetransmission has the new ids where packets become retransmissions ([ToRetransmission]; RFC 8852, 3): where
// the map has both KindRID and KindRepairedRID, an id of the first becomes the lowest id of the second, and the ids of
// the second get none. Every other id keeps itself, and so does each where the map hasn't both.
func NewIDsToRetransmission(m *Map) *NewIDs {
	n := new(NewIDs)
	newIDsToRetransmission(m, n)
	return n
}

// NewIDsFromRetransmission has those on the way back ([FromRetransmission]): an id of KindRepairedRID becomes the lowest
// id of KindRID, and the ids of that get none.
func NewIDsFromRetransmission(m *Map) *NewIDs {
	n := new(NewIDs)
	newIDsFromRetransmission(m, n)
	return n
}

// Set gives elements of the id this new id, or none with 0: the extensions that have a kind in neither map, not even
// one of your own, have no new id unless it is set so. The id 0, which is padding, never gets one.
func (n *NewIDs) Set(id, newID uint8) {
	if id != 0 {
		n.ids[id] = newID
	}
}

// Get is the new id of an id; 0 where it gets none.
func (n *NewIDs) Get(id uint8) uint8 {
	return n.ids[id]
}
