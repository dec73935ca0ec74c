package rtpwire

import (
	"strings"
	"sync"
)

// IsOwn is whether the kind is one of yours, and not of this library: of a URI that it doesn't know, or a number that
// you chose.
func (k Kind) IsOwn() bool {
	return k >= KindOwn
}

// An OwnURIs gives URIs that the library doesn't know kinds of their own: 128 of them, one for each URI, in all maps that
// it sets. [Map.SetURI] has one for the whole program; a server that takes the SDP of strangers has one for each call or
// room, since whoever sends 128 URIs of his own fills it. One for each peer is no use: the maps of a call have to be of
// the same one ([NewIDsBetween]).
//
// Kinds are given from 255 on downwards, and so those that a program chose by hand, from KindOwn on upwards, are others
// until they meet: where both stand in one map, take the kind of [OwnURIs.KindOf].
//
// The zero OwnURIs is empty, and ready. Several goroutines may use one at once; it must not be copied.
type OwnURIs struct {
	mutex sync.Mutex
	kinds map[string]Kind
}

// ownURIs are those of the whole program.
var ownURIs OwnURIs

// mostOwn is how many kinds of one's own there are.
const mostOwn = 256 - int(KindOwn)

// KindOf is the kind that the URI names, letter for letter: one of the library, or the one of your own that it has here,
// which it gets where it has none yet. It is KindNone of an empty URI, and where there are 128 others already.
func (o *OwnURIs) KindOf(uri string) Kind {
	if kind := KindOfURI(uri); kind != KindNone || uri == "" {
		return kind
	}
	o.mutex.Lock()
	defer o.mutex.Unlock()
	kind, isKnown := o.kinds[uri]
	if isKnown || len(o.kinds) == mostOwn {
		return kind
	}
	if o.kinds == nil {
		o.kinds = make(map[string]Kind)
	}
	kind = Kind(255 - len(o.kinds))
	o.kinds[strings.Clone(uri)] = kind // of a whole SDP, which isn't kept
	return kind
}

// SetURI makes the id of the map mean the kind that the URI names here, and returns it, as [Map.SetURI] does with the
// URIs of the whole program: KindNone, and then the id means nothing, where KindOf has none. It returns ErrBadField, and
// changes nothing, where the id is 0, or the map has kinds of another OwnURIs and the library doesn't know the URI.
func (o *OwnURIs) SetURI(m *Map, id uint8, uri string) (Kind, error) {
	if id == 0 {
		return KindNone, ErrBadField
	}
	kind := KindOfURI(uri)
	if kind == KindNone && uri != "" {
		if m.own != nil && m.own != o {
			return KindNone, ErrBadField
		}
		kind = o.KindOf(uri)
	}
	if kind == KindNone {
		m.Remove(id)
		return KindNone, nil
	}
	if kind.IsOwn() {
		m.own = o
	}
	return kind, m.Set(id, kind)
}

// last is the kind that was given last: those from it on up to 255 were.
func (o *OwnURIs) last() Kind {
	o.mutex.Lock()
	defer o.mutex.Unlock()
	return Kind(256 - len(o.kinds))
}

// URI is the URI of the kind ([Kind.URI]), also of one of your own that was given here; "" where there is none.
func (o *OwnURIs) URI(kind Kind) string {
	o.mutex.Lock()
	defer o.mutex.Unlock()
	for uri, own := range o.kinds {
		if own == kind {
			return uri
		}
	}
	return kind.URI()
}
