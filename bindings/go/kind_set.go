package rtpwire

import "strings"

// A KindSet is a set of the kinds that have a value here, as [Header.LeftOut] tells it: the bit 1 << kind of each. The zero
// KindSet has none.
type KindSet uint32

// Contains says whether the kind is in the set. None of your own is.
func (s KindSet) Contains(kind Kind) bool {
	return kind <= KindLayers && s>>kind&1 == 1
}

// Kinds is the kinds of the set, by rising number.
func (s KindSet) Kinds() []Kind {
	var all []Kind
	for kind := KindAbsSendTime; kind <= KindLayers; kind++ {
		if s.Contains(kind) {
			all = append(all, kind)
		}
	}
	return all
}

// String names the kinds, with commas between.
func (s KindSet) String() string {
	var names []string
	for _, kind := range s.Kinds() {
		names = append(names, kind.String())
	}
	return strings.Join(names, ", ")
}

// A LeftOutError is that of [Header.WriteAll]: values of these kinds would be left out.
type LeftOutError struct {
	Kinds KindSet
}

// Error names the kinds.
func (e *LeftOutError) Error() string {
	return "rtpwire: values that no element carries: " + e.Kinds.String()
}
