package rtp

import "fmt"

// SetExtension gives the extension of this id these data, which aren't copied, in place of those that it has. A header
// without a block gets one: in the one-byte form where that can carry the id and up to 16 bytes of data.
func (h *Header) SetExtension(id uint8, payload []byte) error {
	if !h.Extension {
		profile := uint16(extensionProfileOneByte)
		if id > 14 || len(payload) == 0 || len(payload) > 16 {
			profile = extensionProfileTwoByte
		}
		if err := fits(profile, id, payload); err != nil {
			return err
		}
		h.Extension, h.ExtensionProfile = true, profile
		h.Extensions = []Extension{{id, payload}} // a shallow copy of the header may have those that lie there
		return nil
	}
	if err := fits(h.ExtensionProfile, id, payload); err != nil {
		return err
	}
	for i := range h.Extensions {
		if h.Extensions[i].id == id {
			h.Extensions[i].payload = payload
			return nil
		}
	}
	h.Extensions = append(h.Extensions, Extension{id, payload})
	return nil
}

// fits is nil where a block of this profile can carry the extension.
func fits(profile uint16, id uint8, payload []byte) error {
	switch {
	case profile == extensionProfileOneByte && (id < 1 || id > 14):
		return fmt.Errorf("%w actual(%d)", errRFC8285OneByteHeaderIDRange, id)
	case profile == extensionProfileOneByte && (len(payload) < 1 || len(payload) > 16):
		return fmt.Errorf("%w actual(%d)", errRFC8285OneByteHeaderSize, len(payload))
	case profile == extensionProfileOneByte:
		return nil
	case profile&0xFFF0 == extensionProfileTwoByte && id < 1:
		return fmt.Errorf("%w actual(%d)", errRFC8285TwoByteHeaderIDRange, id)
	case profile&0xFFF0 == extensionProfileTwoByte && len(payload) > 255:
		return fmt.Errorf("%w actual(%d)", errRFC8285TwoByteHeaderSize, len(payload))
	case profile&0xFFF0 != extensionProfileTwoByte && id != 0:
		return fmt.Errorf("%w actual(%d)", errRFC3550HeaderIDRange, id)
	default:
		return nil
	}
}

// GetExtensionIDs is the ids of the extensions, in order; nil where there is none.
func (h *Header) GetExtensionIDs() []uint8 {
	if !h.Extension || len(h.Extensions) == 0 {
		return nil
	}
	ids := make([]uint8, 0, len(h.Extensions))
	for i := range h.Extensions {
		ids = append(ids, h.Extensions[i].id)
	}
	return ids
}

// GetExtension is the data of the first extension of this id; nil where there is none.
func (h *Header) GetExtension(id uint8) []byte {
	if !h.Extension {
		return nil
	}
	for i := range h.Extensions {
		if h.Extensions[i].id == id {
			return h.Extensions[i].payload
		}
	}
	return nil
}

// DelExtension takes the first extension of this id away.
func (h *Header) DelExtension(id uint8) error {
	if !h.Extension {
		return errHeaderExtensionsNotEnabled
	}
	for i := range h.Extensions {
		if h.Extensions[i].id == id {
			h.Extensions = append(h.Extensions[:i], h.Extensions[i+1:]...)
			return nil
		}
	}
	return errHeaderExtensionNotFound
}
