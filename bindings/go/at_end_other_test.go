//go:build !linux && !darwin

package rtpwire_test

import "testing"

// atEnd is a copy of the bytes that has no room behind them.
func atEnd(t *testing.T, data []byte) []byte {
	t.Helper()
	copied := make([]byte, len(data))
	copy(copied, data)
	return copied
}
