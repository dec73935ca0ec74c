//go:build linux || darwin

package rtpwire_test

import (
	"os"
	"syscall"
	"testing"
)

// atEnd is a copy of the bytes that ends where a page begins that may not be touched.
func atEnd(t *testing.T, data []byte) []byte {
	t.Helper()
	page := os.Getpagesize()
	pages, err := syscall.Mmap(-1, 0, 2*page, syscall.PROT_READ|syscall.PROT_WRITE, syscall.MAP_ANON|syscall.MAP_PRIVATE)
	if err == nil {
		err = syscall.Mprotect(pages[page:], syscall.PROT_NONE)
	}
	if err != nil {
		t.Fatal(err)
	}
	t.Cleanup(func() { _ = syscall.Munmap(pages) })
	copied := pages[page-len(data) : page : page]
	copy(copied, data)
	return copied
}
