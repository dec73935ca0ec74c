//go:build !race

package rtpwire_test

// manyGoroutines are as many as a server has for so many sockets.
const manyGoroutines = 100_000
