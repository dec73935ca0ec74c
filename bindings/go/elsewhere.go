//go:build !gc || !(amd64 || arm64)

package rtpwire

// The texts of the library are for amd64 and arm64, and Go's own compiler takes them: elsewhere the compiler shows this name.
var _ = rtpwireIsForAmd64AndArm64
