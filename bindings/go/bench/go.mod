module rtp-wire.example/rtpwire/bench

go 1.19

require (
	github.com/pion/rtp v1.7.13
	github.com/pion/transport/v2 v2.0.2
	rtp-wire.example/rtpwire v0.0.0
)

require github.com/pion/randutil v0.1.0 // indirect

replace (
	github.com/pion/randutil => /usr/share/gocode/src/github.com/pion/randutil
	github.com/pion/rtp => /usr/share/gocode/src/github.com/pion/rtp
	github.com/pion/transport/v2 => /usr/share/gocode/src/github.com/pion/transport
	rtp-wire.example/rtpwire => ../
)
