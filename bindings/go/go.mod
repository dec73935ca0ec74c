module rtp-wire.example/rtpwire

go 1.19
