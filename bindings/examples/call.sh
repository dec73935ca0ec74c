#!/usr/bin/env bash
# A call through the SFU of this folder, on 127.0.0.1, in 30 seconds: GStreamer sends VP8 and Opus through a network
# that loses, doubles and reorders (call_loss.py), and through the SFU (sfu.c, sfu_sockets.c), to three receivers.
# What each of them puts out and decodes has to be, byte for byte, what was sent and not lost: call.py says what is
# compared. All that it starts ends with it.
#
# It needs cc, and of Debian python3-gi, gir1.2-gst-plugins-base-1.0 and gstreamer1.0-plugins-base and -good;
# where they are missing it says so and does nothing.
#
# usage: bindings/examples/call.sh [TIMES]
set -euo pipefail
here=$(cd -- "$(dirname -- "$(readlink -f -- "${BASH_SOURCE[0]}")")" && pwd)
top=$here/../..
scratch=$(mktemp -d)
trap 'rm -rf -- "$scratch"' EXIT
export GST_REGISTRY=$scratch/registry PYTHONDONTWRITEBYTECODE=1

python=
for it in python3 /usr/bin/python3; do
    missing=$("$it" "$here/call.py" --missing 2>"$scratch/errors") && [ -z "$missing" ] && python=$it && break
done
if [ -z "$python" ]; then
    echo "the call was left out, for want of ${missing:-$(tail -n 1 "$scratch/errors")}"
    exit
fi

cc -std=c99 -O2 -I "$top/bindings/c" "$here/sfu.c" "$here/sfu_sockets.c" "$top/generated/rtp_wire-Linux-$(uname -m).s" \
    -o "$scratch/sfu"
for ((i = 0; i < ${1:-1}; i++)); do
    timeout --foreground --kill-after=5 60 "$python" "$here/call.py" "$scratch/sfu"
done
