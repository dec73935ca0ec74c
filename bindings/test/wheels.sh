#!/usr/bin/env bash
# Makes the wheels of the package for Python for all systems, and tries them as far as a Linux can: that for this machine is
# installed by pip where there is no compiler, and passes the package's tests; the library of each other one is loaded as
# ctypes does it (systems/loaded.c), on ARM emulated and on Windows under Wine. On macOS none is loaded: what its library says of
# itself is read in bindings/python/tests/test_wheels.py. What can't be tried is named.
#
# usage: bindings/test/wheels.sh
set -euo pipefail
here=$(cd -- "$(dirname -- "$(readlink -f -- "${BASH_SOURCE[0]}")")" && pwd)
python=$here/../python
scratch=$(mktemp -d)
# Wine's server goes seconds after the last program.
trap 'rm -rf -- "$scratch" 2>/dev/null || { sleep 4 && rm -rf -- "$scratch"; }' EXIT
fail() {
    echo "wheels.sh: $*" >&2
    exit 1
}
export PIP_NO_INDEX=1 PIP_DISABLE_PIP_VERSION_CHECK=1 PYTHONDONTWRITEBYTECODE=1
for it in python3 clang lld; do
    command -v "$it" >/dev/null || { echo "the wheels were left out: there is no $it" && exit; }
done
python3 "$python/backend/rtp_wire_wheels.py" "$scratch/wheels" >"$scratch/said" || fail 'no wheels'
echo "made: $(wc -l <"$scratch/said") wheels"

# Installed with nothing on the path but Python.
mkdir "$scratch/bin"
ln -s "$(python3 -c 'import sys; print(sys.executable)')" "$scratch/bin/python3"
wheel=("$scratch"/wheels/*manylinux*"$(uname -m)".whl)
env -i PATH="$scratch/bin" PIP_NO_INDEX=1 HOME="$scratch" "$scratch/bin/python3" -m pip install -q --no-index --target "$scratch/site" "${wheel[@]}" \
    >"$scratch/said" 2>&1 || fail "pip install: $(cat "$scratch/said")"
(cd -- "$python" && PYTHONPATH=$scratch/site python3 -m unittest -q tests/test_{packets,headers,columns,receivers,templates,values,uris}.py) >"$scratch/said" 2>&1 ||
    fail "the tests over the wheel: $(cat "$scratch/said")"
echo "installed without a compiler: $(grep '^Ran ' "$scratch/said")"

# What the package declares.
PYTHONPATH=$scratch/site python3 - >"$scratch/sizes.h" <<'PYTHON'
import ctypes, re
from importlib.metadata import version
from rtp_wire import _library, _loaded

for name, it in vars(_library).items():
    if name.startswith("Raw") and issubclass(it, ctypes.Structure):
        print(f"SIZE(rtpw{re.sub('([A-Z])', lambda m: '_' + m[1].lower(), name[3:])}, {ctypes.sizeof(it)})")
for name in _loaded.FUNCTIONS:
    print(f"FUNCTION({name})")
print(f'#define VERSION "{version("rtp-wire")}"')
PYTHON

# A program that loads the library of a wheel by its path.
load() { # end of the wheel's name, library, compiler, words before the program
    local it
    for it in "${@:3:2}"; do
        command -v "$it" >/dev/null || { echo "$1: not loaded, for want of $it" && return; }
    done
    python3 -m zipfile -e "$scratch"/wheels/*"$1".whl "$scratch/$1"
    "$3" -std=gnu11 -O1 -Wall -Wextra -I"$scratch" "$here/systems/loaded.c" -o "$scratch/$1/loaded.exe" || fail "$1: loaded.c"
    "${@:4}" "$scratch/$1/loaded.exe" "$scratch/$1/rtp_wire/$2" >"$scratch/said" 2>&1 || fail "$1: $(cat "$scratch/said")"
    echo "$1: $(grep -c ^FUNCTION "$scratch/sizes.h") functions, $(grep -c ^SIZE "$scratch/sizes.h") structs, a packet and columns"
}
load musllinux_1_1_aarch64 librtp_wire.so aarch64-linux-gnu-gcc qemu-aarch64 -L /usr/aarch64-linux-gnu
for wine in wine64 /usr/lib/wine/wine64 wine; do
    ! command -v "$wine" >/dev/null || break
done
export WINEPREFIX=$scratch/wine WINEDEBUG=-all WINEDLLOVERRIDES='mscoree,mshtml=' WINEARCH=win64
load win_amd64 rtp_wire.dll x86_64-w64-mingw32-gcc env -u DISPLAY "$wine"
