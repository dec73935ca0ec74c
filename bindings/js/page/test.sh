#!/usr/bin/env bash
# The page for captures: makes it, and has Debian's Chromium open it with captures that are made by hand, whose numbers
# are compared with Python's; before that Node runs its code over damaged ones. Prints a line for each, and ends at the
# first that fails; where there is no Chromium or no Node it says so, and leaves out what needs it.
#
# usage: test.sh [UNITTEST_NAME..]
set -euo pipefail
cd -- "$(dirname -- "$0")"
scratch=$(mktemp -d)
trap 'rm -rf -- "$scratch"' EXIT
export PYTHONDONTWRITEBYTECODE=1 PIP_NO_INDEX=1 PIP_DISABLE_PIP_VERSION_CHECK=1 PAGE=$scratch/page.html
python3 build.py "$PAGE"
if ! python3 -c 'import rtp_wire' 2>"$scratch/said"; then
    export PYTHONPATH=$scratch/site${PYTHONPATH:+:$PYTHONPATH}
    python3 -m pip install -q --target "$scratch/site" ../../python >"$scratch/said" 2>&1 || {
        cat "$scratch/said" >&2
        exit 1
    }
fi
cd test
test_by() { # what it is called, names of unittest
    python3 -m unittest "${@:2}" >"$scratch/said" 2>&1 || {
        cat "$scratch/said" >&2
        exit 1
    }
    echo "$1: $(grep -E '^Ran |^200 MB ' "$scratch/said" | paste -s -d ';')"
}
if [ $# -eq 0 ] && ! command -v node >/dev/null; then
    echo 'damaged captures, as Node reads them, were left out: there is no node (.ci/install gets it)'
elif [ $# -eq 0 ]; then
    test_by "damaged captures in node $(node --version)" test_damaged
fi
if ! chromium=$(python3 -c 'import browser; print(browser.chromium() or exit(1))'); then
    echo 'the page in a browser was left out: there is no Chromium (.ci/install gets it)'
    exit
fi
test_by "the page in $chromium" "${@:-test_page}"
