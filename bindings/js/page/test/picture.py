#!/usr/bin/env python3
"""Takes a picture of the page with the call of call.py, for the documents.

usage: picture.py PAGE.html OUT.png"""

import base64
import subprocess
import sys
import tempfile
from pathlib import Path

from browser import Browser

HERE = Path(__file__).resolve().parent
SDP = """a=extmap:1 urn:ietf:params:rtp-hdrext:ssrc-audio-level
a=extmap:2 http://www.webrtc.org/experiments/rtp-hdrext/abs-send-time
a=extmap:3 http://www.ietf.org/id/draft-holmer-rmcat-transport-wide-cc-extensions-01
a=extmap:4 urn:ietf:params:rtp-hdrext:sdes:mid
a=extmap:9 http://www.webrtc.org/experiments/rtp-hdrext/video-layers-allocation00
a=extmap:10 urn:ietf:params:rtp-hdrext:sdes:rtp-stream-id
a=extmap:11 urn:ietf:params:rtp-hdrext:sdes:repaired-rtp-stream-id
a=rtpmap:111 opus/48000/2
a=rtpmap:96 VP8/90000
a=rtpmap:97 rtx/90000"""


def main(page, out):
    with tempfile.TemporaryDirectory(prefix="page-") as folder:
        file = Path(folder, "call.pcap")
        subprocess.run([sys.executable, HERE / "call.py", file], check=True)
        browser = Browser(1000, 1600)
        try:
            browser.go(Path(page).resolve().as_uri())
            browser.ask(f"document.getElementById('sdp').value = {SDP!r}")
            browser.give("#file", file)
            browser.until("!document.getElementById('told').hidden")
            browser.ask("document.getElementById('help').hidden = true; dispatchEvent(new Event('resize'))")
            browser.ask("new Promise(go => setTimeout(go, 300))")
            # from what is said to the picture of the rate
            top, end = browser.ask(
                "[document.getElementById('said'), document.querySelectorAll('#pictures figure')[3]]"
                ".map((it, i) => it.getBoundingClientRect()[i ? 'bottom' : 'top'])"
            )
            clip = {"x": 0, "y": top - 8, "width": 985, "height": end - top + 14, "scale": 1}
            taken = browser.call("Page.captureScreenshot", format="png", clip=clip)["data"]
        finally:
            browser.close()
    Path(out).write_bytes(base64.b64decode(taken))


if __name__ == "__main__":
    main(*sys.argv[1:])
