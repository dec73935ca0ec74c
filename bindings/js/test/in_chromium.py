#!/usr/bin/env python3
"""Opens the package in Debian's Chromium as a page would, from a server on this machine: it reads the captures, and is timed
beside a plain reader. Prints what it told; where there is no Chromium it says so.

usage: in_chromium.py [ROUNDS]
"""

import functools
import http.server
import sys
import threading
from pathlib import Path

HERE = Path(__file__).resolve().parent
TOP = HERE.parent.parent.parent
sys.dont_write_bytecode = True
sys.path.insert(0, str(HERE.parent / "page/test"))
from browser import Browser, chromium  # noqa: E402

# What the columns of a capture say, and what its packets say one by one; and the times.
READ = """(async () => {
    const rtp = await import('/bindings/js/rtp_wire.mjs'), speed = await import('/bindings/js/bench/speed.mjs');
    await rtp.load();
    const lines = await (await fetch('/captures/NAME')).text(), corpus = speed.corpusOf(lines);
    const { buffer, at, lengths, map } = corpus, columns = rtp.Columns.parse(buffer, at, lengths, map, ['mid', 'sendTime']);
    let differ = 0;
    for (let row = 0; row < 200; row++) {
        const packet = rtp.Packet.parse(buffer.subarray(at[row], at[row] + lengths[row]), map);
        differ += packet.ssrc !== columns.ssrc[row] || packet.values.mid !== columns.value('mid', row)
            || packet.values.sendTime !== columns.value('sendTime', row) || columns.isRtp[row] !== 1;
    }
    const least = speed.time(corpus, ROUNDS, () => performance.now());
    return `${differ} of 200 packets differ; ${least.package.toFixed(1)} ms, plain ${least.plain.toFixed(1)} ms, `
        + `${(least.package / least.plain).toFixed(2)} times`;
})()"""


class Files(http.server.SimpleHTTPRequestHandler):
    extensions_map = {".mjs": "text/javascript", ".wasm": "application/wasm", "": "text/plain"}

    def log_message(self, *_):
        pass


def main():
    if not chromium():
        print("Chromium was left out: it isn't there (.ci/install gets it)")
        return
    rounds = sys.argv[1] if len(sys.argv) > 1 else "15"
    with http.server.ThreadingHTTPServer(("127.0.0.1", 0), functools.partial(Files, directory=TOP)) as server:
        threading.Thread(target=server.serve_forever, daemon=True).start()
        browser = Browser()
        try:
            browser.go(f"http://127.0.0.1:{server.server_port}/captures/README.md")
            for file in sorted((TOP / "captures").glob("*.lines")):
                told = browser.ask(READ.replace("NAME", file.name).replace("ROUNDS", rounds))
                print(f"Chromium, {file.name}: {told}", flush=True)
                if not told.startswith("0 of"):
                    sys.exit(1)
        finally:
            browser.close()
            server.shutdown()


main()
