"""What an SDP says of the packets of its call."""

from __future__ import annotations

import re
from typing import Dict


class Sdp:
    """What is read of an SDP, of an offer and its answer, or of what holds one, as a dump with escaped line ends. Where
    two lines disagree the last one counts.

    >>> sdp = Sdp("a=rtpmap:97 rtx/90000\\r\\na=fmtp:97 apt=96\\r\\na=ssrc-group:FID 44 45")
    >>> sdp.clocks, sdp.repaired_types, sdp.repaired
    ({97: 90000}, {97: 96}, {45: 44})
    """

    def __init__(self, text: str = "") -> None:
        text = re.sub(r"\\r|\\n", "\n", text)
        self.uris: Dict[int, str] = {}
        """By its id the URI of each extension."""
        self.names: Dict[int, str] = {}
        """By its payload type each encoding's name."""
        self.clocks: Dict[int, int] = {}
        self.repaired_types: Dict[int, int] = {}
        """By the payload type of retransmissions that of what they repair (RFC 4588, 8.1)."""
        self.repaired: Dict[int, int] = {}
        """By the SSRC of retransmissions that of what they repair (RFC 5576, 4.2)."""
        for id, uri in re.findall(r"extmap:([0-9]{1,5})(?:/[a-z]+)?[ \t]+([^\s\"]+)", text):
            if 1 <= int(id) <= 255:
                self.uris[int(id)] = uri
        for number, name, clock in re.findall(r"rtpmap:([0-9]{1,3})[ \t]+([^\s/]+)/([0-9]{1,9})", text):
            self.names[int(number)], self.clocks[int(number)] = name, int(clock)
        for number, repaired in re.findall(r"fmtp:([0-9]{1,3})[ \t]+[^\n]*?\bapt=([0-9]{1,3})", text):
            self.repaired_types[int(number)] = int(repaired)
        for first, second in re.findall(r"ssrc-group:FID[ \t]+([0-9]{1,10})[ \t]+([0-9]{1,10})", text):
            self.repaired[int(second)] = int(first)
