"""The description of what is told of a capture, which the page for browsers reads too."""

import json
from pathlib import Path
from typing import Any, Dict

DESCRIBED: Dict[str, Any] = json.loads(Path(__file__).with_name("tables.json").read_text("utf-8"))
