"""The shared library, and the functions of it that were declared."""

import sys
from ctypes import PyDLL, c_char_p
from pathlib import Path
from typing import Any, Callable, Dict

_NAME = {"win32": "rtp_wire.dll", "darwin": "librtp_wire.dylib"}.get(sys.platform, "librtp_wire.so")
# The interpreter's lock is kept during a call: to give it away would take as long as most calls do.
_LIBRARY = PyDLL(str(Path(__file__).with_name(_NAME)))

FUNCTIONS: Dict[str, Any] = {}
Function = Callable[..., Any]


def declare(result: Any, name: str, *arguments: Any) -> Function:
    function = FUNCTIONS[name] = _LIBRARY[name]
    function.restype, function.argtypes = result, arguments
    return function


package_version = declare(c_char_p, "package_version")
