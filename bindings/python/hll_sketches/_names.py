# SPDX-License-Identifier: Apache-2.0
"""Names of files as they are printed: on one line, and in a form that a shell can read."""
from __future__ import annotations

import codecs
import os
import sys
from typing import Tuple

_ESCAPES = {7: "a", 8: "b", 9: "t", 10: "n", 11: "v", 12: "f", 13: "r", 39: "'", 92: "\\"}


def _escaped(byte: int) -> str:
    """Returns a byte as it is written between ``$'`` and ``'``."""
    if byte in _ESCAPES:
        return "\\" + _ESCAPES[byte]
    return chr(byte) if 32 <= byte < 127 else f"\\{byte:03o}"


def _can_be_printed(name: str) -> bool:
    """Returns whether standard output has all characters of a name, on one line."""
    try:
        name.encode(getattr(sys.stdout, "encoding", None) or "utf-8")
    except UnicodeEncodeError:
        return False
    return name.isprintable()


def shown(name: str) -> str:
    """Returns a name for a line of text.

    A name that can be printed is returned unchanged. Other names, with line ends, escapes, bytes that
    are not text, or characters that standard output lacks, are quoted as ``$'..'``, which shells
    understand.
    """
    if name and not name.startswith("$'") and _can_be_printed(name):
        return name
    return f"$'{''.join(map(_escaped, os.fsencode(name)))}'"


def _escaped_in_text(error: UnicodeError) -> Tuple[bytes, int]:
    """Returns the bytes for characters that a stream lacks: those of a name as they are, and escapes for
    other characters."""
    if not isinstance(error, UnicodeEncodeError):
        raise error
    text = error.object[error.start : error.end]
    made = (
        bytes([ord(one) & 0xFF]) if "\udc80" <= one <= "\udcff" else one.encode("ascii", "backslashreplace")
        for one in text
    )
    return b"".join(made), error.end


ESCAPING = "hll_sketches.escaping"
"""The name of this handler of errors of a stream."""

codecs.register_error(ESCAPING, _escaped_in_text)
