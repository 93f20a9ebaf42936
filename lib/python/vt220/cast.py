"""Writes recordings as asciicasts, version 2, which name the size of the screen and TERM. So a player can choose how to play them."""
import codecs
import json
from typing import Iterable, Iterator, Mapping, Tuple


def asciicast(head: Mapping[str, object], events: Iterable[Tuple[float, str, bytes]], encoding: str) -> Iterator[bytes]:
    """Returns the lines of an asciicast: the first one with the members of `head`, and each event: its seconds, its code, and its bytes.

    The code is "o" for what the program wrote, "i" for what it was sent, "r" for a new size, and "m" for a marker. Of UTF-8 the characters are written, with
    U+FFFD for what is ill-formed. Otherwise the bytes 80 to FF are the code points U+0080 to U+00FF.
    """
    yield json.dumps({"version": 2, **head}).encode() + b"\n"
    decoders = {code: codecs.getincrementaldecoder("utf-8" if encoding == "utf-8" else "latin-1")("replace") for code in "oirm"}
    at = 0.0
    for at, code, data in events:
        yield from _event(at, code, decoders[code].decode(data))
    for code, decoder in decoders.items():
        yield from _event(at, code, decoder.decode(b"", True))


def _event(at: float, code: str, text: str) -> Iterator[bytes]:
    """Returns the line of an event, if it has a character."""
    if text:
        yield json.dumps([round(at, 6), code, text]).encode() + b"\n"
