"""Prints the screen after a recording, or the bytes of a program: python3 -m vt220 [OPTION ..] FILE [BYTES].
Writes a recording as a picture that moves: python3 -m vt220 animate [OPTION ..] FILE; see python3 -m vt220 animate --help.

  --format FORMAT       how it was recorded: raw, asciicast, ttyrec, script, or auto, which is what its first bytes show (auto)
  --encoding ENCODING   what the program wrote: dec, the bytes of a VT220, or utf-8, or auto, which the recording decides on (auto)
  --terminal TERMINAL   what the program wrote for: vt220, or xterm, which is in UTF-8, or auto, the one that the recording names (auto)
  BYTES                 how many bytes of the program are played (all)

With --format raw the bytes are those of a VT220, unless an option says something else. docs/SPECIFICATION.md describes the formats.
"""
import argparse
import sys
from typing import List, NoReturn, Optional

from . import ENCODINGS, TERMINALS, NoLibrary, animate
from .recordings import FORMATS, play, read

# The exit status after a recording that breaks its format. What comes before that is played.
BROKEN = 7


class _Parser(argparse.ArgumentParser):
    """Reads the command line. Both of its texts are the text of this module."""

    def format_help(self) -> str:
        return __doc__ or ""

    def error(self, message: str) -> NoReturn:
        self.exit(2, f"vt220: {message}\n{self.format_help()}")


def _number(word: str) -> int:
    if not word.isdecimal():
        raise argparse.ArgumentTypeError(f"{word!r} isn't a number of bytes")
    return int(word)


def _words(argv: List[str]) -> argparse.Namespace:
    parser = _Parser(prog="vt220")
    parser.add_argument("--format", choices=FORMATS, default="auto")
    parser.add_argument("--encoding", choices=("auto", *ENCODINGS), default="auto")
    parser.add_argument("--terminal", choices=("auto", *TERMINALS), default="auto")
    parser.add_argument("file")
    parser.add_argument("bytes", nargs="?", type=_number)
    words = parser.parse_args(argv)
    if words.terminal == "xterm" and words.encoding == "dec":
        parser.error("what an xterm gets is in UTF-8: leave --encoding out")
    return words


def main(argv: Optional[List[str]] = None) -> int:
    """Plays the recording that the command line names, and prints the screen. Returns the exit status."""
    arguments = sys.argv[1:] if argv is None else argv
    if arguments[:1] == ["animate"]:
        return animate.main(arguments[1:])
    words = _words(arguments)
    encoding, terminal = (None if word == "auto" else word for word in (words.encoding, words.terminal))
    if words.format == "raw" and terminal is None:
        encoding, terminal = encoding or "dec", "vt220"
    try:
        with open(words.file, "rb") as file:
            recording = read(file.read(), words.format)
        played = play(recording, encoding, terminal, words.bytes)
    except OSError as error:
        print(f"vt220: {words.file}: {error.strerror}", file=sys.stderr)
        return 1
    except NoLibrary as fault:
        print(f"vt220: {fault}", file=sys.stderr)
        return 1
    sys.stdout.write(played.text())
    if recording.broken:
        print(f"vt220: {words.file}: {recording.format}: {recording.broken}", file=sys.stderr)
    return BROKEN if recording.broken else 0


if __name__ == "__main__":
    sys.exit(main())
