"""What goes between the host daemon and the keeper of a program: frames of a letter, a length and so many bytes, as apps/keep/frame.h has them.
Unless a frame's line here says otherwise, it begins with a number.

A keeper sends STATE first. The daemon says NAMED, and FROM: from which position on it wants bytes. Then the keeper sends BYTES and RESIZED in the order of
their positions, checkpoints among them and, when all are sent, ENDED. FROM may come again, if the store went back. A change of the size has a position, as
if it was a byte. What a daemon or a keeper doesn't know, it passes over.
"""
import os
import re
import struct

HEAD, NUMBER, ENTRY = struct.Struct("=cI"), struct.Struct("=Q"), struct.Struct("=BQQ")
LONGEST = 1 << 21  # of a frame of a keeper: the checkpoint of the largest screen is shorter
WAITING = 8 << 20  # bytes of one keeper that wait for the store, or for the keeper, at most
MOST = 1 << 63  # no number of a state is so large. Redis refuses to read any stream if it is asked for an id of more than 64 bits
VERSION = "5"  # of these frames
STREAMS = ("keys", "signals")  # an input has the number of its stream here
PLACE = "vt220-fleet/daemon"  # of a daemon's socket, in the runtime directory
INCARNATION = re.compile("[0-9a-f]{16}")

# Of a keeper:
STATE = b"S"  # no number: the words of State, each with a NUL after it
BYTES = b"B"  # the number is the position after them
RESIZED = b"Z"  # the number is the position after the change, and the bytes are the size, as 120x40: columns and rows
CHECKPOINT = b"P"  # the number is its position. The size if it was changed, a NUL, and what rebuilds the terminal there
JUMP = b"J"  # a checkpoint; the keeper has the bytes before it no more
TAKEN = b"W"  # the number is how many inputs of this daemon were written to the program
ENDED = b"E"  # the number is the position at the end, and the bytes are the exit status, as a shell has it

# Of a daemon:
NAMED = b"N"  # no number: the incarnation. A program that doesn't run yet begins now
FROM = b"F"  # the store has the bytes up to the number
REFUSED = b"R"  # the number is the exit status, and the bytes say why. A keeper whose program runs comes again
KEPT = b"A"  # the store has the bytes up to the number
INPUT = b"I"  # no number: an ENTRY's stream and id, and bytes for the program; a keeper drops one whose id isn't after the last one of its stream
SIGNAL = b"X"  # likewise; the byte is the signal's number
SIZE = b"Y"  # likewise; the bytes are the size
STOP = b"T"  # hang up on the program, and kill it if it doesn't end
DONE = b"D"  # the end is in the store: the keeper may end


class Strange(Exception):
    """What came isn't what a keeper sends."""


def framed(letter, data=b""):
    return HEAD.pack(letter, len(data)) + data


def packed(letter, number=0, data=b""):
    return framed(letter, NUMBER.pack(number) + data)


class Reader:
    """Takes frames apart."""

    def __init__(self):
        self.data = bytearray()

    def feed(self, data):
        """Yields the whole frames that came, as (letter, bytes). Raises Strange if one is too long."""
        self.data += data
        while len(self.data) >= HEAD.size:
            letter, length = HEAD.unpack_from(self.data)
            if length > LONGEST:
                raise Strange(f"a frame of {length} bytes")
            if len(self.data) < HEAD.size + length:
                return
            frame = bytes(self.data[HEAD.size : HEAD.size + length])
            del self.data[: HEAD.size + length]
            yield letter, frame


class State:
    """What a keeper has: its session, the bytes between two positions, and the last input of each stream."""

    def __init__(self, data):
        version, *words = data.decode("utf-8", "surrogateescape").split("\0")[:-1] or [""]
        if version != VERSION:
            raise Strange(f"a keeper of version {version[:9]!r}; this daemon knows {VERSION}")
        try:
            self.name, self.incarnation, takes_input, *self.language = words[:6]
            numbers = [int(each) for each in words[6:12]]
            self.base, self.end = numbers[:2]
            self.last = {stream: f"{numbers[2 + 2 * at]}-{numbers[3 + 2 * at]}" for at, stream in enumerate(STREAMS)}
        except (ValueError, IndexError):
            raise Strange("no state of a keeper") from None
        if not all(0 <= number < MOST for number in numbers) or self.base > self.end:
            raise Strange("a number that no keeper has")
        if self.incarnation and not INCARNATION.fullmatch(self.incarnation):
            raise Strange("no incarnation")
        self.takes_input, self.command = takes_input == "1", " ".join(words[12:]).encode("utf-8", "replace").decode()


def entry(stream, entry_id, data):
    """Returns an input as its frame has it."""
    return ENTRY.pack(STREAMS.index(stream), *map(int, entry_id.split(b"-"))) + data


def path_of(chosen):
    """Returns the path of the daemon's socket: that of FLEET_DAEMON, of the configuration's [host], or in a runtime directory."""
    named = os.environ.get("FLEET_DAEMON") or chosen.daemon
    places = [f"{place}/{PLACE}" for place in (os.environ.get("XDG_RUNTIME_DIR"), "/run") if place]
    return named or next(filter(os.path.exists, places), places[0])
