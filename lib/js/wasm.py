"""Reads and writes the parts of a module of WebAssembly, by its binary format. A section is a pair: its number, and its content."""

CUSTOM, TABLE, ELEMENTS, CODE = 0, 4, 9, 10
HEAD = b"\0asm\1\0\0\0"


def number(data, at):
    """Reads an unsigned LEB128. Returns it and the offset after it."""
    value = shift = 0
    while True:
        byte = data[at]
        at, value, shift = at + 1, value | (byte & 0x7F) << shift, shift + 7
        if byte < 0x80:
            return value, at


def encoded(value):
    """Returns an unsigned LEB128."""
    made = bytearray()
    while value >= 0x80:
        made.append(value & 0x7F | 0x80)
        value >>= 7
    return bytes([*made, value])


def sections(data):
    """Returns the sections of a module, in their order, with the offset of the content of each."""
    at, found = len(HEAD), []
    while at < len(data):
        size, start = number(data, at + 1)
        found.append((data[at], data[start : start + size], start))
        at = start + size
    return found


def module(parts):
    """Returns a module of sections, each its number and its content."""
    return HEAD + b"".join(bytes([kind]) + encoded(len(content)) + content for kind, content in parts)
