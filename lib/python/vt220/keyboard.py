"""Returns the bytes that the keys of a VT220's keyboard, or of an xterm's, send, as the terminal's modes ask for them.

The library has the keyboard: this module has its keys as an enumeration, keys with Shift, Alt or Ctrl held down, and texts of more than one
key.
"""
import enum
import re
from typing import List, NamedTuple, Union, overload

from . import Modes, NoCharacter, NoKey, key, key_length


class Key(enum.Enum):
    """Names each key that isn't a character, as vt220-keys.h does. Help is F15, and Do is F16, as on the keyboard.

    F5 sends nothing on a VT220. It is a key of an xterm.
    """

    UP = "Up"
    DOWN = "Down"
    RIGHT = "Right"
    LEFT = "Left"
    FIND = HOME = "Find"
    INSERT_HERE = "InsertHere"
    REMOVE = "Remove"
    SELECT = END = "Select"
    PREV_SCREEN = "PrevScreen"
    NEXT_SCREEN = "NextScreen"
    PF1 = F1 = "PF1"
    PF2 = F2 = "PF2"
    PF3 = F3 = "PF3"
    PF4 = F4 = "PF4"
    F5 = "F5"
    F6 = "F6"
    F7 = "F7"
    F8 = "F8"
    F9 = "F9"
    F10 = "F10"
    F11 = "F11"
    F12 = "F12"
    F13 = "F13"
    F14 = "F14"
    HELP = F15 = "Help"
    DO = F16 = "Do"
    F17 = "F17"
    F18 = "F18"
    F19 = "F19"
    F20 = "F20"
    KP_0 = "KP0"
    KP_1 = "KP1"
    KP_2 = "KP2"
    KP_3 = "KP3"
    KP_4 = "KP4"
    KP_5 = "KP5"
    KP_6 = "KP6"
    KP_7 = "KP7"
    KP_8 = "KP8"
    KP_9 = "KP9"
    KP_MINUS = "KPMinus"
    KP_COMMA = "KPComma"
    KP_PERIOD = "KPPeriod"
    KP_ENTER = "KPEnter"
    ENTER = "Return"
    TAB = "Tab"
    DELETE = BACKSPACE = "Delete"
    ESCAPE = "Escape"


# Keys that have another name here.
_OTHER_NAMES = {"RETURN": "ENTER", "ESC": "ESCAPE", "INSERT": "INSERT_HERE", "PAGE_UP": "PREV_SCREEN", "PAGEUP": "PREV_SCREEN", "PAGE_DOWN": "NEXT_SCREEN",
                "PAGEDOWN": "NEXT_SCREEN"}


class Typed(NamedTuple):
    """Holds what typed keys send, the beginning of a key whose end is missing, and the characters that no key sends."""

    sent: bytes
    held: bytes
    refused: str


class Chord(NamedTuple):
    """Holds a key of an xterm with Shift, Alt or Ctrl held down. Its name is that of the key after C-, A- and S-."""

    value: str


def shift(key: Union[Key, Chord]) -> Chord:
    """Returns a key of an xterm with Shift held down, for example shift(Key.TAB)."""
    return Chord(f"S-{key.value}")


def alt(key: Union[Key, Chord]) -> Chord:
    """Returns a key of an xterm with Alt held down, for example alt(Key.LEFT)."""
    return Chord(f"A-{key.value}")


@overload
def ctrl(letter: str) -> str:
    ...


@overload
def ctrl(letter: Union[Key, Chord]) -> Chord:
    ...


def ctrl(letter: Union[str, Key, Chord]) -> Union[str, Chord]:
    """Returns what a letter, or one of @ [ \\ ] ^ _ ? and 2 to 8, sends with the Ctrl key held down. No mode changes it.

    Of a Key it returns the key of an xterm with Ctrl held down, for example ctrl(Key.LEFT).
    """
    if not isinstance(letter, str):
        return Chord(f"C-{letter.value}")
    try:
        return key(f"C-{letter}", Modes(*[False] * len(Modes._fields))).decode("ascii")
    except NoKey:
        raise ValueError(f"there is no Ctrl-{letter}") from None


def check_text(text: str) -> None:
    """Raises ValueError if a text is the name of a key in capitals, as "ENTER" is: somebody may have meant the key."""
    name = _OTHER_NAMES.get(text, text)
    if name in Key.__members__:
        cure = f"for the key write keys({name})"
    elif re.fullmatch(r"F\d+", text, re.A):
        cure = f"there is no key {text}, only F1 to F20"
    else:
        return
    raise ValueError(f"keys({text!r}) would type {len(text)} letters: {cure}, and for the letters keys(*{text!r})")


def _refusal(name: str, modes: Modes, terminal: str) -> str:
    """Returns why a terminal has no key of this name, and what to do about it."""
    if terminal == "xterm":
        return f"an xterm has no key {name}"
    try:
        key(name, modes, "utf-8", "xterm")
    except NoKey:
        return f"a VT220 has no key {name}"
    return f"a VT220 has no key {name}, and an xterm has: run the program with terminal=\"xterm\", or pytest with --vt-terminal xterm"


def spelled(keys: Union[str, Key, Chord], modes: Modes, encoding: str = "dec", terminal: str = "vt220") -> bytes:
    """Returns the bytes that a key, or each character of a text, sends under these modes. Raises ValueError if no key sends it.

    The encoding is that of the terminal. In UTF-8 a text may have any characters but C1 controls. With terminal="xterm" a key sends
    what it does on an xterm.
    """
    if isinstance(keys, (Key, Chord)):
        try:
            return key(keys.value, modes, encoding, terminal)
        except NoKey:
            raise NoKey(_refusal(keys.value, modes, terminal)) from None
    if not isinstance(keys, str):
        raise TypeError(f"a key is a text or a Key, not {keys!r}")
    sent = []
    for character in keys:
        try:
            sent.append(key(character, modes, encoding))
        except (NoCharacter, NoKey, UnicodeEncodeError):
            raise ValueError(f"no key of a VT220 sends {character!r}") from None
    return b"".join(sent)


def typed(data: bytes, modes: Modes, encoding: str = "dec", terminal: str = "vt220") -> Typed:
    """Returns what the keys send that were typed on a modern terminal. A key that a VT220 doesn't have is sent as it came.

    The encoding is that of the terminal that they are sent to. With terminal="xterm" a key sends what it does on an xterm.
    """
    sent: List[bytes] = []
    refused: List[str] = []
    while length := key_length(data):
        one, data = data[:length], data[length:]
        try:
            sent.append(key(one, modes, encoding, terminal))
        except NoKey:
            sent.append(one)
        except NoCharacter:
            refused.append(one.decode())
    return Typed(b"".join(sent), data, "".join(refused))
