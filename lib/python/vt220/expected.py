"""Maps the texts and the expressions of a test to what a screen shows of them.

The screen of a program in UTF-8 has the 204 glyphs of a VT220. A character that isn't one of them is shown as a similar one, or as
U+2426, in as many cells as it has. So a test that looks for a character looks for these cells. A character that is shown as U+2426 can't be
told from any other such character. So it is refused, unless the test asks for it.
"""
import functools
import re
from typing import Iterator, Match, Optional, Pattern, Tuple, Union

from . import shown

# What is shown for each character that has no similar glyph.
SUBSTITUTE = "\u2426"
# The second cell of a character, which a row's text doesn't have at its end. A look-behind needs one length, so it has the other form.
_SECOND, _FIXED = r"(?:\ |$)", r"\ "
# A character of an expression as it is, by its number or by its name, or a sign that follows a backslash.
_CHARACTER = r"\\(?:x[0-9a-fA-F]{2}|u[0-9a-fA-F]{4}|U[0-9a-fA-F]{8}|N\{[^}]*\}|[0-3][0-7]{2}|.)"
# A line feed in an expression.
_LINE_FEED = re.compile(r"\\?\n|\\(?:n|x0a|u000a|U0000000a|012)", re.I)
# What an expression has outside of a set, with the beginning of one; and inside, with ranges and the end.
_OUTSIDE = re.compile(rf"(?P<begin>\[\^?\]?)|(?P<first>{_CHARACTER}|.)", re.S)
_INSIDE = re.compile(rf"(?P<end>\])|(?P<first>{_CHARACTER}|.)(?:-(?P<last>{_CHARACTER}|[^\]]))?", re.S)


class NoGlyph(ValueError):
    """Reports an expected text with a character that a screen doesn't tell from others. A test that means it writes allow_substitutes=True."""


def text_as_shown(text: str, encoding: str) -> str:
    """Returns a text as the screen of a program in this encoding shows it."""
    return text if encoding == "dec" else shown(text)


@functools.lru_cache(maxsize=256)
def expression_of_text(text: str, encoding: str, allow_substitutes: bool = False) -> Pattern[str]:
    """Returns an expression that finds a text in a row of the screen of a program in this encoding. Raises NoGlyph, and ValueError for more than a row."""
    if "\n" in text:
        raise _refusal(text, f"{text!r} in screen.text")
    if encoding == "dec":
        return re.compile(re.escape(text))
    return re.compile("".join(_cells(_distinct(one, allow_substitutes)) for one in text))


def expression_as_shown(expression: Union[str, Pattern[str]], encoding: str, allow_substitutes: bool = False) -> Pattern[str]:
    """Returns an expression that finds in a row of such a screen what `expression` finds in a text. Raises NoGlyph, and ValueError for more than a row."""
    compiled = re.compile(expression)
    if _has_line_feed(compiled):
        raise _refusal(compiled.pattern, f"re.search({compiled.pattern!r}, screen.text)")
    if encoding == "dec":
        return compiled
    try:
        return re.compile(_mapped(compiled.pattern, _SECOND, allow_substitutes), compiled.flags)
    except re.error:
        return re.compile(_mapped(compiled.pattern, _FIXED, allow_substitutes), compiled.flags)


def _refusal(given: str, condition: str) -> ValueError:
    """Returns the error of an expected text or an expression that has a line feed."""
    return ValueError(f"{given!r} has a line feed, and each row is searched by itself. Write wait(lambda screen: {condition})")


def _has_line_feed(expression: Pattern[str]) -> bool:
    """Returns whether an expression has a line feed outside of a set. One as it is doesn't count in a verbose expression."""
    for is_inside, found in _tokens(expression.pattern):
        first = found["first"] or ""
        if not is_inside and _LINE_FEED.fullmatch(first) and not (first == "\n" and expression.flags & re.VERBOSE):
            return True
    return False


def _tokens(pattern: str) -> Iterator[Tuple[bool, Match[str]]]:
    """Returns the parts of a pattern, each with whether it is inside a set."""
    at, is_inside = 0, False
    while at < len(pattern):
        found = (_INSIDE if is_inside else _OUTSIDE).match(pattern, at)
        assert found is not None
        yield is_inside, found
        is_inside = is_inside != bool(found.groupdict().get("end" if is_inside else "begin"))
        at = found.end()


def _distinct(character: str, allow_substitutes: bool) -> str:
    """Returns a character of a test. Raises NoGlyph if a screen shows it as it shows all characters without a similar glyph."""
    if not allow_substitutes and character != SUBSTITUTE and shown(character)[:1] == SUBSTITUTE:
        raise NoGlyph(f"a VT220 has no glyph for {character!r} (U+{ord(character):04X}): it is shown as {SUBSTITUTE}, and so is any other such "
                      "character. So this test would pass on a wrong text. Look for another text, or write allow_substitutes=True")
    return character


def _cells(character: str, second: str = _SECOND) -> str:
    """Returns an expression for the cells of a character. They stay together, so that what repeats the character repeats all of them."""
    cells = shown(character)
    if len(cells) == 1:
        return re.escape(cells)
    return f"(?:{re.escape(cells[0])}{second})" if cells else "(?:)"


@functools.lru_cache(maxsize=256)
def _mapped(pattern: str, second: str, allow_substitutes: bool) -> str:
    """Returns a pattern with the cells of each character beyond ASCII in place of the character."""
    parts = []
    for is_inside, found in _tokens(pattern):
        number = _number(found["first"])
        if is_inside:
            parts.append(_in_set(found, allow_substitutes))
        else:
            parts.append(found[0] if number < 0 else _cells(_distinct(chr(number), allow_substitutes), second))
    return "".join(parts)


def _number(part: Optional[str]) -> int:
    """Returns the number of the character that a part of a pattern stands for, or -1 if it doesn't stand for one beyond ASCII."""
    if part is None or (part.isascii() and len(part) <= 2):
        return -1
    character = part[-1] if not part.isascii() else part.encode().decode("unicode_escape")
    return -1 if character.isascii() else ord(character)


def _in_set(found: Match[str], allow_substitutes: bool) -> str:
    """Returns a part inside a set, with the first cell of each character. A character without a cell stays, and finds nothing."""
    first, last = _number(found["first"]), _number(found["last"])
    if first < 0 and last < 0:
        return found[0]
    if found["last"] is None:
        return re.escape(shown(_distinct(chr(first), allow_substitutes))[:1] or chr(first))
    front = "" if first >= 0 else rf"{found['first']}-\x7f"
    glyphs = {shown(_distinct(chr(number), allow_substitutes))[:1] for number in range(max(first, 0x80), last + 1)}
    return front + "".join(map(re.escape, sorted(glyphs)))
