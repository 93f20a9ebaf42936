"""The pictures of the vectors, as an XML parser sees them, beside their text."""
import xml.etree.ElementTree as xml

import pytest
from vectors import vectors

SVG = "{http://www.w3.org/2000/svg}"
MARGIN = 10


def trimmed(text):
    return [line.rstrip(" ") for line in text.split("\n")]


@pytest.mark.parametrize("data", [pytest.param(one.input, id=one.name) for one in vectors("dec", "vt220")])
def test_picture(run, data):
    """It is XML; its text alternative is the text; each run has its length, and no run leaves the screen."""
    text, picture = (run(word, data=data) for word in ("text", "picture"))
    assert (text.status, picture.status) == (0, 0)
    wanted, root = trimmed(text.out.decode()), xml.fromstring(picture.out)
    width = int(root.get("width")) - 2 * MARGIN
    assert root.tag == SVG + "svg" and root.get("height") == str(432 + 2 * MARGIN)
    assert root.get("viewBox") == f"-{MARGIN} -{MARGIN} {root.get('width')} {root.get('height')}"
    assert not any(part.get("id") for part in root.iter())
    assert trimmed(root.find(SVG + "desc").text) == wanted
    rows = [[" "] * 132 for _ in range(24)]
    for part in root.iter(SVG + "text"):
        left, row, length = int(part.get("x")), (int(part.get("y")) - 13) // 18, int(part.get("textLength"))
        assert length == 10 * len(part.text) and left + length <= width
        rows[row][left // 10 : (left + length) // 10] = part.text
    assert trimmed("\n".join("".join(row) for row in rows) + "\n") == wanted
