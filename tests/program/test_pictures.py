"""The program's pictures in HTML pages, in a browser: pictures and a page don't change each other. Needs chromium."""
import os
import subprocess

import pytest

# Text with each attribute, and spaces at both ends of a run. A page passes on what it sets for its body.
TEXT = b"plain \033[1mbold\033[m \033[4munderlined\033[m \033[7m reverse \033[m \033[1;4;7m all \033[m"
BODY = "margin:0;color:#777;font:italic bold 30px serif;letter-spacing:3px;word-spacing:9px;direction:rtl"
OWN = "<p id='t'>text</p><p id='d'><span class='b'>b</span> <span class='u'>u</span> <span class='k'>k</span></p>"


@pytest.fixture
def picture(run):
    """Returns the picture of what bytes leave, without the cursor."""

    def picture(data):
        done = run("picture", data=data + b"\033[?25l")
        assert done.status == 0
        return done.out.decode()

    return picture


class Pages:
    """Shows pages in a browser."""

    def __init__(self, directory):
        self.directory = directory

    def chromium(self, body, *options):
        page = self.directory / "page.html"
        page.write_text(f"<!DOCTYPE html><html lang='en'><meta charset='utf-8'><title>page</title>{body}</html>")
        words = ["chromium", "--headless=new", "--no-sandbox", "--disable-gpu", "--disable-dev-shm-usage", "--hide-scrollbars",
                 "--window-size=1000,600", f"--user-data-dir={self.directory}/profile", *options, page.as_uri()]
        return subprocess.run(words, capture_output=True, check=True, timeout=300, env={**os.environ, "HOME": str(self.directory)}).stdout

    def shown(self, *parts, style="margin:0"):
        """Returns the upper left of a page with these parts as an image. Nothing moves in it."""
        image = self.directory / "page.png"
        image.unlink(missing_ok=True)
        self.chromium(f"<body style='{style}'>{''.join(parts)}</body>", "--force-prefers-reduced-motion", f"--screenshot={image}")
        return image.read_bytes()

    def moving(self, part, *options):
        """Returns how many elements of a page move."""
        script = "<script>document.title = 'moving ' + document.getAnimations().length</script>"
        dom = self.chromium(f"<body>{part}{script}</body>", "--dump-dom", *options).decode()
        return int(dom.split("<title>moving ")[1].split("<")[0])


@pytest.fixture
def pages(tmp_path):
    return Pages(tmp_path)


def far(part):
    """Returns a part of a page that is below all that is shown."""
    return f"<div style='position:absolute;top:3000px;left:0'>{part}</div>"


def at_front(part):
    return f"<div style='position:absolute;top:0;left:0'>{part}</div>"


def test_two_pictures_in_a_page(pages, picture):
    dark, light = picture(TEXT), picture(b"\033[?5h" + TEXT)
    alone = {part: pages.shown(at_front(part)) for part in (dark, light)}
    assert alone[dark] != alone[light]
    for part, other in ((dark, light), (light, dark)):
        assert pages.shown(at_front(part), far(other)) == alone[part]
        assert pages.shown(far(other), at_front(part)) == alone[part]


def test_picture_in_a_page(pages, picture):
    dark = picture(TEXT)
    (pages.directory / "dark.svg").write_text(dark)
    alone = pages.shown(at_front(dark))
    assert pages.shown(at_front("<img src='dark.svg' alt=''>")) == alone
    assert pages.shown(at_front(dark), style=BODY) == alone
    assert pages.shown(OWN, far(dark)) == pages.shown(OWN)


def test_blinking_text(pages, picture):
    blinking, still = picture(b"\033[5mtext"), picture(b"text")
    assert pages.moving(blinking) == 1
    assert pages.moving(blinking, "--force-prefers-reduced-motion") == 0
    assert pages.shown(at_front(blinking)) == pages.shown(at_front(still))
