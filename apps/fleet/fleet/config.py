"""Settings: those of the configuration file, which the command line overrides.

The file is the first of these that is given or exists: that of --config, that of FLEET_CONFIG, ~/.config/vt220-fleet.conf, and
/etc/vt220-fleet.conf.
"""
import argparse
import configparser
import os
import re
from dataclasses import dataclass, fields

from .store import connect

PATHS = ("~/.config/vt220-fleet.conf", "/etc/vt220-fleet.conf")
DEFAULT_STORE = "redis://127.0.0.1:6379"
CHOICES = {"encoding": ("dec", "utf-8"), "terminal": ("vt220", "xterm")}  # of what a session's program writes
COLUMNS, ROWS = (2, 255), (2, 255)  # the fewest and the most of a screen


class Unclear(Exception):
    """Reports a wrong configuration."""


class Beyond(argparse.ArgumentTypeError):
    """Reports a number that a setting or an option can't be."""


@dataclass
class Store:
    url: str = ""
    password_file: str = ""
    replicas: int = None
    timeout: float = 5.0
    give_up: float = 10.0


@dataclass
class Host:
    lease: float = 10.0
    linger: float = 600.0
    every: int = 4096
    keep: int = None
    retain: float = None
    input: bool = False
    encoding: str = "dec"
    terminal: str = "vt220"
    size: str = "80x24"
    daemon: str = ""
    metrics: str = ""


@dataclass
class Web:
    address: str = "127.0.0.1"
    port: int = 8220
    token_file: str = ""
    typing: bool = False


SECTIONS = {"store": Store, "host": Host, "web": Web}
YES = dict.fromkeys(("yes", "true", "on", "1"), True) | dict.fromkeys(("no", "false", "off", "0"), False)


def seconds(word):
    """Reads a time: 30, 30s, 10m, 12h or 7d."""
    units = {"s": 1, "m": 60, "h": 3600, "d": 86400}
    return float(word[:-1]) * units[word[-1]] if word and word[-1] in units else float(word)


EXPECTED = {bool: "yes or no", int: "a number", float: "a time, such as 30, 10m or 7d"}
NO_LIMIT, UNLIMITED = ("all", "never", ""), ("give_up", "keep", "replicas", "retain")  # words for no limit, and the settings that may have none
# The least number and the largest of a setting or an option. Others have 0 and MOST.
BOUNDS = {"every": (1, 10**9), "lease": (0.01, 10**7), "timeout": (0.01, 10**7), "port": (0, 65535)}
MOST = 10**12


def is_screen(word):
    """Returns whether these are columns and rows of a screen, as in 120x40."""
    found = re.fullmatch("([1-9][0-9]{0,2})x([1-9][0-9]{0,2})", word)
    return bool(found) and all(least <= int(each) <= most for each, (least, most) in zip(found.groups(), (COLUMNS, ROWS)))


def screen(word):
    """Reads a size. Raises Beyond if no screen has it."""
    if not is_screen(word):
        raise Beyond(f"a size is columns and rows, as 120x40: {COLUMNS[0]} to {COLUMNS[1]} columns and {ROWS[0]} to {ROWS[1]} rows")
    return word


def within(name, value):
    """Returns a number that a setting or an option may have. Raises Beyond if it may not."""
    least, most = BOUNDS.get(name, (0, MOST))
    if not least <= value <= most:
        raise Beyond(f"{name} is from {least} to {most}")
    return value


def value_of(kind, text, where, name):
    """Returns a setting's value. `where` names the file, the section and the setting."""
    try:
        if kind is bool:
            return YES[text.lower()]
        if name in UNLIMITED and text.lower() in NO_LIMIT:
            return None
        if name in CHOICES and text not in CHOICES[name]:
            raise Beyond(f"expected one of {', '.join(CHOICES[name])}")
        if name == "size":
            return screen(text)
        return text if kind is str else within(name, seconds(text) if kind is float else int(text))
    except Beyond as error:
        raise Unclear(f"{where} = {text}: {error}") from None
    except (KeyError, ValueError):
        raise Unclear(f"{where} = {text}: expected {EXPECTED[kind]}") from None


class Settings:
    """Holds all sections, with the default of each setting that the file doesn't have."""

    def __init__(self, path=None):
        for name, made in SECTIONS.items():
            setattr(self, name, made())
        named = path or os.environ.get("FLEET_CONFIG")
        found = [named] if named else [p for p in map(os.path.expanduser, PATHS) if os.path.exists(p)][:1]
        for each in found:
            self.read(each)
        self.store.url = os.environ.get("FLEET_REDIS") or self.store.url or DEFAULT_STORE
        self.store.password_file = os.environ.get("FLEET_PASSWORD_FILE") or self.store.password_file
        self.web.token_file = os.environ.get("FLEET_TOKEN_FILE") or self.web.token_file

    def read(self, path):
        parser = configparser.ConfigParser(interpolation=None)
        try:
            with open(path) as file:
                parser.read_file(file)
        except OSError as error:
            raise Unclear(f"{path}: {error.strerror}") from None
        except configparser.Error as error:
            raise Unclear(f"{path}: {error}") from None
        for section in parser.sections():
            if section not in SECTIONS:
                raise Unclear(f"{path}: unknown section [{section}]; the sections are {', '.join(SECTIONS)}")
            self.fill(path, section, parser[section])

    def fill(self, path, section, words):
        kinds = {field.name: field.type for field in fields(SECTIONS[section])}
        for name, text in words.items():
            name = name.replace("-", "_")
            if name not in kinds:
                raise Unclear(f"{path}: [{section}] has no setting {name}; its settings are {', '.join(kinds)}")
            setattr(getattr(self, section), name, value_of(kinds[name], text, f"{path}: [{section}] {name}", name))

    def connect(self, waits=False, is_examined=False):
        """Returns the store. If `waits` is true, its calls wait for ever, otherwise at most give-up seconds. If `is_examined` is true, it can
        keep a fleet. The password is from its file, so that it is on no command line and in no environment. FLEET_USER names its user."""
        store = connect(self.store.url, self.store.password_file, os.environ.get("FLEET_USER"), socket_timeout=self.store.timeout)
        store.patience, store.replicas = None if waits else self.store.give_up, self.store.replicas
        if is_examined:
            store.examine()
        return store
