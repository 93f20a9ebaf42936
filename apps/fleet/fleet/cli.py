"""The command `fleet`.

Exit status: 0 success; 1 an input or output error; 2 the command line is wrong; 3 no such session; 4 the session has a
fault; 5 another host has the name; 6 refused by the host or the store; 69 the store can't be reached or can't keep a fleet; 77
permission denied; 78 the configuration is wrong. `host` ends with its program's status.
"""
import argparse
import logging
import os
import signal
import sys

import fleet
from redis.exceptions import AuthenticationError, NoPermissionError, RedisError

from .config import CHOICES, Settings, Unclear, screen, seconds, within

LEAVING = 10.0  # seconds to wait for a store after a signal to end, at most
HEALTH = 2.0  # seconds to wait for a store that the metrics and the page's /healthz ask, at most
ENDS = (signal.SIGHUP, signal.SIGTERM, signal.SIGINT)
TAKEN, FAULT, NONE, REFUSED, UNFIT, DENIED, CONFIGURATION = 5, 4, 3, 6, 69, 77, 78


def option(read, name):
    """Returns a reader of an option's number, which is within its bounds."""
    return lambda word: within(name, read(word))


def command_of(words):
    """Returns the command of a session, which may come after `--`."""
    return words.command[1:] if words.command[:1] == ["--"] else words.command


def do_run(words, settings):
    return fleet.local.run(command_of(words))


def do_host(words, settings):
    if not (command := command_of(words)):
        raise Unclear("host needs a command")
    language, chosen = chosen_language(words, settings.host), settings.host
    chosen.input = words.input or chosen.input
    patience = LEAVING if settings.store.give_up is None else min(LEAVING, settings.store.give_up)
    fleet.program.become_keeper(words.name, command, language, chosen, patience)


def do_daemon(words, settings):
    fleet.program.hide()
    store = settings.connect(waits=True, is_examined=True)
    daemon = fleet.daemon.Daemon(store, settings.host, fleet.wire.path_of(settings.host))
    if settings.host.metrics:
        fleet.metrics.serve(fleet.metrics.DaemonMetrics(daemon), settings.host.metrics)
    for ends in ENDS:  # the programs stay with their keepers
        signal.signal(ends, lambda *_: os._exit(0))
    daemon.serve()


def chosen_language(words, chosen):
    """Returns the language of a session, of the command line or of the configuration. Under TERM=xterm all is UTF-8."""
    terminal = words.terminal or chosen.terminal
    if terminal == "xterm" and words.encoding == "dec":
        raise Unclear("--terminal xterm is in UTF-8, and doesn't go with --encoding dec")
    encoding = "utf-8" if terminal == "xterm" else words.encoding or chosen.encoding
    return fleet.keys.Language(encoding, terminal, words.size or chosen.size)


def of_session(call):
    """Returns a command that works on the session of a name."""

    def do(words, settings):
        store = settings.connect()
        return call(store, fleet.operate.find(store, words.name), words) or 0

    return do


@of_session
def do_view(store, incarnation, words):
    if words.type and not sys.stdin.isatty():
        raise ValueError("--type reads keys from a terminal")
    store.patience = None
    for ends in (signal.SIGHUP, signal.SIGTERM):  # the terminal is restored on the way out
        signal.signal(ends, lambda number, _: sys.exit(128 + number))
    return fleet.view.follow(store, incarnation, words.type)


@of_session
def do_screen(store, incarnation, words):
    """Writes the screen as text, or as bytes for another terminal."""
    terminal = fleet.session.as_it_is(store, incarnation).terminal
    sys.stdout.buffer.write(terminal.text().encode() if words.word == "text" else terminal.repaint("vt220"))


@of_session
def do_log(store, incarnation, words):
    if missing := fleet.export.log(store, incarnation, sys.stdout.buffer):
        print(f"fleet: {missing} bytes are no longer in the store", file=sys.stderr)


@of_session
def do_export(store, incarnation, words):
    export = fleet.export.page if words.page else fleet.export.asciicast
    export(store, incarnation, words.name, sys.stdout.buffer)


@of_session
def do_type(store, incarnation, words):
    from vt220.keyboard import Key, spelled, typed

    data = os.fsencode(words.text) if words.text is not None else sys.stdin.buffer.read()
    terminal = fleet.session.as_it_is(store, incarnation).terminal
    modes = terminal.modes()
    keys = typed(data, modes, terminal.encoding, terminal.terminal)
    if keys.refused:
        raise ValueError(f"no key of a VT220 sends {keys.refused!r}")
    typist = fleet.operate.Typist(store, incarnation)
    typist.type(keys.sent + keys.held + (spelled(Key.ENTER, modes) if words.enter else b""))
    typist.leave()


def of_operator(name, *options):
    """Returns a command that calls a function of operate.py with the store and these options."""

    def do(words, settings):
        return getattr(fleet.operate, name)(settings.connect(), *(getattr(words, each) for each in options))

    return do


def do_check(words, settings):
    store = settings.connect()
    store.examine()
    print(f"the store is fit; {fleet.store.connections(store.facts())}")
    return 0


def do_prepare(words, settings):
    settings.connect(is_examined=True).load()
    return 0


def impatient(settings):
    """Returns the store, which is soon given up: Prometheus and a balancer wait for an answer."""
    store = settings.connect()
    store.patience = HEALTH if store.patience is None else min(store.patience, HEALTH)
    return store


def do_metrics(words, settings):
    fleet.metrics.server(fleet.metrics.WholeFleet(impatient(settings)), words.address).serve_forever()
    return 0


def do_web(words, settings):
    for name in ("address", "port", "typing"):
        if getattr(words, name) is not None:
            setattr(settings.web, name, getattr(words, name))
    return fleet.web.serve(settings.connect(waits=True), impatient(settings), settings.web)


# What several commands have, for `add`.
NAME = "name", {}
JSON = "--json", {"action": "store_true", "help": "prints a line of JSON for each"}
PATIENCE = "--patience", {"type": option(seconds, "patience"), "default": 10, "help": "the longest wait, such as 30s (10s)"}


def add_hosts(add):
    each = add("run", do_run, "starts a store and a host daemon on this machine, until Ctrl-C or the end of COMMAND")
    each.add_argument("command", nargs=argparse.REMAINDER)
    add("daemon", do_daemon, "publishes all sessions of this machine, and alone knows the store there; the next daemon goes on with them")
    each = add("host", do_host, "runs a command on a pseudo-terminal, as a session of this machine's daemon", NAME)
    each.add_argument("--input", action="store_true", help="allows viewers to type")
    each.add_argument("--encoding", choices=CHOICES["encoding"], help="what the command writes: the VT220's own bytes, or UTF-8 (dec)")
    each.add_argument("--terminal", choices=CHOICES["terminal"], help="the terminal that the command writes for; xterm is in UTF-8 (vt220)")
    each.add_argument("--size", type=screen, metavar="COLUMNSxROWS", help="the size of its screen, from 2x2 to 255x255 (80x24)")
    each.add_argument("command", nargs=argparse.REMAINDER)


def add_viewers(add):
    each = add("view", do_view, "follows a session on this terminal", NAME)
    each.add_argument("--type", action="store_true", help="sends keys to the session; Ctrl-] ends the view")
    add("text", do_screen, "prints the screen as text", NAME)
    add("repaint", do_screen, "writes bytes that leave a terminal in the session's state", NAME)
    add("log", do_log, "writes the bytes that the session's program wrote", NAME)
    each = add("export", do_export, "writes a recording with its times, as asciicast 2, or a page that plays it", NAME)
    each.add_argument("--page", action="store_true", help="writes a page that plays it in a browser; needs what make js builds")
    each = add("type", do_type, "types into a session, as on a terminal; gives up if the program reads nothing for ten seconds", NAME)
    each.add_argument("--enter", action="store_true", help="sends Return after the text")
    each.add_argument("text", nargs="?", help="the text; without it, standard input")
    each = add("web", do_web, "serves a page with live pictures of all sessions")
    each.add_argument("--address", help="the address on which it listens (127.0.0.1)")
    each.add_argument("--port", type=option(int, "port"), help="the port on which it listens (8220)")
    each.add_argument("--typing", action="store_true", default=None, help="allows the page to type, if the session's host does")


def add_operators(add):
    each = add("list", of_operator("show_list", "json", "all"), "lists the sessions", JSON)
    each.add_argument("--all", action="store_true", help="also lists ended sessions")
    each = add("kill", of_operator("kill", "name", "signal", "patience"), "sends a signal to a session's program, and waits until it ends", PATIENCE, NAME)
    each.add_argument("--signal", choices=("HUP", "INT", "TERM", "KILL"), default="HUP", help="the signal (HUP)")
    each = add("resize", of_operator("resize", "name", "size", "patience"), "changes the size of a session's screen, and waits until the session has it", PATIENCE, NAME)
    each.add_argument("size", type=screen, metavar="COLUMNSxROWS", help="the columns and rows, from 2x2 to 255x255")
    each = add("end", of_operator("end", "name", "keep", "force"), "ends a session that has no host", NAME)
    each.add_argument("--keep", type=option(seconds, "keep"), help="how long it stays in the store, such as 7d; 0 removes it at once (for ever)")
    each.add_argument("--force", action="store_true", help="also if its host is alive, which then hangs up on the program")
    each = add("metrics", do_metrics, "serves metrics of the whole fleet for Prometheus, at /metrics, and /healthz")
    each.add_argument("address", metavar="HOST:PORT", help="the address on which it listens")
    add("check-store", do_check, "checks whether the store can keep a fleet, and has connections left")
    add("prepare-store", do_prepare, "loads this version's functions into the store; its user is the operator")


def parser():
    words = "Sessions of a VT220 that outlive their machine."
    made = argparse.ArgumentParser(prog="fleet", description=words, epilog=__doc__.split("\n\n")[1])
    made.add_argument("--version", action="version", version=f"vt220-fleet {fleet.VERSION}")
    made.add_argument("--config", help="the configuration file")
    made.add_argument("--quiet", action="store_true", help="logs errors only")
    commands = made.add_subparsers(dest="word", required=True, metavar="COMMAND")

    def add(name, do, words, *shared):
        each = commands.add_parser(name, help=words, description=words)
        each.set_defaults(do=do)
        for argument, options in shared:
            each.add_argument(argument, **options)
        return each

    for adding in (add_hosts, add_viewers, add_operators):
        adding(add)
    return made


def message_of(error):
    """Returns the message for an error. That of a fault begins with the fault's name."""
    if isinstance(error, OSError) and error.strerror:
        return ": ".join(str(part) for part in (error.filename, error.strerror) if part)
    name, text = type(error).__name__, str(error).strip()
    return f"{name}: {text}" if isinstance(error, fleet.keys.Fault) or not text else text


def status_of(error):
    """Returns the exit status for an error, or None if the error isn't an expected one."""
    known = [
        (fleet.host.Taken, TAKEN),
        (fleet.keys.Fault, FAULT),
        (fleet.operate.NoSession, NONE),
        (fleet.operate.Refused, REFUSED),
        (fleet.store.Unfit, UNFIT),
        (Unclear, CONFIGURATION),
        ((AuthenticationError, NoPermissionError), DENIED),
        (RedisError, UNFIT),
        (ValueError, 2),
        (OSError, 1),
    ]
    if isinstance(error, RedisError) and fleet.store.is_denial(error):
        return DENIED
    return next((status for kind, status in known if isinstance(error, kind)), None)


def main(arguments=None):
    words = parser().parse_args(arguments)
    try:
        from . import keys  # loads the library
    except ImportError as error:
        print(f"fleet: {error}", file=sys.stderr)
        return 1
    level = logging.ERROR if words.quiet else logging.INFO
    logging.basicConfig(stream=sys.stderr, level=level, format="%(asctime)s %(levelname)s %(message)s")
    try:
        status = words.do(words, Settings(words.config))
        sys.stdout.flush()
        return status
    except KeyboardInterrupt:
        return 130
    except BrokenPipeError:
        os.dup2(os.open(os.devnull, os.O_WRONLY), 1)
        return 1
    except Exception as error:
        status = status_of(error)
        if status is None:
            raise
        print(f"fleet: {message_of(error)}", file=sys.stderr)
        return status
