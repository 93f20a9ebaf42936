"""The store: Redis, whose calls wait for as long as it is away, and which has our functions."""
import functools
import hashlib
import logging
import os
import re
import time
from urllib.parse import unquote, urlsplit

import redis
from redis.exceptions import (
    AuthenticationError, BusyLoadingError, ConnectionError, NoPermissionError, ReadOnlyError, RedisError, ResponseError,
    TimeoutError,
)
from redis.sentinel import Sentinel, SentinelConnectionPool

log = logging.getLogger("fleet")

GONE = (BusyLoadingError, ConnectionError, TimeoutError, ReadOnlyError)
MISSING = "Function not found"
FOR_NOW = (MISSING, "OOM", "MISCONF", "MASTERDOWN", "NOREPLICAS", "CLUSTERDOWN", "TRYAGAIN", "BUSY ", "UNBLOCKED")
DENIALS = ("WRONGPASS", "NOPERM", "can't run this command", "can't access")
OF_SESSION = ("WRONGTYPE", "not an integer", "not a number")
TIMEOUT = 5.0  # seconds until a connection that says nothing counts as dead
LUA = os.path.join(os.path.dirname(os.path.abspath(__file__)), "lua")
LIBRARY = "fleet_"
SECTIONS = ("server", "clients", "stats", "persistence", "memory")  # of what the store says of itself
CROWDED = 0.8  # of the connections that a store allows: more are too many
UNPREPARED = "the store lacks the functions of this version: an operator loads them with fleet prepare-store"
UNSAFE = "appendonly is off: what the store acknowledges is lost when it stops"
redis.UnixDomainSocketConnection.host = redis.UnixDomainSocketConnection.port = "unix"  # redis-py 4.3 names both in an error, and has none


def read_password(path):
    """Returns a file's password. If it can't be read, the connection fails, and is tried again as one to a store that is away."""
    try:
        with open(path) as file:
            return file.read().strip()
    except OSError as error:
        raise ConnectionError(f"{path}: {error.strerror}") from error


class Unfit(Exception):
    """This store cannot keep a fleet."""


def is_for_now(error):
    """Returns whether an error is one that passes: the store is away, out of memory or disk, or starting."""
    if isinstance(error, (AuthenticationError, NoPermissionError)):
        return False
    if isinstance(error, GONE):
        return True
    return isinstance(error, ResponseError) and any(word in str(error)[:60] for word in FOR_NOW)


def is_missing(error):
    """Returns whether an error says that the store lacks our functions."""
    return isinstance(error, ResponseError) and MISSING in str(error)


def raised(answer):
    """Returns an answer, or raises the error that it is."""
    if isinstance(answer, Exception):
        raise answer
    return answer


def is_denial(error):
    """Returns whether an error says that the store's user has no right to something."""
    return isinstance(error, NoPermissionError) or any(word in str(error) for word in DENIALS)


def is_of_session(error):
    """Returns whether an error says that a session's key or field has a wrong form."""
    return any(word in str(error) for word in OF_SESSION)


@functools.cache
def library():
    """Returns the name of the functions' library, and its text. The names of the library and of all functions end with a hash of
    the text. So two versions of the fleet have their functions in one store, next to each other."""
    read = {}
    for file in sorted(os.listdir(LUA)):
        with open(os.path.join(LUA, file)) as text:
            read[file.removesuffix(".lua")] = text.read()
    made = read.pop("common")
    for name, text in read.items():
        flags = "".join(f"'{flag}'" for flag in re.findall(r"^-- Flags: (\S+)", text))
        words = f"function_name='{name}_HASH', flags={{{flags}}}, callback=function(_, ARGV)"
        made += f"\nredis.register_function{{{words}\n{text}end}}\n"
    mark = hashlib.sha256(made.encode()).hexdigest()[:8]
    return mark, f"#!lua name={LIBRARY}{mark}\n" + made.replace("_HASH", f"_{mark}")


class Store(redis.Redis):
    """Redis. Whatever is called waits until the store answers, for any time. So all that is written must bear being written
    twice."""

    replicas = 0  # that must have what a viewer typed before it counts as typed; None for all that are there
    had_functions = False  # they were there once: if they aren't any more, the store lost them

    def __init__(self, *words, **options):
        super().__init__(*words, **options)
        self.away_since = None
        self.outages = 0  # how often the store was away
        self.run_id = None
        self.password_file = self.user = None
        self.was_let_in = False  # a password was accepted once: if it isn't any more, it is being changed
        self.patience = None  # seconds that the store is waited for; None for ever
        self.is_to_keep = False  # each run of the store has to have an append-only file
        self.connection_pool.connection_kwargs["redis_connect_func"] = self.greet

    def greet(self, connection):
        """Begins a connection, and looks whether the store at its other end is the one of the connections before. The password
        is read anew for each connection, so that it can be changed while the fleet runs."""
        if self.password_file:
            connection.password = read_password(self.password_file)
            if self.user:  # without a password, the store has no users
                connection.username = self.user if connection.password else None
        try:
            connection.on_connect()
        except ResponseError as error:
            raise AuthenticationError(str(error)) if "WRONGPASS" in str(error) else error
        connection.send_command("INFO", "server", "persistence")
        facts = dict(line.split(b":", 1) for line in connection.read_response().splitlines() if b":" in line)
        if self.is_to_keep and facts.get(b"loading") == b"1":  # it says then that it has no file
            raise BusyLoadingError("the store reads its file")
        if self.is_to_keep and facts.get(b"aof_enabled") != b"1":
            raise ConnectionError(UNSAFE)
        run_id = facts.get(b"run_id")
        if self.run_id not in (None, run_id):
            log.warning("the store was started again, or is another one")
        self.run_id, self.was_let_in = run_id, True

    def execute_command(self, *words, **options):
        return self.patiently(lambda: super(Store, self).execute_command(*words, **options))

    def patiently(self, call):
        pause = 0.02
        while True:
            try:
                answer = call()
                break
            except (RedisError, OSError) as error:
                is_being_changed = self.was_let_in and isinstance(error, AuthenticationError)
                if not (isinstance(error, OSError) or is_for_now(error) or is_being_changed):
                    raise
                since = self.is_away(error)
                if self.patience is not None and time.monotonic() - since > self.patience:
                    raise
            time.sleep(pause)
            pause = min(1.0, pause * 1.5)
        since, self.away_since = self.away_since, None  # at once: another thread may find it back, too
        if since is not None:
            log.warning("the store is back after %.1f s", time.monotonic() - since)
        return answer

    def is_away(self, error):
        """Notes that the store is away. Returns since when."""
        since = self.away_since
        if since is None:
            since = self.away_since = time.monotonic()
            self.outages += 1
            log.warning("the store is away: %s: %s", type(error).__name__, error)
        return since

    def run_all(self, calls, are_one=True):
        """Runs commands with one message. Returns their answers, errors among them. Functions are loaded if the store lacks them. If they are one thing
        for this user, and no right to one of them is there, that is raised."""

        def sent():
            pipeline = self.pipeline(transaction=False)
            for words in calls:
                pipeline.execute_command(*words)
            return pipeline.execute(raise_on_error=False)

        def once():
            answers = sent()
            if any(map(is_missing, answers)):
                self.load()
                answers = sent()
            for wrong in (each for each in answers if isinstance(each, Exception)):
                if is_for_now(wrong) or are_one and is_denial(wrong):
                    raise wrong
            return answers

        return self.patiently(once) if calls else []

    def ask(self, *words):
        """Returns the answer to a command, or raises the error that it is."""
        return raised(self.run_all([words])[0])

    def read_streams(self, count, streams, patience=0):
        """Returns what came in streams, as [[stream, [(id, {field: value}), ..]], ..], with {stream: the last id}. With patience it waits for something, for
        at most so many seconds, and no longer than half of what a connection may say nothing."""
        silence = self.connection_pool.connection_kwargs["socket_timeout"] or TIMEOUT
        return self.xread(streams, count, max(1, int(1000 * min(patience, silence / 2))) if patience else None)

    def read_each(self, count, streams, patience):
        """Reads streams as read_streams does, and if the store refuses that, each of them alone. Returns what came, and {stream: error} of what can't be read."""
        try:
            return self.read_streams(count, streams, patience), {}
        except ResponseError as error:
            log.error("the streams can't be read at once: %s", error)
        came, wrong = [], {}
        for stream, last in streams.items():
            try:
                came += self.read_streams(count, {stream: last})
            except ResponseError as error:
                wrong[stream] = error
        time.sleep(0.2)
        return came, wrong

    def wanted_replicas(self):
        """Returns how many replicas are to have what is typed now."""
        if self.replicas is not None:
            return self.replicas
        facts = self.execute_command("INFO", "replication").values()
        return sum(isinstance(each, dict) and each.get("state") == "online" for each in facts)

    # Functions.

    def load(self):
        """Loads the functions, which a store has that is new, or that lost them. Only an operator may do that. Whoever had them
        before waits for the operator."""
        try:
            super().execute_command("FUNCTION", "LOAD", "REPLACE", library()[1])
        except (ResponseError, NoPermissionError) as refused:
            if not is_denial(refused):
                raise
            raise ConnectionError(UNPREPARED) if self.had_functions else Unfit(UNPREPARED)

    def call_of(self, name, *arguments):
        """Returns the words of a function's call, for a pipeline."""
        return ("FCALL", f"{name}_{library()[0]}", 0, *arguments)

    def run(self, name, *arguments):
        """Runs a function. Returns its answer, whose first word is text."""
        return self.checked(self.ask(*self.call_of(name, *arguments)))

    def checked(self, answer):
        """Returns a function's answer, whose first word becomes text. The store has the functions."""
        self.had_functions = True
        if isinstance(answer, list) and isinstance(answer[0], bytes):
            answer[0] = answer[0].decode()
        return answer

    # What the store is.

    def facts(self):
        return self.execute_command("INFO", *SECTIONS)

    def facts_when_loaded(self):
        """Returns what the store is. While it reads its file, it says that it has none."""
        facts = super().execute_command("INFO", *SECTIONS)
        if facts.get("loading"):
            raise BusyLoadingError("the store reads its file")
        return facts

    def examine(self):
        """Raises Unfit if the store forgets by design: a cluster, eviction, no append-only file. If it comes back later without such a
        file, it counts as away."""
        facts = self.patiently(self.facts_when_loaded)
        if facts.get("redis_mode") == "cluster":
            raise Unfit("this store is a Redis Cluster, which the fleet doesn't support: give each fleet a store of its own")
        if facts.get("redis_mode") == "sentinel":
            raise Unfit("this is a sentinel: the address is sentinel://HOST:PORT,HOST:PORT/MASTER")
        if (policy := facts.get("maxmemory_policy", "noeviction")) != "noeviction":
            raise Unfit(f"maxmemory-policy is {policy}: the store drops keys when it is full")
        if facts.get("aof_enabled") != 1:
            raise Unfit(UNSAFE)
        self.is_to_keep = True


def connections(facts):
    """Returns how many connections a store has and may have, as text. Raises Unfit if nearly all are taken."""
    now, most = facts["connected_clients"], facts["maxclients"]
    said = f"{now} of {most} connections are open (maxclients)"
    if now > CROWDED * most:
        raise Unfit(f"{said}: each viewer and page has one, and each host daemon and worker two")
    return said


def of_sentinels(url, words):
    """Returns the store that sentinels know as a master: sentinel://[USER@]HOST:PORT,HOST:PORT/MASTER. Each new connection asks them."""
    parts = urlsplit(url)
    user, _, hosts = parts.netloc.rpartition("@")
    found = [each.rpartition(":") for each in hosts.split(",")]
    if not parts.path.strip("/") or not all(host and port.isdigit() for host, _, port in found):
        raise ValueError(f"{hosts}{parts.path}: expected sentinel://HOST:PORT,HOST:PORT/MASTER")
    name, _, password = user.partition(":")
    words = words | ({"username": unquote(name)} if name else {}) | ({"password": unquote(password)} if password else {})
    asked = {each: words[each] for each in ("socket_timeout", "socket_connect_timeout")}
    sentinel = Sentinel([(host, int(port)) for host, _, port in found], sentinel_kwargs=asked)
    return Store(connection_pool=SentinelConnectionPool(parts.path.strip("/"), sentinel, **words))


def connect(url, password_file=None, user=None, **options):
    """Returns the store at an address: unix:///PATH, redis://HOST:PORT, rediss://HOST:PORT (TLS) or that of sentinels."""
    words = {"socket_timeout": TIMEOUT} | options
    scheme = urlsplit(url).scheme
    if scheme != "unix":
        words = {"socket_keepalive": True, "socket_connect_timeout": TIMEOUT} | words
    store = of_sentinels(url, words) if scheme == "sentinel" else Store.from_url(url, **words)
    store.password_file, store.user = password_file, user
    return store
