"""Metrics in Prometheus's text form, of a host daemon and the whole fleet; and /healthz, which is 200 or 503."""
import collections
import threading
import time
from http.server import ThreadingHTTPServer

from prometheus_client import CollectorRegistry, MetricsHandler
from prometheus_client.core import CounterMetricFamily, GaugeMetricFamily

from .operate import living

STATES = ("running", "no host", "ended", "fault")
SILENT = 10.0  # seconds after which a connection that asks nothing is closed
OLD = 5.0  # seconds for which what was read of the store is served again


def gauge(name, words, value):
    return GaugeMetricFamily(f"fleet_{name}", words, value=value)


def counter(name, words, value):
    return CounterMetricFamily(f"fleet_{name}", words, value=value)


def counted(kind, name, words, label, counts):
    """Returns a gauge or a counter for each value of a label."""
    family = kind(f"fleet_{name}", words, labels=[label])
    for what, count in counts.items():
        family.add_metric([what], count)
    return family


def of_store(store):
    """Yields what each process knows of its store."""
    yield counter("store_outages", "How often the store was away", store.outages)
    yield gauge("store_is_away", "1 while the store doesn't answer", int(store.away_since is not None))


PROGRAM_STATES = ("running", "slowed", "ended")
SLOWED = 4 << 20  # bytes that wait for the store; then a program is made to wait


class DaemonMetrics:
    """Those of a machine's host daemon."""

    def __init__(self, daemon):
        self.daemon = daemon

    def states(self):
        """Returns how many programs are in each state: one is slowed if as much waits for the store as may."""
        found = dict.fromkeys(PROGRAM_STATES, 0)
        for each in self.daemon.all():
            found["ended" if each.is_over else "slowed" if each.waiting >= SLOWED else "running"] += 1
        return found

    def collect(self):
        programs, now = self.daemon.all(), time.monotonic()
        yield gauge("host_lag_bytes", "Bytes of its programs that the store doesn't have", sum(each.waiting for each in programs))
        yield gauge("host_lag_seconds", "Seconds for which the same bytes of a program are being sent, at most", max((now - since for each in programs if (since := each.sends_since) is not None), default=0))
        yield gauge("host_unread_seconds", "Seconds for which keys and signals for a program weren't looked for, at most", max((now - each.read_at for each in programs if each.streams()), default=0))
        yield gauge("host_refused", "Its programs that aren't in the store, since another one has the name or the session", sum(not each.is_named for each in programs))
        yield counter("host_bytes", "Bytes of its programs that the store has taken from this daemon", self.daemon.stored())
        yield counted(GaugeMetricFamily, "host_programs", "Its programs by their state: slowed if too much waits for the store", "state", self.states())
        yield from of_store(self.daemon.store)

    def problem(self):
        """Returns why this daemon isn't well, or nothing."""
        return "the store is away" if self.daemon.store.away_since is not None else ""


class WholeFleet:
    """Those of the whole fleet, as the store has them."""

    def __init__(self, store):
        self.store, self.read, self.facts, self.lock = store, -OLD, {}, threading.Lock()

    def look(self):
        """Reads the store, unless that was done a moment ago."""
        with self.lock:
            if time.monotonic() - self.read < OLD:
                return self.facts
            try:
                self.facts = self.facts_of_store()
            except Exception as error:  # whatever it is, the fleet can't be seen
                self.facts = {"problem": f"{type(error).__name__}: {error}"}
            self.read = time.monotonic()
            return self.facts

    def facts_of_store(self):
        begin = time.monotonic()
        self.store.ping()
        trip, (listed, ended) = time.monotonic() - begin, living(self.store)
        return {"trip": trip, "listed": listed, "ended": ended, "store": self.store.facts()}

    def problem(self):
        return self.look().get("problem", "")

    def collect(self):
        facts = self.look()
        yield gauge("store_up", "1 if the store answers", int("problem" not in facts))
        if "problem" in facts:
            return
        yield gauge("store_round_trip_seconds", "Seconds until the store answered a ping", facts["trip"])
        yield gauge("store_clients", "Connections to the store", facts["store"]["connected_clients"])
        yield gauge("store_clients_most", "Connections that the store allows (maxclients)", facts["store"]["maxclients"])
        states = collections.Counter(each["state"].split(" ")[0] if each["status"] else each["state"] for each in facts["listed"])
        states["ended"] += facts["ended"]
        yield counted(GaugeMetricFamily, "states", "Sessions by their state", "state", dict.fromkeys(STATES, 0) | states)
        faults = collections.Counter(each["fault"].split(":")[0] for each in facts["listed"] if each["fault"])
        yield counted(GaugeMetricFamily, "session_faults", "Sessions with a fault, by its name", "fault", faults)


def server(collector, address):
    """Returns a server of /metrics and /healthz at HOST:PORT."""
    host, _, port = address.rpartition(":")
    if not port.isdigit() or int(port) > 65535:
        raise ValueError(f"{address}: expected HOST:PORT")
    registry = CollectorRegistry()
    registry.register(collector)

    class Handler(MetricsHandler.factory(registry)):
        timeout = SILENT

        def do_GET(self):
            if self.path == "/metrics":
                super().do_GET()
                return
            status, said = 404, "/metrics and /healthz are here"
            if self.path == "/healthz":
                problem = collector.problem()
                status, said = (503, problem) if problem else (200, "ok")
            self.send_response(status)
            self.send_header("Content-Type", "text/plain")
            self.end_headers()
            self.wfile.write(f"{said}\n".encode())

    return ThreadingHTTPServer((host or "127.0.0.1", int(port)), Handler)


def serve(collector, address):
    """Serves metrics at HOST:PORT, from a separate thread."""
    threading.Thread(target=server(collector, address).serve_forever, daemon=True).start()
