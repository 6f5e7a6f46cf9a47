"""The status port of a front: whether it is ready, its metrics, who is being answered, and the access log."""

import contextlib
import json
import os
import pathlib
import re
import shutil
import signal
import socket
import subprocess
import sys
import tempfile
import threading
import time
import unittest
from unittest import mock

from tests.support import processes
from tests.support.operating import SECONDS, TOOLS
from tests.support.program import TOP
from tests.support.service import free_port
from tests.support.web import WEB, Front, ask, use_web
from tests.web.test_serving import ServingTest

use_web()

from moo_web.status import process  # noqa: E402
from moo_web.status.metrics import Counter, Gauge, Histogram, metrics_text  # noqa: E402

BATCH, REFUSED = {"calls": ["create(#1)"]}, {"calls": ["create(#99)"]}
# Names that are promised.
NAMES = (
    "moo_seq", "moo_requests_total", "moo_request_seconds", "moo_journal_sync_seconds", "moo_queue", "moo_journal_bytes",
    "moo_standby_lag_batches",
)  # fmt: skip
SAMPLE = re.compile(r'([a-z_]+)((?:\{(?:[a-z]+="(?:[^"\\\n]|\\["\\n])*",?)+\})?) (NaN|[-+]Inf|[-+]?[0-9.]+(?:e[-+]?[0-9]+)?)')
ALL_OTHERS = 500


def read_metrics(text):
    """The types of metrics by their names, and the samples by what is before their values. What isn't in the format is an error."""
    kinds, samples = {}, {}
    for line in text.splitlines():
        if line.startswith("# TYPE "):
            name, kind = line[7:].split(" ")
            kinds[name] = kind
        elif not line.startswith("# HELP "):
            found = SAMPLE.fullmatch(line)
            assert found, line
            base = re.sub("_(bucket|sum|count)$", "", found[1])
            assert found[1] in kinds or kinds.get(base) == "histogram", line
            samples[found[1] + found[2]] = float(found[3])
    return kinds, samples


class Text(unittest.TestCase):
    """The text of metrics, by the description of Prometheus' format 0.0.4."""

    def test_counters_and_gauges(self):
        counter = Counter("done_total", "What was done.", "who")
        for who in ("ada", "ben", "ada", 'a"\\\n'):
            counter.add(who)
        text = metrics_text([counter, Gauge("free", "Room.", lambda: {"1": 2.5}, "disk"), Gauge("far", "How far.", lambda: float("inf"))])
        self.assertEqual(text.splitlines(), [
            "# HELP done_total What was done.", "# TYPE done_total counter", r'done_total{who="a\"\\\n"} 1', 'done_total{who="ada"} 2',
            'done_total{who="ben"} 1', "# HELP free Room.", "# TYPE free gauge", 'free{disk="1"} 2.5',
            "# HELP far How far.", "# TYPE far gauge", "far +Inf",
        ])  # fmt: skip

    def test_a_histogram(self):
        took = Histogram("took_seconds", "How long.", "route")
        for seconds in (0.0005, 0.002, 60.0):
            took.take(seconds, "/ask")
        _, samples = read_metrics(metrics_text([took]))
        self.assertEqual(samples['took_seconds_count{route="/ask"}'], 3)
        self.assertEqual(samples['took_seconds_sum{route="/ask"}'], 60.0025)
        for bound, count in (("0.0005", 1), ("0.001", 1), ("0.0025", 2), ("30", 2), ("+Inf", 3)):
            self.assertEqual(samples[f'took_seconds_bucket{{route="/ask",le="{bound}"}}'], count)

    def test_labels_that_never_end(self):
        counter = Counter("done_total", "What was done.", "who")
        for who in range(3000):
            counter.add(str(who))
        _, samples = read_metrics(metrics_text([counter]))
        self.assertEqual((len(samples), sum(samples.values())), (1001, 3000))


class Process(unittest.TestCase):
    def test_the_bound_of_memory(self):
        """The least of a unit's and of those above it; none, if it isn't in a group that has one."""
        with tempfile.TemporaryDirectory() as room:
            top = pathlib.Path(room)
            (top / "system.slice/moo.service").mkdir(parents=True)
            with mock.patch.object(process, "GROUPS", top), mock.patch.object(process, "OWN_GROUP", top / "own"):
                self.assertEqual(process.bound_of_memory(), float("inf"))
                (top / "own").write_text("0::/system.slice/moo.service\n")
                self.assertEqual(process.bound_of_memory(), float("inf"))
                for unit, above, bound in (("max", "max", float("inf")), ("2000", "max", 2000), ("2000", "1500", 1500)):
                    (top / "system.slice/moo.service/memory.max").write_text(f"{unit}\n")
                    (top / "system.slice/memory.max").write_text(f"{above}\n")
                    self.assertEqual(process.bound_of_memory(), bound)


class StatusTest(ServingTest):
    def started(self, *words, **how):
        """A front with a status port."""
        self.port = free_port()
        return self.front("--status-port", self.port, *words, **how)

    def status(self, path, **head):
        return ask(self.port, "GET", path, head=head)

    def samples(self):
        status, text = self.status("/metrics")
        self.assertEqual(status, 200)
        return read_metrics(text)[1]

    def until(self, what):
        end = time.monotonic() + SECONDS
        while not what():
            self.assertLess(time.monotonic(), end)
            time.sleep(0.05)


class Port(StatusTest):
    def test_health_and_ready(self):
        front = self.started()
        self.assertEqual(self.status("/health"), (200, "ok"))
        self.assertEqual(self.status("/ready")[0], 200)
        self.assertEqual(self.status("/other")[0], 404)
        self.assertEqual(ask(self.port, "POST", "/health")[0], 405)
        self.assertEqual(self.status("/metrics", Host="rebound.example.net")[0], 403)
        self.assertEqual(ask(front.port, "GET", "/metrics", token=self.token)[0], 404, "it isn't on the way in for people")

    def test_without_it_there_is_none(self):
        front = self.front()
        self.assertNotIn("status port", front.said())

    def test_while_it_waits_for_moo(self):
        self.moo.stop()
        self.port = free_port()
        Front(self.folder, self.moo.port, "--status-port", self.port, wait=False)
        with contextlib.suppress(OSError):
            self.until(lambda: is_open(self.port))
        self.assertEqual(self.status("/health"), (200, "ok"))
        self.assertEqual(self.status("/ready"), (503, f"moo doesn't answer at port {self.moo.port}\n"))

    def test_it_is_not_ready_without_moo(self):
        self.started()
        self.moo.stop()
        self.until(lambda: self.status("/ready")[0] == 503)
        self.assertEqual(self.status("/ready"), (503, f"moo doesn't answer at port {self.moo.port}\n"))
        self.assertEqual(self.samples()["moo_ready"], 0)

    def test_it_is_not_ready_after_a_gap(self):
        front = self.started()
        self.assertEqual(ask(self.moo.port, "POST", "/batch", {"as": "#3", "calls": ["max_object()"]})[0], 200)
        self.assertEqual(ask(front.port, "POST", "/api/batch", BATCH, self.token)[0], 503)
        status, why = self.status("/ready")
        self.assertEqual((status, why.count("\n")), (503, 1))
        self.assertIn("the world has number 1 and the journal 0", why)
        self.assertEqual(self.samples()["moo_writing"], 0)

    def test_it_answers_when_the_front_is_full(self):
        """All connections are taken, so that nobody else gets one."""
        front = self.started()
        peers = [socket.create_connection(("127.0.0.1", front.port), SECONDS) for _ in range(ALL_OTHERS)]
        for peer in peers:
            self.addCleanup(peer.close)
        self.until(lambda: self.samples()["moo_connections"] >= ALL_OTHERS - 10)
        self.assertEqual(self.samples()["moo_connections_bound"], 500)
        self.assertEqual(self.status("/health"), (200, "ok"))

    def test_a_port_that_is_taken(self):
        with socket.create_server(("127.0.0.1", 0)) as other:
            self.assertIn("Address already in use", self.refused("--status-port", other.getsockname()[1], port=free_port()))


class Metrics(StatusTest):
    def test_what_is_counted(self):
        front = self.started()
        self.assertEqual(ask(front.port, "POST", "/api/batch", BATCH, self.token)[0], 200)
        self.assertEqual(ask(front.port, "POST", "/api/batch", REFUSED, self.token)[0], 409)
        self.assertEqual(ask(front.port, "GET", "/api/object/3", token=self.token)[0], 200)
        self.assertEqual(ask(front.port, "GET", "/api/seq")[0], 401)
        self.assertEqual(ask(front.port, "GET", "/o/3")[0], 401)
        self.assertEqual(ask(front.port, "GET", "/nothing/3")[0], 404)
        _, text = self.status("/metrics")
        kinds, samples = read_metrics(text)
        self.assertLessEqual(set(NAMES), set(kinds))
        self.assertEqual((kinds["moo_seq"], kinds["moo_requests_total"], kinds["moo_request_seconds"]), ("gauge", "counter", "histogram"))
        self.assertEqual(samples["moo_seq"], 1)
        for labels in (
            'route="/api/batch",status="200"', 'route="/api/batch",status="409"', 'route="/api/object/<any>",status="200"',
            'route="/api/seq",status="401"', 'route="/o/<number>",status="401"', 'route="other",status="404"',
        ):  # fmt: skip
            self.assertEqual(samples[f"moo_requests_total{{{labels}}}"], 1, labels)
        self.assertEqual(samples['moo_refusals_total{by="front",kind="E_PERM"}'], 1)
        self.assertEqual(samples['moo_refusals_total{by="moo",kind="E_PERM"}'], 1)
        self.assertEqual(samples['moo_request_seconds_count{route="/batch"}'], 1, "a batch that is refused isn't sent")
        self.assertEqual(samples["moo_journal_sync_seconds_count"], 1)
        self.assertEqual(samples["moo_journal_bytes"], (self.folder / "journal-0").stat().st_size)
        self.assertEqual((samples["moo_standbys"], samples["moo_standby_lag_batches"]), (0, 0))
        self.assertGreater(samples["process_resident_memory_bytes"], 1 << 20)

    def test_what_moo_watch_has_left(self):
        left = self.room / "left.prom"
        left.write_text('# HELP moo_memory_bytes Memory.\n# TYPE moo_memory_bytes gauge\nmoo_memory_bytes 5000\nnonsense\nmoo_x{a="b"} 1.5\n')
        self.started("--metrics", left)
        _, text = self.status("/metrics")
        self.assertIn("\nmoo_memory_bytes 5000\nmoo_x{a=\"b\"} 1.5\n", text)
        self.assertNotIn("nonsense", text)
        left.unlink()
        self.assertEqual(self.status("/metrics")[0], 200)

    def test_a_standby_that_fetches_the_journal(self):
        front = self.started()

        def write():
            self.assertEqual(ask(front.port, "POST", "/api/batch", BATCH, self.token)[0], 200)

        for seq in (1, 2):
            write()
            self.send([self.first_line()] if seq == 2 else [], seq)
            samples = self.samples()
            self.assertEqual((samples["moo_standbys"], samples["moo_standby_lag_batches"]), (1, 0))
            self.assertLess(samples["moo_standby_silent_seconds"], SECONDS)
        write()
        self.assertEqual(self.samples()["moo_standby_lag_batches"], 1)
        # Another one was lost long ago, and of a third the line isn't whole.
        (self.folder / "standby-192.0.2.1").write_text('{"seq":1,"t":1000.5}\n')
        (self.folder / "standby-192.0.2.2").write_text('{"seq":3,"t":')
        samples = self.samples()
        self.assertEqual((samples["moo_standbys"], samples["moo_standby_lag_batches"]), (2, 2))
        self.assertGreater(samples["moo_standby_silent_seconds"], 1_000_000)

    def first_line(self):
        """The first line of the journal, as a standby says that it has it."""
        line = (self.folder / "journal-0").read_bytes().splitlines(keepends=True)[0]
        return [1, 0, len(line), line[:64].decode()]

    def send(self, have, seq):
        """moo-send, as ssh runs it, until a standby that had these lines has all up to this number."""
        words, env = [str(WEB / "moo-send"), str(self.folder)], {**os.environ, "SSH_CLIENT": "2001:db8::5 4711 22"}
        process = processes.start(words, env=env, stdin=subprocess.PIPE, stdout=subprocess.PIPE)
        process.stdin.write(json.dumps({"version": 1, "have": have, "people": ""}).encode() + b"\n")
        process.stdin.flush()
        said = {}
        while said.get("k") != "now":
            said = json.loads(process.stdout.readline())
            process.stdout.read(said.get("length", 0))
        noted = self.folder / "standby-2001_db8__5"
        self.until(lambda: noted.exists() and json.loads(noted.read_text())["seq"] == seq)
        process.kill()
        process.communicate()


class Monitoring(StatusTest):
    """The files for Prometheus and Grafana."""

    FOLDER = TOP / "packaging/web/examples/prometheus"

    def names(self):
        """The names of metrics that the front and moo-watch give, as they are asked for."""
        self.started("--metrics", self.room / "left.prom")
        words = [TOOLS / "moo-watch", "--world", self.room / "world.db", "--copies", self.room, "--metrics", self.room / "left.prom"]
        subprocess.run([sys.executable, *map(str, words), str(self.moo.port)], check=True, stdout=subprocess.DEVNULL, timeout=SECONDS)
        kinds, _ = read_metrics(self.status("/metrics")[1])
        of_histograms = [f"{name}_{part}" for name, kind in kinds.items() if kind == "histogram" for part in ("bucket", "sum", "count")]
        return {name for name, kind in kinds.items() if kind != "histogram"}.union(of_histograms)

    def test_each_metric_that_is_asked_for_is_there(self):
        dashboard = json.loads((self.FOLDER / "dashboard.json").read_text())
        asked = [target["expr"] for panel in dashboard["panels"] for target in panel["targets"]]
        rules = re.findall(r"^ +expr: (.*)$", (self.FOLDER / "alerts.yml").read_text(), re.M)
        self.assertGreater(min(len(asked), len(rules)), 10)
        used = {name for text in (*asked, *rules) for name in re.findall(r"\b(?:moo|process)_\w+", re.sub(r'"[^"]*"', "", text))}
        self.assertEqual(used - self.names(), set())

    def test_units_leave_the_moments_of_copies(self):
        sys.path.append("/usr/lib/python3/dist-packages")
        from moo_web.status.gauges import KEPT_FILE, TRIED_FILE

        for unit, name in (("moo-keep@", KEPT_FILE), ("moo-copy@", TRIED_FILE)):
            with self.subTest(unit):
                text = (TOP / f"packaging/web/{unit}.service").read_text()
                self.assertIn(f"\nExecStartPost=/bin/touch /var/lib/moo-web/%i/{name}\n", text)
                self.assertRegex(text, r"(?m)^ReadWritePaths=.* /var/lib/moo-web/%i$")

    @unittest.skipUnless(shutil.which("promtool"), "promtool is missing: apt-get install prometheus")
    def test_prometheus_takes_the_rules_and_the_metrics(self):
        rules = subprocess.run(["promtool", "check", "rules", self.FOLDER / "alerts.yml"], capture_output=True, text=True, check=False)
        self.assertEqual(rules.returncode, 0, rules.stdout + rules.stderr)
        front = self.started()
        ask(front.port, "POST", "/api/batch", BATCH, self.token)
        text = self.status("/metrics")[1]
        checked = subprocess.run(["promtool", "check", "metrics"], input=text, capture_output=True, text=True, check=False)
        self.assertEqual((checked.returncode, checked.stderr), (0, ""))


class Activity(StatusTest):
    def test_who_is_being_answered(self):
        """moo is stopped, so that the answer takes as long as it may."""
        front = self.started()
        self.assertEqual(self.status("/activity"), (200, []))
        self.assertEqual(ask(front.port, "GET", "/api/seq", token=self.token)[0], 200)
        began = time.time()
        os.kill(self.moo.process.pid, signal.SIGSTOP)
        self.addCleanup(os.kill, self.moo.process.pid, signal.SIGCONT)
        asking = threading.Thread(target=ask, args=(front.port, "GET", "/api/object/3", None, self.token), daemon=True)
        asking.start()
        self.until(lambda: self.status("/activity")[1])
        (one,) = self.status("/activity")[1]
        self.assertEqual((one["person"], one["route"], one["method"]), ("wizard", "/api/object/<any>", "GET"))
        self.assertRegex(one["since"], r"^\d{4}-\d\d-\d\dT\d\d:\d\d:\d\d\.\d{3}Z$")
        self.assertGreaterEqual(one["since"], time.strftime("%Y-%m-%dT%H:%M:%S", time.gmtime(began)))
        os.kill(self.moo.process.pid, signal.SIGCONT)
        asking.join(SECONDS)
        self.assertEqual(self.status("/activity"), (200, []))


class AccessLog(ServingTest):
    def lines(self, path):
        return [json.loads(line) for line in path.read_text().splitlines()]

    def test_a_line_for_each_request(self):
        log = self.room / "access.log"
        front = self.front("--access-log", log)
        self.assertEqual(ask(front.port, "POST", "/api/batch", BATCH, self.token)[0], 200)
        self.assertEqual(ask(front.port, "GET", "/o/3?secret=x")[0], 401)
        first, second = self.lines(log)
        self.assertEqual(sorted(first), ["address", "method", "moment", "ms", "person", "route", "status"])
        self.assertEqual(
            [first[key] for key in ("address", "person", "method", "route", "status")], ["127.0.0.1", "wizard", "POST", "/api/batch", 200]
        )
        self.assertRegex(first["moment"], r"^\d{4}-\d\d-\d\dT\d\d:\d\d:\d\d\.\d{3}Z$")
        self.assertGreater(first["ms"], 0)
        self.assertEqual([second[key] for key in ("person", "route", "status")], [None, "/o/<number>", 401])
        self.assertNotIn(self.token, log.read_text())

    def test_it_is_opened_anew(self):
        """After SIGHUP, if it was moved; and by itself if it was cut to nothing, as copytruncate does."""
        log = self.room / "access.log"
        front = self.front("--access-log", log)
        ask(front.port, "GET", "/api/seq", token=self.token)
        log.rename(self.room / "access.log.1")
        front.process.send_signal(signal.SIGHUP)
        ask(front.port, "GET", "/api/seq", token=self.token)
        self.assertEqual((len(self.lines(log)), len(self.lines(self.room / "access.log.1"))), (1, 1))
        os.truncate(log, 0)
        ask(front.port, "GET", "/api/seq", token=self.token)
        self.assertEqual(len(self.lines(log)), 1)

    def test_without_a_log(self):
        """A unit is reloaded without harm, and a front at a terminal ends with that."""
        front = self.front(env={"NOTIFY_SOCKET": str(self.room / "nobody")})
        front.process.send_signal(signal.SIGHUP)
        self.assertEqual(ask(front.port, "GET", "/api/seq", token=self.token), (200, {"seq": 0}))
        front.kill()
        # Tests that nohup started would have it ignored.
        with processes.inherited_signal(signal.SIGHUP, signal.SIG_DFL):
            front = self.front()
        front.process.send_signal(signal.SIGHUP)
        self.assertEqual(front.end(), -signal.SIGHUP)

    def test_a_disk_that_is_full(self):
        front = self.front("--access-log", "/dev/full")
        self.assertEqual(ask(front.port, "GET", "/api/seq", token=self.token), (200, {"seq": 0}))
        self.assertIn("the access log can't be written: /dev/full: No space left on device", front.said())

    def test_a_file_that_cannot_be_made(self):
        self.assertIn("No such file or directory", self.refused("--access-log", self.room / "none/access.log"))


class Systemd(ServingTest):
    """What the front tells systemd. A socket of ours plays that of systemd."""

    def test_it_is_ready_and_lives(self):
        path = self.room / "notify"
        with socket.socket(socket.AF_UNIX, socket.SOCK_DGRAM) as systemd:
            systemd.bind(str(path))
            systemd.settimeout(SECONDS)
            front = self.front(env={"NOTIFY_SOCKET": str(path), "WATCHDOG_USEC": "400000"})
            told = [systemd.recv(4096).decode() for _ in range(4)]
            self.assertTrue(told[0].startswith("READY=1\nSTATUS=seq 0, "), told)
            for each in told[1:]:
                self.assertTrue(each.startswith("WATCHDOG=1\nSTATUS=seq 0, "), told)
            front.process.send_signal(signal.SIGTERM)
            while told[-1] != "STOPPING=1":
                told.append(systemd.recv(4096).decode())
            self.assertEqual(front.end(), 0)


def is_open(port):
    """Whether somebody listens at a port."""
    with contextlib.suppress(OSError), socket.create_connection(("127.0.0.1", port), 1):
        return True
    return False


if __name__ == "__main__":
    unittest.main()
