"""A front behind a proxy: whose `x-forwarded-for` is believed, the socket for a proxy, and the hosts by which the front may be asked."""

import http.client
import json
import signal
import socket
import stat
import unittest
import urllib.parse

from tests.support.operating import SECONDS
from tests.support.web import PASSWORD, ask, program
from tests.web.test_serving import ServingTest

LOCAL = ("127.0.0.1", "127.0.0.1:8088", "localhost", "LocalHost:80", "[::1]", "[::1]:8088")
FOREIGN = ("rebound.example.net", "127.0.0.1.example.net", "localhost.", "127.0.0.1, rebound.example.net", "[::2]", "127.0.0.2", "x@localhost", ":80")
OURS = ("world.example.org", "World.Example.Org:443")


class BySocket(http.client.HTTPConnection):
    """A connection by a socket of the file system."""

    def __init__(self, path):
        super().__init__("proxy", timeout=SECONDS)
        self.path = path

    def connect(self):
        self.sock = socket.socket(socket.AF_UNIX)
        self.sock.settimeout(SECONDS)
        self.sock.connect(str(self.path))


def by_socket(path, method, target, body=None, **lines):
    """The status and the body of an answer to a request that came by a socket."""
    connection = BySocket(path)
    try:
        connection.request(method, target, body, {name.replace("_", "-"): value for name, value in lines.items()})
        answer = connection.getresponse()
        return answer.status, answer.read().decode()
    finally:
        connection.close()


class ByProxy(ServingTest):
    @property
    def path(self):
        return self.room / "proxy.sock"

    def sign_in(self, password, address, is_direct):
        """The status of a try to sign in as the wizard, from this address."""
        body = urllib.parse.urlencode({"name": "wizard", "password": password})
        head = {"Content-Type": "application/x-www-form-urlencoded", "X-Forwarded-For": address}
        if is_direct:
            return ask(self.direct, "POST", "/in", body, head=head)[0]
        return by_socket(self.path, "POST", "/in", body, Host="world.example.org", **head)[0]


class Sockets(ByProxy):
    def test_it_listens_there_too(self):
        front = self.front("--proxy-socket", self.path)
        self.assertEqual(stat.S_IMODE(self.path.stat().st_mode), 0o660)
        self.assertTrue(stat.S_ISSOCK(self.path.stat().st_mode))
        token = {"Authorization": f"Bearer {self.token}"}
        self.assertEqual(by_socket(self.path, "GET", "/api/seq", **token), (200, '{"seq":0}'))
        self.assertEqual(ask(front.port, "GET", "/api/seq", token=self.token), (200, {"seq": 0}))
        front.process.send_signal(signal.SIGTERM)
        self.assertEqual(front.end(), 0)
        self.assertFalse(self.path.exists())

    def test_x_forwarded_for_is_believed_there_and_nowhere_else(self):
        """With --rate 0.05 an address has one request, and the next one ten seconds later; so 401 comes once for each address."""
        front = self.front("--proxy-socket", self.path, "--rate", 0.05)
        for address, wanted in (("192.0.2.1", 401), ("192.0.2.2", 401), ("9.9.9.9, 192.0.2.1", 429), ("192.0.2.3, 192.0.2.4", 401)):
            with self.subTest(address):
                self.assertEqual(by_socket(self.path, "GET", "/api/seq", X_Forwarded_For=address)[0], wanted)
        for address, wanted in (("192.0.2.5", 401), ("192.0.2.6", 429), ("192.0.2.4", 429)):
            with self.subTest(direct=address):
                self.assertEqual(ask(front.port, "GET", "/api/seq", head={"X-Forwarded-For": address})[0], wanted)

    def test_nobody_keeps_another_out_by_claiming_their_address(self):
        """A user of the machine fails to sign in again and again, and says that it is from the wizard's home."""
        self.direct = self.front("--proxy-socket", self.path).port
        self.assertEqual(self.sign_in(PASSWORD, "203.0.113.9", False), 303)
        self.assertEqual({self.sign_in(f"wrong {number}", "203.0.113.9", True) for number in range(8)}, {403, 429})
        self.assertEqual(self.sign_in(PASSWORD, "203.0.113.9", False), 303)

    def test_a_socket_that_is_left_over_is_replaced(self):
        self.front("--proxy-socket", self.path).kill()
        self.assertTrue(self.path.exists())
        front = self.front("--proxy-socket", self.path)
        self.assertIn("is in use", self.refused("--proxy-socket", self.path, folder=self.room / "other"))
        self.assertEqual(by_socket(self.path, "GET", "/api/seq")[0], 401)
        front.kill()
        self.path.unlink()
        self.path.write_text("a file")
        self.assertIn("isn't a socket", self.refused("--proxy-socket", self.path))
        self.assertEqual(self.path.read_text(), "a file")

    def test_words(self):
        for words in (("--proxy", "127.0.0.1", "--proxy-socket", self.path), ("--host", "a/b"), ("--host", ""), ("--host", "a:80")):
            with self.subTest(words):
                self.assertEqual(program("moo-web", self.folder, "--moo-port", self.moo.port, *words)[:2], (2, ""))


class Hosts(ByProxy):
    def direct_status(self, front, host, **lines):
        return ask(front.port, "GET", "/api/seq", token=self.token, head={"Host": host, **lines})

    def expect(self, wanted, answered):
        """`answered` is given each host and answers what the front did; `wanted` has the hosts, each with whether they are taken."""
        for host, is_taken in wanted.items():
            with self.subTest(host):
                self.assertEqual(answered(host), (200, {"seq": 0}) if is_taken else (403, {"error": "forbidden"}))

    def test_without_a_proxy(self):
        front = self.front()
        forwarded = {"X-Forwarded-For": "192.0.2.1"}
        self.expect(dict.fromkeys(LOCAL, True) | dict.fromkeys(FOREIGN + OURS, False), lambda host: self.direct_status(front, host))
        self.expect(dict.fromkeys(OURS, False), lambda host: self.direct_status(front, host, **forwarded))
        status, page = ask(front.port, "GET", "/in", head={"Host": FOREIGN[0]})
        self.assertEqual((status, "Not for you" in page), (403, True))
        self.assertEqual(ask(front.port, "GET", "/style.css", head={"Host": FOREIGN[0]})[0], 403)
        self.assertIn("it asked by a host that isn't ours (--host NAME)", front.said())

    def test_by_a_proxy(self):
        """Without --host it may ask by any name, and who comes past it may not."""
        front = self.front("--proxy", "127.0.0.1")
        forwarded = {"X-Forwarded-For": "192.0.2.1"}
        self.expect(dict.fromkeys(LOCAL + FOREIGN + OURS, True), lambda host: self.direct_status(front, host, **forwarded))
        self.expect(dict.fromkeys(LOCAL, True) | dict.fromkeys(FOREIGN + OURS, False), lambda host: self.direct_status(front, host))
        front.kill()
        front = self.front("--proxy-socket", self.path)
        self.expect(dict.fromkeys(LOCAL + FOREIGN + OURS, True), self.by_socket_status)
        self.expect(dict.fromkeys(LOCAL, True) | dict.fromkeys(FOREIGN + OURS, False), lambda host: self.direct_status(front, host))

    def test_names_of_ours(self):
        front = self.front("--proxy-socket", self.path, "--host", "WORLD.example.org", "--host", "other.example.org")
        wanted = dict.fromkeys((*LOCAL, *OURS, "other.example.org"), True) | dict.fromkeys(FOREIGN, False)
        self.expect(wanted, lambda host: self.direct_status(front, host))
        self.expect(wanted, self.by_socket_status)

    def by_socket_status(self, host):
        status, text = by_socket(self.path, "GET", "/api/seq", Host=host, X_Forwarded_For="192.0.2.1", Authorization=f"Bearer {self.token}")
        return status, json.loads(text)


if __name__ == "__main__":
    unittest.main()
