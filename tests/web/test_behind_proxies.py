"""The examples for nginx and Caddy, each before a front: requests of doubtful shapes, and what a peer says of its own address and host.

The files are those that are shipped, with ports and paths of this test, and a certificate of our own. A program that isn't there is left out.
"""

import http.client
import os
import shutil
import socket
import ssl
import subprocess
import time
import unittest

from tests.support import processes
from tests.support.operating import SECONDS
from tests.support.program import TOP
from tests.support.service import free_port
from tests.web import test_shapes

EXAMPLES = TOP / "packaging/web/examples"
HOST = "world.example.org"
SOCKET = "/run/moo-web/world/proxy.sock"
LETSENCRYPT = f"/etc/letsencrypt/live/{HOST}"
# What these proxies answer besides.
OF_PROXIES = {301, 308, 421, 502}


def changed(name, changes):
    """An example, with each of these texts in place of one that is in it."""
    text = (EXAMPLES / name).read_text()
    for old, new in changes.items():
        if old not in text:
            raise AssertionError(f"{name} has no {old}")
        text = text.replace(old, str(new))
    return text


def secret_for(room):
    """The files of a certificate and its key, of our own."""
    words = ["openssl", "req", "-x509", "-newkey", "rsa:2048", "-nodes", "-days", "2", "-subj", f"/CN={HOST}", "-addext", f"subjectAltName=DNS:{HOST}"]
    subprocess.run([*words, "-keyout", room / "key.pem", "-out", room / "cert.pem"], check=True, capture_output=True, timeout=SECONDS)
    return room / "cert.pem", room / "key.pem"


class Behind:
    """A front behind a proxy, and what is tested of both. `program` is the proxy's."""

    host = HOST.encode()
    statuses = test_shapes.STATUSES | OF_PROXIES

    def setUp(self):
        for name in (self.program, "openssl"):
            if not shutil.which(name):
                self.skipTest(f"{name} is missing: apt-get install {name}")
        super().setUp()
        folder, self.proxy_port, self.file = self.room / "for-the-proxy", free_port(), self.room / "proxy.conf"
        folder.mkdir()
        self.cert, self.key = secret_for(self.room)
        self.file.write_text(self.settings(folder, self.room / "proxy.sock"))
        self.trust = ssl.create_default_context(cafile=str(self.cert))
        with open(self.room / "said", "wb") as said:
            env = dict(os.environ, HOME=str(folder))
            self.proxy = processes.start(list(map(str, self.words())), stdout=subprocess.DEVNULL, stderr=said, env=env)
        self.until_it_listens()

    def begun(self, *words, port=None):
        return self.front("--proxy-socket", self.room / "proxy.sock", "--host", HOST, *words, port=port)

    def until_it_listens(self):
        end = time.monotonic() + SECONDS
        while True:
            try:
                return self.connected().close()
            except OSError:
                self.assertIsNone(self.proxy.poll(), (self.room / "said").read_text())
                self.assertLess(time.monotonic(), end)
                time.sleep(0.1)

    def connected(self):
        """A connection to the proxy."""
        return self.trust.wrap_socket(socket.create_connection(("127.0.0.1", self.proxy_port), test_shapes.PATIENCE), server_hostname=HOST)

    def status(self, path, **head):
        """The status of the answer to a GET that goes through the proxy."""
        lines = "".join(f"{name.replace('_', '-')}: {value}\r\n" for name, value in {"host": HOST, **head}.items())
        with self.connected() as peer:
            peer.sendall(f"GET {path} HTTP/1.1\r\n{lines}connection: close\r\n\r\n".encode())
            answer = http.client.HTTPResponse(peer)
            answer.begin()
            return answer.status

    def test_a_peer_says_nothing_of_its_address(self):
        """With --rate an address has one request; so a peer who is believed would have as many as it names addresses."""
        self.front_.kill()
        self.front_ = self.begun("--rate", 0.05, port=self.front_.port)
        found = [self.status("/api/seq", X_Forwarded_For=f"192.0.2.{number}", Forwarded=f"for=192.0.2.{number}") for number in range(1, 5)]
        self.assertEqual(found, [401, 429, 429, 429])

    def test_a_host_that_is_not_ours(self):
        token = f"Bearer {self.token}"
        self.assertEqual(self.status("/api/seq", authorization=token), 200)
        with self.connected() as peer:
            peer.sendall(f"GET /api/seq HTTP/1.1\r\nhost: elsewhere.example\r\nauthorization: {token}\r\nconnection: close\r\n\r\n".encode())
            answer = http.client.HTTPResponse(peer)
            answer.begin()
            self.assertIn((answer.status, answer.read().strip()), self.of_another_host)


class Nginx(Behind, test_shapes.Shapes):
    program = "nginx"
    # It brings each host to its one site, and the front refuses it.
    of_another_host = {(403, b'{"error":"forbidden"}')}

    def settings(self, folder, path):
        site = changed(
            "nginx.conf",
            {
                SOCKET: path,
                f"{LETSENCRYPT}/fullchain.pem": self.cert,
                f"{LETSENCRYPT}/privkey.pem": self.key,
                "    listen 80;\n    listen [::]:80;\n": f"    listen 127.0.0.1:{free_port()};\n",
                "    listen 443 ssl http2;\n    listen [::]:443 ssl http2;\n": f"    listen 127.0.0.1:{self.proxy_port} ssl http2;\n",
            },
        )
        temporary = "".join(f"{kind}_temp_path {folder}/{kind};\n" for kind in ("client_body", "proxy", "fastcgi", "uwsgi", "scgi"))
        user = "user root;\n" if os.geteuid() == 0 else ""
        head = f"{user}daemon off;\npid {folder}/pid;\nerror_log stderr;\nevents {{}}\n"
        return f"{head}http {{\naccess_log off;\n{temporary}{site}}}\n"

    def words(self):
        return ["nginx", "-p", self.room, "-c", self.file]


class Caddy(Behind, test_shapes.Shapes):
    program = "caddy"
    # It answers for a site that it doesn't have with 200 and nothing.
    of_another_host = {(200, b"")}
    kept_away = frozenset({"another site", "another site with a user", "a tunnel"})

    def test_what_is_kept_away(self):
        """It is answered with no byte of the front's, nor of who listens at the port of the tunnel."""
        with socket.create_server(("127.0.0.1", 0)) as door:
            door.setblocking(False)
            for target in (b"POST http://elsewhere.example/api/batch", b"CONNECT 127.0.0.1:%d" % door.getsockname()[1]):
                with self.subTest(target), self.connected() as peer:
                    head = b"host: %b\r\nauthorization: Bearer %b\r\nconnection: close" % (self.host, self.token.encode())
                    peer.sendall(b"%b HTTP/1.1\r\n%b\r\ncontent-length: 0\r\n\r\n" % (target, head))
                    answer = http.client.HTTPResponse(peer)
                    answer.begin()
                    self.assertEqual((answer.status, answer.read(), answer.headers["server"]), (200, b"", "Caddy"))
            self.assertRaises(BlockingIOError, door.accept)

    def settings(self, folder, path):
        return changed(
            "Caddyfile",
            {
                f"unix/{SOCKET}": f"unix/{path}",
                "{\n\tservers {": f"{{\n\tadmin off\n\tauto_https off\n\tstorage file_system {folder}\n\tservers {{",
                f"\n{HOST} {{\n": f"\nhttps://{HOST}:{self.proxy_port} {{\n\tbind 127.0.0.1\n\ttls {self.cert} {self.key}\n",
            },
        )

    def words(self):
        return ["caddy", "run", "--adapter", "caddyfile", "--config", self.file]


if __name__ == "__main__":
    unittest.main()
