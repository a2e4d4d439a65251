"""Nobody gets into scadlive: bad requests by bytes, other sites, tokens, proxies, and clients that are slow or silent."""

from __future__ import annotations

import os
import socket
import subprocess
import sys
import tempfile
import threading
import time
import unittest
from pathlib import Path
from unittest import mock

from scadserve.live import serving
from scadserve.live.folder import Folder
from scadserve.live.serving import Server, Settings, Site
from scadserve.live.solving import Solver
from scadserve.live.watching import Watch
from tests import live_case
from tests.calls import STAND_IN, TOP
from tests.live_case import PATIENCE, Live
from tests.stand_in import BOX

TOKEN = "a-token-of-tests"
BODY = b"Content-Length: 6\r\n\r\nw = 1;"
MARKUP = "<script>alert(1)</script>"

# Requests that are refused, each with its status. HOST stands for the server's own name.
BAD: list[tuple[bytes, int]] = [
    # Another name of the server, as a site has it that is bound anew to this address, or none.
    (b"GET / HTTP/1.1\r\n\r\n", 421),
    (b"GET / HTTP/1.1\r\nHost: example.org\r\n\r\n", 421),
    (b"GET / HTTP/1.1\r\nHost: HOST\r\nHost: example.org\r\n\r\n", 421),
    (b"GET / HTTP/1.1\r\nHost: 127.0.0.1\r\n\r\n", 421),
    (b"GET / HTTP/1.1\r\nHost: HOST.example.org\r\n\r\n", 421),
    (b"GET / HTTP/1.1\r\nHost: user@HOST\r\n\r\n", 421),
    (b"GET / HTTP/1.1\r\nHost: 192.168.0.1:80\r\n\r\n", 421),
    # A page of another site.
    (b"POST /solid HTTP/1.1\r\nHost: HOST\r\nOrigin: https://example.org\r\n" + BODY, 403),
    (b"POST /solid HTTP/1.1\r\nHost: HOST\r\nOrigin: null\r\n" + BODY, 403),
    (b"POST /solid HTTP/1.1\r\nHost: HOST\r\nOrigin: https://HOST\r\n" + BODY, 403),
    (b"POST /solid HTTP/1.1\r\nHost: HOST\r\nOrigin: http://HOST.example.org\r\n" + BODY, 403),
    (b"POST /solid HTTP/1.1\r\nHost: HOST\r\nSec-Fetch-Site: cross-site\r\n" + BODY, 403),
    (b"PUT /files/x.scad HTTP/1.1\r\nHost: HOST\r\nOrigin: http://example.org\r\nIf-None-Match: *\r\n" + BODY, 403),
    (b"PUT /files/x.scad HTTP/1.1\r\nHost: HOST\r\nSec-Fetch-Site: same-site\r\nIf-None-Match: *\r\n" + BODY, 403),
    (b"GET /events HTTP/1.1\r\nHost: HOST\r\nOrigin: http://example.org\r\n\r\n", 403),
    # Bodies.
    (b"POST /solid HTTP/1.1\r\nHost: HOST\r\n\r\n", 411),
    (b"POST /solid HTTP/1.1\r\nHost: HOST\r\nContent-Length: -1\r\n\r\n", 400),
    (b"POST /solid HTTP/1.1\r\nHost: HOST\r\nContent-Length: 6, 6\r\n\r\nw = 1;", 400),
    (b"POST /solid HTTP/1.1\r\nHost: HOST\r\nContent-Length: 6\r\nContent-Length: 7\r\n\r\nw = 1;", 400),
    (b"POST /solid HTTP/1.1\r\nHost: HOST\r\nContent-Length: 0x6\r\n\r\nw = 1;", 400),
    (b"POST /solid HTTP/1.1\r\nHost: HOST\r\nContent-Length: 1048577\r\n\r\n", 413),
    (b"POST /solid HTTP/1.1\r\nHost: HOST\r\nContent-Length: 99999999999999999999\r\n\r\n", 400),
    (b"POST /solid HTTP/1.1\r\nHost: HOST\r\nTransfer-Encoding: chunked\r\n\r\n6\r\nw = 1;\r\n0\r\n\r\n", 501),
    (b"GET /files HTTP/1.1\r\nHost: HOST\r\n" + BODY, 400),
    # Methods and paths.
    (b"DELETE /files/a.scad HTTP/1.1\r\nHost: HOST\r\n\r\n", 405),
    (b"OPTIONS /solid HTTP/1.1\r\nHost: HOST\r\n\r\n", 405),
    (b"GET /solid HTTP/1.1\r\nHost: HOST\r\n\r\n", 405),
    (b"HEAD /events HTTP/1.1\r\nHost: HOST\r\n\r\n", 405),
    (b"CONNECT example.org:80 HTTP/1.1\r\nHost: HOST\r\n\r\n", 400),
    (b"GET http://example.org/ HTTP/1.1\r\nHost: HOST\r\n\r\n", 400),
    (b"GET /page/../../../../etc/passwd HTTP/1.1\r\nHost: HOST\r\n\r\n", 404),
    (b"GET /page/%2e%2e/live.html HTTP/1.1\r\nHost: HOST\r\n\r\n", 404),
    (b"GET /page/codemirror/../codemirror.js HTTP/1.1\r\nHost: HOST\r\n\r\n", 404),
    (b"GET /files/%ff.scad HTTP/1.1\r\nHost: HOST\r\n\r\n", 400),
    (b"GET /<script>alert(1)</script> HTTP/1.1\r\nHost: HOST\r\n\r\n", 404),
    # The query.
    (b"POST /solid?format=exe HTTP/1.1\r\nHost: HOST\r\n" + BODY, 400),
    (b"POST /solid?format=stl&format=3mf HTTP/1.1\r\nHost: HOST\r\n" + BODY, 400),
    (b"POST /solid?unit=-1 HTTP/1.1\r\nHost: HOST\r\n" + BODY, 400),
    (b"POST /solid?D=w=1%3Bcube(9) HTTP/1.1\r\nHost: HOST\r\n" + BODY, 400),
    (b"POST /solid?D=" + b"w=1&D=" * 400 + b"w=1 HTTP/1.1\r\nHost: HOST\r\n" + BODY, 400),
    (b"POST /solid?file=../a.scad HTTP/1.1\r\nHost: HOST\r\n" + BODY, 400),
    (b"POST /solid?file=/etc/passwd HTTP/1.1\r\nHost: HOST\r\n" + BODY, 400),
    (b"POST /solid?client=%0d%0aX-A:1 HTTP/1.1\r\nHost: HOST\r\n" + BODY, 400),
    (b"POST /solid?half=2 HTTP/1.1\r\nHost: HOST\r\n" + BODY, 400),
    (b"POST /solid?server=/bin/sh HTTP/1.1\r\nHost: HOST\r\n" + BODY, 400),
    # No HTTP at all.
    (b"\x16\x03\x01\x02\x00\x01\x00\x01\xfc\x03\x03\r\n\r\n", 400),
    (b"GET /\r\nHost: HOST\r\n\r\n", 505),
    (b"GET / HTTP/9.9\r\nHost: HOST\r\n\r\n", 505),
    (b"GET /" + b"a" * 70_000 + b" HTTP/1.1\r\nHost: HOST\r\n\r\n", 414),
    (b"GET / HTTP/1.1\r\nHost: HOST\r\n" + b"X: 1\r\n" * 200 + b"\r\n", 431),
    (b"GET / HTTP/1.1\r\nHost: HOST\r\nX: " + b"a" * 70_000 + b"\r\n\r\n", 431),
]


class Requests(live_case.Case):
    @classmethod
    def make(cls) -> None:
        (cls.folder / "a.scad").write_text("w = 1;\n")
        (cls.folder / f"{MARKUP.replace('/', '')}.scad").write_text("w = 1;\n")

    def test_bad_requests_are_refused_by_their_statuses_and_change_nothing(self) -> None:
        self.assertGreaterEqual(len(BAD), 40)
        for data, status in BAD:
            said = self.live.raw(data.replace(b"HOST", self.live.host.encode()))
            head, _, body = said.partition(b"\r\n\r\n")
            self.assertEqual(head.split(b" ")[1:2], [str(status).encode()], (data[:90], said[:200]))
            self.assertNotIn(b"4OFF", body)
            self.assertNotIn(b"script", body)
            self.assertNotIn(b"x-a:", head.lower())
            self.assertNotIn(b"access-control", head.lower())
            self.assertIn(b"nosniff", head)
        self.assertEqual(sorted(it.name for it in self.folder.iterdir()), ["<script>alert(1)<script>.scad", "a.scad"])
        self.assertEqual(self.live.solid("w = 2;").body, BOX.format(2).encode())

    def test_no_name_and_no_text_reaches_the_page_unescaped(self) -> None:
        page = self.live.ask("GET", "/?plain=<b>bold</b>")
        self.assertEqual(page.status, 200)
        self.assertNotIn(b"<b>bold", page.body)
        with tempfile.TemporaryDirectory() as folder:
            name = MARKUP.replace("/", "") + ".scad"
            Path(folder, name).write_text(MARKUP)
            live = Live(os.path.join(folder, name))
            try:
                begin = live.ask("GET", "/").body
                self.assertIn(b"alert(1)", begin)
                self.assertNotIn(b"<script>alert", begin)
                told = live.solid(MARKUP + "2.5", file=name)
                self.assertEqual((told.status, told.headers["content-type"]), (422, "application/json"))
                page = live.solid("w = 1;", file=name, format="html")
                self.assertNotIn(b"<script>alert", page.body)
            finally:
                live.close()

    def test_answers_say_what_a_browser_may_do_with_them(self) -> None:
        for path in ("/", "/page/live.js", "/files", "/files/a.scad", "/version", "/nothing"):
            headers = self.live.ask("GET", path).headers
            self.assertIn("default-src 'none'", headers["content-security-policy"])
            self.assertNotIn("unsafe", headers["content-security-policy"])
            self.assertEqual((headers["x-content-type-options"], headers["cache-control"]), ("nosniff", "no-store"))

    def test_a_page_of_this_server_may_post(self) -> None:
        for name in (self.live.host, f"localhost:{self.live.port}"):
            headers = {"Host": name, "Origin": f"http://{name}", "Sec-Fetch-Site": "same-origin"}
            self.assertEqual(self.live.solid("w = 1;", headers).status, 200, name)


class Tokens(live_case.Case):
    words = ("--token", TOKEN, "--base", "https://parts.example.org/live/")

    def test_nothing_is_answered_without_the_token(self) -> None:
        for path in ("/", "/version", "/files", "/page/live.js", "/events", "/?token=another-one", "/files?token=" + TOKEN):
            self.assertEqual(self.live.ask("GET", path).status, 401, path)
        self.assertEqual(self.live.solid("w = 1;").status, 401)
        for bad in ("Bearer a-token-of-test", f"Basic {TOKEN}", f"bearer  {TOKEN}", "Bearer \u00ff"):
            self.assertEqual(self.live.ask("GET", "/version", headers={"Authorization": bad}).status, 401)

    def test_programs_send_it_and_pages_get_it_as_a_cookie(self) -> None:
        self.assertEqual(self.live.solid("w = 1;", {"Authorization": f"Bearer {TOKEN}"}).status, 200)
        answer = self.live.ask("GET", f"/?token={TOKEN}")
        self.assertEqual((answer.status, answer.headers["location"]), (303, "./"))
        cookie, *rules = answer.headers["set-cookie"].split("; ")
        self.assertEqual(set(rules), {"Path=/live/", "HttpOnly", "SameSite=Strict"})
        self.assertEqual(self.live.ask("GET", "/", headers={"Cookie": f"other=1; {cookie}"}).status, 200)
        self.assertEqual(self.live.ask("GET", "/", headers={"Cookie": f"{cookie}x"}).status, 401)

    def test_a_proxy_hands_on_paths_with_the_base_or_without_it(self) -> None:
        allowed = {"Authorization": f"Bearer {TOKEN}", "Host": "parts.example.org", "Origin": "https://parts.example.org"}
        for path in ("/live/version", "/version"):
            self.assertEqual(self.live.ask("GET", path, headers=allowed).status, 200)
        self.assertEqual(self.live.ask("POST", "/live/solid", b"w = 1;", allowed).body, BOX.format(1).encode())
        for name, value in (
            ("Host", "example.org"), ("Origin", "https://example.org"), ("Origin", "https://parts.example.org.example.org")
        ):
            self.assertIn(self.live.ask("POST", "/solid", b"w = 1;", {**allowed, name: value}).status, (403, 421))
        self.assertEqual(self.live.ask("GET", "/lively/version", headers=allowed).status, 404)


class Words(unittest.TestCase):
    def call(self, *words: str) -> tuple[int, str]:
        how = {**os.environ, "SCADSERVE": STAND_IN}
        done = subprocess.run(
            [
                sys.executable, "-S", os.path.join(TOP, "bin", "scadlive"), *words
            ], env=how, capture_output=True, timeout=PATIENCE, check=False
        )
        self.assertEqual(done.stdout, b"")
        return done.returncode, done.stderr.decode()

    def test_words_that_let_too_much_in_or_mean_nothing(self) -> None:
        with tempfile.TemporaryDirectory() as folder:
            Path(folder, "a.stl").write_text("")
            os.symlink("a.stl", os.path.join(folder, "link.scad"))
            for words, part in (
                (("--bind", "0.0.0.0"), "so it needs --token"),
                (("--bind", "::"), "so it needs --token"),
                (("--bind", "localhost"), "is not an address in numbers"),
                (("--token", "short"), "8 to 200"),
                (("--token", "with a blank in it"), "8 to 200"),
                (("--port", "65536"), "is not a port"),
                (("--jobs", "0"), "from 1 to 64"),
                (("--seconds", "0"), "is not a number of seconds"),
                (("--base", "ftp://example.org/"), "neither an address"),
                (("--base", "/a?b"), "characters other than"),
                ((os.path.join(folder, "a.stl"),), "neither a folder nor a source"),
                ((os.path.join(folder, "no", "a.scad"),), "no such folder"),
                ((os.path.join(folder, "link.scad"),), "it is a link"),
            ):
                status, said = self.call(*words)
                self.assertEqual((status, said.count("\n")), (2, 1), said)
                self.assertIn(part, said)

    def test_a_port_that_is_taken_is_told(self) -> None:
        with socket.create_server(("127.0.0.1", 0)) as taken, tempfile.TemporaryDirectory() as folder:
            port = str(taken.getsockname()[1])
            status, said = self.call(folder, "--port", port)
        self.assertEqual((status, said), (2, f"scadlive: cannot listen on 127.0.0.1, port {port}: Address already in use\n"))


class Slow(unittest.TestCase):
    """Clients that are silent, or take their time, in a server of this process with short times."""

    def setUp(self) -> None:
        for name, value in (("_READ", 1.0), ("_WRITE", 1.0), ("_MOST_CONNECTIONS", 24)):
            patch = mock.patch.object(serving, name, value)
            patch.start()
            self.addCleanup(patch.stop)
        folder = tempfile.TemporaryDirectory()
        self.addCleanup(folder.cleanup)
        served = Folder(folder.name)
        solver = Solver(served, [], [STAND_IN], 2, 10.0)
        self.addCleanup(solver.exports.close)
        self.server = Server(("127.0.0.1", 0))
        self.port = self.server.server_address[1]
        self.server.site = Site(served, solver, Watch(served, []), Settings(frozenset({f"127.0.0.1:{self.port}"})))
        thread = threading.Thread(target=self.server.serve_forever, kwargs={"poll_interval": 0.02}, daemon=True)
        thread.start()
        self.addCleanup(self.server.server_close)
        self.addCleanup(self.server.shutdown)

    def connect(self) -> socket.socket:
        found = socket.create_connection(("127.0.0.1", self.port), timeout=PATIENCE)
        self.addCleanup(found.close)
        return found

    def head(self) -> bytes:
        return f"POST /solid HTTP/1.1\r\nHost: 127.0.0.1:{self.port}\r\n".encode()

    def assert_served(self) -> None:
        """A request now is answered."""
        client = self.connect()
        client.sendall(self.head() + b"Connection: close\r\n" + BODY)
        said = b""
        while more := client.recv(1 << 16):
            said += more
        self.assertTrue(said.endswith(BOX.format(1).encode()), said[:100])

    def assert_closed(self, client: socket.socket) -> None:
        """The server closes the connection, without an answer or behind one."""
        with self.subTest():
            try:
                while client.recv(1 << 16):
                    pass
            except ConnectionResetError:
                pass

    def test_silent_clients_and_half_requests_hold_nothing(self) -> None:
        clients = [self.connect() for _ in range(20)]
        for number, client in enumerate(clients):
            client.sendall((b"", b"POST", self.head(), self.head() + b"Content-Length: 100\r\n\r\nw = ")[number % 4])
        self.assert_served()
        for client in clients:
            self.assert_closed(client)
        self.assert_served()

    def test_a_client_that_sends_a_byte_at_a_time_is_not_waited_for(self) -> None:
        client = self.connect()
        began = time.monotonic()
        with self.assertRaises(OSError):
            for byte in self.head() * 100:
                client.sendall(bytes([byte]))
                time.sleep(0.05)
        self.assertLess(time.monotonic() - began, PATIENCE)

    def test_more_connections_than_there_is_room_for_are_closed_at_once(self) -> None:
        clients = [self.connect() for _ in range(40)]
        for client in clients:
            self.assert_closed(client)
        self.assert_served()

    def test_a_client_that_reads_nothing_is_given_up(self) -> None:
        client = self.connect()
        client.setsockopt(socket.SOL_SOCKET, socket.SO_RCVBUF, 4096)
        large = b"GET /page/viewer.js HTTP/1.1\r\nHost: 127.0.0.1:%d\r\n\r\n" % self.port
        with self.assertRaises(OSError):
            for _ in range(10_000):
                client.settimeout(5)
                client.sendall(large * 200)
        self.assert_served()


if __name__ == "__main__":
    unittest.main()
