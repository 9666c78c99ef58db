"""What a server says of itself at the socket after `--status`, and `norbd status`, by
docs/SERVE.md."""
import concurrent.futures
import json
import os
import re
import socket
import unittest

import kit
import nbd
from nbd import EINVAL, EPERM, OK

KEYS = {"version", "sectors", "read_only", "seconds", "connections", "commands", "errors",
        "erases", "most_worn", "least_worn"}
KINDS = {"all", "read", "write", "trim", "write_zeroes", "flush"}
PAGE = r"""sectors: 70(?:, read-only)?, served for \d+ seconds
connections: \d+ now, \d+ in all
commands: \d+ in all; READ \d+, WRITE \d+, TRIM \d+, WRITE_ZEROES \d+, FLUSH \d+
errors: \d+
erases: \d+(?:; most of block \d+, \d+; fewest of block \d+, \d+)?
"""


class Statuses(kit.Case):
    def setUp(self):
        super().setUp()
        self.format()

    def start_it(self, *words):
        return self.serve("a.img", "--status", "s", *words)

    def status(self):
        return json.loads(self.norbd("status", "s", "--json"))

    def looked(self):
        """What one who connects gets, until the server closes."""
        with socket.socket(socket.AF_UNIX) as it:
            it.settimeout(kit.PATIENCE)
            it.connect(self.path("s"))
            return b"".join(iter(lambda: it.recv(100), b""))

    def test_counts(self):
        """The counts are those of the commands that were answered, by kind; a request that is
        refused counts as an error alone."""
        server = self.start_it()
        client = server.client()
        for number in range(3):
            self.assertEqual(client.write(number, nbd.sector(number)), OK)
        for number in range(2):
            self.assertEqual(client.read(number), nbd.sector(number))
        self.assertEqual(client.read(70), EINVAL)
        self.assertEqual((client.trim(0), client.zero(1), client.flush()), (OK, OK, OK))
        status = self.status()
        self.assertLessEqual(status.pop("seconds"), kit.PATIENCE)
        self.assertEqual(status["commands"], {"all": 8, "read": 2, "write": 3, "trim": 1,
                                              "write_zeroes": 1, "flush": 1})
        self.assertEqual(status["connections"], {"now": 1, "all": 1})
        self.assertEqual((status["version"], status["sectors"], status["read_only"],
                          status["errors"]), (1, 70, False, 1))
        client.disc()
        self.assertTrue(kit.wait_for(lambda: self.status()["connections"] == {"now": 0, "all": 1}))
        with server.client(), server.client():
            self.assertEqual(self.status()["connections"], {"now": 2, "all": 3})

    def test_keys(self):
        """The line has exactly the documented keys, and is what anybody gets who connects; the
        page has its numbers."""
        self.start_it()
        line = self.looked()
        self.assertEqual(line.count(b"\n"), 1)
        self.assertTrue(line.endswith(b"}\n"))
        status = json.loads(line)
        self.assertEqual((set(status), set(status["commands"])), (KEYS, KINDS))
        self.assertEqual(set(status["connections"]), {"now", "all"})
        for key in ("most_worn", "least_worn"):
            self.assertEqual(set(status[key]), {"block", "erases"})
        self.assertEqual(set(self.status()), KEYS)
        self.assertRegex(self.norbd("status", "s").decode(), f"^{PAGE}$")

    def test_erases(self):
        """After many rewrites of a few sectors of a full disk blocks were erased; the most worn
        of the data blocks at least as often as the least worn; and as often as the image says."""
        server = self.start_it("--sync", "never")
        client = server.client()
        before = self.status()
        for number in range(70):
            client.write(number, nbd.sector(number))
        for turn in range(100):
            client.write(turn % 3, nbd.sector(turn % 3, turn))
        after = self.status()
        self.assertGreater(after["erases"], before["erases"] + 10)
        most, least = after["most_worn"], after["least_worn"]
        self.assertGreaterEqual(most["erases"], least["erases"])
        self.assertGreater(most["erases"], 0)
        self.assertLessEqual(most["erases"] + 11 * least["erases"], after["erases"])
        for block in (most["block"], least["block"]):
            self.assertIn(block, range(4, 16))

    def test_a_disk_that_cannot_be_changed(self):
        """With --read-only nothing is erased, and no block is the most worn."""
        server = self.start_it("--read-only")
        client = server.client()
        self.assertEqual(client.write(0, b"\x31" * 512), EPERM)
        self.assertEqual(len(client.read(0)), 512)
        status = self.status()
        self.assertEqual((status["read_only"], status["errors"], status["commands"]["read"],
                          status["commands"]["write"]), (True, 1, 1, 0))
        self.assertEqual((status["erases"], status["most_worn"], status["least_worn"]),
                         (0, None, None))
        self.assertRegex(self.norbd("status", "s").decode(), f"^{PAGE}$")

    def test_many_at_once(self):
        """Many may look at once, while commands run, and one who connects and says nothing, or
        goes at once, keeps nobody."""
        server = self.start_it()
        client = server.client()
        silent = socket.socket(socket.AF_UNIX)
        self.addCleanup(silent.close)
        silent.connect(self.path("s"))
        for _ in range(20):
            with socket.socket(socket.AF_UNIX) as it:
                it.connect(self.path("s"))
        with concurrent.futures.ThreadPoolExecutor(8) as pool:
            looks = [pool.submit(self.looked) for _ in range(40)]
            for turn in range(40):
                self.assertEqual(client.write(0, nbd.sector(0, turn)), OK)
            for it in looks:
                self.assertEqual(set(json.loads(it.result())), KEYS)
        self.assertEqual(self.status()["commands"]["write"], 40)

    def test_the_file_of_the_socket(self):
        """It is gone when the server ends by itself. One that a kill left is replaced; one at
        which somebody listens isn't, nor a file that is no socket: then nothing is served, and no
        other file is left behind."""
        server = self.start_it("--conns", "1")
        with server.client() as client:
            client.disc()
        done = server.end()
        self.assertEqual((done.status, done.fault), (0, ""))
        self.assertFalse(os.path.exists(self.path("s")))
        self.start_it().kill()
        self.assertTrue(os.path.exists(self.path("s")))
        server = self.start_it()
        self.format("b.img")
        self.refused("no socket: s: address in use", "serve", "b.img", "--unix", "b.sock",
                     "--status", "s")
        self.assertEqual(self.status()["sectors"], 70)
        self.put("f", b"a user's")
        for words, fault in ((["--status", "f"], "f: what is there is no socket"),
                             (["--status", "no/s"], "no/s: no such file or directory"),
                             (["--status", "x" * 108],
                              f"{'x' * 108}: a socket's path has at most 107 bytes")):
            self.refused(f"no socket: {fault}", "serve", "b.img", "--unix", "b.sock", *words)
        self.assertEqual(self.bytes_of("f"), b"a user's")
        self.assertFalse(os.path.exists(self.path("b.sock")))
        self.refused("image in use: a.img: norbd status looks at one that is served with --status",
                     "serve", "a.img", "--unix", "c.sock", "--status", "t")
        self.assertFalse({"c.sock", "t"} & set(os.listdir(self.room)))
        server.kill()

    def test_of_nobody(self):
        """Where no socket is, nobody listens, or another server answers, that is told."""
        self.refused("no socket: s: no such file or directory", "status", "s")
        self.put("f", b"")
        self.refused("no socket: f: what is there is no socket", "status", "f")
        self.refused("no socket: .: what is there is no socket", "status", ".", "--json")
        self.start_it().kill()
        self.refused("no socket: s: connection refused", "status", "s")
        with socket.socket(socket.AF_UNIX) as it:
            it.bind(self.path("other"))
            it.listen()
            for answer in (b"", b"{}\n", b"\xFF" * 10_000):
                with concurrent.futures.ThreadPoolExecutor(1) as pool:
                    asked = pool.submit(self.refused, "no socket: other: what answers there "
                                        "tells no status", "status", "other")
                    theirs, _ = it.accept()
                    with theirs:
                        theirs.sendall(answer)
                    asked.result()
        server = self.serve("a.img")
        self.refused(f"no socket: {server.words[-1]}: what answers there tells no status",
                     "status", server.words[-1])

    def test_a_line_of_another_kind(self):
        """A line is believed only as a server of this version writes it."""
        self.start_it()
        line = self.looked()
        self.assertTrue(re.fullmatch(rb'\{"version":1,.*\}\n', line))
        os.mkdir(self.path("d"))
        with socket.socket(socket.AF_UNIX) as it:
            it.bind(self.path("d/s"))
            it.listen()
            for old, new in ((b'"version":1', b'"version":2'), (b'"errors":0', b'"errors":00'),
                             (b'"errors":0', b'"errors":-1'), (b"}\n", b"}"), (b"{", b"{ ")):
                with concurrent.futures.ThreadPoolExecutor(1) as pool:
                    asked = pool.submit(self.run_norbd, "status", "d/s", "--json")
                    theirs, _ = it.accept()
                    with theirs:
                        theirs.sendall(line.replace(old, new, 1))
                    self.assertEqual(asked.result().status, 1, new)
            with concurrent.futures.ThreadPoolExecutor(1) as pool:
                asked = pool.submit(self.norbd, "status", "d/s", "--json")
                theirs, _ = it.accept()
                with theirs:
                    theirs.sendall(line)
                self.assertEqual(asked.result(), line)


if __name__ == "__main__":
    unittest.main()
