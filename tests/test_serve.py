"""What `serve` prints, where it listens, which requests it refuses, and when its keeper tidies, by
docs/SERVE.md. Crowds of connections are in test_crowds.py."""
import os
import resource
import socket
import time
import unittest

import kit
import nbd
from nbd import EINVAL, ENOMEM, ENOSPC, EPERM, FUA, OK, READ, WRITE


class Serving(kit.Case):
    def setUp(self):
        super().setUp()
        self.format()

    def test_what_one_writes_every_start_finds(self):
        """Each start serves what the one before it wrote, over all kinds of ends."""
        for turn in range(4):
            server = self.serve("a.img", *(["--conns", "1"] if turn % 2 else []))
            with server.client() as client:
                for number in range(70):
                    if turn:
                        self.assertEqual(client.read(number), nbd.sector(number, turn - 1))
                    self.assertEqual(client.write(number, nbd.sector(number, turn)), OK)
                client.disc()
            self.assertEqual(server.end().status if turn % 2 else server.kill().status,
                             0 if turn % 2 else -9)
        self.assertEqual(self.norbd("read", "a.img"),
                         b"".join(nbd.sector(number, 3) for number in range(70)))

    def test_lines_and_rows(self):
        """The lines of a server that ends by itself, and with --record the number of its rows."""
        for words, last in ((["--record"], "served 2 connections\nrecorded 4 rows\n"),
                            ([], "served 2 connections\n")):
            server = self.serve("a.img", "--conns", "2", *words)
            self.assertEqual(server.line, f"serving 70 sectors on {server.words[-1]}\n")
            for number in (1, 2):
                with server.client() as client:
                    self.assertEqual(client.write(number, b"\x31" * 512), OK)
                    self.assertEqual(client.read(number), b"\x31" * 512)
                    client.read(70)  # refused: no row
                    client.disc()
            done = server.end()
            self.assertEqual((done.status, done.text, done.fault), (0, last, ""))

    def test_at_rest(self):
        """While nobody asks for anything no thread runs; after a WRITE that makes a slot dead an
        eager keeper tidies, and rests again."""
        server = self.serve("a.img", "--tidy", "eager", "--sync", "never")
        client = server.client()

        def switches():
            return kit.status_of(server.pid, "voluntary_ctxt_switches")
        for number in (0, 1, 0, 1):
            client.write(number, nbd.sector(number))
        self.assertTrue(kit.wait_for(lambda: self.check_copy()["slots"]["dead"] == 0, 20))
        time.sleep(0.5)
        before = switches()
        time.sleep(1)
        self.assertLessEqual(switches() - before, 2)
        self.assertEqual(client.read(0), nbd.sector(0))
        server.kill()
        self.assertEqual(self.check()["slots"], {"free": 82, "live": 2, "dead": 0})

    def test_lazy_and_eager(self):
        """A lazy keeper leaves the dead slots of a disk with room, an eager one none; TRIM and
        WRITE_ZEROES wake an eager one too."""
        for words, change, dead in (([], None, 3), (["--tidy", "lazy"], None, 3),
                                    (["--tidy", "eager"], None, 0),
                                    (["--tidy", "eager"], "trim", 0),
                                    (["--tidy", "eager"], "zero", 0), ([], "trim", 2)):
            self.norbd("format", "a.img", "--kib", "64", "--force")
            server = self.serve("a.img", "--sync", "never", *words)
            client = server.client()
            client.write(0, nbd.sector(0))
            client.write(1, nbd.sector(1))
            for turn in range(3 if change is None else 1):
                client.write(0, nbd.sector(0, turn))
            self.tidied(dead if change is None or not dead else 1)
            if change:
                self.assertEqual(getattr(client, change)(1), OK)
                self.tidied(dead)
            server.kill()
            self.assertEqual(self.check()["slots"]["dead"], dead, (words, change))
            self.assertEqual(self.norbd("read", "a.img", "--sectors", "0:1"),
                             nbd.sector(0, 2 if change is None else 0))

    def tidied(self, dead):
        """Waits until so many slots are dead, and then a while for more to be tidied."""
        kit.wait_for(lambda: self.check_copy()["slots"]["dead"] == dead, 10)
        time.sleep(0.5)

    def test_tidying_when_slots_run_out(self):
        """A full disk that is written again and again goes on, and keeps every sector."""
        for words in ([], ["--tidy", "eager"]):
            self.norbd("format", "a.img", "--kib", "64", "--force")
            server = self.serve("a.img", "--sync", "never", *words)
            client, chance, held = server.client(), kit.dice("full"), {}
            for turn in range(1500):
                number = turn if turn < 70 else chance.randrange(70)
                held[number] = nbd.sector(number, turn)
                self.assertEqual(client.write(number, held[number]), OK)
            for number, data in held.items():
                self.assertEqual(client.read(number), data)
            server.kill()
            self.assertEqual(self.norbd("read", "a.img"), b"".join(held[it] for it in range(70)))


class Places(kit.Case):
    def setUp(self):
        super().setUp()
        self.format()

    def test_a_port_of_this_machine_alone(self):
        """Without --bind nothing but 127.0.0.1 is listened on."""
        port = kit.free_port()
        server = self.serve("a.img", "--port", str(port))
        self.assertEqual(server.line, f"serving 70 sectors on 127.0.0.1:{port}\n")
        self.assertEqual(server.client().read(0), bytes(512))
        with self.assertRaises(ConnectionRefusedError):
            nbd.Client(("127.0.0.2", port))
        with self.assertRaises(OSError):
            nbd.Client(("::1", port))

    def test_another_address(self):
        """--bind listens on that address, IPv4 or IPv6, and names it."""
        for bind, reached, not_reached in (("127.0.0.2", "127.0.0.2", "127.0.0.1"),
                                           ("0.0.0.0", "127.0.0.3", "::1"),
                                           ("::1", "::1", "127.0.0.1")):
            if ":" in bind and not os.path.exists("/proc/net/if_inet6"):
                continue
            port = kit.free_port()
            server = self.serve("a.img", "--port", str(port), "--bind", bind)
            host = f"[{bind}]" if ":" in bind else bind
            self.assertEqual(server.line, f"serving 70 sectors on {host}:{port}\n")
            self.assertEqual(nbd.Client((reached, port)).go().size, 35840)
            with self.assertRaises(OSError):
                nbd.Client((not_reached, port))
            server.kill()

    def test_a_unix_socket(self):
        """A Unix socket is removed at the end; one that a killed server left is replaced."""
        server = self.serve("a.img", "--unix", "a.sock", "--conns", "1")
        self.assertEqual(server.line, "serving 70 sectors on a.sock\n")
        server.client().disc()
        self.assertEqual(server.end().status, 0)
        self.assertFalse(os.path.exists(self.path("a.sock")))
        self.serve("a.img", "--unix", "a.sock").kill()
        self.assertTrue(os.path.exists(self.path("a.sock")))
        server = self.serve("a.img", "--unix", "a.sock", "--conns", "1")
        server.client().disc()
        self.assertEqual(server.end().status, 0)
        self.assertFalse(os.path.exists(self.path("a.sock")))

    def test_what_is_at_the_path_of_a_socket(self):
        """A socket at which somebody listens, and whatever is no socket, is left as it is."""
        self.format("b.img")
        server = self.serve("a.img", "--unix", "a.sock")
        for name in ("a.img", "b.img"):
            self.refused("no socket: a.sock: address in use", "serve", name, "--unix", "a.sock")
        self.assertEqual(server.client().read(0), bytes(512))
        self.put("file", b"a file")
        os.mkdir(self.path("folder"))
        os.symlink("nothing", self.path("link"))
        for name in ("file", "folder", "link"):
            self.refused(f"no socket: {name}: what is there is no socket", "serve", "b.img",
                         "--unix", name)
        self.assertEqual(self.bytes_of("file"), b"a file")
        self.assertTrue(os.path.isdir(self.path("folder")) and os.path.islink(self.path("link")))
        self.refused("no socket: no/a.sock: no such file or directory", "serve", "b.img", "--unix",
                     "no/a.sock")
        for length in (108, 125):
            self.refused(f"no socket: {'x' * length}: a socket's path has at most 107 bytes",
                         "serve", "b.img", "--unix", "x" * length)
        self.refused("image failed: m.img: no such file or directory", "serve", "m.img", "--unix",
                     "x" * 107)


class Told(kit.Case):
    def setUp(self):
        super().setUp()
        self.format()

    def told(self, *words, then):
        """What a server says on standard error of what some clients do."""
        server = self.serve("a.img", "--conns", "1", *words)
        then(server)
        done = server.end()
        self.assertEqual(done.status, 0)
        return done.fault.replace("norbd: connection 1", "1").splitlines()

    def test_begins_and_ends(self):
        """With -v the begin and the end of each connection is told, where it has one its client's
        address, and why it ended."""
        def disc(server):
            server.client().disc()

        def go_away(server):
            server.client().close()

        def abort(server):
            client = server.connect()
            client.greet()
            client.ask(nbd.ABORT)

        def magic(server):
            client = server.client()
            client.send(bytes(28))
            client.is_closed()

        def reset(server):
            port_client = server.client()
            port_client.socket.setsockopt(socket.SOL_SOCKET, socket.SO_LINGER, b"\1\0\0\0\0\0\0\0")
            port_client.send(nbd.request(READ, 0, 512))
            port_client.receive(528)
            port_client.close()
        for then, why in ((disc, "closed by a request"), (abort, "closed by a request"),
                          (magic, "closed by a request"), (go_away, "end of input")):
            for word in ("-v", "--verbose"):
                self.assertEqual(self.told(word, then=then), ["1 begins", f"1 ends: {why}"])
            self.assertEqual(self.told(then=then), [])
        begins, *rest = self.told("-v", "--port", str(kit.free_port()), then=reset)
        self.assertRegex(begins, r"^1 begins: 127\.0\.0\.1:\d+$")
        self.assertEqual(rest, ["1 ends: a read failed, or the negotiation took too long"])

    def test_an_unknown_export(self):
        """With -v an export that INFO or GO asks for and that isn't there is told by its name, what
        isn't printable of it escaped and what is beyond 64 bytes cut, and by its client's
        address."""
        names = ((b"disk", "'disk'"), (b"\0\x7f\xc3\xb6", r"'\x00\x7f\xc3\xb6'"),
                 (b"x" * 64, f"'{'x' * 64}'"), (b"y" * 65, f"'{'y' * 64}'.. of 65 bytes"))

        def ask(server):
            client = server.connect()
            client.greet()
            for name, _ in names:
                for number in (nbd.INFO, nbd.GO):
                    self.assertEqual(client.ask(number, nbd.export(name)), [(nbd.UNKNOWN, b"")])
            client.ask(nbd.ABORT)
        told = [f"asks for the export {shown}, and there is only 'flash'"
                for _, shown in names for _ in range(2)]
        self.assertEqual(self.told("-v", then=ask), [
            "1 begins", *(f"1 {line}" for line in told), "1 ends: closed by a request"])
        self.assertEqual(self.told(then=ask), [])
        lines = self.told("-v", "--port", str(kit.free_port()), then=ask)
        for line, end in zip(lines[1:-1], told):
            self.assertRegex(line, r"^1 from 127\.0\.0\.1:\d+ asks for the export '")
            self.assertTrue(line.endswith(end), line)

    def test_a_reply_that_nobody_takes(self):
        """A client that is gone before its reply ends with `a write failed`."""
        def go_early(server):
            client = server.client()
            # In one send: the queue of a socket that isn't read doesn't always take a hundred.
            client.send(nbd.request(READ, 0, 35840) * 100)
            client.close()
        lines = self.told("-v", then=go_early)
        self.assertEqual(lines, ["1 begins", "1 ends: a write failed, or a sync before it"])

    def test_errors_are_told(self):
        """With -v each request that got an error is told, with its kind, place, length and
        error."""
        def ask(server):
            client = server.client()
            self.assertEqual(client.do(READ, 35840, 512), EINVAL)
            self.assertEqual(client.write(0, bytes(512)), OK)
            self.assertEqual(client.do(WRITE, 35840, 512, bytes(512)), ENOSPC)
            self.assertEqual(client.do(nbd.TRIM, 1, 512), EINVAL)
            self.assertEqual(client.do(nbd.WRITE_ZEROES, 512, 512, flags=4), EINVAL)
            self.assertEqual(client.do(nbd.FLUSH, 512, 0), EINVAL)
            client.disc()
        self.assertEqual(self.told("-v", then=ask), [
            "1 begins", "1: READ of 512 bytes at 35840: EINVAL",
            "1: WRITE of 512 bytes at 35840: ENOSPC", "1: TRIM of 512 bytes at 1: EINVAL",
            "1: WRITE_ZEROES of 512 bytes at 512: EINVAL", "1: FLUSH of 0 bytes at 512: EINVAL",
            "1 ends: closed by a request"])

    def test_the_first_request_that_is_too_long(self):
        """The first request of a connection that is too long is told without -v, with the option
        that would allow it."""
        def ask(server):
            client = server.client()
            for _ in range(2):
                self.assertEqual(client.do(READ, 0, 2 << 20), EINVAL)
            self.assertEqual(client.do(WRITE, 0, (1 << 20) + 512, bytes((1 << 20) + 512)), EINVAL)
            client.disc()
        self.assertEqual(self.told(then=ask), [
            "1: 2097152 bytes at once are refused, 1048576 are the most: "
            "serve with --max-request 2048"])

    def test_a_file_that_is_gone(self):
        """That the served file was removed or replaced is told once, where it is served to be
        changed; another name of it, or a new one, is no fault."""
        def replace():
            self.format("b.img")
            os.replace(self.path("b.img"), self.path("a.img"))

        def rename():
            os.rename(self.path("a.img"), self.path("b.img"))
        line = b"norbd: a.img was removed or replaced: what is written is lost when this server ends\n"
        for change, told in ((lambda: os.remove(self.path("a.img")), line), (replace, line),
                             (rename, b"")):
            if not os.path.exists(self.path("a.img")):
                self.format()
            if os.path.exists(self.path("a.img.log")):
                os.remove(self.path("a.img.log"))  # of the image that was removed
            server = self.serve("a.img", "--sync", "never")
            client = server.client()
            self.assertEqual(client.write(0, nbd.sector(0)), OK)
            change()
            for turn in range(3):
                time.sleep(1.2)
                self.assertEqual(client.write(0, nbd.sector(turn)), OK)
                if told and turn == 0:
                    self.assertEqual(server.process.stderr.readline(), told)
            self.assertEqual(server.kill().fault, "")

    def test_two_connections(self):
        """Connections are counted from 1, and each line names its own."""
        server = self.serve("a.img", "--conns", "2", "-v")
        one, two = server.client(), server.client()
        two.do(READ, 35840, 512)
        two.disc()
        one.disc()
        self.assertEqual(sorted(server.end().fault.splitlines()), [
            "norbd: connection 1 begins", "norbd: connection 1 ends: closed by a request",
            "norbd: connection 2 begins", "norbd: connection 2 ends: closed by a request",
            "norbd: connection 2: READ of 512 bytes at 35840: EINVAL"])

    def use_up(self, kib):
        """A server whose memory may grow by so much, its client, and, of WRITEs until one is
        answered with an error, that error and the number of the last one that isn't. None where
        the server ends."""
        server = self.serve("a.img", "--record", "-v", "--sync", "never")
        client = server.client()
        # what the C library has set aside counts for the second once it is written to
        for key, limit in (("VmSize", resource.RLIMIT_AS), ("VmData", resource.RLIMIT_DATA)):
            with open(f"/proc/{server.pid}/status", encoding="ascii") as file:
                now = [int(it.split()[1]) << 10 for it in file if it.startswith(key)][0]
            resource.prlimit(server.pid, limit, (now + (kib << 10), resource.RLIM_INFINITY))
        try:
            for turn in range(200):
                error = client.do(WRITE, 0, 32768, nbd.sector(turn) * 64)
                if error:
                    return server, client, error, turn - 1
        except nbd.Closed:
            self.assertEqual(server.end().fault.splitlines()[-1],
                             "norbd: image failed: a.img: a write failed")
            return None
        self.skipTest("this program's allocator can't be used up")

    def test_no_memory_for_a_row(self):
        """A command for whose row there is no memory is answered ENOMEM, told with -v, and has done
        nothing; the next ones are answered. A log that is full, as it is after every 8th of them,
        needs memory, too, and a server that has none for it ends: so it is tried where that is used
        up at others."""
        tried = 0
        for kib in (2048, 2112, 2176, 2240):
            used_up = self.use_up(kib)
            if not used_up:
                continue
            server, client, error, last = used_up
            self.assertEqual(error, ENOMEM)
            for limit in (resource.RLIMIT_AS, resource.RLIMIT_DATA):
                resource.prlimit(server.pid, limit, (resource.RLIM_INFINITY,) * 2)
            self.assertEqual(client.read(0, 64), nbd.sector(last) * 64)
            self.assertEqual(client.write(0, nbd.sector(1)), OK)
            self.assertIn("WRITE of 32768 bytes at 0: ENOMEM\n", server.kill().fault)
            tried += 1
        self.assertGreater(tried, 0)


class Refusals(kit.Case):
    def test_every_refusal(self):
        """Each command has its error and leaves the disk, at each limit, read-only or not."""
        end = 35840
        for words, told, most, read_only in (([], 65536, 1 << 20, False),
                                             (["--max-request", "64"], 65536, 65536, False),
                                             (["--max-request", "128"], 131072, 131072, False),
                                             (["--read-only"], 65536, 1 << 20, True)):
            self.norbd("format", "a.img", "--kib", "64", "--force") if os.path.exists(
                self.path("a.img")) else self.format()
            before = self.bytes_of("a.img")
            server = self.serve("a.img", *words)
            client = server.client()
            self.assertEqual(client.blocks, (512, 4096, told))
            changes = EPERM if read_only else None
            for kind, at, length, flags, error in (
                    (READ, 0, most + 512, 0, EINVAL), (READ, end, 512, 0, EINVAL),
                    (READ, 0, 100, 0, EINVAL), (READ, 0, 0, 0, EINVAL), (5, 0, 512, 0, EINVAL),
                    (WRITE, 0, most + 512, 0, changes or EINVAL),
                    (WRITE, end, 512, 0, changes or ENOSPC), (WRITE, 0, 512, 2, changes or EINVAL),
                    (WRITE, 0, 100, 0, changes or EINVAL), (WRITE, 3, 512, 0, changes or EINVAL),
                    (nbd.TRIM, end, 512, 0, changes or EINVAL),
                    (nbd.TRIM, 0, 0, 0, changes or EINVAL),
                    (nbd.TRIM, 0, 512, 2, changes or EINVAL),
                    (nbd.WRITE_ZEROES, end - 512, 1024, 0, changes or ENOSPC),
                    (nbd.WRITE_ZEROES, 0, 512, 16, changes or EINVAL),
                    (nbd.FLUSH, 512, 0, 0, EINVAL)):
                with self.subTest(words=words, kind=kind, at=at, length=length, flags=flags):
                    data = bytes(length) if kind == WRITE else b""
                    self.assertEqual(client.do(kind, at, length, data, flags), error)
            self.assertEqual(client.do(WRITE, 0, most, bytes(most)), changes or ENOSPC)
            self.assertEqual(client.read(0, 70), bytes(end))
            self.assertEqual(client.flush(), OK)
            self.assertEqual(self.bytes_of("a.img"), before)
            if read_only:
                for error in (client.write(0, bytes(512)), client.write(0, bytes(512), FUA),
                              client.trim(0), client.zero(0, 1, 3)):
                    self.assertEqual(error, EPERM)
                self.assertEqual(self.bytes_of("a.img"), before)
            server.kill()

    def test_longer_requests(self):
        """A READ and a WRITE are done that are longer than what clients are told, up to 1 MiB, and
        with --max-request up to that length; nothing longer is."""
        self.format("b.img", 2048)
        for words, most in (([], 1 << 20), (["--max-request", "512"], 1 << 19)):
            server = self.serve("b.img", "--sync", "never", *words)
            client, data = server.client(), kit.dice(f"{most}").getrandbits(8 * most).to_bytes(
                most, "big")
            self.assertEqual(client.do(WRITE, 1024, most, data), OK)
            self.assertEqual(client.do(READ, 1024, most), data)
            self.assertEqual(client.do(READ, 0, most + 512), EINVAL)
            self.assertEqual(client.do(WRITE, 0, most + 512, bytes(most + 512)), EINVAL)
            self.assertEqual(client.do(READ, 1024, most), data)
            server.kill()

    def test_endless_payloads(self):
        """The payload of a refused WRITE of 256 MiB is dropped, and takes no memory."""
        self.format()
        server = self.serve()
        client = server.client()
        memory = kit.status_of(server.pid, "VmRSS")
        client.send(nbd.request(WRITE, 0, 256 << 20))
        piece = (nbd.request(nbd.FLUSH) * 37450)[:1 << 20]
        for _ in range(256):
            client.send(piece)
        self.assertEqual(client.answer(), (EINVAL, 1, b""))
        self.assertEqual(client.write(0, b"\x11" * 512), OK)
        if not kit.keeps_what_it_freed(server.pid):
            self.assertLess(kit.status_of(server.pid, "VmRSS"), memory + (16 << 10))  # in KiB


if __name__ == "__main__":
    unittest.main()
