"""Ends by signals and by a file that fails, and the next start, by docs/SERVE.md."""
import os
import resource
import signal
import threading
import time
import unittest

import kit
import nbd
from nbd import OK


UNSETTLED = "norbd: the log beside a.img couldn't be written into it; the next start does that\n"


class Writer(threading.Thread):
    """Writes sectors of its own until the server is gone, and keeps what each may hold."""

    def __init__(self, client, sectors, chance):
        super().__init__(daemon=True)
        self.client, self.sectors, self.chance = client, sectors, chance
        self.may = {it: [bytes(512)] for it in sectors}   # what was acknowledged last
        self.begun, self.done, self.wrong = (), 0, []

    def run(self):
        turn = 0
        while True:
            turn += 1
            first = self.chance.choice(self.sectors)
            count = self.chance.choice([1, 1, 3, 8])
            some = [it for it in range(first, first + count) if it in self.may]
            data = [nbd.sector(it, turn * 8 + self.sectors[0] % 8) for it in some]
            zero = self.chance.random() < 0.15
            if zero:
                data = [bytes(512)] * len(some)
            self.begun = list(zip(some, data))
            try:
                error = (self.client.zero(first, len(some)) if zero
                         else self.client.write(first, b"".join(data)))
            except (nbd.Closed, OSError):
                return
            if error != OK:
                self.wrong.append(error)
            for number, held in self.begun:
                self.may[number] = [held]
            self.begun, self.done = (), self.done + 1


class Kills(kit.Case):
    def killed(self, kib, words, signals, rounds, pause):
        """Kills a server while three clients write, and looks at what the next start finds."""
        chance = kit.dice(f"kills {kib} {words}")
        self.format("a.img", kib)
        sectors = kit.SECTORS[kib]
        may, total = {it: [bytes(512)] for it in range(sectors)}, 0
        for _ in range(rounds):
            server = self.serve("a.img", *words)
            client = server.client()
            for first in range(0, sectors, 128):
                count = min(128, sectors - first)
                data = client.read(first, count)
                for at in range(count):
                    got = data[512 * at:512 * at + 512]
                    self.assertIn(got, may[first + at], f"sector {first + at}")
                    may[first + at] = [got]
            share = sectors // 3
            writers = [Writer(server.client(), list(range(share * it, share * (it + 1))),
                              kit.random.Random(chance.random())) for it in range(3)]
            for writer in writers:
                writer.may = {it: may[it] for it in writer.sectors}
                writer.start()
            time.sleep(pause * chance.random())
            server.kill(chance.choice(signals))
            for writer in writers:
                writer.join(kit.PATIENCE)
                self.assertEqual((writer.is_alive(), writer.wrong), (False, []))
                total += writer.done
                may.update(writer.may)
                for number, held in writer.begun:
                    may[number] = may[number] + [held]
        self.assertEqual(self.check()["verdict"], "clean")
        read = self.norbd("read", "a.img")
        for number in range(sectors):
            self.assertIn(read[512 * number:512 * number + 512], may[number])
        return total

    def test_kills(self):
        """After a kill at any moment each start finds every acknowledged write; of a command that
        wasn't acknowledged each sector is old or new."""
        signals = [signal.SIGKILL, signal.SIGTERM, signal.SIGINT, signal.SIGHUP]
        for words in (["--sync", "never"], ["--sync", "never", "--tidy", "eager"], []):
            self.assertGreater(self.killed(64, words, signals, 8, 0.5), 0)
            os.remove(self.path("a.img"))
        self.assertGreater(self.killed(128, ["--sync", "never", "--max-request", "1024"],
                                       [signal.SIGKILL], 5, 0.5), 0)

    def test_signals(self):
        """Each signal ends a server at once, with its own status, and lets the image go."""
        self.format()
        for number in (signal.SIGTERM, signal.SIGINT, signal.SIGHUP, signal.SIGKILL):
            server = self.serve()
            client = server.client()
            self.assertEqual(client.write(0, nbd.sector(number)), OK)
            began = time.monotonic()
            self.assertEqual(server.kill(number).status, -number)
            self.assertLess(time.monotonic() - began, 3)
            self.assertEqual(self.norbd("read", "a.img", "--sectors", "0:1"), nbd.sector(number))

    def test_it_is_in_the_files_before_the_reply(self):
        """What was acknowledged is in the image or in its log at once, for `never` too: a copy of both
        that is made then holds it."""
        self.format()
        server = self.serve("a.img", "--sync", "never")
        client, chance = server.client(), kit.dice("copies")
        for turn in range(120):
            number = chance.randrange(70)
            self.assertEqual(client.write(number, nbd.sector(number, turn)), OK)
            if turn % 6 == 0:
                size = self.log_size()
                self.put("b.img", self.bytes_of("a.img"))
                self.put("b.img.log", self.bytes_of("a.img.log"))
                if self.log_size("b.img") < size:
                    continue  # it was settled meanwhile, as on a machine that stood for a second
                self.assertEqual(self.norbd("read", "b.img", "--sectors", f"{number}:{number + 1}"),
                                 nbd.sector(number, turn))

    def test_a_file_that_can_not_grow(self):
        """A write of the file that fails ends the server at once: the command has no reply, idle
        clients and those that negotiate are closed, status 1; the same line serves again."""
        self.format()
        for record in ([], ["--record"]):
            server = self.serve("a.img", "--sync", "never", *record)
            idle, greeted, client = server.client(), server.connect(), server.client()
            greeted.receive(18)
            resource.prlimit(server.pid, resource.RLIMIT_FSIZE, (36_000, 36_000))
            # SIGXFSZ ends a program that doesn't ignore it: so its own, kill's status is looked at
            written = {}
            try:
                for number in range(70):
                    self.assertEqual(client.write(number, nbd.sector(number)), OK)
                    written[number] = nbd.sector(number)
                self.fail("no write failed")
            except nbd.Closed:
                pass
            self.assertTrue(idle.is_closed() and greeted.is_closed())
            done = server.end()
            self.assertIn(done.status, (1, -signal.SIGXFSZ))
            client = self.serve("a.img", "--conns", "1").client()
            for number, held in written.items():
                self.assertEqual(client.read(number), held)
            client.disc()
            self.assertTrue(kit.wait_for(lambda: self.run_norbd("check", "a.img").status == 0))
            self.norbd("format", "a.img", "--kib", "64", "--force")

    def test_a_full_disk(self):
        """The same where the file's write fails with an error: `image failed: a.img: a write
        failed`, status 1, and nobody is served any more."""
        for words in ([], ["--conns", "3"], ["--record"]):
            self.put("a.img", kit.formatted())
            server = self.serve("a.img", "--sync", "never", *words,
                                preexec_fn=lambda: signal.signal(signal.SIGXFSZ, signal.SIG_IGN))
            idle, client = server.client(), server.client()
            resource.prlimit(server.pid, resource.RLIMIT_FSIZE, (36_000, 36_000))
            with self.assertRaises(nbd.Closed):
                for number in range(70):
                    self.assertEqual(client.write(number, nbd.sector(number)), OK)
            self.assertTrue(idle.is_closed())
            done = server.end(10)
            self.assertEqual((done.status, done.text, done.fault),
                             (1, "", UNSETTLED + "norbd: image failed: a.img: a write failed\n"))
            with self.assertRaises(OSError):
                server.connect()
            self.assertEqual(self.norbd("read", "a.img", "--sectors", f"0:{number}"),
                             b"".join(nbd.sector(it) for it in range(number)))

    def failing(self, when, *words):
        """A server of a formatted image, each of whose threads fails at its when-th write of it."""
        self.put("a.img", kit.formatted())
        return self.serve("a.img", "--sync", "never", *words, under=kit.traced(
            "pwrite64", "-e", f"inject=pwrite64:error=ENOSPC:when={when}+"))

    def ends(self, server, may):
        """The server ends by itself with its fault, and sector 0 is one of these at the next
        start."""
        done = server.end(10)
        self.assertEqual(done.status, 1)
        self.assertIn(done.fault.removeprefix(UNSETTLED), ("norbd: image failed: a.img: a write failed\n",))
        self.assertIn(self.norbd("read", "a.img", "--sectors", "0:1"), may)

    @kit.needs("strace")
    def test_each_write_that_fails(self):
        """Whichever of the second to the fourth write of the log that two WRITEs of 9 sectors make fails, the server
        ends, and the first sector is old or new."""
        for when in range(2, 5):  # the first write of a thread is that of the log's head at a start, too
            server = self.failing(when)
            client, held = server.client(), [bytes(512)]
            with self.assertRaises(nbd.Closed):
                for turn in range(2):
                    held.append(nbd.sector(0, turn))
                    self.assertEqual(client.write(0, b"".join(nbd.sector(it, turn) for it in range(9))), OK)
                    held = held[-1:]
            self.assertEqual(len(held), 2, when)
            self.ends(server, held)

    @kit.needs("strace")
    def test_a_settling_that_fails(self):
        """Where a write of the keeper fails that settles the log, of the checkpoint or of the image, the server
        ends too, without another command, and an idle client is closed."""
        for when in (3, 4):
            server = self.failing(when)
            idle, client = server.client(), server.client()
            self.assertEqual(client.write(0, nbd.sector(0, when)), OK)
            self.assertTrue(idle.is_closed(20))
            self.ends(server, [nbd.sector(0, when)])


if __name__ == "__main__":
    unittest.main()
