"""Syncs of the image and of the log beside it, by strace: which replies wait for one, in which order the two files are written and
synced, by docs/SERVE.md ("The log beside the image"); and what a loss of the host's power, of which any unsynced page of 4 KiB may
be old, leaves of both."""
import os
import re
import unittest

import kit
import nbd
from nbd import FUA, OK

CALLS = "pwrite64,fdatasync,fsync,sendmsg,sendto,write,writev"
LONG = ("-y", "-s", "100000")  # descriptors with their paths, and all bytes
PIECE = 4096


def plain(text):
    return bytes.fromhex(text.replace("\\x", ""))


class Trace:
    """The writes, syncs and cuts of the image and of its log, and the replies, in a log of strace, in their order. A cut puts
    zeros in place of the log's head."""

    def __init__(self, log):
        self.events = []
        for name, text, result in kit.calls_in(log):
            path = re.match(r"\d+<((?:\\x[0-9a-f]{2})*)>", text)
            path = plain(path.group(1)).decode() if path else ""
            file = "log" if path.endswith(".img.log") else "image" if path.endswith(".img") else None
            data = re.search(r'"((?:\\x[0-9a-f]{2})*)"', text)
            data = plain(data.group(1)) if data else b""
            if file and name in ("fdatasync", "fsync"):
                self.events.append(("sync", file, result))
            elif file and name == "pwrite64":
                count, at = (int(it) for it in re.findall(r"(\d+)", text[text.rindex('"'):])[-2:])
                assert len(data) == count, text[-40:]
                wipes = file == "log" and at == 0 and data == bytes(16)
                self.events.append(("cut", file, 0) if wipes else ("write", file, at, data))
            elif data[:4] == b"\x67\x44\x66\x98":
                self.events.append(("reply", int.from_bytes(data[8:16], "big")))

    def syncs(self, file=None):
        return sum(it[0] == "sync" and it[1] == (file or it[1]) for it in self.events)

    def before(self, cookie):
        """What comes before the reply with this cookie and after the one before it."""
        at = self.events.index(("reply", cookie))
        first = max((it for it in range(at) if self.events[it][0] == "reply"), default=-1)
        return self.events[first + 1:at]

    def waits_of(self, cookie):
        """Whether a sync of the log came after its last write and before the reply with this cookie."""
        at = self.events.index(("reply", cookie))
        log = [it[0] for it in self.events[:at] if it[1] == "log"]
        return bool(log) and log[-1] == "sync"


def broken_rules(trace):
    """The rules of docs/SERVE.md that a trace of writes and syncs breaks."""
    unsynced, broken = {"log": False, "image": False}, []
    cut = begun = False
    for event in trace.events:
        if event[0] == "sync":
            unsynced[event[1]] = False
            cut, begun = cut and event[1] != "log", begun and event[1] != "log"
        elif event[0] == "write":
            if event[1] == "image" and unsynced["log"]:
                broken.append("the log is synced before the image is written")
            if event[1] == "log" and cut:
                broken.append("a log that was emptied is synced before it is written")
            if event[1] == "log" and begun:
                broken.append("a log's head is synced before a record follows it")
            begun = begun or event[1:3] == ("log", 0)
            unsynced[event[1]] = True
        elif event[0] == "cut":
            if unsynced["image"]:
                broken.append("the image is synced before its log is emptied")
            cut = unsynced["log"] = True
    return broken


class Medium:
    """What the host's disk has of a file: its pages and its length as they were at the last sync, and since."""

    def __init__(self, data):
        self.pages = {at: [bytes(data[at:at + PIECE]).ljust(PIECE, b"\0")] for at in range(0, len(data), PIECE)}
        self.lengths = [len(data)]

    def write(self, at, data):
        for start in range(at - at % PIECE, at + len(data), PIECE):
            versions = self.pages.setdefault(start, [bytes(PIECE)])
            page = bytearray(versions[-1])
            first, last = max(at, start), min(at + len(data), start + PIECE)
            page[first - start:last - start] = data[first - at:last - at]
            versions.append(bytes(page))
        self.lengths.append(max(self.lengths[-1], at + len(data)))

    def sync(self):
        self.pages, self.lengths = {at: versions[-1:] for at, versions in self.pages.items()}, self.lengths[-1:]

    def left(self, chance):
        """What a loss leaves: of each page one of its versions, and one of the lengths."""
        way = chance.choice(["any", "any", "old", "newest", "mostly newest"])

        def one(versions):
            if way == "old":
                return versions[0]
            if way == "newest" or way == "mostly newest" and chance.random() < 0.9:
                return versions[-1]
            return chance.choice(versions)
        data = bytearray(max([at + PIECE for at in self.pages], default=0))
        for at, versions in self.pages.items():
            data[at:at + PIECE] = one(versions)
        length = one(self.lengths)
        return bytes(data[:length].ljust(length, b"\0"))


@kit.needs("strace")
class Syncs(kit.Case):
    def traced(self, *words, image="a.img", more=(), **how):
        return self.serve(image, *words, under=kit.traced(CALLS, *LONG, *more), **how)

    def trace(self):
        return Trace(self.bytes_of("strace.log").decode())

    def test_which_replies_wait(self):
        """With `flush` the replies to FLUSH and to commands with FUA wait for a sync of the log, with `always` those to each change
        too, and with `never` there is no sync of either file at all."""
        for sync, waiting in (("flush", {2, 3, 7, 9}), (None, {2, 3, 7, 9}), ("always", {1, 2, 3, 5, 6, 7, 8, 9}), ("never", set())):
            self.put("a.img", kit.formatted())
            server = self.traced(*(["--sync", sync] if sync else []), "--conns", "1")
            client = server.client()
            asked = [client.write(1, b"\1" * 512), client.flush(), client.write(2, b"\2" * 512, FUA), len(client.read(1)) - 512,
                     client.write(3, b"\3" * 512), client.trim(1), client.zero(2, 1, FUA), client.zero(4), client.flush()]
            self.assertEqual(asked, [OK] * 9)
            client.disc()
            self.assertEqual(server.end().status, 0)
            trace = self.trace()
            self.assertLessEqual(waiting, {it for it in (1, 2, 3, 5, 6, 7, 8, 9) if trace.waits_of(it)}, sync)
            if sync == "never":
                self.assertEqual(trace.syncs(), 0)
            elif not any(it[0] == "cut" for it in trace.events[trace.events.index(("reply", 1)):]):  # nothing was settled meanwhile
                for cookie in {5, 6, 8} - waiting:
                    self.assertEqual([it for it in trace.before(cookie) if it[0] == "sync"], [], sync)

    def work(self, client, chance, turns, note=None):
        """Random commands; `note` hears of each when it is answered."""
        for turn in range(turns):
            first = chance.choice([0, 1, 2, chance.randrange(70)])
            count = min(chance.choice([1, 1, 2, 5, 40]), 70 - first)
            kind = chance.choice(["write"] * 6 + ["trim", "zero", "flush"])
            data = b"".join(nbd.sector(it, turn + 1) for it in range(first, first + count))
            flags = FUA if chance.random() < 0.1 else 0
            if kind == "write":
                error = client.write(first, data, flags)
            elif kind == "flush":
                error = client.flush()
            else:
                error, data = getattr(client, kind)(first, count, flags), bytes(512 * count)
            self.assertEqual(error, OK)
            if note:
                note(client.cookie, kind, first, data, flags)

    def test_the_order_of_the_two_files(self):
        """The log is synced before the image is written, the image before the log is emptied, and that before it is written again."""
        self.put("a.img", kit.formatted())
        server = self.traced()
        client = server.client()
        self.work(client, kit.dice("order"), 120)
        for turn in range(30):  # more than four lengths of the image, after which the log is settled
            self.assertEqual(client.write(turn, nbd.sector(turn) * 40), OK)
        server.kill()
        trace = self.trace()
        self.assertGreater(sum(it[:2] == ("write", "image") for it in trace.events), 10)
        self.assertEqual(broken_rules(trace), [])
        # the checker sees each sync of a settling that is left out
        events, seen = trace.events, 0
        for at, event in enumerate(events):
            first = max((it for it in range(at) if events[it][:2] == ("write", "image")), default=None)
            if event[:2] == ("cut", "log") and first is not None:
                syncs = [it for it in range(first, at) if events[it][:2] == ("sync", "image")]
                trace.events = [it for number, it in enumerate(events) if number not in syncs]
                seen += bool(broken_rules(trace))
        self.assertGreater(seen, 0)

    def test_a_loss_of_the_hosts_power(self):
        """At any moment, each page of 4 KiB of both files may be as it was at any time since their last sync, and each length: then
        each sector is as it was flushed or written since, and with `always` nothing acknowledged is gone."""
        for sync, losses in (("flush", 50), ("always", 25)):
            chance = kit.dice(f"host {sync}")
            self.put("a.img", kit.formatted())
            server = self.traced("--sync", sync, "--tidy", chance.choice(["lazy", "eager"]))
            asked = {}
            self.work(server.client(), chance, 130, lambda cookie, *what: asked.update({cookie: what}))
            server.kill()
            events = self.trace().events
            for _ in range(losses):
                self.lose(events[:chance.randrange(1, len(events))], asked, sync, chance)

    def lose(self, events, asked, sync, chance):
        """The host loses its power after these events."""
        media = {"image": Medium(kit.formatted()), "log": Medium(b"")}
        may = {it: [bytes(512)] for it in range(70)}
        last = 0
        for event in events:
            if event[0] == "sync":
                media[event[1]].sync()
            elif event[0] == "write":
                media[event[1]].write(event[2], event[3])
            elif event[0] == "cut":
                media[event[1]].write(0, bytes(16))
            elif event[1] in asked:
                last = event[1]
                kind, first, data, flags = asked[last]
                count = len(data) // 512 if kind != "flush" else 0
                for number in range(count):
                    may[first + number].append(data[512 * number:512 * number + 512])
                if kind == "flush" or sync == "always" or flags:
                    for held in may.values():
                        del held[:-1]
        if last + 1 in asked:  # the command that was cut
            kind, first, data, _ = asked[last + 1]
            for number in range(len(data) // 512 if kind != "flush" else 0):
                may[first + number].append(data[512 * number:512 * number + 512])
        self.put("lost.img", media["image"].left(chance))
        self.put("lost.img.log", media["log"].left(chance))
        done = self.run_norbd("check", "lost.img")
        self.assertEqual(done.status, 0, done.text + done.fault)
        read = self.norbd("read", "lost.img")
        for number, held in may.items():
            self.assertIn(read[512 * number:512 * number + 512], held, number)

    def test_syncs_that_fail(self):
        """A sync that fails ends the server: the reply that waits for it isn't sent, all connections are closed, and the fault is
        told with status 1. (Each thread fails at its sixth sync: the start makes fewer.)"""
        for asks in ("flush", "fua"):
            for conns in ([], ["--conns", "3"]):
                self.put("a.img", kit.formatted())
                server = self.traced(*conns, more=("-e", "inject=fdatasync:error=EIO:when=6+"))
                idle, client = server.client(), server.client()

                def ask(number):
                    if asks == "flush":
                        self.assertEqual(client.write(number, b"\1" * 512), OK)
                        self.assertEqual(client.flush(), OK)
                    else:
                        self.assertEqual(client.write(number, b"\2" * 512, FUA), OK)
                for number in range(5):
                    ask(number)
                with self.assertRaises(nbd.Closed):
                    ask(5)
                self.assertTrue(idle.is_closed())
                done = server.end(10)
                self.assertEqual((done.status, done.text), (1, ""))
                self.assertIn("norbd: image failed: a.img: a sync failed\n", done.fault)

    def test_the_last_sync(self):
        """A server of so many connections syncs once at its end, with a fault where that fails."""
        for when in range(1, 9):
            self.put("a.img", kit.formatted())
            process = self.start("serve", "a.img", "--unix", "s", "--conns", "1", under=kit.traced(
                CALLS, *LONG, "-e", f"inject=fdatasync:error=EIO:when={when}+"))
            if process.stdout.readline():
                break  # the start makes one sync less
            self.assertEqual(self.end_of(process).status, 1)
        with nbd.Client(self.path("s")) as client:
            client.go()
            self.assertEqual(client.read(1), bytes(512))
            client.disc()
        done = self.end_of(process)
        self.assertEqual(done.status, 1)
        self.assertTrue(done.fault.endswith("norbd: image failed: a.img: a sync failed\n"), done.fault)

    def test_new_images_are_synced_before_they_have_the_name(self):
        """`format`, `write` and `check --mend` sync the new file before it gets the image's name,
        and keep the old one where that fails."""
        dirty = kit.formatted()
        dirty[0x4300] = 0x55
        for line, image in (("format a.img --kib 64 --force", kit.formatted()),
                            ("write a.img", kit.formatted()), ("check a.img --mend", dirty)):
            self.put("a.img", image)
            under = kit.traced("fsync,fdatasync,rename,renameat,renameat2,write,pwrite64,writev")
            self.norbd(*line.split(), data=b"\1" * 35840, under=under)
            names = [name for name, text, _ in kit.calls_in(self.bytes_of("strace.log").decode())
                     if not (name.startswith("write") and text.startswith("1,"))]
            renamed = [it for it, name in enumerate(names) if name.startswith("rename")]
            self.assertTrue(renamed, line)
            before = names[:renamed[0]]
            self.assertIn(before[-1], ("fsync", "fdatasync"), line)
            self.assertTrue({"write", "pwrite64", "writev"} & set(before), line)
            for call in ("fsync,fdatasync", "rename,renameat,renameat2"):
                self.put("a.img", image)
                done = self.run_norbd(*line.split(), data=b"\1" * 35840, under=kit.traced(
                    "fsync,fdatasync,rename,renameat,renameat2", "-e", f"inject={call}:error=EIO"))
                self.assertEqual(done.status, 1)
                self.assertTrue(done.fault.startswith("norbd: image failed: a.img: "), done.fault)
                self.assertEqual(self.bytes_of("a.img"), image)
                self.assertEqual(sorted(os.listdir(self.room)), ["a.img", "strace.log"])

    def test_chip_syncs_after_each_client(self):
        """`chip` syncs its file after each client, and ends where that fails."""
        self.format()
        for inject, wanted in ((), (0, "")), (("-e", "inject=fdatasync:error=EIO"), (
                1, "norbd: image failed: a.img: a sync failed\n")):
            port = kit.free_port()
            process = self.start("chip", "a.img", "--port", str(port), "--conns", "2",
                                 under=kit.traced(CALLS, *LONG, *inject))
            process.stdout.readline()
            with nbd.Client(("127.0.0.1", port)) as client:
                client.send(b"\x10")
                self.assertEqual(client.receive(2), b"\x15\x06")
            if not inject:
                self.assertTrue(kit.wait_for(lambda: self.trace().syncs("image") == 1))
                nbd.Client(("127.0.0.1", port)).close()
            done = self.end_of(process)
            self.assertEqual((done.status, done.fault), wanted)
            self.assertEqual(self.trace().syncs("image"), 1 if inject else 2)


if __name__ == "__main__":
    unittest.main()
