"""The log beside an image, by docs/SERVE.md ("The log beside the image"): what both files hold after a kill, who looks through the
log and who writes it into the image, which logs are refused, and how many calls a command makes."""
import os
import resource
import shutil
import signal
import tempfile
import unittest

import kit
import nbd
from nbd import FUA, OK

CALLS = "pwrite64,pwritev,writev,write,fdatasync,fsync,ftruncate,sendmsg,sendto"
HEAD = b"NORBDLOG"
HEAD_LEN, RECORD_LEN, BLOCK_LEN = 16, 24, 4096
STEP_LEN = 0x100000  # by which the file of a log grows


def sum_of(data, start=(0, 0)):
    """The sum of SQLite's write-ahead log over words with the least significant byte first: its file format, 4.2."""
    one, two = start
    for at in range(0, len(data), 8):
        one = (one + int.from_bytes(data[at:at + 4], "little") + two) & 0xFFFFFFFF
        two = (two + int.from_bytes(data[at + 4:at + 8], "little") + one) & 0xFFFFFFFF
    return one, two


def words(*numbers):
    return b"".join(it.to_bytes(4, "little") for it in numbers)


def log_of(image, *records):
    """A log begun on an image, of records: a kind, two numbers and what follows them."""
    total = sum_of(image)
    log = HEAD + words(*total)
    for kind, first, count, body in records:
        front = words(kind, first, count, 0)
        total = sum_of(front + body, total)
        log += front + words(*total) + body
    return log


def write_of(first, data):
    return 0, first, len(data) // 512, data


def checkpoint_of(image, new):
    """The record of a checkpoint that makes an image these bytes."""
    body, count = words(*sum_of(new)), 0
    for number in range(len(image) // BLOCK_LEN):
        block = slice(BLOCK_LEN * number, BLOCK_LEN * number + BLOCK_LEN)
        if image[block] != new[block]:
            body, count = body + words(number, 0) + bytes(new[block]), count + 1
    return 2, 0, count, body


def with_sectors(*numbers):
    """The bytes of a chip of 64 KiB that holds some sectors."""
    image = kit.formatted()
    for at, number in enumerate(numbers):
        kit.set_slot(image, 4 + at // 7, at % 7, number, nbd.sector(number))
    return bytes(image)


class Logs(kit.Case):
    def sector(self, number, name="a.img"):
        return self.norbd("read", name, "--sectors", f"{number}:{number + 1}")

    def both(self):
        return self.bytes_of("a.img"), self.bytes_of("a.img.log")

    def killed(self, *numbers):
        """An image and a log, of a server that was killed once these sectors were written."""
        self.put("a.img", kit.formatted())
        server = self.serve()
        client = server.client()
        for number in numbers:
            self.assertEqual(client.write(number, nbd.sector(number)), OK)
        server.kill()
        return self.both()

    def test_a_kill_leaves_what_was_acknowledged_in_both_files(self):
        """The log has the format of the page: its head, and a record of each command that changed sectors. The next start writes
        it into the image, and each acknowledged sector is there."""
        image, log = self.killed(3, 60, 3)
        if len(log) > HEAD_LEN + 1024 and image == kit.formatted():  # it was killed within the second
            records = [write_of(it, nbd.sector(it)) for it in (3, 60, 3)]
            self.assertEqual(log.rstrip(b"\0"), log_of(kit.formatted(), *records).rstrip(b"\0"))
        server = self.serve()
        self.assertLessEqual(self.log_size(), HEAD_LEN)
        client = server.client()
        for number in range(70):
            self.assertEqual(client.read(number), nbd.sector(number) if number in (3, 60) else bytes(512))

    def test_zeroes_are_a_record_without_bytes(self):
        self.put("a.img", with_sectors(5, 6))
        self.put("a.img.log", log_of(with_sectors(5, 6), (1, 5, 1, b""), write_of(7, nbd.sector(7))))
        self.assertEqual(self.norbd("read", "a.img", "--sectors", "5:8"), bytes(512) + nbd.sector(6) + nbd.sector(7))

    def test_a_log_written_by_hand_is_taken_up(self):
        """By each command that writes the image: then the image has what the log had, and there is no log, or an empty one."""
        image = kit.formatted()
        log = log_of(image, write_of(9, nbd.sector(9)))
        for line in ("write a.img --sectors 0:1", "check a.img --mend"):
            self.put("a.img", image)
            self.put("a.img.log", log)
            self.norbd(*line.split(), data=b"\1" * 512)
            self.assertEqual(self.log_size(), 0)
            self.assertEqual(self.sector(9), nbd.sector(9), line)
        self.put("a.img", image)
        self.put("a.img.log", log)
        port = kit.free_port()
        process = self.start("chip", "a.img", "--port", str(port), "--conns", "1")
        process.stdout.readline()
        self.assertEqual(self.log_size(), 0)
        nbd.Client(("127.0.0.1", port)).close()
        self.assertEqual(self.end_of(process).status, 0)
        self.assertEqual(self.sector(9), nbd.sector(9))

    def test_who_looks_through_the_log(self):
        """`read`, `check`, `show`, `rescue` and `serve --read-only` see what the log has, and change neither file, also where they
        may not."""
        image = bytes(kit.formatted())
        log = log_of(image, write_of(9, nbd.sector(9)))
        self.put("a.img", image)
        self.put("a.img.log", log)
        for mode in (0o644, 0o444):
            for name in ("a.img", "a.img.log"):
                os.chmod(self.path(name), mode)
            self.assertEqual(self.sector(9), nbd.sector(9))
            self.assertEqual(self.norbd("rescue", "a.img")[512 * 9:512 * 10], nbd.sector(9))
            line = f"log: {len(log)} bytes, which the next start writes into the image\n"
            self.assertTrue(self.norbd("check", "a.img").decode().endswith(f"{line}clean 70 sectors\n"))
            self.assertIn(line, self.norbd("show", "a.img").decode())
            said = self.check()
            self.assertEqual((said["verdict"], said["log_bytes"], said["slots"]["live"]), ("clean", len(log), 1))
            server = self.serve("a.img", "--read-only", "--conns", "1")
            client = server.client()
            self.assertEqual(client.read(9), nbd.sector(9))
            client.disc()
            self.assertEqual(server.end().status, 0)
            self.assertEqual(self.both(), (image, log))

    def test_a_settled_image_has_no_log_to_tell(self):
        self.put("a.img", kit.formatted())
        self.assertEqual(self.check()["log_bytes"], 0)
        self.assertNotIn("log", self.norbd("check", "a.img").decode())
        self.assertNotIn("log", self.norbd("show", "a.img").decode())

    def test_the_image_alone_is_whole_a_second_after_the_last_write(self):
        """While the server goes on: a copy of the image without its log has it all."""
        self.put("a.img", kit.formatted())
        client = self.serve().client()
        for number in (1, 2, 1):
            self.assertEqual(client.write(number, nbd.sector(number)), OK)
        self.settled()
        self.put("b.img", self.bytes_of("a.img"))
        self.assertEqual(self.norbd("read", "b.img", "--sectors", "1:3"), nbd.sector(1) + nbd.sector(2))
        self.assertEqual(client.write(4, nbd.sector(4)), OK)
        self.assertGreater(self.log_size() + (self.bytes_of("a.img") != self.bytes_of("b.img")), HEAD_LEN)
        self.settled()
        self.put("b.img", self.bytes_of("a.img"))
        self.assertEqual(self.sector(4, "b.img"), nbd.sector(4))

    def test_a_log_at_its_limit_is_settled(self):
        """A log has at most four lengths of its image and the record and the checkpoint behind them."""
        self.put("a.img", kit.formatted())
        server = self.serve("a.img", "--sync", "never")
        client, most = server.client(), 0
        for turn in range(400):
            self.assertEqual(client.write(0, b"".join(nbd.sector(it, turn) for it in range(8))), OK)
            most = max(most, self.log_size())
        self.assertGreater(most, 65536)
        self.assertLess(most, 5 * 65536 + 8 * 4200)
        server.kill()
        self.assertEqual(self.norbd("read", "a.img", "--sectors", "0:8"), b"".join(nbd.sector(it, turn) for it in range(8)))

    def test_a_regular_end_leaves_no_log(self):
        self.put("a.img", kit.formatted())
        server = self.serve("a.img", "--conns", "1")
        client = server.client()
        self.assertEqual(client.write(4, nbd.sector(4)), OK)
        client.disc()
        done = server.end()
        self.assertEqual((done.status, done.fault), (0, ""))
        self.assertEqual(sorted(it for it in os.listdir(self.room) if it.endswith(".log")), [])
        self.assertEqual(self.sector(4), nbd.sector(4))

    def test_a_log_that_ends_at_any_byte(self):
        """Whatever beginning of the log is there, and whatever follows it, the whole records count and nothing else."""
        image = bytes(kit.formatted())
        log = log_of(image, write_of(9, nbd.sector(9)), (1, 9, 1, b""), write_of(10, nbd.sector(10)))
        ends = [HEAD_LEN + RECORD_LEN + 512, HEAD_LEN + 2 * RECORD_LEN + 512, len(log)]
        chance = kit.dice("ends")
        for end in sorted({0, 1, 8, 15, 16, 17, *ends, *(it - 1 for it in ends), *(chance.randrange(len(log)) for _ in range(9))}):
            for rest in (b"", b"\0" * 700, log[-300:]):
                self.put("a.img", image)
                if end > HEAD_LEN and rest:  # not by chance what was cut off
                    rest = bytes([(log + b"\0")[end] ^ 0xFF]) + rest
                self.put("a.img.log", log[:end] + (rest if end > HEAD_LEN else b""))
                count = sum(it <= end for it in ends)
                wanted = [bytes(1024), nbd.sector(9) + bytes(512), bytes(1024), bytes(512) + nbd.sector(10)][count]
                self.assertEqual(self.norbd("read", "a.img", "--sectors", "9:11"), wanted, end)
        self.put("a.img", image)
        self.put("a.img.log", log[:-1])
        client = self.serve().client()
        self.assertEqual(client.read(9, 2), bytes(1024))

    def test_a_checkpoint(self):
        """One that is whole is the image's, whatever a killed start wrote of it there; of one that isn't nothing counts."""
        old, new = bytes(kit.formatted()), with_sectors(8, 20)
        records = [write_of(8, nbd.sector(8)), write_of(20, nbd.sector(20))]
        whole = log_of(old, *records, checkpoint_of(old, new))
        half = bytearray(old)
        half[0x4000:0x4800] = new[0x4000:0x4800]
        for image in (old, bytes(half), new):
            for line in ("read", "serve"):
                self.put("a.img", image)
                self.put("a.img.log", whole)
                if line == "serve":
                    self.serve().kill()
                    self.assertEqual(self.bytes_of("a.img"), new)
                    self.assertLessEqual(self.log_size(), HEAD_LEN)
                self.assertEqual(self.sector(8) + self.sector(20), nbd.sector(8) + nbd.sector(20))
        for cut in (1, 24, 25, 24 + 4000):
            self.put("a.img", old)
            self.put("a.img.log", whole[:-cut])
            self.assertEqual(self.sector(20), nbd.sector(20), cut)

    def test_a_log_of_another_image(self):
        """It is refused by name, by every command, and neither file changes."""
        other = with_sectors(1)
        log = log_of(other, write_of(9, nbd.sector(9)))
        ends = log_of(other, checkpoint_of(other, with_sectors(1, 2)))
        for text in (log, ends):
            image = bytes(kit.formatted()) if text is log else bytes(kit.set_slot(
                image := kit.formatted(), 9, 0, 9, nbd.sector(3)) or image)
            self.put("a.img", image)
            self.put("a.img.log", text)
            for line in ("read a.img", "check a.img", "show a.img", "rescue a.img", "write a.img", "check a.img --mend",
                         "serve a.img --unix s", "serve a.img --unix s --read-only", "chip a.img --port 29871"):
                self.refused(f"image failed: a.img: {os.path.realpath(self.path('a.img.log'))} is another image's log: put that "
                             "image back, or remove the log", *line.split())
                self.assertEqual(self.both(), (image, text), line)
        self.put("a.img", other)
        self.put("a.img.log", log)
        self.assertEqual(self.sector(9), nbd.sector(9))

    def test_a_damaged_image_with_a_log(self):
        """Its sum isn't the log's any more, so that it is refused by name, by `rescue` and `check --mend` too; once the log is moved
        away, they do what they do of the image alone."""
        image = bytearray(with_sectors(1))
        log = log_of(bytes(image), write_of(9, nbd.sector(9)))
        image[0x4300 + 7 * 0x280] = 0x55
        self.put("a.img", image)
        self.put("a.img.log", log)
        for line in ("rescue a.img", "check a.img --mend", "read a.img"):
            self.refused(f"image failed: a.img: {os.path.realpath(self.path('a.img.log'))} is another image's log: put that image "
                         "back, or remove the log", *line.split())
            self.assertEqual(self.both(), (bytes(image), log), line)
        os.rename(self.path("a.img.log"), self.path("moved"))
        self.assertEqual(self.run_norbd("rescue", "a.img").out[512:1024], nbd.sector(1))

    def test_a_head_without_records_belongs_to_any_image(self):
        """So an image may be replaced whose server was stopped when all was settled. Nor is a start refused for a head that isn't
        all there: a beginning of one, zeros, or zeros in its place."""
        other = with_sectors(1)
        head = log_of(kit.formatted())
        for log in (head, head + bytes(5000), head[:3], head[:3] + bytes(5000), head[:15], bytes(7), bytes(16), bytes(STEP_LEN),
                    bytes(16) + b"\xa5" * 3000):
            self.put("a.img", other)
            self.put("a.img.log", log)
            self.assertEqual(self.check()["log_bytes"], 0)
            self.serve().kill()
            self.assertEqual(self.sector(1), nbd.sector(1))
        # but where other bytes follow the head of another image
        self.put("a.img", other)
        self.put("a.img.log", head + b"\xa5" * 3000)
        self.refused(f"image failed: a.img: {os.path.realpath(self.path('a.img.log'))} is another image's log: put that image back, "
                     "or remove the log", "serve", "a.img", "--unix", "s")

    @kit.needs("strace")
    def test_a_log_grows_by_steps(self):
        """Its file has zeros behind the records, so that a FLUSH mostly syncs no length. Where the file grew, it is synced with its
        length, changed, and synced again. It has its name only once all of it is on the medium."""
        self.put("a.img", kit.formatted(1024))
        self.put("a.img.log.norbd-new", b"left by a killed start")
        server = self.serve("a.img", under=kit.traced(f"{CALLS},rename,renameat,renameat2,utimensat", "-y"))
        self.assertEqual(os.path.getsize(self.path("a.img.log")), STEP_LEN)
        self.assertFalse(os.path.exists(self.path("a.img.log.norbd-new")))
        client, sizes = server.client(), []
        data = b"".join(nbd.sector(it) for it in range(128))
        for _ in range(20):
            self.assertEqual([client.write(0, data), client.flush()], [OK, OK])
            sizes.append(os.path.getsize(self.path("a.img.log")))
        server.kill()
        self.assertEqual(self.norbd("read", "a.img", "--sectors", "0:128"), data)
        calls = [(name, text) for name, text, _ in kit.calls_in(self.bytes_of("strace.log").decode())]
        named = [it for it, (name, _) in enumerate(calls) if name.startswith("rename")]
        self.assertEqual(calls[named[0] - 1][0], "fsync")
        begun = next(it for it, (name, text) in enumerate(calls) if name.startswith("send") and r"\x67\x44\x66\x98" in text)
        syncs = [name for name, _ in calls[begun:] if name in ("fsync", "fdatasync", "utimensat")]
        if not any(name == "pwrite64" and r'"\x00\x00' in text for name, text in calls[begun:] if text.endswith(", 16, 0")):
            self.assertEqual(len(set(sizes)), 2)  # and it wasn't settled meanwhile
            at = syncs.index("fsync")
            self.assertEqual(syncs[at:at + 3], ["fsync", "utimensat", "fsync"])
            self.assertEqual(set(syncs[:at] + syncs[at + 3:]), {"fdatasync"})
            self.assertEqual(len(syncs), 22)

    def test_a_file_system_in_memory(self):
        """On a tmpfs, whose syncs do nothing, a server works as elsewhere, and a kill loses nothing."""
        room = tempfile.mkdtemp(dir="/dev/shm")
        self.addCleanup(shutil.rmtree, room)
        image = os.path.join(room, "a.img")
        self.norbd("format", image, "--kib", "64")
        server = self.serve(image)
        client = server.client()
        self.assertEqual([client.write(5, nbd.sector(5)), client.flush(), client.write(6, nbd.sector(6))], [OK] * 3)
        server.kill()
        self.assertEqual(self.norbd("read", image, "--sectors", "5:7"), nbd.sector(5) + nbd.sector(6))
        self.serve(image).kill()
        self.assertEqual(self.norbd("read", image, "--sectors", "5:7"), nbd.sector(5) + nbd.sector(6))

    @kit.needs("strace")
    def test_a_file_system_without_syncs(self):
        """Where a sync is refused, as by some file systems in user space, a server that would sync isn't started, and says so; one
        with `--sync never` is."""
        self.put("a.img", kit.formatted())
        under = kit.traced("fsync,fdatasync", "-e", "inject=fsync,fdatasync:error=EINVAL")
        log = os.path.realpath(self.path("a.img.log"))
        done = self.run_norbd("serve", "a.img", "--unix", "s", under=under)
        self.assertEqual((done.status, done.fault), (1, f"norbd: image failed: a.img: {log}: invalid argument\n"))
        self.assertEqual(sorted(os.listdir(self.room)), ["a.img", "strace.log"])
        client = self.serve("a.img", "--sync", "never", under=under).client()
        self.assertEqual([client.write(5, nbd.sector(5)), client.flush(), len(client.read(5))], [OK, OK, 512])

    def test_a_file_that_is_no_log(self):
        """It is refused by name, and never changed; `format` leaves it too."""
        image = bytes(kit.formatted())
        for text in (b"some notes of mine\n", b"NORBDLOX" + bytes(100), b"\xFF" * 5000):
            self.put("a.img", image)
            self.put("a.img.log", text)
            for line in ("read a.img", "check a.img", "serve a.img --unix s", "write a.img"):
                self.refused(f"image failed: a.img: {os.path.realpath(self.path('a.img.log'))} is no log: move it away", *line.split())
            self.norbd("format", "a.img", "--kib", "64", "--force")
            self.assertEqual(self.both(), (image, text))
        os.remove(self.path("a.img.log"))
        os.mkdir(self.path("a.img.log"))
        self.refused(f"image failed: a.img: {os.path.realpath(self.path('a.img.log'))} is no log: move it away", "read", "a.img")

    def test_format_removes_the_log(self):
        self.killed(3)
        self.norbd("format", "a.img", "--kib", "64", "--force")
        self.assertFalse(os.path.exists(self.path("a.img.log")))
        self.assertEqual(self.sector(3), bytes(512))

    def test_a_folder_in_which_no_log_can_be_made(self):
        """`serve` says which file can't be made; `read` and `serve --read-only` need none."""
        os.mkdir(self.path("shut"))
        self.put("shut/a.img", kit.formatted())
        os.chmod(self.path("shut/a.img"), 0o666)
        os.chmod(self.path("shut"), 0o555)
        os.chmod(self.room, 0o755)
        how = {"preexec_fn": kit.as_nobody()}
        log = os.path.realpath(self.path("shut/a.img.log"))
        self.refused(f"image failed: shut/a.img: {log}: permission denied", "serve", "shut/a.img", "--port",
                     str(kit.free_port()), **how)
        self.assertEqual(self.norbd("read", "shut/a.img", "--sectors", "0:1", **how), bytes(512))
        os.chmod(self.path("shut"), 0o755)

    def test_a_link_to_an_image(self):
        """The log is beside the file that the link leads to."""
        os.mkdir(self.path("there"))
        self.put("there/b.img", kit.formatted())
        os.symlink("there/b.img", self.path("a.img"))
        server = self.serve()
        self.assertEqual(server.client().write(1, nbd.sector(1)), OK)
        server.kill()
        self.assertTrue(os.path.exists(self.path("there/b.img.log")))
        self.assertEqual(self.sector(1), nbd.sector(1))
        self.assertEqual(self.sector(1, "there/b.img"), nbd.sector(1))

    def test_an_end_at_which_the_log_can_not_be_settled(self):
        """It says so, and the next start does it."""
        self.put("a.img", kit.formatted())
        server = self.serve("a.img", "--conns", "1", preexec_fn=lambda: signal.signal(signal.SIGXFSZ, signal.SIG_IGN))
        client = server.client()
        self.assertEqual(client.write(4, nbd.sector(4)), OK)
        size = self.log_size()
        resource.prlimit(server.pid, resource.RLIMIT_FSIZE, (size, size))
        client.disc()
        done = server.end()
        self.assertIn("norbd: the log beside a.img couldn't be written into it; the next start does that\n", done.fault)
        self.assertEqual(self.sector(4), nbd.sector(4))

    @kit.needs("strace")
    def test_the_calls_of_a_command(self):
        """A WRITE of 64 KiB over written sectors makes at most two calls of write, and no sync; one with FUA syncs the log alone."""
        self.put("a.img", kit.formatted(1024))
        server = self.serve("a.img", under=kit.traced(CALLS))
        client = server.client()
        data = b"".join(nbd.sector(it) for it in range(128))
        for flags in (0, 0, FUA):
            self.assertEqual(client.write(0, data, flags), OK)
        server.kill()
        calls = kit.calls_in(self.bytes_of("strace.log").decode())
        replies = [at for at, (name, text, _) in enumerate(calls)
                   if name.startswith("send") and r"\x67\x44\x66\x98" in text]
        between = [name for name, _, _ in calls[replies[0] + 1:replies[1]]]
        self.assertLessEqual(sum("write" in it for it in between), 2)
        self.assertEqual([it for it in between if "sync" in it], [])
        forced = [name for name, _, _ in calls[replies[1] + 1:replies[2]]]
        self.assertEqual([it for it in forced if "sync" in it], ["fdatasync"])


if __name__ == "__main__":
    unittest.main()
