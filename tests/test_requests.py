"""Requests and replies, by docs/NBD.md and proto.md, over `norbd plain`."""
import os
import subprocess
import unittest

import kit
from nbd import EINVAL, ENOSPC, OK, READ, WRITE, DISC, FLUSH, TRIM, WRITE_ZEROES, request, reply

END = int("FFFFFFFFFFFFFE00", 16)  # where the last sector of all offsets would begin
BEHIND = request(FLUSH, cookie=12)  # what comes behind a close
ROWS = [  # what a disk of so many sectors is asked, and what it has to answer
    ("nothing", 1, b"", b""),
    ("the bytes of the page's example", 70,
     bytes.fromhex("25609513 0000 0000 0102030405060708 0000000000008A00 00000200"),
     bytes.fromhex("67446698 00000000 0102030405060708") + bytes(512)),
    ("READ past the end, FLUSH, DISC, and a FLUSH that isn't answered", 1,
     request(READ, 512, 512, cookie=2) + request(FLUSH, cookie=3) + request(DISC, cookie=4)
     + BEHIND, reply(EINVAL, 2) + reply(OK, 3)),
    ("WRITE past the end, and READ there", 70,
     request(WRITE, 35840, 512, b"\x11" * 512, cookie=6) + request(READ, 35840, 512, cookie=7),
     reply(ENOSPC, 6) + reply(EINVAL, 7)),
    ("WRITE of 66,048 bytes, which begin as a FLUSH does, and then a FLUSH", 70,
     request(WRITE, 0, 66048, request(FLUSH, cookie=9) + b"\x11" * 66020, cookie=8)
     + request(FLUSH, cookie=10), reply(EINVAL, 8) + reply(OK, 10)),
    ("READ whose end is past 2^64", 70, request(READ, END, 1024, cookie=11), reply(EINVAL, 11)),
    ("a wrong magic, and a FLUSH that isn't answered", 70,
     bytes(28) + BEHIND, b""),
    ("WRITE of the first sector, and READ of the first two", 70,
     request(WRITE, 0, 512, b"\x11" * 512, cookie=13) + request(READ, 0, 1024, cookie=14),
     reply(OK, 13) + reply(OK, 14, b"\x11" * 512 + bytes(512))),
]
CHECKS = [  # the checks of docs/NBD.md in their order: each request breaks this one and later ones
    ("DISC closes whatever its flags, offset and length are", DISC, 3, 5, 0xFFFF, None),
    ("an unknown command", 5, 1, 1, 0xFFFF, EINVAL), ("another", 0xFFFF, 0, 0, 0, EINVAL),
    ("a flag of a READ", READ, 0, 512, 2, EINVAL), ("a flag of a TRIM", TRIM, 0, 512, 2, EINVAL),
    ("a flag of WRITE_ZEROES", WRITE_ZEROES, 0, 512, 4, EINVAL),
    ("a flag of a FLUSH", FLUSH, 0, 0, 2, EINVAL),
    ("a FLUSH with an offset", FLUSH, 512, 0, 0, EINVAL),
    ("a FLUSH with a length", FLUSH, 0, 512, 0, EINVAL),
    ("a READ of nothing", READ, 0, 0, 0, EINVAL), ("a TRIM of nothing", TRIM, 0, 0, 0, EINVAL),
    ("half a sector", READ, 0, 256, 0, EINVAL), ("from its middle", READ, 256, 512, 0, EINVAL),
    ("WRITE_ZEROES of 100 bytes past the end", WRITE_ZEROES, 1 << 40, 100, 0, EINVAL),
    ("a READ that is too long", READ, 1 << 40, 66048, 0, EINVAL),
    ("a READ past the end", READ, 35840, 512, 0, EINVAL),
    ("a TRIM past the end", TRIM, 35328, 1024, 0, EINVAL),
    ("WRITE_ZEROES past the end", WRITE_ZEROES, 35328, 1024, 0, ENOSPC),
    ("WRITE_ZEROES past 2^64", WRITE_ZEROES, END, 1024, 0, ENOSPC),
    ("FUA of a READ", READ, 0, 512, 1, OK), ("FUA of a FLUSH", FLUSH, 0, 0, 1, OK),
    ("FUA of a TRIM", TRIM, 0, 512, 1, OK),
    ("FUA and NO_HOLE of WRITE_ZEROES", WRITE_ZEROES, 0, 512, 3, OK),
    ("a TRIM as long as the disk", TRIM, 0, 35840, 0, OK),
    ("a READ as long as can be, past the end", READ, 0, 65536, 0, EINVAL),
]


class Requests(kit.Case):
    def plain(self, sectors, data, *words, **how):
        return self.norbd("plain", "--sectors", str(sectors), *words, data=data, **how)

    def test_rows(self):
        """Each list of requests is answered by exactly its replies, with and without a record."""
        for name, sectors, asked, answered in ROWS:
            for words in ([], ["--no-record"]):
                with self.subTest(name, words=words):
                    self.assertEqual(self.plain(sectors, asked, *words), answered)

    def test_pieces(self):
        """How requests are cut into pieces makes no difference: all cut in two, some in bytes. A
        piece behind a close may find that the program has ended."""
        chance = kit.dice("pieces")
        for name, sectors, asked, answered in ROWS[1:]:
            closes = len(asked) - len(BEHIND) if asked.endswith(BEHIND) else None
            cuts = {1, 3, 4, 16, 27, 28, 29, 539, 540, 541}
            cuts |= {chance.randrange(600) for _ in range(8)}
            ways = [[asked[:cut], asked[cut:]] for cut in sorted(cuts)]
            if len(asked) < 2000:
                ways.append([asked[at:at + 1] for at in range(len(asked))])
            for way in ways:
                # a piece is at most as long as what the program reads at once
                way = [piece[at:at + 4096] for piece in way for at in range(0, len(piece), 4096)]
                with self.subTest(name, first=len(way[0])):
                    self.assertEqual(self.in_pieces(
                        way, "plain", "--sectors", str(sectors), closes=closes), answered)

    def test_checks(self):
        """Each check of a request comes in its place, and has its error."""
        for name, kind, offset, length, flags, error in CHECKS:
            asked = request(kind, offset, length, flags=flags, cookie=7) + request(FLUSH, cookie=8)
            wanted = b"" if error is None else reply(
                error, 7, bytes(length) if kind == READ and error == OK else b"") + reply(OK, 8)
            with self.subTest(name):
                self.assertEqual(self.plain(70, asked), wanted)

    def test_refused_payloads(self):
        """The payload of each refused WRITE is read and dropped before its reply."""
        payload = request(FLUSH, cookie=99) * 20
        for name, offset, length, flags, error in [
                ("a flag", 0, 512, 2, EINVAL), ("no sector's length", 0, 100, 0, EINVAL),
                ("no sector's place", 100, 512, 0, EINVAL), ("of nothing", 0, 0, 0, EINVAL),
                ("past the end", 35840, 512, 0, ENOSPC), ("past 2^64", END, 512, 0, ENOSPC),
                ("too long", 0, 65536 + 512, 0, EINVAL), ("endless", 0, 1 << 26, 0, EINVAL)]:
            data = (payload * (length // len(payload) + 1))[:length]
            asked = request(WRITE, offset, length, data, flags, 7) + request(FLUSH, cookie=8)
            with self.subTest(name):
                self.assertEqual(self.plain(70, asked), reply(error, 7) + reply(OK, 8))

    def test_cut_off(self):
        """A request that the end of the input cuts off is neither done nor answered."""
        write = request(WRITE, 0, 512, b"\x11" * 512)
        for cut in (1, 27, 28, 539):
            with self.subTest(cut=cut):
                self.assertEqual(self.plain(70, request(FLUSH, cookie=5) + write[:cut]),
                                 reply(OK, 5))

    def test_thousands(self):
        """5,000 requests are answered in their order, on disks of 1 and of 65,536 sectors."""
        asked = b"".join(request(FLUSH, cookie=it) for it in range(5000))
        answered = b"".join(reply(OK, it) for it in range(5000))
        for sectors, words in ((1, []), (1, ["--no-record"]), (65536, [])):
            self.assertEqual(self.plain(sectors, asked, *words), answered)

    def test_sizes(self):
        """A disk has exactly as many sectors as the line says, from 1 to 65,536."""
        chance = kit.dice("sizes of plain")
        for sectors in [1, 2, 3, 127, 128, 129, 65535, 65536] + [
                chance.randrange(1, 1 << chance.randrange(1, 17)) for _ in range(25)]:
            last = 512 * sectors - 512
            asked = request(READ, last, 512) + request(READ, last + 512, 512, cookie=2)
            words = ["--no-record"] if 4096 < sectors < 65536 else []
            with self.subTest(sectors=sectors):
                self.assertEqual(self.plain(sectors, asked, *words),
                                 reply(OK, 1, bytes(512)) + reply(EINVAL, 2))

    def test_a_disk(self):
        """A disk holds what was written, by a plain array, after random requests."""
        chance = kit.dice("plain")
        held, asked, answered = bytearray(512 * 300), b"", b""
        for cookie in range(400):
            count = chance.randrange(1, 129)
            at, length = 512 * chance.randrange(300 - count + 1), 512 * count
            kind = chance.choice([READ, WRITE, TRIM, WRITE_ZEROES])
            data = chance.randbytes(length) if hasattr(chance, "randbytes") else os.urandom(length)
            asked += request(kind, at, length, data if kind == WRITE else b"", cookie=cookie)
            answered += reply(OK, cookie, bytes(held[at:at + length]) if kind == READ else b"")
            if kind == WRITE:
                held[at:at + length] = data
            elif kind != READ:
                held[at:at + length] = bytes(length)
        asked += b"".join(request(READ, 65536 * it, 65536) for it in range(2))
        answered += b"".join(
            reply(OK, 1, bytes(held[65536 * it:65536 * it + 65536])) for it in range(2))
        self.assertEqual(self.plain(300, asked), answered)

    def test_an_interactive_client(self):
        """Each reply comes before the next request is sent."""
        process = self.start("plain", "--sectors", "70", stdin=subprocess.PIPE)
        for cookie in range(20):
            process.stdin.write(request(WRITE, 512 * cookie, 512, bytes([cookie]) * 512,
                                        cookie=cookie))
            process.stdin.flush()
            self.assertEqual(process.stdout.read(16), reply(OK, cookie))
        self.assertEqual(self.end_of(process).status, 0)

    def test_an_output_that_fails(self):
        """Where the output takes so many bytes, exactly these are written, and status 1 follows."""
        asked = request(READ, 0, 512) + request(FLUSH, cookie=2)
        answered = reply(OK, 1, bytes(512)) + reply(OK, 2)
        for room in (0, 1, 15, 16, 100, 527, 528, 543, 544):
            with self.subTest(room=room), open(self.path("out"), "wb") as out:
                done = self.run_norbd("plain", "--sectors", "70", data=asked, stdout=out,
                                      preexec_fn=kit.limit_files(room))
                full = room < 544
                self.assertEqual((done.status, done.fault),
                                 (1, "norbd: output failed: file too large\n") if full
                                 else (0, ""))
                self.assertEqual(self.bytes_of("out"), answered[:room])
        with open("/dev/full", "wb") as out:
            done = self.run_norbd("plain", "--sectors", "70", data=asked, stdout=out)
            self.assertEqual((done.status, done.fault),
                             (1, "norbd: output failed: no space left on device\n"))

    def test_an_input_that_fails(self):
        """Where a read fails, what came before it is answered, and status 1 follows."""
        for asked, answered in ((b"", b""), (request(READ, 0, 512), reply(OK, 1, bytes(512)))):
            self.input_fails(asked, answered, "plain", "--sectors", "70")


if __name__ == "__main__":
    unittest.main()
