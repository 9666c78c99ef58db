"""TRIM and WRITE_ZEROES, by docs/NBD.md and docs/DISK.md."""
import os
import unittest

import kit
import nbd
from nbd import FUA, NO_HOLE, OK, TRIM, WRITE_ZEROES


class Zeroes(kit.Case):
    def test_what_reads_afterwards(self):
        """What was trimmed or zeroed reads as zeros, on every connection and at the next start, and
        nothing else changes."""
        for kind, flags in ((TRIM, 0), (TRIM, FUA), (WRITE_ZEROES, 0), (WRITE_ZEROES, FUA),
                            (WRITE_ZEROES, NO_HOLE), (WRITE_ZEROES, NO_HOLE | FUA)):
            self.norbd("format", "a.img", "--kib", "64", "--force")
            server = self.serve()
            client, other = server.client(), server.client()
            held = bytearray(b"".join(nbd.sector(it) for it in range(70)))
            self.assertEqual(client.write(0, bytes(held)), OK)
            for first, count in ((3, 1), (10, 7), (69, 1), (10, 7), (30, 20)):
                self.assertEqual(client.do(kind, 512 * first, 512 * count, flags=flags), OK)
                held[512 * first:512 * (first + count)] = bytes(512 * count)
                self.assertEqual(other.read(0, 70), held)
            server.kill()
            self.assertEqual(self.norbd("read", "a.img"), held)
            server = self.serve()
            client = server.client()
            self.assertEqual(client.do(kind, 0, 35840, flags=flags), OK)
            self.assertEqual(client.read(0, 70), bytes(35840))
            server.kill()

    def test_they_take_no_slot(self):
        """A sector that was zeroed has no slot: of a disk of zeros all slots are free or dead, and
        of one that was never written nothing of the file changes."""
        self.format()
        server = self.serve("a.img", "--sync", "never")
        client = server.client()
        for kind in (TRIM, WRITE_ZEROES):
            self.assertEqual(client.do(kind, 0, 35840), OK)
        self.assertEqual(self.bytes_of("a.img"), kit.formatted())
        client.write(0, b"\1" * 35840)
        self.assertEqual(client.do(WRITE_ZEROES, 0, 35840, flags=NO_HOLE), OK)
        server.kill()
        self.assertEqual(self.check()["slots"]["live"], 0)

    @kit.needs("strace")
    def test_their_cost(self):
        """A TRIM, a WRITE_ZEROES and a WRITE of up to 4 KiB are one write of the log; a longer WRITE is two, of the record's head
        and of its bytes."""
        self.format()
        server = self.serve("a.img", "--sync", "never", under=kit.traced("pwrite64,fdatasync"))
        client = server.client()
        counts = []

        def count():
            return sum(name == "pwrite64" for name, _, _ in kit.calls_in(
                self.bytes_of("strace.log").decode()))
        for kind, first, data in ((nbd.WRITE, 0, 3), (nbd.WRITE, 1, 1), (TRIM, 0, 2), (TRIM, 0, 2),
                                  (WRITE_ZEROES, 2, 1), (WRITE_ZEROES, 0, 70), (nbd.WRITE, 1, 8), (nbd.WRITE, 1, 9)):
            before = count()
            self.assertEqual(client.do(kind, 512 * first, 512 * data,
                                       b"\1" * 512 * data if kind == nbd.WRITE else b""), OK)
            counts.append(count() - before)
        self.assertEqual(counts, [1, 1, 1, 1, 1, 1, 1, 2])

    def test_random_calls(self):
        """After random WRITEs, TRIMs and WRITE_ZEROES over connections and starts, the disk is what
        a plain array is."""
        self.format("a.img", 128)
        chance, held = kit.dice("zeroes"), bytearray(168 * 512)
        for start in range(3):
            server = self.serve("a.img", "--sync", "never", *(["--tidy", "eager"] if start else []))
            clients = [server.client() for _ in range(3)]
            for turn in range(250):
                client = chance.choice(clients)
                count = chance.choice([1, 1, 2, chance.randrange(1, 129)])
                first = chance.randrange(168 - count + 1)
                kind = chance.choice([nbd.WRITE, nbd.WRITE, TRIM, WRITE_ZEROES])
                data = b"".join(nbd.sector(it, turn) for it in range(first, first + count))
                if kind != nbd.WRITE:
                    data = bytes(512 * count)
                self.assertEqual(client.do(kind, 512 * first, 512 * count,
                                           data if kind == nbd.WRITE else b"",
                                           chance.choice([0, FUA])), OK)
                held[512 * first:512 * (first + count)] = data
            self.assertEqual(clients[0].read(0, 128) + clients[1].read(128, 40), held)
            server.kill()
            self.assertEqual(self.norbd("read", "a.img"), held)
            self.assertEqual(os.listdir(self.room).count("a.img"), 1)


if __name__ == "__main__":
    unittest.main()
