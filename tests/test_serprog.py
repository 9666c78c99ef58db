"""`norbd chip`: the answers to serprog's commands, by flashrom's serprog-protocol.txt, version 1,
and to frames, by docs/CHIP.md and the W25Q128JV's datasheet; and `norbd` as its own programmer."""
import os
import random
import signal
import socket
import unittest

import kit
import nbd
import serprog
from serprog import ACK, NAK, Client, at

OFFERED = (0x00, 0x01, 0x02, 0x03, 0x04, 0x05, 0x08, 0x10, 0x11, 0x12, 0x13, 0x14, 0x15)


class ChipCase(kit.Case):
    def chip(self, name="a.img", *words, **how):
        """Answers for the chip in an image, on a port."""
        self.port = kit.free_port()
        process = self.start("chip", name, "--port", str(self.port), *words, **how)
        size = os.path.getsize(self.path(name)) // 1024
        self.assertEqual(process.stdout.readline().decode(),
                         f"chip of {size} KiB on port {self.port}\n")
        if size < 512 or size & size - 1:
            self.assertEqual(process.stdout.readline().decode(),
                             "flashrom reads its size by -c 'SFDP-capable chip' alone\n")
        return process

    def client(self):
        return Client(self.port)


class Chips(ChipCase):
    def test_commands(self):
        """Each command has the answer of the document."""
        image = bytearray(it % 256 for it in range(65536))
        self.put("a.img", image)
        self.chip()
        serprog.check_answers(
            self, b"norbd chip", ("1501", "06"), ("1500", "06"), ("08", "06 000001"),
            ("11", "06 000001"), ("13 010000 030000 9F", "06 EF4010"),
            ("13 040000 020000 03 0012FF", "06 FF00"))

    def test_the_map_of_commands(self):
        """Q_CMDMAP offers the commands that are answered, and each other one gets NAK."""
        self.format()
        self.chip()
        with self.client() as client:
            answer = client.ask(b"\x02", 33)
            self.assertEqual(answer[:1], ACK)
            offered = [it for it in range(256) if answer[1 + it // 8] >> it % 8 & 1]
            self.assertEqual(offered, list(OFFERED))
            for code in set(range(256)) - set(offered):
                self.assertEqual(client.ask(bytes([code]), 1), NAK, code)

    def test_commands_that_are_cut_off(self):
        """A command that its connection cuts off isn't done; what came before it was answered, and
        the next client begins anew."""
        self.format()
        self.chip()
        with self.client() as client:
            self.assertEqual(client.ask(b"\x10\0\x13\1\0\0\3\0\0", 3), NAK + ACK + ACK)
        with self.client() as client:
            client.frame(b"\x06")
            client.socket.sendall(b"\x13\x05\0\0\0\0\0" + at(0x02, 0x5000))
        with self.client() as client:
            self.assertEqual(client.ask(b"\x10", 2), NAK + ACK)
            self.assertEqual(client.frame(at(0x03, 0x5000), 1), b"\xFF")

    def test_a_change_that_a_client_left(self):
        """A client that ends while its change is in progress leaves a chip that answers the next
        one: the change has completed then."""
        self.format()
        self.chip()
        with self.client() as client:
            client.frame(b"\x06")
            client.frame(at(0x02, 0x5000) + b"\x3C")
            self.assertEqual(client.frame(b"\x9F", 1), b"\xFF")
        with self.client() as client:
            self.assertEqual(client.frame(b"\x9F", 3), b"\xEF\x40\x10")
            self.assertEqual(client.frame(at(0x03, 0x5000), 1), b"\x3C")

    def test_frames(self):
        """The chip's frames: ids, table, reads that wrap, programs that only clear bits and stay in
        their page, erases of 4 and 64 KiB, WEL and BUSY, and what is ignored."""
        for kib, third in ((64, 0x10), (128, 0x11), (1024, 0x14), (16384, 0x18)):
            self.norbd("format", f"{kib}.img", "--kib", str(kib))
            self.chip(f"{kib}.img")
            with self.client() as client:
                self.assertEqual(client.frame(b"\x9F", 4), bytes([0xEF, 0x40, third, 0xFF]))
                told = serprog.table(1024 * kib)
                told[0x80] |= 4            # word 1, bit 2: 64 bytes or more are programmed at once
                self.assertEqual(client.frame(b"\x5A\0\0\0\0", 256), told)
                self.assertEqual(client.frame(b"\x5A\0\0\0", 257), b"\xFF" + told)
                self.assertEqual(client.frame(at(0x5A, 0x7F), 4), b"\xFF" + told[0x7F:0x82])
                self.assertEqual(client.frame(at(0x5A, 0x80) + b"\x77", 300),
                                 (told + told)[0x80:0x80 + 300])
                self.assertEqual(client.frame(at(0x03, 1024 * kib - 1), 3), b"\xFFNO")
        self.format()
        self.chip()
        with self.client() as client:
            client.frame(at(0x02, 0x5000) + b"\0")             # without write enable: ignored
            self.assertEqual(client.frame(b"\x05", 1), b"\0")
            client.frame(b"\x06")
            self.assertEqual(client.frame(b"\x05", 2), b"\2\2")
            client.frame(b"\x04")
            self.assertEqual(client.frame(b"\x05", 1), b"\0")
            client.frame(b"\x06")
            client.frame(at(0x02, 0x50FE) + b"\x0F\x3C\xA5")
            self.assertEqual(client.frame(b"\x05", 1)[0] & 3, 3)  # busy, and WEL as long
            while client.frame(b"\x05", 1)[0] & 1:
                pass
            self.assertEqual(client.frame(b"\x05", 1), b"\0")
            self.assertEqual(client.frame(at(0x03, 0x5000), 1) + client.frame(at(0x03, 0x50FE), 3),
                             b"\xA5\x0F\x3C\xFF")
            client.change(at(0x02, 0x50FE) + b"\xF1")
            self.assertEqual(client.frame(at(0x03, 0x50FE), 1), b"\x01")
            client.change(at(0x02, 0x6000) + bytes(range(256)) + b"\xEE\xDD")
            self.assertEqual(client.frame(at(0x03, 0x6000), 4), b"\xEE\xDD\2\3")
            client.change(at(0x20, 0x5678))
            self.assertEqual(client.frame(at(0x03, 0x5000), 256), b"\xFF" * 256)
            self.assertEqual(client.frame(at(0x03, 0x6002), 1), b"\2")
            client.change(at(0xD8, 0x1234))
            self.assertEqual(client.frame(at(0x03, 0), 65536), b"\xFF" * 65536)
        self.assertEqual(self.bytes_of("a.img"), b"\xFF" * 65536)

    def test_erases_of_other_sizes(self):
        """52h erases 32 KiB, C7h and 60h the whole chip; what comes then finds them done. Without
        WEL, of a busy or a protected chip, or of another length, they are ignored."""
        full = bytes(it % 251 for it in range(131072))
        self.put("a.img", full)
        self.chip()
        with self.client() as client:
            for frame in (b"\xC7", b"\x60", at(0x52, 0)):
                self.assertEqual(client.frame(frame, 2), b"\xFF\xFF")  # no WEL
            for frame in (b"\xC7\0", b"\x60\0", b"\x52\0\0", at(0x52, 0) + b"\0"):
                client.frame(b"\x06")
                client.frame(frame)
                self.assertEqual(client.frame(b"\x05", 1), b"\2", frame)
            self.assertEqual(client.frame(at(0x03, 0), 131072), full)
            client.frame(b"\x06")
            client.frame(at(0x52, 0x2F123))                    # modulo 128 KiB: 0F123h
            self.assertEqual(client.frame(b"\x05", 1), b"\0")
            held = full[:0x8000] + b"\xFF" * 0x8000 + full[0x10000:]
            self.assertEqual(client.frame(at(0x03, 0), 131072), held)
            client.change(b"\x01\x04")                         # BP0
            for frame in (b"\xC7", b"\x60", at(0x52, 0)):
                client.frame(b"\x06")
                client.frame(frame)
                self.assertEqual(client.frame(b"\x05", 1), b"\4", frame)
            client.change(b"\x01\0")
            client.frame(b"\x06")
            client.frame(at(0x02, 0x8000) + b"\0")
            self.assertEqual(client.frame(b"\xC7", 1), b"\xFF")  # busy
            self.assertEqual(client.frame(at(0x5A, 0), 3), b"\xFF\xFF\xFF")
            while client.frame(b"\x05", 1)[0] & 1:
                pass
            held = held[:0x8000] + b"\0" + held[0x8001:]
            self.assertEqual(client.frame(at(0x03, 0), 131072), held)
            for code in (0xC7, 0x60):
                client.change(at(0x02, 0xABCD) + b"\0")
                client.frame(b"\x06")
                client.frame(bytes([code]))
                self.assertEqual(client.frame(b"\x05", 1), b"\0")
                self.assertEqual(client.frame(at(0x03, 0), 131072), b"\xFF" * 131072)
                self.assertEqual(self.bytes_of("a.img"), b"\xFF" * 131072)

    def test_protection(self):
        """Status writes set the protection bits, under which nothing is changed until they are
        cleared again."""
        self.format()
        self.chip()
        with self.client() as client:
            client.change(b"\x01\x1C")
            self.assertEqual(client.frame(b"\x05", 1), b"\x1C")
            client.frame(b"\x06")
            client.frame(at(0x02, 0x5000) + b"\0")
            self.assertEqual(client.frame(b"\x05", 1), b"\x1C")
            self.assertEqual(client.frame(at(0x03, 0x5000), 1), b"\xFF")
            client.change(b"\x01\x00")
            client.change(at(0x02, 0x5000) + b"\0")
            self.assertEqual(client.frame(at(0x03, 0x5000), 1), b"\0")
            self.assertEqual(client.frame(b"\x35", 1) + client.frame(b"\x15", 1), b"\0\0")

    def test_random_frames(self):
        """Random reads, programs and erases leave what they leave on a plain array, in the file
        too."""
        chance = kit.dice("frames")
        self.format()
        held = kit.formatted()
        self.chip()
        with self.client() as client:
            for _ in range(400):
                place, what = chance.randrange(65536), chance.choice("rrpppe")
                if what == "r":
                    count = chance.randrange(1, 600)
                    self.assertEqual(client.frame(at(0x03, place), count),
                                     bytes((held + held)[place:place + count]))
                elif what == "p":
                    data = bytes(chance.randrange(256) for _ in range(chance.randrange(1, 257)))
                    client.change(at(0x02, place) + data)
                    for k, byte in enumerate(data):
                        held[place & ~0xFF | place + k & 0xFF] &= byte
                else:
                    client.change(at(0x20, place))
                    held[place & ~0xFFF:(place & ~0xFFF) + 4096] = b"\xFF" * 4096
            self.assertEqual(self.bytes_of("a.img"), held)

    def test_this_machine_alone(self):
        """`chip` listens on 127.0.0.1 and nowhere else; the protocol has no password."""
        self.format()
        self.chip()
        with self.assertRaises(ConnectionRefusedError):
            socket.create_connection(("127.0.0.2", self.port), 5)

    def test_so_many_clients(self):
        """With --conns it ends after so many clients, without a fault."""
        self.format()
        process = self.chip("a.img", "--conns", "3")
        for _ in range(3):
            with self.client() as client:
                self.assertEqual(client.ask(b"\x10", 2), NAK + ACK)
        done = self.end_of(process)
        self.assertEqual((done.status, done.out, done.fault), (0, b"", ""))

    def test_a_write_of_the_file_that_fails(self):
        """A write of the file that fails ends `chip` with a fault: what would be answered from then
        on isn't."""
        self.format()
        process = self.chip(preexec_fn=kit.limit_files(36_000))
        with self.client() as client:
            client.change(at(0x02, 0x5000) + b"\0")
            client.frame(b"\x06")
            client.frame(at(0x02, 0xA000) + b"\0")
            with self.assertRaises((nbd.Closed, OSError)):
                for _ in range(10):
                    client.frame(b"\x05", 1)
        done = self.end_of(process, within=10)
        self.assertEqual((done.status, done.fault),
                         (1, "norbd: image failed: a.img: a write failed\n"))
        self.assertEqual([self.bytes_of("a.img")[it] for it in (0x5000, 0xA000)], [0, 0xFF])


class Flashrom(ChipCase):
    """flashrom as a client. It has a name for the chips that it knows by their table alone, and
    others for those that it knows by their ids."""

    def rewrites(self, kib, name):
        """flashrom reads a chip, writes it twice over, erases it, and writes what it read."""
        self.format("a.img", kib)
        self.chip()
        flash = self.flashrom(f"127.0.0.1:{self.port}", name)
        self.assertIn(f"({kib} kB, SPI)", flash())
        flash("-r", "out.bin")
        self.assertEqual(self.bytes_of("out.bin"), kit.formatted(kib))
        chance = random.Random(kib)
        for turn in range(2):
            self.put("new.bin", chance.randbytes(1024 * kib))
            self.assertIn("VERIFIED", flash("-w", "new.bin"), turn)
            self.assertEqual(self.bytes_of("a.img"), self.bytes_of("new.bin"))
        flash("-E")
        self.assertEqual(self.bytes_of("a.img"), b"\xFF" * (1024 * kib))
        self.assertIn("VERIFIED", flash("-w", "out.bin"))
        self.end_all()
        self.assertEqual(self.check()["verdict"], "clean")

    def test_the_smallest(self):
        self.rewrites(64, "SFDP-capable chip")

    def test_a_mebibyte(self):
        self.rewrites(1024, "W25Q80.V")


class OwnProgrammer(ChipCase):
    """`norbd` against `norbd chip`."""

    def test_a_disk_behind_itself(self):
        """`format`, `check`, `write`, `read`, `show` and `serve` of a chip that `chip` answers for,
        and what is left in its file."""
        self.put("a.img", b"\x5A" * 131072)
        self.chip()
        place = f"tcp:127.0.0.1:{self.port}"
        self.assertEqual(self.norbd("format", place, "--kib", "128", "--yes"),
                         b"formatted 168 sectors\n")
        self.assertEqual(self.bytes_of("a.img"), kit.formatted(128))
        self.assertTrue(self.norbd("check", place).endswith(b"clean 168 sectors\n"))
        self.norbd("write", place, "--sectors", "2:4", data=b"\x5A" * 1024)
        self.assertEqual(self.norbd("read", place, "--sectors", "1:4"), bytes(512) + b"\x5A" * 1024)
        self.assertIn(b"\nslots: 194 free, 2 live, 0 dead\n", self.norbd("show", place))
        chance, held = random.Random(1), {2: b"\x5A" * 512, 3: b"\x5A" * 512}
        server = self.serve(place, "--conns", "1")
        client = server.client()
        for turn in range(250):
            number = turn if turn < 168 else chance.randrange(168)
            held[number] = nbd.sector(number, turn)
            self.assertEqual(client.write(number, held[number]), nbd.OK)
        client.disc()
        self.assertEqual(server.end().status, 0)
        self.end_all()
        self.assertEqual(self.norbd("read", "a.img"), b"".join(held[it] for it in range(168)))
        self.assertEqual(self.check()["verdict"], "clean")

    def test_a_chip_that_is_killed(self):
        """Where `chip` is killed while its chip is served, the server ends, and what was
        acknowledged is in the file."""
        self.format()
        process = self.chip()
        server = self.serve(f"tcp:127.0.0.1:{self.port}")
        client, written = server.client(), []
        for number in range(20):
            self.assertEqual(client.write(number, nbd.sector(number)), nbd.OK)
            written.append(nbd.sector(number))
        os.killpg(process.pid, signal.SIGKILL)
        with self.assertRaises(nbd.Closed):
            client.write(30, nbd.sector(30))
        self.assertEqual(server.end().status, 1)
        process.wait()
        self.assertEqual(self.norbd("read", "a.img", "--sectors", "0:20"), b"".join(written))


if __name__ == "__main__":
    unittest.main()
