"""Chips behind a programmer at the start of a command, by docs/REAL-CHIP.md: programmers and chips that
fail there, what is told and how soon; clocks and pin drivers; how many round trips it takes. The
programmer and its chip are Python's."""
import os
import shutil
import signal
import subprocess
import threading
import time
import unittest

import kit
import nbd
import serprog
from faults import ENDED, MUTE, SILENT, FaultCase, at_first, told_in
from nbd import OK
from serprog import Chip, LatePeer, Programmer, SerialPeer, TcpPeer


class Starts(FaultCase):
    def test_silence(self):
        """A programmer that says nothing, or something else than the answer to SYNCNOP, is refused
        within ten seconds; one that falls silent later within 10 seconds of that."""
        def refused(kind, cause, least, most, fields):
            peer = self.peer(kind, **fields)
            began = time.monotonic()
            self.fails(peer, cause)
            self.assertTrue(least < time.monotonic() - began < most, cause)

        def second():
            peer = self.peer()
            server, _, _ = self.served(peer)
            self.fails(peer, MUTE)
            server.kill()
        rows = [(refused, kind, *row) for kind in (TcpPeer, SerialPeer)
                for row in ((MUTE, 7, 20, {"silent_after": 0}),
                            ("no serprog programmer answers", 0.5, 20,
                             {"sync": serprog.ACK + serprog.NAK}),
                            ("no serprog programmer answers", 0.5, 20, {"sync": serprog.ACK * 300}),
                            (SILENT, 9, 20, {"silent_after": 10 + 2}),
                            (f"the chip's start: {SILENT}", 9, 20, {"silent_after": 10 + 10}),
                            (f"a read at 0x0: {SILENT}", 9, 20, {"frames_to_silence": 9}))]
        self.each(lambda does, *row: does(*row), (second,),
                  (refused, TcpPeer, MUTE, 7, 20, {"sync": b""}), *rows, at_once=16)

    def test_lines_that_end(self):
        """A connection that ends in each command of the greeting and each frame of the start, is
        told with what was done."""
        def row(cause, fields):
            peer = self.peer()
            for field, value in fields.items():
                setattr(peer.programmer, field, value)
            self.fails(peer, cause)
        rows = [(ENDED, {"end_after": 10 + count}) for count in range(8)]
        rows += [(f"the chip's start: {ENDED}", {"frames_to_end": count}) for count in range(8)]
        rows += [(f"a read at 0x0: {ENDED}", {"frames_to_end": count}) for count in (8, 9, 15)]
        rows += [(f"a read at 0x8000: {ENDED}", {"frames_to_end": count}) for count in (16, 23)]
        rows += [(f"{doing}: the programmer refused it",
                  {"change": at_first(code, lambda answer: serprog.NAK)})
                 for code, doing in ((0x9F, "the chip's start"), (0x5A, "the chip's start"),
                                     (0x35, "the chip's start"), (0x03, "a read at 0x0"))]
        self.each(row, *rows)

    def test_one_byte_at_a_time(self):
        """A programmer whose answers come byte by byte."""
        peer = self.peer()
        serve = peer.programmer.serve

        def slowly(read, write):
            serve(read, lambda data: [write(data[at:at + 1]) for at in range(len(data))])
        peer.programmer.serve = slowly
        done = self.run_norbd("check", peer.place)
        self.assertEqual((done.status, told_in(done.fault)), (0, []))
        self.assertIn("clean 70 sectors", done.text)

    def test_an_old_answer_in_the_line(self):
        """What is left of an old answer is passed over, however long it is."""
        for kind in (TcpPeer, SerialPeer):
            for old in (1, 247, 257, 300, 3097, 4097, 65537):
                for byte in (b"\xFF", b"\x06", b"\x15\x06", b"\0"):
                    if old > 5000 and (kind is SerialPeer or byte != b"\xFF"):
                        continue
                    peer = self.peer(kind)
                    old_answer = (byte * old)[:old]
                    if kind is TcpPeer:
                        peer.programmer.left = old_answer
                    else:
                        os.write(peer.ours, old_answer[:4000])
                    self.assertIn(b"clean 70 sectors", self.norbd("check", peer.place), (old, byte))

    def test_interrupted_starts(self):
        """After ^C, or a kill, in the reading of a chip the next start finds it, by a serial device
        too."""
        for kind in (TcpPeer, SerialPeer):
            peer = self.peer(kind)
            frame, paused = peer.chip.frame, threading.Event()

            def slowly(sent, count, frame=frame, paused=paused):
                if sent[0] == 0x03:
                    paused.set()
                    time.sleep(0.01)
                return frame(sent, count)
            peer.chip.frame = slowly
            for turn in range(20 if kind is SerialPeer else 5):
                paused.clear()
                process = self.start("check", peer.place)
                self.assertTrue(paused.wait(10))
                time.sleep(0.005 * (turn % 7))
                os.kill(process.pid, signal.SIGINT if turn % 2 else signal.SIGKILL)
                process.wait()
                self.assertIn(b"clean 70 sectors", self.norbd("check", peer.place), turn)

    def test_no_chip(self):
        """A line that no chip drives, high or low, is told at once."""
        for byte in (0xFF, 0x00):
            peer = self.peer()
            peer.programmer.change = lambda of, answer, byte=byte: (
                serprog.ACK + bytes([byte]) * (len(answer) - 1) if of else answer)
            began = time.monotonic()
            self.fails(peer, f"no chip answers (id {byte:02x} {byte:02x} {byte:02x}): is the clip "
                             "seated, has the chip power?")
            self.assertLess(time.monotonic() - began, 3)

    def test_other_chips(self):
        """Another maker's id, another part's, and one that isn't that of the size are named, with
        what is served."""
        for text in ("c2 20 18", "ef 60 18", "ef 70 18", "ef 50 14", "ef 40 19", "ef 40 0f"):
            peer = self.peer()
            peer.chip.id = bytes.fromhex(text)
            self.fails(peer, f"id {text} isn't served: the W25Q128JV and smaller ones of its kind "
                             "are, ef 40 10 to ef 40 18")
        peer = self.peer()
        peer.chip.id = b"\xEF\x40\x18"
        self.fails(peer, "id ef 40 18 isn't that of a chip of 64 KiB, as its table (SFDP) has it")

    def test_tables(self):
        """A table that is refused is told by its rule and the bytes that break it."""
        good = serprog.table(65536)
        for at, data, rule in (
                (0, b"\xFF" * 256, "the signature is not SFDP: ff ff ff ff at 0x00"),
                (8, b"\x01", "no parameter header has the id of the basic table: 01 06 01 10 at "
                             "0x08"),
                (11, b"\x08", "the table is too short: 00 06 01 08 at 0x08"),
                (0x84, (8 * (32 << 20) - 1).to_bytes(4, "little"),
                 "the density is not a multiple of 64 KiB from 64 KiB to 16 MiB: ff ff ff 0f at "
                 "0x84"),
                (0xA8, b"\x90", "the page size is not 256 bytes: 90 00 00 00 at 0xa8"),
                (0x82, b"\x04", "addresses do not have three bytes: 01 20 04 00 at 0x80")):
            peer = self.peer()
            table = bytearray(good)
            table[at:at + len(data)] = data
            peer.chip.sfdp = bytes(table[:256])
            self.fails(peer, f"its table (SFDP) is refused: {rule}")

    def test_busy(self):
        """A chip that is busy, as by a chip erase of another program, is waited for, with a line a
        second."""
        peer = self.peer()
        frame, end_of_it = peer.chip.frame, time.monotonic() + 2.6

        def busy(sent, count):
            if time.monotonic() < end_of_it:
                return (b"\x03" if sent[0] == 0x05 else b"\xFF") * count
            return frame(sent, count)
        peer.chip.frame = busy
        done = self.run_norbd("check", peer.place)
        self.assertEqual(done.status, 0)
        told = told_in(done.err.decode())
        self.assertIn(len(told), (1, 2, 3), told)
        for line in told:
            self.assertRegex(line, r"^norbd: the chip is busy, for \d s now$")

    def test_other_bits(self):
        """QE, the lock bits and the drive strength may be set, as a new part has them; CMP and WPS
        may not, and WP low with SRP set is named."""
        for register, bits in ((1, 0x02), (1, 0x38), (2, 0x60)):
            peer = self.peer(memory=b"\x5A" * 65536)
            peer.chip.status[register] = bits
            self.norbd("format", peer.place, "--kib", "64", "--yes")
            self.assertEqual(peer.chip.memory, kit.formatted())
        for register, bits in ((1, 0x40), (2, 0x04)):
            peer = self.peer()
            peer.chip.status[register] = bits
            second, third = peer.chip.status[1:]
            self.fails(peer, "CMP or WPS is set in the status registers 2 and 3, "
                             f"{second:#04x} and {third:#04x}")
        peer = self.peer()
        peer.chip.status[0] = 0x9C
        peer.chip.write_status = lambda byte: peer.chip.status.__setitem__(
            0, peer.chip.status[0] & 0xFC)
        done = self.run_norbd("format", peer.place, "--kib", "64", "--yes")
        self.assertEqual(done.status, 1)
        self.assertRegex(done.fault, "the chip left the model in a status write: in a frame 0x05, "
                         "byte 0 of its answer, read 0x9c, the model allows 0x00: SRP is set, and "
                         "the status write did nothing: tie WP high\n$")


    def test_bits_that_show_early(self):
        """A chip whose protection is set is formatted at the first try, and its protection lifted,
        also where the new bits of its status show while it is busy."""
        def row(bits, line):
            peer = self.peer(memory=b"\x5A" * 65536 if line.startswith("format") else None)
            peer.chip.status[0], peer.chip.early, peer.chip.polls = bits, True, 3
            command, *more = line.split()
            self.norbd(command, peer.place, *more)
            self.assertEqual((peer.chip.memory, peer.chip.status), (kit.formatted(), [0, 0, 0]))
        self.each(row, *[(bits, line) for bits in (0x04, 0x1C, 0x34, 0x40, 0x80, 0xFC)
                         for line in ("format --kib 64 --yes", "unprotect --yes")])

    def test_bits_that_decay_between_starts(self):
        """A bit of a sector that lost its charge between two starts is served as data, and `check`
        says clean; an older copy of the chip tells which sector it is."""
        memory = kit.formatted()
        for number in range(70):
            kit.set_slot(memory, 4 + number // 7, number % 7, number, nbd.sector(number))
        self.put("dump.bin", memory)
        at = memory.index(nbd.sector(40)) + 100
        memory[at] |= ~memory[at] & -~memory[at]      # its lowest bit that is 0 becomes 1
        peer = self.peer(memory=memory)
        self.assertIn(b"clean 70 sectors", self.norbd("check", peer.place))
        self.assertNotEqual(self.norbd("read", peer.place, "--sectors", "40:41"), nbd.sector(40))
        done = self.run_norbd("check", peer.place, "--against", "dump.bin")
        self.assertEqual(done.status, 1)
        self.assertIn("\ndiffer from dump.bin: sectors 40\n", done.text)


class RoundTrips(FaultCase):
    """How often an answer is waited for, on a line that is longer than what is sent at once."""

    def late(self, kib=64, buffers=65535):
        peer = LatePeer(self, Programmer(Chip(kib, kit.formatted(kib))), 0.01)
        peer.programmer.buffers = buffers
        return peer

    def test_a_sector(self):
        """A sector's first write takes 8 round trips and a later one 10, in a block that was written
        to since the start, where as many bytes may be on the way as the frames of a page's program
        have, 283; where fewer may, each of its two pages takes two more, and where none may, each
        frame one."""
        def row(buffers, *words):
            peer = self.late(buffers=buffers)
            server = self.serve(peer.place, *words)
            client, found = server.client(), []
            self.assertEqual(client.write(9, nbd.sector(9)), OK)
            for turn in range(6):
                before = peer.trips
                self.assertEqual(client.write(turn % 3, nbd.sector(turn)), OK)
                found.append(peer.trips - before)
            server.kill()
            return found
        for buffers, first, later, words in (
                (65535, 8, 10, ()), (283, 8, 10, ()), (282, 12, 14, ()), (0, 20, 25, ()),
                (65535, 8, 10, ("--trust",))):
            self.assertEqual(row(buffers, *words), [first] * 3 + [later] * 3, (buffers, words))

    def test_a_start(self):
        """A start asks for eight pieces of 4 KiB at once: a chip of 1 MiB takes 32 round trips more
        than its greeting, table and registers, 19; where a few bytes alone may be on the way, 256."""
        for buffers, trips in ((65535, 32), (88, 32), (87, 256)):
            peer = self.late(1024, buffers)
            self.assertIn(b"clean 1540 sectors", self.norbd("check", peer.place))
            self.assertEqual(peer.trips, 19 + trips, buffers)


class Clock(FaultCase):
    def test_its_clock(self):
        """--spi-hz sets it, and which one was set is told; without it none is set."""
        for line in ("check", "show", "read", "serve --read-only --unix a.sock --conns 1",
                     "format --kib 64 --yes", "write", "settle"):
            peer = self.peer()
            for hz, told in ((8_000_000, 8_000_000), (1, 1), (4_294_967_295, 24_000_000)):
                command, *more = line.split()
                process = self.start(command, peer.place, *more, "--spi-hz", str(hz),
                                     stdin=subprocess.DEVNULL)
                if command == "serve":
                    process.stdout.readline()
                    process.kill()
                done = self.end_of(process)
                self.assertEqual(done.err.decode().splitlines()[0],
                                 f"norbd: the programmer's clock is {told} Hz", line)
                self.assertEqual(peer.programmer.clock, hz)
        peer = self.peer()
        self.norbd("check", peer.place)
        self.assertIsNone(peer.programmer.clock)

    def test_it_can_not_be_set(self):
        """A programmer without a clock, one that refuses it, and 0."""
        peer = self.peer(lacks=(0x14,))
        self.fails(peer, "its clock can't be set: command 0x14 is not offered", "check",
                   "--spi-hz", "1000000")
        peer = self.peer(refuses=(0x14,))
        self.fails(peer, "command 0x14 is refused", "check", "--spi-hz", "1000000")
        for word in ("0", "-1", "4294967296", "1M", ""):
            done = self.run_norbd("check", peer.place, "--spi-hz", word)
            self.assertEqual(done.status, 2, word)


class Pins(FaultCase):
    def test_pin_drivers(self):
        """Where the programmer has pin drivers they are turned on at the start and off at a regular
        end; else it isn't asked."""
        for line in ("check", "show", "read", "format --kib 64 --yes"):
            for pins in (False, True):
                peer = self.peer(pins=pins)
                command, *more = line.split()
                self.norbd(command, peer.place, *more)
                self.assertEqual(peer.programmer.pins, False)
                self.assertEqual(peer.programmer.commands.count(0x15), 2)
        peer = self.peer()
        self.norbd("check", peer.place)
        self.assertNotIn(0x15, peer.programmer.commands)

    def test_flashrom_before_and_after(self):
        """A chip is used by flashrom, then by norbd, then by flashrom again, on a programmer that
        obeys pin drivers."""
        if not shutil.which("flashrom", path=os.environ["PATH"] + ":/usr/sbin:/sbin"):
            self.skipTest("flashrom is not installed")
        peer = self.peer(memory=kit.formatted(1024), kib=1024, pins=False)
        tool = shutil.which("flashrom", path=os.environ["PATH"] + ":/usr/sbin:/sbin")

        def flash(*words):
            done = subprocess.run(
                [tool, "-p", f"serprog:ip={peer.place[4:]}", *words], cwd=self.room, timeout=120,
                stdout=subprocess.PIPE, stderr=subprocess.STDOUT, check=False)
            self.assertEqual(done.returncode, 0, done.stdout)
        flash("-r", "before.bin")
        self.assertEqual(self.bytes_of("before.bin"), kit.formatted(1024))
        self.assertEqual(peer.programmer.pins, False)
        self.assertIn(b"clean 1540 sectors", self.norbd("check", peer.place))
        self.norbd("write", peer.place, "--sectors", "3:5", data=b"\x5A" * 1024)
        flash("-r", "after.bin")
        self.assertEqual(self.bytes_of("after.bin"), peer.chip.memory)
        self.assertEqual(self.norbd("read", "after.bin", "--sectors", "3:5"), b"\x5A" * 1024)


if __name__ == "__main__":
    unittest.main()
