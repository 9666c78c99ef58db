"""Chips behind a programmer that speaks serprog, by docs/REAL-CHIP.md: the programmer and its chip
are Python's, and fail in each way. In each test what is on the chip is looked at."""
import os
import pty
import socket
import subprocess
import time
import unittest

import kit
import nbd
from nbd import EPERM, OK
from serprog import Chip, Programmer, SerialPeer, TcpPeer


class ChipCase(kit.Case):
    def peer(self, memory=None, kib=64, kind=TcpPeer, **how):
        """A peer with a chip, which is a formatted one if nothing else is said."""
        chip = Chip(kib, kit.formatted(kib) if memory is None else memory)
        peer = kind(self, Programmer(chip), **how)
        peer.chip = chip
        return peer

    def slow_down(self, peer, seconds):
        """Each answer of the programmer takes so long."""
        answer = peer.programmer.answer

        def slowly(code, take):
            time.sleep(seconds)
            return answer(code, take)
        peer.programmer.answer = slowly

    def chip_fails(self, peer, cause, *words, out="", **how):
        """A line about the chip has to fail with this cause."""
        words = [peer.place if it == "CHIP" else it for it in words]
        self.refused(f"chip failed: {peer.place}: {cause}", *words, out=out, **how)


class Lines(ChipCase):
    def test_formatted(self):
        """`format` of a chip erases it and writes its superblock, whatever was on it; it wants the
        chip's size and --yes, else nothing is asked of it, or nothing changed."""
        for kind in (TcpPeer, SerialPeer):
            for memory in (b"\x5A" * 65536, b"\0" * 65536, b"\xFF" * 65536):
                peer = self.peer(memory, kind=kind)
                self.chip_fails(peer, "--yes erases it", "format", "CHIP", "--kib", "64")
                self.assertEqual(peer.programmer.commands, [])
                self.chip_fails(peer, "a chip of 64 KiB", "format", "CHIP", "--kib", "128", "--yes")
                self.assertEqual((peer.chip.memory, peer.chip.erases), (memory, 0))
                self.assertEqual(self.norbd("format", peer.place, "--kib", "64", "--yes"),
                                 b"formatted 70 sectors\n")
                self.assertEqual(peer.chip.memory, kit.formatted())
                self.assertGreater(peer.chip.erases, 0)

    def test_looked_at(self):
        """`check`, `show` and `read` of a chip tell what they tell of its bytes as a file, and
        write nothing to it."""
        image = kit.formatted(128)
        for at in range(20):
            kit.set_slot(image, 4 + at // 7, at % 7, at, nbd.sector(at))
        corrupt, dirty = kit.formatted(), kit.formatted()
        corrupt[0x2400], dirty[0x4300] = 0x55, 0x55
        for memory in (image, corrupt, dirty, bytes(65536)):
            self.put("a.img", memory)
            peer = self.peer(memory, len(memory) // 1024)
            for line in ("check", "check --json", "show", "read", "read --sectors 3:5"):
                command, *more = line.split()
                by_file = self.run_norbd(command, "a.img", *more)
                by_chip = self.run_norbd(command, peer.place, *more)
                self.assertEqual((by_chip.status, by_chip.out), (by_file.status, by_file.out), line)
                told = by_file.fault.replace("a.img", peer.place)
                if memory is corrupt and command != "check":
                    told = f"norbd: corrupt: {peer.place}: norbd check says why\n"
                if memory is dirty:
                    told = told.replace("norbd check --mend mends it", kit.MEND_A_CHIP)
                self.assertEqual(by_chip.fault, told)
            self.assertEqual((peer.chip.memory, peer.chip.programs, peer.chip.erases),
                             (memory, 0, 0))
        self.chip_fails(peer, "--mend takes a file", "check", "CHIP", "--mend")

    def test_layout_1_that_is_not_clean(self):
        """A chip of layout 1 is looked at before a mount: where a block that reads as free isn't
        erased, no line serves it or changes it."""
        image = kit.formatted(layout=1)
        kit.set_bytes(image, 0xA010, b"\xFC\xFC\x08\x00")
        peer = self.peer(bytes(image))
        for line in ("read CHIP", "write CHIP", "settle CHIP", "serve CHIP --unix a.sock",
                     "serve CHIP --unix a.sock --trust",
                     "serve CHIP --unix a.sock --read-only"):
            words = [peer.place if it == "CHIP" else it for it in line.split()]
            self.refused(f"not clean: {peer.place}: {kit.MEND_A_CHIP}", *words)
        self.assertEqual((peer.chip.memory, peer.chip.programs, peer.chip.erases),
                         (bytes(image), 0, 0))

    def test_written(self):
        """`write` replaces sectors on the chip itself, and leaves the others."""
        peer = self.peer()
        self.norbd("write", peer.place, "--sectors", "2:4", data=b"\x5A" * 1024)
        self.put("a.img", peer.chip.memory)
        self.assertEqual(self.norbd("read", "a.img"),
                         bytes(1024) + b"\x5A" * 1024 + bytes(66 * 512))
        data = b"".join(nbd.sector(it) for it in range(70))
        self.assertEqual(self.norbd("write", peer.place, data=data),
                         b"replacing sectors 0 to 69\nreplaced sectors 0 to 69\n")
        self.assertEqual(self.norbd("read", peer.place), data)
        self.norbd("write", peer.place, data=bytes(35840))
        self.put("a.img", peer.chip.memory)
        self.assertEqual(self.check()["slots"]["live"], 0)
        before = bytes(peer.chip.memory)
        self.refused("standard input has 511 bytes, sectors 3 to 3 take 512", "write", peer.place,
                     "--sectors", "3:4", data=b"\1" * 511, out="replacing sectors 3 to 3\n")
        self.assertEqual(peer.chip.memory[0x4000:], before[0x4000:])

    def test_progress_of_the_reading(self):
        """Of a chip that is read slowly a line a second says how far that is."""
        peer = self.peer(kib=128, memory=kit.formatted(128))
        frame = peer.chip.frame

        def slowly(sent, count):
            time.sleep(0.08 if count == 4096 else 0)
            return frame(sent, count)
        peer.chip.frame = slowly
        done = self.run_norbd("check", peer.place)
        self.assertEqual(done.status, 0)
        lines = done.err.decode().splitlines()
        self.assertIn(len(lines), range(1, 6), lines)
        for line in lines:
            self.assertRegex(line, r"^norbd: \d+ KiB of the chip are read$")

    def test_progress(self):
        """Where standard error is a terminal `write` shows there how far it is, about once a
        second, and elsewhere nothing."""
        peer = self.peer()
        self.slow_down(peer, 0.0015)
        ours, theirs = pty.openpty()
        data = b"\x11" * 35840
        process = self.start("write", peer.place, stdin=subprocess.PIPE, stderr=theirs)
        os.close(theirs)
        done = self.end_of(process, data)
        shown = os.read(ours, 65536).decode() if done.status == 0 else ""
        os.close(ours)
        self.assertEqual(done.status, 0)
        self.assertRegex(shown, r"norbd: \d{1,2} %, \d+ KiB/s")


class Served(ChipCase):
    def test_what_is_written_is_on_the_chip(self):
        """What a client writes is on the chip when it is acknowledged, and the next start serves
        it; over TCP and by a serial device."""
        for kind in (TcpPeer, SerialPeer):
            peer = self.peer(kind=kind)
            server = self.serve(peer.place, "--conns", "1")
            client = server.client()
            for number in range(0, 70, 3):
                self.assertEqual(client.write(number, nbd.sector(number)), OK)
                if number % 9 == 0:
                    self.put("a.img", peer.chip.memory)
                    self.assertEqual(self.norbd("read", "a.img", "--sectors",
                                                f"{number}:{number + 1}"), nbd.sector(number))
            self.assertEqual(client.trim(0), OK)
            client.disc()
            self.assertEqual(server.end().status, 0)
            client = self.serve(peer.place, "--conns", "1").client()
            for number in range(70):
                self.assertEqual(client.read(number), bytes(512) if number % 3 or not number
                                 else nbd.sector(number))
            client.disc()

    def test_read_only(self):
        """With --read-only a copy of the chip is served, and nothing of the chip is written, not
        even where it needs a recovery."""
        image = kit.formatted()
        kit.set_slot(image, 4, 0, 3, nbd.sector(3))
        kit.set_bytes(image, kit.ENTRIES, bytes([0xFC, 9, 0, 0xFF]))
        peer = self.peer(image)
        client = self.serve(peer.place, "--read-only").client()
        self.assertEqual((client.flags, client.read(3)), (0x010F, nbd.sector(3)))
        self.assertEqual([client.write(3, bytes(512)), client.trim(3), client.zero(3)], [EPERM] * 3)
        self.assertEqual((peer.chip.memory, peer.chip.programs, peer.chip.erases), (image, 0, 0))

    def frames_of_a_write(self, *words):
        """The frames of a sector's first write, into a block that was written since the mount."""
        peer = self.peer()
        client = self.serve(peer.place, *words).client()
        self.assertEqual(client.write(4, nbd.sector(4)), OK)
        before = len(peer.chip.frames)
        self.assertEqual(client.write(5, nbd.sector(5)), OK)
        return peer.chip.frames[before:]

    def test_frames(self):
        """Opening a chip of 64 KiB takes 24 frames, and a sector's write into a free slot 20: each
        of its four programs is read back, but with --trust, where 16 are enough."""
        peer = self.peer()
        self.chip_fails(peer, "a chip of 64 KiB", "format", "CHIP", "--kib", "128", "--yes")
        self.assertEqual(len(peer.chip.frames), 24)
        frames = self.frames_of_a_write()
        self.assertEqual((len(frames), frames.count(0x02), frames.count(0x03)), (20, 4, 4))
        frames = self.frames_of_a_write("--trust")
        self.assertEqual((len(frames), frames.count(0x02), frames.count(0x03)), (16, 4, 0))

    def test_a_write_reads_back_too(self):
        """`write` and `format` of a chip read back what they wrote."""
        peer = self.peer()
        self.norbd("write", peer.place, "--sectors", "0:1", data=b"\1" * 512)
        frames = peer.chip.frames
        last = len(frames) - frames[::-1].index(0x02)
        self.assertIn(0x03, frames[last:])

    @kit.needs("strace")
    def test_pauses(self):
        """After a status read that shows BUSY 50 microseconds are waited, and after no other
        one."""
        peer = self.peer()
        peer.chip.polls = 3
        server = self.serve(peer.place, under=kit.traced("nanosleep,clock_nanosleep"))
        client, sleeps = server.client(), []
        self.assertEqual(client.write(4, nbd.sector(4)), OK)        # the block is in use

        def short():
            log = self.bytes_of("strace.log").decode()
            return [text for name, text, _ in kit.calls_in(log) if "tv_nsec=50000}" in text]
        before = len(short())
        self.assertEqual(client.write(5, nbd.sector(5)), OK)
        sleeps = len(short()) - before
        self.assertEqual(sleeps, 4 * 3)

    def test_protected(self):
        """A chip whose protection bits are set is formatted, and served: they are cleared first."""
        peer = self.peer(b"\x5A" * 65536)
        peer.chip.status[0] = 0x9C
        self.norbd("format", peer.place, "--kib", "64", "--yes")
        self.assertEqual((peer.chip.memory, peer.chip.status[0] & 0x1C), (kit.formatted(), 0))

    def test_protected_and_served(self):
        """`serve`, `write` and `settle` refuse a chip of which something is protected, name the two
        commands that help, and change nothing."""
        for line in ("serve CHIP --unix a.sock", "serve CHIP --unix a.sock --trust", "write CHIP",
                     "settle CHIP"):
            peer = self.peer()
            peer.chip.status[0] = 0x04
            self.refused(f"protected: {peer.place}: norbd check says by what, norbd unprotect --yes "
                         "ends that", *line.replace("CHIP", peer.place).split())
            self.assertEqual((peer.chip.memory, peer.chip.status[0], peer.chip.programs,
                              peer.chip.erases), (kit.formatted(), 0x04, 0, 0))

    def test_unprotected(self):
        """`unprotect` clears bits 2 to 7 of status register 1 and keeps what is on the chip, with
        --yes alone; where CMP or WPS is set it can't, and says so."""
        memory = kit.formatted()
        kit.set_slot(memory, 4, 0, 7, nbd.sector(7))
        for bits in (0x04, 0x1C, 0x34, 0x44, 0x9C, 0xFC, 0x00):
            peer = self.peer(memory)
            peer.chip.status[0] = bits
            self.chip_fails(peer, "--yes lifts its protection", "unprotect", "CHIP")
            self.assertEqual(peer.programmer.commands, [])
            done = self.run_norbd("check", peer.place)
            if bits & 0x5C:
                names = [name for k, name in enumerate(("BP0", "BP1", "BP2", "TB", "SEC", "SRP"))
                         if bits >> 2 + k & 1]
                self.assertEqual((done.status, done.fault), (1, f"norbd: protected: {peer.place}\n"))
                self.assertIn(f"\nprotected: {' '.join(names)}: norbd unprotect --yes ends that, and "
                              "keeps what is on the chip\n", done.text)
            else:
                self.assertEqual((done.status, done.fault), (0, ""))
            self.assertEqual(self.norbd("unprotect", peer.place, "--yes"),
                             b"nothing is protected\n")
            self.assertEqual((peer.chip.memory, peer.chip.status), (memory, [0, 0, 0]))
            self.assertEqual((peer.chip.programs, peer.chip.erases), (0, 0))
            self.assertEqual(self.norbd("read", peer.place, "--sectors", "7:8"), nbd.sector(7))
        for register, value in ((1, 0x40), (2, 0x04)):
            peer = self.peer(memory)
            peer.chip.status[register] = value
            done = self.run_norbd("unprotect", peer.place, "--yes")
            self.assertEqual((done.status, done.out), (1, b""))
            self.assertIn("CMP or WPS is set", done.fault)
        self.put("a.img", memory)
        self.refused("chip failed: a.img: unprotect takes a chip behind a programmer", "unprotect",
                     "a.img", "--yes")


class Firm(ChipCase):
    """Which lines mount firmly, so that torn bits may waver."""

    def used(self):
        """A chip with sectors in blocks 4, 5 and 6, and those sectors."""
        image, held = kit.formatted(), {}
        for number in range(20):
            held[number] = nbd.sector(number)
            kit.set_slot(image, 4 + number // 7, number % 7, number, held[number])
        return image, held

    def is_firm(self, memory):
        """Whether a chip of these bytes was mounted firmly: J0's first entry is given up."""
        return memory[kit.ENTRIES + 3] == 0

    def pages_of(self, peer):
        """The pages that are programmed from now on."""
        pages = []

        def note(kind, page, new, _):
            pages.extend([page] * (kind == "program"))
            return new
        peer.chip.spoil = note
        return pages

    def test_chips(self):
        """`serve` and `write` mount a chip firmly: where nothing was interrupted that programs the
        head of each block in use, erases nothing, and changes nothing but the journals."""
        for words in (("serve",), ("serve", "--trust"), ("serve", "--firm"), ("write",),
                      ("write", "--firm")):
            image, held = self.used()
            peer = self.peer(image)
            pages = self.pages_of(peer)
            if words[0] == "serve":
                server = self.serve(peer.place, *words[1:], "--conns", "1")
                client = server.client()
                for number in range(70):
                    self.assertEqual(client.read(number), held.get(number, bytes(512)))
                client.disc()
                self.assertEqual(server.end().status, 0)
            else:
                self.refused("standard input has 0 bytes, sectors 3 to 3 take 512", "write",
                             peer.place, *words[1:], "--sectors", "3:4",
                             out="replacing sectors 3 to 3\n")
            self.assertEqual(peer.chip.erases, 0)
            self.assertTrue(self.is_firm(peer.chip.memory), words)
            self.assertEqual(peer.chip.memory[0x4000:], image[0x4000:])
            self.assertEqual([page for page in pages if page >= 0x4000], [0x4000, 0x5000, 0x6000])

    def test_what_changes_nothing(self):
        """`read`, `check`, `show` and `serve --read-only` of a chip, and a firm mount of one that is
        refused, program nothing."""
        corrupt = kit.formatted()
        corrupt[0x2400] = 0x55
        for memory, lines in ((self.used()[0], ("read", "check", "show")),
                              (corrupt, ("serve --unix a.sock", "write"))):
            peer = self.peer(memory)
            for line in lines:
                command, *more = line.split()
                done = self.run_norbd(command, peer.place, *more)
                self.assertEqual(done.status, 1 if memory is corrupt else 0)
            if memory is not corrupt:
                self.serve(peer.place, "--read-only").client().disc()
            self.assertEqual((peer.chip.memory, peer.chip.programs, peer.chip.erases),
                             (memory, 0, 0))

    def test_images(self):
        """An image is mounted firmly with --firm alone."""
        for firm in ((), ("--firm",)):
            self.put("a.img", self.used()[0])
            server = self.serve("a.img", "--conns", "1", *firm)
            client = server.client()
            self.assertEqual([client.write(0, nbd.sector(0, 1)), client.trim(1)], [OK] * 2)
            self.settled()
            client.disc()
            self.assertEqual(server.end().status, 0)
            self.assertEqual(self.is_firm(self.bytes_of("a.img")), bool(firm))
            self.assertEqual(self.norbd("read", "a.img", "--sectors", "0:3"),
                             nbd.sector(0, 1) + bytes(512) + nbd.sector(2))
            self.put("a.img", self.used()[0])
            self.norbd("write", "a.img", *firm, "--sectors", "3:4", data=nbd.sector(3, 1))
            self.assertEqual(self.is_firm(self.bytes_of("a.img")), bool(firm))
            self.assertEqual(self.norbd("read", "a.img", "--sectors", "3:4"), nbd.sector(3, 1))

    def test_lines_without(self):
        """No other line takes --firm, nor does `serve --read-only`, which changes nothing."""
        self.put("a.img", self.used()[0])
        self.refused("image failed: a.img: --firm programs it, --read-only leaves it as it is",
                     "serve", "a.img", "--unix", "a.sock", "--firm", "--read-only")
        for line in ("read a.img", "check a.img", "check a.img --mend", "show a.img",
                     "rescue a.img", "format a.img --kib 64", "script --kib 64",
                     "plain --sectors 7", "chip a.img --port 5000", "unprotect tcp:127.0.0.1:1",
                     "settle a.img"):
            done = self.run_norbd(*line.split(), "--firm")
            self.assertEqual((done.status, done.out), (2, b""), line)
            self.assertIn("unexpected argument '--firm' found", done.fault)
        self.assertEqual(self.bytes_of("a.img"), self.used()[0])


class Settling(ChipCase):
    """`settle`: all of a chip but its superblock is erased, and its disk stays."""

    LINE = b"renewed 3 journals and 12 data blocks\n"

    def used(self, layout=2):
        """A chip with 21 sectors, in slots or in groups of layout 1, and what its disk holds."""
        image = kit.formatted(layout=layout)
        data = b"".join(nbd.sector(it) for it in range(21)) + bytes(49 * 512)
        for block in range(3):
            if layout == 1:
                kit.set_group(image, 4 + block, block, data[3584 * block:3584 * (block + 1)])
            for place in range(7 * (layout - 1)):
                number = 7 * block + place
                kit.set_slot(image, 4 + block, place, number, nbd.sector(number))
        return image, data

    def test_all_of_a_chip(self):
        """Each block is erased but the superblock's, whatever it held, of a chip over TCP and by a
        serial device, and the disk is the same; after that one, and another time too."""
        for layout, kind in ((2, TcpPeer), (2, SerialPeer), (1, TcpPeer)):
            image, data = self.used(layout)
            peer = self.peer(image, kind=kind)
            for times in (1, 2):
                self.assertEqual(self.norbd("settle", peer.place), self.LINE)
                self.assertEqual(peer.chip.erased[0], 0)
                self.assertGreaterEqual(min(peer.chip.erased[1:]), times)
                self.assertLessEqual(peer.chip.erases, 18 * times)
                self.assertEqual(self.norbd("read", peer.place), data)
            self.assertEqual(peer.chip.memory[:15], image[:15])

    def test_an_image(self):
        """The disk of an image is the same, its file is another one, and it is mounted firmly, as
        the chip would be."""
        for layout in (1, 2):
            image, data = self.used(layout)
            self.put("a.img", image)
            self.assertEqual(self.norbd("settle", "a.img"), self.LINE)
            self.assertNotEqual(self.bytes_of("a.img"), image)
            self.assertEqual(self.check()["verdict"], "clean")
            self.assertEqual(self.norbd("read", "a.img"), data)

    def test_a_log(self):
        """What a killed server left in the log beside an image is in the disk of the settled
        one."""
        self.format()
        server = self.serve("a.img")
        client = server.client()
        self.assertEqual(client.write(5, nbd.sector(5)), OK)
        server.kill()
        self.assertEqual(self.norbd("settle", "a.img"), self.LINE)
        self.assertFalse(os.path.exists(self.path("a.img.log")))
        self.assertEqual(self.norbd("read", "a.img", "--sectors", "5:6"), nbd.sector(5))

    def test_cut_between_frames(self):
        """Wherever the connection ends, that is told, the disk is the same, and the next call
        settles the chip."""
        image, data = self.used()
        for frames in (40, 47, 61, *range(80, 1090, 200)):
            peer = self.peer(image)
            peer.programmer.frames_to_end = frames
            done = self.run_norbd("settle", peer.place)
            self.assertEqual((done.status, done.out), (1, b""), frames)
            self.assertIn(f"norbd: chip failed: {peer.place}: ", done.fault)
            peer.programmer.frames_to_end = None
            self.assertEqual(self.norbd("read", peer.place), data)
            self.assertEqual(self.norbd("settle", peer.place), self.LINE)
            self.assertEqual(self.norbd("read", peer.place), data)

    def test_torn(self):
        """A program or an erase that a loss of the chip's power tore, anywhere in it, leaves the
        disk as it was, and the next call settles the chip."""
        chance = kit.dice("settled")
        image, data = self.used()
        for left in range(1, 166, 17):
            peer = self.peer(image)
            begun = 0

            def spoil(kind, _at, new, old):
                nonlocal begun
                begun += 1
                if begun != left:
                    return new if begun < left else old
                peer.pull()
                return bytes(a & (b | chance.getrandbits(8)) if kind == "program" else
                             a | chance.getrandbits(8) for a, b in zip(old, new))
            peer.chip.spoil = spoil
            done = self.run_norbd("settle", peer.place)
            self.assertEqual((done.status, done.out), (1, b""), left)
            peer.chip.spoil = None
            self.assertEqual(self.norbd("read", peer.place), data)
            self.assertEqual(self.norbd("settle", peer.place), self.LINE)
            self.assertEqual(self.norbd("read", peer.place), data)

    def test_progress(self):
        """Where standard error is a terminal it says there how far it is, about once a second."""
        peer = self.peer(self.used()[0])
        self.slow_down(peer, 0.002)
        ours, theirs = pty.openpty()
        process = self.start("settle", peer.place, stderr=theirs)
        os.close(theirs)
        done = self.end_of(process)
        shown = os.read(ours, 65536).decode() if done.status == 0 else ""
        os.close(ours)
        self.assertEqual((done.status, done.out), (0, self.LINE))
        self.assertRegex(shown, r"norbd: \d{1,2} %, \d+ KiB/s")

    def test_what_is_refused(self):
        """A chip that is corrupt, not clean or not formatted is left as it is."""
        corrupt, dirty = kit.formatted(), kit.formatted()
        corrupt[0x2400], dirty[0x4300] = 0x55, 0x55
        for memory, told in ((corrupt, "corrupt: {}: norbd check says why"),
                             (dirty, "not clean: {}: " + kit.MEND_A_CHIP),
                             (bytes(65536), "not formatted: {}")):
            peer = self.peer(memory)
            self.refused(told.format(peer.place), "settle", peer.place)
            self.assertEqual((peer.chip.memory, peer.chip.programs, peer.chip.erases),
                             (memory, 0, 0))


class Failing(ChipCase):
    def test_a_write_enable_that_stays(self):
        """WEL that isn't cleared by 04h is found at the start."""
        peer = self.peer()
        peer.chip.status[0] = 2
        peer.chip.frame = self.ignoring_04(peer.chip, peer.chip.frame)
        self.chip_fails(peer, "status register 1 is 0x02 though nothing is in progress", "check",
                        "CHIP")

    def ignoring_04(self, chip, frame):
        """The frames of a chip that doesn't end its write enable."""
        return lambda sent, count: b"" if sent[0] == 0x04 else frame(sent, count)

    def test_chips_that_are_refused(self):
        """Another id, another table, a scheme of protection: each line refuses it, and nothing is
        written."""
        for change, cause in (
                (lambda chip: setattr(chip, "id", b"\xC2\x40\x10"), "id c2 40 10 isn't served: the "
                 "W25Q128JV and smaller ones of its kind are, ef 40 10 to ef 40 18"),
                (lambda chip: setattr(chip, "sfdp", b"\xFF" * 256), "its table (SFDP) is refused: "
                 "the signature is not SFDP: ff ff ff ff at 0x00"),
                (lambda chip: chip.status.__setitem__(1, 0x40), "CMP or WPS is set in the status "
                 "registers 2 and 3, 0x40 and 0x00"),
                (lambda chip: chip.status.__setitem__(2, 0x04), "CMP or WPS is set in the status "
                 "registers 2 and 3, 0x00 and 0x04")):
            peer = self.peer()
            change(peer.chip)
            for line in ("format CHIP --kib 64 --yes", "serve CHIP --unix a.sock", "check CHIP",
                         "serve CHIP --unix a.sock --read-only", "write CHIP", "settle CHIP"):
                self.chip_fails(peer, cause, *line.split())
            self.assertEqual((peer.chip.memory, peer.chip.programs, peer.chip.erases),
                             (kit.formatted(), 0, 0))

    def test_ends_between_each_two_frames(self):
        """Wherever the connection ends within a write, the write has no reply, the next start finds
        every other sector, and this one old or new."""
        for frames in range(0, 25):
            peer = self.peer()
            server = self.serve(peer.place)
            client = server.client()
            self.assertEqual(client.write(2, nbd.sector(2)), OK)
            peer.programmer.frames_to_end = frames
            with self.assertRaises(nbd.Closed):
                client.write(2, nbd.sector(2, 1))
                client.read(2)
                client.write(2, nbd.sector(2, 1))
            self.assertEqual(server.end().status, 1)
            peer.programmer.frames_to_end = None
            client = self.serve(peer.place, "--conns", "1").client()
            self.assertIn(client.read(2), (nbd.sector(2), nbd.sector(2, 1)))
            self.assertEqual(client.read(0) + client.read(3), bytes(1024))
            self.assertEqual(client.write(2, nbd.sector(2, 2)), OK)
            client.disc()

    def test_a_loss_of_the_chips_power(self):
        """A program or an erase that a loss tore, at any bytes, among WRITEs and TRIMs, leaves a
        chip that is served again with every acknowledged sector."""
        chance, memory, held = kit.dice("torn"), kit.formatted(), {}
        for turn in range(14):
            peer = self.peer(memory)
            server = self.serve(peer.place, *(["--tidy", "eager"] if turn % 2 else []))
            client = server.client()
            for number in range(70):
                self.assertIn(client.read(number), held.get(number, [bytes(512)]))
            left = chance.randrange(1, 400)

            def spoil(kind, at, new, old):
                nonlocal left
                left -= 1
                if left > 0:
                    return new
                torn = (bytes(a & (b | chance.getrandbits(8)) for a, b in zip(old, new))
                        if kind == "program" else
                        chance.choice((
                            bytes(chance.getrandbits(8) for _ in range(16)) * (len(new) // 16),
                            new[:len(new) // 2] + old[len(new) // 2:], bytes(len(new)),
                            bytes(a | chance.getrandbits(8) for a in old))))
                if left == 0:
                    peer.pull()
                    return torn
                return old
            peer.chip.spoil = spoil
            try:
                for step in range(400):
                    number = chance.randrange(70) if turn else step % 70
                    trims = turn and chance.randrange(5) == 0
                    data = bytes(512) if trims else nbd.sector(number, 1000 * turn + step)
                    held[number] = held.get(number, [bytes(512)]) + [data]
                    self.assertEqual(client.trim(number) if trims else client.write(number, data),
                                     OK)
                    held[number] = [data]
            except nbd.Closed:
                pass
            server.kill()
            memory = peer.chip.memory


class Greeting(ChipCase):
    def greeted(self, cause, **fields):
        peer = self.peer()
        for field, value in fields.items():
            setattr(peer.programmer, field, value)
        self.chip_fails(peer, cause, "check", "CHIP")
        return peer

    def test_programmers_that_are_refused(self):
        """A programmer of another version, without SPI, without a command that is needed or with
        frames that are too short is refused by name."""
        for version in (0, 2, 256, 257, 513):
            self.greeted(f"version {version} of serprog", version=version)
        self.greeted("no SPI among its buses 0x07", buses=7)
        for code in (0x12, 0x13):
            self.greeted(f"command {code:#04x} is not offered", lacks=(code,))
        for code in (0x01, 0x02, 0x05, 0x08, 0x11, 0x12):
            self.greeted(f"command {code:#04x} is refused", refuses=(code,))
        self.greeted("sends 259 bytes in a frame, 260 are needed", sends=259)
        self.greeted("receives 4095 bytes in a frame, 4096 are needed", receives=4095)

    def test_programmers_that_are_taken(self):
        """One that just fits, tells no name, no limits and no buses, or sends the rest of an old
        answer first, is used."""
        for fields in (dict(sends=260, receives=4096), dict(lacks=(0x03, 0x05, 0x08, 0x11)),
                       dict(buses=0x0F), dict(lacks=(0x04, 0x14)), dict(buffers=0),
                       dict(left=b"\x15"), dict(left=b"\x15\x06" * 3),
                       dict(left=b"\x06" * 254), dict(left=b"\xFF" * 100)):
            peer = self.peer()
            for field, value in fields.items():
                setattr(peer.programmer, field, value)
            self.assertIn(b"clean 70 sectors", self.norbd("check", peer.place))
            self.assertEqual(peer.programmer.commands[:10], [0x00] * 8 + [0x10] * 2)

    def test_programmers_out_of_step(self):
        """One that doesn't answer SYNCNOP by NAK and ACK, as by ACK alone, is none."""
        for sync in (b"\x06" * 300, b"\x15" * 300, b"\0" * 300, b"\x06\x15" + b"\0" * 300):
            self.greeted("no serprog programmer answers", sync=sync)

    def test_its_order(self):
        """First come NOPs and SYNCNOP, then the version, the commands, the bus, the clock, what it
        is, and its pins, and no frame before these."""
        peer = self.peer()
        peer.programmer.pins = False
        self.assertEqual(self.run_norbd("check", peer.place, "--spi-hz", "1000000").status, 0)
        commands = peer.programmer.commands[8:]
        self.assertEqual(commands[:7], [0x10, 0x10, 0x01, 0x02, 0x05, 0x12, 0x14])
        self.assertEqual(set(commands[7:11]), {0x03, 0x04, 0x08, 0x11})
        self.assertEqual(commands[11], 0x15)
        self.assertEqual(set(commands[12:-1]), {0x13})
        self.assertEqual(commands[-1], 0x15)


class Places(ChipCase):
    def test_words(self):
        """`tcp:` and `serial:` at the beginning of a word name a programmer; any other is a
        file."""
        for word, cause in (("tcp:", "tcp:HOST:PORT is wanted"),
                            ("tcp:127.0.0.1", "tcp:HOST:PORT is wanted"),
                            ("tcp:nohost.invalid:5000", "unknown host"),
                            ("serial:", "no such file or directory"),
                            ("serial:tcp:a", "no such file or directory"),
                            ("serial:/dev/no-such-device", "no such file or directory")):
            self.refused(f"chip failed: {word}: {cause}", "check", word)
        for word in ("serial", "tcp", "Serial:/dev/ttyACM0", " serial:/dev/ttyACM0", "TCP:a:1",
                     "./serial:/dev/ttyACM0"):
            self.refused(f"image failed: {word}: no such file or directory", "check", word)

    def test_nobody_listens(self):
        """A port at which nobody listens is told, by each command."""
        place = f"tcp:127.0.0.1:{kit.free_port()}"
        for line in ("check {}", "show {}", "read {}", "write {}", "format {} --kib 64 --yes",
                     "serve {} --unix a.sock"):
            self.refused(f"chip failed: {place}: connection refused", *line.format(place).split())

    def test_what_is_no_serial_device(self):
        """Files, folders and devices that are no programmer are refused, and left as they are."""
        self.put("a.img", kit.formatted())
        os.mkdir(self.path("d"))
        self.refused("chip failed: serial:/dev/null: nothing came in 8 tries: is it a serprog "
                     "programmer, does another client use it?", "check", "serial:/dev/null")
        for path, cause in (("a.img", "not a character device"), ("d", "is a directory"),
                            ("/dev/full", "the connection ended"),
                            ("/dev/zero", "no serprog programmer answers")):
            self.refused(f"chip failed: serial:{path}: {cause}", "check", f"serial:{path}")
            self.refused(f"chip failed: serial:{path}: {cause}", "format", f"serial:{path}",
                         "--kib", "64", "--yes")
        self.assertEqual(self.bytes_of("a.img"), kit.formatted())

    def test_a_host_name(self):
        """A name is looked up."""
        peer = self.peer()
        try:
            socket.getaddrinfo("localhost", None, socket.AF_INET)
        except OSError:
            self.skipTest("localhost has no address here")
        self.norbd("check", peer.place.replace("127.0.0.1", "localhost"))


@kit.needs("strace")
class ShortWrites(ChipCase):
    def test_the_rest_of_a_short_write_is_sent(self):
        """Where the system takes one byte of a command alone the rest is sent, over TCP and by a
        serial device."""
        for kind, call, when in ((TcpPeer, "sendmsg", 1), (SerialPeer, "write", 12)):
            peer = self.peer(kind=kind)  # the 12th write is of the first frame, a read of the id
            self.put("strace.log", b"")
            process = self.start("check", peer.place, under=kit.traced(
                "sendto,sendmsg,write,writev", "-e", f"inject={call}:retval=1:when={when}"))
            command, sent = b"\x13\1\0\0\3\0\0\x9F", []

            def rest():
                sent[:] = self.sent()
                short = [at for at, (data, taken) in enumerate(sent)
                         if data and taken == 1 and command.startswith(data) and len(data) > 1]
                return b"".join(it for it, _ in sent[short[0] + 1:]) if short else b""
            kit.wait_for(lambda: len(rest()) >= 7, 5)
            self.assertEqual(rest()[:7], command[1:], sent)
            process.kill()

    def sent(self):
        """What was to be sent by each call, and how much of it the system took."""
        if not os.path.exists(self.path("strace.log")):
            return []
        text = self.bytes_of("strace.log").decode()
        return [(b"".join(bytes.fromhex(it.replace("\\x", "")) for it in kit.STRING.findall(text)),
                 result) for _, text, result in kit.calls_in(text.replace(" (INJECTED)", ""))]


if __name__ == "__main__":
    unittest.main()
