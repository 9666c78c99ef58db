"""Programmers and chips that fail while a disk is served, by docs/REAL-CHIP.md: what is told, and
that nothing that was acknowledged is lost. The programmer and its chip are Python's."""
import time
import unittest

import kit
import nbd
import serprog
from faults import (ADVICE, BACK, BYTE, ENDED, READ_AGAIN, SILENT, FaultCase, at_first, end, left,
                    rewrite, spoils, told_in)
from nbd import OK
from serprog import SerialPeer, TcpPeer

PROGRAM = "a program at 0x[0-9a-f]+"
REFUSED = "the programmer refused it"
BUSY = f"{PROGRAM}: busy for 3 seconds: power the chip off and on"


def sets(field, does):
    """What gives a peer's programmer a way to fail."""
    return lambda peer: setattr(peer.programmer, field, does())


def waits(seconds):
    def does(answer):
        time.sleep(seconds)
        return answer
    return does


def torn(new, old):
    return bytes(a if at % 3 else b for at, (a, b) in enumerate(zip(new, old)))


def forgotten(_, old):
    return bytes(old)


def busy(seconds):
    """What makes a chip busy for so long from its next program on."""
    def begin(peer):
        frame, until = peer.chip.frame, [None]

        def slow(sent, count):
            if sent[0] == 0x02 and until[0] is None:
                until[0] = time.monotonic() + seconds
            if until[0] and time.monotonic() < until[0] and sent[0] not in (0x02, 0x06):
                return (b"\x03" if sent[0] == 0x05 else b"\xFF") * count
            return frame(sent, count)
        peer.chip.frame = slow
    return begin


class Once(FaultCase):
    """A fault that comes once: the disk is served on."""

    def test_the_line(self):
        """A connection that ends before a frame, in its command, after it and in its answer, a NAK,
        a byte before ACK: in each frame of a program, and in an erase."""
        rows = []
        for code in (0x06, 0x02, 0x05, 0x03, 0x20):
            rows += [("within", code, end, ENDED), ("before", code, end, ENDED),
                     ("change", code, lambda answer: end(), ENDED),
                     ("change", code, lambda answer: end(answer[:len(answer) // 2]), ENDED),
                     ("change", code, lambda answer: serprog.NAK, REFUSED),
                     ("change", code, lambda answer: b"\x55" + answer,
                      "0x55 came in the place of ACK: the programmer is out of step")]

        def row(field, code, does, why):
            erases = code == 0x20
            doing = "an erase" if erases else "a program"
            self.goes_on(sets(field, lambda: at_first(code, does)), f"{doing} at 0x[0-9a-f]+: {why}",
                         *(["--tidy", "eager"] if erases else []),
                         ask=rewrite(self) if erases else None)
        self.each(row, *rows)

    def test_a_cable_that_is_pulled(self):
        """A connection that ends between two commands is made anew, and so is one by a device."""
        self.goes_on(lambda peer: peer.pull(), f"{PROGRAM}: {ENDED}")

    def test_two_acks(self):
        """An ACK that comes twice is named as what it may be."""
        self.goes_on(sets("change", lambda: at_first(0x05, lambda answer: serprog.ACK + answer)),
                     f"the chip left the model in {PROGRAM}: in a frame 0x05, byte 0 of its answer, "
                     f"read 0x06, the model allows {BYTE}: 0x06 is ACK, which the programmer may "
                     "have sent twice")

    def test_late_and_lost_answers(self):
        """An answer that comes 6 seconds late is waited for; one of 14 seconds and one that is lost
        count as lost after 10. Where more answers are on the way the next one is taken for it."""
        def late():
            peer = self.peer()
            server, client, held = self.served(peer)
            peer.programmer.change = at_first(0x02, waits(6))
            self.assertEqual(client.write(20, nbd.sector(20)), OK)
            self.assertEqual(told_in(server.kill().err.decode()), [])
            self.holds(peer.chip.memory, {**held, 20: nbd.sector(20)})

        def lost(kind, code, does, why):
            self.goes_on(sets("change", lambda: at_first(code, does)), f"{PROGRAM}: {why}", kind=kind)
        out_of_step = f"{BYTE} came in the place of ACK: the programmer is out of step"
        rows = [(lost, kind, *row) for kind in (TcpPeer, SerialPeer)
                for row in ((0x05, waits(14), SILENT), (0x03, lambda answer: b"", SILENT),
                            (0x03, lambda answer: answer[:-1], SILENT),
                            (0x06, lambda answer: b"", out_of_step))]
        self.each(lambda does, *row: does(*row), (late,), *rows, at_once=9)

    def test_bits_that_flip_in_reads(self):
        """One bit of one READ, and a bit of each fiftieth READ of a sector."""
        def flip(answer):
            return answer[:30] + bytes([answer[30] ^ 0x20]) + answer[31:]
        where = f"in a frame 0x03, byte 29 of its answer, read {BYTE}, the model allows {BYTE}"
        self.goes_on(sets("change", lambda: at_first(0x03, flip)), left("a read", where),
                     ask=lambda client, held: self.assertEqual(client.read(5), held[5]))

        def some():
            count = [0]

            def change(of, answer):
                sector = of == 0x03 and len(answer) == 1 + 512
                count[0] += sector
                return flip(answer) if sector and count[0] % 50 == 0 else answer
            return change

        def read(client, held):
            for turn in range(120):
                self.assertEqual(client.read(turn % 12), held[turn % 12])
        self.goes_on(sets("change", some), left("a read", where), ask=read, times=2)

    def test_a_change_that_is_done_in_part(self):
        """A program that is forgotten or torn, as where the chip alone loses its power, is done
        again; so is an erase, of which all, half or none is done, or each bit is 0."""
        def row(kind, does):
            doing = {"program": "a program", "erase": "an erase"}[kind]
            self.goes_on(spoils(kind, does), left(doing),
                         *(["--tidy", "eager"] if kind == "erase" else []),
                         ask=rewrite(self) if kind == "erase" else None)
        self.each(row, ("program", forgotten), ("program", torn), ("erase", forgotten),
                  ("erase", torn), ("erase", lambda new, old: new[:2048] + old[2048:]),
                  ("erase", lambda new, old: bytes(len(old))))

    def test_busy_for_long(self):
        """A chip that is busy for more than 3 seconds counts as lost; where it comes back it is
        served on."""
        peer = self.peer()
        server, client, held = self.served(peer)
        busy(6)(peer)
        held[20] = nbd.sector(20, 1)
        self.assertEqual(client.write(20, held[20]), OK)
        told = told_in(server.kill().err.decode())
        self.assertRegex(told[0], f"^norbd: the chip is lost: {BUSY}{READ_AGAIN}$")
        self.assertEqual(told[1:], ["norbd: the chip is busy, for 1 s now", BACK])
        self.holds(peer.chip.memory, held)


class Lasting(FaultCase):
    """A fault that stays ends the server, with its cause, and what was acknowledged is there."""

    def test_changes_that_are_not_done(self):
        """Programs that are forgotten, and erases that are."""
        def forget(kind):
            return lambda peer: setattr(peer.chip, "spoil", lambda of, at, new, old:
                                        old if of == kind else new)

        def write_on(client, _):
            for turn in range(40):
                for number in range(12):
                    client.write(number, nbd.sector(number, turn))
        peer, held, data = self.ends(forget("program"), left("a program"), left("a program"))
        self.holds(peer.chip.memory, held, [(20, data)])
        peer, held, data = self.ends(forget("erase"), left("an erase"), left("an erase"), "--tidy",
                                     "eager", ask=write_on)
        others = [(number, nbd.sector(number, turn)) for number in range(12) for turn in range(40)]
        self.holds(peer.chip.memory, held, others)

    def test_another_page_is_damaged(self):
        """A program that changes another page too is found where that is read, or where the chip is
        looked at once more; nothing is written to it any more."""
        def begin(also):
            def begin(peer):
                def spoil(kind, at, new, old):
                    peer.hit = peer.chip.memory.index(nbd.sector(0)) + 16
                    peer.chip.memory[peer.hit] ^= 1
                    peer.chip.spoil = None
                    peer.begun = peer.chip.programs
                    return old if also else new
                peer.chip.spoil = spoil
            return begin

        def read(client, _):
            self.assertEqual(client.write(20, nbd.sector(20, 1)), OK)
            client.read(0)
        peer, held, data = self.ends(begin(True), left("a program"), left("a read"))
        self.assertEqual(peer.chip.programs, peer.begun)
        peer.chip.memory[peer.hit] ^= 1
        self.holds(peer.chip.memory, held, [(20, data)])
        where = f"in a frame 0x03, byte 16 of its answer, read {BYTE}, the model allows {BYTE}"
        peer, held, data = self.ends(begin(False), left("a read", where), left("a read"), ask=read)
        peer.chip.memory[peer.hit] ^= 1
        self.holds(peer.chip.memory, {**held, 20: data})

    def test_trust(self):
        """With --trust a program that was forgotten is found when its page is next read, and may
        have taken the sector with it; no other."""
        def forget(peer):
            peer.chip.spoil = lambda kind, at, new, old: (
                old if new == nbd.sector(20, 1)[256:] else new)

        def write_and_read(client, held):
            self.assertEqual(client.write(20, nbd.sector(20, 1)), OK)
            client.read(20)
        where = f"in a frame 0x03, byte [0-9]+ of its answer, read {BYTE}, the model allows {BYTE}"
        peer, held, data = self.ends(
            forget, left("a read", where), left("a read"), "--trust", ask=write_and_read)
        memory = peer.chip.memory
        found = self.norbd("read", self.peer(memory=memory).place)
        for number in set(range(70)) - {20}:
            self.assertEqual(found[512 * number:512 * number + 512],
                             held.get(number, bytes(512)), number)

    def test_registers(self):
        """WEL that stays set, which a restore clears, and then comes again."""
        why = (f"the chip left the model in {PROGRAM}: in a frame 0x05, byte 0 of its answer, read "
               f"0x02, the model allows 0x00{ADVICE}")
        self.ends(lambda peer: setattr(peer.chip, "stays", 2), why, why, between=[BACK])

    def test_no_end_of_busy(self):
        """A chip that stays busy, and one that is gone: both are told at once, and end the server
        after a while."""
        def unplug(peer):
            peer.programmer.change = lambda of, answer: (
                serprog.ACK + b"\xFF" * (len(answer) - 1) if of else answer)
        gone = r"no chip answers \(status ff\): is the clip seated, has the chip power\?"

        def row(begin, first, last, between):
            peer, held, data = self.ends(begin, first, last, between=between)
            peer.chip.finish() if peer.chip.pending else None
            self.holds(peer.chip.memory, held, [(20, data)])
        self.each(row, (busy(100), BUSY, "the chip's return: busy for 30 seconds: power the chip off "
                        "and on", ["norbd: the chip is busy, for 1 s now"]),
                  (unplug, f"{PROGRAM}: {gone}", f"the chip's return: {gone}", []))

    def test_a_programmer_that_is_gone(self):
        """It is waited for some seconds, and then that is the end."""
        peer = self.peer()
        server, client, held = self.served(peer)
        peer.close()
        with self.assertRaises(nbd.Closed):
            client.write(20, nbd.sector(20))
        done = server.end()
        told = told_in(done.fault)
        self.assertRegex(told[0], f"^norbd: the chip is lost: {PROGRAM}: {ENDED}{READ_AGAIN}$")
        self.assertEqual(told[1:],
                         [f"norbd: chip failed: {peer.place}: the programmer isn't reached again"])
        self.holds(peer.chip.memory, held, [(20, nbd.sector(20))])

    def test_a_bit_that_flips_in_the_start(self):
        """A bit of a sector that was read wrongly at the start is found when it is read, since the
        mount programmed its block; one where nothing is stored is refused, or doesn't matter. The
        next start is clean."""
        peer = self.peer()
        server, client, held = self.served(peer)
        server.kill()

        def flips(place):
            def change(of, answer):
                if of == 0x03 and peer.chip.reads[-1] == place & ~0xFFF and len(answer) == 4097:
                    at = 1 + place % 4096
                    answer = answer[:at] + bytes([answer[at] ^ 0x01]) + answer[at + 1:]
                return answer
            peer.programmer.change = change
        flips(0xE800)                                   # a free slot
        self.refused(f"not clean: {peer.place}: {kit.MEND_A_CHIP}", "serve", peer.place, "--unix",
                     "a.sock")
        flips(0x0800)                                   # behind the superblock
        server = self.serve(peer.place)
        client = server.client()
        for number, data in held.items():
            self.assertEqual(client.read(number), data)
        self.assertEqual(told_in(server.kill().err.decode()), [])
        flips(peer.chip.memory.index(held[0]) + 16)
        server = self.serve(peer.place)
        client, peer.programmer.change = server.client(), None
        with self.assertRaises(nbd.Closed):
            client.read(0)
        self.assertRegex(told_in(server.end().fault)[-1], f"{left('a read')}$")
        self.holds(peer.chip.memory, held)


if __name__ == "__main__":
    unittest.main()
