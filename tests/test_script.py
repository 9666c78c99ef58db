"""Transcripts of `norbd script`, by docs/SCRIPT.md; which change of a chip a loss falls on is
counted by docs/DISK.md."""
import socket
import struct
import unittest

import kit
import nbd
from nbd import OK, READ, WRITE, reply, request


def record(kind, connection, data=b""):
    """A record of a script."""
    return kind + bytes([connection]) + struct.pack(">I", len(data)) + data


def told(connection, kind, data=b""):
    """A record of a transcript."""
    return bytes([connection]) + kind + struct.pack(">I", len(data)) + data


def piece(data, connection=0):
    return record(b"P", connection, data)


def arm(count, kind, mask):
    """A loss of power in the count-th frame (kind 0) or change (1) from now that counts."""
    return record(b"C", 0xFF, struct.pack(">IBB", count, kind, mask))


def option_reply(kind, data=b""):
    return struct.pack(">QIII", nbd.OPTION_REPLY, nbd.GO, kind, len(data)) + data


TIDY, RESTORE, RESTORED = record(b"T", 0xFF), record(b"R", 0xFF), told(0xFF, b"A")
DONE, LOST, GREETED = told(0, b"A"), told(0, b"L"), told(0, b"D", nbd.GREETING)
OPEN, START = record(b"O", 0), (record(b"O", 0) + piece(b"\0\0\0\3")
                                + piece(nbd.option(nbd.GO, nbd.export())))
STARTED = GREETED + DONE + DONE + told(0, b"D", (
    option_reply(nbd.REP_INFO, struct.pack(">HQH", 0, 35840, 0x016D))
    + option_reply(nbd.REP_INFO, struct.pack(">HIII", 3, 512, 4096, 65536))
    + option_reply(nbd.ACK))) + DONE


def write(byte, first=0, count=1):
    return piece(request(WRITE, 512 * first, 512 * count, bytes([byte]) * 512 * count))


def read(first=0, count=1):
    return piece(request(READ, 512 * first, 512 * count, cookie=2))


def data(byte, count=1):
    return told(0, b"D", reply(OK, 2, bytes([byte]) * 512 * count)) + DONE


WRITTEN = told(0, b"D", reply()) + DONE
ROWS = [
    ("nothing", b"", b""),
    ("what was written is read; the READ comes in two pieces, and the connection goes",
     START + write(0x11) + piece(request(READ, 0, 512, cookie=2)[:27]) + piece(b"\0")
     + record(b"G", 0), STARTED + WRITTEN + DONE + data(0x11) + DONE),
    ("a connection that was never opened", piece(b"\0", 3) + record(b"G", 3),
     told(3, b"N") + told(3, b"N")),
    ("one that is open, an empty piece, and a piece at which the server closes",
     START + OPEN + piece(b"") + piece(bytes(28)) + piece(b""),
     STARTED + told(0, b"N") + DONE + told(0, b"X") + told(0, b"N")),
    ("ABORT has a reply before the close; a closed connection is opened anew",
     OPEN + piece(b"\0\0\0\3") + piece(nbd.option(nbd.ABORT)) + START,
     GREETED + DONE + DONE + told(0, b"D", struct.pack(">QIII", nbd.OPTION_REPLY, 2, 1, 0))
     + told(0, b"X") + STARTED),
    ("several units in one piece, and what is behind a close", START + piece(
        request(nbd.FLUSH, cookie=1) + request(READ, 35840, 512, cookie=2)
        + request(nbd.DISC) + request(nbd.FLUSH, cookie=3)),
     STARTED + told(0, b"D", reply(OK, 1)) + told(0, b"D", reply(nbd.EINVAL, 2)) + told(0, b"X")),
    ("the sector is old; with the power off no connection is opened and nothing is tidied",
     START + arm(4, 1, 0) + write(0x11) + record(b"O", 1) + TIDY + RESTORE + START + read(),
     STARTED + LOST + told(1, b"L") + told(0xFF, b"L") + RESTORED + STARTED + data(0)),
    ("the sector is new", START + arm(4, 1, 0xFF) + write(0x11) + RESTORE + START + read(),
     STARTED + LOST + RESTORED + STARTED + data(0x11)),
    ("an arming that is disarmed", START + arm(4, 1, 0) + arm(0, 0, 0) + write(0x11) + read(),
     STARTED + WRITTEN + data(0x11)),
    ("a loss in the first change for the second sector of a WRITE",
     START + arm(5, 1, 0) + write(0x33, 6, 2) + RESTORE + START + read(6, 2),
     STARTED + LOST + RESTORED + STARTED + told(0, b"D", reply(OK, 2, b"\x33" * 512 + bytes(512)))
     + DONE),
    ("a loss in the erase of a Tidy, which leaves FCh, and in the first frame of a Restore",
     START + write(0x11) + write(0x22) + arm(8, 1, 0xFC) + TIDY + arm(1, 0, 0) + RESTORE + RESTORE
     + START + read(), STARTED + WRITTEN + WRITTEN + told(0xFF, b"L") * 2 + RESTORED + STARTED
     + data(0x22)),
    ("a Restore with the power on closes nothing", START + write(0x11) + RESTORE + read(),
     STARTED + WRITTEN + RESTORED + data(0x11)),
]
BAD = [  # no such event, no such connection, too long, bytes where there are none, and ends inside
    record(b"X", 0), record(b"O", 8), record(b"P", 0, bytes(65537)), record(b"G", 0, b"\0"),
    record(b"T", 0), record(b"R", 1), arm(1, 2, 0), record(b"C", 0xFF, bytes(5)),
    record(b"C", 0, bytes(6)), RESTORE[:4], piece(bytes(4))[:-1], b"O"]


class Scripts(kit.Case):
    def test_transcripts(self):
        """Each script has its transcript, and no fault."""
        for name, script, transcript in ROWS:
            with self.subTest(name):
                self.assertEqual(self.norbd("script", "--kib", "64", data=script), transcript)

    def test_bytes_one_by_one(self):
        """The same where each read of the program gets one byte."""
        for name, script, transcript in ROWS[1:]:
            with self.subTest(name):
                pieces = (script[at:at + 1] for at in range(len(script)))
                self.assertEqual(self.in_pieces(pieces, "script", "--kib", "64"), transcript)

    def test_records_come_at_once(self):
        """The end of an event is told before the next event is sent."""
        ours, theirs = socket.socketpair()
        process = self.start("script", "--kib", "64", stdin=theirs)
        theirs.close()
        for _ in range(5):
            ours.sendall(OPEN + record(b"G", 0))
            self.assertEqual(process.stdout.read(36), GREETED + DONE + DONE)
        ours.close()
        self.assertEqual(self.end_of(process).status, 0)

    def test_bad_records(self):
        """At a bad record the program ends with status 1; what came before it is told, and of it
        nothing is done."""
        for bad in BAD:
            done = self.run_norbd("script", "--kib", "64", data=START + bad)
            self.assertEqual((done.status, done.out, done.fault),
                             (1, STARTED, "norbd: bad record\n"), bad[:8])

    def test_eight_connections(self):
        """Eight connections see one disk, on chips of two sizes."""
        for kib, sectors in ((64, 70), (1024, 1540)):
            script = b"".join(START.replace(b"O\0", bytes([0x4F, it])).replace(
                b"P\0", bytes([0x50, it])) for it in range(8))
            script += piece(request(WRITE, 512 * sectors - 512, 512, b"\x77" * 512), 7)
            script += b"".join(piece(request(READ, 512 * sectors - 512, 512, cookie=2), it)
                               for it in range(8))
            out = self.norbd("script", "--kib", str(kib), data=script)
            answers = told(7, b"D", reply()) + told(7, b"A") + b"".join(
                told(it, b"D", reply(OK, 2, b"\x77" * 512)) + told(it, b"A") for it in range(8))
            self.assertEqual(out[-len(answers):], answers)

    def test_sizes(self):
        """A chip has the size that the line says, in steps of 64 KiB, and its disk the sectors of
        docs/LAYOUT.md."""
        chance = kit.dice("sizes of scripts")
        for kib in [64 * it for it in range(1, 17)] + [16384] + [
                64 * chance.randrange(17, 65) for _ in range(8)]:
            sectors = 7 * (7 * (kib // 4 - 4) // 8)
            out = self.norbd("script", "--kib", str(kib), data=START)
            self.assertEqual(out, STARTED.replace((35840).to_bytes(8, "big"),
                                                  (512 * sectors).to_bytes(8, "big")))

    def test_every_loss_of_a_write(self):
        """Whichever frame of two WRITEs of a sector loses the power, whatever it leaves, the sector
        is then old or new, an acknowledged WRITE is kept, and both READs tell the same."""
        chance = kit.dice("losses")
        for count in range(1, 37):  # four frames of each of 4 and 5 changes (docs/DISK.md)
            mask = chance.choice([0, 0xFF, 0xA5, 0xFE, 0xFC, 0xF8])
            out = self.norbd("script", "--kib", "64", data=(
                START + arm(count, 0, mask) + write(0x11) + write(0x22) + arm(0, 0, 0) + RESTORE
                + START + read() + RESTORE + read()))
            self.assertTrue(out.startswith(STARTED))
            out = out[len(STARTED):]
            acknowledged = out.startswith(WRITTEN)
            self.assertEqual(acknowledged, count > 16)
            out = out[len(WRITTEN) * acknowledged + len(LOST) * (2 - acknowledged):]
            may = (0x11, 0x22) if acknowledged else (0, 0x11)
            self.assertIn(out, [RESTORED + STARTED + data(it) + RESTORED + data(it) for it in may])

    def test_outputs_that_fail(self):
        """Where the output takes so many bytes it has that beginning of the transcript, status
        1."""
        whole = GREETED + DONE + told(0, b"N")
        for room in (0, 1, 10, 24, 30, 35, 36):
            with open(self.path("out"), "wb") as out:
                done = self.run_norbd("script", "--kib", "64", data=OPEN + OPEN, stdout=out,
                                      preexec_fn=kit.limit_files(room))
            self.assertEqual((done.status, done.fault), (0, "") if room == 36 else (
                1, "norbd: output failed: file too large\n"))
            self.assertEqual(self.bytes_of("out"), whole[:room])

    def test_inputs_that_fail(self):
        """Where a read fails, what came before it is told, and status 1 follows."""
        for script, transcript in ((b"", b""), (OPEN, GREETED + DONE)):
            self.input_fails(script, transcript, "script", "--kib", "64")


if __name__ == "__main__":
    unittest.main()
