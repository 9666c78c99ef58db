"""A chip in memory, by docs/CHIP.md, and a programmer that speaks serprog for it, by flashrom's
serprog-protocol.txt, version 1. Both fail where they are told to. And a client of that protocol."""
import contextlib
import os
import queue
import socket
import termios
import threading
import time
import tty

import kit
import nbd

ACK, NAK = b"\x06", b"\x15"
PARAMETERS = {0x09: 4, 0x0A: 3, 0x0C: 6, 0x0D: None, 0x0E: 4, 0x12: 1, 0x14: 4, 0x15: 1}


def table(size):
    """The 256 SFDP bytes of the modelled chip."""
    made = bytearray(b"\xFF" * 256)
    made[0:16] = bytes.fromhex("53464450060100FF 00060110800000FF")
    made[0x80:0x84] = bytes.fromhex("01200000")
    made[0x84:0x88] = (8 * size - 1).to_bytes(4, "little")
    made[0x9C:0xA0] = bytes.fromhex("0C2010D8")
    made[0xA0:0xA4] = bytes.fromhex("00FF00FF")
    made[0xA8:0xAC] = bytes.fromhex("80000000")
    return made


class Chip:
    """A W25Q128JV or a smaller chip of its kind.

    `spoil` may hold a function of an operation ("program" or "erase"), its address and the bytes
    that it would leave; what it answers is what the chip has then."""

    def __init__(self, kib=64, memory=None):
        self.memory = bytearray(memory if memory is not None else b"\xFF" * (1024 * kib))
        self.id = bytes([0xEF, 0x40, (len(self.memory) - 1).bit_length()])
        self.sfdp = table(len(self.memory))
        self.status = [0, 0, 0]
        self.polls = 1           # status reads that show BUSY
        self.left = 0            # of the operation in progress
        self.pending = None
        self.erased = [0] * (len(self.memory) // 4096)
        self.programs = self.erases = self.status_writes = 0
        self.frames = []         # the code of each frame
        self.reads = []          # the address of each read
        self.spoil = None
        self.stays = 0           # bits of status register 1 that stay set
        self.early = False       # whether a status write shows its bits while BUSY

    def begin(self, change):
        self.pending, self.left = change, self.polls
        self.status[0] |= 1

    def finish(self):
        pending, self.pending = self.pending, None
        self.status[0] &= 0xFC
        self.status[0] |= self.stays
        pending()

    def program(self, at, data):
        page = at & ~0xFF
        new = bytearray(self.memory[page:page + 256])
        for k, byte in enumerate(data):
            new[(at + k) & 0xFF] &= byte
        self.programs += 1
        self.leave("program", page, new)

    def erase(self, at, length):
        for block in range(at // 4096, (at + length) // 4096):
            self.erased[block] += 1
        self.erases += 1
        self.leave("erase", at, bytearray(b"\xFF" * length))

    def leave(self, kind, at, new):
        if self.spoil:
            new = self.spoil(kind, at, new, self.memory[at:at + len(new)])
        self.memory[at:at + len(new)] = new

    def write_status(self, byte):
        self.status_writes += 1
        self.status[0] = byte & 0xFC

    def frame(self, sent, count):
        """Takes the bytes of a frame, and answers so many."""
        code, size = sent[0], len(self.memory)
        self.frames.append(code)
        if code in (0x05, 0x35, 0x15):
            if code == 0x05 and self.pending:
                if self.left == 0:
                    self.finish()
                else:
                    self.left -= 1
            return bytes([self.status[{0x05: 0, 0x35: 1, 0x15: 2}[code]]]) * count
        if self.status[0] & 1:
            return b"\xFF" * count
        at = int.from_bytes(sent[1:4], "big") % size if len(sent) >= 4 else 0
        if code == 0x06:
            self.status[0] |= 2
        elif code == 0x04:
            self.status[0] &= ~2
        elif code == 0x9F:
            return (self.id + b"\xFF" * count)[:count]
        elif code == 0x03:
            self.reads.append(at)
            found = bytes(self.memory[at:at + count])
            return found if len(found) == count else (found + self.memory)[:count]
        elif code == 0x5A:
            return bytes((self.sfdp[at % 256:] + self.sfdp * (count // 256 + 1))[:count])
        elif self.status[0] & 2:
            if self.status[0] & 0x1C and code in (0x02, 0x20, 0xD8):  # all is protected here
                self.status[0] &= ~2
            elif code == 0x01:
                self.begin(lambda: self.write_status(sent[1]))
                if self.early:
                    self.status[0] = sent[1] & 0xFC | 3
            elif code == 0x02:
                self.begin(lambda: self.program(at, sent[4:]))
            elif code == 0x20:
                self.begin(lambda: self.erase(at & ~0xFFF, 4096))
            elif code == 0xD8:
                self.begin(lambda: self.erase(at & ~0xFFFF, 65536))
        return b"\xFF" * count


class End(EOFError):
    """The connection ends once these bytes are sent."""

    def __init__(self, data=b""):
        super().__init__()
        self.data = data


class Programmer:
    """What a programmer answers to serprog's commands. Its fields are how it fails.

    `within` may hold a function of a frame's code, called before the rest of its command is read,
    `before` one called before the chip gets it, and `change` one of that code, or None of another
    command, and of the answer: what it answers is sent. Each may wait, or raise End."""

    def __init__(self, chip):
        self.chip = chip
        self.version, self.buses, self.name = 1, 0x08, b"a test".ljust(16, b"\0")
        self.sends = self.receives = 0      # 0: 2^24
        self.lacks = ()                     # commands that it doesn't offer
        self.refuses = ()                   # commands that it answers by NAK
        self.sync = NAK + ACK               # its answer to SYNCNOP
        self.commands = []                  # all that came, by their codes
        self.end_after = None               # so many commands, and then the connection ends
        self.silent_after = None            # so many commands, and then it answers nothing
        self.frames_to_end = None           # so many O_SPIOP, likewise
        self.frames_to_silence = None       # so many O_SPIOP, and then it answers nothing
        self.buffers = 0xFFFF               # what Q_SERBUF tells
        self.pins = None                    # whether its pin drivers are on; None: it has none
        self.clock = None                   # what was asked for in Hz
        self.most_hz = 24_000_000           # what it sets at most
        self.left = b""                     # an old answer, which the next connection gets first
        self.within = self.before = self.change = self.code = None

    def offered(self):
        made = bytearray(32)
        for code in (0x00, 0x01, 0x02, 0x03, 0x04, 0x05, 0x08, 0x10, 0x11, 0x12, 0x13, 0x14):
            if code not in self.lacks:
                made[code // 8] |= 1 << code % 8
        if self.pins is not None:
            made[2] |= 1 << 5
        return bytes(made)

    def frame(self, sent, count):
        """What the chip answers, or the pin that floats where no driver is on."""
        self.code = sent[0]
        if self.before:
            self.before(sent[0])
        return b"\xFF" * count if self.pins is False else self.chip.frame(sent, count)

    def answer(self, code, take):
        """The answer to a command; `take` gives the bytes that follow its code."""
        data = take(7) if code == 0x13 else take(PARAMETERS.get(code) or 0) if code != 0x13 else b""
        if code in self.refuses:
            return NAK
        if code == 0x13:
            sent, count = int.from_bytes(data[:3], "little"), int.from_bytes(data[3:6], "little")
            if self.within:
                self.within(data[6])
            return ACK + self.frame(data[6:7] + take(sent - 1), count)
        if code == 0x14:
            self.clock = int.from_bytes(data, "little")
            data = min(self.clock, self.most_hz).to_bytes(4, "little")
        if code == 0x15 and self.pins is not None:
            self.pins = data != b"\0"
            return ACK
        return {0x00: ACK, 0x01: ACK + self.version.to_bytes(2, "little"),
                0x02: ACK + self.offered(), 0x03: ACK + self.name,
                0x04: ACK + self.buffers.to_bytes(2, "little"), 0x05: ACK + bytes([self.buses]),
                0x08: ACK + self.sends.to_bytes(3, "little"),
                0x10: self.sync, 0x11: ACK + self.receives.to_bytes(3, "little"), 0x12: ACK,
                0x14: ACK + data}.get(code, NAK)

    def serve(self, read, write):
        """Answers commands until their stream ends or this programmer fails."""
        def take(count):
            data = b""
            while len(data) < count:
                piece = read(count - len(data))
                if not piece:
                    raise EOFError
                data += piece
            return data
        with contextlib.suppress(EOFError, OSError):
            left, self.left = self.left, b""
            write(left)
            while True:
                code = take(1)[0]
                self.commands.append(code)
                if self.end_after is not None and len(self.commands) > self.end_after:
                    return
                if code == 0x13 and self.frames_to_end is not None:
                    self.frames_to_end -= 1
                    if self.frames_to_end < 0:
                        return
                if code == 0x13 and self.frames_to_silence is not None:
                    self.frames_to_silence -= 1
                if (self.silent_after is not None and len(self.commands) > self.silent_after
                        or self.frames_to_silence is not None and self.frames_to_silence < 0):
                    continue
                try:
                    answer = self.answer(code, take)
                    if self.change:
                        answer = self.change(self.code if code == 0x13 else None, answer)
                except End as end:
                    write(end.data)
                    raise
                write(answer)


class TcpPeer:
    """The programmer at a port of 127.0.0.1, to one client after another."""

    def __init__(self, case, programmer):
        self.listener = socket.create_server(("127.0.0.1", 0))
        self.place = f"tcp:127.0.0.1:{self.listener.getsockname()[1]}"
        self.programmer = programmer
        self.open = None
        self.thread = threading.Thread(target=self.run, daemon=True)
        self.thread.start()
        case.addCleanup(self.close)

    def run(self):
        with contextlib.suppress(OSError):
            while True:
                connection, _ = self.listener.accept()
                self.open = connection
                connection.setsockopt(socket.IPPROTO_TCP, socket.TCP_NODELAY, 1)
                with connection:
                    self.programmer.serve(connection.recv, connection.sendall)

    def pull(self):
        """Ends the connection that is open, as a cable that is pulled."""
        with contextlib.suppress(OSError):
            self.open.shutdown(socket.SHUT_RDWR)

    def close(self):
        """Ends the thread, and then closes the port."""
        if self.listener.fileno() == -1:
            return
        self.listener.shutdown(socket.SHUT_RDWR)
        if self.open:
            self.pull()
        self.thread.join(5)
        self.listener.close()


class LatePeer(TcpPeer):
    """A TcpPeer on a long line: what it sends arrives so many seconds later, and each byte has as
    long a way, however many are on it. It counts round trips: a command that comes before all
    answers have arrived is of the same one as the last."""

    def __init__(self, case, programmer, seconds):
        self.seconds = seconds
        self.trips = self.under_way = 0
        self.lock = threading.Lock()
        serve = programmer.serve
        programmer.serve = lambda read, write: self.delayed(serve, read, write)
        super().__init__(case, programmer)

    def delayed(self, serve, read, write):
        line = queue.Queue()

        def deliver():
            with contextlib.suppress(OSError):
                for due, data in iter(line.get, None):
                    time.sleep(max(0.0, due - time.monotonic()))
                    with self.lock:
                        self.under_way -= 1
                    write(data)

        def put(data):
            if not data:
                return
            with self.lock:
                self.trips += self.under_way == 0
                self.under_way += 1
            line.put((time.monotonic() + self.seconds, data))
        thread = threading.Thread(target=deliver, daemon=True)
        thread.start()
        serve(read, put)
        line.put(None)
        thread.join()


class SerialPeer:
    """The programmer at a pseudo terminal, whose settings are those of docs/REAL-CHIP.md."""

    def __init__(self, case, programmer, patience=1):
        self.ours, self.theirs = os.openpty()
        self.path = os.ttyname(self.theirs)
        tty.setraw(self.theirs)
        settings = termios.tcgetattr(self.theirs)
        settings[6][termios.VMIN], settings[6][termios.VTIME] = 0, patience  # in tenths of a second
        termios.tcsetattr(self.theirs, termios.TCSANOW, settings)
        self.programmer = programmer
        self.closed = False
        self.thread = threading.Thread(target=self.run, daemon=True)
        self.thread.start()
        case.addCleanup(self.close)

    @property
    def place(self):
        return f"serial:{self.path}"

    def run(self):
        def write(data):
            while data:
                data = data[os.write(self.ours, data):]
        while not self.closed:
            self.programmer.serve(lambda count: os.read(self.ours, count), write)
            time.sleep(0.01)

    def close(self):
        """Ends the thread, at whose read our end fails, and then closes our end."""
        self.closed = True
        os.close(self.theirs)
        self.thread.join(5)
        os.close(self.ours)


class Client:
    """A client of the protocol."""

    def __init__(self, port=None, path=None):
        if path:
            self.socket = socket.socket(socket.AF_UNIX)
            self.socket.settimeout(kit.PATIENCE)
            self.socket.connect(path)
        else:
            self.socket = socket.create_connection(("127.0.0.1", port), kit.PATIENCE)
            self.socket.setsockopt(socket.IPPROTO_TCP, socket.TCP_NODELAY, 1)

    def __enter__(self):
        return self

    def __exit__(self, *_):
        self.socket.close()

    def ask(self, command, length):
        """Sends a command, and takes so many bytes."""
        self.socket.sendall(command)
        got = b""
        while len(got) < length:
            piece = self.socket.recv(length - len(got))
            if not piece:
                raise nbd.Closed
            got += piece
        return got

    def frame(self, sent, count=0):
        """A frame of the chip, by O_SPIOP."""
        command = b"\x13" + len(sent).to_bytes(3, "little") + count.to_bytes(3, "little") + sent
        answer = self.ask(command, 1 + count)
        assert answer[:1] == ACK, answer
        return answer[1:]

    def change(self, sent):
        """Write enable, a frame that begins a change, and status reads until it has ended."""
        self.frame(b"\x06")
        self.frame(sent)
        for _ in range(100):
            if not self.frame(b"\x05", 1)[0] & 1:
                return
        raise AssertionError("busy without end")


def at(code, address):
    return bytes([code]) + address.to_bytes(3, "big")


# Commands that any programmer answers alike, and what the document says they are answered.
ANSWERS = (
    ("00", "06"), ("01", "06 0100"), ("04", "06 FFFF"), ("05", "06 08"), ("06", "15"), ("07", "15"),
    ("0B", "15"), ("16", "15"), ("FF", "15"), ("10", "1506"), ("1208", "06"), ("1202", "15"),
    ("120A", "06"), ("1440420F00", "06 40420F00"), ("1400000000", "15"), ("13 000000 000000", "06"),
    ("13 000000 020000", "06 FFFF"))


def check_answers(case, name, *rows):
    """Each command of these rows and of the common ones has its answer, each of a client of its
    own, whose next command is answered too; Q_PGMNAME tells this name."""
    for command, answer in (*ANSWERS, *rows):
        answer = bytes.fromhex(answer)
        with case.client() as client:
            case.assertEqual(client.ask(bytes.fromhex(command), len(answer)), answer, command)
            case.assertEqual(client.ask(b"\x00", 1), ACK, command)
    with case.client() as client:
        case.assertEqual(client.ask(b"\x03", 17), ACK + name.ljust(16, b"\0"))
