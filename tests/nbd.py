"""A client of NBD, written from the protocol's own page (proto.md): fixed newstyle negotiation,
simple replies. It sends what it is told to, broken messages too, and judges nothing."""
import socket
import struct

GREETING = b"NBDMAGICIHAVEOPT" + b"\0\3"  # flags: FIXED_NEWSTYLE, NO_ZEROES
OPTION_MAGIC, OPTION_REPLY = b"IHAVEOPT", 0x0003E889045565A9
EXPORT_NAME, ABORT, LIST, PEEK, STARTTLS, INFO, GO = 1, 2, 3, 4, 5, 6, 7
STRUCTURED_REPLY, LIST_META, SET_META, EXTENDED = 8, 9, 10, 11
ACK, SERVER, REP_INFO = 1, 2, 3
UNSUP, INVALID, UNKNOWN, TOO_BIG = 0x80000001, 0x80000003, 0x80000006, 0x80000009
INFO_EXPORT, INFO_NAME, INFO_DESCRIPTION, INFO_BLOCK_SIZE = 0, 1, 2, 3

REQUEST, REPLY = 0x25609513, 0x67446698
READ, WRITE, DISC, FLUSH, TRIM, CACHE, WRITE_ZEROES, BLOCK_STATUS = range(8)
FUA, NO_HOLE, DF, REQ_ONE, FAST_ZERO = 1, 2, 4, 8, 16
OK, EPERM, EIO, ENOMEM, EINVAL, ENOSPC = 0, 1, 5, 12, 22, 28


class Closed(Exception):
    """The server closed the connection, or reset it."""


def request(kind, offset=0, length=0, data=b"", flags=0, cookie=1, magic=REQUEST):
    """The bytes of a request; `data` is the payload of a WRITE."""
    return struct.pack(">IHHQQI", magic, flags, kind, cookie, offset, length) + data


def reply(error=OK, cookie=1, data=b""):
    """The bytes of a simple reply."""
    return struct.pack(">IIQ", REPLY, error, cookie) + data


def option(number, data=b"", magic=OPTION_MAGIC, length=None):
    """The bytes of an option."""
    return magic + struct.pack(">II", number, len(data) if length is None else length) + data


def export(name=b"flash", infos=()):
    """The data of INFO and GO: the name, and the kinds of information that are asked for."""
    kinds = b"".join(struct.pack(">H", info) for info in infos)
    return struct.pack(">I", len(name)) + name + struct.pack(">H", len(infos)) + kinds


class Client:
    """A connection to a server: a path of a Unix socket, or a host and a port."""

    def __init__(self, address, patience=30.0):
        family = socket.AF_UNIX if isinstance(address, (str, bytes)) else socket.AF_INET
        if isinstance(address, tuple) and ":" in address[0]:
            family = socket.AF_INET6
        self.socket = socket.socket(family, socket.SOCK_STREAM)
        self.socket.settimeout(patience)
        self.socket.connect(address)
        if family != socket.AF_UNIX:
            self.socket.setsockopt(socket.IPPROTO_TCP, socket.TCP_NODELAY, 1)
        self.cookie = 0
        self.size = self.flags = None
        self.blocks = (1, 4096, 1 << 25)  # what a client assumes of a server that doesn't say

    def __enter__(self):
        return self

    def __exit__(self, *_):
        self.close()

    def close(self):
        self.socket.close()

    # bytes
    def send(self, data):
        try:
            self.socket.sendall(data)
        except (BrokenPipeError, ConnectionResetError):
            raise Closed from None

    def receive(self, length):
        data = bytearray()
        while len(data) < length:
            try:
                piece = self.socket.recv(min(length - len(data), 1 << 20))
            except (ConnectionResetError, BrokenPipeError):
                raise Closed from None
            if not piece:
                raise Closed
            data += piece
        return bytes(data)

    def is_closed(self, within=30.0):
        """Whether the server closes the connection in so many seconds, without another byte."""
        self.socket.settimeout(within)
        try:
            return self.socket.recv(1) == b""
        except (ConnectionResetError, BrokenPipeError):
            return True
        except socket.timeout:
            return False

    # negotiation
    def greet(self, flags=3):
        """Takes the greeting and sends the client's flags."""
        greeting = self.receive(18)
        self.send(struct.pack(">I", flags))
        return greeting

    def option_reply(self, number):
        """One reply to an option: its type and data."""
        magic, of, kind, length = struct.unpack(">QIII", self.receive(20))
        assert (magic, of) == (OPTION_REPLY, number), (hex(magic), of)
        return kind, self.receive(length)

    def ask(self, number, data=b""):
        """An option and all of its replies, the last of which is ACK or an error."""
        self.send(option(number, data))
        replies = []
        while not replies or replies[-1][0] in (SERVER, REP_INFO):
            replies.append(self.option_reply(number))
        return replies

    def note(self, replies):
        """Keeps what INFO and GO tell of the export."""
        for kind, data in replies:
            if kind == REP_INFO and data[:2] == b"\0\0":
                self.size, self.flags = struct.unpack(">QH", data[2:])
            if kind == REP_INFO and data[:2] == b"\0\3":
                self.blocks = struct.unpack(">III", data[2:])

    def go(self, name=b"flash"):
        """The whole negotiation, by GO."""
        self.greet()
        replies = self.ask(GO, export(name, [INFO_BLOCK_SIZE]))
        assert replies[-1][0] == ACK, replies
        self.note(replies)
        return self

    # transmission
    def ask_for(self, kind, offset=0, length=0, data=b"", flags=0):
        """Sends a request, and answers its cookie."""
        self.cookie += 1
        self.send(request(kind, offset, length, data, flags, self.cookie))
        return self.cookie

    def answer(self, length=0):
        """A reply: its error, its cookie and, of a READ without an error, so many bytes."""
        magic, error, cookie = struct.unpack(">IIQ", self.receive(16))
        assert magic == REPLY, hex(magic)
        return error, cookie, self.receive(length) if length and not error else b""

    def do(self, kind, offset=0, length=0, data=b"", flags=0):
        """A request and its reply: the error; of a READ without one the data."""
        cookie = self.ask_for(kind, offset, length, data, flags)
        error, to, got = self.answer(length if kind == READ else 0)
        assert to == cookie, (to, cookie)
        return got if kind == READ and not error else error

    def read(self, sector, count=1):
        return self.do(READ, 512 * sector, 512 * count)

    def write(self, sector, data, flags=0):
        return self.do(WRITE, 512 * sector, len(data), data, flags)

    def flush(self, flags=0):
        return self.do(FLUSH, flags=flags)

    def trim(self, sector, count=1, flags=0):
        return self.do(TRIM, 512 * sector, 512 * count, flags=flags)

    def zero(self, sector, count=1, flags=0):
        return self.do(WRITE_ZEROES, 512 * sector, 512 * count, flags=flags)

    def disc(self):
        self.send(request(DISC))
        self.close()


def sector(number, salt=0):
    """512 bytes that no other sector has, nor this one with another salt."""
    return struct.pack(">QII", number, 0xA5A5A5A5, salt) * 32
