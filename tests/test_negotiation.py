"""The negotiation, by docs/NBD.md and proto.md, and its limit of ten seconds."""
import struct
import time
import unittest

import kit
import nbd
from nbd import ACK, GO, INFO, INFO_BLOCK_SIZE, INVALID, LIST, REP_INFO, SERVER, TOO_BIG, UNKNOWN
from nbd import UNSUP, export, option

SIZE = 35840


def told(flags=0x016D, most=65536):
    """What INFO and GO are answered of a disk of 70 sectors."""
    return [(REP_INFO, struct.pack(">HQH", 0, SIZE, flags)),
            (REP_INFO, struct.pack(">HIII", 3, 512, 4096, most)), (ACK, b"")]


class Negotiation(kit.Case):
    def setUp(self):
        super().setUp()
        self.server = self.serve(self.format())

    def test_the_greeting(self):
        """The server greets by NBDMAGIC, IHAVEOPT and the flags FIXED_NEWSTYLE and NO_ZEROES."""
        self.assertEqual(self.server.connect().greet(), b"NBDMAGICIHAVEOPT\0\3")

    def test_the_clients_flags(self):
        """Flags without FIXED_NEWSTYLE, or with one that nobody knows, close the connection."""
        for flags in (0, 2, 4, 7, 1 << 31, 0xFFFFFFFF):
            client = self.server.connect()
            client.greet(flags)
            with self.subTest(flags=flags):
                self.assertTrue(client.is_closed())
        for flags in (1, 3):
            client = self.server.connect()
            client.greet(flags)
            self.assertEqual(client.ask(GO, export())[-1], (ACK, b""))

    def test_go_and_info(self):
        """GO and INFO tell size, flags and block sizes, of `flash` and of the name of no bytes;
        INFO leaves the negotiation open."""
        for name in (b"flash", b""):
            for infos in ((), (INFO_BLOCK_SIZE,), (0, 1, 2, 3, 99)):
                client = self.server.connect()
                client.greet()
                for number in (INFO, INFO, GO):
                    self.assertEqual(client.ask(number, export(name, infos)), told())
                self.assertEqual(client.read(69), bytes(512))

    def test_unknown_names(self):
        """INFO and GO of another export are answered UNKNOWN, and the negotiation goes on."""
        client = self.server.connect()
        client.greet()
        for name in (b"flas", b"flash2", b"Flash", b"x" * 4096, b"\0"):
            for number in (INFO, GO):
                self.assertEqual(client.ask(number, export(name)), [(UNKNOWN, b"")])
        self.assertEqual(client.ask(GO, export()), told())

    def test_data_that_do_not_add_up(self):
        """INFO, GO and LIST whose data don't add up are answered INVALID."""
        client = self.server.connect()
        client.greet()
        for data in (b"", b"\0\0\0", b"\0\0\0\5flash", b"\0\0\0\5flash\0", b"\0\0\0\5flash\0\1",
                     b"\0\0\0\5flash\0\0\0", b"\0\0\0\6flash\0\0", b"\xFF\xFF\xFF\xFFflash\0\0"):
            for number in (INFO, GO):
                self.assertEqual(client.ask(number, data), [(INVALID, b"")], data)
        self.assertEqual(client.ask(LIST, b"\0"), [(INVALID, b"")])
        self.assertEqual(client.ask(GO, export()), told())

    def test_list(self):
        """LIST names the one export."""
        client = self.server.connect()
        client.greet()
        self.assertEqual(client.ask(LIST), [(SERVER, b"\0\0\0\5flash"), (ACK, b"")])

    def test_export_name(self):
        """EXPORT_NAME tells size and flags, and 124 zeros but with NO_ZEROES; another name, or
        data that are too long, close the connection."""
        for name in (b"flash", b""):
            for flags, zeros in ((1, 124), (3, 0)):
                client = self.server.connect()
                client.greet(flags)
                client.send(option(nbd.EXPORT_NAME, name))
                self.assertEqual(client.receive(10 + zeros),
                                 struct.pack(">QH", SIZE, 0x016D) + bytes(zeros))
                self.assertEqual(client.write(3, b"\x11" * 512), nbd.OK)
        for name in (b"other", b"x" * 8193):
            client = self.server.connect()
            client.greet()
            client.send(option(nbd.EXPORT_NAME, name))
            self.assertTrue(client.is_closed(), name[:5])

    def test_abort(self):
        """ABORT is answered ACK, and then the connection is closed."""
        client = self.server.connect()
        client.greet()
        self.assertEqual(client.ask(nbd.ABORT), [(ACK, b"")])
        self.assertTrue(client.is_closed())

    def test_unsupported_options(self):
        """What isn't offered is answered UNSUP: structured replies, TLS, metadata, PEEK, others."""
        client = self.server.connect()
        client.greet()
        for number in (nbd.STRUCTURED_REPLY, nbd.STARTTLS, nbd.LIST_META, nbd.SET_META,
                       nbd.EXTENDED, nbd.PEEK, 0, 12, 0x7FFFFFFF, 0xFFFFFFFF):
            for data in (b"", b"\1" * 8192):
                self.assertEqual(client.ask(number, data), [(UNSUP, b"")], number)
        self.assertEqual(client.ask(GO, export()), told())

    def test_long_data(self):
        """Data above 8,192 bytes are skipped, and then answered TOO_BIG, whatever the option."""
        client = self.server.connect()
        client.greet()
        for number in (GO, INFO, LIST, nbd.ABORT, nbd.STRUCTURED_REPLY, 99):
            for length in (8193, 100_000):
                self.assertEqual(client.ask(number, option(GO) * (length // 16) + b"x"
                                            * (length % 16)), [(TOO_BIG, b"")], number)
        self.assertEqual(client.ask(GO, export()), told())

    def test_endless_data(self):
        """An option that claims FFFFFFFFh bytes gets no answer while they last."""
        client = self.server.connect()
        client.greet()
        client.send(option(GO, b"x" * 100_000, length=0xFFFFFFFF))
        self.assertFalse(client.is_closed(within=0.5))
        client.send(b"x" * 100_000)

    def test_a_wrong_magic(self):
        """An option with another magic closes the connection once its 16 bytes have come."""
        client = self.server.connect()
        client.greet()
        client.send(option(GO, magic=b"IHAVEOPU")[:15])
        self.assertFalse(client.is_closed(within=0.3))
        client.send(b"\0")
        self.assertTrue(client.is_closed())

    def test_pieces(self):
        """A negotiation and a READ in pieces of one byte are answered like whole ones, and so are
        those that come at once."""
        text = struct.pack(">I", 3) + option(LIST) + option(GO, export()) + nbd.request(
            nbd.READ, 0, 512)
        answers = []
        for piece in (1, len(text)):
            client = self.server.connect()
            for at in range(0, len(text), piece):
                client.send(text[at:at + piece])
            answers.append(client.receive(18 + 29 + 20 + 86 + 16 + 512))
        self.assertEqual(answers[0], answers[1])
        self.assertEqual(answers[0][-528:], nbd.reply(data=bytes(512)))

    def test_another_limit(self):
        """With --max-request every client is told that limit, and with --read-only those flags."""
        for words, flags, most in ((["--max-request", "128"], 0x016D, 131072),
                                   (["--max-request", "2048"], 0x016D, 2 << 20),
                                   (["--max-request", "64", "--read-only"], 0x010F, 65536)):
            self.server.kill()
            self.server = self.serve("a.img", *words)
            client = self.server.connect()
            client.greet()
            self.assertEqual(client.ask(GO, export()), told(flags, most))

    def test_the_limit_of_ten_seconds(self):
        """A client that hasn't negotiated in 10 seconds is closed, however it spends them, and one
        that has negotiated keeps its place."""
        patient = self.server.client()
        began = time.monotonic()
        silent, flagged, slow, busy, half = (self.server.connect() for _ in range(5))
        clients = {"silent": silent, "silent after its flags": flagged, "a byte a second": slow,
                   "an option a second": busy, "silent inside an option": half}
        for client in (flagged, busy, half):
            client.greet()
        half.send(option(GO, export())[:20])
        slow.send(b"\0\0\0\3")
        text = iter(option(GO, b"x" * 8000))
        closed = {}
        while len(closed) < len(clients) and time.monotonic() < began + 30:
            for name, client in clients.items():
                if name in closed:
                    continue
                try:
                    if name == "a byte a second":
                        client.send(bytes([next(text)]))
                    elif name == "an option a second":
                        client.send(option(LIST))
                except nbd.Closed:
                    closed[name] = time.monotonic() - began
                    continue
                client.socket.setblocking(False)
                try:
                    while client.socket.recv(4096):
                        pass
                    closed[name] = time.monotonic() - began
                except BlockingIOError:
                    client.socket.settimeout(5)
                except ConnectionResetError:
                    closed[name] = time.monotonic() - began
            time.sleep(0.5)
        self.assertEqual(set(closed), set(clients))
        for name, after in closed.items():
            self.assertTrue(9 < after < 20, f"{name}: {after}")
        self.assertEqual(patient.read(0), bytes(512))


if __name__ == "__main__":
    unittest.main()
