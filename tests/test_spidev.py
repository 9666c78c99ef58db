"""`c/spidev-serprog.c`, which answers serprog for the chip at a spidev, by flashrom's
serprog-protocol.txt, version 1, and docs/REAL-CHIP.md. It is built over `fake_spidev.c` in the
kernel's place; behind that is a chip of Python's, or `norbd chip`."""
import errno
import os
import shutil
import signal
import socket
import subprocess
import tempfile
import threading
import time
import unittest

import kit
import nbd
import serprog
from serprog import ACK, NAK, Client, at

BUILT = []


def setUpModule():
    if not shutil.which("gcc"):
        raise unittest.SkipTest("gcc is not installed")
    BUILT.append(tempfile.mkdtemp(prefix="norbd-tests-"))
    unittest.addModuleCleanup(shutil.rmtree, BUILT[0], ignore_errors=True)
    subprocess.run(
        ["gcc", "-std=c99", "-pedantic", "-Wall", "-Wextra", "-Werror", "-O1",
         "-fsanitize=address,undefined", "-fno-sanitize-recover=all",
         "-Wl,--wrap=open,--wrap=fopen,--wrap=ioctl", "-o", f"{BUILT[0]}/spidev-serprog",
         f"{kit.ROOT}/c/spidev-serprog.c", f"{kit.ROOT}/tests/fake_spidev.c"], check=True)


class Board(serprog.Programmer):
    """What the fake reaches: a chip, and the level of the line that switches its supply."""

    def __init__(self, chip):
        super().__init__(chip)
        self.frames, self.levels = [], []

    def answer(self, code, take):
        if code == 0x15:
            self.levels.append(take(1)[0])
            self.chip.pending = None            # the power goes, or comes
            self.chip.status[0] &= 0xFC
            return ACK
        head = take(6)
        sent, count = take(int.from_bytes(head[:3], "little")), int.from_bytes(head[3:], "little")
        self.frames.append((sent, count))
        return ACK + (self.chip.frame(sent, count) if sent else b"\xFF" * count)


class Case(kit.Case):
    def setUp(self):
        super().setUp()
        kit.ROOMS.extend(BUILT)
        self.put("spidev0.0", b"")
        self.put("gpiochip0", b"")
        self.put("hz", b"20000000")

    def board(self, kib=64, memory=None):
        """A chip of Python's for the fake."""
        peer = serprog.TcpPeer(self, Board(serprog.Chip(kib, memory)))
        self.behind = peer.place.rpartition(":")[2]
        return peer.programmer

    def begin(self, *words):
        """Starts the program with these words."""
        process = subprocess.Popen(
            [f"{BUILT[0]}/spidev-serprog", *words], cwd=self.room, start_new_session=True,
            stdin=subprocess.DEVNULL, stdout=subprocess.PIPE, stderr=subprocess.PIPE,
            env=dict(os.environ, FAKE_CHIP=self.behind, ASAN_OPTIONS="detect_leaks=0"))
        self.running.append(process)
        return process

    def answers(self, *words, frame=4096, hz=20_000_000):
        """Has it answer at a port, for the device of the test."""
        self.port = kit.free_port()
        process = self.begin("--port", str(self.port), *words, "/dev/spidev0.0")
        line = process.stdout.readline().decode()
        self.assertEqual(line, f"/dev/spidev0.0 on {self.port}: at most {frame} bytes a frame, "
                         f"{hz} Hz\n", line or process.stderr.read())
        return process

    def client(self):
        return Client(self.port)

    def log(self):
        """The settings that came to the fake."""
        lines = self.bytes_of("log").decode().split()
        return list(zip(lines[::2], (int(it) for it in lines[1::2])))

    def ends(self, process, number=signal.SIGTERM, fault=""):
        """Ends it by a signal: without a fault but this one."""
        os.kill(process.pid, number)
        done = self.end_of(process, within=10)
        self.assertEqual((done.status, done.fault), (0, fault))


class Commands(Case):
    def test_commands(self):
        """Each command has the answer of the document, and the next one is answered."""
        self.board(16384)
        self.answers()
        serprog.check_answers(
            self, b"spidev-serprog", ("1501", "15"), ("1500", "15"), ("08", "06 001000"),
            ("11", "06 001000"), ("13 010000 030000 9F", "06 EF4018"),
            ("13 040000 020000 03 0012FF", "06 FFFF"), ("13 010000 000000 06", "06"))

    def test_the_map_of_commands(self):
        """Q_CMDMAP offers the commands that are answered, S_PIN_STATE only where a line switches
        the supply, and each other one gets NAK."""
        self.board()
        for words, pins in (((), False), (("--power", "/dev/gpiochip0:5"), True)):
            process = self.answers(*words)
            with self.client() as client:
                answer = client.ask(b"\x02", 33)
                self.assertEqual(answer[:1], ACK)
                offered = {it for it in range(256) if answer[1 + it // 8] >> it % 8 & 1}
                self.assertEqual(offered, {0, 1, 2, 3, 4, 5, 8, 16, 17, 18, 19, 20}
                                 | ({0x15} if pins else set()))
                for code in set(range(256)) - offered - {0x15}:
                    self.assertEqual(client.ask(bytes([code]), 1), NAK, code)
            self.ends(process)

    def test_one_frame_is_one_message(self):
        """Each O_SPIOP comes to the chip as one frame, whole and as it was sent, in mode 0 with 8
        bits; commands in one piece, or in pieces of a byte, are answered in their order."""
        board = self.board()
        process = self.answers()
        page = bytes(range(256))
        with self.client() as client:
            client.change(at(0x02, 0x5000) + page)
            self.assertEqual(client.frame(at(0x03, 0x5000), 256), page)
            self.assertEqual(client.frame(at(0x03, 0xFFFF), 3), b"\xFF\xFF\xFF")
        self.assertEqual([it for it in board.frames if it != (b"\x05", 1)],
                         [(b"\x06", 0), (at(0x02, 0x5000) + page, 0), (at(0x03, 0x5000), 256),
                          (at(0x03, 0xFFFF), 3)])
        self.assertEqual(board.chip.memory[0x5000:0x5100], page)
        self.assertEqual([it for it in self.log() if it[0] != "hz"], [("mode", 0), ("bits", 8)])
        commands = b"\x13\4\0\0\2\0\0" + at(0x03, 0x5001) + b"\x10\x13\1\0\0\3\0\0\x9F\x01"
        answers = bytes.fromhex("06 0102 1506 06 EF4010 06 0100")
        with self.client() as client:
            self.assertEqual(client.ask(commands, len(answers)), answers)
            for byte in commands[:-1]:
                client.socket.sendall(bytes([byte]))
                time.sleep(0.002)
            self.assertEqual(client.ask(commands[-1:], len(answers)), answers)
        self.ends(process)

    def test_the_longest_frame(self):
        """The kernel's buffer says how long a frame may be: 4,096 bytes each way where it says
        nothing, no more than 65,536, and whole lines of the cache. A longer one gets NAK, its bytes
        are passed over, and the chip sees nothing of it."""
        for size, limit in (("", 4096), ("8192\n", 8192), ("5000\n", 4992), ("1000000\n", 65536)):
            board = self.board(128)
            if size:
                self.put("bufsiz", size.encode())
            process = self.answers(frame=limit)
            with self.client() as client:
                told = ACK + limit.to_bytes(3, "little")
                self.assertEqual(client.ask(b"\x08", 4) + client.ask(b"\x11", 4), 2 * told)
                client.frame(at(0x02, 0) + bytes(limit - 4))
                self.assertEqual(client.frame(at(0x03, 0), limit), b"\xFF" * limit)
                many = (limit + 1).to_bytes(3, "little")
                for command in (b"\x13" + many + b"\0\0\0" + b"\x10" * (limit + 1),
                                b"\x13\4\0\0" + many + at(0x03, 0),
                                b"\x13\4\0\0\xFF\xFF\xFF" + at(0x03, 0),
                                b"\x13\xFF\xFF\xFF\0\0\0" + b"\x10" * 0xFFFFFF):
                    self.assertEqual(client.ask(command, 1), NAK)
                    self.assertEqual(client.ask(b"\x10", 2), NAK + ACK)
            self.assertEqual(len(board.frames), 2)
            self.ends(process)

    def test_the_clock(self):
        """The clock is the device tree's, or that of --hz; S_SPI_FREQ takes it down for one client,
        and no higher; one that the kernel refuses gets NAK."""
        self.board()
        for words, fastest in (((), 20_000_000), (("--hz", "8000000"), 8_000_000)):
            process = self.answers(*words, hz=fastest)
            with self.client() as client:
                for asked, answer in ((1_000_000, 1_000_000), (50_000_000, fastest),
                                      (fastest + 1, fastest), (0xFFFFFFFF, fastest)):
                    self.assertEqual(client.ask(b"\x14" + asked.to_bytes(4, "little"), 5),
                                     ACK + answer.to_bytes(4, "little"))
                    self.assertEqual(self.log()[-1], ("hz", answer))
                self.assertEqual(client.ask(b"\x14\1\0\0\0", 1), NAK)
                self.assertEqual(client.ask(b"\x14\xE8\3\0\0", 5), ACK + b"\xE8\3\0\0")
            with self.client() as client:
                self.assertEqual(client.frame(b"\x9F", 1), b"\xEF")
                self.assertEqual(self.log()[-1], ("hz", fastest))
            self.ends(process)

    def test_a_frame_that_fails(self):
        """A frame that the kernel refuses gets NAK, and standard error says why; the connection
        goes on, and so does the next frame."""
        board = self.board()
        process = self.answers()
        with self.client() as client:
            self.put("fails", str(errno.EIO).encode())
            for _ in range(2):
                self.assertEqual(client.ask(b"\x13\1\0\0\3\0\0\x9F", 1), NAK)
            self.assertEqual(client.ask(b"\x10", 2), NAK + ACK)
            os.remove(self.path("fails"))
            self.assertEqual(client.frame(b"\x9F", 3), b"\xEF\x40\x10")
        self.assertEqual(board.frames, [(b"\x9F", 3)])
        self.ends(process, fault=2 * "spidev-serprog: /dev/spidev0.0: Input/output error: a frame "
                  "of 1 and 3 bytes got NAK\n")


class Supplies(Case):
    def test_a_supply_that_is_cut(self):
        """S_PIN_STATE 0 turns the supply off, by the line's level, and any other byte on: what the
        chip had in it is gone. While it is off a frame gets NAK and isn't sent. The next client
        finds it on, and the end turns it off."""
        for line, on in (("/dev/gpiochip0:17", 1), ("/dev/gpiochip0:17:low", 0)):
            board = self.board()
            process = self.answers("--power", line)
            self.assertEqual((self.log()[-1], board.levels), (("line", 17), [on]))
            with self.client() as client:
                client.frame(b"\x06")
                self.assertEqual(client.frame(b"\x05", 1), b"\2")
                self.assertEqual(client.ask(b"\x15\0", 1), ACK)
                self.assertEqual(board.levels, [on, 1 - on])
                seen = len(board.frames)
                self.assertEqual(client.ask(b"\x13\1\0\0\1\0\0\x05", 1), NAK)
                self.assertEqual(len(board.frames), seen)
                self.assertEqual(client.ask(b"\x15\2", 1), ACK)
                self.assertEqual(board.levels, [on, 1 - on, on])
                self.assertEqual(client.frame(b"\x05", 1), b"\0")
                self.assertEqual(client.ask(b"\x15\0", 1), ACK)
            with self.client() as client:
                self.assertEqual(client.frame(b"\x9F", 1), b"\xEF")
            self.assertEqual(board.levels, [on, 1 - on, on, 1 - on, on])
            self.ends(process)
            self.assertEqual(board.levels, [on, 1 - on, on, 1 - on, on, 1 - on])

    def test_a_line_that_fails(self):
        """Where the line can't be switched S_PIN_STATE gets NAK, the cause is told, and the supply
        counts as it was."""
        board = self.board()
        process = self.answers("--power", "/dev/gpiochip0:17")
        with self.client() as client:
            self.put("fails", str(errno.EPERM).encode())
            self.assertEqual(client.ask(b"\x15\0", 1), NAK)
            os.remove(self.path("fails"))
            self.assertEqual(client.frame(b"\x9F", 1), b"\xEF")
        self.assertEqual(board.levels, [1])
        self.ends(process, fault="spidev-serprog: --power: Operation not permitted\n")

    def test_time_for_the_supply(self):
        """After the supply went or came nothing is sent for 5 ms at least: before that the
        W25Q128JV takes no write."""
        self.board()
        self.answers("--power", "/dev/gpiochip0:0")
        with self.client() as client:
            began = time.monotonic()
            client.ask(b"\x15\0", 1)
            client.ask(b"\x15\1", 1)
            self.assertGreater(time.monotonic() - began, 0.01)


class Faults(Case):
    def fails(self, fault, *words, status=1):
        """A line that has to fail so."""
        done = self.end_of(self.begin(*words), within=10)
        self.assertEqual((done.status, done.out, done.fault),
                         (status, b"", f"spidev-serprog: {fault}\n"), words)

    def test_devices(self):
        """A device that isn't there, that is none, or that another one has; a clock that it doesn't
        take, or none; a GPIO chip and a line that aren't there: each is told, with what to do."""
        self.board()
        port = ("--port", str(kit.free_port()))
        self.fails("/dev/spidev9.0: No such file or directory: is spidev bound to this chip "
                   "select, and may this user open it?", *port, "/dev/spidev9.0")
        clock = "it has to be a spidev that takes mode 0, 8 bits and a clock (--hz)"
        self.fails(f"/dev/null: Inappropriate ioctl for device: {clock}", *port, "/dev/null")
        device = "/dev/spidev0.0"
        self.fails(f"{device}: Invalid argument: {clock}", *port, "--hz", "999", device)
        self.put("hz", b"0")
        self.fails(f"{device}: Invalid argument: {clock}", *port, device)
        self.put("hz", b"20000000")
        line = "it has to be a free line of a GPIO chip that this user may open"
        for it, cause in (("/dev/gpiochip1:17", "No such file or directory"),
                          ("/dev/gpiochip0:32", "Invalid argument")):
            self.fails(f"{it}: {cause}: {line}", *port, "--power", it, device)
        self.answers()
        self.fails(f"{device}: Resource temporarily unavailable: another spidev-serprog has it",
                   *port, device)

    def test_places(self):
        """A port or a path that is taken, an address that is none or another machine's, too long a
        path."""
        self.board()
        with socket.create_server(("127.0.0.1", 0)) as taken:
            port = str(taken.getsockname()[1])
            self.fails(f"{port}: Address already in use: take another place to listen", "--port",
                       port, "/dev/spidev0.0")
        self.put("taken", b"")
        self.fails("taken: Address already in use: take another place to listen", "--unix", "taken",
                   "/dev/spidev0.0")
        self.fails(f"{port}: Cannot assign requested address: take another place to listen",
                   "--port", port, "--bind", "192.0.2.1", "/dev/spidev0.0")
        cause = "Invalid argument: take a shorter path, or an IP address"
        self.fails(f"localhost: {cause}", "--bind", "localhost", "--port", port, "/dev/spidev0.0")
        self.fails(f"{'x' * 108}: {cause}", "--unix", "x" * 108, "/dev/spidev0.0")

    def test_words(self):
        """Words that are wrong get the usage on standard error and status 2, and --help on standard
        output."""
        self.board()
        for line in ("", "/dev/spidev0.0", "--port 5000", "--port 0 /dev/spidev0.0",
                     "--port 65536 /dev/spidev0.0", "--port 5000x /dev/spidev0.0",
                     "--port -1 /dev/spidev0.0", "--port 5000 --unix a /dev/spidev0.0",
                     "--unix a --bind ::1 /dev/spidev0.0", "--port 5000 --hz 0 /dev/spidev0.0",
                     "--port 5000 --hz 4294967296 /dev/spidev0.0", "--port 5000 a b", "--speed 1 a",
                     "--port 5000 --power /dev/gpiochip0 /dev/spidev0.0",
                     "--port 5000 --power /dev/gpiochip0:17:high /dev/spidev0.0",
                     "--port 5000 --power /dev/gpiochip0:17x /dev/spidev0.0"):
            done = self.end_of(self.begin(*line.split()), within=10)
            self.assertEqual((done.status, done.out), (2, b""), line)
            self.assertIn("usage: spidev-serprog [OPTIONS] --port PORT DEVICE\n", done.fault)
        done = self.end_of(self.begin("--help"), within=10)
        self.assertEqual((done.status, done.err), (0, b""))
        self.assertIn(b"usage: spidev-serprog [OPTIONS] --port PORT DEVICE\n", done.out)


class Clients(Case):
    def test_where_it_listens(self):
        """It listens on 127.0.0.1 and nowhere else, or at the address of --bind, or at a Unix
        socket, whose file is gone at the end."""
        self.board()
        process = self.answers()
        with self.assertRaises(ConnectionRefusedError):
            socket.create_connection(("127.0.0.2", self.port), 5)
        self.ends(process)
        process = self.answers("--bind", "127.0.0.2")
        with socket.create_connection(("127.0.0.2", self.port), 5) as it:
            it.sendall(b"\x10")
            self.assertEqual(it.recv(2, socket.MSG_WAITALL), NAK + ACK)
        self.ends(process)
        process = self.begin("--unix", "a.sock", "/dev/spidev0.0")
        self.assertTrue(process.stdout.readline().startswith(b"/dev/spidev0.0 on a.sock: "))
        with Client(path=self.path("a.sock")) as client:
            self.assertEqual(client.frame(b"\x9F", 3), b"\xEF\x40\x10")
        self.ends(process)
        self.assertFalse(os.path.exists(self.path("a.sock")))

    def test_one_after_another(self):
        """A second client waits until the first one has gone."""
        self.board()
        self.answers()
        with self.client() as first:
            self.assertEqual(first.frame(b"\x9F", 1), b"\xEF")
            second = self.client()
            second.socket.sendall(b"\x10")
            second.socket.settimeout(0.3)
            with self.assertRaises(socket.timeout):
                second.socket.recv(2)
            self.assertEqual(first.frame(b"\x9F", 1), b"\xEF")
        second.socket.settimeout(kit.PATIENCE)
        with second:
            self.assertEqual(second.socket.recv(2, socket.MSG_WAITALL), NAK + ACK)

    def test_clients_that_go(self):
        """A command that its connection cuts off isn't done, an answer that isn't taken is dropped,
        and the next client begins anew; nothing of them stays open."""
        board = self.board(1024)
        files = f"/proc/{self.answers().pid}/fd"
        before = len(os.listdir(files))
        for command in (b"\x13\x05\0\0\0\0\0" + at(0x02, 0x5000), b"\x13\x05", b"\x14\1", b"\x12"):
            with self.client() as client:
                client.socket.sendall(command)
            with self.client() as client:
                self.assertEqual(client.ask(b"\x10", 2), NAK + ACK)
        self.assertEqual(board.frames, [])
        for _ in range(3):
            with self.client() as client:
                client.socket.sendall(200 * (b"\x13\4\0\0\0\x10\0" + at(0x03, 0)))
            with self.client() as client:
                self.assertEqual(client.ask(b"\x10", 2), NAK + ACK)
        self.assertTrue(kit.wait_for(lambda: len(os.listdir(files)) == before))

    def test_ends(self):
        """SIGINT and SIGTERM end it at once, with status 0: before a client, between two commands,
        inside one, while an answer isn't taken, and while commands come without end."""
        board = self.board()
        self.put("bufsiz", b"65536")
        read = b"\x13\4\0\0\0\0\1" + at(0x03, 0)
        for number in (signal.SIGINT, signal.SIGTERM):
            self.ends(self.answers(frame=65536), number)
            for text in (b"", b"\x13\4\0", 1000 * read):
                process = self.answers(frame=65536)
                with self.client() as client:
                    self.assertEqual(client.ask(b"\x10", 2), NAK + ACK)
                    sender = threading.Thread(target=self.flood, args=(client, text))
                    sender.start()
                    seen = None
                    while seen != len(board.frames):
                        seen = len(board.frames)
                        time.sleep(0.1)
                    self.ends(process, number)
                    sender.join()
            process = self.answers(frame=65536)
            with self.client() as client:
                sender = threading.Thread(target=self.flood, args=(client, b"\x00" * 100_000_000))
                reader = threading.Thread(target=self.drain, args=(client,))
                sender.start()
                reader.start()
                time.sleep(0.1)
                self.ends(process, number)
                sender.join()
                reader.join()

    def test_the_port_is_free_again(self):
        """After an end below a client the same port is listened on at once."""
        self.board()
        process = self.answers()
        with self.client() as client:
            self.assertEqual(client.ask(b"\x10", 2), NAK + ACK)
            self.ends(process)
        process = self.begin("--port", str(self.port), "/dev/spidev0.0")
        self.assertTrue(process.stdout.readline())
        self.ends(process)

    @staticmethod
    def flood(client, text):
        try:
            client.socket.sendall(text)
        except OSError:
            pass

    @staticmethod
    def drain(client):
        try:
            while client.socket.recv(65536):
                pass
        except OSError:
            pass


class Hosts(Case):
    """flashrom and `norbd` as hosts, of a chip that `norbd chip` answers for behind the fake."""

    def chip(self, kib):
        self.format("a.img", kib)
        self.behind = str(kit.free_port())
        self.start("chip", "a.img", "--port", self.behind).stdout.readline()

    def test_a_disk(self):
        """`norbd format`, `serve`, `check`, `read` and `write` reach the chip: what was written is
        read back, and is in the chip's image."""
        self.chip(64)
        self.answers()
        place = f"tcp:127.0.0.1:{self.port}"
        self.assertEqual(self.norbd("format", place, "--kib", "64", "--yes"),
                         b"formatted 70 sectors\n")
        server = self.serve(place, "--conns", "1")
        client, held = server.client(), {}
        for turn in range(150):
            number = turn * 31 % 70
            held[number] = nbd.sector(number, turn)
            self.assertEqual(client.write(number, held[number]), nbd.OK)
        client.disc()
        self.assertEqual(server.end().status, 0)
        self.norbd("write", place, "--sectors", "2:4", data=b"\x5A" * 1024)
        held[2] = held[3] = b"\x5A" * 512
        data = b"".join(held[it] for it in range(70))
        self.assertTrue(self.norbd("check", place).endswith(b"clean 70 sectors\n"))
        self.assertEqual(self.norbd("read", place), data)
        self.end_all()
        self.assertEqual(self.norbd("read", "a.img"), data)

    def test_a_frame_that_fails_below_a_server(self):
        """Where a frame fails the server ends and says so; what was acknowledged is on the chip,
        and the next start serves it."""
        self.chip(64)
        self.answers()
        place = f"tcp:127.0.0.1:{self.port}"
        server = self.serve(place)
        client = server.client()
        self.assertEqual(client.write(1, nbd.sector(1)), nbd.OK)
        self.put("fails", str(errno.EIO).encode())
        with self.assertRaises(nbd.Closed):
            client.write(2, nbd.sector(2))
        done = server.end()
        self.assertEqual(done.status, 1)
        self.assertIn(f"norbd: chip failed: {place}: ", done.fault)
        os.remove(self.path("fails"))
        self.assertEqual(self.norbd("read", place, "--sectors", "1:2"), nbd.sector(1))

    def test_flashrom(self):
        """`flashrom` finds a W25Q128.V, reads it, writes and verifies another; between its runs,
        each of which turns the supply off at its end, and after them, the chip is on."""
        self.chip(16384)
        self.answers("--power", "/dev/gpiochip0:17")
        flash = self.flashrom(f"127.0.0.1:{self.port},spispeed=8M")
        self.assertIn("spidev-serprog", flash("-V"))
        self.assertIn(("hz", 8_000_000), self.log())
        image = self.rewritten(flash)
        self.assertEqual(self.norbd("read", f"tcp:127.0.0.1:{self.port}", "--sectors", "0:100"),
                         b"".join(nbd.sector(it) for it in range(100)))
        self.end_all()
        self.assertEqual(self.bytes_of("a.img"), image)


if __name__ == "__main__":
    unittest.main()
