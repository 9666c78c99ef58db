"""What the tests share: the program, its runs and servers, scratch folders, images by
docs/LAYOUT.md, and chance."""
import contextlib
import itertools
import json
import os
import random
import re
import resource
import shutil
import signal
import socket
import struct
import subprocess
import tempfile
import time
import unittest

import nbd

ROOT = os.path.dirname(os.path.dirname(os.path.realpath(__file__)))
PROGRAM = os.environ.get("NORBD", os.path.join(ROOT, "crates/norbd/out/norbd"))
SEED = os.environ.get("NORBD_SEED", "1")
PATIENCE = 60  # seconds, after which a program that should have ended hangs

SECTORS = {64: 70, 128: 168, 1024: 1540, 4096: 6244, 8192: 12516, 16384: 25060}  # docs/DISK.md


def dice(name):
    """Chance, by the seed of this run."""
    return random.Random(f"{SEED} {name}")


def needs(tool):
    """Leaves a test out, by name, where a tool isn't installed."""
    return unittest.skipUnless(shutil.which(tool), f"{tool} is not installed")


# Leaves a test out that looks at the program's process, where an emulator runs it.
not_emulated = unittest.skipIf("NORBD_EMULATED" in os.environ, "the process is an emulator's")


def free_port():
    """A port of 127.0.0.1 on which nobody listens, outside of those that the system gives."""
    while True:
        port = random.SystemRandom().randrange(12_000, 32_000)
        with socket.socket() as it:
            try:
                it.bind(("127.0.0.1", port))
                return port
            except OSError:
                pass


def wait_for(condition, within=PATIENCE, step=0.02):
    """Whether the condition comes true in so many seconds."""
    end = time.monotonic() + within
    while not condition():
        if time.monotonic() > end:
            return False
        time.sleep(step)
    return True


def status_of(pid, key):
    """A number of a process's status, summed over its threads where they differ; one that has ended
    meanwhile is left out."""
    total = 0
    for thread in os.listdir(f"/proc/{pid}/task"):
        with contextlib.suppress(FileNotFoundError, ProcessLookupError):
            with open(f"/proc/{pid}/task/{thread}/status", encoding="ascii") as file:
                total += int(re.search(rf"^{key}:\s+(\d+)", file.read(), re.M).group(1))
    return total


def descriptors_of(pid):
    """What each open descriptor of a process names; one that is closed meanwhile is left out."""
    folder = f"/proc/{pid}/fd"
    held = {}
    for number in os.listdir(folder):
        try:
            held[int(number)] = os.readlink(f"{folder}/{number}")
        except FileNotFoundError:
            continue
    return held


def keeps_what_it_freed(pid):
    """Whether a program was built with checks that keep freed memory: then it holds terabytes."""
    return status_of(pid, "VmSize") > 1 << 30  # KiB


RUNNING, ROOMS = [], []  # of all tests, for an end by a signal


def end_by_signal(*_):
    """Ends this process and all that its tests left running."""
    for process in RUNNING:
        with contextlib.suppress(ProcessLookupError):
            os.killpg(process.pid, signal.SIGKILL)
    for room in ROOMS:
        shutil.rmtree(room, ignore_errors=True)
    os._exit(1)


class Done:
    """What a run printed, and its status."""

    def __init__(self, status, out, err):
        self.status, self.out, self.err = status, out, err

    @property
    def text(self):
        return self.out.decode()

    @property
    def fault(self):
        """What was printed on standard error, without how far the reading of a slow chip was."""
        return re.sub(r"norbd: \d+ KiB of the chip are read\n", "", self.err.decode())


class Case(unittest.TestCase):
    """A test with a scratch folder, in which the program runs. What it leaves running is killed."""

    maxDiff = 2000

    def setUp(self):
        self.room = tempfile.mkdtemp(prefix="norbd-tests-")
        ROOMS[:] = [self.room]
        self.addCleanup(shutil.rmtree, self.room, ignore_errors=True)
        self.running = RUNNING
        RUNNING.clear()
        self.addCleanup(self.end_all)

    def end_all(self):
        for process in self.running:
            with contextlib.suppress(ProcessLookupError):
                os.killpg(process.pid, signal.SIGKILL)
            process.wait()
            for pipe in (process.stdin, process.stdout, process.stderr):
                if pipe:
                    with contextlib.suppress(BrokenPipeError):
                        pipe.close()

    def path(self, name):
        return os.path.join(self.room, name)

    def bytes_of(self, name):
        with open(self.path(name), "rb") as file:
            return file.read()

    def put(self, name, data):
        """Makes a file these bytes; an image that was there has no log any more."""
        with open(self.path(name), "wb") as file:
            file.write(data)
        if name.endswith(".img") and os.path.isfile(self.path(f"{name}.log")):
            os.remove(self.path(f"{name}.log"))

    def start(self, *words, under=(), **how):
        """Starts the program, in a process group of its own."""
        how.setdefault("stdin", subprocess.DEVNULL)
        how.setdefault("stdout", subprocess.PIPE)
        how.setdefault("stderr", subprocess.PIPE)
        process = subprocess.Popen([*under, PROGRAM, *words], cwd=self.room,
                                   start_new_session=True, **how)
        self.running.append(process)
        return process

    def end_of(self, process, data=None, within=PATIENCE):
        """Waits for a program to end."""
        try:
            out, err = process.communicate(data, timeout=within)
        except subprocess.TimeoutExpired:
            os.killpg(process.pid, signal.SIGKILL)
            process.wait()
            self.fail(f"{process.args} hangs")
        return Done(process.returncode, out, err)

    def run_norbd(self, *words, data=b"", within=PATIENCE, **how):
        """Runs a line of the program to its end, with these bytes as its standard input."""
        how.setdefault("stdin", subprocess.PIPE)
        process = self.start(*words, **how)
        return self.end_of(process, data if how["stdin"] == subprocess.PIPE else None, within)

    def norbd(self, *words, **how):
        """Runs a line that has to be done: what it prints."""
        done = self.run_norbd(*words, **how)
        self.assertEqual((done.status, done.fault), (0, ""), words)
        return done.out

    def refused(self, fault, *words, status=1, out="", **how):
        """Runs a line that has to be refused with these words on standard error."""
        done = self.run_norbd(*words, **how)
        self.assertEqual((done.status, done.fault, done.text), (status, f"norbd: {fault}\n", out),
                         words)

    def flashrom(self, place, name="W25Q128.V"):
        """What runs flashrom with the serprog at a place, for the chip that it names so, and
        returns what it printed."""
        tool = shutil.which("flashrom") or shutil.which("flashrom", path="/usr/sbin:/sbin")
        if not tool:
            self.skipTest("flashrom is not installed")

        def flash(*words):
            done = subprocess.run(
                [tool, "-p", f"serprog:ip={place}", "-c", name, *words], cwd=self.room,
                timeout=120, stdout=subprocess.PIPE, stderr=subprocess.STDOUT, check=False)
            self.assertEqual(done.returncode, 0, done.stdout)
            return done.stdout.decode(errors="replace")
        return flash

    def rewritten(self, flash):
        """flashrom reads a formatted chip of 16 MiB, writes 100 sectors and verifies them: the
        chip's bytes then."""
        flash("-r", "out.bin")
        self.assertEqual(self.bytes_of("out.bin"), formatted(16384))
        image = formatted(16384)
        for number in range(100):
            set_slot(image, 4 + number // 7, number % 7, number, nbd.sector(number))
        self.put("new.bin", image)
        self.assertIn("VERIFIED", flash("-w", "new.bin"))
        return image

    def in_pieces(self, pieces, *words, closes=None):
        """Runs a line each of whose reads gets one of the pieces: what it prints. Before the last
        of them it may end only after so many bytes."""
        ours, theirs = socket.socketpair(socket.AF_UNIX, socket.SOCK_SEQPACKET)
        with ours, theirs:
            ours.settimeout(PATIENCE)
            process = self.start(*words, stdin=theirs)
            theirs.close()
            sent = 0
            for piece in filter(None, pieces):
                try:
                    sent += ours.send(piece)
                except (BrokenPipeError, ConnectionResetError):
                    if closes is None or sent < closes:
                        self.fail(f"{process.args} has ended after {sent} bytes")
                    break
            ours.close()
            done = self.end_of(process)
        self.assertEqual((done.status, done.fault), (0, ""), words)
        return done.out

    def input_fails(self, data, answered, *words):
        """Runs a line that reads these bytes, answers them, and finds that its next read fails."""
        with socket.create_server(("127.0.0.1", 0)) as listener:
            ours = socket.create_connection(listener.getsockname())
            theirs, _ = listener.accept()
        with theirs:
            process = self.start(*words, stdin=theirs)
        with ours:
            ours.sendall(data)
            self.assertEqual(process.stdout.read(len(answered)), answered)
            ours.setsockopt(socket.SOL_SOCKET, socket.SO_LINGER, struct.pack("ii", 1, 0))
        done = self.end_of(process)  # by the reset that this close sent
        self.assertEqual((done.status, done.fault, done.out), (1, "norbd: input failed\n", b""))

    def format(self, name="a.img", kib=64):
        self.norbd("format", name, "--kib", str(kib))
        return name

    def check(self, name="a.img"):
        """What `check --json` says of an image."""
        done = self.run_norbd("check", name, "--json")
        return json.loads(done.text)

    def log_size(self, name="a.img"):
        """How many bytes the log beside an image has, without the zeros behind it; 0 where there is none."""
        try:
            return len(self.bytes_of(f"{name}.log").rstrip(b"\0"))
        except FileNotFoundError:
            return 0

    def settled(self, name="a.img"):
        """Waits until the log of an image that is served has nothing for it."""
        self.assertTrue(wait_for(lambda: self.log_size(name) <= 16))

    def check_copy(self, name="a.img"):
        """What `check --json` says of a copy of an image that is served, when its log has nothing for it."""
        while True:
            self.settled(name)
            self.put("copy.img", self.bytes_of(name))
            if self.log_size(name) <= 16:
                return self.check("copy.img")

    def serve(self, name="a.img", *words, **how):
        """A server of an image at a Unix socket, or at what the words say."""
        return Server(self, name, words, **how)


class Server:
    """A server that has said its line."""

    numbers = itertools.count()

    def __init__(self, case, name, words, under=(), **how):
        self.case, self.name = case, name
        if not {"--port", "--unix"} & set(words):
            words = (*words, "--unix", f"{next(self.numbers)}.sock")
        self.words = words
        self.process = case.start("serve", name, *words, under=under, **how)
        self.line = self.process.stdout.readline().decode()
        if not self.line.startswith("serving "):
            done = case.end_of(self.process)
            case.fail(f"no server: {self.line}{done.text}{done.fault}")
        place = words[words.index("--unix" if "--unix" in words else "--port") + 1]
        self.address = (os.path.join(case.room, place) if "--unix" in words
                        else (words[words.index("--bind") + 1] if "--bind" in words
                              else "127.0.0.1", int(place)))

    @property
    def pid(self):
        """The server's own number, where it runs under another program."""
        child = self.process.pid
        while os.path.basename(os.readlink(f"/proc/{child}/exe")) == "strace":
            with open(f"/proc/{child}/task/{child}/children", encoding="ascii") as file:
                child = int(file.read().split()[0])
        return child

    def client(self, **how):
        """A client that has negotiated."""
        client = self.connect(**how)
        return client.go()

    def connect(self, **how):
        client = nbd.Client(self.address, **how)
        self.case.addCleanup(client.close)
        return client

    def end(self, within=PATIENCE):
        """Waits for the server to end by itself."""
        return self.case.end_of(self.process, within=within)

    def kill(self, number=signal.SIGKILL):
        """Ends the server by a signal."""
        os.kill(self.pid, number)
        return self.case.end_of(self.process)


def as_nobody():
    """What makes a child the user nobody, where this one is root."""
    if os.geteuid() != 0:
        return None

    def become():
        os.setgroups([])
        os.setgid(65534)
        os.setuid(65534)
    return become


def limit_files(length):
    """What limits the size of a child's files: a write past it fails (EFBIG)."""
    def limit():
        signal.signal(signal.SIGXFSZ, signal.SIG_IGN)
        resource.setrlimit(resource.RLIMIT_FSIZE, (length, length))
    return limit


# Images, by docs/LAYOUT.md.

def formatted(kib=64, layout=2, mixed=False):
    """The bytes of a formatted chip."""
    blocks = kib // 4
    image = bytearray(b"\xFF" * (1024 * kib))
    groups = 7 * (blocks - 4) // 8
    image[:16] = (b"NORBLK01" + bytes([layout]) + blocks.to_bytes(2, "little")
                  + groups.to_bytes(2, "little") + b"\xFF\x00" + (b"\xFE" if mixed else b"\xFF"))
    return image


def set_slot(image, block, place, sector, data, generation=0, state=0xFC):
    """Puts a sector into a slot of a block."""
    at = 4096 * block
    image[at + 16 + 4 * place:at + 20 + 4 * place] = bytes(
        [state, 0xFC | generation]) + sector.to_bytes(2, "little")
    image[at + 512 + 512 * place:at + 1024 + 512 * place] = data


def set_group(image, block, group, data, generation=0, state=0xFC):
    """Puts a group of seven sectors into a block, as layout 1 has it."""
    at = 4096 * block
    image[at:at + 4] = bytes([state, 0xFC | generation]) + group.to_bytes(2, "little")
    image[at + 512:at + 4096] = data


def set_mark(image, block, state, source):
    """Marks a block as one into which another is or was copied."""
    image[4096 * block + 4:4096 * block + 8] = bytes([state, 0xFF]) + source.to_bytes(2, "little")


def set_bytes(image, at, data):
    image[at:at + len(data)] = data


JOURNALS = {  # where the votes of a journal for the erase of another begin
    (0, 1): 0x1000, (0, 2): 0x1400, (1, 2): 0x2000, (1, 0): 0x2400, (2, 0): 0x3000, (2, 1): 0x3400}
ENTRIES = 0x1800  # where the entries of J0 begin

# What is told to help where a chip behind a programmer is not clean.
MEND_A_CHIP = "flashrom reads it into a file, norbd check --mend mends that, flashrom writes it"


# Syscalls, by strace.

STRACE = ("strace", "-f", "-qq", "-xx", "-s", "300", "-o", "strace.log")
STRING = re.compile(r'"((?:\\x[0-9a-f]{2})*)"')  # in its log


def traced(calls, *more):
    """What runs a program under strace, which notes these calls in strace.log."""
    return (*STRACE, "-e", f"trace={calls}", *more)


def calls_in(log):
    """The calls in a log of strace: names, arguments and results, in the order of their ends."""
    begun, calls = {}, []
    for line in log.splitlines():
        thread = line.split(None, 1)[0]
        if "<unfinished ...>" in line:
            begun[thread] = line.split("<unfinished ...>")[0].rstrip()
            continue
        resumed = re.match(r"^\d+\s+<\.\.\. \w+ resumed>(.*)$", line)
        if resumed and thread in begun:
            line = begun.pop(thread) + resumed.group(1)
        call = re.match(r"^\d+\s+(\w+)\((.*)\)\s+= (-?\d+|\?)", line)
        if call:
            result = None if call.group(3) == "?" else int(call.group(3))
            calls.append((call.group(1), call.group(2), result))
    return calls

