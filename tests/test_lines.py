"""The words of the command line, and its faults, by docs/SERVE.md ("Faults"), docs/REAL-CHIP.md and
docs/SCRIPT.md. Those of a chip are in test_chips.py."""
import os
import resource
import shutil
import socket
import subprocess
import unittest

import kit
import nbd

BAD_LINES = """
plain --sectors 0
plain --sectors 65537
plain --sectors
plain
plain --sectors 70 more
plain --sectors 70 --record
plain --sectors -1
plain --sectors 070x
format a.img --kib 0
format a.img --kib 63
format a.img --kib 16448
format a.img --kib x
format a.img --kib
format a.img
format --kib 64
script --kib 63
script --kib 16385
script --kib
script
script --kib 64 more
serve a.img --port 0 --conns 1
serve a.img --port 65536 --conns 1
serve a.img --port 10809 --conns 0
serve a.img --port 10809 --conns 65
serve a.img --port 10809 --sync
serve a.img --port 10809 --tidy
serve a.img --port 10809 --force
serve a.img --port 10809 --max-request 63
serve a.img --port 10809 --max-request 32769
serve a.img --port 10809 --max-request
serve a.img --port 10809 --read-only 1
serve a.img --port 10809 --bind
serve --port 10809 --conns 2
chip a.img
chip --port 5000
chip a.img --port 0
chip a.img --port 65536
chip a.img --port 5000 --conns 65
check
check a.img --yes
show
show a.img --json
read --sectors 0:1
read a.img --sectors
write a.img b.img
settle
settle a.img --firm
other
-x
""".strip().splitlines()
GOOD_LINES = """
serve m.img --unix m.sock --conns 2
serve --record m.img --conns 64 --unix m.sock
serve m.img --conns 1 --sync never --unix m.sock
serve m.img --sync always --unix m.sock
serve --sync flush --unix m.sock m.img
serve m.img --unix m.sock --tidy lazy
serve --tidy eager --unix m.sock -v m.img
serve m.img --unix m.sock --max-request 64
serve m.img --unix m.sock --max-request 32768 --read-only
serve --unix=m.sock --verbose m.img --max-request=1024 --trust
check m.img
check --json m.img --mend
show m.img
read m.img
read --sectors 2:5 m.img
write m.img --sectors 0:70
settle m.img
settle --spi-hz 1000000 m.img
""".strip().splitlines()
ADDRESS = "bad address: --port P [--bind IP], or --unix PATH"
BAD_WORDS = [
    ("format a.img --kib 65", "bad size: 65 is no multiple of 64"),
    ("format a.img --kib 16380", "bad size: 16380 is no multiple of 64"),
    ("script --kib 65", "bad size: 65 is no multiple of 64"),
    ("script --kib 100", "bad size: 100 is no multiple of 64"),
    ("serve a.img --port 10809 --sync often", "bad sync: flush, never or always"),
    ("serve a.img --port 10809 --sync Flush", "bad sync: flush, never or always"),
    ("serve a.img --port 10809 --tidy never", "bad tidy: lazy or eager"),
    ("serve a.img --port 10809 --tidy Lazy", "bad tidy: lazy or eager"),
    ("serve a.img", ADDRESS), ("serve a.img --conns 2", ADDRESS),
    ("serve a.img --bind ::1", ADDRESS), ("serve a.img --port 10809 --unix a.sock", ADDRESS),
    ("serve a.img --bind ::1 --unix a.sock", ADDRESS),
    ("serve a.img --unix=", ADDRESS), ("serve a.img --unix= --conns 2", ADDRESS),
    ("serve a.img --port 10809 --bind localhost", "bad address: 'localhost' is no IP address"),
    ("serve a.img --port 10809 --bind 127.0.0.1:80", "bad address: '127.0.0.1:80' is no IP address"),
    ("serve a.img --port 10809 --bind 1.2.3", "bad address: '1.2.3' is no IP address"),
]


class Lines(kit.Case):
    def test_bad_lines(self):
        """A line that is none ends with status 2, says so on standard error, and does nothing."""
        for line in BAD_LINES:
            with self.subTest(line):
                done = self.run_norbd(*line.split())
                self.assertEqual((done.status, done.out), (2, b""))
                self.assertRegex(done.fault, "error: |Usage: norbd")
                self.assertEqual(os.listdir(self.room), [])

    def test_good_lines(self):
        """Options come in any order, before and behind the image: each of these lines is one, and
        finds no image."""
        for line in GOOD_LINES:
            self.refused("image failed: m.img: no such file or directory", *line.split())
        port = str(kit.free_port())
        for line in ("serve m.img --port {} --bind ::1 --verbose",
                     "serve m.img --bind 0.0.0.0 --port {}", "chip m.img --port {}",
                     "chip --conns 64 --port {} m.img"):
            self.refused("image failed: m.img: no such file or directory", *line.format(port).split())
        for line in ("plain --no-record --sectors 70", "plain --sectors 4096", "script --kib 1024"):
            self.assertEqual(self.norbd(*line.split()), b"")
        os.mkdir(self.path("d"))
        self.norbd("format", "--kib", "64", "d/a.img")
        self.norbd("format", "d/a.img", "--force", "--kib", "64")

    def test_no_words(self):
        """Without a command the usage is shown, with status 2, whatever the program's name."""
        shutil.copy(kit.PROGRAM, self.path("another"))
        for program in (kit.PROGRAM, self.path("another")):
            done = subprocess.run([program], capture_output=True, timeout=kit.PATIENCE, check=False)
            self.assertEqual((done.returncode, done.stdout), (2, b""))
            self.assertIn(b"Usage: norbd <COMMAND>", done.stderr)

    def test_a_command_version(self):
        """Who types `version` is told of the option."""
        done = self.run_norbd("version")
        self.assertEqual((done.status, done.out), (2, b""))
        self.assertIn("unrecognized subcommand", done.fault)
        self.assertTrue(done.fault.endswith("\nnorbd: --version tells it\n"), done.fault)

    def test_bad_words(self):
        """A word that is none of an option's ends with status 2, and is told with those that
        are."""
        for line, fault in BAD_WORDS:
            self.refused(fault, *line.split(), status=2)
        self.refused("bad address: '' is no IP address", "serve", "a.img", "--port", "10809",
                     "--bind", "", status=2)
        self.assertEqual(os.listdir(self.room), [])

    def test_empty_names(self):
        """An image without a name is refused with status 2 by each command, and an empty path of a
        socket, at which nobody would find the server or its status."""
        for line in (["serve", "", "--unix", "a.sock"], ["serve", "", "--port", "10809"],
                     ["chip", "", "--port", "10809"], ["format", "", "--kib", "64"], ["check", ""],
                     ["check", "", "--mend", "--json"], ["show", ""], ["read", ""],
                     ["write", "", "--sectors", "0:1"], ["settle", ""], ["status", ""],
                     ["serve", "a.img", "--unix", "a.sock", "--status", ""]):
            self.refused("a file's name is empty", *line, status=2)
        self.refused("bad size: 65 is no multiple of 64", "format", "", "--kib", "65", status=2)
        for line in (["serve", "a.img", "--unix", ""], ["serve", "", "--unix", ""]):
            self.refused(ADDRESS, *line, status=2)
        self.assertEqual(os.listdir(self.room), [])

    def test_words_that_are_not_text(self):
        """A name that isn't UTF-8 is refused with status 2."""
        for line in (["serve", b"\xFF.img", "--port", "10809"], ["check", b"a\xFF"],
                     ["format", b"\xFF", "--kib", "64"]):
            done = self.run_norbd(*line)
            self.assertEqual((done.status, done.fault), (2, "norbd: a word is not UTF-8\n"))
        self.assertEqual(os.listdir(self.room), [])

    def test_missing_images(self):
        """Each command names the image that isn't there, and why."""
        for line in ("serve m.img --unix m.sock", "check m.img", "check m.img --mend",
                     "check m.img --json", "show m.img", "read m.img", "write m.img", "settle m.img",
                     "chip m.img --port %d" % kit.free_port()):
            self.refused("image failed: m.img: no such file or directory", *line.split())
        self.refused("image failed: no/m.img: no such file or directory", "format", "no/m.img", "--kib",
                     "64")
        self.assertEqual([it for it in os.listdir(self.room) if it != "m.sock"], [])

    def test_what_is_no_file(self):
        """A folder, a pipe and a device are named as what they are, by each command that wants an
        image or would write a device, and none waits for a pipe's other side."""
        os.mkdir(self.path("d"))
        os.mkfifo(self.path("f"))
        readers = ("serve {} --unix m.sock --read-only", "check {}", "show {}", "read {}",
                   "rescue {}")
        writers = ("serve {} --unix m.sock", "check {} --mend", "write {}", "settle {}",
                   "format {} --kib 64", "format {} --kib 64 --force",
                   f"chip {{}} --port {kit.free_port()}")
        for name in ("d", "f"):
            for line in (*readers, *writers):
                self.refused(f"image failed: {name}: not a regular file",
                             *line.format(name).split(), within=20)
        for line in writers:
            self.refused("image failed: /dev/null: not a regular file: a device is only read, "
                         "flashrom or mtd-utils write one, a programmer serves it",
                         *line.format("/dev/null").split())
        for line in readers:
            self.refused("bad image size: /dev/null: 0 bytes", *line.format("/dev/null").split())

    @kit.needs("losetup")
    def test_a_block_device(self):
        """An image on a block device is read as its file is, and no command writes it."""
        self.format()
        data = b"".join(nbd.sector(number) for number in range(70))
        self.norbd("write", "a.img", data=data)
        made = subprocess.run(["losetup", "--find", "--show", self.path("a.img")],
                              capture_output=True, text=True, check=False)
        if made.returncode:
            self.skipTest(f"no loop device can be had: {made.stderr.strip()}")
        device = made.stdout.strip()
        self.addCleanup(subprocess.run, ["losetup", "--detach", device], check=True)
        before = self.bytes_of("a.img")
        for line in ("check {}", "check {} --json", "show {}", "read {}", "read {} --sectors 3:9",
                     "rescue {}"):
            self.assertEqual(self.norbd(*line.format(device).split()),
                             self.norbd(*line.format("a.img").split()), line)
        server = self.serve(device, "--conns", "1", "--read-only")
        with server.client() as client:
            self.assertEqual(client.read(0, 70), data)
            client.disc()
        self.assertEqual(server.end().status, 0)
        for line in ("serve {} --unix m.sock", "check {} --mend", "write {}", "settle {}",
                     "format {} --kib 64 --force"):
            self.refused(f"image failed: {device}: not a regular file: a device is only read, "
                         "flashrom or mtd-utils write one, a programmer serves it",
                         *line.format(device).split())
        self.assertEqual(self.bytes_of("a.img"), before)

    def test_names_that_are_too_long(self):
        """A name of more than 255 bytes is too long for the system, and told so."""
        for line in ("check {}", "read {}", "format {} --kib 64"):
            self.refused(f"image failed: {'n' * 256}: file name too long",
                         *line.format("n" * 256).split())

    def test_files_without_leave(self):
        """A file that one may not open is told as `permission denied`."""
        os.chmod(self.room, 0o755)
        self.format()
        os.chmod(self.path("a.img"), 0)
        for line in ("serve a.img --port %d" % kit.free_port(), "check a.img", "check a.img --mend",
                     "show a.img",
                     "read a.img", "write a.img", "settle a.img",
                     "format a.img --kib 64 --force"):
            self.refused("image failed: a.img: permission denied", *line.split(),
                         preexec_fn=kit.as_nobody())

    def test_lengths_that_no_chip_has(self):
        """A file of another length than a chip's is refused, with its length."""
        for length in (1, 65535, 65537, 70_000, 100 * 1024, 17 << 20):
            self.put("a.img", b"")
            os.truncate(self.path("a.img"), length)
            for line in ("serve a.img --unix a.sock", "check a.img", "read a.img", "show a.img",
                         "settle a.img", "chip a.img --port %d" % kit.free_port()):
                self.refused(f"bad image size: a.img: {length} bytes", *line.split())

    def test_faults_name_the_image(self):
        """Of an image that holds no disk each command says so with its name, and leaves it."""
        unformatted, corrupt, dirty = bytes(65536), kit.formatted(), kit.formatted()
        corrupt[0x2400], dirty[0x4300] = 0x55, 0x55
        told = ("corrupt: c.img: Journals: the votes of J1 for the erase of J0 at 2400h: 55 at "
                "2400h; a vote is FF, FE or FC")
        for name, image, fault in (("u.img", unformatted, "not formatted: u.img"),
                                   ("c.img", corrupt, told),
                                   ("d.img", dirty,
                                    "not clean: d.img: norbd check --mend mends it")):
            self.put(name, image)
            for line in ("serve {} --unix a.sock", "serve {} --unix a.sock --read-only",
                         "read {}", "write {}", "settle {}"):
                self.refused(fault, *line.format(name).split())
            self.assertEqual(self.bytes_of(name), image)
        self.refused(told, "show", "c.img")
        self.refused("not formatted: u.img", "show", "u.img")
        self.assertFalse(os.path.exists(self.path("a.sock")))

    def test_where_nothing_can_be_listened_on(self):
        """A port or an address that can't be had is named, before the image is opened."""
        with socket.create_server(("127.0.0.1", 0)) as taken:
            port = taken.getsockname()[1]
            for line in ("serve", "chip"):
                self.refused(f"no socket: port {port}: address in use", line, "missing.img",
                             "--port", str(port))
        port = kit.free_port()
        self.refused(f"no socket: 192.0.2.1 port {port}: address not available", "serve",
                     "missing.img", "--port", str(port), "--bind", "192.0.2.1")
        if os.path.exists("/proc/net/if_inet6"):
            self.refused(f"no socket: fe80::1 port {port}: a link-local address needs a zone, and "
                         "none can be given", "serve", "missing.img", "--port", str(port),
                         "--bind", "fe80::1")
        for bind in ("127.0.0.1", "0.0.0.0", "::"):
            self.refused("image failed: missing.img: no such file or directory", "serve", "missing.img",
                         "--port", str(port), "--bind", bind)

    def test_ports_without_leave(self):
        """A port that one may not have is told as `permission denied`."""
        with open("/proc/sys/net/ipv4/ip_unprivileged_port_start", encoding="ascii") as file:
            if int(file.read()) <= 80:
                self.skipTest("everybody may have port 80 here")
        self.refused("no socket: port 80: permission denied", "serve", "missing.img", "--port",
                     "80", preexec_fn=kit.as_nobody())

    def test_outputs_that_fail(self):
        """A line that can't be printed is `output failed`, with the cause, status 1."""
        self.format()
        for line in ("format b.img --kib 64", "check a.img", "check a.img --json", "show a.img",
                     "read a.img", "rescue a.img", "serve a.img --unix a.sock", "write a.img",
                     "settle a.img",
                     "chip a.img --port %d" % kit.free_port(), "--help", "--version", "help",
                     "help serve", "serve --help"):
            with open("/dev/full", "wb") as full:
                done = self.run_norbd(*line.split(), data=bytes(35840), stdout=full)
            self.assertEqual((done.status, done.fault),
                             (1, "norbd: output failed: no space left on device\n"), line)
        for line in ("read a.img", "check a.img", "show a.img", "plain --sectors 70"):
            ours, theirs = os.pipe()
            os.close(ours)
            with open(theirs, "wb") as pipe:
                done = self.run_norbd(*line.split(), data=b"\x25\x60\x95\x13" + bytes(20) +
                                      b"\0\0\2\0", stdout=pipe)
            self.assertEqual((done.status, done.fault), (1, "norbd: output failed: broken pipe\n"),
                             line)

    def test_a_closed_output(self):
        """Where standard output is closed, a line that is for what it prints fails; `format`,
        `write` and `settle` do their work, and `/dev/null` has their lines."""
        self.format()
        request = b"\x25\x60\x95\x13" + bytes(20) + b"\0\0\2\0"
        for line in ("read a.img", "check a.img", "check a.img --json", "show a.img",
                     "rescue a.img", "plain --sectors 70", "--help", "--version"):
            done = self.run_norbd(*line.split(), data=request, preexec_fn=lambda: os.close(1))
            self.assertEqual((done.status, done.fault),
                             (1, "norbd: output failed: standard output is closed\n"), line)
        for line in ("write a.img", "settle a.img", "format b.img --kib 64"):
            done = self.run_norbd(*line.split(), data=b"\x5A" * 35840,
                                  preexec_fn=lambda: os.close(1))
            self.assertEqual((done.status, done.fault), (0, ""), line)
        self.assertEqual(self.norbd("read", "a.img"), b"\x5A" * 35840)

    def test_closed_descriptors(self):
        """Descriptors 0 to 2 that are closed are /dev/null, and no line gets into an image."""
        self.format()
        before = self.bytes_of("a.img")
        for closed in ((0,), (1,), (2,), (0, 1), (1, 2), (0, 2), (0, 1, 2)):
            address = self.path(f"{len(closed)}{closed[0]}.sock")
            process = self.start("serve", "a.img", "--unix", address, "-v",
                                 stdout=subprocess.DEVNULL, stderr=subprocess.DEVNULL,
                                 preexec_fn=lambda: [os.close(it) for it in closed])
            self.assertTrue(kit.wait_for(lambda: os.path.exists(address)))
            self.assertTrue(kit.wait_for(lambda: self.served(address)))
            held = kit.descriptors_of(process.pid)
            self.assertEqual({held[it] for it in closed}, {"/dev/null"})
            image = [it for it, name in held.items() if name == self.path("a.img")]
            self.assertTrue(image and min(image) > 2, held)
            process.kill()
            process.wait()
            self.assertEqual(self.bytes_of("a.img"), before)

    def served(self, address):
        """Whether somebody greets at a Unix socket."""
        try:
            return bool(kit.nbd.Client(address).receive(18))
        except (OSError, kit.nbd.Closed):
            return False

    @kit.not_emulated
    def test_no_thread(self):
        """Where no thread can be started, `serve` says so and ends with status 1."""
        os.chmod(self.room, 0o777)
        self.format()
        os.chmod(self.path("a.img"), 0o666)

        def alone():
            become = kit.as_nobody()
            if become:
                become()
            resource.setrlimit(resource.RLIMIT_NPROC, (1, 1))
        process = self.start("serve", "a.img", "--unix", "a.sock", preexec_fn=alone)
        kit.wait_for(lambda: os.path.exists(self.path("a.sock")), 5)
        try:
            kit.nbd.Client(self.path("a.sock")).is_closed(5)
        except OSError:
            pass  # it has ended
        done = self.end_of(process)
        self.assertEqual((done.status, done.fault), (1, "norbd: no thread\n"))

    def test_inputs_of_write(self):
        """`write` says what its input failed at: another length, or a read that fails."""
        self.format()
        self.refused("standard input has 512 bytes, sectors 0 to 69 take 35840", "write", "a.img",
                     data=bytes(512), out="replacing sectors 0 to 69\n")
        with open("/proc/self/mem", "rb") as unreadable:
            self.refused("input failed", "write", "a.img", stdin=unreadable,
                         out="replacing sectors 0 to 69\n")

    def test_ranges(self):
        """A range that is none of this disk's is refused with status 2."""
        self.format()
        before = self.bytes_of("a.img")
        rule = "A:B, with A below B, of the disk's sectors"
        for text, why in (("3:3", rule), ("4:3", rule), ("3", rule), ("a:4", rule), ("0:-1", rule),
                          (":", rule), ("0:", rule), (":3", rule), ("", rule), ("0:1:2", rule),
                          ("0:70x", rule), (" 0:1", rule), ("-1:3", rule),
                          ("69:71", "71 is above 70"), ("0:99999", "99999 is above 70"),
                          ("4294967296:4294967297", "4294967297 is above 70"),
                          ("99999:100000", "100000 is above 70")):
            for command in ("read", "write"):
                self.refused(f"bad range of sectors: a.img: {why}", command, "a.img",
                             f"--sectors={text}", status=2)
        self.assertEqual(self.bytes_of("a.img"), before)


if __name__ == "__main__":
    unittest.main()
