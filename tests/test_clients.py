"""Other people's clients, where they are installed: what docs/SERVE.md ("Client by client") and
docs/REAL-CHIP.md say of each."""
import os
import shutil
import subprocess
import unittest

import kit
import nbd

PYTHON_OF_DEBIAN = "/usr/bin/python3"  # which has python3-libnbd


class Clients(kit.Case):
    kib = 1024

    def setUp(self):
        super().setUp()
        self.format("a.img", self.kib)
        self.size = 512 * kit.SECTORS[self.kib]

    def at(self, *words):
        """Serves the image, and answers the address of its export."""
        self.server = self.serve("a.img", "--sync", "never", *words)
        return f"nbd+unix:///flash?socket={self.server.address}"

    def tool(self, *words, status=0, **how):
        """Runs a client to its end: what it printed."""
        done = subprocess.run(words, cwd=self.room, stdin=subprocess.DEVNULL, timeout=60,
                              stdout=subprocess.PIPE, stderr=subprocess.STDOUT, check=False, **how)
        text = done.stdout.decode(errors="replace")
        self.assertEqual(done.returncode, status, f"{words}: {text}")
        return text

    def data(self, name, length):
        """A file of so many bytes that look random."""
        data = kit.dice(name).getrandbits(8 * length).to_bytes(length, "big")
        self.put(name, data)
        return data

    @kit.needs("nbdinfo")
    def test_nbdinfo(self):
        """`nbdinfo` finds the export, its size, its flags and its block sizes."""
        text = self.tool("nbdinfo", self.at())
        for line in ('export="flash":', f"export-size: {self.size}", "can_flush: true",
                     "can_fua: true", "can_trim: true", "can_zero: true", "can_fast_zero: false",
                     "can_multi_conn: true", "is_read_only: false", "block_size_minimum: 512",
                     "block_size_preferred: 4096", "block_size_maximum: 65536"):
            self.assertIn(line, text)
        address = self.server.address
        self.assertEqual(self.tool("nbdinfo", "--size", f"nbd+unix:///?socket={address}"),
                         f"{self.size}\n")
        self.assertIn('export="flash":', self.tool("nbdinfo", "--list",
                                                   f"nbd+unix:///?socket={address}"))
        self.server.kill()
        text = self.tool("nbdinfo", self.at("--read-only", "--max-request", "1024"))
        for line in ("is_read_only: true", "can_trim: false", "can_zero: false",
                     "block_size_maximum: 1048576"):
            self.assertIn(line, text)

    @kit.needs("nbdcopy")
    def test_nbdcopy(self):
        """`nbdcopy` copies a file onto the disk and back, as it comes and with the largest requests
        that it is told."""
        for words, more in (([], []), ([], ["--connections=1", "--request-size=65536"]),
                            (["--max-request", "1024"], ["--request-size=1048576"])):
            address = self.at(*words)
            data = self.data("data.bin", self.size)
            self.tool("nbdcopy", *more, "data.bin", address)
            self.tool("nbdcopy", *more, address, "back.bin")
            self.assertEqual(self.bytes_of("back.bin"), data)
            self.server.kill()
            self.assertEqual(self.norbd("read", "a.img"), data)
        self.assertIn("Invalid argument", self.tool(
            "nbdcopy", "data.bin", self.at("--max-request", "64"), status=1))
        self.assertIn("262144 bytes at once are refused, 65536 are the most: serve with "
                      "--max-request 256\n", self.server.kill().fault)

    @kit.needs("nbdcopy")
    def test_a_sparse_file(self):
        """`nbdcopy` of a sparse file gives its holes as zeros, over what was there."""
        address = self.at()
        self.data("full.bin", self.size)
        self.tool("nbdcopy", "full.bin", address)
        with open(self.path("sparse.bin"), "wb") as file:
            file.truncate(self.size)
            file.seek(65536)
            file.write(b"\x11" * 4096)
            file.seek(524288)
            file.write(b"\x22" * 4096)
        self.tool("nbdcopy", "sparse.bin", address)
        self.server.kill()
        self.assertEqual(self.norbd("read", "a.img"), self.bytes_of("sparse.bin"))
        self.assertLess(self.check()["slots"]["live"], 64)

    @kit.needs("qemu-io")
    def test_qemu(self):
        """`qemu-io` and `qemu-img` write, read, discard and zero at any offset and length, and find
        what they wrote, without --max-request."""
        address = self.at()
        text = self.tool("qemu-io", "-f", "raw", "-c", "write -P 0x5a 100 3", "-c",
                         "read -P 0x5a 100 3", "-c", "write -P 0x11 1000 700000", "-c",
                         "read -P 0x11 1000 700000", "-c", "discard 0 64k", "-c", "read -P 0 0 64k",
                         "-c", "read -P 0x11 64k 64k", "-c", "write -z -u 128k 64k", "-c",
                         "read -P 0 128k 64k", "-c", "write -f -P 7 0 512k", "-c",
                         "read -P 7 0 512k", "-c", "flush", address)
        self.assertNotIn("Pattern verification failed", text)
        self.assertNotIn("error", text.lower())
        data = self.data("data.bin", self.size)
        self.tool("qemu-img", "convert", "-n", "-f", "raw", "-O", "raw", "data.bin", address)
        self.assertIn("Images are identical.", self.tool(
            "qemu-img", "compare", "-f", "raw", "-F", "raw", "data.bin", address))
        self.tool("qemu-img", "convert", "-f", "raw", "-O", "raw", address, "back.bin")
        self.assertEqual(self.bytes_of("back.bin"), data)
        self.server.kill()
        self.assertEqual(self.norbd("read", "a.img"), data)

    @kit.needs("nbdkit")
    @kit.needs("nbdcopy")
    def test_nbdkits_filter(self):
        """Through nbdkit's filter `blocksize` a file of any length is copied, without
        --max-request."""
        address = self.at()
        data = self.data("odd.bin", 100_001)
        self.tool("nbdkit", "-U", "-", "--filter=blocksize", "nbd", f"uri={address}", "--run",
                  'nbdcopy odd.bin "$uri"')
        self.server.kill()
        self.assertEqual(self.norbd("read", "a.img")[:len(data)], data)

    def test_nbdsh(self):
        """`nbdsh` and libnbd write, zero and trim, and get the errors of docs/NBD.md."""
        probe = subprocess.run([PYTHON_OF_DEBIAN, "-c", "import nbd"], cwd=self.room, check=False,
                               capture_output=True) if os.path.exists(PYTHON_OF_DEBIAN) else None
        if probe is None or probe.returncode:
            self.skipTest("python3-libnbd is not installed")
        self.put("session.py", b"""
import errno, nbd, sys
h = nbd.NBD()
h.connect_uri(sys.argv[1])
h.pwrite(b'x' * 65536, 0)
h.zero(512, 512)
h.zero(512, 1024, nbd.CMD_FLAG_NO_HOLE)
h.trim(512, 2048)
h.flush()
want = b'x' * 512 + bytes(1024) + b'x' * 512 + bytes(512) + b'x' * (65536 - 2560)
assert h.pread(65536, 0) == want
h.set_strict_mode(0)
assert h.pread(131072, 0)[:65536] == want
for code, call in ((errno.EINVAL, lambda: h.pread(1049088, 0)),
                   (errno.EINVAL, lambda: h.trim(512, 0, nbd.CMD_FLAG_NO_HOLE)),
                   (errno.EINVAL, lambda: h.trim(512, h.get_size())),
                   (errno.EINVAL, lambda: h.trim(100, 0)),
                   (errno.ENOSPC, lambda: h.zero(512, h.get_size()))):
    try:
        call()
    except nbd.Error as error:
        assert error.errnum == code, error
    else:
        raise AssertionError('no error')
assert h.pread(65536, 0) == want
""")
        self.tool(PYTHON_OF_DEBIAN, "session.py", self.at(), env={})

    @kit.needs("fio")
    def test_fio(self):
        """`fio` verifies random writes of 4, 64 and 256 KiB, and trims."""
        address = self.at()
        for size in ("4k", "64k", "256k"):
            text = self.tool("fio", "--name=t", "--ioengine=nbd", f"--uri={address}",
                             "--rw=randwrite", f"--bs={size}", "--size=768k", "--verify=crc32c",
                             "--iodepth=8")
            self.assertIn("err= 0", text)
        text = self.tool("fio", "--name=t", "--ioengine=nbd", f"--uri={address}",
                         "--rw=randtrimwrite", "--bs=4k", "--size=768k")
        self.assertIn("err= 0", text)

    def test_nbd_client(self):
        """`nbd-client -l` lists the one export."""
        tool = shutil.which("nbd-client") or shutil.which("nbd-client", path="/usr/sbin:/sbin")
        if not tool:
            self.skipTest("nbd-client is not installed")
        port = kit.free_port()
        self.serve("a.img", "--port", str(port))
        self.assertIn("flash", self.tool(tool, "-l", "127.0.0.1", str(port)).splitlines())


class Flashrom(kit.Case):
    def test_flashrom(self):
        """`flashrom` finds the chip of `norbd chip`, reads it, writes and verifies another."""
        self.format("a.img", 16384)
        port = kit.free_port()
        self.start("chip", "a.img", "--port", str(port)).stdout.readline()
        flash = self.flashrom(f"127.0.0.1:{port}")
        self.assertIn("W25Q128", flash())
        image = self.rewritten(flash)
        self.end_all()
        self.assertEqual(self.bytes_of("a.img"), image)
        self.assertEqual(self.norbd("read", "a.img", "--sectors", "0:100"),
                         b"".join(nbd.sector(it) for it in range(100)))


if __name__ == "__main__":
    unittest.main()
