"""What `format` makes of a file, by docs/LAYOUT.md and docs/SERVE.md."""
import os
import unittest

import kit


class Format(kit.Case):
    def test_what_a_format_writes(self):
        """A formatted image is a chip by docs/LAYOUT.md: its superblock, and all else erased."""
        chance = kit.dice("formats")
        some = {64 * chance.randrange(1, 33) for _ in range(8)}
        for kib in sorted({64, 128, 1024, 16384} | some):
            sectors = 7 * (7 * (kib // 4 - 4) // 8)
            out = self.norbd("format", "a.img", "--kib", str(kib), "--force")
            self.assertEqual(out.decode(), f"formatted {sectors} sectors\n")
            self.assertEqual(self.bytes_of("a.img"), kit.formatted(kib))
        for kib, sectors in kit.SECTORS.items():
            self.assertEqual(sectors, 7 * (7 * (kib // 4 - 4) // 8))

    def test_a_formatted_image_is_kept(self):
        """A file that holds a formatted chip, of whatever size and state, is replaced with
        --force alone."""
        dirty, corrupt, old = kit.formatted(128), kit.formatted(), kit.formatted(64, layout=1)
        dirty[0x4300], corrupt[0x2400] = 0x55, 0x55
        for image in (kit.formatted(), kit.formatted(128), dirty, corrupt, old):
            self.put("a.img", image)
            self.refused("image is formatted: a.img: --force replaces it", "format", "a.img",
                         "--kib", "64")
            self.assertEqual(self.bytes_of("a.img"), image)
            self.norbd("format", "a.img", "--force", "--kib", "64")
            self.assertEqual(self.bytes_of("a.img"), kit.formatted())

    def test_other_files_are_kept(self):
        """A file that holds anything else is replaced with --force alone, and what it is that was
        found is said; one that is empty or all FFh is replaced as nothing was there."""
        nameless, unsealed, last = kit.formatted(), kit.formatted(), bytearray(b"\xFF" * 70_000)
        nameless[0], unsealed[14], last[-1] = 0, 0xFF, 0xFE
        for data in (b"\n", bytes(64), bytes(65536), b"%PDF-1.7 a thesis", nameless, unsealed,
                     last, kit.formatted()[:14]):
            self.put("thesis.odt", data)
            self.refused("file isn't empty: thesis.odt: --force replaces it", "format",
                         "thesis.odt", "--kib", "64")
            self.assertEqual(self.bytes_of("thesis.odt"), data)
            self.norbd("format", "thesis.odt", "--force", "--kib", "64")
            self.assertEqual(self.bytes_of("thesis.odt"), kit.formatted())
        for length in (0, 1, 15, 4096, 65536, 70_001, 1 << 24):
            self.put("a.img", b"\xFF" * length)
            self.format()
            self.assertEqual(self.bytes_of("a.img"), kit.formatted())

    def test_a_long_file_is_not_held_in_memory(self):
        """A file of another kind is refused by its first bytes, however long it is."""
        self.put("disk.img", b"")
        os.truncate(self.path("disk.img"), 1 << 40)
        self.refused("file isn't empty: disk.img: --force replaces it", "format", "disk.img",
                     "--kib", "64", within=20)

    def test_nothing_is_left_beside(self):
        """A format leaves the image and nothing else in its folder, also where it fails."""
        self.format()
        self.assertEqual(os.listdir(self.room), ["a.img"])
        done = self.run_norbd("format", "b.img", "--kib", "128", preexec_fn=kit.limit_files(65536))
        self.assertEqual(done.status, 1)
        self.assertTrue(done.fault.startswith("norbd: image failed: b.img: "), done.fault)
        self.assertEqual(os.listdir(self.room), ["a.img"])
        before = self.bytes_of("a.img")
        done = self.run_norbd("format", "a.img", "--kib", "128", "--force",
                              preexec_fn=kit.limit_files(65536))
        self.assertEqual(done.status, 1)
        self.assertEqual((os.listdir(self.room), self.bytes_of("a.img")), (["a.img"], before))

    def test_a_link_stays_a_link(self):
        """A format through a link makes the file that it names, and keeps the file's mode."""
        os.symlink("real.img", self.path("a.img"))
        self.format()
        self.assertTrue(os.path.islink(self.path("a.img")))
        self.assertEqual(self.bytes_of("real.img"), kit.formatted())
        os.chmod(self.path("real.img"), 0o604)
        self.norbd("format", "a.img", "--kib", "128", "--force")
        self.assertTrue(os.path.islink(self.path("a.img")))
        self.assertEqual(os.stat(self.path("real.img")).st_mode & 0o777, 0o604)
        self.assertEqual(self.bytes_of("real.img"), kit.formatted(128))

    def test_where_the_line_can_not_be_printed(self):
        """A format whose line can't be printed fails, and has made the image."""
        with open("/dev/full", "wb") as full:
            done = self.run_norbd("format", "a.img", "--kib", "64", stdout=full)
        self.assertEqual((done.status, done.fault), (
            1, "norbd: output failed: no space left on device\n"))
        self.assertEqual(self.bytes_of("a.img"), kit.formatted())


if __name__ == "__main__":
    unittest.main()
