"""Images: locked, replaced, damaged, unclean, mended, read-only, of layout 1, and `read` and
`write` of their sectors, by docs/SERVE.md, docs/CHECK.md and docs/LAYOUT.md."""
import os
import subprocess
import time
import unittest

import kit
import nbd


def slots_of(image, sectors=range(70)):
    """Puts sectors into the first slots of an image."""
    for at, number in enumerate(sectors):
        kit.set_slot(image, 4 + at // 7, at % 7, number, nbd.sector(number))
    return image

IN_USE = "image in use: a.img: norbd status looks at one that is served with --status"


class Locked(kit.Case):
    def test_one_owner(self):
        """While one process has an image no other serves, formats, checks, reads, writes, settles or
        answers for it, nor changes a byte; the lock ends with the process."""
        self.format()
        for words in ([], ["--read-only"]):
            server = self.serve("a.img", *words)
            before = self.bytes_of("a.img")
            for line in ("serve a.img --unix b.sock", "serve a.img --unix b.sock --read-only",
                         "format a.img --kib 64", "format a.img --kib 64 --force", "check a.img",
                         "check a.img --mend", "check a.img --json", "show a.img", "read a.img",
                         "rescue a.img",
                         "write a.img", "settle a.img", f"chip a.img --port {kit.free_port()}"):
                self.refused(IN_USE, *line.split())
            self.assertEqual(self.bytes_of("a.img"), before)
            self.assertEqual(server.client().read(0), bytes(512))
            server.kill()
            self.assertEqual(self.check()["verdict"], "clean")

    def test_chip_owns_it_too(self):
        """`chip` holds the image's lock."""
        self.format()
        self.start("chip", "a.img", "--port", str(kit.free_port())).stdout.readline()
        self.refused(IN_USE, "serve", "a.img", "--unix", "a.sock")

    def test_a_missing_image_is_not_made(self):
        """Nothing but `format` makes an image."""
        for line in ("serve a.img --unix a.sock", "check a.img --mend", "write a.img",
                     "settle a.img"):
            self.run_norbd(*line.split())
        self.assertFalse(os.path.exists(self.path("a.img")))

    @kit.needs("strace")
    def test_a_file_that_is_renamed_meanwhile(self):
        """What is served is the file that has the name once it is locked: of one that another
        replaced meanwhile nothing is served."""
        self.put("a.img", slots_of(kit.formatted(), [0]))
        self.put("new.img", kit.formatted(128))
        process = self.start("serve", "a.img", "--unix", "a.sock", under=kit.traced(
            "flock,fcntl", "-e", "inject=flock:delay_enter=1500000:when=1"))
        self.assertTrue(kit.wait_for(lambda: os.path.exists(self.path("a.sock")), 20))
        time.sleep(0.7)
        os.rename(self.path("a.img"), self.path("old.img"))
        os.rename(self.path("new.img"), self.path("a.img"))
        line = process.stdout.readline()
        if line:  # it took the new one
            self.assertEqual(line, b"serving 168 sectors on a.sock\n")
        else:
            done = self.end_of(process)
            self.assertEqual((done.status, done.fault[:13]), (1, "norbd: image "))


class Replaced(kit.Case):
    def test_write_settle_and_mend_keep_links_and_modes(self):
        """`write`, `settle` and `check --mend` replace the file that a link names, which keeps its
        mode; the link stays, and nothing is left beside."""
        dirty = kit.formatted()
        dirty[0x4300] = 0x55
        os.mkdir(self.path("real"))
        os.symlink("real/b.img", self.path("a.img"))
        for line, image in ((["write", "a.img"], kit.formatted()),
                            (["settle", "a.img"], kit.formatted()),
                            (["check", "a.img", "--mend"], dirty)):
            self.put("real/b.img", image)
            os.chmod(self.path("real/b.img"), 0o604)
            inode = os.stat(self.path("real/b.img")).st_ino
            self.norbd(*line, data=b"\x5A" * 35840)
            self.assertTrue(os.path.islink(self.path("a.img")))
            self.assertEqual(os.readlink(self.path("a.img")), "real/b.img")
            status = os.stat(self.path("real/b.img"))
            self.assertEqual(status.st_mode & 0o777, 0o604)
            self.assertNotEqual(status.st_ino, inode)
            self.assertEqual(os.listdir(self.path("real")), ["b.img"])
            self.assertEqual(self.check()["verdict"], "clean")

    def test_a_write_that_fails_keeps_the_old_file(self):
        """Where the new file can't be written the old one stays whole, and nothing is left
        beside."""
        dirty = slots_of(kit.formatted(128))
        dirty[4096 * 30 + 600] = 0x55
        for line in (["write", "a.img"], ["settle", "a.img"], ["check", "a.img", "--mend"]):
            self.put("a.img", dirty if "check" in line else kit.formatted(128))
            before = self.bytes_of("a.img")
            done = self.run_norbd(*line, data=b"\x5A" * 168 * 512,
                                  preexec_fn=kit.limit_files(100_000))
            self.assertEqual(done.status, 1)
            self.assertIn("norbd: image failed: a.img: ", done.fault)
            self.assertEqual((os.listdir(self.room), self.bytes_of("a.img")), (["a.img"], before))

    def test_what_a_killed_process_left(self):
        """What a killed `format`, `write`, `settle` or `check --mend` left beside the image stops
        no later one, which removes it."""
        dirty = kit.formatted()
        dirty[0x4300] = 0x55
        for line in ("format a.img --kib 64 --force", "write a.img", "settle a.img",
                     "check a.img --mend"):
            self.put("a.img", dirty if "mend" in line else kit.formatted())
            self.put("a.img.norbd-new", b"half of it")
            self.norbd(*line.split(), data=b"\1" * 35840)
            self.assertEqual(os.listdir(self.room), ["a.img"], line)

    def test_a_clean_image_is_not_replaced(self):
        """`check --mend` of an image that is clean leaves the file, as `check` does."""
        self.put("a.img", slots_of(kit.formatted()))
        before = os.stat(self.path("a.img"))
        for words in (["--mend"], ["--mend", "--json"], [], ["--json"]):
            self.norbd("check", "a.img", *words)
            after = os.stat(self.path("a.img"))
            self.assertEqual((after.st_ino, after.st_mtime_ns), (before.st_ino, before.st_mtime_ns))


class Mended(kit.Case):
    def test_mending(self):
        """An image that isn't clean is refused and left; mended it has its sectors, and is
        clean."""
        for sectors, at in ((range(0), 0x4300), (range(70), 4096 * 15 + 700), (range(30), 0xF008)):
            image = slots_of(kit.formatted(), sectors)
            image[at] = 0x55
            self.put("a.img", image)
            self.refused("not clean: a.img: norbd check --mend mends it", "read", "a.img")
            done = self.run_norbd("check", "a.img")
            self.assertEqual((done.status, done.fault), (
                1, "norbd: not clean: a.img: norbd check --mend mends it\n"))
            self.assertTrue(done.text.endswith(f"not clean: {at:X}h reads as free and isn't FF\n"))
            self.assertEqual(self.bytes_of("a.img"), image)
            text = self.norbd("check", "a.img", "--mend").decode()
            self.assertTrue(text.endswith(f"not clean: {at:X}h reads as free and isn't FF\n"
                                          "mended 70 sectors\n"), text)
            self.assertEqual(os.listdir(self.room), ["a.img"])
            self.assertEqual(self.norbd("read", "a.img"), b"".join(
                nbd.sector(it) if it in sectors else bytes(512) for it in range(70)))
            self.assertEqual(self.check()["slots"]["live"], len(sectors))
            if not sectors:
                self.assertEqual(self.bytes_of("a.img"), kit.formatted())
            os.remove(self.path("a.img"))

    def test_what_is_not_mended(self):
        """An image that is corrupt or not formatted isn't mended, and stays as it is."""
        corrupt = kit.formatted()
        corrupt[0x2400] = 0x55
        for image, fault in ((corrupt, "corrupt"), (bytes(65536), "not formatted")):
            self.put("a.img", image)
            done = self.run_norbd("check", "a.img", "--mend")
            self.assertEqual((done.status, done.fault), (1, f"norbd: {fault}: a.img\n"))
            self.assertEqual(self.bytes_of("a.img"), image)

    def test_random_damage(self):
        """Of random damage `check` says what `serve` does with it, and changes nothing; what isn't
        clean is mended."""
        chance, verdicts = kit.dice("damage"), set()
        for _ in range(60):
            image = slots_of(kit.formatted(), range(chance.randrange(71)))
            place = chance.choice([range(16), range(0x1000, 0x4000), range(0x4000, 0x10000),
                                   range(0xE000, 0x10000), range(0x4010, 0x4030)])
            for _ in range(chance.choice([1, 1, 2, 5])):
                image[chance.choice(place)] = chance.choice(
                    [0, 0xFE, 0xFC, 0xF8, chance.randrange(256)])
            self.put("a.img", image)
            verdict = self.check()["verdict"]
            verdicts.add(verdict)
            done = self.run_norbd("check", "a.img")
            self.assertEqual(done.status, 0 if verdict == "clean" else 1)
            read = self.run_norbd("read", "a.img")
            self.assertEqual(read.status == 0, verdict == "clean")
            if verdict != "clean":
                self.assertTrue(read.fault.startswith(f"norbd: {verdict}: a.img"), read.fault)
                self.assertTrue(done.text.splitlines()[-1].startswith(f"{verdict}: "))
            self.assertEqual(self.bytes_of("a.img"), image)
            if verdict == "not clean":
                self.norbd("check", "a.img", "--mend")
                self.assertEqual(self.check()["verdict"], "clean")
        self.assertEqual(verdicts, {"clean", "not clean", "corrupt", "not formatted"})


class ReadOnly(kit.Case):
    def test_an_image_that_may_only_be_read(self):
        """`serve --read-only`, `check`, `show` and `read` want no permission to write."""
        os.chmod(self.room, 0o777)
        self.put("a.img", slots_of(kit.formatted(), range(9)))
        os.chmod(self.path("a.img"), 0o444)
        become = kit.as_nobody()
        self.assertEqual(self.norbd("read", "a.img", "--sectors", "8:9", preexec_fn=become),
                         nbd.sector(8))
        self.assertTrue(self.norbd("show", "a.img", preexec_fn=become).startswith(b"    0 SJJJ72"))
        self.assertTrue(self.norbd("check", "a.img", preexec_fn=become).endswith(
            b"clean 70 sectors\n"))
        self.assertIn(b'"verdict":"clean"', self.norbd("check", "a.img", "--json",
                                                       preexec_fn=become))
        self.refused("image failed: a.img: permission denied", "check", "a.img", "--mend",
                     preexec_fn=become)
        before = os.stat(self.path("a.img"))
        server = self.serve("a.img", "--read-only", preexec_fn=become)
        client = server.client()
        self.assertEqual((client.flags, client.read(8)), (0x010F, nbd.sector(8)))
        self.assertEqual((client.write(8, bytes(512)), client.flush()), (nbd.EPERM, nbd.OK))
        held = [it for it, name in kit.descriptors_of(server.pid).items()
                if name == self.path("a.img")]
        self.assertTrue(held)
        for number in held:
            with open(f"/proc/{server.pid}/fdinfo/{number}", encoding="ascii") as file:
                flags = int([it for it in file if it.startswith("flags:")][0].split()[1], 8)
            self.assertEqual(flags & os.O_ACCMODE, os.O_RDONLY)
        server.kill()
        after = os.stat(self.path("a.img"))
        self.assertEqual((before.st_mtime_ns, before.st_ino), (after.st_mtime_ns, after.st_ino))
        self.refused("image failed: a.img: permission denied", "serve", "a.img", "--unix", "a.sock",
                     preexec_fn=become)

    def test_recovered_in_the_copy_alone(self):
        """An image that needs a recovery is served read-only as it would be recovered, and the file
        is left as it is."""
        image = slots_of(kit.formatted(), range(7))
        kit.set_mark(image, 15, 0xFC, 4)
        for place in range(7):
            kit.set_slot(image, 15, place, place, nbd.sector(place, 1))
        kit.set_bytes(image, kit.ENTRIES, bytes([0xFC, 4, 0, 0xFF]))
        self.put("a.img", image)
        client = self.serve("a.img", "--read-only").client()
        self.assertEqual(client.read(0, 7), b"".join(nbd.sector(it, 1) for it in range(7)))
        self.assertEqual(self.bytes_of("a.img"), image)


class Moved(kit.Case):
    def test_read_and_write(self):
        """`write` replaces the disk or a part of it by its input, and `read` gives it back."""
        self.format()
        self.assertEqual(self.norbd("read", "a.img"), bytes(35840))
        self.assertEqual(self.norbd("write", "a.img", "--sectors", "2:4", data=b"\x5A" * 1024),
                         b"replacing sectors 2 to 3\nreplaced sectors 2 to 3\n")
        self.assertEqual(self.norbd("read", "a.img", "--sectors", "1:4"),
                         bytes(512) + b"\x5A" * 1024)
        self.assertEqual(self.norbd("write", "a.img", data=b"\xA5" * 35840),
                         b"replacing sectors 0 to 69\nreplaced sectors 0 to 69\n")
        for words in ([], ["--sectors", "0:70"]):
            self.assertEqual(self.norbd("read", "a.img", *words), b"\xA5" * 35840)

    def test_random_parts(self):
        """After parts of random places and bytes the disk is what a plain array is, on each
        size."""
        chance = kit.dice("parts")
        for kib in (64, 128, 1024):
            self.format(f"{kib}.img", kib)
            held = bytearray(512 * kit.SECTORS[kib])
            for _ in range(12):
                first = chance.randrange(kit.SECTORS[kib])
                end = chance.randrange(first + 1, min(kit.SECTORS[kib], first + 300) + 1)
                data = b"".join(bytes(512) if chance.random() < 0.2 else
                                nbd.sector(it, chance.getrandbits(32)) for it in range(first, end))
                self.norbd("write", f"{kib}.img", "--sectors", f"{first}:{end}", data=data)
                held[512 * first:512 * end] = data
                at = chance.randrange(kit.SECTORS[kib])
                self.assertEqual(self.norbd("read", f"{kib}.img", "--sectors", f"{at}:{at + 1}"),
                                 held[512 * at:512 * at + 512])
            self.assertEqual(self.norbd("read", f"{kib}.img"), held)
            zeros = sum(held[at:at + 512] == bytes(512) for at in range(0, len(held), 512))
            self.assertEqual(self.check(f"{kib}.img")["slots"]["live"], kit.SECTORS[kib] - zeros)

    def test_zeros_take_no_slot(self):
        """Sectors of zeros that are written take no slot, and give up the one that they had."""
        self.format()
        self.norbd("write", "a.img", data=bytes(35840))
        self.assertEqual(self.check()["slots"], {"free": 84, "live": 0, "dead": 0})
        self.norbd("write", "a.img", data=b"\1" * 35840)
        self.norbd("write", "a.img", "--sectors", "0:60", data=bytes(30720))
        self.assertEqual(self.check()["slots"]["live"], 10)

    def test_inputs_of_another_length(self):
        """An input that is a byte shorter or longer than its part is refused, and nothing is
        replaced."""
        self.put("a.img", slots_of(kit.formatted()))
        before = self.bytes_of("a.img")
        for words, told, length, wrong in (
                (["--sectors", "0:70"], "0 to 69", 35840, (512, 0, 35839, 35841, 71680)),
                (["--sectors", "3:4"], "3 to 3", 512, (511, 513, 0, 1024)),
                ([], "0 to 69", 35840, (35839,))):
            for count in wrong:
                had = f"{count}" if count < length else f"more than {length}"
                self.refused(f"standard input has {had} bytes, sectors {told} take {length}",
                             "write", "a.img", *words, data=b"\x5A" * count,
                             out=f"replacing sectors {told}\n")
        self.assertEqual(self.bytes_of("a.img"), before)

    def test_the_line_comes_before_the_input(self):
        """`write` says which sectors it replaces before it reads, and an end of it by a signal then
        leaves the image."""
        self.put("a.img", slots_of(kit.formatted()))
        before = self.bytes_of("a.img")
        process = self.start("write", "a.img", stdin=subprocess.PIPE)
        self.assertEqual(process.stdout.readline(), b"replacing sectors 0 to 69\n")
        process.stdin.write(b"\x5A" * 20000)
        process.stdin.flush()
        process.kill()
        process.wait()
        self.assertEqual((self.bytes_of("a.img"), os.listdir(self.room)), (before, ["a.img"]))


class Layout1(kit.Case):
    def image(self, mixed=False):
        image = kit.formatted(64, 1, mixed)
        for group, block in ((0, 4), (1, 9), (9, 12)):
            kit.set_group(image, block, group, b"".join(
                nbd.sector(it) for it in range(7 * group, 7 * group + 7)))
        return image

    def held(self):
        held = bytearray(35840)
        for number in (*range(14), *range(63, 70)):
            held[512 * number:512 * number + 512] = nbd.sector(number)
        return held

    def test_it_is_served(self):
        """A chip of layout 1 has its sectors, as it is and mixed; a start makes it mixed, and
        tidying leaves slots alone."""
        for mixed in (False, True):
            self.put("a.img", self.image(mixed))
            self.assertEqual(self.check()["layout"], "mixed" if mixed else "1")
            self.assertEqual(self.norbd("read", "a.img"), self.held())
            self.assertEqual(self.bytes_of("a.img"), self.image(mixed))
            server = self.serve("a.img", "--tidy", "eager", "--sync", "never")
            client = server.client()
            self.assertEqual(client.read(0, 70), self.held())
            self.assertEqual(client.write(8, b"\x88" * 512), nbd.OK)
            held = self.held()
            held[512 * 8:512 * 9] = b"\x88" * 512
            kit.wait_for(lambda: self.check_copy()["blocks"]["groups"] == 0, 20)
            kit.wait_for(lambda: self.check_copy()["blocks"]["dead_groups"] == 0, 20)
            self.assertEqual(client.read(0, 70), held)
            server.kill()
            told = self.check()
            self.assertEqual((told["verdict"], told["layout"]), ("clean", "mixed"))
            self.assertEqual((told["blocks"]["groups"], told["blocks"]["dead_groups"]), (0, 0))
            self.assertEqual(self.bytes_of("a.img")[15], 0xFE)
            self.assertEqual(self.norbd("read", "a.img"), held)

    def test_the_newer_of_two_groups(self):
        """Of two blocks with one group the newer counts, as an interrupted write leaves them."""
        image = self.image()
        kit.set_group(image, 5, 1, b"".join(nbd.sector(it, 5) for it in range(7, 14)), generation=1)
        self.put("a.img", image)
        client = self.serve().client()
        self.assertEqual(client.read(7, 7), b"".join(nbd.sector(it, 5) for it in range(7, 14)))
        self.assertEqual(client.read(0, 7), b"".join(nbd.sector(it) for it in range(7)))


class Newer(kit.Case):
    def test_the_newer_of_two_slots(self):
        """Of two live slots of a sector the one with the next generation counts."""
        for old, new in ((0, 1), (1, 2), (2, 3), (3, 0)):
            image = kit.formatted()
            kit.set_slot(image, 4, 0, 3, nbd.sector(3, 1), new)
            kit.set_slot(image, 7, 4, 3, nbd.sector(3, 0), old)
            kit.set_slot(image, 8, 0, 5, nbd.sector(5), 2, state=0xF8)
            self.put("a.img", image)
            self.assertEqual(self.norbd("read", "a.img", "--sectors", "3:6"),
                             nbd.sector(3, 1) + bytes(1024))


if __name__ == "__main__":
    unittest.main()
