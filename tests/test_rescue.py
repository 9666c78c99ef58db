"""`rescue`: what can be told of a damaged image, by docs/CHECK.md and docs/LAYOUT.md."""
import unittest

import kit
import nbd


def disk_of(sectors, count=70):
    """The bytes of a disk that holds these, and zeros."""
    return b"".join(sectors.get(number, bytes(512)) for number in range(count))


def unread(place, block, four, at):
    return (f"slot {place} of block {block}, {four} at {at:X}h; a sector may have been there")


class Rescued(kit.Case):
    def written(self):
        """An image to which a client wrote: its bytes, and the sectors."""
        self.format()
        server = self.serve("a.img", "--conns", "1")
        sectors = {}
        with server.client() as client:
            for number in (*range(0, 40, 3), 69, 9, 33):
                sectors[number] = nbd.sector(number, salt=len(sectors))
                client.write(number, sectors[number])
            client.disc()
        self.assertEqual(server.end().status, 0)
        return bytearray(self.bytes_of("a.img")), sectors

    def rescued(self, image, wanted, *lines):
        """Rescues an image: these bytes, and these lines on standard error; it isn't changed."""
        self.put("a.img", image)
        done = self.run_norbd("rescue", "a.img")
        told = done.fault.splitlines()
        self.assertEqual(done.status, 1 if lines else 0, done.fault)
        self.assertEqual(len(told), len(lines), done.fault)
        for line, begin in zip(told, lines):
            self.assertTrue(line.startswith(f"norbd: {begin}"), done.fault)
        self.assertEqual(done.out, wanted)
        self.assertEqual(self.bytes_of("a.img"), image)

    def place_of(self, image, number):
        """The block and the place of the live slot of a sector."""
        for block in range(4, len(image) // 4096):
            for place in range(7):
                at = 4096 * block + 16 + 4 * place
                if image[at] == 0xFC and image[at + 2:at + 4] == number.to_bytes(2, "little"):
                    return block, place, at
        return self.fail(f"no slot of sector {number}")

    def test_a_clean_image(self):
        """What a mount accepts is given as `read` gives it, and nothing is doubtful."""
        image, sectors = self.written()
        self.rescued(image, disk_of(sectors))
        self.assertEqual(self.norbd("read", "a.img"), disk_of(sectors))
        for layout, mixed in ((2, False), (1, True), (1, False)):
            image = kit.formatted(128, layout, mixed)
            if layout == 1:
                kit.set_group(image, 9, 3, nbd.sector(5) * 7)
                held = {number: nbd.sector(5) for number in range(21, 28)}
            else:
                kit.set_slot(image, 9, 3, 7, nbd.sector(7), state=0xFE)
                kit.set_slot(image, 9, 4, 7, nbd.sector(8))
                held = {7: nbd.sector(8)}
            self.rescued(image, disk_of(held, 168))
            self.assertEqual(self.norbd("read", "a.img"), disk_of(held, 168))

    def test_a_journal(self):
        """With a vote that is none all sectors are there."""
        image, sectors = self.written()
        image[0x2328] = 0x55
        self.rescued(image, disk_of(sectors), "corrupt: a.img: Journals: the votes of J1")

    def test_the_superblock(self):
        """With its name, its seal, its counts or its layout damaged all sectors are there."""
        image, sectors = self.written()
        for at, byte, fault in ((0, 0, "not formatted: a.img"), (14, 0xFF, "not formatted: a.img"),
                                (9, 0x20, "corrupt: a.img: Superblock: ")):
            damaged = bytearray(image)
            damaged[at] = byte
            self.rescued(damaged, disk_of(sectors), fault)
        image[8] = 0x12
        self.rescued(image, disk_of(sectors), "12 at 8h, FF at Fh; read as layout 2",
                     "corrupt: a.img: Superblock: ")

    def test_a_number_that_no_sector_has(self):
        """A slot with such a number is told; its sector is missing, and every other is there."""
        image, sectors = self.written()
        block, place, at = self.place_of(image, 12)
        kit.set_bytes(image, at + 2, b"\xFF\xFF")
        del sectors[12]
        four = image[at:at + 4].hex(" ").upper()
        self.rescued(image, disk_of(sectors), unread(place, block, four, at),
                     f"corrupt: a.img: Data blocks: slot {place} of block {block}")

    def test_a_torn_slot(self):
        """A slot that was begun and not committed is told, a retired one isn't; neither is
        given."""
        image, sectors = self.written()
        image[0x2328] = 0x55
        block, place, at = self.place_of(image, 6)
        image[at] = 0xFE
        image[self.place_of(image, 15)[2]] = 0xF8
        del sectors[6], sectors[15]
        four = image[at:at + 4].hex(" ").upper()
        self.rescued(image, disk_of(sectors), unread(place, block, four, at),
                     "corrupt: a.img: Journals: ")

    def test_several_slots_of_a_sector(self):
        """The newest is given: that of whose generation no slot has the next. Each that holds other
        bytes is told."""
        for generations, given in (((0, 1), 1), ((3, 0), 1), ((1, 0), 0), ((1, 2, 3), 2),
                                   ((0, 3, 2), 0), ((0, 2), 0), ((0, 1, 2, 3), 0), ((2, 2), 0)):
            image = kit.formatted()
            image[0x2328] = 0x55
            for at, generation in enumerate(generations):
                kit.set_slot(image, 5, at, 20, nbd.sector(at), generation)
            others = [f"slot {at} of block 5, FC F{'CDEF'[generation]} 14 00 at {0x5010 + 4 * at:X}h; "
                      "it holds other bytes of sector 20 than are given"
                      for at, generation in enumerate(generations) if at != given]
            self.rescued(image, disk_of({20: nbd.sector(given)}), *others,
                         "corrupt: a.img: Journals: ")

    def test_blocks_that_do_not_count(self):
        """The slots of a copy that wasn't committed don't count, nor those of a block of which
        there is one that was."""
        for state, given in ((0xFE, 4), (0xFC, 6), (0xF8, None)):
            image = kit.formatted()
            image[0x2328] = 0x55
            kit.set_slot(image, 4, 0, 20, nbd.sector(4))
            kit.set_slot(image, 6, 0, 20, nbd.sector(6))
            kit.set_mark(image, 6, state, 4)
            lines = [] if given else ["slot 0 of block 6, FC FC 14 00 at 6010h; it holds other"]
            self.rescued(image, disk_of({20: nbd.sector(given or 4)}), *lines,
                         "corrupt: a.img: Journals: ")

    def test_layouts(self):
        """Of layout 1 blocks of groups are read, of 2 slots alone, of a mixed chip both."""
        for layout, mixed, held in ((1, False, range(7, 14)), (2, False, (20,)),
                                    (1, True, (*range(7, 14), 20))):
            image = kit.formatted(64, layout, mixed)
            image[0x2328] = 0x55
            kit.set_group(image, 5, 1, nbd.sector(1) * 7)
            kit.set_slot(image, 6, 2, 20, nbd.sector(1))
            self.rescued(image, disk_of({number: nbd.sector(1) for number in held}),
                         "corrupt: a.img: Journals: ")

    def test_an_image_that_is_not_clean(self):
        """Its sectors are given too, and it isn't mended."""
        image, sectors = self.written()
        image[4096 * 15 + 512 * 7] = 0x55
        self.rescued(image, disk_of(sectors), "not clean: a.img: norbd check --mend mends it")

    def test_what_is_refused(self):
        """No image and a chip behind a programmer aren't read."""
        self.put("a.img", b"\xFF" * 1000)
        self.refused("bad image size: a.img: 1000 bytes", "rescue", "a.img")
        self.refused("chip failed: tcp:127.0.0.1:1: rescue takes a file: flashrom reads the chip "
                     "into one", "rescue", "tcp:127.0.0.1:1")

    def test_an_output_that_fails(self):
        """Of a damaged image too the fault is that of an output that is full."""
        image = kit.formatted()
        image[0x2328] = 0x55
        self.put("a.img", image)
        with open("/dev/full", "wb") as full:
            done = self.run_norbd("rescue", "a.img", stdout=full)
        self.assertEqual((done.status, done.fault),
                         (1, "norbd: output failed: no space left on device\n"))


if __name__ == "__main__":
    unittest.main()
