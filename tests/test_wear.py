"""How `serve` wears the blocks of a chip, by docs/WEAR.md: the erases of a chip behind a programmer
are counted there."""
import threading
import time
import unittest

import kit
import nbd
from serprog import Chip, Programmer, TcpPeer


class Wear(kit.Case):
    def worn(self, hot, writes, words=(), starts=1):
        """The erases of the data blocks of a chip of 64 KiB on which each sector was written once,
        and then these by chance, over so many starts."""
        chip = Chip(64, kit.formatted())
        peer, chance = TcpPeer(self, Programmer(chip)), kit.dice(f"wear {hot}")
        for start in range(starts):
            server = self.serve(peer.place, "--trust", "--conns", "1", *words)
            client = server.client()
            if not start:
                client.write(0, b"".join(nbd.sector(it) for it in range(70)))
            for turn in range(writes // starts):
                number = chance.choice(hot)
                self.assertEqual(client.write(number, nbd.sector(number, turn + 1)), nbd.OK)
            client.disc()
            self.assertEqual(server.end().status, 0)
        return chip.erased[4:]

    def test_one_hot_sector(self):
        """Where one sector of a full disk is written again and again, all blocks wear alike, and a
        write costs at most 0.2 erases; over starts too. Where blocks are chosen by number the most
        worn has six times the mean."""
        came = {}

        def wear(name, *how):
            came[name] = self.worn(*how)
        # 0.19 and 0.31 erases a write (docs/WEAR.md): 35 and 100 of each of the 12 blocks
        threads = [threading.Thread(target=wear, args=it) for it in (
            ("one", [0], 2200), ("over starts", [0], 2200, (), 4), ("ten", list(range(10)), 3800))]
        for thread in threads:
            thread.start()
        for thread in threads:
            thread.join()
        self.assertEqual(set(came), {"one", "over starts", "ten"})
        for name, most in (("one", 1.25), ("over starts", 2.0), ("ten", 1.25)):
            erased = came[name]
            mean = sum(erased) / len(erased)
            self.assertGreater(mean, 20, (name, erased))
            self.assertLess(max(erased), most * mean, (name, erased))
            if name != "over starts":
                self.assertLessEqual(max(erased) - min(erased), 32, (name, erased))
        self.assertLess(sum(came["one"]), 0.21 * 2200)
        self.assertLess(sum(came["ten"]), 0.36 * 3800)

    def changes_of(self, chip):
        """How many changes were made to the chip, when no more come."""
        came = -1
        while came != chip.frames.count(0x06):
            came = chip.frames.count(0x06)
            time.sleep(0.3)
        return came

    def test_what_a_tidying_costs(self):
        """The tidying of a block with n live slots makes 7 and 3 n changes of the chip, and so
        does a move that levels wear, which may follow (docs/DISK.md); 4 more where the block that
        it copies into is erased first, as of a firm mount it wasn't used. A TRIM makes 6. And of the
        journals an erase after the first reads nothing."""
        chip = Chip(64, kit.formatted())
        peer = TcpPeer(self, Programmer(chip))
        client = self.serve(peer.place, "--trust", "--tidy", "eager").client()
        for live in range(5):
            # each turn begins with a disk whose slots all count, and makes one of them dead
            for number in range(live + 1):
                client.write(10 * live + number, nbd.sector(number))
            before, erases, reads = chip.frames.count(0x06), chip.erases, len(chip.reads)
            self.assertEqual(client.trim(10 * live), nbd.OK)
            self.assertTrue(kit.wait_for(lambda: chip.erases > erases))
            self.assertEqual(client.read(10 * live), bytes(512))
            changes = self.changes_of(chip) - before - 6
            blocks = chip.erases - erases
            self.assertIn(changes, [7 * copies + 4 * (blocks - copies) + 3 * it
                                    for copies in range((blocks + 1) // 2, blocks + 1)
                                    for it in range(6 * copies + 1)], (live, blocks))
            if live:
                self.assertEqual([it for it in chip.reads[reads:] if 0x1000 <= it < 0x4000], [])


if __name__ == "__main__":
    unittest.main()
