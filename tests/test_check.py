"""What `check` and `show` tell of an image, by docs/CHECK.md, and `check --json` by its table of keys.
The images are made by docs/LAYOUT.md and docs/JOURNAL.md."""
import json
import os
import pty
import unittest

import kit
import nbd

COUNT = {"type": int, "least": 0}
NULL = {"of": (None,)}
KNOWN = {  # of each key what it holds where that is known
    "version": {"of": (1,)}, "verdict": {"of": ("clean", "not clean", "corrupt", "not formatted")},
    "mended": {"type": bool}, "reason": {"type": str}, "not_erased_at": COUNT,
    "layout": {"of": ("1", "2", "mixed")}, "bytes": COUNT, "sectors": COUNT, "log_bytes": COUNT,
    "free_entries": {"type": int, "least": 0, "most": 512},
    "least_votes": {"type": int, "least": 0, "most": 1024}, "erasing": {"type": bool},
    "blocks": {"keys": {it: COUNT for it in (
        "plain", "wholly_free", "void", "committed", "settled", "groups", "dead_groups",
        "wrong")}},
    "slots": {"keys": {it: COUNT for it in ("free", "live", "dead")}},
}
UNKNOWN = {  # of each verdict the keys that are null
    "clean": {"reason", "not_erased_at"}, "not clean": {"reason"},
    "corrupt": {"not_erased_at", "layout"},
    "not formatted": {"reason", "not_erased_at", "layout", "free_entries", "least_votes",
                      "erasing", "blocks", "slots"},
}


def faults_of(value, rule, name="it"):
    """Where a value isn't as its rule says."""
    if "keys" in rule:
        if not isinstance(value, dict) or set(value) != set(rule["keys"]):
            return [f"{name} has other keys"]
        return [fault for key in value for fault in faults_of(value[key], rule["keys"][key], key)]
    if "of" in rule:
        return [] if value in rule["of"] else [f"{name} is {value}"]
    if type(value) is not rule["type"]:
        return [f"{name} is no {rule['type'].__name__}"]
    if not rule.get("least", value) <= value <= rule.get("most", value):
        return [f"{name} is {value}"]
    return []


def faults_of_report(report):
    """Where what `check --json` said isn't as the page says."""
    unknown = set(UNKNOWN[report["verdict"]])
    if report["verdict"] == "corrupt" and report["blocks"] is None:
        unknown |= {"blocks", "slots"}
    rules = {key: NULL if key in unknown else rule for key, rule in KNOWN.items()}
    return faults_of(report, {"keys": rules})


LEGEND = ("S superblock, J journal, . wholly free, R the reserve, V void, C committed,\n"
          "0 to 7 live slots and none dead, a to h as many and some dead,\n"
          "G a live group, D a dead one, ? corrupt\n")


def page(journals="0 entries used, 512 free; at least 1024 votes left", layout="2",
         blocks="12 plain, of these 12 wholly free, 0 void, 0 committed, 0 settled",
         groups="0 live, 0 dead", slots="84 free, 0 live, 0 dead",
         going="no copying, no erase"):
    """What is told of a chip of 64 KiB."""
    return (f"layout {layout}, 64 KiB, 16 blocks\njournals: {journals}\nblocks: {blocks}\n"
            f"blocks with a group: {groups}\nslots: {slots}\ngoing on: {going}\n")


def copying(committed):
    """Block 4 with six live slots and a dead one; its copy in block 6."""
    image = kit.formatted()
    for place in range(7):
        kit.set_slot(image, 4, place, place, nbd.sector(place), state=0xF8 if place == 1 else 0xFC)
    kit.set_mark(image, 6, 0xFC if committed else 0xFE, 4)
    for at, place in enumerate((0, 2, 3, 4, 5, 6)):
        if committed or at < 3:
            kit.set_slot(image, 6, at, place, nbd.sector(place))
    return image


def beside(image, block):
    """The same with a block that is void, and a live slot in it, which doesn't count."""
    kit.set_mark(image, block, 0xFE, 5)
    kit.set_slot(image, block, 0, 9, nbd.sector(9))
    return image


def with_votes(**counts):
    """A chip with so many closed votes in each region, as `j0_1`, of J0 for the erase of J1; and
    the entries of J0 that are used."""
    image = kit.formatted()
    for name, count in counts.items():
        if name == "entries":
            kit.set_bytes(image, kit.ENTRIES, bytes([0xF8, 4, 0, 0xFF]) * count)
        else:
            at = kit.JOURNALS[int(name[1]), int(name[3])]
            kit.set_bytes(image, at, b"\xFC" * count)
    return image


def with_bytes(*changes):
    image = kit.formatted()
    for at, data in changes:
        kit.set_bytes(image, at, data)
    return image


def live(*slots, image=None, layout=2):
    image = image or kit.formatted(64, layout)
    for block, place, number, generation in slots:
        kit.set_slot(image, block, place, number, nbd.sector(number), generation)
    return image


def groups(layout=1, mixed=False):
    image = kit.formatted(64, layout, mixed)
    kit.set_group(image, 5, 0, b"\1" * 3584)
    kit.set_group(image, 6, 1, b"\2" * 3584, state=0xF8)
    kit.set_group(image, 7, 2, b"\3" * 3584)
    return image


PAGES = [  # images that a mount accepts, and what is told of them
    ("formatted", kit.formatted(), page()),
    ("votes that are unequal",
     with_votes(j0_1=3, j0_2=5, j1_2=1, j1_0=7, j2_0=300, j2_1=2, entries=9),
     page("9 entries used, 503 free; at least 724 votes left")),
    ("the fewest votes in J0", with_votes(j0_1=30, j1_0=7),
     page("0 entries used, 512 free; at least 994 votes left")),
    ("the fewest votes in J1 for J2", with_votes(j1_2=40, j1_0=7),
     page("0 entries used, 512 free; at least 984 votes left")),
    ("an open entry", with_bytes((kit.ENTRIES, bytes([0xFC, 9, 0, 0xFF]))),
     page("1 entries used, 511 free; at least 1024 votes left", going="no copying, an erase")),
    ("an entry that was taken alone", with_bytes((kit.ENTRIES, bytes([0xFE, 9, 0, 0xFF]))),
     page("1 entries used, 511 free; at least 1024 votes left")),
    ("a copying that was begun", copying(False),
     page(blocks="11 plain, of these 10 wholly free, 1 void, 0 committed, 0 settled",
          slots="70 free, 6 live, 1 dead",
          going="a copying into block 6, to be begun anew, no erase")),
    ("a copying that was committed", copying(True),
     page(blocks="11 plain, of these 10 wholly free, 0 void, 1 committed, 0 settled",
          slots="71 free, 6 live, 0 dead",
          going="a copying of block 4 into 6, committed, no erase")),
    ("two copyings that were begun", beside(copying(False), 9),
     page(blocks="10 plain, of these 9 wholly free, 2 void, 0 committed, 0 settled",
          slots="63 free, 6 live, 1 dead",
          going="copyings into 2 blocks, to be begun anew, no erase")),
    ("one that was begun beside a committed one", beside(copying(True), 9),
     page(blocks="10 plain, of these 9 wholly free, 1 void, 1 committed, 0 settled",
          slots="64 free, 6 live, 0 dead",
          going="a copying of block 4 into 6, committed, no erase")),
    ("groups", groups(), page(
        layout="1", blocks="9 plain, of these 9 wholly free, 0 void, 0 committed, 0 settled",
        groups="2 live, 1 dead", slots="63 free, 14 live, 7 dead")),
    ("groups and slots", live((9, 0, 60, 2), image=groups(mixed=True)), page(
        layout="mixed", blocks="9 plain, of these 8 wholly free, 0 void, 0 committed, 0 settled",
        groups="2 live, 1 dead", slots="62 free, 15 live, 7 dead")),
] + [(f"one open vote of J{of} for J{against}", with_bytes((at, b"\xFE")), page(
    "0 entries used, 512 free; at least 1023 votes left", going="no copying, an erase"))
     for (of, against), at in kit.JOURNALS.items() if (of - against) % 3 == 1]

CORRUPT = [  # images that no write leaves, and the rule that is told
    (with_bytes((8, b"\x03")), "Superblock: "), (with_bytes((9, b"\x20")), "Superblock: "),
    (with_bytes((0x2400, b"\x55")), "Journals: the votes of J1 for the erase of J0 at 2400h: "
     "55 at 2400h; a vote is FF, FE or FC"),
    (with_bytes((0x1000, b"\xFE\xFE")), "Journals: "),
    (with_bytes((0x1000, b"\xFE"), (0x2400, b"\xFE")), "Journals: "),
    (with_bytes((kit.ENTRIES, bytes([0xFC, 4, 0, 0xFF, 0xFC, 5, 0, 0xFF]))), "Journals: "),
    (with_bytes((kit.ENTRIES, bytes([0xFC, 4, 0, 0xFF])), (0x2000, b"\xFE")), "Journals: "),
    (with_votes(j1_0=1024), "Journals: "),
    (with_bytes((0xF004, b"\x00")), "Data blocks: block 15, "),
    (with_bytes((0x8018, b"\xFC\xFF\xFF\xFF")), "Data blocks: slot 2 of block 8, FC FF FF FF at "
     "8018h; the chip has no sector 65535"),
    (live((4, 0, 70, 0)), "Data blocks: "), (live((4, 0, 3, 0), (5, 0, 3, 2)), "Data blocks: "),
    (live((4, 0, 3, 0), (5, 0, 3, 1), (6, 0, 3, 2)), "Data blocks: "),
    (with_bytes((0x4010, b"\xFC\x80\x03\x00")), "Data blocks: "), (groups(2), "Data blocks: "),
    (live((9, 0, 3, 1), image=groups(mixed=True)), "Layout 1, and mixed chips: "),
]


class Checks(kit.Case):
    def test_pages(self):
        """Of an image that would be served the page tells its journals, blocks, slots and what goes
        on; `serve` serves it."""
        for name, image, wanted in PAGES:
            with self.subTest(name):
                self.put("a.img", image)
                self.assertEqual(self.norbd("check", "a.img").decode(),
                                 wanted + "clean 70 sectors\n")
                self.serve("a.img", "--read-only").kill()

    def test_pages_for_programs(self):
        """`check --json` tells the same numbers, in one line that has the page's keys."""
        for name, image, wanted in PAGES:
            with self.subTest(name):
                self.put("a.img", image)
                text = self.norbd("check", "a.img", "--json").decode()
                self.assertEqual((text.count("\n"), text[-1]), (1, "\n"))
                report = json.loads(text)
                self.assertEqual(faults_of_report(report), [])
                blocks, slots = report["blocks"], report["slots"]
                self.assertEqual((report["verdict"], report["bytes"], report["sectors"]),
                                 ("clean", 65536, 70))
                free = report["free_entries"]
                self.assertIn(f"journals: {512 - free} entries used, {free} free; at least "
                              f"{report['least_votes']} votes left\n", wanted)
                self.assertIn(", an erase\n" if report["erasing"] else ", no erase\n", wanted)
                self.assertIn("blocks: {plain} plain, of these {wholly_free} wholly free, {void} "
                              "void, {committed} committed, {settled} settled\n"
                              "blocks with a group: {groups} live, {dead_groups} dead\n"
                              .format(**blocks), wanted)
                self.assertIn("slots: {free} free, {live} live, {dead} dead\n".format(**slots),
                              wanted)
                self.assertTrue(wanted.startswith(f"layout {report['layout']}, "))

    def test_corrupt(self):
        """Of an image that no write leaves the first broken rule is told, in text and in JSON, and
        by each other command with its fault; it isn't changed."""
        for image, reason in CORRUPT:
            with self.subTest(reason):
                self.put("a.img", image)
                done = self.run_norbd("check", "a.img")
                self.assertEqual((done.status, done.fault), (1, "norbd: corrupt: a.img\n"))
                self.assertTrue(done.text.startswith(f"corrupt: {reason}"), done.text)
                self.assertEqual(done.text.count("\n"), 1)
                report = self.check()
                self.assertEqual(faults_of_report(report), [])
                self.assertEqual(f"corrupt: {report['reason']}\n", done.text)
                fault = f"corrupt: a.img: {report['reason']}"
                for line in ("read a.img", "write a.img", "serve a.img --unix a.sock",
                             "serve a.img --unix a.sock --read-only"):
                    self.refused(fault, *line.split())
                shown = self.run_norbd("show", "a.img")
                self.assertEqual((shown.status, shown.fault), (1, f"norbd: {fault}\n"))
                is_drawn = not reason.startswith("Journals: ")
                self.assertEqual(shown.text.startswith("    0 SJJJ"), is_drawn, shown.text)
                self.assertEqual(self.bytes_of("a.img"), image)

    def test_not_formatted_and_not_clean(self):
        """The two other verdicts, in text and in JSON."""
        self.put("a.img", bytes(65536))
        done = self.run_norbd("check", "a.img")
        self.assertEqual((done.status, done.text), (
            1, "not formatted: no name NORBLK01 at 0h with the seal 00 at Eh\n"))
        report = self.check()
        self.assertEqual((faults_of_report(report), report["verdict"]), ([], "not formatted"))
        for at in (0x4300, 0x4010 - 1, 0xFFFF, 0x4FFF):
            self.put("a.img", with_bytes((at, b"\x55")))
            done = self.run_norbd("check", "a.img")
            self.assertEqual((done.status, done.text), (
                1, page() + f"not clean: {at:X}h reads as free and isn't FF\n"))
            report = self.check()
            self.assertEqual((faults_of_report(report), report["verdict"], report["not_erased_at"],
                              report["mended"]), ([], "not clean", at, False))
            mended = json.loads(self.norbd("check", "a.img", "--json", "--mend"))
            self.assertEqual(mended, dict(report, mended=True))
            clean = json.loads(self.norbd("check", "a.img", "--json", "--mend"))
            self.assertEqual((faults_of_report(clean), clean["verdict"], clean["mended"]),
                             ([], "clean", False))

    def test_places_that_count(self):
        """With a copying or an erase under way the place that is told is one that counts: in the
        whole copy and not in its source, and not in a block that is being erased."""
        copied_from_4 = (0xF004, b"\xFC\xFF\x04\x00")
        copied_from_5 = (0xF004, b"\xFC\xFF\x05\x00")
        dead_in_5 = (0x5010, b"\xF8\xFC\x00\x00")
        erasing_5 = (0x1800, b"\xFC\x05\x00\xFF")
        in_5, in_9, in_copy = (0x5400, b"\x00"), (0x9200, b"\x00"), (0xF800, b"\x00")
        for changes, place in (
                ((copied_from_4, in_copy), "F800h"),
                ((copied_from_5, dead_in_5, in_5), None),
                ((copied_from_5, dead_in_5, in_5, in_9), "9200h"),
                ((erasing_5, in_5), None),
                ((erasing_5, in_5, in_9), "9200h")):
            with self.subTest(changes):
                self.put("a.img", with_bytes(*changes))
                report = self.check()
                text = self.run_norbd("check", "a.img").text
                self.assertEqual(faults_of_report(report), [])
                if place is None:
                    self.assertEqual(report["verdict"], "clean")
                    self.assertTrue(text.endswith("clean 70 sectors\n"), text)
                else:
                    self.assertEqual(report["not_erased_at"], int(place[:-1], 16))
                    self.assertTrue(text.endswith(
                        f"not clean: {place} reads as free and isn't FF\n"), text)

    def test_layout_1_that_is_not_clean(self):
        """A free block of layout 1 with bytes that would be slots on a mixed chip is not clean: no
        command reads or serves such an image or changes it, and what is mended has its group."""
        for at, changes in (
                (0xA004, [(0xA004, b"\xFC\xFF\x05\x00")]),
                (0xA010, [(0xA010, b"\xFC\xFC\x08\x00"), (0xA200, b"ZZ")]),
                (0xA200, [(0xA200, b"\x00")])):
            with self.subTest(hex(at)):
                image = groups()
                for place, data in changes:
                    kit.set_bytes(image, place, data)
                self.put("a.img", image)
                done = self.run_norbd("check", "a.img")
                self.assertEqual((done.status, done.text.splitlines()[-1]), (
                    1, f"not clean: {at:X}h reads as free and isn't FF"))
                report = self.check()
                self.assertEqual((faults_of_report(report), report["verdict"],
                                  report["not_erased_at"]), ([], "not clean", at))
                for line in ("read a.img", "write a.img", "serve a.img --unix a.sock",
                             "serve a.img --unix a.sock --read-only"):
                    self.refused("not clean: a.img: norbd check --mend mends it", *line.split())
                self.assertEqual(self.bytes_of("a.img"), image)
                self.assertTrue(self.norbd("check", "a.img", "--mend").endswith(
                    b"mended 70 sectors\n"))
                self.assertEqual(self.norbd("read", "a.img", "--sectors", "0:7"), b"\1" * 3584)

    def test_served_only_if_clean(self):
        """`serve` changes nothing of an image that it refuses, not even what a mount would."""
        image = groups()
        kit.set_bytes(image, 0xF800, b"\x55")
        self.put("a.img", image)
        self.refused("not clean: a.img: norbd check --mend mends it",
                     *"serve a.img --unix a.sock".split())
        self.assertEqual(self.bytes_of("a.img"), image)

    def test_random_reports(self):
        """Whatever the bytes are, `check --json` has the page's keys, and its verdict is the
        text's."""
        chance = kit.dice("reports")
        for _ in range(60):
            image = chance.choice([copying(True), groups(mixed=True), live((4, 0, 1, 0))])
            for _ in range(chance.randrange(6)):
                image[chance.choice([chance.randrange(16), chance.randrange(0x1000, 0x4000),
                                     4096 * chance.randrange(4, 16) + chance.randrange(64)])] = \
                    chance.choice([0, 0xF8, 0xFC, 0xFE, chance.randrange(256)])
            self.put("a.img", image)
            report = self.check()
            self.assertEqual(faults_of_report(report), [])
            text = self.run_norbd("check", "a.img").text
            self.assertTrue(text.splitlines()[-1].startswith(report["verdict"]), (report, text))


class Pictures(kit.Case):
    def drawn(self, image):
        self.put("a.img", image)
        return self.norbd("show", "a.img").decode()

    def test_a_formatted_chip(self):
        """A chip of 512 KiB that was just formatted is drawn as on the page."""
        self.format("a.img", 512)
        self.assertEqual(self.norbd("show", "a.img").decode(), (
            f"    0 SJJJ{'.' * 60}\n   64 {'.' * 63}R\n{LEGEND}slots: 868 free, 0 live, 0 dead\n"
            f"0 live |{'#' * 40} 124\n" + "".join(f"{it} live | 0\n" for it in range(1, 8))))

    def test_half_full(self):
        """The same, once 392 sectors were written."""
        self.format("a.img", 512)
        self.norbd("write", "a.img", "--sectors", "0:392",
                   data=b"".join(nbd.sector(it) for it in range(392)))
        self.assertEqual(self.norbd("show", "a.img").decode(), (
            f"    0 SJJJ{'7' * 56}....\n   64 {'.' * 63}R\n{LEGEND}"
            f"slots: 476 free, 392 live, 0 dead\n0 live |{'#' * 21} 68\n"
            + "".join(f"{it} live | 0\n" for it in range(1, 7)) + f"7 live |{'#' * 18} 56\n"))

    def test_marks(self):
        """Each kind of block has its character: dead slots, void, committed, groups, the
        reserve."""
        dead = live((5, 0, 0, 0), (5, 1, 1, 0))
        kit.set_slot(dead, 4, 0, 9, bytes(512), state=0xFE)
        for image, row in ((dead, "SJJJa2.........R"), (copying(False), "SJJJg.V........R"),
                           (copying(True), "SJJJg.C........R"), (groups(), "SJJJ.GDG.......R"),
                           (live((9, 0, 60, 2), image=groups(mixed=True)), "SJJJ.GDG.1.....R"),
                           (with_bytes((0xF010, b"\xFC\xFC\3\0")), "SJJJ..........R1")):
            self.assertEqual(self.drawn(image).splitlines()[0], f"    0 {row}")

    def test_corrupt(self):
        """An image whose slots are corrupt is drawn, with a fault on standard error and status
        1."""
        self.put("a.img", with_bytes((0x8018, b"\xFC\xFF\xFF\xFF")))
        done = self.run_norbd("show", "a.img")
        self.assertEqual((done.status, done.fault), (
            1, "norbd: corrupt: a.img: Data blocks: slot 2 of block 8, FC FF FF FF at 8018h; the "
            "chip has no sector 65535\n"))
        self.assertTrue(done.text.startswith("    0 SJJJ...."), done.text)

    def test_histograms(self):
        """A count that is too small for a `#` has a `|`."""
        self.format("a.img", 1024)
        self.norbd("write", "a.img", "--sectors", "0:3", data=b"\1" * 1536)
        lines = self.norbd("show", "a.img").decode().splitlines()
        self.assertIn("3 live || 1", lines)
        self.assertIn("2 live | 0", lines)

    def test_colours(self):
        """On a terminal the characters have the colours of the page; with NO_COLOR, or elsewhere,
        none."""
        self.put("a.img", live((4, 0, 0, 0)))
        for more, coloured in (({}, True), ({"NO_COLOR": "1"}, False)):
            ours, theirs = pty.openpty()
            environment = {k: v for k, v in os.environ.items() if k != "NO_COLOR"}
            process = self.start("show", "a.img", stdout=theirs, env=dict(environment, **more))
            os.close(theirs)
            self.assertEqual(self.end_of(process).status, 0)
            text = os.read(ours, 65536).decode().replace("\r\n", "\n")
            os.close(ours)
            row = text.splitlines()[0]
            if coloured:
                colours = {"S": 36, "J": 36, ".": 90, "R": 34, "1": 32}
                self.assertEqual(row, "    0 " + "".join(
                    f"\x1b[{colours[it]}m{it}\x1b[0m" for it in "SJJJ1..........R"))
            else:
                self.assertEqual(text, self.norbd("show", "a.img").decode())


class Against(kit.Case):
    """An image beside an older copy of it."""

    def test_which_sectors_differ(self):
        """`check --against` names the sectors that were written since, and no others."""
        self.format()
        self.norbd("write", "a.img", data=b"".join(nbd.sector(it) for it in range(70)))
        self.put("old.img", self.bytes_of("a.img"))
        text = self.norbd("check", "a.img", "--against", "old.img").decode()
        self.assertTrue(text.endswith("\nno sector differs from old.img\nclean 70 sectors\n"), text)
        lines = self.norbd("check", "a.img", "--against", "old.img", "--json").decode().splitlines()
        self.assertEqual(json.loads(lines[1]), {"version": 1, "differing": []})
        for first, end in ((3, 4), (7, 10), (69, 70)):
            self.norbd("write", "a.img", "--sectors", f"{first}:{end}",
                       data=b"\x5A" * 512 * (end - first))
        fault = "norbd: image failed: a.img: 5 of its sectors differ\n"
        done = self.run_norbd("check", "a.img", "--against", "old.img")
        self.assertEqual((done.status, done.fault), (1, fault))
        self.assertTrue(done.text.endswith("\ndiffer from old.img: sectors 3, 7 to 9, 69\n"), done.text)
        done = self.run_norbd("check", "a.img", "--json", "--against", "old.img")
        self.assertEqual((done.status, done.fault), (1, fault))
        self.assertEqual(json.loads(done.text.splitlines()[1]),
                         {"version": 1, "differing": [[3, 3], [7, 9], [69, 69]]})

    def test_a_lost_charge(self):
        """A bit of a sector that lost its charge is data to `check`, and not to a copy."""
        image = kit.formatted()
        kit.set_slot(image, 4, 0, 7, bytes(512))
        kit.set_slot(image, 4, 1, 8, nbd.sector(8))
        self.put("old.img", image)
        image[0x4000 + 512 + 37] |= 1
        self.put("a.img", image)
        self.assertEqual(self.check()["verdict"], "clean")
        done = self.run_norbd("check", "a.img", "--against", "old.img")
        self.assertEqual(done.status, 1)
        self.assertTrue(done.text.endswith("\ndiffer from old.img: sectors 7\n"), done.text)

    def test_what_is_no_copy(self):
        """A copy of another size, or one that can't be read or wouldn't be served, is refused, and
        what is found of the image is told."""
        self.format()
        self.put("long.img", kit.formatted(128))
        self.put("zeros.img", bytes(65536))
        report = self.norbd("check", "a.img").decode().removesuffix("clean 70 sectors\n")
        for copy, cause in (("long.img", "the older copy has another size"),) + tuple(
                (copy, "the older copy can't be read or isn't clean: norbd check says why")
                for copy in ("zeros.img", "missing.img")):
            done = self.run_norbd("check", "a.img", "--against", copy)
            self.assertEqual((done.status, done.fault, done.text),
                             (1, f"norbd: image failed: a.img: {cause}\n", report))

    def test_mended_and_compared(self):
        """With `--mend` too, an image that isn't clean is mended, and then compared."""
        image = kit.formatted()
        kit.set_slot(image, 4, 0, 7, nbd.sector(7))
        self.put("old.img", image)
        for data, status, line in ((nbd.sector(7), 0, "no sector differs from old.img"),
                                   (nbd.sector(8), 1, "differ from old.img: sectors 7")):
            image = kit.formatted()
            kit.set_slot(image, 4, 0, 7, data)
            image[0xFFFF] = 0
            self.put("a.img", image)
            done = self.run_norbd("check", "a.img", "--mend", "--against", "old.img")
            self.assertEqual(done.status, status)
            self.assertTrue(done.text.endswith(f"\n{line}\nmended 70 sectors\n"), done.text)
            self.assertEqual(self.check()["verdict"], "clean")
            self.assertEqual(self.norbd("read", "a.img", "--sectors", "7:8"), data)


if __name__ == "__main__":
    unittest.main()
