"""The examples of examples/, and the lines of README.md and docs/SERVE.md as they stand there."""
import os
import re
import shutil
import subprocess
import unittest

import kit


def lines_of(page, word):
    """The blocks of indented lines of a page in which a word is."""
    with open(os.path.join(kit.ROOT, page), encoding="utf-8") as file:
        text = file.read()
    blocks = re.findall(r"(?:^    .*\n)+", text, re.M)
    return [[line[4:] for line in block.splitlines()] for block in blocks if word in block]


class Examples(kit.Case):
    def setUp(self):
        super().setUp()
        # the lines of the pages begin with ./norbd, beside the folder examples/
        os.symlink(kit.PROGRAM, self.path("norbd"))
        os.symlink(os.path.join(kit.ROOT, "examples"), self.path("examples"))

    def shell(self, line, **how):
        done = subprocess.run(["bash", "-c", line], cwd=self.room, capture_output=True,
                              timeout=kit.PATIENCE, check=False, **how)
        self.assertEqual((done.returncode, done.stderr), (0, b""), line)
        return done.stdout

    def test_scripts(self):
        """Each example's bytes are those that its .sh prints, and its transcript is its .out."""
        folder = os.path.join(kit.ROOT, "examples/script")
        names = sorted(it[:-4] for it in os.listdir(folder) if it.endswith(".bin"))
        self.assertGreaterEqual(len(names), 4)
        for name in names:
            with open(f"{folder}/{name}.bin", "rb") as file:
                script = file.read()
            with open(f"{folder}/{name}.out", encoding="ascii") as file:
                transcript = file.read()
            self.assertEqual(self.shell(f"bash {folder}/{name}.sh"), script)
            out = self.shell(f"./norbd script --kib 64 < {folder}/{name}.bin | od -A d -t x1")
            self.assertEqual(out.decode(), transcript)

    def test_the_read_of_the_last_sector(self):
        """examples/read_last_sector.bin is answered by 16 bytes of reply and 512 zeros."""
        out = self.shell("./norbd plain --sectors 70 < examples/read_last_sector.bin")
        self.assertEqual((out[:8], out[16:]), (bytes.fromhex("6744669800000000"), bytes(512)))

    def test_lines_that_run_scripts(self):
        """Each line of README.md and examples/script/README.md that runs a script has status 0."""
        found = 0
        for page in ("README.md", "examples/script/README.md"):
            for block in lines_of(page, "./norbd script"):
                for line in block:
                    if line.startswith("./norbd script") and "examples/" in line:
                        self.assertTrue(self.shell(line), line)
                        found += 1
        self.assertGreater(found, 0)

    def test_the_example_of_the_script_page(self):
        """The functions and lines of docs/SCRIPT.md, as they stand there, print the transcripts of
        examples/script."""
        with open(os.path.join(kit.ROOT, "docs/SCRIPT.md"), encoding="utf-8") as file:
            text = file.read()
        blocks = ["".join(line[4:] + "\n" for line in it.splitlines())
                  for it in re.findall(r"(?:^    .*\n)+", text, re.M)]
        [functions] = [it for it in blocks if it.startswith("start() {")]
        lines = [it for it in blocks if it.startswith("{ start;")]
        self.assertEqual(len(lines), 2)
        for line, name in zip(lines, ("write_and_read", "cut_commit_old")):
            with open(os.path.join(kit.ROOT, f"examples/script/{name}.out"), "rb") as file:
                self.assertEqual(self.shell(functions + line), file.read())

    def test_the_example_of_the_protocol_page(self):
        """The line of docs/NBD.md prints the reply that the page tells."""
        [block] = lines_of("docs/NBD.md", "./norbd plain")
        out = self.shell("\n".join(block)).decode()
        self.assertTrue(out.startswith(
            "0000000 67 44 66 98 00 00 00 00 01 02 03 04 05 06 07 08\n"
            "0000016 00 00 00 00 00 00 00 00 00 00 00 00 00 00 00 00\n*\n0000528\n"), out)

    def readme(self):
        """README.md's commands from `format` on, and what they print where that stands below."""
        with open(os.path.join(kit.ROOT, "README.md"), encoding="utf-8") as file:
            text = file.read()
        block = re.search(r"^```sh\n(.*?)^```\n[^\n]*\n```\n(.*?)^```$", text, re.M | re.S)
        if block:
            return block.group(1).splitlines(), block.group(2)
        lines = [line[4:] for line in text.splitlines() if line.startswith("    ")]
        lines = [it + " &" * it.startswith("./norbd serve") for it in lines if re.match(
            r"\./norbd (format|serve) chip\.img|head -c|nbdcopy|cmp ", it)]
        return lines + ["kill %1; wait"], None

    @kit.needs("nbdcopy")
    def test_the_lines_of_the_readme(self):
        """README.md's lines from `format` on, as they stand there but for the port, give back what
        they wrote, and print what stands below them."""
        port = str(kit.free_port())
        lines, wanted = self.readme()
        self.assertTrue(any(it.startswith("cmp data.bin back.bin") for it in lines), lines)
        with open(self.path("out"), "wb") as out:
            shell = subprocess.Popen(["bash"], cwd=self.room, stdin=subprocess.PIPE, stdout=out,
                                     stderr=subprocess.STDOUT, start_new_session=True)
        self.running.append(shell)

        def said():
            return self.bytes_of("out").decode().replace(port, "10809")
        for number, line in enumerate(lines):
            line = line.replace("10809", port).replace("127.0.0.1/", f"127.0.0.1:{port}/")
            # each line has ended, or begun its server, before the next is typed
            shell.stdin.write(f"{line}\n: > typed{number}\n".encode())
            shell.stdin.flush()
            self.assertTrue(kit.wait_for(lambda: os.path.exists(self.path(f"typed{number}"))), line)
            if line.endswith("&"):
                self.assertTrue(kit.wait_for(lambda: "serving 1540 sectors" in said()), said())
        shell.stdin.close()
        self.assertEqual(shell.wait(kit.PATIENCE), 0)
        kept = [it for it in said().splitlines() if not it.startswith(("[1]", "bash: line"))]
        self.assertEqual(kept, wanted.splitlines() if wanted else [
            "formatted 1540 sectors", "serving 1540 sectors on 127.0.0.1:10809"])
        self.assertEqual(len(self.bytes_of("back.bin")), 788480)
        self.assertEqual(self.bytes_of("back.bin"), self.bytes_of("data.bin"))
        self.assertTrue(self.norbd("check", "chip.img").endswith(b"clean 1540 sectors\n"))
        self.assertEqual(self.norbd("read", "chip.img"), self.bytes_of("data.bin"))

    def test_the_commands_of_the_readme(self):
        """Each command that README.md names is one of the program, and each of the program's is
        named there."""
        with open(os.path.join(kit.ROOT, "README.md"), encoding="utf-8") as file:
            named = set(re.findall(r"(?:\./norbd|\bnorbd) ([a-z]+)(?= [A-Z`-]|`)", file.read()))
        commands = set(re.findall(r"(?m)^  ([a-z]+) ", self.norbd("--help").decode())) - {"help"}
        self.assertEqual(commands - named, set())
        for name in named & {"format", "serve", "check", "show", "read", "write", "chip", "script",
                             "plain"}:
            self.assertIn(name, commands)

    def test_tools_examples(self):
        """`tools/examples` finds all as written, scripts and pages."""
        if not shutil.which("bash"):
            self.skipTest("bash is not installed")
        done = subprocess.run([os.path.join(kit.ROOT, "tools/examples"), kit.PROGRAM],
                              capture_output=True, timeout=kit.PATIENCE, check=False)
        self.assertEqual(done.returncode, 0, done.stdout)


if __name__ == "__main__":
    unittest.main()
