"""The help of each command, the version, and the man page, which have to tell the same options."""
import os
import re
import subprocess
import unittest

import kit

COMMANDS = ("plain", "format", "script", "serve", "status", "chip", "check", "unprotect", "settle",
            "show", "read", "write", "rescue")
MAN = os.path.join(kit.ROOT, "docs/man/norbd.1")


def options_in(text):
    """The long options that a text names."""
    return set(re.findall(r"(?<![\w-])--[a-z][a-z-]*", text)) - {"--help", "--version"}


class Help(kit.Case):
    def help_of(self, *words):
        text = self.norbd(*words, "--help").decode()
        self.assertIn("Usage: norbd", text)
        return text

    def test_every_command_has_help(self):
        """`--help` of each command has status 0, a usage, an example or a line about it."""
        text = self.help_of()
        for command in COMMANDS:
            self.assertRegex(text, rf"(?m)^\s+{command}\b", command)
            self.assertIn(f"Usage: norbd {command}", self.help_of(command))
            self.assertEqual(self.norbd(command, "-h").decode()[:40],
                             self.help_of(command)[:40])

    def test_every_option_is_accepted_and_described(self):
        """Each command's help has these options, and no others."""
        wanted = {
            "plain": "sectors no-record", "format": "kib force yes spi-hz", "script": "kib",
            "serve": "port bind unix conns record sync tidy max-request read-only verbose trust "
                     "status spi-hz firm",
            "status": "json", "chip": "port conns", "check": "mend json against spi-hz",
            "unprotect": "yes spi-hz", "settle": "spi-hz", "show": "spi-hz", "read": "sectors spi-hz",
            "write": "sectors spi-hz firm", "rescue": ""}
        for command, options in wanted.items():
            text = self.help_of(command).split("Options:")[-1]
            rows = set(re.findall(r"(?m)^\s+(?:-\w, |    )?--([a-z-]+)", text))
            self.assertEqual(rows - {"help", "version"}, set(options.split()), command)

    def test_no_line_is_cut(self):
        """No line of the help has more than 80 columns."""
        for words in ((), *((command,) for command in COMMANDS)):
            lines = self.help_of(*words).splitlines()
            self.assertEqual([line for line in lines if len(line) > 80], [], words)

    def test_the_version(self):
        """`--version` names the program, and the toolchain that proved it."""
        for word in ("--version", "-V"):
            text = self.norbd(word).decode()
            self.assertTrue(text.startswith("norbd 0.1.0"), text)
            self.assertIn("rattle-kit", text)

    def test_the_man_page_has_every_option(self):
        """The man page names each command and option of the help, and none that isn't there."""
        with open(MAN, encoding="utf-8") as file:
            page = file.read().replace("\\-", "-")
        page = re.sub(r"^\.\w+ ?", "", page, flags=re.M).replace('" "', " ")
        page = re.sub(r"\\f.", "", page)
        helped = set().union(*(options_in(self.help_of(it)) for it in COMMANDS))
        self.assertEqual(options_in(page.replace("-- ", "--")), helped)
        for command in COMMANDS:
            self.assertRegex(page, rf"(?m)^{command}$")

    @kit.needs("man")
    def test_the_man_page_is_well_formed(self):
        """`man` finds nothing to warn of in the page."""
        done = subprocess.run(["man", "--warnings", "-E", "UTF-8", "-l", "-Tutf8", "-Z", MAN],
                              capture_output=True, timeout=kit.PATIENCE, check=False,
                              env=dict(os.environ, LC_ALL="C.UTF-8", MANWIDTH="80"))
        self.assertEqual((done.returncode, done.stderr), (0, b""))


if __name__ == "__main__":
    unittest.main()
