"""The systemd unit of contrib/systemd: that its line does what its head says, under what it
forbids."""
import os
import re
import signal
import subprocess
import unittest

import kit

UNIT = os.path.join(kit.ROOT, "contrib/systemd/norbd@.service")
SECTIONS = ["Unit", "Service", "Install"]


class Units(kit.Case):
    def setUp(self):
        super().setUp()
        with open(UNIT, encoding="ascii") as file:
            self.text = file.read()
        self.lines = [it for it in self.text.splitlines() if it and it[0] != "#"]

    def of(self, key):
        """The values of a key."""
        return [it.partition("=")[2] for it in self.lines if it.partition("=")[0] == key]

    def start_it(self, under=()):
        """Starts the line for an image, in folders of the test."""
        for kind, place in (("State", "/var/lib/"), ("Runtime", "/run/")):
            folder, = self.of(f"{kind}Directory")
            os.makedirs(self.path(folder), exist_ok=True)
            self.lines = [it.replace(place + folder, self.path(folder)) for it in self.lines]
        words = self.of("ExecStart")[0].replace("%i", "a").split()
        self.assertEqual(words[:2], ["/usr/local/bin/norbd", "serve"])
        if not os.path.exists(words[2]):
            self.format(words[2], 1024)
        umask = int(self.of("UMask")[0], 8)
        return self.serve(*words[2:], under=under, preexec_fn=lambda: os.umask(umask))

    def test_its_form(self):
        """It has systemd's three sections, lines `Key=value` in them, and options of the help."""
        self.assertEqual(re.findall(r"(?m)^\[(\w+)\]$", self.text), SECTIONS)
        for line in self.lines:
            self.assertRegex(line, r"^(\[\w+\]|[A-Z]\w+=.*)$")
        options = re.findall(r"--[a-z-]+", self.of("ExecStart")[0])
        help_text = self.norbd("serve", "--help").decode()
        for option in options:
            self.assertRegex(help_text, rf"(?m)^ .*{option} ")

    @kit.needs("systemd-analyze")
    def test_systemd_takes_it(self):
        """systemd finds nothing to say of it."""
        self.put("norbd@.service", self.text.replace(
            "/usr/local/bin/norbd", kit.PROGRAM).encode())
        done = subprocess.run(["systemd-analyze", "verify", "--man=no", "./norbd@.service"],
                              cwd=self.room, capture_output=True, timeout=kit.PATIENCE, check=False)
        self.assertEqual((done.returncode, done.stderr), (0, b""))

    def test_its_line(self):
        """It takes a long request, from user or group; after a kill the next start has it."""
        server = self.start_it()
        self.assertEqual(os.stat(server.address).st_mode & 0o777, 0o770)
        data = os.urandom(770 << 10)
        with server.client() as client:
            self.assertEqual(client.write(0, data), 0)
            self.assertEqual(server.kill(signal.SIGKILL).status, -signal.SIGKILL)
        server = self.start_it()
        with server.client() as client:
            self.assertEqual(client.read(0, 1540), data)
        self.assertEqual(server.kill(signal.SIGTERM).status, -signal.SIGTERM)

    @kit.needs("strace")
    @kit.needs("systemd-analyze")
    @kit.not_emulated
    def test_what_it_forbids(self):
        """A server makes no call, mapping or socket that the unit forbids."""
        server = self.start_it(under=kit.traced("all"))
        with server.client() as client:
            self.assertEqual((client.write(0, bytes(512)), client.flush()), (0, 0))
        server.kill(signal.SIGTERM)
        log = self.bytes_of("strace.log").decode()
        allowed, forbidden = ({call for group in it.lstrip("~").split() for call in calls_of(group)}
                              for it in self.of("SystemCallFilter"))
        calls = {name for name, _, _ in kit.calls_in(log)}
        self.assertLess({"execve", "bind", "pwrite64", "fdatasync"}, calls)
        self.assertLessEqual(calls, allowed - forbidden)
        self.assertNotRegex(log, "PROT_WRITE[|]PROT_EXEC")
        self.assertEqual(set(re.findall(r"socket\((\w+)", log)),
                         set(self.of("RestrictAddressFamilies")))


def calls_of(group):
    """The calls of a group of systemd's, those of the groups in it too."""
    text = subprocess.run(["systemd-analyze", "syscall-filter", group], check=True,
                          stdout=subprocess.PIPE, timeout=kit.PATIENCE).stdout.decode()
    found = set()
    for name in re.findall(r"(?m)^ +([@\w-]+)$", text):
        found |= calls_of(name) if name[0] == "@" else {name}
    return found


if __name__ == "__main__":
    unittest.main()
