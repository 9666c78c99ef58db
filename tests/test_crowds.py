"""Connections to `serve` in crowds, by docs/SERVE.md: at once, one after another, broken, greedy,
and more than there is room for."""
import os
import re
import resource
import socket
import threading
import time
import unittest

import kit
import nbd
from nbd import OK, READ, WRITE


class Crowds(kit.Case):
    def setUp(self):
        super().setUp()
        self.format()

    def test_two_at_once(self):
        """While half of a WRITE of one client is on its way, another one is answered."""
        server = self.serve("a.img", "--conns", "2")
        one, two = server.client(), server.client()
        one.send(nbd.request(WRITE, 0, 512, b"\x11" * 256))
        self.assertEqual(two.write(3, b"\x33" * 512), OK)
        self.assertEqual(two.read(3, 1), b"\x33" * 512)
        self.assertEqual(two.read(0), bytes(512))
        one.send(b"\x11" * 256)
        self.assertEqual(one.answer(), (OK, 1, b""))
        self.assertEqual(two.read(0), b"\x11" * 512)
        one.disc()
        two.disc()
        self.assertEqual(server.end().status, 0)

    def test_a_crowd(self):
        """Eight clients at once find what they wrote, with WRITEs in pieces that cross; so does the
        next start."""
        self.format("c.img", 1024)
        server = self.serve("c.img", "--conns", "8", "--record", "--sync", "never")
        clients = [server.client() for _ in range(8)]
        chance, held = kit.dice("a crowd"), bytearray(8 * 65536)
        for turn in range(40):
            asked = []
            for number, client in enumerate(clients):
                count = chance.randrange(1, 129)
                at = 65536 * number + 512 * chance.randrange(129 - count)
                data = bytes(chance.getrandbits(8) for _ in range(16)) * (32 * count)
                kind, cut = chance.choice([READ, WRITE]), chance.randrange(1, len(data))
                client.send(nbd.request(kind, at, len(data), data[:cut] if kind == WRITE else b"",
                                        cookie=turn))
                asked.append((kind, at, data, cut))
            for client, (kind, at, data, cut) in zip(clients, asked):
                if kind == WRITE:
                    client.send(data[cut:])
            for client, (kind, at, data, cut) in zip(clients, asked):
                if kind == WRITE:
                    self.assertEqual(client.answer(), (OK, turn, b""))
                    held[at:at + len(data)] = data
                else:
                    self.assertEqual(client.answer(len(data)),
                                     (OK, turn, bytes(held[at:at + len(data)])))
        for client in clients:
            client.disc()
        done = server.end()
        self.assertEqual((done.status, done.text), (0, "served 8 connections\nrecorded 320 rows\n"))
        self.assertEqual(self.norbd("read", "c.img", "--sectors", "0:1024"), bytes(held))
        self.assertEqual(self.check("c.img")["verdict"], "clean")

    def test_threads_of_one_order(self):
        """Clients in threads of their own that write the same sectors leave each as one of them
        wrote it, and each reads what it wrote or what came later, never what came before."""
        server = self.serve("a.img", "--conns", "6")
        wrong = []

        def work(number):
            with server.client() as client:
                for turn in range(60):
                    data = nbd.sector(number, turn)
                    if client.write(turn % 7, data) != OK:
                        wrong.append("a WRITE")
                    got = client.read(turn % 7)
                    writer, when = int.from_bytes(got[:8], "big"), int.from_bytes(got[12:16], "big")
                    if got != nbd.sector(writer, when) or writer == number and when != turn:
                        wrong.append(got[:16])
                client.disc()
        threads = [threading.Thread(target=work, args=[number]) for number in range(6)]
        for thread in threads:
            thread.start()
        for thread in threads:
            thread.join()
        self.assertEqual((wrong, server.end().status), ([], 0))

    def test_a_full_house(self):
        """64 clients are served at once; a 65th is greeted once another has ended. That others
        wait is told once until a place was free."""
        server = self.serve()
        clients = [server.client() for _ in range(64)]
        for number, client in enumerate(clients):
            self.assertEqual(client.write(number, nbd.sector(number)), OK)
        late = server.connect()
        late.socket.settimeout(0.5)
        with self.assertRaises(socket.timeout):
            late.receive(1)
        late.socket.settimeout(20)
        clients[5].disc()
        later = server.connect()
        late.go()
        for number in range(64):
            self.assertEqual(late.read(number), nbd.sector(number))
        threads = len(os.listdir(f"/proc/{server.pid}/task"))
        clients[6].disc()
        later.go()
        clients[7].disc()
        self.assertTrue(kit.wait_for(
            lambda: len(os.listdir(f"/proc/{server.pid}/task")) < threads))
        server.client()
        line = b"norbd: 64 connections, others wait\n"
        self.assertEqual(server.process.stderr.readline(), line)
        server.connect()
        self.assertEqual(server.process.stderr.readline(), line)
        self.assertEqual(server.kill().fault, "")

    @kit.not_emulated
    def test_many_one_after_another(self):
        """2,000 connections one after another, half of them cut off anywhere, leave the server as
        it was: threads, descriptors and memory, and each has the next number."""
        server = self.serve("a.img", "-v")
        lines = []
        thread = threading.Thread(target=lambda: lines.extend(server.process.stderr), daemon=True)
        thread.start()
        chance = kit.dice("many")

        def come(count):
            for _ in range(count):
                client = server.connect()
                if chance.random() < 0.5:
                    client.go().read(0)
                elif chance.random() < 0.5:
                    client.go().send(nbd.request(WRITE, 0, 512, b"\x11" * chance.randrange(512)))
                client.close()

        def held():
            folder = f"/proc/{server.pid}"
            return len(os.listdir(f"{folder}/task")), len(os.listdir(f"{folder}/fd"))
        come(200)
        before, memory = held(), kit.status_of(server.pid, "VmRSS")
        come(1800)
        self.assertTrue(kit.wait_for(lambda: held() <= before, 20), (before, held()))
        if not kit.keeps_what_it_freed(server.pid):
            self.assertLess(kit.status_of(server.pid, "VmRSS") / held()[0],
                            memory / before[0] + 4096)
        self.assertEqual(server.client().read(0), bytes(512))
        self.assertTrue(kit.wait_for(lambda: b"connection 2001 begins" in b"".join(lines[-9:]), 20))
        server.kill()
        thread.join(20)
        begun = [int(it) for it in re.findall(rb"connection (\d+) begins", b"".join(lines))]
        self.assertEqual(sorted(begun), list(range(1, 2002)))  # lines of two threads may cross

    def test_broken_clients(self):
        """What one client sends, cut off anywhere or random bytes, ends that client alone."""
        server = self.serve()
        good, chance = server.client(), kit.dice("broken")
        text = b"\0\0\0\3" + nbd.option(nbd.GO, nbd.export()) + nbd.request(
            WRITE, 512, 512, b"\x22" * 512) + nbd.request(READ, 0, 512)
        for turn in range(150):
            client = server.connect()
            piece = bytearray(text[:chance.randrange(len(text))])
            if turn % 3 and piece:
                for _ in range(chance.randrange(1, 5)):
                    piece[chance.randrange(len(piece))] = chance.randrange(256)
            try:
                client.send(piece)
            except nbd.Closed:
                pass
            if turn % 5 == 0:
                client.socket.setsockopt(socket.SOL_SOCKET, socket.SO_LINGER, b"\1\0\0\0\0\0\0\0")
            client.close()
            self.assertEqual(good.read(0), bytes(512))

    def test_a_client_that_reads_nothing(self):
        """A client that asks for much and reads no reply holds nobody else up."""
        server = self.serve()
        greedy, other = server.client(), server.client()
        greedy.socket.settimeout(0.5)
        try:
            for _ in range(10_000):
                greedy.socket.sendall(nbd.request(READ, 0, 35840))
        except socket.timeout:
            pass
        for number in range(70):
            self.assertEqual(other.write(number, nbd.sector(number)), OK)
            self.assertEqual(other.read(number), nbd.sector(number))
        greedy.close()
        self.assertEqual(server.client().read(69), nbd.sector(69))

    def test_accepts_that_fail(self):
        """Where no descriptor is left the accept is tried again, and the clients that waited are
        served once others have ended."""
        server = self.serve()
        time.sleep(0.5)  # its start may have one more open
        held = len(os.listdir(f"/proc/{server.pid}/fd"))
        resource.prlimit(server.pid, resource.RLIMIT_NOFILE, (held + 6, held + 6))  # two for each
        clients = [server.connect() for _ in range(7)]
        served, waiting = [], []
        for client in clients:
            client.socket.settimeout(0.5)
            try:
                client.go()
                served.append(client)
            except socket.timeout:
                waiting.append(client)
        self.assertTrue(served and waiting, (len(served), len(waiting)))
        ticks = kit.status_of(server.pid, "voluntary_ctxt_switches")
        time.sleep(1)
        self.assertLess(kit.status_of(server.pid, "voluntary_ctxt_switches") - ticks, 200)
        while waiting:
            served.pop().disc()
            late = waiting.pop(0)
            late.socket.settimeout(kit.PATIENCE)
            late.receive(18)
            late.send(nbd.option(nbd.GO, nbd.export())[:0] + b"\0\0\0\3")
            self.assertEqual(late.ask(nbd.GO, nbd.export())[-1], (nbd.ACK, b""))
            self.assertEqual(late.read(0), bytes(512))
            served.append(late)


if __name__ == "__main__":
    unittest.main()
