"""What the tests of faults share: peers that fail as they are told, servers of their chips, and the
lines that are told of it."""
import concurrent.futures

import kit
import nbd
from nbd import OK
from serprog import Chip, End, Programmer, TcpPeer

BACK = "norbd: the chip is as it has to be, and is served on"
READ_AGAIN = "; all of it is read again"
ADVICE = ": read it with another programmer, replace the clip"
SILENT = "nothing came for 10 seconds"
ENDED = "the connection ended"
MUTE = "nothing came in 8 tries: is it a serprog programmer, does another client use it?"
BYTE = "0x[0-9a-f]{2}"
PLACE = f"at address 0x[0-9a-f]+, read {BYTE}, the model allows {BYTE}"
AT_ONCE = 6  # rows of a table


def told_in(text):
    """The lines of standard error, but for those of a slow machine: how far a chip has been read."""
    return [line for line in text.splitlines() if not line.endswith(" KiB of the chip are read")]


def left(doing, where=PLACE):
    """That the chip left the model, as a pattern."""
    return f"the chip left the model in {doing} at 0x[0-9a-f]+: {where}{ADVICE}"


def end(data=b""):
    raise End(data)


def at_first(code, does):
    """What is done at the first frame of this code, and then no more."""
    waiting = [1]

    def fail(of, *more):
        if of == code and waiting:
            waiting.clear()
            return does(*more)
        return more[0] if more else None
    return fail


def spoils(kind, does):
    """What makes a chip do its first operation of a kind that changes a byte so: `does` has the
    bytes that would be left, and those of before."""
    def begin(peer):
        def spoil(of, at, new, old):
            if of != kind or new == old:
                return new
            peer.chip.spoil = None
            return does(new, old)
        peer.chip.spoil = spoil
    return begin


def rewrite(case):
    """What makes a server of twelve sectors erase blocks: each is written again and again."""
    def ask(client, held):
        for turn in range(6):
            for number in range(12):
                held[number] = nbd.sector(number, turn)
                case.assertEqual(client.write(number, held[number]), OK)
    return ask


class FaultCase(kit.Case):
    def peer(self, kind=TcpPeer, memory=None, kib=64, **fields):
        """A peer with a formatted chip, whose programmer has these fields."""
        chip = Chip(kib, kit.formatted(kib) if memory is None else memory)
        peer = kind(self, Programmer(chip))
        peer.chip = chip
        for field, value in fields.items():
            setattr(peer.programmer, field, value)
        return peer

    def each(self, does, *rows, at_once=AT_ONCE):
        """Does a thing for each row of a table, some of them side by side, since most of it is
        waiting; every row that fails is named."""
        with concurrent.futures.ThreadPoolExecutor(at_once) as pool:
            done = [(row, pool.submit(does, *row)) for row in rows]
        failed = [(row, it.exception()) for row, it in done if it.exception()]
        if failed:
            names = "\n".join(f"{row}: {error!r}" for row, error in failed)
            raise AssertionError(f"{len(failed)} of {len(rows)} rows\n{names}") from failed[0][1]

    def holds(self, memory, held, other=()):
        """Each sector of a chip is what was acknowledged, or one of the others of its number."""
        peer = self.peer(memory=memory)
        data = self.norbd("read", peer.place)
        for number in range(70):
            found = data[512 * number:512 * number + 512]
            allowed = [held.get(number, bytes(512))] + [it for at, it in other if at == number]
            self.assertIn(found, allowed, number)

    def fails(self, peer, cause, *words, within=kit.PATIENCE):
        """`check` of the chip, or another line, fails with this cause, and nothing is written."""
        before = bytes(peer.chip.memory)
        command, *more = words or ("check",)
        done = self.run_norbd(command, peer.place, *more, within=within)
        self.assertEqual((done.status, done.text), (1, ""), done.err)
        self.assertEqual(done.fault.splitlines()[-1], f"norbd: chip failed: {peer.place}: {cause}")
        self.assertEqual(peer.chip.memory, before)
        return done

    def served(self, peer, *words):
        """A server of the peer's chip, a client, and what it has written."""
        server = self.serve(peer.place, *words)
        client = server.client(patience=90)
        held = {number: nbd.sector(number) for number in range(12)}
        for number, data in held.items():
            self.assertEqual(client.write(number, data), OK)
        return server, client, held

    def goes_on(self, begin, why, *words, kind=TcpPeer, ask=None, times=1, **fields):
        """A fault that comes once, or so many times: the command is answered, standard error says
        why the chip was lost and that it is back, and what was acknowledged is there."""
        peer = self.peer(kind, **fields)
        server, client, held = self.served(peer, *words)
        begin(peer)
        if ask:
            ask(client, held)
        else:
            held[20] = nbd.sector(20, 1)
            self.assertEqual(client.write(20, held[20]), OK, why)
        peer.programmer.before = peer.programmer.change = peer.programmer.within = None
        for number, data in held.items():
            self.assertEqual(client.read(number), data, number)
        client.disc()
        told = told_in(server.kill().err.decode())
        self.assertEqual(told[1::2], [BACK] * times, told)
        for line in told[::2]:
            self.assertRegex(line, f"^norbd: the chip is lost: {why}{READ_AGAIN}$")
        self.holds(peer.chip.memory, held)

    def ends(self, begin, first, last, *words, ask=None, between=(), **fields):
        """A fault that stays, or comes twice: no reply, why the chip was lost, and the server ends
        with the cause; what was acknowledged is there, and the sector old or new."""
        peer = self.peer(**fields)
        server, client, held = self.served(peer, *words)
        begin(peer)
        data = nbd.sector(20, 1)
        with self.assertRaises(nbd.Closed, msg=first):
            ask(client, held) if ask else client.write(20, data)
        done = server.end(within=90)
        self.assertEqual((done.status, done.text), (1, ""))
        told = told_in(done.fault)
        self.assertEqual(told[1:-1], list(between), told)
        self.assertRegex(told[0], f"^norbd: the chip is lost: {first}{READ_AGAIN}$")
        self.assertRegex(told[-1], f"^norbd: chip failed: {peer.place}: {last}$")
        peer.chip.spoil, peer.chip.stays = None, 0
        return peer, held, data
