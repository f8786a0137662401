#!/usr/bin/env python3
"""Prints what journal_cases must write, from a model of the journal, byte by byte, and of a client's calls, as far as these cases go:
python3 expected.py > stdout"""

BLOCK = 512
KINDS = {"complete": 1, "may be retried": 2, "must not be retried": 3}


def crc32c(data):
    crc = 0xFFFFFFFF
    for byte in data:
        crc ^= byte
        for _ in range(8):
            crc = crc >> 1 ^ (0x82F63B78 if crc & 1 else 0)
    return crc ^ 0xFFFFFFFF


def block(serial, number, kind):
    checked = serial.to_bytes(4, "big") + bytes([number, kind]) + bytes(501)
    return checked + crc32c(checked).to_bytes(4, "big") + b"\xa5"


class Stop(Exception):
    """Why nothing, or not all, is stored: a refusal with its number, or a power cut."""


class Journal:
    """A region and its calls, by the bytes of its blocks."""

    def __init__(self, length):
        self.region = bytearray(length)

    def entries(self):
        """The entries of the blocks before the first bad one."""
        if len(self.region) % BLOCK or not 1 <= len(self.region) // BLOCK <= 128:
            raise Stop("refused 8")
        found = []
        for at in range(0, len(self.region), BLOCK):
            held = bytes(self.region[at : at + BLOCK])
            if held[4] > 127 or held[5] > 3 or held != block(len(found) + 1, held[4], held[5]):
                break
            found.append((held[4], held[5]))
        return found

    def write(self, held, stores):
        """Stores the first bytes of a block in the first bad one."""
        at = BLOCK * len(self.entries())
        self.region[at : at + stores] = held[:stores]
        if stores < BLOCK:
            raise Stop("cut")

    def store(self, number, kind, stores):
        serial = len(self.entries()) + 1
        if BLOCK * serial > len(self.region):
            raise Stop("refused 16")
        self.write(block(serial, number, kind), stores)

    def repair(self):
        print(f"repair ok block {len(self.entries()) + 1}")
        self.write(bytes(BLOCK), BLOCK)

    def listed(self):
        """The serials of the starts that no 1 or 2 of their number answers before its next start."""
        latest, unanswered = {}, set()
        for serial, (number, kind) in enumerate(self.entries(), 1):
            if kind == 0:
                latest[number] = serial
                unanswered.add(serial)
            elif kind < 3:
                unanswered.discard(latest.get(number))
        return sorted(unanswered)

    def show(self):
        try:
            found = self.entries()
        except Stop as why:
            print(f"read {why}\nlist {why}")
            return
        print(f"read ok {len(found)}")
        for serial, (number, kind) in enumerate(found, 1):
            print(f"entry {serial} id {number} kind {kind}")
        print(" ".join(["list ok", *map(str, self.listed())]))


class Session:
    """A session of the client, from its open on."""

    def __init__(self):
        self.sent, self.ended, self.fate, self.stored = False, False, "running", []


class Client:
    """The calls of one connection by docs/PROTOCOL.md, with a keep after each."""

    def __init__(self, journal):
        self.journal, self.sessions, self.last, self.stopped = journal, {}, 127, None
        self.step("start ok", "4a6d757801000400")
        self.step("receive ok header 4 used 8", "")

    def due(self):
        """What is to be stored, in the order of the numbers: the start of a session that is sent, and a fate that is known."""
        for number, session in sorted(self.sessions.items()):
            if session.sent and 0 not in session.stored:
                yield session, number, 0
            elif session.sent and session.fate in KINDS and session.stored == [0]:
                yield session, number, KINDS[session.fate]

    def step(self, answer, wrote, stores=BLOCK):
        """Stores what is due after a call, unless a keep has stopped, and prints the line of the call."""
        try:
            for session, number, kind in [] if self.stopped else self.due():
                self.journal.store(number, kind, stores)
                session.stored.append(kind)
        except Stop as why:
            self.stopped = why
        sent = f"{'withheld' if self.stopped else 'sent'} {wrote}" if wrote else "nothing written"
        print(f"{answer}: {self.stopped or 'kept'}, {sent}")

    def end(self, session, fate):
        if session.fate == "running":
            session.fate = fate

    def open(self, number):
        self.sessions[number] = Session()
        self.step(f"open {number} ok", "")

    def turn(self, stores=BLOCK):
        ready = [number for number, session in self.sessions.items() if not session.sent and session.fate == "running"]
        self.last = min(ready, key=lambda number: (number - self.last - 1) % 128)
        self.sessions[self.last].sent = True
        self.step(f"turn ok id {self.last}", f"90{self.last:02x}0000", stores)

    def open_sent(self, number):
        self.open(number)
        self.turn()

    def abort(self, number):
        session = self.sessions[number]
        self.end(session, "must not be retried" if session.sent else "may be retried")
        session.ended = True
        self.step(f"abort {number} ok", f"20{number:02x}0000" if session.sent else "")

    def receive(self, number, words, fate):
        """A message that ends the server's side: where ours is open the reply is an Abort, which ends it."""
        session = self.sessions[number]
        reply = "" if session.ended else f"20{number:02x}0000"
        self.end(session, fate)
        session.ended = True
        self.step(f"receive ok {words} length 0 used 4", reply)

    def data_eof_close(self, number):
        self.receive(number, f"data id {number} close eof", "complete")

    def aborted(self, number):
        self.receive(number, f"abort id {number}", "may be retried")

    def lost(self):
        for session in self.sessions.values():
            self.end(session, "must not be retried" if session.sent else "may be retried")
        self.step("lost ok", "")


def case(name, length):
    print(f"case {name}: region of {length} bytes")
    journal = Journal(length)
    return journal, Client(journal)


journal, client = case("request", 2048)
client.open_sent(5)
client.data_eof_close(5)
journal.show()

journal, client = case("retried", 2048)
client.open_sent(5)
client.aborted(5)
client.open_sent(5)
journal.show()

journal, client = case("reopened", 2048)
client.open_sent(5)
client.abort(5)
client.aborted(5)
client.open(5)
client.abort(5)
journal.show()

journal, client = case("lost line", 2048)
client.open_sent(5)
client.open_sent(7)
client.open(9)
client.lost()
journal.show()

journal, client = case("full", 512)
client.open_sent(5)
client.lost()
journal.show()

journal, client = case("full, line up", 512)
client.open_sent(5)
client.aborted(5)
client.open_sent(7)
client.lost()
journal.show()

journal, client = case("cut", 2048)
client.open(5)
client.turn(511)
journal.show()
journal.repair()
client = Client(journal)
client.open_sent(5)
journal.show()

journal, client = case("wrong region", 513)
client.open_sent(5)
journal.show()
