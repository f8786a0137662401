#!/usr/bin/env python3
"""Prints what engine_cases must write: each answer is made by hand from the rule of docs/PROTOCOL.md that is beside it in short.
python3 expected.py > stdout"""

# A slot, the room that a turn needs, and the queue.
SLOT = 512
TURN = 4 + SLOT
QUEUE = 128 * SLOT

CALLS = "start open put finish turn grant abort close ping shutdown lost receive".split()


def row(role, label, answers, why):
    answers = answers.split()
    assert why and len(answers) == len(CALLS), label
    print(f"{role} {label}: {' '.join(f'{call} {answer}' for call, answer in zip(CALLS, answers))}; same")


def both(label, client, server, why):
    row("client", label, client, why)
    row("server", label, server, why)


def line(text, why):
    assert why, text
    print(text)


# The place of the byte at fault, for the numbers that have only one.
PLACES = {20: 0, 23: 0, 24: 0, 25: 1, 26: 2, 27: 2, 28: 2}


def violation(receive, number, why, place=None):
    place = PLACES[number] if place is None else place
    line(f"{receive}: refused {number} at {place} wrote 08000000 then ee, over", why)


def each(answer):
    return " ".join([answer] * len(CALLS))


# The columns:     start open put finish turn grant abort close ping shutdown lost receive
# put of 4 bytes, grant of 1, abort without partial, receipt of a NoOperation message; all for number 5.

line(f"slot {SLOT}, queue {QUEUE}", "a queue of exactly 128 slots, one for each number")

ALL_14 = each("14")
RATIONS = "finite rations in range"
both("outbound 2147483648", ALL_14, ALL_14, RATIONS)
both("inbound 2147483648", ALL_14, ALL_14, RATIONS)
both("127 idle, outbound 4294967295", ALL_14, ALL_14, RATIONS)
both("0 idle, inbound 2147483648", ALL_14, ALL_14, RATIONS)
both("rations 2147483647", "5 5 ok ok 9 7 ok 4 ok 4 ok ok", "4 4 ok ok 9 7 ok 5 ok ok ok ok",
     "0 to 2,147,483,647; 7: sum above 2,147,483,647")
both("rations endless", "5 5 ok ok 9 7 ok 4 ok 4 ok ok", "4 4 ok ok 9 7 ok 5 ok ok ok ok", "or endless; 7: endless")

FULL = f"6: more than {SLOT} minus waiting"
WAITING = f"waiting at most {SLOT} and 0 unless our side is opening or open"
both("open, a slot and 1 waiting", ALL_14, ALL_14, WAITING)
both("idle, 1 waiting", ALL_14, ALL_14, WAITING)
both("finished, 1 waiting", ALL_14, ALL_14, WAITING)
both("ended, 1 waiting", ALL_14, ALL_14, WAITING)
both("open, a slot waiting", "5 5 6 ok ok ok ok 4 ok 4 ok ok", "4 4 6 ok ok ok ok 5 ok ok ok ok",
     f"at most {SLOT}; {FULL}")

FINISH = "finish asked only there"
both("idle, finish asked", ALL_14, ALL_14, FINISH)
both("finished, finish asked", ALL_14, ALL_14, FINISH)
both("ended, finish asked", ALL_14, ALL_14, FINISH)
both("open, finish asked", "5 5 5 5 ok ok ok 4 ok 4 ok ok", "4 4 5 5 ok ok ok 5 ok ok ok ok",
     "put and finish: no finish asked before; ready: open, none waiting, finish asked; close: own side finished")

OPENING = "no opening at a server; ready: opening; grant needs our side open or finished; abort needs our side opening"
both("opening", "5 5 ok ok ok 5 ok 4 ok 4 ok ok", ALL_14, OPENING)
both("opening after finished", "5 5 ok ok ok 5 ok 4 ok 4 ok ok", ALL_14, OPENING)
both("opening after ended", "5 5 ok ok ok 5 ok 4 ok 4 ok ok", ALL_14, OPENING)
both("opening, a slot and 1 waiting", ALL_14, ALL_14, WAITING)
both("opening, a slot waiting", "5 5 6 ok ok 5 ok 4 ok 4 ok ok", ALL_14, FULL)
both("opening, finish asked", "5 5 5 5 ok 5 ok 4 ok 4 ok ok", ALL_14, "finish asked only there: opening or open")

LAST = "last served at most 127"
both("last served 128", ALL_14, ALL_14, LAST)
both("last served 255", ALL_14, ALL_14, LAST)
both("last served 0", "5 ok 5 5 9 5 5 4 ok 4 ok ok", "4 4 5 5 9 5 5 5 ok ok ok ok", LAST)

BEFORE = "all numbers idle before the headers"
row("client", "fresh, 0 open", ALL_14, BEFORE)
row("client", "fresh, 5 opening", ALL_14, BEFORE)
row("client", "started, 5 opening", ALL_14, BEFORE)
row("client", "started, 127 ended", ALL_14, BEFORE)
row("server", "fresh, 0 open", ALL_14, BEFORE)
row("server", "fresh, 127 ended", ALL_14, BEFORE)
FIRST = "checks go 14, 2, 1, 8, 3: over, fresh, no room, no queue, number 200"
row("client", "all wrong", ALL_14, FIRST)
row("server", "all wrong", ALL_14, FIRST)

row("client", "fresh", "ok 1 1 1 1 1 1 1 1 1 ok 1", "1: receive: client not started; never start or lost line")
row("client", "started", "5 1 1 1 1 1 1 1 1 1 ok 10", "5: start twice; 10: with fewer than 8 bytes of a header")
row("server", "fresh", "4 1 1 1 1 1 1 1 1 1 ok 10", "start (client); 10: with fewer than 8 bytes of a header")
row("client", "up", "5 ok 5 5 9 5 5 4 ok 4 ok ok", "a client may open an idle number; close, shutdown (server)")
row("server", "up", "4 4 5 5 9 5 5 5 ok ok ok ok", "start, open (client)")
row("client", "fresh and over", each("2"), "checks go 14, 2, 1")
row("client", "over", each("2"), "2: connection over")
row("server", "over", each("2"), "2: connection over")
row("client", "ping outstanding", "5 ok 5 5 9 5 5 4 13 4 ok ok", "13: a ping is outstanding")
row("server", "ping outstanding", "4 4 5 5 9 5 5 5 13 ok ok ok", "13: a ping is outstanding")

both("open open", "5 5 ok ok 9 ok ok 4 ok 4 ok ok", "4 4 ok ok 9 ok ok 5 ok ok ok ok",
     "put and finish need our side opening or open; grant: ours open, theirs open; close: own side finished")
both("open finished", "5 5 ok ok 9 5 ok 4 ok 4 ok ok", "4 4 ok ok 9 5 ok 5 ok ok ok ok",
     "grant: theirs open; abort: ours open with theirs not ended")
both("open ended", "5 5 ok ok 9 5 ok 4 ok 4 ok ok", "4 4 ok ok 9 5 ok 5 ok ok ok ok",
     "open: own side is finished or ended; abort: theirs ended and ours open")
both("finished open", "5 5 5 5 9 ok ok 4 ok 4 ok ok", "4 4 5 5 9 ok ok ok ok ok ok ok",
     "grant: ours finished, theirs open; abort: ours finished with theirs not ended; close: own side finished")
both("finished finished", "5 5 5 5 9 5 ok 4 ok 4 ok ok", "4 4 5 5 9 5 ok ok ok ok ok ok",
     "grant: theirs open; abort: ours finished with theirs not ended")
both("finished ended", "5 ok 5 5 9 5 5 4 ok 4 ok ok", "4 4 5 5 9 5 5 ok ok ok ok ok",
     "open: far side is ended and own side is finished; abort: theirs ended and ours open")
both("ended open", "5 5 5 5 9 5 5 4 ok 4 ok ok", "4 4 5 5 9 5 5 5 ok ok ok ok", "no call needs our side ended but open")
both("ended finished", "5 5 5 5 9 5 5 4 ok 4 ok ok", "4 4 5 5 9 5 5 5 ok ok ok ok", "open: far side is ended")
both("ended ended", "5 ok 5 5 9 5 5 4 ok 4 ok ok", "4 4 5 5 9 5 5 5 ok ok ok ok", "open: far side is ended, own side ended")

both("4 bytes free", "5 5 ok ok ok ok ok 4 ok 4 ok ok", "4 4 ok ok ok ok ok 5 ok ok ok ok", f"4 more make {SLOT}")
both("3 bytes free", "5 5 6 ok ok ok ok 4 ok 4 ok ok", "4 4 6 ok ok ok ok 5 ok ok ok ok", FULL)
both("3 bytes free, finish asked", "5 5 5 5 ok ok ok 4 ok 4 ok ok", "4 4 5 5 ok ok ok 5 ok ok ok ok", "5 before 6")
both("no ration, 1 waiting", "5 5 ok ok 9 ok ok 4 ok 4 ok ok", "4 4 ok ok 9 ok ok 5 ok ok ok ok",
     "ready: open with bytes waiting and ration above 0")
both("no ration, 1 waiting, finish asked", "5 5 5 5 9 ok ok 4 ok 4 ok ok", "4 4 5 5 9 ok ok 5 ok ok ok ok",
     "ready: open, none waiting, finish asked")
both("no ration, finish asked", "5 5 5 5 ok ok ok 4 ok 4 ok ok", "4 4 5 5 ok ok ok 5 ok ok ok ok",
     "ready: open, none waiting, finish asked")
both("endless, 1 waiting", "5 5 ok ok ok ok ok 4 ok 4 ok ok", "4 4 ok ok ok ok ok 5 ok ok ok ok", "a ration is finite or endless")
both("inbound endless", "5 5 ok ok 9 7 ok 4 ok 4 ok ok", "4 4 ok ok 9 7 ok 5 ok ok ok ok", "7: endless")
both("inbound 2147483646", "5 5 ok ok 9 ok ok 4 ok 4 ok ok", "4 4 ok ok 9 ok ok 5 ok ok ok ok", "the sum is 2,147,483,647")

# One byte waits for number 5, both sides open.
NONE = f"8: room below 12 (receive), {TURN} (turn), 8 (start), 4 (others that write); 8 before 4 and 5"
both("room 0", "8 5 ok ok 8 8 8 8 8 8 ok 8", "8 4 ok ok 8 8 8 8 8 8 ok 8", NONE)
both("room 3", "8 5 ok ok 8 8 8 8 8 8 ok 8", "8 4 ok ok 8 8 8 8 8 8 ok 8", NONE)
both("room 4", "8 5 ok ok 8 ok ok 4 ok 4 ok 8", "8 4 ok ok 8 ok ok 5 ok ok ok 8", "4 (others that write)")
both("room 7", "8 5 ok ok 8 ok ok 4 ok 4 ok 8", "8 4 ok ok 8 ok ok 5 ok ok ok 8", "below 8 (start)")
both("room 8", "5 5 ok ok 8 ok ok 4 ok 4 ok 8", "4 4 ok ok 8 ok ok 5 ok ok ok 8", "8 (start)")
both("room 11", "5 5 ok ok 8 ok ok 4 ok 4 ok 8", "4 4 ok ok 8 ok ok 5 ok ok ok 8", "below 12 (receive)")
both("room 12", "5 5 ok ok 8 ok ok 4 ok 4 ok ok", "4 4 ok ok 8 ok ok 5 ok ok ok ok", "12 (receive)")
both("room a byte short for a turn", "5 5 ok ok 8 ok ok 4 ok 4 ok ok", "4 4 ok ok 8 ok ok 5 ok ok ok ok", f"below {TURN} (turn)")
both("room for a turn", "5 5 ok ok ok ok ok 4 ok 4 ok ok", "4 4 ok ok ok ok ok 5 ok ok ok ok", f"{TURN} (turn)")

OTHER = f"8: queue not {QUEUE:,}; only put and turn touch the queue"
both("queue 0", "5 5 8 ok 8 ok ok 4 ok 4 ok ok", "4 4 8 ok 8 ok ok 5 ok ok ok ok", OTHER)
both("queue a byte short", "5 5 8 ok 8 ok ok 4 ok 4 ok ok", "4 4 8 ok 8 ok ok 5 ok ok ok ok", OTHER)
both("queue a byte long", "5 5 8 ok 8 ok ok 4 ok 4 ok ok", "4 4 8 ok 8 ok ok 5 ok ok ok ok", OTHER)

both("number 127", "5 ok 5 5 ok 5 5 4 ok 4 ok ok", "4 4 5 5 ok 5 5 5 ok ok ok ok", "127 is a number, and idle")
both("number 128", "5 3 3 3 ok 3 3 3 ok 4 ok ok", "4 3 3 3 ok 3 3 3 ok ok ok ok", "3: number above 127; 3 before 4")
both("number 255", "5 3 3 3 ok 3 3 3 ok 4 ok ok", "4 3 3 3 ok 3 3 3 ok ok ok ok", "3: number above 127; 3 before 4")
both("number 128, room 3, queue 0", "8 3 8 3 8 8 8 8 8 8 ok 8", "8 3 8 3 8 8 8 8 8 8 ok 8", "8 before 3")

SMALL = "number 128, room 3, queue 0"
row("client", f"fresh, {SMALL}", "8 1 1 1 1 1 1 1 1 1 ok 1", "1 before 8; never start or lost line")
row("client", f"started, {SMALL}", "8 1 1 1 1 1 1 1 1 1 ok 8", "8 before 5; a receive of a started client goes on to 8")
row("server", f"fresh, {SMALL}", "8 1 1 1 1 1 1 1 1 1 ok 8", "8 before 4; 1 for receive: client not started")
row("client", f"fresh and over, {SMALL}", each("2"), "2 before 1 and 8")
row("client", f"started and over, {SMALL}", each("2"), "2 before 1 and 8")
row("client", "fresh, room 7", "8 1 1 1 1 1 1 1 1 1 ok 1", "8: room below 8 (start)")
row("client", "fresh, room 8", "ok 1 1 1 1 1 1 1 1 1 ok 1", "start writes 8")
row("client", "opening, room 3", "8 5 ok ok 8 8 8 8 8 8 ok 8", "abort of an opening: room is asked all the same")
row("client", "opening, room 4", "8 5 ok ok 8 5 ok 4 ok 4 ok 8", "abort of an opening: room is asked all the same")

line("client start: ok wrote 4a6d757801000400 then ee, changed", "start writes 8; room past what was written stays as lent")
line("client start: refused 5, same", "5: start twice")
line("client receive 4a6d757801000400: ok header 4 used 8, changed", "a header, 8")
line("client open 5: ok, changed", "case 6")
line("client open 2: ok, changed", "case 6")
line("client put 5 616263: ok, changed, queue changed", "case 6")
line("slot 5: dd61626300 .. 00dd", "the waiting bytes stand first in the slot; put zeroes the rest of the slot it serves")
line("client finish 5: ok, changed", "case 6")
line("client put 5 64: refused 5, same", "put: no finish asked before")
line("client turn: ok id 2 wrote 90020000 then ee, changed, queue changed", "case 6; zeroes the slot, even if no byte moved")
line("slot 5: dd61626300 .. 00dd", "the slot it serves is that of 2")
line("client turn: ok id 5 wrote 94050003616263 then ee, changed, queue changed", "case 6")
line("slot 5: dd00000000 .. 00dd", "turn zeroes the rest of the slot it serves")
line("client turn: refused 9, same", "case 6: then refuse with 9")
line("client grant 2 0: refused 12, same", "12: grant of 0")
line("client grant 2 65536: refused 12, same", "12: above 65,535")
line("client grant 2 65535: ok wrote 1002ffff then ee, changed", "amount 1 to 65,535, written unshifted")
line("client ping 258: ok wrote 04000102 then ee, changed", "04 Ping, bytes 2 and 3 a cookie")
line("client ping 259: refused 13, same", "13: a ping is outstanding")
line("client receive 06000102: ok pingack cookie 258 used 4, changed", "PingAck matching the outstanding cookie")
line("client abort 2 partial: refused 4, same", "4: partial from a client")
line("client abort 2: ok wrote 20020000 then ee, changed", "001000x0 Abort")
line("client receive 800200017a: ok data id 2 length 1 late used 5 payload 7a, same",
     "data where our side is ended is late: reported, its length not counted")
line("client receive 84020000: ok data id 2 eof length 0 late used 4, changed", "its eof recorded")
line("client open 7: ok, changed", "a client may open an idle number")
line("client abort 7: ok, changed", "abort of an opening writes nothing")
line("client open 8: ok, changed", "a client may open an idle number")
line("client lost: ok, over", "a lost line ends it too; being over changes nothing else but fates")
line("fate of 2: must not be retried", "own Abort")
line("fate of 5: must not be retried", "a lost line: every running session that was sent")
line("fate of 7: may be retried", "abort of an opening: the fate is may be retried")
line("fate of 8: may be retried", "a lost line: every opening")
line("client turn: refused 2, same", "2: connection over")
line("client lost: refused 2, same", "2: connection over")

line("server start: refused 4, same", "start (client)")
line("server receive 4a6d757801000400: ok header 4 used 8 wrote 4a6d757801000400 then ee, changed",
     "a good first header makes a server write its own 8-byte header")
line("server receive 04001234: ok ping cookie 4660 used 4 wrote 06001234 then ee, same", "case 8")
line("server receive 90050003616263: ok data id 5 open length 3 used 7 payload 616263, changed", "case 2; 4 plus length")
line("server open 6: refused 4, same", "open (client)")
line("server close 5: refused 5, same", "close: own side finished")
line("server put 5 6869: ok, changed, queue changed", "put needs our side open")
line("slot 5: dd68690000 .. 00dd", "the waiting bytes stand first in the slot")
line("server put 5: ok, same", "no bytes: the rest of the slot is zeroed already")
line("server turn: ok id 5 wrote 800500026869 then ee, changed, queue changed", "open if opening, eof exactly if finish was asked")
line("slot 5: dd00000000 .. 00dd", "turn zeroes the rest of the slot it serves")
line("server finish 5: ok, changed", "finish needs our side open")
line("server turn: ok id 5 wrote 84050000 then ee, changed", "ready: open, none waiting, finish asked")
line("server close 5: ok wrote 30050000 then ee, changed", "30 Close; own side finished")
line("server close 5: refused 5, same", "Close ends the sender")
line("server receive 84050000: ok data id 5 eof length 0 late used 4, changed", "late where our side is ended; its eof recorded")
line("server receive 90050000: ok data id 5 open length 0 used 4, changed",
     "accepts where its own side is ended and the client's is finished; an open is never late")
line("server grant 5 1: ok wrote 10050001 then ee, changed", "written unshifted")
line("server abort 5 partial: ok wrote 22050000 then ee, changed", "bit 1 is partial")
line("server shutdown: ok wrote 02000000 then ee, over", "02 Shutdown; our own shutdown ends it too")
line("server shutdown: refused 2, same", "2: connection over")

line(f"client put 5 6161616161616161..({SLOT + 1} bytes): refused 6, same", FULL)
line(f"client put 5 6161616161616161..({SLOT} bytes): ok, changed, queue changed", f"{SLOT} for each number")
line("client put 5: ok, same", f"0 is not more than {SLOT} minus {SLOT}")
line("client put 5 7a: refused 6, same", FULL)
line(f"client turn: ok id 5 wrote 8005{SLOT:04x}61616161..({TURN} bytes) then ee, changed, queue changed", f"4 plus {SLOT}")
line("slot 5: dd00000000 .. 00dd", "turn zeroes the rest of the slot it serves")

UNIT = 256  # bytes of a starting ration that a header number counts
line(f"client put 5 6161616161616161..({SLOT} bytes): ok, changed, queue changed", "put needs our side opening or open")
line("client finish 5: ok, changed", "finish needs our side opening or open")
line(f"client turn: ok id 5 wrote 9005{UNIT:04x}61616161..({4 + UNIT} bytes) then ee, changed, queue changed",
     f"an opening with {SLOT} waiting and a starting ration of {UNIT} sends {UNIT} first; bytes remain, so no eof")
line("slot 5: dd61616161 .. 00dd", "the waiting bytes stand first in the slot; turn zeroes the rest of the slot it serves")
line("client turn: refused 9, same", "ready: ration above 0")
line(f"client receive 1005{UNIT:04x}: ok increment id 5 shift 0 increment {UNIT} used 4, changed", "0001xxx0 IncrementRation")
line(f"client turn: ok id 5 wrote 8405{SLOT - UNIT:04x}61616161..({4 + SLOT - UNIT} bytes) then ee, changed, queue changed",
     "eof exactly if finish was asked and nothing remains")

line("server turn: ok id 5 wrote 80050105dddddddd..(265 bytes) then ee, changed, queue changed",
     "the smaller of waiting and ration: 261 of a full slot")
line("server put 5 616263: ok, changed, queue changed", "put needs our side open")
line("server finish 5: ok, changed", "finish needs our side open")
line("server turn: ok id 5 wrote 800500026162 then ee, changed, queue changed",
     "the smaller of waiting and ration, the first bytes waiting; a byte remains, so no eof")
line("slot 5: dd63000000 .. 00dd", "the waiting bytes stand first in the slot")
line("server turn: refused 9, same", "ready: ration above 0")
line("server receive 10050001: ok increment id 5 shift 0 increment 1 used 4, changed", "0001xxx0 IncrementRation")
line("server turn: ok id 5 wrote 8405000163 then ee, changed, queue changed", "eof exactly if finish was asked and nothing remains")
line("server put 5 64: refused 5, same", "put needs our side opening or open")

line("client receive 4a6d757801000400: refused 1, same", "1: receive: client not started")
line("client receive 4a6d7578010004: refused 10, same", "fewer than 8 bytes of a header")
violation("client receive 4a6d757802000400", 22, "case 1; a violation writes Error", place=4)
line("client receive 4a6d757801000000: ok header 0 used 8, changed", "case 1: header number 0")
line("server receive 6a756e6b: refused 10, same", "fewer than 8 bytes of a header")
line("server receive 4a6d757801000401: refused 22 at 7 wrote 4a6d75780100040008000000 then ee, over",
     "the last byte is 00; at a server for a bad first header its own 8-byte header and then Error")
line("server receive 6a6d757801000400: refused 22 at 0 wrote 4a6d75780100040008000000 then ee, over", "4A 6D 75 78")
line("server receive 4a6d757902ffff01: refused 22 at 3 wrote 4a6d75780100040008000000 then ee, over", "the first wrong byte of the header")
line("server receive 4a6d75780100040090: ok header 4 used 8 wrote 4a6d757801000400 then ee, changed", "a header, 8")

line("server receive: refused 10, same", "fewer than 4 bytes of a message")
line("server receive 010000: refused 10, same", "fewer than 4 bytes of a message")
line("server receive 900500036162: refused 10, same", "10: message not all there")
violation("server receive 01000000", 20, "case 3")
violation("server receive 91050003", 20, "no pattern ends in 1; 20 before 10")
violation("client receive 0a000000", 20, "no type has 0A")
violation("server receive 04800000", 21, "case 3", place=1)
violation("server receive 30070001", 21, "0 for Close; 21 before 23", place=3)
violation("server receive 40000101", 21, "0 for Acknowledgment; the first byte with a wrong reserved bit", place=2)
violation("client receive 00010005", 21, "second byte: else 0; 21 before 10", place=1)
violation("server receive 02000000", 23, "Shutdown from a client")
violation("server receive 30070000", 23, "Close from a client")
violation("client receive 40070000", 23, "Acknowledgment from a server")
violation("server receive 22070009", 24, "case 3: partial from a client; 24 before 10")
violation("server receive 8c050000", 24, "close from a client")
violation("server receive 86050000", 24, "ackRequired from a client")
violation("client receive 90050000", 24, "open from a server")
violation("client receive 88050000", 24, "close without eof")
violation("client receive 82050000", 24, "ackRequired without eof")

IDLE = "a message other than an open Data for an idle number is a wrong-state message"
violation("server receive 80050000", 25, IDLE)
violation("server receive 10050001", 25, IDLE)
violation("server receive 20050000", 25, IDLE)
violation("server receive 40050000", 25, IDLE)
violation("client receive 84050000", 25, IDLE)
violation("client receive 30050000", 25, IDLE)
line("server receive 90050000: ok data id 5 open length 0 used 4, changed", "a server accepts an open for an idle number")
line("server receive 000000026869: ok noop length 2 used 6 payload 6869, same", "00 NoOperation, 4 plus length")
line("client receive 02000003627965: ok shutdown length 3 used 7 payload 627965, over", "Shutdown received: over, no reply")
line("client receive 08000000: ok error length 0 used 4, over", "Error received: over, no reply")
line("server receive 080000026e6f: ok error length 2 used 6 payload 6e6f, over", "Error received: over, no reply")
violation("server receive 06000007", 28, "or none outstanding")
violation("client receive 06000008", 28, "PingAck not matching the outstanding cookie")
line("client receive 06000007: ok pingack cookie 7 used 4, changed", "the outstanding cookie")

violation("opening, client receive 80050000", 25, "a message for an opening number")
violation("open open, server receive 90050000", 25, "any other open is 25")
violation("open open, client receive 30050000", 25, "Close from an unfinished one")
violation("open finished, server receive 80050000", 25, "Data from a finished side")
line("open finished, server receive 10050001: ok increment id 5 shift 0 increment 1 used 4, changed", "all else stays allowed")
line("open finished, server receive 40050000: ok ack id 5 used 4, same", "Acknowledgment is reported and changes nothing")
violation("open ended, server receive 20050000", 25, "any message from an ended side")
violation("open ended, client receive 10050001", 25, "any message from an ended side")

violation("finished ended, server receive 90050000", 25, "with the sides exchanged: the server's is not ended")
violation("ended open, server receive 90050000", 25, "the client's is neither finished nor ended; never late")
line("ended finished, server receive 90050000: ok data id 5 open length 0 used 4, changed", "the server's ended, the client's finished")
line("ended ended, server receive 90050000: ok data id 5 open length 0 used 4, changed", "the server's ended, the client's ended")
line("ended open, client receive 800500026869: ok data id 5 length 2 late used 6 payload 6869, same",
     "late: reported, its length not counted")
line("ended open, client receive 8c050000: ok data id 5 close eof length 0 late used 4, changed", "late: its close recorded")
line("ended open, client receive 10050001: ok increment id 5 shift 0 increment 1 late used 4, same",
     "IncrementRation where our side is ended is late and changes nothing")
violation("ended ended, client receive 80050000", 25, "any message from an ended side")
line("finished open, client receive 10050001: ok increment id 5 shift 0 increment 1 late used 4, same",
     "IncrementRation where our side is finished is late and changes nothing")

line("open open, client receive 20050000: ok abort id 5 length 0 used 4 wrote 20050000 then ee, changed", "our side is open")
line("open open, client receive 220500026e6f: ok abort id 5 partial length 2 used 6 payload 6e6f wrote 20050000 then ee, changed",
     "Abort to an Abort where our side is open; no detail")
line("finished open, client receive 20050000: ok abort id 5 length 0 used 4, changed", "a finished client sends no reply")
line("ended open, client receive 20050000: ok abort id 5 length 0 used 4, changed", "our side is ended: no reply")
line("open open, server receive 20050000: ok abort id 5 length 0 used 4 wrote 22050000 then ee, changed",
     "a server's reply Abort sets partial")
line("finished open, server receive 20050000: ok abort id 5 length 0 used 4 wrote 22050000 then ee, changed",
     "or is a server's finished side")
line("ended open, server receive 20050000: ok abort id 5 length 0 used 4, changed", "our side is ended: no reply")
line("open open, client receive 8c050000: ok data id 5 close eof length 0 used 4 wrote 20050000 then ee, changed",
     "Abort to a close flag where the client's side is open")
line("finished open, client receive 8c050000: ok data id 5 close eof length 0 used 4, changed", "a finished client sends no reply")
line("open finished, client receive 30050000: ok close id 5 used 4 wrote 20050000 then ee, changed",
     "Abort to a Close where the client's side is open")
line("finished finished, client receive 30050000: ok close id 5 used 4, changed", "a finished client sends no reply")

line("inbound 2, client receive 800500026162: ok data id 5 length 2 used 6 payload 6162, changed", "case 4")
violation("inbound 2, client receive 80050003616263", 26, "26: length above the inbound ration")
violation("inbound 2, server receive 80050003616263", 26, "26: length above the inbound ration")
line("inbound 2, server receive 800500036162: refused 10, same", "10 before 26")
line("inbound 0, server receive 84050000: ok data id 5 eof length 0 used 4, changed", "case 4: of 0 at ration 0 is taken")
violation("inbound 0, server receive 8005000161", 26, "26: length above the inbound ration")
line("inbound endless, client receive 80050003616263: ok data id 5 length 3 used 7 payload 616263, same", "endless stays endless")
line("outbound 2147483000, client receive 10050287: ok increment id 5 shift 0 increment 647 used 4, changed", "case 5")
violation("outbound 2147483000, client receive 10050288", 27, "case 5")
violation("outbound 2147483000, server receive 1e05ffff", 27, "65,535 times 2 to the power of 14")
line("outbound endless, client receive 1e05ffff: ok increment id 5 shift 7 increment 65535 used 4, same",
     "an increment to an endless ration changes nothing")
line("server receive 9000010000000000..(261 bytes): ok data id 0 open length 256 used 260 payload 0000000000000000..(256 bytes), changed",
     "case 4: Data of 256")
violation("server receive 9000010100000000..(261 bytes)", 26, "case 4: of 257 gives 26; open sets both rations, then spends its length")


def ended(answer, fate, why):
    line(f"client {answer}", "it ends the connection")
    line(f"fate of 5: {fate}", why)


ERROR = "receive 08000000: ok error length 0 used 4, over"
BY_ERROR = {
    "must not be retried": "must not be retried: Error",
    "may be retried": "Error: every opening",
    "complete": "Error: theirs is finished",
}
# One word for each pair of sides: idle; opening after idle, finished, ended; ours open, finished, ended, each with theirs open,
# finished, ended.
for fate in ["must not be retried"] + ["may be retried"] * 3 + ["must not be retried", "complete", "must not be retried"] * 3:
    ended(ERROR, fate, BY_ERROR[fate])

for _ in ("open", "finished"):
    ended("lost: ok, over", "must not be retried", "a lost line: every running session that was sent")
for _ in ("open", "finished"):
    ended("receive 01000000: refused 20 at 0 wrote 08000000 then ee, over", "must not be retried", "a violation counts as a lost line")
for _ in ("open", "finished"):
    ended("receive 02000000: ok shutdown length 0 used 4, over", "may be retried", "may be retried: Shutdown")
