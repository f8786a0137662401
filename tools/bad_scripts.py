"""Scripts with a line that is not valid, and some that end oddly and are right, each with the output that every player must give and
what replay says about it on standard error."""
import re

# Four lines, so that a bad line behind them is the fifth.
BEGUN = b"# A client that has started.\n\nclient 4\nstart\n"
STARTED = b"start ok wrote 4a6d757801000400\n"
FRESH = b"connection client fresh last 127 ping none\n"
MEGABYTE = 1 << 20

# The input of replay is read through a buffer of this size.
BUFFER = 262144

LONG_NUMBERS = [
    b"open 1000000000", b"open 18446744073709551621", b"grant 5 1000000000", b"grant 5 4294967297",
    b"grant 5 " + b"1" * 400, b"start 66001", b"start 0600", b"open 256", b"open 00", b"ping 65536", b"queue 256",
    b"open +5", b"open -5", b"open 5.0", b"open 0x5",
]

BAD_HEX = [
    b"put 5 6", b"put 5 616", b"receive 0", b"put 5 AB", b"put 5 6g", b"put 5 -61", b"put 5 --", b"put 5 0x61",
    b"put 5 " + b"ab" * 1025, b"receive " + b"ab" * 66001,
]

MISSING_WORDS = [
    b"open", b"open ", b"put", b"put 5", b"put 5 ", b"finish", b"grant", b"grant 5", b"abort 5", b"abort 5 600",
    b"close", b"ping", b"receive", b"receive ", b"queue",
]

OTHER_WORDS = [
    b"begin", b"Start", b"star", b"starts", b"client 4", b"server 4", b"lost 1", b"state 1", b"open 5 600",
    b"put 5 61 600", b"start 1 1", b"abort 5 partly", b"receive - -", b" # no comment",
]

ODD_BYTES = [
    b" ", b" start", b"start ", b"put  5 61", b"put\t5 61", b"start\r", b"\0", b"start\0", b"st\0art", b"put 5 61\0",
    b"open 5\0 600", b"lost\x7f", b"lost\xff", b"\xc3\xa4",
]

LONG_LINES = [
    b"a" * MEGABYTE, b" " * MEGABYTE, b"\0" * MEGABYTE, b"receive " + b"ab" * (MEGABYTE // 2),
    b"put 5 " + b"ab" * (MEGABYTE // 2), b"open " + b"1" * MEGABYTE, b"start" + b" 600" * (MEGABYTE // 4),
    b"b" * (BUFFER - 1), b"b" * BUFFER, b"b" * (BUFFER + 1),
]

FIRST_LINES = [
    b"start", b"state", b"client", b"client ", b"client  4", b" client 4", b"client 4 ", b"client 65536", b"client 04",
    b"client 1000000000", b"client 4 queue", b"client 4 queue 70001", b"client 4 queue 1 1", b"client 4 600",
    b"CLIENT 4", b"client 4\r", b"server\t4", b"client\0004", b"c" * MEGABYTE,
]


# The form of a line by its first word, as docs/SCRIPTS.md has it.
ID, ROOM = b"ID at most 255", b"ROOM at most 66000"
FORMS = {
    b"start": b"start [ROOM], " + ROOM,
    b"open": b"open ID, " + ID,
    b"put": b"put ID BYTES, " + ID + b", BYTES lower-case hex of at most 1024 bytes or -",
    b"finish": b"finish ID, " + ID,
    b"turn": b"turn [ROOM], " + ROOM,
    b"grant": b"grant ID AMOUNT [ROOM], " + ID + b", AMOUNT of at most 9 digits, " + ROOM,
    b"abort": b"abort ID whole|partial [ROOM], " + ID + b", " + ROOM,
    b"close": b"close ID [ROOM], " + ID + b", " + ROOM,
    b"ping": b"ping COOKIE [ROOM], COOKIE at most 65535, " + ROOM,
    b"shutdown": b"shutdown [ROOM], " + ROOM,
    b"lost": b"lost alone",
    b"receive": b"receive BYTES [ROOM], BYTES lower-case hex of at most 66000 bytes or -, " + ROOM,
    b"state": b"state alone",
    b"queue": b"queue ID, " + ID,
}
FIRST_FORM = b"client|server HEADER [queue LENGTH], HEADER at most 65535, LENGTH at most 70000"


def wrong(line):
    return b"script error at line %d\n" % line


def why(line, first):
    """Why a line is a script error."""
    if re.search(rb"[^ -~]", line):
        return b"a byte that no word has"
    if b"  " in line:
        return b"two spaces"
    if line.startswith(b" ") or line.endswith(b" "):
        return b"a space at the start or at the end"
    if first:
        return b"expected " + FIRST_FORM
    form = FORMS.get(line.split(b" ")[0])
    return b"expected " + form if form else b"no call has this name"


def reason(number, line, first=False):
    return b"line %d: %s\n" % (number, why(line, first))


def bad_lines():
    """One bad line each, behind good ones and before others, and as the last line with no end."""
    for line in LONG_NUMBERS + BAD_HEX + MISSING_WORDS + OTHER_WORDS + ODD_BYTES + LONG_LINES:
        yield BEGUN + line + b"\nstate\nopen\n", STARTED + wrong(5), reason(5, line)
        yield BEGUN + line, STARTED + wrong(5), reason(5, line)
    for line in FIRST_LINES:
        yield b"#\n" + line + b"\nclient 4\nstate\n", wrong(2), reason(2, line, True)
        yield line, wrong(1), reason(1, line, True)


def good_ends():
    """What is skipped, and where an input may end: none of these is a fault."""
    for nothing in (b"", b"\n", b"#", b"\n\n# no line\n", b"#\0\xff\r\n", b"client 4", b"client 4\n"):
        yield nothing, b"", b""
    yield b"client 4\nstate", FRESH, b""
    yield b"client 4\n\n\nstate\n\n#", FRESH, b""
    yield b"client 4\n" + b"\n" * MEGABYTE + b"open", wrong(MEGABYTE + 2), reason(MEGABYTE + 2, b"open")
    for length in (BUFFER - 11, BUFFER - 10, BUFFER - 9, BUFFER - 1, BUFFER, BUFFER + 1, MEGABYTE):
        comment = b"#" * length
        yield b"client 4\n" + comment + b"\nstate\nopen\n", FRESH + wrong(4), reason(4, b"open")
        yield comment + b"\nclient 4\nstate\n" + comment, FRESH, b""
        yield b"client 4\nstate\n" + comment + b"\n" + comment + b"\nlost 1", FRESH + wrong(5), reason(5, b"lost 1")
    longest = b"receive " + b"00" * 66000 + b" 66000"
    refused = b"receive refused 22 at 0 wrote 08000000\nreceive refused 2\n"
    yield BEGUN + longest + b"\n" + longest + b"\nopen", STARTED + refused + wrong(7), reason(7, b"open")


def cases():
    yield from bad_lines()
    yield from good_ends()


# ---- the journal's scripts

# Two lines, so that a bad line behind them is the third.
REGION = b"region 1024\nstore 5 0\n"
STORED = b"store ok serial 1\n"

# The form of a line of the journal by its first word, as docs/JOURNAL.md has it.
JOURNAL_FORMS = {
    b"store": b"expected store ID KIND [STORES], ID and KIND at most 255, STORES at most 999",
    b"repair": b"expected repair [STORES], STORES at most 999",
    b"read": b"expected read alone",
    b"list": b"expected list alone",
    b"damage": b"expected damage PLACE BYTE, PLACE below LENGTH, BYTE at most 255",
    b"block": b"expected block N, N of at most 9 digits",
}
JOURNAL_FIRST = b"expected region LENGTH, LENGTH at most 70000"

BAD_JOURNAL_LINES = [
    b"store", b"store 5", b"store 5 ", b"store 256 0", b"store 5 256", b"store 5 0 1000", b"store 5 0 1 1", b"store 05 0", b"store 5 0 ",
    b"repair 1000", b"repair -1", b"repair 1 1", b"read 1", b"list 1", b"read ", b"damage 1024 0", b"damage 0 256", b"damage 0", b"damage",
    b"damage 0 0 0", b"block", b"block 1 1", b"block 1000000000", b"block x", b"region 1024", b"state", b"Store 5 0", b" store 5 0",
    b"store\t5 0", b"store 5 0\r", b"\0", b"a" * MEGABYTE,
]
BAD_REGIONS = [b"store 5 0", b"region", b"region ", b"region 70001", b"region 0512", b"region 512 1", b"Region 512", b"region 512\r", b"region -1"]


def journal_cases():
    """Scripts of the journal with a line that is not valid: each with the output, and what journal_play says on standard error."""
    for line in BAD_JOURNAL_LINES:
        form = JOURNAL_FORMS.get(line.split(b" ")[0], b"no call has this name")
        yield REGION + line + b"\nread\n", STORED + b"script error at line 3\n", b"line 3: " + form + b"\n"
    for line in BAD_REGIONS:
        yield b"# A region.\n\n" + line + b"\nread\n", b"script error at line 3\n", b"line 3: " + JOURNAL_FIRST + b"\n"
    yield b"", b"", b""
    yield b"region 512", b"", b""
    yield b"region 70000\nread", b"read refused 8\n", b""
