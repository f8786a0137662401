#!/usr/bin/env python3
"""Prints what crc_cases must write, by division of polynomials as RFC 3720, section 12.1, has it: python3 expected.py > stdout"""
GENERATOR = sum(1 << power for power in (32, 28, 27, 26, 25, 23, 22, 20, 19, 18, 14, 13, 11, 10, 9, 8, 6, 0))
ONES = 0xFFFFFFFF
READ_COMMAND = """01 c0 00 00 00 00 00 00 00 00 00 00 00 00 00 00 14 00 00 00 00 00 04 00
                  00 00 00 14 00 00 00 18 28 00 00 00 00 00 00 00 02 00 00 00 00 00 00 00"""


def crc(message):
    """Bit k of a number here is the coefficient of x^k; the lowest bit of the first byte has the highest power."""
    count = 8 * len(message)
    bits = "".join(f"{byte:08b}"[::-1] for byte in message)
    left = int(bits or "0", 2) << 32 ^ ONES << count
    for power in reversed(range(count)):
        if left >> power + 32:
            left ^= GENERATOR << power
    return int(f"{left ^ ONES:032b}"[::-1], 2)


def show(what, message):
    print(f"{what}: {crc(bytes(message)):08x}")


show("the digits 1 to 9", b"123456789")
show("32 bytes 00", [0] * 32)
show("32 bytes ff", [255] * 32)
show("the bytes 00 to 1f", range(32))
show("the bytes 1f to 00", reversed(range(32)))
show("an iSCSI read command", bytes.fromhex(READ_COMMAND))
show("no byte", [])
show("1 byte 00", [0])
show("1 byte ff", [255])
show("507 bytes 00", [0] * 507)
show("508 bytes 00", [0] * 508)
show("the bytes 00 to ff, twice", 2 * list(range(256)))
