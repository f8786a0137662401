#!/usr/bin/env python3
"""Prints what clock_cases must write, from the formulas of docs/PROTOCOL.md, "The ping clock", on python's floats, which are IEEE doubles:
python3 expected.py > stdout"""
import math
import struct

NAN = math.nan
INF = math.inf


def number(x):
    if math.isnan(x):
        return "NaN"
    sign = "-" if x < 0 else ""
    thousandths = abs(x) * 1000
    if thousandths < 2**64:
        count = int(thousandths)
        size = f"{count // 1000}.{count % 1000:03d}"
    else:
        size = "large"
    return f"{sign}{size} ({struct.pack('>d', x).hex()})"


def in_range(low, x):
    return low <= x <= 60000  # false for NaN; true for -0.0 where low is 0


def good_state(state):
    return in_range(0, state[1]) and in_range(0, state[2])


def sampled(smoothed, deviation):
    return (True, smoothed, deviation)


def unsampled(smoothed, deviation):
    return (False, smoothed, deviation)


NEW = unsampled(0.0, 0.0)


def text(state):
    return f"{'sampled' if state[0] else 'unsampled'} {number(state[1])} {number(state[2])}"


def sample(state, r):
    if not (good_state(state) and 0 <= r <= 60000):
        answer, after = "refused 12", state
    elif state[0]:
        deviation = 0.75 * state[2] + 0.25 * abs(state[1] - r)
        smoothed = 0.875 * state[1] + 0.125 * r
        answer, after = "taken", (True, smoothed, deviation)
    else:
        answer, after = "taken", (True, float(r), r / 2)
    print(f"{text(state)}, sample {r}: {answer}, {text(after)}")
    return after


def limit(state, setting, good_setting, value):
    answer = number(value) if good_state(state) and good_setting else "refused 12"
    print(f"{text(state)}, {setting}: {answer}")


def fixed(state, x):
    limit(state, f"fixed {number(x)}", in_range(1, x), x)


def measured(state, floor, ceiling):
    value = state[1] + max(1.0, 4 * state[2]) if state[0] else 1000.0
    good = in_range(1, floor) and in_range(1, ceiling) and floor <= ceiling
    limit(state, f"from {number(floor)} to {number(ceiling)}", good, min(max(value, floor), ceiling))


def later(smoothed, deviation, r):
    sample(sampled(smoothed, deviation), r)


print("case 7")
clock = sample(NEW, 100)
measured(clock, 1.0, 60000.0)
clock = sample(clock, 100)
measured(clock, 1.0, 60000.0)
clock = sample(clock, 180)
measured(clock, 1.0, 60000.0)

print("first samples")
sample(NEW, 0)
sample(NEW, 1)
sample(NEW, 60000)
sample(NEW, 60001)
sample(NEW, 4294967295)
sample(unsampled(60000.0, 60000.0), 7)

print("later samples")
later(60000.0, 60000.0, 0)
later(60000.0, 60000.0, 60000)
later(0.0, 0.0, 60000)
later(100.0, 50.0, 60001)
later(0.1, 0.3, 7)
later(333.3333333333333, 41.7, 350)
later(-0.0, -0.0, 0)
later(5e-324, 5e-324, 0)

print("a run of samples")
clock = NEW
for r in (17, 23, 1999, 60001, 3):
    clock = sample(clock, r)
measured(clock, 1.0, 60000.0)

print("bad states")
later(NAN, 0.0, 100)
later(0.0, NAN, 100)
later(INF, 0.0, 100)
later(0.0, -INF, 100)
later(-1.0, 0.0, 100)
later(0.0, -5e-324, 100)
later(60000.00000000001, 0.0, 100)

print("bad states, no sample or a fixed limit")
sample(unsampled(NAN, 0.0), 100)
fixed(unsampled(-1.0, 0.0), 500.0)
fixed(sampled(0.0, NAN), 500.0)
measured(unsampled(0.0, INF), 1.0, 60000.0)

print("measured limits")
measured(NEW, 1.0, 60000.0)
measured(NEW, 2000.0, 3000.0)
measured(NEW, 1.0, 999.5)
measured(sampled(0.0, 0.0), 1.0, 60000.0)
measured(sampled(-0.0, -0.0), 1.0, 60000.0)
measured(sampled(100.0, 0.25), 1.0, 60000.0)
measured(sampled(0.1, 0.3), 1.0, 60000.0)
measured(sampled(60000.0, 60000.0), 1.0, 60000.0)
measured(sampled(100.0, 50.0), 400.0, 400.0)

print("fixed limits")
fixed(NEW, 1.0)
fixed(sampled(100.0, 50.0), 60000.0)
fixed(sampled(-0.0, -0.0), 1234.5)
fixed(NEW, 0.9999999999999999)
fixed(NEW, 60000.00000000001)
fixed(NEW, -0.0)
fixed(NEW, NAN)
fixed(NEW, INF)

print("bad floors and ceilings")
measured(NEW, 0.5, 60000.0)
measured(NEW, 1.0, 60001.0)
measured(NEW, 300.0, 200.0)
measured(NEW, NAN, 60000.0)
measured(NEW, 1.0, NAN)
measured(NEW, -INF, INF)
