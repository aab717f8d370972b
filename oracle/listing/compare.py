#!/usr/bin/env python3
"""compare.py OURS EXEC RUST [--seed N] [--logs N]: the two listings of many logs, byte for byte."""
import os
import subprocess
import sys

sys.path.insert(0, os.path.dirname(os.path.dirname(os.path.abspath(__file__))))
sys.dont_write_bytecode = True
from alike import compare  # noqa: E402
from logs import Packet, any_log, any_packet, log, longest  # noqa: E402

ALWAYS = 10
KINDS = {"B", "B E", "B K", "B L", "P", "P malformed", "V", "X"}
CHANNELS = ([3], [0, 1], [0, 1, 2, 3, 127, 128, 16384, 2**32 - 1], list(range(200)), list(range(6000)))


def damaged(r, data):
    kind = r.randrange(4)
    if kind == 0:
        return data[:r.randrange(len(data) + 1)]
    data = bytearray(data)
    for _ in range(r.choice((1, 1, 3, 20))):
        if kind == 1:
            at = r.randrange(len(data))
            data[at] ^= 1 << r.randrange(8)
        elif kind == 2:
            at = r.randrange(len(data) + 1)
            data[at:at] = r.randbytes(r.randrange(4))
        elif data:
            at = r.randrange(len(data))
            del data[at:at + r.randrange(4)]
    return bytes(data)


# More channels than the tables hold, with some closed in between.
def full(r):
    records = []
    for i in range(120):
        p = Packet()
        for _ in range(60):
            p.bunch(r.randrange(20000), r.choice(("R---", "RPI-", "-PI-", "RPIF", "RP-F")), close=r.choice((None,) * 30 + (0, 1)))
        records.append((i, p.bytes()))
    return log(records)


def one(r, number):
    # Early, so that any run has them.
    if number % 500 == 25:
        return log([(1, longest(r.choice((0, 1, 16383)))), (2, r.randbytes(65535)), (3, any_packet(r, [9]))])
    if number % 500 == 50:
        return full(r)
    if number % 50 == 7:
        return bytes([r.choice((0, 1, 1, 2, 255))]) + r.randbytes(r.randrange(400))
    made = any_log(r, r.choice((0, 1, 3, 20, 60)), r.choice(CHANNELS))
    return damaged(r, made) if r.random() < 0.5 else made


def listing(command, data):
    return subprocess.run(command, input=data, stdout=subprocess.PIPE, stderr=subprocess.DEVNULL, check=False).stdout


def tell(given, data):
    ours, rust = listing([given.ours, "list"], data), listing([given.exec, given.rust], data)
    return rust, None if ours == rust else "is listed in two ways"


def lines(said):
    for line in said.splitlines():
        words = line.decode().split()
        if words[0] == "B" and words[7] != "-":
            yield f"B {words[7]}"
        else:
            yield "P malformed" if words[0] == "P" and words[3] == "1" else words[0]


logs, kinds = compare(("ours", "exec", "rust"), 2000, ALWAYS, KINDS, one, tell, lines)
print(f"listings: {logs} logs alike; lines: {kinds}")
