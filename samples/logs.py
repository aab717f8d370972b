#!/usr/bin/env python3
"""Makes packet logs: logs.py DIR writes the test logs of samples/logs/ anew; logs.py --large BYTES FILE makes one long log.

Their listings (.txt) are the Rust's own: oracle/listing/run --write. A .joined has what the programs of the front pages must tell of
a log (samples/joining)."""
import os
import random
import struct
import sys


class Packet:
    """A packet's bits, lowest first."""

    def __init__(self):
        self.value = 0
        self.size = 0

    def put(self, value, n):
        self.value |= (value & (1 << n) - 1) << self.size
        self.size += n

    def packed(self, v):
        while True:
            chunk, v = v & 127, v >> 7
            self.put(chunk << 1 | (v > 0), 8)
            if v == 0:
                return

    def serialized(self, v, most):
        w = most.bit_length() - 1
        low = v & (1 << w) - 1
        self.put(low, w)
        if low + (1 << w) < most:
            self.put(v >> w, 1)

    # `flags` are those of the listing, as "RPI-"; `close` is a reason; `claim` a count that is not the payload's.
    def bunch(self, channel, flags="----", bits=0, opens=False, close=None, claim=None, data=0, name=0):
        reliable, partial, initial, final = (c != "-" for c in flags)
        control = opens or close is not None
        self.put(control, 1)
        if control:
            self.put(opens, 1)
            self.put(close is not None, 1)
            if close is not None:
                self.serialized(close, 15)
        self.put(0, 1)
        self.put(reliable, 1)
        self.packed(channel)
        self.put(0, 2)
        self.put(partial, 1)
        self.put(0, 1)
        if partial:
            self.put(initial, 1)
            self.put(final, 1)
        if reliable or opens:
            self.put(0, 1)
            self.packed(name)
        self.serialized(bits if claim is None else claim, 16384)
        self.put(data, bits)
        return self

    def bytes(self):
        whole = self.value | 1 << self.size
        return whole.to_bytes(self.size // 8 + 1, "little")


def packet(*bunches):
    p = Packet()
    for channel, flags, *rest in bunches:
        p.bunch(channel, flags, **(rest[0] if rest else {}))
    return p.bytes()


def log(records, version=1):
    return bytes([version]) + b"".join(struct.pack(">Hi", len(p), i) + p for i, p in records)


def any_packet(r, channels):
    p = Packet()
    for _ in range(r.choice((0, 1, 1, 2, 5))):
        flags = "R" if r.random() < 0.5 else "-"
        flags += r.choice(("---", "---", "P--", "PI-", "P-F", "PIF"))
        bits = r.choice((0, 8, 13, 64, 200))
        p.bunch(r.choice(channels), flags, bits, r.random() < 0.1, r.choice((None,) * 8 + (0, 1, 7, 14)),
                data=r.getrandbits(200), name=r.choice((0, 5, 300)))
    whole = p.bytes()
    if r.random() < 0.05:
        whole = whole[:r.randrange(len(whole) + 1)]
    if r.random() < 0.03:
        whole = r.randbytes(r.randrange(40))
    return whole


def any_log(r, packets, channels):
    return log([(r.choice((i, -i, 2**31 - 1, -2**31)), any_packet(r, channels)) for i in range(packets)])


# The longest packet there can be, with as many bunches as it can have or with the longest payloads.
def longest(bits):
    p = Packet()
    while p.size + 29 + bits < 65535 * 8:
        p.bunch(9, bits=bits)
    left = 65535 * 8 - 1 - p.size
    if left >= 29:
        p.bunch(9, bits=left - 29)
    return p.bytes()


# Every letter with every flag that it can stand beside; the limit's stand in `limit`.
def combinations():
    new = iter(range(10, 100))
    packets = []
    for r in "R-":
        packets.append(packet((next(new), r + "---")))
        c = next(new)
        packets.append(packet((c, r + "PI-"), (c, r + "P--"), (c, r + "P-F")))
        packets.append(packet((next(new), r + "PIF")))
        packets.append(packet((next(new), r + "P--"), (next(new), r + "P-F")))
        c = next(new)
        packets.append(packet((c, r + "PI-"), (c, r + "PI-"), (c, r + "PIF")))
    return log(list(enumerate(packets)))


# 4,096 channels, and then new ones.
def limit():
    records = []
    for first in range(0, 4096, 64):
        records.append((first, packet(*((c, "RPI-") for c in range(first, first + 64)))))
    flags = ("R---", "RPI-", "RP--", "RP-F", "RPIF")
    records.append((5000, packet(*((5000 + k, f) for k, f in enumerate(flags)))))
    records.append((5001, packet((5010, "-PI-"), (5011, "----"), (7, "R---"))))
    records.append((5002, Packet().bunch(5012, "R---", claim=100).bytes()))
    records.append((5003, packet((10, "R---", {"close": 0}), (5013, "R---"), (5014, "R---"))))
    return log(records)


EXAMPLE = bytes.fromhex("01 0005 00000007 300004A034 0006 00000008 04A001000001")


# A match: two channels open, a message in three fragments, one that loses its end, a damaged packet, a close.
def match():
    return [
        (1000, packet((0, "R---", {"bits": 96, "opens": True}), (3, "R---", {"bits": 160, "opens": True}))),
        (1001, packet((3, "RPI-", {"bits": 800}))),
        (1002, packet((3, "RP--", {"bits": 800}), (5, "----", {"bits": 21}))),
        (1003, packet((3, "RP-F", {"bits": 344}))),
        (1004, packet((5, "-PI-", {"bits": 64}))),
        (1005, packet((5, "----", {"bits": 12}))[:3]),
        (1006, packet((5, "-P-F", {"bits": 64}), (0, "R---", {"bits": 8}))),
        (1007, packet((3, "R---", {"bits": 0, "close": 0}))),
        (1008, packet((3, "R---", {"bits": 40, "opens": True}))),
    ]


def text(words, **rest):
    return {"bits": 8 * len(words), "data": int.from_bytes(words, "little"), **rest}


# A reliable message in five fragments of equally many bits: whether two of them are exchanged, their ids alone say.
def fragments(order):
    flags = ("RPI-", "RP--", "RP--", "RP--", "RP-F")
    words = (b"alpha,", b"bravo,", b"gamma,", b"delta,", b"omega.")
    sent = [(2001 + k, packet((3, flags[k], text(words[k])))) for k in range(5)]
    return log([sent[k] for k in order])


# Two reliable messages of two fragments each, without the packets of the first one's final and the second one's initial: what is
# left is one message.
def two_halves():
    return log([(3001, packet((3, "RPI-", text(b"half of one, ")))), (3004, packet((3, "RP-F", text(b"half of another"))))])


# An unreliable message, one of its packets twice: a sequence may also be equal to the one before.
def equal_ids():
    middle = (8, packet((3, "-P--", text(b"two,"))))
    return log([(7, packet((3, "-PI-", text(b"one,")))), middle, middle, (9, packet((3, "-P-F", text(b"three"))))])


# A channel's first life ends before its message does. The second has a final with just the sequence that the first one's initial
# waits for; its own initial isn't there. `second` are the bunches of the second life before that final.
def two_lives(*second):
    first = [("R---", {"opens": True}), ("RPI-", text(b"FIRST:")), ("R---", {"close": 0})]
    bunches = [*first, *second, ("RP-F", text(b"OTHER"))]
    return log([(number, packet((3, *bunch))) for number, bunch in enumerate(bunches, 1)])


# An unreliable initial; in the next packet a reliable bunch that opens the channel, and an unreliable final.
def opened_over():
    opens = ((3, "R---", {"opens": True}), (3, "-P-F", text(b"OTHER")))
    return log([(1, packet((3, "-PI-", text(b"FIRST:")))), (2, packet(*opens))])


# Fragments that open or close their channel themselves. A final that closes ends its message (3); an initial that closes has none
# (4), nor has a final that opens (5). A dormant close ends nothing (6).
def opening_and_closing():
    return log([
        (1, packet((3, "RPI-", text(b"whole ", opens=True)), (5, "RPI-", text(b"FIRST:")), (6, "-PI-", text(b"still ")))),
        (2, packet((3, "RP-F", text(b"at once", close=0)), (4, "RPI-", text(b"FIRST:", opens=True, close=0)),
                   (5, "RP-F", text(b"OTHER", opens=True)), (6, "R---", {"close": 1}), (6, "-P-F", text(b"here")))),
        (3, packet((4, "R---"), (4, "RP-F", text(b"OTHER")))),
    ])


def samples():
    r = random.Random(7)
    return {
        "match": log(match()),
        "match_without_1002": log([record for record in match() if record[0] != 1002]),
        "match_1002_twice": log([record for record in match() for _ in range(1 + (record[0] == 1002))]),
        "fragments_in_order": fragments((0, 1, 2, 3, 4)),
        "fragments_exchanged": fragments((0, 2, 1, 3, 4)),
        "two_halves": two_halves(),
        "equal_ids": equal_ids(),
        "reopened": two_lives(("R---", {"opens": True}), ("R---", text(b"plain"))),
        "reopened_unseen": two_lives(("R---",), ("R---", text(b"plain"))),
        "opened_over": opened_over(),
        "opening_and_closing": opening_and_closing(),
        # Its initial is refused for its bits, which the packet reader's tracking doesn't look at: to that, the whole message is an error.
        "off_the_byte": log([(1, packet((3, "RPI-", {"bits": 5}))), (2, packet((3, "RPIF", text(b"whole"))))]),
        "example": EXAMPLE,
        "empty": b"",
        "version_alone": b"\x01",
        "version_0": b"\x00",
        "version_255": b"\xff" + EXAMPLE[1:],
        "cut_in_the_length": EXAMPLE + b"\x00",
        "cut_in_the_id": EXAMPLE + b"\x00\x03\x00\x00\x00",
        "cut_before_the_packet": EXAMPLE + b"\x00\x01\x00\x00\x00\x09",
        "cut_in_the_packet": EXAMPLE[:-1],
        "negative_ids": log([(-1, packet((3, "-PI-"))), (-2**31, packet((3, "-PIF"))), (2**31 - 1, packet((4, "-PIF")))]),
        "empty_packets": log([(7, b""), (-1, b""), (-2**31, b""), (2**31 - 1, b"")]),
        "end_marks_alone": log([(1, b"\x01"), (2, b"\x00"), (3, b"\x80"), (4, b"\x00\x01")]),
        "malformed_between": log([(1, packet((4, "R---", {"bits": 8}))), (2, packet((4, "R---"))[:4]), (3, packet((4, "R---")))]),
        "overrun": log([(1, packet((4, "R---", {"claim": 100}))), (2, packet((4, "R---", {"bits": 8})))]),
        "combinations": combinations(),
        "limit": limit(),
        "any": any_log(r, 200, [0, 1, 2, 3, 127, 128, 16384, 2**32 - 1]),
    }


def large(size, path):
    r = random.Random(11)
    parts = [any_log(r, 400, [3, 7, 12, 500, 70000])[1:] for _ in range(20)]
    with open(path, "wb") as f:
        written = f.write(b"\x01")
        while written < size:
            written += f.write(r.choice(parts))


if __name__ == "__main__":
    if len(sys.argv) == 4 and sys.argv[1] == "--large":
        large(int(sys.argv[2]), sys.argv[3])
    elif len(sys.argv) == 2:
        for name, data in samples().items():
            with open(os.path.join(sys.argv[1], name + ".log"), "wb") as f:
                f.write(data)
    else:
        sys.exit(__doc__)
