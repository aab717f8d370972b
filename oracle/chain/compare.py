#!/usr/bin/env python3
"""compare.py EXEC OURS RUST [--seed N] [--logs N]: the messages of many logs by both, byte for byte."""
import os
import subprocess
import sys

sys.path.insert(0, os.path.dirname(os.path.dirname(os.path.abspath(__file__))))
sys.dont_write_bytecode = True
from alike import compare  # noqa: E402
from logs import Packet, any_log, log  # noqa: E402

ALWAYS = 25
CAUSES = ("continuation without initial", "its channel closed", "its channel opened anew", "mismatched continuation",
          "non-byte-aligned non-final fragment", "overlapping initial", "the channel limit", "too many messages held")
KINDS = {"message", "message, joined", "unfinished"} | {f"discarded: {cause}" for cause in CAUSES}
CHANNELS = ([3], [0, 1], [0, 1, 2, 3, 127, 128, 16384, 2**32 - 1], list(range(200)))


class Sender:
    """One channel's chains, a fragment at a time; an unreliable one must send in every packet."""

    def __init__(self, r, channel):
        self.r, self.channel, self.left = r, channel, 0
        self.letter = r.choice("R-")

    def send(self, p):
        r = self.r
        if self.left == 0 and r.random() < 0.2:
            close = r.choice((None,) * 9 + (0, 1))
            p.bunch(self.channel, self.letter + "---", r.randrange(90), data=r.getrandbits(90), close=close)
            return
        initial = self.left == 0
        if initial:
            self.left = r.choice((1, 2, 3, 8))
        self.left -= 1
        bits = r.randrange(900) if self.left == 0 else 8 * r.randrange(100)
        # Now and then off the byte, or begun anew.
        if r.random() < 0.02:
            bits += 3
        if r.random() < 0.02:
            initial = True
        flags = self.letter + "P" + "-I"[initial] + "-F"[self.left == 0]
        p.bunch(self.channel, flags, bits, data=r.getrandbits(bits) if bits else 0)


def chains(r):
    senders = [Sender(r, channel) for channel in r.sample(range(300), r.choice((1, 2, 5, 20)))]
    records = []
    for number in range(r.choice((5, 40, 200))):
        p = Packet()
        order = [s for s in senders if s.letter == "-" or r.random() < 0.5]
        r.shuffle(order)
        for sender in order:
            sender.send(p)
        # Some packets are lost.
        if r.random() > 0.03:
            records.append((number, p.bytes()))
    return log(records)


def one(r, number):
    if number % 3 == 0:
        return any_log(r, r.choice((1, 20, 100)), r.choice(CHANNELS))
    made = bytearray(chains(r))
    for _ in range(r.choice((0, 0, 0, 1, 9))):
        at = r.randrange(len(made))
        made[at] ^= 1 << r.randrange(8)
    return bytes(made)


def told(command, data):
    run = subprocess.run(command, input=data, stdout=subprocess.PIPE, stderr=subprocess.PIPE, check=False)
    return run.returncode, run.stdout, run.stderr


def tell(given, data):
    ours, rust = told([given.exec, given.ours], data), told([given.exec, given.rust], data)
    alike = ours == rust and ours[0] in (0, 1) and ours[1]
    return ours[1].decode(), None if alike else "is told in two ways, or not to its end"


def lines(said):
    for line in said.splitlines():
        if line.startswith("  "):
            first, last = line.split()[1].split("..")
            kind = line.split()[0] + (", joined" if first != last and "message" in line else "")
            yield kind + (":" + line.split(":")[1] if ":" in line else "")


logs, kinds = compare(("exec", "ours", "rust"), 300, ALWAYS, KINDS, one, tell, lines)
print(f"chain: {logs} logs alike; {kinds}")
