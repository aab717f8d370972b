#!/usr/bin/env python3
"""ends.py PROGRAM..: a read or a write that a signal interrupts is made again; one that fails ends the listing, where the last line says.

A program that handles no signal is interrupted all the same: on Linux a call on a socket with a time limit gives EINTR where the process
is stopped and goes on (signal(7)). That it does so here is tried first, on a program that makes the call once."""
import errno
import fcntl
import os
import signal
import socket
import struct
import subprocess
import sys
import termios
import time

LOGS = os.path.join(os.path.dirname(os.path.abspath(__file__)), "logs")
PATIENCE = 60
ONCE = "import ctypes; c = ctypes.CDLL(None, use_errno=True); n = c.{}; print(n, ctypes.get_errno(), file=__import__('sys').stderr)"
READS_ONCE = [sys.executable, "-c", ONCE.format("read(0, ctypes.create_string_buffer(9), 9)")]
WRITES_ONCE = [sys.executable, "-c", ONCE.format("write(1, b'x', 1)")]
program = sys.argv[1:]
faults = 0


def held(name, got, wanted):
    global faults
    if got != wanted:
        faults += 1
        print(f"samples/ends.py: {name}: {got!r:.200}, and not {wanted!r:.200}", file=sys.stderr)


def log(name):
    with open(os.path.join(LOGS, f"{name}.log"), "rb") as file:
        return file.read()


def text(name):
    with open(os.path.join(LOGS, f"{name}.txt"), "rb") as file:
        return file.read()


def whole(data):
    """How many bytes of a log are whole records."""
    at = 1
    while at + 6 <= len(data) and at + 6 + int.from_bytes(data[at:at + 2], "big") <= len(data):
        at += 6 + int.from_bytes(data[at:at + 2], "big")
    return at


def until(so):
    end = time.monotonic() + PATIENCE
    while not so():
        if time.monotonic() > end:
            sys.exit(f"samples/ends.py: waited {PATIENCE} s in vain")
        time.sleep(0.01)


def state(child):
    with open(f"/proc/{child.pid}/stat", encoding="utf-8", errors="replace") as file:
        return file.read().rpartition(")")[2].split()[0]


def sleeps(child):
    """Whether it has ended, or waits in a call: seen several times, since it may also wait for the machine."""
    return child.poll() is not None or all(state(child) == "S" and time.sleep(0.02) is None for _ in range(5))


def interrupt(child):
    """Stops a child that waits in a call, and lets it go on until it waits again or ends."""
    child.send_signal(signal.SIGSTOP)
    until(lambda: state(child) == "T")
    child.send_signal(signal.SIGCONT)
    until(lambda: child.poll() is not None or state(child) != "T")
    until(lambda: sleeps(child))


def limited(which):
    """Two ends of a socket; calls on the first have a time limit, of ten minutes."""
    ours, theirs = socket.socketpair()
    ours.setsockopt(socket.SOL_SOCKET, which, struct.pack("ll", 600, 0))
    return ours, theirs


def unread(end):
    return struct.unpack("i", fcntl.ioctl(end, termios.FIONREAD, bytes(4)))[0]


def interrupted_read(command, data, times):
    """What a program writes, and says, whose read is interrupted in the middle of its input."""
    end, other = limited(socket.SO_RCVTIMEO)
    with subprocess.Popen(command, stdin=end, stdout=subprocess.PIPE, stderr=subprocess.PIPE) as child:
        half = len(data) // 2
        other.sendall(data[:half])
        until(lambda: child.poll() is not None or unread(end) == 0 and sleeps(child))
        for _ in range(times):
            if child.poll() is None:
                interrupt(child)
        if child.poll() is None:
            other.sendall(data[half:])
        other.close()
        return child.communicate()


def interrupted_write(command, data, times):
    """Likewise of a write that finds no room: the socket is full of other bytes, which are left out of the answer."""
    end, other = limited(socket.SO_SNDTIMEO)
    full = 0
    try:
        while True:
            full += end.send(bytes(4096), socket.MSG_DONTWAIT)
    except BlockingIOError:
        pass
    with subprocess.Popen(command, stdin=subprocess.PIPE, stdout=end, stderr=subprocess.PIPE) as child:
        end.close()
        child.stdin.write(data)
        child.stdin.close()
        until(lambda: sleeps(child))
        for _ in range(times):
            if child.poll() is None:
                interrupt(child)
        wrote = b"".join(iter(lambda: other.recv(65536), b""))
        return wrote[full:], child.stderr.read()


def interrupted():
    once = f"-1 {errno.EINTR}\n".encode()
    # More than once, since a program that is still starting up isn't in its call.
    if not all(any(tried(command, b"", 1)[1] == once for _ in range(3))
               for tried, command in ((interrupted_read, READS_ONCE), (interrupted_write, WRITES_ONCE))):
        return "NOT TRIED, since signals interrupt nothing here: calls that are interrupted"
    data = log("any")
    right = (text("any"), f"ended {len(data)}\n".encode())
    held("a read that is interrupted", interrupted_read(program, data, 3), right)
    held("a write that is interrupted", interrupted_write(program, data, 3), right)
    return "calls that fail, and calls that are interrupted"


# A read that fails after a part of the log: the pipe is empty, still open, and not to be waited for.
def failing_read():
    data = log("match")
    for size in (0, 1, 100, 300, len(data)):
        read, write = os.pipe()
        os.set_blocking(read, False)
        os.write(write, data[:size])
        with subprocess.Popen(program, stdin=read, stdout=subprocess.PIPE, stderr=subprocess.PIPE) as child:
            got = child.communicate()
        os.close(read)
        os.close(write)
        before = subprocess.run(program, input=data[:whole(data[:size])] if size else b"\1", capture_output=True, check=False).stdout
        held(f"a read that fails at byte {size}", got, (before, f"read-failed {size} {errno.EAGAIN}\n".encode()))


# A write that fails after a part of the listing: the pipe is full and not to be waited for. The log has no end, and a program that goes
# on after the failure reads on.
def failing_write():
    read, write = os.pipe()
    os.set_blocking(write, False)
    source, endless = os.pipe()
    feeder = os.fork()
    if feeder == 0:
        signal.signal(signal.SIGPIPE, signal.SIG_DFL)
        for fd in (read, write, source):
            os.close(fd)
        os.write(endless, b"\1")
        while True:
            os.write(endless, bytes(60000))
    os.close(endless)
    with subprocess.Popen(program, stdin=source, stdout=write, stderr=subprocess.PIPE) as child:
        os.close(source)
        os.close(write)
        try:
            said = child.communicate(timeout=PATIENCE)[1]
        except subprocess.TimeoutExpired:
            child.kill()
            said = b"nothing, and reads on"
    os.waitpid(feeder, 0)
    wrote = b"".join(iter(lambda: os.read(read, 65536), b""))
    os.close(read)
    held("a write that fails", said, f"write-failed {len(wrote)} {errno.EAGAIN}\n".encode())
    held("a write that fails after a part", len(wrote) > 0, True)
    line = b"P 0 0 0 0 0\n"
    held("what is written before a write that fails", wrote, (line * (len(wrote) // len(line) + 1))[:len(wrote)])


# What `gritwheel help list` says of a lost packet.
def lost_packet():
    data = log("match")
    at, kept = 1, data[:1]
    while at < len(data):
        end = at + 6 + int.from_bytes(data[at:at + 2], "big")
        if int.from_bytes(data[at + 2:at + 6], "big") != 1002:
            kept += data[at:end]
        at = end
    listed = subprocess.run(program, input=kept, capture_output=True, check=False).stdout
    held("a lost packet", b"\nB 1003 3 3 RP-F 344 40 K\n" in listed, True)
    held("a lost packet's errors", [line for line in listed.splitlines() if line.split()[0] == b"B" and line.endswith(b"E")],
         [line for line in text("match").splitlines() if line.split()[0] == b"B" and line.endswith(b"E")])


failing_read()
failing_write()
lost_packet()
print(f"samples/ends.py: {interrupted()}, {faults} faults")
sys.exit(1 if faults else 0)
