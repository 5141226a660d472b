#!/usr/bin/env python3
"""script.py BOATS ROUNDS FRAMES PIECE MESSAGE CELLS [OPTION..]: a script for `drive` on standard output, its calls on standard error.

BOATS boats check in, then answer each poll with a report and 0 to FRAMES - 1 pieces of PIECE bytes of messages of MESSAGE bytes; the host frees
each message as it lands.

fixed     just FRAMES - 1 pieces in each answer
posts     at each third poll a message of 40 bytes is posted to the boat, which hears it and reports it
leaves    at each third poll the boat signs off when it has answered, and is admitted anew
words     as many words that ask nothing of the station: each command with an argument is a clock that is malformed, each other a time
"""
import random
import struct
import sys

boats, rounds, most, piece, message, cells = map(int, sys.argv[1:7])
fixed, posts, leaves, still = (option in sys.argv[7:] for option in ("fixed", "posts", "leaves", "words"))
chance = random.Random(5)
words = []
calls = dict(next=0, sent=0, receive=0, frames=0, free=0, post=0, leave=0, admit=0)
CHARS = " 0123456789ABCDEFGHIJKLMNOPQRSTUVWXYZ/"


def pack(call):
    value = 0
    for c in call.ljust(7):
        value = value * 38 + CHARS.index(c)
    return list(value.to_bytes(5, "little"))


def frame(flags, field, payload):
    out = [10 << 28 | flags << 8 | len(payload), 11 << 28 | field]
    padded = list(payload) + [0] * (-len(payload) % 3)
    for i in range(0, len(padded), 3):
        out.append(12 << 28 | padded[i] << 16 | padded[i + 1] << 8 | padded[i + 2])
    return out


def command(code, name=None, rest=0):
    if still and code in (0, 1, 6, 14):
        words.append(14 << 28)
    else:
        words.append(7 << 28 | rest << 4 | (9 if still and code in (2, 3, 13) else code))
    if name:
        calls[name] += 1


def clock(seconds):
    command(9)
    words.extend(frame(0, 0, struct.pack("<d", seconds)))


def receive(code, high, frames):
    command(2, "receive")
    words.append(8 << 28 | code << 21 | high << 17)
    calls["frames"] += len(frames)
    for f in frames:
        words.extend(f)


def decide():
    """A next decision that sends, and the end of that sending."""
    command(0, "next")
    command(1, "sent")


def settings():
    seconds = struct.pack("<7d", 0.3, 8, 1, 1, 1e6, 1e6, 15) + struct.pack("<4d", 1, 1.5, 2, 2.5)
    levels = struct.pack("<17f", *[-20 + 2 * l for l in range(17)]) + struct.pack("<2f", 1, -8)
    return seconds + levels + struct.pack("<I", 2) + bytes([0, 4]) + bytes(pack("0")) + b"PORT  " + bytes([cells])


class Boat:
    def __init__(self, slot):
        self.slot, self.call, self.posted = slot, pack("B%d" % slot), 0
        self.number, self.offset, self.cell = 0, 0, None

    def checks_in(self):
        return frame(0xBF, 0, [2] + self.call + [30, 12, 2, 1])

    def reports(self):
        heard = sum([[(self.slot + d) % boats, 28 + d] for d in (1, 2, 3)], [])
        return frame(128 | self.slot, 0, [3, self.slot, 30] + [0] * 6 + list(self.posted.to_bytes(3, "little")) + heard)

    def sends(self, free):
        """The next piece of its message and the cell where that lands, or None where no cell is free."""
        if self.offset == 0:
            if not free:
                return None
            self.cell = min(free)
            free.discard(self.cell)
        at = range(self.offset, min(self.offset + piece, 2 + message))
        payload = [message & 255 if b == 0 else message >> 8 if b == 1 else (b * 7 + self.slot) & 255 for b in at]
        made = frame(self.slot, (self.number & 255) << 16 | self.offset, payload)
        self.offset += len(payload)
        if self.offset < 2 + message:
            return made, None
        self.offset, self.number = 0, self.number + 1
        return made, self.cell


def turn(boat, high, third, now, free):
    clock(now)
    if posts and third:
        command(13, "post")
        words.extend(frame(boat.slot, 0, [boat.slot] * 40))
        boat.posted += 42
        decide()
    decide()
    clock(now + 1)
    frames, landed = [boat.reports()], []
    for _ in range((most if fixed else chance.randint(1, most)) - 1):
        sent = boat.sends(free)
        if sent is None:
            break
        frames.append(sent[0])
        landed += [] if sent[1] is None else [sent[1]]
    receive(3, high, frames)
    command(1, "sent")
    for c in landed:
        command(6, "free", c)
        free.add(c)
    if leaves and third:
        if boat.offset:
            free.add(boat.cell)
        command(14, "leave", boat.slot)
        command(3, "admit")
        words.extend(frame(63, 0, boat.call))
        boat.__init__(boat.slot)
        decide()


command(8)
words.extend(frame(0, 0, settings()))
command(10)
words.extend(frame(0, 0, struct.pack("<f", 7.5)))
clock(0.0)
decide()
net = [Boat(i) for i in range(boats)]
for boat in net:
    clock(0.5 * (boat.slot + 1))
    receive(0, 8, [boat.checks_in()])
clock(100.0)
decide()
free = set(range(cells))
for n in range(rounds):
    for boat in net:
        turn(boat, n & 3, (n * boats + boat.slot) % 3 == 0, 102.0 + 3.0 * (n * boats + boat.slot), free)
print(" ".join("%s %d" % c for c in calls.items() if c[1]), file=sys.stderr)
sys.stdout.buffer.write(b"".join(w.to_bytes(4, "big") for w in words))
