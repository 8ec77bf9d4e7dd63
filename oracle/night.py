#!/usr/bin/env python3
"""Makes up the recording of a night, for the replay.

Some 20,000 lines: speech, pauses and lost frames, with refused, wrongly numbered and malformed
lines between them. A malformed line that has a frame number has the due one, so that a program
that takes it loses step. The frames end at 999999999 and some lines follow, the last without a
newline. With FIRST the frames start there instead. Use: night.py [SEED [FIRST]] >OUTPUT
"""
import random
import sys

FRAMES = 17500
LIMIT = 999999999
TYPICAL_BITS = (320, 500, 630, 650, 700, 730, 790, 810, 870, 890, 1200)
EDGE_BITS = (0, 1, 639, 640, 719, 720, 799, 800, 879, 880, 3199, 3200)
EDGE_INDICES = (0, 1, 2, 3, 378, 379, 380, 381, 438, 439, 440, 441, 510, 511)
TOO_MANY_BITS = (3201, 3202, 4096, 65536 + 640, 999999999)
TOO_HIGH_INDICES = (512, 513, 892, 65536 + 380, 999999999)


class Dice:
    """Only random() is used: its numbers stay the same from one Python to the next."""

    def __init__(self, seed):
        self.random = random.Random(seed).random

    def chance(self, one_in):
        return self.below(one_in) == 0

    def below(self, end):
        return int(self.random() * end)

    def between(self, low, high):
        return low + self.below(high - low + 1)

    def pick(self, choices):
        return choices[self.below(len(choices))]


def number(dice, value):
    """The value in digits, now and then with zeros before it, up to nine digits in all."""
    width = dice.pick((1,) * 10 + (dice.between(2, 8), 9))
    return b"%0*d" % (width, value)


def fields(dice, index, active, nbits):
    """What follows the frame number; no index gives a dash."""
    pitch = b"-" if index is None else number(dice, index)
    return b"%s\t%d\t%s" % (pitch, active, number(dice, nbits))


def some_bits(dice, usual):
    if dice.chance(8):
        return dice.pick(EDGE_BITS)
    if dice.chance(8):
        return dice.below(3201)
    return usual


def some_index(dice):
    return dice.pick(EDGE_INDICES) if dice.chance(4) else dice.below(512)


def moved(dice, index):
    """Another index, often near. 2 and 3, 18 and 19 and so on have one whole lag, two quarters."""
    if index < 380 and dice.chance(3):
        pair = index // 16 * 16 + 2
        return pair + 1 if index == pair else pair
    if dice.chance(3):
        return some_index(dice)
    return min(max(index + dice.pick((-4, -2, -1, 1, 2, 4)), 0), 511)


def voiced(dice):
    index = some_index(dice)
    usual = dice.pick(TYPICAL_BITS)
    for _ in range(dice.between(1, 30)):
        if dice.chance(3):
            index = moved(dice, index)
        yield fields(dice, index, 1, some_bits(dice, usual))


def unvoiced(dice):
    usual = dice.pick(TYPICAL_BITS)
    for _ in range(dice.between(1, 6)):
        index = None if dice.chance(2) else some_index(dice)
        yield fields(dice, index, 0, some_bits(dice, usual))


def gap(dice):
    for _ in range(dice.between(1, 4)):
        yield b"lost"


def refused(dice):
    """Too many bits, too high an index or both; in all else a frame like any other."""
    kind = dice.below(3)
    nbits = some_bits(dice, 640) if kind == 1 else dice.pick(TOO_MANY_BITS)
    index = some_index(dice) if kind == 0 else dice.pick(TOO_HIGH_INDICES)
    if kind == 0 and dice.chance(4):
        return fields(dice, None, 0, nbits)
    return fields(dice, index, dice.below(2), nbits)


def bodies(dice):
    """What follows the frame numbers, without end: stretches of speech, pauses and gaps."""
    yield dice.pick((refused(dice), b"lost"))
    while True:
        for body in dice.pick((voiced, unvoiced, unvoiced, gap))(dice):
            while dice.chance(15):
                yield refused(dice)
            if dice.chance(40):
                yield b"lost"
            yield body


def good_body(dice):
    present = fields(dice, some_index(dice), dice.below(2), 640)
    return dice.pick((b"lost", b"-\t0\t640", present, refused(dice)))


def wrong(dice, due):
    """A well-formed line with another number than the due one."""
    others = (due - 1, due - 1, due + 1, due - 2, due + 10, due % 256, 0, LIMIT)
    allowed = [other for other in others if 0 <= other <= LIMIT and other != due]
    return b"%d\t%s" % (dice.pick(allowed), good_body(dice))


def spoiled(dice, due):
    """A good line with one foreign byte put in, or put in place of another."""
    foreign = [byte for byte in range(256) if byte not in b"\n-0123456789"]
    line = b"%d\t%s" % (due, good_body(dice))
    place = dice.between(0, len(line))
    byte = bytes([dice.pick(foreign)])
    rest = line[place:] if line[place:place + 1] == byte else line[place + dice.below(2):]
    return line[:place] + byte + rest


def misshapen(dice, due):
    """One malformed line out of all the kinds that we could think of."""
    due = b"%d" % due
    good = due + b"\t380\t1\t640"
    longest = due.zfill(9) + b"\t000000380\t1\t000000640"
    return dice.pick((
        b"", b" ", b"\t", b"\t\t", b"\t\t\t", b"\t\t\t\t", b"    ", b"\r", b"\0", b"-", b"lost",
        # fields too few, too many, empty
        due, due + b"\t", due + b"\t380", due + b"\t380\t1", due + b"\t380\t1\t", due + b"\t-\t0",
        due + b"\t\t1\t640", due + b"\t\t0\t640", due + b"\t380\t\t640", b"\t380\t1\t640",
        due + b"\t\t\t", due + b"\t380\t640", due + b"\t-\t640", b"380\t1\t640",
        good + b"\t", good + b"\t0", b"\t" + good, due + b"\t\t380\t1\t640",
        due + b"\t380\t1\t\t640", good + b"\tlost",
        # blanks, line ends of other systems, other white space
        good + b"\r", good + b" ", b" " + good, due + b" 380 1 640", due + b"\t 380\t1\t640",
        due + b"\t380 \t1\t640", due + b"\t380\t 1\t640", good + b"\v", good + b"\f", good + b"\0",
        b"\0" + good, due + b"\v380\v1\v640", due + b"\f380\f1\f640", good + b"\x85",
        good + b"\xa0", b"\xef\xbb\xbf" + good, good + b"\xff", b"\xff" + good,
        # numbers
        b"+" + good, b"-" + good, due + b"\t+380\t1\t640", due + b"\t-380\t1\t640",
        due + b"\t380\t1\t-640", due + b"\t380\t1\t+640", due + b"\t380\t1\t-", b"-\t380\t1\t640",
        due + b"\t380.0\t1\t640", due + b"\t0x17\t1\t640", due + b"\t380\t1\t6_40",
        due + b"\t/80\t1\t640", due + b"\t:80\t1\t640", due + b"\t38/\t1\t640",
        due + b"\t38:\t1\t640", due + b"\t380\t1\t/40", due + b"\t380\t1\t64:",
        due + b"\t380\t/\t640", due.zfill(10) + b"\t380\t1\t640", due + b"\t0000000380\t1\t640",
        due + b"\t380\t1\t0000000640", due + b"\t4294967676\t1\t640", due + b"\t380\t1\t4294967936",
        due + b"\t" + b"0" * 253 + b"380\t1\t640", due + b"\t\xd9\xa3\t1\t640",
        # pitch and active
        due + b"\t-\t1\t640", due + b"\t--\t0\t640", due + b"\t-0\t0\t640", due + b"\t0-\t0\t640",
        due + b"\t- \t0\t640", due + b"\t-\t00\t640", due + b"\t-\t-\t640", due + b"\t-\t2\t640",
        due + b"\t380\t2\t640", due + b"\t380\t00\t640", due + b"\t380\t01\t640",
        due + b"\t380\t10\t640", due + b"\t380\t11\t640", due + b"\t380\t-\t640",
        due + b"\t380\ta\t640", due + b"\t\xe2\x88\x92\t0\t640",
        # lost
        due + b"lost", due + b" lost", b"\tlost", b"-\tlost", due + b"\tlost ", due + b"\tlost\t",
        due + b"\tlost\r", due + b"\tlost\0", due + b"\t lost", due + b"\t\tlost", due + b"\tLost",
        due + b"\tLOST", due + b"\tlosT", due + b"\tlos", due + b"\tl", due + b"\tlosst",
        due + b"\tlostlost", due + b"\tlost\t0\t640", due + b"\tlost\t0", due + b"\tlost0",
        due + b"\tlast", due.zfill(10) + b"\tlost", due + b"\tlost\tlost", b"lost\t" + due,
        # 32 bytes and more round the longest good line, and long ones that are good in part
        longest + b"0", b"0" + longest, longest + b"\t", longest + b"00", b"00" + longest,
        longest + b"\r", longest + longest, b"x" * 31 + good, b"x" * 32 + good, b"x" * 33 + good,
        b"x" * 64 + good, b"x" * 256 + good, b"0" * 31 + good, b"0" * 32 + good, b"\t" * 32 + good,
        longest + b"x" * 225, longest + b"x" * 3000, good + b" " * 4000, b"0" * 4096 + good,
        b"\t" * 2500, b"7" * 5000, due + b"\tlost" + b"t" * 2000,
    ))


def malformed(dice, due):
    return spoiled(dice, due) if dice.chance(4) else misshapen(dice, due)


def frames(dice, first, end):
    """The frames from first to before end, each after what disturbs it."""
    yield malformed(dice, first)
    yield malformed(dice, first)
    for due, body in zip(range(first, end), bodies(dice)):
        while dice.chance(12):
            yield malformed(dice, due)
        while due != first and dice.chance(20):
            yield wrong(dice, due)
        yield number(dice, due) + b"\t" + body


def after(dice, due):
    """The lines after the last frame: no good line among them has the due number."""
    yield b"%d\tlost" % LIMIT
    yield b"0\t380\t1\t640"
    yield b"1\tlost"
    yield b"1000000000\tlost"
    yield b"1000000000\t380\t1\t640"
    yield b"x" * 65536 + b"%d\t380\t1\t640" % (due - 1)
    for place in range(45):
        yield malformed(dice, due - 1) if place % 3 == 1 else wrong(dice, due)


def main():
    given = [int(word) for word in sys.argv[1:]]
    seed, first = given + [1, LIMIT - FRAMES + 1][len(given):]
    dice = Dice(seed)
    end = first + FRAMES
    lines = [*frames(dice, first, end), *after(dice, end)]
    sys.stdout.buffer.write(b"\n".join(lines))


main()
