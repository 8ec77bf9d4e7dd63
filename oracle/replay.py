#!/usr/bin/env python3
"""Writes the listing that the recording of a night must give.

An independent reading of the rules for the tests' expected files: the lag goes by the floating-point
formula of the Rust decoder (compute_filter_parameters) at 48000 Hz, not by our whole numbers, and
no samples are filtered; the rounding is eight times the lag in quarters, less 5·6·q.
Use: replay.py <INPUT >OUTPUT
"""
import re
import sys

NUMBER = rb"([0-9]{1,9})"
LINE = re.compile(NUMBER + rb"\t(?:(lost)|(?:-\t0|" + NUMBER + rb"\t([01]))\t" + NUMBER + rb")")
DASHES = "-\t-\t-\t-\t-\t-\t"


def lag(index):
    if index >= 440:
        whole, fraction = index - 283, 0.0
    elif index >= 380:
        whole = index // 2 - 63
        fraction = float(2 * index - 4 * whole - 252)
    else:
        whole = index // 4 + 32
        fraction = float(index + 128 - 4 * whole)
    scaled = (whole + fraction / 4.0) * (48000.0 / 12800.0)
    up = int(scaled * 4.0 + 0.5)
    return up // 4, up % 4, 8 * up - 30 * (4 * whole + int(fraction))


def gain_row(nbits):
    for row, limit in enumerate((640, 720, 800, 880)):
        if nbits < limit:
            return row
    return "-"


class Decoder:
    """What a 10 ms decoder remembers beside its samples."""

    def __init__(self):
        self.lag = None  # of the last accepted frame, None where it was inactive
        self.run = 0
        self.settled = 0

    def lose(self):
        self.run = 0
        self.settled = 0

    def accept(self, now):
        """Takes a frame by its lag, None where it is inactive, and tells the case."""
        before, self.lag = self.lag, now
        if now is not None:
            self.run = 0
            if before is None:
                return 2
            return 4 if now == before else 5
        self.run = min(self.run + 1, 3)
        if self.run == 3:
            self.settled = 1
        return 1 if before is None else 3


def frame(decoder, index, active, nbits):
    """One frame's columns; index and active are None where the pitch is a dash."""
    if int(nbits) > 3200:
        return DASHES + "6"
    if index is not None and int(index) > 511:
        return DASHES + "7"
    if active != b"1":
        case = decoder.accept(None)
        return f"{case}\t-\t-\t-\t{decoder.settled}\t-\t0"
    whole, quarter, rounding = lag(int(index))
    case = decoder.accept((whole, quarter))
    return f"{case}\t{whole}\t{quarter}\t{gain_row(int(nbits))}\t{decoder.settled}\t{rounding}\t0"


def replay(lines):
    decoder = Decoder()
    last = None
    for line in lines:
        match = LINE.fullmatch(line.removesuffix(b"\n"))
        if not match:
            yield DASHES + "10"
            continue
        number, lost, *fields = match.groups()
        if last is not None and int(number) != last + 1:
            yield DASHES + "11"
            continue
        last = int(number)
        if lost:
            decoder.lose()
            yield DASHES + "0"
        else:
            yield frame(decoder, *fields)


def main():
    print("line\tcase\twhole\tquarter\trow\tsettled\trounding\tanswer")
    for number, columns in enumerate(replay(sys.stdin.buffer), 1):
        print(f"{number}\t{columns}")


main()
