#!/usr/bin/env python3
"""Writes the listing that a file of rates and pitch indices must give.

An independent reading for the tests' expected files: the lag goes by the floating-point formula of
the Rust decoder (compute_filter_parameters), not by our whole numbers, and the rounding is eight
times that lag in quarters, less 5·R·q. Use: lags.py <INPUT >OUTPUT
"""
import math
import re
import sys

RATES = (8000, 16000, 24000, 32000, 44100, 48000)


def lag(rate, index):
    if index >= 440:
        whole, fraction = index - 283, 0.0
    elif index >= 380:
        whole = index // 2 - 63
        fraction = float(2 * index - 4 * whole - 252)
    else:
        whole = index // 4 + 32
        fraction = float(index + 128 - 4 * whole)
    multiple = math.ceil(rate / 8000.0)
    scaled = (whole + fraction / 4.0) * (8000.0 * multiple / 12800.0)
    up = int(scaled * 4.0 + 0.5)
    return up // 4, up % 4, 8 * up - 5 * multiple * (4 * whole + int(fraction))


def row(line):
    field = rb"(-|[0-9]{1,5})"
    match = re.fullmatch(field + rb"\t" + field, line)
    if not match:
        return "-", "-", "-", 10
    rate = 48000 if match[1] == b"-" else int(match[1])
    if rate not in RATES:
        return "-", "-", "-", 1
    if match[2] == b"-":
        return "-", "-", "-", 0
    if int(match[2]) > 511:
        return "-", "-", "-", 7
    return (*lag(rate, int(match[2])), 0)


def main():
    lines = sys.stdin.buffer.read().split(b"\n")
    if lines[-1] == b"":
        lines.pop()
    print("line\twhole\tquarter\trounding\tanswer")
    for number, line in enumerate(lines, 1):
        print(number, *row(line), sep="\t")


main()
