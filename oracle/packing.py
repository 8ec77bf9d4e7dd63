#!/usr/bin/env python3
"""Writes what the program test_packing must print: every pitch record packed for the recorder and read back,
and what every byte and every pair of bytes is read as.

An independent packer, written from the recorder's rules with strings of binary digits: one for presence; if
present, one for active and nine for the index; then zeros to the end of the byte. Use: packing.py >OUTPUT
"""
from itertools import product

ABSENT = None
FILL = 0xA5


def form(pitch):
    """The digits of a record, in groups of eight, as bytes."""
    if pitch is ABSENT:
        digits = "0"
    else:
        index, active = pitch
        digits = "1" + str(active) + format(index, "09b")
    while len(digits) % 8:
        digits += "0"
    return bytes(int(digits[at:at + 8], 2) for at in range(0, len(digits), 8))


def write(pitch, room):
    """Answer, bytes written, and the room after it."""
    if pitch is not ABSENT and pitch[0] > 511:
        return 7, 0, room
    packed = form(pitch)
    if len(room) < len(packed):
        return 15, 0, room
    return 0, len(packed), packed + room[len(packed):]


def read(data):
    """Answer, pitch, and bytes used."""
    digits = "".join(format(byte, "08b") for byte in data)
    if not digits:
        return 15, ABSENT, 0
    taken = 11 if digits[0] == "1" else 1
    if len(digits) < taken:
        return 15, ABSENT, 0
    end = -(-taken // 8)
    if "1" in digits[taken:8 * end]:
        return 12, ABSENT, 0
    if digits[0] == "0":
        return 0, ABSENT, end
    return 0, (int(digits[2:11], 2), int(digits[1])), end


def cells(pitch):
    return ("-", "-") if pitch is ABSENT else pitch


def reading(data):
    answer, pitch, used = read(data)
    return (answer, *cells(pitch), used)


def list_writing(pitch, room):
    answer, written, after = write(pitch, bytes([FILL] * room))
    print(*cells(pitch), room, answer, written, after.hex() or "-", *reading(after), sep="\t")


def list_readings(width):
    refused = 0
    for data in map(bytes, product(range(256), repeat=width)):
        if read(data) == (12, ABSENT, 0):
            refused += 1
        else:
            print(data.hex() or "-", *reading(data), sep="\t")
    print(width, 12, refused, sep="\t")


def main():
    print("index\tactive\troom\tanswer\twritten\tbytes\tanswer\tindex\tactive\tused")
    for index in range(512):
        for active in (0, 1):
            list_writing((index, active), 3)
    list_writing(ABSENT, 3)
    for room in range(3):
        for pitch in ((0, 0), (511, 1), (512, 0), (4294967295, 1), ABSENT):
            list_writing(pitch, room)
    print("bytes\tanswer\tindex\tactive\tused")
    for width in range(3):
        list_readings(width)


main()
