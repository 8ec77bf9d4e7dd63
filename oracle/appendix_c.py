#!/usr/bin/env python3
"""The standard's Appendix C, as the vector files that the program test_appendix_c reads (oracle/FORMAT.md).

appendix_c.py DIR > appendix_c.bin           DIR has the published appendix_c_encoder.tsv and appendix_c_decoder.tsv
appendix_c.py DIR --damage > damaged.bin     a frame and a case of it, with one wrong value in each vector
"""
import struct
import sys

ORIGIN = b"""# Appendix C of the LC3 standard (Bluetooth SIG, Low Complexity Communication Codec 1.0), long-term post filter,
# as it stands in the test folder of liblc3 1.1.3 (Google, Apache-2.0). Only numbers were taken over.
# oracle/FORMAT.md has the records that follow.
"""
DAMAGED = b"""# A frame and a case of Appendix C, damaged: each vector has one value that is out of tolerance.
"""
# The bits of a frame, for the same bit rate at both durations. The decoder's cases have 320.
NBITS = {10000: 320, 7500: 240}
MICROSECONDS = {"10": 10000, "7.5": 7500}
# How far a damaged value is moved: twice its tolerance.
DAMAGE = {"x_tilde_12k8d": 4.0, "nc_ltpf": 2e-6, "c_n[2x3]": 4e-8, "c_d[2x4]": 4e-8, "trans[160]": 2e-3}


def read(path):
    """The vectors of a table: those of each frame or case by their names."""
    groups = {}
    with open(path) as table:
        next(table)
        for line in table:
            *group, name, values = line.rstrip("\n").split("\t")
            groups.setdefault(tuple(group), {})[name] = [float(v) for v in values.split()]
    return groups


def floats(values):
    return struct.pack(f"<{len(values)}f", *values)


def whole(vectors, name, count=1):
    values = vectors[name]
    if len(values) != count or any(v != int(v) for v in values):
        raise SystemExit(f"{name}: {count} whole numbers wanted")
    return [int(v) for v in values]


def start(microseconds):
    return b"S" + struct.pack("<II", 16000, microseconds)


def frame(microseconds, vectors):
    samples = whole(vectors, "x_pcm", microseconds * 16 // 1000)
    signal = vectors["x_tilde_12k8d"]
    (present,), (index,), (active,), (t_curr,) = (whole(vectors, n) for n in ("pitch_present", "pitch_index", "ltpf_active", "t_curr"))
    return (
        b"F"
        + struct.pack("<BIH", 0, NBITS[microseconds], len(samples))
        + struct.pack(f"<{len(samples)}h", *samples)
        + struct.pack("<BIBI", present, index, active, t_curr)
        + floats(vectors["nc_ltpf"])
        + struct.pack("<H", len(signal))
        + floats(signal)
    )


def case(number, vectors):
    (nbits,) = whole(vectors, "nbits")
    active, index = whole(vectors, "active[2]", 2), whole(vectors, "pitch_index[2]", 2)
    counts = {"c_n[2x3]": 6, "c_d[2x4]": 8, "x[2x160]": 320, "prev[2x160]": 320, "trans[160]": 160}
    for name, count in counts.items():
        if len(vectors[name]) != count:
            raise SystemExit(f"case {number}: {name} has not {count} values")
    c_n, c_d, x, prev, trans = (vectors[name] for name in counts)
    past = struct.pack("<BI", active[0], index[0]) + floats(c_n[:3] + c_d[:4] + x[:160] + prev)
    given = struct.pack("<IBI", nbits, active[1], index[1]) + floats(x[160:])
    return b"T" + bytes([number]) + past + given + floats(c_n[3:] + c_d[4:] + trans)


def damage(encoder, decoder):
    """A frame without a pitch and the case that switches the filter off: what is right there is known by hand."""
    vectors = encoder["7.5", "0"]
    for name in ("t_curr", "pitch_present", "pitch_index", "ltpf_active"):
        vectors[name][0] += 1
    vectors["x_tilde_12k8d"][0] += DAMAGE["x_tilde_12k8d"]
    vectors["nc_ltpf"][0] += DAMAGE["nc_ltpf"]
    of_case = decoder["3",]
    for name in ("c_n[2x3]", "c_d[2x4]", "trans[160]"):
        of_case[name][-1] += DAMAGE[name]
    # less than the tolerance: not to be reported
    of_case["trans[160]"][-2] += DAMAGE["trans[160]"] / 4
    return DAMAGED + start(7500) + frame(7500, vectors) + case(3, of_case)


def published(encoder, decoder):
    records = [ORIGIN]
    for duration, microseconds in MICROSECONDS.items():
        records.append(start(microseconds))
        records += [frame(microseconds, encoder[duration, number]) for number in ("0", "1")]
    records += [case(number, decoder[str(number),]) for number in (2, 3, 4, 5)]
    return b"".join(records)


def main():
    if len(sys.argv) not in (2, 3) or sys.argv[2:] not in ([], ["--damage"]):
        raise SystemExit(__doc__)
    encoder = read(f"{sys.argv[1]}/appendix_c_encoder.tsv")
    decoder = read(f"{sys.argv[1]}/appendix_c_decoder.tsv")
    vectors = damage(encoder, decoder) if len(sys.argv) == 3 else published(encoder, decoder)
    sys.stdout.buffer.write(vectors + b"E")


if __name__ == "__main__":
    main()
