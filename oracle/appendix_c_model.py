#!/usr/bin/env python3
"""Appendix C by the standard's formulas, once in 64-bit floats and once with every operation rounded to 32 bits.

appendix_c_model.py DIR    DIR has coefficients.tsv, appendix_c_encoder.tsv and appendix_c_decoder.tsv

Prints, for each vector, the largest difference from the published values. It shares no code with the project's crates and
compares also what the encoder does not show: t1, t2 and the normalised correlations. Where the pitch is absent, nothing after
it is compared.
"""
import math
import struct
import sys

sys.dont_write_bytecode = True
from appendix_c import read


def single(x):
    return struct.unpack("<f", struct.pack("<f", x))[0]


def tables(path):
    rows = {}
    with open(path) as table:
        next(table)
        for line in table:
            name, row, _, value, _ = line.split("\t")
            rows.setdefault(name, {}).setdefault(int(row), []).append(float(value))
    return rows


class Sums:
    """Sums of products, each operation rounded by `r`."""

    def __init__(self, r):
        self.r = r

    def dot(self, pairs, start=0.0):
        total = start
        for a, b in pairs:
            total = self.r(total + self.r(a * b))
        return total


class Encoder(Sums):
    P = 12

    def __init__(self, r, table, length, delay):
        super().__init__(r)
        self.h, self.hc, self.hi = ([r(v) for v in table[n][0]] for n in ("resampling", "correlation_interpolation", "signal_interpolation"))
        self.length, self.start = length, 276 - delay
        self.x, self.y, self.z = [0.0] * 60, [0.0] * 276, [0.0] * 114
        self.h1 = self.h2 = 0.0
        self.t_prev = 17

    def resampled(self, n):
        first, m = 60 - 240 // self.P + 15 * n // self.P, 15 * n % self.P
        taps = ((self.x[first + j], self.P * j - m - 1) for j in range(240 // self.P + 1))
        return self.r(self.dot((x, self.h[k]) for x, k in taps if 0 <= k < 239) * self.P)

    def high_passed(self, v):
        a1, a2, b0, b1 = (self.r(c) for c in (-1.9652933726226904, 0.9658854605688177, 0.9827947082978771, -1.965589416595754))
        h = self.dot(((-a1, self.h1), (-a2, self.h2)), v)
        out = self.dot(((b0, h), (b1, self.h1), (b0, self.h2)))
        self.h1, self.h2 = h, self.h1
        return out

    def halved(self, m):
        weights = (0.1236796411180537, 0.2353512128364889, 0.2819382920909148, 0.2353512128364889, 0.1236796411180537)
        at = self.start - 3 + 2 * m
        return self.dot(zip((self.r(w) for w in weights), self.y[at : at + 5]))

    def lagged(self, x, at, lag, length):
        return self.dot(zip(x[at : at + length], x[at - lag : at - lag + length]))

    def normalised(self, a, b, c):
        root = self.r(math.sqrt(self.r(b * c)))
        return max(self.r(a / root), 0.0) if root > 0 else 0.0

    def pitch(self):
        half = self.length // 2
        at = {k: self.lagged(self.z, 114, k, half) for k in range(17, 115)}
        weight = {k: self.r(1 - self.r(self.r(0.5 * (k - 17)) / 97)) for k in at}
        t1 = max(at, key=lambda k: (self.r(weight[k] * at[k]), -k))
        t2 = max((k for k in at if abs(k - self.t_prev) <= 4), key=lambda k: (at[k], -k))
        energy = self.lagged(self.z, 114, 0, half)
        n1, n2 = (self.normalised(at[t], energy, self.lagged(self.z, 114 - t, 0, half)) for t in (t1, t2))
        t_curr, normcorr = (t2, n2) if n2 > self.r(self.r(0.85) * n1) else (t1, n1)
        return {"t1": t1, "t2": t2, "normcorr1": n1, "normcorr2": n2, "t_curr": t_curr, "normcorr": normcorr}

    def lag(self, t_curr):
        """Whole samples and quarters. The published lags lie above 32 and below 127, where every fraction is looked at."""
        low, high = max(32, 2 * t_curr - 4), min(228, 2 * t_curr + 4)
        at = {k: self.lagged(self.y, self.start, k, self.length) for k in range(low - 4, high + 5)}
        whole = max(range(low, high + 1), key=lambda k: (at[k], -k))
        taps = {d: self.dot((at[whole + m], self.hc[4 * m - d + 15]) for m in range(-4, 5) if abs(4 * m - d) < 16) for d in range(-3, 4)}
        quarters = 4 * whole + max(taps, key=lambda d: (taps[d], -d))
        return quarters // 4, quarters % 4

    def interpolated(self, at, d):
        return self.dot((self.y[at - k], self.hi[4 * k - d + 7]) for k in range(-2, 3) if abs(4 * k - d) < 8)

    def correlation(self, whole, quarter):
        now = [self.interpolated(self.start + n, 0) for n in range(self.length)]
        past = [self.interpolated(self.start + n - whole, quarter) for n in range(self.length)]
        return self.normalised(self.dot(zip(now, past)), self.dot(zip(now, now)), self.dot(zip(past, past)))

    def frame(self, samples):
        self.x += samples
        self.y += [self.high_passed(self.resampled(n)) for n in range(self.length)]
        self.z += [self.halved(m) for m in range(self.length // 2)]
        got = {"x_tilde_12k8d": self.y[self.start : self.start + self.length + 1], **self.pitch()}
        got["pitch_present"] = int(got["normcorr"] > 0.6)
        if got["pitch_present"]:
            whole, quarter = self.lag(got["t_curr"])
            got["pitch_index"] = 4 * whole + quarter - 128
            got["nc_ltpf"] = self.correlation(whole, quarter)
        self.t_prev = got["t_curr"]
        self.x, self.y, self.z = self.x[-60:], self.y[-276:], self.z[-114:]
        return got


class Decoder(Sums):
    """The cases at 16000 Hz, 10 ms, where 320 bits have the gain 0.4 and the first row."""

    def __init__(self, r, table):
        super().__init__(r)
        self.num, self.den = table["numerator_16000"], table["denominator_16000"]

    def filter(self, active, index):
        up = (10 * (index + 128) + 4) // 8
        gain = self.r(0.4) if active else 0.0
        scale = self.r(self.r(0.85) * gain)
        return [self.r(scale * self.r(c)) for c in self.num[0]], [self.r(gain * self.r(c)) for c in self.den[up % 4]], up // 4

    def filtered(self, f, x, y, at):
        num, den, lag = f
        total = self.dot((num[k], x[at - k]) for k in range(3))
        return self.dot(((-den[k], y[at + 2 - lag - k]) for k in range(5)), total)

    def fade(self, f, x, y, factor):
        for n in range(40):
            y[320 + n] = self.r(x[320 + n] - self.r(self.filtered(f, x, y, 320 + n) * factor(n)))

    def case(self, number, vectors):
        x = [0.0] * 160 + [self.r(v) for v in vectors["x[2x160]"]]
        y = [self.r(v) for v in vectors["prev[2x160]"]] + x[320:]
        old, new = (self.filter(a, int(i)) for a, i in zip(vectors["active[2]"], vectors["pitch_index[2]"]))
        rising = lambda n: self.r(n / 40)
        falling = lambda n: self.r(1 - self.r(n / 40))
        if number in (3, 5):
            self.fade(old, x, y, falling)
        if number in (2, 5):
            self.fade(new, y[:] if number == 5 else x, y, rising)
        if number != 3:
            for at in range(320 if number == 4 else 360, 480):
                y[at] = self.r(x[at] - self.filtered(new, x, y, at))
        return {"c_n[2x3]": old[0] + new[0], "c_d[2x4]": old[1][1:] + new[1][1:], "trans[160]": y[320:]}


def compare(place, results, vectors):
    """One line for each vector: the largest difference in 64 and in 32 bits."""
    for name in results[0]:
        far = []
        for got in results:
            values = got[name] if isinstance(got[name], list) else [got[name]]
            if len(values) != len(vectors[name]):
                raise SystemExit(f"{place} {name}: {len(values)} values, published {len(vectors[name])}")
            far.append(max(abs(a - b) for a, b in zip(values, vectors[name])))
        print(f"{place} {name}\t{far[0]:.2g}\t{far[1]:.2g}")


def main():
    if len(sys.argv) != 2:
        raise SystemExit(__doc__)
    table = tables(f"{sys.argv[1]}/coefficients.tsv")
    encoder, decoder = (read(f"{sys.argv[1]}/appendix_c_{n}.tsv") for n in ("encoder", "decoder"))
    rounding = (float, single)
    print("vector\t64 bits\t32 bits")
    for duration, length, delay in (("10", 128, 24), ("7.5", 96, 44)):
        models = [Encoder(r, table, length, delay) for r in rounding]
        for number in ("0", "1"):
            vectors = encoder[duration, number]
            compare(f"encoder {duration} ms frame {number}", [m.frame(vectors["x_pcm"]) for m in models], vectors)
    for number in (2, 3, 4, 5):
        vectors = decoder[str(number),]
        compare(f"decoder case {number}", [Decoder(r, table).case(number, vectors) for r in rounding], vectors)


if __name__ == "__main__":
    main()
