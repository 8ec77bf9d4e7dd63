/*
 * The scope's rules of lag and gain, written once more, for the tests that compare with them. Rates are counted as in
 * cases.h.
 */
#ifndef RULES_H
#define RULES_H

#include "cases.h"

/* A rate is so many times 8000 Hz, and 44100 Hz as many as 48000. */
static const int times_8000[RATES] = {1, 2, 3, 4, 6, 6};

/* The lag of an index: q quarters at 12.8 kHz, times 5/8 of the rate's multiple, halves upward. */
static inline nabiteke_lag ruled_lag(int which_rate, uint32_t index)
{
    const int i = (int)index;
    const int q = i < 380 ? i + 128 : i < 440 ? 2 * i - 252 : 4 * i - 1132;
    const int exact = 5 * times_8000[which_rate] * q;
    const int quarters = (exact + 4) / 8;
    const nabiteke_lag lag = {(uint32_t)quarters / 4, (uint32_t)quarters % 4, 8 * quarters - exact};
    return lag;
}

/* The row of the gain, or 4 where the gain is off. */
static inline uint32_t ruled_row(int which_rate, uint32_t duration, uint32_t nbits)
{
    const uint32_t t = duration == 7500 ? (4 * nbits + 1) / 3 : nbits;
    const uint32_t b = 80 * (which_rate < 4 ? (uint32_t)which_rate : 4);
    uint32_t row;
    for (row = 0; row < 4 && t >= 320 + b + 80 * row;)
        row++;
    return row;
}

#endif
