/*
 * The lag of every index at every rate, held against the scope's rule, and what is refused: unknown rates with 1,
 * indices above 511 with 7, and both with 1. Prints how many calls got each answer; lags.expected counts them by hand:
 * 6 * 512 done, 4 * 514 refused with 1, and 6 * 2 with 7.
 */
#include "rules.h"

static unsigned answered[16];

static void try_lag(uint32_t rate, uint32_t index, uint32_t expected, nabiteke_lag ruled)
{
    nabiteke_lag lag = {99, 99, 99};
    demand(nabiteke_lag_of(rate, index, &lag) == expected, "the answer of a lookup");
    demand(lag.whole == ruled.whole && lag.quarter == ruled.quarter && lag.rounding == ruled.rounding,
           "the lag of an index");
    answered[expected]++;
}

int main(void)
{
    static const uint32_t unknown[] = {0, 22050, 48001, 4294967295u}, too_large[] = {512, 4294967295u};
    static const nabiteke_lag none = {0, 0, 0};
    uint32_t index;
    size_t i, n;
    for (i = 0; i < RATES; i++) {
        for (index = 0; index < 512; index++)
            try_lag(rates[i], index, NABITEKE_DONE, ruled_lag((int)i, index));
        for (n = 0; n < 2; n++)
            try_lag(rates[i], too_large[n], NABITEKE_PITCH_INDEX, none);
    }
    for (i = 0; i < sizeof unknown / sizeof *unknown; i++) {
        for (index = 0; index < 512; index++)
            try_lag(unknown[i], index, NABITEKE_RATE, none);
        for (n = 0; n < 2; n++)
            try_lag(unknown[i], too_large[n], NABITEKE_RATE, none);
    }
    printf("answer 0: %u, answer 1: %u, answer 7: %u, all as they must be\n", answered[NABITEKE_DONE],
           answered[NABITEKE_RATE], answered[NABITEKE_PITCH_INDEX]);
    return 0;
}
