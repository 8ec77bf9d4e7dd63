/*
 * What the tests of both ears share: pasts that lead to each of the five cases, and samples parted and put in turn.
 */
#ifndef CASES_H
#define CASES_H

#include "nabiteke_published.h"
#include <stdio.h>
#include <stdlib.h>
#include <string.h>

enum { MAX_FRAME = 480, NBITS = 320, CASES = 5, RATES = 6 };

static const uint32_t rates[RATES] = {8000, 16000, 24000, 32000, 44100, 48000};

/* A frame of each case, 1 to 5, and the frame before it. What an absent pitch says beside that is not read. */
static const struct {
    nabiteke_pitch before, now;
} cases[CASES] = {
    {{0, 511, 1}, {0, 999, 7}}, {{1, 300, 0}, {1, 200, 1}}, {{1, 200, 1}, {1, 300, 0}},
    {{1, 200, 1}, {1, 200, 1}}, {{1, 200, 1}, {1, 511, 1}},
};

static inline void demand(int holds, const char *what)
{
    if (!holds) {
        printf("not so: %s\n", what);
        exit(1);
    }
}

/* Noise within +-512, both zeros among it. */
static inline void make_noise(float *samples, size_t count, uint32_t seed)
{
    size_t i;
    for (i = 0; i < count; i++) {
        seed = seed * 1664525u + 1013904223u;
        samples[i] = ((float)(seed >> 16) - 32768.0f) / 64.0f;
    }
    samples[5] = 0.0f;
    samples[7] = -0.0f;
}

/* Every second sample from the first on, and back. They are copied as bytes, so that no NaN is touched. */
static inline void part(float *own, const float *samples, size_t count)
{
    size_t i;
    for (i = 0; i < count; i++)
        memcpy(&own[i], &samples[2 * i], sizeof(float));
}

static inline void put(float *samples, const float *own, size_t count)
{
    size_t i;
    for (i = 0; i < count; i++)
        memcpy(&samples[2 * i], &own[i], sizeof(float));
}

/* A decoder whose next frame can be of a case, counted from 0, after the frame before it and so many older ones. */
static inline void lead_to(nabiteke_decoder *decoder, int which, size_t older, uint32_t rate, uint32_t duration,
                           uint32_t seed)
{
    const nabiteke_rows rows = nabiteke_published_rows(rate);
    const size_t frame = nabiteke_frame_length(rate, duration);
    float samples[MAX_FRAME];
    size_t i;
    demand(nabiteke_decoder_start(decoder, rate, duration) == NABITEKE_DONE, "a start is done");
    for (i = 0; i <= older; i++) {
        make_noise(samples, frame, seed + (uint32_t)i);
        demand(nabiteke_decoder_frame(decoder, &rows, i < older ? cases[i % CASES].now : cases[which].before, NBITS,
                                      samples, frame) == NABITEKE_DONE,
               "an earlier frame is done");
    }
}

#endif
