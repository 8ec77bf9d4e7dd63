/*
 * What a call does not read: nothing lent before the refusals that do not need it, and nothing beyond an array. What a
 * call has no need of is NULL with a count too large, or lies in a page that cannot be read; what it needs ends where such
 * a page begins, or begins where one ends. A call that read more would end the program. Every rate and duration; one ear,
 * both ears and the encoder. Prints how many calls got each answer; unread.expected counts them by hand, as is said below.
 */
#ifndef _GNU_SOURCE
#define _DEFAULT_SOURCE /* for MAP_ANONYMOUS */
#endif
#include "cases.h"
#include <math.h>
#include <sys/mman.h>

enum { ROOM = 65536, TOO_MANY = 1 << 24 };

/* Places between two pages that cannot be read, and such a page by itself. */
enum { NUMERATORS, DENOMINATORS, SAMPLES, RESAMPLING, CORRELATION, SIGNAL, PLACES };
static char *places[PLACES];
static float *unread;

static char *map_unread(size_t bytes)
{
    void *mapped = mmap(NULL, bytes, PROT_NONE, MAP_PRIVATE | MAP_ANONYMOUS, -1, 0);
    demand(mapped != MAP_FAILED, "pages are there");
    return (char *)mapped;
}

static void map_places(void)
{
    int i;
    unread = (float *)map_unread(ROOM);
    for (i = 0; i < PLACES; i++) {
        places[i] = map_unread(3 * ROOM) + ROOM;
        demand(mprotect(places[i], ROOM, PROT_READ | PROT_WRITE) == 0, "a place can be written");
    }
}

/* An array at the front of its place, or at the end. */
static void *fenced(int place, size_t bytes, int at_end)
{
    return places[place] + (at_end ? ROOM - bytes : 0);
}

static float *fenced_copy(int place, const float *values, size_t count, int at_end)
{
    float *array = (float *)fenced(place, count * sizeof(float), at_end);
    memcpy(array, values, count * sizeof(float));
    return array;
}

static float *fenced_noise(size_t count, int at_end)
{
    float *samples = (float *)fenced(SAMPLES, count * sizeof(float), at_end);
    make_noise(samples, count, 7);
    return samples;
}

/* Rows that are not there, that cannot be read, and whose faults are in the entry that is read last. */
static const nabiteke_rows no_rows = {NULL, TOO_MANY, NULL, TOO_MANY};

static nabiteke_rows unread_rows(uint32_t rate, size_t more)
{
    nabiteke_rows rows = {unread, nabiteke_numerator_count(rate), unread, nabiteke_denominator_count(rate) + more};
    return rows;
}

static nabiteke_rows fenced_rows(uint32_t rate, int at_end, float last)
{
    nabiteke_rows rows = nabiteke_published_rows(rate);
    float *denominators = fenced_copy(DENOMINATORS, rows.denominators, rows.denominator_count, at_end);
    if (last != 0.0f)
        denominators[rows.denominator_count - 1] = last;
    rows.numerators = fenced_copy(NUMERATORS, rows.numerators, rows.numerator_count, at_end);
    rows.denominators = denominators;
    return rows;
}

static const nabiteke_pitch active = {1, 200, 1}, too_large = {1, 512, 0};
static nabiteke_decoder zeros;
static unsigned one_answered[16], both_answered[16], encoder_answered[16];

static void one(nabiteke_decoder *decoder, nabiteke_rows rows, nabiteke_pitch pitch, uint32_t nbits, float *samples,
                size_t count, uint32_t expected)
{
    demand(nabiteke_decoder_frame(decoder, &rows, pitch, nbits, samples, count) == expected, "the answer of one ear");
    one_answered[expected]++;
}

/* Twice 0, 3, 4, 5, 8 and 9; once 6 and 7. */
static void try_one(uint32_t rate, uint32_t duration)
{
    const size_t frame = nabiteke_frame_length(rate, duration);
    nabiteke_decoder decoder = zeros;
    int at_end;
    one(&decoder, no_rows, active, NBITS, NULL, TOO_MANY, NABITEKE_UNFIT);
    one(&decoder, unread_rows(rate, 0), active, NBITS, unread, frame, NABITEKE_UNFIT);
    demand(nabiteke_decoder_start(&decoder, rate, duration) == NABITEKE_DONE, "a start is done");
    one(&decoder, no_rows, active, NBITS, NULL, TOO_MANY, NABITEKE_ROWS);
    one(&decoder, unread_rows(rate, 1), active, NBITS, unread, frame, NABITEKE_ROWS);
    one(&decoder, fenced_rows(rate, 1, 0.0f), active, NBITS, NULL, TOO_MANY, NABITEKE_SAMPLE_COUNT);
    one(&decoder, fenced_rows(rate, 1, 0.0f), active, NBITS, unread, frame - 1, NABITEKE_SAMPLE_COUNT);
    one(&decoder, fenced_rows(rate, 1, 0.0f), active, 3201, unread, frame, NABITEKE_NBITS);
    one(&decoder, fenced_rows(rate, 1, 0.0f), too_large, NBITS, unread, frame, NABITEKE_PITCH_INDEX);
    for (at_end = 0; at_end < 2; at_end++) {
        float *samples = fenced_noise(frame, at_end);
        one(&decoder, fenced_rows(rate, at_end, INFINITY), active, NBITS, unread, frame, NABITEKE_COEFFICIENT);
        one(&decoder, fenced_rows(rate, at_end, 0.0f), active, NBITS, samples, frame, NABITEKE_DONE);
        samples[frame - 1] = NAN;
        one(&decoder, fenced_rows(rate, at_end, 0.0f), active, NBITS, samples, frame, NABITEKE_SAMPLE);
    }
}

static void both(nabiteke_decoder *ears, nabiteke_rows rows, nabiteke_pitch left, nabiteke_pitch right,
                 uint32_t nbits, float *samples, size_t count, uint32_t expected_left, uint32_t expected_right)
{
    const nabiteke_ear_answers answers =
        nabiteke_decoder_frame_both(&ears[0], &ears[1], &rows, left, right, nbits, samples, count);
    demand(answers.left == expected_left && answers.right == expected_right, "the answers of both ears");
    both_answered[expected_left]++;
    both_answered[expected_right]++;
}

/* Counted by ears: twice 13, 6 and 7; 3 times 9; 5 times 3; 4 times 4, 5, 0 and 8. */
static void try_both(uint32_t rate, uint32_t duration)
{
    const size_t frame = nabiteke_frame_length(rate, duration);
    nabiteke_decoder ears[2] = {zeros, zeros};
    int at_end;
    both(ears, no_rows, active, active, NBITS, NULL, TOO_MANY, NABITEKE_UNFIT, NABITEKE_UNFIT);
    demand(nabiteke_decoder_start(&ears[0], rate, duration) == NABITEKE_DONE, "the left ear's start is done");
    both(ears, no_rows, active, active, NBITS, NULL, TOO_MANY, NABITEKE_EARS, NABITEKE_EARS);
    ears[1] = ears[0];
    ears[1].numbers[3]++;
    both(ears, unread_rows(rate, 1), active, active, NBITS, unread, 2 * frame, NABITEKE_ROWS, NABITEKE_UNFIT);
    ears[1] = ears[0];
    both(ears, no_rows, active, active, NBITS, NULL, TOO_MANY, NABITEKE_ROWS, NABITEKE_ROWS);
    both(ears, unread_rows(rate, 1), active, active, NBITS, unread, 2 * frame, NABITEKE_ROWS, NABITEKE_ROWS);
    both(ears, fenced_rows(rate, 1, 0.0f), active, active, NBITS, NULL, TOO_MANY, NABITEKE_SAMPLE_COUNT,
         NABITEKE_SAMPLE_COUNT);
    both(ears, fenced_rows(rate, 1, 0.0f), active, active, NBITS, unread, frame, NABITEKE_SAMPLE_COUNT,
         NABITEKE_SAMPLE_COUNT);
    both(ears, fenced_rows(rate, 1, 0.0f), active, active, 3201, unread, 2 * frame, NABITEKE_NBITS, NABITEKE_NBITS);
    both(ears, fenced_rows(rate, 1, 0.0f), too_large, too_large, NBITS, unread, 2 * frame, NABITEKE_PITCH_INDEX,
         NABITEKE_PITCH_INDEX);
    for (at_end = 0; at_end < 2; at_end++) {
        float *samples = fenced_noise(2 * frame, at_end);
        both(ears, fenced_rows(rate, at_end, INFINITY), active, active, NBITS, unread, 2 * frame,
             NABITEKE_COEFFICIENT, NABITEKE_COEFFICIENT);
        both(ears, fenced_rows(rate, at_end, 0.0f), active, active, NBITS, samples, 2 * frame, NABITEKE_DONE,
             NABITEKE_DONE);
        samples[2 * frame - 2] = NAN;
        samples[2 * frame - 1] = NAN;
        both(ears, fenced_rows(rate, at_end, 0.0f), active, active, NBITS, samples, 2 * frame, NABITEKE_SAMPLE,
             NABITEKE_SAMPLE);
    }
}

/* Sets as the rows above. */
static const nabiteke_sets no_sets = {NULL, TOO_MANY, NULL, TOO_MANY, NULL, TOO_MANY};

static nabiteke_sets unread_sets(size_t more)
{
    nabiteke_sets sets = {unread, 239, unread, 31, unread, 15 + more};
    return sets;
}

static nabiteke_sets fenced_sets(int at_end, float last)
{
    nabiteke_sets sets = nabiteke_published_sets();
    float *signal = fenced_copy(SIGNAL, sets.signal, sets.signal_count, at_end);
    if (last != 0.0f)
        signal[sets.signal_count - 1] = last;
    sets.resampling = fenced_copy(RESAMPLING, sets.resampling, sets.resampling_count, at_end);
    sets.correlation = fenced_copy(CORRELATION, sets.correlation, sets.correlation_count, at_end);
    sets.signal = signal;
    return sets;
}

static void encode(nabiteke_encoder *encoder, nabiteke_sets sets, uint32_t nbits, const int16_t *samples,
                   size_t count, uint32_t expected)
{
    nabiteke_record record;
    demand(nabiteke_encoder_frame(encoder, &sets, nbits, samples, count, 0, &record) == expected,
           "the encoder's answer");
    encoder_answered[expected]++;
}

/* Twice 0, 3, 4, 5 and 9; once 6. */
static void try_encoder(uint32_t rate, uint32_t duration)
{
    const size_t frame = nabiteke_frame_length(rate, duration);
    const int16_t *far = (const int16_t *)(const void *)unread;
    static nabiteke_encoder none;
    nabiteke_encoder encoder = none;
    int at_end;
    encode(&encoder, no_sets, NBITS, NULL, TOO_MANY, NABITEKE_UNFIT);
    encode(&encoder, unread_sets(0), NBITS, far, frame, NABITEKE_UNFIT);
    demand(nabiteke_encoder_start(&encoder, rate, duration) == NABITEKE_DONE, "an encoder's start is done");
    encode(&encoder, no_sets, NBITS, NULL, TOO_MANY, NABITEKE_ROWS);
    encode(&encoder, unread_sets(1), NBITS, far, frame, NABITEKE_ROWS);
    encode(&encoder, fenced_sets(1, 0.0f), NBITS, NULL, TOO_MANY, NABITEKE_SAMPLE_COUNT);
    encode(&encoder, fenced_sets(1, 0.0f), NBITS, far, frame - 1, NABITEKE_SAMPLE_COUNT);
    encode(&encoder, fenced_sets(1, 0.0f), 3201, far, frame, NABITEKE_NBITS);
    for (at_end = 0; at_end < 2; at_end++) {
        int16_t *samples = (int16_t *)fenced(SAMPLES, frame * sizeof(int16_t), at_end);
        size_t i;
        for (i = 0; i < frame; i++)
            samples[i] = (int16_t)(i * 1009 % 20011);
        encode(&encoder, fenced_sets(at_end, INFINITY), NBITS, far, frame, NABITEKE_COEFFICIENT);
        encode(&encoder, fenced_sets(at_end, 0.0f), NBITS, samples, frame, NABITEKE_DONE);
    }
}

static void print(const char *what, const unsigned *answered)
{
    int answer;
    for (answer = 0; answer < 16; answer++)
        if (answered[answer] != 0)
            printf("%s: answer %d, %u times\n", what, answer, answered[answer]);
}

/* Of 12 rates and durations together, so 12 times what is said above. */
int main(void)
{
    int i;
    map_places();
    for (i = 0; i < RATES * 2; i++) {
        const uint32_t rate = rates[i / 2], duration = i % 2 ? 7500 : 10000;
        try_one(rate, duration);
        try_both(rate, duration);
        try_encoder(rate, duration);
    }
    print("one ear", one_answered);
    print("both ears", both_answered);
    print("encoder", encoder_answered);
    return 0;
}
