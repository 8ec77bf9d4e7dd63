/*
 * Stands in for our archive where an example's expected output is made: samples and pitches are the given Rust's,
 * through the C face of bench/rust. What the Rust does not have (answers 1, 2, 5, 6 and 9, the settled report) is
 * written here once more, as far as the examples need it. The Rust has the published rows within itself and takes no
 * others.
 */
#include "nabiteke.h"
#include <stdio.h>
#include <stdlib.h>
#include <string.h>

/* A start also says where the Rust remembers what, which is not used here. */
struct piece {
    void *start;
    size_t bytes;
};
void *rust_decoder_start(uint32_t rate, uint32_t duration, struct piece *pieces);
void rust_decoder_frame(void *decoder, uint32_t present, uint32_t index, uint32_t active, uint32_t nbits,
                        float *samples, size_t count);
void *rust_encoder_start(uint32_t rate, uint32_t duration, struct piece *pieces);
void rust_encoder_frame(void *encoder, const int16_t *samples, size_t count, uint32_t nbits, uint32_t near_nyquist,
                        uint32_t *record);

/* A struct's numbers: which of these it is, from 1; its frame length; a decoder's run and settled mark. */
enum { STARTED, LENGTH, RUN, SETTLED };
static void *started[8];
static uint32_t started_count;

size_t nabiteke_frame_length(uint32_t rate, uint32_t duration)
{
    uint32_t hz = rate == 44100 ? 48000 : rate;
    return duration == 10000 ? hz / 100 : hz / 400 * 3;
}

size_t nabiteke_numerator_count(uint32_t rate)
{
    return rate < 24000 ? 12 : rate == 24000 ? 20 : rate == 32000 ? 28 : 44;
}

size_t nabiteke_denominator_count(uint32_t rate)
{
    return nabiteke_numerator_count(rate) + 8;
}

static uint32_t start(uint32_t *numbers, void *(*rust_start)(uint32_t, uint32_t, struct piece *), uint32_t rate,
                      uint32_t duration)
{
    struct piece pieces[3];
    memset(numbers, 0, 4 * sizeof *numbers);
    if (rate % 8000 != 0 && rate != 44100)
        return NABITEKE_RATE;
    if (duration != 10000 && duration != 7500)
        return NABITEKE_DURATION;
    if (started_count == sizeof started / sizeof *started)
        exit(1);
    started[started_count++] = rust_start(rate, duration, pieces);
    numbers[STARTED] = started_count;
    numbers[LENGTH] = (uint32_t)nabiteke_frame_length(rate, duration);
    return NABITEKE_DONE;
}

static uint32_t judge(const uint32_t *numbers, size_t sample_count, uint32_t nbits)
{
    if (numbers[STARTED] == 0)
        return NABITEKE_UNFIT;
    if (sample_count != numbers[LENGTH])
        return NABITEKE_SAMPLE_COUNT;
    return nbits > 3200 ? NABITEKE_NBITS : NABITEKE_DONE;
}

uint32_t nabiteke_decoder_start_(uint32_t *numbers, float *kept, float *inputs, float *outputs, uint32_t rate,
                                 uint32_t duration)
{
    (void)kept, (void)inputs, (void)outputs;
    return start(numbers, rust_decoder_start, rate, duration);
}

uint32_t nabiteke_decoder_frame_(uint32_t *numbers, float *kept, float *inputs, float *outputs,
                                 const float *numerators, size_t numerator_count, const float *denominators,
                                 size_t denominator_count, uint32_t pitch_present, uint32_t pitch_index,
                                 uint32_t pitch_active, uint32_t nbits, float *samples, size_t sample_count)
{
    uint32_t answer = judge(numbers, sample_count, nbits);
    (void)kept, (void)inputs, (void)outputs, (void)numerators, (void)numerator_count, (void)denominators;
    (void)denominator_count;
    if (answer != NABITEKE_DONE)
        return answer;
    numbers[RUN] = pitch_present && pitch_active ? 0 : numbers[RUN] + 1;
    numbers[SETTLED] |= numbers[RUN] >= 3;
    rust_decoder_frame(started[numbers[STARTED] - 1], pitch_present, pitch_index, pitch_active, nbits, samples,
                       sample_count);
    return NABITEKE_DONE;
}

/* The Rust has one ear only: the samples are parted, and those of each go through a decoder of its own. */
void nabiteke_decoder_frame_both_(uint32_t *left_numbers, float *left_kept, float *left_inputs, float *left_outputs,
                                  uint32_t *right_numbers, float *right_kept, float *right_inputs,
                                  float *right_outputs, const float *numerators, size_t numerator_count,
                                  const float *denominators, size_t denominator_count, const uint32_t *sides,
                                  float *samples, size_t sample_count, uint32_t *answers)
{
    float left[480], right[480];
    const size_t count = sample_count / 2;
    size_t n;
    if (sample_count % 2 != 0 || count > 480)
        exit(1);
    for (n = 0; n < count; n++) {
        left[n] = samples[2 * n];
        right[n] = samples[2 * n + 1];
    }
    answers[0] = nabiteke_decoder_frame_(left_numbers, left_kept, left_inputs, left_outputs, numerators,
                                         numerator_count, denominators, denominator_count, sides[0], sides[1],
                                         sides[2], sides[6], left, count);
    answers[1] = nabiteke_decoder_frame_(right_numbers, right_kept, right_inputs, right_outputs, numerators,
                                         numerator_count, denominators, denominator_count, sides[3], sides[4],
                                         sides[5], sides[6], right, count);
    for (n = 0; n < count; n++) {
        samples[2 * n] = left[n];
        samples[2 * n + 1] = right[n];
    }
}

uint32_t nabiteke_decoder_lost_(uint32_t *numbers)
{
    numbers[RUN] = numbers[SETTLED] = 0;
    return numbers[STARTED] == 0 ? NABITEKE_UNFIT : NABITEKE_DONE;
}

uint32_t nabiteke_decoder_settled_(const uint32_t *numbers)
{
    return numbers[SETTLED];
}

uint32_t nabiteke_encoder_start_(uint32_t *numbers, float *memories, float *x_s, float *x_12p8, float *x_6p4,
                                 uint32_t rate, uint32_t duration)
{
    (void)memories, (void)x_s, (void)x_12p8, (void)x_6p4;
    return start(numbers, rust_encoder_start, rate, duration);
}

uint32_t nabiteke_encoder_frame_(uint32_t *numbers, float *memories, float *x_s, float *x_12p8, float *x_6p4,
                                 const float *resampling, size_t resampling_count, const float *correlation,
                                 size_t correlation_count, const float *signal, size_t signal_count,
                                 const int16_t *samples, size_t sample_count, uint32_t nbits,
                                 uint32_t near_nyquist, uint32_t *record)
{
    uint32_t answer = judge(numbers, sample_count, nbits);
    (void)memories, (void)x_s, (void)x_12p8, (void)x_6p4, (void)resampling, (void)resampling_count;
    (void)correlation, (void)correlation_count, (void)signal, (void)signal_count;
    memset(record, 0, 4 * sizeof *record);
    if (answer != NABITEKE_DONE)
        return answer;
    rust_encoder_frame(started[numbers[STARTED] - 1], samples, sample_count, nbits, near_nyquist, record);
    /* The Rust gives lags 127 to 156 such indices too, wrongly (docs/DIFFERENCES.md): no example may depend on them. */
    if (record[0] && record[1] >= 128 && record[1] < 188) {
        fprintf(stderr, "examples: index %u may be one that the Rust codes wrongly\n", record[1]);
        exit(1);
    }
    if (!record[0])
        record[1] = record[2] = 0;
    return NABITEKE_DONE;
}
