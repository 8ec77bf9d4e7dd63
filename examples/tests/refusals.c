/*
 * What a refused call leaves, byte by byte: states and samples are full of NaNs with different payloads, which the
 * proofs do not tell apart, and every refusal is made at every rate and duration, of a decoder before and after a
 * filtered frame. Prints how many calls were refused with each answer; refusals.expected counts them by hand.
 */
#include "nabiteke_published.h"
#include <stdio.h>
#include <stdlib.h>
#include <string.h>

enum { MAX_FRAME = 480, NBITS = 320 };

static const nabiteke_pitch pitch = {1, 200, 1};
static unsigned refused[10];

static void demand(int holds, const char *what)
{
    if (!holds) {
        printf("not so: %s\n", what);
        exit(1);
    }
}

/* A float of these bits, copied as bytes so that no NaN is touched. */
static void put_bits(float *place, uint32_t bits)
{
    memcpy(place, &bits, sizeof bits);
}

/* NaNs of both signs, quiet and signalling, each with another payload. */
static void paint(float *values, size_t count, uint32_t seed)
{
    size_t i;
    for (i = 0; i < count; i++)
        put_bits(&values[i], 0x7f800001u | ((seed + (uint32_t)i) * 2654435761u & 0x807fffffu));
}

static void paint_decoder(nabiteke_decoder *decoder)
{
    paint(decoder->kept, 24, 1);
    paint(decoder->inputs, 1080, 100);
    paint(decoder->outputs, 1080, 2000);
}

static void paint_encoder(nabiteke_encoder *encoder)
{
    paint(encoder->memories, 5, 1);
    paint(encoder->x_s, 60, 100);
    paint(encoder->x_12p8, 276, 200);
    paint(encoder->x_6p4, 114, 500);
}

/* One refused frame of a decoder. The samples are NaNs but for those that answer 8 itself is about. */
static void refuse(uint32_t expected, nabiteke_decoder *decoder, nabiteke_rows rows, nabiteke_pitch given,
                   uint32_t nbits, float *samples, size_t count)
{
    nabiteke_decoder before;
    float samples_before[MAX_FRAME + 1];
    memcpy(&before, decoder, sizeof before);
    memcpy(samples_before, samples, sizeof samples_before);
    demand(nabiteke_decoder_frame(decoder, &rows, given, nbits, samples, count) == expected, "a decoder's answer");
    demand(memcmp(&before, decoder, sizeof before) == 0, "a refused decoder keeps its bytes");
    demand(memcmp(samples_before, samples, sizeof samples_before) == 0, "refused samples keep their bytes");
    refused[expected]++;
}

/* Answers 3 and 4: each array one entry short, and with its last entry NaN or infinite. */
static void refuse_rows(nabiteke_decoder *decoder, nabiteke_rows rows, float *samples, size_t frame)
{
    float numerators[44], denominators[52];
    nabiteke_rows wrong = rows;
    memcpy(numerators, rows.numerators, rows.numerator_count * sizeof(float));
    memcpy(denominators, rows.denominators, rows.denominator_count * sizeof(float));
    put_bits(&numerators[rows.numerator_count - 1], 0x7fc01234u);
    put_bits(&denominators[rows.denominator_count - 1], 0xff800000u);
    wrong.numerator_count--;
    refuse(NABITEKE_ROWS, decoder, wrong, pitch, NBITS, samples, frame);
    wrong = rows;
    wrong.denominator_count--;
    refuse(NABITEKE_ROWS, decoder, wrong, pitch, NBITS, samples, frame);
    wrong = rows;
    wrong.numerators = numerators;
    refuse(NABITEKE_COEFFICIENT, decoder, wrong, pitch, NBITS, samples, frame);
    wrong = rows;
    wrong.denominators = denominators;
    refuse(NABITEKE_COEFFICIENT, decoder, wrong, pitch, NBITS, samples, frame);
}

static void refuse_decoder(nabiteke_decoder *decoder, uint32_t rate, size_t frame)
{
    const nabiteke_pitch too_large = {1, 512, 0};
    const nabiteke_rows rows = nabiteke_published_rows(rate);
    float samples[MAX_FRAME + 1];
    paint_decoder(decoder);
    paint(samples, MAX_FRAME + 1, 5000);
    refuse_rows(decoder, rows, samples, frame);
    refuse(NABITEKE_SAMPLE_COUNT, decoder, rows, pitch, NBITS, samples, frame - 1);
    refuse(NABITEKE_SAMPLE_COUNT, decoder, rows, pitch, NBITS, samples, frame + 1);
    refuse(NABITEKE_NBITS, decoder, rows, pitch, 3201, samples, frame);
    refuse(NABITEKE_PITCH_INDEX, decoder, rows, too_large, NBITS, samples, frame);
    refuse(NABITEKE_SAMPLE, decoder, rows, pitch, NBITS, samples, frame);
    memset(samples, 0, (frame - 1) * sizeof *samples);
    refuse(NABITEKE_SAMPLE, decoder, rows, pitch, NBITS, samples, frame);
    samples[frame - 1] = -1048576.125f;
    refuse(NABITEKE_SAMPLE, decoder, rows, pitch, NBITS, samples, frame);
    decoder->numbers[0]++;
    paint(samples, MAX_FRAME + 1, 7000);
    refuse(NABITEKE_UNFIT, decoder, rows, pitch, NBITS, samples, frame);
}

static void refuse_loss(nabiteke_decoder *decoder)
{
    nabiteke_decoder before;
    memcpy(&before, decoder, sizeof before);
    demand(nabiteke_decoder_lost(decoder) == NABITEKE_UNFIT, "a loss mark's answer");
    demand(memcmp(&before, decoder, sizeof before) == 0, "an unfit decoder keeps its bytes at a loss mark");
    refused[NABITEKE_UNFIT]++;
}

static void refuse_frame(uint32_t expected, nabiteke_encoder *encoder, nabiteke_sets sets, uint32_t nbits,
                         const int16_t *samples, size_t count)
{
    nabiteke_encoder before;
    nabiteke_record record = {{9, 9, 9}, 9}, none = {{0, 0, 0}, 0};
    memcpy(&before, encoder, sizeof before);
    demand(nabiteke_encoder_frame(encoder, &sets, nbits, samples, count, 0, &record) == expected,
           "an encoder's answer");
    demand(memcmp(&before, encoder, sizeof before) == 0, "a refused encoder keeps its bytes");
    demand(memcmp(&record, &none, sizeof none) == 0, "a refused frame's record is absent, 0 bits");
    refused[expected]++;
}

static void refuse_sets(nabiteke_encoder *encoder, nabiteke_sets sets, const int16_t *samples, size_t frame)
{
    float not_finite[239];
    nabiteke_sets wrong = sets;
    memset(not_finite, 0, sizeof not_finite);
    put_bits(&not_finite[14], 0xffffffffu);
    wrong.resampling_count--;
    refuse_frame(NABITEKE_ROWS, encoder, wrong, NBITS, samples, frame);
    wrong = sets;
    wrong.correlation_count--;
    refuse_frame(NABITEKE_ROWS, encoder, wrong, NBITS, samples, frame);
    wrong = sets;
    wrong.signal_count--;
    refuse_frame(NABITEKE_ROWS, encoder, wrong, NBITS, samples, frame);
    wrong = sets;
    wrong.resampling = not_finite;
    refuse_frame(NABITEKE_COEFFICIENT, encoder, wrong, NBITS, samples, frame);
    wrong = sets;
    wrong.correlation = not_finite;
    refuse_frame(NABITEKE_COEFFICIENT, encoder, wrong, NBITS, samples, frame);
    wrong = sets;
    wrong.signal = not_finite;
    refuse_frame(NABITEKE_COEFFICIENT, encoder, wrong, NBITS, samples, frame);
}

static void refuse_encoder(nabiteke_encoder *encoder, size_t frame)
{
    const nabiteke_sets sets = nabiteke_published_sets();
    int16_t samples[MAX_FRAME + 1];
    memset(samples, 1, sizeof samples);
    paint_encoder(encoder);
    refuse_sets(encoder, sets, samples, frame);
    refuse_frame(NABITEKE_SAMPLE_COUNT, encoder, sets, NBITS, samples, frame - 1);
    refuse_frame(NABITEKE_SAMPLE_COUNT, encoder, sets, NBITS, samples, frame + 1);
    refuse_frame(NABITEKE_NBITS, encoder, sets, 3201, samples, frame);
    encoder->numbers[2] = 16;
    refuse_frame(NABITEKE_UNFIT, encoder, sets, NBITS, samples, frame);
}

/* A refused start leaves the cleared state of 48000 Hz, 10 ms, whatever was there. */
static void refuse_starts(uint32_t expected, uint32_t rate, uint32_t duration)
{
    nabiteke_decoder decoder, cleared_decoder;
    nabiteke_encoder encoder, cleared_encoder;
    memset(decoder.numbers, 0xff, sizeof decoder.numbers);
    memset(encoder.numbers, 0xff, sizeof encoder.numbers);
    paint_decoder(&decoder);
    paint_encoder(&encoder);
    demand(nabiteke_decoder_start(&cleared_decoder, 48000, 10000) == NABITEKE_DONE &&
               nabiteke_encoder_start(&cleared_encoder, 48000, 10000) == NABITEKE_DONE,
           "a start is done");
    demand(nabiteke_decoder_start(&decoder, rate, duration) == expected &&
               nabiteke_encoder_start(&encoder, rate, duration) == expected,
           "a start's answer");
    demand(memcmp(&decoder, &cleared_decoder, sizeof decoder) == 0 &&
               memcmp(&encoder, &cleared_encoder, sizeof encoder) == 0,
           "a refused start clears the state");
    refused[expected] += 2;
}

static void refuse_at(uint32_t rate, uint32_t duration)
{
    const nabiteke_rows rows = nabiteke_published_rows(rate);
    const size_t frame = nabiteke_frame_length(rate, duration);
    float samples[MAX_FRAME];
    nabiteke_decoder decoder;
    nabiteke_encoder encoder;
    memset(samples, 0, sizeof samples);
    demand(nabiteke_decoder_start(&decoder, rate, duration) == NABITEKE_DONE, "a start is done");
    refuse_decoder(&decoder, rate, frame);
    refuse_loss(&decoder);
    demand(nabiteke_decoder_start(&decoder, rate, duration) == NABITEKE_DONE &&
               nabiteke_decoder_frame(&decoder, &rows, pitch, NBITS, samples, frame) == NABITEKE_DONE,
           "a filtered frame is done");
    refuse_decoder(&decoder, rate, frame);
    refuse_loss(&decoder);
    demand(nabiteke_encoder_start(&encoder, rate, duration) == NABITEKE_DONE, "a start is done");
    refuse_encoder(&encoder, frame);
}

int main(void)
{
    static const uint32_t rates[] = {8000, 16000, 24000, 32000, 44100, 48000};
    size_t i;
    unsigned answer;
    refuse_starts(NABITEKE_RATE, 11025, 10000);
    refuse_starts(NABITEKE_RATE, 0, 9);
    refuse_starts(NABITEKE_DURATION, 8000, 5000);
    for (i = 0; i < sizeof rates / sizeof *rates; i++) {
        refuse_at(rates[i], 10000);
        refuse_at(rates[i], 7500);
    }
    for (answer = 1; answer <= 9; answer++)
        printf("answer %u: %u refused calls, all as they must be\n", answer, refused[answer]);
    return 0;
}
