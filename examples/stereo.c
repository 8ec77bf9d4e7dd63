/*
 * The two ears of a headset, 32000 Hz and 7.5 ms frames, with one call a frame. The right ear loses a frame, and so is
 * settled later than the left. Each ear also goes through a decoder by itself, which must give the same bits.
 * examples/run holds what it prints to stereo.expected.
 */
#include "nabiteke_published.h"
#include <stdio.h>
#include <string.h>

enum { RATE = 32000, DURATION = 7500, MAX_FRAME = 480, NBITS = 400, FRAMES = 10, LOST = 5 };

/* The pitches of each frame, left and right. Index 200 is a lag of 205 samples, 64 of 120, 65 of 120.75. */
static const nabiteke_pitch pitches[FRAMES][2] = {
    {{0, 0, 0}, {0, 0, 0}},  {{1, 200, 0}, {1, 64, 1}}, {{1, 200, 1}, {1, 64, 1}}, {{1, 200, 1}, {1, 65, 1}},
    {{0, 0, 0}, {1, 65, 1}}, {{0, 0, 0}, {0, 0, 0}},    {{0, 0, 0}, {0, 0, 0}},    {{0, 0, 0}, {0, 0, 0}},
    {{0, 0, 0}, {1, 64, 0}}, {{0, 0, 0}, {0, 0, 0}},
};

static nabiteke_decoder left, right;             /* the two ears */
static nabiteke_decoder left_alone, right_alone; /* the same, each by itself */

/* A saw, with a little noise so that no two periods are the same. */
static float sample_at(unsigned n, unsigned period)
{
    unsigned noise = (n * 1103515245u + 12345u) >> 16 & 127u;
    return (float)(8000 - 16000 * (int)(n % period) / (int)period + (int)noise);
}

/* Whether the decoders by themselves made the same samples, bit for bit, and report the same. */
static int same_alone(const float *samples, const float *left_samples, const float *right_samples, size_t length)
{
    size_t n;
    for (n = 0; n < length; n++)
        if (memcmp(&samples[2 * n], &left_samples[n], sizeof(float)) != 0 ||
            memcmp(&samples[2 * n + 1], &right_samples[n], sizeof(float)) != 0)
            return 0;
    return nabiteke_decoder_settled(&left_alone) == nabiteke_decoder_settled(&left) &&
           nabiteke_decoder_settled(&right_alone) == nabiteke_decoder_settled(&right);
}

int main(void)
{
    const nabiteke_rows rows = nabiteke_published_rows(RATE);
    const size_t length = nabiteke_frame_length(RATE, DURATION);
    unsigned frame;

    /* Each ear is started by itself, both with the same rate and duration. */
    if (length == 0 || length > MAX_FRAME || nabiteke_decoder_start(&left, RATE, DURATION) != NABITEKE_DONE ||
        nabiteke_decoder_start(&right, RATE, DURATION) != NABITEKE_DONE ||
        nabiteke_decoder_start(&left_alone, RATE, DURATION) != NABITEKE_DONE ||
        nabiteke_decoder_start(&right_alone, RATE, DURATION) != NABITEKE_DONE)
        return 1;
    for (frame = 0; frame < FRAMES; frame++) {
        const nabiteke_pitch left_pitch = pitches[frame][0], right_pitch = pitches[frame][1];
        float samples[2 * MAX_FRAME], left_samples[MAX_FRAME], right_samples[MAX_FRAME];
        nabiteke_ear_answers answers;
        size_t n;

        /* Left and right in turn. Silence, with no pitch, stands in for the frame that the right ear lost. */
        for (n = 0; n < length; n++) {
            const unsigned at = frame * (unsigned)length + (unsigned)n;
            samples[2 * n] = left_samples[n] = sample_at(at, 205);
            samples[2 * n + 1] = right_samples[n] = frame == LOST ? 0.0f : sample_at(at, 120);
        }
        answers = nabiteke_decoder_frame_both(&left, &right, &rows, left_pitch, right_pitch, NBITS, samples,
                                              2 * length);

        /* The right ear alone is marked, after what stood in for its frame, which so does not count for settling. */
        if (frame == LOST && nabiteke_decoder_lost(&right) != NABITEKE_DONE)
            return 1;
        printf("frame %u: answers %u and %u, settled %u and %u; sample 200: %.9g to %.9g and %.9g to %.9g\n", frame,
               answers.left, answers.right, nabiteke_decoder_settled(&left), nabiteke_decoder_settled(&right),
               left_samples[200], samples[400], right_samples[200], samples[401]);

        /* The same by two decoders, on the samples of each ear. */
        if (nabiteke_decoder_frame(&left_alone, &rows, left_pitch, NBITS, left_samples, length) != answers.left ||
            nabiteke_decoder_frame(&right_alone, &rows, right_pitch, NBITS, right_samples, length) != answers.right ||
            (frame == LOST && nabiteke_decoder_lost(&right_alone) != NABITEKE_DONE) ||
            !same_alone(samples, left_samples, right_samples, length))
            return 1;
    }
    printf("each ear by itself: the same answers, reports and bits\n");
    return 0;
}
