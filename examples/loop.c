/*
 * Both ends of 24000 Hz and 10 ms frames: an encoder finds the pitch of 16-bit samples, which are handed to a
 * decoder with it, as a codec without loss would. The saw has 90 samples a period, then 300. examples/run holds what
 * it prints to loop.expected.
 */
#include "nabiteke_published.h"
#include <stdio.h>

enum { RATE = 24000, DURATION = 10000, MAX_FRAME = 480, NBITS = 400, FRAMES = 16 };

static nabiteke_encoder encoder;
static nabiteke_decoder decoder;

/* A saw of 8000, with a little noise so that no two periods are the same. */
static int16_t sample_at(unsigned n, unsigned period)
{
    unsigned noise = (n * 1103515245u + 12345u) >> 16 & 127u;
    return (int16_t)(8000 - 16000 * (int)(n % period) / (int)period + (int)noise);
}

int main(void)
{
    const nabiteke_sets sets = nabiteke_published_sets();
    const nabiteke_rows rows = nabiteke_published_rows(RATE);
    const size_t length = nabiteke_frame_length(RATE, DURATION);
    unsigned frame;

    if (length == 0 || length > MAX_FRAME || nabiteke_encoder_start(&encoder, RATE, DURATION) != NABITEKE_DONE ||
        nabiteke_decoder_start(&decoder, RATE, DURATION) != NABITEKE_DONE)
        return 1;
    for (frame = 0; frame < FRAMES; frame++) {
        int16_t input[MAX_FRAME];
        float samples[MAX_FRAME];
        nabiteke_record record;
        size_t n;
        for (n = 0; n < length; n++) {
            input[n] = sample_at(frame * (unsigned)length + (unsigned)n, frame < FRAMES / 2 ? 90 : 300);
            samples[n] = (float)input[n];
        }
        if (nabiteke_encoder_frame(&encoder, &sets, NBITS, input, length, 0, &record) != NABITEKE_DONE ||
            nabiteke_decoder_frame(&decoder, &rows, record.pitch, NBITS, samples, length) != NABITEKE_DONE)
            return 1;
        printf("frame %u: %u bits, ", frame, record.bits);
        if (record.pitch.present)
            printf("pitch index %u, %s", record.pitch.index, record.pitch.active ? "active" : "not active");
        else
            printf("no pitch");
        printf("; samples 0 and 200: %d to %.9g, %d to %.9g\n", input[0], samples[0], input[200], samples[200]);
    }
    return 0;
}
