/*
 * An encoder of 16000 Hz and 7.5 ms frames: silence, a buzz of 60 samples a period, a frame marked as lying near
 * half the rate, and refused calls. examples/run holds what it prints to encoder.expected.
 */
#include "nabiteke_published.h"
#include <stdio.h>

enum { RATE = 16000, DURATION = 7500, FRAME = 120, NBITS = 240, PERIOD = 60 };

static nabiteke_encoder encoder;

static void print_frame(const char *what, uint32_t answer, const nabiteke_record *record)
{
    printf("%s: answer %u, bits %u", what, answer, record->bits);
    if (record->pitch.present)
        printf(", pitch index %u, %s", record->pitch.index, record->pitch.active ? "active" : "not active");
    printf("\n");
}

/* One frame of a falling saw, as loud as asked. */
static void make_saw(int16_t *samples, int frame, int level)
{
    int n;
    for (n = 0; n < FRAME; n++)
        samples[n] = (int16_t)(level - 2 * level * ((frame * FRAME + n) % PERIOD) / PERIOD);
}

int main(void)
{
    const nabiteke_sets sets = nabiteke_published_sets();
    int16_t samples[FRAME];
    nabiteke_record record;
    int frame;

    printf("start of 9 ms: answer %u\n", nabiteke_encoder_start(&encoder, RATE, 9000));
    printf("start: answer %u\n", nabiteke_encoder_start(&encoder, RATE, DURATION));

    for (frame = 0; frame < 8; frame++) {
        uint32_t answer;
        make_saw(samples, frame, frame < 2 ? 0 : 8000);
        answer = nabiteke_encoder_frame(&encoder, &sets, NBITS, samples, FRAME, 0, &record);
        print_frame(frame < 2 ? "silence" : "saw", answer, &record);
    }

    make_saw(samples, frame++, 8000);
    print_frame("saw near half the rate", nabiteke_encoder_frame(&encoder, &sets, NBITS, samples, FRAME, 1, &record),
                &record);
    make_saw(samples, frame++, 8000);
    print_frame("saw of many bits", nabiteke_encoder_frame(&encoder, &sets, 3200, samples, FRAME, 0, &record), &record);
    print_frame("too many bits", nabiteke_encoder_frame(&encoder, &sets, 3201, samples, FRAME, 0, &record), &record);
    print_frame("frame of 10 ms", nabiteke_encoder_frame(&encoder, &sets, NBITS, samples, 160, 0, &record), &record);
    return 0;
}
