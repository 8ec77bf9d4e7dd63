/*
 * A decoder of 48000 Hz and 10 ms frames: a start, three frames without a pitch, a filtered one, refused calls
 * and a loss mark. examples/run compiles it, runs it and holds what it prints to decoder.expected.
 */
#include "nabiteke_published.h"
#include <stdio.h>
#include <string.h>

enum { RATE = 48000, DURATION = 10000, FRAME = 480, NBITS = 320 };

static nabiteke_decoder decoder;

static void print_call(const char *what, uint32_t answer)
{
    printf("%s: answer %u, settled %u\n", what, answer, nabiteke_decoder_settled(&decoder));
}

int main(void)
{
    /* Index 380 is a lag of 476 samples and a quarter; its frame is to be filtered. */
    const nabiteke_pitch no_pitch = {0, 0, 0}, pitch = {1, 380, 1};
    const nabiteke_rows rows = nabiteke_published_rows(RATE);
    float samples[FRAME];
    int i, n;

    print_call("start at 22050 Hz", nabiteke_decoder_start(&decoder, 22050, DURATION));
    print_call("start", nabiteke_decoder_start(&decoder, RATE, DURATION));

    for (i = 1; i <= 3; i++) {
        uint32_t answer;
        memset(samples, 0, sizeof samples);
        samples[100] = 1000.0f * (float)i;
        answer = nabiteke_decoder_frame(&decoder, &rows, no_pitch, NBITS, samples, FRAME);
        printf("sample 100 is %.9g\n", samples[100]);
        print_call("plain frame", answer);
    }

    memset(samples, 0, sizeof samples);
    samples[200] = 1000.0f;
    print_call("pitched frame", nabiteke_decoder_frame(&decoder, &rows, pitch, NBITS, samples, FRAME));
    for (n = 90; n <= 210; n++)
        if (samples[n] != 0.0f)
            printf("sample %d is %.9g\n", n, samples[n]);

    print_call("frame of 479 samples", nabiteke_decoder_frame(&decoder, &rows, pitch, NBITS, samples, FRAME - 1));
    print_call("loss mark", nabiteke_decoder_lost(&decoder));

    memset(&decoder, 0, sizeof decoder);
    print_call("frame in a decoder of zero bytes",
               nabiteke_decoder_frame(&decoder, &rows, no_pitch, NBITS, samples, FRAME));
    return 0;
}
