/*
 * How much stack the calls take, at every rate and duration and in all five transitions, of both ears in every pair of
 * them and of each ear while the other is refused: the stack below a call is painted, and the lowest byte that the call
 * changed counts. Each call is the first of a process of its own: in a program that is linked dynamically with lazy
 * binding it is the call that looks up memcpy and memset, which takes stack too. Prints whether NABITEKE_STACK is
 * enough, and to standard error what was found.
 */
#ifndef _GNU_SOURCE
#define _DEFAULT_SOURCE /* for MAP_ANONYMOUS */
#endif
#include "nabiteke_published.h"
#include <stdio.h>
#include <sys/mman.h>
#include <sys/wait.h>
#include <unistd.h>

enum { MAX_FRAME = 480, NBITS = 320, DEPTH = 32768, NEAR = 128, PAINT = 0xa5 };
enum call {
    LENT, LENGTHS, VERSION, LAG, DECODER_START, EARS_START, DECODER_FRAME, DECODER_TOLD, DECODER_LOST, DECODER_SETTLED,
    BOTH_EARS, LEFT_EAR, RIGHT_EAR, ENCODER_START, ENCODER_FRAME, PITCH_WRITE, PITCH_READ, CALLS
};

static const char *const names[CALLS] = {"published rows",
                                         "three lengths",
                                         "version",
                                         "lag of an index",
                                         "decoder start",
                                         "two decoder starts",
                                         "decoder frame",
                                         "frame told",
                                         "loss mark",
                                         "settled report",
                                         "both ears",
                                         "both ears, the right one refused",
                                         "both ears, the left one refused",
                                         "encoder start",
                                         "encoder frame",
                                         "pitch written",
                                         "pitch read"};

/* What the calls are given and leave, and what they took, in memory that all processes share. */
static struct shared {
    nabiteke_decoder decoder, left, right;
    nabiteke_encoder encoder;
    nabiteke_record record;
    nabiteke_rows rows;
    nabiteke_pitch pitch, left_pitch, right_pitch;
    nabiteke_told told;
    nabiteke_lag lag;
    uint32_t rate, duration;
    float samples[MAX_FRAME], in_turn[2 * MAX_FRAME];
    int16_t input[MAX_FRAME];
    size_t frame, used, taken[CALLS];
    uint8_t bytes[2];
} *at;

static const nabiteke_pitch too_large = {1, 512, 1};

/* A frame of both ears. Answers NABITEKE_DONE where the ears answer as expected. */
static uint32_t make_both(nabiteke_pitch of_left, nabiteke_pitch of_right, uint32_t expected_left,
                          uint32_t expected_right)
{
    const nabiteke_ear_answers answers = nabiteke_decoder_frame_both(&at->left, &at->right, &at->rows, of_left,
                                                                     of_right, NBITS, at->in_turn, 2 * at->frame);
    return answers.left == expected_left && answers.right == expected_right ? NABITEKE_DONE : NABITEKE_EARS;
}

static uint32_t make_encoder_frame(void)
{
    const nabiteke_sets sets = nabiteke_published_sets();
    return nabiteke_encoder_frame(&at->encoder, &sets, NBITS, at->input, at->frame, 0, &at->record);
}

static uint32_t make_lengths(void)
{
    at->frame = nabiteke_frame_length(at->rate, at->duration);
    return nabiteke_numerator_count(at->rate) == 0 || nabiteke_denominator_count(at->rate) == 0;
}

static uint32_t make_ears_start(void)
{
    return nabiteke_decoder_start(&at->left, at->rate, at->duration) +
           nabiteke_decoder_start(&at->right, at->rate, at->duration);
}

/* Never part of the function that measures, whose own frame must stay small. */
__attribute__((noinline)) static uint32_t make(enum call call)
{
    switch (call) {
    case LENT: at->rows = nabiteke_published_rows(at->rate); return NABITEKE_DONE;
    case LENGTHS: return make_lengths();
    case VERSION: return nabiteke_version() != NABITEKE_VERSION;
    case LAG: return nabiteke_lag_of(at->rate, 511, &at->lag);
    case DECODER_START: return nabiteke_decoder_start(&at->decoder, at->rate, at->duration);
    case EARS_START: return make_ears_start();
    case DECODER_FRAME:
        return nabiteke_decoder_frame(&at->decoder, &at->rows, at->pitch, NBITS, at->samples, at->frame);
    case DECODER_TOLD: return nabiteke_decoder_told(&at->decoder, at->pitch, NBITS, &at->told);
    case DECODER_LOST: return nabiteke_decoder_lost(&at->decoder);
    case DECODER_SETTLED: return nabiteke_decoder_settled(&at->decoder) > 1;
    case BOTH_EARS: return make_both(at->left_pitch, at->right_pitch, NABITEKE_DONE, NABITEKE_DONE);
    case LEFT_EAR: return make_both(at->left_pitch, too_large, NABITEKE_DONE, NABITEKE_PITCH_INDEX);
    case RIGHT_EAR: return make_both(too_large, at->right_pitch, NABITEKE_PITCH_INDEX, NABITEKE_DONE);
    case ENCODER_START: return nabiteke_encoder_start(&at->encoder, at->rate, at->duration);
    case ENCODER_FRAME: return make_encoder_frame();
    case PITCH_WRITE: return nabiteke_pitch_write(at->pitch, at->bytes, sizeof at->bytes, &at->used);
    default: return nabiteke_pitch_read(at->bytes, sizeof at->bytes, &at->pitch, &at->used);
    }
}

/* Makes a call, which has to be done. The bytes nearest to this function's own frame are left alone. */
static int measure_here(enum call call)
{
    volatile unsigned char *lowest = (unsigned char *)__builtin_frame_address(0) - DEPTH;
    size_t i;
    uint32_t answer;
    for (i = 0; i < DEPTH - NEAR; i++)
        lowest[i] = PAINT;
    answer = make(call);
    for (i = 0; i < DEPTH - NEAR && lowest[i] == PAINT;)
        i++;
    if (DEPTH - i > at->taken[call])
        at->taken[call] = DEPTH - i;
    return answer == NABITEKE_DONE;
}

/* The same in a process that has made no call before. */
static int measure(enum call call)
{
    int status = 1;
    const pid_t child = fork();
    if (child == 0)
        _exit(!measure_here(call));
    return child > 0 && waitpid(child, &status, 0) == child && status == 0;
}

static int measure_frames(void)
{
    static const nabiteke_pitch pitches[] = {{0, 0, 0}, {1, 200, 1}, {1, 200, 1}, {1, 511, 1},
                                             {1, 0, 1}, {1, 0, 0},   {0, 0, 0}};
    size_t i, n;
    for (i = 0; i < sizeof pitches / sizeof *pitches; i++) {
        at->pitch = pitches[i];
        for (n = 0; n < at->frame; n++)
            at->input[n] = (int16_t)(n % (50 + 40 * i) * 100);
        if (!measure(DECODER_TOLD) || !measure(DECODER_FRAME) || !measure(ENCODER_FRAME) || !measure(PITCH_WRITE) ||
            !measure(PITCH_READ))
            return 0;
    }
    return 1;
}

/* Every pair of transitions, each after one frame, and again with only one ear going on. */
static int measure_ears(void)
{
    static const nabiteke_pitch pitches[][2] = {
        {{0, 0, 0}, {0, 0, 0}}, {{0, 0, 0}, {1, 200, 1}}, {{1, 200, 1}, {0, 0, 0}}, {{1, 200, 1}, {1, 200, 1}},
        {{1, 200, 1}, {1, 511, 1}}};
    const size_t transitions = sizeof pitches / sizeof *pitches;
    size_t i;
    int call, now;
    for (i = 0; i < transitions * transitions; i++)
        for (call = BOTH_EARS; call <= RIGHT_EAR; call++) {
            if (!measure(EARS_START))
                return 0;
            for (now = 0; now < 2; now++) {
                at->left_pitch = pitches[i / transitions][now];
                at->right_pitch = pitches[i % transitions][now];
                if (!measure(now ? (enum call)call : BOTH_EARS))
                    return 0;
            }
        }
    return 1;
}

static int measure_at(uint32_t rate, uint32_t duration)
{
    at->rate = rate;
    at->duration = duration;
    return measure(LENT) && measure(LENGTHS) && measure(VERSION) && measure(LAG) && measure(DECODER_START) &&
           measure(ENCODER_START) && measure_frames() && measure_ears() && measure(DECODER_SETTLED) &&
           measure(DECODER_LOST);
}

int main(void)
{
    static const uint32_t rates[] = {8000, 16000, 24000, 32000, 44100, 48000};
    size_t i, call, most = 0;
    void *mapped = mmap(NULL, sizeof *at, PROT_READ | PROT_WRITE, MAP_SHARED | MAP_ANONYMOUS, -1, 0);
    if (mapped == MAP_FAILED)
        return 1;
    at = (struct shared *)mapped;
    for (i = 0; i < 2 * (sizeof rates / sizeof *rates); i++)
        if (!measure_at(rates[i / 2], i % 2 ? 7500 : 10000)) {
            printf("a call was refused\n");
            return 1;
        }
    for (call = 0; call < CALLS; call++) {
        fprintf(stderr, "stack: %s %u\n", names[call], (unsigned)at->taken[call]);
        most = at->taken[call] > most ? at->taken[call] : most;
    }
    fprintf(stderr, "stack: at most %u\n", (unsigned)most);
    printf(most <= NABITEKE_STACK ? "no call takes more stack than the header says\n" : "the header says too little\n");
    return 0;
}
