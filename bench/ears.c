#include "ears.h"
#include "cases.h"
#include "clock.h"
#include "measure.h"
#include "signals.h"
#include <stdio.h>
#include <string.h>

enum { EARS = 2, CHECKED = 2 * SIGNAL_FRAMES };

// What is heard: one of the ears, or both with their samples in turn.
enum heard { LEFT, RIGHT, BOTH, HEARD };

// The ears have different lags, so that a call that mixes them up is noticed.
static const struct indices indices[EARS] = {{200, 230}, {204, 234}};
static float input[HEARD][SIGNAL_FRAMES][EARS * MAX_FRAME];
static float alone[EARS][CHECKED][MAX_FRAME];

// An engine and what it hears.
struct way {
    const struct engine *engine;
    enum heard heard;
};

static const struct way timed[2] = {{&our_engine, LEFT}, {&our_ears, BOTH}};

// Takes one ear's samples out of those of both.
static void part(const float *both, size_t ear, size_t frame, float *samples)
{
    for (size_t n = 0; n < frame; n++)
        samples[n] = both[EARS * n + ear];
}

// The right ear has the noise that follows the left one's.
static void make_input(const struct setting *setting)
{
    for (size_t i = 0; i < SIGNAL_FRAMES; i++)
        for (size_t ear = 0; ear < EARS; ear++) {
            decoder_signal(NOISE, setting, i + ear * SIGNAL_FRAMES, input[ear][i]);
            for (size_t n = 0; n < setting->frame; n++)
                input[BOTH][i][EARS * n + ear] = input[ear][i][n];
        }
}

// One frame: the samples are put in place, and only the call is timed.
static double decode(struct way way, const struct setting *setting, const struct side sides[EARS], size_t number,
                     float **output)
{
    size_t count = way.heard == BOTH ? EARS * setting->frame : setting->frame;
    const struct side *heard = way.heard == RIGHT ? sides + 1 : sides;
    memcpy(way.engine->decoder_samples(), input[way.heard][number % SIGNAL_FRAMES], count * sizeof(float));
    int64_t start = clock_ns();
    *output = way.engine->decoder_frame(heard);
    return (double)(clock_ns() - start);
}

static void decode_lead(struct way way, const struct setting *setting, int which, size_t number)
{
    const struct side sides[EARS] = {lead_side(which, indices[LEFT]), lead_side(which, indices[RIGHT])};
    float *output;
    decode(way, setting, sides, number, &output);
}

// The `turn`th frame of its case, after the one that comes before it.
static double decode_case(struct way way, const struct setting *setting, int which, long turn, float **output)
{
    const struct side sides[EARS] = {case_side(which, indices[LEFT], turn), case_side(which, indices[RIGHT], turn)};
    if (has_lead(which))
        decode_lead(way, setting, which, (size_t)turn + 7);
    return decode(way, setting, sides, (size_t)turn, output);
}

static void prepare(struct way way, const struct setting *setting, int which)
{
    way.engine->start(setting);
    for (size_t i = 0; i < 4; i++)
        decode_lead(way, setting, which, i);
}

// Nanoseconds a frame over a row of frames of one case.
static double time_round(struct way way, const struct setting *setting, int which, long count, double cost)
{
    static double ns[MAX_ROUND];
    float *output;
    for (long i = 0; i < count; i++)
        ns[i] = decode_case(way, setting, which, i, &output);
    return middle_mean(ns, (size_t)count) - cost;
}

// Our decoder of one ear against the Rust's; what both give is kept.
static void check_alone(const struct setting *setting, int which, enum heard ear, const char *what)
{
    const struct way rust = {&rust_engine, ear}, ours = {&our_engine, ear};
    prepare(rust, setting, which);
    prepare(ours, setting, which);
    for (long i = 0; i < CHECKED; i++) {
        float *theirs, *output;
        decode_case(rust, setting, which, i, &theirs);
        decode_case(ours, setting, which, i, &output);
        if (!same_samples(theirs, output, setting->frame))
            fail_different(setting, what, our_engine.name);
        memcpy(alone[ear][i], output, setting->frame * sizeof *output);
    }
}

// Both ears in one call against each ear by itself.
static void check_ears(const struct setting *setting, int which)
{
    const struct way both = {&our_ears, BOTH};
    char what[32];
    snprintf(what, sizeof what, "ears in case %d", which);
    for (size_t ear = 0; ear < EARS; ear++)
        check_alone(setting, which, (enum heard)ear, what);
    prepare(both, setting, which);
    for (long i = 0; i < CHECKED; i++) {
        float *output, samples[MAX_FRAME];
        decode_case(both, setting, which, i, &output);
        for (size_t ear = 0; ear < EARS; ear++) {
            part(output, ear, setting->frame, samples);
            if (!same_samples(alone[ear][i], samples, setting->frame))
                fail_different(setting, what, our_ears.name);
        }
    }
}

struct ears_times measure_ears(const struct setting *setting, int which)
{
    double rounds[2][ROUNDS], cost = clock_cost();
    long count[2];
    make_input(setting);
    check_ears(setting, which);
    for (int w = 0; w < 2; w++) {
        prepare(timed[w], setting, which);
        count[w] = frames_for(time_round(timed[w], setting, which, 200, cost));
    }
    // One ear and both take turns, so that they see the same machine.
    for (int r = 0; r < ROUNDS; r++)
        for (int w = 0; w < 2; w++)
            rounds[w][r] = time_round(timed[w], setting, which, count[w], cost);
    return (struct ears_times){median(rounds[0], ROUNDS), median(rounds[1], ROUNDS)};
}
