#include "measure.h"
#include "cases.h"
#include "clock.h"
#include "signals.h"
#include <math.h>
#include <stdio.h>
#include <string.h>

const struct engine *engines[MAX_ENGINES];
size_t engine_count;

static const struct indices typical = {200, 230};
static float decoder_input[SIGNAL_FRAMES][MAX_FRAME];
static int16_t encoder_input[SIGNAL_FRAMES][MAX_FRAME];

bool same_samples(const float *a, const float *b, size_t count)
{
    for (size_t n = 0; n < count; n++)
        if (memcmp(a + n, b + n, sizeof *a) != 0 && !(isnan(a[n]) && isnan(b[n])))
            return false;
    return true;
}

bool same_record(struct record rust, struct record other)
{
    bool is_middle = other.index >= 380 && other.index < 440;
    return rust.present == other.present && rust.active == other.active && (is_middle || rust.index == other.index);
}

void fail_different(const struct setting *setting, const char *what, const char *name)
{
    fprintf(stderr, "bench: %u Hz, %u us, %s: %s gives other results than the Rust\n", setting->rate, setting->duration,
            what, name);
    exit(1);
}

// liblc3 sums in another order: equal but for rounding.
static bool close_samples(const float *a, const float *b, size_t count)
{
    for (size_t n = 0; n < count; n++)
        if (!(fabsf(a[n] - b[n]) < 1.0f))
            return false;
    return true;
}

// One decoder frame: the samples are put in place, and only the call is timed.
static double decode(const struct engine *engine, const struct setting *setting, struct side side, size_t number,
                     float **output)
{
    memcpy(engine->decoder_samples(), decoder_input[number % SIGNAL_FRAMES], setting->frame * sizeof(float));
    int64_t start = clock_ns();
    *output = engine->decoder_frame(&side);
    return (double)(clock_ns() - start);
}

static void prepare_decoder(const struct engine *engine, const struct setting *setting, int which)
{
    float *output;
    engine->start(setting);
    for (size_t i = 0; i < 4; i++)
        decode(engine, setting, lead_side(which, typical), i, &output);
}

// Nanoseconds a frame over a row of frames of one case.
static double decoder_round(const struct engine *engine, const struct setting *setting, int which, long count,
                            double cost)
{
    static double ns[MAX_ROUND];
    float *output;
    for (long i = 0; i < count; i++) {
        if (has_lead(which))
            decode(engine, setting, lead_side(which, typical), (size_t)i + 7, &output);
        ns[i] = decode(engine, setting, case_side(which, typical, i), (size_t)i, &output);
    }
    return middle_mean(ns, (size_t)count) - cost;
}

// Every engine's output on the same frames against the Rust's.
static void check_decoders(const struct setting *setting, int which)
{
    bool knows[MAX_ENGINES];
    char what[32];
    snprintf(what, sizeof what, "decoder case %d", which);
    for (size_t e = 0; e < engine_count; e++)
        if ((knows[e] = engines[e]->start(setting)))
            prepare_decoder(engines[e], setting, which);
    for (long i = 0; i < 2 * SIGNAL_FRAMES; i++) {
        float *output[MAX_ENGINES];
        for (size_t e = 0; e < engine_count; e++) {
            if (!knows[e])
                continue;
            if (has_lead(which))
                decode(engines[e], setting, lead_side(which, typical), (size_t)i + 7, &output[e]);
            decode(engines[e], setting, case_side(which, typical, i), (size_t)i, &output[e]);
            if (!(engines[e]->is_exact ? same_samples : close_samples)(output[0], output[e], setting->frame))
                fail_different(setting, what, engines[e]->name);
        }
    }
}

struct times measure_decoder(const struct setting *setting, int which)
{
    double rounds[MAX_ENGINES][ROUNDS], cost = clock_cost();
    long count[MAX_ENGINES] = {0};
    struct times times = {{0}};
    for (size_t i = 0; i < SIGNAL_FRAMES; i++)
        decoder_signal(NOISE, setting, i, decoder_input[i]);
    check_decoders(setting, which);
    for (size_t e = 0; e < engine_count; e++) {
        if (!engines[e]->start(setting))
            continue;
        prepare_decoder(engines[e], setting, which);
        count[e] = frames_for(decoder_round(engines[e], setting, which, 200, cost));
    }
    // The engines take turns, so that all see the same machine.
    for (int r = 0; r < ROUNDS; r++)
        for (size_t e = 0; e < engine_count; e++)
            if (count[e] != 0)
                rounds[e][r] = decoder_round(engines[e], setting, which, count[e], cost);
    for (size_t e = 0; e < engine_count; e++)
        times.ns[e] = count[e] != 0 ? median(rounds[e], ROUNDS) : 0;
    return times;
}

static double encode(const struct engine *engine, const struct setting *setting, size_t number, struct record *record)
{
    memcpy(engine->encoder_samples(), encoder_input[number % SIGNAL_FRAMES], setting->frame * sizeof(int16_t));
    int64_t start = clock_ns();
    engine->encoder_frame(240, record);
    return (double)(clock_ns() - start);
}

// Nanoseconds a frame over a row of frames, from a frame number on.
static double encoder_round(const struct engine *engine, const struct setting *setting, size_t *number, long count,
                            double cost)
{
    static double ns[MAX_ROUND];
    struct record record;
    for (long i = 0; i < count; i++)
        ns[i] = encode(engine, setting, (*number)++, &record);
    return middle_mean(ns, (size_t)count) - cost;
}

// Every engine's records on the same frames against the Rust's, and that the signal is what it is meant to be:
// a voiced one has an active pitch in every frame but the first few, noise seldom has any.
static void check_encoders(const struct setting *setting, bool is_voiced)
{
    const char *what = is_voiced ? "encoder, voiced" : "encoder, noise";
    long fitting = 0;
    bool knows[MAX_ENGINES];
    for (size_t e = 0; e < engine_count; e++)
        knows[e] = engines[e]->start(setting);
    for (size_t i = 0; i < 2 * SIGNAL_FRAMES; i++) {
        struct record record[MAX_ENGINES];
        for (size_t e = 0; e < engine_count; e++) {
            if (!knows[e])
                continue;
            encode(engines[e], setting, i, &record[e]);
            // liblc3 computes on 16-bit numbers, so its noise frames may differ.
            bool is_held = engines[e]->is_exact || (is_voiced && i >= 8);
            if (is_held && !same_record(record[0], record[e]))
                fail_different(setting, what, engines[e]->name);
        }
        fitting += is_voiced ? record[0].active : !record[0].present;
    }
    if (fitting < 2 * SIGNAL_FRAMES - 8) {
        fprintf(stderr, "bench: %u Hz, %u us, %s: the signal is not what it should be\n", setting->rate,
                setting->duration, what);
        exit(1);
    }
}

struct times measure_encoder(const struct setting *setting, bool is_voiced)
{
    double rounds[MAX_ENGINES][ROUNDS], cost = clock_cost();
    long count[MAX_ENGINES] = {0};
    size_t number[MAX_ENGINES] = {0};
    struct times times = {{0}};
    for (size_t i = 0; i < SIGNAL_FRAMES; i++)
        encoder_signal(is_voiced ? VOICED : HISS, setting, i, encoder_input[i]);
    check_encoders(setting, is_voiced);
    for (size_t e = 0; e < engine_count; e++)
        if (engines[e]->start(setting))
            count[e] = frames_for(encoder_round(engines[e], setting, &number[e], SIGNAL_FRAMES, cost));
    for (int r = 0; r < ROUNDS; r++)
        for (size_t e = 0; e < engine_count; e++)
            if (count[e] != 0)
                rounds[e][r] = encoder_round(engines[e], setting, &number[e], count[e], cost);
    for (size_t e = 0; e < engine_count; e++)
        times.ns[e] = count[e] != 0 ? median(rounds[e], ROUNDS) : 0;
    return times;
}
