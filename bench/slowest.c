#include "slowest.h"
#include "cases.h"
#include "clock.h"
#include "measure.h"
#include "signals.h"
#include <string.h>

// A frame is run this often from the same state, and its least time counts: what other programs take is not ours.
enum { REPEATS = 9, DECODER_FRAMES = 12, ENCODER_FRAMES = 48, EARS = 2, LEADS = 4, MAX_ROW = LEADS + 2 * DECODER_FRAMES };

static double lesser(int turn, double least, double ns)
{
    return turn == 0 || ns < least ? ns : least;
}

// The least time of an engine's decoder frame, of an ear or of both. The state and the samples are put back before
// each turn.
static double decode(const struct engine *engine, size_t count, const struct side *sides, const float *input,
                     float **output)
{
    double least = 0;
    engine->keep_state();
    for (int turn = 0; turn < REPEATS; turn++) {
        engine->put_state_back();
        memcpy(engine->decoder_samples(), input, count * sizeof *input);
        int64_t start = clock_ns();
        *output = engine->decoder_frame(sides);
        least = lesser(turn, least, (double)(clock_ns() - start));
    }
    return least;
}

// The least time of an engine's encoder frame.
static double encode(const struct engine *engine, const struct setting *setting, const int16_t *input,
                     struct record *record)
{
    double least = 0;
    engine->keep_state();
    memcpy(engine->encoder_samples(), input, setting->frame * sizeof *input);
    for (int turn = 0; turn < REPEATS; turn++) {
        engine->put_state_back();
        int64_t start = clock_ns();
        engine->encoder_frame(240, record);
        least = lesser(turn, least, (double)(clock_ns() - start));
    }
    return least;
}

// Both engines on one decoder frame, with the same output.
static struct slowest decode_both(const struct setting *setting, struct side side, const float *input)
{
    float *ours, *theirs;
    struct slowest took = {0, 0, ""};
    took.rust_ns = decode(&rust_engine, setting->frame, &side, input, &theirs);
    took.ns = decode(&our_engine, setting->frame, &side, input, &ours);
    if (!same_samples(theirs, ours, setting->frame))
        fail_different(setting, "decoder", our_engine.name);
    return took;
}

// Both engines on one encoder frame, with the same record.
static struct slowest encode_both(const struct setting *setting, const int16_t *input)
{
    struct record ours, theirs;
    struct slowest took = {0, 0, ""};
    took.rust_ns = encode(&rust_engine, setting, input, &theirs);
    took.ns = encode(&our_engine, setting, input, &ours);
    if (!same_record(theirs, ours))
        fail_different(setting, "encoder", our_engine.name);
    return took;
}

static void keep_slower(struct slowest *slowest, struct slowest took, const char *signal)
{
    if (took.ns > slowest->ns)
        *slowest = (struct slowest){took.ns, took.rust_ns, signal};
}

// What reading the clock costs is taken off at the end.
static struct slowest without_clock(struct slowest slowest)
{
    double cost = clock_cost();
    return (struct slowest){slowest.ns - cost, slowest.rust_ns - cost, slowest.signal};
}

// A row of frames with one signal and, for each ear, its lags: some that lead to the case, and then those of the case,
// each after its lead where it has one.
struct row {
    int which;
    enum decoder_signal signal;
    struct indices indices[EARS];
};

static size_t row_length(int which)
{
    return LEADS + DECODER_FRAMES * (has_lead(which) ? 2 : 1);
}

static bool is_of_case(int which, size_t number)
{
    return number >= LEADS && (!has_lead(which) || (number - LEADS) % 2 == 1);
}

static struct side side_at(const struct row *row, size_t ear, size_t number)
{
    if (!is_of_case(row->which, number))
        return lead_side(row->which, row->indices[ear]);
    return case_side(row->which, row->indices[ear], (long)((number - LEADS) / (has_lead(row->which) ? 2 : 1)));
}

// One ear by itself.
static void try_decoder(const struct setting *setting, const struct row *row, struct slowest *slowest)
{
    rust_engine.start(setting);
    our_engine.start(setting);
    for (size_t number = 0; number < row_length(row->which); number++) {
        float input[MAX_FRAME];
        decoder_signal(row->signal, setting, number, input);
        struct slowest took = decode_both(setting, side_at(row, 0, number), input);
        if (is_of_case(row->which, number))
            keep_slower(slowest, took, decoder_signal_names[row->signal]);
    }
}

// What the Rust gave and took in each frame of a row, an ear at a time.
static struct {
    float output[EARS][MAX_ROW][MAX_FRAME];
    double ns[EARS][MAX_ROW];
} rust_row;

static void run_rust(const struct setting *setting, const struct row *row, size_t ear)
{
    rust_engine.start(setting);
    for (size_t number = 0; number < row_length(row->which); number++) {
        float input[MAX_FRAME], *output;
        struct side side = side_at(row, ear, number);
        decoder_signal(row->signal, setting, number, input);
        rust_row.ns[ear][number] = decode(&rust_engine, setting->frame, &side, input, &output);
        memcpy(rust_row.output[ear][number], output, setting->frame * sizeof *output);
    }
}

// Holds both ears' outputs to what the Rust gave for each.
static void hold_ears(const struct setting *setting, size_t number, const float *both)
{
    for (size_t ear = 0; ear < EARS; ear++) {
        float output[MAX_FRAME];
        for (size_t n = 0; n < setting->frame; n++)
            output[n] = both[EARS * n + ear];
        if (!same_samples(rust_row.output[ear][number], output, setting->frame))
            fail_different(setting, "both ears", our_ears.name);
    }
}

static void try_ears(const struct setting *setting, const struct row *row, struct slowest *slowest)
{
    for (size_t ear = 0; ear < EARS; ear++)
        run_rust(setting, row, ear);
    our_ears.start(setting);
    for (size_t number = 0; number < row_length(row->which); number++) {
        float input[MAX_FRAME], both[EARS * MAX_FRAME], *output;
        const struct side sides[EARS] = {side_at(row, 0, number), side_at(row, 1, number)};
        decoder_signal(row->signal, setting, number, input);
        for (size_t n = 0; n < EARS * setting->frame; n++)
            both[n] = input[n / EARS];
        double ns = decode(&our_ears, EARS * setting->frame, sides, both, &output);
        hold_ears(setting, number, output);
        if (is_of_case(row->which, number))
            keep_slower(slowest, (struct slowest){ns, rust_row.ns[0][number] + rust_row.ns[1][number], ""},
                        decoder_signal_names[row->signal]);
    }
}

// Rows of every signal with four pairs of indices; the other ear has the next pair.
static struct slowest slowest_row(const struct setting *setting, int which,
                                  void (*try)(const struct setting *, const struct row *, struct slowest *))
{
    // At 10 ms the Rust's fifth case rereads its own samples at the longest lags; ours does not.
    bool is_short = which == 5 && setting->duration == 10000;
    const struct indices tried[] = {{200, 230}, {0, 1}, {379, 380}, {is_short ? 505 : 511, 440}};
    size_t pairs = sizeof tried / sizeof *tried;
    struct slowest slowest = {0, 0, ""};
    for (size_t t = 0; t < pairs; t++)
        for (int signal = 0; signal < DECODER_SIGNALS; signal++) {
            const struct row row = {which, (enum decoder_signal)signal, {tried[t], tried[(t + 1) % pairs]}};
            try(setting, &row, &slowest);
        }
    return without_clock(slowest);
}

struct slowest slowest_decoder(const struct setting *setting, int which)
{
    return slowest_row(setting, which, try_decoder);
}

struct slowest slowest_ears(const struct setting *setting, int which)
{
    return slowest_row(setting, which, try_ears);
}

struct slowest slowest_encoder(const struct setting *setting)
{
    struct slowest slowest = {0, 0, ""};
    for (int signal = 0; signal < ENCODER_SIGNALS; signal++) {
        int16_t input[MAX_FRAME];
        rust_engine.start(setting);
        our_engine.start(setting);
        for (size_t i = 0; i < ENCODER_FRAMES; i++) {
            encoder_signal((enum encoder_signal)signal, setting, i, input);
            keep_slower(&slowest, encode_both(setting, input), encoder_signal_names[signal]);
        }
    }
    return without_clock(slowest);
}
