// Measures the Rust, liblc3 (where it was built in) and our library side by side, and prints the tables.
// Its arguments are the speeds of the listing programs lags and replay in MB/s, which are measured beforehand and go into the first table.
#include "cases.h"
#include "ears.h"
#include "measure.h"
#include "slowest.h"
#include <stdio.h>

static const struct setting settings[] = {
    {8000, 10000, 80},   {8000, 7500, 60},   {16000, 10000, 160}, {16000, 7500, 120},
    {24000, 10000, 240}, {24000, 7500, 180}, {32000, 10000, 320}, {32000, 7500, 240},
    {44100, 10000, 480}, {44100, 7500, 360}, {48000, 10000, 480}, {48000, 7500, 360},
};

enum { SETTINGS = sizeof settings / sizeof *settings };

// A target holds where its worst row does. `worst` is 0 until a row was seen.
struct target {
    const char *text;
    bool is_upper;
    double limit, worst;
};

enum { FIVE_TIMES, LIBLC3, THREE_TIMES, COPY, FOUR_TIMES, SHARE, SHARE_BOTH, SLOWEST, BOTH_EARS, TARGETS };

static struct target targets[TARGETS] = {
    {"decoder at 48000, cases 2, 4 and 5: times as fast as the Rust", false, 5, 0},
    {"decoder at 48000, cases 2, 4 and 5: times as fast as liblc3", false, 1, 0},
    {"decoder at 8000 and 16000, cases 2, 4 and 5: times as fast as the Rust", false, 3, 0},
    {"decoder at 48000, case 1: nanoseconds", true, 400, 0},
    {"encoder at every rate: times as fast as the Rust", false, 4, 0},
    {"slowest frame of one ear or the encoder: percent of its duration", true, 2, 0},
    {"slowest frame of both ears: percent of its duration", true, 4, 0},
    {"slowest frame of each end and of both ears, rate and duration: times what the Rust takes for the same frame", true, 1.2, 0},
    {"frame of both ears at 48000, every case: times a frame of one ear", true, 2.2, 0},
};

static void hold(int which, double value)
{
    struct target *target = &targets[which];
    if (target->worst == 0 || (target->is_upper ? value > target->worst : value < target->worst))
        target->worst = value;
}

static double percent_of_duration(const struct setting *setting, struct slowest slowest)
{
    return slowest.ns / (setting->duration * 1e3) * 100;
}

static void hold_decoder(const struct setting *setting, int which, double rust, double liblc3, double ours)
{
    if (setting->rate == 48000 && which == 1)
        hold(COPY, ours);
    if (which != 2 && which != 4 && which != 5)
        return;
    if (setting->rate == 8000 || setting->rate == 16000)
        hold(THREE_TIMES, rust / ours);
    if (setting->rate == 48000)
        hold(FIVE_TIMES, rust / ours);
    if (setting->rate == 48000 && liblc3 > 0)
        hold(LIBLC3, liblc3 / ours);
}

// The slowest frame of an end, or of both ears, at a rate and duration.
static void hold_slowest(const struct setting *setting, struct slowest slowest, int share)
{
    hold(share, percent_of_duration(setting, slowest));
    hold(SLOWEST, slowest.ns / slowest.rust_ns);
}

// A cell of liblc3's: nothing where it is left out, a dash where it does not know the rate.
static void print_liblc3(const char *format, double value)
{
    if (engine_count < MAX_ENGINES)
        return;
    if (value > 0)
        printf(format, value);
    else
        printf(" - |");
}

static void print_head(void)
{
    bool is_in = engine_count == MAX_ENGINES;
    printf("| Hz | ms | what | Rust ns |%s ours ns | Rust / ours |%s", is_in ? " liblc3 ns |" : "",
           is_in ? " liblc3 / ours |" : "");
    printf(" slowest frame, of its duration | slowest / Rust |\n");
    printf("|---|---|---|---|---|---|---|---|%s\n", is_in ? "---|---|" : "");
}

static const char *milliseconds(const struct setting *setting)
{
    return setting->duration == 10000 ? "10" : "7.5";
}

// The last two cells of a row.
static void print_slowest(const struct setting *setting, struct slowest slowest)
{
    printf(" %.2g%% (%s) | %.2f |\n", percent_of_duration(setting, slowest), slowest.signal,
           slowest.ns / slowest.rust_ns);
    fflush(stdout);
}

static void print_row(const struct setting *setting, const char *what, double rust, double liblc3, double ours,
                      struct slowest slowest)
{
    printf("| %u | %s | %s | %.0f |", setting->rate, milliseconds(setting), what, rust);
    print_liblc3(" %.0f |", liblc3);
    printf(" %.0f | %.2f |", ours, rust / ours);
    print_liblc3(" %.2f |", liblc3 / ours);
    print_slowest(setting, slowest);
}

// The engines in their order: the Rust, ours, liblc3.
static void measure_setting(const struct setting *setting)
{
    char what[32];
    struct slowest slowest_case = {0, 0, ""};
    for (int which = 1; which <= CASES; which++) {
        struct times times = measure_decoder(setting, which);
        struct slowest slowest = slowest_decoder(setting, which);
        snprintf(what, sizeof what, "decoder case %d", which);
        print_row(setting, what, times.ns[0], times.ns[2], times.ns[1], slowest);
        hold_decoder(setting, which, times.ns[0], times.ns[2], times.ns[1]);
        if (slowest.ns > slowest_case.ns)
            slowest_case = slowest;
    }
    hold_slowest(setting, slowest_case, SHARE);
    struct slowest slowest = slowest_encoder(setting);
    hold_slowest(setting, slowest, SHARE);
    for (int is_voiced = 1; is_voiced >= 0; is_voiced--) {
        struct times times = measure_encoder(setting, is_voiced);
        print_row(setting, is_voiced ? "encoder, voiced" : "encoder, noise", times.ns[0], times.ns[2], times.ns[1],
                  slowest);
        hold(FOUR_TIMES, times.ns[0] / times.ns[1]);
    }
}

// The Rust and liblc3 have no listings.
static void print_listing(const char *program, const char *speed)
{
    printf("| - | - | %s | - |", program);
    print_liblc3(" - |", 0);
    printf(" %s MB/s | - |", speed);
    print_liblc3(" - |", 0);
    printf(" - | - |\n");
}

static void measure_both_ears(const struct setting *setting)
{
    struct slowest slowest_case = {0, 0, ""};
    for (int which = 1; which <= CASES; which++) {
        struct ears_times times = measure_ears(setting, which);
        struct slowest slowest = slowest_ears(setting, which);
        double ratio = times.both / times.one;
        printf("| %u | %s | %d | %.0f | %.0f | %.2f |", setting->rate, milliseconds(setting), which, times.one,
               times.both, ratio);
        print_slowest(setting, slowest);
        hold(BOTH_EARS, ratio);
        if (slowest.ns > slowest_case.ns)
            slowest_case = slowest;
    }
    hold_slowest(setting, slowest_case, SHARE_BOTH);
}

// A table of its own: both ears in one call, at 48000.
static void print_ears(void)
{
    fprintf(stderr, "bench: both ears\n");
    printf("\n| Hz | ms | case | one ear ns | both ears ns | ratio | slowest frame, of its duration | slowest / Rust |\n");
    printf("|---|---|---|---|---|---|---|---|\n");
    for (size_t i = 0; i < SETTINGS; i++)
        if (settings[i].rate == 48000)
            measure_both_ears(&settings[i]);
}

static void print_targets(void)
{
    printf("\n| target | asked | worst | |\n|---|---|---|---|\n");
    for (int t = 0; t < TARGETS; t++) {
        const struct target *target = &targets[t];
        if (target->worst == 0)
            continue;
        bool is_met = target->is_upper ? target->worst <= target->limit : target->worst >= target->limit;
        printf("| %s | %s %g | %.2f | %s |\n", target->text, target->is_upper ? "at most" : "at least", target->limit,
               target->worst, is_met ? "met" : "MISSED");
    }
}

int main(int count_of_words, char **words)
{
    if (count_of_words != 3) {
        fprintf(stderr, "usage: bench LAGS-MB-PER-SECOND REPLAY-MB-PER-SECOND\n");
        return 2;
    }
    engines[engine_count++] = &rust_engine;
    engines[engine_count++] = &our_engine;
#ifdef WITH_LIBLC3
    engines[engine_count++] = &liblc3_engine;
#endif
    print_head();
    for (size_t i = 0; i < SETTINGS; i++) {
        fprintf(stderr, "bench: %u Hz, %u us (%zu of %d)\n", settings[i].rate, settings[i].duration, i + 1, SETTINGS);
        measure_setting(&settings[i]);
    }
    print_listing("lags", words[1]);
    print_listing("replay", words[2]);
    print_ears();
    print_targets();
    return 0;
}
