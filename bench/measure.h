// The side-by-side measurement: the same frames for every engine, and the median of many rounds.
#ifndef MEASURE_H
#define MEASURE_H

#include "engine.h"

enum { MAX_ENGINES = 3 };

// The engines of this run. The Rust is the first.
extern const struct engine *engines[MAX_ENGINES];
extern size_t engine_count;

// Nanoseconds a frame of each engine, 0 where it does not know the setting.
struct times {
    double ns[MAX_ENGINES];
};

// Checks first that all engines do the same work on these frames, and ends the program if not.
struct times measure_decoder(const struct setting *setting, int which);
struct times measure_encoder(const struct setting *setting, bool is_voiced);

// Equal bits, any NaN for any NaN.
bool same_samples(const float *a, const float *b, size_t count);

// Equal but for the index of lags 127 to 156, which the Rust codes wrongly (docs/DIFFERENCES.md).
bool same_record(struct record rust, struct record other);

// Ends the program: two engines gave different results.
void fail_different(const struct setting *setting, const char *what, const char *name);

#endif
