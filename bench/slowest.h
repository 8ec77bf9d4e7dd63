// Our slowest frame of a case over many kinds of input, against its duration and against the Rust on the same frame.
#ifndef SLOWEST_H
#define SLOWEST_H

#include "engine.h"

// What the slowest frame took, what the Rust took for it, and the name of its signal.
struct slowest {
    double ns, rust_ns;
    const char *signal;
};

// Each frame is also held to the Rust's output. Of both ears that is two runs of the Rust, whose times are added; both
// ears hear the same signal, each with its own lags.
struct slowest slowest_decoder(const struct setting *setting, int which);
struct slowest slowest_ears(const struct setting *setting, int which);
struct slowest slowest_encoder(const struct setting *setting);

#endif
