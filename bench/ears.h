// Our frame of both ears beside our frame of one ear.
#ifndef EARS_H
#define EARS_H

#include "engine.h"

// Nanoseconds a frame.
struct ears_times {
    double one, both;
};

// Both ears are in the same case, each with its own samples and lags. Checks first that both ears in one call give what
// each gives by itself, and that it is what the Rust gives; ends the program if not.
struct ears_times measure_ears(const struct setting *setting, int which);

#endif
