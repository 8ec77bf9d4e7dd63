// How a decoder is brought to each of the five cases.
#ifndef CASES_H
#define CASES_H

#include "engine.h"

enum { CASES = 5 };

// The pitch indices of a row of frames: case 5 changes between the two, the others keep the first.
struct indices {
    uint32_t first, second;
};

// The side information of the frame that is timed, the `turn`th of its case.
static inline struct side case_side(int which, struct indices indices, long turn)
{
    bool active = which == 2 || which >= 4;
    return (struct side){active, which == 5 && turn % 2 == 0 ? indices.second : indices.first, 240};
}

// The side information of the frame that comes before: before each timed one where `has_lead`, else once.
static inline bool has_lead(int which)
{
    return which == 2 || which == 3;
}

static inline struct side lead_side(int which, struct indices indices)
{
    return (struct side){which >= 3, indices.first, 240};
}

#endif
