// The clock, and what is made of many times.
#ifndef CLOCK_H
#define CLOCK_H

#include <stdint.h>
#include <stdlib.h>
#include <time.h>

// A row's figure is the median of this many rounds; a round is about this long, and has at most so many frames.
enum { ROUNDS = 31, ROUND_NS = 2000000, MAX_ROUND = 4096 };

static inline int64_t clock_ns(void)
{
    struct timespec t;
    clock_gettime(CLOCK_MONOTONIC, &t);
    return (int64_t)t.tv_sec * 1000000000 + t.tv_nsec;
}

static inline int compare_doubles(const void *a, const void *b)
{
    double x = *(const double *)a, y = *(const double *)b;
    return (x > y) - (x < y);
}

static inline double median(double *values, size_t count)
{
    qsort(values, count, sizeof *values, compare_doubles);
    return values[count / 2];
}

// The mean of the middle half: what other programs took from a few frames does not count.
static inline double middle_mean(double *values, size_t count)
{
    double sum = 0;
    size_t from = count / 4, to = count - count / 4;
    qsort(values, count, sizeof *values, compare_doubles);
    for (size_t i = from; i < to; i++)
        sum += values[i];
    return sum / (double)(to - from);
}

// An even count of frames that takes about as long as a round should.
static inline long frames_for(double ns)
{
    long count = ns * MAX_ROUND < ROUND_NS ? MAX_ROUND : (long)(ROUND_NS / ns);
    return (count < 16 ? 16 : count) & ~1L;
}

// What two readings of the clock cost when nothing lies between them; taken off every time.
static inline double clock_cost(void)
{
    double costs[1001];
    for (int i = 0; i < 1001; i++) {
        int64_t start = clock_ns();
        costs[i] = (double)(clock_ns() - start);
    }
    return median(costs, 1001);
}

#endif
