/*
 * Writes the bits of nabiteke_published.h as crate test_published writes those of crate published; examples/run compares
 * the two. The rows are those that the lookup gives, with its counts.
 */
#include "nabiteke_published.h"
#include <stdio.h>
#include <string.h>

static void print_table(const char *name, const float *table, size_t count)
{
    size_t i;
    printf("%s %u\n", name, (unsigned)count);
    for (i = 0; i < count; i++) {
        uint32_t bits;
        memcpy(&bits, &table[i], sizeof bits);
        printf("%08x\n", bits);
    }
}

int main(void)
{
    static const uint32_t rates[] = {8000, 16000, 24000, 32000, 48000};
    const nabiteke_sets sets = nabiteke_published_sets();
    char name[32];
    size_t i;
    print_table("resampling", sets.resampling, sets.resampling_count);
    print_table("correlation_interpolation", sets.correlation, sets.correlation_count);
    print_table("signal_interpolation", sets.signal, sets.signal_count);
    for (i = 0; i < sizeof rates / sizeof *rates; i++) {
        const nabiteke_rows rows = nabiteke_published_rows(rates[i]);
        snprintf(name, sizeof name, "numerator_%u", rates[i]);
        print_table(name, rows.numerators, rows.numerator_count);
        snprintf(name, sizeof name, "denominator_%u", rates[i]);
        print_table(name, rows.denominators, rows.denominator_count);
    }
    return 0;
}
