/*
 * Prints the frame length at each duration and the counts of the rows, of the six rates and of neighbours that are
 * unknown. lengths.expected is the scope's table of rates, copied by hand.
 */
#include "nabiteke_published.h"
#include <stdio.h>

int main(void)
{
    static const uint32_t rates[] = {0, 7999, 8000, 16000, 24000, 32000, 44100, 48000, 48001, 4294967295u};
    size_t i;
    for (i = 0; i < sizeof rates / sizeof *rates; i++) {
        const nabiteke_rows rows = nabiteke_published_rows(rates[i]);
        printf("%u: frame %u / %u / %u / %u, rows %u and %u, lent %u and %u\n", rates[i],
               (unsigned)nabiteke_frame_length(rates[i], 10000), (unsigned)nabiteke_frame_length(rates[i], 7500),
               (unsigned)nabiteke_frame_length(rates[i], 10), (unsigned)nabiteke_frame_length(rates[i], 10001),
               (unsigned)nabiteke_numerator_count(rates[i]), (unsigned)nabiteke_denominator_count(rates[i]),
               (unsigned)rows.numerator_count, (unsigned)rows.denominator_count);
    }
    return 0;
}
