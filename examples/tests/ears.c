/*
 * A frame of both ears gives, bit for bit, what two decoders by themselves give of the parted samples: answers, samples
 * and structs, with every case of one ear beside every case of the other, at every rate and duration, with the rings of
 * the two at the same place and at others. Prints how many frames were of each pair of cases, told by the structs;
 * ears.expected counts them by hand: 12 rates and durations, 3 pasts of the right ear.
 */
#include "cases.h"

enum { ROOM = 2 * MAX_FRAME + 2 };

static unsigned frames[CASES][CASES];

/* The case of a frame, counted from 0, by the struct before and after it: whether it was active, and with which lag. */
static int case_of(const nabiteke_decoder *before, const nabiteke_decoder *after)
{
    const int same = before->numbers[4] == after->numbers[4] && before->numbers[5] == after->numbers[5];
    if (!before->numbers[2])
        return after->numbers[2] ? 1 : 0;
    return !after->numbers[2] ? 2 : same ? 3 : 4;
}

/* Only a frame of the first case goes through unchanged. */
static void demand_filtered(int which, const float *before, const float *after, size_t frame)
{
    const int same = memcmp(before, after, frame * sizeof(float)) == 0;
    demand(same == (which == 0), "the first case leaves the samples, the others change them");
}

static void compare(const nabiteke_decoder pasts[2], const nabiteke_pitch pitches[2], uint32_t rate, size_t frame)
{
    const nabiteke_rows rows = nabiteke_published_rows(rate);
    nabiteke_decoder ears[2], alone[2];
    float samples[ROOM], expected[ROOM], given[MAX_FRAME], own[MAX_FRAME];
    nabiteke_ear_answers answers;
    int ear, which[2];
    memcpy(ears, pasts, sizeof ears);
    memcpy(alone, pasts, sizeof alone);
    make_noise(samples, ROOM, 77);
    memcpy(expected, samples, sizeof expected);
    for (ear = 0; ear < 2; ear++) {
        part(given, samples + ear, frame);
        memcpy(own, given, sizeof own);
        demand(nabiteke_decoder_frame(&alone[ear], &rows, pitches[ear], NBITS, own, frame) == NABITEKE_DONE,
               "a frame of one ear is done");
        put(expected + ear, own, frame);
        which[ear] = case_of(&pasts[ear], &alone[ear]);
        demand_filtered(which[ear], given, own, frame);
    }
    answers = nabiteke_decoder_frame_both(&ears[0], &ears[1], &rows, pitches[0], pitches[1], NBITS, samples, 2 * frame);
    demand(answers.left == NABITEKE_DONE && answers.right == NABITEKE_DONE, "a frame of both ears is done");
    demand(memcmp(samples, expected, sizeof samples) == 0, "the samples are those of two decoders");
    demand(memcmp(&ears[0], &alone[0], sizeof ears[0]) == 0, "the left struct is that of a decoder by itself");
    demand(memcmp(&ears[1], &alone[1], sizeof ears[1]) == 0, "the right struct is that of a decoder by itself");
    frames[which[0]][which[1]]++;
}

static void compare_at(uint32_t rate, uint32_t duration)
{
    const size_t frame = nabiteke_frame_length(rate, duration);
    nabiteke_decoder pasts[2];
    nabiteke_pitch pitches[2];
    size_t older;
    int left, right;
    for (left = 0; left < CASES; left++)
        for (right = 0; right < CASES; right++)
            for (older = 1; older <= 3; older++) {
                lead_to(&pasts[0], left, 2, rate, duration, 10);
                lead_to(&pasts[1], right, older, rate, duration, 20);
                pitches[0] = cases[left].now;
                pitches[1] = cases[right].now;
                compare(pasts, pitches, rate, frame);
            }
}

int main(void)
{
    int i, left, right;
    for (i = 0; i < RATES; i++) {
        compare_at(rates[i], 10000);
        compare_at(rates[i], 7500);
    }
    for (left = 0; left < CASES; left++)
        for (right = 0; right < CASES; right++)
            printf("left in case %d, right in case %d: %u frames, all as of two decoders\n", left + 1, right + 1,
                   frames[left][right]);
    return 0;
}
