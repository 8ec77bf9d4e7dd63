/*
 * What a frame of both ears answers and leaves with every set of faults, at every rate and duration: five that the ears
 * share and three of each ear's own, so 2048 sets. A fault is made in five variants, in each of which the frames are of
 * another case; sets of at most two faults are tried in all of them, the others in one. Then every pair of names that
 * two structs can have. A refused ear keeps struct and samples byte by byte, full of NaNs with different payloads; the
 * other gives what it gives by itself. Prints how many ears got each answer; ear_refusals.expected counts them by hand,
 * as is said below.
 */
#include "cases.h"

enum { ROOM = 2 * MAX_FRAME + 2, LENT = 53, KINDS = 15 };

/* The faults that the ears share, in the order of their answers, and those of one ear. */
enum { DIFFER = 1, ROWS = 2, COEFFICIENT = 4, COUNT = 8, BITS = 16, SHARED = 32 };
enum { UNFIT = 1, INDEX = 2, SAMPLE = 4, OWN = 8 };

/* The states that calls begin with, as they are and full of NaNs, and the samples, with NaNs behind the frames. */
static nabiteke_decoder pasts[2], painted[2];
static float noise[ROOM];

/* What a call is given, and how many ears got each answer. */
static nabiteke_decoder ears[2];
static nabiteke_pitch pitches[2];
static nabiteke_rows rows;
static uint32_t nbits;
static float samples[ROOM];
static size_t count;
static unsigned answered[16];

static void put_bits(float *place, uint32_t bits)
{
    memcpy(place, &bits, sizeof bits);
}

/* NaNs of both signs, quiet and signalling, each with another payload. */
static void paint(float *values, size_t values_count, uint32_t seed)
{
    size_t i;
    for (i = 0; i < values_count; i++)
        put_bits(&values[i], 0x7f800001u | ((seed + (uint32_t)i) * 2654435761u & 0x807fffffu));
}

static void paint_decoder(nabiteke_decoder *decoder, uint32_t seed)
{
    paint(decoder->kept, 24, seed);
    paint(decoder->inputs, 1080, seed + 100);
    paint(decoder->outputs, 1080, seed + 2000);
}

/* Makes the call. An ear that is not refused must do what it does by itself. */
static void try_call(uint32_t left, uint32_t right)
{
    const uint32_t expected[2] = {left, right};
    static nabiteke_decoder alone[2];
    float after[ROOM], own[MAX_FRAME];
    nabiteke_ear_answers answers;
    int ear;
    memcpy(alone, ears, sizeof alone);
    memcpy(after, samples, sizeof after);
    for (ear = 0; ear < 2; ear++) {
        if (expected[ear] != NABITEKE_DONE)
            continue;
        part(own, samples + ear, count / 2);
        demand(nabiteke_decoder_frame(&alone[ear], &rows, pitches[ear], nbits, own, count / 2) == NABITEKE_DONE,
               "a frame of one ear is done");
        put(after + ear, own, count / 2);
    }
    answers = nabiteke_decoder_frame_both(&ears[0], &ears[1], &rows, pitches[0], pitches[1], nbits, samples, count);
    demand(answers.left == left, "the left answer");
    demand(answers.right == right, "the right answer");
    demand(memcmp(&ears[0], &alone[0], sizeof ears[0]) == 0, "the left struct is kept, or as of a decoder by itself");
    demand(memcmp(&ears[1], &alone[1], sizeof ears[1]) == 0, "the right struct is kept, or as of a decoder by itself");
    demand(memcmp(samples, after, sizeof after) == 0, "the samples are kept, or as of a decoder by itself");
    answered[left]++;
    answered[right]++;
}

/*
 * An ear's answer: the first that applies. Of all 2048 sets 1024 give an ear 13, and half as many each answer that
 * follows: 512, 256, 128, 64, 32, 16 and 8; and 8 give 0. With 2 ears and 12 rates and durations that is 24 times.
 * Of the 67 sets of at most two faults 11 give 13, and one less each that follows: 10, 9, 8, 7, 6, 5 and 4; and 7 give
 * 0. These are tried in 4 variants more: 96 times.
 */
static uint32_t answer_of(int shared, int own)
{
    return shared & DIFFER        ? NABITEKE_EARS
           : own & UNFIT          ? NABITEKE_UNFIT
           : shared & ROWS        ? NABITEKE_ROWS
           : shared & COEFFICIENT ? NABITEKE_COEFFICIENT
           : shared & COUNT       ? NABITEKE_SAMPLE_COUNT
           : shared & BITS        ? NABITEKE_NBITS
           : own & INDEX          ? NABITEKE_PITCH_INDEX
           : own & SAMPLE         ? NABITEKE_SAMPLE
                                  : NABITEKE_DONE;
}

/* Another rate or duration in one of the structs, which may be fit with it or not; or a struct of zero bytes. */
static void make_differ(int variant)
{
    switch (variant) {
    case 0: ears[1].numbers[1] = ears[1].numbers[1] == 7500 ? 10000 : 7500; break;
    case 1: ears[0].numbers[0] = ears[0].numbers[0] == 48000 ? 44100 : 48000; break;
    case 2: memset(&ears[1], 0, sizeof ears[1]); break;
    case 3: memset(&ears[0], 0, sizeof ears[0]); break;
    default: ears[1].numbers[0]++; break;
    }
}

/* A block start off its place or outside, a run above its limit, a lag or a quarter that there is not. */
static void make_unfit(nabiteke_decoder *decoder, int variant)
{
    static const int places[CASES] = {3, 3, 6, 4, 5};
    static const uint32_t numbers[CASES] = {1, 1080, 4, 4294967295u, 4};
    decoder->numbers[2] = variant > 2;
    decoder->numbers[6] = 0;
    decoder->numbers[places[variant]] = numbers[variant];
}

/* Rows with one entry too few or too many, or none. */
static void make_rows_wrong(int variant)
{
    switch (variant) {
    case 0: rows.numerator_count--; break;
    case 1: rows.denominator_count--; break;
    case 2: rows.numerator_count++; break;
    case 3: rows.denominator_count++; break;
    default: rows.numerator_count = rows.denominator_count = 0; break;
    }
}

static void make_samples_wrong(float *own, size_t frame, int variant)
{
    size_t i;
    switch (variant) {
    case 0: own[0] = -1048576.125f; break;
    case 1: put_bits(&own[2 * frame - 2], 0xff812345u); break;
    case 2: put_bits(&own[2 * frame - 2], 0x7f800000u); break;
    default:
        for (i = 0; i < frame; i++)
            paint(&own[2 * i], 1, (uint32_t)(9000 * variant + i));
        break;
    }
}

/* One set of faults, each made as the variant says. */
static void try_faults(int shared, const int own[2], int variant, uint32_t rate, size_t frame)
{
    static float numerators[LENT], denominators[LENT];
    const size_t counts[CASES] = {2 * frame - 1, 2 * frame + 1, frame, 0, 2 * frame + 2};
    const nabiteke_pitch too_large = {1, variant < 3 ? 512 : 4294967295u, (uint32_t)variant % 2};
    const uint32_t expected[2] = {answer_of(shared, own[0]), answer_of(shared, own[1])};
    const nabiteke_rows lent = nabiteke_published_rows(rate);
    int ear;
    memcpy(samples, noise, sizeof samples);
    memcpy(numerators, lent.numerators, lent.numerator_count * sizeof(float));
    memcpy(denominators, lent.denominators, lent.denominator_count * sizeof(float));
    rows = lent;
    rows.numerators = numerators;
    rows.denominators = denominators;
    nbits = NBITS;
    if (shared & BITS)
        nbits = variant % 2 ? 4294967295u : 3201;
    count = shared & COUNT ? counts[variant] : 2 * frame;
    for (ear = 0; ear < 2; ear++) {
        memcpy(&ears[ear], expected[ear] == NABITEKE_DONE ? &pasts[ear] : &painted[ear], sizeof ears[ear]);
        pitches[ear] = own[ear] & INDEX ? too_large : cases[(variant + ear) % CASES].now;
        if (own[ear] & UNFIT)
            make_unfit(&ears[ear], variant);
        if (own[ear] & SAMPLE)
            make_samples_wrong(samples + ear, frame, variant);
    }
    if (shared & DIFFER)
        make_differ(variant);
    if (shared & COEFFICIENT)
        put_bits(variant % 2 ? &numerators[variant == 1 ? 0 : lent.numerator_count - 1]
                             : &denominators[variant == 2 ? 0 : lent.denominator_count - 1],
                 variant < 3 ? 0x7fc01234u : 0xff800000u);
    if (shared & ROWS)
        make_rows_wrong(variant);
    try_call(expected[0], expected[1]);
}

static int faults_in(int set)
{
    int faults = 0;
    for (; set; set >>= 1)
        faults += set & 1;
    return faults;
}

/* All sets in the one variant, those of at most two faults in the others too. */
static void try_at(uint32_t rate, uint32_t duration, int whole)
{
    const size_t frame = nabiteke_frame_length(rate, duration);
    int variant, shared, own[2];
    make_noise(noise, 2 * frame, 55);
    paint(noise + 2 * frame, ROOM - 2 * frame, 3);
    for (variant = 0; variant < CASES; variant++) {
        lead_to(&pasts[0], variant, 1, rate, duration, 30);
        lead_to(&pasts[1], (variant + 1) % CASES, 2, rate, duration, 40);
        memcpy(painted, pasts, sizeof painted);
        paint_decoder(&painted[0], 0);
        paint_decoder(&painted[1], 4000);
        for (shared = 0; shared < SHARED; shared++)
            for (own[0] = 0; own[0] < OWN; own[0]++)
                for (own[1] = 0; own[1] < OWN; own[1]++)
                    if (variant == whole || faults_in(shared) + faults_in(own[0]) + faults_in(own[1]) <= 2)
                        try_faults(shared, own, variant, rate, frame);
    }
}

/* A struct of each of the 12 names; of zero bytes; and of a rate and of a duration that are unknown. */
static void make_kind(nabiteke_decoder *decoder, int kind)
{
    lead_to(decoder, 1, 1, rates[kind % RATES], kind / RATES % 2 ? 7500 : 10000, 60);
    if (kind == KINDS - 3)
        memset(decoder, 0, sizeof *decoder);
    if (kind == KINDS - 2)
        decoder->numbers[0] = 22050;
    if (kind == KINDS - 1)
        decoder->numbers[1] = 5000;
}

/*
 * 15 kinds of the left ear and of the right: 210 pairs differ, so 420 ears get 13, whatever else they are; 3 pairs are
 * alike and unfit, so 6 ears get 9; 12 pairs are done, 24 ears.
 */
static void try_kinds(int left, int right)
{
    static nabiteke_decoder kind;
    uint32_t expected = NABITEKE_DONE;
    make_kind(&ears[0], left);
    make_kind(&ears[1], right);
    make_kind(&kind, left % (2 * RATES));
    rows = nabiteke_published_rows(kind.numbers[0]);
    count = 2 * nabiteke_frame_length(kind.numbers[0], kind.numbers[1]);
    pitches[0] = cases[1].now;
    pitches[1] = cases[4].now;
    nbits = NBITS;
    make_noise(samples, ROOM, 99);
    if (left >= 2 * RATES)
        expected = NABITEKE_UNFIT;
    if (left != right)
        expected = NABITEKE_EARS;
    try_call(expected, expected);
}

int main(void)
{
    static const unsigned answers[] = {0, 3, 4, 5, 6, 7, 8, 9, 13};
    size_t i;
    int left, right;
    for (i = 0; i < 2 * RATES; i++)
        try_at(rates[i / 2], i % 2 ? 7500 : 10000, (int)i % CASES);
    for (left = 0; left < KINDS; left++)
        for (right = 0; right < KINDS; right++)
            try_kinds(left, right);
    for (i = 0; i < sizeof answers / sizeof *answers; i++)
        printf("answer %u: %u ears, all as they must be\n", answers[i], answered[answers[i]]);
    return 0;
}
