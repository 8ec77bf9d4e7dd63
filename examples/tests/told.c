/*
 * What is told of a frame, held against the scope's rules and against the frame: at every rate and duration 400 frames
 * of both ears, and 400 of a decoder by itself that is given the left ear's pitches, with pitches and bits that are
 * refused among them. What is told with 0 is done, and what is told with another answer is refused with it. Then
 * structs that are unfit. told.expected counts by hand: 12 rates and durations, 400 frames, 3 decoders.
 */
#include "rules.h"

enum { FRAMES = 400 };

/* A decoder with what the rules need to know of its frame before. */
static struct told_decoder {
    nabiteke_decoder state;
    uint32_t active;
    nabiteke_lag lag;
} left, right, alone;

static nabiteke_decoder nothing;
static nabiteke_told zeros;
static int which_rate;
static uint32_t duration, seed = 1;
static unsigned told_count, cases_told[CASES + 1], answered[16];

static uint32_t draw(uint32_t below)
{
    seed = seed * 1664525u + 1013904223u;
    return (seed >> 8) % below;
}

/* One in 20 has an index that is too large; the others are so few that a lag is often kept. */
static nabiteke_pitch draw_pitch(void)
{
    static const uint32_t indices[] = {0, 1, 380, 511};
    nabiteke_pitch pitch;
    pitch.present = draw(4) != 0;
    pitch.index = draw(20) ? indices[draw(4)] : 512 + draw(1000);
    pitch.active = draw(3) != 0;
    return pitch;
}

static uint32_t ruled_transition(const struct told_decoder *decoder, uint32_t active, nabiteke_lag lag)
{
    if (!active)
        return decoder->active ? 3 : 1;
    if (!decoder->active)
        return 2;
    return decoder->lag.whole == lag.whole && decoder->lag.quarter == lag.quarter ? 4 : 5;
}

/* What the rules tell. */
static uint32_t rule(struct told_decoder *decoder, nabiteke_pitch pitch, uint32_t nbits, nabiteke_told *ruled)
{
    static const nabiteke_lag none = {0, 0, 0};
    const uint32_t active = pitch.present && pitch.active;
    const uint32_t row = ruled_row(which_rate, duration, nbits);
    nabiteke_lag lag = none;
    *ruled = zeros;
    if (nbits > 3200)
        return NABITEKE_NBITS;
    if (pitch.present && pitch.index > 511)
        return NABITEKE_PITCH_INDEX;
    if (active)
        lag = ruled_lag(which_rate, pitch.index);
    ruled->transition = ruled_transition(decoder, active, lag);
    ruled->active = active;
    ruled->whole = lag.whole;
    ruled->quarter = lag.quarter;
    ruled->rounding = lag.rounding;
    ruled->gain_on = active && row < 4;
    ruled->row = ruled->gain_on ? row : 0;
    decoder->active = active;
    decoder->lag = lag;
    return NABITEKE_DONE;
}

/* Asks, compares with the rules, and gives the answer that the frame has to give. */
static uint32_t tell(struct told_decoder *decoder, nabiteke_pitch pitch, uint32_t nbits, nabiteke_told *told)
{
    static nabiteke_decoder before;
    nabiteke_told ruled;
    const uint32_t expected = rule(decoder, pitch, nbits, &ruled);
    memcpy(&before, &decoder->state, sizeof before);
    memset(told, 0x5a, sizeof *told);
    demand(nabiteke_decoder_told(&decoder->state, pitch, nbits, told) == expected, "the answer that is told");
    demand(memcmp(told, &ruled, sizeof ruled) == 0, "what is told is what the rules say");
    demand(memcmp(&before, &decoder->state, sizeof before) == 0, "nothing is changed");
    told_count++;
    cases_told[told->transition]++;
    answered[expected]++;
    return expected;
}

/* The first case, and a refused frame, change no sample; a frame with a gain does. */
static void compare(nabiteke_told told, const float *before, const float *after, size_t frame)
{
    const int kept = memcmp(before, after, frame * sizeof(float)) == 0;
    demand(kept || told.transition > 1, "the first case keeps the samples");
    demand(!kept || !told.gain_on, "a gain changes them");
}

static void try_frame(void)
{
    const nabiteke_rows rows = nabiteke_published_rows(rates[which_rate]);
    const size_t frame = nabiteke_frame_length(rates[which_rate], duration);
    const nabiteke_pitch of_left = draw_pitch(), of_right = draw_pitch();
    const uint32_t nbits = draw(30) ? draw(1000) : 3195 + draw(10);
    float before[2 * MAX_FRAME], samples[2 * MAX_FRAME], own[MAX_FRAME], own_before[MAX_FRAME];
    nabiteke_told told;
    nabiteke_ear_answers answers;
    uint32_t expected_left, expected_right, expected;
    make_noise(before, 2 * frame, seed);
    memcpy(samples, before, sizeof samples);
    part(own, samples, frame);
    memcpy(own_before, own, sizeof own_before);
    expected = tell(&alone, of_left, nbits, &told);
    demand(nabiteke_decoder_frame(&alone.state, &rows, of_left, nbits, own, frame) == expected, "the frame's answer");
    compare(told, own_before, own, frame);
    expected_left = tell(&left, of_left, nbits, &told);
    expected_right = tell(&right, of_right, nbits, &told);
    answers =
        nabiteke_decoder_frame_both(&left.state, &right.state, &rows, of_left, of_right, nbits, samples, 2 * frame);
    demand(answers.left == expected_left && answers.right == expected_right, "the answers of both ears");
    part(own_before, before + 1, frame);
    part(own, samples + 1, frame);
    compare(told, own_before, own, frame);
}

/* Zero bytes, and a block start that does not fit: 9 before 6 and 7, and zeros. */
static void try_unfit(void)
{
    const nabiteke_pitch too_large = {1, 512, 1};
    nabiteke_told told;
    memset(&told, 0x5a, sizeof told);
    demand(nabiteke_decoder_told(&nothing, too_large, 3201, &told) == NABITEKE_UNFIT, "zero bytes are unfit");
    demand(memcmp(&told, &zeros, sizeof told) == 0, "and are told with zeros");
    left.state.numbers[3]++;
    demand(nabiteke_decoder_told(&left.state, too_large, 3201, &told) == NABITEKE_UNFIT, "a block start is unfit");
    demand(memcmp(&told, &zeros, sizeof told) == 0, "and is told with zeros");
}

static void start(struct told_decoder *decoder)
{
    demand(nabiteke_decoder_start(&decoder->state, rates[which_rate], duration) == NABITEKE_DONE, "a start is done");
    decoder->active = 0;
}

int main(void)
{
    int i, n;
    for (i = 0; i < 2 * RATES; i++) {
        which_rate = i / 2;
        duration = i % 2 ? 7500 : 10000;
        start(&left);
        start(&right);
        start(&alone);
        for (n = 0; n < FRAMES; n++)
            try_frame();
        try_unfit();
    }
    for (n = 0; n <= CASES; n++)
        demand(cases_told[n] > 100, "every case occurs, and refusals do");
    demand(answered[NABITEKE_NBITS] > 100 && answered[NABITEKE_PITCH_INDEX] > 100, "both refusals occur");
    printf("%u frames told, and done or refused as told\n", told_count);
    return 0;
}
