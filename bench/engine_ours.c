// Our library, through include/nabiteke.h, with the published coefficients.
#include "engine.h"
#include "nabiteke_published.h"
#include <stdio.h>
#include <stdlib.h>

static struct {
    nabiteke_decoder decoder;
    nabiteke_encoder encoder;
} state, kept;

static nabiteke_decoder left, right, kept_left, kept_right;
static nabiteke_rows rows;
static nabiteke_sets sets;
static size_t frame;
static float decoder_buffer[MAX_FRAME], ears_buffer[2 * MAX_FRAME];
static int16_t encoder_buffer[MAX_FRAME];

static void demand_done(uint32_t answer)
{
    if (answer != NABITEKE_DONE) {
        fprintf(stderr, "bench: our library refused a call with answer %u\n", answer);
        exit(1);
    }
}

static bool start(const struct setting *setting)
{
    rows = nabiteke_published_rows(setting->rate);
    sets = nabiteke_published_sets();
    frame = nabiteke_frame_length(setting->rate, setting->duration);
    demand_done(nabiteke_decoder_start(&state.decoder, setting->rate, setting->duration));
    demand_done(nabiteke_encoder_start(&state.encoder, setting->rate, setting->duration));
    return true;
}

static float *decoder_samples(void)
{
    return decoder_buffer;
}

static float *decoder_frame(const struct side *side)
{
    nabiteke_pitch pitch = {side->active, side->index, side->active};
    demand_done(nabiteke_decoder_frame(&state.decoder, &rows, pitch, side->nbits, decoder_buffer, frame));
    return decoder_buffer;
}

static int16_t *encoder_samples(void)
{
    return encoder_buffer;
}

static void encoder_frame(uint32_t nbits, struct record *record)
{
    nabiteke_record given;
    demand_done(nabiteke_encoder_frame(&state.encoder, &sets, nbits, encoder_buffer, frame, 0, &given));
    *record = (struct record){given.pitch.present, given.pitch.index, given.pitch.active};
}

static void keep_state(void)
{
    kept = state;
}

static void put_state_back(void)
{
    state = kept;
}

const struct engine our_engine = {
    "ours",          true,          start,      decoder_samples, decoder_frame,
    encoder_samples, encoder_frame, keep_state, put_state_back,
};

static bool start_ears(const struct setting *setting)
{
    rows = nabiteke_published_rows(setting->rate);
    frame = nabiteke_frame_length(setting->rate, setting->duration);
    demand_done(nabiteke_decoder_start(&left, setting->rate, setting->duration));
    demand_done(nabiteke_decoder_start(&right, setting->rate, setting->duration));
    return true;
}

static float *ears_samples(void)
{
    return ears_buffer;
}

static float *ears_frame(const struct side *sides)
{
    nabiteke_pitch left_pitch = {sides[0].active, sides[0].index, sides[0].active};
    nabiteke_pitch right_pitch = {sides[1].active, sides[1].index, sides[1].active};
    nabiteke_ear_answers answers = nabiteke_decoder_frame_both(&left, &right, &rows, left_pitch, right_pitch,
                                                               sides[0].nbits, ears_buffer, 2 * frame);
    demand_done(answers.left);
    demand_done(answers.right);
    return ears_buffer;
}

static void keep_ears(void)
{
    kept_left = left;
    kept_right = right;
}

static void put_ears_back(void)
{
    left = kept_left;
    right = kept_right;
}

const struct engine our_ears = {
    "ours for both ears", true, start_ears, ears_samples, ears_frame, NULL, NULL, keep_ears, put_ears_back,
};
