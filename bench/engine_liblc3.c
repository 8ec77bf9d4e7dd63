// liblc3's long-term post filter, called as its own decoder and encoder call it.
#include "engine.h"
#include "ltpf.h"
#include <string.h>

static enum lc3_dt dt;
static enum lc3_srate rate;
static size_t frame;

// The decoder's ring is its history and one frame more. The samples are made in it and filtered in place.
static lc3_ltpf_synthesis_t synthesis;
static float ring[4 * MAX_FRAME];
static size_t ring_length, at;

// The encoder's samples follow the last 1.25 ms of the frame before.
static lc3_ltpf_analysis_t analysis;
static int16_t input[64 + MAX_FRAME];
static size_t before;

static bool start(const struct setting *setting)
{
    switch (setting->rate) {
    case 8000: rate = LC3_SRATE_8K; break;
    case 16000: rate = LC3_SRATE_16K; break;
    case 24000: rate = LC3_SRATE_24K; break;
    case 32000: rate = LC3_SRATE_32K; break;
    case 48000: rate = LC3_SRATE_48K; break;
    default: return false;
    }
    dt = setting->duration == 10000 ? LC3_DT_10M : LC3_DT_7M5;
    frame = setting->frame;
    memset(&synthesis, 0, sizeof synthesis);
    memset(ring, 0, sizeof ring);
    ring_length = LC3_NH(setting->duration, setting->rate) + frame;
    at = ring_length - frame;
    memset(&analysis, 0, sizeof analysis);
    memset(input, 0, sizeof input);
    before = LC3_NT(setting->rate);
    return true;
}

static float *decoder_samples(void)
{
    return ring + at;
}

static float *decoder_frame(const struct side *side)
{
    float *samples = ring + at;
    lc3_ltpf_data_t data = {side->active, (int)side->index};
    lc3_ltpf_synthesize(dt, rate, (int)side->nbits / 8, &synthesis, side->active ? &data : NULL, ring, samples);
    at = at + frame < ring_length ? at + frame : 0;
    return samples;
}

static int16_t *encoder_samples(void)
{
    return input + 64;
}

static void encoder_frame(uint32_t nbits, struct record *record)
{
    lc3_ltpf_data_t data = {false, 0};
    (void)nbits;
    record->present = lc3_ltpf_analyse(dt, rate, &analysis, input + 64, &data);
    record->index = record->present ? (uint32_t)data.pitch_index : 0;
    record->active = data.active;
    memmove(input + 64 - before, input + 64 + frame - before, before * sizeof *input);
}

const struct engine liblc3_engine = {
    "liblc3", false, start, decoder_samples, decoder_frame, encoder_samples, encoder_frame, NULL, NULL,
};
