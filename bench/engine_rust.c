// The given Rust, through the C face of bench/rust.
#include "engine.h"
#include <stdlib.h>
#include <string.h>

// A piece of what an end remembers.
struct piece {
    void *start;
    size_t bytes;
};

void *rust_decoder_start(uint32_t rate, uint32_t duration, struct piece pieces[2]);
void rust_decoder_frame(void *decoder, uint32_t present, uint32_t index, uint32_t active, uint32_t nbits,
                        float *samples, size_t count);
void *rust_encoder_start(uint32_t rate, uint32_t duration, struct piece pieces[3]);
void rust_encoder_frame(void *encoder, const int16_t *samples, size_t count, uint32_t nbits,
                        uint32_t near_nyquist, uint32_t *record);

static void *decoder, *encoder;
static struct piece pieces[5], kept[5];
static size_t frame;
static float decoder_buffer[MAX_FRAME];
static int16_t encoder_buffer[MAX_FRAME];

static bool start(const struct setting *setting)
{
    frame = setting->frame;
    decoder = rust_decoder_start(setting->rate, setting->duration, pieces);
    encoder = rust_encoder_start(setting->rate, setting->duration, pieces + 2);
    for (int i = 0; i < 5; i++) {
        kept[i].start = realloc(kept[i].start, pieces[i].bytes);
        kept[i].bytes = pieces[i].bytes;
        if (kept[i].start == NULL)
            exit(1);
    }
    return true;
}

static float *decoder_samples(void)
{
    return decoder_buffer;
}

static float *decoder_frame(const struct side *side)
{
    rust_decoder_frame(decoder, side->active, side->index, side->active, side->nbits, decoder_buffer, frame);
    return decoder_buffer;
}

static int16_t *encoder_samples(void)
{
    return encoder_buffer;
}

static void encoder_frame(uint32_t nbits, struct record *record)
{
    uint32_t numbers[4];
    rust_encoder_frame(encoder, encoder_buffer, frame, nbits, 0, numbers);
    // The Rust may give an index or an active mark to an absent pitch; ours does not.
    record->present = numbers[0];
    record->index = numbers[0] ? numbers[1] : 0;
    record->active = numbers[0] ? numbers[2] : 0;
}

static void keep_state(void)
{
    for (int i = 0; i < 5; i++)
        memcpy(kept[i].start, pieces[i].start, pieces[i].bytes);
}

static void put_state_back(void)
{
    for (int i = 0; i < 5; i++)
        memcpy(pieces[i].start, kept[i].start, pieces[i].bytes);
}

const struct engine rust_engine = {
    "Rust",          true,          start,      decoder_samples, decoder_frame,
    encoder_samples, encoder_frame, keep_state, put_state_back,
};
