#include "signals.h"
#include <math.h>

const char *const decoder_signal_names[DECODER_SIGNALS] = {
    "noise", "loud noise", "tiny noise", "subnormal noise", "silence", "minus zero", "alternating", "impulse", "mixed",
};
const char *const encoder_signal_names[ENCODER_SIGNALS] = {
    "voiced", "noise", "quiet noise", "steady", "square", "clicks", "silence", "noise, then silence",
};

// 32 bits that look random, the same for the same place.
static uint32_t bits_at(size_t number, size_t n)
{
    uint32_t x = (uint32_t)(number * MAX_FRAME + n) * 2654435761u + 12345;
    x = (x ^ x >> 16) * 0x45d9f3bu;
    x = (x ^ x >> 16) * 0x45d9f3bu;
    return x ^ x >> 16;
}

// From -1 to 1.
static float noise_at(size_t number, size_t n)
{
    return (float)((int32_t)bits_at(number, n) / 2147483648.0);
}

static float decoder_sample(enum decoder_signal signal, size_t number, size_t n)
{
    float noise = noise_at(number, n);
    switch (signal) {
    case LOUD: return noise * 1048576.0f;
    case TINY: return noise * 1e-30f;
    case SUBNORMAL: return noise * 1e-39f;
    case SILENCE: return 0.0f;
    case MINUS_ZERO: return -0.0f;
    case ALTERNATING: return n % 2 ? -1048576.0f : 1048576.0f;
    case IMPULSE: return n == 0 ? 1000.0f : 0.0f;
    case MIXED: return ldexpf(noise, (int)(bits_at(number, n) % 169) - 149);
    default: return noise * 8000.0f;
    }
}

void decoder_signal(enum decoder_signal signal, const struct setting *setting, size_t number, float *samples)
{
    for (size_t n = 0; n < setting->frame; n++)
        samples[n] = decoder_sample(signal, number, n);
}

// Eight harmonics of 125 Hz. Whole periods fit into 64 frames, and the lag is coded in quarters.
static double voiced(double seconds)
{
    double sum = 0;
    for (int h = 1; h <= 8; h++)
        sum += sin(6.283185307179586 * 125 * h * seconds + h) / h;
    return sum;
}

static double encoder_sample(enum encoder_signal signal, const struct setting *setting, size_t number, size_t n)
{
    double noise = noise_at(number, n);
    double seconds = (double)(number * setting->frame + n) * setting->duration / 1e6 / (double)setting->frame;
    switch (signal) {
    case VOICED: return 6000 * voiced(seconds) + 50 * noise;
    case QUIET: return 1.5 * noise;
    case STEADY: return 32767;
    case SQUARE: return n % 2 ? -32768 : 32767;
    case CLICKS: return n == 0 ? 1 : 0;
    case SILENT: return 0;
    case FADING: return number < 4 ? 12000 * noise : 0;
    default: return 12000 * noise;
    }
}

void encoder_signal(enum encoder_signal signal, const struct setting *setting, size_t number, int16_t *samples)
{
    for (size_t n = 0; n < setting->frame; n++)
        samples[n] = (int16_t)encoder_sample(signal, setting, number, n);
}
