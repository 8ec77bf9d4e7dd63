// The inputs: the same for every engine, and the same in every run.
#ifndef SIGNALS_H
#define SIGNALS_H

#include "engine.h"

// Signals of this many frames begin again without a seam.
enum { SIGNAL_FRAMES = 64 };

enum decoder_signal { NOISE, LOUD, TINY, SUBNORMAL, SILENCE, MINUS_ZERO, ALTERNATING, IMPULSE, MIXED, DECODER_SIGNALS };
enum encoder_signal { VOICED, HISS, QUIET, STEADY, SQUARE, CLICKS, SILENT, FADING, ENCODER_SIGNALS };

extern const char *const decoder_signal_names[DECODER_SIGNALS];
extern const char *const encoder_signal_names[ENCODER_SIGNALS];

// Writes one frame of a signal.
void decoder_signal(enum decoder_signal signal, const struct setting *setting, size_t number, float *samples);
void encoder_signal(enum encoder_signal signal, const struct setting *setting, size_t number, int16_t *samples);

#endif
