// One build of the filter's two ends behind one face, so that all are called and timed alike.
#ifndef ENGINE_H
#define ENGINE_H

#include <stdbool.h>
#include <stddef.h>
#include <stdint.h>

enum { MAX_FRAME = 480 };

// A rate and duration, with the samples of a frame.
struct setting {
    uint32_t rate, duration;
    size_t frame;
};

// A frame's side information: an active frame has a pitch, an inactive one has none.
struct side {
    bool active;
    uint32_t index, nbits;
};

// An encoder's result. Index and active are 0 where the pitch is absent.
struct record {
    uint32_t present, index, active;
};

// An engine holds one decoder and one encoder. The samples go to where `decoder_samples` or `encoder_samples`
// points before each frame; a decoder's output stands in the same place afterwards. Only the two frame
// functions are timed. What both ends remember can be kept and put back, so that one frame is run many times;
// liblc3 is not asked for that.
struct engine {
    const char *name;
    // Whether its results have to equal the Rust's; otherwise they have to be near.
    bool is_exact;
    // Starts both ends; false where the engine does not know the setting.
    bool (*start)(const struct setting *setting);
    float *(*decoder_samples)(void);
    float *(*decoder_frame)(const struct side *side);
    int16_t *(*encoder_samples)(void);
    void (*encoder_frame)(uint32_t nbits, struct record *record);
    void (*keep_state)(void);
    void (*put_state_back)(void);
};

extern const struct engine rust_engine, liblc3_engine, our_engine;

// Our decoder of both ears. Its samples are left and right in turn, its frame takes two sides, left and right; it has
// no encoder.
extern const struct engine our_ears;

#endif
