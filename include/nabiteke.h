/*
 * Nabiteke: the long-term post filter of the LC3 codec, proved.
 * Build the archive by `rt lib` in crates/nabiteke and link crates/nabiteke/out/libnabiteke.a (Linux, x86-64). It needs
 * nothing but memcpy and memset. This header is C99 and C++11.
 *
 * How to use it
 *
 *   Keep a nabiteke_decoder or a nabiteke_encoder for each stream, start it, then make one call per frame.
 *   Every start, frame, loss mark and lookup, and the writing and reading of a pitch, answers with a number of enum
 *   nabiteke_answer, NABITEKE_DONE when all went well; nabiteke_answer_text puts it into words. For the two ears of a
 *   headset keep a nabiteke_decoder each, and make one call per frame for both.
 *   nabiteke_published.h has the standard's coefficients, which are lent to the frame calls.
 *
 *   An encoder takes 16-bit PCM. A decoder takes floats, by convention on the same scale (full scale is +-32768); any
 *   other scale works as well, since the filter is linear, as long as no sample lies beyond +-1048576.
 *
 *   Flags are 0 for no and anything else for yes. Rates are in Hz: 8000, 16000, 24000, 32000, 44100 or 48000.
 *   44100 is treated as 48000 throughout: frames, coefficients and answers are the same; but the two ears of one call
 *   must both name the same one. Durations are in microseconds: 10000 or 7500.
 *
 * Who owns what
 *
 *   The caller owns every byte. The library allocates nothing, keeps no pointer after a call returns, and has
 *   no variables of its own: all that is remembered is in the struct. So a struct may be copied, moved or thrown
 *   away between two calls, needs no end call, and calls on different structs may run at the same time.
 *
 * What the caller owes
 *
 *   No value of a sample, a coefficient, a byte, a struct or a number can do harm, except a wrong count. A caller that
 *   breaks one of these rules can do harm, and no call can notice it:
 *   - a pointer is never NULL, and what it points to is there: a count says how many entries an array has;
 *   - floats and structs are aligned to 4 bytes, 16-bit samples to 2, a size_t to 8;
 *   - what a call writes (its struct, or the structs of both ears, a decoder's samples, an encoder's record, a pitch or
 *     its bytes, a lag, what is told, a size_t) overlaps nothing else that it is lent;
 *   - no two calls run at the same time on one struct, or on the same bytes where one of them writes.
 *   And the floating-point mode must be the one that a C program usually starts in: rounding to nearest, subnormal
 *   numbers kept, no exception trapped (on x86-64 an MXCSR of 0x1f80). Audio hosts often flush subnormals (FTZ, DAZ),
 *   and a program linked with gcc's -ffast-math starts with them flushed: undo that around the call, or it gives bits
 *   other than those proved.
 *
 * What a refused call leaves
 *
 *   A refused frame or loss mark changes nothing: the struct and the samples keep their bits (for a NaN's payload
 *   this is tested, not proved), as do those of a refused ear while the other goes on; and an encoder's record says
 *   absent, 0 bits. A refused start leaves the cleared state of 48000 Hz, 10000 us. A refused writing of a pitch
 *   changes no byte and says 0; a refused reading gives absent and 0. A refused lookup, of a lag or of what a frame
 *   will do, gives zeros.
 *   A struct that was never started is no danger: one of zero bytes is answered with NABITEKE_UNFIT, and one of
 *   any other bytes is answered with NABITEKE_UNFIT or works like a started one with that past.
 *
 * Time
 *
 *   The slowest frames are those of subnormal numbers, and an encoder that falls into digital silence stays in them. On
 *   an Intel Xeon they take up to 80 times the typical frame: at most 2.1% of a frame's duration for a decoder's frame,
 *   4.3% for one of both ears and 1.4% for an encoder's (docs/BENCHMARK.md); on other processors far less.
 *
 * Stack
 *
 *   No call takes more than NABITEKE_STACK bytes of stack, arguments included: measured at every rate and duration
 *   and in all five transitions, for both ears in every pair of them and with one ear refused
 *   (examples/tests/stack.c). With a caller compiled without optimisation the most was 16136 bytes in a static
 *   program, and 19336 in a dynamic one whose call is the first to use memcpy and has to look it up (lazy binding);
 *   the lookup's share depends on the processor and the C library, so there is room to spare.
 */
#ifndef NABITEKE_H
#define NABITEKE_H

#include <stddef.h>
#include <stdint.h>

#define NABITEKE_VERSION_MAJOR 2
#define NABITEKE_VERSION_MINOR 1
#define NABITEKE_VERSION_PATCH 0
/* One number, which rises from version to version: 20100 is 2.1.0. Since 1.1.0 a decoder at 44100 gives what one at
   48000 gives; since 1.2.0 a pitch can be packed; since 1.3.0 both ears can be decoded in one call. What 2.0.0 changed
   for a caller: struct nabiteke_answers is now called nabiteke_ear_answers. It added nabiteke_version,
   nabiteke_answer_text, nabiteke_lag_of and nabiteke_decoder_told. Since 2.1.0 3 inactive frames settle a decoder at
   7500 us too, where it took 4 (a struct that an older archive left there with a run of 4, or of 3 while not settled,
   is answered 9). */
#define NABITEKE_VERSION (NABITEKE_VERSION_MAJOR * 10000 + NABITEKE_VERSION_MINOR * 100 + NABITEKE_VERSION_PATCH)

#define NABITEKE_STACK 20480

#ifdef __cplusplus
extern "C" {
#endif

/* What a call answers. Checked in this order: a start 1, 2; a frame 9, 3, 4, 5, 6, and a decoder's then 7, 8;
   a loss mark 9; a frame of both ears 13 for both, then for each ear what a decoder's frame checks; what a frame
   will do 9, 6, 7; the lag of an index 1, 7; the writing of a pitch 7, 15; its reading 15, 12. */
enum nabiteke_answer {
    NABITEKE_DONE = 0,         /* done */
    NABITEKE_RATE = 1,         /* the rate is not one of the six */
    NABITEKE_DURATION = 2,     /* the duration is not 10000 or 7500 */
    NABITEKE_ROWS = 3,         /* a coefficient array does not have the length that is asked for */
    NABITEKE_COEFFICIENT = 4,  /* a coefficient is infinite or NaN */
    NABITEKE_SAMPLE_COUNT = 5, /* the sample count is not the frame's, or for both ears not twice that */
    NABITEKE_NBITS = 6,        /* nbits is above 3200 */
    NABITEKE_PITCH_INDEX = 7,  /* a present pitch has an index above 511 */
    NABITEKE_SAMPLE = 8,       /* a decoder's sample is NaN or beyond +-1048576 */
    NABITEKE_UNFIT = 9,        /* the struct was not started, or was overwritten */
    NABITEKE_PADDING = 12,     /* a bit in the padding of a packed pitch is set */
    NABITEKE_EARS = 13,        /* the structs of two ears name different rates or durations */
    NABITEKE_BYTE_COUNT = 15   /* a packed pitch has too little room, or its bytes end early */
};

/* A decoder's state: 8768 bytes, aligned to 4. Its members are private: copy the whole struct or leave it alone.
   Two ears are two of these structs, 17536 bytes. */
typedef struct nabiteke_decoder {
    uint32_t numbers[8];
    float kept[24];
    float inputs[1080];
    float outputs[1080];
} nabiteke_decoder;

/* An encoder's state: 1836 bytes, aligned to 4. Its members are private too. */
typedef struct nabiteke_encoder {
    uint32_t numbers[4];
    float memories[5];
    float x_s[60];
    float x_12p8[276];
    float x_6p4[114];
} nabiteke_encoder;

/* A frame's pitch, which an encoder finds and a decoder takes. Where it is not present, the other two are not read. */
typedef struct nabiteke_pitch {
    uint32_t present; /* whether the frame has a pitch */
    uint32_t index;   /* the pitch index, 0 to 511 */
    uint32_t active;  /* whether the decoder is to filter */
} nabiteke_pitch;

/* What a frame of both ears answers, each ear by itself. */
typedef struct nabiteke_ear_answers {
    uint32_t left;
    uint32_t right;
} nabiteke_ear_answers;

/* The lag of a pitch index at a rate, and how it was rounded. */
typedef struct nabiteke_lag {
    uint32_t whole;   /* whole samples */
    uint32_t quarter; /* and quarters of a sample, 0 to 3 */
    int32_t rounding; /* eighths of a quarter by which rounding made it longer, 1 to 4, or shorter, -1 to -3 */
} nabiteke_lag;

/* What a frame will do. Flags are 0 or 1. */
typedef struct nabiteke_told {
    uint32_t transition; /* 1 stays inactive, 2 becomes active, 3 becomes inactive, 4 same lag, 5 another lag */
    uint32_t active;     /* whether it has a lag; where not, whole, quarter and rounding are 0 */
    uint32_t whole;
    uint32_t quarter;
    int32_t rounding;
    uint32_t gain_on; /* whether it is active and its gain is not off; where not, row is 0 */
    uint32_t row;     /* the gain's row, 0 to 3 */
} nabiteke_told;

/* What an encoder's frame gives. Flags are 0 or 1; index and active are 0 where no pitch is present. */
typedef struct nabiteke_record {
    nabiteke_pitch pitch;
    uint32_t bits; /* the bits that the pitch takes: 1 absent, 11 present, 0 refused */
} nabiteke_record;

/*
 * The coefficients that a decoder's frame call is lent: four rows of numerators, by gain row 0 to 3, one after
 * another, and four rows of denominators, by quarter 0 to 3. nabiteke_numerator_count and nabiteke_denominator_count
 * say how many entries a rate has.
 */
typedef struct nabiteke_rows {
    const float *numerators;
    size_t numerator_count;
    const float *denominators;
    size_t denominator_count;
} nabiteke_rows;

/* The coefficients that an encoder's frame call is lent, at every rate: 239, 31 and 15 entries. */
typedef struct nabiteke_sets {
    const float *resampling;
    size_t resampling_count;
    const float *correlation; /* interpolates correlations */
    size_t correlation_count;
    const float *signal; /* interpolates the signal */
    size_t signal_count;
} nabiteke_sets;

/* The archive's version. A caller whose NABITEKE_VERSION differs was compiled with another archive's header. */
uint32_t nabiteke_version(void);

/* How many samples a frame has; 0 where the rate or the duration is unknown. */
size_t nabiteke_frame_length(uint32_t rate, uint32_t duration);
/* How many entries the four rows of a rate have together; 0 where the rate is unknown. */
size_t nabiteke_numerator_count(uint32_t rate);
size_t nabiteke_denominator_count(uint32_t rate);

/* What else the archive has. Call the functions without the underscore, below, instead. */
uint32_t nabiteke_decoder_start_(uint32_t *numbers, float *kept, float *inputs, float *outputs, uint32_t rate,
                                 uint32_t duration);
uint32_t nabiteke_decoder_frame_(uint32_t *numbers, float *kept, float *inputs, float *outputs,
                                 const float *numerators, size_t numerator_count, const float *denominators,
                                 size_t denominator_count, uint32_t pitch_present, uint32_t pitch_index,
                                 uint32_t pitch_active, uint32_t nbits, float *samples, size_t sample_count);
void nabiteke_decoder_frame_both_(uint32_t *left_numbers, float *left_kept, float *left_inputs, float *left_outputs,
                                  uint32_t *right_numbers, float *right_kept, float *right_inputs,
                                  float *right_outputs, const float *numerators, size_t numerator_count,
                                  const float *denominators, size_t denominator_count, const uint32_t *sides,
                                  float *samples, size_t sample_count, uint32_t *answers);
uint32_t nabiteke_decoder_lost_(uint32_t *numbers);
uint32_t nabiteke_decoder_settled_(const uint32_t *numbers);
uint32_t nabiteke_decoder_told_(const uint32_t *numbers, uint32_t pitch_present, uint32_t pitch_index,
                                uint32_t pitch_active, uint32_t nbits, uint32_t *told, int32_t *rounding);
uint32_t nabiteke_encoder_start_(uint32_t *numbers, float *memories, float *x_s, float *x_12p8, float *x_6p4,
                                 uint32_t rate, uint32_t duration);
uint32_t nabiteke_encoder_frame_(uint32_t *numbers, float *memories, float *x_s, float *x_12p8, float *x_6p4,
                                 const float *resampling, size_t resampling_count, const float *correlation,
                                 size_t correlation_count, const float *signal, size_t signal_count,
                                 const int16_t *samples, size_t sample_count, uint32_t nbits,
                                 uint32_t near_nyquist, uint32_t *record);
uint32_t nabiteke_pitch_write_(uint32_t pitch_present, uint32_t pitch_index, uint32_t pitch_active, uint8_t *bytes,
                               size_t byte_count, size_t *written);
uint32_t nabiteke_pitch_read_(const uint8_t *bytes, size_t byte_count, uint32_t *record);
uint32_t nabiteke_lag_of_(uint32_t rate, uint32_t index, uint32_t *lag, int32_t *rounding);

/* An answer in words. */
static inline const char *nabiteke_answer_text(uint32_t answer)
{
    switch (answer) {
    case NABITEKE_DONE: return "done";
    case NABITEKE_RATE: return "unknown rate";
    case NABITEKE_DURATION: return "unknown frame duration";
    case NABITEKE_ROWS: return "wrong number of coefficients";
    case NABITEKE_COEFFICIENT: return "coefficient infinite or not a number";
    case NABITEKE_SAMPLE_COUNT: return "wrong number of samples";
    case NABITEKE_NBITS: return "more than 3200 bits in a frame";
    case NABITEKE_PITCH_INDEX: return "pitch index above 511";
    case NABITEKE_SAMPLE: return "sample out of range or not a number";
    case NABITEKE_UNFIT: return "struct not started, or overwritten";
    case NABITEKE_PADDING: return "bit set in the padding of a packed pitch";
    case NABITEKE_EARS: return "ears of different rates or durations";
    case NABITEKE_BYTE_COUNT: return "too few bytes for a packed pitch";
    default: return "unknown answer";
    }
}

/* Starts a decoder, or starts it anew: cleared histories, inactive, not settled. Answers 0, 1 or 2. */
static inline uint32_t nabiteke_decoder_start(nabiteke_decoder *decoder, uint32_t rate, uint32_t duration)
{
    return nabiteke_decoder_start_(decoder->numbers, decoder->kept, decoder->inputs, decoder->outputs, rate,
                                   duration);
}

/*
 * Filters one frame of samples in place. Answers 0 or 3 to 9. nbits is the size of the frame in bits, at most 3200.
 * A frame without an active pitch goes through unchanged, but for a fade after a filtered one.
 */
static inline uint32_t nabiteke_decoder_frame(nabiteke_decoder *decoder, const nabiteke_rows *rows,
                                              nabiteke_pitch pitch, uint32_t nbits, float *samples,
                                              size_t sample_count)
{
    return nabiteke_decoder_frame_(decoder->numbers, decoder->kept, decoder->inputs, decoder->outputs,
                                   rows->numerators, rows->numerator_count, rows->denominators,
                                   rows->denominator_count, pitch.present, pitch.index, pitch.active, nbits, samples,
                                   sample_count);
}

/*
 * Filters one frame of both ears in place. The samples of the two stand in one array, left and right in turn, and
 * sample_count counts all of them: twice the samples of a frame. Both ears share the rows and nbits; each has its own
 * struct, started by itself, and its own pitch. One struct cannot be both ears.
 *
 * Answers of both: 13 where the two structs name different rates or durations; else each ear's own 0 or 3 to 9, as
 * for a decoder by itself, and 5 where sample_count is not twice the frame's. An ear that is refused keeps its
 * struct and its samples while the other goes on. A struct that was never started names something too: with a
 * started one it makes the answer 13 for both, unless it happens to name the same; two structs of zero bytes are
 * answered 9 each. A refused start leaves 48000 Hz, 10000 us, so with the other ear at another rate or duration the
 * next frame is answered 13.
 *
 * To each ear this is the frame of a decoder by itself, so calls of one ear and of both may be mixed on a struct.
 * For settling, two such frames count as equal for an ear only where all that the ears share is equal too: rows, nbits,
 * sample_count, and the rates and durations that both structs name.
 * Where only one ear's frame was lost, give both a frame anyway, with concealed samples or silence and no
 * pitch for that ear, and then mark that ear with nabiteke_decoder_lost, so that the stand-in does not count
 * towards settling. Hiding the loss is the caller's own work.
 */
static inline nabiteke_ear_answers nabiteke_decoder_frame_both(nabiteke_decoder *left, nabiteke_decoder *right,
                                                               const nabiteke_rows *rows, nabiteke_pitch left_pitch,
                                                               nabiteke_pitch right_pitch, uint32_t nbits,
                                                               float *samples, size_t sample_count)
{
    const uint32_t sides[7] = {left_pitch.present, left_pitch.index,   left_pitch.active, right_pitch.present,
                               right_pitch.index,  right_pitch.active, nbits};
    uint32_t answers[2];
    nabiteke_ear_answers both;
    nabiteke_decoder_frame_both_(left->numbers, left->kept, left->inputs, left->outputs, right->numbers, right->kept,
                                 right->inputs, right->outputs, rows->numerators, rows->numerator_count,
                                 rows->denominators, rows->denominator_count, sides, samples, sample_count, answers);
    both.left = answers[0];
    both.right = answers[1];
    return both;
}

/*
 * What the decoder's next frame will do with this pitch and nbits, for a log: ask before the frame, with what the
 * frame will be given. Answers 9, 6, 7 or 0, writes what the frame will do to *told (all 0 where refused), and changes
 * nothing else. A frame that is then answered 0 does what was told; where this call does not answer 0, the frame is not
 * answered 0 either. Where it does, the frame may still be refused for its rows or samples (3, 4, 5 or 8), and in a
 * call of both ears with 13. For both ears, ask once for each.
 */
static inline uint32_t nabiteke_decoder_told(const nabiteke_decoder *decoder, nabiteke_pitch pitch, uint32_t nbits,
                                             nabiteke_told *told)
{
    uint32_t numbers[6];
    uint32_t answer = nabiteke_decoder_told_(decoder->numbers, pitch.present, pitch.index, pitch.active, nbits,
                                             numbers, &told->rounding);
    told->transition = numbers[0];
    told->active = numbers[1];
    told->whole = numbers[2];
    told->quarter = numbers[3];
    told->gain_on = numbers[4];
    told->row = numbers[5];
    return answer;
}

/* Marks that frames were lost: the decoder is no longer settled, and counts from the next frame on. Answers 0 or 9. */
static inline uint32_t nabiteke_decoder_lost(nabiteke_decoder *decoder)
{
    return nabiteke_decoder_lost_(decoder->numbers);
}

/*
 * Whether the decoder has settled. From a start: 1 exactly where it has accepted 3 inactive frames in a row since its
 * last start or loss mark, else 0. A frame is accepted where its call answers 0, and inactive where it has no active
 * pitch; refused frames do not count, and active frames after that row leave the report at 1.
 *
 * What it is for: take two decoders with any pasts and the same rate, duration and coefficients. Once both have
 * accepted the same 3 inactive frames in a row, with no start or loss mark since the first of them, they give the same
 * answers and sample bits (any NaN for any NaN) for every later frame, as long as the later frames given to both are
 * equal one by one, and until either has a start or a loss mark. The same holds for one ear of two headsets, where
 * frames of both ears count as equal for it only if what the ears share is equal too: rows, nbits, sample_count, and
 * the rates and durations that both structs name.
 */
static inline uint32_t nabiteke_decoder_settled(const nabiteke_decoder *decoder)
{
    return nabiteke_decoder_settled_(decoder->numbers);
}

/* Starts an encoder, or starts it anew: cleared histories. Answers 0, 1 or 2. */
static inline uint32_t nabiteke_encoder_start(nabiteke_encoder *encoder, uint32_t rate, uint32_t duration)
{
    return nabiteke_encoder_start_(encoder->numbers, encoder->memories, encoder->x_s, encoder->x_12p8,
                                   encoder->x_6p4, rate, duration);
}

/*
 * Finds the pitch of one frame of samples and writes it to *record. Answers 0, 3, 4, 5, 6 or 9.
 * nbits         the size of the frame in bits, at most 3200
 * near_nyquist  whether nearly all of the frame's energy lies near half its rate, which an LC3 encoder detects in the
 *               spectrum (this library does not). The pitch of such a frame is not active; 0 where nothing is known.
 */
static inline uint32_t nabiteke_encoder_frame(nabiteke_encoder *encoder, const nabiteke_sets *sets, uint32_t nbits,
                                              const int16_t *samples, size_t sample_count, uint32_t near_nyquist,
                                              nabiteke_record *record)
{
    uint32_t numbers[4];
    uint32_t answer = nabiteke_encoder_frame_(
        encoder->numbers, encoder->memories, encoder->x_s, encoder->x_12p8, encoder->x_6p4, sets->resampling,
        sets->resampling_count, sets->correlation, sets->correlation_count, sets->signal, sets->signal_count, samples,
        sample_count, nbits, near_nyquist, numbers);
    record->pitch.present = numbers[0];
    record->pitch.index = numbers[1];
    record->pitch.active = numbers[2];
    record->bits = numbers[3];
    return answer;
}

/*
 * The lag of a pitch index, 0 to 511, at a rate, in quarters of a sample. Answers 0, 1 or 7; refused, all of *lag is 0.
 */
static inline uint32_t nabiteke_lag_of(uint32_t rate, uint32_t index, nabiteke_lag *lag)
{
    uint32_t numbers[2];
    uint32_t answer = nabiteke_lag_of_(rate, index, numbers, &lag->rounding);
    lag->whole = numbers[0];
    lag->quarter = numbers[1];
    return answer;
}

/*
 * Packs a pitch as the recorder stores it: writes it at the beginning of bytes, of which there are byte_count, and
 * says in *written how many it took, 2 where a pitch is present and 1 where none is. Other bytes stay as they were.
 * Answers 0, 7 or 15; refused, it changes no byte and *written is 0.
 * The form is bits, highest first: one for presence; if present, one for active and nine for the index; then zero
 * bits to the end of the byte. Present, active, 380 is EF 80; absent is 00. This is not the order of the radio's
 * stream.
 */
static inline uint32_t nabiteke_pitch_write(nabiteke_pitch pitch, uint8_t *bytes, size_t byte_count, size_t *written)
{
    return nabiteke_pitch_write_(pitch.present, pitch.index, pitch.active, bytes, byte_count, written);
}

/*
 * Reads the packed pitch at the beginning of bytes into *pitch and says in *used how many it took; those that follow
 * are not looked at. Answers 0, 12 or 15; refused, *pitch is absent and *used is 0. Flags are 0 or 1; index and active
 * are 0 where no pitch is present. What nabiteke_pitch_write wrote reads back, and no other bytes read as that pitch.
 */
static inline uint32_t nabiteke_pitch_read(const uint8_t *bytes, size_t byte_count, nabiteke_pitch *pitch,
                                           size_t *used)
{
    uint32_t numbers[4];
    uint32_t answer = nabiteke_pitch_read_(bytes, byte_count, numbers);
    pitch->present = numbers[0];
    pitch->index = numbers[1];
    pitch->active = numbers[2];
    *used = numbers[3];
    return answer;
}

#ifdef __cplusplus
}
#endif

/* The structs have no gaps: the archive is compiled for these sizes. */
typedef char nabiteke_decoder_has_no_gaps[sizeof(nabiteke_decoder) == 8768 ? 1 : -1];
typedef char nabiteke_encoder_has_no_gaps[sizeof(nabiteke_encoder) == 1836 ? 1 : -1];

#endif
