/* SPDX-License-Identifier: MIT */
/* The proved library's calls (crates/belt), for C and C++ on x86-64 Linux.
   docs/C.md is a page to begin with. docs/RULES.md has the rules: what a plane, a sample word, a block, a model and a
   header are, bit by bit; names in quotes are its sections.
   belt_motion.h beside this file reads words and models in pels.

   The promise: within a major version, from 0.14.0 on, no struct of this header changes its size, no field its place or
   type, no call its parameters, no code its number, and no call goes away. What is new has a call of its own; a new field
   means a new struct and a new call. So a program runs, without being compiled again, with every library whose major
   version is the header's and whose minor version isn't lower: belt_library_fits says whether that is so. The shared
   library's soname is libbelt.so and the major number. Layouts are asserted at the end of this file, and
   bindings/c/abi.txt is the list that is kept. Sizes of stack below aren't part of the promise. What was compiled before
   1.0.0 is to be compiled again, since the soname has another number; its text needn't change from 0.14.0 on.

   A list is a pointer and a count of elements; each pointer is aligned for its elements. Where the count is 0 the pointer
   is not read and may be NULL; no other pointer is NULL. Lent buffers (pointers that aren't const) overlap nothing
   else that is passed. A count that names more than there is can't be seen here, and is the caller's to get right.

   The library allocates nothing, keeps nothing between calls and has no state of its own: any number of threads
   may call it at once, each with its own buffers. BELT_STACK_BYTES and its kin say how much of the thread's stack a job
   takes. Another call that trims or elects takes about 57 kB over words, 74 kB over words by a set of classes, 35 kB
   over samples and 168 kB over samples by a set, for what it keeps of them and for residuals; another call by a set takes 22 kB over
   words and about 1 kB over samples. The library expects the floating-point environment that a process begins with:
   rounding to nearest, traps off, subnormal numbers kept. It needs memcpy, memset and no other function.

   A result's first field is the refusal: BELT_ACCEPTED, or the number of the row that refuses ('When a call
   says no'), and then all fields after it are 0, but for a run, which comes back as it was handed in. A refused call
   leaves its lent buffers as they were; belt_job and belt_run_job have one exception. An accepted call writes only the
   part of a buffer that it uses. Rows are judged in the order of enum belt_refusal, over the whole input; blocks go one
   by one, and a call that reads a frame judges BELT_TOO_SHORT last. 'Refuses' at a call lists its rows in that order. */
#ifndef BELT_H
#define BELT_H

#include <stdbool.h>
#include <stddef.h>
#include <stdint.h>

#define BELT_VERSION_MAJOR 1
#define BELT_VERSION_MINOR 0
#define BELT_VERSION_PATCH 0
#define BELT_VERSION "1.0.0"
/* The three in one number, as belt_version answers them. */
#define BELT_VERSION_NUMBER (BELT_VERSION_MAJOR * 1000000u + BELT_VERSION_MINOR * 1000u + BELT_VERSION_PATCH)

/* Sizes. */
#define BELT_MOST_SIDE 1024       /* the longest side of a plane, in pels */
#define BELT_BLOCK_SIDE 16        /* the side of the blocks that a plane is searched in */
#define BELT_MOST_SAMPLES 4096    /* the most samples of a frame or a list */
#define BELT_MOST_EIGHTHS 223     /* no motion passes it either way: 27.875 pels */
#define BELT_MOST_SHIFT 24        /* the largest component of a practice belt's motion, in pels */
#define BELT_BLOCK_BYTES 512      /* a sample block, of either form */
#define BELT_FORM_1_SAMPLES 125   /* the most samples in one of form 1 */
#define BELT_FORM_2_SAMPLES 100   /* and of form 2 */
#define BELT_HEADER_BYTES 125     /* enough for every header at every start; a job asks for as many */
#define BELT_TEXT_BYTES 4096      /* enough for every block's text */
#define BELT_REFERENCES 7
#define BELT_NUMBERS 42           /* six for each reference */
#define BELT_OTHER_TYPES 6        /* of the references beside a job's own */
#define BELT_OTHER_NUMBERS 36
#define BELT_ONE 65536            /* 1 at 16 fraction bits */

/* What a job takes of its thread's stack, at most, in a run too: of a type that is asked for; after trimming; of a type
   that is elected. The last is the most that a job takes. bindings/c/stack.c measures them. A thread of 128 kB, as musl
   makes them, has room for each. */
#define BELT_STACK_BYTES_PLAIN 26000
#define BELT_STACK_BYTES_TRIM 78000
#define BELT_STACK_BYTES_ELECT 78000
#define BELT_STACK_BYTES BELT_STACK_BYTES_ELECT

/* Casts and assertions of either language; C99 has no _Static_assert. */
#ifdef __cplusplus
#define BELT_CAST(type, value) static_cast<type>(value)
#define BELT_ADDRESS(pointer) reinterpret_cast<uintptr_t>(pointer)
#else
#define BELT_CAST(type, value) ((type)(value))
#define BELT_ADDRESS(pointer) ((uintptr_t)(pointer))
#endif
#if defined __cplusplus && __cplusplus >= 201103L
#define BELT_HOLDS(name, condition) static_assert(condition, #name)
#elif defined __STDC_VERSION__ && __STDC_VERSION__ >= 201112L
#define BELT_HOLDS(name, condition) _Static_assert(condition, #name)
#else
#define BELT_HOLDS(name, condition) typedef char name##_holds[(condition) ? 1 : -1]
#endif
#define BELT_SIZE(type, bytes) BELT_HOLDS(type##_size, sizeof(struct type) == (bytes))
#define BELT_PLACE(type, field, bytes) BELT_HOLDS(type##_##field##_place, offsetof(struct type, field) == (bytes))

#ifdef __cplusplus
extern "C" {
#endif

enum belt_type { BELT_IDENTITY = 0, BELT_TRANSLATION = 1, BELT_ROTZOOM = 2, BELT_AFFINE = 3 };
enum belt_class { BELT_UNSORTED = 0, BELT_FIBRE = 1, BELT_RIGID_PLASTIC = 2, BELT_METAL = 3, BELT_FILM = 4 };
/* A set of classes is a byte of bits: class c is bit c, so that 1 << BELT_FIBRE | 1 << BELT_METAL names two and
   BELT_ALL_CLASSES & ~(1 << BELT_FILM) all but film. */
#define BELT_ALL_CLASSES 31
enum belt_form { BELT_FORM_1 = 1, BELT_FORM_2 = 2 };
enum belt_flag { BELT_LOW_PRECISION = 0, BELT_HIGH_PRECISION = 1 };
enum belt_trim { BELT_ALL_SAMPLES = 0, BELT_TRIM = 1 };
enum belt_election { BELT_ASKED_TYPE = 0, BELT_ELECT = 1 };
enum belt_switch { BELT_TO_LOW_PRECISION = 0, BELT_TO_HIGH_PRECISION = 1, BELT_TO_FORM_2 = 2 };

/* The rows, in the order in which they are judged. */
enum belt_refusal {
    BELT_ACCEPTED = 0,
    BELT_TOO_LARGE = 1,
    BELT_TOO_FAR = 18,
    BELT_WRONG_LENGTH = 2,
    BELT_NO_SUCH_CODE = 4,
    BELT_NO_CLASS = 19,
    BELT_NO_SUCH_SLOT = 5,
    BELT_START_OVER = 14,
    BELT_OFF_GRID = 7,
    BELT_PRIOR_OUT = 8,
    BELT_NOT_RISING = 12,
    BELT_NOT_HELD = 13,
    BELT_TOO_SHORT = 3,
    BELT_TOO_FEW = 15,
    BELT_SHUTTER_CLOSED = 17,
    BELT_SINGULAR = 6,
    BELT_NOT_FINITE = 16,
    BELT_ENDS_FIRST = 9,
    BELT_WRONG_CHECK = 10,
    BELT_WRONG_BLOCK = 11
};

/* A row's condition; "accepted" for 0, "no such row" for a number that isn't in the table. */
static inline const char *belt_refusal_text(uint32_t refusal) {
    switch (refusal) {
    case BELT_ACCEPTED: return "accepted";
    case BELT_TOO_LARGE: return "side over 1,024, or over 4,096 samples";
    case BELT_TOO_FAR: return "motion of a practice belt beyond 24 pels";
    case BELT_WRONG_LENGTH: return "plane, half plane handed in, class, type, model or prior list of wrong length";
    case BELT_NO_SUCH_CODE:
        return "type, class, flag, form, trim, elect or switch code out of range; class over 4 in a set; type 0 to fit";
    case BELT_NO_CLASS: return "empty set of classes";
    case BELT_NO_SUCH_SLOT:
        return "slot over 5, or to price one that the type doesn't carry; reference outside 1 to 7; band that ends before it begins or behind the last block row";
    case BELT_START_OVER: return "start of a header to write over 7";
    case BELT_OFF_GRID: return "model off the grid, uncarried slot or pair wrong";
    case BELT_PRIOR_OUT: return "prior out of range";
    case BELT_NOT_RISING: return "words to store out of range or not rising";
    case BELT_NOT_HELD: return "class 4 to be stored in form 1";
    case BELT_TOO_SHORT: return "output or working buffer too short";
    case BELT_TOO_FEW: return "fewer samples, or fewer of the classes named, than a trimmed fit needs";
    case BELT_SHUTTER_CLOSED: return "frame number 0: the shutter was closed";
    case BELT_SINGULAR: return "elimination refuses";
    case BELT_NOT_FINITE: return "residual of a trimmed fit not finite";
    case BELT_ENDS_FIRST: return "bytes end before the last bit or block";
    case BELT_WRONG_CHECK: return "block check wrong";
    case BELT_WRONG_BLOCK: return "block field, filler or sequence wrong";
    default: return "no such row";
    }
}

/* A class's word; "no such class" for a number over BELT_FILM. */
static inline const char *belt_class_text(uint8_t class_code) {
    switch (class_code) {
    case BELT_UNSORTED: return "unsorted";
    case BELT_FIBRE: return "fibre";
    case BELT_RIGID_PLASTIC: return "rigid plastic";
    case BELT_METAL: return "metal";
    case BELT_FILM: return "film";
    default: return "no such class";
    }
}

/* How many samples a plane has, how many values each of its half planes, and how many blocks and bytes so many samples
   take in a form: the room that a call asks for. A job stores BELT_FORM_2, a job in a run the form held. */
static inline size_t belt_sample_count(size_t width, size_t height) {
    return (width / BELT_BLOCK_SIDE) * (height / BELT_BLOCK_SIDE);
}
static inline size_t belt_half_plane_values(size_t width, size_t height) {
    return belt_sample_count(width, height) == 0 ? 0 : (width / 2) * (height / 2);
}
static inline size_t belt_form_samples(enum belt_form form) {
    return form == BELT_FORM_1 ? BELT_FORM_1_SAMPLES : BELT_FORM_2_SAMPLES;
}
static inline size_t belt_blocks_of(size_t samples, enum belt_form form) {
    return samples / belt_form_samples(form) + (samples % belt_form_samples(form) != 0);
}
static inline size_t belt_block_bytes(size_t samples, enum belt_form form) {
    return BELT_BLOCK_BYTES * belt_blocks_of(samples, form);
}

/* A model, six numbers at 16 fraction bits, in one of two orders that can't be told apart by their numbers; so they
   are two types. 'Model' has the equation. x first is the order of the fits, of the grid and of the score. As stored
   is the order of headers, priors and reports: a translation has its row (v) in slot 0 and its column (u) in slot 1.
   The other types are the same in both orders. */
struct belt_model { int32_t params[6]; };
struct belt_stored_model { int32_t params[6]; };

#define BELT_IDENTITY_PARAMS {0, 0, BELT_ONE, 0, 0, BELT_ONE}

/* The identity for each reference: the prior of a first frame, and the models of references that stand still. */
static const struct belt_stored_model belt_identities[BELT_REFERENCES] = {
    {BELT_IDENTITY_PARAMS}, {BELT_IDENTITY_PARAMS}, {BELT_IDENTITY_PARAMS}, {BELT_IDENTITY_PARAMS},
    {BELT_IDENTITY_PARAMS}, {BELT_IDENTITY_PARAMS}, {BELT_IDENTITY_PARAMS}};

/* One order from the other. */
static inline struct belt_stored_model belt_row_first(uint8_t type, struct belt_model model) {
    struct belt_stored_model stored;
    for (int slot = 0; slot < 6; slot++)
        stored.params[slot] = model.params[type == BELT_TRANSLATION && slot < 2 ? 1 - slot : slot];
    return stored;
}
static inline struct belt_model belt_x_first(uint8_t type, struct belt_stored_model stored) {
    struct belt_model model;
    for (int slot = 0; slot < 6; slot++)
        model.params[slot] = stored.params[type == BELT_TRANSLATION && slot < 2 ? 1 - slot : slot];
    return model;
}

/* A sample: its place x, y and its motion u, v, in pels, any four numbers ('Sample'). */
struct belt_motion_sample { double x; double y; double u; double v; };
/* A fitted model to be put on the grid: its type, 1 to 3, the flag, and the numbers of its fit. */
struct belt_to_quantize { uint8_t type; uint8_t flag; double numbers[6]; };
/* A fit after trimming to be put on the grid: its type, 1 to 3, and the flag. */
struct belt_to_trim { uint8_t type; uint8_t flag; };
/* How many samples were found, and how many rows of absolute differences were added to find them. */
struct belt_searched { uint32_t refusal; size_t samples; uint32_t rows; };
/* Two numbers of a translation, four of a rotation-zoom, six of an affine model, x first, zeros after them. */
struct belt_fit_answer { uint32_t refusal; double numbers[6]; };
struct belt_quantized_model { uint32_t refusal; struct belt_model model; };
/* How many samples the last fit used, and its numbers as in belt_fit_answer; or its model on the grid. */
struct belt_trimmed { uint32_t refusal; uint32_t used; double numbers[6]; };
struct belt_trimmed_model { uint32_t refusal; uint32_t used; struct belt_model model; };
/* The elected type, 0 to 3, its model and the model's score in square pels. */
struct belt_elected { uint32_t refusal; uint8_t type; struct belt_stored_model model; double score; };
struct belt_quantized_param { uint32_t refusal; int32_t value; };
/* In square pels. */
struct belt_score { uint32_t refusal; double score; };
/* How many blocks were written. */
struct belt_stored { uint32_t refusal; size_t blocks; };
struct belt_frame_read { uint32_t refusal; uint16_t frame; size_t samples; };
struct belt_block_read { uint32_t refusal; uint16_t frame; size_t ordinal; size_t count; };
/* How many bits were written, without the start. */
struct belt_written { uint32_t refusal; size_t bits; };
/* Seven types and models in rising order of reference, and the bits consumed. */
struct belt_models { uint32_t refusal; uint8_t types[7]; struct belt_stored_model models[7]; size_t bits; };
/* The frame number of the blocks, the type to fit (1 to 3), the reference of the model (1 to 7), the flag, whether the
   job trims (BELT_TRIM), whether it elects (BELT_ELECT; type and trim code then aren't looked at), the set of classes
   whose samples it fits and scores (BELT_ALL_CLASSES for every sample; 0, as where it is left out, is refused), and the
   bit of the header's first byte at which writing begins (0 to 7). */
struct belt_settings {
    uint16_t frame; uint8_t type; uint8_t reference; uint8_t flag; uint8_t trim; uint8_t elect; uint8_t set;
    size_t start;
};
/* Seven types and models in rising order of reference, the job's own of the type asked for or elected; the score of its
   own in square pels; the header's bits; how many samples there are. */
struct belt_report {
    uint32_t refusal; uint8_t types[7]; struct belt_stored_model models[7]; double score; size_t bits; size_t samples;
};
/* Whether a decoder keeps the warp (1 or 0), and its shear numbers, whether it does or not. */
struct belt_shear { uint32_t refusal; uint32_t valid; int32_t alpha; int32_t beta; int32_t gamma; int32_t delta; };

/* Lengths of the longest price list, and the bits of its first. */
#define BELT_PRICE_LENGTHS 20
#define BELT_SHORTEST_CODE 4
/* How many lengths a slot's codes have; the ordinals whose code takes BELT_SHORTEST_CODE bits, one more and so on, zeros
   behind the last length. */
struct belt_price_list { uint32_t refusal; size_t lengths; uint32_t ordinals[BELT_PRICE_LENGTHS]; };
/* The bits of a frame's header. */
struct belt_price { uint32_t refusal; size_t bits; };

/* How many pels each plane has. */
struct belt_made { uint32_t refusal; size_t pels; };

/* A run of frames: the prior of the next inter frame, the flag, and the form that frames are stored in, BELT_FORM_1 or
   BELT_FORM_2. It goes by value; the run to go on with comes back with each answer. */
struct belt_run { struct belt_stored_model prior[BELT_REFERENCES]; uint8_t flag; uint32_t form; };
struct belt_moved { uint32_t refusal; struct belt_run run; };
/* What the calls without a run answer, and the run; the refusal is the first field of that answer. */
struct belt_framed { struct belt_written written; struct belt_run run; };
struct belt_frame_models { struct belt_models models; struct belt_run run; };
struct belt_job_done { struct belt_report report; struct belt_run run; };

/* The library's own version, as BELT_VERSION_NUMBER is this header's. */
uint32_t belt_version(void);
/* The same, by a name that has the major number: what names it doesn't link with a library of another major version. */
uint32_t belt_abi_1(void);
/* Whether the library that runs has what this header promises: the major version is the header's, the minor at least. */
static inline bool belt_library_fits(void) {
    return belt_version() / 1000000 == BELT_VERSION_MAJOR && belt_version() / 1000 >= BELT_VERSION_NUMBER / 1000;
}

/* Motion search ('Search').
   In: two planes of width x height pels, row by row, and a class for each whole 16x16 block.
   Out: both half planes, belt_half_plane_values each, and one sample word for each block, row by row, with class bits
   zero: the classes stand beside the words. With a side under 16 there are no samples, and the buffers aren't touched.
   The rows added are 736 to 6,184 for a block ('Rows added'). Motion beyond BELT_MOST_EIGHTHS isn't found, and
   isn't refused: belt_agreeing of belt_motion.h shows it.
   Refuses: 1, 2, 4, 3. */
struct belt_searched belt_collect_motion_samples(
    const uint16_t *input_y, size_t input_pels,
    const uint16_t *ref_y, size_t ref_pels,
    size_t width, size_t height,
    const uint8_t *classes, size_t class_count,
    uint16_t *input_half, size_t input_half_pels,
    uint16_t *ref_half, size_t ref_half_pels,
    uint32_t *words, size_t word_count);

/* The search in bands, so that the caller's own threads share a frame: first the two half planes, then each thread some
   block rows. The library starts no thread. belt_half_planes_with and belt_search_band_with below take a task and a room,
   and bindings/c/bands.c is a program.

   A half plane.
   In: a plane of width x height pels, row by row. Out: (width / 2) * (height / 2) values from the front of the buffer,
   where a side is under 16 too. Answers BELT_ACCEPTED or the row that refuses.
   Refuses: 1, 2, 3. */
uint32_t belt_half_plane(
    const uint16_t *plane, size_t plane_pels, size_t width, size_t height, uint16_t *out, size_t out_room);

/* Block rows first to end - 1 of the height / 16.
   In: two planes of width x height pels, what belt_half_plane left of each, (width / 2) * (height / 2) values exactly,
   and the rows; planes and half planes are only read, so that any number of threads may share them.
   Out: (end - first) * (width / 16) words from the front of the buffer, with class bits zero; how many they are, and the
   rows added for them. Bands that follow on from 0 to height / 16 have together the words of
   belt_collect_motion_samples, and their rows add up to its rows. No rows, first equal to end, are no fault.
   Half planes that hold anything else are no fault either: the words are then those of such half planes.
   Refuses: 1, 2 (half planes too), 5 (first over end, or end over height / 16), 3. */
struct belt_searched belt_search_band(
    const uint16_t *input, size_t input_pels,
    const uint16_t *reference, size_t reference_pels,
    size_t width, size_t height,
    const uint16_t *input_half, size_t input_half_pels,
    const uint16_t *ref_half, size_t ref_half_pels,
    size_t first, size_t end,
    uint32_t *words, size_t word_room);

/* Least squares fits ('Fits and score').
   In: up to 4,096 sample words, in any order and of any field value.
   Out: the model's numbers. A translation of no samples is not-a-number twice.
   Refuses: 1; rotation-zoom and affine also 6. */
struct belt_fit_answer belt_fit_translation(const uint32_t *words, size_t word_count);
struct belt_fit_answer belt_fit_rotzoom(const uint32_t *words, size_t word_count);
struct belt_fit_answer belt_fit_affine(const uint32_t *words, size_t word_count);

/* Fits after trimming ('Trimming'): samples that lie far from a first fit are dropped, and the rest is fitted again if
   it is enough.
   In: the type, 1 to 3, and up to 4,096 sample words: at least 4, 6 or 8 by type. Out: the last fit made, and how many
   samples it used; or that fit on the grid of a flag, x first, its translation fitted again to those samples.
   Refuse: 1, 4, 15, 6, 16, and 6 of the second fit. With sample words no 16 is known
   (docs/DECISIONS.md, 'The job', says why none is expected). */
struct belt_trimmed belt_fit_trimmed(uint8_t type, const uint32_t *words, size_t word_count);
struct belt_trimmed_model belt_quantize_trimmed(uint8_t type, uint8_t flag, const uint32_t *words, size_t word_count);

/* The election of a type ('Election'): each type is fitted after trimming; of those that leave at most a quarter of the
   motion's mean square, the energy, the lowest is elected, or a higher one that is clearly better. IDENTITY if there is
   none, if the energy is below 0.25 square pels, and for fewer than 4 words.
   In: the flag and up to 4,096 sample words. Out: the type, its model and the model's score over all words, which for
   IDENTITY is the energy.
   Refuses: 1, 4, 16, of which with sample words no case is known either. */
struct belt_elected belt_elect(uint8_t flag, const uint32_t *words, size_t word_count);

/* A fitted model on the grid ('Fits and score').
   In: the type, 1 to 3, the numbers of its fit, the flag, and the words that the translation is fitted
   again to. Out: the model, x first.
   Refuses: 1, 4. */
struct belt_quantized_model belt_quantize_model(
    uint8_t type, const double numbers[6], uint8_t flag, const uint32_t *words, size_t word_count);

/* Mean squared residual ('Fits and score').
   In: a model, x first, and up to 4,096 sample words. Out: the score, 0.0 for no words.
   Refuses: 1. */
struct belt_score belt_mean_sq_residual(const struct belt_model *model, const uint32_t *words, size_t word_count);

/* The five calls above over samples instead of words: up to 4,096 of any four numbers, not-a-numbers and infinities
   too. Samples that are made from words (belt_motion_sample_of of belt_motion.h) have the answers of those words.
   Refuse: 1; rotation-zoom and affine also 6; the quantized model 1, 4. */
struct belt_fit_answer belt_fit_translation_samples(const struct belt_motion_sample *samples, size_t sample_count);
struct belt_fit_answer belt_fit_rotzoom_samples(const struct belt_motion_sample *samples, size_t sample_count);
struct belt_fit_answer belt_fit_affine_samples(const struct belt_motion_sample *samples, size_t sample_count);
struct belt_quantized_model belt_quantize_model_samples(
    const struct belt_motion_sample *samples, size_t sample_count, struct belt_to_quantize model);
struct belt_score belt_mean_sq_residual_samples(
    const struct belt_motion_sample *samples, size_t sample_count, struct belt_model model);

/* Fits after trimming over samples instead of words, and those fits on the grid ('Trimming').
   Refuse: 1, 4, 15, 6, 16 where a sample lies so far from the first fit that the square isn't finite, or no number says
   how far, and 6 of the second fit. */
struct belt_trimmed belt_fit_trimmed_samples(
    const struct belt_motion_sample *samples, size_t sample_count, uint8_t type);
struct belt_trimmed_model belt_quantize_trimmed_samples(
    const struct belt_motion_sample *samples, size_t sample_count, struct belt_to_trim codes);

/* The election over samples instead of words ('Election').
   Refuses: 1, 4, 16 where a type's trimmed fit has it. */
struct belt_elected belt_elect_samples(const struct belt_motion_sample *samples, size_t sample_count, uint8_t flag);

/* The calls above by a set of classes ('Sets of classes'): each takes the words whose class the set names, in their
   order, and answers what the call without a set answers for those. A class is looked up in the list, not in the word's
   class bits.
   In: the set, and a class for each word, beside what the call without a set takes; the fit takes its type, 1 to 3.
   Naming BELT_ALL_CLASSES gives the answers without a set. Where no word has a class that is named, a translation is
   not-a-number twice, its model the identity and a score 0.0; the other two types are refused with 6, a trimmed fit with
   15; IDENTITY is elected.
   Refuse: 1, 2, 4, 19, and then as without a set: the fit also 6; the trimmed fits 15 (by the words that are named), 6,
   16, and 6 of the second fit; the election 16. Rows 1, 2 and 4 judge the whole list. */
struct belt_fit_answer belt_fit_by_class(
    uint8_t set, uint8_t type, const uint32_t *words, size_t word_count, const uint8_t *classes, size_t class_count);
struct belt_quantized_model belt_quantize_by_class(
    uint8_t set, uint8_t type, const double numbers[6], uint8_t flag,
    const uint32_t *words, size_t word_count, const uint8_t *classes, size_t class_count);
struct belt_score belt_score_by_class(
    uint8_t set, const struct belt_model *model,
    const uint32_t *words, size_t word_count, const uint8_t *classes, size_t class_count);
struct belt_trimmed belt_fit_trimmed_by_class(
    uint8_t set, uint8_t type, const uint32_t *words, size_t word_count, const uint8_t *classes, size_t class_count);
struct belt_trimmed_model belt_quantize_trimmed_by_class(
    uint8_t set, uint8_t type, uint8_t flag,
    const uint32_t *words, size_t word_count, const uint8_t *classes, size_t class_count);
struct belt_elected belt_elect_by_class(
    uint8_t set, uint8_t flag, const uint32_t *words, size_t word_count, const uint8_t *classes, size_t class_count);

/* The same six over samples instead of words: up to 4,096 of any four numbers, not-a-numbers and infinities too, and a
   class for each. Codes and models pass as to the calls over samples without a set. Samples that are made from words have
   the answers of those words.
   Refuse: as the six over words. */
struct belt_fit_answer belt_fit_samples_by_class(
    uint8_t set, uint8_t type,
    const struct belt_motion_sample *samples, size_t sample_count, const uint8_t *classes, size_t class_count);
struct belt_quantized_model belt_quantize_samples_by_class(
    uint8_t set, struct belt_to_quantize model,
    const struct belt_motion_sample *samples, size_t sample_count, const uint8_t *classes, size_t class_count);
struct belt_score belt_score_samples_by_class(
    uint8_t set, struct belt_model model,
    const struct belt_motion_sample *samples, size_t sample_count, const uint8_t *classes, size_t class_count);
struct belt_trimmed belt_fit_trimmed_samples_by_class(
    uint8_t set, uint8_t type,
    const struct belt_motion_sample *samples, size_t sample_count, const uint8_t *classes, size_t class_count);
struct belt_trimmed_model belt_quantize_trimmed_samples_by_class(
    uint8_t set, struct belt_to_trim codes,
    const struct belt_motion_sample *samples, size_t sample_count, const uint8_t *classes, size_t class_count);
struct belt_elected belt_elect_samples_by_class(
    uint8_t set, uint8_t flag,
    const struct belt_motion_sample *samples, size_t sample_count, const uint8_t *classes, size_t class_count);

/* One number on the grid ('Grid').
   In: type 0 to 3, flag, slot 0 to 5 and any number. Out: the codable number nearest to it.
   Refuses: 4, 5. */
struct belt_quantized_param belt_quantize_global_param(uint8_t type, uint8_t flag, uint8_t slot, int32_t value);

/* A frame's samples as blocks of form 2 ('Sample block').
   In: the frame number, up to 4,096 words, rising by row and column, with class bits zero, and a class for each.
   Out: belt_block_bytes of so many samples in BELT_FORM_2.
   Refuses: 1, 2, 4, 12 (class bits set too), 3, 17 (also without words). */
struct belt_stored belt_write_frame(
    uint16_t frame, const uint32_t *words, size_t word_count, const uint8_t *classes, size_t class_count,
    uint8_t *blocks, size_t blocks_room);

/* A frame's blocks of either form as words and classes ('Sample block').
   In: bytes that begin with the frame's blocks; those after its last block aren't read. Out: the frame
   number, the words, with class bits zero, and a class for each. No bytes read as frame 0 with no samples.
   Refuses: 9, 10, 11 (a frame of mixed forms too), 17, 3 (either buffer). */
struct belt_frame_read belt_read_both(
    const uint8_t *bytes, size_t byte_count, uint32_t *words, size_t word_room, uint8_t *classes, size_t class_room);

/* A frame's blocks of form 1 as words with their classes in them ('Sample block').
   In and out as for belt_read_both, but that there is one buffer, and that form 2 is refused.
   Refuses: 9, 10, 11 (form 2 too), 17, 3. */
struct belt_frame_read belt_read_frame(const uint8_t *bytes, size_t byte_count, uint32_t *words, size_t word_room);

/* A frame's blocks of the one form as blocks of the other ('Sample block').
   In: bytes that begin with the frame's blocks. Out: belt_block_bytes of its samples in the form to come. Every motion
   and class is carried over. No bytes are a frame without blocks.
   Refuses: 9, 10, 11 (a frame that has the form already, or mixed forms, too), 17; to form 1 also 13, a frame with
   BELT_FILM; 3. */
struct belt_stored belt_to_form1(const uint8_t *bytes, size_t byte_count, uint8_t *blocks, size_t blocks_room);
struct belt_stored belt_to_form2(const uint8_t *bytes, size_t byte_count, uint8_t *blocks, size_t blocks_room);

/* One block of either form without its neighbours ('Sample block').
   In: bytes that begin with the block. Out: its frame number, its ordinal and how many samples it holds.
   Refuses: 9, 10, 11. */
struct belt_block_read belt_judge_block(const uint8_t *bytes, size_t byte_count);

/* A block of either form as text ('Job').
   In: bytes that begin with the block. Out: how many of the 4,096 bytes the text takes: a line with frame,
   ordinal and count, then a line for each sample with row, column, v, u in eighths and class; or 'refused'
   and the number. Nothing ends the text. It refuses nothing. */
size_t belt_list_block(const uint8_t *bytes, size_t byte_count, uint8_t text[BELT_TEXT_BYTES]);

/* A header written ('Header').
   In: 7 types and 7 models (42 numbers), as stored, in rising order of reference, the flag, a prior for each
   number, and the bit of the first byte at which writing begins, 0 to 7. Counts of models are counts of their
   numbers. Out: the bits from the start on, high bit first, the last byte filled up with zeros; the bits before
   the start stay. The buffer needs the exact bytes, those of start and bits; BELT_HEADER_BYTES are always enough.
   Refuses: 2, 4, 14, 7, 8, 3. */
struct belt_written belt_encode_inter_global_motion(
    const uint8_t *types, size_t type_count,
    const struct belt_stored_model *models, size_t number_count,
    uint8_t flag,
    const struct belt_stored_model *prior, size_t prior_number_count,
    size_t start,
    uint8_t *header, size_t header_room);

/* A header read ('Reading by the standard').
   In: bytes, the bit to begin at, the flag, and the 42 numbers of the prior. Out: the seven types and
   models, as stored, and the bits consumed.
   Refuses: 2, 4, 8, 9. */
struct belt_models belt_read_global_motion_params(
    const uint8_t *header, size_t header_bytes, size_t at, uint8_t flag,
    const struct belt_stored_model *prior, size_t prior_number_count);

/* A header of a frame of either kind, written and read ('Key frames'). An inter frame, intra false, is written and read
   as by the two calls above. A key frame, intra true (FrameIsIntra of the standard), has no bits.
   In: of a key frame 7 types 0 and 7 identities; its prior may be anything. Out: 0 bits, and no byte is needed or
   touched. Read: seven identities and 0 bits, whatever the bytes, the position and the prior.
   Refuses of a key frame: 2, 4, 14, 7 (a model that isn't the identity); read 4. */
struct belt_written belt_encode_global_motion(
    bool intra,
    const uint8_t *types, size_t type_count,
    const struct belt_stored_model *models, size_t number_count,
    uint8_t flag,
    const struct belt_stored_model *prior, size_t prior_number_count,
    size_t start,
    uint8_t *header, size_t header_room);
struct belt_models belt_read_global_motion(
    bool intra,
    const uint8_t *header, size_t header_bytes, size_t at, uint8_t flag,
    const struct belt_stored_model *prior, size_t prior_number_count);

/* The price list of a coefficient ('Prices').
   In: a type, the flag, a slot that the type carries, and the slot's prior. Out: how many of the slot's ordinals have a
   code of each length.
   Refuses: 4, 5 (type 0, or a slot that the type doesn't carry), 8. */
struct belt_price_list belt_coefficient_prices(uint8_t type, uint8_t flag, uint8_t slot, int32_t prior);

/* The price of a frame ('Prices'): the bits that belt_encode_global_motion writes, from every start.
   In: what that takes, without start and buffer. Of a key frame the price is 0.
   Refuses: 2, 4, 7, 8; of a key frame 2, 4, 7. */
struct belt_price belt_frame_price(
    bool intra,
    const uint8_t *types, size_t type_count,
    const struct belt_stored_model *models, size_t number_count,
    uint8_t flag,
    const struct belt_stored_model *prior, size_t prior_number_count);

/* A whole job: search, fit, grid, score, blocks and header ('Job').
   In: two planes, the settings, a class for each whole 16x16 block, 6 types and 6 models (36 numbers) of the other
   references in rising order, as stored, and the 42 numbers of the prior.
   Out: the report; half planes and words as the search leaves them; the frame's blocks, of form 2; the header,
   from the settings' start on. The header buffer needs BELT_HEADER_BYTES, whatever the start, the blocks'
   belt_block_bytes of the samples in BELT_FORM_2. A header read from there is the report's models, and by
   belt_read_both the blocks read as the words and the classes.
   Motion goes from the input to the reference: with the earlier frame as input it is the way that the load moved; with
   the later frame as input it is the negative of it, and belt_moved_since_reference of belt_motion.h turns it round.
   belt_job_with below takes the same in two structs.
   Fit, score and election go by settings.set, as the calls by class do; blocks hold every sample, named or not.
   A job that trims fits as belt_quantize_trimmed_by_class does; its score takes all samples that are named. Its type's
   least number of them, 4, 6 or 8, is judged by the classes before the search (15). A job that elects has type, model and
   score of belt_elect_by_class; the type stands among the report's, and settings.type isn't looked at. It isn't refused
   with 15 or 6.
   Refuses: 1, 2, 4, 19, 5, 14, 7, 8, 3, 15, 17, 6, 16, and 6 of a second fit. After 6 and 16 the half planes and the words
   are in their buffers, and blocks and header are as they were. */
struct belt_report belt_job(
    const uint16_t *input, size_t input_pels,
    const uint16_t *reference, size_t reference_pels,
    size_t width, size_t height,
    struct belt_settings settings,
    const uint8_t *classes, size_t class_count,
    const uint8_t *types, size_t type_count,
    const struct belt_stored_model *models, size_t number_count,
    const struct belt_stored_model *prior, size_t prior_number_count,
    uint16_t *input_half, size_t input_half_pels,
    uint16_t *ref_half, size_t ref_half_pels,
    uint32_t *words, size_t word_room,
    uint8_t *blocks, size_t blocks_room,
    uint8_t *header, size_t header_room);

/* A job from its words on ('Job'): fit, grid, score, blocks and header of words that were searched already, in bands or
   elsewhere.
   In: up to 4,096 words, rising by row and column, with class bits zero, a class for each, and the lists of belt_job.
   Out: what belt_job reports of the frame that has these words, and its blocks and header; the report's samples are the
   words. The blocks' buffer needs belt_block_bytes of them in BELT_FORM_2.
   Refuses: 1, 2, 4, 19, 5, 14, 7, 8, 12, 3, 15, 17, 6, 16, and 6 of a second fit. Blocks and header are then as they
   were, whatever the row. */
struct belt_report belt_job_of_words(
    const uint32_t *words, size_t word_count,
    struct belt_settings settings,
    const uint8_t *classes, size_t class_count,
    const uint8_t *types, size_t type_count,
    const struct belt_stored_model *models, size_t number_count,
    const struct belt_stored_model *prior, size_t prior_number_count,
    uint8_t *blocks, size_t blocks_room,
    uint8_t *header, size_t header_room);

/* A run of frames ('A run of frames'): the prior of each inter frame is the models of the frame before it, identity at
   first and after a key frame. The run holds that prior, and the flag and the form given at its start. Each call takes
   the run by value and answers the run to go on with: keep that, whatever the refusal. A refused call answers the run
   that it was handed, good or bad; a refused start answers zeros, which every call refuses with 4.
   A reader that is begun alike and handed, in the same order, the switches that were accepted and each accepted frame's
   kind, start and header recovers the frame's models and ends with the same run.
   A run with a bad flag or form is refused with 4, one whose prior is out of range with 8, at every call, of key frames
   and switches too. A run that begins by belt_run_start and goes from answer to answer never meets either. */

/* In: the flag, and the form, BELT_FORM_1 or BELT_FORM_2. Refuses: 4. */
struct belt_moved belt_run_start(uint8_t flag, uint32_t form);

/* Between two frames: BELT_TO_LOW_PRECISION and BELT_TO_HIGH_PRECISION set the flag, BELT_TO_FORM_2 goes over to form 2,
   from which there is no way back; again is no fault. The prior stays. Refuses: 4, 8. */
struct belt_moved belt_run_switch(struct belt_run run, uint8_t code);

/* A frame of either kind, written as belt_encode_global_motion writes it, with the run's flag and prior; its models are
   the next prior. Refuses: 2, 4, 14, 7, 8, 3; of a key frame 2, 4, 14, 7, 8. */
struct belt_framed belt_run_frame(
    struct belt_run run,
    bool intra,
    const uint8_t *types, size_t type_count,
    const struct belt_stored_model *models, size_t number_count,
    size_t start,
    uint8_t *header, size_t header_room);

/* Such a frame, read as belt_read_global_motion reads it, with the flag and prior of a run begun alike; the models read
   are its next prior. Refuses: 4, 8, 9; of a key frame 4, 8. */
struct belt_frame_models belt_run_read(
    struct belt_run run, bool intra, const uint8_t *header, size_t header_bytes, size_t at);

/* A frame's samples as blocks of the form held, else as by belt_write_frame; nothing in the run moves.
   Refuses: 1, 2, 4, 8, 12, 13 (BELT_FILM in form 1), 3, 17 (also without words). */
struct belt_stored belt_run_store(
    struct belt_run run, uint16_t frame, const uint32_t *words, size_t word_count,
    const uint8_t *classes, size_t class_count, uint8_t *blocks, size_t blocks_room);

/* A whole job as an inter frame of the run: as belt_job, with the run's prior, flag and form. The flag of the settings
   isn't looked at; the blocks' buffer needs belt_block_bytes of the samples in the form held. The seven models reported
   are the next prior; what is refused, with 6 and 16 too, leaves the run as it was. A header is read back with the run
   before the job.
   Refuses: as belt_job, and 13 behind 8: a class that is BELT_FILM in form 1, whether it is named or not. */
struct belt_job_done belt_run_job(
    struct belt_run run,
    const uint16_t *input, size_t input_pels,
    const uint16_t *reference, size_t reference_pels,
    size_t width, size_t height,
    struct belt_settings settings,
    const uint8_t *classes, size_t class_count,
    const uint8_t *types, size_t type_count,
    const struct belt_stored_model *models, size_t number_count,
    uint16_t *input_half, size_t input_half_pels,
    uint16_t *ref_half, size_t ref_half_pels,
    uint32_t *words, size_t word_room,
    uint8_t *blocks, size_t blocks_room,
    uint8_t *header, size_t header_room);

/* A job from its words on as an inter frame of the run: as belt_job_of_words, with the run's prior, flag and form, as
   belt_run_job is belt_job with them.
   Refuses: as belt_job_of_words, and 13 behind 12: a class that is BELT_FILM in form 1, whether it is named or not. */
struct belt_job_done belt_run_job_of_words(
    struct belt_run run,
    const uint32_t *words, size_t word_count,
    struct belt_settings settings,
    const uint8_t *classes, size_t class_count,
    const uint8_t *types, size_t type_count,
    const struct belt_stored_model *models, size_t number_count,
    uint8_t *blocks, size_t blocks_room,
    uint8_t *header, size_t header_room);

/* A job by name ('Job'). What belt_task leaves NULL is the plain case: every sample unsorted, the other six references
   still, a prior of identities. The lists have the lengths that the sides and the seven references give them: width x
   height pels, a class for each whole 16x16 block, 6 types and 6 models of the other references, 7 models of the prior. */
struct belt_task {
    const uint16_t *input; const uint16_t *reference; size_t width; size_t height;
    struct belt_settings settings;
    const uint8_t *classes; const uint8_t *types; const struct belt_stored_model *models;
    const struct belt_stored_model *prior;
};
/* The five buffers that a job is lent, with how many elements each has. A room is good for every job that needs no more. */
struct belt_room {
    uint32_t *words; size_t word_room;
    uint16_t *input_half; size_t input_half_pels;
    uint16_t *ref_half; size_t ref_half_pels;
    uint8_t *blocks; size_t blocks_room;
    uint8_t *header; size_t header_room;
};

/* Settings of a job that elects its type, at high precision, for reference 1, among all classes, from bit 0 on. */
static inline struct belt_settings belt_default_settings(uint16_t frame) {
    struct belt_settings settings = {
        frame, BELT_IDENTITY, 1, BELT_HIGH_PRECISION, BELT_ALL_SAMPLES, BELT_ELECT, BELT_ALL_CLASSES, 0};
    return settings;
}

/* The bytes that belt_room_in needs for a job on planes of these sides whose blocks are of this form: BELT_FORM_2 but in
   a run that holds form 1. 0 where a side is over BELT_MOST_SIDE, which every job refuses. */
static inline size_t belt_room_bytes(size_t width, size_t height, enum belt_form form) {
    if (width > BELT_MOST_SIDE || height > BELT_MOST_SIDE)
        return 0;
    size_t samples = belt_sample_count(width, height);
    return sizeof(uint32_t) - 1 + sizeof(uint32_t) * samples +
           2 * sizeof(uint16_t) * belt_half_plane_values(width, height) + BELT_HEADER_BYTES +
           belt_block_bytes(samples, form);
}

/* The five buffers in one piece of memory, wherever it begins; the blocks have what is left behind the others. Memory of
   fewer than belt_room_bytes, or NULL, makes a room that is too short, which a job refuses with 3. */
static inline struct belt_room belt_room_in(void *memory, size_t bytes, size_t width, size_t height) {
    struct belt_room room = {NULL, 0, NULL, 0, NULL, 0, NULL, 0, NULL, 0};
    size_t samples = belt_sample_count(width, height), half = belt_half_plane_values(width, height);
    size_t before = belt_room_bytes(width, height, BELT_FORM_2) - belt_block_bytes(samples, BELT_FORM_2);
    if (memory == NULL || width > BELT_MOST_SIDE || height > BELT_MOST_SIDE || bytes < before)
        return room;
    uint8_t *at = BELT_CAST(uint8_t *, memory);
    while (BELT_ADDRESS(at) % sizeof(uint32_t) != 0)
        at++;
    room.words = BELT_CAST(uint32_t *, BELT_CAST(void *, at));
    room.word_room = samples;
    room.input_half = BELT_CAST(uint16_t *, BELT_CAST(void *, room.words + samples));
    room.input_half_pels = half;
    room.ref_half = room.input_half + half;
    room.ref_half_pels = half;
    room.header = BELT_CAST(uint8_t *, BELT_CAST(void *, room.ref_half + half));
    room.header_room = BELT_HEADER_BYTES;
    room.blocks = room.header + BELT_HEADER_BYTES;
    room.blocks_room = bytes - before;
    return room;
}

/* The classes, and the types of the other references, that a task leaves out. */
static inline const uint8_t *belt_or_zeros(const uint8_t *list) {
    static const uint8_t zeros[BELT_MOST_SAMPLES] = {0};
    return list == NULL ? zeros : list;
}
static inline const struct belt_stored_model *belt_or_identities(const struct belt_stored_model *models) {
    return models == NULL ? belt_identities : models;
}

/* belt_job of a task, in a room. A plane that is NULL is refused with 2, unless it has no pels.
   Which way the motion goes: see belt_job. */
static inline struct belt_report belt_job_with(const struct belt_task *task, struct belt_room *room) {
    size_t pels = task->width * task->height;
    return belt_job(
        task->input, task->input == NULL ? 0 : pels,
        task->reference, task->reference == NULL ? 0 : pels,
        task->width, task->height,
        task->settings,
        belt_or_zeros(task->classes), belt_sample_count(task->width, task->height),
        belt_or_zeros(task->types), BELT_OTHER_TYPES,
        belt_or_identities(task->models), BELT_OTHER_NUMBERS,
        belt_or_identities(task->prior), BELT_NUMBERS,
        room->input_half, room->input_half_pels,
        room->ref_half, room->ref_half_pels,
        room->words, room->word_room,
        room->blocks, room->blocks_room,
        room->header, room->header_room);
}

/* belt_run_job of a task, in a room; the task's prior and its flag aren't looked at. */
static inline struct belt_job_done belt_run_job_with(
    struct belt_run run, const struct belt_task *task, struct belt_room *room) {
    size_t pels = task->width * task->height;
    return belt_run_job(
        run,
        task->input, task->input == NULL ? 0 : pels,
        task->reference, task->reference == NULL ? 0 : pels,
        task->width, task->height,
        task->settings,
        belt_or_zeros(task->classes), belt_sample_count(task->width, task->height),
        belt_or_zeros(task->types), BELT_OTHER_TYPES,
        belt_or_identities(task->models), BELT_OTHER_NUMBERS,
        room->input_half, room->input_half_pels,
        room->ref_half, room->ref_half_pels,
        room->words, room->word_room,
        room->blocks, room->blocks_room,
        room->header, room->header_room);
}

/* The search of a task in bands, into a room: first the half planes, by one thread, or each by belt_half_plane; then,
   by any number of threads at once, block rows first to end - 1, each into its own place among the room's words; then, by
   one again, the job of these words. Bands of different threads have no row in common. A task without samples has no half
   planes and no rows. A refusal of the task that isn't its planes' or its room's is seen by the last step alone. */
static inline size_t belt_block_rows(size_t height) {
    return height / BELT_BLOCK_SIDE;
}
static inline uint32_t belt_half_planes_with(const struct belt_task *task, struct belt_room *room) {
    size_t pels = task->width * task->height;
    if (belt_sample_count(task->width, task->height) == 0)
        return BELT_ACCEPTED;
    uint32_t refusal = belt_half_plane(
        task->input, task->input == NULL ? 0 : pels, task->width, task->height, room->input_half, room->input_half_pels);
    return refusal != BELT_ACCEPTED
               ? refusal
               : belt_half_plane(
                     task->reference, task->reference == NULL ? 0 : pels, task->width, task->height, room->ref_half,
                     room->ref_half_pels);
}
static inline struct belt_searched belt_search_band_with(
    const struct belt_task *task, const struct belt_room *room, size_t first, size_t end) {
    struct belt_searched none = {BELT_ACCEPTED, 0, 0};
    size_t pels = task->width * task->height, half = belt_half_plane_values(task->width, task->height);
    size_t before = first * (task->width / BELT_BLOCK_SIDE);
    if (half == 0)
        return none;
    bool there = first <= belt_block_rows(task->height) && before <= room->word_room;
    return belt_search_band(
        task->input, task->input == NULL ? 0 : pels,
        task->reference, task->reference == NULL ? 0 : pels,
        task->width, task->height,
        room->input_half, room->input_half_pels < half ? room->input_half_pels : half,
        room->ref_half, room->ref_half_pels < half ? room->ref_half_pels : half,
        first, end,
        there ? room->words + before : NULL, there ? room->word_room - before : 0);
}
static inline struct belt_report belt_job_of_words_with(const struct belt_task *task, struct belt_room *room) {
    size_t samples = belt_sample_count(task->width, task->height);
    return belt_job_of_words(
        room->words, samples < room->word_room ? samples : room->word_room,
        task->settings,
        belt_or_zeros(task->classes), samples,
        belt_or_zeros(task->types), BELT_OTHER_TYPES,
        belt_or_identities(task->models), BELT_OTHER_NUMBERS,
        belt_or_identities(task->prior), BELT_NUMBERS,
        room->blocks, room->blocks_room,
        room->header, room->header_room);
}
static inline struct belt_job_done belt_run_job_of_words_with(
    struct belt_run run, const struct belt_task *task, struct belt_room *room) {
    size_t samples = belt_sample_count(task->width, task->height);
    return belt_run_job_of_words(
        run,
        room->words, samples < room->word_room ? samples : room->word_room,
        task->settings,
        belt_or_zeros(task->classes), samples,
        belt_or_zeros(task->types), BELT_OTHER_TYPES,
        belt_or_identities(task->models), BELT_OTHER_NUMBERS,
        room->blocks, room->blocks_room,
        room->header, room->header_room);
}

/* The shear check: will a decoder keep a model's warp?
   In: type 2 or 3 and the model's six numbers. Out: the verdict and the four shear numbers, multiples of 64
   at 16 fraction bits.
   Refuses: 2, 4, 7 (types 0 and 1 too). */
struct belt_shear belt_setup_shear(uint8_t type, const int32_t *params, size_t param_count);

/* The root of a number, correctly rounded ('Root'): a zero, plus infinity and a not-a-number are their own
   roots, and a number below 0 has none, which is a not-a-number. Refuses nothing. */
double belt_root(double x);

/* A belt to practise on ('Practice belt').
   In: a seed, the sides of both planes, and a motion of dy rows and dx columns, each at most BELT_MOST_SHIFT pels
   either way. Out: a reference plane of noise, width x height pels row by row, and the input plane, whose pel at a
   place is the reference pel dy rows further down and dx columns further right, coordinates clamped. A search of the
   two looks for v = 8 dy and u = 8 dx.
   Refuses: 1, 18, 3. */
struct belt_made belt_make_practice_planes(
    uint32_t seed, size_t width, size_t height, int32_t dy, int32_t dx,
    uint16_t *input, size_t input_room,
    uint16_t *reference, size_t reference_room);

/* Where everything stands: a struct's size, and the byte at which each field begins. */
BELT_SIZE(belt_model, 24); BELT_PLACE(belt_model, params, 0);
BELT_SIZE(belt_stored_model, 24); BELT_PLACE(belt_stored_model, params, 0);
BELT_SIZE(belt_motion_sample, 32); BELT_PLACE(belt_motion_sample, x, 0); BELT_PLACE(belt_motion_sample, y, 8);
    BELT_PLACE(belt_motion_sample, u, 16); BELT_PLACE(belt_motion_sample, v, 24);
BELT_SIZE(belt_to_quantize, 56); BELT_PLACE(belt_to_quantize, type, 0); BELT_PLACE(belt_to_quantize, flag, 1);
    BELT_PLACE(belt_to_quantize, numbers, 8);
BELT_SIZE(belt_to_trim, 2); BELT_PLACE(belt_to_trim, type, 0); BELT_PLACE(belt_to_trim, flag, 1);
BELT_SIZE(belt_searched, 24); BELT_PLACE(belt_searched, refusal, 0); BELT_PLACE(belt_searched, samples, 8);
    BELT_PLACE(belt_searched, rows, 16);
BELT_SIZE(belt_fit_answer, 56); BELT_PLACE(belt_fit_answer, refusal, 0); BELT_PLACE(belt_fit_answer, numbers, 8);
BELT_SIZE(belt_quantized_model, 28); BELT_PLACE(belt_quantized_model, refusal, 0);
    BELT_PLACE(belt_quantized_model, model, 4);
BELT_SIZE(belt_trimmed, 56); BELT_PLACE(belt_trimmed, refusal, 0); BELT_PLACE(belt_trimmed, used, 4);
    BELT_PLACE(belt_trimmed, numbers, 8);
BELT_SIZE(belt_trimmed_model, 32); BELT_PLACE(belt_trimmed_model, refusal, 0);
    BELT_PLACE(belt_trimmed_model, used, 4); BELT_PLACE(belt_trimmed_model, model, 8);
BELT_SIZE(belt_elected, 40); BELT_PLACE(belt_elected, refusal, 0); BELT_PLACE(belt_elected, type, 4);
    BELT_PLACE(belt_elected, model, 8); BELT_PLACE(belt_elected, score, 32);
BELT_SIZE(belt_quantized_param, 8); BELT_PLACE(belt_quantized_param, refusal, 0);
    BELT_PLACE(belt_quantized_param, value, 4);
BELT_SIZE(belt_score, 16); BELT_PLACE(belt_score, refusal, 0); BELT_PLACE(belt_score, score, 8);
BELT_SIZE(belt_stored, 16); BELT_PLACE(belt_stored, refusal, 0); BELT_PLACE(belt_stored, blocks, 8);
BELT_SIZE(belt_frame_read, 16); BELT_PLACE(belt_frame_read, refusal, 0); BELT_PLACE(belt_frame_read, frame, 4);
    BELT_PLACE(belt_frame_read, samples, 8);
BELT_SIZE(belt_block_read, 24); BELT_PLACE(belt_block_read, refusal, 0); BELT_PLACE(belt_block_read, frame, 4);
    BELT_PLACE(belt_block_read, ordinal, 8); BELT_PLACE(belt_block_read, count, 16);
BELT_SIZE(belt_written, 16); BELT_PLACE(belt_written, refusal, 0); BELT_PLACE(belt_written, bits, 8);
BELT_SIZE(belt_models, 192); BELT_PLACE(belt_models, refusal, 0); BELT_PLACE(belt_models, types, 4);
    BELT_PLACE(belt_models, models, 12); BELT_PLACE(belt_models, bits, 184);
BELT_SIZE(belt_settings, 16); BELT_PLACE(belt_settings, frame, 0); BELT_PLACE(belt_settings, type, 2);
    BELT_PLACE(belt_settings, reference, 3); BELT_PLACE(belt_settings, flag, 4); BELT_PLACE(belt_settings, trim, 5);
    BELT_PLACE(belt_settings, elect, 6); BELT_PLACE(belt_settings, set, 7); BELT_PLACE(belt_settings, start, 8);
BELT_SIZE(belt_report, 208); BELT_PLACE(belt_report, refusal, 0); BELT_PLACE(belt_report, types, 4);
    BELT_PLACE(belt_report, models, 12); BELT_PLACE(belt_report, score, 184); BELT_PLACE(belt_report, bits, 192);
    BELT_PLACE(belt_report, samples, 200);
BELT_SIZE(belt_shear, 24); BELT_PLACE(belt_shear, refusal, 0); BELT_PLACE(belt_shear, valid, 4);
    BELT_PLACE(belt_shear, alpha, 8); BELT_PLACE(belt_shear, beta, 12); BELT_PLACE(belt_shear, gamma, 16);
    BELT_PLACE(belt_shear, delta, 20);
BELT_SIZE(belt_price_list, 96); BELT_PLACE(belt_price_list, refusal, 0); BELT_PLACE(belt_price_list, lengths, 8);
    BELT_PLACE(belt_price_list, ordinals, 16);
BELT_SIZE(belt_price, 16); BELT_PLACE(belt_price, refusal, 0); BELT_PLACE(belt_price, bits, 8);
BELT_SIZE(belt_made, 16); BELT_PLACE(belt_made, refusal, 0); BELT_PLACE(belt_made, pels, 8);
BELT_SIZE(belt_run, 176); BELT_PLACE(belt_run, prior, 0); BELT_PLACE(belt_run, flag, 168);
    BELT_PLACE(belt_run, form, 172);
BELT_SIZE(belt_moved, 180); BELT_PLACE(belt_moved, refusal, 0); BELT_PLACE(belt_moved, run, 4);
BELT_SIZE(belt_framed, 192); BELT_PLACE(belt_framed, written, 0); BELT_PLACE(belt_framed, run, 16);
BELT_SIZE(belt_frame_models, 368); BELT_PLACE(belt_frame_models, models, 0); BELT_PLACE(belt_frame_models, run, 192);
BELT_SIZE(belt_job_done, 384); BELT_PLACE(belt_job_done, report, 0); BELT_PLACE(belt_job_done, run, 208);
BELT_SIZE(belt_task, 80); BELT_PLACE(belt_task, input, 0); BELT_PLACE(belt_task, reference, 8);
    BELT_PLACE(belt_task, width, 16); BELT_PLACE(belt_task, height, 24); BELT_PLACE(belt_task, settings, 32);
    BELT_PLACE(belt_task, classes, 48); BELT_PLACE(belt_task, types, 56); BELT_PLACE(belt_task, models, 64);
    BELT_PLACE(belt_task, prior, 72);
BELT_SIZE(belt_room, 80); BELT_PLACE(belt_room, words, 0); BELT_PLACE(belt_room, word_room, 8);
    BELT_PLACE(belt_room, input_half, 16); BELT_PLACE(belt_room, input_half_pels, 24);
    BELT_PLACE(belt_room, ref_half, 32); BELT_PLACE(belt_room, ref_half_pels, 40); BELT_PLACE(belt_room, blocks, 48);
    BELT_PLACE(belt_room, blocks_room, 56); BELT_PLACE(belt_room, header, 64); BELT_PLACE(belt_room, header_room, 72);

#ifdef __cplusplus
}
#endif

#endif
