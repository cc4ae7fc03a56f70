/* How much of a thread's stack the calls take that have lists of their own: each runs on a stack that was filled with
   one value before, and what no longer has it was used. Ends with 1 where a call takes more than belt.h says, takes so
   much less that belt.h should say less, or refuses. It is C99, and C++11, with the contexts of POSIX. */
#define _XOPEN_SOURCE 700
#include <stdio.h>
#include <stdlib.h>
#include <string.h>
#include <ucontext.h>

#include "belt.h"
#include "belt_motion.h"

enum {
    WIDTH = 80,
    HEIGHT = 64,
    PELS = WIDTH * HEIGHT,
    HALF = (WIDTH / 2) * (HEIGHT / 2),
    SAMPLES = (WIDTH / 16) * (HEIGHT / 16),
    BLOCKS = (SAMPLES + BELT_FORM_2_SAMPLES - 1) / BELT_FORM_2_SAMPLES * BELT_BLOCK_BYTES,
    STACK = 1 << 20,
    FILL = 0xa5
};

static const struct belt_stored_model identity = {BELT_IDENTITY_PARAMS};
static const uint8_t other_types[BELT_REFERENCES] = {0};
static struct belt_stored_model prior[BELT_REFERENCES];
static uint16_t input[PELS], reference[PELS], input_half[HALF], ref_half[HALF];
static uint32_t words[SAMPLES];
static uint8_t classes[SAMPLES], blocks[BLOCKS], header[BELT_HEADER_BYTES];
static struct belt_motion_sample samples[SAMPLES];
static struct belt_run run;

static uint8_t stack[STACK];
static ucontext_t own, painted;
static uint32_t refusal;

static void nothing(void) { refusal = BELT_ACCEPTED; }

static void job(uint8_t trim, uint8_t elect) {
    struct belt_settings settings = {1, BELT_AFFINE, 1, BELT_HIGH_PRECISION, trim, elect, BELT_ALL_CLASSES, 0};
    refusal = belt_job(input, PELS, reference, PELS, WIDTH, HEIGHT, settings, classes, SAMPLES, other_types,
                       BELT_OTHER_TYPES, prior, BELT_OTHER_NUMBERS, prior, BELT_NUMBERS, input_half, HALF, ref_half,
                       HALF, words, SAMPLES, blocks, BLOCKS, header, BELT_HEADER_BYTES)
                  .refusal;
}

static void job_in_run(uint8_t trim, uint8_t elect) {
    struct belt_settings settings = {1, BELT_AFFINE, 1, BELT_HIGH_PRECISION, trim, elect, BELT_ALL_CLASSES, 0};
    refusal = belt_run_job(run, input, PELS, reference, PELS, WIDTH, HEIGHT, settings, classes, SAMPLES, other_types,
                           BELT_OTHER_TYPES, prior, BELT_OTHER_NUMBERS, input_half, HALF, ref_half, HALF, words,
                           SAMPLES, blocks, BLOCKS, header, BELT_HEADER_BYTES)
                  .report.refusal;
}

static void job_of_words(uint8_t trim, uint8_t elect) {
    struct belt_settings settings = {1, BELT_AFFINE, 1, BELT_HIGH_PRECISION, trim, elect, BELT_ALL_CLASSES, 0};
    refusal = belt_job_of_words(words, SAMPLES, settings, classes, SAMPLES, other_types, BELT_OTHER_TYPES, prior,
                                BELT_OTHER_NUMBERS, prior, BELT_NUMBERS, blocks, BLOCKS, header, BELT_HEADER_BYTES)
                  .refusal;
}

static void job_of_words_in_run(uint8_t trim, uint8_t elect) {
    struct belt_settings settings = {1, BELT_AFFINE, 1, BELT_HIGH_PRECISION, trim, elect, BELT_ALL_CLASSES, 0};
    refusal = belt_run_job_of_words(run, words, SAMPLES, settings, classes, SAMPLES, other_types, BELT_OTHER_TYPES,
                                    prior, BELT_OTHER_NUMBERS, blocks, BLOCKS, header, BELT_HEADER_BYTES)
                  .report.refusal;
}

static void plain_job(void) { job(BELT_ALL_SAMPLES, BELT_ASKED_TYPE); }
static void trimming_job(void) { job(BELT_TRIM, BELT_ASKED_TYPE); }
static void electing_job(void) { job(BELT_ALL_SAMPLES, BELT_ELECT); }
static void plain_job_in_run(void) { job_in_run(BELT_ALL_SAMPLES, BELT_ASKED_TYPE); }
static void trimming_job_in_run(void) { job_in_run(BELT_TRIM, BELT_ASKED_TYPE); }
static void electing_job_in_run(void) { job_in_run(BELT_ALL_SAMPLES, BELT_ELECT); }
static void plain_job_of_words(void) { job_of_words(BELT_ALL_SAMPLES, BELT_ASKED_TYPE); }
static void electing_job_of_words(void) { job_of_words(BELT_ALL_SAMPLES, BELT_ELECT); }
static void electing_job_of_words_in_run(void) { job_of_words_in_run(BELT_ALL_SAMPLES, BELT_ELECT); }
static void band(void) {
    refusal = belt_search_band(input, PELS, reference, PELS, WIDTH, HEIGHT, input_half, HALF, ref_half, HALF, 0,
                               HEIGHT / BELT_BLOCK_SIDE, words, SAMPLES)
                  .refusal;
}
static void frame_in_run(void) {
    refusal = belt_run_frame(run, false, other_types, BELT_REFERENCES, prior, BELT_NUMBERS, 0, header,
                             BELT_HEADER_BYTES)
                  .written.refusal;
}
static void fit_trimmed(void) { refusal = belt_fit_trimmed(BELT_AFFINE, words, SAMPLES).refusal; }
static void quantize_trimmed(void) {
    refusal = belt_quantize_trimmed(BELT_AFFINE, BELT_HIGH_PRECISION, words, SAMPLES).refusal;
}
static void elect(void) { refusal = belt_elect(BELT_HIGH_PRECISION, words, SAMPLES).refusal; }
static void fit_by_class(void) {
    refusal = belt_fit_by_class(BELT_ALL_CLASSES, BELT_AFFINE, words, SAMPLES, classes, SAMPLES).refusal;
}
static void fit_trimmed_by_class(void) {
    refusal = belt_fit_trimmed_by_class(BELT_ALL_CLASSES, BELT_AFFINE, words, SAMPLES, classes, SAMPLES).refusal;
}
static void elect_by_class(void) {
    refusal = belt_elect_by_class(BELT_ALL_CLASSES, BELT_HIGH_PRECISION, words, SAMPLES, classes, SAMPLES).refusal;
}
static void fit_trimmed_samples(void) {
    refusal = belt_fit_trimmed_samples(samples, SAMPLES, BELT_AFFINE).refusal;
}
static void elect_samples(void) { refusal = belt_elect_samples(samples, SAMPLES, BELT_HIGH_PRECISION).refusal; }
static void fit_samples_by_class(void) {
    refusal = belt_fit_samples_by_class(BELT_ALL_CLASSES, BELT_AFFINE, samples, SAMPLES, classes, SAMPLES).refusal;
}
static void fit_trimmed_samples_by_class(void) {
    refusal = belt_fit_trimmed_samples_by_class(BELT_ALL_CLASSES, BELT_AFFINE, samples, SAMPLES, classes, SAMPLES).refusal;
}
static void elect_samples_by_class(void) {
    refusal = belt_elect_samples_by_class(BELT_ALL_CLASSES, BELT_HIGH_PRECISION, samples, SAMPLES, classes, SAMPLES).refusal;
}

static const struct {
    const char *name;
    void (*call)(void);
    size_t most; /* bytes; the least that it may take is four fifths of it */
} calls[] = {
    {"a job", plain_job, BELT_STACK_BYTES_PLAIN},
    {"a job that trims", trimming_job, BELT_STACK_BYTES_TRIM},
    {"a job that elects", electing_job, BELT_STACK_BYTES_ELECT},
    {"a job in a run", plain_job_in_run, BELT_STACK_BYTES_PLAIN},
    {"a job in a run that trims", trimming_job_in_run, BELT_STACK_BYTES_TRIM},
    {"a job in a run that elects", electing_job_in_run, BELT_STACK_BYTES_ELECT},
    {"a job of words", plain_job_of_words, BELT_STACK_BYTES_PLAIN},
    {"a job of words that elects", electing_job_of_words, BELT_STACK_BYTES_ELECT},
    {"a job of words in a run that elects", electing_job_of_words_in_run, BELT_STACK_BYTES_ELECT},
    {"belt_search_band", band, 6500},
    {"belt_run_frame", frame_in_run, 1700},
    {"belt_fit_trimmed", fit_trimmed, 60000},
    {"belt_quantize_trimmed", quantize_trimmed, 60000},
    {"belt_elect", elect, 60000},
    {"belt_fit_by_class", fit_by_class, 23000},
    {"belt_fit_trimmed_by_class", fit_trimmed_by_class, 75000},
    {"belt_elect_by_class", elect_by_class, 75000},
    {"belt_fit_trimmed_samples", fit_trimmed_samples, 36000},
    {"belt_elect_samples", elect_samples, 36000},
    {"belt_fit_samples_by_class", fit_samples_by_class, 1300},
    {"belt_fit_trimmed_samples_by_class", fit_trimmed_samples_by_class, 170000},
    {"belt_elect_samples_by_class", elect_samples_by_class, 170000},
};

/* The bytes from the stack's upper end down to the last one that was written. */
static size_t used_by(void (*call)(void)) {
    memset(stack, FILL, sizeof stack);
    getcontext(&painted);
    painted.uc_stack.ss_sp = stack;
    painted.uc_stack.ss_size = sizeof stack;
    painted.uc_link = &own;
    makecontext(&painted, call, 0);
    swapcontext(&own, &painted);
    if (refusal != BELT_ACCEPTED) {
        printf("refused %u: %s\n", (unsigned)refusal, belt_refusal_text(refusal));
        exit(1);
    }
    size_t free_bytes = 0;
    while (free_bytes < sizeof stack && stack[free_bytes] == FILL)
        free_bytes++;
    return sizeof stack - free_bytes;
}

int main(void) {
    int wrong = 0;
    for (int r = 0; r < BELT_REFERENCES; r++)
        prior[r] = identity;
    if (belt_make_practice_planes(1, WIDTH, HEIGHT, 2, 3, input, PELS, reference, PELS).refusal != BELT_ACCEPTED)
        return 1;
    run = belt_run_start(BELT_HIGH_PRECISION, BELT_FORM_1).run;
    plain_job();
    for (size_t i = 0; i < SAMPLES; i++)
        samples[i] = belt_motion_sample_of(words[i]);
    size_t empty = used_by(nothing);
    for (size_t i = 0; i < sizeof calls / sizeof calls[0]; i++) {
        size_t used = used_by(calls[i].call) - empty;
        printf("%s: %u bytes of stack, at most %u\n", calls[i].name, (unsigned)used, (unsigned)calls[i].most);
        wrong |= used > calls[i].most || used < calls[i].most / 5 * 4;
    }
    return wrong;
}
