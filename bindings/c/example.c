/* Jobs of the three types on frames that this program computes: it prints each report and the header in
   hexadecimal, reads header and blocks back and compares, does the same work by the single calls, says what the
   motion is in pels, and prints the text of a block. Then it trims loose film away, has types elected, fits the belt
   without the film, records a run of frames and reads it back, shows a pan beyond the search's range, and tries a refusal
   of each call. Ends with 1 where a call refuses or something differs. It is C99, and C++11. */
#include <stdio.h>
#include <stdlib.h>
#include <string.h>

#include "belt.h"
#include "belt_motion.h"

enum {
    WIDTH = 80,
    HEIGHT = 64,
    PELS = WIDTH * HEIGHT,
    HALF = (WIDTH / 2) * (HEIGHT / 2),
    SAMPLES = (WIDTH / 16) * (HEIGHT / 16),
    BLOCKS = (SAMPLES + BELT_FORM_2_SAMPLES - 1) / BELT_FORM_2_SAMPLES * BELT_BLOCK_BYTES
};

static const struct belt_stored_model identity = {BELT_IDENTITY_PARAMS};

static struct belt_stored_model prior[BELT_REFERENCES];
static uint16_t input[PELS], reference[PELS], input_half[HALF], ref_half[HALF];
static uint32_t words[SAMPLES], words_read[SAMPLES];
static uint8_t classes[SAMPLES], classes_read[SAMPLES], blocks[BLOCKS], header[BELT_HEADER_BYTES], text[BELT_TEXT_BYTES];

/* A value for each place, without a pattern. */
static uint16_t pel(uint32_t y, uint32_t x) {
    uint32_t h = y * 2654435761u ^ x * 2246822519u;
    h = (h ^ h >> 15) * 3266489917u;
    return (uint16_t)(h >> 20);
}

static size_t held(size_t at, int by, size_t side) {
    long moved = (long)at + by;
    return moved < 0 ? 0 : moved >= (long)side ? side - 1 : (size_t)moved;
}

/* Each pel of the input is the reference's, so many rows below and columns to the right; edges repeat. */
static void draw(int dy, int dx) {
    for (size_t y = 0; y < HEIGHT; y++)
        for (size_t x = 0; x < WIDTH; x++)
            reference[y * WIDTH + x] = pel((uint32_t)y, (uint32_t)x);
    for (size_t y = 0; y < HEIGHT; y++)
        for (size_t x = 0; x < WIDTH; x++)
            input[y * WIDTH + x] = reference[held(y, dy, HEIGHT) * WIDTH + held(x, dx, WIDTH)];
}

static void refused(const char *call, uint32_t refusal) {
    if (refusal != BELT_ACCEPTED) {
        printf("%s refused %u: %s\n", call, (unsigned)refusal, belt_refusal_text(refusal));
        exit(1);
    }
}

static void wants(const char *what, uint32_t refusal, uint32_t row) {
    printf("%s: refused %u, %s\n", what, (unsigned)refusal, belt_refusal_text(refusal));
    if (refusal != row)
        exit(1);
}

static void same(int equal, const char *what) {
    printf("%s: %s\n", what, equal ? "the same" : "DIFFERENT");
    if (!equal)
        exit(1);
}

static const uint8_t other_types[BELT_OTHER_TYPES] = {0};

static struct belt_report run(struct belt_settings settings, size_t input_pels) {
    return belt_job(
        input, input_pels, reference, PELS, WIDTH, HEIGHT, settings, classes, SAMPLES, other_types, BELT_OTHER_TYPES,
        prior, BELT_OTHER_NUMBERS, prior, BELT_NUMBERS, input_half, HALF, ref_half, HALF, words, SAMPLES, blocks,
        BLOCKS, header, BELT_HEADER_BYTES);
}

static struct belt_model own_model(const struct belt_report *report, struct belt_settings settings) {
    const int place = settings.reference - 1;
    return belt_x_first(report->types[place], report->models[place]);
}

/* -0.0 as 0.0, so that the same text comes out everywhere. */
static double plain(double value) {
    return value < 0.0005 && value > -0.0005 ? 0.0 : value;
}

static void print_motion(struct belt_model model, size_t samples) {
    struct belt_motion shift = belt_motion_at(model, 0.0, 0.0);
    printf("moved %.3f right, %.3f down; zoom %.4f, turn %.3f degrees; %u of %u samples agree within 1/4 pel\n",
           plain(shift.u), plain(shift.v), belt_zoom(model), plain(belt_degrees(model)),
           (unsigned)belt_agreeing(model, words, samples, 0.25), (unsigned)samples);
}

static void print_report(const struct belt_report *report, struct belt_settings settings) {
    printf("type %d: %u samples, score %.6f, %u header bits\n", settings.type, (unsigned)report->samples,
           report->score, (unsigned)report->bits);
    print_motion(own_model(report, settings), report->samples);
    for (int r = 0; r < BELT_REFERENCES; r++) {
        printf("reference %d type %d:", r + 1, report->types[r]);
        for (int slot = 0; slot < 6; slot++)
            printf(" %ld", (long)report->models[r].params[slot]);
        printf("\n");
    }
    printf("header:");
    for (size_t i = 0; i < (settings.start + report->bits + 7) / 8; i++)
        printf(" %02X", header[i]);
    printf("\n");
}

static void read_back(const struct belt_report *report, struct belt_settings settings) {
    struct belt_models read =
        belt_read_global_motion_params(header, BELT_HEADER_BYTES, settings.start, settings.flag, prior, BELT_NUMBERS);
    refused("belt_read_global_motion_params", read.refusal);
    same(read.bits == report->bits && memcmp(read.types, report->types, sizeof read.types) == 0 &&
             memcmp(read.models, report->models, sizeof read.models) == 0,
         "header read back");
    struct belt_frame_read frame = belt_read_both(blocks, BLOCKS, words_read, SAMPLES, classes_read, SAMPLES);
    refused("belt_read_both", frame.refusal);
    same(frame.frame == settings.frame && frame.samples == report->samples &&
             memcmp(words_read, words, sizeof words) == 0 && memcmp(classes_read, classes, sizeof classes) == 0,
         "blocks read back");
}

static struct belt_fit_answer fit(uint8_t type) {
    return type == BELT_TRANSLATION ? belt_fit_translation(words_read, SAMPLES)
           : type == BELT_ROTZOOM   ? belt_fit_rotzoom(words_read, SAMPLES)
                                    : belt_fit_affine(words_read, SAMPLES);
}

/* The search, the model and its score, the blocks and the header again, each by its own call. */
static void by_single_calls(const struct belt_report *report, struct belt_settings settings) {
    static uint16_t halves[2][HALF];
    static uint8_t blocks_again[BLOCKS], header_again[BELT_HEADER_BYTES];
    struct belt_searched found = belt_collect_motion_samples(
        input, PELS, reference, PELS, WIDTH, HEIGHT, classes, SAMPLES, halves[0], HALF, halves[1], HALF, words_read,
        SAMPLES);
    refused("belt_collect_motion_samples", found.refusal);
    same(found.samples == report->samples && found.rows >= 736 * SAMPLES && found.rows <= 6184 * SAMPLES &&
             memcmp(halves[0], input_half, sizeof input_half) == 0 &&
             memcmp(halves[1], ref_half, sizeof ref_half) == 0 && memcmp(words_read, words, sizeof words) == 0,
         "search");

    struct belt_fit_answer fitted = fit(settings.type);
    refused("the fit", fitted.refusal);
    struct belt_quantized_model answer =
        belt_quantize_model(settings.type, fitted.numbers, settings.flag, words_read, SAMPLES);
    refused("belt_quantize_model", answer.refusal);
    int on_grid = 1;
    for (uint8_t slot = 0; slot < 6; slot++) {
        struct belt_quantized_param nearest =
            belt_quantize_global_param(settings.type, settings.flag, slot, answer.model.params[slot]);
        refused("belt_quantize_global_param", nearest.refusal);
        on_grid = on_grid && nearest.value == answer.model.params[slot];
    }
    same(on_grid, "numbers on the grid");
    struct belt_score score = belt_mean_sq_residual(&answer.model, words_read, SAMPLES);
    refused("belt_mean_sq_residual", score.refusal);
    struct belt_stored_model stored = belt_row_first(settings.type, answer.model);
    same(memcmp(&stored, &report->models[settings.reference - 1], sizeof stored) == 0 &&
             !(score.score < report->score) && !(score.score > report->score),
         "model and score");

    /* The same over the samples that the words stand for. */
    static struct belt_motion_sample samples[SAMPLES];
    for (size_t i = 0; i < SAMPLES; i++)
        samples[i] = belt_motion_sample_of(words_read[i]);
    struct belt_fit_answer again = settings.type == BELT_TRANSLATION ? belt_fit_translation_samples(samples, SAMPLES)
                                   : settings.type == BELT_ROTZOOM   ? belt_fit_rotzoom_samples(samples, SAMPLES)
                                                                     : belt_fit_affine_samples(samples, SAMPLES);
    refused("the fit over samples", again.refusal);
    struct belt_to_quantize to_quantize = {settings.type, settings.flag, {0}};
    memcpy(to_quantize.numbers, again.numbers, sizeof again.numbers);
    struct belt_quantized_model model_again = belt_quantize_model_samples(samples, SAMPLES, to_quantize);
    refused("belt_quantize_model_samples", model_again.refusal);
    struct belt_score score_again = belt_mean_sq_residual_samples(samples, SAMPLES, answer.model);
    refused("belt_mean_sq_residual_samples", score_again.refusal);
    same(memcmp(again.numbers, fitted.numbers, sizeof again.numbers) == 0 &&
             memcmp(&model_again.model, &answer.model, sizeof answer.model) == 0 &&
             memcmp(&score_again.score, &score.score, sizeof score.score) == 0,
         "fit, model and score over samples");

    struct belt_stored put =
        belt_write_frame(settings.frame, words_read, SAMPLES, classes, SAMPLES, blocks_again, BLOCKS);
    refused("belt_write_frame", put.refusal);
    struct belt_block_read judged = belt_judge_block(blocks_again, BLOCKS);
    refused("belt_judge_block", judged.refusal);
    same(put.blocks == belt_blocks_of(SAMPLES, BELT_FORM_2) && judged.frame == settings.frame && judged.ordinal == 0 &&
             judged.count == SAMPLES && memcmp(blocks_again, blocks, sizeof blocks) == 0,
         "blocks");
    struct belt_written wrote = belt_encode_inter_global_motion(
        report->types, BELT_REFERENCES, report->models, BELT_NUMBERS, settings.flag, prior, BELT_NUMBERS, settings.start,
        header_again, BELT_HEADER_BYTES);
    refused("belt_encode_inter_global_motion", wrote.refusal);
    same(wrote.bits == report->bits && memcmp(header_again, header, (settings.start + wrote.bits + 7) / 8) == 0, "header");
}

/* Frames with and without film, carried to form 1 and back. */
static void conversions(void) {
    static uint8_t old[BLOCKS], back[BLOCKS], unsorted[SAMPLES];
    struct belt_stored converted = belt_to_form1(blocks, BLOCKS, old, BLOCKS);
    wants("a frame with film to form 1", converted.refusal, BELT_NOT_HELD);
    refused("belt_write_frame", belt_write_frame(5, words, SAMPLES, unsorted, SAMPLES, blocks, BLOCKS).refusal);
    converted = belt_to_form1(blocks, BLOCKS, old, BLOCKS);
    refused("belt_to_form1", converted.refusal);
    struct belt_frame_read frame = belt_read_frame(old, BLOCKS, words_read, SAMPLES);
    refused("belt_read_frame", frame.refusal);
    same(converted.blocks == belt_blocks_of(SAMPLES, BELT_FORM_1) && memcmp(words_read, words, sizeof words) == 0,
         "words of form 1");
    refused("belt_to_form2", belt_to_form2(old, BLOCKS, back, BLOCKS).refusal);
    same(memcmp(back, blocks, sizeof blocks) == 0, "to form 1 and back");
    wants("form 2 by the reader of form 1", belt_read_frame(blocks, BLOCKS, words_read, SAMPLES).refusal,
          BELT_WRONG_BLOCK);
    wants("form 2 to form 2", belt_to_form2(blocks, BLOCKS, back, BLOCKS).refusal, BELT_WRONG_BLOCK);
}

/* Loose film over the first block moves on its own; a fit after trimming leaves it out. */
static void trimming(struct belt_settings settings) {
    draw(4, -2);
    for (size_t y = 0; y < BELT_BLOCK_SIDE; y++)
        for (size_t x = 0; x < BELT_BLOCK_SIDE; x++)
            input[y * WIDTH + x] = reference[(y + 20) * WIDTH + x + 9];
    struct belt_report all = run(settings, PELS);
    refused("belt_job", all.refusal);
    print_motion(own_model(&all, settings), all.samples);
    settings.trim = BELT_TRIM;
    struct belt_report report = run(settings, PELS);
    refused("belt_job", report.refusal);
    struct belt_model own = own_model(&report, settings);
    print_motion(own, report.samples);
    struct belt_trimmed fitted = belt_fit_trimmed(settings.type, words, SAMPLES);
    refused("belt_fit_trimmed", fitted.refusal);
    struct belt_trimmed_model model = belt_quantize_trimmed(settings.type, settings.flag, words, SAMPLES);
    refused("belt_quantize_trimmed", model.refusal);
    printf("after trimming: %u of %u samples used\n", (unsigned)model.used, (unsigned)report.samples);
    same(fitted.used == model.used && memcmp(&model.model, &own, sizeof own) == 0, "model after trimming");
    static struct belt_motion_sample samples[SAMPLES];
    for (size_t i = 0; i < SAMPLES; i++)
        samples[i] = belt_motion_sample_of(words[i]);
    const struct belt_to_trim codes = {settings.type, settings.flag};
    struct belt_trimmed again = belt_fit_trimmed_samples(samples, SAMPLES, settings.type);
    refused("belt_fit_trimmed_samples", again.refusal);
    struct belt_trimmed_model model_again = belt_quantize_trimmed_samples(samples, SAMPLES, codes);
    refused("belt_quantize_trimmed_samples", model_again.refusal);
    same(memcmp(&again, &fitted, sizeof fitted) == 0 && memcmp(&model_again, &model, sizeof model) == 0,
         "fit and model after trimming, over samples");
}

/* Elections: of a pan; of a frame that stands still; of the pan with film over a block. An election's score takes all
   samples, and the film alone is more than a quarter of that energy, so no type stands there. */
static void electing(struct belt_settings settings) {
    static const char *const names[] = {"identity", "translation", "rotation-zoom", "affine"};
    static struct belt_motion_sample samples[SAMPLES];
    settings.elect = BELT_ELECT;
    for (int turn = 0; turn < 3; turn++) {
        draw(turn == 1 ? 0 : 4, turn == 1 ? 0 : -2);
        for (size_t y = 0; turn == 2 && y < BELT_BLOCK_SIDE; y++)
            for (size_t x = 0; x < BELT_BLOCK_SIDE; x++)
                input[y * WIDTH + x] = reference[(y + 20) * WIDTH + x + 9];
        struct belt_report report = run(settings, PELS);
        refused("belt_job", report.refusal);
        const struct belt_stored_model own = report.models[settings.reference - 1];
        const uint8_t type = report.types[settings.reference - 1];
        printf("elected: %s, score %.6f, %u header bits\n", names[type], report.score, (unsigned)report.bits);
        print_motion(own_model(&report, settings), report.samples);
        read_back(&report, settings);
        for (size_t i = 0; i < SAMPLES; i++)
            samples[i] = belt_motion_sample_of(words[i]);
        struct belt_elected elected = belt_elect(settings.flag, words, SAMPLES);
        refused("belt_elect", elected.refusal);
        struct belt_elected again = belt_elect_samples(samples, SAMPLES, settings.flag);
        refused("belt_elect_samples", again.refusal);
        same(elected.type == type && memcmp(&elected.model, &own, sizeof own) == 0 &&
                 memcmp(&elected.score, &report.score, sizeof report.score) == 0 && again.type == type &&
                 memcmp(&again.model, &own, sizeof own) == 0 &&
                 memcmp(&again.score, &report.score, sizeof report.score) == 0,
             "election over words and over samples");
    }
}

/* Film over the last column of blocks flutters on its own. A job that names every class but film has the belt's motion
   and the score of the rest, and still stores every sample; the calls by class have the same model and score. */
static void without_film(struct belt_settings settings) {
    draw(4, -2);
    for (size_t y = 0; y < HEIGHT; y++)
        for (size_t x = WIDTH - BELT_BLOCK_SIDE; x < WIDTH; x++)
            input[y * WIDTH + x] = reference[held(y, -8, HEIGHT) * WIDTH + held(x, -6, WIDTH)];
    struct belt_report all = run(settings, PELS);
    refused("belt_job", all.refusal);
    print_motion(own_model(&all, settings), all.samples);
    settings.set = BELT_ALL_CLASSES & ~(1 << BELT_FILM);
    struct belt_report report = run(settings, PELS);
    refused("belt_job", report.refusal);
    const struct belt_model own = own_model(&report, settings);
    print_motion(own, report.samples);
    printf("scores with and without film: %.6f, %.6f\n", all.score, report.score);
    read_back(&report, settings);

    const uint8_t set = settings.set, type = settings.type, flag = settings.flag;
    struct belt_fit_answer fitted = belt_fit_by_class(set, type, words, SAMPLES, classes, SAMPLES);
    refused("belt_fit_by_class", fitted.refusal);
    struct belt_quantized_model model =
        belt_quantize_by_class(set, type, fitted.numbers, flag, words, SAMPLES, classes, SAMPLES);
    refused("belt_quantize_by_class", model.refusal);
    struct belt_score score = belt_score_by_class(set, &own, words, SAMPLES, classes, SAMPLES);
    refused("belt_score_by_class", score.refusal);
    same(memcmp(&model.model, &own, sizeof own) == 0 && memcmp(&score.score, &report.score, sizeof score.score) == 0,
         "model and score by class");
    struct belt_trimmed trimmed = belt_fit_trimmed_by_class(set, type, words, SAMPLES, classes, SAMPLES);
    refused("belt_fit_trimmed_by_class", trimmed.refusal);
    struct belt_trimmed_model trimmed_model =
        belt_quantize_trimmed_by_class(set, type, flag, words, SAMPLES, classes, SAMPLES);
    refused("belt_quantize_trimmed_by_class", trimmed_model.refusal);
    struct belt_elected elected = belt_elect_by_class(set, flag, words, SAMPLES, classes, SAMPLES);
    refused("belt_elect_by_class", elected.refusal);
    const struct belt_model winner = belt_x_first(elected.type, elected.model);
    same(trimmed.used == 16 && memcmp(trimmed.numbers, fitted.numbers, sizeof fitted.numbers) == 0 &&
             trimmed_model.used == 16 && memcmp(&trimmed_model.model, &own, sizeof own) == 0 && elected.type == type &&
             memcmp(&winner, &own, sizeof own) == 0,
         "trimmed fit, its model and the election by class");
}

/* Four blocks of fibre that move by 10 pels to the right and four of film that move by 5 up, by each set ('Sets of
   classes'). The words' class bits play no part. */
static void sets(void) {
    static const uint8_t named[] = {1 << BELT_FIBRE, 1 << BELT_FILM, 1 << BELT_FIBRE | 1 << BELT_FILM, BELT_ALL_CLASSES};
    static const double wanted[4][2] = {{10.0, 0.0}, {0.0, -5.0}, {5.0, -2.5}, {5.0, -2.5}};
    static const double energies[4] = {100.0, 25.0, 62.5, 62.5};
    static const int32_t elections[4][2] = {{0, 655360}, {-327680, 0}, {0, 0}, {0, 0}};
    const struct belt_model still = {BELT_IDENTITY_PARAMS};
    uint32_t eight[8];
    uint8_t lying[8];
    int right = 1;
    for (uint32_t i = 0; i < 8; i++) {
        const uint32_t v = i < 4 ? 0 : 40, u = i < 4 ? 80 : 0;
        eight[i] = i / 4 << 26 | i % 4 << 20 | (223 - v) << 11 | (223 + u) << 2 | 3;
        lying[i] = i < 4 ? BELT_FIBRE : BELT_FILM;
    }
    for (int i = 0; i < 4; i++) {
        struct belt_fit_answer fitted = belt_fit_by_class(named[i], BELT_TRANSLATION, eight, 8, lying, 8);
        struct belt_score energy = belt_score_by_class(named[i], &still, eight, 8, lying, 8);
        struct belt_elected elected = belt_elect_by_class(named[i], 1, eight, 8, lying, 8);
        right = right && fitted.refusal == BELT_ACCEPTED && memcmp(fitted.numbers, wanted[i], sizeof wanted[i]) == 0 &&
                energy.refusal == BELT_ACCEPTED && memcmp(&energy.score, &energies[i], sizeof energies[i]) == 0 &&
                elected.refusal == BELT_ACCEPTED && memcmp(elected.model.params, elections[i], sizeof elections[i]) == 0;
    }
    same(right, "fits, energies and elections by class");
    struct belt_motion_sample eight_samples[8];
    for (int i = 0; i < 8; i++)
        eight_samples[i] = belt_motion_sample_of(eight[i]);
    for (int i = 0; i < 4; i++) {
        const struct belt_to_quantize to_quantize = {BELT_TRANSLATION, 1, {wanted[i][0], wanted[i][1]}};
        const struct belt_to_trim codes = {BELT_TRANSLATION, 1};
        struct belt_fit_answer fitted = belt_fit_samples_by_class(named[i], BELT_TRANSLATION, eight_samples, 8, lying, 8);
        struct belt_quantized_model model = belt_quantize_samples_by_class(named[i], to_quantize, eight_samples, 8, lying, 8);
        struct belt_score energy = belt_score_samples_by_class(named[i], still, eight_samples, 8, lying, 8);
        struct belt_trimmed trimmed =
            belt_fit_trimmed_samples_by_class(named[i], BELT_TRANSLATION, eight_samples, 8, lying, 8);
        struct belt_trimmed_model trimmed_model =
            belt_quantize_trimmed_samples_by_class(named[i], codes, eight_samples, 8, lying, 8);
        struct belt_elected elected = belt_elect_samples_by_class(named[i], 1, eight_samples, 8, lying, 8);
        right = right && fitted.refusal == BELT_ACCEPTED && memcmp(fitted.numbers, wanted[i], sizeof wanted[i]) == 0 &&
                model.refusal == BELT_ACCEPTED && energy.refusal == BELT_ACCEPTED &&
                memcmp(&energy.score, &energies[i], sizeof energies[i]) == 0 && trimmed.refusal == BELT_ACCEPTED &&
                memcmp(trimmed.numbers, fitted.numbers, sizeof fitted.numbers) == 0 &&
                trimmed_model.refusal == BELT_ACCEPTED && trimmed_model.used == trimmed.used &&
                memcmp(&trimmed_model.model, &model.model, sizeof model.model) == 0 &&
                elected.refusal == BELT_ACCEPTED && memcmp(elected.model.params, elections[i], sizeof elections[i]) == 0;
    }
    same(right, "fits, models, energies, trims and elections over samples by class");
    wants("a set that is left 0, over samples",
          belt_fit_samples_by_class(0, BELT_TRANSLATION, eight_samples, 8, lying, 8).refusal, BELT_NO_CLASS);
    struct belt_fit_answer none = belt_fit_by_class(1 << BELT_METAL, BELT_TRANSLATION, eight, 8, lying, 8);
    same(none.refusal == BELT_ACCEPTED && isnan(none.numbers[0]) && isnan(none.numbers[1]), "a fit of no metal");
    wants("a set that is left 0", belt_fit_by_class(0, BELT_TRANSLATION, eight, 8, lying, 8).refusal, BELT_NO_CLASS);
    wants("a set that names class 5", belt_score_by_class(1 << 5, &still, eight, 8, lying, 8).refusal, BELT_NO_SUCH_CODE);
    wants("an empty set and type 0", belt_fit_by_class(0, 0, eight, 8, lying, 8).refusal, BELT_NO_SUCH_CODE);
    wants("an empty set and 7 classes", belt_elect_by_class(0, 1, eight, 8, lying, 7).refusal, BELT_WRONG_LENGTH);
    wants("a rotation-zoom of four of fibre after trimming",
          belt_fit_trimmed_by_class(1 << BELT_FIBRE, BELT_ROTZOOM, eight, 8, lying, 8).refusal, BELT_TOO_FEW);
    wants("a rotation-zoom of no metal", belt_fit_by_class(1 << BELT_METAL, BELT_ROTZOOM, eight, 8, lying, 8).refusal,
          BELT_SINGULAR);
}

/* Field by field: between them there may be bytes of no meaning. */
static int same_run(struct belt_run a, struct belt_run b) {
    return memcmp(a.prior, b.prior, sizeof a.prior) == 0 && a.flag == b.flag && a.form == b.form;
}

/* An inter frame with one translation at reference 1, written in the run and read by the reader; its bytes. */
static void record(struct belt_run *writer, struct belt_run *reader, int32_t row, int32_t column) {
    static const uint8_t types[BELT_REFERENCES] = {BELT_TRANSLATION};
    struct belt_stored_model models[BELT_REFERENCES];
    memcpy(models, prior, sizeof models);
    models[0].params[0] = row;
    models[0].params[1] = column;
    uint8_t bytes[6];
    memset(bytes, 0xff, sizeof bytes);
    const struct belt_run before = *writer;
    struct belt_framed framed =
        belt_run_frame(*writer, false, types, BELT_REFERENCES, models, BELT_NUMBERS, 0, bytes, sizeof bytes);
    *writer = framed.run;
    printf("a frame of %ld, %ld:", (long)row, (long)column);
    if (framed.written.refusal != BELT_ACCEPTED) {
        printf(" refused %u, %s\n", (unsigned)framed.written.refusal, belt_refusal_text(framed.written.refusal));
        same(same_run(*writer, before) && bytes[0] == 0xff, "the run and the bytes after a refusal");
        return;
    }
    printf(" %u bits, %02X %02X %02X\n", (unsigned)framed.written.bits, bytes[0], bytes[1], bytes[2]);
    struct belt_frame_models read = belt_run_read(*reader, false, bytes, sizeof bytes, 0);
    *reader = read.run;
    same(read.models.refusal == BELT_ACCEPTED && read.models.bits == framed.written.bits &&
             memcmp(read.models.models, models, sizeof models) == 0 && same_run(*reader, *writer),
         "its models read back");
}

static void go_over(struct belt_run *writer, struct belt_run *reader, uint8_t code) {
    struct belt_moved moved = belt_run_switch(*writer, code);
    refused("belt_run_switch", moved.refusal);
    *writer = moved.run;
    *reader = belt_run_switch(*reader, code).run;
}

static struct belt_job_done job_in(struct belt_run held, struct belt_settings settings) {
    return belt_run_job(held, input, PELS, reference, PELS, WIDTH, HEIGHT, settings, classes, SAMPLES, other_types,
                        BELT_OTHER_TYPES, prior, BELT_OTHER_NUMBERS, input_half, HALF, ref_half, HALF, words, SAMPLES,
                        blocks, BLOCKS, header, BELT_HEADER_BYTES);
}

/* A run of frames ('A run of frames'), and a reader beside it: frames, switches and a key frame; then film, which form 1
   can't hold, is stored and measured after going over to form 2. */
static void recording(struct belt_settings settings) {
    static const uint8_t still[BELT_REFERENCES] = {0}, film[1] = {BELT_FILM}, metal[1] = {BELT_METAL};
    static const uint32_t word[1] = {0x0006FB7C};
    uint8_t block[BELT_BLOCK_BYTES];
    struct belt_moved begun = belt_run_start(BELT_HIGH_PRECISION, BELT_FORM_1);
    refused("belt_run_start", begun.refusal);
    struct belt_run run = begun.run, reader = begun.run;
    record(&run, &reader, 8192, -8192);
    record(&run, &reader, 8192, -8192);
    go_over(&run, &reader, BELT_TO_LOW_PRECISION);
    record(&run, &reader, 24576, -8192);
    record(&run, &reader, 16384, -16384);
    struct belt_framed key = belt_run_frame(run, true, still, BELT_REFERENCES, prior, BELT_NUMBERS, 2, header, 0);
    refused("belt_run_frame", key.written.refusal);
    run = key.run;
    reader = belt_run_read(reader, true, header, 0, 2).run;
    same(key.written.bits == 0 && same_run(run, reader) && memcmp(run.prior, prior, sizeof run.prior) == 0,
         "a key frame's prior, identity");

    wants("film in a run of form 1", belt_run_store(run, 5, word, 1, film, 1, block, sizeof block).refusal, BELT_NOT_HELD);
    refused("belt_run_store", belt_run_store(run, 5, word, 1, metal, 1, block, sizeof block).refusal);
    same(block[2] == BELT_FORM_1 && block[11] == 0x7f && block[511] == 0x81, "metal in form 1");
    struct belt_job_done done = job_in(run, settings);
    wants("a job with film in a run of form 1", done.report.refusal, BELT_NOT_HELD);
    same(same_run(done.run, run), "the run after a refused job");
    go_over(&run, &reader, BELT_TO_FORM_2);
    done = job_in(run, settings);
    refused("belt_run_job", done.report.refusal);
    struct belt_frame_models read = belt_run_read(reader, false, header, sizeof header, settings.start);
    same(read.models.refusal == BELT_ACCEPTED && same_run(read.run, done.run) && blocks[2] == BELT_FORM_2 &&
             memcmp(read.models.models, done.report.models, sizeof read.models.models) == 0 &&
             memcmp(done.run.prior, done.report.models, sizeof done.run.prior) == 0,
         "a job in a run, and the run after it");

    wants("a run of form 3", belt_run_start(BELT_HIGH_PRECISION, 3).refusal, BELT_NO_SUCH_CODE);
    wants("a switch by code 3", belt_run_switch(run, 3).refusal, BELT_NO_SUCH_CODE);
    run.prior[0].params[0] = 4194305;
    wants("a switch of a run whose prior is out of range", belt_run_switch(run, BELT_TO_FORM_2).refusal, BELT_PRIOR_OUT);
    wants("a key frame of it", belt_run_frame(run, true, still, 7, prior, 42, 0, header, 0).written.refusal,
          BELT_PRIOR_OUT);
    wants("a key frame read with it", belt_run_read(run, true, header, 0, 0).models.refusal, BELT_PRIOR_OUT);
}

/* A pan by 40 columns is beyond the range: no row refuses it, but few samples agree. */
static void too_far(struct belt_settings settings) {
    draw(0, 40);
    struct belt_report report = run(settings, PELS);
    refused("belt_job", report.refusal);
    size_t agreeing = belt_agreeing(own_model(&report, settings), words, report.samples, 0.25);
    printf("a pan by 40 pels: %u of %u samples agree\n", (unsigned)agreeing, (unsigned)report.samples);
    if (agreeing > report.samples / 4)
        exit(1);
}

/* A refusal of each call. */
static void refusals(struct belt_settings settings) {
    static const uint8_t zeros[BELT_BLOCK_BYTES] = {0};
    static const uint32_t falling[2] = {1u << 20, 0};
    static const double numbers[6] = {0};
    const struct belt_model still = {BELT_IDENTITY_PARAMS};
    struct belt_stored_model moving[BELT_REFERENCES];
    memcpy(moving, prior, sizeof moving);
    moving[0].params[0] = 8192;
    wants("a job on a plane that is a pel short", run(settings, PELS - 1).refusal, BELT_WRONG_LENGTH);
    settings.frame = 0;
    wants("a job on frame 0", run(settings, PELS).refusal, BELT_SHUTTER_CLOSED);
    settings.trim = 2;
    wants("a job with trim code 2", run(settings, PELS).refusal, BELT_NO_SUCH_CODE);
    settings.elect = BELT_ELECT;
    wants("an electing job with trim code 2 on frame 0", run(settings, PELS).refusal, BELT_SHUTTER_CLOSED);
    settings.elect = 2;
    wants("a job with elect code 2", run(settings, PELS).refusal, BELT_NO_SUCH_CODE);
    settings.elect = BELT_ELECT;
    settings.set = 0;
    wants("a job whose set is left 0", run(settings, PELS).refusal, BELT_NO_CLASS);
    settings.set = BELT_ALL_CLASSES + 1;
    wants("a job whose set names class 5", run(settings, PELS).refusal, BELT_NO_SUCH_CODE);
    wants("an affine model of 7 words after trimming", belt_fit_trimmed(BELT_AFFINE, words, 7).refusal, BELT_TOO_FEW);
    wants("a search of a plane 1,025 wide",
          belt_collect_motion_samples(input, PELS, reference, PELS, 1025, HEIGHT, classes, SAMPLES, input_half, HALF,
                                      ref_half, HALF, words, SAMPLES)
              .refusal,
          BELT_TOO_LARGE);
    wants("a rotation-zoom of no words", belt_fit_rotzoom(words, 0).refusal, BELT_SINGULAR);
    wants("an affine model of no words", belt_fit_affine(words, 0).refusal, BELT_SINGULAR);
    static uint32_t many[BELT_MOST_SAMPLES + 1];
    wants("a translation of 4,097 words", belt_fit_translation(many, BELT_MOST_SAMPLES + 1).refusal, BELT_TOO_LARGE);
    wants("an election of 4,097 words", belt_elect(1, many, BELT_MOST_SAMPLES + 1).refusal, BELT_TOO_LARGE);
    wants("an election with flag 2", belt_elect(2, words, SAMPLES).refusal, BELT_NO_SUCH_CODE);
    wants("a score over 4,097 words", belt_mean_sq_residual(&still, many, BELT_MOST_SAMPLES + 1).refusal,
          BELT_TOO_LARGE);
    static struct belt_motion_sample many_samples[BELT_MOST_SAMPLES + 1];
    struct belt_to_quantize no_type = {4, 1, {0}};
    wants("a translation of 4,097 samples", belt_fit_translation_samples(many_samples, BELT_MOST_SAMPLES + 1).refusal,
          BELT_TOO_LARGE);
    wants("a rotation-zoom of equal samples", belt_fit_rotzoom_samples(many_samples, 9).refusal, BELT_SINGULAR);
    wants("type 4 on the grid, over samples", belt_quantize_model_samples(many_samples, 9, no_type).refusal,
          BELT_NO_SUCH_CODE);
    const struct belt_to_trim codes = {BELT_TRANSLATION, 2};
    wants("flag 2 after trimming, over samples", belt_quantize_trimmed_samples(many_samples, 3, codes).refusal,
          BELT_NO_SUCH_CODE);
    wants("3 samples after trimming", belt_fit_trimmed_samples(many_samples, 3, BELT_TRANSLATION).refusal, BELT_TOO_FEW);
    many_samples[0].u = 1e200;
    wants("a motion of 1e200 pels after trimming", belt_fit_trimmed_samples(many_samples, 4, BELT_TRANSLATION).refusal,
          BELT_NOT_FINITE);
    wants("an election with a motion of 1e200 pels", belt_elect_samples(many_samples, 4, 1).refusal, BELT_NOT_FINITE);
    wants("type 4 on the grid", belt_quantize_model(4, numbers, 1, words, SAMPLES).refusal, BELT_NO_SUCH_CODE);
    wants("slot 6", belt_quantize_global_param(BELT_AFFINE, 1, 6, 0).refusal, BELT_NO_SUCH_SLOT);
    wants("words that fall", belt_write_frame(5, falling, 2, zeros, 2, blocks, BLOCKS).refusal, BELT_NOT_RISING);
    wants("two words with a class", belt_write_frame(5, falling, 2, zeros, 1, blocks, BLOCKS).refusal,
          BELT_WRONG_LENGTH);
    wants("a frame of zeros",
          belt_read_both(zeros, BELT_BLOCK_BYTES, words, SAMPLES, classes_read, SAMPLES).refusal, BELT_WRONG_CHECK);
    wants("a block of 511 bytes", belt_judge_block(zeros, BELT_BLOCK_BYTES - 1).refusal, BELT_ENDS_FIRST);
    wants("a header into 0 bytes",
          belt_encode_inter_global_motion(zeros, BELT_REFERENCES, prior, BELT_NUMBERS, 1, prior, BELT_NUMBERS, 0, header, 0)
              .refusal,
          BELT_TOO_SHORT);
    wants("a header from bit 8 on",
          belt_encode_inter_global_motion(zeros, BELT_REFERENCES, prior, BELT_NUMBERS, 1, prior, BELT_NUMBERS, 8, header,
                                          BELT_HEADER_BYTES)
              .refusal,
          BELT_START_OVER);
    struct belt_models read = belt_read_global_motion(true, header, 0, 99, 1, prior, 0);
    same(belt_encode_global_motion(true, zeros, BELT_REFERENCES, prior, BELT_NUMBERS, 1, prior, 0, 0, header, 0).refusal ==
                 BELT_ACCEPTED &&
             read.refusal == BELT_ACCEPTED && read.bits == 0 && memcmp(read.models, prior, sizeof read.models) == 0,
         "a key frame of no bytes");
    wants("a key frame with a moving model",
          belt_encode_global_motion(true, zeros, BELT_REFERENCES, moving, BELT_NUMBERS, 1, prior, 0, 0, header, 0).refusal,
          BELT_OFF_GRID);
    wants("a header of 0 bytes", belt_read_global_motion_params(header, 0, 0, 1, prior, BELT_NUMBERS).refusal,
          BELT_ENDS_FIRST);
    wants("the shear of a translation", belt_setup_shear(BELT_TRANSLATION, identity.params, 6).refusal, BELT_OFF_GRID);
    wants("a practice belt that moves by 25 pels",
          belt_make_practice_planes(1, WIDTH, HEIGHT, 0, -25, input, PELS, reference, PELS).refusal, BELT_TOO_FAR);
}

/* Correctly rounded: 2, and the least number above 0; a number below 0 has no root. */
static void roots(void) {
    double none = belt_root(-1.0);
    same(belt_root(2.0) == 1.4142135623730951 && belt_root(5e-324) == 2.2227587494850775e-162 && none != none, "roots");
}

/* The same belt on every machine. */
static void practise(void) {
    struct belt_made made = belt_make_practice_planes(1, 2, 2, 1, -1, input, PELS, reference, PELS);
    refused("belt_make_practice_planes", made.refusal);
    same(made.pels == 4 && reference[0] == 15496 && reference[3] == 46195 && input[0] == 33046 && input[3] == 33046,
         "practice belt");
}

int main(void) {
    for (int i = 0; i < BELT_REFERENCES; i++)
        prior[i] = identity;
    for (int i = 0; i < SAMPLES; i++)
        classes[i] = (uint8_t)(i % 5);
    same(belt_sample_count(WIDTH, HEIGHT) == SAMPLES && belt_half_plane_values(WIDTH, HEIGHT) == HALF &&
             belt_block_bytes(SAMPLES, BELT_FORM_2) == BLOCKS && belt_half_plane_values(15, HEIGHT) == 0 &&
             belt_blocks_of(101, BELT_FORM_1) == 1 && belt_blocks_of(101, BELT_FORM_2) == 2 &&
             belt_block_bytes(BELT_MOST_SAMPLES, BELT_FORM_2) == 41 * BELT_BLOCK_BYTES,
         "sizes");
    draw(4, -2);
    for (uint8_t type = BELT_TRANSLATION; type <= BELT_AFFINE; type++) {
        const struct belt_settings settings = {
            5, type, 2, BELT_HIGH_PRECISION, BELT_ALL_SAMPLES, BELT_ASKED_TYPE, BELT_ALL_CLASSES, (size_t)(2 * type)};
        struct belt_report report = run(settings, PELS);
        refused("belt_job", report.refusal);
        print_report(&report, settings);
        read_back(&report, settings);
        by_single_calls(&report, settings);
    }
    size_t length = belt_list_block(blocks, BLOCKS, text);
    fwrite(text, 1, length, stdout);
    for (uint8_t class_code = BELT_UNSORTED; class_code <= BELT_FILM; class_code++)
        printf("class %d: %s\n", class_code, belt_class_text(class_code));
    conversions();
    const struct belt_settings settings = {
        5, BELT_TRANSLATION, 2, BELT_HIGH_PRECISION, BELT_ALL_SAMPLES, BELT_ASKED_TYPE, BELT_ALL_CLASSES, 0};
    trimming(settings);
    electing(settings);
    without_film(settings);
    sets();
    recording(settings);
    too_far(settings);
    refusals(settings);
    roots();
    practise();
    return 0;
}
