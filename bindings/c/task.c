/* Jobs by name, rooms, lists that are NULL, hostile arguments, the way of the motion and the version. It prints what it
   found and ends with 1 at the first thing that isn't as belt.h says. It is C99, and C++11. */
#include <stdio.h>
#include <stdlib.h>
#include <string.h>

#include "belt.h"
#include "belt_motion.h"

enum {
    WIDTH = 80,
    HEIGHT = 64,
    PELS = WIDTH * HEIGHT,
    HALF = (WIDTH / 2) * (HEIGHT / 2),
    SAMPLES = (WIDTH / 16) * (HEIGHT / 16),
    BLOCKS = (SAMPLES + BELT_FORM_2_SAMPLES - 1) / BELT_FORM_2_SAMPLES * BELT_BLOCK_BYTES,
    DOWN = 4,
    RIGHT = -2,
    GUARD = 64,
    FILL = 0xa5
};

static uint16_t earlier[PELS], later[PELS];
static uint8_t classes[SAMPLES];

static void holds(int held, const char *what) {
    if (!held) {
        printf("%s: NOT SO\n", what);
        exit(1);
    }
}

static void wants(uint32_t refusal, uint32_t row, const char *what) {
    if (refusal != row) {
        printf("%s: refused %u, and not %u\n", what, (unsigned)refusal, (unsigned)row);
        exit(1);
    }
}

static uint16_t pel(uint32_t y, uint32_t x) {
    uint32_t h = y * 2654435761u ^ x * 2246822519u;
    h = (h ^ h >> 15) * 3266489917u;
    return (uint16_t)(h >> 20);
}

/* A load that moves by DOWN and RIGHT between the earlier and the later frame. */
static void draw(void) {
    for (uint32_t y = 0; y < HEIGHT; y++)
        for (uint32_t x = 0; x < WIDTH; x++) {
            earlier[y * WIDTH + x] = pel(y + 100, x + 100);
            later[y * WIDTH + x] = pel(y + (uint32_t)(100 - DOWN), x + (uint32_t)(100 - RIGHT));
        }
}

static struct belt_task plain_task(void) {
    struct belt_task task = {earlier, later, WIDTH, HEIGHT, belt_default_settings(5), NULL, NULL, NULL, NULL};
    return task;
}

static int same_report(struct belt_report a, struct belt_report b) {
    return a.refusal == b.refusal && memcmp(a.types, b.types, sizeof a.types) == 0 &&
           memcmp(a.models, b.models, sizeof a.models) == 0 && memcmp(&a.score, &b.score, sizeof a.score) == 0 &&
           a.bits == b.bits && a.samples == b.samples;
}

/* The buffers of a room against those of the long call. */
struct long_room {
    uint16_t input_half[HALF], ref_half[HALF];
    uint32_t words[SAMPLES];
    uint8_t blocks[BLOCKS], header[BELT_HEADER_BYTES];
};

static int same_buffers(const struct belt_room *room, const struct long_room *lent, size_t header_bytes) {
    return memcmp(room->words, lent->words, sizeof lent->words) == 0 &&
           memcmp(room->input_half, lent->input_half, sizeof lent->input_half) == 0 &&
           memcmp(room->ref_half, lent->ref_half, sizeof lent->ref_half) == 0 &&
           memcmp(room->blocks, lent->blocks, sizeof lent->blocks) == 0 &&
           memcmp(room->header, lent->header, header_bytes) == 0;
}

/* A task is the long call with the same lists, and what it leaves out is zeros and identities. */
static void tasks_are_jobs(void) {
    static struct long_room lent;
    static const uint8_t zeros[SAMPLES] = {0};
    static const uint8_t types[BELT_OTHER_TYPES] = {BELT_TRANSLATION};
    struct belt_stored_model models[BELT_OTHER_TYPES], prior[BELT_REFERENCES];
    memcpy(models, belt_identities, sizeof models);
    memcpy(prior, belt_identities, sizeof prior);
    models[0].params[0] = 8192;
    for (int r = 0; r < BELT_REFERENCES; r++)
        prior[r].params[0] = 8192 * 9;
    size_t bytes = belt_room_bytes(WIDTH, HEIGHT, BELT_FORM_2);
    void *memory = malloc(bytes);
    struct belt_room room = belt_room_in(memory, bytes, WIDTH, HEIGHT);
    for (int turn = 0; turn < 4; turn++) {
        struct belt_task task = plain_task();
        const bool given = turn >= 2;
        if (turn % 2 == 1) {
            task.settings.elect = BELT_ASKED_TYPE;
            task.settings.type = BELT_ROTZOOM;
            task.settings.trim = BELT_TRIM;
            task.settings.start = 3;
            task.settings.reference = 4;
        }
        task.classes = given ? classes : NULL;
        task.types = given ? types : NULL;
        task.models = given ? models : NULL;
        task.prior = given ? prior : NULL;
        if (given)
            task.settings.set = BELT_ALL_CLASSES & ~(1 << BELT_FILM);
        memset(memory, 0, bytes);
        memset(&lent, 0, sizeof lent);
        struct belt_report wanted = belt_job(
            earlier, PELS, later, PELS, WIDTH, HEIGHT, task.settings, given ? classes : zeros, SAMPLES,
            given ? types : zeros, BELT_OTHER_TYPES, given ? models : belt_identities, BELT_OTHER_NUMBERS,
            given ? prior : belt_identities, BELT_NUMBERS, lent.input_half, HALF, lent.ref_half, HALF, lent.words, SAMPLES,
            lent.blocks, BLOCKS, lent.header, BELT_HEADER_BYTES);
        struct belt_report report = belt_job_with(&task, &room);
        wants(report.refusal, BELT_ACCEPTED, "a task");
        size_t header_bytes = (task.settings.start + report.bits + 7) / 8;
        holds(same_report(report, wanted) && same_buffers(&room, &lent, header_bytes), "a task is the long call");
        struct belt_run run = belt_run_start(BELT_HIGH_PRECISION, BELT_FORM_2).run;
        if (given)
            memcpy(run.prior, prior, sizeof run.prior);
        struct belt_job_done done = belt_run_job_with(run, &task, &room);
        holds(same_report(done.report, wanted) && same_buffers(&room, &lent, header_bytes), "a task in a run");
        holds(memcmp(done.run.prior, wanted.models, sizeof wanted.models) == 0, "the run after a task");
    }
    free(memory);
    printf("tasks are the long calls\n");
}

/* Rooms in memory that begins at any byte, with guards around it; of the exact size, and a byte short. */
static void rooms(void) {
    static const size_t sides[][2] = {{WIDTH, HEIGHT}, {16, 16}, {33, 79}, {15, 64}, {0, 0}, {1, 16}};
    for (size_t s = 0; s < sizeof sides / sizeof sides[0]; s++)
        for (size_t shift = 0; shift < 8; shift++)
            for (int form = BELT_FORM_1; form <= BELT_FORM_2; form++) {
                struct belt_task task = plain_task();
                task.width = sides[s][0];
                task.height = sides[s][1];
                const size_t bytes = belt_room_bytes(task.width, task.height, form == BELT_FORM_1 ? BELT_FORM_1 : BELT_FORM_2);
                const size_t all = bytes + 2 * GUARD + shift;
                uint8_t *memory = (uint8_t *)malloc(all);
                holds(memory != NULL, "memory");
                memset(memory, FILL, all);
                uint8_t *begin = memory + GUARD + shift;
                struct belt_run run = belt_run_start(BELT_HIGH_PRECISION, (uint32_t)form).run;
                struct belt_room room = belt_room_in(begin, bytes, task.width, task.height);
                holds((uintptr_t)room.words % sizeof(uint32_t) == 0 && (uintptr_t)room.input_half % sizeof(uint16_t) == 0 &&
                          (uintptr_t)room.ref_half % sizeof(uint16_t) == 0,
                      "buffers that are aligned");
                wants(belt_run_job_with(run, &task, &room).report.refusal, BELT_ACCEPTED, "a job in the exact room");
                for (size_t i = 0; i < all; i++)
                    holds((memory + i >= begin && memory + i < begin + bytes) || memory[i] == FILL, "guards of a room");
                room = belt_room_in(begin, bytes - 1, task.width, task.height);
                wants(belt_run_job_with(run, &task, &room).report.refusal, BELT_TOO_SHORT, "a job in a byte less");
                free(memory);
            }
    printf("rooms hold what their jobs write, and no byte more is touched\n");
}

/* Sides, rooms and lists that no job can use. */
static void hostile(void) {
    static const size_t odd[] = {1025, 65536, (size_t)1 << 32, (size_t)1 << 63, SIZE_MAX / 16 * 16, SIZE_MAX};
    struct belt_room none = belt_room_in(NULL, 0, WIDTH, HEIGHT);
    struct belt_task task = plain_task();
    wants(belt_job_with(&task, &none).refusal, BELT_TOO_SHORT, "a job without memory");
    none = belt_room_in(NULL, SIZE_MAX, WIDTH, HEIGHT);
    wants(belt_job_with(&task, &none).refusal, BELT_TOO_SHORT, "a job in memory that malloc didn't give");
    static uint32_t words[4096];
    for (size_t i = 0; i < sizeof odd / sizeof odd[0]; i++)
        for (size_t j = 0; j < sizeof odd / sizeof odd[0]; j++) {
            task.width = odd[i];
            task.height = odd[j];
            holds(belt_room_bytes(odd[i], 16, BELT_FORM_2) == 0 && belt_room_bytes(16, odd[i], BELT_FORM_1) == 0,
                  "no room for such sides");
            struct belt_room room = belt_room_in(words, sizeof words, odd[i], odd[j]);
            holds(room.words == NULL && room.blocks == NULL && room.header == NULL, "no room in such sides");
            wants(belt_job_with(&task, &room).refusal, BELT_TOO_LARGE, "a job of such sides");
        }
    task = plain_task();
    struct belt_room room = belt_room_in(words, sizeof words, WIDTH, HEIGHT);
    task.input = NULL;
    wants(belt_job_with(&task, &room).refusal, BELT_WRONG_LENGTH, "a job without an input");
    task = plain_task();
    task.reference = NULL;
    wants(belt_job_with(&task, &room).refusal, BELT_WRONG_LENGTH, "a job without a reference");
    task = plain_task();
    task.settings = belt_default_settings(0);
    wants(belt_job_with(&task, &room).refusal, BELT_SHUTTER_CLOSED, "a job on frame 0");
    task.settings = belt_default_settings(5);
    task.settings.elect = BELT_ASKED_TYPE;
    wants(belt_job_with(&task, &room).refusal, BELT_NO_SUCH_CODE, "a job that neither elects nor asks for a type");
    task.settings = belt_default_settings(5);
    task.settings.start = SIZE_MAX;
    wants(belt_job_with(&task, &room).refusal, BELT_START_OVER, "a header from a bit far away");
    task.settings = belt_default_settings(5);
    task.settings.reference = 255;
    wants(belt_job_with(&task, &room).refusal, BELT_NO_SUCH_SLOT, "reference 255");
    memset(&task, 0, sizeof task);
    wants(belt_job_with(&task, &room).refusal, BELT_NO_SUCH_CODE, "a task of zeros");
    task.settings = belt_default_settings(5);
    wants(belt_job_with(&task, &room).refusal, BELT_ACCEPTED, "a job on no pels");
    printf("hostile tasks are refused\n");
}

/* Every list of every call, NULL where its count is 0. */
static void nothing_is_null(void) {
    const struct belt_model still = {BELT_IDENTITY_PARAMS};
    const struct belt_to_quantize numbers = {BELT_TRANSLATION, 1, {0}};
    const struct belt_to_trim codes = {BELT_TRANSLATION, 1};
    static const double six[6] = {0};
    const uint8_t all = BELT_ALL_CLASSES;
    uint8_t text[BELT_TEXT_BYTES];
    wants(belt_collect_motion_samples(NULL, 0, NULL, 0, 0, 0, NULL, 0, NULL, 0, NULL, 0, NULL, 0).refusal, 0, "search");
    wants(belt_collect_motion_samples(NULL, 0, NULL, 0, 16, 16, NULL, 0, NULL, 0, NULL, 0, NULL, 0).refusal, 2, "search");
    wants(belt_collect_motion_samples(earlier, 256, later, 256, 16, 16, classes, 1, NULL, 0, NULL, 0, NULL, 0).refusal, 3,
          "search");
    wants(belt_fit_translation(NULL, 0).refusal, 0, "translation");
    wants(belt_fit_rotzoom(NULL, 0).refusal, 6, "rotation-zoom");
    wants(belt_fit_affine(NULL, 0).refusal, 6, "affine");
    wants(belt_fit_trimmed(1, NULL, 0).refusal, 15, "trimmed");
    wants(belt_quantize_trimmed(1, 1, NULL, 0).refusal, 15, "trimmed");
    wants(belt_elect(1, NULL, 0).refusal, 0, "election");
    wants(belt_quantize_model(1, six, 1, NULL, 0).refusal, 0, "grid");
    wants(belt_mean_sq_residual(&still, NULL, 0).refusal, 0, "score");
    wants(belt_fit_translation_samples(NULL, 0).refusal, 0, "translation of samples");
    wants(belt_fit_rotzoom_samples(NULL, 0).refusal, 6, "rotation-zoom of samples");
    wants(belt_fit_affine_samples(NULL, 0).refusal, 6, "affine of samples");
    wants(belt_quantize_model_samples(NULL, 0, numbers).refusal, 0, "grid of samples");
    wants(belt_mean_sq_residual_samples(NULL, 0, still).refusal, 0, "score of samples");
    wants(belt_fit_trimmed_samples(NULL, 0, 1).refusal, 15, "trimmed samples");
    wants(belt_quantize_trimmed_samples(NULL, 0, codes).refusal, 15, "trimmed samples");
    wants(belt_elect_samples(NULL, 0, 1).refusal, 0, "election of samples");
    wants(belt_fit_by_class(all, 1, NULL, 0, NULL, 0).refusal, 0, "fit by class");
    wants(belt_quantize_by_class(all, 1, six, 1, NULL, 0, NULL, 0).refusal, 0, "grid by class");
    wants(belt_score_by_class(all, &still, NULL, 0, NULL, 0).refusal, 0, "score by class");
    wants(belt_fit_trimmed_by_class(all, 1, NULL, 0, NULL, 0).refusal, 15, "trimmed by class");
    wants(belt_quantize_trimmed_by_class(all, 1, 1, NULL, 0, NULL, 0).refusal, 15, "trimmed by class");
    wants(belt_elect_by_class(all, 1, NULL, 0, NULL, 0).refusal, 0, "election by class");
    wants(belt_fit_samples_by_class(all, 1, NULL, 0, NULL, 0).refusal, 0, "fit of samples by class");
    wants(belt_quantize_samples_by_class(all, numbers, NULL, 0, NULL, 0).refusal, 0, "grid of samples by class");
    wants(belt_score_samples_by_class(all, still, NULL, 0, NULL, 0).refusal, 0, "score of samples by class");
    wants(belt_fit_trimmed_samples_by_class(all, 1, NULL, 0, NULL, 0).refusal, 15, "trimmed samples by class");
    wants(belt_quantize_trimmed_samples_by_class(all, codes, NULL, 0, NULL, 0).refusal, 15, "trimmed samples by class");
    wants(belt_elect_samples_by_class(all, 1, NULL, 0, NULL, 0).refusal, 0, "election of samples by class");
    wants(belt_write_frame(5, NULL, 0, NULL, 0, NULL, 0).refusal, 0, "frame stored");
    wants(belt_read_both(NULL, 0, NULL, 0, NULL, 0).refusal, 0, "frame read");
    wants(belt_read_frame(NULL, 0, NULL, 0).refusal, 0, "frame of form 1 read");
    wants(belt_to_form1(NULL, 0, NULL, 0).refusal, 0, "to form 1");
    wants(belt_to_form2(NULL, 0, NULL, 0).refusal, 0, "to form 2");
    wants(belt_judge_block(NULL, 0).refusal, 9, "block");
    holds(belt_list_block(NULL, 0, text) == 10 && memcmp(text, "refused 9\n", 10) == 0, "text of no block");
    wants(belt_encode_inter_global_motion(NULL, 0, NULL, 0, 1, NULL, 0, 0, NULL, 0).refusal, 2, "header");
    wants(belt_read_global_motion_params(NULL, 0, 0, 1, NULL, 0).refusal, 2, "header read");
    wants(belt_encode_global_motion(true, classes, 7, belt_identities, 42, 1, NULL, 0, 0, NULL, 0).refusal, 0, "key frame");
    wants(belt_read_global_motion(true, NULL, 0, 0, 1, NULL, 0).refusal, 0, "key frame read");
    wants(belt_frame_price(true, classes, 7, belt_identities, 42, 1, NULL, 0).refusal, 0, "price of a key frame");
    wants(belt_setup_shear(2, NULL, 0).refusal, 2, "shear");
    wants(belt_make_practice_planes(1, 0, 0, 0, 0, NULL, 0, NULL, 0).refusal, 0, "practice belt");
    const struct belt_run run = belt_run_start(1, 2).run;
    wants(belt_run_frame(run, true, classes, 7, belt_identities, 42, 0, NULL, 0).written.refusal, 0, "run: frame");
    wants(belt_run_read(run, true, NULL, 0, 0).models.refusal, 0, "run: frame read");
    wants(belt_run_store(run, 5, NULL, 0, NULL, 0, NULL, 0).refusal, 0, "run: store");
    wants(belt_run_job(run, NULL, 0, NULL, 0, 0, 0, belt_default_settings(5), NULL, 0, NULL, 0, NULL, 0, NULL, 0, NULL, 0,
                       NULL, 0, NULL, 0, NULL, 0)
              .report.refusal,
          2, "run: job");
    wants(belt_job(NULL, 0, NULL, 0, 0, 0, belt_default_settings(5), NULL, 0, NULL, 0, NULL, 0, NULL, 0, NULL, 0, NULL, 0,
                   NULL, 0, NULL, 0, NULL, 0)
              .refusal,
          2, "job");
    printf("NULL is fine where a count is 0\n");
}

/* The earlier frame as input: the load's motion. The later one as input: the negative, which is turned round. */
static void which_way(void) {
    static uint32_t memory[8192];
    struct belt_room room = belt_room_in(memory, sizeof memory, WIDTH, HEIGHT);
    struct belt_task task = plain_task();
    struct belt_report report = belt_job_with(&task, &room);
    wants(report.refusal, BELT_ACCEPTED, "a job");
    struct belt_motion moved = belt_motion_at(belt_x_first(report.types[0], report.models[0]), 40.0, 32.0);
    holds(moved.u == RIGHT && moved.v == DOWN, "the earlier frame as input");
    task.input = later;
    task.reference = earlier;
    report = belt_job_with(&task, &room);
    wants(report.refusal, BELT_ACCEPTED, "a job the other way");
    struct belt_model model = belt_x_first(report.types[0], report.models[0]);
    moved = belt_motion_at(model, 40.0, 32.0);
    holds(moved.u == -RIGHT && moved.v == -DOWN, "the later frame as input");
    moved = belt_moved_since_reference(model, 40.0, 32.0);
    holds(moved.u == RIGHT && moved.v == DOWN, "moved since the reference");
    printf("the load moved %.1f right and %.1f down, from either side\n", moved.u, moved.v);
}

static void versions(void) {
    holds(belt_version() == BELT_VERSION_NUMBER && belt_abi_1() == BELT_VERSION_NUMBER, "the library's version");
    holds(belt_library_fits(), "the library fits");
    char text[32];
    snprintf(text, sizeof text, "%d.%d.%d", BELT_VERSION_MAJOR, BELT_VERSION_MINOR, BELT_VERSION_PATCH);
    holds(strcmp(text, BELT_VERSION) == 0, "the header's version");
    printf("the library and the header are of one version\n");
}

int main(void) {
    for (int i = 0; i < SAMPLES; i++)
        classes[i] = (uint8_t)(i < 7 ? 0 : i % 5);
    draw();
    tasks_are_jobs();
    rooms();
    hostile();
    nothing_is_null();
    which_way();
    versions();
    return 0;
}
