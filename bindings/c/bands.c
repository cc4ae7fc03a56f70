/* One frame on several threads: the program's own threads take block rows of the search in turns, and then the job goes on
   from the words. For 1 to 5 threads, for jobs of each kind, outside and in a run of either form, on sides with many rows,
   with fewer rows than threads and with none, report, words, half planes, blocks and header are those of belt_job, bit for
   bit; so is the row of a job that is refused after its search. Ends with 1 where something differs. It is C99, and C++11,
   with the threads of POSIX. */
#define _XOPEN_SOURCE 700
#include <pthread.h>
#include <stdio.h>
#include <stdlib.h>
#include <string.h>

#include "belt.h"

enum { SIDE = 320, PELS = SIDE * SIDE, THREADS = 5, KINDS = 3, FILL = 0xa5 };

static uint16_t input[PELS], reference[PELS];
static uint8_t classes[BELT_MOST_SAMPLES];

/* A frame that threads share: each takes the next row that nobody has taken. */
struct frame {
    const struct belt_task *task;
    const struct belt_room *room;
    pthread_mutex_t lock;
    size_t next;
    uint32_t refusal;
    uint32_t rows;
    size_t samples;
};

static void *bands(void *handed) {
    struct frame *frame = (struct frame *)handed;
    for (;;) {
        pthread_mutex_lock(&frame->lock);
        size_t row = frame->next;
        frame->next += row < belt_block_rows(frame->task->height);
        pthread_mutex_unlock(&frame->lock);
        if (row == belt_block_rows(frame->task->height))
            return NULL;
        struct belt_searched found = belt_search_band_with(frame->task, frame->room, row, row + 1);
        pthread_mutex_lock(&frame->lock);
        if (found.refusal != BELT_ACCEPTED)
            frame->refusal = found.refusal;
        frame->rows += found.rows;
        frame->samples += found.samples;
        pthread_mutex_unlock(&frame->lock);
    }
}

/* The search of a task by so many threads, this one among them. */
static struct belt_searched searched(const struct belt_task *task, struct belt_room *room, int threads) {
    struct frame frame;
    pthread_t others[THREADS];
    int begun = 0;
    memset(&frame, 0, sizeof frame);
    frame.task = task;
    frame.room = room;
    frame.refusal = belt_half_planes_with(task, room);
    if (frame.refusal == BELT_ACCEPTED) {
        pthread_mutex_init(&frame.lock, NULL);
        while (begun < threads - 1 && pthread_create(&others[begun], NULL, bands, &frame) == 0)
            begun++;
        bands(&frame);
        while (begun > 0)
            pthread_join(others[--begun], NULL);
        pthread_mutex_destroy(&frame.lock);
    }
    struct belt_searched found = {frame.refusal, frame.samples, frame.rows};
    return found;
}

static int same_report(const struct belt_report *a, const struct belt_report *b) {
    return a->refusal == b->refusal && memcmp(a->types, b->types, sizeof a->types) == 0 &&
           memcmp(a->models, b->models, sizeof a->models) == 0 && memcmp(&a->score, &b->score, sizeof a->score) == 0 &&
           a->bits == b->bits && a->samples == b->samples;
}

static int same_run(const struct belt_run *a, const struct belt_run *b) {
    return memcmp(a->prior, b->prior, sizeof a->prior) == 0 && a->flag == b->flag && a->form == b->form;
}

/* The job of a task by so many threads, outside or in a run, against belt_job or belt_run_job. */
static int alike(const struct belt_task *task, const struct belt_run *run, int threads, uint32_t wanted) {
    size_t bytes = belt_room_bytes(task->width, task->height, BELT_FORM_2);
    uint8_t *whole = (uint8_t *)malloc(bytes), *parted = (uint8_t *)malloc(bytes);
    if (whole == NULL || parted == NULL)
        exit(1);
    memset(whole, FILL, bytes);
    memset(parted, FILL, bytes);
    struct belt_room room = belt_room_in(whole, bytes, task->width, task->height);
    struct belt_room in_bands = belt_room_in(parted, bytes, task->width, task->height);
    struct belt_job_done own, theirs;
    memset(&own, 0, sizeof own);
    memset(&theirs, 0, sizeof theirs);
    if (run != NULL)
        theirs = belt_run_job_with(*run, task, &room);
    else
        theirs.report = belt_job_with(task, &room);
    struct belt_searched found = searched(task, &in_bands, threads);
    if (run != NULL)
        own = belt_run_job_of_words_with(*run, task, &in_bands);
    else
        own.report = belt_job_of_words_with(task, &in_bands);
    size_t samples = belt_sample_count(task->width, task->height);
    int same = found.refusal == BELT_ACCEPTED && found.samples == samples && theirs.report.refusal == wanted &&
               same_report(&own.report, &theirs.report) && same_run(&own.run, &theirs.run) &&
               memcmp(whole, parted, bytes) == 0;
    if (!same)
        printf("%ux%u by %d threads: refused %u and %u, or something differs\n", (unsigned)task->width,
               (unsigned)task->height, threads, (unsigned)own.report.refusal, (unsigned)theirs.report.refusal);
    free(whole);
    free(parted);
    return same;
}

/* Bands of several rows, of none, and what is refused. */
static int judged(void) {
    size_t bytes = belt_room_bytes(SIDE, SIDE, BELT_FORM_2), rows = belt_block_rows(SIDE), columns = SIDE / BELT_BLOCK_SIDE;
    uint32_t *memory = (uint32_t *)malloc(bytes);
    if (memory == NULL)
        exit(1);
    struct belt_room room = belt_room_in(memory, bytes, SIDE, SIDE);
    struct belt_task task = {input, reference, SIDE, SIDE, belt_default_settings(1), NULL, NULL, NULL, NULL};
    uint32_t all = searched(&task, &room, 1).rows, sum = 0;
    for (size_t first = 0; first < rows; first += 3) {
        size_t end = first + 3 < rows ? first + 3 : rows;
        struct belt_searched found = belt_search_band_with(&task, &room, first, end);
        sum += found.rows;
        if (found.samples != (end - first) * columns)
            sum = 0;
    }
    struct belt_searched none = belt_search_band_with(&task, &room, rows, rows);
    int right = sum == all && none.refusal == BELT_ACCEPTED && none.samples == 0 && none.rows == 0 &&
                belt_search_band_with(&task, &room, 2, 1).refusal == BELT_NO_SUCH_SLOT &&
                belt_search_band_with(&task, &room, 0, rows + 1).refusal == BELT_NO_SUCH_SLOT &&
                belt_search_band_with(&task, &room, rows + 1, rows + 1).refusal == BELT_NO_SUCH_SLOT &&
                belt_half_plane(input, PELS, SIDE, SIDE, room.input_half, room.input_half_pels - 1) == BELT_TOO_SHORT &&
                belt_half_plane(input, PELS - 1, SIDE, SIDE, room.input_half, room.input_half_pels) == BELT_WRONG_LENGTH &&
                belt_half_plane(input, PELS, SIDE + BELT_MOST_SIDE, SIDE, NULL, 0) == BELT_TOO_LARGE;
    struct belt_room shorter = room;
    shorter.word_room = 3 * columns - 1;
    right = right && belt_search_band_with(&task, &shorter, 2, 3).refusal == BELT_TOO_SHORT;
    shorter.word_room = 0;
    right = right && belt_search_band_with(&task, &shorter, 2, 3).refusal == BELT_TOO_SHORT;
    shorter.ref_half_pels--;
    right = right && belt_search_band_with(&task, &shorter, 2, 3).refusal == BELT_WRONG_LENGTH &&
            belt_half_planes_with(&task, &shorter) == BELT_TOO_SHORT;
    task.input = NULL;
    right = right && belt_half_planes_with(&task, &room) == BELT_WRONG_LENGTH &&
            belt_search_band_with(&task, &room, 0, 1).refusal == BELT_WRONG_LENGTH;
    room.words[1] = room.words[0];
    right = right && belt_job_of_words_with(&task, &room).refusal == BELT_NOT_RISING;
    if (!right)
        printf("a band of other rows than there are, or buffers of other lengths, aren't refused as they should be\n");
    free(memory);
    return right;
}

int main(void) {
    static const struct { uint8_t trim; uint8_t elect; } kinds[KINDS] = {
        {BELT_ALL_SAMPLES, BELT_ASKED_TYPE}, {BELT_TRIM, BELT_ASKED_TYPE}, {BELT_ALL_SAMPLES, BELT_ELECT}};
    static const struct { size_t width; size_t height; } sides[] = {{SIDE, SIDE}, {200, 90}, {319, 17}, {15, 300}, {300, 15}};
    int right = 1, jobs = 0;
    for (size_t i = 0; i < sizeof classes; i++)
        classes[i] = (uint8_t)(i % 4);
    for (size_t s = 0; s < sizeof sides / sizeof sides[0]; s++) {
        size_t pels = sides[s].width * sides[s].height;
        if (belt_make_practice_planes(7, sides[s].width, sides[s].height, 2, -6, input, pels, reference, pels).refusal !=
            BELT_ACCEPTED)
            return 1;
        struct belt_task task = {
            input, reference, sides[s].width, sides[s].height, belt_default_settings(9), classes, NULL, NULL, NULL};
        for (int turn = 0; turn < KINDS * THREADS * 3; turn++) {
            int kind = turn % KINDS, threads = 1 + turn / KINDS % THREADS, held = turn / KINDS / THREADS;
            struct belt_run run = belt_run_start(BELT_HIGH_PRECISION, held == 1 ? BELT_FORM_1 : BELT_FORM_2).run;
            /* of no samples an affine model has no fit, and too few are left to trim */
            uint32_t wanted = belt_sample_count(task.width, task.height) != 0 || kind == 2 ? BELT_ACCEPTED
                              : kind == 1                                                 ? BELT_TOO_FEW
                                                                                          : BELT_SINGULAR;
            /* a single row of blocks has no affine fit either */
            if (belt_block_rows(task.height) == 1 && kind != 2)
                wanted = BELT_SINGULAR;
            task.settings.type = BELT_AFFINE;
            task.settings.trim = kinds[kind].trim;
            task.settings.elect = kinds[kind].elect;
            right &= alike(&task, held == 0 ? NULL : &run, threads, wanted);
            jobs++;
        }
    }
    if (belt_make_practice_planes(7, SIDE, SIDE, 2, -6, input, PELS, reference, PELS).refusal != BELT_ACCEPTED)
        return 1;
    right &= judged();
    if (right)
        printf("%d jobs in bands, by 1 to %d threads, outside and in runs: as without bands\n", jobs, THREADS);
    return !right;
}
