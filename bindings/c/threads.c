/* The three kinds of job, plain and in a run, each on a thread whose stack is as musl makes it: by default where this is
   compiled with musl, else of the same size. Each answers what the same job answered on the main thread. Ends with 1
   where one refuses or answers something else. It is C99, and C++11, with the threads of POSIX. */
#define _XOPEN_SOURCE 700
#include <pthread.h>
#include <stdio.h>
#include <stdlib.h>
#include <string.h>

#include "belt.h"

enum { SIDE = 128, PELS = SIDE * SIDE, MUSL_STACK = 128 * 1024, KINDS = 3 };

static uint16_t input[PELS], reference[PELS];

struct asked { uint8_t trim; uint8_t elect; bool in_run; struct belt_report report; };

static void *work(void *handed) {
    struct asked *asked = (struct asked *)handed;
    size_t bytes = belt_room_bytes(SIDE, SIDE, BELT_FORM_2);
    void *memory = malloc(bytes);
    struct belt_room room = belt_room_in(memory, bytes, SIDE, SIDE);
    struct belt_task task = {input, reference, SIDE, SIDE, belt_default_settings(1), NULL, NULL, NULL, NULL};
    task.settings.type = BELT_AFFINE;
    task.settings.trim = asked->trim;
    task.settings.elect = asked->elect;
    asked->report =
        asked->in_run
            ? belt_run_job_with(belt_run_start(BELT_HIGH_PRECISION, BELT_FORM_2).run, &task, &room).report
            : belt_job_with(&task, &room);
    free(memory);
    return NULL;
}

int main(void) {
    static const struct { const char *name; uint8_t trim; uint8_t elect; } kinds[KINDS] = {
        {"plain", BELT_ALL_SAMPLES, BELT_ASKED_TYPE},
        {"trimming", BELT_TRIM, BELT_ASKED_TYPE},
        {"electing", BELT_ALL_SAMPLES, BELT_ELECT}};
    if (belt_make_practice_planes(1, SIDE, SIDE, 3, -5, input, PELS, reference, PELS).refusal != BELT_ACCEPTED)
        return 1;
    pthread_attr_t attributes;
    size_t stack = 0;
    pthread_attr_init(&attributes);
#ifdef __GLIBC__
    pthread_attr_setstacksize(&attributes, MUSL_STACK);
#endif
    pthread_attr_getstacksize(&attributes, &stack);
    if (stack > MUSL_STACK) {
        printf("the stack has %u bytes, musl's %u\n", (unsigned)stack, (unsigned)MUSL_STACK);
        return 1;
    }
    for (int turn = 0; turn < 2 * KINDS; turn++) {
        struct asked asked = {kinds[turn % KINDS].trim, kinds[turn % KINDS].elect, turn >= KINDS, {0, {0}, {{{0}}}, 0.0, 0, 0}};
        work(&asked);
        struct belt_report wanted = asked.report;
        memset(&asked.report, 0, sizeof asked.report);
        pthread_t thread;
        if (pthread_create(&thread, &attributes, work, &asked) != 0 || pthread_join(thread, NULL) != 0)
            return 1;
        if (asked.report.refusal != BELT_ACCEPTED || asked.report.bits != wanted.bits ||
            memcmp(asked.report.models, wanted.models, sizeof wanted.models) != 0) {
            printf("a %s job on a thread: refused %u\n", kinds[turn % KINDS].name, (unsigned)asked.report.refusal);
            return 1;
        }
    }
    printf("a plain, a trimming and an electing job, plain and in a run, on a stack of %u bytes\n", (unsigned)stack);
    return 0;
}
