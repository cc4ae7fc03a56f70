/* A job on a practice belt whose motion is known: 6 pels left and 4 down. */
#include <stdio.h>
#include <stdlib.h>

#include <belt_motion.h>

enum { WIDTH = 320, HEIGHT = 240, PELS = WIDTH * HEIGHT };

int main(void) {
    static uint16_t earlier[PELS], later[PELS];
    size_t bytes = belt_room_bytes(WIDTH, HEIGHT, BELT_FORM_2);
    void *memory = malloc(bytes);
    struct belt_room room = belt_room_in(memory, bytes, WIDTH, HEIGHT);
    struct belt_task task = {.input = earlier, .reference = later, .width = WIDTH, .height = HEIGHT,
                             .settings = belt_default_settings(5)};
    if (belt_make_practice_planes(1, WIDTH, HEIGHT, 4, -6, earlier, PELS, later, PELS).refusal != BELT_ACCEPTED)
        return 1;
    struct belt_report report = belt_job_with(&task, &room);
    struct belt_model model = belt_x_first(report.types[0], report.models[0]);
    struct belt_motion moved = belt_motion_at(model, WIDTH / 2.0, HEIGHT / 2.0);
    printf("%d.%d.%d: refusal %u, %.3f right, %.3f down\n", BELT_VERSION_MAJOR, BELT_VERSION_MINOR, BELT_VERSION_PATCH,
           (unsigned)report.refusal, moved.u, moved.v);
    free(memory);
    return !belt_library_fits();
}
