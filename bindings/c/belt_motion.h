/* SPDX-License-Identifier: MIT */
/* Sample words and models in pels, for people: functions of this header alone, in plain C, not proved.
   x runs to the right and y down from the centre of a plane's first pel. Motion goes from the input to the
   reference: what the input shows at (x, y) stands at (x + u, y + v) in the reference. So with the earlier frame as
   input it is the load's motion, and with the later one as input the negative of it: belt_moved_since_reference.
   docs/RULES.md, 'Sample' and 'Model'. belt_zoom and belt_degrees need the C library's mathematics (-lm), the rest
   doesn't. */
#ifndef BELT_MOTION_H
#define BELT_MOTION_H

#include <math.h>

#include "belt.h"

/* A sample: block row and column, the block's centre and its motion in pels, and its class bits: its class in a word
   that was read by belt_read_frame; 0 where the classes stand beside the words. */
struct belt_sample { uint32_t row; uint32_t column; double x; double y; double u; double v; uint8_t class_bits; };

/* A motion in pels. */
struct belt_motion { double u; double v; };

static inline struct belt_sample belt_sample_of(uint32_t word) {
    struct belt_sample sample;
    sample.row = word >> 26;
    sample.column = word >> 20 & 63;
    sample.x = 16.0 * sample.column + 7.5;
    sample.y = 16.0 * sample.row + 7.5;
    sample.u = (BELT_CAST(double, word >> 2 & 511) - BELT_MOST_EIGHTHS) / 8.0;
    sample.v = (BELT_CAST(double, word >> 11 & 511) - BELT_MOST_EIGHTHS) / 8.0;
    sample.class_bits = BELT_CAST(uint8_t, word & 3);
    return sample;
}

/* The four numbers of a word that the fits and the score take; its class plays no part. */
static inline struct belt_motion_sample belt_motion_sample_of(uint32_t word) {
    struct belt_sample read = belt_sample_of(word);
    struct belt_motion_sample sample;
    sample.x = read.x;
    sample.y = read.y;
    sample.u = read.u;
    sample.v = read.v;
    return sample;
}

/* The motion that a model has at a place; its shift is the one at the origin, or at any place for a translation. */
static inline struct belt_motion belt_motion_at(struct belt_model model, double x, double y) {
    double m[6];
    for (int slot = 0; slot < 6; slot++)
        m[slot] = model.params[slot] / BELT_CAST(double, BELT_ONE);
    struct belt_motion motion;
    motion.u = (m[2] - 1.0) * x + m[3] * y + m[0];
    motion.v = m[4] * x + (m[5] - 1.0) * y + m[1];
    return motion;
}

/* How the load moved since the reference was taken, where the reference is the earlier of the two frames and the input
   the later: what the input shows at (x, y) came from (x + u, y + v), so it moved by -u, -v. Where the input is the
   earlier frame, belt_motion_at is the load's motion already. */
static inline struct belt_motion belt_moved_since_reference(struct belt_model model, double x, double y) {
    struct belt_motion motion = belt_motion_at(model, x, y);
    motion.u = 0.0 - motion.u;
    motion.v = 0.0 - motion.v;
    return motion;
}

/* The zoom and the turn in degrees, from x towards y (clockwise on a screen), of a rotation-zoom; of an affine
   model those of the rotation-zoom nearest to it. 1 and 0 for a translation. A load that grew since the reference
   was taken has a zoom below 1, since motion goes back to the reference. */
static inline double belt_zoom(struct belt_model model) {
    double along = (BELT_CAST(double, model.params[2]) + model.params[5]) / 2.0;
    double across = (BELT_CAST(double, model.params[4]) - model.params[3]) / 2.0;
    return sqrt(along * along + across * across) / BELT_ONE;
}
static inline double belt_degrees(struct belt_model model) {
    double along = (BELT_CAST(double, model.params[2]) + model.params[5]) / 2.0;
    double across = (BELT_CAST(double, model.params[4]) - model.params[3]) / 2.0;
    return atan2(across, along) * 57.295779513082320877;
}

/* How many samples a model explains: those whose motion is at most so many pels from the model's at their centre.
   Where few agree, the motion was beyond the search's range or isn't one of this type. */
static inline size_t belt_agreeing(struct belt_model model, const uint32_t *words, size_t word_count, double pels) {
    size_t agreeing = 0;
    for (size_t i = 0; i < word_count; i++) {
        struct belt_sample sample = belt_sample_of(words[i]);
        struct belt_motion motion = belt_motion_at(model, sample.x, sample.y);
        double du = sample.u - motion.u, dv = sample.v - motion.v;
        agreeing += du * du + dv * dv <= pels * pels;
    }
    return agreeing;
}

BELT_SIZE(belt_sample, 48); BELT_PLACE(belt_sample, row, 0); BELT_PLACE(belt_sample, column, 4);
    BELT_PLACE(belt_sample, x, 8); BELT_PLACE(belt_sample, y, 16); BELT_PLACE(belt_sample, u, 24);
    BELT_PLACE(belt_sample, v, 32); BELT_PLACE(belt_sample, class_bits, 40);
BELT_SIZE(belt_motion, 16); BELT_PLACE(belt_motion, u, 0); BELT_PLACE(belt_motion, v, 8);

#endif
