/* Headers written onto bytes that nothing was written to before, of every type and flag and from every start: each is
   the header that is written over zeros and over ones, and the bytes behind it stay. Run by a memory checker, it also
   shows that no bit of a fresh buffer gets into a header. Ends with 1 where something differs. It is C99, and C++11. */
#include <stdio.h>
#include <stdlib.h>
#include <string.h>

#include "belt.h"

enum { LAST_START = 7, DISTANCES = 3 };

static const struct belt_stored_model identity = {BELT_IDENTITY_PARAMS};
static struct belt_stored_model models[BELT_REFERENCES], prior[BELT_REFERENCES];
static uint8_t types[BELT_REFERENCES];

/* Seven models of a type, so many of the coarsest steps from the identity. */
static void set_models(uint8_t type, int32_t steps) {
    for (int r = 0; r < BELT_REFERENCES; r++) {
        struct belt_stored_model model = identity;
        int32_t whole = steps * 16384, part = steps * 2;
        types[r] = type;
        prior[r] = identity;
        if (type != BELT_IDENTITY) {
            model.params[0] = whole;
            model.params[1] = -whole;
        }
        if (type == BELT_ROTZOOM || type == BELT_AFFINE) {
            model.params[2] = BELT_ONE + part;
            model.params[3] = part;
            model.params[4] = -part;
            model.params[5] = BELT_ONE + part;
        }
        models[r] = model;
    }
}

/* The bytes that the header takes. The bits before the start are ones. */
static size_t write_to(uint8_t *header, uint8_t flag, size_t start) {
    if (start > 0)
        header[0] = 0xff;
    struct belt_written written = belt_encode_inter_global_motion(types, BELT_REFERENCES, models, BELT_NUMBERS, flag, prior,
                                                                  BELT_NUMBERS, start, header, BELT_HEADER_BYTES);
    if (written.refusal != BELT_ACCEPTED) {
        printf("refused %u: %s\n", (unsigned)written.refusal, belt_refusal_text(written.refusal));
        exit(1);
    }
    return (start + written.bits + 7) / 8;
}

static void same(int equal, const char *what) {
    if (!equal) {
        printf("%s: DIFFERENT\n", what);
        exit(1);
    }
}

static void try_header(uint8_t flag, size_t start) {
    uint8_t zeros[BELT_HEADER_BYTES], ones[BELT_HEADER_BYTES];
    memset(zeros, 0, sizeof zeros);
    memset(ones, 0xff, sizeof ones);
    uint8_t *fresh = (uint8_t *)malloc(BELT_HEADER_BYTES);
    if (fresh == NULL)
        exit(1);
    size_t bytes = write_to(fresh, flag, start);
    same(write_to(zeros, flag, start) == bytes && write_to(ones, flag, start) == bytes, "length");
    same(memcmp(fresh, zeros, bytes) == 0, "fresh bytes and zeros");
    same(memcmp(fresh, ones, bytes) == 0, "fresh bytes and ones");
    for (size_t i = bytes; i < BELT_HEADER_BYTES; i++)
        same(zeros[i] == 0 && ones[i] == 0xff, "bytes behind the header");
    free(fresh);
}

int main(void) {
    static const int32_t distances[DISTANCES] = {0, 3, -125};
    unsigned headers = 0;
    for (uint8_t type = BELT_IDENTITY; type <= BELT_AFFINE; type++)
        for (int d = 0; d < DISTANCES; d++)
            for (uint8_t flag = BELT_LOW_PRECISION; flag <= BELT_HIGH_PRECISION; flag++)
                for (size_t start = 0; start <= LAST_START; start++) {
                    set_models(type, distances[d]);
                    try_header(flag, start);
                    headers++;
                }
    printf("%u headers onto fresh bytes\n", headers);
    return 0;
}
