/* The program around the C snippet of bindings/README.md, which bindings/c/pages takes out of the page: frames of a load that
   moves 4 pels to the left and 2 down, with film over it that flutters. */
#include <stdint.h>
#include <stdio.h>
#include <stdlib.h>

#include "readme_includes.h"

enum { width = 80, height = 64 };

static uint16_t earlier[width * height], later[width * height];
static uint8_t classes[(width / 16) * (height / 16)];

static uint16_t pel(int y, int x) {
    uint32_t h = (uint32_t)(y + 100) * 2654435761u ^ (uint32_t)(x + 100) * 2246822519u;
    h = (h ^ h >> 15) * 3266489917u;
    return (uint16_t)(h >> 20);
}

static void draw(void) {
    for (int y = 0; y < height; y++)
        for (int x = 0; x < width; x++) {
            const int film = x >= 48 && y < 32;
            classes[y / 16 * (width / 16) + x / 16] = film ? BELT_FILM : BELT_RIGID_PLASTIC;
            earlier[y * width + x] = pel(y, x);
            later[y * width + x] = film ? pel(y + 8, x - 6) : pel(y - 2, x + 4);
        }
}

int main(void) {
    draw();
#include "readme_snippet.h"
    return 0;
}
