/* A small recorder: it lends its tables, a window and a body, and writes the scene to the file that it is told, and to a second file the log of a minute.
   A real one fills the same arrays from its server: the scene once a tick, or when a minute begins; the events as they come, and the log when it is over.
   Link target/staticlib/librecorder.a (`hosts/build recorder` writes it) and libm.

       cc hosts/recorder.c target/staticlib/librecorder.a -lm -o recorder && ./recorder case-a.scn && ./run onetick < case-a.scn */
#include "boltjuniper.h"
#include <stdio.h>

/* The tables: state 0 is air, state 1 a cube that blocks motion, has one box, from box 0 on, and covers all four faces. Friction 0.6. */
static const uint32_t records[40] = {[0] = 1, [1] = 0x3f19999a, [20] = 3, [21] = 0x3f19999a, [28] = 1, [39] = 15};
static const float shapes[6] = {0, 0, 0, 1, 1, 1};

/* The window around the body: x 0 to 1, y -1 to 2, z 0 to 1, in a world from -64 to 319. Cubes at y of 0 and below, air above, every column loaded. */
static uint32_t cells[2 * 4 * 2 + 2 * 2];

static void fill_window(void) {
    for (int y = 0; y < 4; y++)
        for (int k = 0; k < 4; k++) cells[4 * y + k] = y < 2;
    for (int k = 0; k < 4; k++) cells[16 + k] = 1;
}

/* The body: at 0.5, 1.25, 0.5, on its way to the east, one by one, with gravity and drags of 0.5. It is no model of its own, in the air, without a flap, and
   its move may collect as many boxes as there is room for. */
static const double numbers[19] = {0.5, 1.25, 0.5, 0.25, 0, 0, 1, 1, 0, 0.5, 0.5, 0.5};
static const uint32_t words[7] = {0, 3, 0, 0, 0, 0, 0};
static const uint64_t age = 0;

/* The minute: a tick, then the cube under the body becomes air, counted from the origin x 0, y 1, z 0, and two ticks more. */
#define TICK 1, 0, 0, 0
#define SET(x, y, z, state) 2, (x) | (y) << 8 | (z) << 16, state, 0
static const uint32_t events[16] = {TICK, SET(0, 1, 0, 0), TICK, TICK};

/* 128 blocks: every scene has room in it, and every scene with a log. */
static uint8_t file[65536];

static int save(const char *name, uint64_t bytes) {
    if (bytes < 512) return fprintf(stderr, "refused %d\n", (int)bytes), 1; /* docs/REFUSALS.md says what it means */
    FILE *f = fopen(name, "wb");
    if (!f || fwrite(file, 1, bytes, f) != bytes || fclose(f)) return perror(name), 1;
    return 0;
}

int main(int argc, char **argv) {
    if (argc != 2 && argc != 3) return fprintf(stderr, "recorder FILE [LOG]: writes the scene of case A to FILE, and a minute of it to LOG\n"), 2;
    fill_window();
    uint64_t n = boltjuniper_write_scene(records, 40, shapes, 6, cells, 20, 0, -1, 0, 2, 4, 2, -64, 319, numbers, 19, words, 7, age, file, sizeof file);
    if (save(argv[1], n)) return 1;
    return argc == 3 ? save(argv[2], boltjuniper_write_log(events, 16, file, sizeof file)) : 0;
}
