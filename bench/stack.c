/* How much stack each function of hosts/boltjuniper.h uses below its caller (`bench/run stack`; docs/STACK.md has the table).

   A call is made on a stack of its own that was painted before, and the deepest byte that lost its paint is looked for: twice, with two paints, so
   that a byte which is written with a paint's own value is seen by the other. It is counted from the frame of the function that makes the call,
   so that what it puts on the stack for the call is in the figure. Inputs are the stored scenes and moves of crates/replay, bodies at random in a
   world that has everything, and the dearest tables, windows and moves.

   For one more function: a call of it over the input at hand, and a line in `rows`. */
#define _GNU_SOURCE
#include "../hosts/boltjuniper.h"
#include <stdio.h>
#include <stdlib.h>
#include <string.h>
#include <sys/mman.h>
#include <ucontext.h>

/* ---- the input at hand */

enum { STATES = 4096, BOXES = 16384, CELLS = 64 * 64 * 65, GROUPS = 16 * 16 * 16, FILE_BYTES = 128 * 512, LIST = 512 };

static uint32_t records[20 * STATES], states, cells[CELLS], words[7], air;
static float shapes[6 * BOXES];
static uint32_t boxes, sizes[3];
static int32_t origin[3], lowest, highest;
static double numbers[19], mover[9], list[6 * (LIST + 1)];
static size_t listed, file_bytes;
static uint64_t age;
static uint32_t file[FILE_BYTES / 4 + 128];
static uint32_t night_window[BOLTJUNIPER_WINDOW_WORDS], night_words[BOLTJUNIPER_CAPPED_WORDS];
static double night_numbers[BOLTJUNIPER_BODY_NUMBERS], out[2 * BOLTJUNIPER_ANSWER_NUMBERS];
static uint8_t recorded[FILE_BYTES], minute_log[FILE_BYTES];
static size_t minute_bytes;
static uint32_t minute_cells[CELLS + GROUPS];
static double feet[12];

static size_t cells_len(void) { return (size_t)sizes[0] * sizes[2] * (sizes[1] + 1); }

static size_t groups_len(void) { return (size_t)((sizes[0] + 3) / 4) * ((sizes[1] + 3) / 4) * ((sizes[2] + 3) / 4); }

#define TABLES records, 20 * (size_t)states, shapes, 6 * (size_t)boxes
#define WINDOW cells, cells_len(), origin[0], origin[1], origin[2], sizes[0], sizes[1], sizes[2], lowest, highest

/* ---- the calls: each says where its frame is, and makes one call over the input at hand */

static char *frame;
static uint32_t answer;
#define CALL(name, ...)                                                                                                                            \
    static __attribute__((noinline)) void name(void) {                                                                                             \
        frame = __builtin_frame_address(0);                                                                                                        \
        answer = __VA_ARGS__;                                                                                                                      \
    }

CALL(check_tables, boltjuniper_check_tables(TABLES))
CALL(step, boltjuniper_step(TABLES, WINDOW, numbers, 19, words, 7, age, out, 10))
CALL(step_checked, boltjuniper_step_checked(TABLES, WINDOW, numbers, 19, words, 7, age, out, 10))
CALL(step_falling, boltjuniper_step_falling(TABLES, WINDOW, numbers, 19, words, 7, age, 0, 0, out, 12))
CALL(midnight, boltjuniper_midnight(TABLES, night_window, BOLTJUNIPER_WINDOW_WORDS, 1, cells, cells_len(), night_numbers, BOLTJUNIPER_BODY_NUMBERS,
                                    night_words, BOLTJUNIPER_BODY_WORDS, 1, out, BOLTJUNIPER_ANSWER_NUMBERS))
CALL(midnight_capped, boltjuniper_midnight_capped(TABLES, night_window, BOLTJUNIPER_WINDOW_WORDS, 1, cells, cells_len(), night_numbers,
                                                  BOLTJUNIPER_BODY_NUMBERS, night_words, BOLTJUNIPER_CAPPED_WORDS, 1, out, BOLTJUNIPER_ANSWER_NUMBERS))
CALL(midnight_two, (uint32_t)boltjuniper_midnight_two(TABLES, night_window, BOLTJUNIPER_WINDOW_WORDS, 1, cells, cells_len(), night_numbers,
                                                     BOLTJUNIPER_BODY_NUMBERS, night_words, BOLTJUNIPER_CAPPED_WORDS, 1, night_window,
                                                     BOLTJUNIPER_WINDOW_WORDS, 1, cells, cells_len(), night_numbers, BOLTJUNIPER_BODY_NUMBERS,
                                                     night_words, BOLTJUNIPER_CAPPED_WORDS, 1, out, 2 * BOLTJUNIPER_ANSWER_NUMBERS))
CALL(tick, boltjuniper_tick((const uint8_t *)file, file_bytes, out, 10))
CALL(move, boltjuniper_move(TABLES, WINDOW, air, mover, 9, numbers[13], words[0], words[6], out, 10))
CALL(move_over_list, boltjuniper_move_over_list(list, 6 * listed, mover, 9, numbers[13], words[0], words[6], out, 10))
CALL(collected, boltjuniper_collected(TABLES, WINDOW, air, mover, 9, numbers[13], words[6], 0, out, 7))

/* A recorder's call answers how many bytes it wrote, 512 to a block, or a refusal. */
static inline uint32_t refused(uint64_t n) { return n < 512 ? (uint32_t)n : 0; }
CALL(write_scene, refused(boltjuniper_write_scene(TABLES, WINDOW, numbers, 19, words, 7, age, recorded, sizeof recorded)))
CALL(write_checked, refused(boltjuniper_write_checked(TABLES, WINDOW, numbers, 19, words, 7, age, recorded, sizeof recorded)))

/* The log of a minute: four ticks and a set. It goes behind the scene that was recorded last, and behind a small one for the minute itself, of which the events
   alone are used: the window, its body and its tables are those at hand. */
static const uint32_t events[20] = {1, 0, 0, 0, 2, 0, 0, 0, 1, 0, 0, 0, 1, 0, 0, 0, 1, 0, 0, 0};
CALL(write_log, refused(boltjuniper_write_log(events, 20, recorded, sizeof recorded)))
CALL(minute, boltjuniper_minute(TABLES, minute_cells, cells_len() + groups_len(), origin[0], origin[1], origin[2], sizes[0], sizes[1], sizes[2], lowest, highest,
                                numbers, 19, words, 7, age, minute_log, minute_bytes, feet, 12, out, 12))

/* The classroom palette, which takes nothing of the input at hand. */
static uint32_t palette_words[BOLTJUNIPER_PALETTE_WORDS];
static float palette_numbers[BOLTJUNIPER_PALETTE_NUMBERS];
CALL(palette_records, boltjuniper_palette_records(palette_words, BOLTJUNIPER_PALETTE_WORDS))
CALL(palette_boxes, boltjuniper_palette_boxes(palette_numbers, BOLTJUNIPER_PALETTE_NUMBERS))

/* What the others are to be held against: as many parameters as the step has, and nothing done. */
static __attribute__((noipa)) uint32_t nothing_with(const uint32_t *a, size_t b, const float *c, size_t d, const uint32_t *e, size_t f, int32_t g,
                                                    int32_t h, int32_t i, uint32_t j, uint32_t k, uint32_t l, int32_t m, int32_t n, const double *o,
                                                    size_t p, const uint32_t *q, size_t r, uint64_t s, double *t, size_t u) {
    (void)a, (void)b, (void)c, (void)d, (void)e, (void)f, (void)g, (void)h, (void)i, (void)j, (void)k, (void)l, (void)m, (void)n, (void)o, (void)p;
    (void)q, (void)r, (void)s, (void)t, (void)u;
    return 0;
}
CALL(nothing, nothing_with(TABLES, WINDOW, numbers, 19, words, 7, age, out, 10))

enum { A_FILE = 1, PARTS = 2, A_LIST = 4 };
struct row { const char *name; void (*make)(void); int of; size_t calls, answered, stored, random, dearest; };
static struct row rows[] = {
    {"boltjuniper_tick", tick, A_FILE, 0, 0, 0, 0, 0},
    {"boltjuniper_step", step, PARTS, 0, 0, 0, 0, 0},
    {"boltjuniper_step_checked", step_checked, PARTS, 0, 0, 0, 0, 0},
    {"boltjuniper_step_falling", step_falling, PARTS, 0, 0, 0, 0, 0},
    {"boltjuniper_midnight", midnight, PARTS, 0, 0, 0, 0, 0},
    {"boltjuniper_midnight_capped", midnight_capped, PARTS, 0, 0, 0, 0, 0},
    {"boltjuniper_midnight_two", midnight_two, PARTS, 0, 0, 0, 0, 0},
    {"boltjuniper_move", move, PARTS, 0, 0, 0, 0, 0},
    {"boltjuniper_move_over_list", move_over_list, A_LIST, 0, 0, 0, 0, 0},
    {"boltjuniper_collected", collected, PARTS, 0, 0, 0, 0, 0},
    {"boltjuniper_check_tables", check_tables, PARTS, 0, 0, 0, 0, 0},
    {"boltjuniper_write_scene", write_scene, PARTS, 0, 0, 0, 0, 0},
    {"boltjuniper_write_checked", write_checked, PARTS, 0, 0, 0, 0, 0},
    {"boltjuniper_write_log", write_log, PARTS, 0, 0, 0, 0, 0},
    {"boltjuniper_minute", minute, PARTS, 0, 0, 0, 0, 0},
    {"boltjuniper_palette_records", palette_records, PARTS, 0, 0, 0, 0, 0},
    {"boltjuniper_palette_boxes", palette_boxes, PARTS, 0, 0, 0, 0, 0},
    {"a call that does nothing", nothing, PARTS, 0, 0, 0, 0, 0},
};
enum { ROWS = sizeof rows / sizeof *rows };

/* ---- the painted stack */

enum { PAINTED = 1 << 19, GUARD = 1 << 16 };
static char *stack;
static void (*to_make)(void);
static void enter(void) { to_make(); }

static void on_the_stack(void (*make)(void)) {
    static ucontext_t here, there;
    to_make = make;
    getcontext(&there);
    there.uc_stack.ss_sp = stack, there.uc_stack.ss_size = PAINTED, there.uc_link = &here;
    makecontext(&there, enter, 0);
    swapcontext(&here, &there);
}

static size_t depth_in(uint64_t paint, void (*make)(void)) {
    memset(stack, (int)(paint & 255), PAINTED);
    on_the_stack(make);
    const uint64_t *low = (const uint64_t *)stack;
    while (*low == paint) low++;
    return (size_t)(frame - (const char *)low);
}

static size_t depth(void (*make)(void)) {
    size_t a = depth_in(0xa5a5a5a5a5a5a5a5, make), b = depth_in(0x5a5a5a5a5a5a5a5a, make);
    return a > b ? a : b;
}

/* Makes the calls that take such an input, and keeps the deepest of each. */
static void all(int of, size_t (*kept)(struct row *, size_t)) {
    for (int k = 0; k < ROWS; k++) {
        struct row *r = rows + k;
        if (!(r->of & of)) continue;
        kept(r, depth(r->make));
        r->calls++;
        r->answered += answer == 0;
    }
}
#define KEPT(where) static size_t in_##where(struct row *r, size_t d) { return r->where = d > r->where ? d : r->where; }
KEPT(stored)
KEPT(random)
KEPT(dearest)

/* ---- the stored scenes and moves */

static size_t block;
static void part(size_t per, size_t n, void *to) {
    for (uint32_t *next = to; n; n -= n < per ? n : per, next += per, block++) memcpy(next, file + 128 * block + 3, 4 * (n < per ? n : per));
}

/* Of the body at hand, what the other calls take: its box and the way of its velocity, and its row in a midnight run. */
static void body_is_set(void) {
    double w = numbers[6] / 2;
    for (int k = 0; k < 3; k++) {
        mover[k] = numbers[k] - (k == 1 ? 0 : w);
        mover[3 + k] = numbers[k] + (k == 1 ? numbers[7] : w);
        mover[6 + k] = numbers[3 + k];
    }
    mover[7] -= numbers[9];
    air = words[5];
    memcpy(night_window, origin, sizeof origin), memcpy(night_window + 3, sizes, sizeof sizes);
    night_window[6] = (uint32_t)lowest, night_window[7] = (uint32_t)highest, night_window[9] = (uint32_t)cells_len();
    memcpy(minute_cells, cells, 4 * cells_len());
    memcpy(night_numbers, numbers, sizeof numbers), memcpy(night_words + 1, &age, sizeof age), memcpy(night_words + 3, words, sizeof words);
}

static void stored_scene(const char *name) {
    char path[64];
    snprintf(path, sizeof path, "crates/replay/data/%.4s.scn", name);
    FILE *f = fopen(path, "rb");
    if (!f) perror(path), exit(2);
    file_bytes = fread(file, 1, sizeof file, f);
    fclose(f);
    all(A_FILE, in_stored);
    if (answer == 8) return;
    uint32_t body[49], window[8];
    block = 0;
    part(49, 49, body);
    states = body[46], boxes = body[47];
    part(120, 20 * (size_t)states, records);
    part(120, 6 * (size_t)boxes, shapes);
    part(8, 8, window);
    memcpy(origin, window, sizeof origin), memcpy(sizes, window + 3, sizeof sizes);
    lowest = (int32_t)window[6], highest = (int32_t)window[7];
    part(123, cells_len(), cells);
    memcpy(numbers, body, sizeof numbers), memcpy(words, body + 40, 6 * sizeof *words), memcpy(&age, body + 38, sizeof age);
    words[6] = body[48];
    body_is_set();
    all(PARTS, in_stored);
}

/* movelist box6 delta3 step ground n box6*n => answer */
static void stored_list(char *call) {
    double all_of_it[12 + 6 * (LIST + 1)];
    size_t n = 0;
    strtok(call, " ");
    for (char *t; (t = strtok(NULL, " ")) && *t != '='; n++) {
        uint64_t bits = strtoull(t, NULL, 16);
        if (n < sizeof all_of_it / 8) memcpy(all_of_it + n, &bits, 8);
    }
    uint64_t ground;
    memcpy(&ground, all_of_it + 10, 8);
    memcpy(mover, all_of_it, sizeof mover);
    numbers[13] = all_of_it[9], words[0] = (uint32_t)ground, words[6] = BOLTJUNIPER_OLDER_CAP;
    listed = (n - 12) / 6 > LIST ? LIST : (n - 12) / 6;
    memcpy(list, all_of_it + 12, listed * 48);
    all(A_LIST, in_stored);
}

static void stored(void) {
    static char line[1 << 16];
    FILE *f = fopen("crates/replay/stdout", "r");
    if (!f) perror("crates/replay/stdout"), exit(2);
    while (fgets(line, sizeof line, f)) {
        if (*line >= '0' && *line <= '9') stored_scene(line);
        if (!strncmp(line, "movelist ", 9)) stored_list(line);
    }
    fclose(f);
}

/* ---- a world that has everything */

static uint32_t chance(uint32_t n) {
    static uint64_t seed = 0x9e3779b97f4a7c15;
    seed ^= seed << 13, seed ^= seed >> 7, seed ^= seed << 17;
    return (uint32_t)(seed % n);
}

static void box(float x0, float y0, float z0, float x1, float y1, float z1) {
    float b[6] = {x0, y0, z0, x1, y1, z1};
    memcpy(shapes + 6 * (size_t)boxes++, b, sizeof b);
}
static uint32_t *state(uint32_t w0, uint32_t faces) {
    uint32_t *w = memset(records + 20 * (size_t)states++, 0, 80);
    w[0] = w0, w[7] = boxes, w[19] = faces;
    if (w0 == 3) w[1] = 0x3f19999a;
    return w;
}
/* 16 boxes: slabs that cover the four faces together, and none of them alone. */
static void slabs(void) {
    state(3, 15)[8] = 16;
    for (int k = 0; k < 16; k++) box(0, (float)k / 16, 0, 1, (float)(k + 1) / 16, 1);
}
/* A fence's 16 states or a wall's 32: a joined side is a bit, north 1, east 2, south 4, west 8, and a wall's post 16. */
static void joined(uint32_t kind, uint32_t count, float lo) {
    uint32_t base = states;
    float hi = 1 - lo;
    for (uint32_t i = 0; i < count; i++) {
        uint32_t *w = state(3, 0);
        w[4] = kind, w[8] = 1;
        box(lo, 0, lo, hi, 1.5f, hi);
        if (i & 1) box(lo, 0, 0, hi, 1.5f, lo), w[8]++;
        if (i & 2) box(hi, 0, lo, 1, 1.5f, hi), w[8]++;
        if (i & 4) box(lo, 0, hi, hi, 1.5f, 1), w[8]++;
        if (i & 8) box(0, 0, lo, lo, 1.5f, hi), w[8]++;
        for (uint32_t side = 0; side < 4; side++) w[9 + 2 * side] = base + (i & ~(1u << side)), w[10 + 2 * side] = base + (i | 1u << side);
        w[17] = base + (kind == 4 ? i & ~16u : i), w[18] = base + (kind == 4 ? i | 16 : i);
    }
}

/* Air, 16 slabs, a cube, a fence's states, a wall's, and those of water and lava; then states of 16 slabs up to so many. */
enum { SLABS = 1, CUBE = 2, FENCE = 3, WALL = 19, LIQUID = 51, KINDS = 83 };
static void tables(uint32_t most) {
    states = boxes = 0;
    state(1, 0);
    slabs();
    state(3, 15)[8] = 1;
    box(0, 0, 0, 1, 1, 1);
    joined(1, 16, 0.375f);
    joined(4, 32, 0.25f);
    for (uint32_t k = 0; k < 32; k++) {
        uint32_t *w = state(1, 0);
        w[2] = 1 + k / 16, w[3] = k % 16;
    }
    uint32_t first = boxes;
    while (states < most && boxes + 16 <= BOXES) slabs();
    for (uint32_t more = boxes - first; states < most; more += 16) {
        uint32_t *w = state(3, 15);
        w[7] = first + more % (boxes - first), w[8] = 16;
    }
}

/* A window of this size around the origin, one cell in so many empty. */
static void world(uint32_t x, uint32_t y, uint32_t z) {
    sizes[0] = x, sizes[1] = y, sizes[2] = z;
    for (int k = 0; k < 3; k++) origin[k] = -(int32_t)(sizes[k] / 2);
    lowest = -64, highest = 319;
    size_t n = (size_t)x * y * z;
    for (size_t k = 0; k < n; k++) {
        uint32_t d = chance(16);
        cells[k] = d < 7 ? 0 : d == 7 ? SLABS : d == 8 ? CUBE : d == 9 ? FENCE : d == 10 ? WALL : LIQUID + chance(chance(4) ? 8 : 32);
        if (chance(500) == 0) cells[k] = 9999;
    }
    for (size_t k = n; k < cells_len(); k++) cells[k] = chance(40) != 0;
}

static double between(double a, double b) { return a + (b - a) * chance(1000000) / 999999; }

static void body_at_random(void) {
    const double shape[4][2] = {{0.25, 0.25}, {0.6, 1.8}, {0.98, 0.98}, {1.5, 1.5}};
    uint32_t model = chance(4);
    for (int k = 0; k < 3; k++) {
        numbers[k] = between(origin[k] + 5, origin[k] + (double)sizes[k] - 5);
        numbers[3 + k] = between(-0.6, 0.6);
    }
    numbers[6] = shape[model][0], numbers[7] = shape[model][1], numbers[8] = 0, numbers[9] = 0.08, numbers[10] = numbers[11] = 0.98;
    numbers[12] = 0, numbers[13] = chance(2) ? 0.5625 : 0;
    numbers[14] = 0.6, numbers[15] = 0.1, numbers[16] = 0.02, numbers[17] = 0.8, numbers[18] = 0.5;
    words[0] = chance(2), words[1] = model, words[2] = chance(3), words[3] = chance(2), words[4] = words[5] = words[6] = 0;
    age = chance(100);
    body_is_set();
}

/* The list of the move over a list: as many boxes as there may be, around the mover. */
static void list_at_random(void) {
    listed = LIST;
    for (size_t k = 0; k < 6 * listed; k += 6)
        for (size_t c = 0; c < 3; c++) list[k + c] = mover[c] + between(-2, 2), list[k + c + 3] = list[k + c] + between(0, 1);
}

/* The scene file of the input at hand: blocks of 128 words, the mark, kind and number before what is in them, and the check last. */
static void put(uint32_t kind, size_t per, size_t n, const void *from) {
    for (const uint32_t *next = from; n; n -= n < per ? n : per, next += per, block++) {
        uint32_t *b = memset(file + 128 * block, 0, 512);
        memcpy(b, "SCN1", 4);
        b[1] = kind, b[2] = (uint32_t)block;
        memcpy(b + 3, next, 4 * (n < per ? n : per));
        for (int k = 0; k < 127; k++) b[127] += b[k];
    }
}
static void write_file(void) {
    uint32_t body[49], window[8];
    memcpy(body, numbers, sizeof numbers), memcpy(body + 38, &age, sizeof age), memcpy(body + 40, words, 6 * sizeof *words);
    body[46] = states, body[47] = boxes, body[48] = words[6];
    memcpy(window, origin, sizeof origin), memcpy(window + 3, sizes, sizeof sizes);
    window[6] = (uint32_t)lowest, window[7] = (uint32_t)highest;
    block = 0;
    put(1, 49, 49, body);
    put(2, 120, 20 * (size_t)states, records);
    put(3, 120, 6 * (size_t)boxes, shapes);
    put(4, 8, 8, window);
    put(5, 123, cells_len(), cells);
    file_bytes = 512 * block;
}

static void at_random(int bodies) {
    tables(KINDS);
    world(23, 22, 23);
    for (int k = 0; k < bodies; k++) {
        body_at_random();
        list_at_random();
        write_file();
        all(A_FILE | PARTS | A_LIST, in_random);
    }
}

/* ---- the dearest: 4,096 states of which most have 16 boxes that cover all faces together, the largest window, 128 and 512 boxes in a move */

static void must(uint32_t theirs, void (*make)(void)) {
    make();
    if (answer != theirs) printf("stack: an input that should be answered %u is answered %u\n", theirs, answer), exit(1);
}

/* A body that walks among 128 boxes, or 512, and tries a step: two layers of `side` by `side` cells of 16 slabs each, under a cap of as many boxes. With
   one cell more it is refused 6. */
static void many_boxes(int side, int more) {
    memset(cells, 0, (size_t)sizes[0] * sizes[1] * sizes[2] * 4);
    for (size_t k = cells_len() - (size_t)sizes[0] * sizes[2]; k < cells_len(); k++) cells[k] = 1;
    body_at_random();
    for (int k = 0; k < 6; k++) numbers[k] = 0;
    numbers[1] = 1, numbers[3] = 0.5, numbers[6] = side - 0.5, numbers[7] = 1.5, numbers[9] = 0.25, numbers[13] = 1;
    int full = 2 * side * side;
    words[0] = 1, words[1] = 1, words[2] = 0, words[3] = 1, words[6] = (uint32_t)(16 * full % 512); /* 0 stands for 512 */
    for (int n = 0; n < full + more; n++) {
        int x = n % side - side / 2, z = n / side % side - side / 2, y = n < full ? 1 + n / side / side : 0;
        cells[((size_t)(y - origin[1]) * sizes[2] + (size_t)(z - origin[2])) * sizes[0] + (size_t)(x - origin[0])] = SLABS;
    }
    body_is_set();
}

static void dearest(void) {
    tables(STATES);
    must(0, check_tables);
    world(64, 64, 64);
    for (int k = 0; k < 20; k++) {
        body_at_random();
        list_at_random();
        all(PARTS | A_LIST, in_dearest);
    }
    for (int n = 0; n < 4; n++) {
        many_boxes(n < 2 ? 2 : 4, n % 2);
        must(n % 2 ? 6 : 0, collected);
        if (n % 2 == 0 && out[0] != (n ? 512 : 128)) printf("stack: %g boxes, and not as many as the cap\n", out[0]), exit(1);
        all(PARTS, in_dearest);
    }
    tables(KINDS);
    world(23, 22, 23);
    for (int n = 0; n < 4; n++) {
        many_boxes(n < 2 ? 2 : 4, n % 2);
        write_file();
        must(n % 2 ? 6 : 0, tick);
        must(0, write_scene);
        all(A_FILE | PARTS, in_dearest);
    }
}

/* Face cover is no function of its own in the archive: what the table check reaches with it, less what it reaches where no record has a box. */
static void face_cover(void) {
    tables(STATES);
    size_t with = depth(check_tables);
    for (states = 0; states < STATES;) state(1, 0);
    boxes = 0;
    printf("of the table check, face cover: %zu\n", with - depth(check_tables));
}

/* The log that every minute is run through. */
static void set_log(void) {
    static const uint32_t state[20] = {1}, air[2] = {0, 1}, words[7] = {0, 3};
    static const double still[19] = {[6] = 1, [7] = 1};
    if (boltjuniper_write_scene(state, 20, NULL, 0, air, 2, 0, 0, 0, 1, 1, 1, 0, 0, still, 19, words, 7, 0, minute_log, sizeof minute_log) >= 512)
        minute_bytes = (size_t)boltjuniper_write_log(events, 20, minute_log, sizeof minute_log);
    if (minute_bytes < 512) printf("stack: the log of a minute is refused\n"), exit(1);
}

int main(void) {
    set_log();
    char *room = mmap(NULL, GUARD + PAINTED, PROT_READ | PROT_WRITE, MAP_PRIVATE | MAP_ANONYMOUS, -1, 0);
    if (room == MAP_FAILED || mprotect(room, GUARD, PROT_NONE)) return perror("stack"), 2;
    stack = room + GUARD;
    stored();
    at_random(3000);
    dearest();
    printf("%-28s %9s %9s %9s %9s %8s %8s\n", "bytes below the caller", "at most", "stored", "random", "dearest", "calls", "answered");
    for (int k = 0; k < ROWS; k++) {
        const struct row *r = rows + k;
        size_t most = r->stored > r->random ? r->stored : r->random;
        if (r->dearest > most) most = r->dearest;
        printf("%-28s %9zu %9zu %9zu %9zu %8zu %8zu\n", r->name, most, r->stored, r->random, r->dearest, r->calls, r->answered);
    }
    face_cover();
    return 0;
}
