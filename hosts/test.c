/* Holds the functions of hosts/boltjuniper.h to the stored answers of the original Rust (docs/VECTORS.md). Run by hosts/run. */
#include "boltjuniper.h"
#include <inttypes.h>
#include <math.h>
#include <stdio.h>
#include <stdlib.h>
#include <string.h>

enum { WORDS = 128 * 128, ROOM = 1 << 16 };

static uint32_t file[2 * WORDS], body[49], late[7], records[WORDS], window[8], cells[WORDS];
static float shapes[WORDS];
static char line[ROOM];
static size_t block;

struct count { const char *what; int agree, differ; };
static struct count ticks = {"tick", 0, 0}, steps = {"step", 0, 0}, checked = {"step_checked", 0, 0}, tables = {"check_tables", 0, 0},
                    moves = {"move", 0, 0}, lists = {"move_over_list", 0, 0}, collects = {"collected", 0, 0},
                    lengths = {"lengths, ground and room", 0, 0}, windows = {"heights, columns and air", 0, 0},
                    falling = {"step_falling", 0, 0}, records_kept = {"fall records", 0, 0}, nights = {"midnight", 0, 0}, pairs = {"midnight_two", 0, 0},
                    writes = {"write_scene", 0, 0}, rewrites = {"write_checked", 0, 0}, palettes = {"classroom palette", 0, 0},
                    logs = {"write_log", 0, 0}, minutes = {"minute", 0, 0}, stored_minutes = {"stored minutes", 0, 0};

static void add(struct count *c, const char *ours, const char *theirs) {
    if (strcmp(ours, theirs) == 0) {
        c->agree++;
    } else {
        c->differ++;
        printf("%s: %s, and the vectors have %s\n", c->what, ours, theirs);
    }
}

static int tell(const struct count *c) {
    printf("C, %s: %d agree, %d differ\n", c->what, c->agree, c->differ);
    return c->differ != 0 || c->agree == 0;
}

/* The words of the next part, `per` to a block, of a file that is a scene, so that every block is there. */
static void part(size_t per, size_t words, void *to) {
    uint32_t *next = to;
    for (; words > per; words -= per, next += per, block++) memcpy(next, file + 128 * block + 3, 4 * per);
    if (words) memcpy(next, file + 128 * block++ + 3, 4 * words);
}

/* A window's cells, and a word for each of its columns. */
static size_t cells_len(void) { return (size_t)window[3] * window[4] * window[5] + (size_t)window[3] * window[5]; }

static void parts(void) {
    block = 0;
    part(49, 49, body);
    memcpy(late, body + 40, 6 * sizeof *late), late[6] = body[48]; /* a body's words, of which the cap stands behind the two counts */
    part(120, 20 * (size_t)body[46], records);
    part(120, 6 * (size_t)body[47], shapes);
    part(8, 8, window);
    part(123, cells_len(), cells);
}

/* Reads a file whole (the machine is little-endian). */
static size_t read_file(const char *path) {
    FILE *f = fopen(path, "rb");
    if (!f) exit(2);
    size_t n = fread(file, 1, sizeof file, f);
    if (n == sizeof file) exit(2);
    fclose(f);
    return n;
}

static char *put(char *to, const char *what, const double *x, int n) {
    to += sprintf(to, "%s", what);
    for (int k = 0; k < n; k++) {
        uint64_t bits;
        memcpy(&bits, x + k, 8);
        to += sprintf(to, " %016" PRIx64, bits);
    }
    return to;
}

/* Whether the stored line has the case of the sample: the original's answers have it for some scenes and not for others. */
static int cases = 1;

/* The numbers of a step, of which the case stands elsewhere in the answer with a record. A refusal writes nothing: the place still has the -1 that
   were there. */
static void tick_text(char *to, uint32_t refusal, const double *out, const double *support) {
    static const char *liquid[] = {"none", "water", "lava"}, *told[] = {"not asked", "sampled", "air", "unloaded", "unregistered"};
    if (refusal == 0) {
        to = put(put(to, "feet", out, 3), "; velocity", out + 3, 3);
        to += sprintf(to, "; ground %d; liquid %s", (int)out[6], liquid[(int)out[7]]);
        if (cases) to += sprintf(to, "; friction %s", told[(int)support[0]]);
        if (cases && support[0] == BOLTJUNIPER_SAMPLED) put(to, "", support + 1, 1);
        return;
    }
    to += sprintf(to, "refused %" PRIu32, refusal);
    for (int k = 0; k < 8; k++)
        if (out[k] != -1) sprintf(to, ", and something written");
    if (support[0] != -1 || support[1] != -1) sprintf(to, ", and something written");
}

static void move_text(char *to, uint32_t refusal, const double *out) {
    if (refusal) to += sprintf(to, "refused %" PRIu32 " ", refusal);
    to = put(put(to, "box", out, 6), " moved", out + 6, 3);
    sprintf(to, " ground %d", (int)out[9]);
}

typedef uint32_t step_function(const uint32_t *, size_t, const float *, size_t, const uint32_t *, size_t, int32_t, int32_t, int32_t, uint32_t,
                               uint32_t, uint32_t, int32_t, int32_t, const double *, size_t, const uint32_t *, size_t, uint64_t, double *, size_t);

/* A scene's window, as the calls take it. */
#define WINDOW                                                                                                                                      \
    cells, cells_len(), (int32_t)window[0], (int32_t)window[1], (int32_t)window[2], window[3], window[4], window[5], (int32_t)window[6],            \
        (int32_t)window[7]

static void step(struct count *c, step_function *f, const char *theirs) {
    double numbers[19], out[10];
    uint64_t age;
    char ours[512];
    memcpy(numbers, body, sizeof numbers);
    memcpy(&age, body + 38, 8);
    for (int k = 0; k < 10; k++) out[k] = -1;
    uint32_t refusal = f(records, 20 * (size_t)body[46], shapes, 6 * (size_t)body[47], WINDOW, numbers, 19, late, 7, age, out, 10);
    tick_text(ours, refusal, out, out + 8);
    add(c, ours, theirs);
}

/* The file under the new mark with its two checks, as a writer makes it of a scene of either mark. */
static void renew(size_t bytes) {
    for (size_t b = 0; b < bytes / 512; b++) {
        uint32_t *w = file + 128 * b, sum = 0, second = 0;
        w[0] = 0x324E4353;
        for (uint32_t k = 0; k < 126; k++) second += (k + 1) * w[k], sum += w[k];
        w[126] = second;
        w[127] = sum + second;
    }
}

typedef uint64_t write_function(const uint32_t *, size_t, const float *, size_t, const uint32_t *, size_t, int32_t, int32_t, int32_t, uint32_t,
                                uint32_t, uint32_t, int32_t, int32_t, const double *, size_t, const uint32_t *, size_t, uint64_t, uint8_t *, size_t);

/* The scene written anew into so much room and a byte more: `same` where it is the file and the byte behind it is kept; a refusal keeps them all. */
static void writes_as(struct count *c, write_function *f, size_t bytes, size_t room, const char *theirs) {
    static uint8_t out[ROOM + 1];
    double numbers[19];
    uint64_t age;
    char ours[64];
    memcpy(numbers, body, sizeof numbers);
    memcpy(&age, body + 38, 8);
    memset(out, 170, sizeof out);
    uint64_t n = f(records, 20 * (size_t)body[46], shapes, 6 * (size_t)body[47], WINDOW, numbers, 19, late, 7, age, out, room);
    size_t kept = n < 512 ? 0 : (size_t)n;
    if (n < 512) sprintf(ours, "refused %" PRIu64, n);
    else sprintf(ours, "%s", n == bytes && !memcmp(out, file, bytes) ? "same" : "another file");
    while (kept < sizeof out && out[kept] == 170) kept++;
    if (kept != sizeof out) sprintf(ours, "something past it written");
    add(c, ours, theirs);
}

/* ---- logs and minutes */

static uint32_t chance(uint32_t n) {
    static uint64_t seed = 0x9e3779b97f4a7c15;
    seed ^= seed << 13, seed ^= seed >> 7, seed ^= seed << 17;
    return (uint32_t)(seed % n);
}

enum { EVENTS = 80, FEET = 3 * BOLTJUNIPER_MOST_EVENTS };
static uint32_t events[4 * EVENTS + 1];
static uint8_t recorded[ROOM + 512]; /* a block more: a log may have one too many */

/* Ticks, and here and there a set of a cell in the window or, now and then, beside it. Returns how many words they have. */
static size_t events_at_random(void) {
    size_t n = chance(EVENTS);
    for (size_t k = 0; k < n; k++) {
        uint32_t *e = memset(events + 4 * k, 0, 16), at[3];
        if (chance(3)) { e[0] = 1; continue; }
        for (int i = 0; i < 3; i++) at[i] = chance(window[3 + i] + (chance(60) == 0));
        e[0] = 2, e[1] = at[0] | at[1] << 8 | at[2] << 16, e[2] = chance(20) ? chance(body[46]) : UINT32_MAX;
    }
    return 4 * n;
}

/* What a log behind the scene in `recorded`, of so many bytes, is refused for; a refusal keeps every byte. */
static void log_refused(uint32_t theirs, size_t events_len, size_t room) {
    static uint8_t before[ROOM];
    char a[64], b[64];
    memcpy(before, recorded, ROOM);
    uint64_t n = boltjuniper_write_log(events, events_len, recorded, room);
    sprintf(a, "refused %" PRIu64 "%s", n, memcmp(before, recorded, ROOM) ? ", and something written" : ""), sprintf(b, "refused %" PRIu32, theirs);
    add(&logs, a, b);
    memcpy(recorded, before, ROOM);
}

/* The scene of the parts at hand and these events as a log: how many bytes it has; 0 where there are more than 128 blocks. The block is as document 02 has
   it, by this second account of it, and bytes past the log are kept. */
static size_t log_of(size_t events_len) {
    double numbers[19];
    uint64_t age;
    memcpy(numbers, body, sizeof numbers), memcpy(&age, body + 38, 8);
    memset(recorded, 170, ROOM);
    size_t scene = (size_t)boltjuniper_write_scene(records, 20 * (size_t)body[46], shapes, 6 * (size_t)body[47], WINDOW, numbers, 19, late, 7, age, recorded, ROOM);
    size_t blocks = events_len / 120 + 1, bytes = scene + 512 * blocks;
    if (bytes > ROOM) return log_refused(12, events_len, ROOM), 0;
    log_refused(11, events_len, bytes - 1), log_refused(8, events_len + 1, bytes);
    if (events_len) {
        uint32_t *e = events + 4 * chance((uint32_t)events_len / 4), was[4];
        memcpy(was, e, 16), e[3] = 1, log_refused(8, events_len, bytes), memcpy(e, was, 16);
        e[0] = 3, log_refused(8, events_len, bytes), e[0] = 0, log_refused(8, events_len, bytes), memcpy(e, was, 16);
        e[0] = 2, e[1] = 1 << 24, log_refused(8, events_len, bytes), memcpy(e, was, 16);
    }
    recorded[511] ^= 1, log_refused(8, events_len, ROOM), recorded[511] ^= 1;
    uint64_t n = boltjuniper_write_log(events, events_len, recorded, ROOM);
    static uint32_t block_of[128];
    int same = n == bytes;
    for (size_t b = 0; same && b < blocks; b++) {
        uint32_t sum = 0, second = 0;
        memset(block_of, 0, 512);
        block_of[0] = 0x324E4353, block_of[1] = 6, block_of[2] = (uint32_t)(scene / 512 + b);
        size_t left = events_len - 120 * b;
        memcpy(block_of + 3, events + 120 * b, 4 * (left < 120 ? left : 120));
        for (uint32_t k = 0; k < 126; k++) second += (k + 1) * block_of[k], sum += block_of[k];
        block_of[126] = second, block_of[127] = sum + second;
        same = !memcmp(block_of, recorded + scene + 512 * b, 512);
    }
    for (size_t k = bytes; same && k < ROOM; k++) same = recorded[k] == 170;
    add(&logs, same ? "same" : "another file", "same");
    return bytes;
}

/* What a minute leaves, and what the same ticks and sets leave that are made one by one over cells and columns. */
struct left { uint32_t refusal, ticks; double feet[FEET], out[12]; uint32_t words[WORDS + 4096]; };
static struct left at_once, one_by_one;

static size_t groups_len(void) {
    size_t n = 1;
    for (int k = 3; k < 6; k++) n *= (window[k] + 3) / 4;
    return n;
}

/* The call over words, feet and answer that were filled before. */
struct lengths { size_t states, cells, numbers, out, log; };
static void run_minute(struct left *l, struct lengths n) {
    double numbers[20] = {0};
    uint64_t age;
    memcpy(numbers, body, 19 * sizeof *numbers), memcpy(&age, body + 38, 8);
    memset(l, 0, sizeof *l);
    memcpy(l->words, cells, 4 * cells_len());
    for (size_t k = 0; k < groups_len(); k++) l->words[cells_len() + k] = 7;
    for (int k = 0; k < 12; k++) l->out[k] = -1;
    for (int k = 0; k < FEET; k++) l->feet[k] = -1;
    l->refusal = boltjuniper_minute(records, n.states, shapes, 6 * (size_t)body[47], l->words, n.cells, (int32_t)window[0], (int32_t)window[1], (int32_t)window[2],
                                    window[3], window[4], window[5], (int32_t)window[6], (int32_t)window[7], numbers, n.numbers, late, 7, age, recorded, n.log,
                                    l->feet, FEET, l->out, n.out);
}

static void run_one_by_one(struct left *l, size_t events_len) {
    double numbers[19], out[12], fall[2] = {0, 0};
    uint32_t words[7];
    uint64_t age;
    memcpy(numbers, body, sizeof numbers), memcpy(words, late, sizeof words), memcpy(&age, body + 38, 8);
    memset(l, 0, sizeof *l);
    memcpy(l->words, cells, 4 * cells_len());
    for (int k = 0; k < 12; k++) l->out[k] = -1;
    for (int k = 0; k < FEET; k++) l->feet[k] = -1;
    for (size_t k = 0; k < events_len && !l->refusal; k += 4) {
        uint32_t at = events[k + 1], x = at & 255, y = at >> 8 & 255, z = at >> 16;
        if (events[k] == 2) {
            if (x >= window[3] || y >= window[4] || z >= window[5]) l->refusal = 5;
            else l->words[((size_t)y * window[5] + z) * window[3] + x] = events[k + 2];
            continue;
        }
        l->refusal = boltjuniper_step_falling(records, 20 * (size_t)body[46], shapes, 6 * (size_t)body[47], l->words, cells_len(), (int32_t)window[0],
                                              (int32_t)window[1], (int32_t)window[2], window[3], window[4], window[5], (int32_t)window[6], (int32_t)window[7],
                                              numbers, 19, words, 7, age, fall[0], fall[1], out, 12);
        if (l->refusal) break;
        memcpy(numbers, out, 6 * sizeof *out), memcpy(fall, out + 8, sizeof fall), words[0] = (uint32_t)out[6];
        memcpy(l->feet + 3 * l->ticks++, out, 3 * sizeof *out);
        age++;
    }
    if (!l->refusal || l->ticks) {
        memcpy(l->out, numbers, 6 * sizeof *out), l->out[6] = words[0], memcpy(l->out + 7, fall, sizeof fall), l->out[9] = l->ticks;
        l->out[10] = (uint32_t)age, l->out[11] = (double)(age >> 32);
    }
    boltjuniper_build_summary(records, 20 * (size_t)body[46], shapes, 6 * (size_t)body[47], l->words, cells_len() + groups_len(), (int32_t)window[0],
                              (int32_t)window[1], (int32_t)window[2], window[3], window[4], window[5], (int32_t)window[6], (int32_t)window[7], late[5]);
}

/* A minute that is refused before anything runs: nothing is written. */
static void minute_refused(uint32_t theirs, struct lengths n) {
    char a[64], b[64];
    int kept = 1;
    run_minute(&at_once, n);
    for (int k = 0; k < 12; k++) kept &= at_once.out[k] == -1;
    for (int k = 0; k < FEET; k++) kept &= at_once.feet[k] == -1;
    kept &= !memcmp(at_once.words, cells, 4 * cells_len());
    for (size_t k = 0; k < groups_len(); k++) kept &= at_once.words[cells_len() + k] == 7;
    sprintf(a, "refused %" PRIu32 "%s", at_once.refusal, kept ? "" : ", and something written"), sprintf(b, "refused %" PRIu32, theirs);
    add(&minutes, a, b);
}

static void minute(void) {
    if (chance(4) == 0) body[38] = UINT32_MAX - chance(20), body[39] = UINT32_MAX; /* an age that wraps at 2^64 to 0 */
    size_t events_len = events_at_random(), bytes = log_of(events_len);
    if (!bytes) return;
    struct lengths n = {20 * (size_t)body[46], cells_len() + groups_len(), 19, 12, bytes}, m = n;
    char a[128], b[128];
    run_minute(&at_once, n), run_one_by_one(&one_by_one, events_len);
    at_once.ticks = one_by_one.ticks;
    sprintf(a, "refused %" PRIu32 ", %s", at_once.refusal, memcmp(at_once.feet, one_by_one.feet, sizeof at_once.feet) ? "other feet" : "the same feet");
    strcat(a, memcmp(at_once.out, one_by_one.out, sizeof at_once.out) ? ", another state" : ", the same state");
    strcat(a, memcmp(at_once.words, one_by_one.words, sizeof at_once.words) ? ", other words" : ", the same words");
    sprintf(b, "refused %" PRIu32 ", the same feet, the same state, the same words", one_by_one.refusal);
    add(&minutes, a, b);
    m.log -= 512, minute_refused(8, m), m.states--, minute_refused(8, m), m = n;
    m.states--, minute_refused(1, m), m.numbers--, minute_refused(1, m), m = n;
    m.cells = cells_len() - 1, minute_refused(2, m), m = n;
    m.numbers = 18, minute_refused(3, m), m.numbers = 20, m.out = 0, minute_refused(3, m), m = n;
    m.out = 11, minute_refused(11, m), m = n;
    m.cells--, minute_refused(11, m), m.cells = cells_len(), minute_refused(11, m);
}

/* minute NUMBER lines, then falls NUMBER records: a stored log, run over its own scene's parts; one that is no log, over those at hand. Of the records the
   last is held to. */
static void stored_minute(const char *stored, int lines) {
    static char ours[ROOM];
    char path[64], *to = ours;
    snprintf(path, sizeof path, "crates/replay/data/%.4s.log", stored);
    size_t bytes = read_file(path);
    const char *theirs = stored[4] ? stored + 5 : "";
    if (bytes > sizeof recorded) exit(2);
    memcpy(recorded, file, bytes);
    if (strcmp(theirs, "refused 8")) parts();
    run_minute(&at_once, (struct lengths){20 * (size_t)body[46], cells_len() + groups_len(), 19, 12, bytes});
    int ticks = at_once.out[9] < 0 ? 0 : (int)at_once.out[9];
    *to = 0;
    if (lines) {
        for (int k = 0; k < ticks; k++) to = put(to, k ? "; feet" : "feet", at_once.feet + 3 * k, 3);
        if (at_once.refusal) sprintf(to, "%srefused %" PRIu32, ticks ? "; " : "", at_once.refusal);
        add(&stored_minutes, ours, theirs);
    } else if (ticks) {
        put(to, "fall", at_once.out + 7, 2);
        const char *last = theirs, *at = theirs;
        while ((at = strstr(at, "fall"))) last = at++;
        add(&stored_minutes, strncmp(ours, last, strlen(ours)) ? "another record" : "the last record", "the last record");
    }
}

/* The scene's step with a fresh fall record: the same tick, or what the record is after it. A refusal writes nothing. */
static void step_with_fall(struct count *c, int record, const char *theirs) {
    double numbers[19], out[12] = {-1, -1, -1, -1, -1, -1, -1, -1, -1, -1, -1, -1};
    uint64_t age;
    char ours[512];
    memcpy(numbers, body, sizeof numbers);
    memcpy(&age, body + 38, 8);
    uint32_t refusal = boltjuniper_step_falling(records, 20 * (size_t)body[46], shapes, 6 * (size_t)body[47], WINDOW, numbers, 19, late, 7, age,
                                                0, 0, out, 12);
    if (record) put(ours, "fall", out + 8, 2);
    else tick_text(ours, refusal, out, out + 10);
    add(c, ours, theirs);
}

/* The scene's body three times, the second time in a window that is not there: the others' answers are as alone, and a refusal hands back. */
enum { N = BOLTJUNIPER_BODY_NUMBERS, W = BOLTJUNIPER_CAPPED_WORDS, A = BOLTJUNIPER_ANSWER_NUMBERS };

/* The first party has all three bodies, the second the last two: both halves are as the call alone answered, and what lies beyond is kept. */
static void midnight_two(uint32_t refusal, const uint32_t *row, const double *numbers, const uint32_t *words, const double *alone) {
    double out[6 * A + 1], theirs[6 * A + 1];
    char a[64], b[64];
    for (int k = 0; k <= 6 * A; k++) out[k] = theirs[k] = -1;
    if (!refusal) memcpy(theirs, alone, 3 * A * sizeof *out), memcpy(theirs + 3 * A, alone + A, 2 * A * sizeof *out);
    struct boltjuniper_refusals told = boltjuniper_refusals_of(boltjuniper_midnight_two(
        records, 20 * (size_t)body[46], shapes, 6 * (size_t)body[47], row, 10, 1, cells, cells_len(), numbers, 3 * N, words, 3 * W, 3, row, 10, 1, cells,
        cells_len(), numbers + N, 2 * N, words + W, 2 * W, 2, out, 6 * A + 1));
    sprintf(a, "%" PRIu32 " %" PRIu32 " %s", told.first, told.second, memcmp(out, theirs, sizeof out) ? "other bits" : "the same bits");
    sprintf(b, "%" PRIu32 " %" PRIu32 " the same bits", refusal, refusal);
    add(&pairs, a, b);
}

static void midnight(const char *theirs) {
    double numbers[3 * N] = {0}, out[3 * A + 1];
    uint32_t words[3 * W], row[BOLTJUNIPER_WINDOW_WORDS] = {0};
    char ours[512];
    memcpy(row, window, sizeof window);
    row[9] = (uint32_t)cells_len();
    for (int k = 0; k < 3; k++) {
        memcpy(numbers + k * N, body, 19 * sizeof *numbers);
        words[k * W] = k == 1;
        memcpy(words + k * W + 1, body + 38, 8 * sizeof *words), words[k * W + 9] = body[48];
    }
    for (int k = 0; k <= 3 * A; k++) out[k] = -1;
    uint32_t refusal = boltjuniper_midnight_capped(records, 20 * (size_t)body[46], shapes, 6 * (size_t)body[47], row, 10, 1, cells, cells_len(), numbers,
                                                   3 * N, words, 3 * W, 3, out, 3 * A);
    midnight_two(refusal, row, numbers, words, out);
    if (refusal) {
        tick_text(ours, refusal, out, out + 10);
        add(&nights, ours, theirs);
        return;
    }
    for (int k = 0; k < 3; k++) {
        double *answer = out + k * A, given[12] = {0};
        char back[512];
        memcpy(given, numbers, 6 * sizeof *given), given[6] = words[3];
        if (answer[0] == 0) {
            tick_text(ours, 0, answer + 1, answer + 11);
        } else {
            put(ours, "given", answer + 1, 12), put(back, "given", given, 12);
            add(&nights, ours, back);
            sprintf(ours, "refused %d", (int)answer[0]);
        }
        add(&nights, ours, k == 1 ? "refused 10" : theirs);
    }
    add(&nights, out[3 * A] == -1 ? "kept" : "written", "kept");
    /* an older caller's row, without the cap: as alone under 128 */
    double alone[12] = {0}, *older = out;
    uint64_t age;
    memcpy(&age, body + 38, 8), late[6] = BOLTJUNIPER_OLDER_CAP;
    refusal = boltjuniper_step_falling(records, 20 * (size_t)body[46], shapes, 6 * (size_t)body[47], WINDOW, numbers, 19, late, 7, age, 0, 0, alone, 12);
    boltjuniper_midnight(records, 20 * (size_t)body[46], shapes, 6 * (size_t)body[47], row, 10, 1, cells, cells_len(), numbers, N, words,
                         BOLTJUNIPER_BODY_WORDS, 1, older, A);
    late[6] = body[48];
    sprintf(ours, "refused %d", (int)older[0]);
    char theirs_alone[64];
    sprintf(theirs_alone, "refused %" PRIu32, refusal);
    add(&nights, ours, theirs_alone);
    if (refusal == 0) add(&nights, memcmp(older + 1, alone, sizeof alone) ? "another answer" : "as alone", "as alone");
}

static void tick(size_t bytes, size_t room, struct count *c, const char *theirs) {
    double out[10] = {-1, -1, -1, -1, -1, -1, -1, -1, -1, -1};
    char ours[512];
    tick_text(ours, boltjuniper_tick((const uint8_t *)file, bytes, out, room), out, out + 8);
    add(c, ours, theirs);
}

static void one_scene(char *theirs) {
    char path[64], ours[64];
    int name = (int)strcspn(theirs, " ");
    snprintf(path, sizeof path, "crates/replay/data/%.*s.scn", name, theirs);
    theirs += name + 1;
    size_t bytes = read_file(path);
    int first = !strncmp(theirs, "refused ", 8) && strchr("81234", theirs[8]);
    cases = strstr(theirs, "; friction") != NULL;
    tick(bytes, 10, &ticks, theirs);
    tick(bytes, 9, &lengths, first ? theirs : "refused 11");
    if (!strcmp(theirs, "refused 8")) return;
    parts();
    int bad = !strcmp(theirs, "refused 1"), early = bad || !strcmp(theirs, "refused 2");
    size_t n = 20 * (size_t)body[46], m = 6 * (size_t)body[47];
    step(&steps, boltjuniper_step, theirs);
    step_with_fall(&falling, 0, theirs);
    midnight(theirs);
    if (!early) step(&checked, boltjuniper_step_checked, theirs);
    sprintf(ours, "%" PRIu32, boltjuniper_check_tables(records, n, shapes, m));
    add(&tables, ours, bad ? "1" : "0");
    renew(bytes);
    writes_as(&writes, boltjuniper_write_scene, bytes, ROOM, first ? theirs : "same");
    writes_as(&writes, boltjuniper_write_scene, bytes, bytes, first ? theirs : "same");
    writes_as(&writes, boltjuniper_write_scene, bytes, bytes - 1, first ? theirs : "refused 11");
    if (!first) writes_as(&rewrites, boltjuniper_write_checked, bytes, ROOM, "same");
    if (!first) writes_as(&rewrites, boltjuniper_write_checked, bytes, 0, "refused 11");
    if (!first) minute();
    /* A move through the window meets 1 and 2 as the step does; its step height is then 3. */
    double mover[9] = {0}, out[10];
    sprintf(ours, "refused %" PRIu32, boltjuniper_move(records, n, shapes, m, WINDOW, body[45], mover, 9, 5, 0, body[48] % 513, out, 10));
    add(&moves, ours, early ? theirs : "refused 3");
}

/* after NUMBER fall SUM LANDED */
static void one_record(const char *stored) {
    char path[64];
    snprintf(path, sizeof path, "crates/replay/data/%.4s.scn", stored + 6);
    read_file(path);
    parts();
    step_with_fall(&records_kept, 1, stored + 11);
}

/* movelist box6 delta3 step ground n box6*n => answer */
static void one_list(char *call) {
    static double numbers[ROOM / 17];
    char ours[512], *theirs = strstr(call, "=> ") + 3;
    size_t n = 0;
    theirs[-3] = 0;
    strtok(call, " ");
    for (char *t; (t = strtok(NULL, " ")); n++) {
        uint64_t bits = strtoull(t, NULL, 16);
        memcpy(numbers + n, &bits, 8);
    }
    uint64_t ground;
    memcpy(&ground, numbers + 10, 8);
    /* A refused move returns its box, moved zero, ground false: that is what stands there before. */
    double out[10] = {0};
    memcpy(out, numbers, 6 * sizeof *out);
    uint32_t refusal = boltjuniper_move_over_list(numbers + 12, n - 12, numbers, 9, numbers[9], (uint32_t)ground, BOLTJUNIPER_OLDER_CAP, out, 10);
    move_text(ours, refusal, out);
    add(&lists, ours, theirs);
}

/* Case A of the requirements: what its step does to the box. Its window has 16 cells and four columns, all loaded. */
static const uint32_t states[40] = {[0] = 1, [20] = 3, [28] = 1, [39] = 15};
static const uint32_t ground[20] = {1, 1, 1, 1, 1, 1, 1, 1, [16] = 1, 1, 1, 1};
static const float cube[6] = {0, 0, 0, 1, 1, 1};
static const double mover[9] = {0, 1.25, 0, 1, 2.25, 1, 0.25, -0.5, 0};
#define CASE_A ground, 20, 0, -1, 0, 2, 4, 2, -64, 319

static void case_a(void) {
    static const double theirs[10] = {0.25, 1, 0, 1.25, 2, 1, 0.25, -0.25, 0, 1};
    double out[10];
    char a[512], b[512];
    move_text(a, boltjuniper_move(states, 40, cube, 6, CASE_A, 0, mover, 9, 0, 0, 0, out, 10), out);
    move_text(b, 0, theirs);
    add(&moves, a, b);
}

/* The boxes that it collects: two cubes of the ground, and no third. */
static void collected(void) {
    static const double theirs[3][7] = {{2, 0, 0, 0, 1, 1, 1}, {2, 1, 0, 0, 2, 1, 1}, {2}};
    for (uint32_t k = 0; k < 3; k++) {
        double out[7];
        char a[512], b[512];
        uint32_t refusal = boltjuniper_collected(states, 40, cube, 6, CASE_A, 0, mover, 9, 0, 0, k, out, 7);
        if (refusal) sprintf(a, "refused %" PRIu32, refusal);
        else put(a, "boxes", out, 7);
        put(b, "boxes", theirs[k], 7);
        add(&collects, a, b);
    }
}

/* Slices of other lengths than their page says, a ground above 1, and too little room: what is refused, and that nothing is written. */
static void refuses(struct count *c, uint32_t ours, uint32_t theirs, double *out) {
    char a[64], b[64];
    int n = sprintf(a, "refused %" PRIu32, ours);
    for (int k = 0; theirs && k < 10; k++)
        if (out[k] != -1) sprintf(a + n, ", and something written");
    sprintf(b, "refused %" PRIu32, theirs);
    add(c, a, b);
    for (int k = 0; k < 10; k++) out[k] = -1;
}

static void a_step(uint32_t theirs, size_t state_words, size_t numbers_len, size_t words_len, double gravity, size_t room) {
    double numbers[20] = {0.5, 1.25, 0.5, 0.25, 0, 0, 1, 1, 0, gravity, 0.5, 0.5}, out[10] = {-1, -1, -1, -1, -1, -1, -1, -1, -1, -1};
    static const uint32_t words[8] = {0, 3};
    refuses(&lengths, boltjuniper_step(states, state_words, cube, 6, CASE_A, numbers, numbers_len, words, words_len, 0, out, room), theirs, out);
    if (state_words == 40)
        refuses(&lengths, boltjuniper_step_checked(states, 40, cube, 6, CASE_A, numbers, numbers_len, words, words_len, 0, out, room), theirs, out);
}

static void a_move(uint32_t theirs, size_t state_words, size_t mover_len, double step_height, uint32_t on_ground, size_t room) {
    double out[10] = {-1, -1, -1, -1, -1, -1, -1, -1, -1, -1};
    uint32_t ours = boltjuniper_move(states, state_words, cube, 6, CASE_A, 0, mover, mover_len, step_height, on_ground, 0, out, room);
    refuses(&lengths, ours, theirs, out);
}

static void a_collection(uint32_t theirs, size_t state_words, size_t mover_len, double step_height, size_t room) {
    double out[10] = {-1, -1, -1, -1, -1, -1, -1, -1, -1, -1};
    uint32_t ours = boltjuniper_collected(states, state_words, cube, 6, CASE_A, 0, mover, mover_len, step_height, 0, 0, out, room);
    refuses(&lengths, ours, theirs, out);
}

static void a_list(uint32_t theirs, uint32_t cap, size_t boxes_len, double last, size_t mover_len, uint32_t on_ground, size_t room) {
    static double many[6 * 513];
    double out[10] = {-1, -1, -1, -1, -1, -1, -1, -1, -1, -1};
    if (boxes_len) many[boxes_len - 1] = last;
    refuses(&lengths, boltjuniper_move_over_list(many, boxes_len, mover, mover_len, 0, on_ground, cap, out, room), theirs, out);
    if (boxes_len) many[boxes_len - 1] = 0;
}

/* Case A's step, move and collection, which meet two boxes, under a cap. */
static void a_cap(uint32_t theirs, uint32_t cap) {
    double numbers[19] = {0.5, 1.25, 0.5, 0.25, 0, 0, 1, 1, 0, 0.5, 0.5, 0.5}, out[10] = {-1, -1, -1, -1, -1, -1, -1, -1, -1, -1};
    uint32_t words[7] = {0, 3, 0, 0, 0, 0, cap};
    refuses(&lengths, boltjuniper_step(states, 40, cube, 6, CASE_A, numbers, 19, words, 7, 0, out, 10), theirs, out);
    refuses(&lengths, boltjuniper_move(states, 40, cube, 6, CASE_A, 0, mover, 9, 0, 0, cap, out, 10), theirs, out);
    refuses(&lengths, boltjuniper_collected(states, 40, cube, 6, CASE_A, 0, mover, 9, 0, cap, 0, out, 10), theirs, out);
}

static void all_lengths(void) {
    a_step(0, 40, 19, 7, 0.5, 10), a_step(3, 40, 18, 7, 0.5, 10), a_step(3, 40, 20, 7, 0.5, 10), a_step(3, 40, 19, 6, 0.5, 10);
    a_step(3, 40, 19, 8, 0.5, 10), a_step(11, 40, 19, 7, 0.5, 9), a_step(3, 40, 19, 7, 17, 0), a_step(1, 39, 18, 7, 0.5, 0);
    a_move(0, 40, 9, 0, 0, 10), a_move(4, 40, 8, 0, 0, 10), a_move(3, 40, 9, 0, 2, 10), a_move(3, 40, 8, 5, 0, 0);
    a_move(11, 40, 9, 0, 1, 9), a_move(4, 40, 8, 0, 1, 0), a_move(1, 39, 8, 5, 2, 0);
    a_collection(0, 40, 9, 0, 7), a_collection(4, 40, 8, 0, 7), a_collection(3, 40, 8, 5, 0), a_collection(11, 40, 9, 0, 6);
    a_collection(1, 39, 8, 5, 0);
    a_list(0, 0, 6, 0, 9, 1, 10), a_list(4, 0, 7, 0, 9, 0, 10), a_list(3, 0, 6, 0, 9, 2, 10), a_list(4, 0, 6, 0, 8, 0, 10), a_list(11, 0, 6, 0, 9, 0, 9);
    a_list(4, 128, 6 * 130, -1, 9, 0, 0), a_list(11, 128, 6 * 130, 0, 9, 0, 0), a_list(6, 128, 6 * 129, 0, 9, 0, 10), a_list(0, 128, 6 * 128, 0, 9, 0, 10);
    /* caps: the one more, 0 for 512, and 513 */
    a_list(6, 1, 6 * 2, 0, 9, 0, 10), a_list(0, 1, 6, 0, 9, 0, 10), a_list(0, 0, 6 * 512, 0, 9, 0, 10), a_list(6, 0, 6 * 513, 0, 9, 0, 10);
    a_list(0, 512, 6 * 512, 0, 9, 0, 10), a_list(6, 511, 6 * 512, 0, 9, 0, 10), a_list(3, 513, 6, 0, 9, 0, 10), a_list(3, 513, 6 * 513, -1, 8, 0, 0);
    a_cap(0, 0), a_cap(0, 2), a_cap(6, 1), a_cap(0, 512), a_cap(3, 513), a_cap(3, UINT32_MAX);
}

/* Case A's window lent with another first cell, last word, length, size, heights or air, to its body at this height: what is refused by the step, the
   checked step (which looks for neither 1 nor 2), the move and the collection, and that nothing is written. */
struct lent { uint32_t first, last; size_t len; uint32_t sx; int32_t oy, lowest, highest; uint32_t air; double y; size_t mover_len, room; };
static const struct lent as_it_is = {1, 1, 20, 2, -1, -64, 319, 0, 1.25, 9, 10};

static void a_window(uint32_t theirs, struct lent l) {
    uint32_t w[21], body_words[7] = {0, 3, 0, 0, 0, l.air};
    double numbers[19] = {0.5, l.y, 0.5, 0.25, 0, 0, 1, 1, 0, 0.5, 0.5, 0.5}, out[10] = {-1, -1, -1, -1, -1, -1, -1, -1, -1, -1};
    double swept[9] = {0, l.y, 0, 1, l.y + 1, 1, 0.25, -0.5, 0};
    memcpy(w, ground, sizeof ground);
    w[0] = l.first, w[20] = 1, w[l.len - 1] = l.last;
#define LENT states, 40, cube, 6, w, l.len, 0, l.oy, 0, l.sx, 4, 2, l.lowest, l.highest
    refuses(&windows, boltjuniper_step(LENT, numbers, 19, body_words, 7, 0, out, l.room), theirs, out);
    if (theirs != 2) refuses(&windows, boltjuniper_step_checked(LENT, numbers, 19, body_words, 7, 0, out, l.room), theirs, out);
    refuses(&windows, boltjuniper_move(LENT, l.air, swept, l.mover_len, 0, 0, 0, out, l.room), theirs, out);
    refuses(&windows, boltjuniper_collected(LENT, l.air, swept, l.mover_len, 0, 0, 0, out, l.room), theirs, out);
}

static void all_windows(void) {
    struct lent l = as_it_is;
    a_window(0, l);
    l.lowest = 320, a_window(2, l), l = as_it_is;         /* the lowest over the highest */
    l.lowest = 319, a_window(0, l), l = as_it_is;         /* a world of one layer, above the body, which falls in the void */
    l.lowest = -33554432, l.highest = 33554432, a_window(0, l), l.lowest--, a_window(2, l), l = as_it_is;
    l.highest = 33554433, a_window(2, l), l = as_it_is;
    l.last = 2, a_window(2, l), l = as_it_is;             /* a column's word above 1 */
    l.len = 19, a_window(2, l), l = as_it_is;             /* a column too few, and too many; cells without columns */
    l.len = 21, a_window(2, l), l = as_it_is;
    l.len = 16, a_window(2, l), l = as_it_is;
    l.first = UINT32_MAX, a_window(0, l), l = as_it_is;   /* a number without a record is merely unregistered */
    l.air = 2, a_window(3, l), l.room = 0, a_window(3, l), l.mover_len = 8, a_window(3, l); /* an air state without a record, before 4 and 11 */
    l.last = 2, a_window(2, l), l = as_it_is;             /* and after 2 */
    l.sx = 1, l.len = 10, a_window(5, l);                 /* the column to the east is not there, */
    l.y = 400.25, a_window(5, l), l = as_it_is;           /* and is not taken for sky either */
    l.oy = 0, a_window(5, l);                             /* a window that begins above what is asked for, */
    l.lowest = 0, a_window(0, l);                         /* unless that is below the world */
}

/* Case A's body above and below the world: it falls as through a window that holds air there. Where the columns to the east are not loaded, it is
   stopped by them at every height. */
static void beyond(double y) {
    static const uint32_t air[20] = {[16] = 1, 1, 1, 1}, half[20] = {[16] = 1, 0, 1, 0}, body_words[7] = {0, 3};
    double numbers[19] = {0.5, y, 0.5, 0.25, 0, 0, 1, 1, 0, 0.5, 0.5, 0.5}, out[10];
    double falls[10] = {0.75, y - 0.5, 0.5, 0.125, -0.25}, stopped[10] = {0.5, y - 0.5, 0.5, 0, -0.25};
    char ours[512], theirs[512], halted[512];
    cases = 1;
    tick_text(theirs, 0, falls, falls + 8), tick_text(halted, 0, stopped, stopped + 8);
    tick_text(ours, boltjuniper_step(states, 40, cube, 6, CASE_A, numbers, 19, body_words, 7, 0, out, 10), out, out + 8), add(&windows, ours, theirs);
    int32_t oy = (int32_t)floor(y) - 2;
    tick_text(ours, boltjuniper_step(states, 40, cube, 6, air, 20, 0, oy, 0, 2, 4, 2, -999, 999, numbers, 19, body_words, 7, 0, out, 10), out, out + 8);
    add(&windows, ours, theirs);
    tick_text(ours, boltjuniper_step(states, 40, cube, 6, half, 20, 0, -1, 0, 2, 4, 2, -64, 319, numbers, 19, body_words, 7, 0, out, 10), out, out + 8);
    add(&windows, ours, halted);
}

/* Case A's step with a record: what is refused, and what the record is after a landing and after a fall through the sky. */
static void a_record(uint32_t theirs, double sum, double landed, double gravity, size_t numbers_len, size_t state_words, size_t room) {
    double numbers[19] = {0.5, 1.25, 0.5, 0.25, 0, 0, 1, 1, 0, gravity, 0.5, 0.5}, out[12] = {-1, -1, -1, -1, -1, -1, -1, -1, -1, -1, -1, -1};
    static const uint32_t words[7] = {0, 3};
    refuses(&falling, boltjuniper_step_falling(states, state_words, cube, 6, CASE_A, numbers, numbers_len, words, 7, 0, sum, landed, out, room), theirs,
            out);
}

static void a_fall(double y, double sum, double landed, double sum_after, double landed_after) {
    double numbers[19] = {0.5, y, 0.5, 0.25, 0, 0, 1, 1, 0, 0.5, 0.5, 0.5}, out[12], theirs[2] = {sum_after, landed_after};
    static const uint32_t words[7] = {0, 3};
    char a[64], b[64];
    if (boltjuniper_step_falling(states, 40, cube, 6, CASE_A, numbers, 19, words, 7, 0, sum, landed, out, 12)) out[8] = out[9] = -1;
    put(a, "fall", out + 8, 2), put(b, "fall", theirs, 2);
    add(&records_kept, a, b);
}

static void all_records(void) {
    const double most = 1073741824, more = nextafter(most, INFINITY);
    a_record(0, most, most, 0.5, 19, 40, 12), a_record(0, -0.0, -0.0, 0.5, 19, 40, 12);
    a_record(3, more, 0, 0.5, 19, 40, 12), a_record(3, 0, more, 0.5, 19, 40, 12), a_record(3, -4.9e-324, 0, 0.5, 19, 40, 12);
    a_record(3, NAN, 0, 0.5, 19, 40, 12), a_record(3, 0, INFINITY, 0.5, 19, 40, 12), a_record(3, 0, -1, 0.5, 18, 40, 0);
    a_record(11, 0, 0, 0.5, 19, 40, 11), a_record(3, -1, 0, 0.5, 19, 40, 11), a_record(3, 0, 0, 17, 19, 40, 11), a_record(1, -1, 0, 0.5, 18, 39, 0);
    a_fall(1.25, 2, 9, 0, 2.25), a_fall(1.25, most, 0, 0, most); /* a drop of 0.25 to the ground */
    a_fall(400.25, 1.5, 9, 2, 9), a_fall(400.25, most, 9, most, 9), a_fall(400.25, 0, 0, 0.5, 0); /* a drop of 0.5 in the sky */
}

/* Case A's body many times over: calls that are refused whole write nothing. */
static double many[4097 * N], answers[4097 * A];
static uint32_t many_words[4097 * W], rows[17 * BOLTJUNIPER_WINDOW_WORDS];

static void set_nights(void) {
    static const double one[12] = {0.5, 1.25, 0.5, 0.25, 0, 0, 1, 1, 0, 0.5, 0.5, 0.5};
    static const uint32_t row[BOLTJUNIPER_WINDOW_WORDS] = {0, UINT32_MAX, 0, 2, 4, 2, (uint32_t)-64, 319, 0, 20};
    for (size_t k = 0; k < 17; k++) memcpy(rows + k * BOLTJUNIPER_WINDOW_WORDS, row, sizeof row);
    for (size_t k = 0; k < 4097; k++) memcpy(many + k * N, one, sizeof one), many_words[k * W] = k % 16, many_words[k * W + 4] = 3;
    for (size_t k = 0; k < 4097 * A; k++) answers[k] = -1;
}

static void a_night(uint32_t theirs, size_t state_words, uint32_t windows_count, uint32_t bodies_count, size_t room) {
    char a[64], b[64];
    int kept = 1;
    set_nights();
    uint32_t ours = boltjuniper_midnight_capped(states, state_words, cube, 6, rows, 17 * BOLTJUNIPER_WINDOW_WORDS, windows_count, ground, 20, many,
                                                4097 * N, many_words, 4097 * W, bodies_count, answers, room);
    for (size_t k = 0; k < 4097 * A; k++) kept &= answers[k] == -1;
    sprintf(a, "refused %" PRIu32 ", kept %d", ours, kept), sprintf(b, "refused %" PRIu32 ", kept %d", theirs, theirs != 0 || bodies_count == 0);
    add(&nights, a, b);
}

static void all_nights(void) {
    a_night(0, 40, 16, 4096, 4096 * A), a_night(0, 40, 0, 0, 0), a_night(14, 40, 16, 4097, 4097 * A), a_night(14, 40, 17, 4096, 4096 * A);
    a_night(11, 40, 16, 4096, 4096 * A - 1), a_night(14, 40, 17, 4096, 0), a_night(1, 39, 16, 4096, 4096 * A), a_night(1, 39, 17, 4097, 0);
}

/* The same for two parties, each with so many windows and bodies: a party that is not refused has the answer of the body alone in each of its rows, and
   all else is kept. */
struct side { uint32_t refusal, windows, bodies; };

static void a_pair(struct side one, struct side two, size_t state_words, size_t room) {
    double alone[A];
    char a[64], b[64];
    int fine = 1;
    set_nights();
    boltjuniper_midnight(states, 40, cube, 6, rows, sizeof rows / 4, 16, ground, 20, many, N, many_words, W, 1, alone, A);
    struct boltjuniper_refusals told = boltjuniper_refusals_of(boltjuniper_midnight_two(
        states, state_words, cube, 6, rows, sizeof rows / 4, one.windows, ground, 20, many, 4097 * N, many_words, 4097 * W, one.bodies, rows,
        sizeof rows / 4, two.windows, ground, 20, many, 4097 * N, many_words, 4097 * W, two.bodies, answers, room));
    for (size_t k = 0; k < 4097 * A; k++) {
        size_t h = room / 2, place = k < h ? k : k - h;
        struct side s = k < h ? one : two;
        fine &= answers[k] == (k < 2 * h && !s.refusal && place < (size_t)s.bodies * A ? alone[place % A] : -1);
    }
    sprintf(a, "refused %" PRIu32 " and %" PRIu32 ", fine %d", told.first, told.second, fine);
    sprintf(b, "refused %" PRIu32 " and %" PRIu32 ", fine 1", one.refusal, two.refusal);
    add(&pairs, a, b);
}

static void all_pairs(void) {
    const struct side full = {0, 16, 2048}, none = {0, 0, 0}, some = {0, 16, 3};
    a_pair(full, full, 40, 4096 * A + 1), a_pair(full, full, 40, 4096 * A), a_pair(none, none, 40, 0), a_pair(none, none, 40, 1);
    a_pair((struct side){14, 16, 2049}, full, 40, 4096 * A), a_pair(full, (struct side){14, 17, 1}, 40, 4096 * A + 1);
    a_pair((struct side){11, 16, 2048}, (struct side){0, 16, 2047}, 40, 4096 * A - 1), a_pair(some, (struct side){11, 16, 4}, 40, 7 * A);
    a_pair((struct side){14, 17, 9}, (struct side){11, 16, 9}, 40, 17 * A), a_pair(some, none, 40, 7 * A), a_pair(none, some, 40, 7 * A);
    a_pair((struct side){1, 17, 3}, (struct side){1, 16, 2049}, 39, 7 * A), a_pair((struct side){1, 0, 0}, (struct side){1, 0, 0}, 39, 0);
}

/* Adds a number to two sums, of the numbers and of the first sum after each, as crates/palette_runs has them. */
static uint64_t each, after_each;
static void sum(uint64_t n) { each += n, after_each += each; }

static void summed(const char *what, uint32_t refusal) {
    char ours[ROOM];
    sprintf(ours, "%s: %" PRIu32 " %" PRIu64 " %" PRIu64, what, refusal, each, after_each);
    FILE *f = fopen("crates/palette_runs/stdout", "r");
    if (!f) exit(2);
    while (fgets(line, sizeof line, f)) {
        line[strcspn(line, "\n")] = 0;
        if (!strncmp(line, what, strlen(what)) && line[strlen(what)] == ':') add(&palettes, ours, line);
    }
    fclose(f);
    each = after_each = 0;
}

/* The tables of the classroom palette, in buffers that are one too short and one too long, against what crates/palette_runs must write. */
static void classroom(void) {
    enum { W = BOLTJUNIPER_PALETTE_WORDS, N = BOLTJUNIPER_PALETTE_NUMBERS };
    static uint32_t words[W + 1];
    static float numbers[N + 1];
    for (size_t room = W - 1; room <= W + 1; room += 2) {
        for (size_t k = 0; k < room; k++) words[k] = 7;
        uint32_t refusal = boltjuniper_palette_records(words, room);
        for (size_t k = 0; k < room; k++) sum(words[k]);
        summed(room < W ? "records, a word short" : "records", refusal);
    }
    for (size_t room = N - 1; room <= N + 1; room += 2) {
        for (size_t k = 0; k < room; k++) numbers[k] = 7;
        uint32_t refusal = boltjuniper_palette_boxes(numbers, room);
        for (size_t k = 0; k < room; k++) {
            double wide = numbers[k];
            uint64_t bits;
            memcpy(&bits, &wide, 8), sum(bits);
        }
        summed(room < N ? "boxes, a number short" : "boxes", refusal);
    }
    summed("the table check", boltjuniper_check_tables(words, W, numbers, N));
}

int main(void) {
    FILE *f = fopen("crates/replay/stdout", "r");
    if (!f) return 2;
    while (fgets(line, sizeof line, f)) {
        line[strcspn(line, "\n")] = 0;
        if (line[0] >= '0' && line[0] <= '9') one_scene(line);
        if (!strncmp(line, "movelist ", 9)) one_list(line);
        if (!strncmp(line, "after ", 6)) one_record(line);
        if (!strncmp(line, "minute ", 7)) stored_minute(line + 7, 1);
        if (!strncmp(line, "falls ", 6)) stored_minute(line + 6, 0);
    }
    fclose(f);
    case_a();
    collected();
    all_lengths();
    all_windows();
    beyond(400.25);
    beyond(-100.75);
    all_records();
    all_nights();
    all_pairs();
    classroom();
    const struct count *all[] = {&ticks, &steps, &checked, &tables, &moves, &lists, &collects, &lengths, &windows, &falling, &records_kept,
                                 &nights, &pairs, &writes, &rewrites, &palettes, &logs, &minutes, &stored_minutes};
    int bad = 0;
    for (size_t k = 0; k < sizeof all / sizeof *all; k++) bad |= tell(all[k]);
    return bad;
}
