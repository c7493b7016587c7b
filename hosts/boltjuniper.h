/* Boltjuniper for hosts in C: the functions of crates/exports that a host calls, and those of crates/shown, crates/recorder, crates/classroom,
   crates/servers and crates/minutes. Link target/staticlib/libexports.a and libm; for boltjuniper_collected also target/staticlib/libshown.a, for
   the classroom palette target/staticlib/libclassroom.a, for the midnight run of two parties target/staticlib/libservers.a, and for a minute
   target/staticlib/libminutes.a. A recorder needs target/staticlib/librecorder.a alone, and libm. hosts/build proves and writes them all, and
   `hosts/build recorder` that one (`rt lib` in crates/recorder leaves the same file in crates/recorder/out). They are for x86-64.

   A slice is a pointer and its number of elements, aligned as its type asks. Nothing beyond that number is read or written, what is handed
   in is only read, and `out` must not overlap it. Every call ends, and every input gets an answer: 0, or the number of a refusal
   (docs/REFUSALS.md). A refusal writes nothing. A slice of another length than said here is refused as what it holds would be, and an `out`
   with less room than is written to it is 11: after 1 to 4, and before any cell is asked for. An `out` may be longer; the rest of it stays. */
#ifndef BOLTJUNIPER_H
#define BOLTJUNIPER_H

#include <stddef.h>
#include <stdint.h>

#ifdef __cplusplus
extern "C" {
#endif

/* Tables: `records` has 20 words to a state, `shapes` six numbers to a box (x0 y0 z0 x1 y1 z1).

   A window: ox oy oz is its origin, sx sy sz are its sizes, and `lowest` and `highest` are the y of the world's lowest and highest cell. `cells`
   has the state of each cell, at ((y * sz) + z) * sx + x counted from the origin, and behind the cells one word for each column, at
   sx * sy * sz + z * sx + x: 1 where the column is loaded, 0 where it is not. So `cells_len` is sx * sy * sz + sx * sz. A state without a record,
   4294967295 too, is unregistered. What the rules ask for is looked up so, and the first line that fits decides:
      a column outside the window in x or z                 refused with 5
      a column whose word is 0                              unloaded, at every height, in the window or not
      a y below `lowest` or above `highest`                 the air state, whatever the window holds there
      a y outside the window                                refused with 5
      else                                                  the cell's state
   So neither the sky nor the void has to lie in the window. The air state of a step is that of its rules; a call without rules is given `air`.
   Refused with 2: a size other than 1 to 64; an origin, `lowest` or `highest` beyond 2^25 in size; `lowest` over `highest`; another `cells_len`; a
   column's word above 1.

   A body is handed over in the order of a scene file's first block. `numbers`, 19 of them:
      0  1  2   feet x y z                 12   flap
      3  4  5   velocity x y z             13   step height
      6         width                      14   rules: default friction
      7         height                     15   rules: sample depth
      8         network offset             16   rules: liquid gravity
      9         gravity                    17   rules: water drag
     10         vertical drag              18   rules: lava drag
     11         horizontal drag
   `words`, 7 of them:
      0   ground, 0 or 1
      1   model: 0 item, 1 living, 2 falling block, 3 other
      2   stage of gravity: 0 before the move, 1 after the move, 2 after the drag
      3   ground friction: 0 none, 1 of the block
      4   flap present, 0 or 1
      5   air state
      6   cap: how many boxes a move may collect, 1 to 512; 0 stands for 512. One box more is refused with 6
   Other than 19 numbers or 7 words, an air state without a registered record, or a cap above 512 are refused with 3. Who relies on 6 at the 129th box
   hands over BOLTJUNIPER_OLDER_CAP. */
#define BOLTJUNIPER_OLDER_CAP 128

/* Takes tables; writes nothing. Returns 0 where they keep every rule, and else 1. */
uint32_t boltjuniper_check_tables(const uint32_t *records, size_t records_len, const float *shapes, size_t shapes_len);

/* One tick of a body: takes tables, a window, a body and its age in ticks. Writes ten numbers to `out`:
      0  1  2   feet x y z            6   ground, 0 or 1                                   8   what its friction comes from, one of the cases below
      3  4  5   velocity x y z        7   the liquid: 0 none, 1 water, 2 lava              9   the sampled friction, 0 where none was sampled
   Returns 0; or 1, 2, 3, 4, 11, then 5, 6 or 7 at the first such event. What is written is finite: on each axis feet within 33,554,534, and velocity
   within 26,112, whatever is handed in. A step samples the block under the body's feet after its move. Where
   there is no friction to sample it goes on with 0.6, or with the rules' default under a living body, and the case says why: the cell is the air
   state, its column is not loaded, or its state has no registered record. It asks for no sample in the air, at rest, with ground friction none, of a
   living body in liquid, and of a falling block that landed. */
enum {
    BOLTJUNIPER_NOT_ASKED = 0,
    BOLTJUNIPER_SAMPLED = 1,
    BOLTJUNIPER_AIR = 2,
    BOLTJUNIPER_UNLOADED = 3,
    BOLTJUNIPER_UNREGISTERED = 4
};
uint32_t boltjuniper_step(const uint32_t *records, size_t records_len, const float *shapes, size_t shapes_len, const uint32_t *cells,
                          size_t cells_len, int32_t ox, int32_t oy, int32_t oz, uint32_t sx, uint32_t sy, uint32_t sz, int32_t lowest,
                          int32_t highest, const double *numbers, size_t numbers_len, const uint32_t *words, size_t words_len, uint64_t age,
                          double *out, size_t out_len);

/* The same for tables and a window that were checked before, once for many bodies: it looks for neither 1 nor 2, and is as safe. With a summary behind
   the window's words that was checked too, its move passes over what is empty. What it writes is finite where the tables pass
   boltjuniper_check_tables. Over tables that do not it answers all the same, and nothing is refused for them: a friction that is a NaN comes out as a
   velocity that is one. */
uint32_t boltjuniper_step_checked(const uint32_t *records, size_t records_len, const float *shapes, size_t shapes_len, const uint32_t *cells,
                                  size_t cells_len, int32_t ox, int32_t oy, int32_t oz, uint32_t sx, uint32_t sy, uint32_t sz,
                                  int32_t lowest, int32_t highest, const double *numbers, size_t numbers_len, const uint32_t *words,
                                  size_t words_len, uint64_t age, double *out, size_t out_len);

/* One tick of a body with its fall record: takes what boltjuniper_step does, and of the record the falling sum and the landed number, both 0 in a
   fresh one. Writes twelve numbers to `out`: numbers 0 to 7 of boltjuniper_step, then the record after the tick, sum (8) and landed (9), then case
   (10) and friction (11). Returns what boltjuniper_step does; 3 also for a sum or a landed number that is negative, not finite or above 2^30. A
   refusal writes nothing, so the record that you handed in is still yours as it is. */
uint32_t boltjuniper_step_falling(const uint32_t *records, size_t records_len, const float *shapes, size_t shapes_len, const uint32_t *cells,
                                  size_t cells_len, int32_t ox, int32_t oy, int32_t oz, uint32_t sx, uint32_t sy, uint32_t sz,
                                  int32_t lowest, int32_t highest, const double *numbers, size_t numbers_len, const uint32_t *words,
                                  size_t words_len, uint64_t age, double sum, double landed, double *out, size_t out_len);

/* A summary of a window: one word for each group of 4 by 4 by 4 cells, counted from the origin, in the cells' order ((y * groups on z) + z) * groups on x
   + x, where there are (size + 3) / 4 groups along an axis. Its words stand behind the window's, in one array: cells, columns, groups. A group's word
   is 0 when every cell of it in the window, as it is looked up, is a registered state that connects as nothing and has no boxes, else 1. Moves pass
   over groups marked 0, and every answer is the same with a summary and without. A summary is of a window and an air state.

   boltjuniper_build_summary writes it behind cells and columns. Returns 0; or 1, 2, 3 (the air state), then 11 (`cells` is not as long as cells, columns
   and groups), and writes nothing. */
uint32_t boltjuniper_build_summary(const uint32_t *records, size_t records_len, const float *shapes, size_t shapes_len, uint32_t *cells,
                                   size_t cells_len, int32_t ox, int32_t oy, int32_t oz, uint32_t sx, uint32_t sy, uint32_t sz, int32_t lowest, int32_t highest,
                                   uint32_t air);

/* The cell at x y z becomes this state, and the word of its group is mended. Returns 0; or 1, 2, 3, 11, then 13 (a group's word disagrees with its cells),
   then 5 (the cell is outside the window), and writes nothing. */
uint32_t boltjuniper_set_block(const uint32_t *records, size_t records_len, const float *shapes, size_t shapes_len, uint32_t *cells,
                               size_t cells_len, int32_t ox, int32_t oy, int32_t oz, uint32_t sx, uint32_t sy, uint32_t sz, int32_t lowest, int32_t highest,
                               uint32_t air, int32_t x, int32_t y, int32_t z, uint32_t state);

/* Returns 0; or 1, 2, 3, 11 or 13. Where it was 0, bodies of this air state may be stepped by boltjuniper_step_checked over the same array. That function
   looks for neither 11 nor 13: over a summary that does not agree it may pass over a block, and is memory safe all the same. */
uint32_t boltjuniper_check_summary(const uint32_t *records, size_t records_len, const float *shapes, size_t shapes_len, const uint32_t *cells,
                                   size_t cells_len, int32_t ox, int32_t oy, int32_t oz, uint32_t sx, uint32_t sy, uint32_t sz, int32_t lowest, int32_t highest,
                                   uint32_t air);

/* As boltjuniper_move, boltjuniper_step and boltjuniper_step_falling, over a window with a summary, which is of the air state that is named, a step's among
   its words: 11 and 13 come after 4, 13 at the cost of a look at every cell. */
uint32_t boltjuniper_move_summed(const uint32_t *records, size_t records_len, const float *shapes, size_t shapes_len, const uint32_t *cells,
                                 size_t cells_len, int32_t ox, int32_t oy, int32_t oz, uint32_t sx, uint32_t sy, uint32_t sz, int32_t lowest, int32_t highest,
                                 uint32_t air, const double *mover, size_t mover_len, double step, uint32_t ground, uint32_t cap, double *out,
                                 size_t out_len);
uint32_t boltjuniper_step_summed(const uint32_t *records, size_t records_len, const float *shapes, size_t shapes_len, const uint32_t *cells,
                                 size_t cells_len, int32_t ox, int32_t oy, int32_t oz, uint32_t sx, uint32_t sy, uint32_t sz, int32_t lowest, int32_t highest,
                                 const double *numbers, size_t numbers_len, const uint32_t *words, size_t words_len, uint64_t age, double *out, size_t out_len);
uint32_t boltjuniper_step_falling_summed(const uint32_t *records, size_t records_len, const float *shapes, size_t shapes_len, const uint32_t *cells,
                                         size_t cells_len, int32_t ox, int32_t oy, int32_t oz, uint32_t sx, uint32_t sy, uint32_t sz, int32_t lowest, int32_t highest,
                                         const double *numbers, size_t numbers_len, const uint32_t *words, size_t words_len, uint64_t age, double sum, double landed,
                                         double *out, size_t out_len);

/* The midnight run: one tick of each of many bodies over one table and a few windows, in one call. Tables are checked once, and each window once,
   however many bodies name it. Windows, bodies and answers stand in rows, one row behind the other.

   A window has ten words; its own words, cells then columns, lie anywhere among `cells`, which is lent once for all windows:
      0  1  2   origin x y z, as int32_t            6   lowest, as int32_t          8   where its words begin in `cells`
      3  4  5   sizes x y z                         7   highest, as int32_t         9   how many they are
   A body has 21 numbers: the 19 of boltjuniper_step, then its fall record, the sum (19) and the landed number (20). And nine words:
      0   the number of its window, from 0          1  2   its age, the low word first          3 to 8   the first six words of boltjuniper_step
   Its cap is 128: these are the rows of callers who rely on 6 at the 129th box. boltjuniper_midnight_capped takes a tenth word for each body:
      9   cap
   A window may lend a summary: its own words are then cells, columns, groups, and behind them one word, the air state that the summary is of; their
   number (9) says so. It is checked once. Bodies of that air state go by it, and are refused by 13, after 4, where a group's word disagrees with its
   cells; a body that names another is stepped over cells and columns.
   For each body 13 numbers are written, row i for body i:
      0   its refusal, or 0                         1 to 12   the twelve of boltjuniper_step_falling
   A refused body has its own number there, its motion and fall record as they were handed in, liquid 0 and case 0: 3 for a row that is not there
   whole, 10 for naming no window, 2 for a window that breaks a limit or whose row or words are not there whole, then 3 to 7 as
   boltjuniper_step_falling. So one bad row costs its body the tick, and no other.

   It takes tables, `windows_count` windows in rows, `cells`, `bodies_count` bodies in rows, and writes bodies_count * 13 numbers to `out`; the rest of
   `out` stays. Returns 0; or 1, then 14 (more than 16 windows or 4,096 bodies), then 11, and writes nothing. Each answer is that of the body's single
   step, and bodies may stand in any order.

   From several threads: what is handed in is only read, so that all threads may be lent the same tables, windows and cells. Hand each thread its own
   part of the bodies' rows, its own count, and its own part of `out`: the answers are those of one call. Each call checks tables and windows anew, so
   give a thread some hundreds of bodies at once. */
#define BOLTJUNIPER_WINDOW_WORDS 10
#define BOLTJUNIPER_BODY_NUMBERS 21
#define BOLTJUNIPER_BODY_WORDS 9
#define BOLTJUNIPER_CAPPED_WORDS 10
#define BOLTJUNIPER_ANSWER_NUMBERS 13
uint32_t boltjuniper_midnight(const uint32_t *records, size_t records_len, const float *shapes, size_t shapes_len, const uint32_t *windows,
                              size_t windows_len, uint32_t windows_count, const uint32_t *cells, size_t cells_len, const double *numbers,
                              size_t numbers_len, const uint32_t *words, size_t words_len, uint32_t bodies_count, double *out, size_t out_len);
uint32_t boltjuniper_midnight_capped(const uint32_t *records, size_t records_len, const float *shapes, size_t shapes_len, const uint32_t *windows,
                                     size_t windows_len, uint32_t windows_count, const uint32_t *cells, size_t cells_len, const double *numbers,
                                     size_t numbers_len, const uint32_t *words, size_t words_len, uint32_t bodies_count, double *out,
                                     size_t out_len);

/* The midnight run of two parties, who share one table and nothing else: two servers, each with its own windows, its own bodies and its own half of
   `out`. What each hands in stands in the rows of boltjuniper_midnight_capped: up to 16 windows over `cells` of its own, and up to 2,048 bodies, whose word 0 is
   the number of a window of their own party; there is no number for a window of the other's. With h = out_len / 2, rounded down, the first party's
   answers go to out[0] to out[h - 1], the second's to out[h] to out[2h - 1], body i of each to row i of its half; the rest of a half stays, and so does
   a last odd place, which is nobody's.

   Returns both parties' refusals, which boltjuniper_refusals_of takes apart: 1 for both; else for each alone 14 (more than 2,048 bodies or 16
   windows), then 11 (its half is too short for its bodies), or 0. A party that is refused has its half as it was. Whatever the other party hands in, and
   whatever it is told, alters neither this party's refusal nor its half. */
struct boltjuniper_refusals { uint32_t first, second; };
uint64_t boltjuniper_midnight_two(const uint32_t *records, size_t records_len, const float *shapes, size_t shapes_len,
                                  const uint32_t *first_windows, size_t first_windows_len, uint32_t first_windows_count, const uint32_t *first_cells,
                                  size_t first_cells_len, const double *first_numbers, size_t first_numbers_len, const uint32_t *first_words,
                                  size_t first_words_len, uint32_t first_bodies_count,
                                  const uint32_t *second_windows, size_t second_windows_len, uint32_t second_windows_count, const uint32_t *second_cells,
                                  size_t second_cells_len, const double *second_numbers, size_t second_numbers_len, const uint32_t *second_words,
                                  size_t second_words_len, uint32_t second_bodies_count, double *out, size_t out_len);
static inline struct boltjuniper_refusals boltjuniper_refusals_of(uint64_t told) {
    struct boltjuniper_refusals r = {(uint32_t)told, (uint32_t)(told >> 32)};
    return r;
}

/* One tick of the scene in `file` (blocks of 512 bytes of either mark, as onetick reads them; no alignment is asked for). Writes the ten numbers of
   boltjuniper_step to `out`. Returns 0; or 8 where the file is no scene, 1, 2, 3, 4, 11, then 5, 6 or 7 at the first such event. It keeps
   two arrays of 15,744 words of the file on the stack, and reaches 165,472 bytes below its caller (docs/STACK.md): call it from a thread that has
   more. */
uint32_t boltjuniper_tick(const uint8_t *file, size_t file_len, double *out, size_t out_len);

/* The move of a box through a window: takes tables, a window, the air state, `mover` (the box x0 y0 z0 x1 y1 z1, then its delta x y z: nine
   numbers), the step height, whether the body was on the ground (0 or 1), and the cap, as in a body's words. Writes ten numbers to `out`: the box
   after the move, the way that it went x y z, and 1 where it came to stand on the ground, else 0. Returns 0; or 1, 2, 3 (an air state without a
   registered record, the step height, a ground above 1, or a cap above 512), 4 (the box or the delta, or other than nine numbers), 11, then 5 or 6 at
   the first such event. What is written is finite: on each axis the box within 33,554,560, and the way within 128. */
uint32_t boltjuniper_move(const uint32_t *records, size_t records_len, const float *shapes, size_t shapes_len, const uint32_t *cells,
                          size_t cells_len, int32_t ox, int32_t oy, int32_t oz, uint32_t sx, uint32_t sy, uint32_t sz, int32_t lowest,
                          int32_t highest, uint32_t air, const double *mover, size_t mover_len, double step, uint32_t ground,
                          uint32_t cap, double *out, size_t out_len);

/* The move of a box over boxes of the host's own: takes `boxes`, six numbers to a box, and mover, step height, ground and cap as boltjuniper_move
   does, and writes the same ten numbers. Returns 0; or 3 (the step height, the ground or the cap), 4 (the mover, any of the boxes, or numbers left
   over), 11, then 6 (more boxes than the cap). */
uint32_t boltjuniper_move_over_list(const double *boxes, size_t boxes_len, const double *mover, size_t mover_len, double step, uint32_t ground,
                                    uint32_t cap, double *out, size_t out_len);

/* For pictures: the boxes that the move of a box through a window collects, one at a call. It takes what boltjuniper_move does, without the
   ground, and k, which box is asked for. Writes seven numbers to `out`: how many boxes there are, at most 512, and box k, zeros where k is not
   below that. Returns 0; or 1, 2, 3 (the air state, the step height or the cap), 4 (the box or the delta, or other than nine numbers), 11, then 5 or 6 at
   the first such event. */
uint32_t boltjuniper_collected(const uint32_t *records, size_t records_len, const float *shapes, size_t shapes_len, const uint32_t *cells,
                               size_t cells_len, int32_t ox, int32_t oy, int32_t oz, uint32_t sx, uint32_t sy, uint32_t sz, int32_t lowest,
                               int32_t highest, uint32_t air, const double *mover, size_t mover_len, double step, uint32_t cap, uint32_t k,
                               double *out, size_t out_len);

/* For recorders: a scene file of what boltjuniper_step takes, of the mark 53 43 4E 32 with its two checks, for onetick and boltjuniper_tick to read. It
   is written to `out` from its first byte on, and bytes past it keep their values; 65,536 bytes hold every scene. Returns how many bytes it wrote, 512
   to a block; or a number below 512, which is a refusal: 1, 2, 3, 4, then 12 (more than 128 blocks), then 11 (an `out` too short for the scene). Where
   no flap is present its number is written as zero. It asks for no memory, and needs less than 4 KB of the stack. */
uint64_t boltjuniper_write_scene(const uint32_t *records, size_t records_len, const float *shapes, size_t shapes_len, const uint32_t *cells,
                                 size_t cells_len, int32_t ox, int32_t oy, int32_t oz, uint32_t sx, uint32_t sy, uint32_t sz, int32_t lowest,
                                 int32_t highest, const double *numbers, size_t numbers_len, const uint32_t *words, size_t words_len,
                                 uint64_t age, uint8_t *out, size_t out_len);

/* The same for what was checked before, as by boltjuniper_step: it looks for none of 1 to 4, and is as safe. */
uint64_t boltjuniper_write_checked(const uint32_t *records, size_t records_len, const float *shapes, size_t shapes_len, const uint32_t *cells,
                                   size_t cells_len, int32_t ox, int32_t oy, int32_t oz, uint32_t sx, uint32_t sy, uint32_t sz, int32_t lowest,
                                   int32_t highest, const double *numbers, size_t numbers_len, const uint32_t *words, size_t words_len,
                                   uint64_t age, uint8_t *out, size_t out_len);

/* The log of a minute, behind the scene that `out` begins with, as one of the two above left it there: write the scene when the minute begins, and its events
   when it is over. `events` has four words to an event, in their order, and the end is written behind them:
      1 0 0 0                a tick
      2 position state 0     a cell that was set; its position, counted from the window's origin, is x + 256 * y + 65536 * z, each below 256
   Blocks of 30 events follow the scene's. Returns how many bytes scene and log have together; or a number below 512, which is a refusal: 8 (`out` begins
   with no scene of the mark 53 43 4E 32, or an event is not as above), then 12 (more than 128 blocks together), then 11 (an `out` too short for them). */
uint64_t boltjuniper_write_log(const uint32_t *events, size_t events_len, uint8_t *out, size_t out_len);

/* A minute of a body: it takes tables, a window, a body and its age, as boltjuniper_step does, and runs the body through the events of a log, from a fresh
   fall record on. Of `log`, the bytes of a log, the events alone are used. `cells` has room behind its words for a summary, which is built first; a set
   writes one cell and mends one word of the summary, and ticks pass over what is empty. The feet after each tick go to `feet`, three numbers for each, as
   far as it reaches: 3 * BOLTJUNIPER_MOST_EVENTS hold those of every log. Writes twelve numbers to `out`:
      0  1  2   feet x y z            6   ground, 0 or 1                                   9   how many ticks were done
      3  4  5   velocity x y z        7  8   the fall record, sum and landed number       10 11   the age after them, its low word, then its high one
   It comes to what boltjuniper_step_falling comes to tick by tick, over the cells as each set left them, the age one more after each. Returns 0; or the
   refusal that ended the run, a tick's, or 5 for a set outside the window: then `cells`, `feet` and `out` are as the events before it left them, and a
   refusal before the first tick leaves `out` as it was. 8 (no log), 1, 2, 3, 4, 11 (`out`, or no room for the summary) come before anything runs, and
   then nothing at all is written; `out` is as it was, too. */
#define BOLTJUNIPER_MOST_EVENTS 3719
uint32_t boltjuniper_minute(const uint32_t *records, size_t records_len, const float *shapes, size_t shapes_len, uint32_t *cells, size_t cells_len,
                            int32_t ox, int32_t oy, int32_t oz, uint32_t sx, uint32_t sy, uint32_t sz, int32_t lowest, int32_t highest,
                            const double *numbers, size_t numbers_len, const uint32_t *words, size_t words_len, uint64_t age, const uint8_t *log,
                            size_t log_len, double *feet, size_t feet_len, double *out, size_t out_len);

/* The classroom palette: tables of 212 states that are built in, for a server that has no registry to export. They pass boltjuniper_check_tables.
   States: 0 air, 1 a cube, 2 to 17 an oak fence, 18 to 33 a nether brick fence, 34 to 49 a pane, 50 to 211 a wall. A fence or pane is its first state
   plus 1, 2, 4, 8 where it is joined to the north, east, south, west; a wall is 50 plus north + 3 east + 9 south + 27 west + 81 post, sides 0 none,
   1 short, 2 tall. As a host may set any of them, with any sides: the rules join it anew by its neighbours.

   The first writes the 4,240 words of the records, the second the 3,948 numbers of the 658 boxes. Each returns 0; or 11 where there is not the room, and
   then it writes nothing. */
#define BOLTJUNIPER_PALETTE_WORDS 4240
#define BOLTJUNIPER_PALETTE_NUMBERS 3948
uint32_t boltjuniper_palette_records(uint32_t *out, size_t out_len);
uint32_t boltjuniper_palette_boxes(float *out, size_t out_len);

#ifdef __cplusplus
}
#endif
#endif
