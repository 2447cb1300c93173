/* The flood program in C, release 1.0.0: numbers and arrays only. Made from crates/exports/src by tools/header.py, and kept true by
   tests/header.py. To compile and link, from the folder of the release:

       cc -std=c99 -Iinclude examples/evening.c lib/libflood.a -o evening

   or anywhere, where PKG_CONFIG_PATH has the whole path of its lib/pkgconfig: cc -std=c99 NAME.c $(pkg-config --cflags --libs flood) -o NAME.
   The library is for x86-64.

   Each function gives a refusal's number, 0 for none, unless it says otherwise. An array is followed by how many numbers it
   has. A caller owes what Rust's slices owe: each array is there, aligned and initialised, its pointer not null even where it has no
   number; and one that a call may write overlaps with no other array of that call.

   Squares go row by row from the north, each row from the west, all from 0: a square's place is row * columns + column. Rows and columns are
   1 to 64. Of each square:
     marks       FLOOD_MARK_CLOSED, FLOOD_MARK_OPEN or FLOOD_MARK_EXIT
     beds        micrometres, 0 to 1,000,000,000
     roughness   ten-thousandths of Manning's n, 1 to 10,000
     rates       soak rate in micrometres per hour, 0 to 1,000,000
     depths      micrometres, 0 to 100,000,000
     lasts       what left in the step just made, in micrometres over the square; flood_fresh makes it 0, and each step writes it
   Of a closed square a step looks at the mark alone, and writes nothing there.

   Tables, each of 0 to 64 rows that follow one another without a gap; times are ms, 0 to 604,800,000, from at most to:
     rain        from, to, micrometres per hour (0 to 1,000,000): FLOOD_RAIN_WIDTH numbers a row
     inflow      row, column, from, to, litres per second (0 to 100,000): FLOOD_INFLOW_WIDTH numbers a row; the square is not closed

   ROWS ARE NOT NUMBERS. A heading tells how many rows a table has; a call wants how many numbers. Five hatches are 25 numbers, and a call that is
   told 5 takes the first hatch alone, since that is a table too. Always write
       rain, FLOOD_RAIN_NUMBERS(heading[FLOOD_HEADING_RAIN_ROWS]), inflow, FLOOD_INFLOW_NUMBERS(heading[FLOOD_HEADING_INFLOW_ROWS])
   and for a table of your own
       uint32_t hatches[FLOOD_INFLOW_NUMBERS(5)]; .. hatches, FLOOD_INFLOW_NUMBERS(5)

   Rules: square_side in m, 1 to 100; tolerance in ten-thousandths, 0 to 10,000; shortest, longest in ms, 1 to 60,000, shortest
   at most longest; update (U) in ms, 1 to 3,600,000; edge in ten-thousandths, 0 to 10,000; edition, 1 to 3. An end is a multiple of U.
   Run: clock and length in ms, outflow and soaked in micrometres over one square, kept (how many steps can be taken back), newest (a slot).

   A record keeps one step: FLOOD_RECORD_HEAD numbers, the length held before the step and how long the step lasted, both in ms; then, for each
   square, FLOOD_RECORD_SQUARE numbers in micrometres over the square: what left to the north, east, south and west, the last leaving before the
   step, what was added and what soaked. `records` is a ring of slots, each FLOOD_RECORD_NUMBERS(rows, columns) long; a step writes the slot after
   `newest`, slot 0 after the last. Forty steps can be taken back where it has 40 * FLOOD_RECORD_NUMBERS(rows, columns) numbers.

   These arrays have exactly so many numbers, else the call is refused by 1 before all else:
     rules       square_side, tolerance, shortest, longest, update, edge, edition
     run         clock, length, outflow, kept, newest, soaked: goes in, and the run that the call leaves comes out in it, for the next call;
                 flood_fresh only writes it, flood_arrow only reads it
     steps       the steps that a run to an end made
     bounds      the most and the least steps of a run
     speeds      east and north, in m/s
     count       the wet squares
     heading     rows, columns, the rules (from FLOOD_HEADING_RULES on, as a call takes them), and at FLOOD_HEADING_END, FLOOD_HEADING_RAIN_ROWS
                 and FLOOD_HEADING_INFLOW_ROWS the end and how many ROWS, not numbers, of rain and of inflow there are
     line        the line of a 12, else 0
   The room `out` has FLOOD_OUT_ROOM numbers or more; a sheet's rooms for rain and inflow have FLOOD_RAIN_ROOM and FLOOD_INFLOW_ROOM or
   more, its others one number a square or more; `records` as many records as are to be kept. Any other array has one number a square, but
   for `wet`: one a row of the grid, in which bit c is set where the square in column c is not closed and at least wet_depth deep.

   A refused call leaves every array as it was, but for these:
     flood_read_sheet   writes `line` unless `heading` or `line` has not its size.
     flood_run_to       refused by 7, 8, 9 or 15 has made the steps that `steps` tells; depths, lasts, records and run are those before the
                        step refused.
     flood_run_to_wet   the same.
   flood_meadow prints a refusal as it prints an answer.

   flood_step_wet and flood_run_to_wet give and write just what flood_step and flood_run_to do, on every input, refused ones too; they work
   only the sides of squares with water.

   A call does nothing but write the arrays lent to it: it takes no memory, opens nothing, waits for nothing, and ends. Its own rooms lie
   on the stack. This much of it suffices, as tests/stack.sh measures for each on the largest grid:
     flood_fresh         16 KiB
     flood_step         176 KiB
     flood_step_wet     176 KiB
     flood_run_to       176 KiB
     flood_run_to_wet   176 KiB
     flood_take_back     16 KiB
     flood_step_bounds   16 KiB
     flood_arrow         16 KiB
     flood_wet_rows      16 KiB
     flood_read_sheet   224 KiB
     flood_meadow       352 KiB */
#ifndef FLOOD_H
#define FLOOD_H

#include <stddef.h>
#include <stdint.h>

#ifdef __cplusplus
extern "C" {
#endif

#define FLOOD_VERSION "1.0.0"

#define FLOOD_DONE 0
#define FLOOD_REFUSED_SHAPE 1 /* shape or D out of range, an array of another size than it must have, an asked square off the grid */
#define FLOOD_REFUSED_GROUND 2 /* mark above 2, exit off the rim, bed, roughness or soak rate of a square not closed out of range */
#define FLOOD_REFUSED_WATER 3 /* depth or last leaving of a square not closed out of range */
#define FLOOD_REFUSED_TABLE 4 /* rain or inflow: odd length, over 64 rows, a value out of range, from > to, a closed or missing square */
#define FLOOD_REFUSED_RULES 5 /* q, step limits, U, e, edition or wet depth out of range; end not a multiple of U or out of range */
#define FLOOD_REFUSED_RUN 6 /* no room for a record, or a run value out of range */
#define FLOOD_REFUSED_CLOCK 7 /* the step would pass clock 604,800,000 */
#define FLOOD_REFUSED_DEPTH 8 /* a new depth above 100,000,000 */
#define FLOOD_REFUSED_OUTFLOW 9 /* outflow total above 10^15 */
#define FLOOD_REFUSED_NONE_KEPT 10 /* no step is kept to take back or to see */
#define FLOOD_REFUSED_RECORD 11 /* the newest record cannot be right */
#define FLOOD_REFUSED_TEXT 12 /* sheet text, with its line */
#define FLOOD_REFUSED_SOAKED 15 /* total soaked above 10^15 */

#define FLOOD_MARK_CLOSED 0 /* a wall: no water enters it or leaves it */
#define FLOOD_MARK_OPEN 1
#define FLOOD_MARK_EXIT 2 /* open, on the rim, and water may leave the grid there */
#define FLOOD_RAIN_WIDTH 3 /* numbers of one rain row: from, to, rate */
#define FLOOD_INFLOW_WIDTH 5 /* numbers of one inflow row: row, column, from, to, litres per second */
#define FLOOD_RECORD_HEAD 2 /* numbers of a record before its squares */
#define FLOOD_RECORD_SQUARE 7 /* numbers of a record for each square */
#define FLOOD_RULES_NUMBERS 7
#define FLOOD_RUN_NUMBERS 6
#define FLOOD_STEPS_NUMBERS 1
#define FLOOD_BOUNDS_NUMBERS 2
#define FLOOD_SPEED_NUMBERS 2
#define FLOOD_COUNT_NUMBERS 1
#define FLOOD_HEADING_NUMBERS 12
#define FLOOD_LINE_NUMBERS 1
#define FLOOD_OUT_ROOM 40960
#define FLOOD_RAIN_ROOM 192 /* numbers of a room for any sheet's rain */
#define FLOOD_INFLOW_ROOM 320 /* numbers of a room for any sheet's inflow */
#define FLOOD_MOVING 0 /* flood_arrow: the speeds are written */
#define FLOOD_CLOSED 101 /* flood_arrow: what the square is instead */
#define FLOOD_DRY 102
#define FLOOD_STILL 103
#define FLOOD_BOUNDED 0 /* flood_step_bounds: both figures are written */
#define FLOOD_NOT_BOUNDED 104 /* flood_step_bounds: the clock is no multiple of U, or past the end */
#define FLOOD_HEADING_RULES 2
#define FLOOD_HEADING_END 9
#define FLOOD_HEADING_RAIN_ROWS 10
#define FLOOD_HEADING_INFLOW_ROWS 11
#define FLOOD_RAIN_NUMBERS(rows) (FLOOD_RAIN_WIDTH * (size_t)(rows)) /* of so many rows: what a call wants */
#define FLOOD_INFLOW_NUMBERS(rows) (FLOOD_INFLOW_WIDTH * (size_t)(rows)) /* of so many rows: what a call wants */
#define FLOOD_RECORD_NUMBERS(rows, columns) (FLOOD_RECORD_HEAD + FLOOD_RECORD_SQUARE * (size_t)(rows) * (size_t)(columns)) /* of one record */
#define FLOOD_STACK_BYTES (352 * 1024) /* suffice for every call */

/* A fresh run: the last leaving of squares not closed becomes 0, and the run is told. */
uint32_t flood_fresh(size_t rows, size_t columns, const uint64_t *rules, size_t rules_numbers, const uint8_t *marks,
    size_t marks_numbers, uint32_t *lasts, size_t lasts_numbers, const uint32_t *records, size_t records_numbers,
    uint64_t *run, size_t run_numbers);

/* One step: every square is worked. */
uint32_t flood_step(size_t rows, size_t columns, const uint64_t *rules, size_t rules_numbers, const uint8_t *marks,
    size_t marks_numbers, const uint32_t *beds, size_t beds_numbers, const uint32_t *roughness,
    size_t roughness_numbers, const uint32_t *rates, size_t rates_numbers, const uint32_t *rain,
    size_t rain_numbers /* FLOOD_RAIN_NUMBERS(its rows) */, const uint32_t *inflow,
    size_t inflow_numbers /* FLOOD_INFLOW_NUMBERS(its rows) */, uint32_t *depths, size_t depths_numbers,
    uint32_t *lasts, size_t lasts_numbers, uint32_t *records, size_t records_numbers, uint64_t *run,
    size_t run_numbers);

/* One step by the wet walk: only the sides of squares with water are worked. */
uint32_t flood_step_wet(size_t rows, size_t columns, const uint64_t *rules, size_t rules_numbers, const uint8_t *marks,
    size_t marks_numbers, const uint32_t *beds, size_t beds_numbers, const uint32_t *roughness,
    size_t roughness_numbers, const uint32_t *rates, size_t rates_numbers, const uint32_t *rain,
    size_t rain_numbers /* FLOOD_RAIN_NUMBERS(its rows) */, const uint32_t *inflow,
    size_t inflow_numbers /* FLOOD_INFLOW_NUMBERS(its rows) */, uint32_t *depths, size_t depths_numbers,
    uint32_t *lasts, size_t lasts_numbers, uint32_t *records, size_t records_numbers, uint64_t *run,
    size_t run_numbers);

/* Steps to an end of the clock, and how many were made: every square is worked at each. */
uint32_t flood_run_to(size_t rows, size_t columns, const uint64_t *rules, size_t rules_numbers, uint64_t end,
    const uint8_t *marks, size_t marks_numbers, const uint32_t *beds, size_t beds_numbers, const uint32_t *roughness,
    size_t roughness_numbers, const uint32_t *rates, size_t rates_numbers, const uint32_t *rain,
    size_t rain_numbers /* FLOOD_RAIN_NUMBERS(its rows) */, const uint32_t *inflow,
    size_t inflow_numbers /* FLOOD_INFLOW_NUMBERS(its rows) */, uint32_t *depths, size_t depths_numbers,
    uint32_t *lasts, size_t lasts_numbers, uint32_t *records, size_t records_numbers, uint64_t *run, size_t run_numbers,
    uint64_t *steps, size_t steps_numbers);

/* Steps by the wet walk to an end of the clock, and how many were made: only the sides of squares with water are worked at each. */
uint32_t flood_run_to_wet(size_t rows, size_t columns, const uint64_t *rules, size_t rules_numbers, uint64_t end,
    const uint8_t *marks, size_t marks_numbers, const uint32_t *beds, size_t beds_numbers, const uint32_t *roughness,
    size_t roughness_numbers, const uint32_t *rates, size_t rates_numbers, const uint32_t *rain,
    size_t rain_numbers /* FLOOD_RAIN_NUMBERS(its rows) */, const uint32_t *inflow,
    size_t inflow_numbers /* FLOOD_INFLOW_NUMBERS(its rows) */, uint32_t *depths, size_t depths_numbers,
    uint32_t *lasts, size_t lasts_numbers, uint32_t *records, size_t records_numbers, uint64_t *run, size_t run_numbers,
    uint64_t *steps, size_t steps_numbers);

/* The newest step taken back. */
uint32_t flood_take_back(size_t rows, size_t columns, const uint8_t *marks, size_t marks_numbers, uint32_t *depths,
    size_t depths_numbers, uint32_t *lasts, size_t lasts_numbers, const uint32_t *records, size_t records_numbers,
    uint64_t *run, size_t run_numbers);

/* The most and the least steps of a run from a clock to an end, before it is made. */
uint32_t flood_step_bounds(const uint64_t *rules, size_t rules_numbers, uint64_t clock, uint64_t end, uint64_t *bounds,
    size_t bounds_numbers);

/* The flow arrow of the square in a row and a column, after the newest step kept. */
uint32_t flood_arrow(size_t rows, size_t columns, uint64_t square_side, const uint8_t *marks, size_t marks_numbers,
    const uint32_t *depths, size_t depths_numbers, const uint32_t *records, size_t records_numbers, const uint64_t *run,
    size_t run_numbers, size_t row, size_t column, double *speeds, size_t speeds_numbers);

/* The wet rows, and their count. */
uint32_t flood_wet_rows(size_t rows, size_t columns, const uint8_t *marks, size_t marks_numbers, const uint32_t *depths,
    size_t depths_numbers, uint32_t wet_depth, uint64_t *wet, size_t wet_numbers, uint64_t *count,
    size_t count_numbers);

/* Reads a sheet into rooms. */
uint32_t flood_read_sheet(const uint8_t *text, size_t text_numbers, uint8_t *marks, size_t marks_numbers,
    uint32_t *beds, size_t beds_numbers, uint32_t *roughness, size_t roughness_numbers, uint32_t *rates,
    size_t rates_numbers, uint32_t *depths, size_t depths_numbers, uint32_t *rain,
    size_t rain_numbers /* FLOOD_RAIN_ROOM */, uint32_t *inflow, size_t inflow_numbers /* FLOOD_INFLOW_ROOM */,
    uint64_t *heading, size_t heading_numbers, uint64_t *line, size_t line_numbers);

/* What `meadow` prints of a text, at the start of out, and its length; 0 and nothing where out is shorter than what always suffices. */
size_t flood_meadow(const uint8_t *text, size_t text_numbers, uint8_t *out, size_t out_numbers);

#ifdef __cplusplus
}
#endif

#endif
