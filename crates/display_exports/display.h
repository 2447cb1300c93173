/* Level boards in C: a run to an end that keeps boards. Made from crates/display and crates/display_exports by tools/header.py, and kept true by
   tests/header.py. It stands beside flood.h, whose first words hold here too: what a caller owes, what each array has, and what numbers say.
   A release's libflood.a and libflood.so have this call beside those of flood.h. Built apart, libdisplay_exports.a has this call alone and rests on
   nothing of libexports.a; a program that makes calls of both headers then links both.

   flood_run_to_boards is flood_run_to_wet with one array more, the boards, which is followed by how many there are. It gives and writes just
   what flood_run_to_wet does, but for what 13 refuses: that comes after 1 to 6 and before any step, also where no step would be made.

   A board keeps its row, its column and its mark, a depth in micrometres. Whatever else is lent in it is set anew by each call:
     highest     the greatest depth of its square over the starting state and every state after a step
     reached     whether one of these states was at least as deep as the mark; a mark of 0 is reached at the start
     first       the clock of the first such state, which may be 0; and 0 where there was none
   No board is fine, its pointer being not null all the same; several may be on one square. A board's `reached` is lent as 0 or 1.

   Refused by 1 to 6 or by 13 the call leaves the boards as they were lent, and every other array too. Refused by 7, 8, 9 or 15 it has made the
   steps that `steps` tells, and the boards hold what the states before the step refused gave.

   A board as it lies in memory, as C lays it out by itself:
     row         8 bytes from byte 0 on
     column      8 bytes from byte 8 on
     mark        4 bytes from byte 16 on
     highest     4 bytes from byte 20 on
     reached     1 byte from byte 24 on
     first       8 bytes from byte 32 on
   40 bytes in all. What lies between its fields is not looked at.

   The call does nothing but write the arrays lent to it, as those of flood.h. This much of the stack suffices, as tests/stack.sh measures on the
   largest grid:
     flood_run_to_boards 192 KiB */
#ifndef DISPLAY_H
#define DISPLAY_H

#include <stdbool.h>
#include <stddef.h>
#include <stdint.h>

#ifdef __cplusplus
extern "C" {
#endif

#define FLOOD_REFUSED_BOARD 13 /* over sixteen boards, a board off the grid or on a closed square, or a mark above 100,000,000 */

#define FLOOD_MOST_BOARDS 16
#define FLOOD_BOARDS_STACK_BYTES (192 * 1024) /* suffice for every call */

/* A board's square and mark, which it keeps; the highest depth seen there, whether the mark was reached, and the clock when it first was (0 where
   it was not). Laid out as in C and with no enum within, so that other languages can lend a list of them. */
struct flood_board {
    size_t row;
    size_t column;
    uint32_t mark;
    uint32_t highest;
    bool reached;
    uint64_t first;
};
#define FLOOD_BOARD_BYTES 40 /* of one */

/* Steps by the wet walk to an end of the clock, and how many were made, with a list of boards refreshed at the start and after each step. */
uint32_t flood_run_to_boards(size_t rows, size_t columns, const uint64_t *rules, size_t rules_numbers, uint64_t end,
    const uint8_t *marks, size_t marks_numbers, const uint32_t *beds, size_t beds_numbers, const uint32_t *roughness,
    size_t roughness_numbers, const uint32_t *rates, size_t rates_numbers, const uint32_t *rain,
    size_t rain_numbers /* FLOOD_RAIN_NUMBERS(its rows) */, const uint32_t *inflow,
    size_t inflow_numbers /* FLOOD_INFLOW_NUMBERS(its rows) */, uint32_t *depths, size_t depths_numbers,
    uint32_t *lasts, size_t lasts_numbers, uint32_t *records, size_t records_numbers, uint64_t *run, size_t run_numbers,
    uint64_t *steps, size_t steps_numbers, struct flood_board *boards, size_t boards_count);

#ifdef __cplusplus
}
#endif

#endif
