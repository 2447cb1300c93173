/* The evening of trials in C: at ten minutes a hatch is opened three times for forty steps, disliked and taken back each time; then the run goes on
   to the sheet's end. What it prints is what `meadow` prints of the sheet: a trial taken back was never made.

       cc -std=c99 -Iinclude examples/evening.c lib/libflood.a -o evening
       ./evening samples/walled-evening.sheet */
#include <stdio.h>
#include <stdlib.h>
#include <string.h>

#include "flood.h"

enum { MOST_SQUARES = 64 * 64, OPENING = 40, TEN_MINUTES = 600000, A_WEEK = 604800000 };

static uint8_t text[65536], marks[MOST_SQUARES];
static uint32_t beds[MOST_SQUARES], roughness[MOST_SQUARES], rates[MOST_SQUARES], depths[MOST_SQUARES], lasts[MOST_SQUARES], before[MOST_SQUARES];
/* a row more than a sheet can have, for the hatch that is tried */
static uint32_t rain[FLOOD_RAIN_ROOM], inflow[FLOOD_INFLOW_ROOM + FLOOD_INFLOW_WIDTH], *records;
static uint64_t heading[FLOOD_HEADING_NUMBERS], line[FLOOD_LINE_NUMBERS], run[FLOOD_RUN_NUMBERS], steps[FLOOD_STEPS_NUMBERS];
static const uint64_t *const rules = heading + FLOOD_HEADING_RULES;
static size_t rows, columns, squares, record_numbers, rain_rows, inflow_rows;

/* a call that is refused ends the program */
static void done(const char *what, uint32_t number)
{
    if (number == FLOOD_DONE)
        return;
    fprintf(stderr, "evening: %s is refused by %u, line %llu\n", what, (unsigned)number, (unsigned long long)line[0]);
    exit(1);
}

static void read_sheet(const char *name)
{
    FILE *file = fopen(name, "rb");
    size_t length;
    if (!file) {
        perror(name);
        exit(1);
    }
    length = fread(text, 1, sizeof text, file);
    fclose(file);
    done("the sheet", flood_read_sheet(text, length, marks, MOST_SQUARES, beds, MOST_SQUARES, roughness, MOST_SQUARES, rates, MOST_SQUARES,
        depths, MOST_SQUARES, rain, FLOOD_RAIN_ROOM, inflow, FLOOD_INFLOW_ROOM, heading, FLOOD_HEADING_NUMBERS, line, FLOOD_LINE_NUMBERS));
    rows = heading[0];
    columns = heading[1];
    squares = rows * columns;
    rain_rows = heading[FLOOD_HEADING_RAIN_ROWS];
    inflow_rows = heading[FLOOD_HEADING_INFLOW_ROWS];
    record_numbers = OPENING * FLOOD_RECORD_NUMBERS(rows, columns);
    records = calloc(record_numbers, sizeof *records);
    if (!records)
        exit(1);
    done("a fresh run", flood_fresh(rows, columns, rules, FLOOD_RULES_NUMBERS, marks, squares, lasts, squares, records, record_numbers,
        run, FLOOD_RUN_NUMBERS));
}

/* the heading tells rows, and the calls want numbers: the macros are the way from one to the other */
static void step(void)
{
    done("a step", flood_step_wet(rows, columns, rules, FLOOD_RULES_NUMBERS, marks, squares, beds, squares, roughness, squares, rates, squares,
        rain, FLOOD_RAIN_NUMBERS(rain_rows), inflow, FLOOD_INFLOW_NUMBERS(inflow_rows), depths, squares, lasts, squares,
        records, record_numbers, run, FLOOD_RUN_NUMBERS));
}

static uint64_t run_to(uint64_t end)
{
    done("the run", flood_run_to_wet(rows, columns, rules, FLOOD_RULES_NUMBERS, end, marks, squares, beds, squares, roughness, squares,
        rates, squares, rain, FLOOD_RAIN_NUMBERS(rain_rows), inflow, FLOOD_INFLOW_NUMBERS(inflow_rows), depths, squares, lasts, squares,
        records, record_numbers, run, FLOOD_RUN_NUMBERS, steps, FLOOD_STEPS_NUMBERS));
    return steps[0];
}

static void try_opening(uint32_t litres)
{
    const uint32_t hatch[FLOOD_INFLOW_WIDTH] = {4, 1, 0, A_WEEK, litres};
    int made;
    memcpy(before, depths, sizeof depths);
    memcpy(inflow + FLOOD_INFLOW_NUMBERS(inflow_rows), hatch, sizeof hatch);
    inflow_rows++;
    for (made = 0; made < OPENING; made++)
        step();
    fprintf(stderr, "%u l/s: row 4, column 1 stands at %u micrometres after forty steps; taken back\n", (unsigned)litres,
        (unsigned)depths[4 * columns + 1]);
    for (made = 0; made < OPENING; made++)
        done("a take-back", flood_take_back(rows, columns, marks, squares, depths, squares, lasts, squares, records, record_numbers,
            run, FLOOD_RUN_NUMBERS));
    inflow_rows--;
    if (memcmp(before, depths, sizeof depths) != 0) {
        fprintf(stderr, "evening: a trial has left a mark\n");
        exit(1);
    }
}

static void tell(uint64_t made)
{
    size_t square;
    for (square = 0; square < squares; square++)
        if (marks[square] != FLOOD_MARK_CLOSED)
            printf("cell\t%u\t%u\t%u\n", (unsigned)(square / columns), (unsigned)(square % columns), (unsigned)depths[square]);
    printf("out\t%llu\nsoak\t%llu\nsteps\t%llu\nclock\t%llu\n", (unsigned long long)run[2], (unsigned long long)run[5],
        (unsigned long long)made, (unsigned long long)run[0]);
}

int main(int words, char **word)
{
    uint64_t made;
    if (words != 2) {
        fprintf(stderr, "usage: evening SHEET\n");
        return 2;
    }
    read_sheet(word[1]);
    made = run_to(TEN_MINUTES);
    try_opening(4000);
    try_opening(1500);
    try_opening(300);
    tell(made + run_to(heading[FLOOD_HEADING_END]));
    return 0;
}
