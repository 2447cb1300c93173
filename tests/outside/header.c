/* Calls every function of flood.h from C on document 01's own sheet, and compares with what that document works by hand. */
#include <stdio.h>
#include <string.h>

#include "../../crates/exports/flood.h"

static int failed = 0;

static void expect(const char *what, uint64_t got, uint64_t wanted)
{
    if (got == wanted)
        return;
    printf("header: %s is %llu and should be %llu\n", what, (unsigned long long)got, (unsigned long long)wanted);
    failed = 1;
}

/* Five hatches of a litre a second on two squares of 1 m, told as so many numbers, give so many millimetres in a second. */
static void hatches(const uint64_t *rules, size_t numbers, uint64_t millimetres)
{
    enum { record = FLOOD_RECORD_NUMBERS(1, 2) };
    const uint8_t marks[2] = {FLOOD_MARK_OPEN, FLOOD_MARK_OPEN};
    const uint32_t beds[2] = {0, 0}, roughness[2] = {100, 100}, rates[2] = {0, 0}, rain[1] = {0};
    uint32_t inflow[FLOOD_INFLOW_NUMBERS(5)], depths[2] = {0, 0}, lasts[2], records[record] = {0};
    uint64_t run[FLOOD_RUN_NUMBERS];
    size_t hatch;
    for (hatch = 0; hatch < 5; hatch++) {
        const uint32_t row[FLOOD_INFLOW_WIDTH] = {0, hatch % 2, 0, 1000, 1};
        memcpy(inflow + FLOOD_INFLOW_NUMBERS(hatch), row, sizeof row);
    }
    lasts[0] = lasts[1] = 0;
    expect("fresh for hatches", flood_fresh(1, 2, rules, FLOOD_RULES_NUMBERS, marks, 2, lasts, 2, records, record, run, FLOOD_RUN_NUMBERS), FLOOD_DONE);
    expect("a step with hatches", flood_step(1, 2, rules, FLOOD_RULES_NUMBERS, marks, 2, beds, 2, roughness, 2, rates, 2, rain, FLOOD_RAIN_NUMBERS(0), inflow, numbers, depths, 2, lasts, 2, records, record, run, FLOOD_RUN_NUMBERS), FLOOD_DONE);
    expect("what hatches gave", depths[0] + depths[1], 1000 * millimetres);
    expect("what the record says was added", records[FLOOD_RECORD_HEAD + 5] + records[FLOOD_RECORD_HEAD + FLOOD_RECORD_SQUARE + 5], 1000 * millimetres);
}

int main(void)
{
    const char *sheet = "grid\t1\t2\t1\nrun\t100\t1000\t1000\t1000\t1000\t10000\t1\n"
                        "cell\t0\t0\to\t0\t100\t1000\t0\ncell\t0\t1\to\t0\t100\t0\t7200\n";
    const char *answer = "cell\t0\t0\t969\ncell\t0\t1\t31\nout\t0\nsoak\t0\nsteps\t1\nclock\t1000\n";
    const uint8_t *text = (const uint8_t *)sheet;
    enum { record = FLOOD_RECORD_NUMBERS(1, 2) };
    uint8_t marks[2] = {9, 9};
    uint32_t beds[2], roughness[2], rates[2], depths[2], lasts[2] = {7, 7}, records[record] = {0};
    uint32_t rain[FLOOD_RAIN_ROOM], inflow[FLOOD_INFLOW_ROOM];
    uint64_t heading[FLOOD_HEADING_NUMBERS], line[FLOOD_LINE_NUMBERS], run[FLOOD_RUN_NUMBERS], steps[FLOOD_STEPS_NUMBERS];
    const uint64_t *rules = heading + FLOOD_HEADING_RULES;
    uint32_t wet_depths[2], wet_lasts[2], wet_records[record];
    uint64_t wet_run[FLOOD_RUN_NUMBERS], wet_steps[FLOOD_STEPS_NUMBERS];
    uint64_t wet[1], count[FLOOD_COUNT_NUMBERS];
    uint64_t bounds[FLOOD_BOUNDS_NUMBERS];
    double speeds[FLOOD_SPEED_NUMBERS];
    static uint8_t out[FLOOD_OUT_ROOM];

    expect("read", flood_read_sheet(text, strlen(sheet), marks, 2, beds, 2, roughness, 2, rates, 2, depths, 2, rain, FLOOD_RAIN_ROOM, inflow, FLOOD_INFLOW_ROOM, heading, FLOOD_HEADING_NUMBERS, line, FLOOD_LINE_NUMBERS), FLOOD_DONE);
    expect("columns", heading[1], 2);
    expect("edge slope", rules[5], 10000);
    expect("edition", rules[6], 1);
    expect("soak rate", rates[1], 7200);
    expect("end", heading[FLOOD_HEADING_END], 1000);
    expect("rain and inflow rows", heading[FLOOD_HEADING_RAIN_ROWS] + heading[FLOOD_HEADING_INFLOW_ROWS], 0);
    expect("the marks", marks[0] + marks[1], 2 * FLOOD_MARK_OPEN);
    expect("fresh", flood_fresh(1, 2, rules, FLOOD_RULES_NUMBERS, marks, 2, lasts, 2, records, record, run, FLOOD_RUN_NUMBERS), FLOOD_DONE);
    expect("last leaving", lasts[0] + lasts[1], 0);
    expect("step", flood_step(1, 2, rules, FLOOD_RULES_NUMBERS, marks, 2, beds, 2, roughness, 2, rates, 2, rain, 0, inflow, 0, depths, 2, lasts, 2, records, record, run, FLOOD_RUN_NUMBERS), FLOOD_DONE);
    expect("west depth", depths[0], 969);
    expect("east depth", depths[1], 31);
    expect("clock", run[0], 1000);
    expect("arrow", flood_arrow(1, 2, rules[0], marks, 2, depths, 2, records, record, run, FLOOD_RUN_NUMBERS, 0, 0, speeds, FLOOD_SPEED_NUMBERS), FLOOD_MOVING);
    expect("east speed as rounded once", speeds[0] == 62000.0 / 1000000.0, 1);
    expect("wet rows", flood_wet_rows(1, 2, marks, 2, depths, 2, 100, wet, 1, count, FLOOD_COUNT_NUMBERS), FLOOD_DONE);
    expect("wet mask", wet[0], 1);
    expect("wet count", count[0], 1);
    expect("take-back", flood_take_back(1, 2, marks, 2, depths, 2, lasts, 2, records, record, run, FLOOD_RUN_NUMBERS), FLOOD_DONE);
    expect("depth before", depths[0], 1000);
    expect("step by the wet walk", flood_step_wet(1, 2, rules, FLOOD_RULES_NUMBERS, marks, 2, beds, 2, roughness, 2, rates, 2, rain, 0, inflow, 0, depths, 2, lasts, 2, records, record, run, FLOOD_RUN_NUMBERS), FLOOD_DONE);
    expect("west depth by the wet walk", depths[0], 969);
    expect("east depth by the wet walk", depths[1], 31);
    expect("clock by the wet walk", run[0], 1000);
    expect("take-back of it", flood_take_back(1, 2, marks, 2, depths, 2, lasts, 2, records, record, run, FLOOD_RUN_NUMBERS), FLOOD_DONE);
    expect("depth before it", depths[0], 1000);
    expect("one more take-back", flood_take_back(1, 2, marks, 2, depths, 2, lasts, 2, records, record, run, FLOOD_RUN_NUMBERS), FLOOD_REFUSED_NONE_KEPT);
    expect("run of a wrong size", flood_fresh(1, 2, rules, FLOOD_RULES_NUMBERS, marks, 2, lasts, 2, records, record, run, FLOOD_RUN_NUMBERS - 1), FLOOD_REFUSED_SHAPE);
    expect("rules of a wrong size", flood_fresh(1, 2, rules, FLOOD_RULES_NUMBERS + 1, marks, 2, lasts, 2, records, record, run, FLOOD_RUN_NUMBERS), FLOOD_REFUSED_SHAPE);
    expect("no room for a record", flood_fresh(1, 2, rules, FLOOD_RULES_NUMBERS, marks, 2, lasts, 2, records, record - 1, run, FLOOD_RUN_NUMBERS), FLOOD_REFUSED_RUN);
    expect("figures before a run", flood_step_bounds(rules, FLOOD_RULES_NUMBERS, 0, 2000, bounds, FLOOD_BOUNDS_NUMBERS), FLOOD_BOUNDED);
    expect("most steps", bounds[0], 2);
    expect("least steps", bounds[1], 2);
    expect("figures from a clock between", flood_step_bounds(rules, FLOOD_RULES_NUMBERS, 1, 2000, bounds, FLOOD_BOUNDS_NUMBERS), FLOOD_NOT_BOUNDED);
    memcpy(wet_depths, depths, sizeof depths);
    memcpy(wet_lasts, lasts, sizeof lasts);
    memcpy(wet_records, records, sizeof records);
    memcpy(wet_run, run, sizeof run);
    expect("run to an end", flood_run_to(1, 2, rules, FLOOD_RULES_NUMBERS, 2000, marks, 2, beds, 2, roughness, 2, rates, 2, rain, 0, inflow, 0, depths, 2, lasts, 2, records, record, run, FLOOD_RUN_NUMBERS, steps, FLOOD_STEPS_NUMBERS), FLOOD_DONE);
    expect("steps", steps[0], 2);
    expect("west depth after two", depths[0], 941);
    expect("east depth after two, 2 of it soaked", depths[1], 57);
    expect("soaked", run[5], 2);
    expect("run to an end by the wet walk", flood_run_to_wet(1, 2, rules, FLOOD_RULES_NUMBERS, 2000, marks, 2, beds, 2, roughness, 2, rates, 2, rain, 0, inflow, 0, wet_depths, 2, wet_lasts, 2, wet_records, record, wet_run, FLOOD_RUN_NUMBERS, wet_steps, FLOOD_STEPS_NUMBERS), FLOOD_DONE);
    expect("steps by the wet walk", wet_steps[0], 2);
    expect("west depth after two by the wet walk", wet_depths[0], 941);
    expect("east depth after two by the wet walk", wet_depths[1], 57);
    expect("soaked by the wet walk", wet_run[5], 2);
    expect("records of both walks", memcmp(wet_records, records, sizeof records), 0);
    run[5] = 1;
    expect("a total below what the record soaked", flood_take_back(1, 2, marks, 2, depths, 2, lasts, 2, records, record, run, FLOOD_RUN_NUMBERS), FLOOD_REFUSED_RECORD);
    run[5] = 1000000000000000;
    expect("a total soaked that is full", flood_step(1, 2, rules, FLOOD_RULES_NUMBERS, marks, 2, beds, 2, roughness, 2, rates, 2, rain, 0, inflow, 0, depths, 2, lasts, 2, records, record, run, FLOOD_RUN_NUMBERS), FLOOD_REFUSED_SOAKED);
    expect("a total soaked that is full, by the wet walk", flood_step_wet(1, 2, rules, FLOOD_RULES_NUMBERS, marks, 2, beds, 2, roughness, 2, rates, 2, rain, 0, inflow, 0, depths, 2, lasts, 2, records, record, run, FLOOD_RUN_NUMBERS), FLOOD_REFUSED_SOAKED);
    hatches(rules, FLOOD_INFLOW_NUMBERS(5), 5);
    hatches(rules, 5, 1);
    expect("printed", flood_meadow(text, strlen(sheet), out, sizeof out), strlen(answer));
    expect("as document 01 prints it", memcmp(out, answer, strlen(answer)), 0);
    if (!failed)
        printf("header: C calls each of the 11 functions as flood.h declares them\n");
    return failed;
}
