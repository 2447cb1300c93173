/* Calls flood_run_to_boards from C on document 01's own sheet, by display.h and flood.h, and compares with what that document works by hand. With
   the word `layout` it says where a board's fields lie. */
#include <stdio.h>
#include <string.h>

#include "../../crates/display_exports/display.h"
#include "../../crates/exports/flood.h"

enum { record = FLOOD_RECORD_NUMBERS(1, 2), squares = 2 };

static int failed = 0;

static void expect(const char *what, uint64_t got, uint64_t wanted)
{
    if (got == wanted)
        return;
    printf("display: %s is %llu and should be %llu\n", what, (unsigned long long)got, (unsigned long long)wanted);
    failed = 1;
}

static void expect_board(const char *what, const struct flood_board *board, uint32_t highest, bool reached, uint64_t first)
{
    char field[80];
    snprintf(field, sizeof field, "the highest of %s", what);
    expect(field, board->highest, highest);
    snprintf(field, sizeof field, "whether it was reached, of %s", what);
    expect(field, board->reached, reached);
    snprintf(field, sizeof field, "the first clock of %s", what);
    expect(field, board->first, first);
}

/* tests/outside/layout.rs says the same of the board that Rust programs lend. */
static int layout(void)
{
#define PLACE(field) printf("%s %zu\n", #field, offsetof(struct flood_board, field))
    PLACE(row);
    PLACE(column);
    PLACE(mark);
    PLACE(highest);
    PLACE(reached);
    PLACE(first);
    printf("whole %zu\n", sizeof(struct flood_board));
    return 0;
}

/* Document 01's two squares and the run over them. */
struct world {
    uint64_t rules[FLOOD_RULES_NUMBERS], run[FLOOD_RUN_NUMBERS], steps[FLOOD_STEPS_NUMBERS];
    uint8_t marks[squares];
    uint32_t beds[squares], roughness[squares], rates[squares], depths[squares], lasts[squares], records[record];
};

static const struct world start = {
    .rules = {1, 100, 1000, 1000, 1000, 10000, 1},
    .run = {0, 1000, 0, 0, 0, 0},
    .steps = {99},
    .marks = {1, 1},
    .roughness = {100, 100},
    .depths = {1000, 0},
};

static uint32_t watch(struct world *w, uint64_t end, size_t run_numbers, struct flood_board *boards, size_t count)
{
    uint32_t none[1] = {0};
    return flood_run_to_boards(1, squares, w->rules, FLOOD_RULES_NUMBERS, end, w->marks, squares, w->beds, squares, w->roughness, squares, w->rates, squares, none, 0, none, 0, w->depths, squares, w->lasts, squares, w->records, record, w->run, run_numbers, w->steps, FLOOD_STEPS_NUMBERS, boards, count);
}

/* Two seconds: the west square has 1000, 969 and 941, the east one 0, 31 and 59. */
static void worked(void)
{
    struct world w = start;
    struct flood_board boards[4] = {
        {.row = 0, .column = 1, .mark = 31, .highest = 7, .reached = false, .first = 7},
        {.row = 0, .column = 1, .mark = 60, .highest = 4000000000, .reached = true, .first = 7},
        {.row = 0, .column = 0, .mark = 1000},
        {.row = 0, .column = 1, .mark = 0},
    };
    expect("a run with boards", watch(&w, 2000, FLOOD_RUN_NUMBERS, boards, 4), FLOOD_DONE);
    expect("steps", w.steps[0], 2);
    expect("clock", w.run[0], 2000);
    expect("west depth", w.depths[0], 941);
    expect("east depth", w.depths[1], 59);
    expect_board("a mark that the first step reaches", &boards[0], 59, true, 1000);
    expect_board("a mark that is never reached", &boards[1], 59, false, 0);
    expect_board("a mark that the start reaches", &boards[2], 1000, true, 0);
    expect_board("a mark of 0", &boards[3], 59, true, 0);
    expect("the second board's row", boards[1].row, 0);
    expect("the second board's column", boards[1].column, 1);
    expect("the second board's mark", boards[1].mark, 60);
}

/* A refused call leaves what was lent. */
static void refused(void)
{
    static const struct flood_board lent = {.row = 0, .column = 1, .mark = 31, .highest = 7, .reached = true, .first = 9};
    struct flood_board boards[FLOOD_MOST_BOARDS + 1], off = lent;
    struct world w = start;
    for (size_t at = 0; at < FLOOD_MOST_BOARDS + 1; at++)
        boards[at] = lent;
    expect("no board", watch(&w, 0, FLOOD_RUN_NUMBERS, boards, 0), FLOOD_DONE);
    w = start;
    expect("sixteen boards", watch(&w, 0, FLOOD_RUN_NUMBERS, boards, FLOOD_MOST_BOARDS), FLOOD_DONE);
    w = start;
    boards[0] = lent;
    expect("seventeen boards", watch(&w, 0, FLOOD_RUN_NUMBERS, boards, FLOOD_MOST_BOARDS + 1), FLOOD_REFUSED_BOARD);
    expect("a run of a wrong size", watch(&w, 2000, FLOOD_RUN_NUMBERS - 1, boards, 1), FLOOD_REFUSED_SHAPE);
    off.column = 2;
    expect("a board off the grid", watch(&w, 2000, FLOOD_RUN_NUMBERS, &off, 1), FLOOD_REFUSED_BOARD);
    off = lent;
    off.mark = 100000001;
    expect("a mark too deep", watch(&w, 2000, FLOOD_RUN_NUMBERS, &off, 1), FLOOD_REFUSED_BOARD);
    expect("an end that is no multiple, before the mark", watch(&w, 1500, FLOOD_RUN_NUMBERS, &off, 1), FLOOD_REFUSED_RULES);
    expect("its highest as lent", off.highest, 7);
    expect_board("a board of a refused call", &boards[0], 7, true, 9);
    expect("the steps of a refused call", w.steps[0], 99);
    expect("the world of a refused call", memcmp(&w, &start, sizeof w), 0);
}

int main(int count, char **words)
{
    if (count == 2 && strcmp(words[1], "layout") == 0)
        return layout();
    expect("the bytes of a board", sizeof(struct flood_board), FLOOD_BOARD_BYTES);
    worked();
    refused();
    if (!failed)
        printf("display: C lends boards as display.h declares them\n");
    return failed;
}
