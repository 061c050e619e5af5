/* Refusals stop a machine where they are faults of its line: the press claims its zone while the loader owns it. Each
   line of this says what the faults are, and what one turn answers and leaves. */
#include <bagunjoki_plan.h>
#include <stdio.h>

/* The press of examples/plan_press.c. */
static const uint8_t PLAN_BYTES[] = {
    2, 1, 4, 2,
    1, 0, 1, 0, 1, 1, 1, 0,
    1, 1, 3, 0, 0, 0, 0, 0, 0, 0, 0, 0,
    1, 1, 4, 0, 0, 0, 0, 0, 0, 0, 0, 0,
    1, 1, 1, 0, 0, 0, 0, 0, 0, 0, 0, 0,
    1, 0, 2, 0, 0, 0, 0, 0, 0, 0, 0, 0,
    0, 1,
};

enum { LOADER, PRESS, INTERIOR = 0 };
enum { LOAD, UNLOAD, CLOSED, TRAVELLING };

/* Faults of a claim; bits of no refusal and of one that always stops; and a fault of a wait. */
static const bagunjoki_plan_line lines[] = {
    {0, BAGUNJOKI_PLAN_CLAIM, INTERIOR, 0, 0},
    {0, BAGUNJOKI_PLAN_CLAIM, INTERIOR, 0, 1 << BAGUNJOKI_PLAN_HELD},
    {0, BAGUNJOKI_PLAN_CLAIM, INTERIOR, 0, 1 << BAGUNJOKI_PLAN_SHUT | 1 << BAGUNJOKI_PLAN_STOPPED},
    {0, BAGUNJOKI_PLAN_CLAIM, INTERIOR, 0, 1 << BAGUNJOKI_PLAN_HELD | 1 << BAGUNJOKI_PLAN_STOPPED},
    {0, BAGUNJOKI_PLAN_CLAIM, INTERIOR, 0, 1 << 11},
    {0, BAGUNJOKI_PLAN_CLAIM, INTERIOR, 0, 1 << BAGUNJOKI_PLAN_WORN},
    {0, BAGUNJOKI_PLAN_AWAIT, INTERIOR, 0, 1 << BAGUNJOKI_PLAN_HELD},
};

int main(void) {
    static const uint8_t before[][2] = {{BAGUNJOKI_PLAN_CLAIM, INTERIOR},
                                        {BAGUNJOKI_PLAN_SET_POSE, TRAVELLING},
                                        {BAGUNJOKI_PLAN_SET_POSE, LOAD},
                                        {BAGUNJOKI_PLAN_YIELD, INTERIOR}};
    bagunjoki_plan_opened plan = bagunjoki_plan_open(PLAN_BYTES, sizeof PLAN_BYTES);
    uint64_t word = bagunjoki_plan_start(&plan, (const uint8_t *)"10", 2, 0);
    for (size_t k = 0; k < sizeof before / sizeof *before; k++)
        word = bagunjoki_plan_step(&plan, word, PRESS, before[k][0], before[k][1]).next;
    for (uint8_t line = 0; line < sizeof lines / sizeof *lines; line++) {
        bagunjoki_plan_place place = {line, 0};
        bagunjoki_plan_turned turned =
            bagunjoki_plan_turn(&plan, word, PRESS, lines, sizeof lines / sizeof *lines, place, true, 0);
        printf("faults %u: answer %u, line %d, stopped by %u\n", lines[line].faults, turned.answer,
               turned.place.line - line, turned.place.stopped);
    }
    printf("a line has %u bytes\n", (unsigned)sizeof *lines);
    return 0;
}
