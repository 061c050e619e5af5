/* Two machines at a press, by turns: each goes through a program of calls, waits and runs of its motor, and the library
   says in each turn which motors are on (docs/FROM_C.md, "Another plant"). The switches are played here: a motor comes
   to its next switch after three turns. After every thousandth turn the machines go on as after a power cut.
   cc plan_turns.c $(pkg-config --cflags --libs bagunjoki_plan) */
#include <bagunjoki_plan.h>
#include <stdio.h>

/* What `plan header` prints of this plan, as far as it is used here. */
enum { LOADER, PRESS, INTERIOR = 0, RAM = 1, ARM = 2 };
enum { LOAD, UNLOAD, CLOSED, TRAVELLING };
static const uint8_t PLAN_BYTES[] = {
    2, 1, 4, 2,
    1, 0, 1, 0, 1, 1, 1, 0,
    1, 1, 3, 0, 0, 0, 0, 0, 0, 0, 0, 0,
    1, 1, 4, 0, 0, 0, 0, 0, 0, 0, 0, 0,
    1, 1, 1, 0, 0, 0, 0, 0, 0, 0, 0, 0,
    1, 0, 2, 0, 0, 0, 0, 0, 0, 0, 0, 0,
    0, 1,
};

enum { AT_UNLOAD, AT_LOAD, AT_CLOSED }; /* the press's switches */
enum { AT_HOME, IN_PRESS };             /* the loader's */

static const bagunjoki_plan_line press_program[] = {
    {0, BAGUNJOKI_PLAN_CLAIM, INTERIOR, 0, 0},      {0, BAGUNJOKI_PLAN_SET_POSE, TRAVELLING, 0, 0},
    {RAM, BAGUNJOKI_PLAN_RUN, 0, AT_LOAD, 0},       {0, BAGUNJOKI_PLAN_SET_POSE, LOAD, 0, 0},
    {0, BAGUNJOKI_PLAN_YIELD, INTERIOR, 0, 0},      {0, BAGUNJOKI_PLAN_AWAIT, INTERIOR, 0, 0},
    {0, BAGUNJOKI_PLAN_TAKE, INTERIOR, 0, 0},       {0, BAGUNJOKI_PLAN_SET_POSE, TRAVELLING, 0, 0},
    {RAM, BAGUNJOKI_PLAN_RUN, 0, AT_CLOSED, 0},     {0, BAGUNJOKI_PLAN_SET_POSE, CLOSED, 0, 0},
    {0, BAGUNJOKI_PLAN_SET_POSE, TRAVELLING, 0, 0}, {RAM, BAGUNJOKI_PLAN_RUN, 0, AT_UNLOAD, 0},
    {0, BAGUNJOKI_PLAN_SET_POSE, UNLOAD, 0, 0},     {0, BAGUNJOKI_PLAN_GIVE, INTERIOR, 0, 0},
};
static const bagunjoki_plan_line loader_program[] = {
    {0, BAGUNJOKI_PLAN_AWAIT, INTERIOR, 0, 0},  {ARM, BAGUNJOKI_PLAN_RUN, 0, IN_PRESS, 0},
    {ARM, BAGUNJOKI_PLAN_RUN, 0, AT_HOME, 0},   {0, BAGUNJOKI_PLAN_GIVE, INTERIOR, 0, 0},
    {0, BAGUNJOKI_PLAN_AWAIT, INTERIOR, 0, 0},  {ARM, BAGUNJOKI_PLAN_RUN, 0, IN_PRESS, 0},
    {ARM, BAGUNJOKI_PLAN_RUN, 0, AT_HOME, 0},   {0, BAGUNJOKI_PLAN_TAKE, INTERIOR, 0, 0},
    {0, BAGUNJOKI_PLAN_RELEASE, INTERIOR, 0, 0},
};

struct machine {
    const char *name;
    uint8_t number;
    const bagunjoki_plan_line *program;
    size_t count;
    unsigned switches, ran, rounds;
    bagunjoki_plan_place place; /* kept through a power cut by a program that stores it after each turn */
};

static bagunjoki_plan_opened plan;
static bagunjoki_plan_word plant;

/* One turn: the switches are read, and the motors set, once. */
static void turn(struct machine *machine) {
    uint8_t line = machine->place.line;
    uint32_t shown = UINT32_C(1) << machine->ran / 3 % machine->switches;
    bagunjoki_plan_turned turned = bagunjoki_plan_take_turn(&plan, &plant, machine->number, machine->program,
                                                            machine->count, &machine->place, true, shown, 8);
    machine->ran += turned.motors != 0; /* here the motors are set */
    machine->rounds += machine->place.line < line;
}

/* After a power cut: the word and the places are taken back as they were stored, if both machines are in step. */
static bool comes_back(uint64_t word, bagunjoki_plan_place of_loader, bagunjoki_plan_place of_press) {
    const bagunjoki_plan_line *programs[] = {loader_program, press_program};
    const size_t counts[] = {9, 14};
    const bagunjoki_plan_place places[] = {of_loader, of_press};
    return bagunjoki_plan_resume(&plan, &plant, word, programs, counts, places, 2) == BAGUNJOKI_PLAN_NOTHING;
}

int main(void) {
    struct machine loader = {"loader", LOADER, loader_program, 9, 2, 0, 0, {0, 0}};
    struct machine press = {"press", PRESS, press_program, 14, 3, 0, 0, {0, 0}};
    plan = bagunjoki_plan_open(PLAN_BYTES, sizeof PLAN_BYTES);
    /* a plate on the loader's hand, none in the press */
    uint64_t start = bagunjoki_plan_start(&plan, (const uint8_t *)"10", 2, 0);
    if (start == BAGUNJOKI_PLAN_NO_WORD) return 1;
    bagunjoki_plan_begin(&plant, start);
    for (int k = 0; k < 100000; k++) {
        turn(&loader);
        turn(&press);
        bagunjoki_plan_renew(&plan, &plant, 1000000, 0, 8);
        if (k % 1000 == 0 && !comes_back(bagunjoki_plan_load(&plant), loader.place, press.place)) return 1;
    }
    const struct machine *both[] = {&loader, &press};
    for (int k = 0; k < 2; k++)
        printf("%s: %u rounds, its motor on in %u turns, stopped by %u\n", both[k]->name, both[k]->rounds, both[k]->ran,
               both[k]->place.stopped);
    return loader.place.stopped || press.place.stopped;
}
