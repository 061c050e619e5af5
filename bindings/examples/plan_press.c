/* Two machines at a press, each a thread: the loader puts plates into the press and takes them out, and the press
   closes in between (docs/FROM_C.md, "Another plant"). Each runs its motor only while the word lets it, and has it off
   and at rest before its next call.
   cc -pthread plan_press.c $(pkg-config --cflags --libs bagunjoki_plan) */
#include <bagunjoki_plan.h>
#include <pthread.h>
#include <sched.h>
#include <stdio.h>

/* What `plan header` prints of this plan, as far as it is used here: numbers, motors and bytes. */
#define PLAN_MACHINE_LOADER 0
#define PLAN_MACHINE_PRESS 1
#define PLAN_ZONE_INTERIOR 0
#define PLAN_POSE_PRESS_LOAD 0
#define PLAN_POSE_PRESS_UNLOAD 1
#define PLAN_POSE_PRESS_CLOSED 2
#define PLAN_POSE_PRESS_TRAVELLING 3
#define PLAN_MASK_RAM 0x1B
#define PLAN_PATTERN_RAM 0x09
#define PLAN_MASK_ARM 0x03
#define PLAN_PATTERN_ARM 0x02
#define PLAN_MAY_RUN(word, motor) (((word) & PLAN_MASK_##motor) == PLAN_PATTERN_##motor)
static const uint8_t PLAN_BYTES[] = {
    2, 1, 4, 2,
    1, 0, 1, 0, 1, 1, 1, 0,
    1, 1, 3, 0, 0, 0, 0, 0, 0, 0, 0, 0,
    1, 1, 4, 0, 0, 0, 0, 0, 0, 0, 0, 0,
    1, 1, 1, 0, 0, 0, 0, 0, 0, 0, 0, 0,
    1, 0, 2, 0, 0, 0, 0, 0, 0, 0, 0, 0,
    0, 1,
};

enum { ROUNDS = 1000 };

enum motor { NO_MOTOR, RAM, ARM };

/* A step is a call. Before it a motor has run, if there is one. */
struct step {
    uint8_t verb, object;
    enum motor motor;
};

/* Whether the word lets a motor run. A step without a motor needs no leave. */
static bool may_run(uint64_t now, enum motor motor) {
    switch (motor) {
    case RAM: return PLAN_MAY_RUN(now, RAM);
    case ARM: return PLAN_MAY_RUN(now, ARM);
    default: return true;
    }
}

/* The press has the interior to itself while it moves and while it is closed. */
static const struct step press_program[] = {
    {BAGUNJOKI_PLAN_CLAIM, PLAN_ZONE_INTERIOR, NO_MOTOR},
    {BAGUNJOKI_PLAN_SET_POSE, PLAN_POSE_PRESS_TRAVELLING, NO_MOTOR},
    {BAGUNJOKI_PLAN_SET_POSE, PLAN_POSE_PRESS_LOAD, RAM},
    {BAGUNJOKI_PLAN_YIELD, PLAN_ZONE_INTERIOR, NO_MOTOR},
    {BAGUNJOKI_PLAN_TAKE, PLAN_ZONE_INTERIOR, NO_MOTOR},
    {BAGUNJOKI_PLAN_SET_POSE, PLAN_POSE_PRESS_TRAVELLING, NO_MOTOR},
    {BAGUNJOKI_PLAN_SET_POSE, PLAN_POSE_PRESS_CLOSED, RAM},
    {BAGUNJOKI_PLAN_SET_POSE, PLAN_POSE_PRESS_TRAVELLING, NO_MOTOR},
    {BAGUNJOKI_PLAN_SET_POSE, PLAN_POSE_PRESS_UNLOAD, RAM},
    {BAGUNJOKI_PLAN_GIVE, PLAN_ZONE_INTERIOR, NO_MOTOR},
};

/* The loader waits until its arm may be in the press, which has then handed the interior over. The arm is out again
   before the calls that end that. */
static const struct step loader_program[] = {
    {BAGUNJOKI_PLAN_GIVE, PLAN_ZONE_INTERIOR, ARM},
    {BAGUNJOKI_PLAN_TAKE, PLAN_ZONE_INTERIOR, ARM},
    {BAGUNJOKI_PLAN_RELEASE, PLAN_ZONE_INTERIOR, NO_MOTOR},
};

struct machine {
    const char *name;
    uint8_t number;
    const struct step *program;
    unsigned length;
    unsigned done, driven;
    uint8_t stopped_by;
};

static bagunjoki_plan_opened plan;
static bagunjoki_plan_word plant;

/* What a machine waits for: the other one has the zone, nobody has it, or others were quicker. */
static bool waits(bagunjoki_plan_reply reply) {
    return reply.answer == BAGUNJOKI_PLAN_HELD || reply.answer == BAGUNJOKI_PLAN_NOT_OWNER ||
           reply.answer == BAGUNJOKI_PLAN_BUSY;
}

static void *run(void *given) {
    struct machine *machine = given;
    unsigned rounds = 0, at = 0;
    while (rounds < ROUNDS) {
        const struct step *step = &machine->program[at];
        if (!may_run(bagunjoki_plan_load(&plant), step->motor)) {
            sched_yield(); /* (the motor is off) */
            continue;
        }
        /* here the motor runs, until it is off and at rest */
        bagunjoki_plan_renew(&plan, &plant, 5000, 0, 8);
        bagunjoki_plan_reply reply =
            bagunjoki_plan_ask(&plan, &plant, machine->number, step->verb, step->object, 8);
        if (reply.answer != BAGUNJOKI_PLAN_DONE) {
            if (waits(reply)) {
                sched_yield();
                continue;
            }
            machine->stopped_by = reply.answer; /* a refusal that the program doesn't know: here its motors stop */
            return NULL;
        }
        machine->done++;
        machine->driven += step->motor != NO_MOTOR;
        at++;
        if (at == machine->length) {
            at = 0;
            rounds++;
        }
    }
    return NULL;
}

int main(void) {
    struct machine machines[] = {
        {"loader", PLAN_MACHINE_LOADER, loader_program, 3, 0, 0, 0},
        {"press", PLAN_MACHINE_PRESS, press_program, 10, 0, 0, 0},
    };
    pthread_t threads[2];
    /* a plate on the loader's hand, none in the press */
    plan = bagunjoki_plan_open(PLAN_BYTES, sizeof PLAN_BYTES);
    uint64_t start = bagunjoki_plan_start(&plan, (const uint8_t *)"10", 2, 0);
    if (start == BAGUNJOKI_PLAN_NO_WORD) return 1;
    bagunjoki_plan_begin(&plant, start);
    for (int k = 0; k < 2; k++)
        if (pthread_create(&threads[k], NULL, run, &machines[k])) return 1;
    for (int k = 0; k < 2; k++) pthread_join(threads[k], NULL);
    for (int k = 0; k < 2; k++)
        printf("%s: %u calls done, its motor run %u times, stopped by %u\n", machines[k].name, machines[k].done,
               machines[k].driven, machines[k].stopped_by);
    return machines[0].stopped_by || machines[1].stopped_by;
}
