/* Two cranes in a hall, each a thread, whose bays are on two words (docs/FROM_C.md, "Another plant"): each call names the
   word of its bay. Beams lie in the bays a, on word 0, and k, on word 1. A crane that has bay a waits for bay k, and never
   the other way round: so both go on.
   cc -pthread plant_hall.c $(pkg-config --cflags --libs bagunjoki_plan) */
#include <bagunjoki_plan.h>
#include <pthread.h>
#include <sched.h>
#include <stdio.h>

/* What `plan header --words` prints of examples/plants/hall_in_order.toml. All that begins with PLAN0_ is of word 0. */
#include "plant_hall.h"

enum { ROUNDS = 1000, TRIES = 8, RENEWED_AT = 5000 };

/* A step is a call on a word, by the numbers of that word. */
struct step {
    uint8_t word, verb, object;
};

static const struct step north_program[] = {
    {0, BAGUNJOKI_PLAN_CLAIM, PLAN0_ZONE_A},   {0, BAGUNJOKI_PLAN_SET_POSE, PLAN0_POSE_NORTH_ABOVE_A},
    {1, BAGUNJOKI_PLAN_CLAIM, PLAN1_ZONE_K},   {1, BAGUNJOKI_PLAN_RELEASE, PLAN1_ZONE_K},
    {0, BAGUNJOKI_PLAN_RELEASE, PLAN0_ZONE_A},
};

static const struct step south_program[] = {
    {1, BAGUNJOKI_PLAN_CLAIM, PLAN1_ZONE_K},   {1, BAGUNJOKI_PLAN_SET_POSE, PLAN1_POSE_SOUTH_ABOVE_K},
    {1, BAGUNJOKI_PLAN_RELEASE, PLAN1_ZONE_K}, {0, BAGUNJOKI_PLAN_CLAIM, PLAN0_ZONE_A},
    {1, BAGUNJOKI_PLAN_CLAIM, PLAN1_ZONE_K},   {1, BAGUNJOKI_PLAN_RELEASE, PLAN1_ZONE_K},
    {0, BAGUNJOKI_PLAN_RELEASE, PLAN0_ZONE_A},
};

/* A machine has one number on all words. */
struct crane {
    const char *name;
    uint8_t number;
    const struct step *program;
    unsigned length;
    unsigned done;
    uint8_t stopped_by;
};

/* Of each word its plan, and its state. */
static bagunjoki_plan_opened plans[PLANT_WORDS];
static bagunjoki_plan_word words[PLANT_WORDS];

/* What a crane waits for: the other one has the bay, or hasn't opened it yet, or others were quicker. */
static bool waits(bagunjoki_plan_reply reply) {
    return reply.answer == BAGUNJOKI_PLAN_HELD || reply.answer == BAGUNJOKI_PLAN_SHUT || reply.answer == BAGUNJOKI_PLAN_BUSY;
}

static void *run(void *given) {
    struct crane *crane = (struct crane *)given;
    unsigned rounds = 0, at = 0;
    while (rounds < ROUNDS) {
        const struct step *step = &crane->program[at];
        bagunjoki_plan_renew(&plans[step->word], &words[step->word], RENEWED_AT, 0, TRIES);
        bagunjoki_plan_reply reply = bagunjoki_plan_ask(&plans[step->word], &words[step->word], crane->number, step->verb,
                                                        step->object, TRIES);
        if (reply.answer != BAGUNJOKI_PLAN_DONE) {
            if (waits(reply)) {
                sched_yield();
                continue;
            }
            crane->stopped_by = reply.answer; /* a refusal that the program doesn't know */
            return NULL;
        }
        crane->done++;
        at++;
        if (at == crane->length) {
            at = 0;
            rounds++;
        }
    }
    return NULL;
}

/* Opens a word, with a digit for each of its places. Answers whether that is a start. */
static bool opens(unsigned word, const uint8_t *bytes, size_t length, const char *digits, size_t places) {
    plans[word] = bagunjoki_plan_open(bytes, length);
    uint64_t start = bagunjoki_plan_start(&plans[word], (const uint8_t *)digits, places, 0);
    if (start == BAGUNJOKI_PLAN_NO_WORD) return false;
    bagunjoki_plan_begin(&words[word], start);
    return true;
}

int main(void) {
    struct crane cranes[] = {
        {"north", PLAN0_MACHINE_NORTH, north_program, 5, 0, 0},
        {"south", PLAN0_MACHINE_SOUTH, south_program, 7, 0, 0},
    };
    pthread_t threads[2];
    if (!opens(0, PLAN0_BYTES, sizeof PLAN0_BYTES, "00", PLAN0_PLACES)) return 1;
    if (!opens(1, PLAN1_BYTES, sizeof PLAN1_BYTES, "", PLAN1_PLACES)) return 1;
    for (int k = 0; k < 2; k++)
        if (pthread_create(&threads[k], NULL, run, &cranes[k])) return 1;
    for (int k = 0; k < 2; k++) pthread_join(threads[k], NULL);
    for (int k = 0; k < 2; k++)
        printf("%s: %u calls done, stopped by %u\n", cranes[k].name, cranes[k].done, cranes[k].stopped_by);
    return cranes[0].stopped_by || cranes[1].stopped_by;
}
