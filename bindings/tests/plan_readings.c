/* Random calls at the two presses of examples/plans, by their header. After each call what the header's macros read of
   a zone is what the watch is shown of it. The rack's field has three bits, those of the presses have five. It prints
   of each zone which postures, as bits by their numbers, and whether a plate were seen. */
#include <bagunjoki_plan.h>
#include <stdio.h>
#include "two_presses.h"

enum { CALLS = 200000 };

/* What is read of a zone, and its parties. */
typedef struct {
    uint8_t zone, host, guest;
    unsigned owner, plate, posture;
} reading;

static bool is_shown(const bagunjoki_plan_opened *plan, uint64_t word, reading read) {
    bagunjoki_plan_reply shown =
        bagunjoki_plan_step(plan, word, BAGUNJOKI_PLAN_WATCH, BAGUNJOKI_PLAN_INQUIRE, read.zone);
    uint8_t owner = read.owner == PLAN_OWNER_FREE   ? BAGUNJOKI_PLAN_NOBODY
                    : read.owner == PLAN_OWNER_HOST ? read.host
                                                    : read.guest;
    return shown.answer == BAGUNJOKI_PLAN_SHOWN && shown.owner == owner && shown.plate == (read.plate == 1)
           && shown.posture == read.posture;
}

/* All that is read of a word. */
#define READ(NAME)                                                                                        \
    {PLAN_ZONE_##NAME, PLAN_HOST_OF_##NAME, PLAN_GUEST_OF_##NAME, (unsigned)PLAN_OWNER_OF_##NAME(word),  \
     (unsigned)PLAN_PLATE_IN_##NAME(word), (unsigned)PLAN_POSTURE_OF_##NAME(word)}

int main(void) {
    static unsigned postures[PLAN_ZONES], plates[PLAN_ZONES];
    bagunjoki_plan_opened plan = bagunjoki_plan_open(PLAN_BYTES, sizeof PLAN_BYTES);
    uint64_t word = bagunjoki_plan_start(&plan, (const uint8_t *)"1100", PLAN_PLACES, 0), seed = 1;
    for (int k = 0; k < CALLS; k++) {
        seed = seed * 6364136223846793005u + 1442695040888963407u;
        uint64_t drawn = seed >> 33;
        uint8_t machine = drawn % PLAN_MACHINES, verb = drawn / 4 % 7, object = drawn / 64 % PLAN_POSES;
        word = bagunjoki_plan_restamp(&plan, bagunjoki_plan_step(&plan, word, machine, verb, object).next, 0);
        reading read[PLAN_ZONES] = {READ(RACK), READ(LEFT), READ(RIGHT)};
        for (int zone = 0; zone < PLAN_ZONES; zone++) {
            if (!is_shown(&plan, word, read[zone])) {
                printf("zone %d of %llx is read wrongly\n", zone, (unsigned long long)word);
                return 1;
            }
            postures[zone] |= 1u << read[zone].posture;
            plates[zone] |= read[zone].plate;
        }
    }
    for (int zone = 0; zone < PLAN_ZONES; zone++)
        printf("%s: %x %u\n", PLAN_NAMES_OF_ZONES[zone], postures[zone], plates[zone]);
    return 0;
}
