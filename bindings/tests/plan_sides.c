/* A blank goes through the press with two robots of examples/plans, by its header, call by call. The press's interior is
   one space with two sides, `in` and `out`. After each call the library's word is the one that was put together by hand,
   and so is what the header's macros read of it. Bits 0 and 1 say who owns the space, bit 2 is the flag of `in`, bits 3
   and 4 are its posture; bit 5 is the flag of `out`, bits 6 and 7 are its posture. Places follow, and the stamp from bit
   11. */
#include <bagunjoki_plan.h>
#include <stdio.h>
#include "press_two_robots.h"

enum { RAM = 1, LOADER_GUARD = 2, UNLOADER_GUARD = 4, LOADER_ARM = 8, UNLOADER_ARM = 16 };

/* What a word tells: the owner of the space, flags and postures of `in` and `out`, and which motors may run. */
typedef struct {
    unsigned owner, plate_in, plate_out, posture_in, posture_out, motors;
} told;

/* A call, the word after it, and what that tells. */
typedef struct {
    uint8_t machine, verb, object;
    uint64_t word;
    told tells;
} step;

#define LOADER PLAN_MACHINE_LOADER
#define PRESS PLAN_MACHINE_PRESS
#define UNLOADER PLAN_MACHINE_UNLOADER
#define HOST PLAN_OWNER_HOST
#define IN PLAN_ZONE_IN
#define OUT PLAN_ZONE_OUT

static const step STEPS[] = {
    {PRESS, BAGUNJOKI_PLAN_CLAIM, OUT, 1 + 256 + 1 * 2048, {HOST, 0, 0, 0, 0, 0}},
    {PRESS, BAGUNJOKI_PLAN_SET_POSE, PLAN_POSE_PRESS_MOVES, 1 + 1 * 8 + 1 * 64 + 256 + 2 * 2048,
     {HOST, 0, 0, PLAN_POSTURE_MOVING, PLAN_POSTURE_MOVING, RAM | LOADER_GUARD | UNLOADER_GUARD}},
    {PRESS, BAGUNJOKI_PLAN_SET_POSE, PLAN_POSE_PRESS_LOAD, 1 + 2 * 8 + 256 + 3 * 2048,
     {HOST, 0, 0, PLAN_POSTURE_OPENIN, PLAN_POSTURE_CLOSED, 0}},
    {PRESS, BAGUNJOKI_PLAN_YIELD, IN, 2 + 2 * 8 + 256 + 4 * 2048,
     {PLAN_OWNER_GUEST, 0, 0, PLAN_POSTURE_OPENIN, PLAN_POSTURE_CLOSED, LOADER_ARM}},
    {LOADER, BAGUNJOKI_PLAN_GIVE, IN, 1 + 4 + 2 * 8 + 5 * 2048,
     {HOST, 1, 0, PLAN_POSTURE_OPENIN, PLAN_POSTURE_CLOSED, 0}},
    {PRESS, BAGUNJOKI_PLAN_TAKE, IN, 1 + 2 * 8 + 512 + 6 * 2048,
     {HOST, 0, 0, PLAN_POSTURE_OPENIN, PLAN_POSTURE_CLOSED, 0}},
    {PRESS, BAGUNJOKI_PLAN_SET_POSE, PLAN_POSE_PRESS_MOVES, 1 + 1 * 8 + 1 * 64 + 512 + 7 * 2048,
     {HOST, 0, 0, PLAN_POSTURE_MOVING, PLAN_POSTURE_MOVING, RAM | LOADER_GUARD | UNLOADER_GUARD}},
    {PRESS, BAGUNJOKI_PLAN_SET_POSE, PLAN_POSE_PRESS_UNLOAD, 1 + 3 * 64 + 512 + 8 * 2048,
     {HOST, 0, 0, PLAN_POSTURE_CLOSED, PLAN_POSTURE_OPENOUT, 0}},
    {PRESS, BAGUNJOKI_PLAN_GIVE, OUT, 3 + 32 + 3 * 64 + 9 * 2048,
     {PLAN_OWNER_GUEST_OUT, 0, 1, PLAN_POSTURE_CLOSED, PLAN_POSTURE_OPENOUT, UNLOADER_ARM}},
    {UNLOADER, BAGUNJOKI_PLAN_TAKE, OUT, 3 + 3 * 64 + 1024 + 10 * 2048,
     {PLAN_OWNER_GUEST_OUT, 0, 0, PLAN_POSTURE_CLOSED, PLAN_POSTURE_OPENOUT, UNLOADER_ARM}},
    {UNLOADER, BAGUNJOKI_PLAN_RELEASE, OUT, 3 * 64 + 1024 + 11 * 2048,
     {PLAN_OWNER_FREE, 0, 0, PLAN_POSTURE_CLOSED, PLAN_POSTURE_OPENOUT, 0}},
};

enum { COUNT = sizeof STEPS / sizeof STEPS[0] };

static bool tells(uint64_t word, told it) {
    unsigned motors = PLAN_MAY_RUN(word, RAM) * RAM | PLAN_MAY_RUN(word, LOADER_GUARD) * LOADER_GUARD
                      | PLAN_MAY_RUN(word, UNLOADER_GUARD) * UNLOADER_GUARD
                      | PLAN_MAY_RUN(word, LOADER_ARM) * LOADER_ARM
                      | PLAN_MAY_RUN(word, UNLOADER_ARM) * UNLOADER_ARM;
    return PLAN_OWNER_OF_IN(word) == it.owner && PLAN_OWNER_OF_OUT(word) == it.owner
           && PLAN_PLATE_IN_IN(word) == it.plate_in && PLAN_PLATE_IN_OUT(word) == it.plate_out
           && PLAN_POSTURE_OF_IN(word) == it.posture_in && PLAN_POSTURE_OF_OUT(word) == it.posture_out
           && motors == it.motors;
}

int main(void) {
    bagunjoki_plan_opened plan = bagunjoki_plan_open(PLAN_BYTES, sizeof PLAN_BYTES);
    uint64_t word = bagunjoki_plan_start(&plan, (const uint8_t *)"100", PLAN_PLACES, 0);
    int right = 0;
    for (int k = 0; k < COUNT; k++) {
        word = bagunjoki_plan_step(&plan, word, STEPS[k].machine, STEPS[k].verb, STEPS[k].object).next;
        if (word == STEPS[k].word && tells(word, STEPS[k].tells)) right++;
        else printf("call %d leaves %llx, or that is read wrongly\n", k, (unsigned long long)word);
    }
    printf("%d of %d words are as by hand\n", right, COUNT);
    return right != COUNT;
}
