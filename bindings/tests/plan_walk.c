/* Random calls at the lift of plan_types::examples, by the library. It prints a sum of all replies; the test
   walks_as_c_does of the crate plan_c has the same from plan_rules. By each word the function and the macro say the
   same of the lift's motors, and never that two of them may run. Before that, a few calls by a plan whose word has
   64 bits. A number as argument: how many rounds, for time. */
#include <bagunjoki_plan.h>
#include <stdio.h>
#include <stdlib.h>
#include <time.h>

static const uint8_t PLAN_BYTES[] = {
    3, 2, 5, 3,
    0, 1, 1, 1, 0, 1, 0, 1,
    0, 2, 1, 2, 0, 1, 0, 2,
    0, 0, 2, 2, 0, 0, 0, 0, 0, 0, 0, 0,
    0, 1, 3, 1, 0, 0, 0, 0, 0, 0, 0, 0,
    0, 1, 1, 4, 0, 0, 0, 0, 0, 0, 0, 0,
    0, 1, 4, 1, 0, 0, 0, 0, 0, 0, 0, 0,
    0, 1, 1, 3, 0, 0, 0, 0, 0, 0, 0, 0,
    0, 1, 2,
};

enum { CALLS = 100000 };

/* The motors of the lift: its cabin, which holds both zones and moves, and the gates of its two floors. */
static const struct {
    uint64_t mask, pattern;
} motors[] = {{0x37B, 0x129}, {0x03, 0x02}, {0x60, 0x40}};

/* Whether function and macro say the same of each motor, and one of them at most may run. */
static bool motors_are_kept_apart(uint64_t word) {
    int running = 0;
    for (int k = 0; k < 3; k++) {
        bool may_run = bagunjoki_plan_may_run(word, motors[k].mask, motors[k].pattern);
        if (may_run != BAGUNJOKI_PLAN_MAY_RUN(word, motors[k].mask, motors[k].pattern)) return false;
        running += may_run;
    }
    return running <= 1;
}

static uint64_t mix(uint64_t sum, uint64_t value) { return (sum ^ value) * 1099511628211u; }

static uint64_t walk(const bagunjoki_plan_opened *lift) {
    static const uint8_t callers[] = {0, 1, 2, BAGUNJOKI_PLAN_WATCH};
    uint64_t word = bagunjoki_plan_start(lift, (const uint8_t *)"010", 3, 0);
    uint64_t seed = 1, sum = 14695981039346656037u;
    for (int k = 0; k < CALLS; k++) {
        seed = seed * 6364136223846793005u + 1442695040888963407u;
        uint64_t drawn = seed >> 33;
        uint8_t machine = callers[drawn % 4], verb = drawn / 4 % 11, object = drawn / 64 % 6;
        bagunjoki_plan_reply reply = bagunjoki_plan_step(lift, word, machine, verb, object);
        word = reply.next;
        if (!motors_are_kept_apart(word)) return 0;
        sum = mix(mix(mix(sum, reply.next), reply.answer), reply.owner);
        sum = mix(mix(mix(sum, reply.zone), reply.posture), reply.plate);
    }
    return sum;
}

/* Eight zones, into which plates come, and which poses move and open, and three places: the stamp ends at bit 62, and
   the stop is bit 63. The test words_of_all_bits_are_answered of plan_c makes these calls, and more. */
static bool words_of_all_bits_are_answered(void) {
    uint8_t bytes[4 + 8 * 8 + 2 * 12 + 3] = {2, 8, 2, 3};
    for (int zone = 0; zone < 8; zone++) {
        uint8_t *row = bytes + 4 + 8 * zone;
        row[1] = row[2] = 1, row[3] = 2;
        bytes[4 + 8 * 8 + 2 + zone] = 2, bytes[4 + 8 * 8 + 12 + 2 + zone] = 3;
    }
    bytes[sizeof bytes - 1] = 1;
    bagunjoki_plan_opened plan = bagunjoki_plan_open(bytes, sizeof bytes);
    uint64_t start = bagunjoki_plan_start(&plan, (const uint8_t *)"101", 3, 1048574);
    bagunjoki_plan_reply stop =
        bagunjoki_plan_step(&plan, start, BAGUNJOKI_PLAN_WATCH, BAGUNJOKI_PLAN_STOP, 0);
    uint64_t early = bagunjoki_plan_restamp(&plan, stop.next, 7);
    return start == 0x7FFFF50000000000u && stop.answer == BAGUNJOKI_PLAN_DONE && stop.next == 0xFFFFFD0000000000u
           && bagunjoki_plan_stamp(&plan, stop.next) == 1048575 && early == 0x80003D0000000000u
           && bagunjoki_plan_step(&plan, early, 0, BAGUNJOKI_PLAN_CLAIM, 7).answer == BAGUNJOKI_PLAN_STOPPED;
}

int main(int argc, char **argv) {
    if (!words_of_all_bits_are_answered()) {
        puts("a word of 64 bits isn't answered by its plan");
        return 1;
    }
    bagunjoki_plan_opened lift = bagunjoki_plan_open(PLAN_BYTES, sizeof PLAN_BYTES);
    uint64_t sum = walk(&lift);
    printf("0x%016llx\n", (unsigned long long)sum);
    if (argc > 1) {
        clock_t begun = clock();
        int rounds = atoi(argv[1]);
        for (int k = 0; k < rounds; k++)
            if (walk(&lift) != sum) return 1;
        printf("%.3f us a call\n", 1e6 * (double)(clock() - begun) / CLOCKS_PER_SEC / rounds / CALLS);
    }
    return 0;
}
