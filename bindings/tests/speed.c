/* Times calls by bagunjoki.h and by plain C (plain.h), after 20,000,000 calls that look random in which both have to
   answer alike. Writes lines: what, and the nanoseconds of a call, at the best of many short runs that take turns. With
   `agree` it only compares. With a letter it makes 1,000,000 calls of that kind, and with a further word 2,000,000, for
   a count of instructions. */
#define _POSIX_C_SOURCE 200809L
#include "plain.h"
#include <stdio.h>
#include <stdlib.h>
#include <string.h>
#include <time.h>

#define HIDE(value) __asm__ volatile("" : "+r"(value))

/* Each call of the press in this round is done. */
static const uint8_t press_round[8][2] = {
    {BAGUNJOKI_CLAIM, 3},
    {BAGUNJOKI_SET_POSE, BAGUNJOKI_TRAVELLING},
    {BAGUNJOKI_SET_POSE, BAGUNJOKI_MIDDLE},
    {BAGUNJOKI_RELEASE, 3},
    {BAGUNJOKI_CLAIM, 3},
    {BAGUNJOKI_SET_POSE, BAGUNJOKI_TRAVELLING},
    {BAGUNJOKI_SET_POSE, BAGUNJOKI_TOP},
    {BAGUNJOKI_RELEASE, 3},
};

static uint32_t seed = 1995;
static uint32_t below(uint32_t end) {
    seed = seed * 1664525 + 1013904223;
    return (seed >> 8) % end;
}

static bool same(bagunjoki_reply a, bagunjoki_reply b) {
    return a.next == b.next && a.answer == b.answer && a.owner == b.owner && a.zone == b.zone &&
           a.posture == b.posture && a.plate == b.plate;
}

/* Whether both answer a call alike, and know the same words. */
static bool agree(uint64_t word, uint8_t machine, uint8_t verb, uint8_t object) {
    bagunjoki_reply ours = bagunjoki_step(word, machine, verb, object),
                    plain = plain_tested_step(word, machine, verb, object);
    if (same(ours, plain) && bagunjoki_is_state(word) == plain_is_state(word)) return true;
    printf("%016llx %u %u %u: %u, plain C %u\n", (unsigned long long)word, machine, verb, object, ours.answer,
           plain.answer);
    return false;
}

/* Runs from four starts, some of them until they are worn. Now and then numbers that name nothing, and each time the
   word with a flipped bit too. */
static bool all_agree(void) {
    static const char *const starts[] = {"0110100000", "0000000000", "1101010100", "0000010110"};
    for (unsigned run = 0; run < 20; run++) {
        uint64_t word =
            bagunjoki_start((const uint8_t *)starts[run % 4], 10, run % 5 == 4 ? BAGUNJOKI_LAST_STAMP - 1000 : 0);
        for (unsigned k = 0; k < 1000000; k++) {
            uint8_t machine = (uint8_t)(below(64) ? 1 + below(6) : below(9)),
                    verb = (uint8_t)(below(64) ? 1 + below(8) : below(12));
            uint32_t named = verb == BAGUNJOKI_ADVANCE || verb > BAGUNJOKI_INQUIRE
                                 ? 0
                                 : 1 + below(verb == BAGUNJOKI_SET_POSE ? 12 : 6);
            uint8_t object = (uint8_t)(below(64) ? named : below(14));
            uint64_t flipped = word ^ 1ull << below(64);
            if (!agree(word, machine, verb, object) || !agree(flipped, machine, verb, object)) return false;
            word = bagunjoki_step(word, machine, verb, object).next;
        }
    }
    return true;
}

static bagunjoki_word shared;

typedef bagunjoki_reply asks(uint8_t, uint8_t, uint8_t);
static inline bagunjoki_reply ours(uint8_t machine, uint8_t verb, uint8_t object) {
    return bagunjoki_ask(&shared, machine, verb, object, 64);
}
static inline bagunjoki_reply plain(uint8_t machine, uint8_t verb, uint8_t object) {
    return plain_ask(plain_step, &shared, machine, verb, object, 64);
}
static inline bagunjoki_reply plain_with_test(uint8_t machine, uint8_t verb, uint8_t object) {
    return plain_ask(plain_tested_step, &shared, machine, verb, object, 64);
}
/* The nanoseconds of a call by one of these, which is inlined: calls that are done, or the robot's refused claim. */
static inline __attribute__((always_inline)) double by(asks *ask, bool is_refused, unsigned calls) {
    struct timespec from, to;
    clock_gettime(CLOCK_MONOTONIC, &from);
    for (unsigned k = 0; k < calls; k++) {
        if (k % 1000000 == 0) bagunjoki_open(&shared, 0); /* before it is worn */
        uint8_t machine = is_refused ? BAGUNJOKI_ROBOT : BAGUNJOKI_PRESS;
        uint8_t verb = is_refused ? BAGUNJOKI_CLAIM : press_round[k % 8][0],
                object = is_refused ? 3 : press_round[k % 8][1];
        HIDE(machine);
        HIDE(verb);
        HIDE(object);
        bagunjoki_reply reply = ask(machine, verb, object);
        uint64_t next = reply.next;
        uint8_t answer = reply.answer;
        HIDE(next);
        HIDE(answer);
    }
    clock_gettime(CLOCK_MONOTONIC, &to);
    return ((double)(to.tv_sec - from.tv_sec) * 1e9 + (double)(to.tv_nsec - from.tv_nsec)) / calls;
}

#define TIMED(name, ask, is_refused)                                                                                   \
    static __attribute__((noinline)) double name(unsigned calls) { return by(ask, is_refused, calls); }
TIMED(done_ours, ours, false)
TIMED(done_plain, plain, false)
TIMED(done_tested, plain_with_test, false)
TIMED(refused_ours, ours, true)
TIMED(refused_plain, plain, true)
TIMED(refused_tested, plain_with_test, true)

static const struct {
    char letter;
    const char *name;
    double (*time)(unsigned);
} kinds[] = {
    {'o', "done", done_ours},
    {'p', "done, plain C", done_plain},
    {'t', "done, plain C that tests its word", done_tested},
    {'O', "refused", refused_ours},
    {'P', "refused, plain C", refused_plain},
    {'T', "refused, plain C that tests its word", refused_tested},
};
#define KINDS (sizeof kinds / sizeof *kinds)

int main(int count, char **words) {
    if (count > 1 && strcmp(words[1], "agree") == 0) return !all_agree();
    if (count > 1) {
        for (size_t k = 0; k < KINDS; k++)
            if (words[1][0] == kinds[k].letter) return kinds[k].time(count > 2 ? 2000000 : 1000000) < 0;
        return 2;
    }
    if (!all_agree()) return 1;
    double best[KINDS];
    for (unsigned run = 0; run < 300; run++) {
        for (size_t k = 0; k < KINDS; k++) {
            double took = kinds[k].time(100000);
            if (run == 0 || took < best[k]) best[k] = took;
        }
    }
    for (size_t k = 0; k < KINDS; k++) printf("%c %.2f %s\n", kinds[k].letter, best[k], kinds[k].name);
    return 0;
}
