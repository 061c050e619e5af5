/* Six threads use the word up several times: each of them claims zones that are open to it, counts in the memory that
   the zone protects, and releases them, which is settled. Each renews the word near its end. Writes how many changes
   they made, and how often stamps began again. It is wrong if a call is worn, if a release isn.t done, if two
   are in a zone at once, or if a count is lost.

     wear [ROUNDS]   a round claims each zone of the machine once */
#include "bagunjoki.h"
#include <pthread.h>
#include <stdio.h>
#include <stdlib.h>

enum { ZONES = 6, MACHINES = 6, FROM = 1000000, TRIES = 8 };

static bagunjoki_word word;

/* What a zone protects: plain memory. */
static struct protected {
    unsigned machine;
    uint64_t uses;
} inside[ZONES + 1];

struct caller {
    uint8_t machine;
    uint64_t changes, uses, renewals;
    uint32_t stamp;
    const char *wrong;
};

static uint64_t rounds;

/* All zones are open to their guests after these. */
static const uint8_t opening[][3] = {
    {2, 1, 1}, {2, 1, 2}, {2, 6, 1}, {2, 6, 2}, {2, 5, 1}, {2, 5, 2},  {4, 1, 3}, {4, 6, 4},  {4, 6, 6}, {4, 5, 3},
    {5, 1, 4}, {5, 1, 5}, {5, 6, 8}, {5, 6, 12}, {5, 5, 4}, {5, 5, 5}, {1, 1, 6}, {1, 6, 8}, {1, 6, 9}, {1, 5, 6},
};
static const uint8_t zones_of[MACHINES + 1][2] = {{0}, {1, 6}, {2, 1}, {3, 4}, {3, 0}, {4, 5}, {5, 6}};

static uint8_t ask(struct caller *it, uint8_t verb, uint8_t zone) {
    bagunjoki_renew(&word, FROM, 0, TRIES);
    bagunjoki_reply reply = verb == BAGUNJOKI_RELEASE ? bagunjoki_settle(&word, it->machine, verb, zone)
                                                      : bagunjoki_ask(&word, it->machine, verb, zone, TRIES);
    uint32_t stamp = bagunjoki_stamp(reply.next);
    it->renewals += stamp < it->stamp;
    it->stamp = stamp;
    it->changes += reply.answer == BAGUNJOKI_DONE;
    if (reply.answer == BAGUNJOKI_WORN) it->wrong = "a call is worn";
    return reply.answer;
}

static void use(struct caller *it, uint8_t zone) {
    if (ask(it, BAGUNJOKI_CLAIM, zone) != BAGUNJOKI_DONE) return;
    if (inside[zone].machine != BAGUNJOKI_NOBODY) it->wrong = "two machines are in a zone";
    inside[zone].machine = it->machine;
    inside[zone].uses++;
    it->uses++;
    if (inside[zone].machine != it->machine) it->wrong = "two machines are in a zone";
    inside[zone].machine = BAGUNJOKI_NOBODY;
    if (ask(it, BAGUNJOKI_RELEASE, zone) != BAGUNJOKI_DONE && !it->wrong) it->wrong = "a release isn't done";
}

static void *in_thread(void *caller) {
    struct caller *it = caller;
    for (uint64_t k = 0; k < rounds && !it->wrong; k++)
        for (unsigned at = 0; at < 2; at++)
            if (zones_of[it->machine][at]) use(it, zones_of[it->machine][at]);
    return NULL;
}

/* (with no try left, a call that would be done is busy) */
static bool open_all(void) {
    bagunjoki_open(&word, bagunjoki_start((const uint8_t *)"0000000000", 10, 0));
    for (unsigned k = 0; k < sizeof opening / sizeof *opening; k++)
        if (bagunjoki_ask(&word, opening[k][0], opening[k][1], opening[k][2], 0).answer != BAGUNJOKI_BUSY ||
            bagunjoki_ask(&word, opening[k][0], opening[k][1], opening[k][2], 1).answer != BAGUNJOKI_DONE)
            return false;
    return true;
}

int main(int count, char **words) {
    struct caller callers[MACHINES];
    pthread_t threads[MACHINES];
    uint64_t changes = 0, uses = 0, counted = 0, renewals = 0;
    rounds = count > 1 ? strtoull(words[1], NULL, 10) : 1000000;
    if (!open_all()) return 2;
    for (uint8_t k = 0; k < MACHINES; k++) {
        callers[k] = (struct caller){.machine = (uint8_t)(k + 1)};
        if (pthread_create(&threads[k], NULL, in_thread, &callers[k])) return 2;
    }
    const char *wrong = NULL;
    for (unsigned k = 0; k < MACHINES; k++) {
        pthread_join(threads[k], NULL);
        changes += callers[k].changes, uses += callers[k].uses;
        if (callers[k].renewals > renewals) renewals = callers[k].renewals;
        if (callers[k].wrong) wrong = callers[k].wrong;
    }
    for (unsigned zone = 1; zone <= ZONES; zone++) counted += inside[zone].uses;
    if (!wrong && uses != counted) wrong = "a count is lost";
    printf("%llu changes, %llu renewals: %s\n", (unsigned long long)changes, (unsigned long long)renewals,
           wrong ? wrong : "none wrong");
    return wrong != NULL;
}
