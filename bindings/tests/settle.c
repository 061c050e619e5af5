/* How many exchanges a call loses until it is answered. Right before each of its exchanges another machine changes the
   word: it claims a zone, or releases it. It does so a number of times. No exchange is won before these are used up, or
   the word is worn. With PLAN this is tried at a press, by bagunjoki_plan.h. */
#include <stdatomic.h>
#include <stdbool.h>
#include <stdint.h>
#include <stdio.h>

static bool exchange(_Atomic uint64_t *word, uint64_t *old, uint64_t next);
#undef atomic_compare_exchange_strong
#define atomic_compare_exchange_strong exchange

#ifdef PLAN
#include <bagunjoki_plan.h>
static const uint8_t PLAN_BYTES[] = {
    2, 1, 4, 2,
    1, 0, 1, 0, 1, 1, 1, 0,
    1, 1, 3, 0, 0, 0, 0, 0, 0, 0, 0, 0,
    1, 1, 4, 0, 0, 0, 0, 0, 0, 0, 0, 0,
    1, 1, 1, 0, 0, 0, 0, 0, 0, 0, 0, 0,
    1, 0, 2, 0, 0, 0, 0, 0, 0, 0, 0, 0,
    0, 1,
};
#define OF(name) bagunjoki_plan_##name
#define NAME(name) BAGUNJOKI_PLAN_##name
static bagunjoki_plan_opened plan;
#define AT &plan,
#define OPENS plan = bagunjoki_plan_open(PLAN_BYTES, sizeof PLAN_BYTES)
#define BEGINS bagunjoki_plan_begin
#define PLACES (const uint8_t *)"00", 2
enum { OTHER = 1, ZONE = 0 };
#else
#include <bagunjoki.h>
#define OF(name) bagunjoki_##name
#define NAME(name) BAGUNJOKI_##name
#define AT
#define OPENS (void)0
#define BEGINS bagunjoki_open
#define PLACES (const uint8_t *)"0000000000", 10
enum { OTHER = BAGUNJOKI_PRESS, ZONE = BAGUNJOKI_Z3 };
#endif

enum { LAST = NAME(LAST_STAMP), TRIES = 8 };

static OF(word) shared;
/* Changes that are still to be made; whether they renew the word right before its last stamp; exchanges that were lost. */
static uint32_t left, lost;
static bool renews;

static uint64_t changed(uint64_t word) {
    if (renews && OF(stamp)(AT word) == LAST - 1) return OF(restamp)(AT word, 0);
    OF(reply) claimed = OF(step)(AT word, OTHER, NAME(CLAIM), ZONE);
    return claimed.answer == NAME(DONE) ? claimed.next : OF(step)(AT word, OTHER, NAME(RELEASE), ZONE).next;
}

static bool exchange(_Atomic uint64_t *word, uint64_t *old, uint64_t next) {
    if (left > 0) left--, atomic_store(word, changed(atomic_load(word)));
    bool is_won = atomic_compare_exchange_strong_explicit(word, old, next, memory_order_seq_cst, memory_order_seq_cst);
    lost += !is_won;
    return is_won;
}

static void begin(uint32_t stamp, uint32_t changes, bool with_renewals) {
    BEGINS(&shared, OF(start)(AT PLACES, stamp));
    left = changes, lost = 0, renews = with_renewals;
}

/* The watch stops the plant. The others' changes don't hinder that. */
static void settle(const char *what, uint32_t stamp, uint32_t changes, bool with_renewals) {
    begin(stamp, changes, with_renewals);
    OF(reply) reply = OF(settle)(AT &shared, NAME(WATCH), NAME(STOP), 0);
    printf("%s: answer %u, %u lost, stamp %u\n", what, reply.answer, lost, OF(stamp)(AT reply.next));
}

static void ask_again(uint32_t stamp) {
    uint32_t busy = 0;
    begin(stamp, UINT32_MAX, false);
    OF(reply) reply = OF(ask)(AT &shared, NAME(WATCH), NAME(STOP), 0, TRIES);
    for (; reply.answer == NAME(BUSY); busy++) reply = OF(ask)(AT &shared, NAME(WATCH), NAME(STOP), 0, TRIES);
    printf("asked with %d tries: %u times busy, then answer %u, %u lost\n", TRIES, busy, reply.answer, lost);
}

int main(void) {
    OPENS;
    settle("left alone", 0, 0, false);
    settle("overtaken by 1000", 0, 1000, false);
    settle("overtaken by all", 0, UINT32_MAX, false);
    settle("at the last stamp", LAST, 0, false);
    settle("renewed", LAST - 1000, LAST + 1000, true);
    ask_again(0);
    return 0;
}
