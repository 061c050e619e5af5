/* Calls without memory: each allocation fails, and is counted. The linker puts __wrap_malloc in the place of malloc.
   cc -Wl,--wrap=malloc -Wl,--wrap=realloc plan_memory.c .. */
#include <bagunjoki_plan.h>
#include <stdio.h>

static const uint8_t PLAN_BYTES[] = {
    3, 2, 5, 3,
    0, 1, 1, 1, 0, 1, 0, 1,
    0, 2, 1, 2, 0, 1, 0, 2,
    0, 0, 2, 2, 0, 0, 0, 0, 0, 0, 0, 0,
    0, 1, 3, 1, 0, 0, 0, 0, 0, 0, 0, 0,
    0, 1, 1, 4, 0, 0, 0, 0, 0, 0, 0, 0,
    0, 1, 4, 1, 0, 0, 0, 0, 0, 0, 0, 0,
    0, 1, 1, 3, 0, 0, 0, 0, 0, 0, 0, 0,
    0, 1, 2,
};

/* How many allocations failed. */
static int failed = 0;

void *__wrap_malloc(size_t size);
void *__wrap_realloc(void *old, size_t size);

void *__wrap_malloc(size_t size) { return failed++, (void)size, NULL; }

void *__wrap_realloc(void *old, size_t size) { return failed++, (void)old, (void)size, NULL; }

int main(void) {
    bagunjoki_plan_opened plan = bagunjoki_plan_open(PLAN_BYTES, sizeof PLAN_BYTES);
    uint64_t word = bagunjoki_plan_start(&plan, (const uint8_t *)"010", 3, 0);
    bagunjoki_plan_reply reply = bagunjoki_plan_step(&plan, word, 0, BAGUNJOKI_PLAN_CLAIM, 0);
    uint64_t worn = bagunjoki_plan_restamp(&plan, reply.next, BAGUNJOKI_PLAN_LAST_STAMP);
    bool answered = plan.is_plan && reply.answer == BAGUNJOKI_PLAN_DONE && bagunjoki_plan_stamp(&plan, reply.next) == 1
                    && bagunjoki_plan_stamp(&plan, worn) == BAGUNJOKI_PLAN_LAST_STAMP;
    int counted = failed;
    printf("%d allocations\n", counted);
    return counted != 0 || !answered;
}
