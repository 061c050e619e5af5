/* Seven machines call one shared word, each with its own calls, and note each call and what came of it. It judges
   nothing: bench/stress/check.py does, whose input and output are those of bench/stress/main.txt.

     stress             seven threads
     stress processes   three processes that share memory, of feed and table, robot and press, and the others
     stress .. renewals all of them renew the word before their calls; renewals.py judges that

   Bugs that have to be found: with PLANTED a call is a load and a plain store, with PLANTED_RENEWAL a renewal is. With
   PLANTED_LATE a call begins with the word that the caller's last one left, unless it has read a letter since. */
#define _GNU_SOURCE
#include "bagunjoki.h"
#include <pthread.h>
#include <sched.h>
#include <stdio.h>
#include <stdlib.h>
#include <string.h>
#include <sys/mman.h>
#include <sys/wait.h>
#include <unistd.h>

enum { MACHINES = 7, ZONES = 6, CHECK_BUSY = 140, CHECK_LETTER = 142, CHECK_SHOWN = 192 };

/* What a run is asked for. */
struct plan {
    uint64_t places, stamp, tries, calls, by_steps, wait, ahead, letters, seed;
};

/* What is noted of a call, and the moments at which it began and ended. */
struct entry {
    uint64_t note, began, ended;
};

/* A machine that calls: what it may hold by what it was told last, the word that its last call left, and its entries. */
struct caller {
    uint8_t machine;
    uint64_t numbers, held, left;
    bool has_stopped;
    uint64_t *count;
    struct entry *entries;
};

/* In memory that all share. `told` has the stamp that each machine was told last: its letter to the others. The clock
   has the next moment. */
struct shared {
    bagunjoki_word word;
    _Atomic uint64_t there, made, clock, told[MACHINES];
};
static struct shared *shared;
static struct plan plan;
static struct caller callers[MACHINES];

static const uint8_t own_zones[MACHINES][ZONES + 1] = {{1, 6}, {1, 2}, {2, 3, 4},         {3},
                                                       {4, 5}, {5, 6}, {1, 2, 3, 4, 5, 6}};
static const uint8_t own_poses[MACHINES][6] = {{8, 9, 10}, {1, 2, 3}, {0}, {4, 5, 6, 7}, {8, 9, 11, 12, 10}, {0}, {0}};

static uint64_t below(struct caller *it, uint64_t end) {
    it->numbers = it->numbers * 6364136223846793005u + 1442695040888963407u;
    return (it->numbers >> 33) % end;
}

static uint8_t one_of(struct caller *it, const uint8_t *some) { return some[below(it, strlen((const char *)some))]; }

struct call {
    uint8_t verb, object;
};

static struct call zone_call(uint8_t verb, uint8_t zone) { return (struct call){verb, zone}; }

static struct call any_call(struct caller *it) {
    static const uint8_t verbs[] = {1, 2, 3, 4, 5, 8, 7, 9, 10, 6, 0};
    uint8_t verb = one_of(it, verbs);
    if (verb == BAGUNJOKI_SET_POSE) return zone_call(verb, (uint8_t)(1 + below(it, 12)));
    bool is_bare = verb == BAGUNJOKI_ADVANCE || verb == BAGUNJOKI_STOP || verb == BAGUNJOKI_RESUME;
    return zone_call(verb, is_bare ? 0 : (uint8_t)(1 + below(it, ZONES)));
}

static struct call own_pose(struct caller *it, uint8_t zone) {
    const uint8_t *poses = own_poses[it->machine - 1];
    return *poses ? zone_call(BAGUNJOKI_SET_POSE, one_of(it, poses)) : zone_call(BAGUNJOKI_INQUIRE, zone);
}

/* Mostly a call that the machine has a use for: in eighths of one, by whether it holds the zone. */
static struct call next_call(struct caller *it) {
    static const uint8_t free_verbs[] = {1, 1, 1, 1, 1, 1, 1, 1, 4, 4, 4, 8, 8, 2, 7, 6, 0},
                         held_verbs[] = {2, 2, 2, 4, 3, 5, 5, 5, 5, 1, 7, 6, 6, 6, 6, 6, 0};
    if (below(it, 16) == 0) return any_call(it);
    uint8_t zone = one_of(it, own_zones[it->machine - 1]);
    if (it->machine == BAGUNJOKI_WATCH) {
        if (below(it, 16) < (it->has_stopped ? 8 : 1))
            return zone_call(it->has_stopped ? BAGUNJOKI_RESUME : BAGUNJOKI_STOP, 0);
        return zone_call(BAGUNJOKI_INQUIRE, zone);
    }
    uint8_t verb = one_of(it, it->held >> zone & 1 ? held_verbs : free_verbs);
    if (verb == BAGUNJOKI_SET_POSE) return own_pose(it, zone);
    return zone_call(verb, verb == BAGUNJOKI_ADVANCE ? 0 : zone);
}

static void learn(struct caller *it, struct call call, uint8_t answer) {
    uint64_t zone = 1ull << call.object;
    bool is_done = answer == BAGUNJOKI_DONE;
    if (call.verb == BAGUNJOKI_CLAIM && (is_done || answer == BAGUNJOKI_ALREADY_MINE)) it->held |= zone;
    if (call.verb == BAGUNJOKI_GIVE || call.verb == BAGUNJOKI_YIELD || call.verb == BAGUNJOKI_RELEASE)
        if (is_done || answer == BAGUNJOKI_NOT_OWNER) it->held &= ~zone;
    if (call.verb == BAGUNJOKI_TAKE) it->held = answer == BAGUNJOKI_NOT_OWNER ? it->held & ~zone : it->held | zone;
    if (is_done && call.verb >= BAGUNJOKI_STOP) it->has_stopped = call.verb == BAGUNJOKI_STOP;
}

/* The numbers by which check.py knows calls and answers: machines and zones from 0, and nobody is 7. */
static uint64_t check_owner(uint8_t owner) { return owner == BAGUNJOKI_NOBODY ? 7 : owner - 1u; }
static uint64_t check_call(struct call call) {
    static const uint8_t bases[] = {0, 0, 6, 12, 18, 24, 36, 48, 30, 49, 50};
    return bases[call.verb] + (call.object ? call.object - 1u : 0);
}
static uint64_t check_answer(bagunjoki_reply reply) {
    uint64_t named = 0;
    switch (reply.answer) {
    case BAGUNJOKI_DONE: return 0;
    case BAGUNJOKI_BUSY: return CHECK_BUSY;
    case BAGUNJOKI_SHOWN:
        return CHECK_SHOWN | check_owner(reply.owner) << 3 | (uint64_t)reply.plate << 2 | reply.posture;
    case BAGUNJOKI_HELD:
    case BAGUNJOKI_NOT_OWNER: named = check_owner(reply.owner); break;
    case BAGUNJOKI_SHUT: named = reply.posture; break;
    case BAGUNJOKI_PLATE_IN_ZONE: named = reply.zone - 1u; break;
    }
    return (uint64_t)reply.answer << 3 | named;
}

/* The lowest bits first: stamp 20, answer 8, call 6, lost exchanges that were seen 7, whether by steps 1. */
static uint64_t note_of(struct call call, bagunjoki_reply reply, uint64_t lost, bool by_steps) {
    return bagunjoki_stamp(reply.next) | check_answer(reply) << 20 | check_call(call) << 28 | lost << 34 |
           (uint64_t)by_steps << 41;
}

static bool exchange(uint64_t *word, uint64_t next) {
#ifdef PLANTED
    uint64_t found = atomic_load(&shared->word);
    bool is_won = found == *word;
    if (is_won) atomic_store(&shared->word, next);
    *word = found;
    return is_won;
#else
    return atomic_compare_exchange_strong(&shared->word, word, next);
#endif
}

static uint64_t first_word(struct caller *it) {
#ifdef PLANTED_LATE
    if (it->left != BAGUNJOKI_NO_WORD) return it->left;
#endif
    (void)it;
    return atomic_load(&shared->word);
}

/* The loop of bagunjoki_ask, but that it waits before an exchange, and counts those that it sees lost. */
static bagunjoki_reply ask_by_steps(struct caller *it, struct call call, uint64_t *lost) {
    uint64_t word = first_word(it);
    for (;;) {
        bagunjoki_reply reply = bagunjoki_step(word, it->machine, call.verb, call.object);
        if (reply.answer != BAGUNJOKI_DONE) return reply;
        if (*lost == plan.tries) {
            reply.answer = BAGUNJOKI_BUSY, reply.next = word;
            return reply;
        }
        if (below(it, 64) == 0) sched_yield();
        for (uint64_t rounds = below(it, plan.wait); rounds > 0; rounds--) __asm__ volatile("" : : : "memory");
        if (exchange(&word, reply.next)) return reply;
        ++*lost;
    }
}

/* A call in one of three ways: one of eight that aren't made by steps is settled. */
static bagunjoki_reply reply_to(struct caller *it, struct call call, bool by_steps, uint64_t *lost) {
#if defined(PLANTED) || defined(PLANTED_LATE)
    by_steps = true;
#endif
    if (by_steps) return ask_by_steps(it, call, lost);
    if (below(it, 8) == 0) return bagunjoki_settle(&shared->word, it->machine, call.verb, call.object);
    return bagunjoki_ask(&shared->word, it->machine, call.verb, call.object, (unsigned)plan.tries);
}

static struct entry ask(struct caller *it, struct call call, bool by_steps) {
    uint64_t lost = 0, began = atomic_fetch_add(&shared->clock, 1);
    bagunjoki_reply reply = reply_to(it, call, by_steps, &lost);
    uint64_t ended = atomic_fetch_add(&shared->clock, 1);
    if (reply.answer == BAGUNJOKI_BUSY) lost = plan.tries;
    learn(it, call, reply.answer);
    it->left = reply.next;
    return (struct entry){note_of(call, reply, lost, by_steps), began, ended};
}

/* Each renewal leads into a range of stamps of its own, below the last one: so notes say how many came before. */
enum { RANGE = 16384, CHANGES = 2000 };
static bool renews;
static void renew(void) {
    uint64_t word = atomic_load(&shared->word);
    uint32_t range = bagunjoki_stamp(word) / RANGE * RANGE, from = range + CHANGES;
    if (!renews || range == 0) return;
#ifdef PLANTED_RENEWAL
    if (bagunjoki_stamp(word) < from) return;
    sched_yield();
    atomic_store(&shared->word, bagunjoki_restamp(word, range - RANGE));
#else
    bagunjoki_renew(&shared->word, from, range - RANGE, (unsigned)plan.tries);
#endif
}

/* Waits until all are there; later it lets those that are far behind go on for a while. */
static void gather(void) {
    atomic_fetch_add(&shared->there, 1);
    for (unsigned k = 0; k < 1000000 && atomic_load(&shared->there) < MACHINES; k++) sched_yield();
}
static void keep_pace(uint64_t own) {
    if (own % 8) return;
    atomic_fetch_add(&shared->made, 8);
    for (unsigned k = 0; k < 200 && own > atomic_load(&shared->made) / MACHINES + plan.ahead; k++) sched_yield();
}

static void add(struct caller *it, struct entry entry) { it->entries[(*it->count)++] = entry; }

/* A letter may have come: its reader mustn't be told a lower stamp then. */
static void read_letter(struct caller *it) {
    if (!plan.letters || below(it, 100) >= plan.letters) return;
    uint64_t stamp = atomic_load(&shared->told[below(it, MACHINES)]);
    add(it, (struct entry){stamp | (uint64_t)CHECK_LETTER << 20, 0, 0});
    it->left = BAGUNJOKI_NO_WORD;
}

static void call_once(struct caller *it) {
    read_letter(it);
    struct call call = next_call(it);
    renew();
    struct entry entry = ask(it, call, below(it, 100) < plan.by_steps);
    add(it, entry);
    atomic_store(&shared->told[it->machine - 1], entry.note & BAGUNJOKI_LAST_STAMP);
}

static void *in_thread(void *caller) {
    gather();
    for (uint64_t k = 0; k < plan.calls; k++) keep_pace(k), call_once(caller);
    return NULL;
}

/* The machines of one process take turns. */
static void in_process(unsigned from, unsigned to) {
    for (unsigned k = from; k < to; k++) atomic_fetch_add(&shared->there, 1);
    for (unsigned k = 0; k < 1000000 && atomic_load(&shared->there) < MACHINES; k++) sched_yield();
    for (uint64_t k = 0; k < plan.calls; k++)
        for (unsigned machine = from; machine < to; machine++) keep_pace(k), call_once(&callers[machine]);
}

static bool run_threads(void) {
    pthread_t threads[MACHINES];
    for (unsigned k = 0; k < MACHINES; k++)
        if (pthread_create(&threads[k], NULL, in_thread, &callers[k])) return false;
    for (unsigned k = 0; k < MACHINES; k++) pthread_join(threads[k], NULL);
    return true;
}

static bool run_processes(void) {
    static const unsigned first[] = {0, 2, 4, MACHINES};
    bool is_good = true;
    pid_t child[3];
    for (unsigned k = 0; k < 3; k++) {
        child[k] = fork();
        if (child[k] < 0) return false;
        if (child[k] == 0) {
            in_process(first[k], first[k + 1]);
            _exit(0);
        }
    }
    for (unsigned k = 0; k < 3; k++) {
        int status;
        is_good &= waitpid(child[k], &status, 0) == child[k] && status == 0;
    }
    return is_good;
}

static void *memory_for_all(size_t size) {
    void *found = mmap(NULL, size, PROT_READ | PROT_WRITE, MAP_SHARED | MAP_ANONYMOUS, -1, 0);
    if (found == MAP_FAILED) exit(3);
    return found;
}

static void prepare(void) {
    uint8_t digits[10];
    for (unsigned place = 0; place < 10; place++) digits[place] = plan.places >> place & 1 ? '1' : '0';
    shared = memory_for_all(sizeof *shared);
    uint64_t start = bagunjoki_start(digits, sizeof digits, (uint32_t)plan.stamp);
    if (start == BAGUNJOKI_NO_WORD) exit(2);
    bagunjoki_open(&shared->word, start);
    for (unsigned k = 0; k < MACHINES; k++) {
        callers[k].machine = (uint8_t)(k + 1);
        callers[k].numbers = (plan.seed * 7 + k) * 0x9E3779B97F4A7C15u;
        callers[k].left = BAGUNJOKI_NO_WORD;
        callers[k].count = memory_for_all(sizeof(uint64_t));
        callers[k].entries = memory_for_all((size_t)(2 * plan.calls) * sizeof(struct entry));
        atomic_store(&shared->told[k], plan.stamp);
    }
}

/* Reads the plan: eight numbers in a line, or nine with how many calls of a hundred come after a letter. */
static bool read_plan(void) {
    uint64_t *fields[] = {&plan.places, &plan.stamp, &plan.tries, &plan.calls, &plan.by_steps, &plan.wait, &plan.ahead};
    uint64_t numbers[9] = {0};
    char line[256], *at = line;
    unsigned count = 0;
    if (!fgets(line, sizeof line, stdin)) return false;
    for (char *end; count < 9; count++, at = end) {
        numbers[count] = strtoull(at, &end, 10);
        if (end == at) break;
    }
    for (unsigned k = 0; k < 7; k++) *fields[k] = numbers[k];
    plan.letters = count == 9 ? numbers[7] : 0;
    plan.seed = numbers[count == 9 ? 8 : 7];
    return count >= 8;
}

static void write_entries(uint64_t count, const struct entry *entries) {
    fwrite(&count, sizeof count, 1, stdout);
    fwrite(entries, sizeof *entries, count, stdout);
}

/* What the watch is told of each zone in the end. */
static void look_last(void) {
    struct entry last[ZONES];
    callers[MACHINES - 1].left = BAGUNJOKI_NO_WORD;
    for (uint8_t zone = 1; zone <= ZONES; zone++)
        last[zone - 1] = ask(&callers[MACHINES - 1], zone_call(BAGUNJOKI_INQUIRE, zone), false);
    write_entries(ZONES, last);
}

int main(int count, char **words) {
    bool in_processes = count > 1 && strcmp(words[1], "processes") == 0;
    renews = count > 1 && strcmp(words[count - 1], "renewals") == 0;
    if (!read_plan()) return 2;
    prepare();
    bool is_good = in_processes ? run_processes() : run_threads();
    for (unsigned k = 0; k < MACHINES; k++) write_entries(*callers[k].count, callers[k].entries);
    look_last();
    return is_good && fflush(stdout) == 0 ? 0 : 1;
}
