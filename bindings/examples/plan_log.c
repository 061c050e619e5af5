/* Two machines at the press of examples/plans/press.toml, each a thread that keeps a log of its calls. At the end the
   logs are merged into one script, which `./plan replay` answers as the threads were answered (docs/FROM_C.md, "A
   log"). The press takes turns by its program, the loader asks by itself. Neither has a motor here.
   cc -pthread plan_log.c $(pkg-config --cflags --libs bagunjoki_plan)
   ./a.out log.csv log.out
   cat press.toml log.csv | ./plan replay | cut -d ' ' -f 1-3 | cmp - log.out */
#include <bagunjoki_plan.h>
#include <pthread.h>
#include <sched.h>
#include <stdio.h>

/* What `plan header` prints of this plan, as far as it is used here. */
enum { LOADER, PRESS, MACHINES, INTERIOR = 0 };
enum { LOAD, UNLOAD, CLOSED, TRAVELLING };
static const char *const PLAN_NAMES_OF_MACHINES[] = {"loader", "press", 0};
static const char *const PLAN_NAMES_OF_ZONES[] = {"interior", 0};
static const char *const PLAN_NAMES_OF_POSES[] = {"load", "unload", "closed", "travelling", 0};
static const char *const PLAN_NAMES_OF_PLACES[] = {"hand", "die", 0};
static const uint8_t PLAN_BYTES[] = {
    2, 1, 4, 2,
    1, 0, 1, 0, 1, 1, 1, 0,
    1, 1, 3, 0, 0, 0, 0, 0, 0, 0, 0, 0,
    1, 1, 4, 0, 0, 0, 0, 0, 0, 0, 0, 0,
    1, 1, 1, 0, 0, 0, 0, 0, 0, 0, 0, 0,
    1, 0, 2, 0, 0, 0, 0, 0, 0, 0, 0, 0,
    0, 1,
};

#define CALL(verb, about) {.kind = BAGUNJOKI_PLAN_##verb, .object = about}
enum { LOADER_LINES = 3, PRESS_LINES = 11, ROUNDS = 1000, MOST = 40 * ROUNDS };

static const bagunjoki_plan_line loader_program[LOADER_LINES] = {
    CALL(GIVE, INTERIOR), CALL(TAKE, INTERIOR), CALL(RELEASE, INTERIOR),
};
static const bagunjoki_plan_line press_program[PRESS_LINES] = {
    CALL(CLAIM, INTERIOR),      CALL(SET_POSE, TRAVELLING), CALL(SET_POSE, LOAD),   CALL(YIELD, INTERIOR),
    CALL(AWAIT, INTERIOR),      CALL(TAKE, INTERIOR),       CALL(SET_POSE, TRAVELLING),
    CALL(SET_POSE, CLOSED),     CALL(SET_POSE, TRAVELLING), CALL(SET_POSE, UNLOAD), CALL(GIVE, INTERIOR),
};

static bagunjoki_plan_opened plan;
static bagunjoki_plan_word plant;

/* What a machine was answered, in its order. Only its thread writes to it. */
static struct log {
    bagunjoki_plan_entry entries[MOST];
    unsigned count, written;
} logs[MACHINES];

/* Adds an entry. Of a wait, the same call with the same answer again and again, it keeps the first. */
static void add(struct log *log, bagunjoki_plan_entry entry) {
    const bagunjoki_plan_entry *last = log->count > 0 ? &log->entries[log->count - 1] : NULL;
    bool waits = last && entry.answer != BAGUNJOKI_PLAN_DONE && entry.answer == last->answer &&
                 entry.verb == last->verb && entry.object == last->object;
    if (!waits && log->count < MOST) log->entries[log->count++] = entry;
}

/* ---- the machines */

static void *load(void *unused) {
    for (unsigned rounds = 0, at = 0; rounds < ROUNDS && logs[LOADER].count < MOST;) {
        const bagunjoki_plan_line *line = &loader_program[at];
        bagunjoki_plan_reply reply = bagunjoki_plan_ask(&plan, &plant, LOADER, line->kind, line->object, 8);
        add(&logs[LOADER], bagunjoki_plan_note(&plan, LOADER, line->kind, line->object, reply.next, reply.answer));
        if (reply.answer == BAGUNJOKI_PLAN_DONE) at = (at + 1) % LOADER_LINES;
        else sched_yield();
        rounds += reply.answer == BAGUNJOKI_PLAN_DONE && at == 0;
    }
    return unused;
}

static void *press(void *unused) {
    bagunjoki_plan_place place = {0, 0};
    for (unsigned rounds = 0; rounds < ROUNDS && logs[PRESS].count < MOST && !place.stopped;) {
        const bagunjoki_plan_line *line = &press_program[place.line];
        bagunjoki_plan_turned turned =
            bagunjoki_plan_take_turn(&plan, &plant, PRESS, press_program, PRESS_LINES, &place, true, 0, 8);
        add(&logs[PRESS], bagunjoki_plan_note(&plan, PRESS, line->kind, line->object, turned.word, turned.answer));
        if (line == &press_program[place.line]) sched_yield();
        rounds += place.line == 0 && turned.answer == BAGUNJOKI_PLAN_DONE;
    }
    return unused;
}

/* ---- the script */

/* The log whose next entry is the first in the history; null after the last. The entries of one log are in order. */
static struct log *first_log(void) {
    struct log *first = NULL;
    for (int k = 0; k < MACHINES; k++)
        if (logs[k].written < logs[k].count &&
            (!first || logs[k].entries[logs[k].written].order < first->entries[first->written].order))
            first = &logs[k];
    return first;
}

/* Writes the script, and what `./plan replay` has to answer: number, stamp, and the answer's first word. */
static void write_script(FILE *script, FILE *answers, const char *start) {
    static const char *const words[] = {
        "done",      "notparty", "held", "already", "shut",   "notowner", "platein", "noplate",
        "placefull", "wrongway", "jump", "",        "nopose", "worn",     "stopped", "notstopped",
    };
    const bagunjoki_plan_names names = {PLAN_NAMES_OF_MACHINES, PLAN_NAMES_OF_ZONES, PLAN_NAMES_OF_POSES,
                                        PLAN_NAMES_OF_PLACES};
    char record[BAGUNJOKI_PLAN_RECORD];
    unsigned number = 0;
    bagunjoki_plan_log_start(record, sizeof record, (const uint8_t *)start, 2, 0);
    fputs(record, script);
    fputs("0 0 start\n", answers);
    for (struct log *log = first_log(); log; log = first_log()) {
        bagunjoki_plan_entry entry = log->entries[log->written++];
        if (bagunjoki_plan_log(record, sizeof record, &names, entry) == 0) continue; /* no answer: BUSY */
        fputs(record, script);
        const char *word = entry.answer == BAGUNJOKI_PLAN_SHOWN ? "zone" : words[entry.answer];
        fprintf(answers, "%u %u %s\n", ++number, (unsigned)entry.order / 2, word);
    }
}

int main(int argc, char **argv) {
    pthread_t threads[MACHINES];
    const char *start = "10"; /* a plate on the loader's hand, none in the press */
    plan = bagunjoki_plan_open(PLAN_BYTES, sizeof PLAN_BYTES);
    uint64_t word = bagunjoki_plan_start(&plan, (const uint8_t *)start, 2, 0);
    FILE *script = argc == 3 ? fopen(argv[1], "w") : NULL, *answers = argc == 3 ? fopen(argv[2], "w") : NULL;
    if (!script || !answers || word == BAGUNJOKI_PLAN_NO_WORD) return 1;
    bagunjoki_plan_begin(&plant, word);
    if (pthread_create(&threads[LOADER], NULL, load, NULL)) return 1;
    if (pthread_create(&threads[PRESS], NULL, press, NULL)) return 1;
    for (int k = 0; k < MACHINES; k++) pthread_join(threads[k], NULL);
    write_script(script, answers, start);
    bool written = fclose(script) == 0;
    written &= fclose(answers) == 0;
    return !written;
}
