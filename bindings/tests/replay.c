/* Replays a script from standard input as `cell replay` does, by bagunjoki_ask. Of CSV it knows no quotes. */
#include "bagunjoki.h"
#include <stdio.h>
#include <stdlib.h>
#include <string.h>

static const char *const machines[] = {"free", "feed", "table", "robot", "press", "deposit", "crane", "watch"};
static const char *const verbs[] = {"",     "claim",   "give",    "yield", "take",  "release",
                                    "pose", "advance", "inquire", "stop",  "resume"};
static const char *const poses[] = {"",    "turning", "loading", "unloading", "travelling", "middle",  "low",
                                    "top", "running", "landing", "halted",    "offering",   "standing"};
static const char *const postures[] = {"closed", "moving", "openin", "openout"};
static const char *const zones[] = {"", "z1", "z2", "z3", "z4", "z5", "z6"};
static const char *const answers[] = {"done",    "notparty", "held",      "already",    "shut", "notowner",
                                      "platein", "noplate",  "placefull", "wrongway",   "jump", "notatwork",
                                      "nopose",  "worn",     "stopped",   "notstopped", "inuse"};
#define FIND(table, word) find(table, sizeof table / sizeof *table, word)

/* The number of a word, or 0. */
static uint8_t find(const char *const *table, size_t count, const char *word) {
    for (size_t at = 1; word && at < count; at++)
        if (strcmp(table[at], word) == 0) return (uint8_t)at;
    return 0;
}

/* Cuts a line into at most four fields, and answers how many there are. */
static int fields_of(char *line, char **field) {
    int count = 0;
    line[strcspn(line, "\r\n")] = 0;
    while (count < 4 && line) {
        field[count++] = line;
        line = strchr(line, ',');
        if (line) *line++ = 0;
    }
    return count;
}

/* The word of the first record's start, or NO_WORD. */
static uint64_t start_of(char **field, int count) {
    if (count < 2 || count > 3) return BAGUNJOKI_NO_WORD;
    if (count == 3 && (!*field[2] || strlen(field[2]) > 7 || field[2][strspn(field[2], "0123456789")]))
        return BAGUNJOKI_NO_WORD;
    uint32_t stamp = count == 3 ? (uint32_t)strtoul(field[2], NULL, 10) : 0;
    return bagunjoki_start((const uint8_t *)field[1], strlen(field[1]), stamp);
}

static unsigned plates_of(uint64_t word) {
    unsigned plates = 0;
    for (uint8_t place = BAGUNJOKI_AT_FEED_ENTRY; place <= BAGUNJOKI_AT_CRANE; place++)
        plates += bagunjoki_is_full(word, place);
    return plates;
}

static void print_answer(bagunjoki_reply reply) {
    if (reply.answer == BAGUNJOKI_SHOWN)
        printf("zone %s %d %s\n", machines[reply.owner], reply.plate, postures[reply.posture]);
    else if (reply.answer == BAGUNJOKI_HELD || reply.answer == BAGUNJOKI_NOT_OWNER)
        printf("%s %s\n", answers[reply.answer], machines[reply.owner]);
    else if (reply.answer == BAGUNJOKI_SHUT) printf("%s %s\n", answers[reply.answer], postures[reply.posture]);
    else if (reply.answer == BAGUNJOKI_PLATE_IN_ZONE) printf("%s %s\n", answers[reply.answer], zones[reply.zone]);
    else puts(answers[reply.answer]);
}

/* Makes a record's call, and answers whether it is one. */
static bool call(bagunjoki_word *shared, unsigned record, char **field, int count, bool may_stop) {
    uint8_t machine = FIND(machines, field[0]), verb = FIND(verbs, field[1]);
    uint8_t object = verb == BAGUNJOKI_SET_POSE ? FIND(poses, field[2]) : FIND(zones, field[2]);
    bool is_bare = verb == BAGUNJOKI_ADVANCE || verb == BAGUNJOKI_STOP || verb == BAGUNJOKI_RESUME;
    if (count != (is_bare ? 2 : 3) || (verb >= BAGUNJOKI_STOP && !may_stop)) return false;
    bagunjoki_reply reply = bagunjoki_ask(shared, machine, verb, object, 1);
    if (reply.answer == BAGUNJOKI_NO_CALL) return false;
    printf("%u %u ", record, (unsigned)bagunjoki_stamp(reply.next));
    print_answer(reply);
    return true;
}

int main(void) {
    static bagunjoki_word shared;
    char line[256];
    bool may_stop = false;
    unsigned record = 0;
    while (fgets(line, sizeof line, stdin)) {
        char *field[4] = {NULL};
        int count = fields_of(line, field);
        if (count == 1 && !*field[0]) continue;
        if (record == 0) {
            may_stop = strcmp(field[0], "start2") == 0;
            if (!may_stop && strcmp(field[0], "start") != 0) break;
            uint64_t start = start_of(field, count);
            if (start == BAGUNJOKI_NO_WORD) {
                puts("fault badstart");
                return 1;
            }
            bagunjoki_open(&shared, start);
            printf("0 %u %s %u\n", (unsigned)bagunjoki_stamp(start), field[0], plates_of(start));
        } else if (!call(&shared, record, field, count, may_stop)) {
            printf("fault badrow %u\n", record);
            return 1;
        }
        record++;
    }
    if (record == 0) {
        puts("fault nostart");
        return 1;
    }
    return 0;
}
