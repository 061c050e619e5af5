/* A log's records: of each verb, of entries that have none, of the longest names, and of starts. Each is written for
   each size of room too. Then the entries of calls, with their records: at the press of plan_types::examples, and at
   one through which plates go, from a source to a sink. It prints them all, and last how many records were written
   wrongly. */
#include <bagunjoki_plan.h>
#include <stdio.h>
#include <string.h>

enum { ROOM = 100, LOADER = 0, PRESS = 1, DONE = BAGUNJOKI_PLAN_DONE, REFUSED = BAGUNJOKI_PLAN_HELD };

static const uint8_t PLAN_BYTES[] = {
    2, 1, 4, 2,
    1, 0, 1, 0, 1, 1, 1, 0,
    1, 1, 3, 0, 0, 0, 0, 0, 0, 0, 0, 0,
    1, 1, 4, 0, 0, 0, 0, 0, 0, 0, 0, 0,
    1, 1, 1, 0, 0, 0, 0, 0, 0, 0, 0, 0,
    1, 0, 2, 0, 0, 0, 0, 0, 0, 0, 0, 0,
    0, 1,
};

/* The same press, but that its loader has two places: the hand is a source, the tray a sink. */
static const uint8_t THROUGH_BYTES[] = {
    2, 1, 4, 3,
    1, 0, 1, 0, 2, 1, 2, 1,
    1, 1, 3, 0, 0, 0, 0, 0, 0, 0, 0, 0,
    1, 1, 4, 0, 0, 0, 0, 0, 0, 0, 0, 0,
    1, 1, 1, 0, 0, 0, 0, 0, 0, 0, 0, 0,
    1, 0, 2, 0, 0, 0, 0, 0, 0, 0, 0, 0,
    64, 128, 1,
};

/* Names of a plan in which two machines have a pose of one name. */
static const char *const machines[] = {"loader", "press", 0};
static const char *const zones[] = {"interior", "gate", 0};
static const char *const poses[] = {"load", "travelling", "closed", "travelling", 0};
static const char *const places[] = {"hand", "tray", "die", 0};
/* The longest that there are. */
static const char *const longest[] = {"a2345678901234567890123456789012", 0};

/* What was answered, by machine, verb, object and answer. */
static const uint8_t calls[][4] = {
    {PRESS, BAGUNJOKI_PLAN_CLAIM, 0, DONE},
    {LOADER, BAGUNJOKI_PLAN_GIVE, 1, REFUSED},
    {PRESS, BAGUNJOKI_PLAN_YIELD, 0, DONE},
    {LOADER, BAGUNJOKI_PLAN_TAKE, 0, BAGUNJOKI_PLAN_WORN},
    {LOADER, BAGUNJOKI_PLAN_RELEASE, 1, DONE},
    {PRESS, BAGUNJOKI_PLAN_SET_POSE, 2, DONE},
    {PRESS, BAGUNJOKI_PLAN_SET_POSE, 3, BAGUNJOKI_PLAN_JUMP},
    {LOADER, BAGUNJOKI_PLAN_SET_POSE, 2, BAGUNJOKI_PLAN_NO_POSE},
    {BAGUNJOKI_PLAN_WATCH, BAGUNJOKI_PLAN_INQUIRE, 1, BAGUNJOKI_PLAN_SHOWN},
    {LOADER, BAGUNJOKI_PLAN_AWAIT, 0, BAGUNJOKI_PLAN_SHOWN},
    {BAGUNJOKI_PLAN_WATCH, BAGUNJOKI_PLAN_STOP, 0, DONE},
    {PRESS, BAGUNJOKI_PLAN_RESUME, 0, BAGUNJOKI_PLAN_NOT_PARTY},
    {BAGUNJOKI_PLAN_WATCH, BAGUNJOKI_PLAN_RESUME, 0, BAGUNJOKI_PLAN_NOT_STOPPED},
    {LOADER, BAGUNJOKI_PLAN_ADVANCE, 0, DONE},
    {LOADER, BAGUNJOKI_PLAN_ADVANCE, 1, BAGUNJOKI_PLAN_NO_PLATE},
    {PRESS, BAGUNJOKI_PLAN_ADVANCE, 2, BAGUNJOKI_PLAN_NOT_PARTY},
};

/* The same of those that have no record. */
static const uint8_t without_record[][4] = {
    {PRESS, BAGUNJOKI_PLAN_RUN, 0, BAGUNJOKI_PLAN_NOTHING}, /* no call */
    {PRESS, BAGUNJOKI_PLAN_CLAIM, 0, BAGUNJOKI_PLAN_NOTHING},
    {PRESS, BAGUNJOKI_PLAN_CLAIM, 0, BAGUNJOKI_PLAN_BUSY}, /* no answer */
    {PRESS, BAGUNJOKI_PLAN_STOP, 1, BAGUNJOKI_PLAN_NO_CALL},
    {PRESS, BAGUNJOKI_PLAN_CLAIM, 0, BAGUNJOKI_PLAN_NO_STATE},
    {PRESS, BAGUNJOKI_PLAN_CLAIM, 0, BAGUNJOKI_PLAN_NO_PLAN},
    {2, BAGUNJOKI_PLAN_INQUIRE, 0, BAGUNJOKI_PLAN_SHOWN}, /* no name */
    {255, BAGUNJOKI_PLAN_INQUIRE, 0, BAGUNJOKI_PLAN_SHOWN},
    {PRESS, BAGUNJOKI_PLAN_CLAIM, 2, BAGUNJOKI_PLAN_NOT_PARTY},
    {PRESS, BAGUNJOKI_PLAN_SET_POSE, 4, BAGUNJOKI_PLAN_NO_POSE},
    {LOADER, BAGUNJOKI_PLAN_ADVANCE, 3, BAGUNJOKI_PLAN_NOT_PARTY},
    {PRESS, 0, 0, DONE}, /* no verb */
    {PRESS, 7, 0, DONE},
    {PRESS, 12, 0, DONE},
    {LOADER, BAGUNJOKI_PLAN_SET_POSE, 3, BAGUNJOKI_PLAN_NO_POSE}, /* the loader's own would be meant */
};

/* How many records were written wrongly. */
static unsigned wrong;

/* What a record is written of. */
struct source {
    const bagunjoki_plan_names *names; /* null for a start */
    bagunjoki_plan_entry entry;
    const char *digits;
    uint32_t stamp;
};

static size_t write_record(char *record, size_t size, const struct source *source) {
    const uint8_t *digits = (const uint8_t *)source->digits;
    if (source->names) return bagunjoki_plan_log(record, size, source->names, source->entry);
    return bagunjoki_plan_log_start(record, size, digits, strlen(source->digits), source->stamp);
}

/* Counts a record that is written otherwise than as far as there is room, or past it, or whose length isn't told. */
static void compare(const char *written, size_t size, const char *record, size_t length, size_t told) {
    size_t kept = size == 0 ? 0 : length < size ? length : size - 1;
    bool is_right = told == length && memcmp(written, record, kept) == 0 && (size == 0 || written[kept] == 0);
    for (size_t at = size == 0 ? 0 : kept + 1; at < ROOM; at++) is_right &= written[at] == '#';
    wrong += !is_right;
}

/* Prints a record, and writes it for each size. */
static size_t print_record(const struct source *source) {
    char record[ROOM], written[ROOM];
    size_t length = write_record(record, sizeof record, source);
    for (size_t size = 0; size < ROOM; size++) {
        memset(written, '#', sizeof written);
        compare(written, size, record, length, write_record(written, size, source));
    }
    printf("%s", record);
    return length;
}

static size_t print_entry(const bagunjoki_plan_names *names, const uint8_t *call) {
    const struct source source = {names, {0, call[0], call[1], call[2], call[3]}, "", 0};
    return print_record(&source);
}

static size_t print_start(const char *digits, uint32_t stamp) {
    const struct source source = {NULL, {0, 0, 0, 0, 0}, digits, stamp};
    return print_record(&source);
}

/* A call: by whom, its verb and its object. */
typedef uint8_t made_call[3];

/* Calls on one word after another, from a start with the stamp 7: of each the order of its entry, the answer, and the
   record. */
static void print_calls(const bagunjoki_plan_opened *plan, const char *digits, const made_call *made, size_t count,
                        const bagunjoki_plan_names *names) {
    uint64_t word = bagunjoki_plan_start(plan, (const uint8_t *)digits, strlen(digits), 7);
    for (size_t k = 0; k < count; k++) {
        bagunjoki_plan_reply reply = bagunjoki_plan_step(plan, word, made[k][0], made[k][1], made[k][2]);
        bagunjoki_plan_entry entry =
            bagunjoki_plan_note(plan, made[k][0], made[k][1], made[k][2], reply.next, reply.answer);
        char record[BAGUNJOKI_PLAN_RECORD];
        bagunjoki_plan_log(record, sizeof record, names, entry);
        word = reply.next;
        printf("%u: %u %s", (unsigned)entry.order, entry.answer, record);
    }
}

#define COUNT(list) (sizeof(list) / sizeof *(list))

static void print_all_calls(const bagunjoki_plan_names *names) {
    static const made_call at_press[] = {
        {LOADER, BAGUNJOKI_PLAN_GIVE, 0},  {PRESS, BAGUNJOKI_PLAN_CLAIM, 0},   {PRESS, BAGUNJOKI_PLAN_CLAIM, 0},
        {LOADER, BAGUNJOKI_PLAN_CLAIM, 0}, {LOADER, BAGUNJOKI_PLAN_INQUIRE, 0}, {PRESS, BAGUNJOKI_PLAN_SET_POSE, 3},
    };
    static const made_call through[] = {
        {LOADER, BAGUNJOKI_PLAN_ADVANCE, 1}, {LOADER, BAGUNJOKI_PLAN_ADVANCE, 1},
        {LOADER, BAGUNJOKI_PLAN_ADVANCE, 0}, {LOADER, BAGUNJOKI_PLAN_ADVANCE, 0},
        {PRESS, BAGUNJOKI_PLAN_ADVANCE, 0},  {PRESS, BAGUNJOKI_PLAN_ADVANCE, 2},
        {BAGUNJOKI_PLAN_WATCH, BAGUNJOKI_PLAN_STOP, 0}, {LOADER, BAGUNJOKI_PLAN_ADVANCE, 1},
    };
    bagunjoki_plan_opened plan = bagunjoki_plan_open(PLAN_BYTES, sizeof PLAN_BYTES);
    print_calls(&plan, "10", at_press, COUNT(at_press), names);
    plan = bagunjoki_plan_open(THROUGH_BYTES, sizeof THROUGH_BYTES);
    print_calls(&plan, "010", through, COUNT(through), names);
}

int main(void) {
    const bagunjoki_plan_names names = {machines, zones, poses, places};
    const bagunjoki_plan_names without_places = {machines, zones, poses, 0}, without_names = {0, 0, 0, 0};
    const bagunjoki_plan_names by_longest = {longest, longest, longest, longest};
    static const uint8_t released[] = {0, BAGUNJOKI_PLAN_RELEASE, 0, DONE};
    static const uint8_t advanced[] = {LOADER, BAGUNJOKI_PLAN_ADVANCE, 0, DONE};
    unsigned found = 0;
    for (size_t k = 0; k < COUNT(calls); k++) print_entry(&names, calls[k]);
    for (size_t k = 0; k < COUNT(without_record); k++) found += print_entry(&names, without_record[k]) > 0;
    for (size_t k = 0; k < COUNT(calls); k++)
        found += calls[k][0] != BAGUNJOKI_PLAN_WATCH && print_entry(&without_names, calls[k]) > 0;
    found += print_entry(&without_places, advanced) > 0;
    printf("%u of %u\n", (unsigned)print_entry(&by_longest, released) + 1, BAGUNJOKI_PLAN_RECORD);
    print_start("10", 0);
    print_start("0", 7);
    printf("%u\n", (unsigned)print_start("1111111111111111", 1048575));
    print_all_calls(&names);
    printf("%u records that aren't there, %u written wrongly\n", found, wrong);
    return found > 0 || wrong > 0;
}
