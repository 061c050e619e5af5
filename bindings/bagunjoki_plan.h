/* The interlock of any plant, by its plan, for C and C++.

   `plan header` prints the numbers of a plan's machines, zones, poses and places, from 0, the machines' programs, if this
   header is included before that one, and the plan's bytes.
   bagunjoki_plan_open reads these once, and all others take what it gives. The state of the plant is one 64-bit word.
   bagunjoki_plan_step answers a call on such a word, and gives the word after it. bagunjoki_plan_ask makes a call on a
   word that threads or processes share; bagunjoki_plan_settle asks until it is answered. BAGUNJOKI_PLAN_MAY_RUN tells
   of a word that was loaded whether a motor may run. bagunjoki_plan_take_turn takes a turn of a machine that goes
   through a program: it makes the calls, and says which motors are on. bagunjoki_plan_resume takes back a word and the
   places of machines that were stored, after a power cut. bagunjoki_plan_log writes calls, as they were answered, as a
   script. Nothing takes memory by malloc, or a lock.

   What is proved (crates/plan_c): what the eight functions of the library return. What isn't: the loops of
   bagunjoki_plan_ask, bagunjoki_plan_settle, bagunjoki_plan_take_turn, bagunjoki_plan_renew and bagunjoki_plan_resume,
   which your compiler translates. They are right if
     - nothing but the first four writes the word after it was set to a start's, or taken back,
     - no two callers call as the same machine,
     - all callers pass the same plan, and
     - nothing but bagunjoki_plan_open makes a bagunjoki_plan_opened, or writes to it. A copy is as good.
   This header can't keep you from any of it. docs/FROM_C.md has the whole list of duties. */
#ifndef BAGUNJOKI_PLAN_H
#define BAGUNJOKI_PLAN_H

#include <stdbool.h>
#include <stddef.h>
#include <stdint.h>

#ifdef __cplusplus
#include <atomic>
extern "C" {
#else
#include <stdatomic.h>
#endif

/* That of the programs too. Releases with one major number are compatible. */
#define BAGUNJOKI_PLAN_VERSION "1.0.0"

/* The watch's number as a machine: it inquires, stops and resumes. */
#define BAGUNJOKI_PLAN_WATCH 30

/* Where a reply names no machine, no zone or no posture. */
#define BAGUNJOKI_PLAN_NOTHING 255

/* As the owner in a reply, as NOBODY of bagunjoki.h. */
#define BAGUNJOKI_PLAN_NOBODY BAGUNJOKI_PLAN_NOTHING

/* Postures of zones. */
enum bagunjoki_plan_posture {
    BAGUNJOKI_PLAN_CLOSED = 0,
    BAGUNJOKI_PLAN_MOVING = 1,
    BAGUNJOKI_PLAN_OPEN_IN = 2,
    BAGUNJOKI_PLAN_OPEN_OUT = 3
};

/* Verbs. The object of SET_POSE is a pose, that of ADVANCE a place, that of STOP and RESUME is 0, that of all others a
   zone. */
enum bagunjoki_plan_verb {
    BAGUNJOKI_PLAN_CLAIM = 1,
    BAGUNJOKI_PLAN_GIVE = 2,
    BAGUNJOKI_PLAN_YIELD = 3,
    BAGUNJOKI_PLAN_TAKE = 4,
    BAGUNJOKI_PLAN_RELEASE = 5,
    BAGUNJOKI_PLAN_SET_POSE = 6,
    BAGUNJOKI_PLAN_INQUIRE = 8,
    BAGUNJOKI_PLAN_STOP = 9,
    BAGUNJOKI_PLAN_RESUME = 10,
    BAGUNJOKI_PLAN_ADVANCE = 11
};

/* What else a line of a program may be: it awaits a zone, or runs motors. */
enum bagunjoki_plan_kind {
    BAGUNJOKI_PLAN_AWAIT = 16,
    BAGUNJOKI_PLAN_RUN = 17
};

/* Answers. Only DONE changes the word. 1 to 15 are refusals. */
enum bagunjoki_plan_answer {
    BAGUNJOKI_PLAN_DONE = 0,
    BAGUNJOKI_PLAN_NOT_PARTY = 1, /* the caller is no party of such a zone, has no such source or sink, or isn't
                                     the watch (STOP, RESUME) */
    BAGUNJOKI_PLAN_HELD = 2,      /* by the reply's owner */
    BAGUNJOKI_PLAN_ALREADY_MINE = 3,
    BAGUNJOKI_PLAN_SHUT = 4,          /* the zone has the reply's posture */
    BAGUNJOKI_PLAN_NOT_OWNER = 5,     /* the reply's owner owns a zone that the call needs, or NOBODY */
    BAGUNJOKI_PLAN_PLATE_IN_ZONE = 6, /* in the reply's zone */
    BAGUNJOKI_PLAN_NO_PLATE = 7,
    BAGUNJOKI_PLAN_PLACE_FULL = 8,
    BAGUNJOKI_PLAN_WRONG_WAY = 9,
    BAGUNJOKI_PLAN_JUMP = 10,
    BAGUNJOKI_PLAN_NO_POSE = 12,
    BAGUNJOKI_PLAN_WORN = 13, /* the stamp is the last: no call is done any more */
    BAGUNJOKI_PLAN_STOPPED = 14,
    BAGUNJOKI_PLAN_NOT_STOPPED = 15,
    BAGUNJOKI_PLAN_SHOWN = 32,    /* the reply has the zone's owner, plate and posture */
    BAGUNJOKI_PLAN_NO_CALL = 64,  /* verb and object name no call, or a line no step */
    BAGUNJOKI_PLAN_NO_STATE = 65, /* the word is no state's: something else has written it */
    BAGUNJOKI_PLAN_BUSY = 66,     /* bagunjoki_plan_ask, _take_turn: others made a change before each try */
    BAGUNJOKI_PLAN_NO_PLAN = 67   /* the bytes that were opened are no plan's */
};

/* Instead of a word, and of a stamp. No state of any plan has this word: its first zone's guest would own it closed. */
#define BAGUNJOKI_PLAN_NO_WORD UINT64_C(0x8000000000000002)
#define BAGUNJOKI_PLAN_NO_STAMP UINT32_MAX

/* The last stamp: when a word has it, the interlock is worn. bagunjoki_plan_renew keeps it from that. */
#define BAGUNJOKI_PLAN_LAST_STAMP 1048575

/* What a call gives back. */
typedef struct bagunjoki_plan_reply {
    uint64_t next;   /* the word after the call. Unless the answer is DONE, the one before it */
    uint8_t answer;
    uint8_t owner;   /* what the answer names, or NOBODY; so zone and posture, or NOTHING */
    uint8_t zone;
    uint8_t posture;
    bool plate;
} bagunjoki_plan_reply;

/* A line of a machine's program: one step. What a step doesn't have is 0.
     {0, verb, object, 0, faults}                  a call, made until it is done
     {0, BAGUNJOKI_PLAN_AWAIT, zone, 0, 0}         a wait until the machine owns the zone
     {motors, BAGUNJOKI_PLAN_RUN, 0, sensor, 0}    a run: these motors are on until the sensor shows
   A plan's motors have bits from 0, and so have the machine's sensors, of which there are 32. A run without motors
   waits for its sensor, as for a motor to be at rest. Faults are refusals that stop the machine at a call, though
   others' calls may mend them: 1 << BAGUNJOKI_PLAN_HELD | 1 << BAGUNJOKI_PLAN_SHUT, or 0. HELD, SHUT, NOT_OWNER,
   PLATE_IN_ZONE, NO_PLATE, PLACE_FULL, WRONG_WAY and STOPPED may be faults; all other refusals stop each machine, and
   have no bit. Any other line is no step. A program has at most 255 lines. After the last comes the first. */
typedef struct bagunjoki_plan_line {
    uint64_t motors;
    uint8_t kind;
    uint8_t object;
    uint8_t until;
    uint16_t faults;
} bagunjoki_plan_line;

/* A machine's place in its program: {0, 0} at first. Two bytes to store for a power cut, with the word. */
typedef struct bagunjoki_plan_place {
    uint8_t line;    /* from 0 */
    uint8_t stopped; /* the answer that has stopped the machine for good; 0 while it goes on */
} bagunjoki_plan_place;

/* What a turn gives back. */
typedef struct bagunjoki_plan_turned {
    uint64_t word;   /* the word after the turn. Unless the answer is DONE, the one before it */
    uint64_t motors; /* those that are on. All others of the machine are off */
    bagunjoki_plan_place place; /* after the turn */
    uint8_t answer;  /* to the call; NOTHING if none was made */
} bagunjoki_plan_turned;

/* A plan that was opened, compiled. Its size never changes; what is in it is the library's alone. */
typedef struct bagunjoki_plan_opened {
    bool is_plan; /* whether the bytes were a plan's */
    uint64_t kept[4102];
} bagunjoki_plan_opened;

/* The proved functions. They read nothing but their arguments, keep nothing, and take no memory and no lock. Any thread
   may call them, and a signal handler too. `bytes` points to `length` bytes, `digits` to `count` of them, `program` to
   `count` lines; none may be null. */

/* Opens a plan. If the bytes are no plan's, `is_plan` is false, and all calls by it are NO_PLAN. It takes some 220 KB
   of stack, and some milliseconds; the others take up to 1.5 KB. */
bagunjoki_plan_opened bagunjoki_plan_open(const uint8_t *bytes, size_t length);

/* A call on a word. It changes no shared word. A machine past the plan's may inquire. */
bagunjoki_plan_reply bagunjoki_plan_step(const bagunjoki_plan_opened *plan, uint64_t word, uint8_t machine,
                                         uint8_t verb, uint8_t object);

/* The word of a start: `count` digits 0 or 1, as text, one for each place of the plan, and the first stamp, mostly 0.
   All zones are free and closed. NO_WORD if there is no such plan or start. */
uint64_t bagunjoki_plan_start(const bagunjoki_plan_opened *plan, const uint8_t *digits, size_t count, uint32_t stamp);

/* The word of the same state with another stamp. NO_WORD if there is no plan, the word is no state's, or the stamp is
   past the last. */
uint64_t bagunjoki_plan_restamp(const bagunjoki_plan_opened *plan, uint64_t word, uint32_t stamp);

/* The stamp of a state's word: the first one, or that of the last renewal, and one more for each call DONE since.
   NO_STAMP if there is no plan, or the word is no state's. */
uint32_t bagunjoki_plan_stamp(const bagunjoki_plan_opened *plan, uint64_t word);

/* Whether the state of a word permits a motor, or a part to stand somewhere: by the motor's mask and pattern, which
   `plan header` prints. It needs no plan. Of a word that is no state's it says nothing.
   The motor is then permitted until a call of its own machine loses the permission, whatever others do. Your duty:
   before its machine's next call that loses the permission the motor is off and at rest, and the part is out. */
bool bagunjoki_plan_may_run(uint64_t word, uint64_t mask, uint64_t pattern);

/* The same by one AND and one comparison. No proof speaks of it, but it says what the function says. */
#define BAGUNJOKI_PLAN_MAY_RUN(word, mask, pattern) (((uint64_t)(word) & (uint64_t)(mask)) == (uint64_t)(pattern))

/* A turn of a machine that goes through its program, by the word, by its place, and by what the sensors show now (a bit
   for each), if they could be read. It makes one step: a call, with all motors off, or a run of motors. A run ends by a
   turn with its motors off; the next step comes in the next turn.
   All motors are off, and word and place are as before, if the sensors couldn't be read, or a refusal has stopped the
   machine; also with the answers NO_PLAN, NO_STATE, and NO_CALL, which says that the line is no step. A refusal that
   others' calls may mend leaves the machine at its line, unless it is one of the line's faults; any other one stops the
   machine for good.
   It changes no shared word. If the answer is DONE, the turn counts only once the word has been exchanged for `word`,
   as bagunjoki_plan_take_turn does.
   If the program runs only what it may, and the machine is at its first line, or was in step, or came to its place from
   there by such turns, each motor that is on is permitted, whatever others do, until the machine's next call is done.
   Your duty, as with bagunjoki_plan_may_run: before its next call a motor is off and at rest. */
bagunjoki_plan_turned bagunjoki_plan_turn(const bagunjoki_plan_opened *plan, uint64_t word, uint8_t machine,
                                          const bagunjoki_plan_line *program, size_t count, bagunjoki_plan_place place,
                                          bool read, uint32_t sensors);

/* Whether a machine may go on at a place that was stored, by the word that was stored with it: the place is at a line
   of its program, `stopped` is 0 or a refusal's number, zones are open as poses give, and what the calls and waits of
   the lines before it tell (zones that it holds, postures, its places) is so in the word's state. Of a place and a word
   of one moment it always is, if the word came from a start by calls and the machine to its place by turns. False if
   there is no plan, the word is no state's, a line is no step, or there are more than 255.
   If the program runs only what it may, each motor that is on in the turns that go on there is permitted, as in those
   from the first line, whatever led to the word. A machine that has stopped stays so. */
bool bagunjoki_plan_is_in_step(const bagunjoki_plan_opened *plan, uint64_t word, uint8_t machine,
                               const bagunjoki_plan_line *program, size_t count, bagunjoki_plan_place place);

#ifdef __cplusplus
}
typedef std::atomic<uint64_t> bagunjoki_plan_word;
#define BAGUNJOKI_PLAN_ATOMIC(name) std::atomic_##name
#else
typedef _Atomic uint64_t bagunjoki_plan_word;
#define BAGUNJOKI_PLAN_ATOMIC(name) atomic_##name
#endif

/* Two processes can share a word only if its operations take no lock. */
#if ATOMIC_LLONG_LOCK_FREE != 2
#error "bagunjoki_plan.h: this machine has no lock-free operations on 64 bits"
#endif

/* Makes a word that threads or processes share the word of a start. Before the first call, and by one thread. */
static inline void bagunjoki_plan_begin(bagunjoki_plan_word *shared, uint64_t start) {
    BAGUNJOKI_PLAN_ATOMIC(store)(shared, start);
}

/* Takes back the word and the places of the machines 0, 1 and so on, `machines` of them, as they were stored. If all
   are in step, it makes the shared word this one, and gives NOTHING; by one thread, before the first turn. Else it
   gives the first machine that isn't, and changes nothing: all motors stay off, and the plant is brought to a start by
   hand. No proof speaks of this loop. */
static inline uint8_t bagunjoki_plan_resume(const bagunjoki_plan_opened *plan, bagunjoki_plan_word *shared,
                                            uint64_t word, const bagunjoki_plan_line *const *programs,
                                            const size_t *counts, const bagunjoki_plan_place *places,
                                            uint8_t machines) {
    for (uint8_t machine = 0; machine < machines; machine++)
        if (!bagunjoki_plan_is_in_step(plan, word, machine, programs[machine], counts[machine], places[machine]))
            return machine;
    bagunjoki_plan_begin(shared, word);
    return BAGUNJOKI_PLAN_NOTHING;
}

/* Loads a shared word, sequentially consistent, for BAGUNJOKI_PLAN_MAY_RUN. */
static inline uint64_t bagunjoki_plan_load(bagunjoki_plan_word *shared) { return BAGUNJOKI_PLAN_ATOMIC(load)(shared); }

/* A call on a shared word, as bagunjoki_ask of bagunjoki.h: one load, and at most `tries` exchanges, all sequentially
   consistent. The reply's `next` is the word that the call left, if it is DONE, and otherwise the word in which it was
   answered. With no try left, a call that would be DONE is BUSY, and has changed nothing. */
static inline bagunjoki_plan_reply bagunjoki_plan_ask(const bagunjoki_plan_opened *plan, bagunjoki_plan_word *shared,
                                                      uint8_t machine, uint8_t verb, uint8_t object,
                                                      unsigned tries) {
    uint64_t word = BAGUNJOKI_PLAN_ATOMIC(load)(shared);
    for (;;) {
        bagunjoki_plan_reply reply = bagunjoki_plan_step(plan, word, machine, verb, object);
        if (reply.answer != BAGUNJOKI_PLAN_DONE) return reply;
        if (tries == 0) {
            reply.answer = BAGUNJOKI_PLAN_BUSY;
            reply.next = word;
            return reply;
        }
        /* (an exchange that is lost puts the word that it found into `word`) */
        if (BAGUNJOKI_PLAN_ATOMIC(compare_exchange_strong)(shared, &word, reply.next)) return reply;
        tries--;
    }
}

/* Asks until it is answered, as bagunjoki_settle of bagunjoki.h, with the same bound: never BUSY. WORN is an answer. */
static inline bagunjoki_plan_reply bagunjoki_plan_settle(const bagunjoki_plan_opened *plan,
                                                         bagunjoki_plan_word *shared, uint8_t machine, uint8_t verb,
                                                         uint8_t object) {
    bagunjoki_plan_reply reply;
    do {
        reply = bagunjoki_plan_ask(plan, shared, machine, verb, object, BAGUNJOKI_PLAN_LAST_STAMP);
    } while (reply.answer == BAGUNJOKI_PLAN_BUSY); /* only if it was renewed meanwhile */
    return reply;
}

/* Takes a turn on a shared word: one load, and at most `tries` exchanges, all sequentially consistent. It exchanges the
   word only where a call was done, and where that is lost it takes the turn again, on the word that it found. It sets
   `*place` to the place after the turn: store that before the next turn. With no try left, a turn whose call would be
   done is BUSY: it has changed nothing, and its motors are off.
   No proof speaks of this loop. It takes the proved turn of one word of the interlock, as bagunjoki_plan_ask makes one
   call, if only one thread takes turns of a machine, always with the same program and the place of its last turn. */
static inline bagunjoki_plan_turned bagunjoki_plan_take_turn(const bagunjoki_plan_opened *plan,
                                                             bagunjoki_plan_word *shared, uint8_t machine,
                                                             const bagunjoki_plan_line *program, size_t count,
                                                             bagunjoki_plan_place *place, bool read, uint32_t sensors,
                                                             unsigned tries) {
    uint64_t word = BAGUNJOKI_PLAN_ATOMIC(load)(shared);
    for (;;) {
        bagunjoki_plan_turned turned =
            bagunjoki_plan_turn(plan, word, machine, program, count, *place, read, sensors);
        if (turned.answer == BAGUNJOKI_PLAN_DONE) {
            if (tries == 0) {
                turned.answer = BAGUNJOKI_PLAN_BUSY;
                turned.word = word;
                turned.place = *place;
                return turned;
            }
            tries--;
            /* (an exchange that is lost puts the word that it found into `word`) */
            if (!BAGUNJOKI_PLAN_ATOMIC(compare_exchange_strong)(shared, &word, turned.word)) continue;
        }
        *place = turned.place;
        return turned;
    }
}

/* Keeps a shared word from wearing out, as bagunjoki_renew: if its stamp is `from` or later, gives it the stamp `to`,
   and changes nothing else of the state. Any thread may do this at any moment, in each turn:
   bagunjoki_plan_renew(&plan, &word, 1000000, 0, 8). False if it is still to be done. */
static inline bool bagunjoki_plan_renew(const bagunjoki_plan_opened *plan, bagunjoki_plan_word *shared, uint32_t from,
                                        uint32_t to, unsigned tries) {
    uint64_t word = BAGUNJOKI_PLAN_ATOMIC(load)(shared);
    while (bagunjoki_plan_stamp(plan, word) >= from) {
        uint64_t next = bagunjoki_plan_restamp(plan, word, to);
        if (next == BAGUNJOKI_PLAN_NO_WORD || tries == 0) return false;
        if (BAGUNJOKI_PLAN_ATOMIC(compare_exchange_strong)(shared, &word, next)) return true;
        tries--;
    }
    return true;
}

/* A log of calls, as a script that `./plan replay` answers as they were answered (docs/FROM_C.md, "A log"). No proof
   speaks of it. Each thread notes its calls in a log of its own. At the end the entries of all logs are sorted by
   `order`, and each is written as a record, after the record of the start. That is the order of the one history: calls
   of one `order` changed nothing, and may stand in any order there, or be left out. Stamps begin again at a renewal: a
   log goes from a start to the first renewal. */

/* The most bytes that a record takes, with the null after it. */
#define BAGUNJOKI_PLAN_RECORD 75

/* The names of a plan, as `plan header` prints them:
   {PLAN_NAMES_OF_MACHINES, PLAN_NAMES_OF_ZONES, PLAN_NAMES_OF_POSES, PLAN_NAMES_OF_PLACES}.
   A list may be null, and is then one without names: so is that of places where it is left out. */
typedef struct bagunjoki_plan_names {
    const char *const *machines;
    const char *const *zones;
    const char *const *poses;
    const char *const *places; /* which BAGUNJOKI_PLAN_ADVANCE is about, and no other call */
} bagunjoki_plan_names;

/* A call with its answer, as a log keeps it: 8 bytes. */
typedef struct bagunjoki_plan_entry {
    uint32_t order; /* twice the stamp after the call, and 1 more unless it was DONE */
    uint8_t machine;
    uint8_t verb;
    uint8_t object;
    uint8_t answer;
} bagunjoki_plan_entry;

/* The entry of a call, by its answer and the word after it: `next` of a reply, `word` of a turn. Of a turn, verb and
   object are kind and object of the line at which the machine was. */
static inline bagunjoki_plan_entry bagunjoki_plan_note(const bagunjoki_plan_opened *plan, uint8_t machine, uint8_t verb,
                                                       uint8_t object, uint64_t word, uint8_t answer) {
    uint32_t order = 2 * bagunjoki_plan_stamp(plan, word) + (answer != BAGUNJOKI_PLAN_DONE);
    bagunjoki_plan_entry entry = {order, machine, verb, object, answer};
    return entry;
}

/* Puts a text behind the `length` letters of a record, as far as it has room, and a null. It gives the length then. */
static inline size_t bagunjoki_plan_append(char *record, size_t size, size_t length, const char *text) {
    for (; *text; text++, length++)
        if (length + 1 < size) record[length] = *text;
    if (size > 0) record[length < size ? length : size - 1] = 0;
    return length;
}

/* The name with a number, or null if there is none. */
static inline const char *bagunjoki_plan_name(const char *const *names, uint8_t number) {
    if (!names) return 0;
    while (*names && number > 0) {
        names++;
        number--;
    }
    return *names;
}

/* Whether other poses have the name of this one, too. */
static inline bool bagunjoki_plan_shares_name(const char *const *poses, const char *name) {
    unsigned count = 0;
    for (; *poses; poses++) {
        size_t at = 0;
        while (name[at] && name[at] == (*poses)[at]) at++;
        count += name[at] == (*poses)[at];
    }
    return count > 1;
}

/* Writes the record of an entry, such as "press,claim,interior\n", and gives its length, as snprintf does: without the
   null after it, and also if `size` bytes are too few, of which it writes no more. A line that awaits a zone is an
   inquiry. 0, and an empty text, if there is no such record: the entry is of a turn without a call; its answer is none
   (BUSY, NO_CALL, NO_STATE, NO_PLAN); a number has no name; or it is NO_POSE, and several poses have that name: a script
   may then mean the machine's own one. */
static inline size_t bagunjoki_plan_log(char *record, size_t size, const bagunjoki_plan_names *names,
                                        bagunjoki_plan_entry entry) {
    static const char *const verbs[] = {0,      "claim", "give",    "yield", "take",   "release",
                                        "pose", 0,       "inquire", "stop",  "resume", "advance"};
    size_t verb = entry.verb == BAGUNJOKI_PLAN_AWAIT ? (size_t)BAGUNJOKI_PLAN_INQUIRE : entry.verb;
    bool is_alone = verb == BAGUNJOKI_PLAN_STOP || verb == BAGUNJOKI_PLAN_RESUME;
    bool is_pose = verb == BAGUNJOKI_PLAN_SET_POSE, is_place = verb == BAGUNJOKI_PLAN_ADVANCE;
    bool is_answered = entry.answer <= BAGUNJOKI_PLAN_NOT_STOPPED || entry.answer == BAGUNJOKI_PLAN_SHOWN;
    bool is_watch = entry.machine == BAGUNJOKI_PLAN_WATCH;
    const char *caller = is_watch ? "watch" : bagunjoki_plan_name(names->machines, entry.machine);
    const char *word = verb < sizeof verbs / sizeof *verbs ? verbs[verb] : 0;
    const char *const *about = is_pose ? names->poses : is_place ? names->places : names->zones;
    const char *object = bagunjoki_plan_name(about, entry.object);
    size_t length = bagunjoki_plan_append(record, size, 0, "");
    if (!is_answered || !caller || !word || (!object && !is_alone)) return length;
    if (is_pose && entry.answer == BAGUNJOKI_PLAN_NO_POSE && bagunjoki_plan_shares_name(names->poses, object))
        return length;
    length = bagunjoki_plan_append(record, size, length, caller);
    length = bagunjoki_plan_append(record, size, length, ",");
    length = bagunjoki_plan_append(record, size, length, word);
    if (!is_alone) {
        length = bagunjoki_plan_append(record, size, length, ",");
        length = bagunjoki_plan_append(record, size, length, object);
    }
    return bagunjoki_plan_append(record, size, length, "\n");
}

/* Writes the record of a start, as "start,10\n", or "start,10,7\n" with the first stamp 7: what bagunjoki_plan_start
   took. It gives the length, as bagunjoki_plan_log does. */
static inline size_t bagunjoki_plan_log_start(char *record, size_t size, const uint8_t *digits, size_t count,
                                              uint32_t stamp) {
    char number[12] = {0}, *first = number + sizeof number - 1;
    size_t length = bagunjoki_plan_append(record, size, 0, "start,");
    for (size_t at = 0; at < count; at++) {
        const char digit[] = {(char)digits[at], 0};
        length = bagunjoki_plan_append(record, size, length, digit);
    }
    for (uint32_t rest = stamp; rest > 0; rest /= 10) *--first = (char)('0' + rest % 10);
    if (stamp > 0) *--first = ',';
    length = bagunjoki_plan_append(record, size, length, first);
    return bagunjoki_plan_append(record, size, length, "\n");
}

#undef BAGUNJOKI_PLAN_ATOMIC
#endif
