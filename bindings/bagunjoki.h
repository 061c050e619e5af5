/* The interlock of the production cell, for C and C++.

   The state of the cell is one 64-bit word. bagunjoki_step answers a call on such a word, and gives the word after it.
   bagunjoki_ask makes a call on a word that threads or processes share; bagunjoki_settle asks until it is answered.

   What is proved (crates/cell_c): what the seven functions of the library return. What isn't: the loops of
   bagunjoki_ask, bagunjoki_settle and bagunjoki_renew, which your compiler translates. They are right if
     - nothing but these three writes the word after it was set to a start's, and
     - no two callers call as the same machine.
   This header can't keep you from either. docs/FROM_C.md has the whole list of duties. */
#ifndef BAGUNJOKI_H
#define BAGUNJOKI_H

#include <stdbool.h>
#include <stddef.h>
#include <stdint.h>

#ifdef __cplusplus
#include <atomic>
extern "C" {
#else
#include <stdatomic.h>
#endif

/* That of the programs too. Releases with one major number are compatible. */
#define BAGUNJOKI_VERSION "1.0.0"

/* Machines. NOBODY is an owner, and makes no calls. */
enum bagunjoki_machine {
    BAGUNJOKI_NOBODY = 0,
    BAGUNJOKI_FEED = 1,
    BAGUNJOKI_TABLE = 2,
    BAGUNJOKI_ROBOT = 3,
    BAGUNJOKI_PRESS = 4,
    BAGUNJOKI_DEPOSIT = 5,
    BAGUNJOKI_CRANE = 6,
    BAGUNJOKI_WATCH = 7
};

/* Zones. */
enum bagunjoki_zone {
    BAGUNJOKI_Z1 = 1, /* feed belt and table */
    BAGUNJOKI_Z2 = 2, /* table and arm 1 */
    BAGUNJOKI_Z3 = 3, /* arms and press */
    BAGUNJOKI_Z4 = 4, /* arm 2 and deposit belt */
    BAGUNJOKI_Z5 = 5, /* deposit belt and crane */
    BAGUNJOKI_Z6 = 6  /* crane and feed belt */
};

/* Places, p1 to p10. */
enum bagunjoki_place {
    BAGUNJOKI_AT_FEED_ENTRY = 1,
    BAGUNJOKI_AT_FEED_END = 2,
    BAGUNJOKI_AT_TABLE = 3,
    BAGUNJOKI_AT_ARM1 = 4,
    BAGUNJOKI_AT_PRESS_IN = 5,
    BAGUNJOKI_AT_PRESS_OUT = 6,
    BAGUNJOKI_AT_ARM2 = 7,
    BAGUNJOKI_AT_DEP_ENTRY = 8,
    BAGUNJOKI_AT_DEP_END = 9,
    BAGUNJOKI_AT_CRANE = 10
};

/* Postures of zones. */
enum bagunjoki_posture {
    BAGUNJOKI_CLOSED = 0,
    BAGUNJOKI_MOVING = 1,
    BAGUNJOKI_OPEN_IN = 2,
    BAGUNJOKI_OPEN_OUT = 3
};

/* Poses of machines. */
enum bagunjoki_pose {
    BAGUNJOKI_TURNING = 1,
    BAGUNJOKI_LOADING = 2,
    BAGUNJOKI_UNLOADING = 3,
    BAGUNJOKI_TRAVELLING = 4,
    BAGUNJOKI_MIDDLE = 5,
    BAGUNJOKI_LOW = 6,
    BAGUNJOKI_TOP = 7,
    BAGUNJOKI_RUNNING = 8,
    BAGUNJOKI_LANDING = 9,
    BAGUNJOKI_HALTED = 10,
    BAGUNJOKI_OFFERING = 11,
    BAGUNJOKI_STANDING = 12
};

/* Verbs. The object of SET_POSE is a pose, that of ADVANCE, STOP and RESUME is 0, that of all others a zone. */
enum bagunjoki_verb {
    BAGUNJOKI_CLAIM = 1,
    BAGUNJOKI_GIVE = 2,
    BAGUNJOKI_YIELD = 3,
    BAGUNJOKI_TAKE = 4,
    BAGUNJOKI_RELEASE = 5,
    BAGUNJOKI_SET_POSE = 6,
    BAGUNJOKI_ADVANCE = 7,
    BAGUNJOKI_INQUIRE = 8,
    BAGUNJOKI_STOP = 9,
    BAGUNJOKI_RESUME = 10
};

/* Answers. Only DONE changes the word. 1 to 16 are refusals. */
enum bagunjoki_answer {
    BAGUNJOKI_DONE = 0,
    BAGUNJOKI_NOT_PARTY = 1,     /* the caller is no party of the zone; STOP, RESUME: it isn't the watch */
    BAGUNJOKI_HELD = 2,          /* by the reply's owner */
    BAGUNJOKI_ALREADY_MINE = 3,
    BAGUNJOKI_SHUT = 4,          /* the zone has the reply's posture */
    BAGUNJOKI_NOT_OWNER = 5,     /* the reply's owner owns a zone that the call needs, or NOBODY */
    BAGUNJOKI_PLATE_IN_ZONE = 6, /* in the reply's zone */
    BAGUNJOKI_NO_PLATE = 7,
    BAGUNJOKI_PLACE_FULL = 8,
    BAGUNJOKI_WRONG_WAY = 9,
    BAGUNJOKI_JUMP = 10,
    BAGUNJOKI_NOT_AT_WORK = 11,
    BAGUNJOKI_NO_POSE = 12,
    BAGUNJOKI_WORN = 13,         /* the stamp is the last: no call is done any more */
    BAGUNJOKI_STOPPED = 14,
    BAGUNJOKI_NOT_STOPPED = 15,
    BAGUNJOKI_IN_USE = 16,
    BAGUNJOKI_SHOWN = 32,        /* the reply has the zone's owner, plate and posture */
    BAGUNJOKI_NO_CALL = 64,      /* the numbers name no machine or no call */
    BAGUNJOKI_NO_STATE = 65,     /* the word is no state's: something else has written it */
    BAGUNJOKI_BUSY = 66          /* bagunjoki_ask alone: others made a change before each of its tries. Ask again */
};

/* No state has this word. */
#define BAGUNJOKI_NO_WORD UINT64_MAX

/* The last stamp: when a word has it, the interlock is worn. bagunjoki_renew keeps it from that. */
#define BAGUNJOKI_LAST_STAMP 1048575

/* What a call gives back. */
typedef struct bagunjoki_reply {
    uint64_t next;   /* the word after the call. Unless the answer is DONE, the one before it */
    uint8_t answer;
    uint8_t owner;   /* what the answer names; if it names none, 0 */
    uint8_t zone;
    uint8_t posture;
    bool plate;
} bagunjoki_reply;

/* The proved functions. They read and write nothing but their arguments, take no memory, and return. Any thread and
   any signal handler may call them. */

/* A call on a word. It changes no shared word. */
bagunjoki_reply bagunjoki_step(uint64_t word, uint8_t machine, uint8_t verb, uint8_t object);

/* The word of a start: `length` digits 0 or 1, as text, one for each place, ten in all, and the first stamp, mostly 0.
   All zones are free and closed. NO_WORD if there is no such start. `digits` mustn't be null. */
uint64_t bagunjoki_start(const uint8_t *digits, size_t length, uint32_t stamp);

/* The word of the same state with another stamp. NO_WORD if the word is no state's, or if the stamp is past the last. */
uint64_t bagunjoki_restamp(uint64_t word, uint32_t stamp);

/* Whether the word is a state's. */
bool bagunjoki_is_state(uint64_t word);

/* The stamp of a state's word: the first one, or that of the last renewal, and one more for each call DONE since. Of
   another word its bits 40 to 59. */
uint32_t bagunjoki_stamp(uint64_t word);

/* Whether the cell is stopped. False if the word is no state's. */
bool bagunjoki_is_stopped(uint64_t word);

/* Whether a place is full. False if the word is no state's, or if there is no such place. */
bool bagunjoki_is_full(uint64_t word, uint8_t place);

#ifdef __cplusplus
}
typedef std::atomic<uint64_t> bagunjoki_word;
#define BAGUNJOKI_ATOMIC(name) std::atomic_##name
#else
typedef _Atomic uint64_t bagunjoki_word;
#define BAGUNJOKI_ATOMIC(name) atomic_##name
#endif

/* Two processes can share a word only if its operations take no lock. */
#if ATOMIC_LLONG_LOCK_FREE != 2
#error "bagunjoki.h: this machine has no lock-free operations on 64 bits"
#endif

/* Makes a word that threads or processes share the word of a start. Before the first call, and by one thread. */
static inline void bagunjoki_open(bagunjoki_word *shared, uint64_t start) {
    BAGUNJOKI_ATOMIC(store)(shared, start);
}

/* A call on a shared word: one load, and at most `tries` exchanges. The reply's `next` is the word that the call left,
   if it is DONE, and otherwise the word in which it was answered. With no try left, a call that would be DONE is BUSY,
   and has changed nothing. All operations are sequentially consistent: what a machine wrote to memory before it
   released a zone is seen by the machine that claims it then. The exchange is the strong one: if it could fail for no
   reason, BUSY would be false. */
static inline bagunjoki_reply bagunjoki_ask(bagunjoki_word *shared, uint8_t machine, uint8_t verb, uint8_t object,
                                            unsigned tries) {
    uint64_t word = BAGUNJOKI_ATOMIC(load)(shared);
    for (;;) {
        bagunjoki_reply reply = bagunjoki_step(word, machine, verb, object);
        if (reply.answer != BAGUNJOKI_DONE) return reply;
        if (tries == 0) {
            reply.answer = BAGUNJOKI_BUSY;
            reply.next = word;
            return reply;
        }
        /* (an exchange that is lost puts the word that it found into `word`) */
        if (BAGUNJOKI_ATOMIC(compare_exchange_strong)(shared, &word, reply.next)) return reply;
        tries--;
    }
}

/* Asks until it is answered: never BUSY, and WORN is an answer. It ends: an exchange is lost only where another call
   has changed the word, and after LAST_STAMP changes a call that would be DONE is WORN. So at most LAST_STAMP exchanges
   are lost. After a renewal this count begins anew, and while renewals go on there is no bound. Who has time for few
   exchanges only asks by bagunjoki_ask: then a machine's calls are BUSY at most LAST_STAMP / tries times from one
   renewal to the next. No proof says so. */
static inline bagunjoki_reply bagunjoki_settle(bagunjoki_word *shared, uint8_t machine, uint8_t verb, uint8_t object) {
    bagunjoki_reply reply;
    do {
        reply = bagunjoki_ask(shared, machine, verb, object, BAGUNJOKI_LAST_STAMP);
    } while (reply.answer == BAGUNJOKI_BUSY); /* only if it was renewed meanwhile */
    return reply;
}

/* Keeps a shared word from wearing out: if its stamp is `from` or later, gives it the stamp `to`, and changes nothing
   else of the state. One load, and at most `tries` exchanges. Any thread may do this at any moment, also while others
   call: to a call that is under way it is a change by others. Do it in each turn: bagunjoki_renew(&word, 1000000, 0, 8).
   False if the word's stamp is `from` or later and it isn't done: all exchanges were lost, the word is no state's, or
   `to` is past LAST_STAMP. True doesn't say that the word is a state's. */
static inline bool bagunjoki_renew(bagunjoki_word *shared, uint32_t from, uint32_t to, unsigned tries) {
    uint64_t word = BAGUNJOKI_ATOMIC(load)(shared);
    while (bagunjoki_stamp(word) >= from) {
        uint64_t next = bagunjoki_restamp(word, to);
        if (next == BAGUNJOKI_NO_WORD || tries == 0) return false;
        if (BAGUNJOKI_ATOMIC(compare_exchange_strong)(shared, &word, next)) return true;
        tries--;
    }
    return true;
}

#undef BAGUNJOKI_ATOMIC
#endif
