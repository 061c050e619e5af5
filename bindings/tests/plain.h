/* The rules of the interlock in plain C, on the bits of the word, by hand: what bagunjoki.h is measured beside, and
   compared with. bench/plain/ask.rs has the same rules in Rust. */
#ifndef PLAIN_H
#define PLAIN_H

#include "bagunjoki.h"

enum { CODE_FREE, CODE_HOST, CODE_GUEST };
#define PLAIN_STAMP (1ull << 40)
#define PLAIN_LAST (1048575ull << 40)
#define PLAIN_MARK (1ull << 60)
#define FULL(place) (1ull << (29 + (place)))
#define ZONE_BIT(zone) (5 * ((zone)-1))

static const uint8_t plain_host[7] = {
    0, BAGUNJOKI_TABLE, BAGUNJOKI_TABLE, BAGUNJOKI_PRESS, BAGUNJOKI_DEPOSIT, BAGUNJOKI_DEPOSIT, BAGUNJOKI_FEED};
static const uint8_t plain_guest[7] = {
    0, BAGUNJOKI_FEED, BAGUNJOKI_ROBOT, BAGUNJOKI_ROBOT, BAGUNJOKI_ROBOT, BAGUNJOKI_CRANE, BAGUNJOKI_CRANE};
/* by zone, inward and outward: the place where a plate comes from, and where it goes */
static const uint8_t plain_way[7][2][2] = {{{0}},         {{2, 3}, {0}},  {{0}, {3, 4}}, {{4, 5}, {6, 7}},
                                           {{7, 8}, {0}}, {{0}, {9, 10}}, {{10, 1}, {0}}};
/* by pose: zone and posture, twice */
typedef uint8_t plain_pose[4];
static const plain_pose plain_table[] = {{1, 1, 2, 1}, {1, 2, 2, 0}, {1, 0, 2, 3}};
static const plain_pose plain_press[] = {{3, 1}, {3, 2}, {3, 3}, {3, 0}};
static const plain_pose plain_feed[] = {{6, 1}, {6, 2}, {6, 0}};
static const plain_pose plain_deposit[] = {{4, 1, 5, 1}, {4, 2, 5, 0}, {4, 0, 5, 0}, {4, 0, 5, 3}, {4, 2, 5, 3}};

static inline unsigned plain_owner(uint64_t w, unsigned z) { return (unsigned)(w >> ZONE_BIT(z)) & 3; }
static inline bool plain_flag(uint64_t w, unsigned z) { return w >> (ZONE_BIT(z) + 2) & 1; }
static inline unsigned plain_posture(uint64_t w, unsigned z) { return (unsigned)(w >> (ZONE_BIT(z) + 3)) & 3; }
static inline uint8_t plain_who(uint64_t w, unsigned z) {
    unsigned code = plain_owner(w, z);
    return code == CODE_FREE ? BAGUNJOKI_NOBODY : code == CODE_HOST ? plain_host[z] : plain_guest[z];
}
static inline uint64_t plain_with_owner(uint64_t w, unsigned z, uint64_t code) {
    return (w & ~(3ull << ZONE_BIT(z))) | code << ZONE_BIT(z);
}
static inline uint64_t plain_with_posture(uint64_t w, unsigned z, uint64_t p) {
    return (w & ~(3ull << (ZONE_BIT(z) + 3))) | p << (ZONE_BIT(z) + 3);
}

static inline bagunjoki_reply plain_refuse(uint64_t w, uint8_t answer) {
    bagunjoki_reply reply = {w, answer, 0, 0, 0, false};
    return reply;
}
static inline bagunjoki_reply plain_owned(uint64_t w, uint8_t answer, uint8_t owner) {
    bagunjoki_reply reply = {w, answer, owner, 0, 0, false};
    return reply;
}
static inline bagunjoki_reply plain_shut(uint64_t w, unsigned z) {
    bagunjoki_reply reply = {w, BAGUNJOKI_SHUT, 0, 0, (uint8_t)plain_posture(w, z), false};
    return reply;
}
static inline bagunjoki_reply plain_plate_in(uint64_t w, unsigned z) {
    bagunjoki_reply reply = {w, BAGUNJOKI_PLATE_IN_ZONE, 0, (uint8_t)z, 0, false};
    return reply;
}
static inline bagunjoki_reply plain_done(uint64_t w, uint64_t next) {
    if ((w & PLAIN_LAST) == PLAIN_LAST) return plain_refuse(w, BAGUNJOKI_WORN);
    return plain_refuse(next + PLAIN_STAMP, BAGUNJOKI_DONE);
}

static bagunjoki_reply plain_zone_call(uint64_t w, uint8_t m, uint8_t verb, unsigned z) {
    unsigned mine = m == plain_host[z]    ? CODE_HOST
                    : m == plain_guest[z] ? CODE_GUEST
                                          : CODE_FREE,
             posture = plain_posture(w, z);
    if (!mine) return plain_refuse(w, BAGUNJOKI_NOT_PARTY);
    if (verb <= BAGUNJOKI_GIVE && w & PLAIN_MARK) return plain_refuse(w, BAGUNJOKI_STOPPED);
    unsigned owner = plain_owner(w, z);
    if (verb == BAGUNJOKI_CLAIM) {
        if (owner == mine) return plain_refuse(w, BAGUNJOKI_ALREADY_MINE);
        if (owner) return plain_owned(w, BAGUNJOKI_HELD, plain_who(w, z));
        if (mine == CODE_GUEST && posture < BAGUNJOKI_OPEN_IN) return plain_shut(w, z);
        return plain_done(w, plain_with_owner(w, z, mine));
    }
    if (owner != mine) return plain_owned(w, BAGUNJOKI_NOT_OWNER, plain_who(w, z));
    if (verb == BAGUNJOKI_TAKE) {
        if (!plain_flag(w, z)) return plain_refuse(w, BAGUNJOKI_NO_PLATE);
        return plain_done(w, (w & ~(4ull << ZONE_BIT(z))) | FULL(plain_way[z][posture & 1][1]));
    }
    if (plain_flag(w, z)) return plain_plate_in(w, z);
    if (verb == BAGUNJOKI_GIVE) {
        const uint8_t *way = posture < BAGUNJOKI_OPEN_IN ? plain_way[0][0] : plain_way[z][posture & 1];
        if (!way[0] || mine != (posture == BAGUNJOKI_OPEN_IN ? CODE_GUEST : CODE_HOST))
            return plain_refuse(w, BAGUNJOKI_WRONG_WAY);
        if (!(w & FULL(way[0]))) return plain_refuse(w, BAGUNJOKI_NO_PLATE);
        if (w & FULL(way[1])) return plain_refuse(w, BAGUNJOKI_PLACE_FULL);
        return plain_done(w, plain_with_owner((w & ~FULL(way[0])) | 4ull << ZONE_BIT(z), z, 3 - mine));
    }
    if (verb == BAGUNJOKI_YIELD ? posture < BAGUNJOKI_OPEN_IN : posture == BAGUNJOKI_MOVING) return plain_shut(w, z);
    if (m == BAGUNJOKI_FEED && z == 1 && plain_posture(w, 6) == BAGUNJOKI_MOVING && w & FULL(2))
        return plain_refuse(w, BAGUNJOKI_IN_USE);
    return plain_done(w, plain_with_owner(w, z, verb == BAGUNJOKI_YIELD ? 3 - mine : CODE_FREE));
}

static const uint8_t *plain_postures(uint8_t m, uint8_t pose) {
    if (m == BAGUNJOKI_TABLE && pose >= 1 && pose <= 3) return plain_table[pose - 1];
    if (m == BAGUNJOKI_PRESS && pose >= 4 && pose <= 7) return plain_press[pose - 4];
    if (m == BAGUNJOKI_FEED && pose >= 8 && pose <= 10) return plain_feed[pose - 8];
    if (m == BAGUNJOKI_DEPOSIT && pose >= 8 && pose <= 12) return plain_deposit[pose - 8];
    return NULL;
}

static bagunjoki_reply plain_set_pose(uint64_t w, uint8_t m, uint8_t pose) {
    const uint8_t *to = plain_postures(m, pose);
    if (!to) return plain_refuse(w, BAGUNJOKI_NO_POSE);
    bool moves = to[1] == BAGUNJOKI_MOVING, jumps = false;
    if (moves && w & PLAIN_MARK) return plain_refuse(w, BAGUNJOKI_STOPPED);
    unsigned count = m == BAGUNJOKI_PRESS || m == BAGUNJOKI_FEED ? 1 : 2;
    for (unsigned k = 0; k < count; k++) {
        unsigned z = to[2 * k];
        if ((moves || plain_posture(w, z) != to[2 * k + 1]) && plain_owner(w, z) != CODE_HOST)
            return plain_owned(w, BAGUNJOKI_NOT_OWNER, plain_who(w, z));
    }
    for (unsigned k = 0; k < count; k++) {
        unsigned z = to[2 * k];
        if ((moves || plain_posture(w, z) != to[2 * k + 1]) && plain_flag(w, z)) return plain_plate_in(w, z);
        jumps |= plain_posture(w, z) != BAGUNJOKI_MOVING;
    }
    if (jumps && !moves && (m == BAGUNJOKI_TABLE || m == BAGUNJOKI_PRESS)) return plain_refuse(w, BAGUNJOKI_JUMP);
    for (unsigned k = 0; k < count; k++) {
        unsigned z = to[2 * k];
        if (to[2 * k + 1] != BAGUNJOKI_OPEN_IN || plain_posture(w, z) == BAGUNJOKI_OPEN_IN) continue;
        if (w & (FULL(plain_way[z][0][1]) | (z == 3 ? FULL(6) : 0))) return plain_refuse(w, BAGUNJOKI_PLACE_FULL);
    }
    if (moves && m == BAGUNJOKI_DEPOSIT && w & FULL(9)) return plain_refuse(w, BAGUNJOKI_PLACE_FULL);
    if (moves && m == BAGUNJOKI_FEED && w & FULL(2) && plain_owner(w, 1) != CODE_GUEST)
        return plain_refuse(w, BAGUNJOKI_PLACE_FULL);
    uint64_t next = plain_with_posture(w, to[0], to[1]);
    return plain_done(w, count == 2 ? plain_with_posture(next, to[2], to[3]) : next);
}

static bagunjoki_reply plain_advance(uint64_t w, uint8_t m) {
    unsigned from;
    bool at_work;
    if (m == BAGUNJOKI_FEED) {
        from = 1, at_work = plain_posture(w, 6) == BAGUNJOKI_MOVING;
    } else if (m == BAGUNJOKI_DEPOSIT) {
        from = 8, at_work = plain_posture(w, 4) == BAGUNJOKI_MOVING && plain_posture(w, 5) == BAGUNJOKI_MOVING;
    } else if (m == BAGUNJOKI_PRESS) {
        if (plain_owner(w, 3) != CODE_HOST) return plain_owned(w, BAGUNJOKI_NOT_OWNER, plain_who(w, 3));
        from = 5, at_work = plain_posture(w, 3) == BAGUNJOKI_CLOSED;
    } else {
        return plain_refuse(w, BAGUNJOKI_NO_POSE);
    }
    if (!at_work) return plain_refuse(w, BAGUNJOKI_NOT_AT_WORK);
    if (!(w & FULL(from))) return plain_refuse(w, BAGUNJOKI_NO_PLATE);
    if (w & FULL(from + 1)) return plain_refuse(w, BAGUNJOKI_PLACE_FULL);
    uint64_t next = (w & ~FULL(from)) | FULL(from + 1);
    if (m == BAGUNJOKI_FEED) next = plain_with_posture(next, 6, BAGUNJOKI_CLOSED);
    if (m == BAGUNJOKI_DEPOSIT)
        next = plain_with_posture(plain_with_posture(next, 4, BAGUNJOKI_CLOSED), 5, BAGUNJOKI_CLOSED);
    return plain_done(w, next);
}

static bagunjoki_reply plain_step(uint64_t w, uint8_t m, uint8_t verb, uint8_t object) {
    if (m < BAGUNJOKI_FEED || m > BAGUNJOKI_WATCH) return plain_refuse(w, BAGUNJOKI_NO_CALL);
    switch (verb) {
    case BAGUNJOKI_CLAIM:
    case BAGUNJOKI_GIVE:
    case BAGUNJOKI_YIELD:
    case BAGUNJOKI_TAKE:
    case BAGUNJOKI_RELEASE:
        if (object < 1 || object > 6) break;
        return plain_zone_call(w, m, verb, object);
    case BAGUNJOKI_SET_POSE:
        if (object < 1 || object > 12) break;
        return plain_set_pose(w, m, object);
    case BAGUNJOKI_ADVANCE:
        if (object) break;
        return plain_advance(w, m);
    case BAGUNJOKI_INQUIRE: {
        if (object < 1 || object > 6) break;
        bagunjoki_reply reply = {
            w, BAGUNJOKI_SHOWN, plain_who(w, object), 0, (uint8_t)plain_posture(w, object), plain_flag(w, object)};
        return reply;
    }
    case BAGUNJOKI_STOP:
    case BAGUNJOKI_RESUME:
        if (object) break;
        if (m != BAGUNJOKI_WATCH) return plain_refuse(w, BAGUNJOKI_NOT_PARTY);
        if (verb == BAGUNJOKI_STOP ? (w & PLAIN_MARK) != 0 : (w & PLAIN_MARK) == 0)
            return plain_refuse(w, verb == BAGUNJOKI_STOP ? BAGUNJOKI_STOPPED : BAGUNJOKI_NOT_STOPPED);
        return plain_done(w, w ^ PLAIN_MARK);
    }
    return plain_refuse(w, BAGUNJOKI_NO_CALL);
}

/* Whether the word is a state's: its zones have codes that five bits of them may have, no plate is on its way to a full
   place, and the press has one plate at most. */
static inline bool plain_is_state(uint64_t w) {
    static const uint32_t codes[7] = {0, 0x270203, 0x47000203, 0x47270203, 0x270203, 0x47000203, 0x270203};
    if (w >> 61) return false;
    for (unsigned z = 1; z <= 6; z++) {
        unsigned code = (unsigned)(w >> ZONE_BIT(z)) & 31;
        if (!(codes[z] >> code & 1)) return false;
        if (code & 4 && w & FULL(plain_way[z][code >> 3 & 1][1])) return false;
    }
    return !(w & FULL(6)) || (!(w & FULL(5)) && plain_posture(w, 3) != BAGUNJOKI_OPEN_IN);
}

/* plain_step, but that it tests the word, as bagunjoki_step does. */
static inline bagunjoki_reply plain_tested_step(uint64_t w, uint8_t m, uint8_t verb, uint8_t object) {
    bagunjoki_reply reply = plain_step(w, m, verb, object);
    return reply.answer == BAGUNJOKI_NO_CALL || plain_is_state(w) ? reply : plain_refuse(w, BAGUNJOKI_NO_STATE);
}

/* bagunjoki_ask, by such a step. */
typedef bagunjoki_reply plain_steps(uint64_t, uint8_t, uint8_t, uint8_t);
static inline __attribute__((always_inline)) bagunjoki_reply
plain_ask(plain_steps *by, bagunjoki_word *shared, uint8_t machine, uint8_t verb, uint8_t object, unsigned tries) {
    uint64_t word = atomic_load(shared);
    for (;;) {
        bagunjoki_reply reply = by(word, machine, verb, object);
        if (reply.answer != BAGUNJOKI_DONE) return reply;
        if (tries == 0) {
            reply.answer = BAGUNJOKI_BUSY;
            reply.next = word;
            return reply;
        }
        if (atomic_compare_exchange_strong(shared, &word, reply.next)) return reply;
        tries--;
    }
}

#endif
