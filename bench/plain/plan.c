/* The interlock of any plan in plain C, by hand, on the bits of the state's word: what bench/plan measures compiled
   plans beside. A call first tests whether the word is a state's, then looks into the plan's tables, of which masks and
   lists are made once. Beside it, for the plan of the cell, stands bindings/tests/plain.h, which knows that plan alone.

   It reads what proved/plan reads (see there): 1 makes the calls by the plan, 2 by plain.h, and 0 makes none. Compiled
   with -DLIBRARY it makes them by the library for C instead. */
#include "../../bindings/tests/plain.h"
#include <stdio.h>
#ifdef LIBRARY
#include <bagunjoki_plan.h>
#endif

enum { CLOSED, MOVING, OPEN_IN, OPEN_OUT };
enum { CLAIM = 1, GIVE, YIELD, TAKE, RELEASE, SET_POSE, INQUIRE = 8, STOP, RESUME, ADVANCE, WATCH = 30, NOBODY = 255 };
enum { HEAD = 20, MOST = 884, ZONES = 10, POSES = 64, PLACES = 16 };

/* A zone: its parties; its lowest bit, how many it has, and the codes that they may have; the lowest bit of its
   posture, as many ones as this has, its postures by their codes, and their codes by postures; the bit of its flag, if
   it has one; and by OPEN_IN and OPEN_OUT the bits of the places at both ends of its way; no bits where it has none. */
struct zone {
    uint8_t host, guest, bit, bits, posture_bit, posture_mask, postures[4], posture_codes[4];
    uint32_t codes;
    uint64_t flag, from[2], to[2];
};

/* A pose: the zones that its machine hosts, each with the posture that it gives, or -1. */
struct pose {
    uint8_t machine, count;
    bool after_moving, moves;
    struct {
        uint8_t zone;
        int8_t gives;
    } at[ZONES];
};

/* A place: its bit, the machine that keeps it, and whether plates come to it from outside, or go there from it. */
struct place {
    uint64_t bit;
    uint8_t keeper;
    bool source, sink;
};

struct plan {
    unsigned zone_count, pose_count, place_count;
    uint64_t above, places, unit, last, stop;
    struct place place_rows[PLACES];
    struct zone zones[ZONES];
    struct pose poses[POSES];
};

struct reply {
    uint64_t next;
    uint8_t answer, owner, zone, posture;
    bool plate;
};

static inline unsigned owner_in(uint64_t word, const struct zone *zone) { return (unsigned)(word >> zone->bit) & 3; }
static inline bool flag_in(uint64_t word, const struct zone *zone) { return word & zone->flag; }
static inline unsigned posture_in(uint64_t word, const struct zone *zone) {
    return zone->postures[word >> zone->posture_bit & zone->posture_mask];
}
static inline uint64_t with_owner(uint64_t word, const struct zone *zone, uint64_t code) {
    return (word & ~(3ull << zone->bit)) | code << zone->bit;
}
static inline uint64_t with_posture(uint64_t word, const struct zone *zone, unsigned posture) {
    uint64_t code = zone->posture_codes[posture], mask = zone->posture_mask;
    return (word & ~(mask << zone->posture_bit)) | code << zone->posture_bit;
}
static inline uint8_t owner_of(const struct zone *zone, unsigned code) {
    return code == 0 ? NOBODY : code == 1 ? zone->host : zone->guest;
}

static inline struct reply refuse(uint64_t word, uint8_t answer) {
    struct reply reply = {word, answer, NOBODY, NOBODY, NOBODY, false};
    return reply;
}
static inline struct reply owned(uint64_t word, uint8_t answer, uint8_t owner) {
    struct reply reply = {word, answer, owner, NOBODY, NOBODY, false};
    return reply;
}
static inline struct reply shut(uint64_t word, unsigned posture) {
    struct reply reply = {word, BAGUNJOKI_SHUT, NOBODY, NOBODY, (uint8_t)posture, false};
    return reply;
}
static inline struct reply plate_in(uint64_t word, unsigned zone) {
    struct reply reply = {word, BAGUNJOKI_PLATE_IN_ZONE, NOBODY, (uint8_t)zone, NOBODY, false};
    return reply;
}
static inline struct reply done(const struct plan *plan, uint64_t word, uint64_t next) {
    if ((word & plan->last) == plan->last) return refuse(word, BAGUNJOKI_WORN);
    return refuse(next + plan->unit, BAGUNJOKI_DONE);
}

/* Whether the word is a state's, and then the bits of the places that have a plate, or have one coming. */
static inline bool is_state(const struct plan *plan, uint64_t word, uint64_t *taken) {
    if (word & plan->above) return false;
    uint64_t plates = word & plan->places;
    for (unsigned k = 0; k < plan->zone_count; k++) {
        const struct zone *zone = &plan->zones[k];
        unsigned code = (unsigned)(word >> zone->bit) & ((1u << zone->bits) - 1);
        if (!(zone->codes >> code & 1)) return false;
        if (flag_in(word, zone)) {
            uint64_t to = zone->to[posture_in(word, zone) & 1];
            if (plates & to) return false;
            plates |= to;
        }
    }
    *taken = plates;
    return true;
}

static struct reply zone_call(const struct plan *plan, uint64_t word, uint64_t taken, uint8_t machine, uint8_t verb,
                              unsigned number) {
    if (number >= plan->zone_count) return refuse(word, BAGUNJOKI_NOT_PARTY);
    const struct zone *zone = &plan->zones[number];
    unsigned mine = machine == zone->host ? 1 : machine == zone->guest ? 2 : 0;
    unsigned owner = owner_in(word, zone), posture = posture_in(word, zone), way = posture & 1;
    if (!mine) return refuse(word, BAGUNJOKI_NOT_PARTY);
    if (verb <= GIVE && word & plan->stop) return refuse(word, BAGUNJOKI_STOPPED);
    if (verb == CLAIM) {
        if (owner == mine) return refuse(word, BAGUNJOKI_ALREADY_MINE);
        if (owner) return owned(word, BAGUNJOKI_HELD, owner_of(zone, owner));
        if (mine == 2 && posture < OPEN_IN) return shut(word, posture);
        return done(plan, word, with_owner(word, zone, mine));
    }
    if (owner != mine) return owned(word, BAGUNJOKI_NOT_OWNER, owner_of(zone, owner));
    if (verb == TAKE) {
        if (!flag_in(word, zone)) return refuse(word, BAGUNJOKI_NO_PLATE);
        return done(plan, word, (word & ~zone->flag) | zone->to[way]);
    }
    if (flag_in(word, zone)) return plate_in(word, number);
    if (verb == RELEASE) {
        if (posture == MOVING) return shut(word, posture);
        return done(plan, word, with_owner(word, zone, 0));
    }
    if (verb == YIELD) {
        if (posture < OPEN_IN) return shut(word, posture);
        return done(plan, word, with_owner(word, zone, 3 - mine));
    }
    if (posture < OPEN_IN || !zone->from[way] || mine != (posture == OPEN_IN ? 2 : 1))
        return refuse(word, BAGUNJOKI_WRONG_WAY);
    if (!(word & zone->from[way])) return refuse(word, BAGUNJOKI_NO_PLATE);
    if (taken & zone->to[way]) return refuse(word, BAGUNJOKI_PLACE_FULL);
    return done(plan, word, with_owner((word & ~zone->from[way]) | zone->flag, zone, 3 - mine));
}

static struct reply set_pose(const struct plan *plan, uint64_t word, uint64_t taken, uint8_t machine, unsigned number) {
    if (number >= plan->pose_count || plan->poses[number].machine != machine) return refuse(word, BAGUNJOKI_NO_POSE);
    const struct pose *pose = &plan->poses[number];
    if (pose->moves && word & plan->stop) return refuse(word, BAGUNJOKI_STOPPED);
    bool jumps = false;
    for (unsigned k = 0; k < pose->count; k++) {
        const struct zone *zone = &plan->zones[pose->at[k].zone];
        int posture = (int)posture_in(word, zone);
        bool concerned = pose->moves || (pose->at[k].gives >= 0 && pose->at[k].gives != posture);
        if (concerned && owner_in(word, zone) != 1)
            return owned(word, BAGUNJOKI_NOT_OWNER, owner_of(zone, owner_in(word, zone)));
        jumps |= posture != MOVING;
    }
    for (unsigned k = 0; k < pose->count; k++) {
        const struct zone *zone = &plan->zones[pose->at[k].zone];
        int posture = (int)posture_in(word, zone);
        bool concerned = pose->moves || (pose->at[k].gives >= 0 && pose->at[k].gives != posture);
        if (concerned && flag_in(word, zone)) return plate_in(word, pose->at[k].zone);
    }
    if (jumps && pose->after_moving) return refuse(word, BAGUNJOKI_JUMP);
    uint64_t next = word;
    for (unsigned k = 0; k < pose->count; k++) {
        const struct zone *zone = &plan->zones[pose->at[k].zone];
        if (pose->at[k].gives < 0) continue;
        if (pose->at[k].gives == OPEN_IN && posture_in(word, zone) != OPEN_IN && taken & zone->to[0])
            return refuse(word, BAGUNJOKI_PLACE_FULL);
        next = with_posture(next, zone, (unsigned)pose->at[k].gives);
    }
    return done(plan, word, next);
}

static struct reply advance(const struct plan *plan, uint64_t word, uint64_t taken, uint8_t machine, unsigned number) {
    if (number >= plan->place_count) return refuse(word, BAGUNJOKI_NOT_PARTY);
    const struct place *place = &plan->place_rows[number];
    if (place->keeper != machine || !(place->source || place->sink)) return refuse(word, BAGUNJOKI_NOT_PARTY);
    if (word & plan->stop) return refuse(word, BAGUNJOKI_STOPPED);
    bool is_full = word & place->bit;
    if (place->source && taken & place->bit && !(place->sink && is_full)) return refuse(word, BAGUNJOKI_PLACE_FULL);
    if (!place->source && !is_full) return refuse(word, BAGUNJOKI_NO_PLATE);
    return done(plan, word, word ^ place->bit);
}

static __attribute__((noinline)) struct reply step(const struct plan *plan, uint64_t word, uint8_t machine,
                                                   uint8_t verb, uint8_t object) {
    uint64_t taken;
    if (!is_state(plan, word, &taken)) return refuse(word, BAGUNJOKI_NO_STATE);
    if (verb >= CLAIM && verb <= RELEASE) return zone_call(plan, word, taken, machine, verb, object);
    if (verb == SET_POSE) return set_pose(plan, word, taken, machine, object);
    if (verb == ADVANCE) return advance(plan, word, taken, machine, object);
    if (verb == INQUIRE) {
        if (object >= plan->zone_count) return refuse(word, BAGUNJOKI_NOT_PARTY);
        const struct zone *zone = &plan->zones[object];
        struct reply shown = {word, BAGUNJOKI_SHOWN, owner_of(zone, owner_in(word, zone)), NOBODY,
                              (uint8_t)posture_in(word, zone), flag_in(word, zone)};
        return shown;
    }
    if (verb != STOP && verb != RESUME) return refuse(word, BAGUNJOKI_NO_CALL);
    if (machine != WATCH) return refuse(word, BAGUNJOKI_NOT_PARTY);
    if (verb == STOP && word & plan->stop) return refuse(word, BAGUNJOKI_STOPPED);
    if (verb == RESUME && !(word & plan->stop)) return refuse(word, BAGUNJOKI_NOT_STOPPED);
    return done(plan, word, word ^ plan->stop);
}

/* The codes that a zone's bits may have: its owner's, whether a plate is in it, its posture. */
static uint32_t codes_of(const struct zone *zone) {
    uint32_t codes = 0;
    for (unsigned code = 0; code < 1u << zone->bits; code++) {
        unsigned owner = code & 3, posture = posture_in((uint64_t)code << zone->bit, zone);
        bool flag = flag_in((uint64_t)code << zone->bit, zone);
        bool receives = posture >= OPEN_IN && zone->to[posture & 1] && owner == (posture == OPEN_IN ? 1 : 2);
        if (owner == 3 || (flag && !receives) || (owner == 2 && posture < OPEN_IN)) continue;
        if (posture != MOVING || owner == 1) codes |= 1u << code;
    }
    return codes;
}

/* The bits of a zone from this one, by its row and by what each of the poses gives it, as the bytes have it: which is a
   posture's number and 1 more, or 0. */
static void lay_out(struct zone *zone, unsigned bit, const uint8_t *row, const uint8_t *gives, unsigned poses) {
    bool given[4] = {false};
    for (unsigned k = 0; k < poses; k++)
        if (gives[12 * k]) given[gives[12 * k] - 1] = true;
    unsigned others = given[MOVING] + given[OPEN_IN] + given[OPEN_OUT], has_flag = row[2] || row[5];
    zone->bit = (uint8_t)bit;
    zone->flag = has_flag ? 4ull << bit : 0;
    zone->posture_bit = (uint8_t)(bit + 2 + has_flag);
    zone->posture_mask = others > 1 ? 3 : others == 1;
    zone->bits = (uint8_t)(2 + has_flag + (others > 1 ? 2 : others));
    for (uint8_t posture = MOVING; posture <= OPEN_OUT; posture++) {
        if (!given[posture] && others < 2) continue;
        zone->posture_codes[posture] = others > 1 ? posture : 1;
        zone->postures[zone->posture_codes[posture]] = posture;
    }
}

/* The plan with these bytes, which have to be a plan's. */
static struct plan plan_of(const uint8_t *bytes) {
    struct plan plan = {0};
    plan.zone_count = bytes[1];
    plan.pose_count = bytes[2];
    unsigned places = plan.place_count = bytes[3], first = 0;
    for (unsigned k = 0; k < plan.zone_count; k++) {
        lay_out(&plan.zones[k], first, bytes + 4 + 8 * k, bytes + 4 + 8 * plan.zone_count + 2 + k, plan.pose_count);
        first += plan.zones[k].bits;
    }
    unsigned bits = first + places;
    plan.places = ((1ull << places) - 1) << first;
    plan.unit = 1ull << bits;
    plan.last = 1048575ull << bits;
    plan.stop = 1ull << (bits + 20);
    plan.above = ~(plan.stop | (plan.stop - 1));
    bytes += 4;
    for (unsigned k = 0; k < plan.zone_count; k++, bytes += 8) {
        struct zone *zone = &plan.zones[k];
        zone->host = bytes[0];
        zone->guest = bytes[1];
        for (unsigned way = 0; way < 2; way++) {
            zone->from[way] = bytes[2 + 3 * way] ? 1ull << (first + bytes[3 + 3 * way]) : 0;
            zone->to[way] = bytes[2 + 3 * way] ? 1ull << (first + bytes[4 + 3 * way]) : 0;
        }
        zone->codes = codes_of(zone);
    }
    for (unsigned k = 0; k < plan.pose_count; k++, bytes += 12) {
        struct pose *pose = &plan.poses[k];
        pose->machine = bytes[0];
        pose->after_moving = bytes[1];
        for (uint8_t zone = 0; zone < plan.zone_count; zone++) {
            if (plan.zones[zone].host != pose->machine) continue;
            pose->at[pose->count].zone = zone;
            pose->at[pose->count].gives = (int8_t)(bytes[2 + zone] - 1);
            pose->moves |= pose->at[pose->count++].gives == MOVING;
        }
    }
    for (unsigned k = 0; k < places; k++) {
        struct place place = {1ull << (first + k), bytes[k] & 63, bytes[k] & 64, bytes[k] & 128};
        plan.place_rows[k] = place;
    }
    return plan;
}

static __attribute__((noinline)) bagunjoki_reply cell_step(uint64_t word, uint8_t machine, uint8_t verb, uint8_t object) {
    return plain_tested_step(word, machine, verb, object);
}

#ifdef LIBRARY
static struct reply library_step(const bagunjoki_plan_opened *plan, uint64_t word, uint8_t machine, uint8_t verb,
                                 uint8_t object) {
    bagunjoki_plan_reply reply = bagunjoki_plan_step(plan, word, machine, verb, object);
    return refuse(reply.next, reply.answer);
}
#define step library_step
#endif

static uint64_t number(const uint8_t *bytes, unsigned count) {
    return count ? bytes[0] | number(bytes + 1, count - 1) << 8 : 0;
}

int main(void) {
    uint8_t input[HEAD + MOST] = {0};
    if (fread(input, 1, sizeof input, stdin) != sizeof input) return 1;
    uint8_t way = input[0], machine = input[1], verb = input[2], object = input[3], stamp_bit = input[4];
    uint64_t word = number(input + 8, 8), calls = number(input + 16, 4), sum = 0, finished = 0;
#ifdef LIBRARY
    bagunjoki_plan_opened plan = bagunjoki_plan_open(input + HEAD, input[6] | input[7] << 8);
#else
    struct plan plan = plan_of(input + HEAD);
#endif
    for (uint64_t stamp = 0; stamp < calls; stamp++) {
        uint64_t at = word | (stamp & 0x7FFFF) << stamp_bit;
        if (way == 0) {
            sum += at;
        } else if (way == 1) {
            struct reply reply = step(&plan, at, machine, verb, object);
            sum += reply.next;
            finished += reply.answer == BAGUNJOKI_DONE;
        } else {
            bagunjoki_reply reply = cell_step(at, machine + 1, verb, object + 1);
            sum += reply.next;
            finished += reply.answer == BAGUNJOKI_DONE;
        }
    }
    printf("%llu %llu\n", (unsigned long long)finished, (unsigned long long)sum);
    return 0;
}
