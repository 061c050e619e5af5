/* A plant on several words, as `plan header --words` prints it: the header of each word's plan. What that of word 0
   defines begins with PLAN0_ or plan0_, what that of word 1 defines with PLAN1_ or plan1_, and so on. */
#define PLANT_WORDS 2

/* A plan's names and the layout of its word, as `plan header` prints them. The word of a state has the fields below,
   from the lowest bit: the zones, the places, the stamp and the stop. A zone's bits are, from the lowest, two for its
   owner, one for its flag (a plate is in it) if a plate has a way through it, and for its posture two; or one, 0 for
   closed, if poses give it one other posture; or none, if it is always closed. The zones of one space have one owner:
   its bits, two to four, stand in the first of them, and a comment on each other zone names that one. */
#ifndef PLAN0_H
#define PLAN0_H

#include <stdint.h>

/* Machines. The watch is none of them. */
#define PLAN0_MACHINE_NORTH 0
#define PLAN0_MACHINE_SOUTH 1
#define PLAN0_MACHINES 2
#define PLAN0_WATCH 30

/* Zones. */
#define PLAN0_ZONE_A 0
#define PLAN0_ZONE_B 1
#define PLAN0_ZONE_C 2
#define PLAN0_ZONE_D 3
#define PLAN0_ZONE_E 4
#define PLAN0_ZONE_F 5
#define PLAN0_ZONE_G 6
#define PLAN0_ZONE_H 7
#define PLAN0_ZONE_I 8
#define PLAN0_ZONE_J 9
#define PLAN0_ZONES 10

/* Places. */
#define PLAN0_PLACE_NORTH_HOOK 0
#define PLAN0_PLACE_SOUTH_HOOK 1
#define PLAN0_PLACES 2

/* Poses, by machine and name. */
#define PLAN0_POSE_NORTH_ABOVE_A 0
#define PLAN0_POSE_NORTH_ABOVE_B 1
#define PLAN0_POSE_NORTH_ABOVE_C 2
#define PLAN0_POSE_NORTH_ABOVE_D 3
#define PLAN0_POSE_NORTH_ABOVE_E 4
#define PLAN0_POSE_NORTH_ABOVE_F 5
#define PLAN0_POSE_SOUTH_ABOVE_G 6
#define PLAN0_POSE_SOUTH_ABOVE_H 7
#define PLAN0_POSE_SOUTH_ABOVE_I 8
#define PLAN0_POSE_SOUTH_ABOVE_J 9
#define PLAN0_POSES 10

/* Who hosts a zone, who is its guest, and who keeps a place. */
#define PLAN0_HOST_OF_A PLAN0_MACHINE_NORTH
#define PLAN0_GUEST_OF_A PLAN0_MACHINE_SOUTH
#define PLAN0_HOST_OF_B PLAN0_MACHINE_NORTH
#define PLAN0_GUEST_OF_B PLAN0_MACHINE_SOUTH
#define PLAN0_HOST_OF_C PLAN0_MACHINE_NORTH
#define PLAN0_GUEST_OF_C PLAN0_MACHINE_SOUTH
#define PLAN0_HOST_OF_D PLAN0_MACHINE_NORTH
#define PLAN0_GUEST_OF_D PLAN0_MACHINE_SOUTH
#define PLAN0_HOST_OF_E PLAN0_MACHINE_NORTH
#define PLAN0_GUEST_OF_E PLAN0_MACHINE_SOUTH
#define PLAN0_HOST_OF_F PLAN0_MACHINE_NORTH
#define PLAN0_GUEST_OF_F PLAN0_MACHINE_SOUTH
#define PLAN0_HOST_OF_G PLAN0_MACHINE_SOUTH
#define PLAN0_GUEST_OF_G PLAN0_MACHINE_NORTH
#define PLAN0_HOST_OF_H PLAN0_MACHINE_SOUTH
#define PLAN0_GUEST_OF_H PLAN0_MACHINE_NORTH
#define PLAN0_HOST_OF_I PLAN0_MACHINE_SOUTH
#define PLAN0_GUEST_OF_I PLAN0_MACHINE_NORTH
#define PLAN0_HOST_OF_J PLAN0_MACHINE_SOUTH
#define PLAN0_GUEST_OF_J PLAN0_MACHINE_NORTH
#define PLAN0_KEEPER_OF_NORTH_HOOK PLAN0_MACHINE_NORTH
#define PLAN0_KEEPER_OF_SOUTH_HOOK PLAN0_MACHINE_SOUTH

/* Who owns a zone, and its posture. */
enum plan0_owner { PLAN0_OWNER_FREE = 0, PLAN0_OWNER_HOST = 1, PLAN0_OWNER_GUEST = 2 };
enum plan0_posture {
    PLAN0_POSTURE_CLOSED = 0,
    PLAN0_POSTURE_MOVING = 1,
    PLAN0_POSTURE_OPENIN = 2,
    PLAN0_POSTURE_OPENOUT = 3
};

/* The lowest bit of each field, and how many bits a field has. */
#define PLAN0_BIT_ZONE_A 0
#define PLAN0_BIT_ZONE_B 3
#define PLAN0_BIT_ZONE_C 6
#define PLAN0_BIT_ZONE_D 9
#define PLAN0_BIT_ZONE_E 12
#define PLAN0_BIT_ZONE_F 15
#define PLAN0_BIT_ZONE_G 18
#define PLAN0_BIT_ZONE_H 21
#define PLAN0_BIT_ZONE_I 24
#define PLAN0_BIT_ZONE_J 27
#define PLAN0_BIT_PLACE_NORTH_HOOK 30
#define PLAN0_BIT_PLACE_SOUTH_HOOK 31
#define PLAN0_BIT_STAMP 32
#define PLAN0_BIT_STOP 52
#define PLAN0_BITS_ZONE_A 3
#define PLAN0_BITS_ZONE_B 3
#define PLAN0_BITS_ZONE_C 3
#define PLAN0_BITS_ZONE_D 3
#define PLAN0_BITS_ZONE_E 3
#define PLAN0_BITS_ZONE_F 3
#define PLAN0_BITS_ZONE_G 3
#define PLAN0_BITS_ZONE_H 3
#define PLAN0_BITS_ZONE_I 3
#define PLAN0_BITS_ZONE_J 3
#define PLAN0_BITS_PLACE 1
#define PLAN0_BITS_STAMP 20
#define PLAN0_BITS_STOP 1
#define PLAN0_BITS 53

/* What a state's word tells of a zone: who owns it, whether a plate is in it, and its posture. */
#define PLAN0_OWNER_OF_A(word) ((word) >> PLAN0_BIT_ZONE_A & 3)
#define PLAN0_PLATE_IN_A(word) 0
#define PLAN0_POSTURE_OF_A(word) ((word) >> (PLAN0_BIT_ZONE_A + 2) & 1 ? PLAN0_POSTURE_OPENIN : PLAN0_POSTURE_CLOSED)
#define PLAN0_OWNER_OF_B(word) ((word) >> PLAN0_BIT_ZONE_B & 3)
#define PLAN0_PLATE_IN_B(word) 0
#define PLAN0_POSTURE_OF_B(word) ((word) >> (PLAN0_BIT_ZONE_B + 2) & 1 ? PLAN0_POSTURE_OPENIN : PLAN0_POSTURE_CLOSED)
#define PLAN0_OWNER_OF_C(word) ((word) >> PLAN0_BIT_ZONE_C & 3)
#define PLAN0_PLATE_IN_C(word) 0
#define PLAN0_POSTURE_OF_C(word) ((word) >> (PLAN0_BIT_ZONE_C + 2) & 1 ? PLAN0_POSTURE_OPENIN : PLAN0_POSTURE_CLOSED)
#define PLAN0_OWNER_OF_D(word) ((word) >> PLAN0_BIT_ZONE_D & 3)
#define PLAN0_PLATE_IN_D(word) 0
#define PLAN0_POSTURE_OF_D(word) ((word) >> (PLAN0_BIT_ZONE_D + 2) & 1 ? PLAN0_POSTURE_OPENIN : PLAN0_POSTURE_CLOSED)
#define PLAN0_OWNER_OF_E(word) ((word) >> PLAN0_BIT_ZONE_E & 3)
#define PLAN0_PLATE_IN_E(word) 0
#define PLAN0_POSTURE_OF_E(word) ((word) >> (PLAN0_BIT_ZONE_E + 2) & 1 ? PLAN0_POSTURE_OPENIN : PLAN0_POSTURE_CLOSED)
#define PLAN0_OWNER_OF_F(word) ((word) >> PLAN0_BIT_ZONE_F & 3)
#define PLAN0_PLATE_IN_F(word) 0
#define PLAN0_POSTURE_OF_F(word) ((word) >> (PLAN0_BIT_ZONE_F + 2) & 1 ? PLAN0_POSTURE_OPENIN : PLAN0_POSTURE_CLOSED)
#define PLAN0_OWNER_OF_G(word) ((word) >> PLAN0_BIT_ZONE_G & 3)
#define PLAN0_PLATE_IN_G(word) 0
#define PLAN0_POSTURE_OF_G(word) ((word) >> (PLAN0_BIT_ZONE_G + 2) & 1 ? PLAN0_POSTURE_OPENIN : PLAN0_POSTURE_CLOSED)
#define PLAN0_OWNER_OF_H(word) ((word) >> PLAN0_BIT_ZONE_H & 3)
#define PLAN0_PLATE_IN_H(word) 0
#define PLAN0_POSTURE_OF_H(word) ((word) >> (PLAN0_BIT_ZONE_H + 2) & 1 ? PLAN0_POSTURE_OPENIN : PLAN0_POSTURE_CLOSED)
#define PLAN0_OWNER_OF_I(word) ((word) >> PLAN0_BIT_ZONE_I & 3)
#define PLAN0_PLATE_IN_I(word) 0
#define PLAN0_POSTURE_OF_I(word) ((word) >> (PLAN0_BIT_ZONE_I + 2) & 1 ? PLAN0_POSTURE_OPENIN : PLAN0_POSTURE_CLOSED)
#define PLAN0_OWNER_OF_J(word) ((word) >> PLAN0_BIT_ZONE_J & 3)
#define PLAN0_PLATE_IN_J(word) 0
#define PLAN0_POSTURE_OF_J(word) ((word) >> (PLAN0_BIT_ZONE_J + 2) & 1 ? PLAN0_POSTURE_OPENIN : PLAN0_POSTURE_CLOSED)

/* The names of each kind, by their numbers. A null comes after the last. */
static const char *const PLAN0_NAMES_OF_MACHINES[] = {
    "north",
    "south",
    0,
};
static const char *const PLAN0_NAMES_OF_ZONES[] = {
    "a",
    "b",
    "c",
    "d",
    "e",
    "f",
    "g",
    "h",
    "i",
    "j",
    0,
};
static const char *const PLAN0_NAMES_OF_PLACES[] = {
    "north_hook",
    "south_hook",
    0,
};
static const char *const PLAN0_NAMES_OF_POSES[] = {
    "above_a",
    "above_b",
    "above_c",
    "above_d",
    "above_e",
    "above_f",
    "above_g",
    "above_h",
    "above_i",
    "above_j",
    0,
};
static const char *const PLAN0_NAMES_OF_MOTORS[] = {
    0,
};

/* Motors and sensors, by machine and name: their bits in the lines of programs, and in what a turn gives and takes. */
#define PLAN0_MOTORS 0

/* The programs, and how many lines each has, for bagunjoki_plan_take_turn. They are here only if bagunjoki_plan.h is
   included before this header. */
#ifdef BAGUNJOKI_PLAN_H
static const bagunjoki_plan_line PLAN0_PROGRAM_NORTH[] = {
    {0, BAGUNJOKI_PLAN_CLAIM, PLAN0_ZONE_A, 0, 0},
    {0, BAGUNJOKI_PLAN_SET_POSE, PLAN0_POSE_NORTH_ABOVE_A, 0, 0},
    {0, BAGUNJOKI_PLAN_RELEASE, PLAN0_ZONE_A, 0, 0},
};
#define PLAN0_LINES_NORTH 3
static const bagunjoki_plan_line PLAN0_PROGRAM_SOUTH[] = {
    {0, BAGUNJOKI_PLAN_CLAIM, PLAN0_ZONE_A, 0, 0},
    {0, BAGUNJOKI_PLAN_RELEASE, PLAN0_ZONE_A, 0, 0},
};
#define PLAN0_LINES_SOUTH 2
#endif

/* The plan, for bagunjoki_plan.h. */
static const uint8_t PLAN0_BYTES[] = {
    2, 10, 10, 2, 0, 1, 0, 0,
    0, 0, 0, 0, 0, 1, 0, 0,
    0, 0, 0, 0, 0, 1, 0, 0,
    0, 0, 0, 0, 0, 1, 0, 0,
    0, 0, 0, 0, 0, 1, 0, 0,
    0, 0, 0, 0, 0, 1, 0, 0,
    0, 0, 0, 0, 1, 0, 0, 0,
    0, 0, 0, 0, 1, 0, 0, 0,
    0, 0, 0, 0, 1, 0, 0, 0,
    0, 0, 0, 0, 1, 0, 0, 0,
    0, 0, 0, 0, 0, 0, 3, 0,
    0, 0, 0, 0, 0, 0, 0, 0,
    0, 0, 0, 3, 0, 0, 0, 0,
    0, 0, 0, 0, 0, 0, 0, 0,
    3, 0, 0, 0, 0, 0, 0, 0,
    0, 0, 0, 0, 0, 3, 0, 0,
    0, 0, 0, 0, 0, 0, 0, 0,
    0, 0, 3, 0, 0, 0, 0, 0,
    0, 0, 0, 0, 0, 0, 0, 3,
    0, 0, 0, 0, 1, 0, 0, 0,
    0, 0, 0, 0, 3, 0, 0, 0,
    1, 0, 0, 0, 0, 0, 0, 0,
    0, 3, 0, 0, 1, 0, 0, 0,
    0, 0, 0, 0, 0, 0, 3, 0,
    1, 0, 0, 0, 0, 0, 0, 0,
    0, 0, 0, 3, 0, 1,
};

#endif

/* A plan's names and the layout of its word, as `plan header` prints them. The word of a state has the fields below,
   from the lowest bit: the zones, the places, the stamp and the stop. A zone's bits are, from the lowest, two for its
   owner, one for its flag (a plate is in it) if a plate has a way through it, and for its posture two; or one, 0 for
   closed, if poses give it one other posture; or none, if it is always closed. The zones of one space have one owner:
   its bits, two to four, stand in the first of them, and a comment on each other zone names that one. */
#ifndef PLAN1_H
#define PLAN1_H

#include <stdint.h>

/* Machines. The watch is none of them. */
#define PLAN1_MACHINE_NORTH 0
#define PLAN1_MACHINE_SOUTH 1
#define PLAN1_MACHINES 2
#define PLAN1_WATCH 30

/* Zones. */
#define PLAN1_ZONE_K 0
#define PLAN1_ZONES 1

/* Places. */
#define PLAN1_PLACES 0

/* Poses, by machine and name. */
#define PLAN1_POSE_SOUTH_ABOVE_K 0
#define PLAN1_POSES 1

/* Who hosts a zone, who is its guest, and who keeps a place. */
#define PLAN1_HOST_OF_K PLAN1_MACHINE_SOUTH
#define PLAN1_GUEST_OF_K PLAN1_MACHINE_NORTH

/* Who owns a zone, and its posture. */
enum plan1_owner { PLAN1_OWNER_FREE = 0, PLAN1_OWNER_HOST = 1, PLAN1_OWNER_GUEST = 2 };
enum plan1_posture {
    PLAN1_POSTURE_CLOSED = 0,
    PLAN1_POSTURE_MOVING = 1,
    PLAN1_POSTURE_OPENIN = 2,
    PLAN1_POSTURE_OPENOUT = 3
};

/* The lowest bit of each field, and how many bits a field has. */
#define PLAN1_BIT_ZONE_K 0
#define PLAN1_BIT_STAMP 3
#define PLAN1_BIT_STOP 23
#define PLAN1_BITS_ZONE_K 3
#define PLAN1_BITS_PLACE 1
#define PLAN1_BITS_STAMP 20
#define PLAN1_BITS_STOP 1
#define PLAN1_BITS 24

/* What a state's word tells of a zone: who owns it, whether a plate is in it, and its posture. */
#define PLAN1_OWNER_OF_K(word) ((word) >> PLAN1_BIT_ZONE_K & 3)
#define PLAN1_PLATE_IN_K(word) 0
#define PLAN1_POSTURE_OF_K(word) ((word) >> (PLAN1_BIT_ZONE_K + 2) & 1 ? PLAN1_POSTURE_OPENIN : PLAN1_POSTURE_CLOSED)

/* The names of each kind, by their numbers. A null comes after the last. */
static const char *const PLAN1_NAMES_OF_MACHINES[] = {
    "north",
    "south",
    0,
};
static const char *const PLAN1_NAMES_OF_ZONES[] = {
    "k",
    0,
};
static const char *const PLAN1_NAMES_OF_PLACES[] = {
    0,
};
static const char *const PLAN1_NAMES_OF_POSES[] = {
    "above_k",
    0,
};
static const char *const PLAN1_NAMES_OF_MOTORS[] = {
    0,
};

/* Motors and sensors, by machine and name: their bits in the lines of programs, and in what a turn gives and takes. */
#define PLAN1_MOTORS 0

/* The programs, and how many lines each has, for bagunjoki_plan_take_turn. They are here only if bagunjoki_plan.h is
   included before this header. */
#ifdef BAGUNJOKI_PLAN_H
static const bagunjoki_plan_line PLAN1_PROGRAM_NORTH[] = {
    {0, BAGUNJOKI_PLAN_CLAIM, PLAN1_ZONE_K, 0, 0},
    {0, BAGUNJOKI_PLAN_RELEASE, PLAN1_ZONE_K, 0, 0},
};
#define PLAN1_LINES_NORTH 2
static const bagunjoki_plan_line PLAN1_PROGRAM_SOUTH[] = {
    {0, BAGUNJOKI_PLAN_CLAIM, PLAN1_ZONE_K, 0, 0},
    {0, BAGUNJOKI_PLAN_SET_POSE, PLAN1_POSE_SOUTH_ABOVE_K, 0, 0},
    {0, BAGUNJOKI_PLAN_RELEASE, PLAN1_ZONE_K, 0, 0},
    {0, BAGUNJOKI_PLAN_CLAIM, PLAN1_ZONE_K, 0, 0},
    {0, BAGUNJOKI_PLAN_RELEASE, PLAN1_ZONE_K, 0, 0},
};
#define PLAN1_LINES_SOUTH 5
#endif

/* The plan, for bagunjoki_plan.h. */
static const uint8_t PLAN1_BYTES[] = {
    2, 1, 1, 0, 1, 0, 0, 0,
    0, 0, 0, 0, 1, 0, 3, 0,
    0, 0, 0, 0, 0, 0, 0, 0,
};

#endif
