/* A plan's names and the layout of its word, as `plan header` prints them. The word of a state has the fields below,
   from the lowest bit: the zones, the places, the stamp and the stop. A zone's bits are, from the lowest, two for its
   owner, one for its flag (a plate is in it) if a plate has a way through it, and for its posture two; or one, 0 for
   closed, if poses give it one other posture; or none, if it is always closed. The zones of one space have one owner:
   its bits, two to four, stand in the first of them, and a comment on each other zone names that one. */
#ifndef PLAN_H
#define PLAN_H

#include <stdint.h>

/* Machines. The watch is none of them. */
#define PLAN_MACHINE_CONVEYOR 0
#define PLAN_MACHINE_FEEDER 1
#define PLAN_MACHINE_LATHE 2
#define PLAN_MACHINE_UNLOADER 3
#define PLAN_MACHINES 4
#define PLAN_WATCH 30

/* Zones. */
#define PLAN_ZONE_PICKUP 0
#define PLAN_ZONE_DROPOFF 1
#define PLAN_ZONE_LOADING 2
#define PLAN_ZONE_UNLOADING 3
#define PLAN_ZONES 4

/* Places. */
#define PLAN_PLACE_CARRIER 0
#define PLAN_PLACE_FEEDER_HAND 1
#define PLAN_PLACE_CHUCK 2
#define PLAN_PLACE_UNLOADER_HAND 3
#define PLAN_PLACES 4

/* Poses, by machine and name. */
#define PLAN_POSE_CONVEYOR_RUNNING 0
#define PLAN_POSE_CONVEYOR_OFFERING 1
#define PLAN_POSE_CONVEYOR_RECEIVING 2
#define PLAN_POSE_LATHE_SWINGING 3
#define PLAN_POSE_LATHE_LOAD 4
#define PLAN_POSE_LATHE_UNLOAD 5
#define PLAN_POSE_LATHE_CUT 6
#define PLAN_POSES 7

/* Who hosts a zone, who is its guest, and who keeps a place. */
#define PLAN_HOST_OF_PICKUP PLAN_MACHINE_CONVEYOR
#define PLAN_GUEST_OF_PICKUP PLAN_MACHINE_FEEDER
#define PLAN_HOST_OF_DROPOFF PLAN_MACHINE_CONVEYOR
#define PLAN_GUEST_OF_DROPOFF PLAN_MACHINE_UNLOADER
#define PLAN_HOST_OF_LOADING PLAN_MACHINE_LATHE
#define PLAN_GUEST_OF_LOADING PLAN_MACHINE_FEEDER
#define PLAN_HOST_OF_UNLOADING PLAN_MACHINE_LATHE
#define PLAN_GUEST_OF_UNLOADING PLAN_MACHINE_UNLOADER
#define PLAN_KEEPER_OF_CARRIER PLAN_MACHINE_CONVEYOR
#define PLAN_KEEPER_OF_FEEDER_HAND PLAN_MACHINE_FEEDER
#define PLAN_KEEPER_OF_CHUCK PLAN_MACHINE_LATHE
#define PLAN_KEEPER_OF_UNLOADER_HAND PLAN_MACHINE_UNLOADER

/* Who owns a zone, and its posture. */
enum plan_owner { PLAN_OWNER_FREE = 0, PLAN_OWNER_HOST = 1, PLAN_OWNER_GUEST = 2 };
enum plan_posture {
    PLAN_POSTURE_CLOSED = 0,
    PLAN_POSTURE_MOVING = 1,
    PLAN_POSTURE_OPENIN = 2,
    PLAN_POSTURE_OPENOUT = 3
};

/* The lowest bit of each field, and how many bits a field has. */
#define PLAN_BIT_ZONE_PICKUP 0
#define PLAN_BIT_ZONE_DROPOFF 5
#define PLAN_BIT_ZONE_LOADING 10
#define PLAN_BIT_ZONE_UNLOADING 15
#define PLAN_BIT_PLACE_CARRIER 20
#define PLAN_BIT_PLACE_FEEDER_HAND 21
#define PLAN_BIT_PLACE_CHUCK 22
#define PLAN_BIT_PLACE_UNLOADER_HAND 23
#define PLAN_BIT_STAMP 24
#define PLAN_BIT_STOP 44
#define PLAN_BITS_ZONE_PICKUP 5
#define PLAN_BITS_ZONE_DROPOFF 5
#define PLAN_BITS_ZONE_LOADING 5
#define PLAN_BITS_ZONE_UNLOADING 5
#define PLAN_BITS_PLACE 1
#define PLAN_BITS_STAMP 20
#define PLAN_BITS_STOP 1
#define PLAN_BITS 45

/* What a state's word tells of a zone: who owns it, whether a plate is in it, and its posture. */
#define PLAN_OWNER_OF_PICKUP(word) ((word) >> PLAN_BIT_ZONE_PICKUP & 3)
#define PLAN_PLATE_IN_PICKUP(word) ((word) >> (PLAN_BIT_ZONE_PICKUP + 2) & 1)
#define PLAN_POSTURE_OF_PICKUP(word) ((word) >> (PLAN_BIT_ZONE_PICKUP + 3) & 3)
#define PLAN_OWNER_OF_DROPOFF(word) ((word) >> PLAN_BIT_ZONE_DROPOFF & 3)
#define PLAN_PLATE_IN_DROPOFF(word) ((word) >> (PLAN_BIT_ZONE_DROPOFF + 2) & 1)
#define PLAN_POSTURE_OF_DROPOFF(word) ((word) >> (PLAN_BIT_ZONE_DROPOFF + 3) & 3)
#define PLAN_OWNER_OF_LOADING(word) ((word) >> PLAN_BIT_ZONE_LOADING & 3)
#define PLAN_PLATE_IN_LOADING(word) ((word) >> (PLAN_BIT_ZONE_LOADING + 2) & 1)
#define PLAN_POSTURE_OF_LOADING(word) ((word) >> (PLAN_BIT_ZONE_LOADING + 3) & 3)
#define PLAN_OWNER_OF_UNLOADING(word) ((word) >> PLAN_BIT_ZONE_UNLOADING & 3)
#define PLAN_PLATE_IN_UNLOADING(word) ((word) >> (PLAN_BIT_ZONE_UNLOADING + 2) & 1)
#define PLAN_POSTURE_OF_UNLOADING(word) ((word) >> (PLAN_BIT_ZONE_UNLOADING + 3) & 3)

/* Motors, and parts that stand somewhere: which bits of a state's word each looks at, and what they have to be. Load the
   word, and PLAN_MAY_RUN(word, RAM) says whether its state permits the ram. What is permitted stays so until a call of
   the motor's own machine loses the permission: no other machine's call takes it away. Before such a call the motor is
   off and at rest, and the part is out of the space. That is up to you: nothing here sees a motor. */
#define PLAN_MAY_RUN(word, motor) (((word) & PLAN_MASK_##motor) == PLAN_PATTERN_##motor)
#define PLAN_MASK_BELT UINT64_C(891)
#define PLAN_PATTERN_BELT UINT64_C(297)
#define PLAN_MASK_FEEDER_TURN UINT64_C(0)
#define PLAN_PATTERN_FEEDER_TURN UINT64_C(0)
#define PLAN_MASK_FEEDER_AT_BELT UINT64_C(27)
#define PLAN_PATTERN_FEEDER_AT_BELT UINT64_C(26)
#define PLAN_MASK_FEEDER_IN_LATHE UINT64_C(27648)
#define PLAN_PATTERN_FEEDER_IN_LATHE UINT64_C(18432)
#define PLAN_MASK_DOOR UINT64_C(912384)
#define PLAN_PATTERN_DOOR UINT64_C(304128)
#define PLAN_MASK_SPINDLE UINT64_C(5005312)
#define PLAN_PATTERN_SPINDLE UINT64_C(4194304)
#define PLAN_MASK_UNLOADER_TURN UINT64_C(0)
#define PLAN_PATTERN_UNLOADER_TURN UINT64_C(0)
#define PLAN_MASK_UNLOADER_IN_LATHE UINT64_C(884736)
#define PLAN_PATTERN_UNLOADER_IN_LATHE UINT64_C(851968)
#define PLAN_MASK_UNLOADER_AT_BELT UINT64_C(864)
#define PLAN_PATTERN_UNLOADER_AT_BELT UINT64_C(576)

/* The names of each kind, by their numbers. A null comes after the last. */
static const char *const PLAN_NAMES_OF_MACHINES[] = {
    "conveyor",
    "feeder",
    "lathe",
    "unloader",
    0,
};
static const char *const PLAN_NAMES_OF_ZONES[] = {
    "pickup",
    "dropoff",
    "loading",
    "unloading",
    0,
};
static const char *const PLAN_NAMES_OF_PLACES[] = {
    "carrier",
    "feeder_hand",
    "chuck",
    "unloader_hand",
    0,
};
static const char *const PLAN_NAMES_OF_POSES[] = {
    "running",
    "offering",
    "receiving",
    "swinging",
    "load",
    "unload",
    "cut",
    0,
};
static const char *const PLAN_NAMES_OF_MOTORS[] = {
    "belt",
    "feeder_turn",
    "feeder_at_belt",
    "feeder_in_lathe",
    "door",
    "spindle",
    "unloader_turn",
    "unloader_in_lathe",
    "unloader_at_belt",
    0,
};

/* Motors and sensors, by machine and name: their bits in the lines of programs, and in what a turn gives and takes. */
#define PLAN_MOTOR_BELT 0
#define PLAN_MOTOR_FEEDER_TURN 1
#define PLAN_MOTOR_FEEDER_AT_BELT 2
#define PLAN_MOTOR_FEEDER_IN_LATHE 3
#define PLAN_MOTOR_DOOR 4
#define PLAN_MOTOR_SPINDLE 5
#define PLAN_MOTOR_UNLOADER_TURN 6
#define PLAN_MOTOR_UNLOADER_IN_LATHE 7
#define PLAN_MOTOR_UNLOADER_AT_BELT 8
#define PLAN_MOTORS 9
#define PLAN_SENSOR_CONVEYOR_AT_FEEDER 0
#define PLAN_SENSOR_CONVEYOR_AT_UNLOADER 1
#define PLAN_SENSOR_FEEDER_OVER_BELT 0
#define PLAN_SENSOR_FEEDER_AT_DOOR 1
#define PLAN_SENSOR_FEEDER_STRETCHED 2
#define PLAN_SENSOR_FEEDER_WITHDRAWN 3
#define PLAN_SENSOR_LATHE_DOOR_OPEN 0
#define PLAN_SENSOR_LATHE_DOOR_SHUT 1
#define PLAN_SENSOR_LATHE_TURNED 2
#define PLAN_SENSOR_LATHE_AT_REST 3
#define PLAN_SENSOR_UNLOADER_OVER_BELT 0
#define PLAN_SENSOR_UNLOADER_AT_DOOR 1
#define PLAN_SENSOR_UNLOADER_STRETCHED 2
#define PLAN_SENSOR_UNLOADER_WITHDRAWN 3

/* The programs, and how many lines each has, for bagunjoki_plan_take_turn. They are here only if bagunjoki_plan.h is
   included before this header. */
#ifdef BAGUNJOKI_PLAN_H
static const bagunjoki_plan_line PLAN_PROGRAM_CONVEYOR[] = {
    {0, BAGUNJOKI_PLAN_CLAIM, PLAN_ZONE_PICKUP, 0, 0},
    {0, BAGUNJOKI_PLAN_CLAIM, PLAN_ZONE_DROPOFF, 0, 0},
    {0, BAGUNJOKI_PLAN_SET_POSE, PLAN_POSE_CONVEYOR_RUNNING, 0, 0},
    {UINT64_C(1), BAGUNJOKI_PLAN_RUN, 0, PLAN_SENSOR_CONVEYOR_AT_FEEDER, 0},
    {0, BAGUNJOKI_PLAN_SET_POSE, PLAN_POSE_CONVEYOR_OFFERING, 0, 0},
    {0, BAGUNJOKI_PLAN_GIVE, PLAN_ZONE_PICKUP, 0, 0},
    {0, BAGUNJOKI_PLAN_AWAIT, PLAN_ZONE_PICKUP, 0, 0},
    {0, BAGUNJOKI_PLAN_SET_POSE, PLAN_POSE_CONVEYOR_RUNNING, 0, 0},
    {UINT64_C(1), BAGUNJOKI_PLAN_RUN, 0, PLAN_SENSOR_CONVEYOR_AT_UNLOADER, 0},
    {0, BAGUNJOKI_PLAN_SET_POSE, PLAN_POSE_CONVEYOR_RECEIVING, 0, 0},
    {0, BAGUNJOKI_PLAN_YIELD, PLAN_ZONE_DROPOFF, 0, 0},
    {0, BAGUNJOKI_PLAN_TAKE, PLAN_ZONE_DROPOFF, 0, 0},
    {0, BAGUNJOKI_PLAN_RELEASE, PLAN_ZONE_PICKUP, 0, 0},
    {0, BAGUNJOKI_PLAN_RELEASE, PLAN_ZONE_DROPOFF, 0, 0},
};
#define PLAN_LINES_CONVEYOR 14
static const bagunjoki_plan_line PLAN_PROGRAM_FEEDER[] = {
    {UINT64_C(2), BAGUNJOKI_PLAN_RUN, 0, PLAN_SENSOR_FEEDER_OVER_BELT, 0},
    {0, BAGUNJOKI_PLAN_AWAIT, PLAN_ZONE_PICKUP, 0, 0},
    {UINT64_C(4), BAGUNJOKI_PLAN_RUN, 0, PLAN_SENSOR_FEEDER_STRETCHED, 0},
    {0, BAGUNJOKI_PLAN_TAKE, PLAN_ZONE_PICKUP, 0, 0},
    {UINT64_C(4), BAGUNJOKI_PLAN_RUN, 0, PLAN_SENSOR_FEEDER_WITHDRAWN, 0},
    {0, BAGUNJOKI_PLAN_YIELD, PLAN_ZONE_PICKUP, 0, 0},
    {UINT64_C(2), BAGUNJOKI_PLAN_RUN, 0, PLAN_SENSOR_FEEDER_AT_DOOR, 0},
    {0, BAGUNJOKI_PLAN_AWAIT, PLAN_ZONE_LOADING, 0, 0},
    {UINT64_C(8), BAGUNJOKI_PLAN_RUN, 0, PLAN_SENSOR_FEEDER_STRETCHED, 0},
    {UINT64_C(8), BAGUNJOKI_PLAN_RUN, 0, PLAN_SENSOR_FEEDER_WITHDRAWN, 0},
    {0, BAGUNJOKI_PLAN_GIVE, PLAN_ZONE_LOADING, 0, 0},
};
#define PLAN_LINES_FEEDER 11
static const bagunjoki_plan_line PLAN_PROGRAM_LATHE[] = {
    {0, BAGUNJOKI_PLAN_CLAIM, PLAN_ZONE_LOADING, 0, 0},
    {0, BAGUNJOKI_PLAN_CLAIM, PLAN_ZONE_UNLOADING, 0, 0},
    {0, BAGUNJOKI_PLAN_SET_POSE, PLAN_POSE_LATHE_SWINGING, 0, 0},
    {UINT64_C(16), BAGUNJOKI_PLAN_RUN, 0, PLAN_SENSOR_LATHE_DOOR_OPEN, 0},
    {0, BAGUNJOKI_PLAN_SET_POSE, PLAN_POSE_LATHE_UNLOAD, 0, 0},
    {0, BAGUNJOKI_PLAN_GIVE, PLAN_ZONE_UNLOADING, 0, 0},
    {0, BAGUNJOKI_PLAN_AWAIT, PLAN_ZONE_UNLOADING, 0, 0},
    {0, BAGUNJOKI_PLAN_SET_POSE, PLAN_POSE_LATHE_SWINGING, 0, 0},
    {0, BAGUNJOKI_PLAN_SET_POSE, PLAN_POSE_LATHE_LOAD, 0, 0},
    {0, BAGUNJOKI_PLAN_YIELD, PLAN_ZONE_LOADING, 0, 0},
    {0, BAGUNJOKI_PLAN_TAKE, PLAN_ZONE_LOADING, 0, 0},
    {0, BAGUNJOKI_PLAN_SET_POSE, PLAN_POSE_LATHE_SWINGING, 0, 0},
    {UINT64_C(16), BAGUNJOKI_PLAN_RUN, 0, PLAN_SENSOR_LATHE_DOOR_SHUT, 0},
    {0, BAGUNJOKI_PLAN_SET_POSE, PLAN_POSE_LATHE_CUT, 0, 0},
    {UINT64_C(32), BAGUNJOKI_PLAN_RUN, 0, PLAN_SENSOR_LATHE_TURNED, 0},
    {UINT64_C(0), BAGUNJOKI_PLAN_RUN, 0, PLAN_SENSOR_LATHE_AT_REST, 0},
    {0, BAGUNJOKI_PLAN_RELEASE, PLAN_ZONE_LOADING, 0, 0},
    {0, BAGUNJOKI_PLAN_RELEASE, PLAN_ZONE_UNLOADING, 0, 0},
};
#define PLAN_LINES_LATHE 18
static const bagunjoki_plan_line PLAN_PROGRAM_UNLOADER[] = {
    {UINT64_C(64), BAGUNJOKI_PLAN_RUN, 0, PLAN_SENSOR_UNLOADER_AT_DOOR, 0},
    {0, BAGUNJOKI_PLAN_AWAIT, PLAN_ZONE_UNLOADING, 0, 0},
    {UINT64_C(128), BAGUNJOKI_PLAN_RUN, 0, PLAN_SENSOR_UNLOADER_STRETCHED, 0},
    {0, BAGUNJOKI_PLAN_TAKE, PLAN_ZONE_UNLOADING, 0, 0},
    {UINT64_C(128), BAGUNJOKI_PLAN_RUN, 0, PLAN_SENSOR_UNLOADER_WITHDRAWN, 0},
    {0, BAGUNJOKI_PLAN_YIELD, PLAN_ZONE_UNLOADING, 0, 0},
    {UINT64_C(64), BAGUNJOKI_PLAN_RUN, 0, PLAN_SENSOR_UNLOADER_OVER_BELT, 0},
    {0, BAGUNJOKI_PLAN_AWAIT, PLAN_ZONE_DROPOFF, 0, 0},
    {UINT64_C(256), BAGUNJOKI_PLAN_RUN, 0, PLAN_SENSOR_UNLOADER_STRETCHED, 0},
    {UINT64_C(256), BAGUNJOKI_PLAN_RUN, 0, PLAN_SENSOR_UNLOADER_WITHDRAWN, 0},
    {0, BAGUNJOKI_PLAN_GIVE, PLAN_ZONE_DROPOFF, 0, 0},
};
#define PLAN_LINES_UNLOADER 11
#endif

/* The plan, for bagunjoki_plan.h. */
static const uint8_t PLAN_BYTES[] = {
    4, 4, 7, 4, 0, 1, 0, 0,
    0, 1, 0, 1, 0, 3, 1, 3,
    0, 0, 0, 0, 2, 1, 1, 1,
    2, 0, 0, 0, 2, 3, 0, 0,
    0, 1, 2, 3, 0, 0, 2, 2,
    0, 0, 0, 0, 0, 0, 0, 0,
    0, 1, 4, 1, 0, 0, 0, 0,
    0, 0, 0, 0, 0, 1, 1, 3,
    0, 0, 0, 0, 0, 0, 0, 0,
    2, 0, 0, 0, 2, 2, 0, 0,
    0, 0, 0, 0, 2, 1, 0, 0,
    3, 1, 0, 0, 0, 0, 0, 0,
    2, 1, 0, 0, 1, 4, 0, 0,
    0, 0, 0, 0, 2, 1, 0, 0,
    1, 1, 0, 0, 0, 0, 0, 0,
    0, 1, 2, 3,
};

#endif
