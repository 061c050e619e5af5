/* The lathe of examples/plans/lathe.toml, run from C (docs/FROM_C.md, "Another plant"). Each machine goes through its
   program of the plan in a thread of its own; with the word "processes" in a process of its own. With "cuts" the power
   is cut ten times, at random: all are killed, and go on by the word and the places that were kept. The plant is played
   here: a sensor comes some turns after its motor. A watcher looks each millisecond whether the two motors of a hazard
   are on together.
   ./plan header < examples/plans/lathe.toml > plan_lathe.h
   cc -pthread plan_lathe.c $(pkg-config --cflags --libs bagunjoki_plan) */
#define _DEFAULT_SOURCE
#include <bagunjoki_plan.h>

#include "plan_lathe.h"

#include <pthread.h>
#include <signal.h>
#include <stdio.h>
#include <stdlib.h>
#include <string.h>
#include <sys/mman.h>
#include <sys/wait.h>
#include <time.h>
#include <unistd.h>

enum { ROUNDS = 100, CUTS = 10, COASTING = 3, LOOKS = 60000, HAZARDS = 8, SENSORS = 13 };

/* ---- the plant */

#define HAZARD(first, second) {PLAN_MOTOR_##first, PLAN_MOTOR_##second}

static const uint8_t hazards[HAZARDS][2] = {
    HAZARD(DOOR, FEEDER_IN_LATHE),    HAZARD(DOOR, UNLOADER_IN_LATHE),
    HAZARD(SPINDLE, FEEDER_IN_LATHE), HAZARD(SPINDLE, UNLOADER_IN_LATHE),
    HAZARD(SPINDLE, DOOR),            HAZARD(FEEDER_IN_LATHE, UNLOADER_IN_LATHE),
    HAZARD(BELT, FEEDER_AT_BELT),     HAZARD(BELT, UNLOADER_AT_BELT),
};

#define MOTOR(name) (UINT64_C(1) << PLAN_MOTOR_##name)
#define SENSOR(machine, name, round, at, motors) \
    {PLAN_MACHINE_##machine, PLAN_SENSOR_##machine##_##name, round, at, motors}

/* A crank goes round in eight turns with its motor on. A sensor shows at one of these eight, or of sixteen. */
static const struct {
    uint8_t machine, sensor, round, at;
    uint64_t motors;
} sensors[SENSORS] = {
    SENSOR(CONVEYOR, AT_FEEDER, 8, 4, MOTOR(BELT)),
    SENSOR(CONVEYOR, AT_UNLOADER, 8, 0, MOTOR(BELT)),
    SENSOR(FEEDER, OVER_BELT, 8, 0, MOTOR(FEEDER_TURN)),
    SENSOR(FEEDER, AT_DOOR, 8, 4, MOTOR(FEEDER_TURN)),
    SENSOR(FEEDER, STRETCHED, 8, 4, MOTOR(FEEDER_AT_BELT) | MOTOR(FEEDER_IN_LATHE)),
    SENSOR(FEEDER, WITHDRAWN, 8, 0, MOTOR(FEEDER_AT_BELT) | MOTOR(FEEDER_IN_LATHE)),
    SENSOR(LATHE, DOOR_OPEN, 8, 4, MOTOR(DOOR)),
    SENSOR(LATHE, DOOR_SHUT, 8, 0, MOTOR(DOOR)),
    SENSOR(LATHE, TURNED, 16, 0, MOTOR(DOOR) | MOTOR(SPINDLE)),
    SENSOR(UNLOADER, OVER_BELT, 8, 0, MOTOR(UNLOADER_TURN)),
    SENSOR(UNLOADER, AT_DOOR, 8, 4, MOTOR(UNLOADER_TURN)),
    SENSOR(UNLOADER, STRETCHED, 8, 4, MOTOR(UNLOADER_AT_BELT) | MOTOR(UNLOADER_IN_LATHE)),
    SENSOR(UNLOADER, WITHDRAWN, 8, 0, MOTOR(UNLOADER_AT_BELT) | MOTOR(UNLOADER_IN_LATHE)),
};

static const bagunjoki_plan_line *const programs[PLAN_MACHINES] = {PLAN_PROGRAM_CONVEYOR, PLAN_PROGRAM_FEEDER,
                                                                   PLAN_PROGRAM_LATHE, PLAN_PROGRAM_UNLOADER};
static const size_t counts[PLAN_MACHINES] = {PLAN_LINES_CONVEYOR, PLAN_LINES_FEEDER, PLAN_LINES_LATHE,
                                             PLAN_LINES_UNLOADER};

/* What outlives a cut: the word, the places, and where the plant stands. */
static struct kept {
    bagunjoki_plan_word word;
    bagunjoki_plan_place places[PLAN_MACHINES];
    unsigned turned[PLAN_MOTORS]; /* turns with the motor on */
    unsigned idle[PLAN_MACHINES]; /* turns since a motor was on */
    atomic_uint rounds[PLAN_MACHINES];
    _Atomic uint64_t on[PLAN_MACHINES]; /* the motors that are on, and how many turns there were */
    atomic_bool over;
} *kept;
static bagunjoki_plan_opened plan;

static void wait_for(long microseconds) { nanosleep(&(struct timespec){0, microseconds * 1000}, NULL); }

static uint32_t read_sensors(uint8_t machine) {
    uint32_t shown = 0;
    for (int k = 0; k < SENSORS; k++) {
        unsigned turned = 0;
        if (sensors[k].machine != machine) continue;
        for (int motor = 0; motor < PLAN_MOTORS; motor++)
            if (sensors[k].motors >> motor & 1) turned += kept->turned[motor];
        if (turned % sensors[k].round == sensors[k].at) shown |= UINT32_C(1) << sensors[k].sensor;
    }
    if (machine == PLAN_MACHINE_LATHE && kept->idle[machine] >= COASTING)
        shown |= UINT32_C(1) << PLAN_SENSOR_LATHE_AT_REST;
    return shown;
}

static void set_motors(uint8_t machine, uint64_t motors, uint64_t turns) {
    atomic_store(&kept->on[machine], turns << PLAN_MOTORS | motors);
    for (int motor = 0; motor < PLAN_MOTORS; motor++)
        if (motors >> motor & 1) kept->turned[motor]++;
    kept->idle[machine] = motors ? 0 : kept->idle[machine] + 1;
}

/* ---- the machines */

/* A machine's loop: only this thread, or process, takes its turns. */
static void run(uint8_t machine) {
    bagunjoki_plan_place *place = &kept->places[machine];
    for (uint64_t turns = 0; !atomic_load(&kept->over); turns++) {
        uint8_t line = place->line;
        bagunjoki_plan_turned turned =
            bagunjoki_plan_take_turn(&plan, &kept->word, machine, programs[machine], counts[machine], place, true,
                                     read_sensors(machine), 8);
        set_motors(machine, turned.motors, turns);
        if (place->line < line) atomic_fetch_add(&kept->rounds[machine], 1);
        if (place->stopped) atomic_store(&kept->over, true);
        wait_for(20);
    }
}

static void *thread(void *machine) {
    run(*(const uint8_t *)machine);
    return NULL;
}

/* After a cut: if the power went between a call and the store of the place, the machine isn't in step any more, or the
   call would now be refused by an answer that it has at this line at no other time. Then it goes on after the call. */
static void go_on(uint8_t machine, uint64_t word) {
    bagunjoki_plan_place *place = &kept->places[machine];
    const bagunjoki_plan_line *line = &programs[machine][place->line];
    uint8_t answer = bagunjoki_plan_step(&plan, word, machine, line->kind, line->object).answer;
    if (answer == BAGUNJOKI_PLAN_ALREADY_MINE || answer == BAGUNJOKI_PLAN_NO_PLATE ||
        !bagunjoki_plan_is_in_step(&plan, word, machine, programs[machine], counts[machine], *place))
        place->line = (uint8_t)((place->line + 1) % counts[machine]);
}

/* Takes back the word and the places. At a start, too, all machines are in step. */
static bool come_back(void) {
    uint64_t word = bagunjoki_plan_load(&kept->word);
    for (uint8_t k = 0; k < PLAN_MACHINES; k++) {
        atomic_store(&kept->on[k], 0);
        go_on(k, word);
    }
    return bagunjoki_plan_resume(&plan, &kept->word, word, programs, counts, kept->places, PLAN_MACHINES) ==
           BAGUNJOKI_PLAN_NOTHING;
}

/* ---- the watcher */

static bool is_danger(void) {
    uint64_t first[PLAN_MACHINES], on = 0;
    for (int k = 0; k < PLAN_MACHINES; k++) on |= first[k] = atomic_load(&kept->on[k]);
    for (int k = 0; k < PLAN_MACHINES; k++)
        if (first[k] != atomic_load(&kept->on[k])) return false; /* (not all of these were on at one moment) */
    for (int k = 0; k < HAZARDS; k++)
        if (on >> hazards[k][0] & on >> hazards[k][1] & 1) {
            printf("%s and %s are on\n", PLAN_NAMES_OF_MOTORS[hazards[k][0]], PLAN_NAMES_OF_MOTORS[hazards[k][1]]);
            fflush(stdout);
            return true;
        }
    return false;
}

/* Looks each millisecond until each machine has made its rounds. */
static bool watch(void) {
    bool all = false;
    for (long looks = 0; looks < LOOKS && !all && !atomic_load(&kept->over); looks++) {
        if (is_danger()) return false;
        all = true;
        for (int k = 0; k < PLAN_MACHINES; k++) all &= atomic_load(&kept->rounds[k]) >= ROUNDS;
        bagunjoki_plan_renew(&plan, &kept->word, 1000000, 0, 8);
        wait_for(1000);
    }
    return all;
}

/* ---- all together */

/* Has the machines at work, and watches them. */
static bool work(bool processes) {
    pthread_t threads[PLAN_MACHINES];
    uint8_t numbers[PLAN_MACHINES];
    bool started = come_back();
    atomic_store(&kept->over, false);
    for (uint8_t k = 0; k < PLAN_MACHINES && started; k++) {
        numbers[k] = k;
        if (!processes) {
            started = pthread_create(&threads[k], NULL, thread, &numbers[k]) == 0;
            continue;
        }
        pid_t child = fork();
        if (child == 0) {
            run(k);
            _exit(0);
        }
        started = child > 0;
    }
    bool safe = started && watch();
    atomic_store(&kept->over, true);
    for (int k = 0; k < PLAN_MACHINES && started; k++) processes ? (void)wait(NULL) : (void)pthread_join(threads[k], NULL);
    return safe;
}

/* Works in a group of processes, which is killed after these microseconds, if they aren't 0. All have ended when nobody
   holds the end of the pipe any more. */
static bool work_until(long cut, bool processes) {
    int ends[2], status = 1;
    char none;
    if (pipe(ends)) return false;
    pid_t group = fork();
    if (group < 0) return false;
    if (group == 0) {
        setpgid(0, 0);
        _exit(!work(processes));
    }
    close(ends[1]);
    setpgid(group, group);
    if (cut) {
        wait_for(cut);
        kill(-group, SIGKILL);
    }
    while (read(ends[0], &none, 1) > 0) continue;
    close(ends[0]);
    waitpid(group, &status, 0);
    return WIFSIGNALED(status) ? cut > 0 : WEXITSTATUS(status) == 0;
}

int main(int argc, char **argv) {
    bool processes = false, cuts = false, safe = true;
    for (int k = 1; k < argc; k++) {
        processes |= !strcmp(argv[k], "processes");
        cuts |= !strcmp(argv[k], "cuts");
    }
    plan = bagunjoki_plan_open(PLAN_BYTES, sizeof PLAN_BYTES);
    /* a blank on the conveyor, and a part in the chuck */
    uint64_t start = bagunjoki_plan_start(&plan, (const uint8_t *)"1010", PLAN_PLACES, 0);
    kept = mmap(NULL, sizeof *kept, PROT_READ | PROT_WRITE, MAP_SHARED | MAP_ANONYMOUS, -1, 0);
    if (start == BAGUNJOKI_PLAN_NO_WORD || kept == MAP_FAILED) return 1;
    bagunjoki_plan_begin(&kept->word, start);
    srand((unsigned)time(NULL));
    for (int k = 0; k < CUTS && cuts && safe; k++) safe = work_until(1000 + rand() % 50000, processes);
    safe = safe && work_until(0, processes);
    for (int k = 0; k < PLAN_MACHINES; k++) {
        unsigned rounds = atomic_load(&kept->rounds[k]);
        printf("%s: %s, stopped by %u\n", PLAN_NAMES_OF_MACHINES[k], rounds < ROUNDS ? "too few rounds" : "100 rounds",
               kept->places[k].stopped);
        safe &= !kept->places[k].stopped;
    }
    if (safe) puts("no two motors of a hazard were on together");
    return !safe;
}
