/* The press: a loop over sensors, motor and interlock. docs/PLANT.md has its program.

   Lines of text are its sensors: three digits for the switches bottom, middle and top, 1 is on. It writes what its
   motor is told. The crate press_by_hand does the same, proved.   cc press.c $(pkg-config --cflags --libs bagunjoki) */
#include <bagunjoki.h>
#include <stdio.h>

/* The plant's side. Yours reads inputs and writes outputs here, with the barriers that your devices ask for. */

struct switches {
    bool bottom, middle, top;
};

enum motor { OFF, UP, DOWN };

enum reading { READ, UNREAD, END };

static enum reading read_switches(struct switches *now) {
    char line[80];
    if (!fgets(line, sizeof line, stdin)) return END;
    for (int k = 0; k < 3; k++)
        if (line[k] != '0' && line[k] != '1') return UNREAD;
    *now = (struct switches){line[0] == '1', line[1] == '1', line[2] == '1'};
    return READ;
}

static void set_motor(enum motor motor, const char *why) {
    static const char *const words[] = {"off", "up", "down"};
    printf("%s%s\n", words[motor], why);
}

/* The program: steps that make a call, and steps that drive. */

enum target { NOWHERE, BOTTOM, MIDDLE, TOP };

struct step {
    uint8_t verb, object, waits_on;
    enum target target;
};

enum { LEAVE_FOR_MIDDLE = 1, LEAVE_FOR_TOP = 6, LEAVE_FOR_BOTTOM = 10, LAST = 14 };

static const struct step program[] = {
    {BAGUNJOKI_CLAIM, BAGUNJOKI_Z3, 0, NOWHERE},
    {BAGUNJOKI_SET_POSE, BAGUNJOKI_TRAVELLING, 0, NOWHERE},
    {0, 0, 0, MIDDLE},
    {BAGUNJOKI_SET_POSE, BAGUNJOKI_MIDDLE, 0, NOWHERE},
    {BAGUNJOKI_RELEASE, BAGUNJOKI_Z3, 0, NOWHERE},
    {BAGUNJOKI_TAKE, BAGUNJOKI_Z3, BAGUNJOKI_NOT_OWNER, NOWHERE},
    {BAGUNJOKI_SET_POSE, BAGUNJOKI_TRAVELLING, 0, NOWHERE},
    {0, 0, 0, TOP},
    {BAGUNJOKI_SET_POSE, BAGUNJOKI_TOP, 0, NOWHERE},
    {BAGUNJOKI_ADVANCE, 0, 0, NOWHERE},
    {BAGUNJOKI_SET_POSE, BAGUNJOKI_TRAVELLING, 0, NOWHERE},
    {0, 0, 0, BOTTOM},
    {BAGUNJOKI_SET_POSE, BAGUNJOKI_LOW, 0, NOWHERE},
    {BAGUNJOKI_GIVE, BAGUNJOKI_Z3, BAGUNJOKI_PLACE_FULL, NOWHERE},
    {BAGUNJOKI_CLAIM, BAGUNJOKI_Z3, BAGUNJOKI_HELD, NOWHERE},
};

/* What the motor has to do on the way to a switch; `last` is what it did last. */
static enum motor drive(enum target target, struct switches now, enum motor last) {
    switch (target) {
    case BOTTOM: return now.bottom ? OFF : DOWN;
    case TOP: return now.top ? OFF : UP;
    case MIDDLE: return now.middle ? OFF : now.bottom ? UP : now.top ? DOWN : last;
    default: return OFF;
    }
}

/* One machine's view of the cell. */
struct press {
    bagunjoki_word *cell;
    unsigned at;
    enum motor last;
    bool has_stopped;
};

/* The step after the first claim, by the plates in the press. */
static unsigned first_step(bagunjoki_word cell) {
    if (bagunjoki_is_full(cell, BAGUNJOKI_AT_PRESS_OUT)) return LEAVE_FOR_BOTTOM;
    return bagunjoki_is_full(cell, BAGUNJOKI_AT_PRESS_IN) ? LEAVE_FOR_TOP : LEAVE_FOR_MIDDLE;
}

static void go_on(struct press *press) {
    if (press->at == 0) press->at = first_step(*press->cell);
    else press->at = press->at == LAST ? LEAVE_FOR_MIDDLE : press->at + 1;
}

/* A turn: one call at most, with the motor off, or a drive. */
static enum motor turn(struct press *press, struct switches now) {
    const struct step *step = &program[press->at];
    if (now.bottom + now.middle + now.top > 1) press->has_stopped = true;
    if (press->has_stopped) return OFF;
    if (!step->verb) {
        enum motor motor = drive(step->target, now, press->last);
        if (motor != OFF) press->last = motor;
        if (motor == OFF) go_on(press);
        return motor;
    }
    bagunjoki_reply reply = bagunjoki_ask(press->cell, BAGUNJOKI_PRESS, step->verb, step->object, 8);
    if (reply.answer == BAGUNJOKI_DONE) go_on(press);
    else if (reply.answer != BAGUNJOKI_BUSY && reply.answer != BAGUNJOKI_STOPPED && reply.answer != step->waits_on)
        press->has_stopped = true; /* a refusal that the program doesn't know: the motor stays off */
    return OFF;
}

int main(void) {
    static bagunjoki_word cell;
    struct press press = {&cell, 0, DOWN, false};
    struct switches now;
    enum reading reading;
    bagunjoki_open(&cell, bagunjoki_start((const uint8_t *)"0000100000", 10, 0));
    while ((reading = read_switches(&now)) != END) {
        bagunjoki_renew(&cell, 1000000, 0, 8);
        enum motor motor = reading == READ ? turn(&press, now) : OFF;
        set_motor(motor, reading == UNREAD ? " unread" : press.has_stopped ? ": stopped" : "");
    }
    return 0;
}
