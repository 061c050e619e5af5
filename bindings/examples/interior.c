/* Press and robot ask for the interior of the press.   cc interior.c $(pkg-config --cflags --libs bagunjoki) */
#include <bagunjoki.h>
#include <stdio.h>

static bagunjoki_word cell;

static void ask(const char *what, uint8_t machine, uint8_t verb, uint8_t object) {
    bagunjoki_reply reply = bagunjoki_ask(&cell, machine, verb, object, 8);
    printf("%s: answer %u, owner %u, posture %u, stamp %u\n", what, reply.answer, reply.owner, reply.posture,
           (unsigned)bagunjoki_stamp(reply.next));
}

int main(void) {
    uint64_t start = bagunjoki_start((const uint8_t *)"0000000000", 10, 0);
    if (start == BAGUNJOKI_NO_WORD) return 1;
    bagunjoki_open(&cell, start);
    ask("press claims", BAGUNJOKI_PRESS, BAGUNJOKI_CLAIM, BAGUNJOKI_Z3);
    ask("robot claims", BAGUNJOKI_ROBOT, BAGUNJOKI_CLAIM, BAGUNJOKI_Z3);
    ask("press releases", BAGUNJOKI_PRESS, BAGUNJOKI_RELEASE, BAGUNJOKI_Z3);
    ask("robot claims", BAGUNJOKI_ROBOT, BAGUNJOKI_CLAIM, BAGUNJOKI_Z3);
    ask("watch inquires", BAGUNJOKI_WATCH, BAGUNJOKI_INQUIRE, BAGUNJOKI_Z3);
    /* (a plant renews from a stamp near the end) */
    if (!bagunjoki_renew(&cell, 2, 0, 8)) return 1;
    ask("renewed, press claims", BAGUNJOKI_PRESS, BAGUNJOKI_CLAIM, BAGUNJOKI_Z3);
    return 0;
}
