/* The word, look, attempt, and a plain store, in Promela.

   Three callers claim and release in turn: the table its z1, press and robot z3, which is open throughout. A call loads the word
   (look) and exchanges it (attempt) until it is done, refused or Busy. Bits of the word: the owner of z1, two bits; the owner of
   z3, two bits; then the stamp. What callers were told is kept in made and holder; only assertions read these.

     spin -a word.pml && gcc -O2 -o pan pan.c && ./pan                 the exchange: errors: 0
     spin -DSTORE -a word.pml && gcc -O2 -DBFS -o pan pan.c && ./pan   the store: errors: 1, by a shortest run,
     spin -DSTORE -t -p -g word.pml                                    which this shows
*/
#ifndef ROUNDS
#define ROUNDS 2
#endif
#define TRIES 2
#define STAMP 16

short word;
bit made[6 * ROUNDS + 1];   /* whether a call was told that it is the change with this stamp */
byte holder[2];             /* who holds z1, z3 by what callers were told */

/* Whether the call would be done in the word w, and the word after it. */
inline reply(w) {
    owner = (w >> (2 * zone)) & 3;
    pending = (claims -> owner == 0 : owner == code);
    new = (pending -> w + STAMP + (claims -> code : -code) * (1 << (2 * zone)) : 0)
}

inline told_done(w) {
    assert(!made[w / STAMP]);                      /* no two calls are one change */
    made[w / STAMP] = 1;
    assert(holder[zone] == (claims -> 0 : code));  /* one holder, who loses nothing */
    holder[zone] = (claims -> code : 0);
    pending = false; new = 0
}

proctype caller(byte zone; byte code) {
    short old, new, found;
    byte owner, lost, calls;
    bool pending, claims;
    do
    :: atomic { !pending && calls < 2 * ROUNDS ->       /* look */
            claims = !(calls & 1);
            calls++;
            lost = 0;
            old = word;
            reply(old)
        }
    :: atomic { pending ->                              /* attempt */
            found = word;
#ifdef STORE
            word = new;
#else
            if :: found == old -> word = new :: else fi;
#endif
            if
            :: found == old -> told_done(new)
            :: else ->
                old = found;
                reply(old);
                lost++;
                if :: lost == TRIES -> pending = false :: else fi   /* Busy */
            fi;
            found = 0
        }
    :: !pending && calls == 2 * ROUNDS -> break
    od
}

init {
    byte at = 1;
    atomic { run caller(0, 1); run caller(1, 1); run caller(1, 2) };
    _nr_pr == 1;
    do
    :: at <= word / STAMP -> assert(made[at]); at++     /* each change was told to somebody */
    :: else -> break
    od
}
