-------------------------------- MODULE Word --------------------------------
(* The word, look, attempt, and a plain store, in PlusCal: the same as word.pml.

   Three callers claim and release in turn: the table its z1, press and robot z3, which is open throughout. What callers were
   told is kept in made, holder and fault, which no step looks at. To run it, with TLA+'s tools (Debian has none, and they weren't at
   hand where this was written, so it was never translated or run; word.pml was):

     java -cp tla2tools.jar pcal.trans -nocfg Word.tla
     java -cp tla2tools.jar tlc2.TLC Word             no error is expected
   and then with Store = TRUE in Word.cfg: AllTold is expected to be violated after 5 steps and, where the configuration hasn't
   AllTold, NoFault after 6, as of word.pml with the store. (Plain Python that takes the same steps says so, and finds no error in
   124,172 states without the store.) *)
EXTENDS Integers

CONSTANTS Tries, Rounds, Store

Callers == {"table", "press", "robot"}
Zone(c) == IF c = "table" THEN "z1" ELSE "z3"

(* The owner that a call needs, and the one that it leaves. *)
Needs(c, claims) == IF claims THEN "free" ELSE c
Leaves(c, claims) == IF claims THEN c ELSE "free"

Would(w, c, claims) == w.owner[Zone(c)] = Needs(c, claims)
After(w, c, claims) ==
    [stamp |-> w.stamp + 1, owner |-> [w.owner EXCEPT ![Zone(c)] = Leaves(c, claims)]]

(* --algorithm word
variables
    word = [stamp |-> 0, owner |-> [z \in {"z1", "z3"} |-> "free"]],
    made = {},
    holder = [z \in {"z1", "z3"} |-> "free"],
    fault = FALSE;

define
    (* No two calls are one change; a zone has one holder, who loses nothing. *)
    NoFault == ~fault
    (* Each change was told to somebody. *)
    AllTold == 1..word.stamp \subseteq made
end define;

process caller \in Callers
variables old = word, lost = 0, calls = 0, claims = TRUE, pending = FALSE;
begin
Step:
    while pending \/ calls < 2 * Rounds do
        if ~pending then
            (* look *)
            claims := (calls % 2 = 0);
            calls := calls + 1;
            lost := 0;
            old := word;
            pending := Would(word, self, claims);
        elsif word = old then
            (* attempt, won *)
            fault := fault \/ (old.stamp + 1) \in made \/ holder[Zone(self)] # Needs(self, claims);
            made := made \union {old.stamp + 1};
            holder[Zone(self)] := Leaves(self, claims);
            word := After(old, self, claims);
            pending := FALSE;
        else
            (* attempt, lost *)
            pending := Would(word, self, claims) /\ lost + 1 < Tries;
            lost := lost + 1;
            if Store then
                old := word || word := After(old, self, claims);
            else
                old := word;
            end if;
        end if;
    end while;
end process;
end algorithm; *)
=============================================================================
