import java.util.ArrayList;
import java.util.List;
import java.util.concurrent.CyclicBarrier;
import java.util.concurrent.atomic.AtomicLong;

/**
 * The project in Java: the interlock on one AtomicLong, called by seven threads, which log what they were told. Written from
 * docs/MODEL.md.
 *
 *   javac -d OUT exercises/project/Word.java
 *   java -cp OUT Word 20000 > log.csv; exercises/judge.py log.csv
 *
 * The first argument is the number of calls of each machine. With a second one, store, a plain store stands in place of the
 * compare-exchange.
 */
public class Word {
    static final String[] MACHINES = {"feed", "table", "robot", "press", "deposit", "crane", "watch"};
    static final int FEED = 0, TABLE = 1, ROBOT = 2, PRESS = 3, DEPOSIT = 4, CRANE = 5, WATCH = 6;
    static final int[] HOST = {TABLE, TABLE, PRESS, DEPOSIT, DEPOSIT, FEED};
    static final int[] GUEST = {FEED, ROBOT, ROBOT, ROBOT, CRANE, CRANE};
    static final String[] POSTURES = {"closed", "moving", "openin", "openout"};
    static final int CLOSED = 0, MOVING = 1, OPENIN = 2, OPENOUT = 3;
    static final String[] POSES = {
        "turning", "loading", "unloading", "travelling", "middle", "low", "top", "running", "landing", "halted", "offering", "standing"};
    static final int FEED_ENTRY = 0, FEED_END = 1, PRESS_IN = 4, PRESS_OUT = 5, DEP_ENTRY = 7, DEP_END = 8;
    static final int LAST_STAMP = 1_048_575, TRIES = 3;
    static final String PLACES = "1001000010";

    /** A word, unpacked. It can be changed. */
    static class State {
        final int[] owner = new int[6], posture = new int[6];
        final boolean[] flag = new boolean[6], full = new boolean[10];
        int stamp;
        boolean stopped;

        State(long word) {
            for (int z = 0; z < 6; z++) {
                int bits = (int) (word >> 5 * z) & 31;
                owner[z] = (bits & 3) == 0 ? -1 : (bits & 3) == 1 ? HOST[z] : GUEST[z];
                flag[z] = (bits & 4) != 0;
                posture[z] = bits >> 3;
            }
            for (int p = 0; p < 10; p++) {
                full[p] = (word >> 30 + p & 1) == 1;
            }
            stamp = (int) (word >> 40) & LAST_STAMP;
            stopped = (word >> 60 & 1) == 1;
        }

        long pack() {
            long word = (long) stamp << 40 | (stopped ? 1L << 60 : 0);
            for (int z = 0; z < 6; z++) {
                long code = owner[z] < 0 ? 0 : owner[z] == HOST[z] ? 1 : 2;
                word |= (code | (flag[z] ? 4 : 0) | posture[z] << 3) << 5 * z;
            }
            for (int p = 0; p < 10; p++) {
                word |= full[p] ? 1L << 30 + p : 0;
            }
            return word;
        }

        boolean isOpen(int z) {
            return posture[z] >= OPENIN;
        }

        /** Where a plate comes from and goes to in a zone, and who gives it; null if none goes through it. */
        int[] way(int z) {
            int giver = posture[z] == OPENIN ? GUEST[z] : HOST[z];
            int[][] in = {{1, 2}, null, {3, 4}, {6, 7}, null, {9, 0}}, out = {null, {2, 3}, {5, 6}, null, {8, 9}, null};
            int[] ends = posture[z] == OPENIN ? in[z] : posture[z] == OPENOUT ? out[z] : null;
            return ends == null ? null : new int[] {ends[0], ends[1], giver};
        }

        /** The answer to a call; if it is done, this is the state after it. */
        String call(int m, String verb, int object) {
            String why = switch (verb) {
                case "claim", "give", "yield", "take", "release" -> zoneCall(m, verb, object);
                case "pose" -> pose(m, object);
                case "advance" -> advance(m);
                case "stop" -> m != WATCH ? "notparty" : stopped ? "stopped" : null;
                case "resume" -> m != WATCH ? "notparty" : stopped ? null : "notstopped";
                default -> "zone " + ownerWord(object) + " " + (flag[object] ? 1 : 0) + " " + POSTURES[posture[object]];
            };
            if (why != null) {
                return why;
            }
            if (stamp == LAST_STAMP) {
                return "worn";
            }
            change(m, verb, object);
            stamp++;
            return "done";
        }

        String ownerWord(int z) {
            return owner[z] < 0 ? "free" : MACHINES[owner[z]];
        }

        /** Why a call with a zone is refused, or null. */
        String zoneCall(int m, String verb, int z) {
            if (m != HOST[z] && m != GUEST[z]) {
                return "notparty";
            }
            if (stopped && (verb.equals("claim") || verb.equals("give"))) {
                return "stopped";
            }
            if (verb.equals("claim")) {
                return owner[z] == m ? "already" : owner[z] >= 0 ? "held " + ownerWord(z)
                    : m == GUEST[z] && !isOpen(z) ? "shut " + POSTURES[posture[z]] : null;
            }
            if (owner[z] != m) {
                return "notowner " + ownerWord(z);
            }
            if (verb.equals("take")) {
                return flag[z] ? null : "noplate";
            }
            if (flag[z]) {
                return "platein z" + (z + 1);
            }
            if (verb.equals("give")) {
                int[] way = way(z);
                return way == null || way[2] != m ? "wrongway" : !full[way[0]] ? "noplate" : full[way[1]] ? "placefull" : null;
            }
            if (verb.equals("yield") ? !isOpen(z) : posture[z] == MOVING) {
                return "shut " + POSTURES[posture[z]];
            }
            return m == FEED && z == 0 && posture[5] == MOVING && full[FEED_END] ? "inuse" : null;
        }

        String pose(int m, int pose) {
            int[] to = postures(m, pose);
            if (to == null) {
                return "nopose";
            }
            boolean moves = to[0] == MOVING, wasMoving = true;
            if (moves && stopped) {
                return "stopped";
            }
            int first = firstZone(m);
            for (int i = 0; i < to.length; i++) {
                if ((moves || posture[first + i] != to[i]) && owner[first + i] != m) {
                    return "notowner " + ownerWord(first + i);
                }
            }
            for (int i = 0; i < to.length; i++) {
                if ((moves || posture[first + i] != to[i]) && flag[first + i]) {
                    return "platein z" + (first + i + 1);
                }
                wasMoving &= posture[first + i] == MOVING;
            }
            if ((m == TABLE || m == PRESS) && !moves && !wasMoving) {
                return "jump";
            }
            for (int i = 0; i < to.length; i++) {
                if (to[i] == OPENIN && posture[first + i] != OPENIN && receives(first + i)) {
                    return "placefull";
                }
            }
            boolean onto = m == DEPOSIT && full[DEP_END] || m == FEED && full[FEED_END] && owner[0] != FEED;
            return moves && onto ? "placefull" : null;
        }

        /** Whether a plate is where one would go that comes in through this zone. */
        boolean receives(int z) {
            return switch (z) {
                case 0 -> full[2];
                case 2 -> full[PRESS_IN] || full[PRESS_OUT];
                case 3 -> full[DEP_ENTRY];
                default -> full[FEED_ENTRY];
            };
        }

        String advance(int m) {
            if (m != FEED && m != DEPOSIT && m != PRESS) {
                return "nopose";
            }
            if (m == PRESS && owner[2] != PRESS) {
                return "notowner " + ownerWord(2);
            }
            int at = m == FEED ? FEED_ENTRY : m == DEPOSIT ? DEP_ENTRY : PRESS_IN, work = m == PRESS ? CLOSED : MOVING;
            for (int z = 0; z < 6; z++) {
                if (HOST[z] == m && posture[z] != work) {
                    return "notatwork";
                }
            }
            return !full[at] ? "noplate" : full[at + 1] ? "placefull" : null;
        }

        /** What a done call changes. */
        void change(int m, String verb, int object) {
            switch (verb) {
                case "claim" -> owner[object] = m;
                case "release" -> owner[object] = -1;
                case "yield" -> owner[object] = HOST[object] + GUEST[object] - m;
                case "give" -> {
                    full[way(object)[0]] = false;
                    flag[object] = true;
                    owner[object] = HOST[object] + GUEST[object] - m;
                }
                case "take" -> {
                    flag[object] = false;
                    full[way(object)[1]] = true;
                }
                case "pose" -> {
                    int[] to = postures(m, object);
                    System.arraycopy(to, 0, posture, firstZone(m), to.length);
                }
                case "advance" -> {
                    int at = m == FEED ? FEED_ENTRY : m == DEPOSIT ? DEP_ENTRY : PRESS_IN;
                    full[at] = false;
                    full[at + 1] = true;
                    for (int z = 0; z < 6; z++) {
                        posture[z] = HOST[z] == m ? CLOSED : posture[z];
                    }
                }
                default -> stopped = verb.equals("stop");
            }
        }

        static int firstZone(int m) {
            return m == TABLE ? 0 : m == PRESS ? 2 : m == DEPOSIT ? 3 : 5;
        }

        /** The postures that a pose gives the machine's own zones, or null. */
        static int[] postures(int m, int pose) {
            return switch (MACHINES[m] + " " + POSES[pose]) {
                case "table turning", "deposit running" -> new int[] {MOVING, MOVING};
                case "table loading", "deposit landing" -> new int[] {OPENIN, CLOSED};
                case "table unloading", "deposit offering" -> new int[] {CLOSED, OPENOUT};
                case "deposit standing" -> new int[] {OPENIN, OPENOUT};
                case "deposit halted" -> new int[] {CLOSED, CLOSED};
                case "press travelling", "feed running" -> new int[] {MOVING};
                case "press middle", "feed landing" -> new int[] {OPENIN};
                case "press low" -> new int[] {OPENOUT};
                case "press top", "feed halted" -> new int[] {CLOSED};
                default -> null;
            };
        }
    }

    final AtomicLong word;
    final boolean stores;

    Word(long start, boolean stores) {
        word = new AtomicLong(start);
        this.stores = stores;
    }

    /** Puts the new word in place of the old one, and returns the word that was there. */
    long exchange(long old, long next) {
        if (!stores) {
            return word.compareAndExchange(old, next);
        }
        long found = word.get();
        if (found == old) {
            Thread.yield();
            word.set(next);
        }
        return found;
    }

    /** Makes a call, and returns the lost exchanges and what the caller is told, as in a log. */
    String ask(int m, String verb, int object) {
        long old = word.get();
        for (int lost = 0; ; lost++) {
            State state = new State(old);
            int before = state.stamp;
            String answer = state.call(m, verb, object);
            if (!answer.equals("done")) {
                return lost + "," + before + " " + answer;
            }
            if (lost == TRIES) {
                return lost + "," + before + " busy " + lost;
            }
            if (m % 2 == 0) {
                Thread.yield();
            }
            long found = exchange(old, state.pack());
            if (found == old) {
                return lost + "," + state.stamp + " done";
            }
            old = found;
        }
    }

    /** The journal of a machine that makes calls by numbers that look random. */
    String journal(int m, int calls) {
        int[] own = java.util.stream.IntStream.range(0, 6).filter(z -> m == WATCH || HOST[z] == m || GUEST[z] == m).toArray();
        String[] verbs = {
            "claim", "claim", "claim", "claim", "give", "give", "take", "take", "release", "release", "yield", "inquire", "advance", "pose", "pose", "pose"};
        StringBuilder text = new StringBuilder();
        long number = m + 1;
        for (int made = 0; made < calls; made++) {
            number = number * 6_364_136_223_846_793_005L + 1_442_695_040_888_963_407L;
            int next = (int) (number >>> 33), zone = own[next / 16 % own.length], pose = next / 128 % 12;
            String verb = m == WATCH && next % 16 == 0 ? "stop" : m == WATCH && next % 16 < 5 ? "resume" : verbs[next % 16];
            String object = verb.equals("pose") ? "," + POSES[pose] : verb.matches("advance|stop|resume") ? "" : ",z" + (zone + 1);
            text.append(MACHINES[m]).append(',').append(verb).append(object).append(',');
            text.append(ask(m, verb, verb.equals("pose") ? pose : zone)).append('\n');
        }
        return text.toString();
    }

    public static void main(String[] arguments) throws Exception {
        int calls = arguments.length > 0 ? Integer.parseInt(arguments[0]) : 20_000;
        State start = new State(0);
        for (int p = 0; p < 10; p++) {
            start.full[p] = PLACES.charAt(p) == '1';
        }
        Word interlock = new Word(start.pack(), arguments.length > 1 && arguments[1].equals("store"));
        CyclicBarrier all = new CyclicBarrier(7);
        String[] journals = new String[7];
        List<Thread> threads = new ArrayList<>();
        for (int m = 0; m < 7; m++) {
            int machine = m;
            threads.add(new Thread(() -> {
                try {
                    all.await();
                } catch (Exception broken) {
                    throw new IllegalStateException(broken);
                }
                journals[machine] = interlock.journal(machine, calls);
            }));
        }
        threads.forEach(Thread::start);
        for (Thread it : threads) {
            it.join();
        }
        System.out.println("start," + PLACES + "," + TRIES);
        System.out.print(String.join("", journals));
    }
}
