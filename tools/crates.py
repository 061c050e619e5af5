"""What the scripts of this folder share: the crates of crates.txt, and proving them in the order that they use one another."""

import contextlib
import fcntl
import os
import shutil
import signal
import subprocess
import sys
import tempfile
import time

ROOT = os.path.dirname(os.path.dirname(os.path.realpath(__file__)))
PROGRAM = "cell"
ROOMS = "rooms"
KEPT = "incremental"
# What of a crate's folder no check reads, or is made by checks.
BESIDE = ("out", "must-fail", "attacks", "controls")
# The processor seconds of a crate's proof where nothing is written down.
USUAL = 60
# The processor seconds from which on a second job saves a crate more time than it costs.
LONG = 100
STOPS = (signal.SIGINT, signal.SIGTERM, signal.SIGHUP)
# The most memory that the check of a crate takes, in bytes, and the processors that it is given at least where there are several.
MEMORY = 7_000_000_000
PROCESSORS = 2


def usage(text):
    """Prints how a script is called, and gives its exit status: on standard output and 0 for those who ask, else 2."""
    asked = bool({*sys.argv[1:]} & {"-h", "--help"})
    print(text.strip("\n"), file=sys.stdout if asked else sys.stderr)
    return 0 if asked else 2


def rows(root):
    """The crates of crates.txt by name, each with all libraries that it uses."""
    found = {}
    with open(f"{root}/crates.txt", encoding="utf-8") as lines:
        for line in lines:
            head, colon, libraries = line.partition("#")[0].partition(":")
            if colon:
                found[head.split()[0]] = libraries.split()
    return found


def crates_in(root):
    """The crates of crates.txt by name, each with the crates of the repository that it uses."""
    found = rows(root)
    return {name: [it for it in libraries if it in found] for name, libraries in found.items()}


def below(crates, name):
    """All crates that a crate uses, lowest first."""
    found = []
    for library in crates[name]:
        found += [it for it in [*below(crates, library), library] if it not in found]
    return found


def is_program(root, name):
    """Whether a crate is a program, and no library."""
    return os.path.isfile(f"{root}/crates/{name}/src/main.rt")


def processors():
    """The processors that there are to use: those of this process, or fewer by the quota of its control group."""
    found = len(os.sched_getaffinity(0))
    with contextlib.suppress(OSError, ValueError):
        with open("/sys/fs/cgroup/cpu.max", encoding="ascii") as it:
            quota, period = map(int, it.read().split())
        found = min(found, max(quota // period, 1))
    return found


def memory():
    """The free memory in bytes, under the limit of the control group too."""
    with open("/proc/meminfo", encoding="ascii") as it:
        found = next(1024 * int(line.split()[1]) for line in it if line.startswith("MemAvailable"))
    with contextlib.suppress(OSError, ValueError):
        with open("/sys/fs/cgroup/memory.max", encoding="ascii") as limit, open("/sys/fs/cgroup/memory.current", encoding="ascii") as held:
            found = min(found, int(limit.read()) - int(held.read()))
    return found


def at_once():
    """How many crates may be checked side by side here."""
    return max(1, min(processors() // PROCESSORS, memory() // MEMORY))


def above_rooms():
    """Where temporary folders go: on the disk of the repository, so that files get there by links."""
    usual, own = tempfile.gettempdir(), f"{ROOT}/crates/{PROGRAM}/out/{ROOMS}"
    if os.stat(usual).st_dev == os.stat(ROOT).st_dev:
        return usual
    # (rt looks for no crates in an out/)
    os.makedirs(own, exist_ok=True)
    return own


@contextlib.contextmanager
def room():
    """A temporary folder that is gone at the end, also where a signal ends this script."""
    def end(number, _):
        sys.exit(128 + number)

    for it in STOPS:
        signal.signal(it, end)
    folder = tempfile.mkdtemp(prefix="cell-", dir=above_rooms())
    try:
        yield folder
    finally:
        for it in STOPS:
            signal.signal(it, signal.SIG_IGN)
        # what was killed a moment ago may still write
        for _ in range(50):
            shutil.rmtree(folder, ignore_errors=True)
            if not os.path.exists(folder):
                break
            time.sleep(0.1)
        if os.path.basename(os.path.dirname(folder)) == ROOMS:
            with contextlib.suppress(OSError):
                os.rmdir(os.path.dirname(folder))


@contextlib.contextmanager
def whole():
    """Keeps signals waiting until what is done here is done."""
    signal.pthread_sigmask(signal.SIG_BLOCK, STOPS)
    try:
        yield
    finally:
        signal.pthread_sigmask(signal.SIG_UNBLOCK, STOPS)


class Running:
    """Commands that run side by side, each in a session of its own, and of which none outlives this script."""

    def __init__(self):
        self.commands = {}

    @staticmethod
    def stand_back(niceness):
        """Lets other sessions go first. Where the kernel shares out processors by session, the session has a niceness of its own."""
        os.nice(niceness)
        with contextlib.suppress(OSError), open("/proc/self/autogroup", "w", encoding="ascii") as it:
            it.write(str(niceness))

    def start(self, key, words, folder, log, niceness=0):
        """Starts a command in this folder, with this niceness. What it writes goes into the log, and its temporary files beside that."""
        scratch = f"{os.path.dirname(log)}/scratch"
        os.makedirs(scratch, exist_ok=True)
        with open(log, "wb") as to, whole():
            # (a command begins with no signal held back)
            begin = lambda: (self.stand_back(niceness), signal.pthread_sigmask(signal.SIG_UNBLOCK, STOPS))
            how = {"preexec_fn": begin, "start_new_session": True}
            how |= {"cwd": folder, "stdin": subprocess.DEVNULL, "stdout": to, "stderr": to, "env": {**os.environ, "TMPDIR": scratch}}
            self.commands[key] = subprocess.Popen(words, **how)

    def wait_for_any(self, seconds):
        """The statuses of the commands that have ended, by their keys. Waits for the first at most these seconds."""
        until = time.monotonic() + seconds
        while True:
            found = {key: it.returncode for key, it in self.commands.items() if it.poll() is not None}
            if found or time.monotonic() > until:
                break
            time.sleep(0.1)
        for key in found:
            del self.commands[key]
        return found

    def stop(self):
        for it in self.commands.values():
            with contextlib.suppress(ProcessLookupError):
                os.killpg(it.pid, signal.SIGKILL)
        for it in self.commands.values():
            it.wait()


def copy(source, to):
    """Copies a file or a folder, by links to the files where that can be done, since nobody writes into them."""
    def link(file, at):
        try:
            os.link(file, at)
        except OSError:
            shutil.copy2(file, at)

    if os.path.isdir(source):
        shutil.copytree(source, to, copy_function=link)
    elif os.path.isfile(source):
        link(source, to)


def copy_crate(source, to):
    """Copies what a check of the crate reads."""
    os.makedirs(to)
    for it in os.listdir(source):
        if it not in BESIDE:
            copy(f"{source}/{it}", f"{to}/{it}")


def copy_library(source, to):
    """Copies a crate and what the crates above it read of its check."""
    copy_crate(source, to)
    copy(f"{source}/out/rlib", f"{to}/out/rlib")


@contextlib.contextmanager
def alone(folder, waits=True):
    """Keeps rt out of a crate's folder, as rt itself does. Where rt is in there, waits for it or raises BlockingIOError."""
    held = os.open(folder, os.O_RDONLY)
    try:
        fcntl.flock(held, fcntl.LOCK_EX | (0 if waits else fcntl.LOCK_NB))
        yield
    finally:
        os.close(held)


class Place:
    """A crate with those below it, in a folder of its own, so that rt, which locks all of them, can work at two crates at once.
    What rt keeps of the crate from run to run moves there and back; its library or program comes back once that is proved."""

    def __init__(self, root, crates, name, folder):
        self.root, self.folder, self.libraries, self.name = root, folder, below(crates, name), name
        self.home, self.crate, self.entered = f"{root}/crates/{name}", f"{folder}/crates/{name}", False
        self.held = contextlib.ExitStack()

    @staticmethod
    def is_done():
        # (that is for rt to find out)
        return False

    @staticmethod
    def words(side_by_side, _idle):
        # a crate that runs alone gets the jobs that rt chooses
        return ["rt", "lib", *(["--jobs", str(max(1, processors() // side_by_side))] if side_by_side > 1 else [])]

    def enter(self):
        """Answers whether it could: not where rt is at work in one of the crates."""
        with contextlib.ExitStack() as while_copied:
            try:
                self.held.enter_context(alone(self.home, False))
                for it in self.libraries:
                    while_copied.enter_context(alone(f"{self.root}/crates/{it}", False))
            except BlockingIOError:
                self.held.close()
                return False
            os.makedirs(f"{self.folder}/crates")
            with open(f"{self.folder}/crates.txt", "w", encoding="utf-8") as to, open(f"{self.root}/crates.txt", encoding="utf-8") as lines:
                wanted = {self.name, *self.libraries}
                to.writelines(it for it in lines if {*it.partition(":")[0].split()[:1]} & wanted)
            copy(f"{self.root}/HANDLES", f"{self.folder}/HANDLES")
            for it in self.libraries:
                copy_library(f"{self.root}/crates/{it}", f"{self.folder}/crates/{it}")
            copy_crate(self.home, self.crate)
        for folder in (self.home, self.crate):
            os.makedirs(f"{folder}/out", exist_ok=True)
        for it in {*os.listdir(f"{self.home}/out")} - {KEPT, ROOMS}:
            # (rt writes a program's files again in place)
            how = copy if os.path.isdir(f"{self.home}/out/{it}") else shutil.copy2
            how(f"{self.home}/out/{it}", f"{self.crate}/out/{it}")
        with whole():
            self.entered = True
            self.move(KEPT, self.home, self.crate)
        return True

    def leave(self, proved=False):
        with whole():
            if self.entered:
                for it in os.listdir(f"{self.crate}/out") if proved else [KEPT]:
                    self.move(it, self.crate, self.home)
                self.entered = False
        self.held.close()

    @staticmethod
    def move(name, source, to):
        if os.path.exists(f"{source}/out/{name}"):
            shutil.rmtree(f"{to}/out/{name}", ignore_errors=True)
            shutil.move(f"{source}/out/{name}", f"{to}/out/{name}")


def sources(folder):
    """The files that a check of the crate in this folder reads, in order."""
    return sorted(f"{at}/{it}" for part in ("src", "specs", "proofs") for at, _, files in os.walk(f"{folder}/{part}") for it in files)


def ahead(crates, order, name, spent):
    """The seconds, this crate's included, on the longest way from it up to a crate that none of these uses."""
    above = [ahead(crates, order, it, spent) for it in order if name in crates[it]]
    return spent.get(name, USUAL) + max(above, default=0)


def costs():
    """The processor seconds that the proof of each crate took when tools/cost last wrote them down."""
    found = {}
    with contextlib.suppress(OSError), open(f"{ROOT}/tools/costs.txt", encoding="utf-8") as lines:
        for line in lines:
            name, *seconds = line.partition("#")[0].split() or [""]
            if seconds:
                found[name] = int(seconds[0])
    return found


class Progress:
    """Says how far `prove` is: at the beginning, when a crate is proved, and after each minute of silence."""

    def __init__(self, say, first=None):
        """`first` is called at the beginning, with all crates and those that are proved already."""
        self.say, self.first = say, first
        self.begun, self.weights, self.known = time.monotonic(), costs(), None

    def watch(self, plan, done, since):
        """What `prove` calls: with the crates in their order, each with those that it uses, with the crates that are
        proved, and with those under way, each with the time when it began."""
        now, is_first = time.monotonic(), self.known is None
        if is_first:
            self.known, self.since, self.spent, self.most = set(done), {}, {}, 1
            if self.first:
                self.first(plan, done)
        self.since |= since
        self.most = max(self.most, len(since))
        for name in done - self.known:
            self.spent[name] = now - self.since[name]
        if done - self.known or since and (is_first or now - self.said > 60):
            left = f", about {self.minutes(self.to_go(plan, done, since, now))} left" if self.spent and since else ""
            under_way = f"; now proving {', '.join(sorted(since))}" if since else ""
            self.say(f"{len(done)} of {len(plan)} crates are proved; {self.minutes(now - self.begun)} gone{left}{under_way}")
            self.known, self.said = set(done), now

    @staticmethod
    def minutes(seconds):
        return f"{seconds:.0f} s" if seconds < 90 else f"{seconds / 60:.0f} min"

    def weight(self, name):
        return self.weights.get(name, USUAL)

    def to_go(self, plan, done, since, now):
        """The seconds that are left, if each crate takes as long, by its weight, as those did that have ended."""
        pace = sum(self.spent.values()) / sum(map(self.weight, self.spent))
        at, ended = 0, {*done}
        running = {name: max(pace * self.weight(name) - (now - begun), 1) for name, begun in since.items()}
        while len(ended) < len(plan):
            ready = [it for it in plan if it not in ended and it not in running and ended >= {*plan[it]}]
            for name in ready[: max(self.most - len(running), 0)]:
                running[name] = at + pace * self.weight(name)
            first = min(running, key=running.get)
            at = running.pop(first)
            ended.add(first)
        return at


class Order:
    """The crates to prove, those with the longest way above them first, and those that are proved."""

    def __init__(self, root, names, is_done):
        self.uses, order, self.spent, self.done = crates_in(root), [], costs(), set()
        for name in names:
            order += [it for it in [*below(self.uses, name), name] if it not in order]
        self.urgent = sorted(order, key=lambda it: -ahead(self.uses, order, it, self.spent))
        for name in order:
            if self.done >= {*self.uses[name]} and is_done(name):
                self.done.add(name)
        self.plan = {it: self.uses[it] for it in self.urgent}
        self.left = [it for it in self.urgent if it not in self.done]

    def ready(self):
        """The crates that are left and need no crate that isn't proved."""
        return [it for it in self.left if self.done >= {*self.uses[it]}]

    def idle(self, name):
        """How many processors would be idle while this crate is proved: for it, if it is long and no other is as urgent. For what need
        not wait for it, there are fewer seconds of work than the other processors have meanwhile."""
        weight = lambda it: self.spent.get(it, USUAL)
        if weight(name) < LONG or name != next(it for it in self.urgent if it not in self.done):
            return 0
        others = [it for it in self.urgent if it not in self.done and it != name and name not in below(self.uses, it)]
        return max(0, int(processors() - 1 - sum(map(weight, others)) / weight(name)))

    def niceness(self, name):
        """Less urgent crates stand back for more urgent ones, and little for others: on a busy machine the last ones would stand still."""
        return min([it for it in self.urgent if it not in self.done].index(name), 3)


class Proving:
    """Crates that are proved side by side, each in a place of its own."""

    def __init__(self, root, order, folder, place_of):
        self.root, self.order, self.folder, self.place_of = root, order, folder, place_of
        self.places, self.begun, self.running, self.waits = {}, {}, Running(), False

    def start(self, name, side_by_side):
        """Starts a crate, unless rt is at work on it or below it."""
        place = self.place_of(self.root, self.order.uses, name, f"{self.folder}/{name}")
        if not place.enter():
            if not self.waits:
                print(f"{PROGRAM}: waiting: another rt is working on {name}, or on a crate that {name} uses", file=sys.stderr, flush=True)
            self.waits = True
            return
        self.places[name] = place
        self.order.left.remove(name)
        words = place.words(side_by_side, self.order.idle(name))
        self.running.start(name, words, place.crate, f"{self.folder}/{name}/log", self.order.niceness(name))
        self.begun[name] = time.monotonic()

    def end(self):
        """Takes over what has been proved within a second. Answers a crate that failed."""
        for name, status in self.running.wait_for_any(1).items():
            self.places.pop(name).leave(status == 0)
            if status:
                return name
            del self.begun[name]
            shutil.rmtree(f"{self.folder}/{name}")
            self.order.done.add(name)
        return None

    def stop(self):
        self.running.stop()
        for it in self.places.values():
            it.leave()


def prove(root, names, folder, place_of=Place, limit=None, watch=lambda plan, done, since: None):
    """Proves these crates and all below them, each in a place of its own, and answers None, or the crate that failed and the file of
    what was said of it. Where cores and memory allow, or at most by the limit, crates are worked at side by side. Those with the
    longest way above them come first, and get processors before others. Each second `watch` is called, as Progress.watch has it."""
    order = Order(root, names, lambda name: place_of(root, crates_in(root), name, f"{folder}/{name}").is_done())
    proving = Proving(root, order, folder, place_of)
    with contextlib.ExitStack() as ends:
        ends.callback(proving.stop)
        while order.left or proving.places:
            free = max((limit or at_once()) - len(proving.places), 0 if proving.places else 1)
            starting = order.ready()[:free]
            side_by_side = len(proving.places) + len(starting)
            for name in starting:
                proving.start(name, side_by_side)
            watch(order.plan, order.done, proving.begun)
            failed = proving.end()
            if failed:
                return failed, f"{folder}/{failed}/log"
        watch(order.plan, order.done, proving.begun)
    return None
