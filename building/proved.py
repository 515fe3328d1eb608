"""The proved build: each crate is proved by rt once the libraries below it are, as many at once as there are processors."""
import os
import shutil
import sys
import tempfile
import time

from building import processes
from building.crates import TOP, crates, lines_of, say, with_below

# what `rt run` ends with: on no input at all a program stops with 4, and no failed build has that status
NO_INPUT = 4
# of a crate: its built library, and what checks of it kept
RLIB, KEPT = "out/rlib", "out/incremental"
GIGABYTES = 4
# seconds that a crate takes on a quiet machine: for itself, for a line of src/, and to compile a program
FIRST, LINE, COMPILED = 5, 0.105, 34
# processor seconds of that for each second: the large crates take two processors, and provers side by side slow one another. So a line
# takes 0.22 of them: a build of 26,000 lines took 95 processor minutes, and the lines of single crates 0.1 to 0.4 seconds
BUSY = 2.1
# seconds of a quiet machine that are taken as seen when a build begins, so that the first crates do not decide its pace alone
SEEN = 120
# lines of src/ that are worth one processor more, which reads all crates below once more
WORTH = 500


def free_gigabytes():
    with open("/proc/meminfo", encoding="utf-8") as text:
        return next(int(line.split()[1]) for line in text if line.startswith("MemAvailable")) / 1e6


def linked(one, other):
    try:
        os.link(one, other)
    except OSError:
        shutil.copy2(one, other)


def put(one, other):
    """Moves a file or a folder, in one step where a file is replaced."""
    if os.path.isdir(one):
        shutil.rmtree(other, ignore_errors=True)
        shutil.move(one, other)
    else:
        shutil.move(one, f"{other}.new")
        os.replace(f"{other}.new", other)


class Attempt:
    """A call of rt that proves a crate, in a copy of it and of the crates below: rt locks all of these, so in one place it would
    not prove two crates side by side that stand on a third."""

    def __init__(self, name, below, is_program, jobs):
        self.name, self.is_program, self.jobs, self.began = name, is_program, jobs, time.time()
        os.makedirs(f"{TOP}/crates/{name}/out", exist_ok=True)
        self.room = tempfile.mkdtemp(prefix=f"build-{name}-")
        try:
            self.session = self.started(below)
        except BaseException:
            shutil.rmtree(self.room, ignore_errors=True)
            raise

    def started(self, below):
        self.copy(below)
        words = ["rt", "run" if self.is_program else "lib", "--jobs", f"{self.jobs}"]
        with open(f"{TOP}/crates/{self.name}/out/build.log", "wb") as log:
            return processes.Session(words, log, cwd=f"{self.room}/crates/{self.name}")

    def kept(self):
        """Returns what of the crate's out/ a build begins with, and leaves."""
        program = f"out/{self.name}"
        return [KEPT, program, f"{program}.stamp"] if self.is_program else [RLIB, KEPT]

    def copy(self, below):
        """Copies the crate and those below it. Files of built libraries have a second name there: rt never writes into them."""
        shutil.copy2(f"{TOP}/HANDLES", self.room)
        with open(f"{TOP}/crates.txt", encoding="utf-8") as text, open(f"{self.room}/crates.txt", "w", encoding="utf-8") as few:
            few.writelines(line for line in text if line.partition(":")[0] in (*below, self.name))
        for name in [*below, self.name]:
            one, other = f"{TOP}/crates/{name}", f"{self.room}/crates/{name}"
            shutil.copytree(one, other, ignore=shutil.ignore_patterns("out", "must-fail"))
            if os.path.isdir(f"{one}/{RLIB}"):
                shutil.copytree(f"{one}/{RLIB}", f"{other}/{RLIB}", copy_function=linked)
        one, other = f"{TOP}/crates/{self.name}", f"{self.room}/crates/{self.name}"
        os.makedirs(f"{other}/out", exist_ok=True)
        for part in self.kept():
            if os.path.isdir(f"{one}/{part}") and part != RLIB:
                shutil.copytree(f"{one}/{part}", f"{other}/{part}")
            elif os.path.isfile(f"{one}/{part}"):
                shutil.copy2(f"{one}/{part}", f"{other}/{part}")

    def is_built(self, began):
        """Returns whether the crate is built, once rt has ended, and takes what was made out of the copy. A program's time is
        that at which the build began, so that a source which was changed meanwhile is newer."""
        status = self.session.end()
        succeeded = status == (NO_INPUT if self.is_program else 0)
        for part in self.kept():
            made, place = f"{self.room}/crates/{self.name}/{part}", f"{TOP}/crates/{self.name}/{part}"
            is_whole = succeeded or part in (RLIB, KEPT)
            if is_whole and os.path.exists(made):
                if part == f"out/{self.name}":
                    os.utime(made, (began, began))
                put(made, place)
        self.clear()
        return succeeded

    def clear(self):
        """Ends what runs, and removes the copy."""
        self.session.end()
        shutil.rmtree(self.room, ignore_errors=True)


class Build:
    """The proved build of some programs and of all that they stand on."""

    def __init__(self, programs):
        self.programs, self.title = programs, programs[0] if len(programs) == 1 else "build"
        self.deps = crates()
        self.left = list(dict.fromkeys(it for program in programs for it in with_below(self.deps, program)))
        self.lines = {name: lines_of(name) for name in self.left}
        self.seconds = {name: self.seconds_for(name) for name in self.left}
        self.many = len(self.left)
        self.lanes = len(os.sched_getaffinity(0))
        self.running, self.done = [], []
        self.began = time.time()
        # what crates were to take on a quiet machine, and what they took: at first what the work of others lets expect
        self.foreseen, self.taken = SEEN, SEEN * (1 + os.getloadavg()[0] / self.lanes)

    def seconds_for(self, name):
        """Returns about how long the proof of a crate takes on a quiet machine, and for a program its code."""
        return FIRST + LINE * self.lines[name] + COMPILED * (name in self.programs)

    def chain(self, name, seconds):
        """Returns how long a crate and the longest chain of crates above it take, given the seconds that each takes."""
        above = [self.chain(it, seconds) for it in seconds if name in self.deps[it]]
        return seconds[name] + max(above, default=0)

    def say(self, what):
        say(self.title, what)

    def processor_minutes(self):
        """Returns about how much time of its processors a quiet machine needs for what is not begun."""
        return max(1, round(BUSY * sum(self.seconds[name] for name in self.left) / 60))

    def minutes(self, pace=None):
        """Returns about how long the rest takes, at this pace, or that of what was proved so far."""
        pace, now = pace or self.taken / self.foreseen, time.time()
        rest = {name: self.seconds[name] * pace for name in self.left}
        for it in self.running:
            whole = self.seconds[it.name] * pace
            rest[it.name] = max(whole / 10, whole - (now - it.began))
        longest = max([self.chain(name, rest) for name in rest], default=0)
        return max(1, round(max(longest, BUSY * sum(rest.values()) / self.lanes) / 60))

    def forecast(self):
        """Returns how long all of it takes on this machine while it is quiet, and the time of its processors in that."""
        return f"{self.minutes(1)} minutes of {self.lanes} quiet processors ({self.processor_minutes()} processor minutes)"

    def note_pace(self, attempt):
        """Notes how long an attempt took, unless it found most of its crate proved before."""
        took, foreseen = time.time() - attempt.began, self.seconds[attempt.name]
        if took > foreseen / 4:
            self.foreseen += foreseen
            self.taken += took

    def tell(self, what):
        """Says how far the build is, and how long the rest may take."""
        to_go = f", about {self.minutes()} min to go" if self.left or self.running else ""
        passed = (time.time() - self.began) / 60
        self.say(f"{what} ({len(self.done)} of {self.many} crates, {passed:.1f} min{to_go})")

    def ready(self):
        """Returns the crates whose libraries are built, that with the longest chain first."""
        ready = [name for name in self.left if all(dep in self.done for dep in self.deps[name])]
        return sorted(ready, key=lambda name: -self.chain(name, self.seconds))

    def has_memory(self):
        """Returns whether there is memory for one crate more, where the youngest do not have all of theirs yet."""
        young = sum(time.time() - it.began < 60 for it in self.running)
        return free_gigabytes() > GIGABYTES * (1 + young)

    def start_all(self):
        """Starts each crate that can be proved now and has a processor, one at least. That with the longest chain of others
        above it comes first and may have two processors, or all that no other waits for, where it is large enough."""
        ready = self.ready()
        for at, name in enumerate(ready):
            idle = self.lanes - sum(it.jobs for it in self.running)
            if self.running and (idle <= 0 or not self.has_memory()):
                return
            share = min(idle, max(2, idle - len(ready) + 1))
            jobs = 1 if at else max(1, min(share, self.lines[name] // WORTH))
            self.left.remove(name)
            self.running.append(Attempt(name, with_below(self.deps, name)[:-1], name in self.programs, jobs))

    def ended(self):
        """Returns the attempts that have ended since it was asked last."""
        ended = [it for it in self.running if it.session.has_ended()]
        self.running = [it for it in self.running if it not in ended]
        return ended

    def take(self, attempt):
        """Takes what an attempt made that has ended, and returns whether it built the crate."""
        name = attempt.name
        if attempt.is_built(self.began):
            self.note_pace(attempt)
            self.done.append(name)
            self.tell(f"{name} is proved")
            return True
        self.say(f"{name} is not built; the end of crates/{name}/out/build.log:")
        with open(f"{TOP}/crates/{name}/out/build.log", encoding="utf-8", errors="replace") as log:
            print(*log.readlines()[-12:], sep="", end="", file=sys.stderr, flush=True)
        return False

    def all(self):
        """Builds all, and returns whether that succeeded. After a failure those that run come to their end, and no other starts."""
        what = "program" if len(self.programs) == 1 else "programs"
        self.tell(f"proving and building the {what}, in about {self.processor_minutes()} processor minutes")
        failed = False
        try:
            while self.running or self.left and not failed:
                processes.go_on()
                if not failed:
                    self.start_all()
                failed = sum(not self.take(it) for it in self.ended()) > 0 or failed
                time.sleep(processes.POLL_SECONDS)
        finally:
            for it in self.running:
                it.clear()
        return not failed


def build(programs):
    """Proves and builds programs, and returns whether that succeeded. A second call waits for the first."""
    first = Build(programs)
    with processes.Lock(f"{TOP}/crates", lambda: first.say("waiting for another ./build to end")):
        return Build(programs).all()
