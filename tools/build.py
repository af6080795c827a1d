#!/usr/bin/env python3
"""Builds the program for ./anyk: it has `rt` prove and build it, if it is not built from the sources as they are.

usage: tools/build.py [--is-built]

It ends with status 0 if the program is built from the sources as they are, and else with status 1 and a line that says why. With
--is-built it builds nothing, and says nothing.
One call at a time builds; another one waits for it. These files are beside the program:

- anyk_cli.sums: the checksums of the sources and of the program that was built from them;
- anyk_cli.files: the names of the sources and of their folders, for tools/current.pl;
- anyk_cli.kit: the line of the kit that built it;
- anyk_cli.unfinished: a build began and did not end well, so that the program, if there is one, is not to be run;
- build.log: what the prover said;
- proved: the libraries of the crates that are proved, each with the checksum of all that it was proved from.

The sums and the program are removed before a build starts, so no older program is taken for the new one. The program's time is then
set to a time before its sources were read, and the sources are read again after the build, so no later edit is missed.

Where no crate of the checkout has a library that `rt` built for its own checks, this script calls the prover of the kit that `rt` belongs
to, once for each crate, and the kit's linker. It keeps all processors at work, goes first along the longest chain of crates, and takes again
the libraries of crates for which nothing changed. Elsewhere a developer is at work, and `rt` goes on with what its checks kept. `rt` does
so too if a part of the kit is not where it is looked for.

If the error output is a terminal, it shows how far the build is. The time that is left is estimated from the file
tools/gate_times.tsv, if it is there: a line for each crate, with its name, a tab and the seconds that its proof takes.
"""
import contextlib
import fcntl
import hashlib
import os
import re
import shutil
import signal
import subprocess
import sys
import tempfile
import time
from concurrent.futures import FIRST_COMPLETED, ThreadPoolExecutor, wait
from typing import IO, NamedTuple

TOP = os.path.dirname(os.path.dirname(os.path.realpath(__file__)))
CRATE = f"{TOP}/crates/anyk_cli"
OUT = f"{CRATE}/out"
PROGRAM = f"{OUT}/anyk_cli"
SUMS = f"{PROGRAM}.sums"
FILES = f"{PROGRAM}.files"
KIT = f"{PROGRAM}.kit"
UNFINISHED = f"{PROGRAM}.unfinished"
STAMP = f"{PROGRAM}.stamp"
LOG = f"{OUT}/build.log"
TIMES = f"{TOP}/tools/gate_times.tsv"
PARTS = ("src", "specs", "proofs")
# Where the libraries of the crates that are proved are kept.
PROVED = f"{OUT}/proved"
# What a build calls or reads of a kit: the prover, the linker, the kit's own libraries, its logic, and what it compiles and links with.
PROVER, LINKER, LIBRARIES, TOOLCHAIN = "bin/rattle", "bin/rattle-link", "rlibs", "toolchain"
LOGIC, BUILT_LOGIC, LINKED = "rattle/logic/antt-project.json", "logic_built", ("c/libos_c.a", "c/liblibc_c.a")
TARGET = "x86_64-unknown-linux-gnu"
# How the log names a crate that is done.
DONE = re.compile(r"== (\w+)$")
# How the log names a crate whose check was killed, most likely for memory.
KILLED = re.compile(r"^\S+: failed \(-9\)$", re.M)
# The memory that the proof of one crate may take, in bytes, and each further process that works at it.
MEMORY = 2_600_000_000
# How many processes work at one crate at most: with more, the parts that one of them does alone take most of the time.
SHARED = 4
# The prover's allocator gives memory that it does not need back to the system, and soon takes it again. Where it keeps all, a proof
# takes up to a tenth less time, and a twentieth more memory.
ALLOCATOR = {"MIMALLOC_PURGE_DELAY": "-1"}
# How long the progress on a terminal is shown before it is written anew, in seconds.
PAUSE = 1
# The memory that a control group may take and takes, by the two versions of their files.
GROUPS = (("/sys/fs/cgroup/memory.max", "/sys/fs/cgroup/memory.current"),
          ("/sys/fs/cgroup/memory/memory.limit_in_bytes", "/sys/fs/cgroup/memory/memory.usage_in_bytes"))


def say(text):
    print(f"anyk: {text}", file=sys.stderr, flush=True)


def text_of(file):
    """The text of a file, or an empty one if it cannot be read."""
    try:
        with open(file, encoding="utf-8", errors="surrogateescape") as it:
            return it.read()
    except OSError:
        return ""


def uses_of(text):
    """What each crate names, by the text of crates.txt: other crates, and libraries of the kit."""
    named = {}
    for row in text.split("\n"):
        words, _, uses = row.partition("#")[0].partition(":")
        if words.strip():
            named[words.split()[0]] = re.findall(r"[^\s,]+", uses)
    return named


def crates_below(name, text):
    """The crates that the crate needs, itself the last, each with those of them that it names, by the text of crates.txt."""
    named, found = uses_of(text), {}

    def visit(crate):
        if crate in named and crate not in found:
            found[crate] = None
            for it in named[crate]:
                visit(it)
            # Those below come before it.
            del found[crate]
            found[crate] = [it for it in named[crate] if it in named]

    visit(name)
    return found


def sum_of(file):
    """The checksum of a file."""
    with open(file, "rb") as it:
        return hashlib.sha256(it.read()).hexdigest()


def sources_of(crates):
    """All that the program is made from, in a fixed order: crates.txt, and the folders and files of the crates' sources."""
    folders, files = [], [f"{TOP}/crates.txt"]
    for crate in crates:
        folders.append(f"{TOP}/crates/{crate}")
        for part in PARTS:
            for at, below, names in os.walk(f"{TOP}/crates/{crate}/{part}"):
                below.sort()
                folders.append(at)
                files += [f"{at}/{name}" for name in sorted(names)]
    return folders, files


def sum_of_files(files):
    """The checksum of the names and the bytes of files of the checkout."""
    total = hashlib.sha256()
    for file in files:
        total.update(f"{os.path.relpath(file, TOP)}\0{sum_of(file)}\n".encode(errors="surrogateescape"))
    return total.hexdigest()


def sum_of_sources(crates):
    """The checksum of the names and the bytes of the sources."""
    return sum_of_files(sources_of(crates)[1])


def sum_of_crate(crate):
    """The checksum of the names and the bytes of a crate's own sources."""
    return sum_of_files(sources_of([crate])[1][1:])


def write(file, text):
    """Writes a file in one step, so that no other call meets half of it."""
    with open(f"{file}.new", "w", encoding="utf-8", errors="surrogateescape") as it:
        it.write(text)
    os.replace(f"{file}.new", file)


def mark(crates, began):
    """Lets the next calls see that the program is that of the sources as they were at a time. Its own time is set to one shortly
    before, so that what is written from then on is newer than it, by coarse clocks too."""
    folders, files = sources_of(crates)
    write(FILES, "".join(f"{os.path.relpath(it, TOP)}\n" for it in folders + files))
    os.utime(PROGRAM, ns=(began - 100_000_000,) * 2)


def is_same(crates):
    """Whether the program is the one that was built from the sources as they are, and if so marks it as that, if it can."""
    if os.path.exists(UNFINISHED):
        return False
    began = time.time_ns()
    try:
        known = text_of(SUMS).split()
        if known != [sum_of_sources(crates), sum_of(PROGRAM)]:
            return False
    except OSError:
        return False
    with contextlib.suppress(OSError):
        mark(crates, began)
    return True


def free_memory():
    """The bytes of memory that are free, or None if the system does not say."""
    free = [1024 * int(it) for it in re.findall(r"MemAvailable:\s+(\d+)", text_of("/proc/meminfo"))]
    for limit, taken in GROUPS:
        limit, taken = text_of(limit).strip(), text_of(taken).strip()
        if free and limit.isdigit() and taken.isdigit():
            free.append(int(limit) - int(taken))
    return min(free) if free else None


def at_once(processors, free):
    """How many crates to prove side by side: as many as there are processors and memory for, at least one."""
    return max(1, processors if free is None else min(processors, free // MEMORY))


def processors():
    return len(os.sched_getaffinity(0))


def shared(lanes, places, running, ready):
    """How many processes work at each of the crates that are ready, beside those that run: one, or more where processors would have
    nothing to do. Several take more processor time than one."""
    return max(1, min((lanes - running) // ready, SHARED, places - running))


def times_of(text):
    """The seconds that the proof of each crate takes, by the lines of a table that have the form of one."""
    times = {}
    for row in text.split("\n"):
        fields = row.split("\t")
        with contextlib.suppress(ValueError, IndexError):
            times[fields[0].strip()] = float(fields[1])
    return times


def seconds_of(crates, times):
    """The seconds that each crate takes by the table. One that the table lacks is taken for a usual one."""
    known = [times[it] for it in crates if it in times]
    return {it: times.get(it, sum(known) / len(known) if known else 1) for it in crates}


def work_left(crates, done, jobs, times):
    """The seconds that the crates which are left take by the table: all of them over the jobs, but at least the longest chain of
    crates."""
    seconds, chain = seconds_of(crates, times), {}
    for crate in crates:
        if crate not in done:
            chain[crate] = seconds[crate] + max([chain.get(it, 0) for it in crates[crate]], default=0)
    return max(sum(seconds[it] for it in chain) / jobs, max(chain.values(), default=0))


def chains_of(crates, times):
    """The seconds that the longest chain of crates takes which begins with each crate, of which each waits for the one before."""
    seconds, chains = seconds_of(crates, times), {}
    for crate in reversed([*crates]):
        chains[crate] = seconds[crate] + max([chains[it] for it in chains if crate in crates[it]], default=0)
    return chains


def seconds_left(crates, done, jobs, passed, times):
    """An estimate of the seconds that are left, or None: by the table, and by how fast this machine got on by it so far, or, if
    there is no table, by the crates that are done."""
    if not times.keys() & crates.keys():
        return passed * (len(crates) - len(done)) / len(done) if len(done) >= 3 else None
    whole, left = work_left(crates, set(), jobs, times), work_left(crates, done, jobs, times)
    # A small part says little, and crates that were proved before take no time.
    pace = passed / (whole - left) if whole - left > whole / 10 else 1
    return left * min(max(pace, 0.2), 10)


def minutes(seconds):
    return f"{round(seconds / 60)} min" if seconds >= 60 else "under a minute"


class Progress:
    """How far a build is, on a terminal: one line, written again and again."""

    def __init__(self, crates, jobs):
        self.crates, self.jobs, self.times = crates, jobs, times_of(text_of(TIMES))
        self.began, self.done, self.at, self.rest, self.width = time.monotonic(), set(), 0, "", 0
        self.is_shown = sys.stderr.isatty()

    def read(self):
        """Takes in what `rt` wrote since: it names a crate when it is done."""
        with contextlib.suppress(OSError), open(LOG, encoding="utf-8", errors="replace") as log:
            log.seek(self.at)
            rows = (self.rest + log.read()).split("\n")
            self.at, self.rest = log.tell(), rows.pop()
            done = [it[1] for it in map(DONE.match, rows) if it]
            self.done.update(it for it in done if it in self.crates)

    def show(self):
        if not self.is_shown:
            return
        self.read()
        passed = time.monotonic() - self.began
        left = seconds_left(self.crates, self.done, self.jobs, passed, self.times)
        text = f"anyk: {len(self.done)} of {len(self.crates)} crates proved, {minutes(passed)} so far"
        if len(self.done) == len(self.crates):
            text += ", and now the program"
        elif left is not None:
            text += f", {'about ' if left >= 60 else ''}{minutes(left)} left"
        with contextlib.suppress(OSError):
            # A line that is broken could not be written over. A terminal may say that it has no columns.
            text = text[: (os.get_terminal_size(2).columns or 1000) - 1]
        print("\r" + text.ljust(self.width), end="", file=sys.stderr, flush=True)
        self.width = len(text)

    def end(self):
        if self.is_shown:
            print("\r" + " " * self.width, end="\r", file=sys.stderr, flush=True)


def start(words, where, log, lock):
    """Starts a command in a folder, its output in a file. It holds the lock as long as it runs."""
    how = {"cwd": where, "env": {**ALLOCATOR, **os.environ}, "stdin": subprocess.DEVNULL, "stdout": log, "stderr": log}
    return subprocess.Popen(words, pass_fds=[lock] if lock is not None else [], **how)


def run(words, where, progress, lock):
    """Runs a command in a folder, its output in the log, and returns its status."""
    with open(LOG, "ab") as log:
        ran = start(words, where, log, lock)
        try:
            while progress.is_shown:
                with contextlib.suppress(subprocess.TimeoutExpired):
                    ran.wait(PAUSE)
                    break
                progress.show()
            return ran.wait()
        finally:
            if ran.poll() is None:
                ran.terminate()
                ran.wait()


def why_not(text):
    """The lines of the log that say why there is no program: of the first crate that is not proved, or else the last ones."""
    before, _, summary = text.rpartition("== summary\n")
    failed = re.search(r"(?m)^(\S+): failed ", summary) if before else re.search(r"(?m)^anyk: (\S+) is not proved$", text)
    before = before or text
    if failed and not KILLED.search(summary):
        said = re.split(r"(?m)^== .*\n", before.partition(f"== {failed[1]}\n")[2])[0].splitlines()
        return [f"== {failed[1]}", *said[-20:]]
    return text.splitlines()[-20:]


def allow_as_sources():
    """Lets whoever may read the sources run the program, whatever the umask of this call is."""
    for made, like in ((OUT, CRATE), (PROGRAM, f"{TOP}/anyk"), (SUMS, f"{TOP}/crates.txt"), (FILES, f"{TOP}/crates.txt"), (KIT, f"{TOP}/crates.txt")):
        with contextlib.suppress(OSError):
            os.chmod(made, os.stat(made).st_mode & 0o7777 | os.stat(like).st_mode & 0o555)


def is_untouched(crates):
    """Whether no crate has a library that `rt` built for a developer's checks."""
    return not any(os.path.exists(f"{TOP}/crates/{it}/out/rlib/stamp") for it in crates)


def kit_of_rt():
    """The folder of the kit that `rt` belongs to, or None if not all that a build needs of it is there."""
    kit = os.path.dirname(os.path.dirname(os.path.realpath(shutil.which("rt"))))
    needed = (PROVER, LINKER, LIBRARIES, TOOLCHAIN, LOGIC, BUILT_LOGIC, *LINKED)
    return kit if all(os.path.exists(f"{kit}/{it}") for it in needed) else None


def line_of_kit():
    """The line by which `rt` names its kit, or an empty text."""
    named = subprocess.run(["rt", "version"], stdin=subprocess.DEVNULL, stdout=subprocess.PIPE, stderr=subprocess.DEVNULL)
    return named.stdout.decode(errors="replace") if named.returncode == 0 else ""


def tell(crate, said):
    """Writes what was said of a crate to the log."""
    with open(LOG, "a", encoding="utf-8", errors="replace") as log:
        log.write(f"== {crate}\n{said}")


def stamps_of(sums, uses, kit):
    """A checksum of all that each crate is proved from, by the checksums of the crates' own sources: these, the kit, and what it uses."""
    prover, stamps = os.stat(f"{kit}/{PROVER}"), {}
    for crate, own in sums.items():
        named = [stamps.get(it, it) for it in uses[crate]]
        text = f"{kit} {prover.st_size} {prover.st_mtime_ns} {own} {named}"
        stamps[crate] = hashlib.sha256(text.encode(errors="surrogateescape")).hexdigest()
    return stamps


def is_proved(crate, stamp):
    """Whether the crate's library is kept, and was proved from what is there now."""
    return os.path.isdir(f"{PROVED}/{crate}.rlib") and text_of(f"{PROVED}/{crate}.stamp") == stamp


def words_for(crate, crates, uses, kit):
    """What the prover is called with for a crate: a library is proved and written, and the program is proved and compiled."""
    is_program = crate == os.path.basename(CRATE)
    words = ["build", "--crate-name", crate, f"src/{'main' if is_program else 'lib'}.rt", "--links", f"{crate}="]
    for it in dict.fromkeys(["std", *uses[crate]]):
        words += ["--extern", f"{it}={PROVED if it in crates else f'{kit}/{LIBRARIES}'}/{it}.rlib"]
    words += ["-L", f"dependency={kit}/{LIBRARIES}", "-L", f"dependency={PROVED}"]
    words += ["--antt-project", f"{kit}/{LOGIC}", "--logic-built", f"{kit}/{BUILT_LOGIC}"]
    if is_program:
        return [*words, "--toolchain", f"{kit}/{TOOLCHAIN}", "-o", f"{PROGRAM}.o"]
    # The crates above need its statements, and not its proofs.
    return [*words, "--statements", "-o", f"{PROVED}/{crate}.rlib"]


class Proof(NamedTuple):
    """The proof of a crate, as it runs: the process, how many of them work at it, and the file that gets what it says."""
    process: subprocess.Popen
    jobs: int
    log: IO


class Proofs:
    """The proofs of all crates, of which several run side by side."""

    def __init__(self, crates, kit, lanes, places, lock):
        """`lanes` is how many crates are proved at once, and `places` how many processes there is memory for."""
        self.crates, self.kit, self.lanes, self.places, self.lock = crates, kit, lanes, max(places, lanes), lock
        self.uses, times = uses_of(text_of(f"{TOP}/crates.txt")), times_of(text_of(TIMES))
        self.sums = {it: sum_of_crate(it) for it in crates}
        self.stamps = stamps_of(self.sums, self.uses, kit)
        self.seconds, self.chains = seconds_of(crates, times), chains_of(crates, times)
        self.done = {it for it in crates if is_proved(it, self.stamps[it])}
        self.left = sorted((it for it in crates if it not in self.done), key=lambda it: -self.chains[it])
        # What runs, by crate, and the crates whose check was killed once.
        self.running, self.killed = {}, set()
        for it in self.done:
            tell(it, "anyk: it was proved before\n")

    def jobs(self):
        """How many processes work at the crates whose proofs run."""
        return sum(it.jobs for it in self.running.values())

    def waits(self, crate):
        """Whether a crate has to wait though the crates that it uses are proved: for a processor, or, if its check or one that runs was
        killed before, until nothing else runs."""
        is_alone = crate in self.killed or not self.killed.isdisjoint(self.running)
        return self.jobs() >= self.lanes or is_alone and bool(self.running)

    def share(self, crate, ready):
        """How many processes work at a crate that begins now, where `ready` is how many could begin: one, if a crate that is left has a
        longer chain behind it and will want the processors sooner."""
        is_next = all(self.chains[it] <= self.chains[crate] for it in self.left)
        return shared(self.lanes, self.places, self.jobs(), ready) if is_next and crate not in self.killed else 1

    def begin(self):
        """Begins the proofs that can begin, first that with the longest chain behind it."""
        ready = [it for it in self.left if self.done.issuperset(self.crates[it])]
        for at, crate in enumerate(ready):
            if self.waits(crate):
                continue
            self.left.remove(crate)
            jobs, log = self.share(crate, len(ready) - at), tempfile.TemporaryFile("w+", errors="replace")
            words = words_for(crate, self.crates, self.uses, self.kit)
            with contextlib.suppress(FileNotFoundError):
                os.remove(f"{PROVED}/{crate}.stamp")
            process = start([f"{self.kit}/{PROVER}", *words, "--jobs", str(jobs)], f"{TOP}/crates/{crate}", log, self.lock)
            self.running[crate] = Proof(process, jobs, log)

    def end(self, crate):
        """Takes in that a proof ended, and returns whether all is well so far."""
        proof = self.running.pop(crate)
        status = proof.process.wait()
        with proof.log as log:
            log.seek(0)
            said = log.read()
        if status == -signal.SIGKILL and crate not in self.killed:
            # Most likely for memory.
            self.killed.add(crate)
            self.left.append(crate)
            return True
        tell(crate, said if status == 0 else f"{said}anyk: {crate} is not proved\n")
        # What was changed meanwhile may not be what was proved.
        if status == 0 and sum_of_crate(crate) == self.sums[crate]:
            self.done.add(crate)
            write(f"{PROVED}/{crate}.stamp", self.stamps[crate])
        return crate in self.done

    def run(self, progress):
        """Proves all, and returns whether that went well."""
        is_well, waiting = True, {}
        with ThreadPoolExecutor(self.lanes) as pool:
            try:
                while is_well and (self.left or self.running):
                    self.begin()
                    waiting.update({pool.submit(it.process.wait): crate for crate, it in self.running.items() if crate not in waiting.values()})
                    ended = wait(waiting, timeout=PAUSE, return_when=FIRST_COMPLETED).done
                    is_well = all([self.end(waiting.pop(it)) for it in ended])
                    progress.show()
            finally:
                for it in self.running.values():
                    it.process.kill()
        return is_well


def prove_apart(crates, kit, lanes, places, progress, lock):
    """Has the kit's prover prove the crates side by side, links the program, and returns whether that went well."""
    os.makedirs(PROVED, exist_ok=True)
    try:
        if not Proofs(crates, kit, lanes, places, lock).run(progress):
            return False
        words = [f"{kit}/{LINKER}", "--target", TARGET, "--toolchain", f"{kit}/{TOOLCHAIN}", "-o", PROGRAM, f"{PROGRAM}.o"]
        return run([*words, *[f"{kit}/{it}" for it in LINKED]], OUT, progress, lock) == 0 and os.path.isfile(PROGRAM)
    finally:
        with contextlib.suppress(FileNotFoundError):
            os.remove(f"{PROGRAM}.o")


def prove_here(jobs, progress, lock):
    """Has `rt` prove the crates here, over what earlier checks kept, and build the program, and returns whether that went well."""
    status = run(["rt", "all", "check", "--jobs", str(jobs)], CRATE, progress, lock)
    # A check that was killed is tried again by the next command, which does one at a time.
    if status == 0 or KILLED.search(text_of(LOG)):
        # Without arguments the program says only its usage. `rt` writes the stamp once the program is proved and linked.
        run(["rt", "run", "--"], CRATE, progress, lock)
    return os.path.isfile(STAMP) and os.path.isfile(PROGRAM)


def build(crates, lock):
    """Has `rt` prove the crates side by side and build the program, and returns whether that went well."""
    for crate in crates:
        # Now, so that no folder of the sources changes in the build.
        os.makedirs(f"{TOP}/crates/{crate}/out", exist_ok=True)
    open(UNFINISHED, "w").close()
    for it in (SUMS, FILES, KIT, STAMP, PROGRAM):
        with contextlib.suppress(FileNotFoundError):
            os.remove(it)
    began, sources = time.time_ns(), sum_of_sources(crates)
    open(LOG, "w").close()
    say(f"the program is proved and built first, which takes a while (the progress is in {LOG})")
    free = free_memory()
    jobs, kit = at_once(processors(), free), kit_of_rt() if is_untouched(crates) else None
    progress = Progress(crates, jobs)
    try:
        if kit:
            proves = prove_apart(crates, kit, jobs, at_once(jobs * SHARED, free), progress, lock)
        else:
            proves = prove_here(jobs, progress, lock)
    finally:
        progress.end()
    if sum_of_sources(crates) != sources:
        say("the program was not built, since a source was changed meanwhile: call again")
        return False
    if not proves:
        print(*why_not(text_of(LOG)), sep="\n", file=sys.stderr)
        say(f"the program was not built (all that was said is in {LOG})")
        return False
    write(SUMS, f"{sources}\n{sum_of(PROGRAM)}\n")
    write(KIT, line_of_kit())
    mark(crates, began)
    allow_as_sources()
    os.remove(UNFINISHED)
    if progress.is_shown:
        say(f"the program is proved and built, in {minutes(time.monotonic() - progress.began)}")
    return True


def locked():
    """Waits until no other call builds, and returns what keeps others out while this process or `rt` holds it, or None if the
    file system has no locks."""
    held = os.open(f"{TOP}/crates", os.O_RDONLY)
    try:
        fcntl.flock(held, fcntl.LOCK_EX | fcntl.LOCK_NB)
    except BlockingIOError:
        say("another call builds the program: this one waits for it")
        fcntl.flock(held, fcntl.LOCK_EX)
    except OSError:
        return None
    return held


def cannot_be_written(crates):
    """A folder of those that a build writes into that cannot be written, or None."""
    for crate in crates:
        for it in (f"{TOP}/crates/{crate}/out", f"{TOP}/crates/{crate}"):
            if os.path.isdir(it):
                if not os.access(it, os.W_OK | os.X_OK):
                    return it
                break
    return None


def why_no_build(crates):
    """Why no build is begun, or None."""
    if not shutil.which("rt"):
        return "rt, which builds it, is not found"
    folder = cannot_be_written(crates)
    return f"{folder} cannot be written" if folder else None


def refuse(why):
    state = "is not built from the sources as they are" if os.path.lexists(PROGRAM) else "is not built yet"
    say(f"the program {state}, and {why}")
    return 1


def main(may_build):
    crates = crates_below("anyk_cli", text_of(f"{TOP}/crates.txt"))
    if not may_build:
        return 0 if crates and is_same(crates) else 1
    if not crates:
        return refuse(f"{TOP}/crates.txt does not name it")
    if is_same(crates):
        return 0
    if os.path.isfile(PROGRAM) and not os.access(PROGRAM, os.R_OK):
        say(f"the program is built, but this user may not run it ({PROGRAM})")
        return 1
    if os.environ.get("ANYK_NO_BUILD"):
        return refuse("ANYK_NO_BUILD forbids to build it")
    lock = locked()
    if is_same(crates):
        return 0
    why = why_no_build(crates)
    if why:
        return refuse(why)
    return 0 if build(crates, lock) else 1


def open_error():
    """Puts another error output in place of one that is closed, or if the shell has left a file of its own, only to be read."""
    try:
        is_open = fcntl.fcntl(2, fcntl.F_GETFL) & os.O_ACCMODE != os.O_RDONLY
    except OSError:
        is_open = False
    if not is_open:
        os.dup2(os.open(os.devnull, os.O_WRONLY), 2)
        sys.stderr = open(2, "w", encoding="utf-8", closefd=False)


def stop(*_):
    # What is running is ended on the way out.
    sys.exit(1)


if __name__ == "__main__":
    open_error()
    if sys.argv[1:] in (["-h"], ["--help"]):
        print(__doc__.strip())
        sys.exit()
    if sys.argv[1:] not in ([], ["--is-built"]):
        say(f"tools/build.py takes no argument but --is-built, and here are others: {' '.join(sys.argv[1:])}")
        sys.exit(1)
    signal.signal(signal.SIGTERM, stop)
    signal.signal(signal.SIGHUP, stop)
    try:
        sys.exit(main(may_build=not sys.argv[1:]))
    except KeyboardInterrupt:
        say("the build was interrupted, and the next call begins it again")
        sys.exit(1)
    except OSError as error:
        say(f"the program was not built: {error.filename or 'a file'}: {error.strerror}")
        sys.exit(1)
