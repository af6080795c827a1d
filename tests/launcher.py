#!/usr/bin/env python3
"""Tries the launcher ./anyk, its hints, its pictures and what it installs, over stand-ins for `rt` and for the program.

usage: tests/launcher.py [TEST ..]

All tests are run if none is named; other arguments are ignored. Each test has a small checkout of its own, with the launcher,
tools/ and man/ of this one, a few crates, an environment of its own, and on the PATH a script `rt` that writes what the real one writes.
What only some machines allow, as a file system that is mounted noexec, is passed over elsewhere. What the hints say is tried by
tests/hints.py.
"""
import ast
import fcntl
import glob
import gzip
import importlib.util
import os
import pty
import re
import shutil
import signal
import stat
import struct
import subprocess
import sys
import tempfile
import termios
import time
from concurrent.futures import ThreadPoolExecutor
from hashlib import sha256

from arguments import arguments
from preloaded import Skipped

TOP = os.path.dirname(os.path.dirname(os.path.abspath(__file__)))
USER_PAGES = ("TUTORIAL.md", "REFERENCE.md", "COOKBOOK.md", "MESSAGES.md", "SECURITY.md")
NOBODY = 65534
SYSTEM = "/usr/bin:/bin"
# What the launcher and the stand-in for the program call, and what it calls besides for the program of release/.
NEEDED = ("bash", "env", "find", "perl", "readlink", "cat", "sh")
UNPACKING = ("uname", "mkdir", "sort", "xargs", "sha256sum", "gzip", "mktemp", "chmod", "touch", "mv", "rm")
CRATES = "# A small house.\nlow:\nmiddle: low\nanyk_cli: low middle std\nother_tests: low\n"

# What the stand-ins share.
COMMON = """#!/bin/sh
[ "$1" != version ] || { echo "$(cat "$RT_ROOM/kit line")"; exit 0; }
broken() { grep -q BROKEN ../"$1"/src/*.rt; }
link() {
    [ ! -f "$RT_ROOM/linkless" ] || { echo 'error: linking failed'; exit 1; }
    sed "s/VERSION/$(sed -n 's/version //p' ../src/main.rt)/" "$RT_ROOM/program" > anyk_cli
    chmod +x anyk_cli
    [ ! -f "$RT_ROOM/edits" ] || echo 'version 99' > "$RT_ROOM/a house/crates/anyk_cli/src/main.rt"
}
hold() { while [ -f "$RT_ROOM/hold-$1" ]; do sleep 0.05; done; }
"""

RT = COMMON + """# Stands in for rt: proves nothing, and builds a script.
echo "rt $*" >> "$RT_ROOM/calls"
echo "${MIMALLOC_PURGE_DELAY-nothing}" > "$RT_ROOM/delay"
case "$1 $2" in
'all check')
    state=ok
    for crate in low middle anyk_cli; do
        hold $crate
        echo "== $crate"
        if [ "$state" != ok ]; then continue; fi
        if broken $crate; then
            echo 'src/lib.rt:3:5: error[E]: what is broken'; state="failed (1)"; at=$crate
        elif [ -f "$RT_ROOM/killed" ]; then
            echo '17 of 48 functions'; state="failed (-9)"; at=$crate
        else
            echo '48 of 48 functions'; echo 'logic=proved functions=48'
        fi
    done
    echo '== summary'
    if [ "$state" = ok ]; then printf '%s: ok\\n' low middle anyk_cli; echo '3 of 3 crates ok'; exit 0; fi
    echo "$at: $state"; echo 'anyk_cli: not run, since one failed'; echo '0 of 3 crates ok'
    exit 1 ;;
'run --')
    for crate in low middle anyk_cli; do
        if broken $crate; then
            # The stamp of an earlier build stays, as rt leaves it.
            echo "rt: the library $crate did not build, so nothing above it was checked"; exit 1
        fi
    done
    mkdir -p out
    cd out
    rm -f anyk_cli.stamp
    link
    echo stamp > anyk_cli.stamp
    ./anyk_cli
    exit 2 ;;
'ci ')
    [ ! -f "$RT_ROOM/ci fails" ] || exit 7
    mkdir -p crates/anyk_cli/out
    cd crates/anyk_cli/out
    rm -f anyk_cli
    link ;;
*) echo 'rt: what is this?'; exit 2 ;;
esac
"""

PROVER = COMMON + """# Stands in for the prover: proves nothing, and writes an empty library or an empty object file.
crate=$3
echo "prove $crate" >> "$RT_ROOM/calls"
echo "$*" > "$RT_ROOM/words-$crate"
echo "${MIMALLOC_PURGE_DELAY-nothing}" > "$RT_ROOM/delay"
[ "$1 $2" = 'build --crate-name' ] && [ -f "$4" ] && [ "$(basename "$(pwd)")" = "$crate" ] || { echo 'error: what is this?'; exit 2; }
made= before=
for word in "$@"; do
    case $before in
    --extern) [ -d "${word#*=}" ] || { echo "error: there is no library $word"; exit 2; } ;;
    --logic-built|--toolchain) [ -d "$word" ] || { echo "error: there is no $word"; exit 2; } ;;
    -o) made=$word ;;
    esac
    before=$word
done
hold $crate
if [ -f "$RT_ROOM/killed" ]; then
    rm "$RT_ROOM/killed"
    kill -9 $$
fi
if broken $crate; then echo 'src/lib.rt:3:5: error[E]: what is broken'; exit 1; fi
[ ! -f "$RT_ROOM/moves" ] || echo '//! Another text.' > src/lib.rt
case $made in *.o) : > "$made" ;; *) mkdir -p "$made" ;; esac
echo 'logic=proved functions=48'
"""

LINKER = COMMON + """# Stands in for the linker.
echo link >> "$RT_ROOM/calls"
[ "$1 $3 $5 $6" = '--target --toolchain -o '"$(pwd)/anyk_cli" ] && [ -f "$7" ] && [ -f "$8" ] && [ -f "$9" ] || { echo 'error: what is this?'; exit 2; }
link
"""

PROGRAM = """#!/bin/sh
# Stands in for the program: VERSION.
if [ -n "${SAYS-}" ] && [ "$*" != 'load --number 1 --rows 1' ]; then
    printf 'anyk: %s\\n' "$SAYS" >&2
    exit "$STATUS"
fi
[ $# -gt 0 ] || { echo 'anyk: usage' >&2; exit 2; }
if [ -n "${REPORT-}" ]; then
    printf '<%s>' "$@" > "$RT_ROOM/words"
    cat "$REPORT"
    exit
fi
[ "$1" != input ] || cat
[ "$1" != signal ] || kill -TERM $$
[ "$1" != untold ] || exit 16
[ "$1" != wait ] || { echo waiting; sleep 30; }
[ "$1" != stay ] || { echo $$ > "$RT_ROOM/stays"; exec sleep 600; }
echo "VERSION in $(pwd) with ${GLIBC_TUNABLES-nothing}"
printf '<%s>' "$@"
echo
"""


class Failed(Exception):
    pass


def check(holds, *said):
    if not holds:
        raise Failed(" ".join(map(str, said)) or "it does not hold")


def same(got, wanted):
    check(got == wanted, f"\n  got:    {got!r}\n  wanted: {wanted!r}")


def has(text, *parts):
    for part in parts:
        check(part in text, f"\n  {part!r}\n  is not in\n{text}")


def write(file, text):
    os.makedirs(os.path.dirname(file), exist_ok=True)
    with open(file, "w", encoding="utf-8", errors="surrogateescape") as it:
        it.write(text)


def read(file):
    with open(file, encoding="utf-8") as it:
        return it.read()


class House:
    """A checkout with a stand-in for rt."""

    def __init__(self):
        self.room = tempfile.mkdtemp(prefix="anyk-launcher-")
        os.chmod(self.room, 0o755)
        self.top = f"{self.room}/a house"
        os.makedirs(f"{self.top}/docs")
        for it in ("anyk", "VERSION", "LICENSE", *(f"docs/{it}" for it in USER_PAGES)):
            shutil.copy(f"{TOP}/{it}", f"{self.top}/{it}")
        for it in ("tools", "man", "docs/using"):
            shutil.copytree(f"{TOP}/{it}", f"{self.top}/{it}", ignore=shutil.ignore_patterns("__pycache__"))
        write(f"{self.top}/crates.txt", CRATES)
        write(f"{self.top}/HANDLES", "Handles allowed: none.\n")
        for crate in ("low", "middle", "other_tests"):
            self.source(crate, "src/lib.rt", "//! A crate.\n")
            self.source(crate, "proofs/one/Proof.antt", "proof\n")
        self.source("low", "specs/Lib.antt", "spec\n")
        self.source("low", "must-fail/wrong.edit", "an edit\n")
        self.source("anyk_cli", "src/main.rt", "version 1\n")
        self.kit = f"{self.room}/kit"
        for name, text in (("rt", RT), ("rattle", PROVER), ("rattle-link", LINKER)):
            write(f"{self.kit}/bin/{name}", text)
            os.chmod(f"{self.kit}/bin/{name}", 0o755)
        for name in ("rattle/logic/antt-project.json", "c/libos_c.a", "c/liblibc_c.a"):
            write(f"{self.kit}/{name}", "")
        for name in ("rlibs/std.rlib", "logic_built", "toolchain"):
            os.makedirs(f"{self.kit}/{name}")
        os.makedirs(f"{self.room}/bin")
        os.symlink("../kit/bin/rt", f"{self.room}/bin/rt")
        write(f"{self.room}/program", PROGRAM)
        write(f"{self.room}/kit line", "a kit of tests\n")
        self.out = f"{self.top}/crates/anyk_cli/out"
        self.program = f"{self.out}/anyk_cli"
        self.proved = f"{self.out}/proved"
        path = SYSTEM if shutil.which("python3", path=SYSTEM) else os.environ["PATH"]
        self.home, self.temporary = f"{self.room}/home", f"{self.room}/temporary"
        for it in (self.home, self.temporary):
            os.mkdir(it)
        self.env = {"PATH": f"{self.room}/bin:{path}", "RT_ROOM": self.room, "HOME": self.home, "TMPDIR": self.temporary, "TERM": "dumb", "LANG": "C"}

    def source(self, crate, file, text):
        write(f"{self.top}/crates/{crate}/{file}", text)

    def version(self, number):
        self.source("anyk_cli", "src/main.rt", f"version {number}\n")

    def how(self, more=None, **how):
        env = {it: value for it, value in {**self.env, **(more or {})}.items() if value is not None}
        return {"cwd": self.top, "env": env, "stdin": subprocess.DEVNULL, **how}

    def call(self, *words, more=None, by=None, **how):
        """The status, the output and the error output of a call of the launcher, none of them a terminal."""
        how = self.how(more, **{"stdout": subprocess.PIPE, "stderr": subprocess.PIPE, "timeout": 50, **how})
        ran = subprocess.run([*(by or [f"{self.top}/anyk"]), *words], **how)
        return ran.returncode, (ran.stdout or b"").decode(errors="surrogateescape"), (ran.stderr or b"").decode(errors="surrogateescape")

    def start(self, *words, more=None, **how):
        how = self.how(more, **{"stdout": subprocess.PIPE, "stderr": subprocess.PIPE, "start_new_session": True, **how})
        return subprocess.Popen([f"{self.top}/anyk", *words], **how)

    def developed(self):
        """A checkout in which a developer's check has built a library."""
        self.source("low", "out/rlib/stamp", "stamp\n")
        return self

    def hold(self, crate):
        """Lets rt wait before a crate."""
        write(f"{self.room}/hold-{crate}", "")

    def go(self, crate):
        """Lets rt go on with a crate that it waits before."""
        if os.path.exists(f"{self.room}/hold-{crate}"):
            os.remove(f"{self.room}/hold-{crate}")

    def on_terminal(self, *words, more=None, by=None, after=None, watch=None, columns=0, **how):
        """The same, with a terminal for the error output. `after` is called with what was started, and `watch` with what was written
        so far."""
        master, slave = pty.openpty()
        fcntl.ioctl(slave, termios.TIOCSWINSZ, struct.pack("4H", 24, columns, 0, 0))
        mode = termios.tcgetattr(slave)
        mode[1] &= ~termios.OPOST
        termios.tcsetattr(slave, termios.TCSANOW, mode)
        how = self.how(more, **{"stdout": subprocess.PIPE, **how})
        ran = subprocess.Popen([*(by or [f"{self.top}/anyk"]), *words], stderr=slave, start_new_session=bool(after), **how)
        os.close(slave)
        said = b""
        if after:
            after(ran)
        while True:
            try:
                piece = os.read(master, 65536)
            except OSError:
                piece = b""
            if not piece:
                break
            said += piece
            if watch:
                watch(said.decode(errors="replace"))
        os.close(master)
        output = ran.communicate(timeout=50)[0] or b""
        return ran.returncode, output.decode(), said.decode(errors="surrogateescape")

    def calls(self):
        """What was called to build since the last time."""
        file = f"{self.room}/calls"
        if not os.path.exists(file):
            return []
        calls = read(file).splitlines()
        os.remove(file)
        return calls

    def links(self):
        """How often the program was linked since the last time."""
        return self.calls().count("link")

    def digest(self):
        """The digest of the sources, as the pages define it."""
        parts = [f"{self.top}/crates/{it}/{part}" for it in os.listdir(f"{self.top}/crates") for part in ("src", "specs", "proofs")]
        files = ["crates.txt", *(os.path.relpath(f"{at}/{it}", self.top) for part in parts for at, _, names in os.walk(part) for it in names)]
        lines = (f"{sha256(open(f'{self.top}/{it}', 'rb').read()).hexdigest()}  {it}\n" for it in sorted(files))
        return sha256("".join(lines).encode()).hexdigest()

    def released(self, version="release", text=PROGRAM, **facts):
        """Puts a program into release/ that was built from the sources as they are."""
        program = text.replace("VERSION", version).encode()
        os.makedirs(f"{self.top}/release", exist_ok=True)
        with open(f"{self.top}/release/anyk.gz", "wb") as it:
            it.write(gzip.compress(program))
        facts = {"version": "1.0.0", "sources": self.digest(), "program": sha256(program).hexdigest(), "kit": "a kit of tests", **facts}
        write(f"{self.top}/release/manifest", "".join(f"{it} {value}\n" for it, value in facts.items()))
        return self

    def built(self, version=1):
        """Builds a version, by a first call."""
        self.version(version)
        time.sleep(0.1)
        same(self.call("word")[0], 0)
        check(self.calls(), "rt was not called")
        return self

    def end(self):
        # What a failed test started may go on for a moment.
        for _ in range(20):
            shutil.rmtree(self.room, ignore_errors=True)
            if not os.path.exists(self.room):
                return
            time.sleep(0.1)


def as_nobody(house):
    """What runs a command as a user who does not own the checkout."""
    if os.geteuid() != 0:
        raise Skipped("only root can call as another user")
    other = {"user": NOBODY, "group": NOBODY, "extra_groups": []}
    for tried in (["cat", f"{house.top}/anyk"], ["python3", "-ISc", ""]):
        if subprocess.run(tried, **house.how(capture_output=True, **other)).returncode:
            raise Skipped(f"another user cannot run {tried[0]} here")
    return other


# What the launcher sets for the C library.
TUNABLES = ("glibc.malloc.hugetlb=1:glibc.malloc.mmap_threshold=1073741824:glibc.malloc.trim_threshold=4294967296:"
            "glibc.malloc.top_pad=16777216")


def ran(version, where, words, tunables=TUNABLES):
    """What the stand-in for the program prints."""
    return f"{version} in {where} with {tunables}\n{''.join(f'<{it}>' for it in words)}\n"


def test_first_call(house):
    status, output, error = house.call("one", "two")
    same((status, output), (0, ran(1, house.top, ["one", "two"])))
    same(error, f"anyk: the program is proved and built first, which takes a while (the progress is in {house.out}/build.log)\n")
    same(house.calls(), ["prove low", "prove middle", "prove anyk_cli", "link"])
    same(sorted(os.listdir(house.proved)), ["anyk_cli.stamp", "low.rlib", "low.stamp", "middle.rlib", "middle.stamp"])
    same([it for it in os.listdir(house.out) if it.endswith(".o")], [])
    # A library is kept for the crates above by its statements, and the program is compiled.
    has(read(f"{house.room}/words-middle"), f" --extern low={house.proved}/low.rlib ", " --statements -o ")
    has(read(f"{house.room}/words-anyk_cli"), f" --extern std={house.kit}/rlibs/std.rlib ", " --toolchain ")
    same(house.call("one")[1:], (ran(1, house.top, ["one"]), ""))
    same(house.calls(), [])


def by_rt(house):
    """A call that has rt build the program."""
    same(house.call("one")[:2], (0, ran(1, house.top, ["one"])))
    first, second = house.calls()
    check(re.fullmatch("rt all check --jobs [1-9][0-9]*", first), first)
    same(second, "rt run --")
    check(int(first.split()[-1]) <= len(os.sched_getaffinity(0)), first)
    house.source("low", "src/lib.rt", "BROKEN\n")
    refuses_old(house, "== low\nsrc/lib.rt:3:5: error[E]: what is broken\n", "anyk: the program was not built")


ANSWERED = "anyk: answered by the program of release/, built from these sources; ./anyk build proves and builds it here\n"


def answers_by(house, version, *words, **how):
    """A call that is answered by this version, and builds nothing."""
    status, output, error = house.call(*words, "x", **how)
    same((status, output, error), (0, ran(version, how.get("cwd", house.top), [*words, "x"]), ""))
    same(house.calls(), [])


def builds_anew(house, version=1, said=""):
    """A call that proves and builds, and is answered by what was built, though there is a release."""
    status, output, error = house.call("x")
    same((status, output), (0, ran(version, house.top, ["x"])))
    has(error, said + "anyk: the program is proved and built first")
    same(house.links(), 1)


def test_release(house):
    house.released()
    # It needs neither rt nor python3.
    few = few_commands(house, *NEEDED, *UNPACKING)
    answers_by(house, "release", more=few)
    same(sorted(os.listdir(f"{house.out}/release")), ["anyk_cli", "anyk_cli.files"])
    same(stat.S_IMODE(os.stat(f"{house.out}/release/anyk_cli").st_mode), 0o755)
    # Later calls look at times alone, by perl, if no source is as new as the last look at all of them.
    time.sleep(2.1)
    answers_by(house, "release", more=few)
    answers_by(house, "release", more=few_commands(house, *NEEDED))
    # It is seen to be the same after a source was touched, and without perl each time.
    os.utime(f"{house.top}/crates/low/src/lib.rt")
    for names in ((*NEEDED, *UNPACKING), [it for it in (*NEEDED, *UNPACKING) if it != "perl"]):
        answers_by(house, "release", more=few_commands(house, *names))
    answers_by(house, "release", "a b", cwd="/")
    answers_by(house, "release", more={"ANYK_NO_BUILD": "1"})


def test_release_is_told_once(house):
    house.released()
    wanted = (0, ran("release", house.top, ["x"]))
    same(house.on_terminal("x"), (*wanted, ANSWERED))
    same(house.on_terminal("x"), (*wanted, ""))
    shutil.rmtree(f"{house.out}/release")
    same(house.call("x"), (*wanted, ""))
    same(house.on_terminal("x"), (*wanted, ""))


def test_release_of_other_sources(house):
    for crate, file, text in (("low", "src/lib.rt", "//! Another text.\n"), ("low", "proofs/one/Proof.antt", "another proof\n"), ("middle", "specs/New.antt", "a spec\n")):
        house.released()
        answers_by(house, "release")
        house.source(crate, file, text)
        # With its time set back, too.
        os.utime(f"{house.top}/crates/{crate}/{file}", (1e9, 1e9))
        before = [read(f"{house.top}/release/manifest"), os.stat(f"{house.top}/release/anyk.gz").st_mtime_ns]
        builds_anew(house)
        same([read(f"{house.top}/release/manifest"), os.stat(f"{house.top}/release/anyk.gz").st_mtime_ns], before)
        shutil.rmtree(house.out)
    os.remove(f"{house.top}/crates/middle/specs/New.antt")
    house.released()
    write(f"{house.top}/crates.txt", CRATES + "# More.\n")
    builds_anew(house)
    # What was built is of other sources then, and the release is of these.
    write(f"{house.top}/crates.txt", CRATES)
    answers_by(house, "release")
    # A source that is removed or put back, and a release that is made anew.
    os.rename(f"{house.top}/crates/low/specs", f"{house.room}/specs")
    builds_anew(house)
    os.rename(f"{house.room}/specs", f"{house.top}/crates/low/specs")
    answers_by(house, "release")
    house.released("next")
    answers_by(house, "next")


def test_release_that_is_not_whole(house):
    not_named = "anyk: the program of release/ is not run: its bytes are not those that release/manifest names\n"
    not_here = "anyk: the program of release/ is not run: it does not run here (an older C library), or in no folder that can be written\n"

    def refuses(said):
        builds_anew(house, 1, said)
        shutil.rmtree(house.out)

    house.released()
    flip_a_byte(house)
    refuses(not_named)
    house.released(program="0" * 64)
    refuses(not_named)
    house.released(text=PROGRAM.replace("[ $# -gt 0 ]", '[ "$1" != load ] || exit 127\n[ $# -gt 0 ]'))
    refuses(not_here)
    house.released()
    os.remove(f"{house.top}/release/anyk.gz")
    refuses("")
    house.released()
    write(f"{house.top}/release/manifest", "")
    refuses("")
    house.released()
    write(f"{house.room}/bin/uname", "#!/bin/sh\necho Linux aarch64\n")
    os.chmod(f"{house.room}/bin/uname", 0o755)
    refuses("")
    os.remove(f"{house.room}/bin/uname")
    answers_by(house, "release")


def test_release_beside_a_build(house):
    house.released()
    answers_by(house, "release")
    same(house.call("build")[:2], (0, f"anyk: built as {house.program}\n"))
    same(house.links(), 1)
    answers_by(house, "1")
    # What was built goes first, also where its sources were only touched, or had been others for a while.
    os.utime(f"{house.top}/crates/low/src/lib.rt")
    answers_by(house, "1")
    same(house.call("build"), (0, f"anyk: built as {house.program}\n", ""))
    same(house.calls(), [])
    shutil.rmtree(f"{house.out}/release")
    os.utime(f"{house.top}/crates/low/src/lib.rt")
    answers_by(house, "1")
    # A build that fails or was broken off leaves the release to answer.
    write(f"{house.program}.unfinished", "")
    answers_by(house, "release")
    # So does one of other sources.
    house.version(2)
    house.released("of two")
    os.remove(f"{house.program}.unfinished")
    answers_by(house, "of two")
    same(house.call("build")[:2], (0, f"anyk: built as {house.program}\n"))
    house.calls()
    answers_by(house, "2")


def test_release_two_at_once(house):
    house.released()
    many = [house.start(str(it)) for it in range(8)]
    for number, begun in enumerate(many):
        output, error = begun.communicate(timeout=40)
        same((begun.returncode, output.decode(), error), (0, ran("release", house.top, [str(number)]), b""))
    same(house.calls(), [])
    same(sorted(os.listdir(f"{house.out}/release")), ["anyk_cli", "anyk_cli.files"])


def test_release_closed_streams(house):
    house.released()
    for closed, output in (("2>&-", ran("release", house.top, ["x"])), (">&-", ""), ("<&-", ran("release", house.top, ["x"])), (">&- 2>&- <&-", "")):
        shutil.rmtree(house.out, ignore_errors=True)
        by = ["sh", "-c", f'exec "$0" "$@" {closed}', f"{house.top}/anyk"]
        same((closed, house.call("x", by=by)[1]), (closed, output))
        same(house.calls(), [])


def no_place_in(house):
    """Lets no one unpack the release in the checkout, not even root."""
    write(f"{house.out}/release", "")


def wrapped(house, name, script):
    """Puts a script of this name before the command on the PATH."""
    write(f"{house.room}/bin/{name}", f"#!/bin/sh\n{script}\n")
    os.chmod(f"{house.room}/bin/{name}", 0o755)


def watch_mktemp(house):
    """Lets what mktemp makes be listed."""
    wrapped(house, "mktemp", 'made=$(PATH=/usr/bin:/bin mktemp "$@") && echo "$made" | tee -a "$RT_ROOM/made"')


def made_by(house):
    """What mktemp made since the last time."""
    made = read(f"{house.room}/made").splitlines() if os.path.exists(f"{house.room}/made") else []
    write(f"{house.room}/made", "")
    return made


def test_release_in_the_cache(house):
    no_place_in(house.released())
    watch_mktemp(house)
    for more, cache in (({}, f"{house.home}/.cache"), ({"XDG_CACHE_HOME": f"{house.room}/cache"}, f"{house.room}/cache"),
                        ({"XDG_CACHE_HOME": "cache", "HOME": None, "TMPDIR": None}, None), ({"XDG_CACHE_HOME": f"{house.room}/no/cache"}, None)):
        same(house.on_terminal("x", more=more), (0, ran("release", house.top, ["x"]), ANSWERED))
        check(all(not os.path.exists(it) for it in made_by(house)))
        if cache:
            same(os.listdir(f"{cache}/anyk"), [sha256(PROGRAM.replace("VERSION", "release").encode()).hexdigest()])
            same(stat.S_IMODE(os.stat(f"{cache}/anyk").st_mode), 0o700)
            same(house.on_terminal("x", more=more), (0, ran("release", house.top, ["x"]), ""))
            same(made_by(house), [])
            # One that was changed there is not run.
            kept = f"{cache}/anyk/{os.listdir(f'{cache}/anyk')[0]}"
            write(kept, PROGRAM.replace("VERSION", "another"))
            answers_by(house, "release", more=more)
            house.source("low", "src/lib.rt", "//! Another text.\n")
            same(house.call("x", more={**more, "ANYK_NO_BUILD": "1"})[:2], (1, ""))
            house.source("low", "src/lib.rt", "//! A crate.\n")
    same(house.calls(), [])
    same(os.path.exists(f"{house.room}/no"), False)


def test_release_in_no_folder_of_its_own(house):
    no_place_in(house.released())
    watch_mktemp(house)
    write(f"{house.room}/file", "")
    nowhere = f"{house.room}/file/none"
    for temporary in (house.temporary, nowhere, "", None):
        for home in (nowhere, "", None):
            more = {"TMPDIR": temporary, "HOME": home, "XDG_CACHE_HOME": home}
            answers_by(house, "release", more=more)
            for place in made_by(house):
                folder = house.temporary if temporary == house.temporary else "/tmp"
                check(place.startswith(f"{folder}/anyk.") and not os.path.exists(place), place)
    # Its input, its end by a signal and its hints are those of a program with a name.
    more = {"HOME": nowhere, "TMPDIR": nowhere}
    same(house.call("input", stdin=None, input=b"given\n", more=more)[1], "given\n" + ran("release", house.top, ["input"]))
    same(house.call("signal", more=more)[0], -signal.SIGTERM)
    files_in(house)
    same(pictured(house, REPORT, "airports.sql", more={**more, "REPORT": f"{house.room}/report"}), (0, TREE, ""))
    said = house.on_terminal("run", "circle.sql", cwd=f"{house.room}/files", more={**more, "SAYS": "cyclic query: items 1 2 3", "STATUS": "6"})
    same(said[:2], (6, ""))
    has(said[2], f"{ANSWERED}anyk: cyclic query: items 1 2 3\n", "item 2 is b (table trains)")
    # Where no folder takes it, that is said, and it is built.
    wrapped(house, "mktemp", "exit 1")
    builds_anew(house, 1, "anyk: the program of release/ is not run: it does not run here (an older C library), or in no folder that can be written\n")


def test_release_read_only(house):
    other = as_nobody(house)
    house.released()
    for home in (house.home, f"{house.room}/none"):
        answers_by(house, "release", more={"HOME": home}, **other)
        same((os.path.exists(house.out), os.listdir(house.home)), (False, []))
    os.chmod(house.home, 0o777)
    answers_by(house, "release", **other)
    same(os.listdir(house.home), [".cache"])
    # What root unpacked in the checkout is there for others.
    answers_by(house, "release", umask=0o077)
    for _ in range(2):
        # Two seconds later nothing that has changed is as new as the mark of a call.
        time.sleep(2.1)
        answers_by(house, "release")
        answers_by(house, "release", more=few_commands(house, *NEEDED), **other)
        os.utime(f"{house.top}/crates/low/src/lib.rt")
        answers_by(house, "release", **other)


def test_release_on_a_read_only_mount(house):
    house.released()
    by = ["unshare", "-m"] if os.geteuid() == 0 else ["unshare", "-rm"]
    # Its own file system is one that nobody can write, not even root.
    mounts = 'mount --bind "$0" "$0" && mount -o remount,ro,bind "$0"'
    call = [*by, "sh", "-c", f'{mounts} && ! touch "$0/x" && echo none && "$0/anyk" x && "$0/anyk" x', house.top]
    if subprocess.run([*by, "sh", "-c", mounts, house.top], **house.how(capture_output=True)).returncode:
        raise Skipped("nothing can be mounted to be read only here")
    status, output, error = house.call(by=call, cwd=house.room)
    same((status, output, error.count("\n")), (0, "none\n" + 2 * ran("release", house.room, []).replace("\n\n", "\n<x>\n"), 1))
    same(os.listdir(f"{house.home}/.cache"), ["anyk"])
    same(os.path.exists(house.out), False)


def test_release_noexec(house):
    by = ["unshare", "-m"] if os.geteuid() == 0 else ["unshare", "-rm"]
    mounted = "mount -t tmpfs -o noexec,mode=777 tmpfs"
    os.makedirs(f"{house.out}/release")
    if subprocess.run([*by, *mounted.split(), f"{house.out}/release"], capture_output=True).returncode:
        raise Skipped("no file system can be mounted noexec here")
    house.released()
    os.mkdir(f"{house.room}/cache")
    places = [f"{house.out}/release", f"{house.room}/cache", house.temporary]
    mounts = " && ".join(f'{mounted} "${number}"' for number in range(1, 4))
    call = [*by, "sh", "-c", f'{mounts} && "$0" x && find "$@" -type f', f"{house.top}/anyk", *places]
    same(house.call(by=call, more={"XDG_CACHE_HOME": places[1]}), (0, ran("release", house.top, ["x"]), ""))


def release_tool(house, *words, **how):
    """What tools/release.py says, and its status."""
    status, output, error = house.call(*words, by=["python3", "-B", "tools/release.py"], **how)
    same((words, error), (words, ""))
    return status, output


def flip_a_byte(house):
    """Changes a byte of the packed program."""
    with open(f"{house.top}/release/anyk.gz", "r+b") as it:
        it.seek(-20, os.SEEK_END)
        byte = it.read(1)[0]
        it.seek(-1, os.SEEK_CUR)
        it.write(bytes([byte ^ 1]))


def test_release_is_made(house):
    packed = f"{house.top}/release/anyk.gz"
    none = (1, "release: there is none: tools/release.py makes one\n")
    same([release_tool(house, it) for it in ("--check", "--compare")], [none, none])
    status, output, error = house.call(by=["python3", "-B", "tools/release.py"])
    same((status, output), (1, "release: nothing was made: the program has to be built first, by ./anyk build\n"))
    has(error, "ANYK_NO_BUILD forbids to build it")
    same(os.path.exists(f"{house.top}/release"), False)
    house.built()
    status, output = release_tool(house)
    program = PROGRAM.replace("VERSION", "1").encode()
    manifest = f"version 1.0.0\nsources {house.digest()}\nprogram {sha256(program).hexdigest()}\nkit a kit of tests\n"
    same((status, output), (0, f"release: made from crates/anyk_cli/out/anyk_cli: {len(program)} bytes, packed {os.path.getsize(packed)}\n{manifest}"))
    same(read(f"{house.top}/release/manifest"), manifest)
    before = [open(packed, "rb").read(), os.stat(packed).st_mtime_ns]
    same(gzip.decompress(before[0]), program)
    same(release_tool(house), (0, "release: it was the program of these sources already, and nothing was changed\n"))
    same([open(packed, "rb").read(), os.stat(packed).st_mtime_ns], before)
    # Made anew, it has the same bytes.
    os.remove(packed)
    same(release_tool(house)[0], 0)
    same(open(packed, "rb").read(), before[0])
    # It is what answers where nothing is built.
    shutil.rmtree(house.out)
    answers_by(house, "1")
    same(release_tool(house, "--check"), (0, f"release: it fits the sources: version 1.0.0, {len(program)} bytes, by a kit of tests\n"))
    for words in (["--what"], ["--check", "--compare"], ["x"]):
        same(house.call(*words, by=["python3", "-B", "tools/release.py"])[:2], (2, ""))


def test_release_is_checked(house):
    house.built()
    house.released("1")
    fits = (0, f"release: it fits the sources: version 1.0.0, {len(PROGRAM.replace('VERSION', '1'))} bytes, by a kit of tests\n")
    same(release_tool(house, "--check"), fits)
    same(release_tool(house, "--compare"), (0, "release: passed: its program is the one that was built, byte for byte\n"))
    # Another program of the same sources fails, and by another kit it is passed over.
    house.released("another")
    same(release_tool(house, "--compare"), (1, "release: FAILED, its program is another than was built from the same sources\n"))
    write(f"{house.room}/kit line", "a newer kit\n")
    for _ in range(2):
        same(release_tool(house, "--compare"), (0, "release: SKIPPED, another kit built it\n  it: a kit of tests\n  rt: a newer kit\n"))
        house.released("1")
    write(f"{house.room}/kit line", "a kit of tests\n")
    flip_a_byte(house)
    for option in ("--check", "--compare"):
        status, output = release_tool(house, option)
        check(status == 1 and output.startswith("release: its program "), output)
    house.released("1", program="0" * 64)
    same(release_tool(house, "--check"), (1, "release: its program has another SHA-256 than its manifest says\n"))
    same(release_tool(house, "--compare")[0], 1)
    house.released("1")
    write(f"{house.top}/VERSION", "1.0.1\n")
    same(release_tool(house, "--check"), (1, "release: it has version 1.0.0, and VERSION has 1.0.1\n"))
    # One of other sources is left alone.
    house.source("other_tests", "src/lib.rt", "//! Another text.\n")
    same(release_tool(house, "--compare"), (0, "release: left alone, it was made from other sources\n"))
    same(release_tool(house, "--check"), (1, "release: it was made from other sources: ./anyk leaves it alone, and tools/release.py makes it anew\n"))


def tests_of(house, **scripts):
    """Puts tests/all and these scripts into the checkout, and an example."""
    write(f"{house.top}/tests/all", read(f"{TOP}/tests/all").replace("LONGEST = 600", "LONGEST = 12"))
    os.chmod(f"{house.top}/tests/all", 0o755)
    for name, text in scripts.items():
        write(f"{house.top}/tests/{name}.py", f"#!/usr/bin/env python3\n{text}\n")
        os.chmod(f"{house.top}/tests/{name}.py", 0o755)
    write(f"{house.top}/tests/no_script.py", "raise SystemExit(1)\n")
    write(f"{house.top}/examples/one/words", "run\na b\n")
    write(f"{house.top}/examples/one/expected.csv", ran("release", house.top, ["run", "a b"]))


def test_all(house):
    good = "import sys\nprint('good: 3 cases: passed')\nprint('good: x: SKIPPED, there is no x', file=sys.stderr)"
    tests_of(house, good=good, must_not_compile="print('by rt')", hangs="import time\ntime.sleep(100)")
    call = {"by": ["python3", "-B", "tests/all"]}
    status, output, error = house.call(**call)
    same((status, output), (1, ""))
    has(error, "anyk: the program is not built yet", "all: there is no program: ./anyk build makes it\n")
    house.released()
    status, output, error = house.call(**call, more={"TMPDIR": f"{house.room}/none", "ANYK_HINTS": "1"})
    same((status, error), (1, ""))
    lines = re.sub(r"\b\d+ s\b", "N s", output).splitlines()
    same(lines[-1], "3 passed, 1 failed")
    for part in (["tests/good.py: passed, N s", "  good: x: SKIPPED, there is no x"], ["tests/hangs.py: FAILED, N s", "  ", "  it was ended after N s"],
                 ["tests/must_not_compile.py: passed, N s"], ["examples/one: passed, N s"]):
        has("\n".join(lines), "\n".join(part))
    same("no_script" in output, False)
    os.remove(f"{house.top}/tests/hangs.py")
    few = few_commands(house, *NEEDED, *UNPACKING, "python3")
    status, output, _ = house.call(**call, more=few)
    same((status, output.splitlines()[-1]), (0, "2 passed, 0 failed, 1 skipped"))
    has(output, "tests/must_not_compile.py: SKIPPED, there is no rt here\n")
    # All that a script said is shown if it fails, and an example has to give its output.
    write(f"{house.top}/tests/good.py", "print('one')\nprint('two')\nraise SystemExit(3)\n")
    write(f"{house.top}/examples/one/expected.csv", "x\n")
    status, output, _ = house.call("tests/good.py", "examples/one/", **call)
    same((status, output.splitlines()[-1]), (1, "0 passed, 2 failed"))
    has(output, "  one\n  two\n  \n  it ended with status 3\n", "  its output is another\n")
    same(house.call("tests/none.py", **call)[:2], (2, ""))
    same(house.calls(), [])


def test_gate(house):
    tests_of(house, good="print('good: passed')")
    write(f"{house.top}/.ci/run", read(f"{TOP}/.ci/run"))
    call = {"by": ["bash", ".ci/run"]}
    write(f"{house.room}/ci fails", "")
    same(house.call(**call), (7, "", ""))
    same(house.calls(), ["rt ci"])
    os.remove(f"{house.room}/ci fails")
    write(f"{house.top}/examples/one/expected.csv", ran("1", house.top, ["run", "a b"]))

    def ends(wanted, *said):
        time.sleep(0.1)
        status, output, error = house.call(**call)
        same((status, error), (wanted, ""))
        same(house.calls(), ["rt ci"])
        has(re.sub(r"\b\d+ s\b", "N s", output), "anyk: built as ./crates/anyk_cli/out/anyk_cli\n", *said)

    # The tests run over the program that rt ci has built, though there is a release.
    house.released("1")
    ends(0, "tests/good.py: passed, N s\n", "2 passed, 0 failed\n", "release: passed: its program is the one that was built, byte for byte\n")
    house.released("another")
    ends(1, "2 passed, 0 failed\n", "release: FAILED, its program is another")
    house.released("another", kit="another kit")
    ends(0, "release: SKIPPED, another kit built it\n")
    house.released("another", sources="0" * 64)
    ends(0, "release: left alone, it was made from other sources\n")
    write(f"{house.top}/examples/one/expected.csv", "x\n")
    ends(1, "1 passed, 1 failed\n", "release: left alone")


def test_developers_call(house):
    by_rt(house.developed())


def test_other_kit(house):
    # Where a part of the kit is not where it is looked for, rt builds.
    os.remove(f"{house.kit}/bin/rattle-link")
    by_rt(house)


def test_kept_libraries(house):
    house.built()

    def proves(*crates):
        same(house.call("x")[0], 0)
        same(house.calls(), [*[f"prove {it}" for it in crates], "link"])

    house.version(2)
    proves("anyk_cli")
    house.source("middle", "specs/Lib.antt", "a first spec\n")
    proves("middle", "anyk_cli")
    house.source("low", "proofs/one/Proof.antt", "another proof\n")
    proves("low", "middle", "anyk_cli")
    # Another row for a crate is another crate, and a library that is gone is made again.
    write(f"{house.top}/crates.txt", CRATES.replace("middle: low", "middle: low std"))
    proves("middle", "anyk_cli")
    write(f"{house.top}/crates.txt", CRATES.replace("middle: low", "middle: low std") + "# More.\n")
    proves("anyk_cli")
    os.rmdir(f"{house.proved}/low.rlib")
    house.version(3)
    proves("low", "anyk_cli")
    # So are all with another kit.
    write(f"{house.kit}/bin/rattle", PROVER + "# Another one.\n")
    house.version(4)
    proves("low", "middle", "anyk_cli")
    # What was proved before a failure is kept, and what failed is not.
    house.source("low", "src/lib.rt", "//! Another text.\n")
    house.source("middle", "src/lib.rt", "BROKEN\n")
    same(house.call("x")[0], 1)
    same(house.calls(), ["prove low", "prove middle"])
    house.source("middle", "src/lib.rt", "//! A crate.\n")
    proves("middle", "anyk_cli")


def test_closed_streams(house):
    for closed, output in (("2>&-", ran(1, house.top, ["x"])), (">&-", ""), ("<&-", ran(1, house.top, ["x"])), (">&- 2>&- <&-", "")):
        house.version(1 if output else 2)
        by = ["sh", "-c", f'exec "$0" "$@" {closed}', f"{house.top}/anyk"]
        same((closed, house.call("x", by=by)[1]), (closed, output))
        same(house.links(), 1)


def test_words_and_input(house):
    house.built()
    words = ["", "a b", "*", "'", '"', "$HOME", "\\", "--", "-n", "line\nend", "å"]
    same(house.call(*words), (0, ran(1, house.top, words), ""))
    same(house.call("input", stdin=None, input=b"given\n")[1], "given\n" + ran(1, house.top, ["input"]))
    same(house.call("x", cwd="/")[1], ran(1, "/", ["x"]))
    same(house.call("signal")[0], -signal.SIGTERM)
    same(house.call(more={"SAYS": "out of memory", "STATUS": "12"}, *["x"]), (12, "", "anyk: out of memory\n"))
    same(house.call("x", more={"SAYS": "", "STATUS": ""})[0], 0)


def test_ways_of_calling(house):
    house.built()
    os.symlink(f"{house.top}/anyk", f"{house.room}/bin/by link")
    os.symlink("by link", f"{house.room}/bin/anyk")
    wanted = (0, ran(1, house.room, ["x"]), "")
    for by in ([f"{house.room}/bin/anyk"], ["bin/by link"], ["anyk"], ["env", "anyk"], ["a house/anyk"], ["sh", "a house/anyk"],
               ["bash", "a house/anyk"], ["bash", "--posix", "a house/anyk"], ["sh", "bin/anyk"], ["a house/../a house//anyk"]):
        same((by, house.call("x", by=by, cwd=house.room)), (by, wanted))
    for by in (["sh", "anyk"], ["bash", "anyk"], ["./anyk"]):
        same((by, house.call("x", by=by)), (by, (0, ran(1, house.top, ["x"]), "")))
    same(house.calls(), [])


def test_first_call_by_sh(house):
    for version, by, cwd in ((1, ["sh", "anyk"], house.top), (2, ["sh", "a house/anyk"], house.room)):
        house.version(version)
        same(house.call("x", by=by, cwd=cwd)[:2], (0, ran(version, cwd, ["x"])))
    # It was built where it belongs, and not in the folder of the call.
    check(os.path.exists(house.program) and not os.path.exists(f"{house.room}/crates"))
    same(house.links(), 2)


def test_what_is_current(house):
    house.built()

    def builds(expected, version=1):
        same(house.call("x"), (0, ran(version, house.top, ["x"]), house.call("x")[2] if not expected else ANY))
        same(bool(house.calls()), expected)

    os.utime(f"{house.top}/crates/low/src/lib.rt")
    builds(False)
    house.source("low", "proofs/one/Proof.antt", "another proof\n")
    builds(True)
    house.source("low", "proofs/two/Proof.antt", "a new file\n")
    builds(True)
    shutil.rmtree(f"{house.top}/crates/low/proofs/two")
    builds(True)
    house.source("middle", "specs/Lib.antt", "a first spec\n")
    builds(True)
    house.source("other_tests", "src/lib.rt", "//! No part of the program.\n")
    builds(False)
    write(f"{house.top}/crates.txt", CRATES + "# More.\n")
    builds(True)
    # A file that is put in place with an old time is a change too.
    house.version(2)
    os.utime(f"{house.top}/crates/anyk_cli/src/main.rt", (1e9, 1e9))
    builds(True, 2)
    # The program of another build is not taken for that of these sources, if these change.
    write(house.program, PROGRAM.replace("VERSION", "another"))
    time.sleep(0.1)
    os.utime(f"{house.top}/crates/low/src/lib.rt", (4e9, 4e9))
    builds(True, 2)
    # A program that rt ci built later than all sources is taken as it is.
    write(f"{house.program}.new", PROGRAM.replace("VERSION", "gate"))
    os.chmod(f"{house.program}.new", 0o755)
    shutil.rmtree(house.out.replace("/out", "/kept"), ignore_errors=True)
    os.rename(house.out, house.out.replace("/out", "/kept"))
    os.makedirs(house.out)
    time.sleep(0.05)
    shutil.copyfile(house.out.replace("/out", "/kept/anyk_cli.new"), house.program)
    os.chmod(house.program, 0o755)
    builds(False, "gate")


class Any:
    def __eq__(self, other):
        return True


ANY = Any()


def test_copied_checkout(house):
    house.built()
    copied = f"{house.room}/copy"
    subprocess.run(["cp", "-a", house.top, copied], check=True)
    same(house.call("x", by=[f"{copied}/anyk"], more=few_commands(house, *NEEDED, "python3"))[0:2], (0, ran(1, house.top, ["x"])))
    same(house.calls(), [])


def refuses_old(house, *parts):
    """A call that does not build runs nothing, and so does one after it without rt."""
    status, output, error = house.call("x")
    same((status, output), (1, ""))
    has(error, *parts)
    check(house.calls(), "rt was not called")
    same(house.call("x", more=few_commands(house, *NEEDED, "python3"))[:2], (1, ""))
    same(house.call("x", more={"ANYK_NO_BUILD": "1"})[:2], (1, ""))
    return error


def test_failed_proof(house):
    house.built()
    good = read(f"{house.top}/crates/low/src/lib.rt")
    house.source("low", "src/lib.rt", "BROKEN\n")
    for _ in range(2):
        error = refuses_old(house, "== low\nsrc/lib.rt:3:5: error[E]: what is broken\n", "anyk: the program was not built")
        check("48 of 48" not in error, error)
    # With its time set back to where it was, too, and where an older stamp and program are put in place.
    os.utime(f"{house.top}/crates/low/src/lib.rt", (1e9, 1e9))
    write(f"{house.program}.stamp", "stamp")
    write(house.program, PROGRAM.replace("VERSION", "old"))
    os.chmod(house.program, 0o755)
    refuses_old(house, "anyk: the program was not built")
    house.source("low", "src/lib.rt", good)
    house.version(3)
    same(house.call("x")[:2], (0, ran(3, house.top, ["x"])))
    same(house.links(), 1)


def test_failed_link(house):
    house.built()
    house.version(2)
    write(f"{house.room}/linkless", "")
    refuses_old(house, "error: linking failed", "anyk: the program was not built")
    os.remove(f"{house.room}/linkless")
    same(house.call("x")[:2], (0, ran(2, house.top, ["x"])))


def test_killed_check(house):
    # Where a check was killed, as for memory, it is tried once more.
    write(f"{house.room}/killed", "")
    same(house.call("x")[:2], (0, ran(1, house.top, ["x"])))
    same(house.calls(), ["prove low", "prove low", "prove middle", "prove anyk_cli", "link"])


def test_killed_check_of_rt(house):
    # There the next command tries again.
    house.developed()
    write(f"{house.room}/killed", "")
    same(house.call("x")[:2], (0, ran(1, house.top, ["x"])))
    same(len(house.calls()), 2)
    house.version(2)
    write(f"{house.room}/linkless", "")
    refuses_old(house, "error: linking failed", "anyk: the program was not built")


def test_edit_in_a_build(house):
    house.built()
    house.version(2)
    write(f"{house.room}/edits", "")
    refuses_old(house, "a source was changed meanwhile")
    os.remove(f"{house.room}/edits")
    same(house.call("x")[:2], (0, ran(99, house.top, ["x"])))
    # A library whose source is changed while it is proved is not kept.
    house.source("low", "src/lib.rt", "//! One text.\n")
    write(f"{house.room}/moves", "")
    refuses_old(house, "a source was changed meanwhile")
    os.remove(f"{house.room}/moves")
    house.calls()
    same(house.call("x")[:2], (0, ran(99, house.top, ["x"])))
    has("\n".join(house.calls()), "prove low")


def test_broken_off(house):
    house.built()
    for number, how in enumerate((signal.SIGINT, signal.SIGTERM, signal.SIGHUP, signal.SIGKILL), 2):
        house.source("middle", "src/lib.rt", f"//! Text {number}.\n")
        house.version(number)
        house.hold("middle")
        begun = house.start("x")
        until(lambda: os.path.exists(f"{house.room}/calls"))
        os.killpg(begun.pid, how)
        same(begun.communicate(timeout=20)[0], b"")
        check(begun.returncode in (1, -how), how, begun.returncode)
        house.calls()
        house.go("middle")
        same(house.call("x", more={"ANYK_NO_BUILD": "1"})[:2], (1, ""))
        same(house.call("x")[:2], (0, ran(number, house.top, ["x"])))
        same(house.links(), 1)


def until(holds):
    for _ in range(400):
        if holds():
            return
        time.sleep(0.05)
    raise Failed("it took too long")


def test_two_at_once(house):
    house.hold("low")
    first = house.start("one")
    until(lambda: os.path.exists(f"{house.room}/calls"))
    others = {"two": house.start("two"), "three": house.start("three")}
    if os.geteuid() == 0:
        # One who could not build waits too.
        others["four"] = house.start("four", more=few_commands(house, *NEEDED, "python3"), **as_nobody(house))
    for it in others.values():
        same(it.stderr.readline(), b"anyk: another call builds the program: this one waits for it\n")
    same(house.call("x", more={"ANYK_NO_BUILD": "1"})[:2], (1, ""))
    house.go("low")
    for word, begun in [("one", first), *others.items()]:
        output, error = begun.communicate(timeout=40)
        same((begun.returncode, output.decode(), error.count(b"\n")), (0, ran(1, house.top, [word]), int(word == "one")))
    same(house.links(), 1)
    # Where the first one fails, the one that waits builds for itself, and fails too.
    house.source("low", "src/lib.rt", "BROKEN\n")
    for begun in [house.start("x"), house.start("y")]:
        same(begun.communicate(timeout=40)[0], b"")
        same(begun.returncode, 1)


def test_many_at_once(house):
    many = [house.start(str(it)) for it in range(6)]
    for number, begun in enumerate(many):
        output, _ = begun.communicate(timeout=40)
        same((begun.returncode, output.decode()), (0, ran(1, house.top, [str(number)])))
    same(house.links(), 1)


def test_read_only(house):
    other = as_nobody(house)
    status, output, error = house.call("x", **other)
    same((status, output, error.count("\n")), (1, "", 1))
    has(error, "anyk: the program is not built yet, and ", "cannot be written")
    same(house.calls(), [])
    house.built()
    same(house.call("x", **other), (0, ran(1, house.top, ["x"]), ""))
    # What was only touched is seen to be the same, though nothing can be written.
    os.utime(f"{house.top}/crates/low/src/lib.rt")
    for _ in range(2):
        same(house.call("x", **other), (0, ran(1, house.top, ["x"]), ""))
    house.version(2)
    same(house.call("x", **other)[:2], (1, ""))
    same(house.calls(), [])


def test_umask(house):
    same(house.call("word", umask=0o077)[0], 0)
    for it, mode in ((house.out, 0o755), (house.program, 0o755), (f"{house.program}.sums", 0o644)):
        same((it, stat.S_IMODE(os.stat(it).st_mode) & 0o055), (it, mode & 0o055))
    same(house.call("x", **as_nobody(house)), (0, ran(1, house.top, ["x"]), ""))


def test_private_checkout(house):
    house.built()
    os.chmod(house.program, 0o700)
    status, output, error = house.call("x", **as_nobody(house))
    same((status, output, error.count("\n")), (1, "", 1))
    has(error, "may not ")


def test_noexec(house):
    script = f"mount -t tmpfs -o noexec,mode=755 tmpfs \"$0\" && shift 0 && for i in 1 2; do \"$1\" x; echo \"status $?\"; done; ls \"$0\""
    os.makedirs(house.out)
    by = ["unshare", "-m"] if os.geteuid() == 0 else ["unshare", "-rm"]
    tried = subprocess.run([*by, "mount", "-t", "tmpfs", "-o", "noexec", "tmpfs", house.out], capture_output=True)
    if tried.returncode:
        raise Skipped("no file system can be mounted noexec here")
    status, output, error = house.call(by=[*by, "sh", "-c", script, house.out, f"{house.top}/anyk"])
    same(status, 0)
    same(re.findall("status .*", output), ["status 1"] * 2)
    has(output, "anyk_cli\n", "anyk_cli.sums")
    same(house.links(), 1)
    same(error.count("it may not be run: its file system is mounted noexec"), 2)


def test_tunables(house):
    house.built()
    for value in ("", "glibc.malloc.hugetlb=0", "glibc.malloc.check=1:glibc.malloc.hugetlb=2"):
        same(house.call("x", more={"GLIBC_TUNABLES": value})[1], ran(1, house.top, ["x"], value))


def test_allocator(house):
    for number, (value, wanted) in enumerate(((None, "-1"), ("0", "0"), ("", "")), 1):
        house.version(number)
        same(house.call("x", more={"MIMALLOC_PURGE_DELAY": value})[:2], (0, ran(number, house.top, ["x"])))
        same(read(f"{house.room}/delay"), f"{wanted}\n")


def few_commands(house, *names):
    """A folder for the PATH with these commands alone."""
    folder = f"{house.room}/few"
    shutil.rmtree(folder, ignore_errors=True)
    os.makedirs(folder)
    for name in names:
        os.symlink(shutil.which(name, path=SYSTEM) or sys.executable, f"{folder}/{name}")
    return {"PATH": folder}


def test_without_rt(house):
    status, output, error = house.call("x", more=few_commands(house, *NEEDED, "python3"))
    same((status, output, error), (1, "", "anyk: the program is not built yet, and rt, which builds it, is not found\n"))


def test_without_python(house):
    few = few_commands(house, *NEEDED)
    status, output, error = house.call("x", more=few)
    same((status, output), (1, ""))
    has(error, "python3, which building it needs, is not found")
    house.built()
    # What was written in the second of the build is looked at once more, by python3.
    time.sleep(1.1)
    same(house.call("x")[0], 0)
    same(house.call("x", more=few), (0, ran(1, house.top, ["x"]), ""))
    refusal = {"SAYS": "out of memory", "STATUS": "12"}
    same(house.on_terminal("x", more={**few, **refusal}), (12, "", "anyk: out of memory\n"))


def test_without_perl(house):
    few = few_commands(house, *[it for it in NEEDED if it != "perl"], "python3")
    house.built()
    same(house.call("x", more=few), (0, ran(1, house.top, ["x"]), ""))
    house.source("low", "proofs/one/Proof.antt", "another proof\n")
    same(house.call("x", more=few)[:2], (1, ""))
    same(house.calls(), [])


def test_no_build(house):
    forbidden = {"ANYK_NO_BUILD": "1"}
    same(house.call("x", more=forbidden), (1, "", "anyk: the program is not built yet, and ANYK_NO_BUILD forbids to build it\n"))
    house.built()
    same(house.call("x", more=forbidden), (0, ran(1, house.top, ["x"]), ""))
    house.version(2)
    status, output, error = house.call("x", more=forbidden)
    same((status, output), (1, ""))
    same(error, "anyk: the program is not built from the sources as they are, and ANYK_NO_BUILD forbids to build it\n")
    same(house.calls(), [])


def test_progress(house):
    def watch(said):
        for number, crate in enumerate(("low", "middle", "anyk_cli")):
            if f"anyk: {number} of 3 crates proved" in said:
                house.go(crate)

    def progress(**how):
        for crate in ("low", "middle", "anyk_cli"):
            house.hold(crate)
        return house.on_terminal("x", watch=watch, **how)

    status, output, error = progress()
    same((status, output), (0, ran(1, house.top, ["x"])))
    has(error, "the progress is in", "\ranyk: 0 of 3 crates proved, under a minute so far", "\ranyk: 2 of 3 crates proved")
    has(error, "anyk: the program is proved and built, in under a minute\n")
    # The time that is left is shown if a table says what crates take.
    write(f"{house.top}/tools/gate_times.tsv", "crate\tproof seconds\nlow\t600\nmiddle\t1200.5\nanyk_cli\t30\n")
    house.version(2)
    house.source("low", "src/lib.rt", "//! A second text.\n")
    said = progress()[2]
    check(re.search("0 of 3 .*about 3[01] min left.*1 of 3 .*about 4 min left", said), said)
    # What is written again and again has room in one line.
    house.version(3)
    status, output, said = progress(columns=30)
    same((status, output), (0, ran(3, house.top, ["x"])))
    has(said, "\ranyk: 2 of 3 crates proved, u\r")


def module(name):
    spec = importlib.util.spec_from_file_location(name, f"{TOP}/tools/{name}.py")
    made = importlib.util.module_from_spec(spec)
    sys.dont_write_bytecode = True
    spec.loader.exec_module(made)
    return made


def test_estimate(house):
    build = module("build")
    crates = build.crates_below("anyk_cli", CRATES)
    same(crates, {"low": [], "middle": ["low"], "anyk_cli": ["low", "middle"]})
    same(build.crates_below("other", CRATES), {})
    same(build.uses_of(CRATES)["anyk_cli"], ["low", "middle", "std"])
    times = build.times_of("crate\tseconds\nlow\t10\n\nmiddle\t20\textra\nanyk_cli\tnone\nanyk_cli\t5.5\nshort\n")
    same(times, {"low": 10.0, "middle": 20.0, "anyk_cli": 5.5})
    # One after another: each crate uses the one before.
    same(build.seconds_left(crates, set(), 4, 7, times), 35.5)
    same(build.seconds_left(crates, {"low"}, 4, 20, times), 51)
    same(build.seconds_left(crates, {"low", "middle"}, 4, 1, times), 5.5 * 0.2)
    same(build.seconds_left(crates, {*crates}, 4, 40, times), 0)
    # Side by side, and with one that the table lacks.
    same(build.seconds_left({"a": [], "b": [], "c": [], "d": []}, set(), 2, 0, {"a": 10, "b": 20, "c": 30}), 40)
    same(build.chains_of(crates, times), {"low": 35.5, "middle": 25.5, "anyk_cli": 5.5})
    same(build.chains_of({"a": [], "b": [], "c": ["a", "b"]}, {"a": 10, "b": 20}), {"a": 25, "b": 35, "c": 15})
    # Without a table.
    same(build.seconds_left(crates, {"low"}, 4, 9, {}), None)
    same(build.seconds_left(dict.fromkeys("abcdef", []), set("abc"), 4, 60, {"other": 3}), 60)
    same(build.chains_of(crates, {}), {"low": 3, "middle": 2, "anyk_cli": 1})
    gigabyte = 1_000_000_000
    same([build.at_once(*it) for it in ((4, None), (4, 22 * gigabyte), (4, 6 * gigabyte), (4, gigabyte), (1, 22 * gigabyte))], [4, 4, 2, 1, 1])
    # One process for each crate, unless processors have nothing to do and there is memory.
    same([build.shared(*it) for it in ((4, 8, 0, 5), (4, 8, 3, 1), (4, 8, 2, 1), (4, 8, 0, 1), (4, 8, 0, 2), (4, 4, 3, 1), (8, 3, 0, 1), (16, 32, 0, 2))],
         [1, 1, 2, 4, 2, 1, 3, 4])
    same([build.minutes(it) for it in (5, 61, 150, 3600)], ["under a minute", "1 min", "2 min", "60 min"])


def test_share(house):
    build = module("build")
    proofs = build.Proofs.__new__(build.Proofs)
    proofs.lanes, proofs.places, proofs.killed, proofs.running = 4, 8, {"killed"}, {"one": build.Proof(None, 1, None)}
    proofs.chains = {"next": 30, "waiting": 20, "behind": 20, "last": 10, "killed": 40}

    def shares(crate, *left, ready=1):
        proofs.left = [*left]
        return proofs.share(crate, ready)

    # All that are free, but one for each crate if several are ready, if a longer chain waits, or after a killed check.
    same([shares("next", "waiting"), shares("next"), shares("waiting", "behind")], [3, 3, 3])
    same([shares("next", "waiting", ready=2), shares("next", "waiting", ready=3)], [1, 1])
    same([shares("last", "waiting"), shares("killed")], [1, 1])
    same([proofs.waits(it) for it in ("next", "killed")], [False, True])
    proofs.running["two"] = build.Proof(None, 3, None)
    same(proofs.waits("next"), True)


def test_help(house):
    for words in (["help"], ["--help"], ["-h"], ["help", "run"], ["help", "plan"], ["help", "picture"], ["help", "session"], ["help", "prove"], ["help", "verify"], ["help", "load"], ["help", "build"], ["help", "install"]):
        status, output, error = house.call(*words)
        same((words, status, error), (words, 0, ""))
        page = words[1] if len(words) > 1 else "anyk"
        same(output, read(f"{TOP}/tools/help/{page}.txt"))
        check(output.startswith(f"usage: anyk {page if len(words) > 1 else 'run'}"), output)
        check(all(len(it) <= 80 for it in output.splitlines() if not re.match("(usage:|      ) anyk ", it)), words)
        same(house.on_terminal(*words), (0, output, ""))
    # The user's page names them all.
    named = read(f"{TOP}/docs/REFERENCE.md").partition("\n**Help.**")[2].partition("\n\n")[0]
    for page in os.listdir(f"{TOP}/tools/help"):
        check(page == "anyk.txt" or f"`{page[:-4]}`" in named, page)
    same(house.call(), (2, "", "anyk: usage\n"))
    same(house.on_terminal(), (2, "", "anyk: usage\n" + read(f"{TOP}/tools/help/anyk.txt")))
    for words in (["install"], ["install", ""], ["install", "a", "b"], ["install", "-x"], ["build", "x"], ["build", ""], ["release"], ["uninstall"]):
        same(house.call(*words), (2, "", "anyk: usage\n"))
        same(house.on_terminal(*words), (2, "", "anyk: usage\n" + read(f"{TOP}/tools/help/{words[0]}.txt")))
    for page in os.listdir(f"{TOP}/tools/help"):
        for word in ("--help", "-h"):
            same((page, house.call(page[:-4], word)), (page, (0, read(f"{TOP}/tools/help/{page}"), "")))
    same(house.calls(), [])
    # Other words are the program's.
    house.built()
    for words in (["help", "what"], ["--help", "run"], ["", ""], ["-hx"], [":install:", "x"], ["build:x"], ["install:2:x"]):
        same(house.call(*words)[1], ran(1, house.top, words))


TRAINS = read(f"{TOP}/docs/using/trains.csv")
HOTELS = read(f"{TOP}/docs/using/hotels.csv")
FILES = {
    "t.csv": TRAINS, "h.csv": HOTELS, "circle.sql": read(f"{TOP}/docs/using/circle.sql"), "s3.txt": "# one\nopen a\nopen a\n",
    "stay.sql": "SELECT t.train, h.hotel\nFROM trains AS t, hotels AS h\nWHERE t.destination = h.city\n\tAND t.origin = 'Oslo'\nORDER BY t.price + h.price\n",
}
WORDS = ["stay.sql", "trains=t.csv", "hotels=h.csv"]


# The arguments of a call, what the program says of it, its status, and what the hint has to hold. tests/hints.py has the others.
REFUSALS = [
    (["run", "stay.sql"], 2, "usage", ["TABLE=FILE is missing", "usage: anyk run [--engine"]),
    (["session", *WORDS, "--script", "s3.txt"], 3, "script line 3: cursor exists", ["a was opened in line 2"]),
    (["picture", "--dot", *WORDS[:2]], 4, "byte 42: unknown table", ["the arguments name the table trains"]),
    (["run", *WORDS], 5, "table trains: row 9: wrong number of fields", ["."]),
    (["run", "circle.sql", "trains=t.csv"], 6, "cyclic query: items 1 2 3", ["item 1 is a (table trains)", "docs/COOKBOOK.md"]),
    (["run", *WORDS], 8, "more than 4194304 node rows", ["."]),
    (["run", *WORDS], 9, "file x.csv: not found", ["."]),
    (["run", *WORDS], 10, "file h.csv: read failed", ["."]),
    (["run", *WORDS], 11, "write failed", ["head"]),
    (["run", *WORDS], 12, "out of memory", ["."]),
    (["verify", *WORDS], 14, "proof: unlisted answer", ["for another query"]),
    (["run", *WORDS], 15, "branch 2: shape differs", ["."]),
]


def hinted(house, words, status, line, parts):
    got, output, said = house.on_terminal(*words, cwd=f"{house.room}/files", more={"SAYS": line, "STATUS": str(status)})
    same((words, got, output, said[: len(line) + 7]), (words, status, "", f"anyk: {line}\n"))
    hint = said[len(line) + 7 :]
    has(hint, *parts)
    check(all(it.isprintable() for it in hint.splitlines()), repr(hint))
    check(hint.endswith(("\n")) and hint.splitlines()[0].startswith("  "), hint)
    # Where there is no terminal, nothing is added.
    same(house.call(*words, cwd=f"{house.room}/files", more={"SAYS": line, "STATUS": str(status)}), (status, "", f"anyk: {line}\n"))


def files_in(house):
    for name, text in FILES.items():
        write(f"{house.room}/files/{name}", text)


def test_hints(house):
    house.built()
    files_in(house)
    for it in REFUSALS:
        hinted(house, *it)
    for line in ("a line that no page has", "byte x: unknown table"):
        same(house.on_terminal("run", more={"SAYS": line, "STATUS": "4"}), (4, "", f"anyk: {line}\n"))
    # Names of every kind go through as they are.
    for name in ("a: no header", "x\ny", "å", "\udcff", "", "%s", "-n"):
        same(house.on_terminal("run", more={"SAYS": f"file {name}: not found", "STATUS": "9"})[2][: len(name) + 23], f"anyk: file {name}: not found\n")
    # An interrupt ends the call and the program.
    for words in (["wait"], ["wait", "more"]):
        same(house.on_terminal(*words, after=lambda it: (it.stdout.readline(), os.killpg(it.pid, signal.SIGINT))), (-signal.SIGINT, "", ""))
    # An accepted call is as without a terminal.
    same(house.on_terminal("x"), (0, ran(1, house.top, ["x"]), ""))
    same(house.on_terminal("signal")[0], 128 + signal.SIGTERM)
    closed = house.on_terminal("x", by=["sh", "-c", 'exec "$0" "$@" >&-', f"{house.top}/anyk"])
    same(closed[:2], (house.call("x", by=["sh", "-c", 'exec "$0" "$@" >&-', f"{house.top}/anyk"])[0], ""))


def test_arguments_of_no_text(house):
    house.built()
    # The launcher says which, on a terminal or not, and the program ends the call.
    status, output, said = house.on_terminal("untold", "\udcff.sql", "å", "t=\x1b[\udcc3")
    same((status, output), (16, ""))
    check(said.startswith("anyk: argument 2 is not UTF-8\n"), said)
    for words, number in ((["\udcff.sql"], 2), (["å", "b", "\udcc3"], 4), (["\udcc3", "\udcc3"], 2), (["€", "\udce2\udc82"], 3), (["\udce0\udc80\udc80"], 2),
                          (["\udced\udca0\udc80"], 2), (["\udcf0\udc80\udc80\udc80"], 2), (["\udcf4\udc90\udc80\udc80"], 2), (["\udcc0\udcaf"], 2),
                          (["a", "å\udc80"], 3), (["\udcf8\udc88\udc80\udc80\udc80"], 2), (["a\n\udcfe"], 2)):
        for locale in ("C", "C.UTF-8", "none_NONE.UTF-8"):
            status, output, said = house.call("untold", *words, more={"LC_ALL": locale})
            # (bash says so itself if it lacks the caller's locale)
            said = "".join(it for it in said.splitlines(True) if "warning: setlocale" not in it)
            same((words, status, output, said), (words, 16, "", f"anyk: argument {number} is not UTF-8\n"))
    status, output, said = house.on_terminal("x", more={"LC_ALL": "none_NONE.UTF-8"})
    same((status, output, "perl" in said), (0, ran(1, house.top, ["x"]), False))
    same(house.call("picture", "\udcff.sql", "a=b", more={"SAYS": "x", "STATUS": "16"}), (16, "", "anyk: argument 2 is not UTF-8\nanyk: x\n"))
    for words in (["å", "€", "\U0001d11e", "\ud7ff", "\ue000", "\uffff", "\U0010ffff", "\x7f\x01", "日本", "a\nå"], ["x"]):
        same(house.call("text", *words), (0, ran(1, house.top, ["text", *words]), ""))


def is_running(process):
    try:
        return read(f"/proc/{process}/stat").rpartition(")")[2].split()[0] != "Z"
    except OSError:
        return False


def end_launcher(house, begun, how):
    """Ends the launcher alone while the program runs, and sees to it that the program ends too."""
    program = f"{house.room}/stays"
    until(lambda: os.path.exists(program) and read(program).strip())
    process = int(read(program))
    os.remove(program)
    os.kill(begun.pid, how)
    try:
        until(lambda: not is_running(process))
    finally:
        if is_running(process):
            os.kill(process, signal.SIGKILL)


def test_killed_launcher(house):
    house.built()
    ways = [signal.SIGTERM, signal.SIGHUP, signal.SIGINT]
    for how in (*ways, signal.SIGKILL):
        same(house.on_terminal("stay", after=lambda it: end_launcher(house, it, how))[:2], (-how, ""))
        # Where hints are asked for, there need not be a terminal.
        begun = house.start("stay", more={"ANYK_HINTS": "1"})
        end_launcher(house, begun, how)
        same((begun.communicate(timeout=20), begun.returncode), ((b"", b""), -how))
    # Without perl no one hears of the last one.
    few = few_commands(house, *[it for it in NEEDED if it != "perl"], "python3", "sleep")
    for how in ways:
        same(house.on_terminal("stay", after=lambda it: end_launcher(house, it, how), more=few)[:2], (-how, ""))


# A report of `plan`, with the query that it is of.
QUERY = """select "two words".name, a.n, x.name from airports as a, legs l, legs "two words",
  "left
side" inner join y x on x.n = a.n, "order"
where a.n = l.n and "two words".n = l.n order by a.n"""
REPORT = """node 1 parent 0 rows 263 item a
node 2 parent 1 rows 9730 item l
node 3 parent 1 rows 1 item x
node 4 parent 2 rows 0 item "two words"
node 5 parent 1 rows 12 item "order"
node 6 parent 2 rows 3 item "left
side"
total 21234
"""
TREE = """a (airports): 263 rows
├── l (legs): 9730 rows
│   ├── "two words" (legs): 0 rows
│   └── "left\\nside" ("left\\nside"): 3 rows
├── x (y): 1 row
└── "order" ("order"): 12 rows
"""
DOT = """graph plan {
    node [shape=box];
    1 [label="a (airports)\\n263 rows"];
    2 [label="l (legs)\\n9730 rows"];
    3 [label="x (y)\\n1 row"];
    4 [label="\\"two words\\" (legs)\\n0 rows"];
    5 [label="\\"order\\" (\\"order\\")\\n12 rows"];
    6 [label="\\"left\\\\nside\\" (\\"left\\\\nside\\")\\n3 rows"];
    1 -- 2;
    1 -- 3;
    1 -- 5;
    2 -- 4;
    2 -- 6;
}
"""


def pictured(house, report, *words, query=QUERY, **how):
    """A call of picture when `plan` reports this."""
    write(f"{house.room}/report", report)
    write(f"{house.room}/files/airports.sql", query)
    return house.call("picture", *words, **{"cwd": f"{house.room}/files", "more": {"REPORT": f"{house.room}/report"}, **how})


def test_picture(house):
    house.built()
    for words in (["airports.sql", "a=b"], ["airports.sql", "a=b", "c d=e"]):
        same(pictured(house, REPORT, *words), (0, TREE, ""))
        same(read(f"{house.room}/words"), "".join(f"<{it}>" for it in ["plan", *words]))
    # --dot is left out once, and not if it is not an option.
    for words, rest in ((["--dot", "airports.sql", "a=b"], ["airports.sql", "a=b"]), (["airports.sql", "--dot"], ["airports.sql"]),
                        (["--dot", "airports.sql", "--dot"], ["airports.sql", "--dot"])):
        same(pictured(house, REPORT, *words), (0, DOT, ""))
        same(read(f"{house.room}/words"), "".join(f"<{it}>" for it in ["plan", *rest]))
    same(pictured(house, REPORT, "--", "airports.sql", "--dot"), (0, TREE, ""))
    same(read(f"{house.room}/words"), "<plan><--><airports.sql><--dot>")
    # One item, and names that a picture has to change. The query has bytes that are not text.
    one = 'node 1 parent 0 rows 1 item {}\ntotal 2\n'
    for name, text, dot in (("from", '"from"', '\\"from\\"'), ("", '""', '\\"\\"'), ("a b", '"a b"', '\\"a b\\"'), ("\udcff&\\", '"\\xff&\\"', '\\"\\\\xff&amp;\\\\\\"'),
                            ("\x1b[31m", '"\\x1b[31m"', '\\"\\\\x1b[31m\\"'), ("søk", '"søk"', '\\"søk\\"'), ("node 2 parent 1 rows 3 item x\n", '"node 2 parent 1 rows 3 item x\\n"', None)):
        quoted = f'"{name}"'
        report, query = one.format(quoted), f"select * from {quoted} limit 3"
        same(pictured(house, report, "airports.sql", query=query), (0, f"{text} ({text}): 1 row\n", ""))
        if dot is not None:
            has(pictured(house, report, "airports.sql", "--dot", query=query)[1], f'    1 [label="{dot} ({dot})\\n1 row"];\n}}\n')
    for query in ("select * from t_2, other", "SELECT*FROM\tother o JOIN t_2 ON a=b", "select a from t_2 as t_2;", 'select * from "t_2""t_2"'):
        same(pictured(house, one.format("t_2"), "airports.sql", query=query), (0, "t_2 (t_2): 1 row\n", ""))
    # A query that cannot be read again.
    for words in (["/dev/stdin", "a=b"], ["gone.sql"], ["."], []):
        same(pictured(house, one.format("t_2"), *words), (0, "t_2: 1 row\n", ""))
    # On a terminal too.
    same(house.on_terminal("picture", "airports.sql", "a=b", cwd=f"{house.room}/files", more={"REPORT": f"{house.room}/report"}), (0, "t_2: 1 row\n", ""))
    if shutil.which("dot"):
        drawn = subprocess.run(["dot", "-Tplain"], input=DOT, capture_output=True, text=True)
        same((drawn.returncode, drawn.stderr, drawn.stdout.count("\nnode "), drawn.stdout.count("\nedge ")), (0, "", 6, 5))


TOOL = """import os, sys
print(sys.argv[1:], os.environ.get("ANYK_PROGRAM"), sys.flags.isolated, sys.flags.utf8_mode, sys.flags.dont_write_bytecode)
print(os.environ["GLIBC_TUNABLES"], file=sys.stderr)
sys.exit(5)
"""


def test_tools(house):
    for command in ("query", "check", "weights", "merge", "pairs", "seal", "check-proof"):
        write(f"{house.top}/tools/{command.replace('-', '_')}.py", TOOL)
        write(f"{house.top}/tools/help/{command}.txt", f"usage: anyk {command}\n")
    # The page is the tool's, and needs neither it nor the program.
    same(house.call("help", "check-proof"), (0, "usage: anyk check-proof\n", ""))
    same(house.call("query", "--help"), (0, "usage: anyk query\n", ""))
    no_build = {"ANYK_NO_BUILD": "1"}
    for command in ("weights", "merge", "pairs", "seal", "check-proof"):
        same((command, house.call(command, "a b", "--help", more=no_build)), (command, (5, "['a b', '--help'] None 1 1 1\n", TUNABLES + "\n")))
    same(house.call(more=no_build, *["query"])[:2], (1, ""))
    house.built()
    for command in ("query", "check"):
        for cwd, by in ((house.top, None), (house.room, ["a house/anyk"]), (house.top, ["sh", "anyk"])):
            status, output, _ = house.call(command, "\udcff", "x", cwd=cwd, by=by)
            words, program = output.split("] ")
            same((status, words), (5, "['\\udcff', 'x'"))
            same(os.path.realpath(program.split(" 1 1 ")[0]), house.program)
    few = few_commands(house, *NEEDED)
    same(house.call("merge", "x", more=few), (1, "", "anyk: python3, which merge needs, is not found\n"))
    # A program in no folder can be called by a tool too.
    shutil.rmtree(house.out)
    no_place_in(house.released())
    write(f"{house.top}/tools/query.py", 'import os, subprocess\nsubprocess.run([os.environ["ANYK_PROGRAM"], "a", "b"])\n')
    same(house.call("query", more={"HOME": f"{house.room}/none"}), (0, ran("release", house.top, ["a", "b"]), ""))
    # What is no tool is the program's.
    os.remove(f"{house.top}/tools/pairs.py")
    for words in (["pairs", "x"], ["check_proof", "x"], ["hints", "x"], ["build.py"]):
        answers_by(house, "release", *words)


def test_notes(house):
    house.built()
    # What was written in the second of the build is looked at once more, by python3.
    time.sleep(1.1)
    same(house.call("x")[0], 0)
    write(f"{house.top}/tools/notes.py", "import sys\nprint('  a note on', *sys.argv[1:])\nsys.exit(3)\n")
    answer = ran(1, house.top, ["run", "q.sql"])
    same(house.on_terminal("run", "q.sql"), (0, answer, "  a note on run q.sql\n"))
    same(house.call("run", "q.sql", more={"ANYK_HINTS": "1"}), (0, answer, "  a note on run q.sql\n"))
    # In a call that succeeds, no Python is started without either.
    wrapped(house, "python3", 'touch "$RT_ROOM/python"')
    for more in ({}, {"ANYK_HINTS": "0"}, {"ANYK_HINTS": ""}):
        same(house.call("run", "q.sql", more=more), (0, answer, ""))
    same(os.path.exists(f"{house.room}/python"), False)
    # After a refusal there are hints, and no notes.
    os.remove(f"{house.room}/bin/python3")
    files_in(house)
    refusal = {"SAYS": "cyclic query: items 1 2 3", "STATUS": "6", "ANYK_HINTS": "1"}
    status, output, said = house.call("run", "circle.sql", "trains=t.csv", cwd=f"{house.room}/files", more=refusal)
    same((status, output, "a note" in said), (6, "", False))
    has(said, "anyk: cyclic query: items 1 2 3\n  item 1 is a (table trains)\n")
    # With several lines, or none, too.
    same(house.call("x", more={**refusal, "SAYS": "one\ntwo", "STATUS": "13"})[2], "anyk: one\ntwo\n")


def test_version(house):
    no_build = {"ANYK_NO_BUILD": "1"}
    for word in ("--version", "-V", "version"):
        same(house.call(word, more=no_build), (0, "anyk 1.0.0\n", ""))
    house.released(kit="another kit of tests")
    released = f"kit another kit of tests\nprogram {house.out}/release/anyk_cli\n"
    same(house.call("--version"), (0, f"anyk 1.0.0\n{released}", ""))
    same(house.calls(), [])
    house.call("build")
    same(house.call("--version"), (0, f"anyk 1.0.0\nkit a kit of tests\nprogram {house.program}\n", ""))
    shutil.rmtree(house.out)
    no_place_in(house)
    same(house.call("-V", more={"HOME": f"{house.room}/none"}),
         (0, "anyk 1.0.0\nkit another kit of tests\nprogram of release/, in no folder that can be written\n", ""))
    shutil.rmtree(house.top + "/release")
    git = ["git", "-c", "user.name=a", "-c", "user.email=a", "-c", "init.defaultBranch=main"]
    if not shutil.which("git", path=house.env["PATH"]):
        raise Skipped("there is no git here")
    for words in (["init", "-q"], ["add", "anyk", "VERSION"], ["commit", "-qm", "x"]):
        subprocess.run([*git, *words], check=True, **house.how())
    commit = subprocess.run([*git, "rev-parse", "HEAD"], check=True, stdout=subprocess.PIPE, **house.how()).stdout.decode()[:12]
    for more in ({}, {"GIT_DIR": "/none"}):
        same(house.call("version", more={**no_build, **more}), (0, f"anyk 1.0.0\ncommit {commit}\n", ""))
    write(f"{house.top}/VERSION", "1.0.1\n")
    same(house.call("version", more=no_build), (0, f"anyk 1.0.1\ncommit {commit}, with changes\n", ""))
    house.built()
    same(house.call("version", by=["sh", "anyk"])[1].splitlines()[-1], f"program {house.program}")
    for words in (["version", "x"], ["--version", "-V"], ["Version"]):
        same(house.call(*words)[1], ran(1, house.top, words))


def test_older_python(house):
    for it in glob.glob(f"{TOP}/tools/*.py"):
        ast.parse(read(it), feature_version=(3, 7))
        check(not re.search(r"\.remove(pre|suf)fix\(", read(it)), it)
    older = [it for it in (shutil.which(f"python3.{minor}") for minor in range(7, 11)) if it and not subprocess.call([it, "-ISc", ""], stderr=subprocess.DEVNULL)]
    if not older:
        raise Skipped("there is no older python here")
    files_in(house)
    for number, python in enumerate(older):
        os.makedirs(f"{house.room}/older/{number}")
        os.symlink(python, f"{house.room}/older/{number}/python3")
        more = {"PATH": f"{house.room}/older/{number}:{house.env['PATH']}"}
        house.version(number)
        same((python, house.call("x", more=more)[:2]), (python, (0, ran(number, house.top, ["x"]))))
        said = house.on_terminal("run", *WORDS[:2], cwd=f"{house.room}/files", more={**more, "SAYS": "byte 42: unknown table", "STATUS": "4"})[2]
        has(said, "the arguments name the table trains")
        said = house.on_terminal("session", "--script", "s3.txt", *WORDS, cwd=f"{house.room}/files", more={**more, "SAYS": "script line 3: cursor exists", "STATUS": "3"})[2]
        has(said, "a was opened in line 2")
        same((python, pictured(house, REPORT, "airports.sql", more={**more, "REPORT": f"{house.room}/report"})), (python, (0, TREE, "")))


def test_picture_refused(house):
    house.built()
    for line, status in (("usage", 2), ("cyclic query: items 1 2 3", 6), ("file q.sql: not found", 9), ("out of memory", 12)):
        same(house.call("picture", "q.sql", "a=b", more={"SAYS": line, "STATUS": str(status)}), (status, "", f"anyk: {line}\n"))
    same(house.call("picture", "x", more={"SAYS": "", "REPORT": "/dev/null"}), (0, "", ""))
    # The hint is that of plan.
    files_in(house)
    said = [house.on_terminal(it, "circle.sql", "trains=t.csv", cwd=f"{house.room}/files", more={"SAYS": "cyclic query: items 1 2 3", "STATUS": "6"})
            for it in ("plan", "picture")]
    same(said[0], said[1])
    # A report of another form, and one that was cut off.
    for report in (ran(1, house.top, ["plan"]), REPORT[:-1], REPORT + "x", "total 3\n", REPORT.replace("node 3", "node 4"), REPORT.replace("parent 2", "parent 7")):
        same(pictured(house, report, "airports.sql"), (1, "", "anyk: the report of plan has another form than picture can read\n"))
    # An output that cannot be written.
    for to in (">&-", "> /dev/full"):
        by = ["sh", "-c", f'exec "$0" "$@" {to}', f"{house.top}/anyk"]
        same(pictured(house, REPORT, "airports.sql", by=by), (11, "", "anyk: write failed\n"))
    few = few_commands(house, *NEEDED)
    time.sleep(1.1)
    same(house.call("x")[0], 0)
    same(house.call("picture", "q.sql", more=few), (1, "", "anyk: python3, which picture needs, is not found\n"))
    # An interrupt ends the call and the program.
    write(f"{house.room}/program", PROGRAM.replace("[ $# -gt 0 ]", '[ "$1" != plan ] || { touch "$RT_ROOM/begun"; sleep 30; }\n[ $# -gt 0 ]'))
    house.built(2)

    def interrupt(begun):
        until(lambda: os.path.exists(f"{house.room}/begun"))
        os.killpg(begun.pid, signal.SIGINT)

    def interrupted():
        if os.path.exists(f"{house.room}/begun"):
            os.remove(f"{house.room}/begun")
        return house.on_terminal("picture", "q.sql", "a=b", after=interrupt)[:2]

    # (On a loaded machine the signal may meet the program while it is being started, so there are three tries.)
    same((-signal.SIGINT, "") in (interrupted() for _ in range(3)), True)


def files_below(folder):
    return sorted(os.path.relpath(f"{at}/{it}", folder) for at, _, files in os.walk(folder) for it in files)


# What is in tools/ for a checkout alone.
OF_CHECKOUT = ("build.py", "current.pl", "edits.py", "gate_times.py", "gate_times.tsv", "installed.sh", "proof_costs.py", "release.py", "release.sh")


def installed_files():
    """What install puts under a folder, besides its lists."""
    wanted = ["bin/anyk", "libexec/anyk/anyk_cli", "share/anyk/VERSION", "share/bash-completion/completions/anyk", "share/fish/vendor_completions.d/anyk.fish",
              "share/man/man1/anyk.1", "share/zsh/site-functions/_anyk", *(f"share/doc/anyk/{it}" for it in ("LICENSE", *USER_PAGES))]
    wanted += [f"share/anyk/{it}" for it in os.listdir(f"{TOP}/tools") if it not in (*OF_CHECKOUT, "completions", "help", "__pycache__")]
    wanted += [f"share/anyk/help/{it}" for it in os.listdir(f"{TOP}/tools/help")]
    return sorted([*wanted, *(f"share/doc/anyk/using/{it}" for it in os.listdir(f"{TOP}/docs/using"))])


LISTS = ["share/anyk/SHA256SUMS", "share/anyk/folders"]


def test_install(house):
    to = f"{house.room}/an empty folder"
    house.version(1)
    same(house.call("install", to, umask=0o077)[0:2], (0, f"anyk: installed as {to}/bin/anyk\n"))
    same(house.links(), 1)
    same(files_below(to), sorted(installed_files() + LISTS))
    check("share/anyk/hints.py" in files_below(to) and "share/anyk/weights.py" in files_below(to))
    # A second time, over what is there, and by a folder that is named from where the call is.
    same(house.call("install", "../an empty folder")[0], 0)
    others = [{}]
    try:
        others.append(as_nobody(house))
    except Skipped:
        pass
    os.rename(house.top, f"{house.room}/gone")
    files_in(house)
    by, cwd = [f"{to}/bin/anyk"], f"{house.room}/files"
    for other in others:
        same(house.call("a b", by=by, cwd=cwd, **other), (0, ran(1, cwd, ["a b"]), ""))
    same(house.call("x", by=by, cwd=cwd, more={"GLIBC_TUNABLES": ""})[1], ran(1, cwd, ["x"], ""))
    os.symlink(f"{to}/bin/anyk", f"{house.room}/bin/anyk")
    for call in (["anyk"], ["sh", f"{to}/bin/anyk"]):
        same(house.call("x", by=call, cwd=cwd)[1], ran(1, cwd, ["x"]))
    same(house.call("x", by=["bash", "anyk"], cwd=f"{to}/bin")[1], ran(1, f"{to}/bin", ["x"]))
    for words in (["help", "run"], ["run", "--help"]):
        same(house.call(*words, by=by, cwd=cwd), (0, read(f"{TOP}/tools/help/run.txt"), ""))
    program = f"{to}/bin/../libexec/anyk/anyk_cli"
    same(house.call("--version", by=by, cwd=cwd), (0, f"anyk 1.0.0\nkit a kit of tests\nprogram {program}\n", ""))
    same(house.call("x", "\udcff", by=by, cwd=cwd)[2], "anyk: argument 2 is not UTF-8\n")
    same(house.call(by=by, cwd=cwd), (2, "", "anyk: usage\n"))
    said = house.on_terminal("run", "circle.sql", by=by, cwd=cwd, more={"SAYS": "cyclic query: items 1 2 3", "STATUS": "6"})[2]
    has(said, "item 2 is b (table trains)", f"{to}/share/doc/anyk/COOKBOOK.md")
    same(pictured(house, REPORT, "airports.sql", by=by, cwd=cwd), (0, TREE, ""))
    write(f"{house.room}/prices.csv", "price\n12.50\n")
    same(house.call("weights", "--scale", "100", f"{house.room}/prices.csv", "price", by=by, cwd=cwd)[:2], (0, "price\n1250\n"))
    same(house.on_terminal("stay", by=by, cwd=cwd, after=lambda it: end_launcher(house, it, signal.SIGTERM))[:2], (-signal.SIGTERM, ""))
    os.remove(f"{to}/libexec/anyk/anyk_cli")
    same(house.call("x", by=by, cwd=cwd), (1, "", f"anyk: {program}, which is the program, is not there: install it again\n"))


def test_installed_links(house):
    house.built()
    to = f"{house.room}/to"
    same(house.call("install", to)[0], 0)
    pages = [it for it in files_below(to) if it.endswith(".md")]
    same(pages, [f"share/doc/anyk/{it}" for it in sorted(USER_PAGES)])
    for page in pages:
        text = read(f"{to}/{page}")
        links = re.findall(r"\]\(([^)#]+)", text)
        for link in links:
            check(link.startswith("https://") or os.path.exists(f"{to}/{os.path.dirname(page)}/{link}"), page, link)
        # Nothing else is changed.
        source = re.sub(r"(?m)^!\[.*\n", "", read(f"{TOP}/docs/{os.path.basename(page)}"))
        same(*(re.sub(r"\[([^]]*)\]\([^)]*\)", r"\1", it) for it in (text, source)))
    check("](SECURITY.md" in read(f"{to}/share/doc/anyk/REFERENCE.md"))


def test_uninstall(house):
    house.built()
    to, lists = f"{house.room}/to", [f"anyk: removed from {house.room}/to\n", ""]
    # From nothing to nothing, by the checkout or by what was installed.
    for by in (None, [f"{to}/bin/anyk"]):
        same(house.call("install", to)[0], 0)
        same(house.call("install", to)[0], 0)
        same(house.call("uninstall", to, by=by), (0, *lists))
        same(os.path.exists(to), False)
        same(house.call("uninstall", to), (1, "", f"anyk: nothing was installed under {to}, or by a version that kept no list of it\n"))
    # Files and folders of others stay, and so does what was changed.
    others = ["bin/other", "share/anyk/mine", "share/man/man1/other.1", "notes"]
    for it in others:
        write(f"{to}/{it}", "another's\n")
    os.makedirs(f"{to}/share/zsh/site-functions")
    same(house.call("install", "to", cwd=house.room, by=["a house/anyk"])[0], 0)
    write(f"{to}/share/anyk/help/run.txt", "changed\n")
    os.remove(f"{to}/share/anyk/help/plan.txt")
    same(house.call("uninstall", "to/", cwd=house.room, by=["a house/anyk"]),
         (0, "anyk: removed from to/\n", "anyk: to//share/anyk/help/run.txt was changed since, and is left\n"))
    same(files_below(to), sorted([*others, "share/anyk/help/run.txt"]))
    same(sorted(os.listdir(f"{to}/share")), ["anyk", "man", "zsh"])
    # What an earlier version has put there, and this one has not, goes when this one is installed.
    os.remove(f"{to}/share/anyk/help/run.txt")
    write(f"{house.top}/tools/old.py", "# An old tool.\n")
    same(house.call("install", to)[0], 0)
    os.remove(f"{house.top}/tools/old.py")
    check("share/anyk/old.py" in files_below(to))
    same(house.call("install", to)[0], 0)
    same(files_below(to), sorted([*others, *installed_files(), *LISTS]))
    # A list that names files elsewhere does nothing there.
    for name in (f"{house.room}/program", "../program"):
        with open(f"{to}/share/anyk/SHA256SUMS", "a") as it:
            it.write(f"{sha256(open(f'{house.room}/program', 'rb').read()).hexdigest()}  {name}\n")
    same(house.call("uninstall", to), (0, *lists))
    same([os.path.exists(f"{house.room}/program"), files_below(to)], [True, sorted(others)])
    for words in ([], [""], ["a", "b"], ["-x"]):
        same(house.call("uninstall", *words), (2, "", "anyk: usage\n"))


def test_packed(house):
    house.released()
    packed = f"{house.room}/a b/anyk.tar.gz"
    os.mkdir(f"{house.room}/a b")
    watch_mktemp(house)
    for more in ({}, {"TMPDIR": f"{house.room}/none"}, {"TMPDIR": None}):
        same(house.call("release", "../a b/anyk.tar.gz", more=more), (0, "anyk: packed as ../a b/anyk.tar.gz\n", ""))
        check(all("release" in it or not os.path.exists(it) for it in made_by(house)))
        same(os.listdir(f"{house.room}/a b"), ["anyk.tar.gz"])
    with open(packed, "rb") as it:
        before = it.read()
    same(house.call("release", packed)[0], 0)
    with open(packed, "rb") as it:
        check(before == it.read(), "its bytes are others")
    subprocess.run(["tar", "-xzf", packed], check=True, **house.how(cwd=house.room))
    to = f"{house.room}/anyk-1.0.0"
    same(files_below(to), sorted(["LICENSE", "README", "SHA256SUMS", *installed_files()]))
    ran_by = subprocess.run(["sha256sum", "--quiet", "-c", "SHA256SUMS"], **house.how(cwd=to, capture_output=True, text=True))
    same((ran_by.stdout, ran_by.stderr, len(read(f"{to}/SHA256SUMS").splitlines())), ("", "", len(installed_files()) + 2))
    os.rename(house.top, f"{house.room}/gone")
    # It needs bash alone, and what the stand-in for the program needs.
    few = few_commands(house, "bash", "sh")
    same(house.call("x", by=["bash", f"{to}/bin/anyk"], cwd=house.room, more=few), (0, ran("release", house.room, ["x"]), ""))
    same(house.call("help", "run", by=["bash", f"{to}/bin/anyk"], cwd=house.room, more=few), (0, read(f"{TOP}/tools/help/run.txt"), ""))
    same(house.call("version", by=[f"{to}/bin/anyk"], cwd=house.room)[1], f"anyk 1.0.0\nkit a kit of tests\nprogram {to}/bin/../libexec/anyk/anyk_cli\n")
    same(house.call("uninstall", to, by=[f"{to}/bin/anyk"], cwd=house.room)[0], 1)
    os.rename(f"{house.room}/gone", house.top)
    for words in ([], [""], ["a.tar.gz", "b"], ["-x.tar.gz"], ["a.zip"]):
        same(house.call("release", *words), (2, "", "anyk: usage\n"))
    for name in (f"{house.room}/none/x.tar.gz", f"{house.room}/program/x.tar.gz"):
        status, output, error = house.call("release", name)
        same((status, output), (1, ""))
        has(error, f"anyk: {name} could not be made\n")


def test_install_fails(house):
    house.built()
    write(f"{house.room}/file", "")
    status, output, error = house.call("install", f"{house.room}/file")
    same((status, output), (1, ""))
    has(error, f"anyk: not all of it could be put under {house.room}/file\n")
    status, output, error = house.call("install", f"{house.room}/x", more={"ANYK_NO_BUILD": "1"})
    same(status, 0)
    house.source("low", "src/lib.rt", "BROKEN\n")
    status, output, _ = house.call("install", f"{house.room}/y")
    same((status, output, os.path.exists(f"{house.room}/y")), (1, "", False))


def test_manual(house):
    house.built()
    same(house.call("install", f"{house.room}/to")[0], 0)
    if not shutil.which("man"):
        raise Skipped("there is no man here")
    how = house.how({"MANPATH": f"{house.room}/to/share/man", "PATH": os.environ["PATH"], "MANPAGER": "cat"}, capture_output=True, text=True)
    shown = subprocess.run(["man", "anyk"], **how)
    if shown.returncode and "minimized" in shown.stdout + shown.stderr:
        raise Skipped("man shows nothing here")
    same(shown.returncode, 0)
    has(re.sub(r".\x08", "", shown.stdout), "print the answers of a join of csv tables", "EXIT STATUS", "--script FILE")
    warned = subprocess.run(["man", "--warnings", "-l", f"{house.room}/to/share/man/man1/anyk.1"], **how)
    same(warned.stderr, "")


def test_completion(house):
    script = f"""
        . '{TOP}/tools/completions/anyk.bash'
        complete_at() {{ COMP_WORDS=("$@"); COMP_CWORD=$(($# - 1)); _anyk; printf '%s\\n' "${{COMPREPLY[*]}}"; }}
        cd '{TOP}/docs/using'
        complete_at anyk r
        complete_at anyk run --
        complete_at anyk session --s
        complete_at anyk run --engine ''
        complete_at anyk run --engine = r
        complete_at anyk run stay
        complete_at anyk run stay.sql trains = tra
        complete_at anyk run stay.sql trains =
        complete_at anyk load ''
        complete_at anyk help p
        complete_at anyk plan --
        complete_at anyk picture -
        complete_at anyk picture stay
        complete_at anyk picture stay.sql trains = tra
        complete_at anyk pic
        complete_at anyk verify --p
        complete_at anyk verify --proof first
        complete_at anyk run --engine =
        complete_at anyk run --best-of =
        complete_at anyk run --best-of = a
        complete_at anyk load --rows ''
        complete_at anyk run --rows fi
        complete_at anyk version ''
        complete_at anyk check-
        complete_at anyk weights tra
        complete_at anyk un
        complete_at anyk query --t
        complete_at anyk weights --dr
        complete_at anyk merge --
        complete_at anyk pairs --
        complete_at anyk check-proof --s
    """
    ran_by = subprocess.run(["bash", "-c", script], capture_output=True, text=True)
    lines = ran_by.stdout.splitlines()
    same((ran_by.returncode, ran_by.stderr), (0, ""))
    check("stay.sql" in lines[7] and "trains.csv" in lines[7], lines[7])
    same(lines[:7] + lines[8:], ["run release", "--engine --ranks --rows --best-of", "--script", "part rec", "rec", "stay.sql", "trains.csv",
                                 "--engine --number --rows", "plan picture prove pairs", "", "--dot", "stay.sql", "trains.csv",
                                 "picture", "--proof", "first_two.sql", "part rec", "", "", "", "first_two.sql",
                                 "", "check-proof", "trains.csv", "uninstall", "--table --tsv", "--drop --drop-empty", "--limit --descending",
                                 "--by --from --to --least --most", "--seal"])
    for shell, file in (("zsh", "_anyk"), ("fish", "anyk.fish"), ("bash", "anyk.bash")):
        if shutil.which(shell):
            tried_by = subprocess.run([shell, "-n", f"{TOP}/tools/completions/{file}"], **house.how(capture_output=True))
            same((shell, tried_by.stderr), (shell, b""))
    # In zsh what an option takes may come after a = too.
    options = re.findall(r"'--([a-z-]+)(=?)\[", read(f"{TOP}/tools/completions/_anyk"))
    same({it for it, sign in options if sign}, {"engine", "best-of", "script", "proof", "number", "rows"})
    if shutil.which("fish"):
        for line, wanted in (("anyk load ", ""), ("anyk load --n", "--number"), ("anyk install us", "using/"), ("anyk plan us", "using/"), ("anyk run --engine=r", "--engine=rec")):
            shown = subprocess.run(["fish", "-c", f"source '{TOP}/tools/completions/anyk.fish'; complete -C '{line}'"],
                                   **house.how(capture_output=True, text=True, cwd=f"{TOP}/docs"))
            same((line, sorted(it.partition("\t")[0] for it in shown.stdout.splitlines())), (line, sorted(wanted.split())))


def test_scripts_are_clean(house):
    if not shutil.which("shellcheck"):
        raise Skipped("there is no shellcheck here")
    scripts = [f"{folder}/{it}" for folder in ("tools", "bench", "tests") for it in sorted(os.listdir(f"{TOP}/{folder}")) if it.endswith(".sh")]
    scripts += ["anyk", ".ci/run", "tools/completions/anyk.bash"]
    same(subprocess.run(["shellcheck", *scripts], cwd=TOP, capture_output=True, text=True).stdout, "")


def clean_environment():
    """Lets what the tests start see nothing of the caller's environment but the PATH."""
    kept = {"PATH": os.environ.get("PATH", SYSTEM), "TMPDIR": tempfile.gettempdir(), "HOME": tempfile.gettempdir(), "LANG": "C.UTF-8"}
    os.environ.clear()
    os.environ.update(kept)


def tried(name):
    """How a test ends, in a checkout of its own: what is to be said of it, and whether it failed."""
    house = House()
    try:
        globals()[name](house)
        return "", False
    except Skipped as why:
        return f"launcher: {name}: SKIPPED, {why}\n", False
    except Exception as why:
        return f"launcher: {name}: FAILED, {type(why).__name__}: {why}\n", True
    finally:
        house.end()


def main():
    tests = [it for it in globals() if it.startswith("test_")]
    tests = [it for it in arguments(__doc__, "", takes_more=True) if it in tests] or tests
    clean_environment()
    # What is started heeds these signals, even if this script was started in the background, which ignores them.
    signal.signal(signal.SIGINT, signal.default_int_handler)
    signal.signal(signal.SIGHUP, signal.SIG_DFL)
    # Most of them wait for others.
    with ThreadPoolExecutor(8) as pool:
        results = list(pool.map(tried, tests))
    print(*(said for said, _ in results), sep="", end="")
    failed = sum(is_failed for _, is_failed in results)
    print(f"launcher: {len(tests)} tests: " + (f"FAILED: {failed}" if failed else "passed"))
    return 1 if failed else 0


if __name__ == "__main__":
    sys.exit(main())
