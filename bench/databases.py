"""The databases that the program is measured beside: sqlite3, and PostgreSQL if it is installed.

Tables are lists of rows of whole numbers. Seconds are the processor's: for sqlite3 those of a process of its own, and for PostgreSQL
those of the backend that answers, as /proc has them. Both give up a query after PATIENCE such seconds.

PostgreSQL runs in a private cluster in a temporary folder, is reached by a socket there and by no network, and is stopped at the end. It
refuses to run as root, so it runs as NOBODY if the script does. Its columns are bigint, or text if they hold texts, its tables are not logged, it has WORK_MEM for
each sort or hash, no parallel workers and no just-in-time compiler.
"""
import glob
import multiprocessing
import os
import pwd
import shutil
import signal
import sqlite3
import subprocess
import tempfile
import time

PATIENCE = 100
NOBODY = "nobody"
WORK_MEM = "1GB"
SETTINGS = {
    "listen_addresses": "", "fsync": "off", "full_page_writes": "off", "shared_buffers": "512MB", "work_mem": WORK_MEM,
    "maintenance_work_mem": "512MB", "max_parallel_workers_per_gather": "0", "max_parallel_maintenance_workers": "0", "jit": "off",
    "autovacuum": "off", "max_connections": "4",
}


def seconds_of(process):
    """The processor seconds of a process so far."""
    try:
        with open(f"/proc/{process}/schedstat", encoding="ascii") as file:
            return int(file.read().split()[0]) / 1e9
    except (OSError, ValueError, IndexError):
        with open(f"/proc/{process}/stat", encoding="ascii", errors="replace") as file:
            fields = file.read().rpartition(")")[2].split()
        return (int(fields[11]) + int(fields[12])) / os.sysconf("SC_CLK_TCK")


# ---- sqlite3

def type_of(value):
    return "text" if isinstance(value, str) else "bigint"


def in_sqlite(tables, indexes, query, answer):
    start = time.process_time()
    base = sqlite3.connect(":memory:")
    for name, columns, rows in tables:
        base.execute("create table %s (%s)" % (name, ", ".join("%s %s" % (it, type_of(value)) for it, value in zip(columns, rows[0]))))
        base.executemany("insert into %s values (%s)" % (name, ", ".join("?" * len(columns))), rows)
    for name, column in indexes:
        base.execute("create index %s_%s on %s (%s)" % (name, column, name, column))
    base.execute("analyze")
    loaded = time.process_time()
    answer.put(None)
    rows = base.execute(query).fetchall()
    answer.put((time.process_time() - loaded, rows, loaded - start))


def by_sqlite(tables, indexes, query):
    """The seconds of the query alone, its rows, and the seconds of loading: the inserts of rows that Python has read already, the indexes
    and ANALYZE. None if the query was given up. The tables are in memory."""
    answer = multiprocessing.Queue()
    process = multiprocessing.Process(target=in_sqlite, args=(tables, indexes, query, answer))
    process.start()
    try:
        answer.get()
        before = seconds_of(process.pid)
        while seconds_of(process.pid) - before < PATIENCE:
            try:
                return answer.get(timeout=0.2)
            except multiprocessing.queues.Empty:
                pass
        return None
    finally:
        process.terminate()
        process.join()


# ---- PostgreSQL

def program(name):
    """A program of PostgreSQL: beside the server that Debian keeps off the path, or on the path."""
    found = shutil.which(name)
    beside = sorted(glob.glob(f"/usr/lib/postgresql/*/bin/{name}"), key=lambda it: float(it.split("/")[4]))
    return found or (beside[-1] if beside else None)


def is_installed():
    return all(program(it) for it in ("initdb", "postgres", "psql")) and os.path.isdir("/proc/self")


def owner():
    """As whom the server runs: the keywords for subprocess."""
    if os.geteuid():
        return {}
    user = pwd.getpwnam(NOBODY)
    return {"user": user.pw_uid, "group": user.pw_gid, "extra_groups": []}


class Postgres:
    """A private server, and one session with it. It is to be used in a `with`."""

    def __enter__(self):
        self.room = tempfile.mkdtemp(prefix="anyk-pg-")
        self.server = self.session = self.log = None
        try:
            self.start()
        except BaseException:
            self.__exit__()
            raise
        return self

    def start(self):
        if not os.geteuid():
            os.chown(self.room, owner()["user"], owner()["group"])
        data = f"{self.room}/data"
        clean = {"LC_ALL": "C", "PATH": os.environ["PATH"], "HOME": self.room}
        subprocess.run([program("initdb"), "-D", data, "-U", "anyk", "-A", "trust", "-E", "SQL_ASCII", "--no-sync"], cwd=self.room,
                       env=clean, check=True, stdout=subprocess.DEVNULL, **owner())
        settings = [word for name, value in SETTINGS.items() for word in ("-c", f"{name}={value}")]
        self.log = open(f"{self.room}/log", "ab")
        self.server = subprocess.Popen([program("postgres"), "-D", data, "-k", self.room, *settings], cwd=self.room, env=clean,
                                       stdin=subprocess.DEVNULL, stdout=self.log, stderr=self.log, **owner())
        call = [program("psql"), "-X", "-q", "-A", "-t", "-F", ",", "-h", self.room, "-U", "anyk", "-d", "postgres"]
        for _ in range(300):
            if subprocess.run([*call, "-c", "select 1"], env=clean, capture_output=True, check=False).returncode == 0:
                break
            if self.server.poll() is not None:
                raise RuntimeError(f"PostgreSQL did not start: {self.told()}")
            time.sleep(0.1)
        self.session = subprocess.Popen([*call, "-v", "ON_ERROR_STOP=1"], env=clean, text=True, bufsize=1, stdin=subprocess.PIPE,
                                        stdout=subprocess.PIPE, stderr=self.log)
        self.backend = int(self.ask("select pg_backend_pid();")[0])

    def __exit__(self, *_):
        if self.session:
            self.session.stdin.close()
            self.session.wait()
            self.session.stdout.close()
        if self.server:
            self.server.send_signal(signal.SIGINT)
            self.server.wait()
        if self.log:
            self.log.close()
        shutil.rmtree(self.room, ignore_errors=True)

    def ask(self, text):
        """The lines that psql prints for a text."""
        self.session.stdin.write(text + "\n\\echo done\n")
        self.session.stdin.flush()
        lines = []
        for line in self.session.stdout:
            if line == "done\n":
                return lines
            lines.append(line.rstrip("\n"))
        raise RuntimeError(f"psql ended: {self.told()}")

    def told(self):
        """The end of what the server and psql said."""
        with open(f"{self.room}/log", encoding="utf-8", errors="replace") as file:
            return file.read()[-1000:]

    def timed(self, text):
        before = seconds_of(self.backend)
        lines = self.ask(text)
        return seconds_of(self.backend) - before, lines

    def load(self, folder, tables, indexes):
        """Loads tables from the CSV files in a folder, indexes them and has them analysed. Returns the seconds of that."""
        self.ask("drop schema public cascade; create schema public;")
        copies = ["create unlogged table %s (%s);\n\\copy %s from '%s/%s.csv' with (format csv, header)" % (
            name, ", ".join("%s %s" % (it, type_of(value)) for it, value in zip(columns, rows[0])), name, folder, name) for name, columns, rows in tables]
        made = ["create index on %s (%s);" % it for it in indexes]
        return self.timed("\n".join([*copies, *made, *("analyze %s;" % name for name, _, _ in tables)]))[0]

    def query(self, text):
        """The seconds of a query over what was loaded and its rows, or None if it was given up."""
        ended = multiprocessing.Event()
        watch = multiprocessing.Process(target=cancel_late, args=(self.backend, ended))
        watch.start()
        try:
            took, lines = self.timed("\\set ON_ERROR_STOP 0\n%s;\n\\echo :ERROR\n\\set ON_ERROR_STOP 1" % text)
        finally:
            ended.set()
            watch.join()
        if lines[-1] != "false":
            if took < PATIENCE:
                raise RuntimeError(f"PostgreSQL refuses the query: {self.told()}")
            return None
        return took, [tuple(map(int, it.split(","))) for it in lines[:-1]]


def cancel_late(backend, ended):
    """Has a backend give up its query after PATIENCE seconds of its processor time, unless that ended before."""
    before = seconds_of(backend)
    while not ended.wait(0.2):
        if seconds_of(backend) - before >= PATIENCE:
            os.kill(backend, signal.SIGINT)
            ended.wait()
