"""What the launcher's scripts share of proofs: how the kit's prover is called for many crates side by side, how far it is,
and what is kept of each proved library in the folder `out`.
"""

import contextlib
import fcntl
import hashlib
import os
import re
import shutil
import signal
import subprocess
import sys
import tempfile
import time

from measured import note, processor, read_seconds
from sources import LIBRARY, OUT, PROGRAM, Failed, all_below, files_of, is_static, names_of, read_crates, read_listed
from sources import say, size_of

LOG = os.path.join(OUT, "log")
LIBRARIES = os.path.join(OUT, "libraries")
# What is begun of the exports' proof, so that it goes on where it was stopped.
BEGUN = os.path.join(OUT, "begun")


class Progress:
    """One line on standard error: rewritten on a terminal, and written now and then elsewhere."""

    def __init__(self, total=0):
        self.total, self.done, self.began = total, 0, time.monotonic()
        self.terminal, self.last = sys.stderr.isatty(), -60.0

    def gone(self):
        seconds = int(time.monotonic() - self.began)
        return f"{seconds // 60}:{seconds % 60:02d}"

    def show(self, running):
        self.tell(
            f"{self.done} of {self.total} crates proved, {self.gone()} minutes gone, proving {', '.join(running)}"
        )

    def tell(self, text):
        since = time.monotonic() - self.last
        if since < (1 if self.terminal else 30):
            return
        self.last = time.monotonic()
        line = f"stm: {text}"
        if self.terminal:
            width = shutil.get_terminal_size().columns - 1
            sys.stderr.write("\r\033[K" + line[:width])
            sys.stderr.flush()
        else:
            print(line, file=sys.stderr, flush=True)

    def clear(self):
        if self.terminal:
            sys.stderr.write("\r\033[K")
            sys.stderr.flush()


def processors_and_memory():
    """How many proofs may be under way at once, and how many bytes they may take together."""
    with open("/proc/meminfo") as lines:
        free = next(int(line.split()[1]) for line in lines if line.startswith("MemAvailable:"))
    return len(os.sched_getaffinity(0)), 0.85 * 1024 * free


class Proofs:
    """The proofs of the crates that are named, side by side: which are done, which are under way, and what to begin
    next. Those that are named as `beside` are proved meanwhile, one at a time, where there is memory for them; nobody
    waits for them, and where the proof of a static library is stopped the next call goes on from there. What is kept of
    others stays as long as they are crates of the program or of the library."""

    def __init__(self, tree, names, kit, beside=()):
        self.tree, self.names, self.kit, self.beside = tree, names, kit, list(beside)
        self.listed, self.crates = read_listed(tree), read_crates(tree)
        products = [product.crate for product in (PROGRAM, LIBRARY) if product.crate in self.crates]
        self.others = {name for crate in products for name in names_of(crate, tree)}
        self.sums, self.done, self.running, self.meanwhile = self.digests(), set(), {}, {}
        self.lanes, self.memory = processors_and_memory()
        self.sizes = {name: size_of(name, tree) for name in [*names, *beside]}
        # how long the longest chain takes that begins with a crate, in seconds
        self.behind, seconds, self.measured = {}, self.seconds(), {}
        for name in reversed(names):
            above = [self.behind[other] for other in names if name in self.crates[other] and other in self.behind]
            self.behind[name] = seconds[name] + max(above, default=0)

    def seconds(self):
        """How long each proof takes of one processor, as it was measured; for one that was not, as for its size of code."""
        measured, codes = read_seconds(), {name: size_of(name, self.tree, ".rt") for name in self.names}
        known = [name for name in self.names if ("proof", name) in measured]
        # Measured are the dear ones.
        rate = 0.6 * sum(measured["proof", name] for name in known) / max(1, sum(codes[name] for name in known)) or 0.005
        return {name: measured.get(("proof", name), 10 + rate * codes[name]) for name in self.names}

    def digests(self):
        """What each crate's proof rests on: the kit, its sources, and those of the crates below it."""
        with open(os.path.join(self.tree, "crates.txt"), "rb") as listed:
            lines = {line.split(b":")[0].split()[0].decode(): line for line in listed if b":" in line.split(b"#")[0]}
        sums = {}
        for name in [*self.names, *self.beside]:
            found = hashlib.sha256(self.kit.mark + lines[name])
            for file in files_of(name, self.tree):
                with open(file, "rb") as source:
                    content = source.read()
                found.update(
                    f"{os.path.relpath(file, os.path.join(self.tree, 'crates'))} {len(content)}\n".encode() + content
                )
            for below in self.crates[name]:
                found.update(sums[below].encode())
            sums[name] = found.hexdigest()
        return sums

    def take_kept(self):
        """Counts as done each library that was proved before, of the same sources over the same libraries. What is no
        crate of a product any more goes."""
        os.makedirs(LIBRARIES, exist_ok=True)
        for name in os.listdir(LIBRARIES):
            if name not in self.others:
                shutil.rmtree(os.path.join(LIBRARIES, name), ignore_errors=True)
        for name in [*self.names, *self.beside]:
            try:
                with open(os.path.join(LIBRARIES, name, "stamp")) as stamp:
                    kept = stamp.read() == self.sums[name]
            except OSError:
                kept = False
            if kept:
                self.done.add(name)
                shutil.rmtree(os.path.join(BEGUN, name), ignore_errors=True)

    def need(self, name, jobs):
        return (1_200_000_000 + 6_000 * self.sizes[name]) * (1 + 0.6 * (jobs - 1))

    def begin_ready(self):
        """Begins what can be begun: the crate with the longest chain above it first, with the lanes that no other
        wants."""
        ready = [name for name in self.names if name not in self.done and name not in self.running]
        ready = [name for name in ready if all(below in self.done for below in self.crates[name])]
        ready.sort(key=lambda name: -self.behind[name])
        for place, name in enumerate(ready):
            idle = self.lanes - sum(run.jobs for run in self.running.values())
            room = self.room()
            jobs = max(1, min(4, idle // (len(ready) - place)))
            while jobs > 1 and self.need(name, jobs) > room:
                jobs -= 1
            if idle > 0 and (not self.running or self.need(name, jobs) <= room):
                self.running[name] = Run(self, name, jobs)

        self.begin_beside()

    def room(self):
        """The bytes that no proof under way may want."""
        return self.memory - sum(run.need for run in [*self.running.values(), *self.meanwhile.values()])

    def begin_beside(self):
        """Begins what nobody waits for, where nothing of it is under way and there is room."""
        for name in self.beside if self.running and not self.meanwhile else []:
            if name in self.done or any(below not in self.done for below in self.crates[name]):
                continue
            # The exports' proof begins late, when lanes are idle.
            jobs = 4 if is_static(name, self.tree) else 2
            while jobs > 1 and self.need(name, jobs) > self.room():
                jobs -= 1
            if self.need(name, jobs) <= self.room():
                self.meanwhile[name] = Run(self, name, jobs)
                self.meanwhile[name].give_way()
                return

    def end_beside(self, log):
        """Takes out what has ended of what nobody waits for. Where it is refused it is not tried again."""
        for name in [name for name, run in self.meanwhile.items() if run.has_ended()]:
            run = self.meanwhile.pop(name)
            told = run.told()
            log.write(f"== {name}\n{told}")
            if run.child.returncode == 0 and is_proved(told):
                run.keep()
                self.done.add(name)
            else:
                self.beside.remove(name)
            self.begin_beside()

    def end_ended(self, log):
        """Takes out what has ended, and keeps what is proved of it, also where another crate is refused. Whether any
        has."""
        self.end_beside(log)
        ended, refused = [name for name, run in self.running.items() if run.has_ended()], None
        for name in ended:
            run = self.running.pop(name)
            told = run.told()
            log.write(f"== {name}\n{told}")
            log.flush()
            if run.child.returncode == -signal.SIGKILL and run.jobs > 1:
                log.write(f"{name} was killed, most likely as memory ran out: once more, alone\n")
                self.lanes = 1
                continue
            if run.child.returncode == 0 and is_proved(told):
                run.keep()
                self.done.add(name)
                self.measured[name] = run.seconds
            else:
                refused = refused or refusal(name, told)
        if refused:
            raise Failed(refused)
        return bool(ended)

    def stop(self):
        for run in [*self.running.values(), *self.meanwhile.values()]:
            run.stop()


class Run:
    """The proof of one crate, under way."""

    def __init__(self, proofs, name, jobs):
        self.name, self.jobs, self.need, self.sum = name, jobs, proofs.need(name, jobs), proofs.sums[name]
        self.seconds = 0
        self.place = os.path.join(LIBRARIES, name)
        shutil.rmtree(self.place, ignore_errors=True)
        os.makedirs(self.place)
        self.output = tempfile.TemporaryFile("w+", errors="replace")
        words = proofs.kit.words(proofs, name, jobs, self.place)
        where = os.path.join(proofs.tree, "crates", name)
        quiet = {"stdin": subprocess.DEVNULL, "stdout": self.output, "stderr": subprocess.STDOUT}
        self.child = subprocess.Popen(words, cwd=where, start_new_session=True, **quiet)

    def give_way(self):
        """All others go first, also where the system shares its time out by sessions."""
        try:
            os.setpriority(os.PRIO_PROCESS, self.child.pid, 19)
            with open(f"/proc/{self.child.pid}/autogroup", "w") as group:
                group.write("19")
        except OSError:
            pass

    def has_ended(self):
        """Whether it has; what it took is known then."""
        before = processor()
        if self.child.returncode is None and self.child.poll() is not None:
            self.seconds = processor() - before
        return self.child.returncode is not None

    def told(self):
        self.output.seek(0)
        return self.output.read()

    def keep(self):
        with open(os.path.join(self.place, "stamp"), "w") as stamp:
            stamp.write(self.sum)
        shutil.rmtree(os.path.join(BEGUN, self.name), ignore_errors=True)

    def stop(self):
        try:
            os.killpg(self.child.pid, signal.SIGKILL)
        except ProcessLookupError:
            pass
        self.child.wait()


class Kit:
    """The kit's prover and its linker, and how they are called."""

    def __init__(self, version):
        self.at = os.path.dirname(os.path.dirname(os.path.realpath(shutil.which("rt"))))
        self.prover, self.linker = os.path.join(self.at, "bin", "rattle"), os.path.join(self.at, "bin", "rattle-link")
        stat = os.stat(self.prover)
        self.mark = f"{version} {stat.st_size} {stat.st_mtime_ns}\n".encode()

    def rlib(self, name):
        return os.path.join(self.at, "rlibs", name + ".rlib")

    def words(self, proofs, name, jobs, place):
        """The call that proves a crate from nothing, a static library from what was begun of it, and builds its library,
        its archive or the program's object file."""
        is_program = os.path.isfile(os.path.join(proofs.tree, "crates", name, "src", "main.rt"))
        words = [self.prover, "build", "--crate-name", name, "src/main.rt" if is_program else "src/lib.rt"]
        for other in ["std", *(other for other in proofs.listed[name] if other not in proofs.crates)]:
            words += ["--extern", f"{other}={self.rlib(other)}"]
        words += ["-L", f"dependency={os.path.join(self.at, 'rlibs')}"]
        for below in proofs.crates[name]:
            words += ["--extern", f"{below}={os.path.join(LIBRARIES, below, below + '.rlib')}"]
        for below in all_below(proofs.crates, name):
            words += ["-L", f"dependency={os.path.join(LIBRARIES, below)}"]
        words += ["--antt-project", os.path.join(self.at, "rattle", "logic", "antt-project.json")]
        words += ["--logic-built", os.path.join(self.at, "logic_built"), "--links", f"{name}=", "--jobs", str(jobs)]
        tools = ["--toolchain", os.path.join(self.at, "toolchain")]
        if is_program:
            return [*words, *tools, "-o", os.path.join(place, name + ".o")]
        if is_static(name, proofs.tree):
            os.makedirs(os.path.join(BEGUN, name), exist_ok=True)
            words += ["--incremental", os.path.join(BEGUN, name), "--crate-type", "staticlib"]
            return [*words, *tools, "-o", os.path.join(place, f"lib{name}.a")]
        return [*words, "--statements", "-o", os.path.join(place, name + ".rlib")]

    def link(self, made, program):
        """Links the program, and says why it can't be linked."""
        words = [self.linker, "--target", "x86_64-unknown-linux-gnu", "--toolchain", os.path.join(self.at, "toolchain")]
        libraries = [os.path.join(self.at, "c", name) for name in ("libos_c.a", "liblibc_c.a")]
        ran = subprocess.run(
            [*words, "-o", program, made, *libraries], capture_output=True, text=True, errors="replace"
        )
        if ran.returncode != 0:
            raise Failed("\n".join(["it can't be linked", *(ran.stdout + ran.stderr).splitlines()[-40:]]))


def is_proved(told):
    """Whether the prover's last line says that the crate is proved, with nothing left out."""
    last = told.rstrip("\n").rpartition("\n")[2]
    return last.startswith("logic=proved ") and " bugs=" not in last


def refusal(name, told):
    """What the prover wrote of the crate that it refused: not of what it loaded, and not of what is proved."""
    silent = re.compile(r"(statements|library|crate|axioms|checked|so far:|logic) |.* proved$|logic=")
    lines = [line for line in told.splitlines() if not silent.match(line)]
    return "\n".join([f"{name} is not proved", *lines[-40:]])


def prove(proofs, log):
    """Has the kit prove and build all, and shows how far it is."""
    progress = Progress(len(proofs.names))
    proofs.take_kept()
    try:
        proofs.begin_ready()
        while proofs.running:
            progress.done = sum(name in proofs.done for name in proofs.names)
            progress.show(list(proofs.running))
            time.sleep(0.1)
            if proofs.end_ended(log):
                proofs.begin_ready()
    finally:
        proofs.stop()
        progress.clear()
        note("proof", proofs.measured)
    return progress.gone()


@contextlib.contextmanager
def alone(name="lock"):
    """One build at a time in this clone, of those with one name: another run's is waited for."""
    os.makedirs(OUT, exist_ok=True)
    with open(os.path.join(OUT, name), "w") as lock:
        try:
            fcntl.flock(lock, fcntl.LOCK_EX | fcntl.LOCK_NB)
        except OSError:
            say("another run is building: waiting for it")
            fcntl.flock(lock, fcntl.LOCK_EX)
        yield


def ended(work, *words):
    """Does the work, prints what it answers, and says in a line why it could not. The status."""
    signal.signal(signal.SIGTERM, lambda *_: sys.exit(143))
    try:
        told = work(*words)
    except Failed as failed:
        say(str(failed))
        return failed.status
    except KeyboardInterrupt:
        return 130
    except (OSError, KeyError) as error:
        say(f"cannot build: {error}")
        return 70
    print(told)
    return 0
