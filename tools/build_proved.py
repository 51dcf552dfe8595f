#!/usr/bin/env python3
"""Proves and builds the correlator: each crate below it, lowest first, several side by side where none stands on another and
memory allows. What is proved is kept in each crate's out/, so a build that was stopped goes on where it was.

Two runs of the toolchain in one checkout wait for each other where a crate below is the same. So each crate is built in a
folder of its own, which has the sources of it and of the crates below as they are, and what was built of these."""
import hashlib
import os
import shutil
import signal
import subprocess
import sys
import tempfile
import time

sys.dont_write_bytecode = True

from building import PROGRAM, TOP, Lock, Progress, crates, free_memory, lines_of, need_toolchain, stop

# What a check may take.
ROOM = 3_000_000_000
# The words of a run of the built program, and its status for them, which the toolchain's command doesn't use itself.
WORDS = ["run", "--serial", "--events", "no-such-file", "no-such-file"]
MISSING_FILE = 8
SOURCES = ("src", "specs", "proofs")
LOGS = f"{TOP}/out/logs"


def work_place():
    """Where crates are built: on the checkout's disk if that may be, for links from one to the other, and where no check of it looks."""
    if os.path.isdir(f"{TOP}/.git"):
        return f"{TOP}/.git/epl-build"
    above, name = os.path.split(TOP)
    return f"{above if os.access(above, os.W_OK) else tempfile.gettempdir()}/.epl-build-{name}"


WORK = work_place()


def link(one, other):
    """Gives a file a second name, or copies it. The toolchain never writes into a file that is there."""
    try:
        os.link(one, other)
    except OSError:
        shutil.copy2(one, other)


def ways_up(uses):
    """For each crate the most lines that stand on a way from it up to the program, its own included: those with the most go first."""
    found = {}

    def up(name):
        if name not in found:
            found[name] = lines_of(name) + max((up(it) for it in uses if name in uses[it]), default=0)
        return found[name]

    for name in uses:
        up(name)
    return found


class Sums:
    """Sums of all that a crate is built of: its sources, those below it, and the toolchain."""

    def __init__(self, uses):
        self.uses, self.known = uses, {}
        self.toolchain = subprocess.run(["rt", "version"], stdin=subprocess.DEVNULL, capture_output=True).stdout

    def of(self, name):
        if name not in self.known:
            sum = hashlib.sha256(self.toolchain + repr([self.of(it) for it in self.uses[name]]).encode())
            for part in SOURCES:
                for at, folders, files in os.walk(f"{TOP}/crates/{name}/{part}"):
                    folders.sort()
                    for file in sorted(files):
                        with open(f"{at}/{file}", "rb") as it:
                            sum.update(repr((file, it.read())).encode())
            self.known[name] = sum.hexdigest()
        return self.known[name]


class Crate:
    """A crate while it is built, and afterwards."""

    def __init__(self, name, below, sum):
        self.name, self.below, self.sum = name, below, sum
        self.out = f"{TOP}/crates/{name}/out"
        # The program is built last and alone, so it may stand in the checkout.
        self.root = TOP if name == PROGRAM else f"{WORK}/{name}"
        self.run, self.began = None, 0

    def is_built(self):
        """Whether it was built of these very sources. The program is always asked for again, which takes seconds."""
        if self.name == PROGRAM or not os.path.isdir(f"{self.out}/rlib"):
            return False
        try:
            with open(f"{self.out}/built-of", encoding="ascii") as it:
                return it.read() == self.sum
        except OSError:
            return False

    def lay_out(self):
        """Makes the folder in which it is built. What was kept of it goes there, and comes back behind the build."""
        os.makedirs(self.root)
        names = [self.name, *self.below]
        with open(f"{TOP}/crates.txt", encoding="utf-8") as lines, open(f"{self.root}/crates.txt", "w", encoding="utf-8") as to:
            to.writelines(it for it in lines if it.partition("#")[0].partition(":")[0].split()[:1] in [[name] for name in names])
        if os.path.exists(f"{TOP}/HANDLES"):
            shutil.copy2(f"{TOP}/HANDLES", f"{self.root}/HANDLES")
        for name in names:
            for part in SOURCES if name == self.name else (*SOURCES, "out/rlib"):
                if os.path.isdir(f"{TOP}/crates/{name}/{part}"):
                    shutil.copytree(f"{TOP}/crates/{name}/{part}", f"{self.root}/crates/{name}/{part}", copy_function=link)
        if os.path.isdir(self.out):
            shutil.move(self.out, f"{self.root}/crates/{self.name}/out")

    def start(self):
        words = ["rt", "run", "--jobs", "1", "--", *WORDS] if self.name == PROGRAM else ["rt", "lib", "--jobs", "1"]
        if self.root != TOP:
            self.lay_out()
        with open(f"{LOGS}/{self.name}", "wb") as log:
            how = {"stdin": subprocess.DEVNULL, "stdout": log, "stderr": subprocess.STDOUT, "start_new_session": True}
            self.run, self.began = subprocess.Popen(words, cwd=f"{self.root}/crates/{self.name}", **how), time.monotonic()

    def is_well(self):
        return self.run.returncode == (MISSING_FILE if self.name == PROGRAM else 0)

    def is_killed(self):
        return self.run.returncode in (-signal.SIGKILL, 128 + signal.SIGKILL)

    def end(self):
        """Brings back what was built, and takes the folder away."""
        if self.root != TOP:
            made = f"{self.root}/crates/{self.name}/out"
            if os.path.isdir(made):
                shutil.rmtree(self.out, ignore_errors=True)
                shutil.move(made, self.out)
            shutil.rmtree(self.root, ignore_errors=True)
        if self.is_well():
            with open(f"{self.out}/built-of", "w", encoding="ascii") as it:
                it.write(self.sum)

    def stop(self):
        if self.run.poll() is None:
            os.killpg(self.run.pid, signal.SIGTERM)
            try:
                self.run.wait(timeout=10)
            except subprocess.TimeoutExpired:
                os.killpg(self.run.pid, signal.SIGKILL)
                self.run.wait()
        self.end()

    def says(self, word):
        with open(f"{LOGS}/{self.name}", encoding="utf-8", errors="replace") as log:
            return word in log.read()

    def last_lines(self):
        with open(f"{LOGS}/{self.name}", encoding="utf-8", errors="replace") as log:
            return "".join(log.readlines()[-40:])


class Build:
    def __init__(self, progress):
        self.progress, self.uses = progress, crates()
        self.ways, sums = ways_up(self.uses), Sums(self.uses)
        self.crates = {it: Crate(it, self.below(it), sums.of(it)) for it in self.uses}
        self.done, self.running, self.again = {it for it in self.uses if self.crates[it].is_built()}, [], set()

    def below(self, name):
        found = {it for use in self.uses[name] for it in (use, *self.below(use))}
        return sorted(found)

    def ready(self):
        busy = self.done | {it.name for it in self.running}
        found = [self.crates[it] for it in self.uses if it not in busy and self.done.issuperset(self.uses[it])]
        return sorted(found, key=lambda it: -self.ways[it.name])

    def start_some(self):
        """Starts what may be: one crate always, further ones while there are processors, and memory for each."""
        most = 1 if self.again else len(os.sched_getaffinity(0))
        for crate in self.ready():
            # A check that has just begun hasn't taken its memory yet.
            young = sum(time.monotonic() - it.began < 30 for it in self.running)
            if self.running and (len(self.running) >= most or free_memory() < ROOM * (1 + young)):
                return
            self.running.append(crate)
            crate.start()

    def end(self, crate):
        """Takes note of a crate that has ended. One that was killed, most likely for memory, is tried once more, alone."""
        self.running.remove(crate)
        crate.end()
        if crate.is_well():
            self.done.add(crate.name)
        elif crate.is_killed() and crate.name not in self.again:
            self.again.add(crate.name)
        else:
            self.progress.end()
            sys.stderr.write(crate.last_lines())
            stop(f"{crate.name} wasn't proved; what was said of it: {LOGS}/{crate.name}")

    def run(self):
        while len(self.done) < len(self.uses):
            self.start_some()
            self.progress.tell(f"{len(self.done) + 1} of {len(self.uses)}: {' '.join(it.name for it in self.running)}")
            time.sleep(0.2)
            for crate in [it for it in self.running if it.run.poll() is not None]:
                self.end(crate)

    def stop(self):
        for crate in self.running:
            if crate.run:
                crate.stop()


def give_back():
    """Brings back what a build that was killed had taken along."""
    for name in os.listdir(WORK) if os.path.isdir(WORK) else ():
        made, out = f"{WORK}/{name}/crates/{name}/out", f"{TOP}/crates/{name}/out"
        if os.path.isdir(made) and os.path.isdir(f"{TOP}/crates/{name}") and not os.path.exists(out):
            shutil.move(made, out)
    shutil.rmtree(WORK, ignore_errors=True)


def main():
    need_toolchain()
    for number in (signal.SIGTERM, signal.SIGHUP, signal.SIGINT):
        signal.signal(number, lambda which, _: sys.exit(128 + which))
    with Lock("proved"):
        began, progress = time.time(), Progress()
        print("epl: proving and building the correlator; README.md says how long that takes", file=sys.stderr)
        os.makedirs(LOGS, exist_ok=True)
        give_back()
        build = Build(progress)
        try:
            build.run()
        except SystemExit as ended:
            build.stop()
            if ended.code != 1:
                progress.end("stopped; the next run goes on from here")
            raise
        finally:
            shutil.rmtree(WORK, ignore_errors=True)
        program = f"{build.crates[PROGRAM].out}/{PROGRAM}"
        if not os.access(program, os.X_OK) or build.crates[PROGRAM].says("logic=not-proved"):
            stop("the program wasn't proved")
        # As old as the sources that were read: an edit since then makes it stale.
        os.utime(program, (began, began))
        progress.end(f"proved and built in {progress.minutes()} min")


if __name__ == "__main__":
    main()
