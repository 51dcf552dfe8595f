#!/usr/bin/env python3
"""Compiles the correlator without proofs. The toolchain builds such a program only for a trial run of its own, with checks
against bad accesses, and removes it afterwards: so a trial run is started, its program copied, and the run ended."""
import glob
import os
import shutil
import signal
import subprocess
import sys
import tempfile
import time

sys.dont_write_bytecode = True

from building import PROGRAM, TOP, Lock, Progress, need_toolchain, stop

# A program that runs long enough to be copied meanwhile.
LONG = "monitor Long { action onload() { integer i := 0; while true { i := i + 1; } } }\n"
NO_COMMAND = b"epl: the words are no command\n"


def trial(folder):
    """Starts the trial run, whose files lie in a folder."""
    with open(f"{folder}/long.mon", "w", encoding="ascii") as it:
        it.write(LONG)
    with open(f"{folder}/none.evt", "w", encoding="ascii"):
        pass
    files = []
    for name in ("long.mon", "none.evt"):
        files += ["--data", f"{name}={folder}/{name}"]
    words = ["rt", "try", *files, "--", "run", "--serial", "--fuel", "20000000", "--events", "none.evt", "long.mon"]
    how = {"stdin": subprocess.DEVNULL, "stderr": subprocess.STDOUT, "start_new_session": True}
    how["env"] = {**os.environ, "TMPDIR": folder}
    with open(f"{folder}/said", "wb") as said:
        return subprocess.Popen(words, cwd=f"{TOP}/crates/{PROGRAM}", stdout=said, **how)


def running_program(folder):
    """The program of the trial run, once that runs it: then its output lies beside it."""
    for program in glob.glob(f"{glob.escape(folder)}/*/*/program"):
        if os.path.exists(f"{os.path.dirname(program)}/stdout"):
            return program
    return None


def end(run):
    if run.poll() is None:
        os.killpg(run.pid, signal.SIGTERM)
        try:
            run.wait(timeout=10)
        except subprocess.TimeoutExpired:
            os.killpg(run.pid, signal.SIGKILL)
            run.wait()


def copy_program(folder, run, to, progress):
    """Copies the program as soon as the trial runs it; without one what the trial said is told."""
    while run.poll() is None:
        program = running_program(folder)
        if program:
            shutil.copyfile(program, to)
            os.chmod(to, 0o755)
            return
        progress.tell("compiling the correlator without proofs")
        time.sleep(0.1)
    progress.end()
    with open(f"{folder}/said", encoding="utf-8", errors="replace") as said:
        sys.stderr.write(said.read())
    stop("the unproved program wasn't built")


def main():
    need_toolchain()
    for number in (signal.SIGTERM, signal.SIGHUP, signal.SIGINT):
        signal.signal(number, lambda which, _: sys.exit(128 + which))
    kept = f"{TOP}/out/unproved"
    with Lock("unproved"), tempfile.TemporaryDirectory(prefix="epl-") as folder:
        began, progress = time.time(), Progress()
        os.makedirs(kept, exist_ok=True)
        run = trial(folder)
        try:
            copy_program(folder, run, f"{kept}/new", progress)
        finally:
            end(run)
        tried = subprocess.run([f"{kept}/new"], stdin=subprocess.DEVNULL, capture_output=True)
        if tried.returncode != 1 or tried.stderr != NO_COMMAND:
            stop("the unproved program was built, and doesn't run as it should")
        os.utime(f"{kept}/new", (began, began))
        os.replace(f"{kept}/new", f"{kept}/{PROGRAM}")
        progress.end()


if __name__ == "__main__":
    main()
