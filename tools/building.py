"""What the builders of the proved and of the unproved program share: the crates, the lock, and the line that tells how far it is."""
import fcntl
import os
import shutil
import sys
import time

TOP = os.path.dirname(os.path.dirname(os.path.abspath(__file__)))
PROGRAM = "correlator"


def stop(why):
    print(f"epl: {why}", file=sys.stderr)
    sys.exit(1)


def need_toolchain():
    if not shutil.which("rt"):
        stop("the toolchain's command rt is not on the PATH, and without it the program can't be built")


def crates():
    """Each crate below the program, and itself, with the repository's crates that it uses."""
    uses = {}
    with open(f"{TOP}/crates.txt", encoding="utf-8") as lines:
        for line in lines:
            head, found, rest = line.partition("#")[0].partition(":")
            if found:
                uses[head.split()[0]] = rest.split()
    wanted, todo = {}, [PROGRAM]
    while todo:
        name = todo.pop()
        if name not in wanted:
            wanted[name] = [it for it in uses[name] if it in uses]
            todo += wanted[name]
    return wanted


def lines_of(name):
    """How many lines of code a crate has, which tells roughly how long its check takes."""
    count = 0
    for at, _, files in os.walk(f"{TOP}/crates/{name}/src"):
        for file in files:
            if file.endswith(".rt"):
                with open(f"{at}/{file}", "rb") as it:
                    count += it.read().count(b"\n")
    return count


def free_memory():
    """Bytes that may be taken now, as the machine and its control group say."""
    with open("/proc/meminfo", encoding="ascii") as it:
        said = dict(line.split(":") for line in it)
    free = 1024 * int(said["MemAvailable"].split()[0])
    try:
        with open("/sys/fs/cgroup/memory.max", encoding="ascii") as limit, open("/sys/fs/cgroup/memory.current", encoding="ascii") as held:
            free = min(free, int(limit.read()) - int(held.read()))
    except (OSError, ValueError):
        pass
    return free


class Lock:
    """Held while one of the two programs is built in this checkout; a second build of it waits for the first."""

    def __init__(self, name):
        self.name = name

    def __enter__(self):
        os.makedirs(f"{TOP}/out", exist_ok=True)
        self.file = open(f"{TOP}/out/{self.name}.lock", "w", encoding="ascii")
        try:
            fcntl.flock(self.file, fcntl.LOCK_EX | fcntl.LOCK_NB)
        except BlockingIOError:
            print("epl: another epl builds here; waiting for it", file=sys.stderr)
            fcntl.flock(self.file, fcntl.LOCK_EX)
        return self

    def __exit__(self, *_):
        self.file.close()


class Progress:
    """One line on standard error: rewritten each second on a terminal, written each five minutes elsewhere."""

    def __init__(self):
        self.began = time.monotonic()
        self.is_terminal = sys.stderr.isatty()
        self.told = None
        self.shown = ""

    def minutes(self):
        return int(time.monotonic() - self.began) // 60

    def tell(self, text):
        now = time.monotonic()
        if self.told is not None and now - self.told < (1 if self.is_terminal else 300):
            return
        self.told = now
        line = f"epl: {text}, {self.minutes()} min"
        if self.is_terminal:
            line = line[: shutil.get_terminal_size().columns - 1]
            print("\r" + line.ljust(len(self.shown)), end="", file=sys.stderr, flush=True)
            self.shown = line
        else:
            print(line, file=sys.stderr, flush=True)

    def end(self, text=None):
        """Takes the rewritten line away, and leaves a last one where there is something to say."""
        if self.shown:
            print("\r" + " " * len(self.shown) + "\r", end="", file=sys.stderr, flush=True)
            self.shown = ""
        if text:
            print(f"epl: {text}", file=sys.stderr, flush=True)
