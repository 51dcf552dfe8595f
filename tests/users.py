#!/usr/bin/env python3
"""Tries what users meet: the words and hints of epl, what it explains, how programs are built and kept apart, the install,
the editors' files and the examples.

usage: tests/users.py [--program PATH] [TEST...]

Without a PATH the program is the proved one of this checkout, which has to be there. Each test works on a copy of epl in a
folder whose name has a blank.
"""
import glob
import json
import os
import pty
import re
import shutil
import signal
import subprocess
import sys
import tempfile
import time
import unittest

TOP = os.path.dirname(os.path.dirname(os.path.abspath(__file__)))
PROGRAM = f"{TOP}/crates/correlator/out/correlator"
PARTS = ["epl", "install", "crates.txt", "README.md", "share", "docs", "examples", "tools"]
REFUSED = re.compile(r"epl: program refused: .*:(\d+): (.*)\n")

# A stand-in for the toolchain's command. It notes each call; a library is "built" by a file; the program that it "proves" and
# the one that it tries say which of the two they are. Beside a crate's sources a file `refuse` has it refuse that crate, `slow` wait
# there, and `killed` be killed once.
STAND_IN = r"""#!/bin/sh
name=$(basename "$PWD")
echo "$1 $name" >>"$CALLS"
[ ! -f src/refuse ] || { echo "refused here"; exit 1; }
[ ! -f src/slow ] || { touch "$CALLS.slow"; exec sleep 60; }
[ ! -f src/killed ] || [ -f "$CALLS.killed" ] || { touch "$CALLS.killed"; kill -9 $$; }
program() {
  printf '#!/bin/sh\n[ $# -gt 0 ] || { echo "epl: the words are no command" >&2; exit 1; }\n' >"$1"
  printf '[ "$4" != no-such-file ] || exit 8\necho "%s $*"\n' "$2" >>"$1"
  chmod +x "$1"
}
case $1 in
  version) echo "stand-in" ;;
  lib) mkdir -p out/rlib && touch out/rlib/format ;;
  run) mkdir -p out && program out/correlator proved; while [ "$1" != -- ]; do shift; done; shift; out/correlator "$@" ;;
  try) mkdir -p "$TMPDIR/a/b" && program "$TMPDIR/a/b/program" unproved && touch "$TMPDIR/a/b/stdout" && exec sleep 60 ;;
esac
"""


def run(words, **how):
    how = {"stdin": subprocess.DEVNULL, "stdout": subprocess.PIPE, "stderr": subprocess.PIPE, "text": True, **how}
    ran = subprocess.run(words, **how)
    return ran.returncode, ran.stdout, ran.stderr


def at_terminal(words, **how):
    """The status, standard output and standard error of a command whose standard error alone is a terminal."""
    ours, theirs = pty.openpty()
    ran = subprocess.run(words, stdin=subprocess.DEVNULL, stdout=subprocess.PIPE, stderr=theirs, **how)
    os.close(theirs)
    told = b""
    while True:
        try:
            part = os.read(ours, 4096)
        except OSError:
            break
        if not part:
            break
        told += part
    os.close(ours)
    return ran.returncode, ran.stdout.decode(), told.decode().replace("\r\n", "\n")


class Users(unittest.TestCase):
    def setUp(self):
        room = tempfile.TemporaryDirectory(prefix="epl users ")
        self.addCleanup(room.cleanup)
        self.room = room.name
        self.copy = f"{self.room}/a copy"
        os.mkdir(self.copy)
        for part in PARTS:
            if os.path.isdir(f"{TOP}/{part}"):
                shutil.copytree(f"{TOP}/{part}", f"{self.copy}/{part}")
            else:
                shutil.copy(f"{TOP}/{part}", f"{self.copy}/{part}")
        self.epl = f"{self.copy}/epl"

    def write(self, name, text):
        with open(f"{self.room}/{name}", "wb") as it:
            it.write(text if isinstance(text, bytes) else text.encode())
        return f"{self.room}/{name}"


class WithProgram(Users):
    """Over the real program."""

    def setUp(self):
        super().setUp()
        os.makedirs(f"{self.copy}/crates/correlator/out")
        shutil.copy(PROGRAM, f"{self.copy}/crates/correlator/out/correlator")

    def of_page(self, folder, form):
        """Runs the wrong or the right form of a page. Without a program or event file of that form the other's is taken."""
        program = f"{folder}/{form}.mon" if os.path.exists(f"{folder}/{form}.mon") else f"{folder}/right.mon"
        events = [it for it in (f"{folder}/{form}.evt", f"{folder}/events.evt") if os.path.exists(it)]
        return run([self.epl, "run", "--serial", "--events", *(events or ["/dev/null"])[:1], program])

    def test_each_page_shows_its_code(self):
        for folder in sorted(glob.glob(f"{TOP}/share/explain/*")):
            page = os.path.basename(folder)
            with self.subTest(page=page):
                status, out, err = self.of_page(folder, "wrong")
                refused = REFUSED.fullmatch(err)
                if page == "event-file":
                    self.assertEqual((status, out), (3, ""))
                elif page == "fuel":
                    self.assertEqual((status, out, err), (7, "0 main SPENT\n", "epl: fuel spent\n"))
                elif page.isdigit() or page in ("lex", "syntax", "unbuilt"):
                    self.assertEqual((status, out), (2, ""))
                    self.assertEqual(refused[2], f"type {page}" if page.isdigit() else page)
                elif os.path.exists(f"{folder}/later"):
                    self.assertEqual((status, refused[2]), (2, "unbuilt"))
                else:
                    self.assertEqual((status, err), (0, ""))
                    self.assertRegex(out, f"(?m)^0 main FAULT: [A-Za-z]+: {page.replace('-', ' ')}$")

    def test_each_right_form_runs(self):
        for folder in sorted(glob.glob(f"{TOP}/share/explain/*")):
            with self.subTest(page=os.path.basename(folder)):
                status, out, err = self.of_page(folder, "right")
                if os.path.exists(f"{folder}/later"):
                    self.assertEqual((status, REFUSED.fullmatch(err)[2]), (2, "unbuilt"))
                else:
                    self.assertEqual((status, err), (0, ""))
                    self.assertNotRegex(out, "FAULT|SPENT")

    def test_words_hint_at_a_terminal_alone(self):
        for words in ([], ["walk"], ["run", "--serial"], ["run", "--serial", "--fuel", "0", "--events", "e", "p"]):
            told = "epl: the words are no command\n"
            self.assertEqual(run([self.epl, *words]), (1, "", told))
            self.assertEqual(at_terminal([self.epl, *words]), (1, "", told + "  try epl --help\n"))

    def test_refused_program_shows_its_line(self):
        program = self.write("a rule: x.mon", "monitor M {\n  action onload() {\n    print 1;\n  }\n}\n")
        words = [self.epl, "run", "--serial", "--events", "/dev/null", program]
        told = f"epl: program refused: {program}:3: type 9\n"
        self.assertEqual(run(words), (2, "", told))
        status, out, err = at_terminal(words)
        self.assertEqual((status, out), (2, ""))
        self.assertTrue(err.startswith(told + "  3 |     print 1;\n  type 9: the type isn't the one"), err)
        self.assertTrue(err.endswith("epl explain 9 says more\n"), err)

    def test_line_of_a_hint_obeys_nothing(self):
        program = self.write("rule.mon", b"monitor M { action onload() { print \"\x1b[31m" + b"y" * 5000 + b"; } }\n")
        err = at_terminal([self.epl, "run", "--serial", "--events", "/dev/null", program])[2]
        self.assertNotIn("\x1b", err)
        self.assertLess(max(map(len, err.splitlines())), 200)

    def test_refused_event_file_shows_its_line(self):
        program = self.write("rule.mon", "event E { integer n; } monitor M { action onload() { } }\n")
        events = self.write("day 1.evt", "E(1)\r\nE(2\r\nE(3)")
        words = [self.epl, "run", "--serial", "--events", events, program]
        told = f"epl: event file refused: {events}:2\n"
        self.assertEqual(run(words), (3, "", told))
        self.assertTrue(at_terminal(words)[2].startswith(told + "  2 | E(2\n"))

    def test_report_and_status_at_a_terminal(self):
        program = self.write("rule.mon", "monitor M { action onload() { print \"a\\nb\"; while true { } } }\n")
        words = [self.epl, "run", "--serial", "--fuel", "100", "--events", "/dev/null", program]
        report = "0 main: a\\nb\n0 main SPENT\n"
        self.assertEqual(run(words), (7, report, "epl: fuel spent\n"))
        status, out, err = at_terminal(words)
        self.assertEqual((status, out), (7, report))
        self.assertTrue(err.startswith("epl: fuel spent\n  a context has used its fuel"), err)

    def test_files_of_other_kinds(self):
        """Line ends of other systems, no end of the last line, a byte order mark, and files that aren't texts."""
        text = "\ufeffevent E { integer n; }\r\nmonitor M {\r\n  action onload() {\r\n    on all E() as e { print e.n.toString(); }\r\n  }\r\n}"
        program, events = self.write("crlf rule.mon", text), self.write("crlf.evt", "\ufeff E ( 1 )\r\n\r\n# c\r\nE(-2)")
        self.assertEqual(run([self.epl, "run", "--serial", "--events", events, program]), (0, "0 main: 1\n0 main: -2\n", ""))
        binary = self.write("binary.mon", b"\xff\xfe\x00")
        told = f"epl: program refused: {binary}:1: lex\n"
        self.assertEqual(run([self.epl, "run", "--serial", "--events", events, binary]), (2, "", told))
        absent = f"{self.room}/absent.evt"
        told = f"epl: missing file: {absent}\n"
        self.assertEqual(run([self.epl, "run", "--serial", "--events", absent, program]), (8, "", told))
        self.assertEqual(run([self.epl, "run", "--serial", "--events", events, self.room])[0], 5)
        long = self.write("long.mon", "//" + "x" * 131071 + "\n")
        told = f"epl: file too long: {long}\n"
        self.assertEqual(run([self.epl, "run", "--serial", "--events", events, long]), (9, "", told))

    def test_what_apama_has_is_told_as_the_page_says(self):
        with open(f"{TOP}/docs/FROM-APAMA.md", encoding="utf-8") as it:
            rows = re.findall(r"(?m)^\| `(.*)` \| `(lex|syntax|unbuilt|type \d+)` \|$", it.read())
        self.assertGreaterEqual(len(rows), 20)
        head = "event Trade { string symbol; integer price; }\nmonitor M {\n  integer count; Trade last; sequence<integer> prices;\n"
        for written, told in rows:
            with self.subTest(written=written):
                program = self.write("rule.mon", f"{head}  action onload() {{\n    {written}\n  }}\n}}\n")
                status, out, err = run([self.epl, "run", "--serial", "--events", "/dev/null", program])
                self.assertEqual((status, out, err), (2, "", f"epl: program refused: {program}:5: {told}\n"))

    def test_installs_and_removes_exactly_that(self):
        prefix = f"{self.room}/some where"
        os.makedirs(f"{prefix}/share/man")
        kept = self.write("some where/share/man/other.1", "other\n")
        for _ in range(2):
            status, out, err = run([f"{self.copy}/install", prefix])
            self.assertEqual((status, err), (0, ""), out)
        shutil.rmtree(self.copy)
        epl = f"{prefix}/bin/epl"
        program = self.write("rule.mon", "monitor M { action onload() { print \"up\"; } }\n")
        self.assertEqual(run([epl, "run", "--serial", "--events", "/dev/null", program]), (0, "0 main: up\n", ""))
        self.assertIn("program: proved, and installed\n", run([epl, "--version"])[1])
        self.assertIn("type 13: ", run([epl, "explain", "13"])[1])
        documents = run([epl, "help"])[1].splitlines()[-1].partition(": ")[2]
        self.assertTrue(os.path.exists(f"{documents}/GUIDE.md"))
        self.assertEqual(run([epl, "--unproved", "run"])[0], 4)
        self.assertTrue(os.path.exists(f"{prefix}/share/man/man1/epl.1"))
        shutil.copytree(f"{TOP}", self.copy, ignore=lambda at, names: [it for it in names if at == TOP and it != "install"])
        self.assertEqual(run([f"{self.copy}/install", "--remove", prefix]), (0, "", ""))
        left = [f"{at}/{it}" for at, _, files in os.walk(prefix) for it in files]
        self.assertEqual(left, [kept])
        self.assertEqual(sorted(os.listdir(prefix)), ["share"])
        self.assertEqual(run([f"{self.copy}/install", "--remove", prefix])[0], 1)

    def test_examples_and_documents(self):
        status, out, err = run([sys.executable, f"{self.copy}/examples/run"])
        self.assertEqual((status, err), (0, ""), out)
        self.assertIn("ok: docs/GUIDE.md", out)

    def test_examples_tell_a_wrong_report(self):
        with open(f"{self.copy}/examples/vwap/report", "a", encoding="utf-8") as it:
            it.write("0 main: more\n")
        status, out, _ = run([sys.executable, f"{self.copy}/examples/run", "vwap", "first"])
        self.assertEqual(status, 1)
        self.assertIn("not as wanted: vwap", out)
        self.assertIn("ok: first", out)


class Words(Users):
    """What needs no program."""

    def test_words_that_epl_answers(self):
        status, out, err = run([self.epl, "--help"])
        self.assertEqual((status, err), (0, ""))
        self.assertEqual(run([self.epl, "help"])[1], out)
        for part in ("--events", "--fuel", "20000000", "131072", "8388608", "64 files", f"{self.copy}/docs"):
            self.assertIn(part, out)
        status, out, err = run([self.epl, "--version"])
        self.assertEqual((status, err), (0, ""))
        self.assertIn("program: not built yet", out)
        self.assertEqual(run([self.epl]), (1, "", "epl: the words are no command\n"))

    def test_explains_every_code(self):
        status, out, err = run([self.epl, "explain"])
        self.assertEqual((status, err), (0, ""))
        listed = set(re.findall(r"(?m)^  (\S+) ", out))
        with open(f"{TOP}/docs/BODIES.md", encoding="utf-8") as it:
            faults = re.findall(r"(?m)^\| `([a-z ]+)` \|", it.read().partition("## Faults")[2].partition("##")[0])
        self.assertEqual(len(faults), 9)
        codes = [*map(str, range(1, 21)), "lex", "syntax", "unbuilt", *faults]
        self.assertEqual({it.replace(" ", "-") for it in codes} | {"fuel", "event-file"}, listed)
        for code in codes:
            status, out, err = run([self.epl, "explain", *code.split()])
            self.assertEqual((status, err), (0, ""))
            self.assertIn("Wrong:", out)
            self.assertIn("Right:", out)
        self.assertEqual(run([self.epl, "explain", "type 13"]), run([self.epl, "explain", "13"]))
        self.assertEqual(run([self.epl, "explain", "missing key"]), run([self.epl, "explain", "missing-key"]))
        self.assertEqual(run([self.epl, "explain", "21"])[0], 1)
        self.assertEqual(run([self.epl, "explain", "../help"])[0], 1)

    def test_statuses_are_told_everywhere(self):
        with open(f"{TOP}/docs/RUNS.md", encoding="utf-8") as it:
            statuses = set(re.findall(r"(?m)^\| (\d+) \|", it.read()))
        self.assertGreaterEqual(len(statuses), 10)
        told = run([self.epl, "help"])[1].partition("Statuses:")[2]
        self.assertEqual(set(re.findall(r"(?:^|  )(\d+)  [a-z]", told, re.M)), statuses)
        with open(f"{TOP}/share/man/epl.1", encoding="utf-8") as it:
            self.assertEqual(set(re.findall(r"(?m)^(\d+)\t", it.read())), statuses)

    @unittest.skipUnless(shutil.which("bash"), "there is no bash")
    def test_bash_completes(self):
        self.write("a rule.mon", "")
        asks = [("epl", ""), ("epl", "run", ""), ("epl", "run", "--serial", "--events", "e", "a"), (self.epl, "explain", "miss")]
        wanted = ["run explain help --help --version --build --unproved", "--serial", "a rule.mon", "missing-key"]
        for words, found in zip(asks, wanted):
            script = 'source "$0"; COMP_WORDS=("$@"); COMP_CWORD=$(($# - 1)); _epl; printf "%s\\n" "${COMPREPLY[@]}"'
            said = run(["bash", "-c", script, f"{self.copy}/share/completions/epl.bash", *words], cwd=self.room)[1]
            self.assertIn(found, [said.replace("\n", " ").strip(), *said.splitlines()])

    def test_links_lead_here(self):
        os.mkdir(f"{self.room}/bin dir")
        os.symlink(self.epl, f"{self.room}/bin dir/one")
        os.symlink("one", f"{self.room}/bin dir/two")
        wanted = run([self.epl, "help"])
        self.assertEqual(run([f"{self.room}/bin dir/two", "help"], cwd="/"), wanted)
        self.assertEqual(run(["two", "help"], cwd="/", env={**os.environ, "PATH": f"{self.room}/bin dir:{os.environ['PATH']}"}), wanted)

    def test_keywords_are_in_both_editors(self):
        with open(f"{TOP}/crates/epl_lexer/src/token.rt", encoding="utf-8") as it:
            keywords = re.findall(r'"(\w+)"', it.read().partition("KEYWORDS")[2].partition("];")[0])
        self.assertEqual(len(keywords), 42)
        with open(f"{TOP}/share/editors/epl.vim", encoding="utf-8") as it:
            vim = {word for line in re.findall(r"(?m)^syn keyword \w+ (?!contained)(.*)$", it.read()) for word in line.split()}
        with open(f"{TOP}/share/editors/epl.tmLanguage.json", encoding="utf-8") as it:
            matches = [pattern["match"] for pattern in json.load(it)["patterns"] if "match" in pattern]
        listed = {word for match in matches for found in re.findall(r"^\\b\(([\w|]+)\)\\b$", match) for word in found.split("|")}
        levels = {"CRIT", "FATAL", "ERROR", "WARN", "INFO", "DEBUG", "TRACE"}
        self.assertEqual(vim, set(keywords) | levels)
        self.assertEqual(listed, set(keywords) | levels)


class Builds(Users):
    """How programs are built and kept apart, by a stand-in for the toolchain."""

    def setUp(self):
        super().setUp()
        for name, uses in (("low", ""), ("high", "low kit"), ("aside", ""), ("correlator", "high")):
            os.makedirs(f"{self.copy}/crates/{name}/src")
            with open(f"{self.copy}/crates/{name}/src/code.rt", "w", encoding="utf-8") as it:
                it.write("\n")
        with open(f"{self.copy}/crates.txt", "w", encoding="utf-8") as it:
            it.write("# crates\ncorrelator: high\nhigh: low kit\nlow:\naside:\n")
        os.mkdir(f"{self.room}/bin")
        with open(f"{self.room}/bin/rt", "w", encoding="utf-8") as it:
            it.write(STAND_IN)
        os.chmod(f"{self.room}/bin/rt", 0o755)
        self.calls_file = f"{self.room}/calls"
        path = f"{self.room}/bin:{os.environ['PATH']}"
        self.how = {"env": {**os.environ, "PATH": path, "CALLS": self.calls_file}}

    def calls(self):
        if not os.path.exists(self.calls_file):
            return []
        with open(self.calls_file, encoding="utf-8") as it:
            found = it.read().splitlines()
        os.remove(self.calls_file)
        return [it for it in found if not it.startswith("version")]

    def edit(self, name="low", text="// edited\n"):
        """Writes a source, a little later than what is built now."""
        source = f"{self.copy}/crates/{name}/src/code.rt"
        with open(source, "a", encoding="utf-8") as it:
            it.write(text)
        os.utime(source, (time.time() + 2, time.time() + 2))

    def test_builds_lowest_first_and_once(self):
        status, out, err = run([self.epl, "one", "two  three"], **self.how)
        self.assertEqual((status, out), (0, "proved one two  three\n"))
        self.assertEqual(self.calls(), ["lib low", "lib high", "run correlator"])
        self.assertIn("1 of 3: low", err)
        self.assertEqual(run([self.epl, "one"], **self.how), (0, "proved one\n", ""))
        self.assertEqual(self.calls(), [])
        self.assertIn("proved, from these sources", run([self.epl, "--version"], **self.how)[1])

    def test_builds_again_behind_an_edit(self):
        self.assertEqual(run([self.epl, "--build"], **self.how)[0], 0)
        self.calls()
        self.edit()
        self.assertIn("older than the sources", run([self.epl, "--version"], **self.how)[1])
        self.assertEqual(run([self.epl, "one"], **self.how)[:2], (0, "proved one\n"))
        self.assertEqual(self.calls(), ["lib low", "lib high", "run correlator"])
        self.edit("high")
        self.assertEqual(run([self.epl, "one"], **self.how)[:2], (0, "proved one\n"))
        self.assertEqual(self.calls(), ["lib high", "run correlator"])
        self.edit("low", "")
        self.assertEqual(run([self.epl, "one"], **self.how)[:2], (0, "proved one\n"))
        self.assertEqual(self.calls(), ["run correlator"])
        self.assertEqual(sorted(os.listdir(self.copy)), sorted([*PARTS, "crates", "out"]))

    def test_a_refused_crate_leaves_no_program(self):
        """Nor does an older program run in its place, and the next run goes on at the refused crate."""
        self.assertEqual(run([self.epl, "--build"], **self.how)[0], 0)
        self.edit()
        for name in ("high", "correlator"):
            refuse = self.write(f"a copy/crates/{name}/src/refuse", "")
            status, out, err = run([self.epl, "one"], **self.how)
            self.assertEqual((status, out), (4, ""))
            self.assertIn(f"epl: {name} wasn't proved", err)
            self.assertIn("refused here", err)
            os.remove(refuse)
        self.assertEqual(run([self.epl, "one"], **self.how)[:2], (0, "proved one\n"))

    def test_goes_on_where_it_was_stopped(self):
        slow = self.write("a copy/crates/high/src/slow", "")
        how = {"stdin": subprocess.DEVNULL, "stdout": subprocess.PIPE, "stderr": subprocess.PIPE, "start_new_session": True, **self.how}
        build = subprocess.Popen([self.epl, "one"], text=True, **how)
        while not os.path.exists(f"{self.calls_file}.slow"):
            self.assertIsNone(build.poll())
            time.sleep(0.05)
        os.killpg(build.pid, signal.SIGINT)
        out, err = build.communicate(timeout=20)
        self.assertEqual(out, "")
        self.assertIn("epl: stopped; the next run goes on from here\n", err)
        self.assertEqual(self.calls(), ["lib low", "lib high"])
        os.remove(slow)
        self.assertEqual(run([self.epl, "one"], **self.how)[:2], (0, "proved one\n"))
        self.assertEqual(self.calls(), ["lib high", "run correlator"])

    def test_a_killed_check_is_tried_again(self):
        self.write("a copy/crates/high/src/killed", "")
        self.assertEqual(run([self.epl, "one"], **self.how)[:2], (0, "proved one\n"))
        self.assertEqual(self.calls(), ["lib low", "lib high", "lib high", "run correlator"])

    def test_the_two_programs_are_kept_apart(self):
        said = "epl: nothing is proved of the program that runs now\n"
        status, out, err = run([self.epl, "--unproved", "one"], **self.how)
        self.assertEqual((status, out), (0, "unproved one\n"))
        self.assertTrue(err.endswith(said), err)
        self.assertEqual(self.calls(), ["try correlator"])
        self.assertEqual(run([self.epl, "--unproved", "one"], **self.how), (0, "unproved one\n", said))
        self.assertEqual(self.calls(), [])
        self.assertIn("not built yet", run([self.epl, "--version"], **self.how)[1])
        self.assertEqual(run([self.epl, "one"], **self.how)[:2], (0, "proved one\n"))
        self.assertEqual(run([self.epl, "--unproved", "one"], **self.how)[1], "unproved one\n")
        os.remove(f"{self.copy}/crates/correlator/out/correlator")
        self.write("a copy/crates/correlator/src/refuse", "")
        self.assertEqual(run([self.epl, "one"], **self.how)[:2], (4, ""))

    def test_without_the_toolchain(self):
        os.remove(f"{self.room}/bin/rt")
        tools = f"{self.room}/tools"
        os.mkdir(tools)
        for name in ("sh", "dirname", "readlink", "find", "head", "python3", "env"):
            os.symlink(os.path.realpath(shutil.which(name)), f"{tools}/{name}")
        status, out, err = run([self.epl, "one"], env={**os.environ, "PATH": tools})
        self.assertEqual((status, out), (4, ""))
        self.assertIn("rt is not on the PATH", err)


def main():
    global PROGRAM
    words = sys.argv[1:]
    if words[:1] == ["--program"] and len(words) > 1:
        PROGRAM = os.path.abspath(words[1])
        words = words[2:]
    if not os.access(PROGRAM, os.X_OK):
        sys.exit(f"users.py: there is no program {PROGRAM}: run rt ci, or ./epl --build")
    unittest.main(argv=[sys.argv[0], *words])


if __name__ == "__main__":
    main()
