"""Runs the built program in folders of its own, and counts what was checked."""

import argparse
import contextlib
import hashlib
import os
import random
import resource
import shlex
import shutil
import signal
import subprocess
import sys
import tempfile

# Where folders are in memory, a sync costs nothing.
ROOM = "/dev/shm" if os.access("/dev/shm", os.W_OK) else None
LONGEST = 1500


class Ran:
    """What a run answered: its status (less than 0: ended by that signal; None: it didn't end in time), its output and its errors."""

    def __init__(self, status, out, err):
        self.status, self.out, self.err = status, out, err

    def is_fine(self):
        return (self.status, self.err) == (0, "")

    def is_refused(self, status, text):
        """Whether it ended with this status and this line, and wrote nothing out."""
        return (self.status, self.out, self.err) == (status, "", f"{text}\n")

    def __repr__(self):
        ended = "no end in time" if self.status is None else f"status {self.status}"
        return f"{ended}, output {self.out[:400]!r}, error {self.err[:200]!r}"


def end_all(started):
    """Ends a run that has a session of its own, with whatever it started."""
    with contextlib.suppress(ProcessLookupError):
        os.killpg(started.pid, signal.SIGKILL)


SIDES = ("log", "alt")


def bytes_of(path):
    """The bytes of a file; none where it is missing."""
    if not os.path.isfile(path):
        return b""
    with open(path, "rb") as file:
        return file.read()


class Folder:
    """A folder with logs; it is gone at the end."""

    def __init__(self, program):
        self.program = os.path.abspath(program)
        self.path = tempfile.mkdtemp(prefix="clv-", dir=ROOM)

    def __enter__(self):
        return self

    def __exit__(self, *_):
        shutil.rmtree(self.path, ignore_errors=True)

    def start(self, *words, limits=(), environment=None, **streams):
        """Starts the program there. `limits` are pairs of a bound of the system and its number."""

        def prepare():
            resource.setrlimit(resource.RLIMIT_CORE, (0, 0))
            for what, most in limits:
                resource.setrlimit(what, (most, most))

        told = {**os.environ, **(environment or {})}
        return subprocess.Popen([self.program, *words], cwd=self.path, env=told, preexec_fn=prepare, **streams)

    def run(self, *words, script=b"", seconds=120, **how):
        """Runs the program to its end, with the script, or the open file of this number, as standard input."""
        is_file = isinstance(script, int)
        streams = {"stdin": script if is_file else subprocess.PIPE, "stdout": subprocess.PIPE, "stderr": subprocess.PIPE, **how}
        streams["start_new_session"] = True
        started = self.start(*words, **streams)
        try:
            out, err = started.communicate(None if is_file else script, timeout=seconds)
        except subprocess.TimeoutExpired:
            end_all(started)
            out, err = started.communicate()
            return Ran(None, (out or b"").decode("latin-1"), (err or b"").decode("latin-1"))
        return Ran(started.returncode, (out or b"").decode("latin-1"), (err or b"").decode("latin-1"))

    def log(self, shard, side="log"):
        """The file of a shard: the first one, or the second one, whose side is `alt`."""
        return os.path.join(self.path, f"shard-{shard:02}.{side}")

    def logs(self):
        """The bytes of all shards, by rising numbers: of the first file alone, or of both, where the second one has any."""
        found = []
        while os.path.isfile(self.log(len(found))):
            sides = [bytes_of(self.log(len(found), side)) for side in SIDES]
            found.append(tuple(sides) if sides[1] else sides[0])
        return found

    def size(self):
        """How many bytes the logs have in all."""
        return sum(entry.stat().st_size for entry in os.scandir(self.path) if entry.name.startswith("shard-"))

    def put(self, logs):
        """Puts these logs in place of those that are there; none for a file that is missing. A pair are both files of a shard."""
        for path in [self.log(shard, side) for shard in range(16) for side in SIDES]:
            if os.path.lexists(path):
                os.remove(path)
        for shard, data in enumerate(logs):
            for side, one in zip(SIDES, data if isinstance(data, tuple) else (data,)):
                if one is not None:
                    with open(self.log(shard, side), "wb") as file:
                        file.write(one)


class Checks:
    """Counts checks, and tells of each that fails: what was found, the script that shows it, and the command to repeat it."""

    def __init__(self, told):
        self.passed, self.failed, self.told = 0, 0, told

    def check(self, name, is_right, found="", script=None, case=None):
        if is_right:
            self.passed += 1
            return True
        self.failed += 1
        print(f"WRONG {name}: {found}"[:LONGEST])
        if script is not None:
            print("the script:", script.decode("latin-1") if isinstance(script, bytes) else script, sep="\n")
        print(f"to repeat it: {again(self.told, case)}", flush=True)
        return False

    def end(self):
        """Prints the closing line. The status is 1 where a check failed."""
        print(f"{self.passed} passed, {self.failed} failed")
        sys.exit(1 if self.failed else 0)


def again(told, case):
    """The command that repeats one case, or all of them where it belongs to none."""
    words = ["python3", sys.argv[0], told.program]
    if case is not None:
        words += ["--seed", told.seed, "--only", str(case)]
    return shlex.join(words)


def seeded(*words):
    """Numbers at random that follow from these words alone."""
    return random.Random(hashlib.sha256(" ".join(map(str, words)).encode()).digest())


def arguments(text, **numbers):
    """Reads PROGRAM, and where the test makes cases at random `--seed WORD`, `--count N` and `--only N`."""
    parser = argparse.ArgumentParser(description=text, formatter_class=argparse.RawDescriptionHelpFormatter)
    parser.add_argument("program", metavar="PROGRAM")
    if "count" in numbers:
        parser.add_argument("--seed", metavar="WORD", default="one", help="the cases follow from it")
        parser.add_argument("--only", metavar="N", type=int, help="the number of the only case to try")
    for name, default in numbers.items():
        parser.add_argument(f"--{name}", metavar="N", type=int, default=default, help=f"{default} where it isn't given")
    told = parser.parse_args()
    if not os.access(told.program, os.X_OK):
        parser.error(f"{told.program} is no program")
    return told


def cases(told):
    """The numbers of the cases to try, each with its own numbers at random."""
    for case in range(told.count) if told.only is None else [told.only]:
        yield case, seeded(told.seed, case)
