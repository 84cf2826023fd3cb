"""Runs the program with calls of the C library that fail, by the library that faults.c makes, and tells by the trace what became of the disks."""

import os
import shutil
import subprocess

SOURCE = os.path.join(os.path.dirname(os.path.abspath(__file__)), "faults.c")
# What a run ends with that the library stopped.
STOPPED = 137
# What a crash leaves of bytes that weren't synced: as they were before, as they were written, or this byte. A log begins with 67.
CHOICES = ("before", "written", 255, 67)


def names(shard):
    """The files of a shard."""
    return f"shard-{shard:02}.log", f"shard-{shard:02}.alt"


class Call:
    """A call on a log, as a line of the trace tells it. The folder is synced for the file that was opened last."""

    def __init__(self, line):
        self.kind, *self.words = line.split()
        self.error = int(self.words[-1])
        self.log = None if self.kind == "folder" else self.words[0]
        self.opened = self.log

    def shard(self):
        return int(self.opened[6:8])


class Trace:
    """The calls on logs of a run, and the kinds of the calls that were made to fail."""

    def __init__(self, lines):
        self.calls = [Call(it) for it in lines if it != "stop" and not it.startswith("fault ")]
        for before, call in zip(self.calls, self.calls[1:]):
            call.opened = call.log or before.log
        self.faults = [it.split()[1] for it in lines if it.startswith("fault ")]

    def counts(self):
        """How many calls of a kind there were on a log, for each kind and log."""
        found = {}
        for call in self.calls:
            if call.log:
                found[call.kind, call.log] = found.get((call.kind, call.log), 0) + 1
        return sorted(found.items())


class Faults:
    """The library."""

    def __init__(self, path):
        self.path = path

    def run(self, folder, *words, script=b"", seconds=60, **faults):
        """Runs the program in a folder. The faults are what faults.c is told, without FAULTS_. Gives what the program answered, and the trace."""
        got = folder.run(*words, script=script, seconds=seconds, environment=self.environment(folder, **faults))
        return got, self.trace(folder)

    def environment(self, folder, **faults):
        """What a program that is started in a folder finds in its environment, for a trace that begins anew."""
        trace = os.path.join(folder.path, "trace")
        with open(trace, "wb"):
            pass
        told = {f"FAULTS_{name.upper()}": str(it) for name, it in faults.items()}
        return {"LD_PRELOAD": self.path, "FAULTS_TRACE": trace, **told}

    def trace(self, folder):
        with open(os.path.join(folder.path, "trace")) as lines:
            return Trace(lines.read().splitlines())


def spelled(faults):
    """The faults as they stand in the environment."""
    return " ".join(f"FAULTS_{name.upper()}={it}" for name, it in faults.items())


def built(checks, place):
    """Builds the library in a folder. None, and a check that failed, where that can't be done."""
    compiler, library = shutil.which("cc"), os.path.join(place, "faults.so")
    if not checks.check("a compiler of C", compiler, "there is no `cc` here, which tests/faults.c is to be built with"):
        return None
    done = subprocess.run([compiler, "-shared", "-fPIC", "-O1", "-o", library, SOURCE], capture_output=True, text=True)
    return Faults(library) if checks.check("cc builds tests/faults.c", done.returncode == 0, done.stderr) else None


class Disks:
    """The bytes of all files of logs as a trace tells them: as a read gives them, as they were synced last, and the places of those that aren't synced."""

    def __init__(self, logs, trace):
        self.shards = len(logs)
        start = {name: data for shard, one in enumerate(logs) for name, data in zip(names(shard), one if isinstance(one, tuple) else (one, b""))}
        self.now = {name: bytearray(data) for name, data in start.items()}
        self.synced = {name: bytes(data) for name, data in start.items()}
        self.loose = {name: set() for name in start}
        for call in trace.calls:
            if call.kind == "write":
                self.write(call)
            elif call.kind == "sync" and call.error == 0:
                self.synced[call.log], self.loose[call.log] = bytes(self.now[call.log]), set()

    def write(self, call):
        """After a write that failed a crash may leave anything where it was to write."""
        at, data = int(call.words[1]), bytes.fromhex(call.words[2])
        self.loose[call.log] |= set(range(at, at + len(data)))
        if call.error == 0:
            now = self.now[call.log]
            now.extend(bytes(max(0, at - len(now))))
            now[at : at + len(data)] = data

    def logs(self, files):
        """The logs by shard, as a folder tells them: of the first file alone, or of both, where the second one has bytes."""
        found = [tuple(bytes(files[name]) for name in names(shard)) for shard in range(self.shards)]
        return [it if it[1] else it[0] for it in found]

    def read(self):
        return self.logs(self.now)

    def byte(self, name, place, choice):
        synced = self.synced[name]
        if choice == "before":
            return synced[place] if place < len(synced) else 0
        return self.now[name][place] if choice == "written" else choice

    def image(self, choice):
        """What a crash leaves of all logs."""
        files = {name: bytearray(it) for name, it in self.now.items()}
        for name, data in files.items():
            for place in self.loose[name]:
                if place < len(data):
                    data[place] = self.byte(name, place, choice)
        return self.logs(files)

    def images(self):
        """The images by all choices, each once, with their choices."""
        found = {}
        for choice in CHOICES:
            found.setdefault(tuple(self.image(choice)), []).append(str(choice))
        return [(" and ".join(choices), list(files)) for files, choices in found.items()]
