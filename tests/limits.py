#!/usr/bin/env python3
"""The program in poor surroundings: little memory, few files, small files, small stacks; files that are none; odd standard streams; signals; a log
that another program cuts.

Cases at random: sessions that meet on three shards, with a bound on memory, files or stacks at random.

What must hold everywhere: the run ends, with the status and the line that belong to what is lacking, and by no signal of its own making; the logs may
be opened, and hold each transaction of the script whole or not at all; a report is a serial run that leads there.
"""

import contextlib
import copy
import os
import pty
import resource
import signal
import subprocess
import threading
import time

import logs
import members
import reports
from calls import ONE_PUT, RUN, crowd
from program import Checks, Folder, Ran, arguments, cases

KIB, MIB = 1 << 10, 1 << 20
SECONDS = 60
LOAD = "load --seed 1 --sessions 4 --accounts 100 --transfers 30".split()
SIXTEEN = tuple(range(2, 32, 2))
MEETING = ONE_PUT + b"session\nbegin\nget 5\ncommit\n"
# With less memory no program is loaded, which the system may tell by a status of its own.
LEAST, UNLOADED = 4 * MIB, 127
# With a transaction for each of 300 keys, and a report that a pipe doesn't hold.
LONG = b"session\n" + b"".join(b"begin\nput %d %d\nscan 0 400\ncommit\n" % (key, key) for key in range(300))


def wide(sessions, transactions):
    """Sessions that meet now and then."""
    lines = []
    for session in range(sessions):
        lines.append("session")
        for number in range(transactions):
            key, value = (7 * session + 3 * number) % 40, session * 1000 + number
            lines += ["begin", f"put {key} {value}", f"put {(key + 11) % 40} {value}", "commit"]
    return reports.script_of(lines)


def wrong_after(folder, got, script, run=1):
    """What is wrong in what a run, over logs that stood for nothing, left and told, if anything."""
    try:
        after = logs.map_of(folder.logs())
        wrong = members.wrong_in(script, folder.logs(), run)
        if wrong is None and got.status == 0 and reports.replay(script, got.out, {})[0] != after:
            return "the report leads elsewhere"
    except (logs.Fault, reports.Wrong, ValueError, KeyError, IndexError) as fault:
        return str(fault)
    more = folder.run("show")
    return wrong or (None if more.is_fine() and more.out == logs.shown(after) else f"show: {more}")


def stands(checks, name, folder, got, script, case=None):
    wrong = wrong_after(folder, got, script)
    checks.check(f"{name}: what stands", wrong is None, (wrong, got), script, case)


# Bounds of the system.

ADDRESSES = range(LEAST, 60 * MIB, 700 * KIB)
WANTING = {0, 8}
# A title, splits, words, script; the bound and its numbers; the statuses. A write past the bound on files ends any program by a signal.
BOUNDS = [
    ("one put, address space", (), RUN, ONE_PUT, resource.RLIMIT_AS, ADDRESSES, WANTING),
    ("two sessions, address space", (), RUN, MEETING, resource.RLIMIT_AS, ADDRESSES, WANTING),
    ("8 sessions, address space", (10, 20, 30), RUN, wide(8, 10), resource.RLIMIT_AS, ADDRESSES, WANTING),
    ("64 sessions, address space", SIXTEEN, RUN, wide(64, 2), resource.RLIMIT_AS, ADDRESSES, WANTING),
    ("64 sessions, more of it", SIXTEEN, RUN, wide(64, 2), resource.RLIMIT_AS, range(60 * MIB, 700 * MIB, 20 * MIB), WANTING),
    ("load, address space", (50,), LOAD, b"", resource.RLIMIT_AS, ADDRESSES, WANTING),
    ("8 sessions, files", (10, 20, 30), RUN, wide(8, 3), resource.RLIMIT_NOFILE, range(4, 12), {0, 6}),
    ("16 shards, files", SIXTEEN, RUN, wide(2, 3), resource.RLIMIT_NOFILE, range(4, 24), {0, 6}),
    ("8 sessions, size of files", (10, 20, 30), RUN, wide(8, 3), resource.RLIMIT_FSIZE, range(40, 2000, 37), {0, -signal.SIGXFSZ}),
    ("8 sessions, stacks", (10, 20, 30), RUN, wide(8, 3), resource.RLIMIT_STACK, range(192 * KIB, 2 * MIB, 256 * KIB), WANTING),
]


def bounded(checks, name, folder, words, script, limit, statuses, case=None):
    """One run with a bound. Logs that were made stand in the folder."""
    got = folder.run(*words, script=script, limits=[limit], seconds=SECONDS)
    if got.status == UNLOADED:
        return
    lines = {8: ("want of memory\n", ""), 6: tuple(f"disk fault on shard {it}\n" for it in range(16))}
    is_told = got.err in lines.get(got.status, ("",)) and (got.status != 8 or got.out == "")
    checks.check(f"{name}: status", got.status in statuses and is_told, got, script, case)
    if words[0] == "load":
        total = sum(logs.map_of(folder.logs()).values())
        checks.check(f"{name}: sum", total in (0, 1000 * 100), total, None, case)
    else:
        stands(checks, name, folder, got, script, case)


def bounds(checks, program, step):
    for title, splits, words, script, what, numbers, statuses in BOUNDS:
        with Folder(program) as folder:
            folder.run("make", *map(str, splits))
            made = folder.logs()
            for most in numbers[::step]:
                folder.put(made)
                bounded(checks, f"{title}: {most}", folder, words, script, (what, most), statuses)


def at_random(checks, case, numbers, program):
    script, name = crowd(numbers), f"case {case}"
    memory = (resource.RLIMIT_AS, numbers.randrange(LEAST, 80 * MIB)), WANTING
    files = (resource.RLIMIT_NOFILE, numbers.randrange(4, 12)), {0, 6}
    stacks = (resource.RLIMIT_STACK, numbers.randrange(192 * KIB, 2 * MIB)), WANTING
    for limit, statuses in (memory, numbers.choice((files, stacks))):
        with Folder(program) as folder:
            folder.run("make", "10", "20")
            bounded(checks, f"{name}, bound {limit}", folder, RUN, script, limit, statuses, case)


# Files that are no logs.

# What stands in place of a log, how it is put there, and the statuses.
ODD_FILES = [
    ("a folder", os.mkdir, {6}),
    ("a pipe", os.mkfifo, {6, 7}),
    ("/dev/full", lambda path: os.symlink("/dev/full", path), {6, 7}),
    ("/dev/zero", lambda path: os.symlink("/dev/zero", path), {6, 7}),
    ("a link to itself", lambda path: os.symlink(os.path.basename(path), path), {6}),
    ("a link to nowhere", lambda path: os.symlink("nowhere/at/all", path), {6}),
]


def stands_in(checks, folder, title, make, shard, statuses):
    """Something else stands in place of a log."""
    path = folder.log(shard)
    for command in ("run", "show"):
        if os.path.lexists(path):
            os.remove(path)
        make(path)
        got = folder.run(command, script=ONE_PUT, seconds=SECONDS)
        checks.check(f"{title} as log {shard}: {command}", got.status in statuses and got.out == "", got)
        if os.path.isdir(path):
            os.rmdir(path)


def has_a_hole(checks, folder, size):
    """A log with a hole up to this size behind its closed gate: what means nothing takes no memory."""
    os.truncate(folder.log(1), size)
    got = folder.run("show", limits=[(resource.RLIMIT_AS, 256 * MIB)], seconds=SECONDS)
    checks.check(f"a hole up to {size} bytes behind a log", got.is_fine() and got.out == "[1,1]\n[11,1]\n", got)


def files(checks, program):
    with Folder(program) as folder:
        folder.run("make", "10")
        folder.run("run", script=b"session\nbegin\nput 1 1\nput 11 1\ncommit\n")
        start = folder.logs()
        for title, make, statuses in ODD_FILES:
            for shard in (0, 1):
                folder.put(start)
                stands_in(checks, folder, title, make, shard, statuses)
        for size in (1 << 31, 1 << 40):
            folder.put(start)
            has_a_hole(checks, folder, size)


# Standard streams.

BASH = "/bin/bash"
# A line for a shell, in which $P is the program; the status and the line on standard error that it ends with.
LINES = [
    ("$P run < script >&-", 5, "write fault\n"),
    ("$P run < script > /dev/full", 5, "write fault\n"),
    ("$P run < script 2>&-", 0, ""),
    ("$P run <&-", 4, "read fault\n"),
    ("$P run < .", 4, "read fault\n"),
    ("$P run < script <&- >&- 2>&-", 4, ""),
    ("$P run < /dev/null", 0, ""),
    ("$P run x 2>&-", 2, ""),
    ("$P run x 2>/dev/full", 2, ""),
    ("$P show >&-", 0, ""),
    ("$P show <&- >/dev/null 2>&-", 0, ""),
    ("exec 0<&- 1>&- 2>&-; $P show", 0, ""),
    ("$P run < script > out; exec 0<&- 1>&- 2>&-; $P show", 5, ""),
    ("(cat script; sleep 0.2; echo '#') | $P run > /dev/null", 0, ""),
    ("head -c 200000 /dev/zero | $P run", 3, "script line 1\n"),
    ("head -c 20000000 /dev/zero | $P run", 3, "script line 0\n"),
    ("yes session | head -100 | $P run", 3, "script line 65\n"),
    ("$P run < script | $P audit", 0, ""),
    ("$P run < script | $P audit >&-", 5, "write fault\n"),
    ("$P run < script | $P audit > /dev/full", 5, "write fault\n"),
    ("$P audit <&-", 4, "read fault\n"),
    ("$P audit < .", 4, "read fault\n"),
    ("$P audit < /dev/null", 3, "script line 1\n"),
    ("head -c 20000000 /dev/zero | $P audit", 3, "script line 0\n"),
    ("$P run < script > /dev/null; $P standby <&-", 0, ""),
    ("$P run < script > /dev/null; $P standby >&-", 5, "write fault\n"),
    ("$P run < script > /dev/null; $P standby > /dev/full", 5, "write fault\n"),
]


def shell_lines(checks, program):
    """With the numbers 0, 1 and 2 closed a log gets one of them: no text is written to it."""
    for line, status, text in LINES:
        with Folder(program) as folder:
            folder.run("make")
            made = folder.logs()
            with open(os.path.join(folder.path, "script"), "wb") as file:
                file.write(ONE_PUT)
            shell = copy.copy(folder)
            shell.program = BASH
            got = shell.run("-c", line, seconds=SECONDS, environment={"P": folder.program})
            checks.check(line, (got.status, got.err) == (status, text), got)
            is_run = "run < script" in line and status in (0, 5) or "cat script" in line
            checks.check(f"{line}: logs", logs.map_of(folder.logs()) == ({5: 10} if is_run else {}), folder.logs())
            checks.check(f"{line}: no log was written", status in (0, 5) or folder.logs() == made, folder.logs())


def started(folder, script, **streams):
    """A run that goes on, and is given its script. It may be over before it has read it."""
    run = folder.start("run", stdin=subprocess.PIPE, stderr=subprocess.PIPE, **streams)

    def feed():
        with contextlib.suppress(BrokenPipeError), run.stdin:
            run.stdin.write(script)

    threading.Thread(target=feed).start()
    return run


def ended(run):
    """What a run answered that went on. One that doesn't end in time is killed."""
    was_killed = threading.Event()

    def kill():
        was_killed.set()
        run.kill()

    killer = threading.Timer(SECONDS, kill)
    killer.start()
    out = run.stdout.read() if run.stdout and not run.stdout.closed else b""
    err, status = run.stderr.read(), run.wait()
    killer.cancel()
    return Ran(None if was_killed.is_set() else status, out.decode("latin-1"), err.decode("latin-1"))


def is_long(folder):
    return logs.map_of(folder.logs()) == {key: key for key in range(300)}


def goes_away(checks, folder):
    run = started(folder, LONG, stdout=subprocess.PIPE)
    run.stdout.read(10)
    run.stdout.close()
    got = ended(run)
    checks.check("a reader that goes away", got.is_refused(5, "write fault") and is_long(folder), got)


def waits_for_its_reader(checks, folder):
    run = started(folder, LONG, stdout=subprocess.PIPE)
    time.sleep(1)
    checks.check("a full pipe: it waits", run.poll() is None, run.poll())
    got = ended(run)
    checks.check("a full pipe: then it ends", got.is_fine() and got.out.count("\n") == 301 and is_long(folder), got)


def finds_a_full_pipe(checks, folder):
    reader, writer = os.pipe()
    os.set_blocking(writer, False)
    got = ended(started(folder, LONG, stdout=writer))
    os.close(reader)
    os.close(writer)
    checks.check("a full pipe that doesn't wait", got.is_refused(5, "write fault") and is_long(folder), got)


def at_terminals(folder, typed):
    """A run whose script is typed at a terminal, and the terminal's other end, which is to be closed."""
    screen, terminal = pty.openpty()
    run = folder.start("run", stdin=terminal, stdout=subprocess.PIPE, stderr=subprocess.PIPE, start_new_session=True)
    os.close(terminal)
    os.write(screen, typed)
    return run, screen


def reads_a_terminal(checks, folder):
    run, screen = at_terminals(folder, ONE_PUT + b"\x04")
    got = ended(run)
    os.close(screen)
    checks.check("a terminal", got.is_fine() and '"acknowledged":1' in got.out and logs.map_of(folder.logs()) == {5: 10}, got)


def loses_its_terminal(checks, folder):
    run, screen = at_terminals(folder, b"session\n")
    time.sleep(0.3)
    os.close(screen)
    got = ended(run)
    is_right = got.status == 0 or got.status == -signal.SIGHUP or got.is_refused(4, "read fault")
    checks.check("a terminal that hangs up", is_right and logs.map_of(folder.logs()) == {}, got)


def streams(checks, program):
    shell_lines(checks, program)
    for test in (goes_away, waits_for_its_reader, finds_a_full_pipe, reads_a_terminal, loses_its_terminal):
        with Folder(program) as folder:
            folder.run("make")
            test(checks, folder)


# Signals, and other programs.

SIGNALS = (signal.SIGTERM, signal.SIGINT, signal.SIGHUP, signal.SIGKILL, signal.SIGPIPE, signal.SIGALRM)


def interrupted(folder, script, after, then):
    """A run in whose middle something is done to it."""
    run = started(folder, script, stdout=subprocess.PIPE)
    time.sleep(after)
    then(run)
    return ended(run)


def signals(checks, program, script):
    for number in SIGNALS:
        for after in (0.005, 0.02, 0.06, 0.15):
            name = f"signal {number.name} after {after}"
            with Folder(program) as folder:
                folder.run("make", "10", "20", "30")
                got = interrupted(folder, script, after, lambda run: run.send_signal(number))
                checks.check(f"{name}: status", got.status in (0, -number), got)
                stands(checks, name, folder, got, script)


def cuts(checks, program, script):
    """What was cut off is lost, so the logs may be refused from then on."""
    for after in (0.01, 0.03, 0.1):
        for size in (0, 10, 45, 300):
            name = f"a log that is cut to {size} after {after}"
            with Folder(program) as folder:
                folder.run("make", "10", "20", "30")
                got = interrupted(folder, script, after, lambda run: os.truncate(folder.log(1), size))
                checks.check(f"{name}: status", got.status in (0, 6, 7), got)
                got = folder.run("show", seconds=SECONDS)
                checks.check(f"{name}: show", got.status in (0, 7, 11), got)


def main():
    told = arguments(__doc__, count=50, step=1)
    checks, script = Checks(told), wide(8, 60)
    if told.step and told.only is None:
        files(checks, told.program)
        streams(checks, told.program)
        signals(checks, told.program, script)
        cuts(checks, told.program, script)
        bounds(checks, told.program, told.step)
    for case, numbers in cases(told):
        at_random(checks, case, numbers, told.program)
    checks.end()


if __name__ == "__main__":
    main()
