#!/usr/bin/env python3
"""Each call on a disk fails, and the program is stopped at each: what it tells, and what a crash leaves of the logs then.

For scripts on one, two and three shards: one run in which a call fails, one in which all later ones fail too, and one that ends in its place; calls
that are interrupted, that move less than they were asked to, that find no room; all disks from a call on. Then the same of `make`, of the standard
streams and of threads, and a write that fails in a run of `load`, which tries its transfers without end. One shard fails for ever, at one write after
the other: sessions that work on another one alone go on to their ends. Cases at random: sessions that meet on three shards, with one such fault. And each call of an audit, and of a standby, fails in its turn.

What must hold after each run over logs, where four images of what a crash may leave are made from the calls that it made:

- it ends, with status 6 exactly where a call failed, which tells the lowest shard of which one did, and else with status 0;
- where it opened the logs it wrote a report, whose transactions are a serial run from what stood before;
- each image may be opened, `show` tells what it stands for, and another run goes on from there;
- each transaction of the script is in it whole or not at all, those before it in its session are too, and each acknowledged one is;
- where none is unsettled, but those that acknowledged ones have seen, it stands for the map that the report leads to.
"""

import errno
import json
import tempfile

import faults
import logs
import members
import reports
import verdicts
from program import Checks, Folder, arguments, cases

ONE_PUT = b"session\nbegin\nput 5 10\ncommit\n"
FILLING = b"session\nbegin\nput 2 2\nput 14 4\ncommit\n"
# Transactions of one shard and of both, a reader, an abort, a delete.
TWO_SHARDS = b"""session
begin
put 1 1
put 11 1
commit
begin
del 11
put 2 7
commit
begin
put 3 3
abort
session
begin
get 1
put 12 5
commit
begin
scan 0 20
commit
begin
put 13 1
commit
"""
THREE_SHARDS = b"""session
begin
put 1 1
put 11 2
put 21 3
commit
begin
put 1 4
put 21 5
commit
session
begin
get 1
get 11
put 22 9
commit
begin
put 1 8
put 12 8
abort
"""
# Sessions that add beside each other on two shards, and end in each way.
ADDITIONS = b"""session
begin
add 2 1
add 14 1
commit
begin
add 2 10
put 3 1
abort
session
begin
add 14 2
add 2 2
commit
begin
add 14 20
add 5 20
commit
"""
# Sessions that go back on one shard and on both, beside each other, and go on behind that.
SAVEPOINTS = b"""session
begin
save
put 3 1
put 13 1
add 2 5
back 1
put 3 2
save
add 14 5
put 4 1
back 2
commit
begin
put 11 6
save
del 11
back 1
abort
session
begin
add 2 1
save
add 14 2
put 15 1
back 1
put 15 2
commit
begin
put 5 3
save
put 16 3
back 1
commit
"""
# Sessions that meet on one shard, and end in each way.
ONE_SHARD = b"""session
begin
put 1 1
put 2 2
get 3
commit
begin
put 1 3
put 3 4
abort
session
begin
get 2
put 3 5
put 2 6
commit
begin
get 1
get 3
commit
session
begin
scan 0 5
put 2 7
put 1 8
commit
"""
# Splits, a script that ran before, the script.
SCRIPTS = [
    ("one put", (), b"", ONE_PUT),
    ("one shard", (), b"", ONE_SHARD),
    ("two shards", (10,), FILLING, TWO_SHARDS),
    ("three shards", (10, 20), b"", THREE_SHARDS),
    ("additions", (10,), FILLING, ADDITIONS),
    ("savepoints", (10,), FILLING, SAVEPOINTS),
]

# What ONE_PUT reports where the Nth call of a kind on a file of its log fails, and what may stand then.
DONE = '{"ops":[["put",5,10,null]],"serial":1,"session":1}\n{"aborted":0,"acknowledged":1,"unsettled":0}\n'
UNSETTLED = '{"aborted":0,"acknowledged":0,"unsettled":1}\n'
NOTHING, EITHER = {""}, {"", "[5,10]\n"}
UNOPENED = {"open": 1, "lock": 1, "len": 2, "read": 2, "write": 2, "sync": 3}
UNOPENED_BESIDE = {"open": 1, "lock": 1, "len": 2, "sync": 1}
LOG, BESIDE = faults.names(0)
WORKED = {(kind, LOG, number): ("", NOTHING) for kind, most in UNOPENED.items() for number in range(1, most + 1)}
WORKED |= {(kind, BESIDE, number): ("", NOTHING) for kind, most in UNOPENED_BESIDE.items() for number in range(1, most + 1)}
WORKED |= {("write", LOG, 3): (UNSETTLED, NOTHING), ("sync", LOG, 4): (UNSETTLED, NOTHING)}
WORKED |= {("write", LOG, 4): (UNSETTLED, EITHER), ("sync", LOG, 5): (UNSETTLED, EITHER)}

# Errors of a call, with what more is told of it.
ODD_ERRORS = [(errno.EINTR, ""), (errno.EAGAIN, ""), (errno.ENOSPC, ""), (errno.EINTR, ":short"), (errno.ENOSPC, ":half")]
# So many tries that no transaction is given up; and so few that it takes no time, where one finds a part in its way that nobody ends.
RUN, RUN_BRIEFLY = ("run", "--tries", "1000"), ("run", "--tries", "40")


def has_failed(call):
    """Whether a shard is down for it. An interrupted call is made again, but that which asks for the length."""
    return call.error and (call.error != errno.EINTR or call.kind == "len")


def expected(trace):
    """The status and the text of a run that made these calls."""
    down = [it.shard() for it in trace.calls if has_failed(it)]
    return (6, f"disk fault on shard {min(down)}\n") if down else (0, "")


class Reported:
    """What a run told: the map, if it is known what must stand, the acknowledged transactions, and the unsettled ones that these have seen."""

    def __init__(self, got, script, before):
        self.after, self.is_certain, self.has_given_up = before, got.status in (0, 6), got.status in (0, 6)
        self.lines, self.seen = [], {}
        if got.out:
            replayed = reports.replay(script, got.out, before) if got.status == 0 else reports.replay_stopped(script, got.out, before)
            self.after, counts, *seen = replayed
            self.seen = seen[0] if seen else {}
            self.is_certain = counts["unsettled"] == len(self.seen)
            self.lines = [json.loads(it) for it in got.out.splitlines()[:-1]]

    def lost(self, files, run):
        """Acknowledged transactions of which something stands, and that aren't committed in these logs."""
        there = {it for facts in logs.opened(files)[1] for it in facts.committed}
        writing = [it for it in self.lines if reports.standing(it["ops"])]
        return [it for it in writing if (run, it["session"], it["serial"]) not in there]


class Trial:
    """A script over the same logs, which is run with one fault after another."""

    def __init__(self, checks, library, program, case, splits, filling, script):
        self.checks, self.library, self.program, self.case, self.script = checks, library, program, case, script
        with Folder(program) as folder:
            folder.run("make", *map(str, splits))
            if filling:
                folder.run("run", script=filling)
            self.start = folder.logs()
        self.before, self.run_number = logs.map_of(self.start), logs.last_run(logs.opened(self.start)[1]) + 1

    def check(self, name, is_right, found):
        return self.checks.check(name, is_right, found, self.script, self.case)

    def run(self, title, **fault):
        """One run and all that is judged of it. Gives what it answered, what `show` told of the images, and the trace."""
        name, words = f"{title}, {faults.spelled(fault)}", RUN_BRIEFLY if "call" in fault else RUN
        with Folder(self.program) as folder:
            folder.put(self.start)
            got, trace = self.library.run(folder, *words, script=self.script, **fault)
            left = folder.logs()
        want = expected(trace)
        is_stopped = "stop" in fault and (got.status, got.out, got.err) == (faults.STOPPED, "", "")
        self.check(f"{name}: status", is_stopped or (got.status, got.err) == want, (got, want))
        disks = faults.Disks(self.start, trace)
        self.check(f"{name}: the logs are as its calls left them", disks.read() == left, (disks.read(), left))
        if got.out:
            self.audit(name, got, left)
        try:
            told = Reported(got, self.script, self.before)
        except (reports.Wrong, ValueError, KeyError, IndexError) as wrong:
            self.check(f"{name}: report", False, f"{wrong}\n{got.out}")
            return got, set(), trace
        shown = {self.judge(f"{name}: {choices}", files, told) for choices, files in disks.images()}
        return got, shown, trace

    def audit(self, name, got, left):
        """What was told by a run whose disks failed is true by the logs that it left, where these may be read, if nothing is unsettled."""
        with Folder(self.program) as folder:
            folder.put(left)
            source = (logs.shown(self.before) + got.out).encode()
            found = verdicts.judges(self.checks, folder, f"{name}: audit", source, self.case)
        is_settled = got.out.endswith('"unsettled":0}\n')
        self.check(f"{name}: true, or unsettled", not is_settled or found.status in (0, 7), found)

    def judge(self, name, files, told):
        """One image: what it stands for, as `show` spells it."""
        try:
            pairs = logs.map_of(files)
        except logs.Fault as fault:
            self.check(name, False, fault.text)
            return None
        if told.is_certain:
            self.check(f"{name}: what stands", pairs == told.after, (pairs, told.after))
        wrong = members.wrong_in(self.script, files, self.run_number, told.has_given_up)
        self.check(f"{name}: whole transactions", wrong is None, wrong)
        lost = told.lost(files, self.run_number) or members.missing(self.script, files, self.run_number, told.seen)
        self.check(f"{name}: acknowledged, or seen by such", not lost, lost)
        self.goes_on(name, files, pairs)
        return logs.shown(pairs)

    def goes_on(self, name, files, pairs):
        """`show` tells what the image stands for, and the next run goes on."""
        with Folder(self.program) as folder:
            folder.put(files)
            got = folder.run("show")
            self.check(f"{name}: show", got.is_fine() and got.out == logs.shown(pairs), (got, pairs))
            got = folder.run("run", script=ONE_PUT)
            is_done = got.is_fine() and logs.map_of(folder.logs()) == {**pairs, 5: 10}
            self.check(f"{name}: the next run", is_done, (got, pairs))


# Each call, one after the other.


def is_worked(trial, title, call, got, shown):
    """ONE_PUT, of which this call failed, has told and left what was worked out by hand."""
    text, may_stand = WORKED.get(call, (DONE, {"[5,10]\n"}))
    name = " ".join(map(str, call))
    trial.check(f"{title}: {name}: output", got.out == text, (got, text))
    is_right = shown <= may_stand and (shown == EITHER or call != ("sync", LOG, 5))
    trial.check(f"{title}: {name}: what stands", is_right, (shown, may_stand))


def fails(trial, title, counts):
    """Each call of each kind on each log fails, alone and with all later ones."""
    for (kind, log), most in counts:
        for number in range(1, most + 2):
            got, shown, _ = trial.run(title, call=f"{kind}@{log}:{number}:{errno.EIO}")
            if trial.script == ONE_PUT:
                is_worked(trial, title, (kind, log, number), got, shown)
            trial.run(title, call=f"{kind}@{log}:{number}:{errno.EIO}:on")


def falls_short(trial, title, counts):
    """Each call is interrupted, is told to try again, finds no room, or moves a part."""
    for (kind, log), most in counts:
        for number in range(1, most + 1):
            for error, more in ODD_ERRORS:
                if not more or kind == "write" or (kind, more) == ("read", ":short"):
                    trial.run(title, call=f"{kind}@{log}:{number}:{error}{more}")


def fails_for_good(trial, title, total):
    """All calls on all disks fail from one on."""
    for number in range(1, total + 2):
        trial.run(title, call=f"disk:{number}:{errno.EIO}:on")


def stops(trial, title, total):
    """The program ends in place of each call."""
    for number in range(1, total + 2):
        trial.run(title, stop=number)


def lacks_threads(trial, title):
    """No thread can be made: sessions run behind each other."""
    for number in (1, 2, 3):
        for more in ("", ":on"):
            trial.run(title, call=f"thread:{number}:{errno.EAGAIN}{more}")


def sweeps(checks, library, program):
    for title, *rest in SCRIPTS:
        trial = Trial(checks, library, program, None, *rest)
        _, _, trace = trial.run(title)
        counts, total = trace.counts(), len(trace.calls)
        fails(trial, title, counts)
        falls_short(trial, title, counts)
        fails_for_good(trial, title, total)
        stops(trial, title, total)
        lacks_threads(trial, title)


# `make`, and the standard streams.


def fails_to_make(checks, library, folder, kind, number):
    """Whether `make`, of which this call fails, made it. It tells the shard; to make again does it, or finds a file with bytes."""
    name = f"make: {kind} {number}"
    folder.put([])
    got, trace = library.run(folder, "make", "10", call=f"{kind}:{number}:{errno.EIO}")
    if not trace.faults:
        checks.check(f"{name}: none fails", got.is_fine(), got)
        return False
    shard = trace.calls[-1].shard()
    checks.check(name, got.is_refused(6, f"disk fault on shard {shard}"), got)
    filled = [it for it, data in enumerate(folder.logs()) if data]
    again = folder.run("make", "10")
    is_right = again.is_refused(10, f"shard {filled[0]}: length 37, not 0") if filled else again.is_fine()
    checks.check(f"{name}: again", is_right, (again, filled))
    return True


def makes(checks, library, program):
    with Folder(program) as folder:
        for kind in ("open", "lock", "len", "write", "sync", "folder"):
            number = 1
            while fails_to_make(checks, library, folder, kind, number):
                number += 1
            checks.check(f"make: it makes calls of the kind {kind}", number > 1)


def audits(checks, library, program):
    """Each call of an audit fails in its turn. It makes none that writes."""
    with Folder(program) as folder:
        folder.run("make", "10")
        folder.run("run", script=FILLING)
        source = "[2,2]\n[14,4]\n" + folder.run("run", script=TWO_SHARDS).out
        files = folder.logs()
        plain = folder.run("audit", script=source.encode())
        checks.check("audit: yes", plain.is_fine() and plain.out.startswith("yes "), plain)
        for kind in ("open", "lock", "len", "read", "sync", "write"):
            number, is_made = 0, True
            while is_made:
                number += 1
                got, trace = library.run(folder, "audit", script=source.encode(), call=f"{kind}:{number}:{errno.EIO}")
                is_made = bool(trace.faults)
                want = (*expected(trace), "" if is_made else plain.out)
                checks.check(f"audit: {kind} {number}", (got.status, got.err, got.out) == want, (got, want))
                is_kept = folder.logs() == files and all(it.kind != "write" for it in trace.calls)
                checks.check(f"audit: {kind} {number}: no log was written", is_kept, folder.logs())
            checks.check(f"audit: calls of the kind {kind}", (number > 1) == (kind != "write"), number)


def standbys(checks, library, program):
    """Each call of `standby` fails in its turn. It makes none that writes to a log."""
    with Folder(program) as folder:
        folder.run("make", "10")
        folder.run("run", script=TWO_SHARDS)
        files = folder.logs()
        plain = folder.run("standby", "9", "4")
        checks.check("standby: it shows", plain.is_fine() and plain.out != "", plain)
        for kind in ("open", "lock", "len", "read", "sync", "write"):
            number, is_made = 0, True
            while is_made:
                number += 1
                got, trace = library.run(folder, "standby", "9", "4", call=f"{kind}:{number}:{errno.EIO}")
                is_made = bool(trace.faults)
                want = (*expected(trace), "" if is_made else plain.out)
                checks.check(f"standby: {kind} {number}", (got.status, got.err, got.out) == want, (got, want))
                is_kept = folder.logs() == files and all(it.kind != "write" for it in trace.calls)
                checks.check(f"standby: {kind} {number}: no log was written", is_kept, folder.logs())
            checks.check(f"standby: calls of the kind {kind}", (number > 1) == (kind != "write"), number)


# What is to fail of a stream, the status and the text.
STREAMS = [
    (f"in:1:{errno.EIO}", 4, "read fault\n"),
    (f"in:2:{errno.EIO}", 4, "read fault\n"),
    (f"in:1:{errno.EINTR}", 4, "read fault\n"),
    (f"in:1:{errno.EIO}:short", 0, ""),
    (f"out:1:{errno.EIO}", 5, "write fault\n"),
    (f"out:1:{errno.ENOSPC}:on", 5, "write fault\n"),
    (f"out:1:{errno.EIO}:short", 0, ""),
    (f"out:1:{errno.EIO}:half", 5, "write fault\n"),
]


def streams(checks, library, program):
    for call, status, text in STREAMS:
        with Folder(program) as folder:
            folder.run("make")
            made = folder.logs()
            got, trace = library.run(folder, "run", script=ONE_PUT, call=call)
            checks.check(f"FAULTS_CALL={call}", (got.status, got.err) == (status, text) and trace.faults, got, ONE_PUT)
            is_front = got.out == DONE if status == 0 else DONE.startswith(got.out) and got.out != DONE
            checks.check(f"FAULTS_CALL={call}: output", is_front, got, ONE_PUT)
            is_kept = folder.logs() == made if status == 4 else logs.map_of(folder.logs()) == {5: 10}
            checks.check(f"FAULTS_CALL={call}: logs", is_kept, folder.logs(), ONE_PUT)


# A shard that is down stops only those who need it.

# Session 1 works on shard 1, or on both; 2 and 3 meet on shard 0, at keys that are there before.
PUTS, APART_TIMES = 12, 25
APART_BEFORE = b"session\nbegin\nput 1 0\nput 2 0\nput 3 0\nput 4 0\nput 5 0\nput 7 0\ncommit\n"


def apart_lines(session, nth):
    """The nth transaction of sessions 2 and 3: both put under the same keys, each in an order of its own."""
    keys = [1, 2, 3, 4][nth % 4 :] + [1, 2, 3, 4][: nth % 4]
    return ["begin", *(f"put {key} {session * 1000 + nth}" for key in (keys if session == 2 else keys[::-1])), "get 5", "commit"]


def apart(keys):
    """The script in which the transactions of session 1 put under these keys."""
    lines = ["session"]
    for nth in range(PUTS):
        lines += ["begin", *(f"put {key} {nth + 1}" for key in keys), "commit"]
    for session in (2, 3):
        lines += ["session", *(line for nth in range(APART_TIMES) for line in apart_lines(session, nth))]
    return reports.script_of(lines)


def others_go_on(checks, library, program):
    for keys in ((11,), (12, 7), (7, 13)):
        script = apart(keys)
        for number in range(3, 2 * PUTS + 1):
            name = f"session 1 puts under {keys}, shard 1 fails from its write {number} on"
            with Folder(program) as folder:
                folder.run("make", "10")
                folder.run("run", script=APART_BEFORE)
                got, _ = library.run(folder, *RUN, script=script, call=f"write@shard-01.log:{number}:{errno.EIO}:on")
            checks.check(f"{name}: status", (got.status, got.err) == (6, "disk fault on shard 1\n"), got, script)
            done = [json.loads(line).get("session") for line in got.out.splitlines()]
            is_all = (done.count(2), done.count(3)) == (APART_TIMES, APART_TIMES)
            checks.check(f"{name}: sessions 2 and 3 go on to their ends", is_all, (done.count(2), done.count(3)), script)


# A run of `load` ends, too, where the filling was left on a shard by a home that failed: nobody ends its part there, of which each transfer dies.
LOAD = ("load", "--seed", "7", "--sessions", "2", "--accounts", "4", "--transfers", "1")
LOAD_SECONDS = 30


def loads(checks, library, program):
    for shard in (0, 1):
        for number in range(1, 9):
            call = f"write@shard-{shard:02}.log:{number}:{errno.EIO}"
            with Folder(program) as folder:
                folder.run("make", "2")
                got, trace = library.run(folder, *LOAD, seconds=LOAD_SECONDS, call=call)
            want = expected(trace)
            checks.check(f"FAULTS_CALL={call}, make 2, {' '.join(LOAD)}: it ends within {LOAD_SECONDS} s", got.status is not None, got)
            checks.check(f"FAULTS_CALL={call}, make 2, {' '.join(LOAD)}: status", (got.status, got.err) == want, (got, want))


# Cases at random.


def crowd(numbers):
    """Sessions that meet on keys of three shards. No two transactions write the same."""
    lines, value = [], 0
    for _ in range(numbers.randrange(2, 9)):
        lines.append("session")
        for _ in range(numbers.randrange(1, 8)):
            lines.append("begin")
            mine = []
            for key in numbers.sample(range(30), numbers.randrange(1, 4)):
                value += 1
                put = f"put {key} {value}"
                mine.append(numbers.choice((put, put, f"add {key} {value}", f"get {key}", f"scan {key} {key + 5}")))
            lines += reports.with_savepoints(numbers, mine)
            lines.append(numbers.choice(("commit", "commit", "commit", "abort")))
    return reports.script_of(lines)


def fault_at(numbers):
    if numbers.random() < 0.25:
        return {"stop": numbers.randrange(20, 200)}
    kind, shard = numbers.choice(("write", "sync", "disk")), numbers.randrange(3)
    number = numbers.randrange(1, 60 if kind == "disk" else 30)
    return {"call": f"{kind}@shard-{shard:02}.log:{number}:{errno.EIO}{numbers.choice(('', ':on', ':half'))}"}


def crowds(checks, library, case, numbers, program):
    filling = reports.script_of(["session", "begin", *(f"put {key} 0" for key in range(30)), "commit"])
    trial = Trial(checks, library, program, case, (10, 20), filling, crowd(numbers))
    trial.run(f"case {case}", **fault_at(numbers))


def main():
    told = arguments(__doc__, count=100, sweeps=1)
    checks = Checks(told)
    with tempfile.TemporaryDirectory(prefix="faults-") as place:
        library = faults.built(checks, place)
        if library and told.sweeps and told.only is None:
            makes(checks, library, told.program)
            audits(checks, library, told.program)
            standbys(checks, library, told.program)
            streams(checks, library, told.program)
            others_go_on(checks, library, told.program)
            loads(checks, library, told.program)
            sweeps(checks, library, told.program)
        for case, numbers in cases(told) if library else ():
            crowds(checks, library, case, numbers, told.program)
    checks.end()


if __name__ == "__main__":
    main()
