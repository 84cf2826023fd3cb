#!/usr/bin/env python3
"""Live sessions where disks, streams, memory and surroundings fail: `serve` with the same lines, over and over.

Three sessions, none of which meets another one, write on two shards, and add beside each other to a counter of each. Each call on a log fails in its turn, alone and with all later ones, and the program is stopped
at each; calls of the standard streams fail, and threads; the Nth allocation is refused, alone and with all later ones; memory, stacks and files are bounded.

What must hold after each run:

- it ends, with the status and the text that belong to what failed;
- each session's answers are those of a front of its lines, one for one, and of all where the output didn't fail and nothing wanted memory;
- in each image of the logs that a crash may leave each transaction that was told as committed is there, each that was told as none isn't, and of the others, whose
  commit has no answer or `unsettled`, all or nothing is;
- `show` tells what the image stands for, and live sessions go on from there.

Then a shard fails while one session has savepoints: that session goes back line by line, over shards of which this one is down.

And while lines put texts, a malformed one is told as no request whatever memory there is, one that finds none is told as that, and a session that found none elsewhere
has ended.
"""

import errno
import json
import resource
import tempfile

import faults
import logs
from calls import expected
from live import Live
from live_rows import refused
from program import Checks, Folder, arguments

SECONDS = 60
KIB, MIB = 1 << 10, 1 << 20
SESSIONS = 3
# Which keys each transaction of a session sets; the second shard begins at 50. The values tell the session and the transaction.
PLANS = [[(1,), (51,), (1, 51), (2, 52)], [(11, 61), (11,), (61, 62)], [(21,), (22, 72), (71,)]]


# A counter on each shard: what a transaction adds there is a bit of its own, those of a session among eight.
COUNTERS, BITS = (30, 80), 8


def transactions():
    """What the transactions of each session write: the values that they set, and the counters to which they add, which lie where they set some."""
    plans = [[{key: 100 * (session + 1) + nth for key in keys} for nth, keys in enumerate(plan)] for session, plan in enumerate(PLANS)]
    return [[(wrote, sorted({COUNTERS[key >= 50] for key in wrote})) for wrote in plan] for plan in plans]


def lines_of(session, nth, wrote, added):
    """Behind its savepoint it writes something else, and goes back."""
    by, last = 1 << BITS * (session - 1) + nth, max(wrote)
    puts, adds = [f"put {key} {value}" for key, value in wrote.items()], [f"add {key} {by}" for key in added]
    return [f"{session} {it}" for it in ("begin", *puts, "save", *adds, f"put {last} 0", "back 1", *adds, "commit")]


def lines():
    """The lines of each session, and all of them: those of a transaction together, a transaction of each session in its turn."""
    own = {number + 1: [it for nth, made in enumerate(plan) for it in lines_of(number + 1, nth, *made)] for number, plan in enumerate(transactions())}
    longest = max(len(it) for it in PLANS)
    rounds = [(number + 1, nth, *plan[nth]) for nth in range(longest) for number, plan in enumerate(transactions()) if nth < len(plan)]
    return own, "".join(f"{it}\n" for made in rounds for it in lines_of(*made)).encode()


LINES, INPUT = lines()
# Each key has a value before, so that no session meets another one in a gap.
FILLED = {key: 1 for plan in PLANS for keys in plan for key in keys} | dict.fromkeys(COUNTERS, 0)
FILLING = "\n".join(["session", "begin", *(f"put {key} {value}" for key, value in FILLED.items()), "commit", ""]).encode()
SERVE = ("serve", "--sessions", str(SESSIONS))
WORDS = {it: {it} for it in ("begin", "put", "add", "save", "back")} | {"commit": {"committed"}}
MEMORY, ENDED = '[1,"memory"]', '[1,"refused","the session has ended"]'
CAUSES = {"aborted", "down", "unsettled", "worn", "memory", "refused"}


class Wrong(Exception):
    pass


class Told:
    """What the output tells: for each session the fate of each transaction, True for committed, False for none, None where it isn't known."""

    def __init__(self, out, is_whole):
        answers = {number: [] for number in LINES}
        texts = out.split("\n")
        for line in texts[:-1]:
            answer = json.loads(line)
            answers[answer[0]].append(answer)
        if is_whole and (texts[-1] or any(len(answers[it]) != len(LINES[it]) for it in LINES)):
            raise Wrong(f"{[len(it) for it in answers.values()]} answers")
        self.fates = {number: self.fates_of(number, answers[number]) for number in LINES}

    def fates_of(self, number, answers):
        fates, is_lost = [], False
        for asked, answer in zip(LINES[number], answers):
            word = asked.split()[1]
            if answer[1] not in WORDS[word] | CAUSES:
                raise Wrong(f"{asked}: {answer}")
            if word == "begin":
                is_lost = False
            if answer[1] == "unsettled" or (answer[1] == "memory" and word == "commit"):
                fates.append(None)
                is_lost = True
            elif word == "commit" and not is_lost:
                fates.append(answer[1] == "committed")
        return fates

    def maps(self):
        """What the logs may stand for, session by session; of the counters its own bits."""
        for number, plan in enumerate(transactions()):
            may = [part_of(number, FILLED)]
            fates = self.fates[number + 1]
            for nth, ((wrote, added), fate) in enumerate(zip(plan, fates + [None] * (len(plan) - len(fates)))):
                with_it = [{**it, **wrote, **{key: it[key] + (1 << nth) for key in added}} for it in may]
                may = with_it if fate else may if fate is False else may + with_it
            yield number, may


def part_of(number, pairs):
    """What these pairs have of a session's."""
    own = {key: value for key, value in pairs.items() if any(key in keys for keys in PLANS[number])}
    return own | {key: pairs[key] >> BITS * number & (1 << BITS) - 1 for key in COUNTERS}


class Trial:
    def __init__(self, checks, library, program):
        self.checks, self.library, self.program = checks, library, program
        with Folder(program) as folder:
            folder.run("make", "50")
            folder.run("run", script=FILLING)
            self.start = folder.logs()

    def run(self, name, is_whole=True, statuses=None, **fault):
        """One run and all that is judged of it. `statuses` where they don't follow from the calls on logs."""
        name = f"{name}, {faults.spelled(fault)}"
        with Folder(self.program) as folder:
            folder.put(self.start)
            got, trace = self.library.run(folder, *SERVE, script=INPUT, seconds=SECONDS, **fault)
            left = folder.logs()
        is_stopped = "stop" in fault and got.status == faults.STOPPED
        wanted = statuses or {expected(trace)}
        self.checks.check(f"{name}: status", is_stopped or (got.status, got.err) in wanted, (got, wanted))
        disks = faults.Disks(self.start, trace)
        self.checks.check(f"{name}: the logs are as its calls left them", disks.read() == left, (disks.read(), left))
        self.judge_all(name, got, is_whole and got.status in (0, 6) and bool(got.out), disks.images())
        return got, trace

    def told(self, script, **fault):
        """One run of other lines."""
        with Folder(self.program) as folder:
            folder.put(self.start)
            return self.library.run(folder, *SERVE, script=script, seconds=SECONDS, **fault)

    def bounded(self, name, limit, statuses):
        """One run with a bound of the system."""
        with Folder(self.program) as folder:
            folder.put(self.start)
            got = folder.run(*SERVE, script=INPUT, limits=[limit], seconds=SECONDS)
            left = folder.logs()
        self.checks.check(f"{name}: status", got.status in statuses, got)
        self.judge_all(name, got, got.status == 0, [("left", left)])

    def judge_all(self, name, got, is_whole, images):
        try:
            told = Told(got.out, is_whole)
        except (Wrong, ValueError, KeyError, IndexError) as wrong:
            self.checks.check(f"{name}: answers", False, f"{wrong}\n{got.out}")
            return
        for choices, files in images:
            self.judge(f"{name}: {choices}", files, told)

    def judge(self, name, files, told):
        try:
            pairs = logs.map_of(files)
        except logs.Fault as fault:
            self.checks.check(name, False, fault.text)
            return
        for number, may in told.maps():
            own = part_of(number, pairs)
            self.checks.check(f"{name}: session {number + 1}", own in may, (own, may, told.fates))
        self.goes_on(name, files, pairs)

    def goes_on(self, name, files, pairs):
        with Folder(self.program) as folder:
            folder.put(files)
            got = folder.run("show")
            self.checks.check(f"{name}: show", got.is_fine() and got.out == logs.shown(pairs), (got, pairs))
            got = folder.run(*SERVE, script=b"2 begin\n2 put 9 1\n2 put 99 1\n2 commit\n")
            is_done = got.is_fine() and '"committed"' in got.out and logs.map_of(folder.logs()) == {**pairs, 9: 1, 99: 1}
            self.checks.check(f"{name}: live sessions go on", is_done, (got, pairs))


def disks(trial, step):
    """Each call on each log fails, alone and with all later ones; and the program ends in place of each."""
    got, trace = trial.run("none fails")
    trial.checks.check("none fails: all is committed", got.out.count('"committed"') == sum(map(len, PLANS)), got)
    for (kind, log), most in trace.counts():
        for number in range(1, most + 2, step):
            trial.run("a call", call=f"{kind}@{log}:{number}:{errno.EIO}")
            trial.run("and later ones", call=f"{kind}@{log}:{number}:{errno.EIO}:on")
    for number in range(1, len(trace.calls) + 2, step):
        trial.run("stopped", stop=number)


STREAMS = [
    (f"in:1:{errno.EIO}", (4, "read fault\n")),
    (f"in:2:{errno.EIO}", (4, "read fault\n")),
    (f"in:1:{errno.EINTR}", (4, "read fault\n")),
    (f"out:1:{errno.EIO}", (5, "write fault\n")),
    (f"out:2:{errno.EPIPE}:on", (5, "write fault\n")),
    (f"out:1:{errno.EIO}:half", (5, "write fault\n")),
    (f"out:1:{errno.EIO}:short", (0, "")),
]


def streams(trial):
    """A stream that fails. The second write may not come, where all answers went out at once."""
    for call, want in STREAMS:
        trial.run("a stream", is_whole=want[0] == 0, statuses={want, (0, "")} if call.startswith("out:2") else {want}, call=call)


def threads(trial):
    """A thread that can't be made: nothing is done, and that takes some seconds."""
    for number in (1, 4):
        got, trace = trial.run("a thread", is_whole=False, statuses={(8, "want of memory\n"), (0, "")}, call=f"thread:{number}:{errno.EAGAIN}")
        trial.checks.check(f"thread {number}: it failed", trace.faults or got.status == 0, got)
    trial.run("no thread", is_whole=False, statuses={(8, "want of memory\n")}, call=f"thread:1:{errno.EAGAIN}:on")


# Session 1 has a savepoint, and session 2 commits at a key of a shard that fails then. The shard; the lines up to that commit, and those behind it, each with its answer;
# what stands; and the records of session 1's first transaction on the other shard.
BACK_ROWS = [
    (
        "the second of two shards is down",
        1,
        [
            ("1 begin", [1, "begin", 1]),
            ("1 put 1 100", [1, "put", 1, 100, 1]),
            ("1 save", [1, "save", 1]),
            ("1 put 2 5", [1, "put", 2, 5, 1]),
            ("1 add 30 7", [1, "add", 30, 7, True]),
            ("1 put 51 7", [1, "put", 51, 7, 1]),
            ("1 save", [1, "save", 2]),
            ("1 put 2 6", [1, "put", 2, 6, 5]),
        ],
        [
            ("1 back 3", refused(1, "no such savepoint")),
            ("1 back 1", [1, "down", 1]),
            ("1 back 1", refused(1, "no transaction is active")),
            ("1 commit", refused(1, "no transaction is active")),
            ("1 retry", [1, "begin", 2]),
            ("1 back 1", refused(1, "no such savepoint")),
            ("1 scan 0 49", [1, "scan", 0, 49, [[1, 1], [2, 1], [11, 1], [21, 1], [22, 1], [30, 0]]]),
            ("1 save", [1, "save", 1]),
            ("1 put 2 7", [1, "put", 2, 7, 1]),
            ("1 get 51", [1, "down", 1]),
            ("1 begin", [1, "begin", 3]),
            ("1 save", [1, "save", 1]),
            ("1 put 2 8", [1, "put", 2, 8, 1]),
            ("1 add 30 1", [1, "add", 30, 1, True]),
            ("1 back 1", [1, "back", 1]),
            ("1 put 22 4", [1, "put", 22, 4, 1]),
            ("1 commit", [1, "committed", 3]),
        ],
        {22: 4},
        ["UPDATE", "UPDATE", "ADD", "UPDATE", "CLR", "UNADD", "CLR", "ABORT", "CLR"],
    ),
    (
        "the first of two shards is down",
        0,
        [
            ("1 begin", [1, "begin", 1]),
            ("1 save", [1, "save", 1]),
            ("1 put 51 7", [1, "put", 51, 7, 1]),
            ("1 put 1 100", [1, "put", 1, 100, 1]),
        ],
        [
            ("1 back 1", [1, "down", 0]),
            ("1 retry", [1, "begin", 2]),
            ("1 get 51", [1, "get", 51, 1]),
            ("1 put 52 4", [1, "put", 52, 4, 1]),
            ("1 commit", [1, "committed", 2]),
        ],
        {52: 4},
        ["UPDATE", "ABORT", "CLR"],
    ),
    (
        "a shard is down on which nothing is to take back",
        1,
        [
            ("1 begin", [1, "begin", 1]),
            ("1 put 51 7", [1, "put", 51, 7, 1]),
            ("1 save", [1, "save", 1]),
            ("1 put 1 100", [1, "put", 1, 100, 1]),
        ],
        [
            ("1 back 1", [1, "back", 1]),
            ("1 get 1", [1, "get", 1, 1]),
            ("1 back 1", [1, "back", 1]),
            ("1 commit", [1, "unsettled", 1]),
            ("1 retry", refused(1, "the session has ended")),
            ("3 begin", [3, "begin", 1]),
            ("3 put 1 5", [3, "put", 1, 5, 1]),
            ("3 commit", [3, "committed", 1]),
        ],
        {1: 5},
        ["UPDATE", "CLR"],
    ),
]
# The calls on the failing shard's log by which session 2's batch is written; whether it may stand then.
BATCH_CALLS = [("write", 3, False), ("sync", 4, False), ("write", 4, True), ("sync", 5, True)]


def goes_back(trial, title, kind, number, may_stand, shard, first, then, stands, records):
    """One run of lines that are answered one behind the other."""
    name, key = f"{title}, {kind} {number}", 61 if shard else 21
    commit = [("2 begin", [2, "begin", 1]), (f"2 put {key} 9", [2, "put", key, 9, 1]), ("2 commit", [2, "unsettled", shard])]
    with Folder(trial.program) as folder:
        folder.put(trial.start)
        live = Live(folder, *SERVE[1:], environment=trial.library.environment(folder, call=f"{kind}@shard-{shard:02}.log:{number}:{errno.EIO}"))
        for asked, want in first + commit + then:
            got = live.ask(asked)
            trial.checks.check(f"{name}: {asked}", got == want, (got, want))
        ended, want = live.end(), (6, [], f"disk fault on shard {shard}\n")
        trial.checks.check(f"{name}: status", ended == want, (ended, want))
        left = folder.logs()
        images = faults.Disks(trial.start, trial.library.trace(folder)).images()
    found = [it[0] for it in logs.opened(left)[1][1 - shard].records if it[1] == (2, 1, 1)]
    trial.checks.check(f"{name}: records", found == records, (found, records))
    maps = [{**FILLED, **stands}] + [{**FILLED, **stands, key: 9}] * may_stand
    for choices, files in images:
        pairs = logs.map_of(files)
        trial.checks.check(f"{name}: {choices}: what stands", pairs in maps, (pairs, maps))
        trial.goes_on(f"{name}: {choices}", files, pairs)


def goings_back(trial):
    for title, *row in BACK_ROWS:
        for kind, number, may_stand in BATCH_CALLS:
            goes_back(trial, title, kind, number, may_stand, *row)


# So many runs in which no allocation was refused end a sweep.
QUIET = 4


def memory(trial, step):
    """Each allocation finds no memory, alone and with all later ones. Where not even the line on standard error has any the status tells it."""
    wanting = {(0, ""), (8, "want of memory\n"), (8, "")}
    for later in ("", ".."):
        number, quiet = 1, 0
        while quiet < QUIET:
            _, trace = trial.run("an allocation", is_whole=False, statuses=wanting, alloc=f"{number}{later}")
            quiet = 0 if "alloc" in trace.faults else quiet + 1
            number += 1 if quiet else step


# Lines of one session, each with what it may be answered while memory is wanting: a malformed text is told as that, whatever memory there is.
NO_REQUEST, NO_TEXT = '[1,"refused","no request"]', '[1,"refused","no memory for the text"]'
TEXTS = [
    ("1 begin", {'[1,"begin",1]'}),
    ("1 bytes 1 0g", {NO_REQUEST}),
    ("1 bytes 1 00ff", {'[1,"put",1,"00ff",1]', NO_TEXT, MEMORY}),
    ("1 bytes 1 00FF", {NO_REQUEST}),
    ("1 bytes 1 000", {NO_REQUEST}),
    ("1 bytes 1 -", {'[1,"put",1,"","00ff"]', '[1,"put",1,"",1]', NO_TEXT, MEMORY}),
    ("1 commit", {'[1,"committed",1]', '[1,"empty",1]', MEMORY}),
]


# A text is made on one thread while others go on: by turns of luck no allocation of one sweep is a text's. So often a sweep is tried before that is a fault.
SWEEPS = 20


def texts(trial, step):
    """Lines put texts and what is none while memory is wanting: each answer is one that its line may have, and some text finds none."""
    refused = any(sweep(trial, step) for _ in range(SWEEPS))
    trial.checks.check("some text found no memory", refused, refused)


def sweep(trial, step):
    """Each allocation from the first answer on finds no memory. How many runs told that a text found none."""
    script = "".join(f"{line}\n" for line, _ in TEXTS).encode()
    number, quiet, refused, is_near = 1, 0, 0, step == 1
    while quiet < QUIET:
        got, trace = trial.told(script, alloc=f"{number}")
        if got.out and not is_near:
            number, is_near = number - step, True
        refused += NO_TEXT in got.out
        has_ended = False
        for (line, may), answer in zip(TEXTS, got.out.splitlines()):
            trial.checks.check(f"allocation {number}, {line}", answer == ENDED if has_ended else answer in may, got)
            has_ended = has_ended or answer == MEMORY
        quiet = 0 if "alloc" in trace.faults else quiet + 1
        number += 1 if is_near else step
    return refused


def bounds(trial, step):
    for most in range(4 * MIB, 60 * MIB, 2 * MIB * step):
        # With less memory no program is loaded, which the system may tell by a status of its own.
        trial.bounded(f"memory {most}", (resource.RLIMIT_AS, most), {0, 8, 127})
    for most in range(192 * KIB, 2 * MIB, 512 * KIB * step):
        trial.bounded(f"stacks {most}", (resource.RLIMIT_STACK, most), {0, 8})
    for most in range(4, 8):
        trial.bounded(f"files {most}", (resource.RLIMIT_NOFILE, most), {0, 6})


def main():
    told = arguments(__doc__, step=1)
    checks = Checks(told)
    with tempfile.TemporaryDirectory(prefix="faults-") as place:
        library = faults.built(checks, place)
        if library:
            trial = Trial(checks, library, told.program)
            disks(trial, told.step)
            goings_back(trial)
            streams(trial)
            memory(trial, told.step)
            texts(trial, told.step)
            bounds(trial, told.step)
            threads(trial)
    checks.end()


if __name__ == "__main__":
    main()
