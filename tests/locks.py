#!/usr/bin/env python3
"""Two programs in one folder: who finds a log open in another one ends with status 6, changes nothing, and nothing is lost.

What must hold:

- while somebody else holds the lock of a log, each command tells a disk fault of that shard, and no log changes; once the lock is gone, it is done;
- while a run is stopped in its middle, each command tells a disk fault of shard 0; the run then goes on to its end, as if it had been alone;
- after a run that was stopped is killed, the next program opens the logs at once;
- programs at random that run again and again beside each other, each until it was done: all that they were told is there, and no more;
- of programs that make logs at the same time one at most does, and the logs are those that it was asked for.
"""

import concurrent.futures
import fcntl
import json
import os
import re
import signal
import subprocess
import time

import logs
import reports
from calls import ONE_PUT
from program import Checks, Folder, Ran, arguments, cases
from worked import DONE

SPLITS = ("10", "20")
FILLING = b"session\nbegin\nput 1 1\nput 11 2\nput 21 3\ncommit\n"
ACCOUNTS, SESSIONS, TRANSFERS = 100, 4, 300
LOAD = f"load --seed 1 --sessions {SESSIONS} --accounts {ACCOUNTS} --transfers {TRANSFERS}".split()
COMMANDS = [("run",), ("show",), ("audit",), ("standby",), ("load", "--seed", "1", "--sessions", "1", "--accounts", "4", "--transfers", "1")]
SECONDS = 60
# How much the logs have grown by, at least, when a run is stopped: more than the first transaction of `load` and an opening make.
GROWTH = 20000
WORKERS, TIMES, BALANCE = 5, 8, 1000


def is_locked(got, shards):
    """Whether a program found one of these shards' logs open in another one."""
    return any(got.is_refused(6, f"disk fault on shard {shard}") for shard in shards)


def pairs_in(folder):
    """What the logs stand for, or why they are refused."""
    try:
        return logs.map_of(folder.logs())
    except logs.Fault as fault:
        return fault.text


def refused(checks, name, folder, shard, commands):
    """No command does anything."""
    before = folder.logs()
    for words in commands:
        got = folder.run(*words, script=DONE.encode() if words[0] == "audit" else ONE_PUT, seconds=SECONDS)
        checks.check(f"{name}: {words[0]}", is_locked(got, [shard]) and folder.logs() == before, got)


# Locks of somebody else.


def held(checks, program, shard, kind):
    name = f"log {shard} has a lock of kind {kind}"
    with Folder(program) as folder:
        folder.run("make", *SPLITS)
        folder.run("run", script=FILLING)
        with open(folder.log(shard), "rb") as file:
            fcntl.flock(file, kind)
            refused(checks, name, folder, shard, COMMANDS)
        got = folder.run("show")
        checks.check(f"{name} no longer", got.is_fine() and got.out == "[1,1]\n[11,2]\n[21,3]\n", got)


def held_empty(checks, program, shard, kind):
    name = f"the empty file {shard} has a lock of kind {kind}"
    with Folder(program) as folder:
        with open(folder.log(shard), "wb") as file:
            fcntl.flock(file, kind)
            got = folder.run("make", *SPLITS)
            checks.check(name, is_locked(got, [shard]) and not any(folder.logs()), got)
        got = folder.run("make", *SPLITS)
        checks.check(f"{name} no longer", got.is_fine() and folder.run("show").is_fine(), got)


def locks(checks, program):
    for shard in range(len(SPLITS) + 1):
        for kind in (fcntl.LOCK_EX, fcntl.LOCK_SH):
            held(checks, program, shard, kind)
            held_empty(checks, program, shard, kind)


# A run that is stopped in its middle.


def stopped(folder):
    """A run of `load` that was stopped when the logs had grown. They are open in it."""
    before, ends = folder.size(), time.monotonic() + SECONDS
    run = folder.start(*LOAD, stdin=subprocess.DEVNULL, stdout=subprocess.PIPE, stderr=subprocess.PIPE)
    while folder.size() < before + GROWTH and run.poll() is None and time.monotonic() < ends:
        time.sleep(0.0005)
    run.send_signal(signal.SIGSTOP)
    if run.returncode is None:
        os.waitid(os.P_PID, run.pid, os.WSTOPPED | os.WEXITED | os.WNOWAIT)
    return run


def goes_on(checks, folder, run):
    run.send_signal(signal.SIGCONT)
    out, err = run.communicate(timeout=SECONDS)
    got = Ran(run.returncode, out.decode(), err.decode())
    told = {"accounts": ACCOUNTS, "acknowledged": 1 + SESSIONS * TRANSFERS, "sum": 1000 * ACCOUNTS}
    checks.check("a stopped run goes on to its end", got.is_fine() and json.loads(got.out) == told, got)
    checks.check("what it told is there", is_whole(folder), pairs_in(folder))


def killed(checks, folder, run):
    run.kill()
    run.communicate(timeout=SECONDS)
    checks.check("a stopped run is killed", run.returncode == -signal.SIGKILL, run.returncode)
    got = folder.run("show")
    checks.check("the next program opens the logs", got.is_fine() and is_whole(folder) and got.out == logs.shown(pairs_in(folder)), got)


def is_whole(folder):
    """Whether the accounts, and nothing else, hold what they were filled with."""
    pairs = pairs_in(folder)
    return isinstance(pairs, dict) and sorted(pairs) == list(range(ACCOUNTS)) and sum(pairs.values()) == 1000 * ACCOUNTS


def stops(checks, program):
    for end in (goes_on, killed):
        with Folder(program) as folder:
            folder.run("make", "50")
            run = stopped(folder)
            refused(checks, "a run is stopped", folder, 0, [*COMMANDS, ("make", "50")])
            end(checks, folder, run)
            pairs, got = pairs_in(folder), folder.run("run", script=ONE_PUT)
            checks.check("the run after", got.is_fine() and pairs_in(folder) == {**pairs, 5: 10}, got)


# Programs that run at the same time.


def until_done(folder, numbers, worker):
    """One program after the other, until so many have moved 1 from key 0 to this worker's key. How many were refused, and what was wrong."""
    done, refusals, ends = 0, 0, time.monotonic() + SECONDS
    while done < TIMES and time.monotonic() < ends:
        if numbers.random() < 0.2:
            folder.run("show", seconds=SECONDS)
        got = folder.run("run", script=b"session\nbegin\nmove 0 %d 1\ncommit\n" % worker, seconds=SECONDS)
        if got.is_fine():
            done += 1
        elif is_locked(got, range(16)):
            refusals += 1
            time.sleep(numbers.random() * 0.02)
        else:
            return refusals, got
    return refusals, None if done == TIMES else "no end in time"


def beside(checks, pool, case, numbers, program):
    """Keys lie on all shards."""
    splits = sorted(numbers.sample(range(1, WORKERS + 1), numbers.randrange(4)))
    filling = reports.script_of(["session", "begin", f"put 0 {BALANCE}", *(f"put {it} 0" for it in range(1, WORKERS + 1)), "commit"])
    with Folder(program) as folder:
        folder.run("make", *map(str, splits))
        folder.run("run", script=filling)
        done = list(pool.map(lambda it: until_done(folder, *it), [(numbers, it) for it in range(1, WORKERS + 1)]))
        wrong = [it for _, it in done if it]
        checks.check(f"case {case}: each is done or refused", not wrong, wrong, None, case)
        want = {0: BALANCE - WORKERS * TIMES, **dict.fromkeys(range(1, WORKERS + 1), TIMES)}
        got = pairs_in(folder)
        checks.check(f"case {case}: what stands", got == want, (splits, got), None, case)
    return sum(it for it, _ in done)


def make_beside(checks, pool, case, numbers, program):
    """Each is asked for splits of its own."""
    asked = [tuple(map(str, range(it + 1, it + 1 + numbers.randrange(4)))) for it in range(WORKERS)]
    with Folder(program) as folder:
        all_got = list(pool.map(lambda it: folder.run("make", *it, seconds=SECONDS), asked))
        made = [splits for splits, got in zip(asked, all_got) if got.is_fine()]
        exists = re.compile(r"shard \d+: length \d+, not 0\n")
        is_right = all(it.is_fine() or is_locked(it, range(16)) or it.status == 10 and exists.fullmatch(it.err) for it in all_got)
        checks.check(f"case {case}: one makes the logs", is_right and len(made) <= 1, (asked, all_got), None, case)
        if made:
            want = [logs.log(shard, tuple(map(int, made[0])), []) for shard in range(len(made[0]) + 1)]
            checks.check(f"case {case}: they are its logs", [it for it in folder.logs() if it] == want, (made, folder.logs()), None, case)
    return len(made)


def main():
    told = arguments(__doc__, count=20)
    checks, refusals, makes = Checks(told), 0, 0
    if told.only is None:
        locks(checks, told.program)
        stops(checks, told.program)
    with concurrent.futures.ThreadPoolExecutor(WORKERS) as pool:
        for case, numbers in cases(told):
            refusals += beside(checks, pool, case, numbers, told.program)
            makes += make_beside(checks, pool, case, numbers, told.program)
    print(f"{refusals} runs found a log open in another one, {makes} of {told.count} times logs were made")
    checks.end()


if __name__ == "__main__":
    main()
