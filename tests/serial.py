#!/usr/bin/env python3
"""Scripts at random of several sessions that meet on a few keys of several shards: what a run reports is a serial run of the script, and
`show` tells where it led to.

Each case makes logs of 1 to 4 shards, and runs some scripts of 1 to 8 sessions over them, one behind the other, each from what the one before
left. Of each run: the report's transactions, one after the other on a plain map, give each answer exactly, those of a session in the order of
its script; the counts add up; the logs and `show` tell the map after them, and `audit` says yes to the report. Then a run of `load` keeps its sum. Before all cases 64 sessions meet under `load`.
"""

import logs
import reports
import verdicts
from program import Checks, Folder, arguments, cases, seeded

LAST = (1 << 64) - 1
TRIES = (1, 2, 10, 100, 1000, 1000)
# What a line may be, as often as it stands here.
WORDS = ("get", "get", "put", "put", "put", "del", "scan", "move", "move", "add", "add")
# How a transaction may end.
ENDS = ("commit",) * 9 + ("abort",)


def keys_around(numbers, splits):
    """A few keys on all shards, the first and the last key of each among them now and then."""
    near = {0, LAST, *splits, *(split - 1 for split in splits if split)}
    keys = {numbers.randrange(40) for _ in range(numbers.randrange(2, 7))}
    keys |= {split + numbers.randrange(9) for split in splits if split < LAST - 9}
    keys |= set(numbers.sample(sorted(near), numbers.randrange(min(3, len(near)))))
    return sorted(keys)


def splits_at(numbers):
    splits = sorted(numbers.sample(range(40), numbers.randrange(4)))
    if splits and numbers.random() < 0.05:
        splits[-1] = LAST
    return splits


def value_at(numbers):
    return LAST - numbers.randrange(3) if numbers.random() < 0.05 else numbers.randrange(100)


def text_at(numbers):
    """A text's digits: short ones mostly, now and then none or the longest."""
    size = numbers.choice((0, 1, 2, 3, 8, 200))
    return numbers.randbytes(size).hex() or "-"


def line_at(numbers, keys):
    word, key = numbers.choice(WORDS), numbers.choice(keys)
    if word in ("get", "del"):
        return f"{word} {key}"
    if word == "put" and numbers.random() < 0.2:
        return f"bytes {key} {text_at(numbers)}"
    if word in ("put", "add"):
        return f"{word} {key} {value_at(numbers)}"
    other = numbers.choice(keys)
    if word == "scan":
        return f"scan {min(key, other)} {max(key, other)}"
    return f"move {key} {other} {numbers.randrange(20)}" if key != other else f"get {key}"


def script_at(numbers, keys):
    """Sessions, each with some transactions of some lines, half of these with savepoints; a few have none."""
    lines = []
    for _ in range(numbers.randrange(1, 9)):
        lines.append("session")
        for _ in range(numbers.randrange(1, 9)):
            lines.append("begin")
            lines += reports.with_savepoints(numbers, [line_at(numbers, keys) for _ in range(numbers.randrange(7))])
            lines.append(numbers.choice(ENDS))
    return reports.script_of(lines)


def follows(checks, name, case, folder, script, pairs, tries):
    """One run: the map after it, or None where something is wrong."""
    got = folder.run("run", "--tries", str(tries), script=script)
    if not checks.check(f"{name}: status", got.is_fine(), got, script, case):
        return None
    try:
        after, counts = reports.replay(script, got.out, pairs)
    except (reports.Wrong, ValueError, KeyError, IndexError) as wrong:
        checks.check(f"{name}: report", False, f"{wrong}, from {pairs}\n{got.out}", script, case)
        return None
    checks.check(f"{name}: report", True)
    _, committing = reports.begun(script)
    is_alone = len(reports.sessions_of(script)) == 1
    is_counted = counts["unsettled"] == 0 and (counts["acknowledged"] == committing if is_alone else counts["acknowledged"] <= committing)
    checks.check(f"{name}: counts", is_counted, (counts, committing), script, case)
    found = logs.map_of(folder.logs())
    checks.check(f"{name}: what the logs stand for", found == after, (found, after, got.out), script, case)
    audit = verdicts.judges(checks, folder, f"{name}: audit", (logs.shown(pairs) + got.out).encode(), case)
    checks.check(f"{name}: the report is true", audit.status == 0, audit, script, case)
    return after


def shows(checks, name, case, folder, pairs, script):
    got = folder.run("show")
    checks.check(f"{name}: show", got.is_fine() and got.out == logs.shown(pairs), (got, pairs), script, case)


def runs(checks, case, numbers, program):
    """Some runs over the same logs."""
    splits = splits_at(numbers)
    keys, pairs = keys_around(numbers, splits), {}
    with Folder(program) as folder:
        folder.run("make", *map(str, splits))
        for run in range(numbers.randrange(1, 4)):
            name = f"case {case}, run {run}"
            script = script_at(numbers, keys)
            pairs = follows(checks, name, case, folder, script, pairs, numbers.choice(TRIES))
            if pairs is None:
                return
            if numbers.random() < 0.5:
                shows(checks, name, case, folder, pairs, script)
        shows(checks, f"case {case}, at the end", case, folder, pairs, script)


def loads(checks, case, numbers, program, sessions=None, accounts=None, transfers=None):
    """`load`, over logs that may hold other pairs: it acknowledges all, and the accounts keep their sum."""
    if sessions is None:
        accounts, sessions, transfers = numbers.randrange(2, 30), numbers.randrange(1, 9), numbers.randrange(13)
    splits = sorted(numbers.sample(range(1, accounts + 3), numbers.randrange(min(4, accounts))))
    words = f"load --seed {numbers.randrange(LAST)} --sessions {sessions} --accounts {accounts} --transfers {transfers}"
    with Folder(program) as folder:
        folder.run("make", *map(str, splits))
        if numbers.random() < 0.5:
            folder.run("run", script=b"session\nbegin\nput 0 5\nput 1 5\nput %d 5\ncommit\n" % (accounts + 1))
        others = {it: value for it, value in logs.map_of(folder.logs()).items() if it >= accounts}
        got = folder.run(*words.split())
        want = f'{{"accounts":{accounts},"acknowledged":{1 + sessions * transfers},"sum":{1000 * accounts}}}\n'
        checks.check(f"case {case}, {words}", got.is_fine() and got.out == want, (got, want), None, case)
        pairs = logs.map_of(folder.logs())
        found = sum(value for it, value in pairs.items() if it < accounts)
        checks.check(f"case {case}, {words}: the sum in the logs", found == 1000 * accounts, found, None, case)
        left = {it: value for it, value in pairs.items() if it >= accounts}
        checks.check(f"case {case}, {words}: other pairs", left == others, (left, others), None, case)
        shows(checks, f"case {case}, {words}", case, folder, pairs, None)


def main():
    told = arguments(__doc__, count=200)
    checks = Checks(told)
    if told.only is None:
        for accounts in (5, 5, 1000, 1000):
            loads(checks, None, seeded(told.seed, accounts), told.program, 64, accounts, 20)
    for case, numbers in cases(told):
        runs(checks, case, numbers, told.program)
        loads(checks, case, numbers, told.program)
    checks.end()


if __name__ == "__main__":
    main()
