#!/usr/bin/env python3
"""What `standby` shows of the first records of logs: rows by hand; all cuts of short logs that runs left, and some of long ones, each compared with
standbys.py. After each no file has changed."""

import itertools
import os

import logs
import standbys
from program import Checks, Folder, arguments, cases
from serial import keys_around, script_at, splits_at
from worked import MADE, WORKED

ALL_CUTS, SOME_CUTS = 400, 60
FIRST, SECOND = (1, 1, 1), (1, 2, 1)
RESTART = ("RESTART", 1, 0)
BOTH = b"session\nbegin\nput 1 1\nput 11 1\ncommit\n"
OVER = b"begin\nput 1 2\ncommit\n"

# Behind `make 10` and one transaction that puts 1 and 11: numbers, and what is shown. Log 0 has RESTART, UPDATE, PREPARE, COMMIT and END, log 1 has no END.
SPREAD = [
    ("4 3", ""),
    ("4 4", "[1,1]\n[11,1]\n"),
    ("5 4", "[1,1]\n[11,1]\n"),
    ("3 4", ""),
    ("", "[1,1]\n[11,1]\n"),
    ("4", "[1,1]\n[11,1]\n"),
    ("3", ""),
    ("9 18446744073709551615", "[1,1]\n[11,1]\n"),
    ("4 4 0 7", "[1,1]\n[11,1]\n"),
    ("1 1", ""),
    ("0 4", "not yet\n"),
    ("4 0", "not yet\n"),
    ("0", "not yet\n"),
    ("0 0", "not yet\n"),
    (" ".join(["9"] * 16), "[1,1]\n[11,1]\n"),
]

# Words that are no command.
REFUSED = ["standby -1", "standby x", "standby 01", "standby 1 18446744073709551616", "standby --count 1", "standby " + " ".join(["1"] * 17)]


def is_answered(checks, folder, name, words, want=None, case=None):
    """One call: it writes what standbys.py says, and no file changes."""
    files = folder.logs()
    got = folder.run("standby", *words)
    model = standbys.answer(files, list(map(int, words)))
    is_right = got.is_fine() and got.out == model and (want is None or got.out == want) and folder.logs() == files
    return checks.check(f"{name}: standby {' '.join(words)}", is_right, (got, model, want), None, case)


def shows_rows(checks, program):
    with Folder(program) as folder:
        folder.run("make", "10")
        folder.run("run", script=BOTH)
        for words, want in SPREAD:
            is_answered(checks, folder, "one of two shards", words.split(), want)
        for words in REFUSED:
            got = folder.run(*words.split())
            checks.check(words, got.status == 2 and got.out == "" and got.err.startswith("usage: "), got)
    with Folder(program) as folder:
        folder.run("make", "10")
        folder.run("run", script=BOTH + OVER)
        # The second is whole, but the first, whose COMMIT comes before it, isn't.
        is_answered(checks, folder, "one behind it", ["7", "3"], "")
        is_answered(checks, folder, "one behind it", ["7", "4"], "[1,2]\n[11,1]\n")
        is_answered(checks, folder, "one behind it", ["5", "4"], "[1,1]\n[11,1]\n")
    with Folder(program) as folder:
        folder.put([MADE])
        is_answered(checks, folder, "an empty store", [], "not yet\n")
        folder.put([WORKED])
        is_answered(checks, folder, "the worked log", [], "[5,10]\n")
        is_answered(checks, folder, "the worked log", ["2"], "")
        is_answered(checks, folder, "the worked log", ["0"], "not yet\n")


def update(transaction, key, before, after):
    return ("UPDATE", transaction, key, before, after)


def tells_faults(checks, program):
    """Logs that are refused as `audit` refuses them, and a sink that fails."""
    done = [RESTART, update(FIRST, 5, None, 10), ("COMMIT", FIRST, ())]
    part = [RESTART, update(SECOND, 11, None, 1), ("PREPARE", SECOND, 0, ()), ("COMMIT", SECOND, ())]
    rows = [
        ("no file", [], 7, "shard 0: not a log at byte 0"),
        ("cut in the batch", [WORKED[:60]], 7, "shard 0: not a log at byte 47"),
        ("a record out of order", [logs.log(0, [], [[RESTART, update(FIRST, 5, 7, 8)]])], 7, "shard 0: not a log at record 1"),
        ("logs apart", [logs.log(0, [10], [done]), logs.log(1, [10], [part])], 11, "transaction 1.2.1: logs apart"),
    ]
    for name, files, status, text in rows:
        with Folder(program) as folder:
            folder.put(files)
            got = folder.run("standby", "0")
            checks.check(f"{name}: whatever the numbers", got.is_refused(status, text), got)
    with Folder(program) as folder:
        folder.put([logs.log(0, [], [[("RESTART", 4294967295, 0)]])])
        is_answered(checks, folder, "the last run", [], "")
        folder.put([WORKED])
        with open("/dev/full", "wb") as full:
            got = folder.run("standby", stdout=full)
        checks.check("pairs that can't be written", (got.status, got.err) == (5, "write fault\n"), got)
        checks.check("no log was written", folder.logs() == [WORKED], folder.logs())
        os.remove(folder.log(0))
        os.mkdir(folder.log(0))
        got = folder.run("standby")
        checks.check("a log that is a folder", got.is_refused(6, "disk fault on shard 0"), got)


# Cases at random.


def cuts(numbers, lengths):
    """All cuts of short streams, some of long ones; the whole streams among them."""
    ranges = [range(length + 1) for length in lengths]
    count = 1
    for it in ranges:
        count *= len(it)
    if count <= ALL_CUTS:
        return list(itertools.product(*ranges))
    return [tuple(lengths), *(tuple(numbers.choice(it) for it in ranges) for _ in range(SOME_CUTS))]


def runs(checks, case, numbers, program):
    """Some runs over the same logs, and what cuts of these show."""
    splits = splits_at(numbers)
    keys = keys_around(numbers, splits)
    with Folder(program) as folder:
        folder.run("make", *map(str, splits))
        for run in range(numbers.randrange(1, 3)):
            folder.run("run", script=script_at(numbers, keys))
            _, whole = logs.read_all(folder.logs())
            for cut in cuts(numbers, [len(it.records) for it in whole]):
                is_answered(checks, folder, f"case {case}, run {run}", list(map(str, cut)), None, case)


def main():
    given = arguments(__doc__, count=60)
    checks = Checks(given)
    if given.only is None:
        for test in (shows_rows, tells_faults):
            test(checks, given.program)
    for case, numbers in cases(given):
        runs(checks, case, numbers, given.program)
    checks.end()


if __name__ == "__main__":
    main()
