#!/usr/bin/env python3
"""Reports that `audit` judges: true ones, wrong ones, and bytes that are none, over logs in order, damaged ones, and such as only an opening refuses.

There are rows by hand; the report of each case at random, with the pairs before its run, which is true; and the same with some bytes changed, of which
verdicts.py says what they are. After each audit no file has changed.
"""

import os

import logs
import verdicts
from program import Checks, Folder, arguments, cases
from serial import keys_around, script_at, splits_at
from worked import DONE, MADE, WORKED, counts, replaced_logs

CHANGES = 12
RESTART = ("RESTART", 1, 0)
FIRST, SECOND = (1, 1, 1), (1, 2, 1)


def summed(acknowledged, unsettled=0, aborted=0):
    return f'{{"aborted":{aborted},"acknowledged":{acknowledged},"unsettled":{unsettled}}}\n'


def told(operations, serial=1, session=1):
    return f'{{"ops":[{operations}],"serial":{serial},"session":{session}}}\n'


PUT, GET = '["put",5,10,null]', '["get",5,10]'
# Over the worked log, which stands for 10 under 5: a source, and the line of the verdict.
JUDGED = [
    ("the report of the run", DONE, "yes 1"),
    ("behind what was shown", "[5,7]\n" + told('["put",5,10,7]') + counts(1), "yes 1"),
    ("pairs alone", "[5,10]\n" + counts(0), "yes 0"),
    ("aborted ones don't matter", told(PUT) + summed(1, 0, 18446744073709551615), "yes 1"),
    ("nothing was done", counts(0), "no: key 5"),
    ("another value", DONE.replace("10", "11"), "no: key 5"),
    ("another value before", DONE.replace("null", "3"), "no: transaction 1"),
    ("another pair below", "[4,1]\n" + DONE, "no: key 4"),
    ("another pair above", told(PUT + ',["put",6,"",null]') + counts(1), "no: key 6"),
    ("the least of two keys", told('["put",6,1,null],["put",7,1,null],["put",5,10,null]') + counts(1), "no: key 6"),
    ("a number, and the text of its digits", told('["put",5,"10",null]') + counts(1), "no: key 5"),
    ("unsettled ones", summed(0, 3), "unsettled 3"),
    ("unsettled ones, and another value", told('["put",5,11,null]') + summed(1, 1), "unsettled 1"),
    ("unsettled ones, and a wrong answer", told('["put",5,10,1]') + summed(1, 1), "no: transaction 1"),
    ("the second one is wrong", told(PUT) + told('["get",5,null]', 2) + counts(2), "no: transaction 2"),
    ("the first of two that are wrong", told('["get",5,1]') + told('["get",5,1]', 2) + counts(2), "no: transaction 1"),
    ("serials that fall", told(PUT, 2) + told(GET, 1) + counts(2), "no: transaction 2"),
    ("serials that stand", told(PUT, 1) + told(GET, 1) + counts(2), "no: transaction 2"),
    ("serials of two sessions", told(PUT, 2) + told(GET, 1, 64) + counts(2), "yes 2"),
    ("serials with room", told(PUT, 7) + told(GET, 18446744073709551615) + counts(2), "yes 2"),
    ("a scan", told(PUT + ',["scan",0,5,[[5,10]]]') + counts(1), "yes 1"),
    ("a scan that leaves a pair out", told(PUT + ',["scan",0,5,[]]') + counts(1), "no: transaction 1"),
    ("a scan whose pairs fall", told(PUT + ',["scan",0,5,[[5,10],[4,1]]]') + counts(1), "no: transaction 1"),
    ("a going back", told(PUT + ',["put",5,1,10],["back",1],["get",5,10]') + counts(1), "yes 1"),
    ("a going back behind another", told('["put",5,1,null],["back",0],["put",5,10,null],["put",5,2,10],["back",3]') + counts(1), "yes 1"),
    ("an addition", told('["put",5,18446744073709551615,null],["add",5,11,true],["add",6,1,false]') + counts(1), "yes 1"),
    ("an addition that wasn't refused", told(PUT + ',["add",6,1,true]') + counts(1), "no: transaction 1"),
]

# Bytes that are no report, and the line that is told.
REFUSED = [
    ("", 1),
    ("\n", 1),
    (" ", 1),
    ("[5,10]\n", 2),
    ("[5,10]", 1),
    (told(PUT), 2),
    (DONE[:-1], 2),
    (DONE + "\n", 3),
    (DONE + counts(1), 3),
    (DONE + " ", 3),
    (told(PUT) + counts(0), 2),
    (told(PUT) + counts(2), 2),
    ("[5,1]\n[5,2]\n" + counts(0), 2),
    ("[5,1]\n[4,2]\n" + counts(0), 2),
    (told(PUT) + "[6,1]\n" + counts(1), 2),
    ("[18446744073709551616,1]\n" + counts(0), 1),
    ("[1,18446744073709551616]\n" + counts(0), 1),
    ("[01,1]\n" + counts(0), 1),
    ("[1,-1]\n" + counts(0), 1),
    ("[1,1e1]\n" + counts(0), 1),
    ("[1,1.0]\n" + counts(0), 1),
    ("[1, 1]\n" + counts(0), 1),
    ("[1,1]\r\n" + counts(0), 1),
    ("[1,null]\n" + counts(0), 1),
    ("[1,true]\n" + counts(0), 1),
    ("[1]\n" + counts(0), 1),
    ("[1,2,3]\n" + counts(0), 1),
    ('[1,"0A"]\n' + counts(0), 1),
    ('[1,"0"]\n' + counts(0), 1),
    ('[1,"' + 402 * "0" + '"]\n' + counts(0), 1),
    ('[1,"\\u0030\\u0030"]\n' + counts(0), 1),
    (told("") + counts(1), 1),
    (told(PUT, 0) + counts(1), 1),
    (told(PUT, 1, 0) + counts(1), 1),
    (told(PUT, 1, 65) + counts(1), 1),
    (told(PUT, 18446744073709551616) + counts(1), 1),
    (told('["put",5,10]') + counts(1), 1),
    (told('["put",5,10,true]') + counts(1), 1),
    (told('["put",5,null,null]') + counts(1), 1),
    (told('["add",5,1,1]') + counts(1), 1),
    (told('["add",5,1,null]') + counts(1), 1),
    (told('["add",5,"01",true]') + counts(1), 1),
    (told('["scan",6,5,[]]') + counts(1), 1),
    (told('["scan",5,6,null]') + counts(1), 1),
    (told('["scan",5,6,[[5,null]]]') + counts(1), 1),
    (told('["move",5,6,1]') + counts(1), 1),
    (told('["get"]') + counts(1), 1),
    (told("[]") + counts(1), 1),
    (told("5") + counts(1), 1),
    (told(PUT + ',["back",2]') + counts(1), 1),
    (told(PUT + ',["back",0],["back",1]') + counts(1), 1),
    (told(PUT + ',["back",null]') + counts(1), 1),
    (told(PUT)[:-2] + ',"x":1}\n' + counts(1), 1),
    ('{"serial":1,"ops":[["put",5,10,null]],"session":1}\n' + counts(1), 1),
    (told(PUT) + '{"acknowledged":1,"aborted":0,"unsettled":0}\n', 2),
    (told(PUT) + '{"aborted":0,"acknowledged":1}\n', 2),
    (told(PUT) + summed(1, 18446744073709551616), 2),
    (told(PUT) + summed(1, -1), 2),
    ("caf\u00e9\n" + counts(0), 1),
    ("\0", 1),
]


def is_answered(checks, folder, name, source, status, line, is_told=True):
    """One audit, whose answer is known, and that verdicts.py answers too. Of a verdict the output has the line."""
    source = source.encode()
    got = verdicts.judges(checks, folder, name, source)
    out = f"{line}\n" if is_told else ""
    want = (status, out, f"{line}\n" if status else "")
    return checks.check(f"{name}: by hand", (got.status, got.out, got.err) == want, (got, want), source[:2000])


def judges_rows(checks, program):
    with Folder(program) as folder:
        folder.put([WORKED])
        for name, source, line in JUDGED:
            status = 0 if line.startswith("yes") else 13 if line.startswith("unsettled") else 12
            is_answered(checks, folder, name, source, status, line)
        for source, line in REFUSED:
            is_answered(checks, folder, f"no report: {source[:60]!r}", source, 3, f"script line {line}", False)
        folder.put([MADE])
        is_answered(checks, folder, "an empty store", counts(0), 0, "yes 0")
        folder.put([])
        is_answered(checks, folder, "no report comes before no log", "x", 3, "script line 1", False)


def long_report(size):
    """A report of so many bytes: pairs of texts, under keys of ten digits, but for the last one, which may have eleven."""
    lines, left = [], size - len(counts(0))
    while left:
        length = left if left <= 400 else 400 if left >= 420 else 380
        key = 10**9 + len(lines) if length % 2 == 0 else 10**10
        lines.append(f'[{key},"{"5" * (length - 6 - len(str(key)))}"]\n')
        left -= length
    return "".join(lines) + counts(0)


def judges_long_ones(checks, program):
    with Folder(program) as folder:
        folder.put([WORKED])
        most = long_report(verdicts.MOST_BYTES)
        checks.check("the longest report has its length", len(most) == verdicts.MOST_BYTES, len(most))
        is_answered(checks, folder, "the longest report", most, 12, "no: key 5")
        is_answered(checks, folder, "a byte too many", most + "x", 3, "script line 0", False)


def update(transaction, key, before, after):
    return ("UPDATE", transaction, key, before, after)


def stores(program):
    """Logs, with the status and the line of an audit of one put."""
    closed = WORKED[:46] + b"\0" + WORKED[47:]
    done = [RESTART, update(FIRST, 5, None, 10), ("COMMIT", FIRST, ())]
    part = [RESTART, update(SECOND, 11, None, 1), ("PREPARE", SECOND, 0, ())]
    return [
        ("a torn tail", [WORKED + b"\1\2\3"], 0, "yes 1"),
        ("a closed gate before the batch", [closed], 12, "no: key 5"),
        ("cut in the batch", [WORKED[:68]], 7, "shard 0: not a log at byte 47"),
        ("an empty file", [b""], 7, "shard 0: not a log at byte 0"),
        ("no file", [], 7, "shard 0: not a log at byte 0"),
        ("the last run", [logs.log(0, [], [[("RESTART", 4294967295, 0)]])], 12, "no: key 5"),
        ("the last run, and what was done", [logs.log(0, [], [done, [("RESTART", 4294967295, 0)]])], 0, "yes 1"),
        ("a loser", [logs.log(0, [], [[*done, update(SECOND, 6, None, 1)]])], 0, "yes 1"),
        ("one in doubt, with nothing at its home", [logs.log(0, [10], [done]), logs.log(1, [10], [part])], 0, "yes 1"),
        ("other splits", [logs.log(0, [10], [done]), logs.log(1, [11], [[RESTART]])], 7, "shard 1: not a log at byte 20"),
        ("a record out of order", [logs.log(0, [], [[RESTART, update(FIRST, 5, 7, 8)]])], 7, "shard 0: not a log at record 1"),
        *replaced_logs(program),
    ]


def judges_stores(checks, program):
    for name, files, status, line in stores(program):
        with Folder(program) as folder:
            folder.put(files)
            is_answered(checks, folder, name, DONE, status, line, status not in (7, 11))


def tells_faults(checks, program):
    """Standard input, standard output and files that can't be used. A sink that fails leaves a verdict that isn't fine."""
    with Folder(program) as folder:
        folder.put([WORKED])
        unread = os.open(folder.path, os.O_RDONLY)
        got = folder.run("audit", script=unread)
        os.close(unread)
        checks.check("input that can't be read", got.is_refused(4, "read fault"), got)
        rows = ((DONE, 5, "write fault\n"), (DONE.replace("10", "11"), 12, "no: key 5\n"), (summed(0, 2), 13, "unsettled 2\n"))
        for source, status, text in rows:
            with open("/dev/full", "wb") as full:
                got = folder.run("audit", script=source.encode(), stdout=full)
            checks.check(f"a line that can't be written: {text}", (got.status, got.err) == (status, text), got)
        checks.check("no log was written", folder.logs() == [WORKED], folder.logs())
        os.remove(folder.log(0))
        os.mkdir(folder.log(0))
        got = folder.run("audit", script=DONE.encode())
        checks.check("a log that is a folder", got.is_refused(6, "disk fault on shard 0"), got)


# Cases at random.


def changed(numbers, source):
    """The source with one byte in place of another, taken away, or put between: mostly one that stands there somewhere."""
    place = numbers.randrange(len(source))
    byte = bytes([numbers.choice(source)]) if numbers.random() < 0.9 else numbers.randbytes(1)
    kind = numbers.random()
    behind = source[place + 1 :] if kind < 0.8 else source[place:]
    return source[:place] + (b"" if 0.7 < kind < 0.8 else byte) + behind


def runs(checks, case, numbers, program):
    """Some runs over the same logs, and audits of each report, and of what a few changes make of it."""
    splits = splits_at(numbers)
    keys, pairs = keys_around(numbers, splits), {}
    with Folder(program) as folder:
        folder.run("make", *map(str, splits))
        for run in range(numbers.randrange(1, 4)):
            name, script = f"case {case}, run {run}", script_at(numbers, keys)
            source = (logs.shown(pairs) + folder.run("run", script=script).out).encode()
            got = verdicts.judges(checks, folder, name, source, case)
            checks.check(f"{name}: yes", got.status == 0, got, source, case)
            pairs = logs.map_of(folder.logs())
            for change in range(CHANGES):
                verdicts.judges(checks, folder, f"{name}, change {change}", changed(numbers, source), case)


def main():
    given = arguments(__doc__, count=100)
    checks = Checks(given)
    if given.only is None:
        for test in (judges_rows, judges_long_ones, judges_stores, tells_faults):
            test(checks, given.program)
    for case, numbers in cases(given):
        runs(checks, case, numbers, given.program)
    checks.end()


if __name__ == "__main__":
    main()
