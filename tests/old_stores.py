#!/usr/bin/env python3
"""Stores that an earlier program left, killed in its middle, open as ever, show the pairs that their logs stand for, and go on.

Their logs lie in tests/stores, of one shard and of four, beside what that program showed of them. All their values are numbers. Of those of four
shards some transactions are in doubt: they are prepared there, and what became of them stands in another log, if anywhere; others are open there.
"""

import os

import logs
from program import Checks, Folder, arguments

STORES = os.path.join(os.path.dirname(os.path.abspath(__file__)), "stores")
SCRIPT = b"session\nbegin\nbytes 0 00ff\nput 60 1\ndel 120\nbytes 199 -\nget 1\ncommit\n"


def store(name):
    """The logs of a store, by rising shards, and what was shown of them."""
    place = os.path.join(STORES, name)
    found = sorted(it for it in os.listdir(place) if it.startswith("shard-"))
    with open(os.path.join(place, "shown"), encoding="ascii") as file:
        shown = file.read()
    return [open(os.path.join(place, it), "rb").read() for it in found], shown


def goes_on(checks, program, name):
    files, shown = store(name)
    _, opened = logs.opened(files)
    doubted = [it for facts in opened for it in facts.prepared if facts.is_in_doubt(it)]
    left = [it for facts in opened for it in facts.losers()]
    checks.check(f"{name}: what was under way", len(files) == 1 or (left and doubted), (left, doubted))
    with Folder(program) as folder:
        folder.put(files)
        got = folder.run("show")
        checks.check(f"{name}: show", got.is_fine() and got.out == shown == logs.shown(logs.map_of(files)), got)
        found = logs.opened(folder.logs())[1]
        checks.check(f"{name}: its logs go on", all(new.records[: len(old.records)] == old.records for new, old in zip(found, opened)))
        before = logs.map_of(folder.logs())
        got = folder.run("run", script=SCRIPT)
        checks.check(f"{name}: run", got.is_fine(), got)
        after = dict(before)
        for key, value in ((0, "00ff"), (60, 1), (120, None), (199, "")):
            after[key] = value
        after = {key: value for key, value in after.items() if value is not None}
        again = folder.run("show")
        checks.check(f"{name}: what stands behind the run", again.is_fine() and again.out == logs.shown(after), again)


def main():
    told = arguments(__doc__)
    checks = Checks(told)
    for name in sorted(os.listdir(STORES)):
        goes_on(checks, told.program, name)
    checks.end()


if __name__ == "__main__":
    main()
