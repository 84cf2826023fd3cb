#!/usr/bin/env python3
"""Memory is refused at moments at which `clv_shell` can't be stopped: over the program of tried/refusals, which tools/refusals builds.

- While a session that made ten puts on three shards aborts, no allocation finds memory: the abort is done, and what stood before stands. So it is while one
  goes back over ten puts: what it had put before stands.
- Of the list of steps by which an abort takes two others along over three shards each allocation is refused in its turn, alone and with all later
  ones: each run tells what it tells with memory, or ends with status 8 and tells nothing.
"""

import tempfile

import faults
from program import Checks, Folder, arguments

KEYS = (1, 2, 3, 4, 11, 12, 13, 21, 22, 23)
STOOD, STANDS = (", ".join(f"({key}, {value})" for key in KEYS) for value in (1, 2))
TOLD = f"refuse\ngive\n[{STOOD}]\nrefuse\ngive\n[{STANDS}]\n"
CHAIN = """21 entries
session 1 is aborted: no of shard 1, restarted from 0 to 1
session 2 is aborted: with that of session 1
session 3 is aborted: with that of session 2
"""
SECONDS = 60


def aborts(checks, library, folder):
    got = folder.run("puts", seconds=SECONDS)
    checks.check("puts, with memory", got.is_fine() and got.out == TOLD, got)
    got, trace = library.run(folder, "puts", seconds=SECONDS, marks=1)
    checks.check("puts, FAULTS_MARKS=1", got.is_fine() and got.out == TOLD, got)
    # The operations before the abort and the going back have asked for some.
    checks.check("puts, FAULTS_MARKS=1: memory was refused", "alloc" in trace.faults, trace.faults)


def ends(checks, library, folder):
    for later in ("", ".."):
        number, is_refused = 0, True
        while is_refused:
            number += 1
            got, trace = library.run(folder, "chain", seconds=SECONDS, alloc=f"{number}{later}")
            is_refused = "alloc" in trace.faults
            is_right = (got.status, got.out) in ((0, CHAIN), (8, "")) if is_refused else got.is_fine() and got.out == CHAIN
            checks.check(f"chain, FAULTS_ALLOC={number}{later}", is_right, got)
        checks.check(f"chain, FAULTS_ALLOC=N{later}: it asks for memory", number > 20, number)


def main():
    told = arguments(__doc__)
    checks = Checks(told)
    with tempfile.TemporaryDirectory(prefix="faults-") as place, Folder(told.program) as folder:
        library = faults.built(checks, place)
        if library:
            aborts(checks, library, folder)
            ends(checks, library, folder)
    checks.end()


if __name__ == "__main__":
    main()
