#!/usr/bin/env python3
"""Each allocation of the program finds no memory in its turn: every run ends, and does all that it told or tells that it lacked memory.

For some scripts and commands: the Nth allocation is refused, alone and with all later ones, N rising until none is. Cases at random: sessions that
meet on three shards, with some allocations refused.

What must hold after each run: it ends, with its own status or with 8, and at 8 it wrote nothing out; at its own status it answers as ever, and a
report is a serial run that leads to what the logs stand for; each transaction of the script is in them whole or not at all; `show` tells what they
stand for.
"""

import tempfile

import faults
import logs
import members
import reports
from calls import ONE_PUT, ONE_SHARD, RUN, crowd
from program import Checks, Folder, arguments, cases
from worked import DONE

SPREAD = b"session\nbegin\nput 0 1\nput 10 2\nput 20 3\nput 18446744073709551615 4\ncommit\nbegin\nscan 0 18446744073709551615\ncommit\n"
MEETING = b"session\nbegin\nput 5 10\ncommit\nsession\nbegin\nget 5\ncommit\n"
# Sessions that die of each other.
DYING = b"""session
begin
put 1 1
put 11 1
get 21
commit
begin
del 1
put 2 2
abort
session
begin
put 11 2
put 1 2
commit
begin
scan 0 30
put 11 3
commit
session
begin
put 21 7
put 1 9
commit
"""
# Texts over a number and under one, the longest and the shortest.
TEXTS = b"session\nbegin\nput 1 7\nbytes 1 -\nbytes 11 " + 200 * b"5a" + b"\ncommit\nbegin\nput 11 3\nabort\n"
# Additions beside each other, beyond the last number, and where no number is.
ADDITIONS = b"""session
begin
add 0 5
add 20 18446744073709551615
commit
session
begin
add 20 1
add 5 1
add 18446744073709551615 18446744073709551613
abort
begin
add 0 2
commit
"""
# Goings back over three shards, and of one that then writes on another one.
SAVEPOINTS = b"""session
begin
put 0 5
save
put 10 5
add 20 1
save
del 18446744073709551615
back 1
put 11 1
commit
session
begin
save
add 20 2
put 12 3
back 1
commit
"""
LOAD = "load --seed 7 --sessions 3 --accounts 4 --transfers 2".split()
# Splits, a script that ran before, the words, the script.
COMMANDS = [
    ("one put", (), b"", RUN, ONE_PUT),
    ("no session", (), b"", RUN, b""),
    ("three shards", (10, 20), b"", RUN, SPREAD),
    ("two sessions", (), b"", RUN, MEETING),
    ("three sessions on one shard", (), b"", RUN, ONE_SHARD),
    ("three sessions", (10, 20), SPREAD, RUN, DYING),
    ("texts", (), TEXTS, RUN, TEXTS),
    ("additions", (10, 20), SPREAD, RUN, ADDITIONS),
    ("savepoints", (10, 20), SPREAD, RUN, SAVEPOINTS),
    ("show", (10, 20), SPREAD, ("show",), b""),
    ("audit", (10, 20), ONE_PUT, ("audit",), DONE.encode()),
    ("an audit that says no", (10, 20), SPREAD, ("audit",), DONE.encode()),
    ("an audit of no report", (10,), ONE_PUT, ("audit",), b"[5,10]\n"),
    ("standby", (10, 20), SPREAD, ("standby",), b""),
    ("a standby of first records", (10, 20), SPREAD, ("standby", "4", "4"), b""),
    ("load", (50,), b"", LOAD, b""),
    ("make", None, b"", ("make", "10"), b""),
    ("wrong words", (), b"", ("run", "--tries", "0"), b""),
    ("a wrong script", (), b"", RUN, b"session\nbegin\nput 5\n"),
]
# A run without an end has none after so many seconds. The sleeps of a thousand tries are 20.
SECONDS = 60
# Threads make a run's allocations a few more or less: so many runs in which none was refused end the row.
QUIET = 8
WANTING = (8, "", "want of memory\n")


class Command:
    """A command over the same logs, which is run with one refusal after another."""

    def __init__(self, checks, library, program, case, splits, filling, words, script):
        self.checks, self.library, self.program, self.case = checks, library, program, case
        self.words, self.script = words, script
        with Folder(program) as folder:
            if splits is not None:
                folder.run("make", *map(str, splits))
            if filling:
                folder.run("run", script=filling)
            self.start = folder.logs()
            self.plain = folder.run(*words, script=script)
        opened = logs.opened(self.start)[1] if self.start else []
        self.before, self.run_number = logs.stands(opened), logs.last_run(opened) + 1

    def check(self, name, is_right, found):
        return self.checks.check(name, is_right, found, self.script, self.case)

    def refuse(self, title, which):
        """One run. Gives whether an allocation was refused in it."""
        name = f"{title}, FAULTS_ALLOC={which}"
        with Folder(self.program) as folder:
            folder.put(self.start)
            got, trace = self.library.run(folder, *self.words, script=self.script, seconds=SECONDS, alloc=which)
            answered = (got.status, got.out, got.err)
            # Where not even the line on standard error has memory, the status tells it.
            is_wanting = answered in (WANTING, (8, "", ""))
            self.check(f"{name}: status", is_wanting or got.status == self.plain.status, got)
            if self.plain.status != 0:
                self.check(f"{name}: logs", folder.logs() == self.start, "they changed")
            elif self.words[0] != "make":
                self.judge(name, folder, got)
        return "alloc" in trace.faults

    def judge(self, name, folder, got):
        try:
            after = logs.map_of(folder.logs())
            wrong = self.wrong_after(folder, got, after)
        except (logs.Fault, reports.Wrong, ValueError, KeyError, IndexError) as fault:
            after, wrong = None, str(fault)
        if self.check(f"{name}: what stands", wrong is None, (wrong, got)):
            more = folder.run("show")
            self.check(f"{name}: show", more.is_fine() and more.out == logs.shown(after), (more, after))

    def wrong_after(self, folder, got, after):
        """What is wrong in what stands after a run, if anything."""
        if self.words[0] in ("audit", "standby"):
            return None if folder.logs() == self.start and got.out in ("", self.plain.out) else f"{self.words[0]} wrote to the logs, or told something else"
        if self.words[0] == "show":
            return None if after == self.before and got.out in ("", self.plain.out) else "show changed it, or told something else"
        if self.words[0] == "load":
            is_whole = sum(after.values()) in (0, 1000 * 4) and len(after) in (0, 4)
            return None if is_whole and got.out in ("", self.plain.out) else "the sum is another one"
        if got.status == 0 and reports.replay(self.script, got.out, self.before)[0] != after:
            return "the report leads elsewhere"
        return members.wrong_in(self.script, folder.logs(), self.run_number)


def sweep(checks, library, program, step, title, *rest):
    """All allocations of a command, or one of some."""
    command = Command(checks, library, program, None, *rest)
    for later in ("", ".."):
        number, quiet = 1, 0
        while quiet < QUIET:
            is_refused = command.refuse(title, f"{number}{later}")
            quiet = 0 if is_refused else quiet + 1
            number += 1 if quiet else step


def refusals(numbers):
    first = numbers.randrange(60, 1200)
    return numbers.choice((str(first), f"{first}..", f"{first}-{first + numbers.randrange(1, 60)}"))


def at_random(checks, library, case, numbers, program):
    """Sessions that meet, now and then under `load`, where they are tried without end."""
    script, words = crowd(numbers), RUN
    if numbers.random() < 0.3:
        script, words = b"", f"load --seed {numbers.randrange(99)} --sessions {numbers.randrange(2, 9)} --accounts 4 --transfers 3".split()
    command = Command(checks, library, program, case, (10, 20), b"", words, script)
    for _ in range(4):
        command.refuse(f"case {case}", refusals(numbers))


def main():
    told = arguments(__doc__, count=50, step=1)
    checks = Checks(told)
    with tempfile.TemporaryDirectory(prefix="faults-") as place:
        library = faults.built(checks, place)
        if library and told.step and told.only is None:
            for command in COMMANDS:
                sweep(checks, library, told.program, told.step, *command)
        for case, numbers in cases(told) if library else ():
            at_random(checks, library, case, numbers, told.program)
    checks.end()


if __name__ == "__main__":
    main()
