#!/usr/bin/env python3
"""Worked examples: what the program is to write, byte by byte, where that can be worked out by hand. The examples of README.md,
docs/COMMANDS.md and docs/FORMAT.md are among them, read from these files."""

import os
import re
import struct
import subprocess
import sys
import threading

import logs
import reports
from program import Checks, Folder, Ran, arguments

TOP = os.path.dirname(os.path.dirname(os.path.abspath(__file__)))
LAST = (1 << 64) - 1
LONGEST_SCRIPT = 16777216
SECONDS = 120
USAGE = "usage: clv_shell make [SPLIT].. | run [--tries N] | show | load --seed S --sessions N --accounts A --transfers T | serve [--sessions N] | audit | standby [N].."
ONE_PUT = b"session\nbegin\nput 5 10\ncommit\n"
NOTHING_DONE = '{"aborted":0,"acknowledged":0,"unsettled":0}\n'

# The log after `make`, and after a run of ONE_PUT.
MADE = bytes.fromhex("434c564c4f473032 02000000 00000000 01000000 0100000000000000 00")
WORKED = bytes.fromhex(
    "434c564c4f473032 02000000 00000000 01000000 0100000000000000"
    "01 0d000000 07 01000000 0000000000000000"
    "01 38000000 01 01000000 01000000 0100000000000000 0500000000000000 00 01 0a00000000000000"
    "04 01000000 01000000 0100000000000000 00000000"
    "00"
)


def one(*lines):
    """A script of one session with one transaction of these lines."""
    return reports.script_of(["session", "begin", *lines, "commit"])


def line_of(operations, serial=1):
    """The report's line of session 1's transaction with these operations, as the report spells them."""
    return f'{{"ops":[{operations}],"serial":{serial},"session":1}}\n'


def counts(acknowledged, aborted=0):
    return f'{{"aborted":{aborted},"acknowledged":{acknowledged},"unsettled":0}}\n'


DONE = line_of('["put",5,10,null]') + counts(1)

# Splits, a script, and its report, of one session: so no transaction meets another one.
REPORTS = [
    ("a put", (), ONE_PUT, DONE),
    ("no session", (), b"", NOTHING_DONE),
    ("no line feed at the end", (), b"session\nbegin\nput 5 10\ncommit", DONE),
    ("a session without a transaction", (), b"session\n", NOTHING_DONE),
    ("a transaction without an operation", (), b"session\nbegin\ncommit\n", NOTHING_DONE),
    ("a transaction without an operation that is aborted", (), b"session\nbegin\nabort\n", NOTHING_DONE),
    (
        "puts, gets and a del of one key",
        (),
        one("put 5 10", "put 5 11", "get 5", "del 5", "get 5"),
        line_of('["put",5,10,null],["put",5,11,10],["get",5,11],["del",5,11],["get",5,null]') + counts(1),
    ),
    (
        "a scan over three shards",
        (10, 20),
        b"session\nbegin\nput 0 1\nput 10 2\nput 20 3\nput 18446744073709551615 4\ncommit\nbegin\nscan 0 18446744073709551615\ncommit\n",
        line_of('["put",0,1,null],["put",10,2,null],["put",20,3,null],["put",18446744073709551615,4,null]')
        + line_of('["scan",0,18446744073709551615,[[0,1],[10,2],[20,3],[18446744073709551615,4]]]', 2)
        + counts(2),
    ),
    (
        "scans of a part of two shards, of one key, and of none",
        (10,),
        one("put 9 1", "put 10 2", "put 11 3", "scan 9 10", "scan 10 10", "scan 12 99", "del 10", "scan 9 11"),
        line_of(
            '["put",9,1,null],["put",10,2,null],["put",11,3,null],["scan",9,10,[[9,1],[10,2]]],["scan",10,10,[[10,2]]],'
            '["scan",12,99,[]],["del",10,2],["scan",9,11,[[9,1],[11,3]]]'
        )
        + counts(1),
    ),
    (
        "moves: done, an account that is missing, too little, all of it, too much for the target",
        (),
        b"session\nbegin\nput 1 100\nput 2 0\nput 3 18446744073709551615\ncommit\nbegin\nmove 1 2 30\ncommit\nbegin\nmove 2 9 1\ncommit\n"
        b"begin\nmove 2 1 31\ncommit\nbegin\nmove 2 1 30\ncommit\nbegin\nmove 1 3 1\ncommit\n",
        line_of('["put",1,100,null],["put",2,0,null],["put",3,18446744073709551615,null]')
        + line_of('["get",1,100],["get",2,0],["put",1,70,100],["put",2,30,0]', 2)
        + line_of('["get",2,30],["get",9,null]', 3)
        + line_of('["get",2,30],["get",1,70]', 4)
        + line_of('["get",2,30],["get",1,70],["put",2,0,30],["put",1,100,70]', 5)
        + line_of('["get",1,100],["get",3,18446744073709551615]', 6)
        + counts(6),
    ),
    (
        "a transaction that is aborted leaves nothing",
        (10,),
        b"session\nbegin\nput 1 1\nput 11 1\ncommit\nbegin\nput 1 2\ndel 11\nput 12 2\nabort\nbegin\nscan 0 99\ncommit\n",
        line_of('["put",1,1,null],["put",11,1,null]') + line_of('["scan",0,99,[[1,1],[11,1]]]', 3) + counts(2, 1),
    ),
    (
        "shard 0 without a key, as the first split is 0",
        (0,),
        one("put 0 7", "scan 0 0"),
        line_of('["put",0,7,null],["scan",0,0,[[0,7]]]') + counts(1),
    ),
    (
        "texts: one of two bytes, one of none, the longest, over a number and under one",
        (10,),
        one("bytes 7 00ff", "get 7", "bytes 7 -", "put 7 5", "bytes 11 " + 200 * "5a", "scan 0 99", "del 11", "get 11"),
        line_of(
            '["put",7,"00ff",null],["get",7,"00ff"],["put",7,"","00ff"],["put",7,5,""],["put",11,"' + 200 * "5a" + '",null],'
            '["scan",0,99,[[7,5],[11,"' + 200 * "5a" + '"]]],["del",11,"' + 200 * "5a" + '"],["get",11,null]'
        )
        + counts(1),
    ),
    (
        "no move where one of the two is a text, and an abort that brings texts back",
        (10,),
        b"session\nbegin\nbytes 1 0a\nput 2 7\nbytes 11 -\ncommit\nbegin\nmove 1 2 0\ncommit\nbegin\nmove 2 11 0\ncommit\n"
        b"begin\nput 1 3\nbytes 2 ff\ndel 11\nabort\nbegin\nscan 0 99\ncommit\n",
        line_of('["put",1,"0a",null],["put",2,7,null],["put",11,"",null]')
        + line_of('["get",1,"0a"],["get",2,7]', 2)
        + line_of('["get",2,7],["get",11,""]', 3)
        + line_of('["scan",0,99,[[1,"0a"],[2,7],[11,""]]]', 5)
        + counts(4, 1),
    ),
    (
        "additions: beyond the last number, to no value, to a text, and an abort that takes one away",
        (10,),
        b"session\nbegin\nput 5 18446744073709551615\nadd 5 3\nget 5\nadd 9 1\ncommit\nbegin\nbytes 7 00ff\nget 7\nadd 7 1\ncommit\n"
        b"begin\nadd 5 5\nadd 5 6\ndel 5\nadd 5 1\nput 11 1\nadd 11 4\nabort\nbegin\nadd 5 0\nscan 0 99\ndel 5\nadd 5 1\ncommit\n",
        line_of('["put",5,18446744073709551615,null],["add",5,3,true],["get",5,2],["add",9,1,false]')
        + line_of('["put",7,"00ff",null],["get",7,"00ff"],["add",7,1,false]', 2)
        + line_of('["add",5,0,true],["scan",0,99,[[5,2],[7,"00ff"]]],["del",5,2],["add",5,1,false]', 4)
        + counts(3, 1),
    ),
    (
        "a put is taken back",
        (),
        one("put 5 1", "save", "put 5 2", "get 5", "back 1", "get 5"),
        line_of('["put",5,1,null],["put",5,2,1],["get",5,2],["back",1],["get",5,1]') + counts(1),
    ),
    (
        "savepoints, with goings back over two shards, to one and to one before it, and twice to the same",
        (10,),
        b"session\nbegin\nput 1 7\nput 2 5\nbytes 11 0a\ncommit\nbegin\nsave\nput 1 8\nsave\ndel 11\nadd 2 3\nscan 0 99\nback 2\nscan 0 99\nback 1\nback 1\nget 1\nput 11 4\ncommit\n",
        line_of('["put",1,7,null],["put",2,5,null],["put",11,"0a",null]')
        + line_of(
            '["put",1,8,7],["del",11,"0a"],["add",2,3,true],["scan",0,99,[[1,8],[2,8]]],["back",1],["scan",0,99,[[1,8],[2,5],[11,"0a"]]],["back",0],["get",1,7],["put",11,4,"0a"]',
            2,
        )
        + counts(2),
    ),
    (
        "savepoints without anything to take back, and numbers that go on behind forgotten ones",
        (),
        one("save", "get 5", "back 1", "save", "save", "del 5", "back 2", "save", "put 5 10", "back 4", "get 5"),
        line_of('["get",5,null],["del",5,null],["put",5,10,null],["back",2],["get",5,null]') + counts(1),
    ),
    (
        "a move is taken back, and one before it isn't",
        (10,),
        one("put 1 9", "put 11 0", "move 1 11 4", "save", "move 1 11 5", "back 1", "move 11 1 1"),
        line_of(
            '["put",1,9,null],["put",11,0,null],["get",1,9],["get",11,0],["put",1,5,9],["put",11,4,0],["get",1,5],["get",11,4],["put",1,0,5],["put",11,9,4],'
            '["back",6],["get",11,4],["get",1,5],["put",11,3,4],["put",1,6,5]'
        )
        + counts(1),
    ),
    (
        "all is taken back, and a transaction with a savepoint alone isn't counted",
        (10,),
        b"session\nbegin\nsave\nput 5 1\nput 15 1\nback 1\ncommit\nbegin\nsave\nback 1\ncommit\nbegin\nput 5 1\nsave\nput 5 2\nback 1\nabort\nbegin\nscan 0 99\ncommit\n",
        line_of('["put",5,1,null],["put",15,1,null],["back",0]') + line_of('["scan",0,99,[]]', 4) + counts(2, 1),
    ),
    (
        "empty lines and remarks",
        (),
        b"# one\n\nsession\n#\nbegin\n\nput 5 10\n# two\ncommit\n\n",
        line_of('["put",5,10,null]') + counts(1),
    ),
]

# Scripts outside the grammar, and the line that is told.
REFUSED_SCRIPTS = [
    (b"get 1\n", 1),
    (b"begin\n", 1),
    (b"commit\n", 1),
    (b"session\nget 1\n", 2),
    (b"session\ncommit\n", 2),
    (b"session\nabort\n", 2),
    (b"session\nbegin\nscan 9 3\ncommit\n", 3),
    (b"session\nbegin\nbegin\n", 3),
    (b"session\nbegin\nsession\n", 3),
    (b"session\nbegin\n", 3),
    (b"session\nbegin", 3),
    (b"session\nbegin\nput 5 10\n\n# open\n", 6),
    (b"session\nbegin\nmove 1 1 5\ncommit\n", 3),
    (b"session\nbegin\nget 18446744073709551616\ncommit\n", 3),
    (b"session\nbegin\nget 01\ncommit\n", 3),
    (b"session\nbegin\nget +1\ncommit\n", 3),
    (b"session\nbegin\nget -1\ncommit\n", 3),
    (b"session\nbegin\nget 0x1\ncommit\n", 3),
    (b"session\nbegin\nget\ncommit\n", 3),
    (b"session\nbegin\nget 1 2\ncommit\n", 3),
    (b"session\nbegin\nput 1\ncommit\n", 3),
    (b"session\nbegin\nput 1 -\ncommit\n", 3),
    (b"session\nbegin\nbytes 1\ncommit\n", 3),
    (b"session\nbegin\nbytes 1 \ncommit\n", 3),
    (b"session\nbegin\nbytes 1 0\ncommit\n", 3),
    (b"session\nbegin\nbytes 1 0A\ncommit\n", 3),
    (b"session\nbegin\nbytes 1 0g\ncommit\n", 3),
    (b"session\nbegin\nbytes 1 --\ncommit\n", 3),
    (b"session\nbegin\nbytes 1 00 \ncommit\n", 3),
    (b"session\nbegin\nbytes 1 " + 402 * b"0" + b"\ncommit\n", 3),
    (b"save\n", 1),
    (b"session\nsave\n", 2),
    (b"session\nback 1\n", 2),
    (b"session\nbegin\nback 1\ncommit\n", 3),
    (b"session\nbegin\nsave\nback 2\ncommit\n", 4),
    (b"session\nbegin\nsave\nback 0\ncommit\n", 4),
    (b"session\nbegin\nsave\nback\ncommit\n", 4),
    (b"session\nbegin\nsave\nback 01\ncommit\n", 4),
    (b"session\nbegin\nsave\nback 1 1\ncommit\n", 4),
    (b"session\nbegin\nsave 1\ncommit\n", 3),
    (b"session\nbegin\nsave\nsave\nback 1\nback 2\ncommit\n", 6),
    (b"session\nbegin\nsave\ncommit\nbegin\nback 1\ncommit\n", 6),
    (b"session\nbegin\nGET 1\ncommit\n", 3),
    (b"session\nbegin\nget  1\ncommit\n", 3),
    (b"session\nbegin\nget 1 \ncommit\n", 3),
    (b"session\nbegin\n get 1\ncommit\n", 3),
    (b"session\nbegin\nget\t1\ncommit\n", 3),
    (b"session\nbegin\ncommit now\n", 3),
    (b"session\r\n", 1),
    (b"session 1\n", 1),
    (b" # a remark begins its line\n", 1),
    (b"# caf\xc3\xa9\n", 1),
    (b"\0", 1),
    (b"session\n" * 65, 65),
    (b"#\n\n\nget 1\n", 4),
]

# Words that are no command.
REFUSED_WORDS = [
    "",
    "mend",
    "help",
    "--help",
    "-h",
    "--version",
    "show 1",
    "show --tries 5",
    "audit 1",
    "audit --tries 5",
    "standby x",
    "standby --tries 5",
    "make x",
    "make 01",
    "make -1",
    "make 18446744073709551616",
    "make 20 10",
    "make 10 10",
    "make " + " ".join(map(str, range(1, 17))),
    "run 5",
    "run --tries",
    "run --tries 0",
    "run --tries 1001",
    "run --tries 05",
    "run --tries 5 --tries 5",
    "run --again 5",
    "load",
    "load --seed 1 --sessions 1 --accounts 2",
    "load --seed 1 --sessions 0 --accounts 2 --transfers 1",
    "load --seed 1 --sessions 65 --accounts 2 --transfers 1",
    "load --seed 1 --sessions 1 --accounts 1 --transfers 1",
    "load --seed 1 --sessions 1 --accounts 10001 --transfers 1",
    "load --seed 1 --sessions 1 --accounts 2 --transfers 1001",
    "load --seed 18446744073709551616 --sessions 1 --accounts 2 --transfers 1",
    "load --seed 1 --seed 1 --sessions 1 --accounts 2 --transfers 1",
]


def makes_logs(checks, program):
    with Folder(program) as folder:
        got = folder.run("make")
        checks.check("make", got.is_fine() and got.out == "" and folder.logs() == [MADE], (got, folder.logs()))
        got = folder.run("make")
        checks.check("make again", got.is_refused(10, "shard 0: length 29, not 0") and folder.logs() == [MADE], got)
    with Folder(program) as folder:
        folder.put([b"", b"x"])
        got = folder.run("make", "10")
        checks.check("make over a byte", got.is_refused(10, "shard 1: length 1, not 0") and folder.logs() == [b"", b"x"], got)
    with Folder(program) as folder:
        folder.put([b"", (b"", b"xyz")])
        got = folder.run("make", "10")
        checks.check("make over bytes of the second file", got.is_refused(10, "shard 1: length 3, not 0") and folder.logs() == [b"", (b"", b"xyz")], got)
    for splits in ((10,), tuple(range(1, 16)), (0, LAST), tuple(range(10, 150, 10))):
        with Folder(program) as folder:
            got = folder.run("make", *map(str, splits))
            want = [logs.header(shard, splits) + b"\0" for shard in range(len(splits) + 1)]
            checks.check(f"make with splits {splits}", got.is_fine() and folder.logs() == want, (got, folder.logs()))
            lengths = {len(it) for it in folder.logs()}
            checks.check(f"length of each log with splits {splits}", lengths == {29 + 8 * len(splits)}, lengths)


def writes_the_worked_log(checks, program):
    with Folder(program) as folder:
        folder.run("make")
        folder.run("run")
        checks.check("the log of no session", folder.logs() == [WORKED[:46] + b"\0"], folder.logs())
    with Folder(program) as folder:
        folder.run("make")
        folder.run("run", script=ONE_PUT)
        checks.check("the log of one put", folder.logs() == [WORKED], folder.logs())
        got = folder.run("show")
        checks.check("show of one put", got.is_fine() and got.out == "[5,10]\n", got)
        want = WORKED[:107] + logs.batch(logs.spell(("RESTART", 2, 0))) + b"\0"
        checks.check("the log of one put after show", folder.logs() == [want] and len(want) == 126, folder.logs())


def commits_over_two_shards(checks, program):
    """The records of a transaction of two shards: its home prepares too, and ends it once the other one has acknowledged."""
    first, restart = (1, 1, 1), ("RESTART", 1, 0)
    home = [restart, ("UPDATE", first, 1, None, 7), ("PREPARE", first, 0, ()), ("COMMIT", first, (1,)), ("END", first)]
    part = [restart, ("UPDATE", first, 11, None, 8), ("PREPARE", first, 0, ()), ("COMMIT", first, ())]
    with Folder(program) as folder:
        folder.run("make", "10")
        folder.run("run", script=one("put 1 7", "put 11 8"))
        found = [it.records for it in logs.opened(folder.logs())[1]]
        checks.check("the records of two shards", found == [home, part], found)


def writes_reports(checks, program):
    for name, splits, script, want in REPORTS:
        with Folder(program) as folder:
            folder.run("make", *map(str, splits))
            got = folder.run("run", script=script)
            checks.check(name, got.is_fine() and got.out == want, (got, want), script)
            pairs, _ = reports.replay(script, want, {})
            got = folder.run("show")
            checks.check(f"{name}: show", got.is_fine() and got.out == logs.shown(pairs), (got, pairs), script)


def refuses_scripts(checks, program):
    remark = b"# " + b"x" * 61 + b"\n"
    most = remark * (LONGEST_SCRIPT // len(remark))
    with Folder(program) as folder:
        got = folder.run("run", script=b"get 1\n")
        checks.check("a wrong script where there are no logs", got.is_refused(3, "script line 1") and folder.logs() == [], got)
        folder.run("make", "10")
        made = folder.logs()
        for script, line in (*REFUSED_SCRIPTS, (most + b"#", 0)):
            got = folder.run("run", script=script)
            name = f"script line {line}"
            checks.check(name, got.is_refused(3, name), got, script[:2000])
            checks.check(f"{name}: logs", folder.logs() == made, "they changed", script[:2000])
        got = folder.run("run", script=most)
        checks.check("a script of 16777216 bytes", got.is_fine() and got.out == NOTHING_DONE, got)
        got = folder.run("run", script=b"session\n" * 64)
        checks.check("64 sessions", got.is_fine() and got.out == NOTHING_DONE, got)


def fed(folder, script, size):
    """A run that is given its script by a pipe, in pieces of this size. It may leave off reading where the script is too long."""
    pipe = subprocess.PIPE
    run = folder.start("run", stdin=pipe, stdout=pipe, stderr=pipe, bufsize=0)
    killer = threading.Timer(SECONDS, run.kill)
    killer.start()
    try:
        for place in range(0, len(script), size):
            run.stdin.write(script[place : place + size])
    except BrokenPipeError:
        pass
    out, err = run.communicate()
    status = run.returncode if killer.is_alive() else None
    killer.cancel()
    return Ran(status, out.decode(), err.decode())


def reads_pieces(checks, program):
    """The longest script, and one that is a byte too long, in pieces."""
    most = ONE_PUT + b"# a remark\n" * ((LONGEST_SCRIPT - len(ONE_PUT)) // 11)
    most += b"\n" * (LONGEST_SCRIPT - len(most))
    for size in (1000, 65537, LONGEST_SCRIPT):
        with Folder(program) as folder:
            folder.run("make")
            made = folder.logs()
            got = fed(folder, most + b"\n", size)
            checks.check(f"one byte too long, in pieces of {size}", got.is_refused(3, "script line 0") and folder.logs() == made, got)
            got = fed(folder, most, size)
            checks.check(f"the longest script, in pieces of {size}", got.is_fine() and got.out == DONE, got)


def refuses_words(checks, program):
    with Folder(program) as folder:
        for words in REFUSED_WORDS:
            got = folder.run(*words.split(), script=ONE_PUT)
            checks.check(f"clv_shell {words}", got.is_refused(2, USAGE), got)
            checks.check(f"clv_shell {words}: no log", folder.logs() == [], folder.logs())
        folder.run("make")
        for words in ("run --tries 1", "run --tries 1000", "run --tries=7", "run"):
            got = folder.run(*words.split())
            checks.check(f"clv_shell {words}", got.is_fine() and got.out == NOTHING_DONE, got)


def tells_faults(checks, program):
    """Standard input, standard output and files that can't be used."""
    with Folder(program) as folder:
        folder.run("make", "10")
        made = folder.logs()
        unread = os.open(folder.path, os.O_RDONLY)
        got = folder.run("run", script=unread)
        os.close(unread)
        checks.check("input that can't be read", got.is_refused(4, "read fault") and folder.logs() == made, got)
        with open("/dev/full", "wb") as full:
            got = folder.run("run", script=ONE_PUT, stdout=full)
            checks.check("a report that can't be written", got.is_refused(5, "write fault"), got)
            checks.check("a report that can't be written: all is done", logs.map_of(folder.logs()) == {5: 10})
            got = folder.run("show", stdout=full)
            checks.check("pairs that can't be written", got.is_refused(5, "write fault"), got)
        made = folder.logs()
        os.remove(folder.log(1))
        os.mkdir(folder.log(1))
        for command in ("run", "show"):
            got = folder.run(command, script=ONE_PUT)
            checks.check(f"{command} where a log is a folder", got.is_refused(6, "disk fault on shard 1"), got)
        os.rmdir(folder.log(1))
        folder.put(made)
        got = folder.run("show")
        checks.check("show after a disk fault", got.is_fine() and got.out == "[5,10]\n", got)


def replaced_logs(program):
    """Rows of logs that aren't of one store: one of them is as `make` writes it, missing, or the other one's."""
    with Folder(program) as folder:
        folder.run("make", "10")
        new = folder.logs()
        folder.run("run", script=one("put 1 1", "put 11 1"))
        old = folder.logs()
    return [
        ("log 0 is a new one", [new[0], old[1]], 11, "transaction 1.1.1: logs apart"),
        ("log 1 is a new one", [old[0], new[1]], 11, "transaction 1.1.1: logs apart"),
        ("log 1 is missing", [old[0]], 7, "shard 1: not a log at byte 0"),
        ("log 0 stands in place of both", [old[0], old[0]], 7, "shard 1: not a log at byte 12"),
    ]


def refuses_logs(checks, program):
    """The worked log, damaged; logs that break an order rule, of the last run, and apart."""
    closed = WORKED[:46] + b"\0" + WORKED[47:]
    broken, last = [("RESTART", 1, 0), ("UPDATE", (1, 1, 1), 5, 7, 8)], [("RESTART", 4294967295, 0)]
    rows = [
        ("a closed gate before the batch", [closed], 0, ""),
        ("a closed gate, and cut behind it", [closed[:68]], 0, ""),
        ("cut in the batch", [WORKED[:68]], 7, "shard 0: not a log at byte 47"),
        ("cut before the last gate", [WORKED[:107]], 7, "shard 0: not a log at byte 107"),
        ("an empty file", [b""], 7, "shard 0: not a log at byte 0"),
        ("no file", [], 7, "shard 0: not a log at byte 0"),
        ("a value before that isn't the key's", [logs.log(0, [], [broken])], 7, "shard 0: not a log at record 1"),
        ("that, and log 1 is empty", [logs.log(0, [10], [broken]), b""], 7, "shard 0: not a log at record 1"),
        ("the last run", [logs.log(0, [], [last])], 9, "worn at 4294967296"),
        ("the last run, and log 1 is empty", [logs.log(0, [10], [last]), b""], 7, "shard 1: not a log at byte 0"),
    ]
    rows += replaced_logs(program)
    for name, files, status, text in rows:
        for command in ("show", "run"):
            with Folder(program) as folder:
                folder.put(files)
                got = folder.run(command)
                is_right = got.is_refused(status, text) if status else got.is_fine() and got.out == ("" if command == "show" else NOTHING_DONE)
                checks.check(f"{name}: {command}", is_right, got)
                found = folder.logs()
                is_kept = not status or (found[: len(files)] == files and not any(found[len(files) :]))
                checks.check(f"{name}: {command}: no log was written", is_kept, found)


def loads(checks, program):
    """The script of `load`: what it draws was worked out apart for one seed; for others the model of its numbers tells the map."""
    checks.check("the first number of seed 0 and session 1", next(reports.draws(0, 1)) == 908834774, next(reports.draws(0, 1)))
    for seed, sessions, accounts, transfers in ((0, 1, 3, 40), (7, 4, 100, 20), (LAST, 2, 2, 40), (12, 64, 1000, 1), (3, 1, 2, 0)):
        with Folder(program) as folder:
            folder.run("make", "1", "50")
            numbers = ("--seed", seed, "--sessions", sessions, "--accounts", accounts, "--transfers", transfers)
            got = folder.run("load", *map(str, numbers))
            want = f'{{"accounts":{accounts},"acknowledged":{1 + sessions * transfers},"sum":{1000 * accounts}}}\n'
            name = "load {} {} {} {} {} {} {} {}".format(*numbers)
            checks.check(name, got.is_fine() and got.out == want, (got, want))
            # No account can run out, so the order of the transfers doesn't matter.
            pairs = {}
            for script in reports.load_script(seed, sessions, accounts, transfers):
                for session in reports.sessions_of(script):
                    for transaction in session:
                        _, pairs = reports.done_alone(transaction, pairs)
            got = folder.run("show")
            checks.check(f"{name}: show", got.is_fine() and got.out == logs.shown(pairs), (got, pairs))


def loads_in_any_order(checks, program):
    with Folder(program) as folder:
        folder.run("make")
        got = folder.run(*"load --transfers 1 --accounts 2 --sessions 1 --seed 0".split())
        checks.check("options of load in another order", got.is_fine() and got.out == '{"accounts":2,"acknowledged":2,"sum":2000}\n', got)
        # From account 908834774 mod 2 to the other one.
        rows = [it.split() for it in reports.load_script(0, 1, 2, 1)[1].decode().splitlines() if it.startswith("move")]
        amount = int(rows[0][3])
        got = folder.run("show")
        checks.check("the first transfer of seed 0", got.out == f"[0,{1000 - amount}]\n[1,{1000 + amount}]\n", (got, rows))


# The examples of the documents.


def transcripts(text):
    """The blocks of a document that show commands: for each command its words, the file of its script, and what it writes."""
    for block in re.findall(r"(?:^    .*\n)+", text, re.MULTILINE):
        found = []
        for line in block.replace("\n    ", "\n")[4:].splitlines():
            command = re.fullmatch(r"\$ clv_shell (.*?)(?: < (\S+))?", line)
            if command:
                found.append((command[1].split(), command[2], []))
            elif found:
                found[-1][2].append(line)
        if found:
            yield [(words, script, "".join(f"{it}\n" for it in lines)) for words, script, lines in found]


def is_as_shown(words, script, pairs, got, want):
    """Whether a command wrote what a document shows. Where sessions of a script meet, another order of them is as good."""
    if not got.is_fine() or words[0] != "run" or len(reports.sessions_of(script)) < 2:
        return got.is_fine() and got.out == want
    shown, found = reports.replay(script, want, pairs), reports.replay(script, got.out, pairs)
    return shown == found


def follows_documents(checks, program):
    for name in ("README.md", "docs/COMMANDS.md"):
        with open(f"{TOP}/{name}") as file:
            blocks = list(transcripts(file.read()))
        checks.check(f"{name} has an example", bool(blocks))
        for block in blocks:
            with Folder(program) as folder:
                for words, file, want in block:
                    follows_command(checks, folder, f"{name}: clv_shell {' '.join(words)}", words, file, want)


def follows_command(checks, folder, name, words, file, want):
    script = b""
    if file:
        with open(f"{TOP}/samples/{file}", "rb") as sample:
            script = sample.read()
    pairs = logs.map_of(folder.logs()) if folder.logs() else {}
    got = folder.run(*words, script=script)
    try:
        checks.check(name, is_as_shown(words, script, pairs, got, want), (got, want), script)
    except reports.Wrong as wrong:
        checks.check(name, False, (wrong, got), script)


def runs_python(checks, program):
    """README's example in Python, where `clv_shell` is the program, over a store in the folder that it names; what it prints stands behind the call."""
    with open(f"{TOP}/README.md") as file:
        blocks = re.findall(r"^```python\n(.*?)^```$", file.read(), re.MULTILINE | re.DOTALL)
    checks.check("README.md has an example in Python", len(blocks) == 1, len(blocks))
    for block in blocks:
        with Folder(program) as folder:
            os.symlink(folder.program, f"{folder.path}/clv_shell")
            os.mkdir(f"{folder.path}/folder")
            subprocess.run([folder.program, "make", "10"], cwd=f"{folder.path}/folder", check=True)
            told = {**os.environ, "PATH": f"{folder.path}:{os.environ['PATH']}", "PYTHONPATH": f"{TOP}/examples", "PYTHONDONTWRITEBYTECODE": "1"}
            got = subprocess.run([sys.executable, "-c", block], cwd=folder.path, env=told, capture_output=True, text=True, timeout=SECONDS)
            want = "".join(f"{it}\n" for it in re.findall(r"^ *print\(.*\)  # (.*)$", block, re.MULTILINE))
            checks.check("README.md's example in Python", (got.returncode, got.stdout, got.stderr) == (0, want, "") and want, (got, want))


def bytes_of_table(text, heading):
    """The bytes that a document's table shows, row by row behind this heading."""
    found = bytearray()
    for line in text.partition(heading)[2].splitlines():
        row = re.match(r"\| (\d+) \| ((?:`[0-9a-f ]+` ?)+)\|", line)
        if row:
            if int(row[1]) != len(found):
                return None
            found += bytes.fromhex(row[2].replace("`", ""))
    return bytes(found)


def follows_the_format(checks, program):
    """docs/FORMAT.md: the worked log, what of it a change leaves, and the lengths that it tells."""
    with open(f"{TOP}/docs/FORMAT.md") as file:
        text = file.read()
    shown = bytes_of_table(text, "## A worked log")
    checks.check("docs/FORMAT.md: the worked log", shown == WORKED, shown)
    magic, version, shard, count, generation = struct.unpack("<8sIIIQ", WORKED[:28])
    checks.check("docs/FORMAT.md: the header", (magic, version, shard, count, generation) == (b"CLVLOG02", 2, 0, 1, 1))
    found = logs.opened([WORKED])[1][0].records
    want = [("RESTART", 1, 0), ("UPDATE", (1, 1, 1), 5, None, 10), ("COMMIT", (1, 1, 1), ())]
    checks.check("docs/FORMAT.md: its records", found == want, found)


def main():
    told = arguments(__doc__)
    checks = Checks(told)
    tests = (makes_logs, writes_the_worked_log, commits_over_two_shards, writes_reports, refuses_scripts, reads_pieces, refuses_words, tells_faults)
    for test in (*tests, refuses_logs, loads, loads_in_any_order, follows_documents, runs_python, follows_the_format):
        test(checks, told.program)
    checks.end()


if __name__ == "__main__":
    main()
