#!/usr/bin/env python3
"""Logs that are damaged, made by hand, or at random but in order: `show` answers as logs.py says, and nothing else happens.

Each image is opened with a bound on memory and on time. The status and the text are those of the first fault, in the order of an opening, and no
file has changed then; where there is no fault, the output is what the logs stand for, and the logs have grown by what an opening adds alone: ABORTs
and CLRs of what it undoes, a RESTART, and decisions on what was in doubt; they may be opened again, and stand for the same.

There are rows by hand; each cut and some changes of each byte of some small stores, of both versions and on both files of a shard; and cases at
random: logs that a run left, with some bytes changed, and records that keep the order rules, with one of them changed now and then.
"""

import itertools
import resource
import struct

import logs
import reports
from program import Checks, Folder, arguments, cases

# How much memory an opening may take, for a small log and for each of its bytes.
SPACE, SPACE_OF_BYTE = 512 << 20, 64
SECONDS = 30
IMAGES = 20
RESTART = ("RESTART", 1, 0)
FIRST, SECOND = (1, 1, 1), (1, 2, 1)


# What is judged of each image.


def expected(files):
    """The fault of these files, or the map that they stand for."""
    try:
        return None, logs.map_of(files)
    except logs.Fault as fault:
        return fault, None


def sides_of(files):
    """The bytes of both files of a shard."""
    return files if isinstance(files, tuple) else (files or b"", b"")


def hexadecimal(files):
    return "\n".join(" and ".join(side.hex() or "no file" for side in sides_of(it)) for it in files)


def undone(facts):
    """What an opening adds to a log up to its RESTART: ABORTs of the losers, rising, and their CLRs and UNADDs, the last record first."""
    losers = facts.losers()
    yield from (("ABORT", it) for it in losers if it not in facts.aborted)
    for lsn in sorted((lsn for it in losers for lsn in facts.open[it]), reverse=True):
        kind, transaction, key, was = facts.records[lsn][:4]
        earlier = [it for it in facts.open[transaction] if it < lsn]
        yield ("CLR" if kind == "UPDATE" else "UNADD", transaction, earlier[-1] if earlier else None, key, was)


def wrong_in_growth(old, new, run):
    """What is wrong in the records that an opening added to one log, if anything."""
    count = len(old.records)
    restart = [*undone(old), ("RESTART", run, 0)]
    added, decided = new.records[count : count + len(restart)], new.records[count + len(restart) :]
    if new.records[:count] != old.records or added != restart:
        return f"an opening adds {restart}, and this one added {added}"
    if any(it[0] not in ("COMMIT", "ABORT", "CLR", "UNADD", "END") for it in decided):
        return f"behind it stand {decided}"
    if any(new.is_in_doubt(it) for it in new.prepared):
        return "something is in doubt yet"
    return None


def wrong_after(before, after, pairs):
    """What is wrong in the logs after an opening, if anything."""
    _, old = logs.opened(before)
    try:
        _, new = logs.opened(after)
    except logs.Fault as fault:
        return f"afterwards: {fault.text}"
    if logs.stands(new) != pairs:
        return f"afterwards they stand for {logs.stands(new)}"
    found = [wrong_in_growth(*it, logs.last_run(old) + 1) for it in zip(old, new)]
    return next((f"shard {shard}: {it}" for shard, it in enumerate(found) if it), None)


def is_unchanged(files, found):
    """Whether no file has changed. One that was missing may be there, without bytes."""
    wanted, found = list(map(sides_of, files)), list(map(sides_of, found))
    none = (b"", b"")
    return all(one == other for one, other in itertools.zip_longest(wanted, found, fillvalue=none))


def judge(checks, folder, name, files, case=None):
    fault, pairs = expected(files)
    folder.put(files)
    space = SPACE + SPACE_OF_BYTE * sum(len(side) for it in files for side in sides_of(it))
    got = folder.run("show", limits=[(resource.RLIMIT_AS, space)], seconds=SECONDS)
    if fault:
        is_right = got.is_refused(fault.status, fault.text) and is_unchanged(files, folder.logs())
        return checks.check(name, is_right, (got, fault.status, fault.text), hexadecimal(files), case)
    if not checks.check(name, got.is_fine() and got.out == logs.shown(pairs), (got, pairs), hexadecimal(files), case):
        return False
    wrong = wrong_after(files, folder.logs(), pairs)
    return checks.check(f"{name}: afterwards", wrong is None, wrong, hexadecimal(files), case)


# Rows by hand.


def update(transaction, key, before, after):
    return ("UPDATE", transaction, key, before, after)


def refused_at(checks, folder, name, data, place):
    """One log that is refused at this byte, by the program and by logs.py."""
    text = f"shard 0: not a log at byte {place}"
    folder.put([data])
    got = folder.run("show", seconds=SECONDS)
    checks.check(name, got.is_refused(7, text), got)
    checks.check(f"{name}: by logs.py", expected([data])[0].text == text)


def undoes_doubt_over_a_loser(checks, folder):
    """A transaction that waits for another one's shard, over one that this shard aborts."""
    home = logs.log(0, [10], [[RESTART]])
    records = [RESTART, update(FIRST, 11, None, 1), ("PREPARE", FIRST, 1, ()), update(SECOND, 11, 1, 2), ("PREPARE", SECOND, 0, (FIRST,))]
    folder.put([home, logs.log(1, [10], [records])])
    got = folder.run("show")
    checks.check("in doubt over a loser: show", got.is_fine() and got.out == "", got)
    want = [("ABORT", FIRST), ("ABORT", SECOND), ("CLR", SECOND, None, 11, 1), ("CLR", FIRST, None, 11, None), ("RESTART", 2, 0)]
    found = logs.opened(folder.logs())[1][1].records[len(records) :]
    checks.check("in doubt over a loser: records", found == want, found)


def takes_sums_apart(checks, folder):
    """Losers that added below others' ADDs, in a log with one put; and records that break the rules of ADDs."""
    third = (1, 1, 3)
    start = [RESTART, update(FIRST, 5, None, 100), ("COMMIT", FIRST, ())]
    records = [*start, ("ADD", SECOND, 5, 7), ("ADD", third, 5, logs.BEYOND - 1), ("ADD", SECOND, 5, 2), ("COMMIT", third, ())]
    folder.put([logs.log(0, [], [records])])
    got = folder.run("show")
    checks.check("losers that added: show", got.is_fine() and got.out == "[5,99]\n", got)
    found = logs.opened(folder.logs())[1][0].records[len(records) :]
    want = [("ABORT", SECOND), ("UNADD", SECOND, 3, 5, 2), ("UNADD", SECOND, None, 5, 7), ("RESTART", 2, 0)]
    checks.check("losers that added: records", found == want, found)
    prepared = [*start, ("ADD", SECOND, 5, 7), ("PREPARE", SECOND, 0, ())]
    under = [RESTART, update(FIRST, 5, None, 1), ("PREPARE", FIRST, 0, ())]
    wrong = {
        "an ADD of no value": [RESTART, ("ADD", FIRST, 5, 1)],
        "an ADD of a text": [RESTART, update(FIRST, 5, None, b"a"), ("ADD", FIRST, 5, 1)],
        "an ADD over an open UPDATE": [RESTART, update(FIRST, 5, None, 1), ("ADD", SECOND, 5, 1)],
        "an UPDATE over an open ADD": [*start, ("ADD", SECOND, 5, 7), update(third, 5, 107, 1)],
        "an UPDATE with a value before that leaves an ADD out": [*prepared, update(third, 5, 100, 1)],
        "an UNADD of another number": [*start, ("ADD", SECOND, 5, 7), ("ABORT", SECOND), ("UNADD", SECOND, None, 5, 6)],
        "an UNADD of a prepared one": [*prepared, ("UNADD", SECOND, None, 5, 7)],
        "an UNADD below an UPDATE": [*prepared, update(third, 5, 107, 1), ("ABORT", SECOND), ("UNADD", SECOND, None, 5, 7)],
        "a CLR of an ADD": [*start, ("ADD", SECOND, 5, 7), ("ABORT", SECOND), ("CLR", SECOND, None, 5, 100)],
        "a CLR below an ADD": [*under, ("ADD", SECOND, 5, 1), ("ABORT", FIRST), ("CLR", FIRST, None, 5, None)],
        "a COMMIT over an ADD without one": [*prepared, update(third, 5, 107, 1), ("COMMIT", third, ())],
        "a PREPARE that leaves an ADD out": [*prepared, update(third, 5, 107, 1), ("PREPARE", third, 0, ())],
    }
    for name, records in wrong.items():
        judge(checks, folder, name, [logs.log(0, [], [records])])
        checks.check(f"{name}: by logs.py", expected([logs.log(0, [], [records])])[0] is not None)
    right = {
        "ADDs beside each other": [*start, ("ADD", SECOND, 5, 7), ("ADD", third, 5, 8), ("COMMIT", third, ()), ("COMMIT", SECOND, ())],
        "an UNADD below an ADD": [*start, ("ADD", SECOND, 5, 7), ("ADD", third, 5, 8), ("ABORT", SECOND), ("UNADD", SECOND, None, 5, 7)],
        "an UPDATE over a listed ADD": [*prepared, update(third, 5, 107, 1), ("PREPARE", third, 0, (SECOND,))],
        "an UNADD without an ABORT": [*start, ("ADD", SECOND, 5, 7), ("UNADD", SECOND, None, 5, 7)],
        "an own UPDATE over an own ADD": [*start, ("ADD", SECOND, 5, 7), update(SECOND, 5, 107, 1), ("COMMIT", SECOND, ())],
    }
    for name, records in right.items():
        judge(checks, folder, name, [logs.log(0, [], [records])])
        checks.check(f"{name}: by logs.py", expected([logs.log(0, [], [records])])[0] is None)


def takes_back(checks, folder):
    """One that went back, and then committed; and records that only stand where something of its transaction stands."""
    once, twice = update(FIRST, 5, None, 1), update(FIRST, 5, 1, 2)
    back, first = ("CLR", FIRST, 1, 5, 1), ("CLR", FIRST, None, 5, None)
    right = {
        "a CLR without an ABORT": ([RESTART, once, twice, back, update(FIRST, 7, None, 3), ("COMMIT", FIRST, ())], "[5,1]\n[7,3]\n"),
        "a CLR without an ABORT, and a PREPARE": ([RESTART, once, twice, back, ("PREPARE", FIRST, 0, ()), ("COMMIT", FIRST, ())], "[5,1]\n"),
        "all of one is taken back": ([RESTART, once, first, update(SECOND, 5, None, 9), ("COMMIT", SECOND, ())], "[5,9]\n"),
        "a loser that went back": ([RESTART, once, twice, back], ""),
    }
    for name, (records, want) in right.items():
        files = [logs.log(0, [], [records])]
        judge(checks, folder, name, files)
        checks.check(f"{name}: by logs.py", expected(files)[0] is None and logs.shown(expected(files)[1]) == want, expected(files))
    wrong = {
        "a CLR of a committed one": [RESTART, once, ("COMMIT", FIRST, ()), first],
        "a CLR of a prepared one": [RESTART, once, ("PREPARE", FIRST, 0, ()), first],
        "a CLR of one's first UPDATE": [RESTART, once, twice, first],
        "a PREPARE of which nothing stands": [RESTART, once, first, ("PREPARE", FIRST, 0, ())],
        "a COMMIT of which nothing stands": [RESTART, once, first, ("COMMIT", FIRST, ())],
        "an ABORT of which nothing stands": [RESTART, once, first, ("ABORT", FIRST)],
    }
    for name, records in wrong.items():
        files = [logs.log(0, [], [records])]
        judge(checks, folder, name, files)
        checks.check(f"{name}: by logs.py", expected(files)[0] is not None)


def took_all_back_elsewhere(checks, folder):
    """Committed at home, where it has no part: on the other shard it took all back, or it didn't."""
    home, part = [RESTART, update(FIRST, 1, None, 7), ("COMMIT", FIRST, ())], [RESTART, update(FIRST, 11, None, 8)]
    for name, more, is_fine in (("all is taken back", [("CLR", FIRST, None, 11, None)], True), ("something stands", [], False)):
        files = [logs.log(0, [10], [home]), logs.log(1, [10], [[*part, *more]])]
        judge(checks, folder, f"{name} where it is no part", files)
        fault, pairs = expected(files)
        checks.check(f"{name} where it is no part: by logs.py", pairs == {1: 7} if is_fine else fault.status == 11, (fault, pairs))


def commits_what_its_home_committed(checks, folder):
    """In doubt here, and committed at home: the opening learns it, and writes COMMIT here and END there."""
    home = [RESTART, update(FIRST, 1, None, 7), ("PREPARE", FIRST, 0, ()), ("COMMIT", FIRST, (1,))]
    part = [RESTART, update(FIRST, 11, None, 8), ("PREPARE", FIRST, 0, ())]
    folder.put([logs.log(0, [10], [home]), logs.log(1, [10], [part])])
    got = folder.run("show")
    checks.check("in doubt, and committed at home: show", got.is_fine() and got.out == "[1,7]\n[11,8]\n", got)
    found = [it.records for it in logs.opened(folder.logs())[1]]
    want = [[*home, ("RESTART", 2, 0), ("END", FIRST)], [*part, ("RESTART", 2, 0), ("COMMIT", FIRST, ())]]
    checks.check("in doubt, and committed at home: records", found == want, found)


def refuses_counts(checks, folder):
    """Numbers that promise more than there is or may be."""
    head, begin = logs.header(0, []), logs.spell(RESTART) + logs.spell(update(FIRST, 5, None, 1))
    place = 33 + len(begin)
    listed = tuple((1, 1, it) for it in range(2, 1027))
    refused_at(checks, folder, "a PREPARE that lists 1025", head + logs.batch(begin + logs.spell(("PREPARE", FIRST, 0, listed))) + b"\0", place)
    for count in (16, 17, 0xFFFFFFFF):
        commit = b"\4" + logs.spell_transaction(FIRST) + struct.pack("<I", count) + bytes(256)
        refused_at(checks, folder, f"a COMMIT of {count} parts", head + logs.batch(begin + commit) + b"\0", place)
    for length in (0, logs.LONGEST_BATCH + 1, 1 << 31, 0xFFFFFFFF):
        bad = b"\1" + struct.pack("<I", length) + bytes(2048)
        refused_at(checks, folder, f"a batch of {length} bytes", head + bad, 29)
        refused_at(checks, folder, f"a second batch of {length} bytes", head + logs.batch(logs.spell(RESTART)) + bad, 47)
    for count in (0, 17, 0xFFFFFFFF):
        for version, magic in logs.MAGICS.items():
            front = magic + struct.pack("<III", version, 0, count)
            refused_at(checks, folder, f"a header of version {version}, of {count} shards", front + bytes(999), 16)


def reads_the_longest_batch(checks, folder):
    """A batch at its limit: cut in its last record, one byte too long, and whole."""
    most, head = logs.LONGEST_BATCH, logs.header(0, [])
    records, size = [RESTART], len(logs.spell(RESTART))
    commit = logs.spell(("COMMIT", FIRST, ()))
    while size + 35 + len(commit) <= most:
        records.append(update(FIRST, len(records), None, 1))
        size += 35
    body = b"".join(map(logs.spell, records))
    # One UPDATE more than has room: cut, it ends where its last record has no spelling.
    more = body + logs.spell(update(FIRST, len(records), None, 1)) * 2
    place = 33 + len(body) + 35 * ((most - len(body)) // 35)
    refused_at(checks, folder, "a batch that is cut in a record", head + logs.batch(more[:most]) + b"\0", place)
    refused_at(checks, folder, "a batch that is one byte too long", head + logs.batch(more[: most + 1]) + b"\0", 29)
    folder.put([head + logs.batch(body + commit) + b"\0"])
    got = folder.run("show")
    checks.check("a batch that is nearly full", got.is_fine() and got.out.count("\n") == len(records) - 1, got)


def chooses_a_side(checks, folder):
    """Of both files the one with the newer generation is the log; generations go round."""
    last, old = logs.LAST_GENERATION, [[RESTART]]
    new = [[RESTART], [update(FIRST, 5, None, 1), ("COMMIT", FIRST, ())]]
    generations = ((1, 2), (7, 9), (last - 1, last), (last, 1))
    for older, newer in generations:
        sides = logs.log(0, [], old, older), logs.log(0, [], new, newer)
        for name, files in (("second", sides), ("first", sides[::-1])):
            judge(checks, folder, f"generations {older} and {newer}, the {name} file", [files])
            checks.check(f"generations {older} and {newer}, the {name} file: by logs.py", expected([files])[1] == {5: 1})
    first, other = logs.log(0, [], new), logs.log(0, [], old, 2)
    rows = {
        "the second file alone": (b"", first),
        "a first file that isn't in use": (first[:27], first),
        "a second file that isn't in use": (first, b"\0" + other[1:]),
        "version 1, and whatever stands beside it": (logs.log(0, [], new, 0), other),
    }
    for name, files in rows.items():
        judge(checks, folder, name, [files])
        checks.check(f"{name}: by logs.py", expected([files])[1] == {5: 1})
    refused_at(checks, folder, "two files of one generation", (first, first), 0)
    refused_at(checks, folder, "a second file of version 1", (first, logs.log(0, [], old, 0)), 0)
    refused_at(checks, folder, "no file in use", (b"C", b"\0" * 99), 0)
    refused_at(checks, folder, "a second file of another shard", (first, logs.log(1, [], old, 2)), 12)
    refused_at(checks, folder, "a second file of more shards", (first, logs.log(0, [10], old, 2)), 16)
    refused_at(checks, folder, "no generation", logs.header(0, [])[:20] + bytes(9), 20)
    both = [logs.log(0, [10], old), (logs.log(1, [10], old), logs.log(1, [11], old, 2))]
    folder.put(both)
    got = folder.run("show")
    checks.check("other splits on a second file", got.is_refused(7, "shard 1: not a log at byte 20") and expected(both)[0].text == got.err[:-1], got)


def misses_a_file(checks, folder):
    folder.put([logs.header(0, list(range(1, 16))) + b"\0"])
    got = folder.run("show")
    checks.check("the log of shard 1 of 16 is missing", got.is_refused(7, "shard 1: not a log at byte 0"), got)


def rows(checks, program):
    for row in (undoes_doubt_over_a_loser, takes_sums_apart, takes_back, took_all_back_elsewhere, commits_what_its_home_committed, refuses_counts, reads_the_longest_batch, chooses_a_side, misses_a_file):
        with Folder(program) as folder:
            row(checks, folder)


# Each cut, and some changes of each byte.


def small_store(splits, generation):
    home = [[RESTART], [update(FIRST, 1, None, 1), ("PREPARE", FIRST, 0, ()), ("COMMIT", FIRST, (1,) if splits else ())]]
    part = [[RESTART], [update(FIRST, 11, None, 1), ("PREPARE", FIRST, 0, ())]]
    return [logs.log(0, splits, home, generation)] + [logs.log(1, splits, part, generation) for _ in splits]


def small_stores():
    """Of one shard, and of two with a transaction that is committed at home and in doubt on the other shard; of version 1; and on both files."""
    yield from (small_store(splits, generation) for splits in ([], [10]) for generation in (1, 0))
    old, new = logs.log(0, [], [[RESTART]], 1), *small_store([], 2)
    yield [(old, new)]
    yield [(new, old)]


def changes_of(data):
    """Each front of a file, and the file with one byte changed."""
    for size in range(len(data)):
        yield f"cut to {size}", data[:size]
    for place, byte in enumerate(data):
        for other in sorted({byte ^ 1, byte ^ 0x80, 0xFF, 0} - {byte}):
            yield f"with byte {place} {other}", data[:place] + bytes([other]) + data[place + 1 :]


def changes_of_files(files):
    """One of the files of a shard is changed."""
    if not isinstance(files, tuple):
        yield from changes_of(files)
        return
    for name, changed in changes_of(files[0]):
        yield f"first file {name}", (changed, files[1])
    for name, changed in changes_of(files[1]):
        yield f"second file {name}", (files[0], changed)


def sweeps(checks, program):
    with Folder(program) as folder:
        for number, files in enumerate(small_stores()):
            for shard, data in enumerate(files):
                for name, changed in changes_of_files(data):
                    image = [changed if it == shard else other for it, other in enumerate(files)]
                    judge(checks, folder, f"store {number}, shard {shard} {name}", image)


# Bytes at random.


def some_bytes(numbers, most):
    return bytes(numbers.randrange(256) for _ in range(numbers.randrange(1, most)))


def flips(numbers, data):
    changed = bytearray(data)
    for _ in range(numbers.randrange(1, 4)):
        place = numbers.randrange(len(data))
        changed[place] = numbers.choice((0, 1, 255, data[place] ^ (1 << numbers.randrange(8)), numbers.randrange(256)))
    return bytes(changed)


def cuts(numbers, data):
    return data[: numbers.randrange(len(data) + 1)]


def puts_in(numbers, data):
    place = numbers.randrange(len(data) + 1)
    return data[:place] + some_bytes(numbers, 9) + data[place:]


def leaves_out(numbers, data):
    place = numbers.randrange(len(data))
    return data[:place] + data[place + numbers.randrange(1, 9) :]


def promises(numbers, data):
    """A number of four bytes somewhere behind the shards, too great or too small."""
    place = numbers.randrange(min(20, len(data)), len(data) + 1)
    return data[:place] + struct.pack("<I", numbers.choice((0, 1, 1048576, 1048577, 0x7FFFFFFF, 0xFFFFFFFF))) + data[place + 4 :]


def doubles(numbers, data):
    low, high = sorted(numbers.randrange(len(data) + 1) for _ in range(2))
    place = numbers.randrange(len(data) + 1)
    return data[:place] + data[low:high] + data[place:]


def adds(numbers, data):
    return data + some_bytes(numbers, 99)


def closes_a_gate(_numbers, data):
    """The log as a crash would leave it that took the last batch with it."""
    gate = data.rfind(b"\1", 0, max(len(data) - 5, 0))
    return data[:gate] + b"\0" + data[gate + 1 :] if gate >= 20 else data


CHANGES = (flips, flips, flips, cuts, puts_in, leaves_out, promises, doubles, adds, closes_a_gate)


def change_one(numbers, change, files):
    """One of the files of a shard is changed, if it has bytes."""
    sides = list(sides_of(files))
    side = numbers.randrange(2) if sides[1] else 0
    sides[side] = change(numbers, sides[side]) if sides[side] else sides[side]
    return tuple(sides)


def beside(numbers, files, other):
    """Something stands on the second file: what isn't in use, another store's log, or this one's, with whatever stands there for a generation."""
    log, place = sides_of(files)[0], numbers.randrange(16, 60)
    newer = log[:place] + struct.pack("<Q", numbers.choice((1, 2, logs.LAST_GENERATION))) + log[place + 8 :]
    return log, numbers.choice((b"", some_bytes(numbers, 99), sides_of(other)[0], newer, newer))


def change_files(numbers, files, others):
    """One file changed, two exchanged, one taken from another store, or a second file beside a first one."""
    files, shard = list(files), numbers.randrange(len(files))
    how = numbers.randrange(len(CHANGES) + 5)
    if how < len(CHANGES):
        files[shard] = change_one(numbers, CHANGES[how], files[shard])
    elif how == len(CHANGES):
        other = numbers.randrange(len(files))
        files[shard], files[other] = files[other], files[shard]
    elif how == len(CHANGES) + 1:
        files[shard] = others[shard]
    elif how == len(CHANGES) + 2:
        head = 20 + 8 * len(files)
        files[shard] = sides_of(files[shard - 1])[0][:head] + sides_of(files[shard])[0][head:]
    else:
        files[shard] = beside(numbers, files[shard], others[shard])
    return files


# Records at random.


def record_at(numbers, facts, shards, names, keys):
    """A record that may be allowed next."""
    name, key, run = numbers.choice(names), numbers.choice(keys), facts.restarts[-1][0]
    mine = facts.open.get(name, [])
    last, undo_next = facts.records[mine[-1]] if mine else None, mine[-2] if len(mine) > 1 else None
    below = facts.below(name)
    undecided = sorted(it for it in facts.prepared if it != name and not facts.is_decided(it))
    listed = tuple(it for it in undecided if it in below or numbers.random() < 0.2)
    parts = tuple(it for it in range(shards) if it != facts.shard and numbers.random() < 0.6)
    latest = (run, *name[1:])
    kinds = [
        update(latest, key, facts.value(key), numbers.choice((None, 1, 2, 3))),
        update(latest, key, facts.value(key), numbers.choice((4, 5, 6))),
        ("PREPARE", name, numbers.randrange(shards), listed),
        ("PREPARE", latest, numbers.randrange(shards), listed),
        ("COMMIT", name, ()),
        ("COMMIT", name, parts),
        ("ABORT", name),
        ("END", name),
        ("CLR", name, undo_next, last[2] if last else key, last[3] if last and last[0] == "UPDATE" else None),
        ("UNADD", name, undo_next, last[2] if last else key, last[3] if last and last[0] == "ADD" else 0),
        ("ADD", latest, key, numbers.choice((1, 2, logs.BEYOND - 1))),
        ("ADD", latest, key, numbers.choice((1, 2, logs.BEYOND - 1))),
        ("RESTART", run + numbers.randrange(2), numbers.randrange(3)),
    ]
    return numbers.choice(kinds)


def records_at(numbers, shard, shards, keys):
    """Records that keep the order rules: at each place one of those that are allowed there."""
    facts = logs.Facts(shard, [RESTART])
    names = [(1, session, serial) for session in (1, 2, 3) for serial in (1, 2)]
    for _ in range(numbers.randrange(40)):
        record = record_at(numbers, facts, shards, names, keys)
        if facts.allows(record):
            facts.add(record)
    return facts.records


def change_field(numbers, record):
    """The record with one field changed."""
    fields, place = list(record), numbers.randrange(1, len(record))
    if not isinstance(fields[place], tuple):
        fields[place] = 1 if fields[place] is None else numbers.choice((1, 2, 5) if record[0] == "RESTART" else (0, 1, 2, 5))
    elif place == 1:
        name = list(fields[1])
        name[numbers.randrange(3)] = numbers.choice((1, 2, 3))
        fields[1] = tuple(name)
    else:
        more = [FIRST, SECOND] if record[0] == "PREPARE" else [0, 1, 2]
        fields[place] = (numbers.choice([*fields[place], *more]),)
    return tuple(fields)


def change_records(numbers, records):
    """One record left out, doubled, moved, or with a field changed."""
    changed = list(records)
    place, how = numbers.randrange(len(records)), numbers.randrange(5)
    if how == 0:
        del changed[place]
    elif how == 1:
        changed.insert(numbers.randrange(len(changed) + 1), changed[place])
    elif how == 2:
        changed.insert(numbers.randrange(len(changed)), changed.pop(place))
    else:
        changed[place] = change_field(numbers, changed[place])
    return changed


def batches_at(numbers, records):
    found = []
    while records:
        size = numbers.randrange(1, len(records) + 1)
        found.append(records[:size])
        records = records[size:]
    return found


# Cases at random.


def script_at(numbers, keys):
    lines = []
    for _ in range(numbers.randrange(1, 4)):
        lines.append("session")
        for _ in range(numbers.randrange(1, 5)):
            lines.append("begin")
            mine = []
            for _ in range(numbers.randrange(1, 6)):
                key = numbers.choice(keys)
                put = f"put {key} {numbers.randrange(9)}"
                add = f"add {key} {numbers.randrange(9)}"
                mine.append(numbers.choice((put, put, add, add, f"del {key}", f"get {key}", f"scan {min(keys)} {max(keys)}")))
            lines += reports.with_savepoints(numbers, mine)
            lines.append(numbers.choice(("commit", "commit", "commit", "abort")))
    return reports.script_of(lines)


def left_by_runs(numbers, program, splits, keys):
    """The logs that some runs leave."""
    with Folder(program) as folder:
        folder.run("make", *map(str, splits))
        for _ in range(numbers.randrange(1, 4)):
            folder.run("run", script=script_at(numbers, keys))
        return folder.logs()


def damaged_runs(numbers, program, splits, keys):
    """Logs that runs left, and these with one change and more."""
    files = left_by_runs(numbers, program, splits, keys)
    others = left_by_runs(numbers, program, splits, keys)
    yield files
    for _ in range(IMAGES - 1):
        changed = change_files(numbers, files, others)
        while numbers.random() < 0.3 and all(changed):
            changed = change_files(numbers, changed, others)
        yield changed


def on_a_side(numbers, shard, splits, batches):
    """The files of a shard with this log: of version 1, or of version 2 on either file, beside one that is older or isn't in use."""
    generation = numbers.choice((0, 1, 2, logs.LAST_GENERATION))
    log = logs.log(shard, splits, batches, generation)
    if generation == 0:
        return log, numbers.choice((b"", some_bytes(numbers, 99), logs.log(shard, splits, [], 3)))
    older = logs.LAST_GENERATION if generation == 1 else generation - 1
    unused = b"", b"\0" + log[1:], log[:27]
    sides = [log, numbers.choice((*unused, logs.log(shard, splits, batches[:1], older)))]
    return tuple(sides if numbers.randrange(2) else sides[::-1])


def records_in_order(numbers, splits, keys):
    """Logs of records at random; one record in four logs is changed."""
    shards = len(splits) + 1
    for _ in range(IMAGES):
        files = []
        for shard in range(shards):
            own = [it for it in keys if it in logs.span(shard, splits)]
            records = records_at(numbers, shard, shards, own)
            if numbers.random() < 0.25:
                records = change_records(numbers, records)
            files.append(on_a_side(numbers, shard, splits, batches_at(numbers, records)))
        yield files


def at_random(checks, case, numbers, program, found):
    splits = sorted(numbers.sample(range(1, 40), numbers.randrange(4)))
    keys = sorted({0, 3, 7, *splits, *(split + 1 for split in splits)})
    is_by_runs = numbers.randrange(2)
    images = damaged_runs(numbers, program, splits, keys) if is_by_runs else records_in_order(numbers, splits, keys)
    with Folder(program) as folder:
        for number, files in enumerate(images):
            fault, _ = expected(files)
            status = fault.status if fault else 0
            found[status] = found.get(status, 0) + 1
            judge(checks, folder, f"case {case}, image {number}", files, case)


def main():
    told = arguments(__doc__, count=100, rows=1)
    checks, found = Checks(told), {}
    if told.rows and told.only is None:
        rows(checks, told.program)
        sweeps(checks, told.program)
    for case, numbers in cases(told):
        at_random(checks, case, numbers, told.program, found)
    print("at random, by status:", ", ".join(f"{status}: {found[status]}" for status in sorted(found)))
    checks.end()


if __name__ == "__main__":
    main()
