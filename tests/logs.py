"""Logs as bytes: a writer, a reader that finds the first fault of form, of order and of agreement, and what logs stand for.

Written from docs/FORMAT.md and the rules of logs in docs/PROTOCOL.md, it shares no code with the program; tests compare the program with it.
A record is a tuple of its kind and its fields, as docs/FORMAT.md has them, with None for none; a transaction is (run, session, serial).
A shard's files are the bytes of both, or those of the first one alone, where the second one is empty or missing.
"""

import json
import struct

BEYOND = 1 << 64
LONGEST_BATCH = 1048576
LONGEST_TEXT = 200
MOST_SHARDS, MOST_PARTS, MOST_PREDECESSORS, MOST_SESSIONS = 16, 15, 1024, 64
LAST_RUN = (1 << 32) - 1
NO_UNDO = BEYOND - 1
LAST_GENERATION = BEYOND - 1
MAGICS = {1: b"CLVLOG01", 2: b"CLVLOG02"}
KINDS = ("UPDATE", "CLR", "PREPARE", "COMMIT", "ABORT", "END", "RESTART", "ADD", "UNADD")


class Fault(Exception):
    """A refusal of logs: the program's status, and its text on standard error."""

    def __init__(self, status, text):
        super().__init__(text)
        self.status, self.text = status, text


def at_byte(shard, place):
    return Fault(7, f"shard {shard}: not a log at byte {place}")


def at_record(shard, lsn):
    return Fault(7, f"shard {shard}: not a log at record {lsn}")


# How logs are written.


def spell_transaction(transaction):
    return struct.pack("<IIQ", *transaction)


def spell_value(value):
    """None, a number, or a text as bytes."""
    if isinstance(value, bytes):
        return bytes([2, len(value)]) + value
    return b"\0" if value is None else b"\1" + struct.pack("<Q", value)


def spell_fields(kind, fields):
    """The bytes behind the kind and, but for a RESTART, the transaction."""
    if kind == "UPDATE":
        key, before, after = fields
        return struct.pack("<Q", key) + spell_value(before) + spell_value(after)
    if kind == "CLR":
        undo_next, key, after = fields
        return struct.pack("<QQ", NO_UNDO if undo_next is None else undo_next, key) + spell_value(after)
    if kind == "ADD":
        return struct.pack("<QQ", *fields)
    if kind == "UNADD":
        undo_next, key, by = fields
        return struct.pack("<QQQ", NO_UNDO if undo_next is None else undo_next, key, by)
    if kind == "PREPARE":
        home, predecessors = fields
        return struct.pack("<II", home, len(predecessors)) + b"".join(map(spell_transaction, predecessors))
    if kind == "COMMIT":
        (parts,) = fields
        return struct.pack(f"<{1 + len(parts)}I", len(parts), *parts)
    return b""


def spell(record):
    kind = record[0]
    byte = bytes([1 + KINDS.index(kind)])
    if kind == "RESTART":
        return byte + struct.pack("<IQ", *record[1:])
    return byte + spell_transaction(record[1]) + spell_fields(kind, record[2:])


def header(shard, splits, generation=1):
    """Generation 0 stands for version 1, which has none."""
    version = 2 if generation else 1
    fields = MAGICS[version] + struct.pack(f"<III{len(splits)}Q", version, shard, len(splits) + 1, *splits)
    return fields + struct.pack("<Q", generation) if generation else fields


def batch(payload):
    """An open gate, and a batch of these bytes."""
    return b"\1" + struct.pack("<I", len(payload)) + payload


def log(shard, splits, batches, generation=1):
    """The bytes of a log with these batches of records."""
    return header(shard, splits, generation) + b"".join(batch(b"".join(map(spell, records))) for records in batches) + b"\0"


# How they are read.


class Cursor:
    """Reads fields one behind the other. ValueError: no spelling begins here."""

    def __init__(self, data, place, end):
        self.data, self.place, self.end = data, place, end

    def number(self, size):
        if self.end - self.place < size:
            raise ValueError
        found = int.from_bytes(self.data[self.place : self.place + size], "little")
        self.place += size
        return found

    def transaction(self):
        run, session, serial = self.number(4), self.number(4), self.number(8)
        if run == 0 or not 1 <= session <= MOST_SESSIONS or serial == 0:
            raise ValueError
        return run, session, serial

    def value(self):
        kind = self.number(1)
        if kind == 2:
            return self.text(self.number(1))
        if kind > 1:
            raise ValueError
        return self.number(8) if kind else None

    def text(self, size):
        if size > LONGEST_TEXT or self.end - self.place < size:
            raise ValueError
        found = self.data[self.place : self.place + size]
        self.place += size
        return bytes(found)

    def shard(self):
        found = self.number(4)
        if found >= MOST_SHARDS:
            raise ValueError
        return found

    def rising(self, most, read):
        """A count, and so many items that rise."""
        count = self.number(4)
        if count > most:
            raise ValueError
        items = [read() for _ in range(count)]
        if any(low >= high for low, high in zip(items, items[1:])):
            raise ValueError
        return tuple(items)

    def record(self):
        kind = self.number(1)
        if not 1 <= kind <= len(KINDS):
            raise ValueError
        kind = KINDS[kind - 1]
        if kind == "RESTART":
            run, epoch = self.number(4), self.number(8)
            if run == 0:
                raise ValueError
            return kind, run, epoch
        return (kind, self.transaction(), *self.fields(kind))

    def fields(self, kind):
        if kind == "UPDATE":
            return self.number(8), self.value(), self.value()
        if kind in ("CLR", "UNADD"):
            undo_next = self.number(8)
            rest = self.number(8), self.value() if kind == "CLR" else self.number(8)
            return (None if undo_next == NO_UNDO else undo_next, *rest)
        if kind == "ADD":
            return self.number(8), self.number(8)
        if kind == "PREPARE":
            return self.shard(), self.rising(MOST_PREDECESSORS, self.transaction)
        if kind == "COMMIT":
            return (self.rising(MOST_PARTS, self.shard),)
        return ()


def span(shard, splits):
    """The keys of a shard."""
    low = splits[shard - 1] if shard else 0
    high = splits[shard] if shard < len(splits) else BEYOND
    return range(low, high)


def key_of(record):
    return {"UPDATE": record[2:3], "ADD": record[2:3], "CLR": record[3:4], "UNADD": record[3:4]}.get(record[0], ())


def shards_of(record):
    return {"PREPARE": record[2:3], "COMMIT": record[2] if record[0] == "COMMIT" else ()}.get(record[0], ())


def written(pairs, record):
    """Pairs become those after an UPDATE or ADD; other records leave them."""
    if record[0] == "UPDATE":
        pairs[record[2]] = record[4]
    elif record[0] == "ADD":
        pairs[record[2]] = (pairs[record[2]] + record[3]) % BEYOND


def number_at(data, shard, place, size):
    if len(data) < place + size:
        raise at_byte(shard, place)
    return int.from_bytes(data[place : place + size], "little")


def read_header(data, version, shard, agreed):
    """The splits in the header, and the generation, 0 in version 1. `agreed` are the splits of shard 0; None for shard 0 itself."""
    for place, want in ((0, MAGICS[version]), (8, struct.pack("<I", version)), (12, struct.pack("<I", shard))):
        if data[place : place + len(want)] != want:
            raise at_byte(shard, place)
    count = number_at(data, shard, 16, 4)
    if not 1 <= count <= MOST_SHARDS or (agreed is not None and count != len(agreed) + 1):
        raise at_byte(shard, 16)
    splits = []
    for number in range(count - 1):
        place = 20 + 8 * number
        split = number_at(data, shard, place, 8)
        if (splits and split <= splits[-1]) or (agreed is not None and split != agreed[number]):
            raise at_byte(shard, place)
        splits.append(split)
    if version == 1:
        return splits, 0
    generation = number_at(data, shard, 20 + 8 * len(splits), 8)
    if generation == 0:
        raise at_byte(shard, 20 + 8 * len(splits))
    return splits, generation


def is_in_use(side):
    return side[:1] == b"C" and len(side) >= 28


def is_newer(one, other):
    """Generations go round: behind the greatest comes 1."""
    ends = {1, LAST_GENERATION}
    return one < other if {one, other} == ends else one > other


def chosen(sides, shard, agreed):
    """Of both files the one that is the log, its splits, and where its header ends. Version 1 stands in the first file, whatever the second one holds."""
    if sides[0][:8] == MAGICS[1]:
        splits, _ = read_header(sides[0], 1, shard, agreed)
        return sides[0], splits, 20 + 8 * len(splits)
    found = []
    for side in filter(is_in_use, sides):
        found.append((side, *read_header(side, 2, shard, found[0][1] if found else agreed)))
    generations = [it[2] for it in found]
    if len(set(generations)) != len(found) or not found:
        raise at_byte(shard, 0)
    newer = 1 if len(found) == 2 and is_newer(generations[1], generations[0]) else 0
    side, splits, _ = found[newer]
    return side, splits, 28 + 8 * len(splits)


def read_batch(data, shard, splits, place, end):
    """The records of a batch from place to end."""
    keys, cursor, records = span(shard, splits), Cursor(data, place, end), []
    while cursor.place < end:
        begin = cursor.place
        try:
            record = cursor.record()
            is_here = all(key in keys for key in key_of(record)) and all(it <= len(splits) for it in shards_of(record))
        except ValueError:
            is_here = False
        if not is_here:
            raise at_byte(shard, begin)
        records.append(record)
    return records


def read_log(files, shard, agreed):
    """The splits and the batches of records of a shard's files. `agreed` are the splits of shard 0; None for shard 0 itself."""
    data, splits, place = chosen(files if isinstance(files, tuple) else (files, b""), shard, agreed)
    batches = []
    while number_at(data, shard, place, 1) == 1:
        length = number_at(data, shard, place + 1, 4)
        end = place + 5 + length
        if not 1 <= length <= LONGEST_BATCH or len(data) < end:
            raise at_byte(shard, place + 1)
        batches.append(read_batch(data, shard, splits, place + 5, end))
        place = end
    return splits, batches


# What records may follow each other, and what they say.


class Facts:
    """What a log says, record by record. Raises the fault of the first record that may not follow those before it."""

    def __init__(self, shard, records):
        self.shard, self.records = shard, []
        self.named = {}  # transaction: the kinds of its records
        self.wrote = {}  # transaction: the LSNs of all its UPDATEs and ADDs
        self.open = {}  # transaction: those of them that stand
        self.keys = {}  # key: the LSNs of its UPDATEs and ADDs that stand
        self.prepared, self.committed, self.aborted, self.ended = {}, {}, set(), set()
        self.restarts, self.last_restart = [], None
        for lsn, record in enumerate(records):
            if not self.allows(record):
                raise at_record(shard, lsn)
            self.add(record)

    def writer(self, lsn):
        return self.records[lsn][1]

    def value(self, key):
        """The fold of the key's records that stand."""
        pairs = {}
        for lsn in self.keys.get(key, ()):
            written(pairs, self.records[lsn])
        return pairs.get(key)

    def sets(self, lsn):
        return self.records[lsn][0] == "UPDATE"

    def is_in_doubt(self, transaction):
        """Prepared for another home, neither committed nor aborted; and each that it lists is so too, or committed."""
        seen, todo = {transaction}, [transaction]
        while todo:
            one = todo.pop()
            if one not in self.prepared or one in self.committed or one in self.aborted or self.prepared[one][0] == self.shard:
                return False
            more = {it for it in self.prepared[one][1] if it not in self.committed} - seen
            seen |= more
            todo += more
        return True

    def below(self, transaction):
        """The other transactions with a standing UPDATE or ADD below one of its own. An ADD doesn't lie below an ADD."""
        found = set()
        for lsn in self.open.get(transaction, ()):
            earlier = [it for it in self.keys[self.records[lsn][2]] if it < lsn]
            found |= {self.writer(it) for it in earlier if self.sets(it) or self.sets(lsn)}
        return found - {transaction}

    def losers(self):
        """The transactions that an opening undoes, rising."""
        return sorted(it for it in self.open if self.open[it] and it not in self.committed and not self.is_in_doubt(it))

    def standing(self):
        """The UPDATEs and ADDs that stand, in order."""
        return [self.records[it] for it in sorted(lsn for lsns in self.open.values() for lsn in lsns)]

    def is_decided(self, transaction):
        return transaction in self.committed or transaction in self.aborted

    def may_undo(self, transaction):
        """What was written is taken back where its transaction was aborted, or went back before it was prepared or committed."""
        return transaction in self.aborted or not (transaction in self.prepared or transaction in self.committed)

    def is_taken_back(self, transaction):
        """Whether of its records here there are none but of writes, all of them taken back."""
        return not self.open.get(transaction) and self.named.get(transaction, set()) <= {"UPDATE", "ADD", "CLR", "UNADD"}

    def allows(self, record):
        kind = record[0]
        if kind == "RESTART":
            return all(earlier < record[1:] for earlier in self.restarts) and not self.losers()
        if not self.restarts:
            return False
        rule = {"UPDATE": self.allows_update, "CLR": self.allows_clr, "PREPARE": self.allows_prepare}
        rule |= {"ADD": self.allows_add, "UNADD": self.allows_unadd}
        rule |= {"COMMIT": self.allows_commit, "ABORT": self.allows_abort, "END": self.allows_end}
        return rule[kind](*record[1:])

    def may_write(self, transaction):
        wrote = self.wrote.get(transaction)
        is_new = transaction[0] == self.restarts[-1][0] and not self.is_decided(transaction) and transaction not in self.prepared
        return is_new and not (wrote and wrote[0] < self.last_restart)

    def may_cover(self, transaction, lsns):
        """Whether those who wrote these are the transaction itself, or have a PREPARE or COMMIT and no ABORT."""
        others = {self.writer(it) for it in lsns} - {transaction}
        return all((it in self.prepared or it in self.committed) and it not in self.aborted for it in others)

    def allows_update(self, transaction, key, before, after):
        if not self.may_write(transaction) or before != self.value(key) or before is None is after:
            return False
        return self.may_cover(transaction, self.keys.get(key, ()))

    def allows_add(self, transaction, key, _by):
        if not self.may_write(transaction) or not isinstance(self.value(key), int):
            return False
        return self.may_cover(transaction, filter(self.sets, self.keys.get(key, ())))

    def undone_by(self, transaction, kind):
        """The last record of a transaction that stands, with what is undone next; None where it is of another kind, or may not be undone."""
        mine = self.open.get(transaction, [])
        if not self.may_undo(transaction) or not mine or self.records[mine[-1]][0] != kind:
            return None
        return mine[-1], mine[-2] if len(mine) > 1 else None

    def allows_clr(self, transaction, undo_next, key, after):
        found = self.undone_by(transaction, "UPDATE")
        if found is None:
            return False
        undone = self.records[found[0]]
        return self.keys[undone[2]][-1] == found[0] and (undo_next, key, after) == (found[1], undone[2], undone[3])

    def allows_unadd(self, transaction, undo_next, key, by):
        found = self.undone_by(transaction, "ADD")
        if found is None:
            return False
        undone = self.records[found[0]]
        is_under = any(it > found[0] and self.sets(it) for it in self.keys[undone[2]])
        return not is_under and (undo_next, key, by) == (found[1], undone[2], undone[3])

    def allows_prepare(self, transaction, _home, predecessors):
        mine = self.open.get(transaction)
        if self.is_decided(transaction) or transaction in self.prepared or not mine or mine[-1] < self.last_restart:
            return False
        if any(it == transaction or it not in self.prepared or self.is_decided(it) for it in predecessors):
            return False
        return all(it in self.committed or it in predecessors for it in self.below(transaction))

    def allows_commit(self, transaction, parts):
        home, predecessors = self.prepared.get(transaction, (self.shard, ()))
        if self.is_decided(transaction) or self.shard in parts or (home != self.shard and parts):
            return False
        if transaction not in self.prepared and transaction[0] != self.restarts[-1][0]:
            return False
        is_after = all(it in self.committed for it in (*predecessors, *self.below(transaction)))
        return is_after and bool(self.open.get(transaction) or parts)

    def allows_abort(self, transaction):
        return bool(self.open.get(transaction)) and not self.is_decided(transaction)

    def allows_end(self, transaction):
        return bool(self.committed.get(transaction)) and transaction not in self.ended

    def add(self, record):
        kind, lsn = record[0], len(self.records)
        self.records.append(record)
        if kind == "RESTART":
            self.restarts.append(record[1:])
            self.last_restart = lsn
            return
        transaction = record[1]
        self.named.setdefault(transaction, set()).add(kind)
        if kind in ("UPDATE", "ADD"):
            for lists, name in ((self.wrote, transaction), (self.open, transaction), (self.keys, record[2])):
                lists.setdefault(name, []).append(lsn)
        elif kind in ("CLR", "UNADD"):
            undone = self.open[transaction].pop()
            self.keys[self.records[undone][2]].remove(undone)
        elif kind == "PREPARE":
            self.prepared[transaction] = record[2:]
        elif kind == "COMMIT":
            self.committed[transaction] = record[2]
        else:
            (self.aborted if kind == "ABORT" else self.ended).add(transaction)


# What all logs say together.


def is_part(part, transaction, home, has_ended):
    """Whether a log is as that of a part of a committed transaction has to be."""
    if part.prepared.get(transaction, (None,))[0] != home or transaction in part.aborted:
        return False
    if any(it not in part.committed for it in part.prepared[transaction][1]):
        return False
    return not has_ended or transaction in part.committed


def is_home(logs, transaction, home):
    """Whether this shard can be the home of a committed transaction."""
    own = logs[home]
    if transaction not in own.committed or own.prepared.get(transaction, (home,))[0] != home:
        return False
    parts, has_ended = own.committed[transaction], transaction in own.ended
    for shard, other in enumerate(logs):
        if shard in parts:
            if not is_part(other, transaction, home, has_ended):
                return False
        elif shard != home and not other.is_taken_back(transaction):
            return False
    return True


def read_all(files):
    """The splits, and what each file's log says, judged as by one who only reads: file by file, then all together. None is a missing file."""
    splits, logs = None, []
    while splits is None or len(logs) <= len(splits):
        shard = len(logs)
        data = (files[shard] if shard < len(files) else None) or b""
        splits, batches = read_log(data, shard, splits)
        logs.append(Facts(shard, [record for records in batches for record in records]))
    for transaction in sorted({it for facts in logs for it in facts.committed}):
        if not any(is_home(logs, transaction, home) for home in range(len(logs))):
            raise Fault(11, "transaction {}.{}.{}: logs apart".format(*transaction))
    return splits, logs


def opened(files):
    """The same, judged as an opening does, which needs a run, too."""
    splits, logs = read_all(files)
    if last_run(logs) == LAST_RUN:
        raise Fault(9, f"worn at {LAST_RUN + 1}")
    return splits, logs


def last_run(logs):
    """The greatest run that the logs have seen; 0 where they have seen none."""
    return max([run for facts in logs for run, _ in facts.restarts], default=0)


def told(value):
    """A value as reports tell it: a text as its digits."""
    return value.hex() if isinstance(value, bytes) else value


def stands(logs):
    """The map that logs stand for: what the committed transactions wrote, and what stands of it."""
    done, pairs = {it for facts in logs for it in facts.committed}, {}
    for facts in logs:
        for record in facts.standing():
            if record[1] in done:
                written(pairs, record)
    return {key: told(value) for key, value in pairs.items() if value is not None}


def map_of(files):
    return stands(opened(files)[1])


def shown(pairs):
    """What `show` writes of a map."""
    return "".join(f"[{key},{json.dumps(pairs[key])}]\n" for key in sorted(pairs))
