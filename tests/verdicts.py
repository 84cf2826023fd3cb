"""What `audit` answers: a report that is read back, with the pairs that were shown before its run, and judged by the map that logs stand for.

Written from docs/COMMANDS.md; it shares no code with the program, and tests compare the program with it.
"""

import json
import re

import logs
import reports

MOST_BYTES = 16777216
MOST_SESSIONS = 64
LONGEST_TEXT = 200
DIGITS = re.compile("[0-9a-f]*")


class Fault(Exception):
    """No report: the first line, counted from 1, after which none goes on; 0 where there are too many bytes."""

    def __init__(self, line):
        super().__init__(f"script line {line}")
        self.line = line


# One line. JSON's true is a number in Python: so types are asked for.


def is_word(it):
    return type(it) is int and 0 <= it < reports.BEYOND


def is_text(it):
    return type(it) is str and len(it) % 2 == 0 and len(it) <= 2 * LONGEST_TEXT and DIGITS.fullmatch(it) is not None


def is_value(it):
    return is_word(it) or is_text(it)


def is_answer(it):
    return it is None or is_value(it)


def is_truth(it):
    return type(it) is bool


def is_pair(it):
    return type(it) is list and len(it) == 2 and is_word(it[0]) and is_value(it[1])


def are_pairs(it):
    return type(it) is list and all(map(is_pair, it))


# The fields of each operation behind its word.
OPERATIONS = {
    "get": (is_word, is_answer),
    "put": (is_word, is_value, is_answer),
    "del": (is_word, is_answer),
    "add": (is_word, is_word, is_truth),
    "scan": (is_word, is_word, are_pairs),
    "back": (is_word,),
}


def is_operation(it):
    if type(it) is not list or not it or type(it[0]) is not str:
        return False
    word, *fields = it
    tests = OPERATIONS.get(word, ())
    is_right = bool(tests) and len(tests) == len(fields) and all(test(field) for test, field in zip(tests, fields))
    return is_right and (word != "scan" or fields[0] <= fields[1])


def go_back_rightly(operations):
    """Whether each going back leads to a number of operations at which a savepoint may stand: one that none before it went behind."""
    numbers = [0]
    for number, operation in enumerate(operations, 1):
        if operation[0] == "back":
            if operation[1] not in numbers:
                return False
            numbers = [it for it in numbers if it <= operation[1]]
        numbers.append(number)
    return True


def is_transaction(it):
    if type(it) is not dict or list(it) != ["ops", "serial", "session"]:
        return False
    operations, serial, session = it.values()
    is_named = is_word(serial) and serial > 0 and is_word(session) and 0 < session <= MOST_SESSIONS
    is_done = type(operations) is list and bool(operations) and all(map(is_operation, operations))
    return is_named and is_done and go_back_rightly(operations)


def are_counts(it):
    return type(it) is dict and list(it) == ["aborted", "acknowledged", "unsettled"] and all(map(is_word, it.values()))


def told_by(line):
    """What a line with its line feed tells, if it is spelled as what tells it is; else None."""
    try:
        told = json.loads(line.decode("ascii"))
    except (ValueError, RecursionError):
        return None
    return told if line.decode() == json.dumps(told, separators=(",", ":")) + "\n" else None


# All of them.


def read(source):
    """The pairs, the transactions, and how many are unsettled. Raises Fault where the bytes are no report."""
    if len(source) > MOST_BYTES:
        raise Fault(0)
    lines = re.findall(rb"[^\n]*\n|[^\n]+", source)
    pairs, transactions = {}, []
    for number, line in enumerate(lines, 1):
        told = told_by(line)
        if is_pair(told) and not transactions and told[0] > next(reversed(pairs), -1):
            pairs[told[0]] = told[1]
        elif is_transaction(told):
            transactions.append(told)
        elif are_counts(told) and told["acknowledged"] == len(transactions):
            if number < len(lines):
                raise Fault(number + 1)
            return pairs, transactions, told["unsettled"]
        else:
            raise Fault(number)
    raise Fault(len(lines) + 1)


def followed(operations, pairs):
    """The map after operations, one behind the other from these pairs; None where one of them has another answer there."""
    maps = [dict(pairs)]
    for operation in operations:
        word, *fields = operation
        if word == "back":
            after = dict(maps[fields[0]])
        else:
            after = dict(maps[-1])
            if reports.operate(after, word, *fields[:-1]) != [operation]:
                return None
        maps.append(after)
    return maps[-1]


def verdict(pairs, transactions, unsettled, left):
    """The status and the line of the verdict on what a report tells, where the logs stand for this map."""
    serials = {}
    for place, transaction in enumerate(transactions, 1):
        operations, serial, session = transaction.values()
        pairs = followed(operations, pairs) if serial > serials.get(session, 0) else None
        if pairs is None:
            return 12, f"no: transaction {place}\n"
        serials[session] = serial
    if unsettled:
        return 13, f"unsettled {unsettled}\n"
    differing = [key for key in pairs.keys() | left.keys() if pairs.get(key) != left.get(key)]
    if differing:
        return 12, f"no: key {min(differing)}\n"
    return 0, f"yes {len(transactions)}\n"


def answer(source, files):
    """What `audit` answers to these bytes over these logs: the status, the output, and standard error."""
    try:
        status, line = verdict(*read(source), logs.stands(logs.read_all(files)[1]))
    except Fault as fault:
        return 3, "", f"script line {fault.line}\n"
    except logs.Fault as fault:
        return fault.status, "", f"{fault.text}\n"
    return status, line, line if status else ""


def judges(checks, folder, name, source, case=None):
    """One audit: it answers as this says, and no file changes; one that was missing may be there, without bytes."""
    files = folder.logs()
    got = folder.run("audit", script=source)
    want = answer(source, files)
    checks.check(name, (got.status, got.out, got.err) == want, (got, want), source[:2000], case)
    found = folder.logs()
    checks.check(f"{name}: logs", found[: len(files)] == files and not any(found[len(files) :]), "they changed", source[:2000], case)
    return got
