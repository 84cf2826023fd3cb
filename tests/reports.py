"""Scripts and reports: what one serial run of a script's transactions answers, and whether a report is that of such a run."""

import itertools
import json

BEYOND = 1 << 64


class Wrong(Exception):
    """A report that no serial run of the script gives."""


class Transaction:
    """A transaction of a script: its lines as lists of a word and numbers, and whether it ends by `commit`. A text is a string of its digits."""

    def __init__(self):
        self.lines, self.commits = [], False

    def operates(self):
        """Whether it has an operation, and not savepoints alone."""
        return any(it[0] not in ("save", "back") for it in self.lines)


def sessions_of(script):
    """The transactions of each session of a script that is in the grammar."""
    sessions = []
    for line in script.decode().splitlines():
        word, *numbers = line.split() or ["#"]
        if word == "session":
            sessions.append([])
        elif word == "begin":
            sessions[-1].append(Transaction())
        elif word in ("commit", "abort"):
            sessions[-1][-1].commits = word == "commit"
        elif word == "bytes":
            key, digits = numbers
            sessions[-1][-1].lines.append(["put", int(key), digits.replace("-", "")])
        elif not word.startswith("#"):
            sessions[-1][-1].lines.append([word, *map(int, numbers)])
    return sessions


def put(pairs, key, value):
    before = pairs.get(key)
    pairs[key] = value
    return ["put", key, value, before]


def add(pairs, key, by):
    """Adds to a number, modulo 2^64; leaves what else is there."""
    before = pairs.get(key)
    if isinstance(before, int):
        pairs[key] = (before + by) % BEYOND
    return ["add", key, by, isinstance(before, int)]


def move(pairs, source, target, amount):
    """Reads both, and moves the amount where both are numbers, the source has it and the target has room for it."""
    low, high = pairs.get(source), pairs.get(target)
    done = [["get", source, low], ["get", target, high]]
    if isinstance(low, int) and isinstance(high, int) and low >= amount and high + amount < BEYOND:
        done += [put(pairs, source, low - amount), put(pairs, target, high + amount)]
    return done


def operate(pairs, word, *numbers):
    """The operations of one line of a transaction, each with its answer; pairs become those after it."""
    if word == "move":
        return move(pairs, *numbers)
    if word == "put":
        return [put(pairs, *numbers)]
    if word == "del":
        return [["del", *numbers, pairs.pop(*numbers, None)]]
    if word == "get":
        return [["get", *numbers, pairs.get(*numbers)]]
    if word == "add":
        return [add(pairs, *numbers)]
    low, high = numbers
    return [["scan", low, high, [[key, pairs[key]] for key in sorted(pairs) if low <= key <= high]]]


def writes(operation):
    """Whether an operation that is told so wrote something."""
    word, answer = operation[0], operation[-1]
    return word == "put" or (word == "del" and answer is not None) or (word == "add" and answer)


def standing(operations):
    """The numbers of those that wrote something which no going back behind them took back."""
    found = []
    for number, operation in enumerate(operations, 1):
        if operation[0] == "back":
            found = [it for it in found if it <= operation[1]]
        elif writes(operation):
            found.append(number)
    return found


def done_alone(transaction, pairs):
    """The operations with their answers, and the map after them, where the transaction runs alone from these pairs. A savepoint is how many there were, and
    the map then; to go back to it is one, too, where something behind it stands."""
    after, done, kept, saves = dict(pairs), [], 0, {}
    for word, *numbers in transaction.lines:
        if word == "save":
            kept += 1
            saves[kept] = len(done), dict(after)
        elif word == "back":
            upto, before = saves[numbers[0]]
            saves = {number: save for number, save in saves.items() if number <= numbers[0]}
            if any(it > upto for it in standing(done)):
                done.append(["back", upto])
                after = dict(before)
        else:
            done += operate(after, word, *numbers)
    return done, after


class Replay:
    """Goes along a report, and runs each transaction that it tells of on a plain map."""

    def __init__(self, script, pairs):
        self.sessions, self.pairs = sessions_of(script), dict(pairs)
        self.next = [0] * len(self.sessions)
        self.serials = [0] * len(self.sessions)

    def follow(self, line):
        """One acknowledged transaction: the session's next one that, run alone from here, has these operations and answers."""
        told = json.loads(line)
        if list(told) != ["ops", "serial", "session"] or line != json.dumps(told, separators=(",", ":")):
            raise Wrong(f"{line}: spelling")
        session = told["session"] - 1
        if told["serial"] <= self.serials[session]:
            raise Wrong(f"{line}: its serial isn't above those of its session before it")
        for place in range(self.next[session], len(self.sessions[session])):
            transaction = self.sessions[session][place]
            done, after = done_alone(transaction, self.pairs)
            if transaction.commits and done == told["ops"]:
                self.pairs, self.next[session], self.serials[session] = after, place + 1, told["serial"]
                return
        raise Wrong(f"{line}: no transaction of the session that is left does this, alone from {self.pairs}")


def begun(script):
    """How many transactions of a script have an operation, and how many of these end by `commit`."""
    found = [it for session in sessions_of(script) for it in session if it.operates()]
    return len(found), sum(it.commits for it in found)


def read(script, report, is_whole):
    """The lines of a report, and its counts. Where it isn't whole, sessions were stopped, and some transactions never began."""
    lines = report.split("\n")
    if len(lines) < 2 or lines.pop() != "":
        raise Wrong("the report doesn't end with a line feed")
    last = lines.pop()
    counts = json.loads(last)
    if list(counts) != ["aborted", "acknowledged", "unsettled"] or last != json.dumps(counts, separators=(",", ":")):
        raise Wrong(f"{last}: spelling")
    most, total = begun(script)[0], sum(counts.values())
    if counts["acknowledged"] != len(lines) or total > most or (is_whole and total < most):
        raise Wrong(f"{last}: counts of {len(lines)} lines, and {most} transactions")
    return lines, counts


def replay(script, report, pairs):
    """The map after the transactions of a report, and its counts. Raises Wrong where it isn't the report of a serial run from these pairs."""
    lines, counts = read(script, report, is_whole=True)
    run = Replay(script, pairs)
    for line in lines:
        run.follow(line)
    return run.pairs, counts


def meets(transaction, line):
    """Whether a transaction writes where this line of a report has been."""
    written = {it[1] for it in transaction.lines if it[0] in ("put", "del", "add")}
    done = [op for op in json.loads(line)["ops"] if op[0] != "back"]
    return any(op[1] in written or (op[0] == "scan" and any(op[1] <= key <= op[2] for key in written)) for op in done)


def unsettled(run, line, sessions):
    """The transactions, as places in the script, that may be unsettled though this line has seen them. Of these sessions more lines come."""
    found = []
    for session, transactions in enumerate(run.sessions):
        if session not in sessions:
            places = range(run.next[session], len(transactions))
            found += [(session, place) for place in places if transactions[place].commits and meets(transactions[place], line)]
    return found


# A line sees so many transactions for the first time at most that are unsettled.
MOST_SEEN = 4


def orders(places):
    """Some of the places in any order, few of them first, of each session one at most."""
    for count in range(min(len(places), MOST_SEEN) + 1):
        yield from (it for it in itertools.permutations(places, count) if len(dict(it)) == count)


def follow_behind(run, line, places):
    """Follows a line, behind as few of these transactions as need be. Gives those."""
    before = run.pairs
    for chosen in orders(places):
        run.pairs = before
        for session, place in chosen:
            _, run.pairs = done_alone(run.sessions[session][place], run.pairs)
        try:
            run.follow(line)
            return chosen
        except Wrong:
            run.pairs = before
    raise Wrong(f"{line}: no transaction of the session that is left does this, alone from {before}, or from what unsettled ones leave of it")


def replay_stopped(script, report, pairs):
    """The same for a run in which sessions were stopped, of a script without moves. An unsettled transaction isn't told of, but others may have seen
    it: it stands before the first of them. Gives these, too: by session, from 0, their place in it."""
    lines, counts = read(script, report, is_whole=False)
    sessions = [json.loads(line)["session"] - 1 for line in lines]
    run, seen = Replay(script, pairs), {}
    for place, line in enumerate(lines):
        seen.update(follow_behind(run, line, unsettled(run, line, {*sessions[place:], *seen})))
    if len(seen) > counts["unsettled"]:
        raise Wrong(f"the transactions saw {len(seen)} unsettled ones, of {counts['unsettled']}")
    return run.pairs, counts, seen


# The script of `load`.

MULTIPLIER, ADDEND = 6364136223846793005, 1442695040888963407
OPENING_BALANCE = 1000


def draws(seed, session):
    """The numbers that a session of `load` draws, without end."""
    state = (seed + session) % BEYOND
    while True:
        state = (state * MULTIPLIER + ADDEND) % BEYOND
        yield state >> 33


def load_script(seed, sessions, accounts, transfers):
    """The two scripts that `load` runs one after the other: the filling, and all transfers."""
    filling = ["session", "begin", *(f"put {it} {OPENING_BALANCE}" for it in range(accounts)), "commit"]
    lines = []
    for session in range(1, sessions + 1):
        lines.append("session")
        drawn = draws(seed, session)
        for _ in range(transfers):
            source = next(drawn) % accounts
            target = (source + 1 + next(drawn) % (accounts - 1)) % accounts
            lines += ["begin", f"move {source} {target} {next(drawn) % 10 + 1}", "commit"]
    return script_of(filling), script_of(lines)


def script_of(lines):
    return "".join(f"{line}\n" for line in lines).encode()


def with_savepoints(numbers, lines):
    """The lines of a transaction; now and then with savepoints among them, and goings back to such as stand."""
    if numbers.random() < 0.5:
        return lines
    found, stand, kept = [], [], 0
    for line in (*lines, None):
        if numbers.random() < 0.4:
            kept += 1
            stand.append(kept)
            found.append("save")
        if stand and numbers.random() < 0.3:
            number = numbers.choice(stand)
            stand = [it for it in stand if it <= number]
            found.append(f"back {number}")
        if line is not None:
            found.append(line)
    return found
