#!/usr/bin/env python3
"""Runs that are killed in their middle, several one after another on the same logs: what stands after each are whole transactions.

Each case makes logs of 1 to 4 shards, and a run that ends puts all pairs there. Then come rounds. In each, sessions run beside each other over
these pairs, with values of this round alone; now and then a run ends, most are killed, as soon as the logs have grown by a number of bytes at
random. What must hold after each round:

- the logs may be opened, and `show`, which now and then is killed first, ends with status 0 and tells what they stand for;
- transfers between accounts, all over the shards, by moves and by additions, leave their sum, also where one takes back what it wrote in its middle;
- pairs of keys on two shards, which each transaction writes alike, are alike;
- of the keys that a session writes one transaction after another, those with a value of this round are the first ones;
- two counts, to which each of these transactions adds one, have grown by one for each such key;
- what a round has left under a key that is its own stays there in all later ones;
- a run that ended has reported a serial run from what stood before, and what it led to stands until the next round.
"""

import time

import logs
import reports
from program import Checks, Folder, Ran, arguments, cases

ACCOUNTS, BALANCE = 6, 100
ROUNDS = 6
SESSIONS, TRANSACTIONS = 6, 12
# Keys by what they are for: each group has a place of its own within each shard's keys.
WIDTH = 1000


class Places:
    """Where keys lie: one shard behind the other has WIDTH keys."""

    def __init__(self, shards):
        self.shards = shards

    def splits(self):
        return [WIDTH * shard for shard in range(1, self.shards)]

    def key(self, number):
        """A key for each number, going round all shards."""
        return WIDTH * (number % self.shards) + number

    def account(self, number):
        return self.key(number)

    def twins(self, session):
        """Two keys, on two shards where there are two, that a session writes alike."""
        return self.key(100 + 2 * session), self.key(101 + 2 * session)

    def chain(self, session, number):
        """The key that a session's transaction of this number writes."""
        return self.key(200 + TRANSACTIONS * session + number)

    def counts(self):
        """Two keys, on two shards where there are two, to which each transaction of a chain adds one."""
        return self.key(300), self.key(301)

    def mark(self, value):
        """The key that the round of this value writes alone, at its end."""
        return self.key(400 + value)


def filling(places):
    """A script that puts all pairs there."""
    keys = [places.account(it) for it in range(ACCOUNTS)]
    lines = [f"put {it} {BALANCE}" for it in keys] + [f"put {places.mark(it)} 0" for it in range(1, ROUNDS + 1)] + [f"put {it} 0" for it in places.counts()]
    for session in range(SESSIONS):
        zeros = [*places.twins(session), *(places.chain(session, it) for it in range(TRANSACTIONS))]
        lines += [f"put {it} 0" for it in zeros]
    return reports.script_of(["session", "begin", *lines, "commit"])


def second_thoughts(numbers, *lines):
    """These lines, and back to before them; now and then."""
    return ("save", *lines, "back 1") if numbers.random() < 0.3 else ()


def transfers(numbers, places, session, number, value):
    """A transfer with the session's twins, which others may make die, and then a link of its chain, which nobody meets, but beside others at the counts. Each may
    have second thoughts in its middle."""
    source, target = map(places.account, numbers.sample(range(ACCOUNTS), 2))
    amount = numbers.randrange(1, 40)
    yield "begin"
    yield from numbers.choice(([f"move {source} {target} {amount}"], [f"add {source} {logs.BEYOND - amount}", f"add {target} {amount}"]))
    yield from second_thoughts(numbers, f"put {places.twins(session)[0]} 0", f"del {source}", f"add {target} 1")
    yield from (f"put {it} {value}" for it in places.twins(session))
    yield numbers.choice(("commit", "commit", "commit", "abort"))
    link = places.chain(session, number)
    yield "begin"
    yield from second_thoughts(numbers, *(f"add {it} 7" for it in places.counts()), f"del {link}")
    yield from (f"put {link} {value}", *(f"add {it} 1" for it in places.counts()), "commit")


def round_at(numbers, places, value):
    """The script of a round, of which each transaction writes the round's value."""
    lines = []
    for session in range(numbers.randrange(1, SESSIONS + 1)):
        lines.append("session")
        for number in range(TRANSACTIONS):
            lines += transfers(numbers, places, session, number, value)
    lines += ["begin", f"put {places.mark(value)} {value}", "commit"]
    return reports.script_of(lines)


def killed(folder, words, script, growth):
    """Runs the program, and kills it once the logs have grown by so many bytes, if it hasn't ended by then."""
    with open(f"{folder.path}/script", "wb") as file:
        file.write(script)
    before, report = folder.size(), f"{folder.path}/report"
    with open(file.name, "rb") as given, open(report, "wb") as out:
        run = folder.start(*words, stdin=given, stdout=out, stderr=out)
        ends = time.monotonic() + 120
        while run.poll() is None and folder.size() < before + growth and time.monotonic() < ends:
            time.sleep(0.0002)
        run.kill()
        status = run.wait()
    with open(report) as file:
        return Ran(status, file.read(), "")


def wrong_in(pairs, places, value):
    """What isn't as whole transactions leave it, after a round of this value; None where all is well."""
    total = sum(pairs[places.account(it)] for it in range(ACCOUNTS)) % logs.BEYOND
    if total != ACCOUNTS * BALANCE:
        return f"the accounts hold {total}"
    for session in range(SESSIONS):
        one, other = (pairs[it] for it in places.twins(session))
        if one != other or one > value:
            return f"the twins of session {session + 1} are {one} and {other}"
        chain = [pairs[places.chain(session, it)] for it in range(TRANSACTIONS)]
        if chain != sorted(chain, key=lambda it: it != value) or max(chain) > value:
            return f"the chain of session {session + 1} is {chain}"
    return None


def marks(pairs, places, value):
    """What stands under the keys of the rounds up to this one."""
    return [pairs[places.mark(it)] for it in range(1, value + 1)]


def counted(before, after, places, value):
    """Whether each count has grown by the links of all chains that were written in the round of this value."""
    links = sum(after[places.chain(session, it)] == value for session in range(SESSIONS) for it in range(TRANSACTIONS))
    return [after[it] for it in places.counts()] == [before[it] + links for it in places.counts()]


def judges(checks, name, case, folder, places, value, script):
    """The logs after a round, by themselves and by `show`: the pairs, or None."""
    try:
        pairs = logs.map_of(folder.logs())
    except logs.Fault as fault:
        checks.check(f"{name}: logs", False, fault.text, script, case)
        return None
    wrong = wrong_in(pairs, places, value)
    checks.check(f"{name}: whole transactions", wrong is None, wrong, script, case)
    got = folder.run("show")
    is_shown = got.is_fine() and got.out == logs.shown(pairs)
    checks.check(f"{name}: show", is_shown, (got, logs.shown(pairs)), script, case)
    return pairs if is_shown and wrong is None else None


def ended(checks, name, case, got, script, before, after):
    """A run that ended has told of all that it did."""
    try:
        told, _ = reports.replay(script, got.out, before)
    except (reports.Wrong, ValueError) as wrong:
        checks.check(f"{name}: report", False, f"{wrong}\n{got.out}", script, case)
        return
    checks.check(f"{name}: what it reported is there", told == after, (told, after), script, case)


def rounds(checks, case, numbers, program):
    places = Places(numbers.randrange(1, 5))
    start = filling(places)
    ends = kills = 0
    with Folder(program) as folder:
        folder.run("make", *map(str, places.splits()))
        got = folder.run("run", script=start)
        checks.check(f"case {case}: filling", got.is_fine(), got, start, case)
        pairs = logs.map_of(folder.logs())
        for value in range(1, ROUNDS + 1):
            name, script = f"case {case}, round {value}", round_at(numbers, places, value)
            # An opening alone makes some 20 bytes a shard, a whole round some 200 for each of its transactions.
            growth = numbers.choice((1, 60, 300, 4000, 25000, 1 << 30))
            got = killed(folder, ("run", "--tries", "1000"), script, numbers.randrange(growth) if growth < 1 << 30 else growth)
            checks.check(f"{name}: status", got.status in (0, -9), got, script, case)
            ends, kills = ends + (got.status == 0), kills + (got.status == -9)
            if numbers.random() < 0.3:
                killed(folder, ("show",), b"", numbers.randrange(40))
            after = judges(checks, name, case, folder, places, value, script)
            if after is None:
                break
            kept = marks(after, places, value - 1)
            checks.check(f"{name}: what earlier rounds left", kept == marks(pairs, places, value - 1), kept, script, case)
            checks.check(f"{name}: the counts", counted(pairs, after, places, value), (pairs, after), script, case)
            if got.status == 0:
                ended(checks, name, case, got, script, pairs, after)
            pairs = after
    return ends, kills


def main():
    told = arguments(__doc__, count=40)
    checks, ends, kills = Checks(told), 0, 0
    for case, numbers in cases(told):
        more = rounds(checks, case, numbers, told.program)
        ends, kills = ends + more[0], kills + more[1]
    print(f"{kills} runs were killed, {ends} ended before")
    checks.end()


if __name__ == "__main__":
    main()
