#!/usr/bin/env python3
"""Live sessions: `serve`, line by line.

By hand: what each request is answered, in turn and out of turn; odd lines; how an input, an output and a peer end; a client that thinks while it holds locks, one that
sends and doesn't read, and one that goes away. At random: clients on threads, whose transactions have an order in which each answer is that of one behind another,
which ends with what `show` tells; and stores that are killed, of which each line "committed" that came out is there. And the examples, as they stand.
"""

import contextlib
import json
import os
import queue
import random
import select
import signal
import subprocess
import sys
import threading
import time

import logs
from live_rows import ODD_LINES, TRANSCRIPT
from program import Checks, Folder, arguments, cases, seeded

LIMIT = 60
EXAMPLES = os.path.join(os.path.dirname(os.path.dirname(os.path.abspath(__file__))), "examples")
sys.path.insert(0, EXAMPLES)
import clv

NO_ANSWER = "no answer in time"


class Live:
    """A store that serves, and the lines that it writes."""

    def __init__(self, folder, *words, environment=None):
        streams = {"stdin": subprocess.PIPE, "stdout": subprocess.PIPE, "stderr": subprocess.PIPE}
        self.process = folder.start("serve", *words, environment=environment, **streams)
        self.lines = queue.SimpleQueue()
        self.reader = threading.Thread(target=self.read, daemon=True)
        self.reader.start()

    def read(self):
        with contextlib.suppress(ValueError, OSError):
            for line in self.process.stdout:
                self.lines.put(line.decode())
        self.lines.put(None)

    def send(self, text):
        self.process.stdin.write(text.encode() if isinstance(text, str) else text)
        self.process.stdin.flush()

    def line(self, seconds=LIMIT):
        """The next line; None at the end, and `NO_ANSWER` where there is none in time."""
        try:
            return self.lines.get(timeout=seconds)
        except queue.Empty:
            return NO_ANSWER

    def ask(self, text):
        self.send(text + ("\n" if isinstance(text, str) else b"\n"))
        line = self.line()
        return json.loads(line) if line not in (None, NO_ANSWER) else line

    def end(self):
        """Ends the input. The status, the lines that were left, and standard error."""
        with contextlib.suppress(OSError):
            self.process.stdin.close()
        try:
            status = self.process.wait(LIMIT)
        except subprocess.TimeoutExpired:
            self.process.kill()
            status = None
        self.reader.join()
        left = []
        while (line := self.lines.get()) is not None:
            left.append(line)
        return status, left, self.process.stderr.read().decode()


def transcript(checks, program):
    with Folder(program) as folder:
        folder.run("make", "10")
        live = Live(folder)
        for asked, want in TRANSCRIPT:
            got = live.ask(asked)
            checks.check(f"{asked[:40]!r}", got == want, (got, want))
        # An older one waits for a younger one.
        live.ask("5 begin")
        live.ask("6 begin")
        live.ask("6 put 8 1")
        live.send("5 get 8\n")
        checks.check("it waits", live.line(0.3) == NO_ANSWER)
        live.send("6 commit\n")
        both = sorted(json.loads(live.line()) for _ in range(2))
        checks.check("and goes on", both == [[5, "get", 8, 1], [6, "committed", 1]], both)
        # The input ends with three transactions open.
        status, left, err = live.end()
        checks.check("end of input", (status, left, err) == (0, [], ""), (status, left, err))
        shown = folder.run("show")
        checks.check("what stands", shown.out == "[1,100]\n[5,2]\n[8,1]\n[9,\"0d0a\"]\n[11,6]\n[14,5]\n[16,9]\n", shown)


def whole_input(checks, program):
    """Lines that are there before the store is, many of them ahead of their answers, and an input that ends in the middle of a line or without a line feed."""
    with Folder(program) as folder:
        folder.run("make", "10")
        asked, want = [], []
        for number in range(1, 1001):
            asked += ["1 begin", f"1 put {number % 20} {number}", "1 commit"]
            want += [[1, "begin", number], [1, "put", number % 20, number, number - 20 if number > 20 else None], [1, "committed", number]]
        got = folder.run("serve", "--sessions", "1", script="\n".join(asked).encode())
        lines = [json.loads(it) for it in got.out.splitlines()]
        checks.check("3,000 lines ahead", (got.status, got.err) == (0, "") and lines == want, (got, len(lines)))
        got = folder.run("serve", script=b"1 begin\n1 put 1 5\n1 com")
        checks.check("a line that is cut", got.is_fine() and got.out.splitlines()[-1] == '[1,"refused","no request"]', got)
        got = folder.run("serve", script=b"1 begin\n1 put 2 5\n1 commit")
        checks.check("no line feed", got.is_fine() and got.out == '[1,"begin",1]\n[1,"put",2,5,982]\n[1,"committed",1]\n', got)
        got = folder.run("serve", script=b"")
        checks.check("no line", got.is_fine() and got.out == "", got)
        got = folder.run("serve", script=b"1 put \xff\xfe 5\n\xff\n")
        checks.check("bytes", got.is_fine() and got.out in ('[1,"refused","no request"]\n[0,"refused","no session"]\n', '[0,"refused","no session"]\n[1,"refused","no request"]\n'), got)


def words(checks, program):
    with Folder(program) as folder:
        for given in ("serve --sessions 0", "serve --sessions 65", "serve --sessions x", "serve 3", "serve --sessions"):
            got = folder.run(*given.split())
            checks.check(given, got.status == 2 and got.out == "" and got.err.startswith("usage: ") and got.err.endswith("| serve [--sessions N] | audit | standby [N]..\n"), got)
        got = folder.run("serve", script=b"1 begin\n")
        checks.check("no logs", got.is_refused(7, "shard 0: not a log at byte 0"), got)
        folder.run("make")
        for sessions in (1, 64):
            got = folder.run("serve", "--sessions", str(sessions), script=f"{sessions} begin\n{sessions + 1} begin\n".encode())
            lines = sorted(got.out.splitlines())
            checks.check(f"{sessions} sessions", got.is_fine() and lines == ['[0,"refused","no session"]', f'[{sessions},"begin",1]'], got)


def peers(checks, program):
    """Whoever takes the answers goes away; whoever gives the lines is ended; a second program comes."""
    with Folder(program) as folder:
        folder.run("make", "10")
        # Its answers are read by nobody but this thread, so that it can go away.
        process = folder.start("serve", stdin=subprocess.PIPE, stdout=subprocess.PIPE, stderr=subprocess.PIPE, bufsize=0)
        process.stdin.write(b"1 begin\n1 put 1 1\n")
        got = b""
        while got.count(b"\n") < 2:
            got += process.stdout.read(1000)
        other = folder.run("show")
        checks.check("a second program", other.is_refused(6, "disk fault on shard 0"), other)
        process.stdout.close()
        with contextlib.suppress(OSError):
            for _ in range(10):
                process.stdin.write(b"2 begin\n")
                time.sleep(0.05)
        with contextlib.suppress(OSError):
            process.stdin.close()
        status = process.wait(LIMIT)
        err = process.stderr.read().decode()
        checks.check("nobody takes answers", (status, err) == (5, "write fault\n"), (status, err))
        shown = folder.run("show")
        checks.check("its transactions are aborted", shown.is_fine() and shown.out == "", shown)
        with open("/dev/full", "wb") as full:
            got = folder.run("serve", script=b"1 begin\n1 put 3 4\n1 commit\n" * 3, stdout=full)
        checks.check("a full output", got.status == 5, got)


def odd_lines(checks, program):
    """None of them does anything: the transaction goes on. Where the input ends in the middle of one it is taken as it stands."""
    with Folder(program) as folder:
        folder.run("make")
        live = Live(folder)
        live.ask("1 begin")
        for line, want in ODD_LINES:
            got = live.ask(line)
            checks.check(f"{line[:20]!r}, {len(line)} bytes", got == want, (got, want))
        checks.check("it goes on", (live.ask("1 put 5 1"), live.ask("1 commit")) == ([1, "put", 5, 1, None], [1, "committed", 1]))
        live.send(b"y" * 5000)
        status, left, err = live.end()
        checks.check("the end of a line that is too long", (status, err) == (0, "") and left == ['[0,"refused","the line is too long"]\n'], (status, left, err))


def thinks(checks, program):
    """A client that thinks while it holds a lock: an older one waits for it, a younger one dies of it with each try, and others go on."""
    with Folder(program) as folder:
        folder.run("make", "10")
        live = Live(folder)
        for line in ("4 begin", "4 put 5 1", "4 put 20 0", "4 commit", "1 begin", "2 begin", "3 begin"):
            live.ask(line)
        checks.check("it holds a lock", live.ask("2 put 5 2") == [2, "put", 5, 2, 1])
        live.send("1 put 5 3\n")
        for number in range(1, 13):
            got = live.ask("3 put 5 4")
            checks.check(f"try {number}: a younger one dies", got == [3, "aborted", "died", [1, 2, 1]], got)
            got = live.ask("3 retry")
            checks.check(f"try {number}: and is tried again", got == [3, "begin", number + 1], got)
        for number in range(1, 101):
            got = [live.ask(line) for line in ("5 begin", f"5 put 20 {number}", "5 commit")]
            checks.check(f"others go on: {number}", got == [[5, "begin", number], [5, "put", 20, number, number - 1], [5, "committed", number]], got)
        checks.check("the older one waits", live.line(0.2) == NO_ANSWER)
        live.send("2 commit\n")
        both = sorted(json.loads(live.line()) for _ in range(2))
        checks.check("until it is done", both == [[1, "put", 5, 3, 2], [2, "committed", 1]], both)
        checks.check("the older one commits", live.ask("1 commit") == [1, "committed", 1])
        got = [live.ask(line) for line in ("3 put 5 4", "3 commit")]
        checks.check("and the younger one", got == [[3, "put", 5, 4, 3], [3, "committed", 13]], got)
        status, left, err = live.end()
        checks.check("a client that thinks: the end", (status, left, err) == (0, [], ""), (status, left, err))


def resident(process):
    """The bytes of memory that a process has."""
    with open(f"/proc/{process.pid}/statm") as file:
        return int(file.read().split()[1]) * os.sysconf("SC_PAGESIZE")


MANY = 100_000


def many_lines():
    """So many lines of four sessions, and what each session is to be answered."""
    sent, want = [], {number: [] for number in range(1, 5)}
    for nth in range(1, MANY // 20 + 1):
        for number, answers in want.items():
            sent += [f"{number} begin", *(f"{number} get {100 * number}" for _ in range(3)), f"{number} commit"]
            answers += [[number, "begin", nth], *([number, "get", 100 * number, None] for _ in range(3)), [number, "committed", nth]]
    return "".join(f"{it}\n" for it in sent).encode(), want


def sends_ahead(checks, program):
    """A client that sends 100,000 lines and reads none of the answers: it has to wait, the store takes no more memory for it, and all is answered once it reads."""
    text, want = many_lines()
    with Folder(program) as folder:
        folder.run("make")
        process = folder.start("serve", "--sessions", "4", stdin=subprocess.PIPE, stdout=subprocess.PIPE, stderr=subprocess.PIPE, bufsize=0)
        began = resident(process)
        sender = threading.Thread(target=lambda: (process.stdin.write(text), process.stdin.close()), daemon=True)
        sender.start()
        time.sleep(1)
        grown = resident(process) - began
        checks.check("it sends ahead: it waits", sender.is_alive() and process.poll() is None, process.poll())
        checks.check("it sends ahead: memory", grown < 16 << 20, grown)
        answers = {number: [] for number in want}
        for line in process.stdout.read().splitlines():
            answer = json.loads(line)
            answers[answer[0]].append(answer)
        checks.check("it sends ahead: all is answered", answers == want, [len(it) for it in answers.values()])
        status, err = process.wait(LIMIT), process.stderr.read().decode()
        checks.check("it sends ahead: status", (status, err) == (0, ""), (status, err))
        sender.join(LIMIT)


def sends_ahead_and_leaves(checks, program):
    """And one that goes away without having read any."""
    text, _ = many_lines()
    with Folder(program) as folder:
        folder.run("make")
        process = folder.start("serve", "--sessions", "4", stdin=subprocess.PIPE, stdout=subprocess.PIPE, stderr=subprocess.PIPE, bufsize=0)

        def send():
            with contextlib.suppress(OSError):
                process.stdin.write(text)

        sender = threading.Thread(target=send, daemon=True)
        sender.start()
        time.sleep(0.5)
        process.stdout.close()
        sender.join(LIMIT)
        with contextlib.suppress(OSError):
            process.stdin.close()
        status, err = process.wait(LIMIT), process.stderr.read().decode()
        checks.check("it sends ahead and goes away", (status, err) == (5, "write fault\n"), (status, err))
        shown = folder.run("show")
        checks.check("it sends ahead and goes away: show", shown.is_fine() and shown.out == "", shown)


# Clients at random.


class Powers:
    """The powers of two below 2^64, each given once, to whichever thread asks for it."""

    def __init__(self):
        self.lock, self.left = threading.Lock(), [1 << it for it in range(64)]

    def __next__(self):
        with self.lock:
            if not self.left:
                raise StopIteration
            return self.left.pop()


class Client:
    """A client's transactions: what it was answered, and whether it was told that they are committed. Each value that is put is another one. What is added to a counter
    is another power of two each time, so that a sum tells who has added."""

    def __init__(self, number, powers):
        self.number, self.value, self.powers = number, 0, powers
        self.committed, self.unknown = [], []

    def fresh(self):
        """A number, or every third time a text."""
        self.value += 1
        value = self.number * 1_000_000 + self.value
        return value.to_bytes(8, "big") if self.value % 3 == 0 else value

    def think_again(self, t, thoughts):
        """Puts others behind a savepoint of its own, takes these back, and finds what it had put before."""
        savepoint = t.save()
        for key in (*thoughts, *thoughts):
            t.put(key, self.fresh())
        t.back(savepoint)
        found = {it: t.get(it) for it in thoughts}
        if found != thoughts:
            raise Wrong(f"{found} in the place of {thoughts}")

    def one(self, session, numbers, keys):
        """One transaction, tried until it is committed; its operations with their answers."""
        words_ = ("get", "put", "put", "put", "scan", "think")
        plan = [(numbers.choice(words_), numbers.choice(keys), numbers.choice(keys)) for _ in range(numbers.randrange(1, 6))]
        for _ in range(numbers.choice((0, 1, 1, 2))):
            counter = numbers.choice(list(self.powers))
            power = next(self.powers[counter], None)
            plan.insert(numbers.randrange(len(plan) + 1), ("add", counter, power) if power else ("get", counter, None))
        done = []

        def work(t):
            done.clear()
            for word, key, other in plan:
                if word == "get":
                    done.append(("get", key, t.get(key)))
                elif word == "put":
                    value = self.fresh()
                    done.append(("put", key, value, t.put(key, value)))
                elif word == "add":
                    done.append(("add", key, other, t.add(key, other)))
                elif word == "think":
                    # What it puts and takes back tells what was there before, as what it finds then.
                    savepoint, thoughts = t.save(), {it: self.fresh() for it in (key, other)}
                    done.extend([("get", it, t.put(it, value)) for it, value in thoughts.items()])
                    self.think_again(t, thoughts)
                    t.back(savepoint)
                    done.extend([("get", it, t.get(it)) for it in (key, other)])
                else:
                    low, high = min(key, other), max(key, other)
                    done.append(("scan", low, high, t.scan(low, high)))

        if numbers.random() < 0.1:
            # It is left, and nothing of it is done.
            counter = next(iter(self.powers))
            power = next(self.powers[counter], 0)
            session.run(lambda t: (t.add(counter, power), t.put(keys[0], self.fresh()), t.abort()))
        session.run(work)
        self.committed.append(list(done))


class Wrong(Exception):
    pass


def versions(transactions):
    """By key the values that were put, one after another, and by value the transaction; values are put once."""
    behind, makers = {}, {}
    for number, done in enumerate(transactions):
        for op in done:
            if op[0] == "put":
                _, key, value, before = op
                makers[value] = number
                if (key, before) in behind:
                    raise Wrong(f"{value} and {behind[key, before]} were both put over {before} at {key}")
                behind[key, before] = value
    chains = {}
    for key in {it[0] for it in behind}:
        chain, value = [], None
        while (key, value) in behind:
            value = behind[key, value]
            chain.append(value)
        chains[key] = chain
    count = sum(map(len, chains.values()))
    if count != len(behind):
        raise Wrong(f"{len(behind)} values were put, and {count} stand behind each other")
    return chains, makers


def sums(done, counters):
    """What a transaction found at counters beside what it added itself."""
    own, all_own = dict.fromkeys(counters, 0), dict.fromkeys(counters, 0)
    for op in done:
        if op[0] == "add":
            all_own[op[1]] += op[2]
    for op in done:
        if op[0] == "add":
            own[op[1]] += op[2]
            if not op[3]:
                raise Wrong(f"{op}, and there is a number")
            continue
        found = {op[1]: op[2]} if op[0] == "get" else dict(op[3]) if op[0] == "scan" else {}
        for key in counters:
            if op[0] == "scan" and op[1] <= key <= op[2] and key not in found:
                raise Wrong(f"{op} without the counter {key}")
            if key in found:
                if found[key] & all_own[key] != own[key]:
                    raise Wrong(f"{op} behind its own {own[key]} at {key}")
                yield key, found[key] - own[key]


def reads(done, counters):
    """What a transaction found that it didn't put itself, but at counters: keys and values."""
    own = {}
    for op in done:
        if op[0] == "add" or (op[0] == "get" and op[1] in counters):
            continue
        if op[0] == "put":
            _, key, value, before = op
            if key not in own:
                yield key, before
            elif own[key] != before:
                raise Wrong(f"{op} behind its own {own[key]}")
            own[key] = value
        elif op[0] == "get":
            if op[1] not in own:
                yield op[1], op[2]
            elif own[op[1]] != op[2]:
                raise Wrong(f"{op} behind its own {own[op[1]]}")
        else:
            found = {key: value for key, value in op[3] if key not in counters}
            for key in (*found, *(it for it in own if op[1] <= it <= op[2])):
                if key in own and found.get(key) != own[key]:
                    raise Wrong(f"{op} behind its own {own[key]} at {key}")
                if key not in own:
                    yield key, found[key]


def order(transactions, sessions, keys, counters):
    """Whether some order of them gives each answer: edges from who comes first, and none leads back. Gives the map at its end."""
    chains, makers = versions(transactions)
    later = {number: set() for number in range(len(transactions))}

    def edge(first, second):
        if first is not None and second is not None and first != second:
            later[first].add(second)

    places = {(key, value): at for key, chain in chains.items() for at, value in enumerate(chain)}
    for number, done in enumerate(transactions):
        found = list(reads(done, counters))
        for op in done:
            if op[0] == "scan":
                there = {it for it, _ in op[3]}
                found += [(key, None) for key in keys if op[1] <= key <= op[2] and key not in there and not any(o[0] == "put" and o[1] == key for o in done)]
        for key, value in found:
            chain = chains.get(key, [])
            if value is not None:
                if (key, value) not in places:
                    raise Wrong(f"{value} at {key} was never put")
                edge(makers[value], number)
            nth = 0 if value is None else places[key, value] + 1
            # Behind its own puts stand those that come later.
            while nth < len(chain) and makers[chain[nth]] == number:
                nth += 1
            if nth < len(chain):
                edge(number, makers[chain[nth]])
    adders = {counter: {op[2]: number for number, done in enumerate(transactions) for op in done if op[:2] == ("add", counter)} for counter in counters}
    for number, done in enumerate(transactions):
        for key, value in sums(done, counters):
            if value & ~sum(adders[key]):
                raise Wrong(f"{value} at {key}, of which some was never added")
            for power, adder in adders[key].items():
                edge(*((adder, number) if value & power else (number, adder)))
    for chain in chains.values():
        for one, other in zip(chain, chain[1:]):
            edge(makers[one], makers[other])
    for mine in sessions:
        for one, other in zip(mine, mine[1:]):
            edge(one, other)
    waits = {number: 0 for number in later}
    for after in later.values():
        for it in after:
            waits[it] += 1
    ready = [it for it, count in waits.items() if count == 0]
    passed = 0
    while ready:
        passed += 1
        for it in later[ready.pop()]:
            waits[it] -= 1
            if waits[it] == 0:
                ready.append(it)
    if passed != len(transactions):
        raise Wrong(f"no order of {len(transactions) - passed} of {len(transactions)} transactions gives their answers")
    return {key: logs.told(chain[-1]) for key, chain in chains.items()} | {key: sum(powers) for key, powers in adders.items()}


def meets(checks, case, numbers, program):
    """Clients that meet on a few keys, and at one or two counters."""
    splits = sorted(numbers.sample(range(1, 20), numbers.randrange(4)))
    keys = numbers.sample(range(20), numbers.randrange(4, 12))
    counters = [keys.pop() for _ in range(numbers.randrange(1, 3))]
    powers = {it: Powers() for it in counters}
    clients = [Client(it + 1, powers) for it in range(numbers.randrange(2, 9))]
    each = numbers.randrange(5, 40)
    with Folder(program) as folder:
        folder.run("make", *map(str, splits))
        folder.run("serve", script="\n".join(["1 begin", *(f"1 put {it} 0" for it in counters), "1 commit\n"]).encode())
        store = clv.Store(os.path.abspath(program), folder.path, len(clients), stderr=subprocess.PIPE)
        wrong = []

        def work(client, own):
            try:
                with store.session() as session:
                    for _ in range(each):
                        client.one(session, own, keys)
            except Exception as why:
                wrong.append(repr(why))

        threads = [threading.Thread(target=work, args=(it, random.Random(numbers.random()))) for it in clients]
        for thread in threads:
            thread.start()
        for thread in threads:
            thread.join(LIMIT)
        checks.check(f"case {case}: all clients went through", not wrong and not any(it.is_alive() for it in threads), wrong, None, case)
        if any(it.is_alive() for it in threads):
            store.kill()
            return
        status = store.close()
        err = store.process.stderr.read().decode()
        checks.check(f"case {case}: status", (status, err) == (0, ""), (status, err), None, case)
        transactions, sessions = [], []
        for client in clients:
            sessions.append(list(range(len(transactions), len(transactions) + len(client.committed))))
            transactions += client.committed
        try:
            after = order(transactions, sessions, keys, counters)
        except Wrong as why:
            checks.check(f"case {case}: an order", False, why, None, case)
            return
        checks.check(f"case {case}: an order", True)
        found = logs.map_of(folder.logs())
        checks.check(f"case {case}: what the logs stand for", found == after, (found, after), None, case)
        shown = folder.run("show")
        checks.check(f"case {case}: show", shown.is_fine() and shown.out == logs.shown(after), (shown, after), None, case)


def goes_away(checks, case, numbers, program):
    """A client that is gone at some moment, with what it sent: each transaction, of two keys on two shards, is there whole or not at all, and all before it are."""
    with Folder(program) as folder:
        folder.run("make", "50")
        process = folder.start("serve", "--sessions", "2", stdin=subprocess.PIPE, stdout=subprocess.PIPE, stderr=subprocess.PIPE, bufsize=0)
        count, committed = numbers.randrange(1, 200), 0
        second_thoughts = "1 save\n1 put 51 0\n1 del 1\n1 back 1\n"
        text = "".join(f"1 begin\n1 put 1 {it}\n{second_thoughts}1 put 51 {it}\n1 commit\n" for it in range(1, count + 1)) + "1 begin\n1 put 1 0\n1 put 51 0\n"

        def send():
            with contextlib.suppress(OSError):
                process.stdin.write(text.encode())

        sender = threading.Thread(target=send, daemon=True)
        sender.start()
        got = b""
        for _ in range(numbers.randrange(1, 5)):
            size = numbers.randrange(1, 3000)
            # Where all answers were read, no more come.
            if select.select([process.stdout], [], [], 2)[0]:
                got += process.stdout.read(size)
        is_gone = numbers.random() < 0.5
        if is_gone:
            process.stdout.close()
        sender.join(LIMIT)
        with contextlib.suppress(OSError):
            process.stdin.close()
        # Where it is only the input that ends all answers go out.
        if not is_gone:
            got += process.stdout.read()
        status, err = process.wait(LIMIT), process.stderr.read().decode()
        wanted = [(5, "write fault\n"), (0, "")] if is_gone else [(0, "")]
        checks.check(f"case {case}: it goes away: status", (status, err) in wanted, (status, err), None, case)
        committed = got.count(b'"committed"')
        shown = folder.run("show")
        pairs = dict(json.loads(it) for it in shown.out.splitlines())
        one, other = pairs.get(1, 0), pairs.get(51, 0)
        is_right = shown.is_fine() and one == other and committed <= one <= count and (is_gone or one == count)
        checks.check(f"case {case}: it goes away: what stands", is_right, (shown, committed, count), None, case)


# Stores that are killed.


def twins(t, client, nth, source, target):
    """Two keys of the client's own, on shards of their own, get the number, all count together, and an account of all gives another one something. Every second time it
    has other thoughts in its middle, and takes these back."""
    t.add(COUNTER, 1)
    t.put(1000 + client, nth)
    if nth % 2 == 0:
        savepoint = t.save()
        t.add(COUNTER, 1000)
        t.delete(1000 + client)
        t.put(3000 + client, 0)
        t.back(savepoint)
    t.put(3000 + client, nth)
    one = t.get(source)
    if one > 0:
        t.put(source, one - 1)
        t.put(target, t.get(target) + 1)


ACCOUNTS = [10, 11, 2010, 2011]
COUNTER = 20


def kills(checks, case, numbers, program):
    """What was told as committed is there, whole, after `kill -9`; of the last transaction of each client all or nothing."""
    count = numbers.randrange(1, 7)
    told, tried = [0] * count, [0] * count
    with Folder(program) as folder:
        folder.run("make", "2000", "2500")
        lines = ["1 begin", f"1 put {COUNTER} 0", *(f"1 put {it} 100" for it in ACCOUNTS), *(f"1 put {place + it} 0" for it in range(count) for place in (1000, 3000)), "1 commit"]
        folder.run("serve", script="\n".join(lines).encode())
        for round_ in range(1, 5):
            store = clv.Store(os.path.abspath(program), folder.path, count)

            def work(client, own):
                with contextlib.suppress(clv.Gone):
                    with store.session() as session:
                        while True:
                            tried[client] = told[client] + 1
                            source, target = own.sample(ACCOUNTS, 2)
                            session.run(lambda t: twins(t, client, tried[client], source, target))
                            told[client] = tried[client]

            threads = [threading.Thread(target=work, args=(it, random.Random(numbers.random()))) for it in range(count)]
            for thread in threads:
                thread.start()
            time.sleep(numbers.uniform(0.01, 0.5))
            store.kill()
            for thread in threads:
                thread.join(LIMIT)
            name = f"case {case}, round {round_}"
            shown = folder.run("show")
            pairs = {key: value for key, value in map(json.loads, shown.out.splitlines())}
            checks.check(f"{name}: show", shown.is_fine(), shown, None, case)
            money = sum(pairs.get(it, 0) for it in ACCOUNTS)
            checks.check(f"{name}: the accounts", money == 100 * len(ACCOUNTS), pairs, None, case)
            for client in range(count):
                one, other = pairs.get(1000 + client), pairs.get(3000 + client)
                is_right = one == other and one in (told[client], tried[client])
                checks.check(f"{name}: client {client}", is_right, (one, other, told[client], tried[client]), None, case)
                told[client] = one or 0
            checks.check(f"{name}: the counter", pairs.get(COUNTER) == sum(told), (pairs.get(COUNTER), told), None, case)
    return sum(told)


def examples(checks, program):
    for words_ in (["ledger.py", "--clients", "4", "--transfers", "50"], ["jobs.py", "--jobs", "30", "--kills", "4"]):
        with Folder(program) as folder:
            folder.run("make", "10", "1000000")
            name, *options = words_
            told = subprocess.run([sys.executable, f"{EXAMPLES}/{name}", os.path.abspath(program), folder.path, *options], capture_output=True, timeout=600)
            checks.check(f"examples/{name}", told.returncode == 0, (told.returncode, told.stdout, told.stderr))
            print(told.stdout.decode().rstrip())


def store_of(process):
    """The store that an example has started."""
    children = f"/proc/{process.pid}/task/{process.pid}/children"
    for _ in range(100 * LIMIT):
        with open(children) as file:
            found = file.read().split()
        if found:
            return int(found[0])
        time.sleep(0.01)
    raise TimeoutError("the example started no store")


def ledger_is_killed(checks, program):
    """The ledger, whose store is killed in the middle: the money is all there, and the next one goes on."""
    with Folder(program) as folder:
        folder.run("make", "10")
        words_ = [sys.executable, f"{EXAMPLES}/ledger.py", os.path.abspath(program), folder.path, "--clients", "4", "--transfers", "1000000"]
        for round_ in range(5):
            process = subprocess.Popen(words_, stdout=subprocess.PIPE, stderr=subprocess.DEVNULL)
            store = store_of(process)
            time.sleep(0.1 + 0.07 * round_)
            os.kill(store, signal.SIGKILL)
            out, _ = process.communicate(timeout=LIMIT)
            checks.check(f"the ledger is killed, {round_}: status", (process.returncode, out) == (2, b"the store is gone\n"), (process.returncode, out))
            shown = folder.run("show")
            held = sum(json.loads(it)[1] for it in shown.out.splitlines())
            checks.check(f"the ledger is killed, {round_}: the money", shown.is_fine() and held in ((0, 20_000) if round_ == 0 else (20_000,)), shown)


def main():
    told = arguments(__doc__, count=20)
    checks = Checks(told)
    if told.only is None:
        for test in (transcript, whole_input, odd_lines, words, thinks, peers, sends_ahead, sends_ahead_and_leaves, examples, ledger_is_killed):
            test(checks, told.program)
    made = 0
    for case, numbers in cases(told):
        meets(checks, case, numbers, told.program)
        goes_away(checks, case, numbers, told.program)
        made += kills(checks, case, numbers, told.program)
    print(f"{made} transactions were told as committed by stores that were killed")
    checks.end()


if __name__ == "__main__":
    main()
