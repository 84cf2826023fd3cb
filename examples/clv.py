"""A client of the store, with Python's standard library alone: `clv_shell serve` as a process of its own, and its sessions for the threads of this one.

    with clv.Store("clv_shell", folder) as store:

        def move(t):
            t.put(1, t.get(1) - 30)
            t.put(11, t.get(11) + 30)

        store.run(move)                       # tried until it is committed, with its age

        for one_try in store.tries():         # the same, as a block: left once one try is committed
            with one_try as t:
                t.put(2, t.get(1) + t.get(11))

        with store.transaction() as t:        # one try alone: `Aborted` where it is aborted
            print(t.get(1), t.scan(1, 12))

A block, and the work that `run` is given, may be done several times: all that it does beside the store has to bear that. What `run` and the end of a block leave is
durable. A block that an exception leaves is aborted, and nothing of it is done. `Gone` tells that the store ended before it answered: what was asked for last is there
whole or not at all.
"""

import contextlib
import json
import queue
import subprocess
import threading


NO_MEMORY = "no memory for the text"


class Failure(Exception):
    """A transaction that isn't committed."""


class Aborted(Failure):
    """It was aborted, and left nothing. `cause` is what the store says of it: `["died", [run, session, serial]]` and so on."""

    def __init__(self, cause):
        super().__init__(*cause)
        self.cause = cause


class Down(Failure):
    """A shard is down. It left nothing; others may go on, where they don't touch this shard."""


class Ended(Failure):
    """The session has ended: `["unsettled", shard]`, `["worn", at]` or `["memory"]`. After the first the transaction is there whole or not at all."""


class Gone(Failure):
    """The store ended, and didn't answer."""


class Refused(Exception):
    """A request that is none, or is out of turn: a fault of this program."""


class Left(Exception):
    """A transaction was left by `abort`."""


def value_of(told):
    """A value that the store tells: a text comes as its digits."""
    return bytes.fromhex(told) if isinstance(told, str) else told


class Transaction:
    """A transaction of a session, while it is active. Keys are whole numbers from 0, below 2^64; a value is such a number, or up to 200 `bytes`."""

    def __init__(self, session, serial):
        self.session, self.serial = session, serial

    def get(self, key):
        """The value at a key, or None."""
        return value_of(self.session.ask(f"get {key}")[-1])

    def put(self, key, value):
        """Sets it; gives the value before. `MemoryError` where the store has no memory for the text: the transaction goes on."""
        words = f"bytes {key} {value.hex() or '-'}" if isinstance(value, bytes) else f"put {key} {value}"
        return value_of(self.session.ask(words)[-1])

    def add(self, key, number):
        """Adds a whole number from 0, below 2^64, to the number at a key, modulo 2^64; gives whether there is one, and changes nothing where there isn't.
        Transactions that add to one key don't wait for each other."""
        return self.session.ask(f"add {key} {number}")[-1]

    def delete(self, key):
        """Takes it away; gives the value before."""
        return value_of(self.session.ask(f"del {key}")[-1])

    def scan(self, low, high):
        """All pairs from one key to another, both in, by rising keys."""
        return [(key, value_of(told)) for key, told in self.session.ask(f"scan {low} {high}")[-1]]

    def save(self):
        """Keeps a savepoint, where the transaction stands now; gives its number."""
        return self.session.ask("save")[-1]

    def back(self, savepoint):
        """Takes back what was written since a savepoint, and forgets those after it. What was read and written stays locked."""
        self.session.ask(f"back {savepoint}")

    def abort(self):
        """Leaves the block, or the work that was given to `run`: nothing of the transaction is done."""
        raise Left


class Try:
    """One try of a transaction, as the context of a block. `is_over` tells behind it whether there is to be no other one."""

    def __init__(self, session, is_first):
        self.session, self.is_first, self.is_over = session, is_first, False

    def __enter__(self):
        serial = self.session.ask("begin" if self.is_first else "retry")[1]
        return Transaction(self.session, serial)

    def __exit__(self, kind, why, _):
        died = isinstance(why, Aborted) and not self.session.is_active
        if kind is None:
            try:
                self.session.ask("commit")
            except Aborted:
                died = True
        elif self.session.is_active:
            self.session.leave()
        self.is_over = not died
        return died or isinstance(why, Left)


class Session:
    """A session of the store, for one thread at a time."""

    def __init__(self, store, number):
        self.store, self.number = store, number
        self.answers = queue.SimpleQueue()
        self.is_active, self.has_ended = False, False

    def ask(self, words):
        """Sends a request, and gives its answer without the session's number."""
        self.store.send(f"{self.number} {words}\n")
        answer = self.answers.get()
        if answer is None:
            self.answers.put(None)
            raise Gone
        word = answer[1]
        if word == "refused" and answer[2] == NO_MEMORY:
            raise MemoryError(answer[2])
        if word == "refused":
            raise Refused(words, answer[2])
        self.is_active = word in ("begin", "get", "put", "add", "del", "scan", "save", "back")
        if word == "aborted":
            raise Aborted(answer[2:])
        if word == "down":
            raise Down(answer[2])
        if word in ("unsettled", "worn", "memory"):
            self.has_ended = True
            raise Ended(*answer[1:])
        return answer[1:]

    def leave(self):
        """Aborts the transaction that is active."""
        with contextlib.suppress(Aborted):
            self.ask("abort")

    @contextlib.contextmanager
    def transaction(self):
        """One try of a transaction, committed at the end of the block."""
        serial = self.ask("begin")[1]
        try:
            yield Transaction(self, serial)
        except BaseException as why:
            if self.is_active:
                self.leave()
            if not isinstance(why, Left):
                raise
        else:
            self.ask("commit")

    def tries(self):
        """Tries of one transaction, each to be the context of a block, until one is committed or left; further ones keep its age."""
        is_first = True
        while True:
            one = Try(self, is_first)
            yield one
            if one.is_over:
                return
            is_first = False

    def run(self, work):
        """Gives what `work` gives of a transaction, once it is committed: it is tried again, with its age, where it is aborted. None where `work` left it."""
        for one_try in self.tries():
            answer = None
            with one_try as t:
                answer = work(t)
        return answer


class Store:
    """The store of a folder, as a process. Its sessions are for as many threads."""

    def __init__(self, program="clv_shell", folder=".", sessions=16, **how):
        words = [program, "serve", "--sessions", str(sessions)]
        self.process = subprocess.Popen(words, cwd=folder, stdin=subprocess.PIPE, stdout=subprocess.PIPE, **how)
        self.sessions = {number: Session(self, number) for number in range(1, sessions + 1)}
        # Those that have ended come last.
        self.free = queue.PriorityQueue()
        for number in self.sessions:
            self.free.put((False, number))
        self.sending = threading.Lock()
        self.reader = threading.Thread(target=self.read, daemon=True)
        self.reader.start()

    def read(self):
        """Hands each answer to its session; None once there are no more."""
        with contextlib.suppress(ValueError, OSError):
            for line in self.process.stdout:
                answer = json.loads(line)
                if answer[0] in self.sessions:
                    self.sessions[answer[0]].answers.put(answer)
        for session in self.sessions.values():
            session.answers.put(None)

    def send(self, line):
        try:
            with self.sending:
                self.process.stdin.write(line.encode())
                self.process.stdin.flush()
        except (OSError, ValueError):
            raise Gone from None

    @contextlib.contextmanager
    def session(self):
        """A session that no other thread has, until the end of the block."""
        _, number = self.free.get()
        session = self.sessions[number]
        try:
            yield session
        finally:
            self.free.put((session.has_ended, number))

    @contextlib.contextmanager
    def transaction(self):
        """One try of a transaction, committed at the end of the block."""
        with self.session() as session, session.transaction() as t:
            yield t

    def tries(self):
        """Tries of one transaction, each to be the context of a block, until one is committed or left; further ones keep its age."""
        with self.session() as session:
            yield from session.tries()

    def run(self, work):
        """Gives what `work` gives of a transaction, once it is committed; None where `work` left it."""
        with self.session() as session:
            return session.run(work)

    def kill(self):
        """Ends the store as a fault of the machine does."""
        self.process.kill()
        return self.close()

    def close(self):
        """Ends the input; the store closes its logs, and ends. Its status."""
        with contextlib.suppress(OSError):
            self.process.stdin.close()
        status = self.process.wait()
        self.reader.join()
        self.process.stdout.close()
        return status

    def __enter__(self):
        return self

    def __exit__(self, *_):
        self.close()
