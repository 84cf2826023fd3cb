#!/usr/bin/env python3
"""A ledger: clients move money between accounts, while an audit sums them all again and again.

    examples/ledger.py PROGRAM FOLDER [--accounts A] [--clients N] [--transfers T]

FOLDER has the logs that `PROGRAM make` made. Each audit is one transaction, so it finds all the money, whatever is on its way. The status is 1 where one doesn't, and
2 where the store is gone before the end: the money is all there still, as `PROGRAM show` tells.
"""

import argparse
import random
import sys
import threading
import time
from concurrent.futures import ThreadPoolExecutor

import clv

BALANCE = 1000


def fill(t, accounts):
    for account in range(accounts):
        t.put(account, BALANCE)


def transfer(t, source, target, amount):
    """Moves an amount, if the source has it; whether it did."""
    have = t.get(source)
    if have < amount:
        return False
    t.put(source, have - amount)
    t.put(target, t.get(target) + amount)
    return True


def total(t, accounts):
    return sum(value for _, value in t.scan(0, accounts - 1))


def client(store, accounts, seed, count):
    """So many transfers, one after another; how many moved something."""
    numbers, moved = random.Random(seed), 0
    for _ in range(count):
        source, target = numbers.sample(range(accounts), 2)
        amount = numbers.randrange(1, 100)
        moved += store.run(lambda t: transfer(t, source, target, amount))
    return moved


def audit(store, accounts, over):
    """What all accounts hold, again and again until it is over."""
    found = []
    while not over.is_set():
        found.append(store.run(lambda t: total(t, accounts)))
    return found


def trade(store, accounts, clients, count):
    """All clients, and the audit beside them: how many transfers moved something, and what each audit found."""
    over = threading.Event()
    with ThreadPoolExecutor(clients + 1) as pool:
        auditor = pool.submit(audit, store, accounts, over)
        try:
            moved = sum(pool.map(lambda seed: client(store, accounts, seed, count), range(clients)))
        finally:
            over.set()
        return moved, auditor.result()


def main():
    parser = argparse.ArgumentParser(description=__doc__, formatter_class=argparse.RawDescriptionHelpFormatter)
    parser.add_argument("program")
    parser.add_argument("folder")
    parser.add_argument("--accounts", type=int, default=20)
    parser.add_argument("--clients", type=int, default=8)
    parser.add_argument("--transfers", type=int, default=100)
    told = parser.parse_args()
    began = time.monotonic()
    with clv.Store(told.program, told.folder, told.clients + 1) as store:
        store.run(lambda t: fill(t, told.accounts))
        moved, audits = trade(store, told.accounts, told.clients, told.transfers)
        left = store.run(lambda t: total(t, told.accounts))
    seconds = time.monotonic() - began
    wrong = [it for it in audits if it != told.accounts * BALANCE]
    print(f"{moved} transfers and {len(audits)} audits in {seconds:.1f} s; the accounts hold {left}; wrong audits: {wrong}")
    return 1 if wrong or left != told.accounts * BALANCE else 0


if __name__ == "__main__":
    try:
        sys.exit(main())
    except clv.Gone:
        print("the store is gone")
        sys.exit(2)
