#!/usr/bin/env python3
"""A queue of jobs with many producers and many consumers, over a store that is killed again and again: no job is lost, and none is done twice.

    examples/jobs.py PROGRAM FOLDER [--producers P] [--consumers C] [--jobs J] [--kills K] [--seed S]

FOLDER has the logs that `PROGRAM make` made. Each producer makes J jobs. K times the store is ended by `kill -9` at some moment; whoever finds it gone starts it
again. It doesn't know then what became of its last request, and so looks before it asks again. The status is 1 where a job was lost or done twice.

A job is put in the queue, and taken from it and done, in one transaction each: so after a kill it is in the queue, or done, and never both or neither.
"""

import argparse
import random
import signal
import sys
import threading
import time
from concurrent.futures import ThreadPoolExecutor

import clv

FIRST, END = 0, 1  # the places of the queue's first job, and behind its last
MADE = 100  # by producer: how many jobs it has made
QUEUE = 1 << 20  # by place: the job that waits there
DONE = 1 << 40  # by job: how often it was done


def make_job(t, producer, nth, job):
    """The producer's job of this number goes into the queue, if it didn't before."""
    if (t.get(MADE + producer) or 0) > nth:
        return
    t.put(MADE + producer, nth + 1)
    place = t.get(END) or 0
    t.put(QUEUE + place, job)
    t.put(END, place + 1)


def do_job(t):
    """Takes the first job, and does it; the job, or None where none waits."""
    place, end = t.get(FIRST) or 0, t.get(END) or 0
    if place == end:
        return None
    job = t.delete(QUEUE + place)
    t.put(FIRST, place + 1)
    t.put(DONE + job, (t.get(DONE + job) or 0) + 1)
    return job


class Keeper:
    """Keeps a store that is killed now and then: whoever finds it gone starts the next one."""

    def __init__(self, start):
        self.start, self.store = start, start()
        self.starting = threading.Lock()

    def run(self, work):
        while True:
            store = self.store
            try:
                return store.run(work)
            except clv.Gone:
                self.replace(store)

    def replace(self, gone):
        with self.starting:
            if self.store is gone:
                status = gone.close()
                if status != -signal.SIGKILL:
                    raise RuntimeError(f"the store ended with status {status}")
                self.store = self.start()

    def kill(self):
        self.store.process.kill()


def produce(keeper, producer, count):
    for nth in range(count):
        keeper.run(lambda t: make_job(t, producer, nth, producer * count + nth))


def consume(keeper, over):
    """Does jobs until none waits, once it is over; how many it was told that it did."""
    done = 0
    while True:
        was_over = over.is_set()
        if keeper.run(do_job) is not None:
            done += 1
        elif was_over:
            return done
        else:
            time.sleep(0.001)


def kill_now_and_then(keeper, kills, numbers):
    for _ in range(kills):
        time.sleep(numbers.uniform(0.01, 0.4))
        keeper.kill()


def work(keeper, told):
    """All producers and consumers, while the store is killed; how many jobs the consumers were told that they did."""
    over = threading.Event()
    with ThreadPoolExecutor(told.producers + told.consumers + 1) as pool:
        consumers = [pool.submit(consume, keeper, over) for _ in range(told.consumers)]
        killer = pool.submit(kill_now_and_then, keeper, told.kills, random.Random(told.seed))
        try:
            list(pool.map(lambda producer: produce(keeper, producer, told.jobs), range(told.producers)))
        finally:
            killer.result()
            over.set()
        return sum(it.result() for it in consumers)


def main():
    parser = argparse.ArgumentParser(description=__doc__, formatter_class=argparse.RawDescriptionHelpFormatter)
    parser.add_argument("program")
    parser.add_argument("folder")
    parser.add_argument("--producers", type=int, default=4)
    parser.add_argument("--consumers", type=int, default=4)
    parser.add_argument("--jobs", type=int, default=50)
    parser.add_argument("--kills", type=int, default=5)
    parser.add_argument("--seed", type=int, default=1)
    told = parser.parse_args()
    keeper = Keeper(lambda: clv.Store(told.program, told.folder, told.producers + told.consumers))
    answers = work(keeper, told)
    jobs = told.producers * told.jobs
    counts = dict(keeper.run(lambda t: t.scan(DONE, DONE + jobs)))
    waiting = keeper.run(lambda t: t.scan(QUEUE, QUEUE + jobs))
    status = keeper.store.close()
    lost = [it for it in range(jobs) if DONE + it not in counts]
    twice = [it for it in range(jobs) if counts.get(DONE + it, 1) != 1]
    print(f"{jobs} jobs, {told.kills} kills: {len(lost)} lost, {len(twice)} done twice, {len(waiting)} waiting, {answers} answers; status {status}")
    return 1 if lost or twice or waiting or status else 0


if __name__ == "__main__":
    sys.exit(main())
