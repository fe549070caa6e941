#!/usr/bin/env python3
"""A queue with leases: a worker has a job for so many seconds. If it does not finish it, another worker gets it.

    job_queue.py NODE put "send the letter"
    job_queue.py NODE work 3

A job is a symbol of its own, with what there is to do and the end of its lease, and may be done more than once.
"""

from __future__ import annotations

import multiprocessing
import sys
import time
from collections.abc import Callable

from pazturrok import NIL, LostAnswerError, NodeStore, NoNodeError, Value

JOBS = "(SYMBOLS-WITH 'TASK)"


def put(store: NodeStore, task: Value) -> int:
    number = store.do("(PAZTURROK::INCF (GET 'QUEUE 'LAST 0))")
    store.put(f"JOB-{number:09}", "TASK", task)
    return number


def take(job: str, now: int, end: int) -> str:
    """What there is to do, if no worker has the job now. Whoever gets it has the job until this end."""
    return f"""(WHEN (AND (GET '{job} 'TASK) (< (GET '{job} 'END 0) {now}))
        (SETF (GET '{job} 'END) {end}) (GET '{job} 'TASK))"""


def finish(job: str, end: int) -> str:
    """The job goes, if its lease is still the one with this end."""
    return f"(WHEN (EQL (GET '{job} 'END) {end}) (REMPROP '{job} 'END) (REMPROP '{job} 'TASK))"


def work(node: str, do: Callable[[NodeStore, Value], object], seconds: int = 60) -> None:
    """Does jobs until there are none, also none that another worker has."""
    with NodeStore([node]) as store:
        while True:
            try:
                if not (jobs := store.read(JOBS)):
                    return
                for job in jobs:
                    end = (now := time.time_ns()) + seconds * 10**9
                    task = store.do(take(job.name, now, end))
                    if task != NIL:
                        do(store, task)
                        store.do(finish(job.name, end))
            except (LostAnswerError, NoNodeError):
                pass  # a job that is not finished comes again, at the latest where its lease ends
            time.sleep(0.1)


def main(node: str, command: str, word: str) -> None:
    with NodeStore([node]) as store:
        if command == "put":
            print(put(store, word))
            return
        fork = multiprocessing.get_context("fork")
        arguments = (node, lambda _, task: print(task, flush=True))
        workers = [fork.Process(target=work, args=arguments) for _ in range(int(word))]
        for worker in workers:
            worker.start()
        for worker in workers:
            worker.join()
        store.do("(FORGET-NAMES)")  # jobs that are done are names that nothing needs


if __name__ == "__main__":
    main(*sys.argv[1:])
