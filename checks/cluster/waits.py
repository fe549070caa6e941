"""Waiting for a fact, and threads whose faults come to those who wait for them."""
import asyncio
import threading
import time

LONG = 120.0
"""As many seconds as nothing takes, on a busy machine either."""


class Late(TimeoutError):
    """What was waited for has not come: by a fault, or since the machine is too busy."""


def until(holds, what, seconds=LONG):
    """Waits until it holds; Late, with what was waited for, where it does not come to that."""
    deadline = time.monotonic() + seconds
    while not holds():
        if time.monotonic() > deadline:
            raise Late(f"{seconds:.0f} s were waited for this: {what}")
        time.sleep(0.1)


async def settled():
    """Goes on once all is done that waits for nothing from outside: by turns of the loop, and by no clock."""
    for _ in range(100):
        await asyncio.sleep(0)


class Worker(threading.Thread):
    """A thread that goes with this process, and whose fault is raised where it is waited for."""

    def __init__(self, work, *given):
        super().__init__(daemon=True)
        self.work, self.given, self.fault = work, given, None

    def run(self):
        try:
            self.work(*self.given)
        except Exception as fault:  # pylint: disable=broad-exception-caught # it is raised again
            self.fault = fault

    def join(self, timeout=4 * LONG):
        super().join(timeout)
        if self.is_alive():
            raise Late(f"{timeout:.0f} s were waited for {self.work.__name__}")
        if self.fault:
            raise self.fault


def all_ended(workers):
    """Waits for all of them."""
    for worker in workers:
        worker.join()
