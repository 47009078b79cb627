"""WAIT, POST and pause in Python threads, with a log of every event: an implementation that the judge tests.

An event is logged while its object is locked. So the log has each object's events, and each caller's, in their order.
"""

import threading
import time
from typing import Callable, List, Tuple

import tongsthyme

WAIT_BIT = 1 << 31
COMPLETION_BIT = 1 << 30
# How long a task waits before the run is given up, in seconds.
PATIENCE = 0.2


class Stuck(Exception):
    """No task has posted or released for a long time."""


class Shared:
    """What an event control block and a pause element have in common: a lock, a place, and tasks that wait."""

    def __init__(self, log: List[str], name: str) -> None:
        self.log = log
        self.name = name
        self.place = 0
        self.changed = threading.Condition()

    def event(self, caller: int, operation: str, reply: str) -> None:
        """Logs an event, as a line of a journal. The caller holds the lock."""
        self.log.append(f"{caller} {self.name} {self.place} {operation} = {reply}\n")
        self.place += 1
        self.changed.notify_all()

    def park(self, ready: Callable[[], bool]) -> None:
        if not self.changed.wait_for(ready, PATIENCE):
            raise Stuck()


class Block(Shared):
    """An event control block."""

    word = 0

    def arm(self, caller: int) -> None:
        with self.changed:
            if self.word & COMPLETION_BIT:
                self.event(caller, "ARM", f"COMPLETE {self.word - COMPLETION_BIT}")
            else:
                self.word = WAIT_BIT
                self.event(caller, "ARM", "ARMED")

    def wait(self, caller: int) -> int:
        """Returns the completion code."""
        self.arm(caller)
        with self.changed:
            self.park(lambda: bool(self.word & COMPLETION_BIT))
            code = self.word - COMPLETION_BIT
            self.event(caller, "SETTLE", f"COMPLETE {code}")
            return code

    def post(self, caller: int, code: int) -> None:
        with self.changed:
            if self.word & COMPLETION_BIT:
                self.event(caller, f"POST {code}", f"ALREADY {self.word - COMPLETION_BIT}")
                return
            waited, self.word = self.word, COMPLETION_BIT + code
            self.event(caller, f"POST {code}", "WOKE 0" if waited else "POSTED")

    def clear(self, caller: int) -> None:
        with self.changed:
            word, self.word = self.word, 0
            self.event(caller, "CLEAR", f"WORD {word}")


class HastyBlock(Block):
    """An event control block with a fault: a post between the look and the write is lost."""

    def arm(self, caller: int) -> None:
        with self.changed:
            complete = self.word & COMPLETION_BIT
        if complete:
            super().arm(caller)
            return
        time.sleep(0.001)
        with self.changed:
            self.word = WAIT_BIT
            self.event(caller, "ARM", "ARMED")


class Element(Shared):
    """A pause element."""

    generation = 0
    phase = "FREE"
    code = 0

    def open(self, caller: int) -> None:
        with self.changed:
            self.phase = "RESET"
            self.event(caller, "OPEN", f"OPENED {self.generation}")

    def give(self, caller: int, operation: str) -> int:
        spent, self.generation, self.phase = self.generation, self.generation + 1, "RESET"
        self.event(caller, f"{operation} {spent}", f"GIVEN {self.code} {self.generation}")
        return self.code

    def pause(self, caller: int) -> int:
        """Returns the release code."""
        with self.changed:
            if self.phase == "PRERELEASED":
                return self.give(caller, "PAUSE")
            self.phase = "PAUSED"
            self.event(caller, f"PAUSE {self.generation}", "PARKED")
            self.park(lambda: self.phase == "RELEASED")
            return self.give(caller, "RESUME")

    def release(self, caller: int, generation: int, code: int) -> None:
        with self.changed:
            operation = f"RELEASE {generation} {code}"
            if generation != self.generation:
                self.event(caller, operation, f"SPENT {self.generation}")
            elif self.phase == "PAUSED":
                self.phase, self.code = "RELEASED", code
                self.event(caller, operation, "WOKE")
            elif self.phase == "RESET":
                self.phase, self.code = "PRERELEASED", code
                self.event(caller, operation, "EARLY")
            else:
                self.event(caller, operation, "ALREADY")


CONSUMER, PRODUCER = 0, 1
HEAD = """JOURNAL 1
CALLERS 2
ELEMENTS 1
VOLUMES 1
LATCHES 1
QUOTA 1 0
BUDGET 0
BUDGET 0
ECB 0
EVENTS
"""


def run(block_type: type = Block, rounds: int = 5) -> bytes:
    """The producer posts a number and pauses until the consumer, which waits for it, releases it. Returns the journal."""
    log: List[str] = []
    block = block_type(log, "E0")
    element = Element(log, "P1")
    element.open(PRODUCER)

    def produce() -> None:
        for number in range(rounds):
            block.post(PRODUCER, number)
            element.pause(PRODUCER)

    def consume() -> None:
        for number in range(rounds):
            code = block.wait(CONSUMER)
            block.clear(CONSUMER)
            element.release(CONSUMER, number, code)

    def until_stuck(work: Callable[[], None]) -> Callable[[], None]:
        def task() -> None:
            try:
                work()
            except Stuck:
                pass

        return task

    tasks = [threading.Thread(target=until_stuck(work)) for work in (produce, consume)]
    for task in tasks:
        task.start()
    for task in tasks:
        task.join()
    return (HEAD + "".join(log) + f"END {len(log)}\n").encode()


def explain(journal: bytes, line: int) -> Tuple[str, str]:
    """Returns the entry on a line that the judge found illegal, and what was due."""
    lines = journal.decode().splitlines(keepends=True)
    entries = lines[lines.index("EVENTS\n") + 1 : line - 1]
    before = "".join(lines[: line - 1]) + f"END {len(entries)}\n"
    entry = lines[line - 1].rstrip("\n")
    caller, name, _, operation = entry.split(" = ")[0].split(" ", 3)
    with tongsthyme.Machine(before.encode()) as machine:
        try:
            due = machine.step(int(caller), name, operation)
        except tongsthyme.NotAdmitted:
            return entry, "none: the caller may not do this"
    return entry, f"{due.reply}, at place {due.place}"


def main() -> None:
    runs = 1000
    legal = sum(tongsthyme.judge(run()).is_legal for _ in range(runs))
    print(f"{legal} of {runs} runs are legal")
    while True:
        journal = run(HastyBlock)
        verdict = tongsthyme.judge(journal)
        if not verdict.is_legal:
            break
    entry, due = explain(journal, verdict.line)
    print(f"with the fault, line {verdict.line} is illegal: {entry}")
    print(f"the answer that was due: {due}")


if __name__ == "__main__":
    main()
