#!/usr/bin/env python3
"""What a report costs from Python, in microseconds: the fastest of fifty turns, by the clock and of this process.

    RA_MONITOR=crates/ra_check_cli/out/ra_check_cli bench/report_cost.py
"""
import sys
import time
from pathlib import Path

sys.path.insert(0, str(Path(__file__).resolve().parent.parent / "clients" / "python"))

from yehatu import Monitor, Recorder

ROUNDS, TURNS = 1_000, 50


def updates(recorder, kind, number):
    """One update of each kind, as a replica with a clock would report it; a list is kept short by a removal."""
    stamp, element = (number + 1, "ann"), f"element {number % 4}"
    if kind == "counter":
        recorder.increment("ann", message=number)
    elif kind == "register":
        recorder.write("ann", f"value {number}", stamp, message=number)
    elif kind == "lwwset":
        recorder.add("ann", element, stamp, message=number)
    elif kind == "orset":
        recorder.add("ann", element, identifier=("ann", number), message=number)
    else:
        recorder.insert_after("ann", None, ("element", number), stamp, message=number)


def rounds(kind):
    """An update, its delivery, and another step: a report each, and no replica."""
    recorder = Recorder(kind, ["ann", "bob"])
    reads = {"counter": lambda number: number + 1, "register": lambda number: f"value {number}"}
    began, used = time.perf_counter(), time.process_time()
    for number in range(ROUNDS):
        updates(recorder, kind, number)
        recorder.deliver("bob", number)
        if kind in reads:
            recorder.read("bob", reads[kind](number))
        elif kind == "lwwset":
            recorder.read("bob", [f"element {it}" for it in range(min(number + 1, 4))])
        else:
            last = ("element", number) if kind == "rga" else f"element {number % 4}"
            recorder.remove("ann", last, message=("removal", number))
            recorder.deliver("bob", ("removal", number))
    recorder.settle()
    took = time.perf_counter() - began, time.process_time() - used
    calls = recorder.close().calls
    return [it / calls * 1e6 for it in took]


def told(waits):
    """A line of the monitor, with its reply waited for or not."""
    monitor = Monitor("counter", ["ann"])
    began, used = time.perf_counter(), time.process_time()
    for number in range(ROUNDS):
        if waits:
            monitor.tell("ann inc")
        else:
            monitor.post("ann inc", f"ok {number}")
    monitor.settle()
    took = time.perf_counter() - began, time.process_time() - used
    monitor.close()
    return [it / ROUNDS * 1e6 for it in took]


def row(name, turn):
    """The fastest turn: others on the machine slow the rest down."""
    clock, used = min(turn() for _ in range(TURNS))
    print(f"| {name} | {clock:.1f} | {used:.1f} |", flush=True)


if __name__ == "__main__":
    for kind in ("counter", "register", "lwwset", "orset", "rga"):
        row(f"Recorder, {kind}", lambda: rounds(kind))
    row("Monitor.post", lambda: told(False))
    row("Monitor.tell", lambda: told(True))
