"""Rough callers of the package of python/, for checks/callers: many threads, forked children, exceptions out of a signal's handler in the middle
of calls, words and texts of other types, and no memory that stays.

    python3 -X dev -W error checks/callers.py BASE A B
"""
import concurrent.futures
import ctypes
import os
import pathlib
import resource
import signal
import sys
import time

import hpr

faults = []


def same(what, found, wanted):
    if found != wanted:
        faults.append(what)
        print(f"{what}: {found!r}, and not {wanted!r}", file=sys.stderr)


def refuses(what, kinds, make):
    """The call raises one of these, and the next one is as ever."""
    try:
        found = make()
    except kinds:
        return
    faults.append(what)
    print(f"{what}: nothing is raised, but {found!r} answered", file=sys.stderr)


def calls(texts):
    """Mixed calls, each without an argument."""
    files = dict(zip(["base", "a", "b"], texts))
    return [
        lambda: hpr.integrate(*texts),
        lambda: hpr.data(["integrate", *files], files),
        lambda: hpr.call(["graph", "a", "--json"], files),
        lambda: hpr.call(["run", "b"], files),
        lambda: hpr.places(texts[0]),
        lambda: hpr.call(["jump"], files),
        lambda: hpr.call(["run", "absent"], files),
        lambda: hpr.call(["a\0b"], files),
        lambda: hpr.integrate(b"", b"\0" * 1000, bytes(range(256))),
    ]


def threads(all_calls, wanted):
    def many(first):
        for turn in range(300):
            at = (first + turn) % len(all_calls)
            if all_calls[at]() != wanted[at]:
                return at
        return None

    with concurrent.futures.ThreadPoolExecutor(32) as pool:
        same("calls of 32 threads", [it for it in pool.map(many, range(32)) if it is not None], [])


def forked(all_calls, wanted):
    """Children of a process whose other threads are gone, each of which makes all calls."""
    children = []
    for _ in range(8):
        child = os.fork()
        if child == 0:
            os._exit([make() for make in all_calls] != wanted)
        children.append(child)
    same("calls of forked children", [os.waitpid(child, 0)[1] for child in children], [0] * 8)


class Interrupt(Exception):
    """What the handler of a signal raises."""


def interrupted(all_calls, wanted):
    def throw(*_):
        raise Interrupt

    before, caught = signal.signal(signal.SIGALRM, throw), 0
    for turn in range(2000):
        try:
            signal.setitimer(signal.ITIMER_REAL, 1e-6 * (1 + turn * 37 % 900))
            for make in all_calls:
                make()
            signal.setitimer(signal.ITIMER_REAL, 0)
        except Interrupt:
            caught += 1
    signal.setitimer(signal.ITIMER_REAL, 0)
    signal.signal(signal.SIGALRM, before)
    same("calls behind interrupts", [make() for make in all_calls], wanted)
    return caught


def stays(all_calls):
    """How much memory some thousand calls leave behind, in MiB."""
    for make in all_calls * 200:
        make()
    before = resource.getrusage(resource.RUSAGE_SELF).ru_maxrss
    for make in all_calls * 2000:
        make()
    return (resource.getrusage(resource.RUSAGE_SELF).ru_maxrss - before) / 1024


def main():
    texts = [pathlib.Path(name).read_bytes() for name in sys.argv[1:4]]
    all_calls = calls(texts)
    wanted, begun = [make() for make in all_calls], time.monotonic()
    forked(all_calls, wanted)
    threads(all_calls, wanted)
    caught = interrupted(all_calls, wanted)
    same("a call of text and not bytes", hpr.integrate(texts[0], texts[1], texts[0]).status, hpr.Status.DONE)
    for what, make in {
        "a text that is str": lambda: hpr.integrate("program end()", texts[1], texts[2]),
        "a text that is a number": lambda: hpr.integrate(3, texts[1], texts[2]),
        "a text that is None": lambda: hpr.places(None),
        "a word that is bytes": lambda: hpr.call([b"run"], {}),
        "a file that is str": lambda: hpr.call(["run", "f"], {"f": "program end()"}),
    }.items():
        refuses(what, (TypeError, ValueError, AttributeError, ctypes.ArgumentError), make)
    same("a word that is no Unicode", hpr.call(["run", "\udcff"], {}).status, hpr.Status.FORM)
    same("a file of 4,194,305 bytes", hpr.places(b" " * 4194305).status, hpr.Status.REFUSED)
    same("words of 1,000,000 letters", hpr.call(["run", "f" * 1_000_000], {}).status, hpr.Status.ABSENT)
    same("the calls in the end", [make() for make in all_calls], wanted)
    left = stays(all_calls)
    if left > 8:
        same("memory that stays", left, 0)
    print(f"32 threads, 8 children, {caught} interrupts: {time.monotonic() - begun:.0f} s, {left:.0f} MiB stay; {len(faults)} things are wrong")
    return 1 if faults else 0


if __name__ == "__main__":
    sys.exit(main())
