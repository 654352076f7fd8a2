#!/usr/bin/env python3
"""Runs `rt ci` with several processors for each proof; what each part does and judges is the kit's own.

By itself `rt ci` reckons a proof's memory by the lines of its crate, some four times what these crates take, and so runs most of
them alone; and it gives a proof one processor where others might begin. Here a proof begins as soon as the libraries below it
stand and the memory is free that it was seen to hold. The crates' edits are left to `edits.py`.
"""
import contextlib
import importlib.machinery
import importlib.util
import os
import shutil
import sys
from concurrent.futures import FIRST_COMPLETED, ThreadPoolExecutor, wait

# How many processors a proof asks for, and the share that it was seen to hold of the memory that the kit reckons for its crate.
JOBS = 3
SHARES = {"proof": 0.3, "tests": 0.4}


def load(path):
    loader = importlib.machinery.SourceFileLoader("rt", path)
    spec = importlib.util.spec_from_loader("rt", loader)
    made = importlib.util.module_from_spec(spec)
    loader.exec_module(made)
    return made


def in_lanes(tasks, rt):
    """Runs the parts and returns what each gave. A part is what it waits for, its work in lines, its memory in bytes, and a
    call that gets what was given and how many jobs it may use."""
    memory, left, running, given = 0.85 * rt.free(), {**tasks}, {}, {}
    with getattr(rt, "ending", contextlib.nullcontext)(), ThreadPoolExecutor(len(tasks)) as pool:
        while left or running:
            for key, (waits, lines, needs, call) in [*left.items()]:
                needs *= SHARES.get(key[1], 0.3) * bool(lines)
                is_free = not running or needs + sum(it[1] for it in running.values()) <= memory
                if all(it in given for it in waits) and is_free:
                    del left[key]
                    running[pool.submit(call, given, JOBS)] = key, needs
            for it in wait(running, return_when=FIRST_COMPLETED).done:
                given[running.pop(it)[0]] = it.result()
    return given


def main():
    rt = load(os.path.realpath(shutil.which("rt")))
    if all(hasattr(rt, it) for it in ("in_lanes", "free", "edits_of")):
        rt.in_lanes = lambda tasks: in_lanes(tasks, rt)
        rt.edits_of = lambda crate: ([], [])
    return rt.main(["ci"])


if __name__ == "__main__":
    sys.exit(main())
