#!/usr/bin/env python3
"""Runs calls of all kinds on indexes whose readers take no lock, by threads beside one another, and judges each answer.

    stress.py [SECONDS]     so long on 2, on 4 and on 8 threads; 30 where none are named

The program in `stress` is proved over the proved library of the crate, in crates/*/out/rlib, and compiled as the kit does. Its calls are
drawn and judged in C: `stress/draw.c` says what may be asked of it by hand, as the seed of a round that failed. A run that takes far
longer than it should has hung. Then one answer in a hundred of a kind is changed, for each kind in turn, and has to be told. The last
line is 'N passed, M failed'."""
import os
import pathlib
import re
import shutil
import subprocess
import sys
import tempfile

HERE = pathlib.Path(__file__).resolve().parent / "stress"
TOP = HERE.parents[2]
KIT = pathlib.Path(subprocess.check_output(["rt", "doc"], text=True).strip()).parent
THREADS = (2, 4, 8)
SECONDS = 30
# How long a run may take beyond its time, since other work makes the last round and its judging longer.
MORE_SECONDS = 120
# The kinds of calls whose answer can be changed: the beginning of a walk tells nothing, nor does a new worker, and the words in use are
# not held to more than there are.
KINDS = [it for it in range(1, 34) if it != 30]
LIE_SECONDS = 60
# A library of the project that the program uses, and those below it.
LIBRARIES = ("optimistic", "judge")


def build(room):
    """Proves the program, compiles it, and links it with what draws and judges its calls."""
    compiler = os.environ.get("CC") or next(filter(shutil.which, ("gcc", "cc", "clang")), "gcc")
    (room / "src").mkdir()
    for file in HERE.glob("*.rt.txt"):
        shutil.copyfile(file, room / "src" / file.name[: -len(".txt")])
    built = {it: TOP / f"crates/{it}/out/rlib" for it in LIBRARIES}
    words = [KIT / "bin/rattle", "build", "--crate-name", "stress", "src/main.rt"]
    words += ["--extern", f"std={KIT}/rlibs/std.rlib", "--extern", f"optimistic={built['optimistic']}/optimistic.rlib"]
    for folder in [*built.values(), KIT / "rlibs"]:
        words += ["-L", f"dependency={folder}"]
    words += ["--antt-project", KIT / "rattle/logic/antt-project.json", "--logic-built", KIT / "logic_built"]
    words += ["--toolchain", KIT / "toolchain", "--jobs", "2", "-o", room / "main.o"]
    subprocess.run(words, cwd=room, stdin=subprocess.DEVNULL, check=True)
    files = [room / "main.o", HERE / "draw.c", HERE / "judge.c", *(KIT / f"c/{it}.a" for it in ("libos_c", "liblibc_c"))]
    subprocess.run([compiler, "-O2", "-o", room / "stress", *files, "-lpthread", "-ldl", "-lm"], check=True)
    return room / "stress"


def run(program, seconds, **asked):
    """What a run prints, or that it hung or broke."""
    env = {"PATH": os.environ.get("PATH", ""), "STRESS_SECONDS": str(seconds)}
    env.update({f"STRESS_{name.upper()}": str(value) for name, value in asked.items()})
    try:
        how = {"env": env, "stdout": subprocess.PIPE, "timeout": 2 * seconds + MORE_SECONDS, "text": True}
        ran = subprocess.run([program], check=False, **how)
    except subprocess.TimeoutExpired as late:
        return f"{(late.stdout or b'').decode()}it hung"
    return ran.stdout if ran.returncode == 0 else f"{ran.stdout}it ended with {ran.returncode}"


def is_right(name, printed, wanted):
    """Prints what was seen, and tells whether the last line is the one that is wanted."""
    is_last = printed.rstrip().rpartition("\n")[2] == wanted
    print(f"stress: {name}: {'as it must be' if is_last else 'FAILED'}: {printed.rstrip()}", flush=True)
    return is_last


def main(seconds=SECONDS):
    with tempfile.TemporaryDirectory(prefix="stress-") as folder:
        program = build(pathlib.Path(folder))
        told = [is_right(f"{it} threads", run(program, int(seconds), threads=it), "wrong 0") for it in THREADS]
        unseen = [kind for kind in KINDS if not re.search("^wrong [1-9][0-9]*$", run(program, LIE_SECONDS, lie=kind), re.M)]
    told.append(is_right(f"lies of {len(KINDS)} kinds of calls", f"unseen: {unseen}", "unseen: []"))
    print(f"{told.count(True)} passed, {told.count(False)} failed")
    return 0 if all(told) else 1


if __name__ == "__main__":
    sys.exit(main(*sys.argv[1:]))
