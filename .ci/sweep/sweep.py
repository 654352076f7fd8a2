#!/usr/bin/env python3
"""Refuses the program and its tests what they ask the system for, and holds what comes of it to the case's rule.

    sweep.py PROGRAM TESTS SCRIPTS..

A case is a script, the program's threads, or a test, with what is refused it: requests for memory, reads, writes, threads. It is run with
the first request refused, with the second one, and so on, for as many as it makes. SCRIPTS are files NAME.txt, with what they print beside
them in NAME.out. The last line is 'N passed, M failed', which are cases."""
import concurrent.futures
import errno
import itertools
import os
import pathlib
import re
import shutil
import subprocess
import sys
import tempfile

HERE = os.path.dirname(os.path.realpath(__file__))

# What is built and written, which goes at the end.
ROOM = tempfile.TemporaryDirectory(prefix="sweep-")
LIBRARY = f"{ROOM.name}/faults.so"
NUMBERS = itertools.count()

# As many runs side by side as there are processors; each takes milliseconds, and is stopped after so many seconds.
PROCESSORS = len(os.sched_getaffinity(0))
POOL = concurrent.futures.ThreadPoolExecutor(PROCESSORS)
SECONDS = 60

# The tests that are to pass whichever request for memory is refused.
TESTS = """
trees::arcs::a_refused_text_comes_back failures::a_call_that_finds_no_memory_changes_nothing
collector::jobs::a_refused_flush_leaves_the_epoch
collector::machine::jobs_that_find_no_memory_are_put_off_then collector::machine::the_first_bag_of_a_block_alone_asks_for_memory
threads::wants::a_removal_goes_on_without_a_lesser_leaf threads::wants::a_run_goes_on_where_it_stopped
threads::wants::an_owned_leaf_grows threads::wants::calls_for_threads_find_memory_then
threads::wants::each_writing_call_wants_a_place_in_its_bag threads::wants::shared_owners_come_back
""".split()

# How reads and writes fail, one after the other; 0 moves nothing.
READ_ERRORS = [errno.EIO, errno.EINTR, errno.EAGAIN]
WRITE_ERRORS = [*READ_ERRORS, errno.ENOSPC, errno.EPIPE, 0]

# The bytes of replies that the program holds back at most; and at how many places of a script, evenly apart, a read fails, and a write.
HELD = 8192
PLACES = 200

# The threads of the program, with a lock and without, and the calls of each; and as many as it takes, which end within so many seconds,
# as a test does. Other work makes them longer by the clock, so the time of processors is limited: as many seconds of each, since threads
# that wait spin.
THREADS = [(1, 1), (2, 8), (4, 20)]
MOST = (16, 10_000)
MOST_SECONDS = 20

# Without optimization some tests try a part of what they can, as one of many orders of steps. By this environment they try all.
ALL = {"TRIAL_CALLS": "10000", "TRIAL_CHURN": "200000", "TRIAL_KEYS": "100000", "TRIAL_ORDERS": "1", "TRIAL_PAIRS": "1000", "TRIAL_SCHEDULES": "20"}

# Lines that ask for no memory but that of their reply's text. Others may ask for a bag of 64 removals, and in some scripts for a lesser
# node, without which they go on.
NEED_NONE = {"pin", "unpin", "repin", "get", "empty", "charged", "waiting"}
NEED_BAGS = {"remove", "present", "cas"}
BAG = 64
LESSENING = {"lesser"}

# What a node or a bag asks for, by its form, in bytes, as no text of a reply does. Of these are refused all, each second and each third.
SIZES = [96, 296, 1096, 4152, 49664]
STEPS = [1, 2, 3]

REFUSED = b"refused Memory\n"
BAD = b"bad line "


class Wrong(Exception):
    """What is against a case's rule."""


def hold(condition, why):
    if not condition:
        raise Wrong(why)


class Ran:
    """How a run ended, what it printed, how often it asked; and for each read what was printed and how often it asked for memory before
    the next one: where each read is a line, the reply to it and what that took."""

    def __init__(self, status, printed, log):
        *reads, (self.memory, self.reads, self.writes, self.threads) = log
        ends = [*reads[1:], (self.memory, len(printed))]
        self.status, self.printed, self.before = status, printed, [memory for memory, _ in reads]
        self.replies = [printed[start:end] for (_, start), (_, end) in zip(reads, ends)]
        self.asked = [end - start for (start, _), (end, _) in zip(reads, ends)]


def run(words, given=b"", seconds=SECONDS, known=(), **refused):
    """Runs a program on these bytes, with what its environment has besides. What is refused is named as faults.c has it, in small letters."""
    log = f"{ROOM.name}/{next(NUMBERS)}"
    env = {"PATH": os.environ.get("PATH", ""), "LD_PRELOAD": LIBRARY, "SWEEP_LOG": log}
    env.update({f"SWEEP_{name.upper()}": str(value) for name, value in refused.items()}, **dict(known))
    with open(f"{log}.in", "w+b") as script:
        script.write(given)
        script.seek(0)
        how = {"stdin": script, "stdout": subprocess.PIPE, "stderr": subprocess.DEVNULL}
        try:
            ended = subprocess.run(words, env=env, timeout=seconds, check=False, **how)
        except subprocess.TimeoutExpired:
            raise Wrong(f"it hadn't ended after {seconds} seconds") from None
    hold(ended.returncode >= 0, f"it ended by signal {-ended.returncode}")
    counts = [tuple(map(int, line.split())) for line in pathlib.Path(log).read_text("ascii").splitlines()]
    os.remove(log)
    os.remove(f"{log}.in")
    return Ran(ended.returncode, ended.stdout, counts)


class Script:
    """A script, by lines, with its replies where nothing is refused it."""

    def __init__(self, program, file):
        whole = file[: -len(".txt")]
        self.program, self.name, self.known = program, os.path.basename(whole), {}
        self.lines = pathlib.Path(file).read_bytes().splitlines(keepends=True)
        self.printed = pathlib.Path(f"{whole}.out").read_bytes()
        self.plain = self.run()
        self.replies = self.plain.replies
        hold(self.plain.printed == self.printed and self.plain.status in (0, 2), f"{self.name} doesn't print what its file has")
        hold(self.plain.writes == sum(-(-len(it) // HELD) for it in self.replies), f"{self.name} isn't written by whole pieces")

    def run(self, lines=None, gives=0, **refused):
        """The script, or these lines, of which a read gives one, or so many bytes."""
        return run([self.program], b"".join(self.lines if lines is None else lines), gives=gives, **refused)

    def call(self, at):
        """The places of the lines of the call that the line goes on with, from its begin to this line; or of this line alone."""
        worker, *verb = self.lines[at].split()
        if verb[:1] not in ([b"go"], [b"fail"]):
            return [at]
        begun = max(it for it in range(at) if self.lines[it].startswith(worker + b" begin "))
        return [it for it in range(begun, at + 1) if re.match(worker + b" (begin|go|fail)", self.lines[it])]

    def without(self, refused):
        """How it ends, and its replies, where the calls of these lines aren't made, but of a round its pin and its unpin."""
        if refused not in self.known:
            gone = {it for at in refused for it in self.call(at)}
            left = [[b"#\n"] if it in gone else [line] for it, line in enumerate(self.lines)]
            for at in refused:
                if b" round " in self.lines[at]:
                    left[at] = [self.lines[at].split()[0] + step for step in (b" pin\n", b" unpin\n")]
            ran = self.run(itertools.chain(*left))
            ends = [*itertools.accumulate(map(len, [*left, [b""]]))]
            told = [self.replies[it] if it in gone else ran.replies[end - 1] for it, end in enumerate(ends) if end <= len(ran.replies)]
            self.known[refused] = ran.status, [REFUSED if it in refused else reply for it, reply in enumerate(told)]
        return self.known[refused]

    def hold_again(self, at, **refused):
        """Makes the refused call of a line once more behind it, and holds all replies to those of the script."""
        lines, call = self.lines, self.call(at)
        ran = self.run([*lines[: at + 1], *(lines[it] for it in call), *lines[at + 1 :]], **refused)
        later = lambda reply: b"%s%d\n" % (BAD, int(reply[len(BAD) :]) + len(call)) if reply.startswith(BAD) else reply
        wanted = [*self.replies[:at], REFUSED, *(self.replies[it] for it in call), *map(later, self.replies[at + 1 :])]
        hold((ran.status, ran.replies) == (self.plain.status, wanted), f"the call of line {at + 1}, made again, is answered otherwise")


def lines_refused(script, **how):
    """The lines that are refused by name, where all others are answered as if their calls weren't made; or none where the program ends,
    after such replies, of which the last may be missing."""
    ran = script.run(**how)
    told = ran.replies or [b""]
    refused = tuple(at for at, reply in enumerate(told) if reply == REFUSED)
    status, wanted = script.without(refused)
    if ran.status == 1:
        status, wanted = 1, wanted[: len(told) - 1] + [told[-1] and wanted[len(told) - 1]]
    why = next((f"a reply, {it} in place of {wanted[at:at + 1]}" for at, it in enumerate(told) if wanted[at : at + 1] != [it]), "its end")
    hold((ran.status, told) == (status, wanted), f"{why} isn't as if the calls of lines {[at + 1 for at in refused]} hadn't been made")
    return None if ran.status == 1 else refused


def one_request(script, number):
    """The line is refused, and made again it is answered; or it is a removal, and goes on without its lesser node; or the program ends."""
    refused = lines_refused(script, memory=number)
    if refused is None:
        return "ended with 1 after whole replies"
    asks = sum(memory < number for memory in script.plain.before) - 1
    if not refused and script.name in LESSENING and re.search(b"remove|drop", script.lines[script.call(asks)[0]]):
        return "went on without a lesser node"
    hold(len(refused) == 1, f"{len(refused)} lines were refused")
    script.hold_again(refused[0], memory=number)
    return "refused by name and answered when asked again"


def many_requests(script, **how):
    return "ended with 1 after whole replies" if lines_refused(script, **how) is None else "answered but for lines refused by name"


def places(text):
    return range(0, len(text), 1 + len(text) // PLACES)


def read_fails(script, at, piece):
    number, before = at // piece + 1, b"".join(script.lines)[:at]
    ran = script.run(gives=piece, read=number, how=READ_ERRORS[number % len(READ_ERRORS)])
    wanted = b"".join(script.replies[: before.count(b"\n")])
    hold((ran.status, ran.printed) == (1, wanted), "the lines before aren't answered whole, or more are")
    return "ended with 1 after whole replies"


def write_fails(runs, printed, room):
    ran = runs(room=room, how=WRITE_ERRORS[room % len(WRITE_ERRORS)])
    hold((ran.status, ran.printed) == (1, printed[:room]), f"the status is {ran.status}, after {len(ran.printed)} bytes")
    return "ended with 1 at once"


def moves_less(script, most):
    ran = script.run(gives=most, takes=most)
    hold((ran.status, ran.printed) == (script.plain.status, script.printed), "the replies are others")
    return "answered as ever"


def goes_out(script, at):
    """The whole reply to a line goes out before the next line is read."""
    asks, reply = not script.lines[at].startswith((b"#", b"\n")), script.replies[at]
    hold(reply.endswith(b"\n") if asks else not reply, f"the reply to line {at + 1} doesn't go out before the next read")
    return "went out whole" if asks else "asked nothing"


def line_asks(script, at):
    """A line that needs no memory asks for none beside its reply's text, whose room is eight bytes at first and then doubles."""
    verbs, reply = [{*line.decode().split()[:2]} for line in script.lines[: at + 1]], script.replies[at]
    takes_out = verbs[at] & NEED_BAGS or verbs[at] & {"insert", "orinsert"} and reply.startswith(b"some ")
    if not verbs[at] & NEED_NONE and not takes_out:
        return "may ask for more"
    if script.plain.asked[at] <= 1 + max(0, (len(reply) - 1).bit_length() - 3):
        return "asked for its text alone"
    writing = [it for it in verbs if it & (NEED_BAGS | {"insert", "orinsert"})]
    hold(takes_out and (len(writing) > BAG or script.name in LESSENING), f"line {at + 1} asks for memory")
    return "asked for a bag or a lesser node"


def told(workers, calls):
    """What the program prints of so many threads."""
    entries, looks = workers * calls, workers * ((calls + 2) // 4)
    return f"journal {entries} legal\naudit true\nledger {entries - looks}\n".encode()


def left(worker, calls):
    """How many keys of its own a worker of an index without a lock leaves there."""
    keys = set()
    for number in (it for it in range(calls) if it % 4 != 1):
        takes_out = number % 4 == 3 or (number % 4 == 0 and number // 512 % 2 == 1)
        (keys.discard if takes_out else keys.add)((7 * worker + number // 2) % 97)
    return len(keys)


def told_without_lock(workers, calls):
    """What the program prints of so many threads at such an index."""
    pairs = [left(worker, calls) for worker in range(workers)]
    line = lambda who, made, count: f"{who} calls {made} refused 0 audit true pairs {count}\n"
    each = [line(f"worker {worker}", calls, count) for worker, count in enumerate(pairs)]
    return "".join([*each, line("all", workers * calls, sum(pairs))]).encode()


# What the program prints of threads, by the word that asks for them.
TOLD = {"threads": told, "lockfree": told_without_lock}


def threads(runs, printed, **refused):
    """The program ends with 1, or tells what it always does: where no thread can be made the calls are made all the same."""
    ran = runs(**refused)
    if (ran.status, ran.printed) == (0, printed):
        return "told as ever"
    hold("memory" in refused and ran.status == 1 and ran.printed in (b"", REFUSED), f"the status is {ran.status}: {ran.printed[:99]}")
    return "ended with 1"


def test_passes(tests, name, number):
    ran = run([tests, f"tests::{name}"], memory=number)
    hold(ran.status == 0, f"the status is {ran.status}")
    return "passed"


def most(words, printed=b"", known=()):
    """Runs so much that it may take its time, of which nothing is refused."""
    limited = ["sh", "-c", 'ulimit -t "$0"; exec "$@"', str(MOST_SECONDS * PROCESSORS), *words]
    ran = run(limited, seconds=10 * SECONDS, known=known)
    hold(ran.status == 0 and printed in ran.printed, f"the status is {ran.status}: {ran.printed[:99]}")
    return f"ended as ever within {MOST_SECONDS} seconds of each processor"


def up_to(count):
    return range(1, count + 1)


def each(numbers, one):
    """The tries of a case: this one with each of the numbers."""
    return [(number, lambda number=number: one(number)) for number in numbers]


def cases_of_script(script):
    plain, reads = script.plain, places(b"".join(script.lines[: script.plain.reads]))
    lines = range(min(len(script.lines), plain.reads))
    some = [{"size": size, "memory": first, "step": step} for size in SIZES for step in STEPS for first in up_to(step)]
    yield "one request for memory refused", each(up_to(plain.memory), lambda number: one_request(script, number))
    yield "all from one on", each(up_to(plain.memory), lambda number: many_requests(script, memory=number, step=1))
    yield "each few of one size", each(some, lambda it: many_requests(script, **it))
    yield "what its lines ask for", each(lines, lambda at: line_asks(script, at))
    yield "its replies go out before the next read", each(lines, lambda at: goes_out(script, at))
    yield "a read fails", each(reads, lambda at: read_fails(script, at, reads.step))
    yield "a write fails", each(places(script.printed), lambda room: write_fails(script.run, script.printed, room))
    yield "each read and write moves less", each(up_to(9), lambda most: moves_less(script, most))


def cases_of_threads(program, word, workers, calls):
    runs, printed = lambda **refused: run([program, word, str(workers), str(calls)], **refused), TOLD[word](workers, calls)
    plain = runs()
    yield "one request for memory refused", each(up_to(plain.memory), lambda number: threads(runs, printed, memory=number))
    yield "all from one on", each(up_to(plain.memory), lambda number: threads(runs, printed, memory=number, step=1))
    yield "each thread refused, and one", each(range(plain.threads + 1), lambda number: threads(runs, printed, thread=number))
    yield "a write fails", each(range(len(printed)), lambda room: write_fails(runs, printed, room))
    yield "each write moves less", each(up_to(9), lambda most: threads(runs, printed, takes=most))


def cases(program, tests, files):
    """Each case: its name, and its tries, which are a name and a call that tells what was seen."""
    for file in files:
        script = Script(program, file)
        yield from ((f"{script.name}: {name}", tries) for name, tries in cases_of_script(script))
    for word, (workers, calls) in itertools.product(TOLD, THREADS):
        yield from ((f"{word} {workers} {calls}: {name}", tries) for name, tries in cases_of_threads(program, word, workers, calls))
    for word in TOLD:
        words = [word, *map(str, MOST)]
        yield " ".join(words), [("", lambda words=words: most([program, *words], TOLD[words[0]](*MOST)))]
    names = re.findall("(.*): test\n", subprocess.check_output([tests, "--list"], text=True))
    yield "each test, of all that it can try", each(names, lambda name: most([tests, name], known=ALL))
    for name in TESTS:
        plain = run([tests, f"tests::{name}"])
        yield f"test {name}: one request for memory refused", each(up_to(plain.memory), lambda number, name=name: test_passes(tests, name, number))


def attempt(one):
    """What a try saw, or what was against the rule."""
    try:
        return one()
    except Wrong as why:
        return why


def is_right(name, tries):
    """Makes the tries of a case, prints what was seen, and returns whether there is a try and all are by the rule."""
    found = list(POOL.map(attempt, [one for _, one in tries]))
    wrong = [(at, it) for (at, _), it in zip(tries, found) if isinstance(it, Wrong)]
    seen = [it for it in found if not isinstance(it, Wrong)]
    counts = [f"{seen.count(it)} {it}" for it in sorted({*seen})] + [f"WRONG at {at}: {why}" for at, why in wrong[:3]]
    print(f"sweep: {name}: {len(found)} tries: {'; '.join(counts)}", flush=True)
    return bool(found) and not wrong


def main(program, tests, *files):
    compiler = os.environ.get("CC") or next(filter(shutil.which, ("gcc", "cc", "clang")), "gcc")
    subprocess.run([compiler, "-O2", "-shared", "-fPIC", f"{HERE}/faults.c", "-o", LIBRARY, "-ldl"], check=True)
    found = [is_right(*case) for case in cases(program, tests, files)]
    print(f"{found.count(True)} passed, {found.count(False)} failed")
    return 0 if all(found) else 1


if __name__ == "__main__":
    sys.exit(main(*sys.argv[1:]))
