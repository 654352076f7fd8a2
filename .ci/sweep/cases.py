#!/usr/bin/env python3
"""Runs the program on dialogues, and compares what it answers.

    cases.py PROGRAM FILES..

A file's dialogues begin with a line `== NAME` each, and have lines of these kinds; empty ones say nothing.

    LINE = REPLY    a line of the script, in which \\xff, \\0, \\n and the like stand for bytes, and the answer to it
    LINE            a line that isn't answered
    = REPLY         one more line of the answer before
    $ WORD ..       the program's arguments, where it has some
    exit N          its status, where that isn't 0

{1..9:TEXT} is the text nine times, with the number in place of each `#`; {NAME} is what stands below `== {NAME}`. The last line of
a script is given without its line feed. The last line that is printed is 'N passed, M failed', which are dialogues."""
import concurrent.futures
import os
import re
import subprocess
import sys

SECONDS = 60


def repeated(it):
    first, last, text = it.groups()
    return "".join(text.replace("#", str(number)) for number in range(int(first), int(last) + 1))


def dialogues(file):
    """The dialogues of a file, by name."""
    with open(file, encoding="ascii") as it:
        _, *parts = re.split(r"^== (.*)\n", it.read(), flags=re.M)
    texts = dict(zip(parts[::2], parts[1::2]))
    whole = {name: re.sub(r"\{\w+\}", lambda it: texts[it[0]], text) for name, text in texts.items() if name[0] != "{"}
    return {name: re.sub(r"\{(\d+)\.\.(\d+):([^{}]*)\}", repeated, text) for name, text in whole.items()}


def what_is_wrong(program, text):
    """The first answer that is another one, or the end; nothing where all is as the dialogue has it."""
    words, lines, answers, end = [], [], [], "exit 0"
    for line in filter(None, text.split("\n")):
        asked, is_answered, reply = line.partition(" = ")
        if line.startswith("$ "):
            words = line.split()[1:]
        elif line.startswith("= "):
            answers.append((asked, line[2:]))
        elif line.startswith("exit "):
            end = line
        else:
            lines.append(asked)
            answers += [(asked, reply)] * bool(is_answered)
    answers.append(("the end", end))
    script = "\n".join(lines).encode().decode("unicode_escape").encode("latin-1")
    try:
        ran = subprocess.run([program, *words], input=script, stdout=subprocess.PIPE, timeout=SECONDS, check=False)
    except subprocess.TimeoutExpired:
        return f"it hadn't ended after {SECONDS} seconds"
    told = f"{ran.stdout.decode('latin-1')}exit {ran.returncode}".split("\n")
    wrong = [f"{asked[:99]} = {reply[:99]}: it answers {seen[:99]}" for (asked, reply), seen in zip(answers, told) if reply != seen]
    return "".join(wrong[:1])


def main(program, *files):
    named = [(f"{os.path.basename(file)}: {name}", text) for file in files for name, text in dialogues(file).items()]
    with concurrent.futures.ThreadPoolExecutor(len(os.sched_getaffinity(0))) as pool:
        found = [*pool.map(lambda it: what_is_wrong(program, it[1]), named)]
    wrong = [f"cases: {name}: {why}" for (name, _), why in zip(named, found) if why]
    print(*wrong, f"{len(named) - len(wrong)} passed, {len(wrong)} failed", sep="\n")
    return 1 if wrong else 0


if __name__ == "__main__":
    sys.exit(main(*sys.argv[1:]))
