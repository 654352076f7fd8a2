#!/usr/bin/env python3
"""Puts what was measured into the pages: the tables and numbers of SPEED.md, and numbers of README.md, CONTRIBUTING.md and COST.md.
speed.json keeps the last good run of each part, and gate.txt what the gate said when it last passed.

python3 docs/speed.py                      writes them
python3 docs/speed.py --compare            compares them with the pages, and tells what differs
python3 docs/speed.py --take FILE PART..   takes parts of what bench/run left in FILE into speed.json, and writes
"""
import difflib
import json
import re
import sys
from pathlib import Path

DOCS = Path(__file__).resolve().parent
TOP = DOCS.parent
NAMES = {
    "ours": "ours",
    "congee": "`congee`",
    "btree": "`BTreeMap`",
    "absl": "absl",
    "judy": "JudyL",
    "crossbeam-epoch": "`crossbeam-epoch`",
    "unlocked": "`optimistic`",
    "stepped": "`joint`",
    "joint": "`joint`",
    "mutex": "`Mutex<BTreeMap>`",
    "rwlock": "`RwLock<BTreeMap>`",
}
CALLS = {
    "insert": "insertion",
    "get": "look-up",
    "get-shuffled": "look-up, shuffled",
    "remove": "removal",
    "overwrite": "overwriting",
    "range": "range of 100 keys",
    "iter": "iterator over all, for each pair",
    "range-iter": "iterator of 100 pairs from a key on",
    "insert-sorted": "insertion, ascending",
    "from-sorted": "`from_sorted`, for each pair",
    "pop-first": "`pop_first`, until none is left",
    "entry-absent": "`entry` and `or_insert`, absent key",
    "entry-present": "`entry` and `or_insert`, present key",
    "get-insert-absent": "look-up and insertion, absent key",
    "get-insert-present": "look-up and overwriting, present key",
    "write": "write",
    "read": "read at a snapshot in the midst of the writes",
    "read-newest": "read at the newest snapshot",
    "vacuum": "vacuum, for each version that stood",
    "read-vacuumed": "read at the newest snapshot, after the vacuum",
    "range-beside-writer": "range of 100 keys, beside a thread that writes",
    "range-at-once": "range of 100 keys, of one moment",
    "range-at-once-beside-writer": "range of 100 keys, of one moment, beside a thread that writes",
    "get-64": "64 look-ups, one by one",
    "get-many": "`get_many` of 64 keys",
    "mix-5": "look-ups, 5 in 100 insertions",
    "mix-50": "look-ups, half insertions",
    "overwrite-256": "overwriting of the same 256 keys",
    "keys": "all keys, for each",
    "stats": "`stats`, for each key",
    "close": "`close`, for each key",
    "bytes": "bytes a key",
    "bytes-emptied": "the same once all keys are taken out again",
    "pin": "a pin and its unpin",
    "defer": "the same, with a deferral between, and a flush each 128",
    "flush": "the same, with a flush each time",
    "swap": "the same, with a new value swapped in and the old one put off, and a flush each 128",
    "load-16": "the same, with sixteen loads of one `Atomic`",
    "calls-4096-keys": "look-ups and insertions at 4,096 scattered keys",
    "calls-8-keys": "the same at eight keys",
    "pins": "pins and unpins",
    "rounds": "rounds, a round",
}
# A part of speed.json: the part of a run that it is taken from, and which indexes of it, our own first.
PARTS = {
    "owned": ("owned", ["ours", "congee", "btree", "absl", "judy"]),
    "sizes": ("owned", ["ours", "congee", "btree", "absl", "judy"]),
    "memory": ("memory", ["ours", "congee", "btree", "absl", "judy", "joint"]),
    "further": ("further", ["ours", "btree", "absl"]),
    "versions": ("versions", ["ours", "btree"]),
    "unlocked": ("threads", ["unlocked", "congee", "mutex", "rwlock"]),
    "ranges": ("ranges", ["unlocked", "congee", "mutex", "rwlock"]),
    "words": ("memory", ["unlocked"]),
    "churn": ("churn", ["unlocked"]),
    "opening": ("opening", ["unlocked"]),
    "stepped": ("threads", ["stepped", "congee", "mutex", "rwlock"]),
    "collector": ("collector", ["ours", "crossbeam-epoch"]),
    "machine": ("machine", ["ours", "btree"]),
    "program": ("program", ["ours", "congee"]),
}


# What keys come and go by.
LOADS = {
    "queue": "queue: one worker appends, another takes the oldest out",
    "window": "window: each puts in or takes out, at random",
    "shifts": "shifts: a new worker for each thousand calls",
    "wheel": "wheel of timers: the first is taken out, another is set",
    "tides": "tides: all are put in, and all taken out",
}


class Part:
    """A part as it was measured."""

    def __init__(self, name, kept):
        self.names = [it for it in PARTS[name][1] if any(row[4] == it for row in kept["rows"])]
        self.ours, self.kept = self.names[0], kept
        self.cells = {(keys, kind, threads, call, index): nanos for keys, kind, threads, call, index, nanos in kept["rows"]}

    def rows(self):
        """Each row once: keys, kind, threads, call."""
        return [*dict.fromkeys(tuple(row[:4]) for row in self.kept["rows"])]

    def ours_of(self, which=lambda keys, kind, threads, call: True):
        return [self.cells[(*row, self.ours)] for row in self.rows() if which(*row)]

    def ratios(self, other, which=lambda keys, kind, threads, call: True):
        """What ours takes, in the other's times."""
        rows = [row for row in self.rows() if which(*row) and (*row, other) in self.cells and (*row, self.ours) in self.cells]
        return [self.cells[(*row, self.ours)] / self.cells[(*row, other)] for row in rows]

    def is_greatest(self, keys):
        return keys == max(row[0] for row in self.rows())


def ratio(x):
    return f"{x:.2f}" if x < 1.095 else f"{x:.1f}" if x < 9.95 else f"{x:.0f}"


def time_of(nanos):
    """Nanoseconds, as exact as they are worth."""
    return f"{nanos:,.0f}" if nanos >= 9.95 else f"{nanos:.1f}"


def micros(nanos):
    return ratio(nanos / 1000)


def span(values, show):
    least, most = show(min(values)), show(max(values))
    return least if least == most else f"{least} to {most}"


def cell(part, row, show):
    """What each index takes, ours first, and ours beside each of the others."""
    have = [it for it in part.names if (*row, it) in part.cells]
    if part.ours not in have:
        return ""
    times = " / ".join(show(part.cells[(*row, it)]) for it in have)
    beside = ", ".join(ratio(part.cells[(*row, part.ours)] / part.cells[(*row, it)]) for it in have[1:])
    return f"{times}; {beside}" if beside else times


def head(part):
    """What a cell has."""
    ours, *others = [NAMES[it] for it in part.names]
    return f"{' / '.join([ours, *others])}{f'; {ours} beside ' + ('each' if len(others) > 1 else 'it') if others else ''}"


def by_threads(part, show):
    """Rows of calls, columns of threads."""
    threads = sorted({row[2] for row in part.rows()})
    words = {1: "One thread", 2: "Two threads", 4: "Four threads"}
    lines = [f"| {head(part)} | {' | '.join(words[it] for it in threads)} |", "|---" * (len(threads) + 1) + "|"]
    for keys, kind, call in dict.fromkeys((keys, kind, call) for keys, kind, _, call in part.rows()):
        cells = [cell(part, (keys, kind, it, call), show) for it in threads]
        if any(cells):
            lines.append(f"| {CALLS[call]}{'' if kind == '-' else ', ' + kind} | {' | '.join(cells)} |")
    return lines


def by_kinds(part, show, which, held="keys", of="keys"):
    """Rows of calls and numbers of what is held, columns of kinds."""
    lines = [f"| {head(part)} | Dense {of} | Scattered {of} |", "|---|---|---|"]
    for keys, call in dict.fromkeys((keys, call) for keys, _, _, call in part.rows() if which(keys)):
        cells = [cell(part, (keys, kind, 1, call), show) for kind in ("dense", "scattered")]
        lines.append(f"| {CALLS[call]}, {keys:,} {held} | {' | '.join(cells)} |")
    return lines


def within(part, call, other):
    """What a call of ours takes, in the times of another call of ours."""
    cells = {row[:3]: part.cells[(*row, part.ours)] for row in part.rows() if row[3] == other}
    return span([part.cells[(*row, part.ours)] / cells[row[:3]] for row in part.rows() if row[3] == call and row[:3] in cells], ratio)


def further(part, show):
    """The further calls, and how ours go beside those that would do in their place."""
    said = f"Of ours, a pair of `from_sorted` takes {within(part, 'from-sorted', 'insert-sorted')} times an ascending insertion, and `entry` with"
    said += f" `or_insert` {within(part, 'entry-absent', 'get-insert-absent')} times a look-up and an insertion of an absent key together,"
    said += f" {within(part, 'entry-present', 'get-insert-present')} times a look-up and an overwriting."
    return [*by_kinds(part, show, lambda keys: True), "", said]


def ranges(part, show):
    """Ranges and look-ups of many keys on trees for threads, and how ours go beside one another."""
    said = f"Of ours, a range of one moment takes {within(part, 'range-at-once', 'range')} times a range,"
    said += f" {within(part, 'range-at-once-beside-writer', 'range-beside-writer')} times where a thread writes,"
    said += f" and `get_many` of 64 keys takes {within(part, 'get-many', 'get-64')} times as many look-ups."
    return [*by_threads(part, show), "", said]


def churn(part, show):
    """Keys that come and go: words wanted and in use, with how many of those wanted are enough, and the time of a call."""
    of = lambda kind, threads, call: part.cells.get((part.kept["rows"][0][0], kind, threads, call, part.ours))
    lines = ["| Load, words wanted; in use at the end, times enough; ns a call | One worker | Two | Four |", "|---|---|---|---|"]
    for kind in ("dense", "scattered"):
        for load, words in LOADS.items():
            wanted, cells = of(kind, 1, f"{load}-wanted"), []
            for threads in (1, 2, 4):
                used, times, nanos = (of(kind, threads, f"{load}{it}") for it in ("-used", "-times", ""))
                cells.append(f"{used:,.0f}, {times:.2f}; {show(nanos)}" if nanos else "")
            if any(cells):
                lines.append(f"| {words}, {kind}; {wanted:,.0f} | {' | '.join(cells)} |")
    cells = [(kind, threads, load) for kind in ("dense", "scattered") for load in LOADS for threads in (1, 2, 4)]
    times = lambda it: of(it[0], it[1], f"{it[2]}-used") / of(it[0], 1, f"{it[2]}-wanted")
    more = lambda it: (of(it[0], it[1], f"{it[2]}-used") - of(it[0], 1, f"{it[2]}-used")) / it[1]
    named = lambda it: f"{it[2]}, {it[0]} keys, {it[1]} workers"
    most, worst = max(cells, key=times), max(cells, key=more)
    said = f"The worst cell has {ratio(times(most))} times the words wanted in use ({named(most)}). Beyond those that one worker has in use, each of"
    said += f" several takes {more(worst):,.0f} at most ({named(worst)}). With {max(of(it[0], it[1], f'{it[2]}-times') for it in cells):.2f} times"
    said += " the words wanted no call of any was refused."
    return [*lines, "", said]


def opening(part):
    """What it takes to open an index."""
    lines = ["| Words | Time | Resident | Resident at most |", "|---|---|---|---|"]
    for words in dict.fromkeys(row[0] for row in part.rows()):
        of = lambda call: part.cells[(words, "-", 1, call, part.ours)]
        lines.append(f"| {words:,} | {of('open') / 1e6:,.0f} ms | {of('open-resident') / 1e6:,.0f} MB | {of('open-peak') / 1e6:,.0f} MB |")
    return lines


def tables(parts):
    some = lambda name, draw, show, *more: draw(parts[name], show, *more) if name in parts else ["Not measured yet."]
    return {
        "owned": some("owned", by_kinds, time_of, lambda keys: keys >= 100_000),
        "memory": some("memory", by_kinds, time_of, lambda keys: True),
        "further": some("further", further, time_of),
        "versions": some("versions", by_kinds, time_of, lambda versions: True, "versions", "rows"),
        "words": some("words", by_kinds, time_of, lambda keys: True),
        "churn": some("churn", churn, time_of),
        "opening": opening(parts["opening"]) if "opening" in parts else ["Not measured yet."],
        "machine": some("machine", by_kinds, time_of, lambda keys: True),
        "unlocked": some("unlocked", by_threads, micros),
        "ranges": some("ranges", ranges, micros),
        "stepped": some("stepped", by_threads, micros),
        "collector": some("collector", by_threads, time_of),
        "program": some("program", by_threads, time_of),
        "runs": ["| Part | Day | Machine | Rounds |", "|---|---|---|---|"]
        + [f"| {name} | {it.kept['day']} | {it.kept['machine']} | {it.kept['rounds']}{', unproved' if 'unproved' in it.kept else ''} |" for name, it in parts.items()],
    }


def gate():
    """What the gate last said."""
    rows = (DOCS / "gate.txt").read_text(encoding="utf-8").split("\n")
    return dict(row.split(": ", 1) for row in rows if ": " in row and not row.startswith("#"))


def numbers(parts):
    """Of a page, a text with numbers left open, and the numbers. Each text stands in its page once."""
    of, said = parts, gate()
    is_get = lambda keys, kind, threads, call: call in ("get", "get-shuffled")
    is_range = lambda keys, kind, threads, call: call == "range"
    on = lambda n: lambda keys, kind, threads, call: threads == n and call == "get"
    single = lambda keys, kind, threads, call: call != "range"
    apart = lambda keys, kind, threads, call: call != "overwrite-256"
    maps = lambda part, which: [it for name in ("btree", "absl") for it in part.ratios(name, which)]
    in_steps = [nanos / steps for call, steps in (("get", 10), ("overwrite", 16)) for nanos in of["machine"].ours_of(lambda keys, kind, threads, it: keys == 1000 and it == call)]
    mutex, unlocked, stepped = of["unlocked"].ratios("mutex"), of["unlocked"], of["stepped"]
    collector, machine, program = of["collector"], of["machine"], of["program"]
    pin = lambda keys, kind, threads, call: call == "pin"
    round_trip = lambda keys, kind, threads, call: call == "rounds"
    line = lambda *row: not round_trip(*row)
    minutes, passed = said["processor minutes"], said["last line"].partition(" passed")[0]
    yield "README.md", "one owner|`congee::{Congee, U64Congee, CongeeArc}`|{} ns|", span(of["owned"].ours_of(is_get), time_of)
    yield "README.md", "threads, memory comes back|`joint::{Congee, U64Congee, CongeeArc}`|{} µs; on four threads {}|", span(stepped.ours_of(on(1)), micros), span(stepped.ours_of(on(4)), micros)
    yield "README.md", "([`unlocked.rt`](crates/trial/src/examples/unlocked.rt))|{} µs|", span(unlocked.ours_of(is_get), micros)
    yield "README.md", "steps by hand|`joint::World`|{} ns a step|", span(in_steps, time_of)
    yield "README.md", "`Collector`: {} ns a pin and unpin|", time_of(collector.ours_of(lambda *row: pin(*row) and row[2] == 1)[0])
    yield "README.md", "which locks at each step: {} times a `Mutex<BTreeMap>`'s time ([SPEED](docs/SPEED.md)). `optimistic` takes {} times it, up to {} times `congee`'s;", span(stepped.ratios("mutex"), ratio), span(mutex, ratio), ratio(max(unlocked.ratios("congee")))
    yield "README.md", "bash .ci/run            # the gate: {} processor minutes", minutes
    yield "README.md", "on {} N was {} ([how](docs/COST.md))", said["day"], passed
    yield "CONTRIBUTING.md", "| `bash .ci/run` | [{} processor minutes](#how-long-the-checks-take)", minutes
    counts = [said[it] for it in ("wrong bodies", "dialogues", "cases of refused requests")]
    yield "CONTRIBUTING.md", "On {} `bash .ci/run` closed with `{}`, over proofs", said["day"], said["last line"]
    yield "docs/COST.md", "On {} `bash .ci/run` closed with `{}` on four processors", said["day"], said["last line"]
    yield "docs/COST.md", "six crates, {} wrong bodies, {} dialogues and {} cases of the sweep.", *counts
    yield "docs/SPEED.md", "a call on one key of a tree of one owner takes {} times the original's time and {} times a map's, a range of 100 keys {} times a map's.", span(of["owned"].ratios("congee", single), ratio), span(maps(of["owned"], single), ratio), span(maps(of["owned"], is_range), ratio)
    yield "docs/SPEED.md", "A pin and unpin of the collector for threads takes {} times the original's time, what else was measured of it {} times.", span(collector.ratios("crossbeam-epoch", pin), ratio), span(collector.ratios("crossbeam-epoch", lambda *row: not pin(*row)), ratio)
    yield "docs/SPEED.md", "A call on a tree for threads takes {} times that of a `Mutex<BTreeMap>`. Where readers are unlocked it takes {} times, up to {} where threads write in one node, and {} times that of the original.", span(stepped.ratios("mutex"), ratio), span(unlocked.ratios("mutex", apart), ratio), ratio(max(mutex)), span(unlocked.ratios("congee"), ratio)
    yield "docs/SPEED.md", "A call of the machine takes {} times that of a `BTreeMap`.", span(machine.ratios("btree"), ratio)
    yield "docs/SPEED.md", "A line of the program takes {} times that of a program over the original, and a line of rounds {} times.", span(program.ratios("congee", line), ratio), span(program.ratios("congee", round_trip), ratio)


def pattern(text):
    """The text as it stands in a page, with any numbers."""
    return "(.{1,40}?)".join(map(re.escape, text.split("{}")))


def filled(page, text, wrong, parts, drawn):
    """A page with its tables and numbers."""
    for of, words, *values in numbers(parts):
        if of == page:
            found = len(re.findall(pattern(words), text))
            if found != 1:
                wrong.append(f"{page} has {found} times, and not once: {words}")
            text = re.sub(pattern(words), lambda _: words.replace("{}", "%s") % tuple(values), text)
    for name, lines in drawn.items():
        text = re.sub(rf"(<!-- {name} -->\n).*?(<!-- end -->)", lambda it: it[1] + "\n".join(lines) + "\n" + it[2], text, flags=re.S)
    return text


def kept_text(kept):
    parts = []
    for name, part in kept.items():
        words = json.dumps({word: value for word, value in part.items() if word != "rows"}, ensure_ascii=False)
        parts.append(f'{json.dumps(name)}: {words[:-1]}, "rows": [\n' + ",\n".join(map(json.dumps, part["rows"])) + "\n]}")
    return "{\n" + ",\n".join(parts) + "\n}\n"


def take(kept, file, names):
    """Takes parts of a run."""
    run = json.loads(Path(file).read_text(encoding="utf-8"))
    for name in names:
        of, indexes = PARTS[name]
        rows = [row[1:] for row in run["rows"] if row[0] == of and row[5] in indexes]
        rows = [row for row in rows if (row[0], row[1], row[2], row[3]) in {tuple(it[:4]) for it in rows if it[4] == indexes[0]}]
        if name == "owned":
            rows = [row for row in rows if 100_000 <= row[0] <= 1_000_000]
        before, after = run["load"]
        machine = f"{run['machine']}; load {before} before and {after} after, priority {run['nice']}"
        kept[name] = {"day": run["day"], "machine": machine, "rounds": "those of `--quick`" if run["quick"] else "all", "rows": rows}
        if run["unproved"]:
            kept[name]["unproved"] = run["unproved"]
    (DOCS / "speed.json").write_text(kept_text(kept), encoding="utf-8")


def main():
    kept, wrong = json.loads((DOCS / "speed.json").read_text(encoding="utf-8")), []
    if sys.argv[1:2] == ["--take"]:
        take(kept, sys.argv[2], sys.argv[3:])
    parts = {name: Part(name, kept[name]) for name in PARTS if name in kept}
    drawn = tables(parts)
    for page in ("README.md", "CONTRIBUTING.md", "docs/COST.md", "docs/SPEED.md"):
        stands = (TOP / page).read_text(encoding="utf-8")
        text = filled(page, stands, wrong, parts, drawn)
        if sys.argv[1:] == ["--compare"]:
            wrong += difflib.unified_diff(stands.split("\n"), text.split("\n"), page, "as it was measured", n=0, lineterm="")
        elif text != stands:
            (TOP / page).write_text(text, encoding="utf-8")
    print(*wrong, f"{int(not wrong)} passed, {int(bool(wrong))} failed", sep="\n")
    return bool(wrong)


if __name__ == "__main__":
    sys.exit(main())
