#!/usr/bin/env python3
"""Draws docs/figures from docs/speed.json, by gnuplot (Debian's gnuplot-nox): bars of owned trees beside their peers, lines of what
threads do in a second, and time over size."""
import json
import shutil
import subprocess
import sys
from pathlib import Path

DOCS = Path(__file__).resolve().parent.parent / "docs"
NAMES = {
    "ours": "ours",
    "unlocked": "optimistic",
    "stepped": "joint",
    "congee": "congee 0.4.1",
    "btree": "BTreeMap",
    "absl": "absl::btree_map",
    "judy": "JudyL",
    "mutex": "Mutex<BTreeMap>",
    "rwlock": "RwLock<BTreeMap>",
}
# (one colour for an index in all figures: ours are dark)
COLOURS = {
    "ours": "#1b4f8a",
    "unlocked": "#1b4f8a",
    "stepped": "#7fa7d6",
    "congee": "#d95f02",
    "btree": "#1b9e77",
    "mutex": "#1b9e77",
    "rwlock": "#66c2a5",
    "absl": "#a6a6a6",
    "judy": "#e7b416",
}
CALLS = {"insert": "insertion", "get": "look-up", "get-shuffled": "look-up, shuffled", "remove": "removal", "range": "range of 100"}
STYLE = """set encoding utf8
set style fill solid 1.0 noborder
set border 3 lc rgb "#555555"
set grid ytics lc rgb "#dddddd" lt 1
set tics nomirror font ",11"
set key outside bottom center horizontal maxcols 2 noenhanced font ",12" samplen 2
"""


def drawn(name, size, script):
    """Draws a figure, panel by panel."""
    file = DOCS / "figures" / name
    file.parent.mkdir(exist_ok=True)
    head = f'set terminal svg size {size[0]},{size[1]} dynamic font "sans-serif,13" background rgb "white"\nset output "{file}"\n{STYLE}'
    subprocess.run(["gnuplot"], input=head + script + "unset multiplot\n", text=True, check=True)
    print(file.relative_to(DOCS.parent))


class Part:
    def __init__(self, kept):
        self.cells = {tuple(row[:5]): row[5] for row in kept["rows"]}
        self.names = [it for it in NAMES if any(row[4] == it for row in kept["rows"])]
        self.sizes = sorted({row[0] for row in kept["rows"]})


def block(rows):
    """Rows as gnuplot reads them in line; what wasn't measured is left out."""
    return "".join(" ".join("NaN" if it is None else f'"{it}"' if isinstance(it, str) else f"{it:.6g}" for it in row) + "\n" for row in rows)


def owned(part):
    """Bars: what a call takes of each tree of one owner, at a million keys."""
    keys = max(size for size in part.sizes if size <= 1_000_000)
    # (both panels have one scale, so that their bars compare)
    most = max(nanos for (size, _, threads, call, _), nanos in part.cells.items() if size == keys and call in CALLS)
    script = f'set multiplot layout 1,2\nset style data histogram\nset style histogram clustered gap 1\nset logscale y\nset yrange [10:{1.5 * most:.0f}]\nset bmargin {4 + (len(part.names) + 1) // 2}\n'
    for kind in ("dense", "scattered"):
        rows = [[CALLS[call], *[part.cells.get((keys, kind, 1, call, it)) for it in part.names]] for call in CALLS]
        script += f"$data << end\n{block(rows)}end\n"
        script += f'set title "{keys:,} {kind} keys"\nset ylabel "nanoseconds a call, logarithmic"\nset xtics rotate by -20\n'
        columns = [f'$data using {i + 2}{":xtic(1)" if i == 0 else ""} title "{NAMES[it]}" lc rgb "{COLOURS[it]}"' for i, it in enumerate(part.names)]
        script += "plot " + ", ".join(columns) + "\n"
    drawn("owned.svg", (1100, 460), script)


def lines(part, panels, xs, value, name, size, labels, more):
    """Panels of lines, one for each index."""
    # (below the axis stand its label and the key, in rows of two)
    script = f"set multiplot layout {len(panels) // 2},2\nset style data linespoints\nset bmargin {4 + (len(part.names) + 1) // 2}\n{more}"
    for at, (title, cell) in enumerate(panels):
        indexes = [it for it in part.names if any(cell(x, it) is not None for x in xs)]
        rows = [[x, *[None if cell(x, it) is None else value(x, cell(x, it)) for it in indexes]] for x in xs]
        script += f"$data{at} << end\n{block(rows)}end\n"
        script += f'set title "{title}"\nset xlabel "{labels[0]}"\nset ylabel "{labels[1]}"\n'
        columns = [f'$data{at} using 1:{i + 2} title "{NAMES[it]}" lc rgb "{COLOURS[it]}" lw 2 pt 7 ps 0.7' for i, it in enumerate(indexes)]
        script += "plot " + ", ".join(columns) + "\n"
    drawn(name, size, script)


def threads(part):
    """Lines: millions of calls a second of all threads together."""
    keys, panels = max(part.sizes), []
    for call, word in (("get", "look-ups"), ("insert", "insertions")):
        for kind in ("dense", "scattered"):
            panels.append((f"{word}, {keys:,} {kind} keys", lambda x, it, call=call, kind=kind: part.cells.get((keys, kind, x, call, it))))
    more = "set xrange [0.8:4.2]\nset xtics (1,2,4)\nset yrange [0:*]\n"
    lines(part, panels, [1, 2, 4], lambda x, nanos: x * 1000 / nanos, "threads.svg", (1100, 800), ("threads", "million calls a second"), more)


def sizes(part):
    """Lines: what a call takes over how many keys there are."""
    panels = []
    for call in ("get-shuffled", "insert"):
        for kind in ("dense", "scattered"):
            panels.append((f"{CALLS[call]}, {kind} keys", lambda x, it, call=call, kind=kind: part.cells.get((x, kind, 1, call, it))))
    more = f'set logscale x\nset xrange [{0.8 * part.sizes[0]:.0f}:{1.25 * part.sizes[-1]:.0f}]\nset format x "10^{{%L}}"\nset yrange [0:*]\n'
    lines(part, panels, part.sizes, lambda x, nanos: nanos, "sizes.svg", (1100, 800), ("keys", "nanoseconds a call"), more)


def main():
    if not shutil.which("gnuplot"):
        sys.exit("bench/plot.py: it wants gnuplot (apt-get install gnuplot-nox)")
    kept = json.loads((DOCS / "speed.json").read_text(encoding="utf-8"))
    owned(Part(kept["owned"]))
    # (indexes for threads of one run alone stand in one figure)
    both = {"rows": kept["unlocked"]["rows"] + [row for row in kept["stepped"]["rows"] if row[4] == "stepped" and kept["stepped"]["day"] == kept["unlocked"]["day"]]}
    threads(Part(both))
    sizes(Part(kept.get("sizes", kept["owned"])))


if __name__ == "__main__":
    main()
