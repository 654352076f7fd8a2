#!/usr/bin/env python3
"""Draws docs/API.md from the sources: each public type of the libraries and each of its calls, with its types, what it does, what
it is refused as, what it costs and the example that shows it. What no source says stands in docs/api.txt.

python3 docs/api.py            writes the page
python3 docs/api.py --compare  compares it with the sources, and tells what differs
"""
import difflib
import re
import sys
from fnmatch import fnmatchcase
from functools import lru_cache
from pathlib import Path
from typing import Dict, Iterator, List, NamedTuple, Set, Tuple

DOCS = Path(__file__).resolve().parent
CRATES = DOCS.parent / "crates"
EXAMPLES = sorted((CRATES / "trial/src/examples").glob("*.rt"))
LIBRARIES = ["congee", "joint", "optimistic", "crossbeam_epoch", "judge"]
NOUNS = "struct|enum|trait|const|type|fn"
# What a type has that gives a caller nothing to call.
SILENT = {"Drop", "Model", "Sync", "Send"}

HEAD = """# The public calls

What can be called: each public type of the libraries with its calls, their types, what they do, what refuses them, what they cost, and an example. `python3 docs/api.py` draws this page from the sources, and the gate compares the two.

- **What it does** is the first sentence of the call's docstring. *Wants* is what a caller has to show first, the contract's `requires`.
- **Refused as** names variants of the error in the call's type. [REFUSALS](REFUSALS.md) says when each is told.
- **Cost** is what the call itself does, seen over many calls, without the time that the system takes for memory. n is how many pairs there are. *One way down* leads through eight nodes at most, whatever n is. *Steps* are those of [STEPS](STEPS.md).
- **Example** is a function of `crates/trial/src/examples` that makes the call.
- A **law** is a call without code, for proofs: what it ensures holds wherever it is called.

What a call promises is its contract, of which [PROOF](PROOF.md) is the index and [MODEL](MODEL.md) the dictionary. The program `trial` has no calls, but a [language](SCRIPT.md).
"""


class Call(NamedTuple):
    name: str
    types: str
    words: str
    wants: str

    def is_law(self) -> bool:
        return re.sub(r"^\w+(<.*?>)?(?=\()", "", self.types) in ("()", "(&self)")

    def error(self) -> str:
        """The error of the `Result` that it answers, or nothing."""
        answer = self.types.rpartition(") -> ")[2]
        return split(answer[len("Result<") : answer.rfind(">")])[-1] if answer.startswith("Result<") else ""


class Item(NamedTuple):
    noun: str
    name: str
    types: str
    words: str
    file: Path
    has: List[str]
    parts: List[Tuple[str, str]]
    calls: List[Call]


def split(text: str) -> List[str]:
    """What the commas part that stand in no brackets."""
    parts, depth = [""], 0
    for it in text.replace("->", "→"):
        depth += (it in "<([{") - (it in ">)]}")
        if it == "," and not depth:
            parts.append("")
        else:
            parts[-1] += it
    return [it.strip().replace("→", "->") for it in parts if it.strip()]


def unbracketed(text: str) -> str:
    """The text without what stands in angle brackets."""
    text, before = text.replace("->", "→"), ""
    while text != before:
        text, before = re.sub(r"<[^<>]*>", "", text), text
    return text


def above(lines: List[str], at: int) -> List[str]:
    """The docstring and the attributes of what stands at a line."""
    first = at
    while first and re.match(r"\s*(///|#\[)", lines[first - 1]):
        first -= 1
    return lines[first:at]


def words_above(lines: List[str], at: int) -> str:
    """The docstring of what stands at a line."""
    return " ".join(" ".join(it.strip()[3:] for it in above(lines, at) if "///" in it).split())


def header(lines: List[str], at: int) -> Tuple[str, str]:
    """The types of what stands at a line, and what it wants of its caller."""
    text: List[str] = []
    for line in lines[at:]:
        text.append(line.strip())
        if re.search(r"(\{\}?|;)$", line):
            break
    joined = re.sub(r"\s*(\{\}?|;)$", "", " ".join(text))
    types, *clauses = re.split(r"\s(?=(?:requires|ensures)\s)", joined)
    types = re.sub(r"^pub (\([^)]*\) )?(const )?(fn )?|^fn ", "", re.sub(r",(?= ?[)>]|$)", "", types))
    types = re.sub(r"(?<=[(,] )(mut |_)|(?<=\()(mut |_)", "", types)
    wants = [re.sub(r"^requires (?:\w+ )?\{ (.*) \}$", r"`\1`", it) for it in clauses if it.startswith("requires")]
    return re.sub(r"(?<=\w<) |(?<=\() | (?=\)|>\()", "", types), ", ".join(wants)


def calls_in(lines: List[str], at: int, start: str) -> Iterator[Call]:
    """The calls of the block that begins at a line."""
    for i in range(at + 1, len(lines)):
        if lines[i] == "}":
            return
        name = re.match(rf"    {start}(?:const )?fn (\w+)", lines[i])
        if name:
            types, wants = header(lines, i)
            yield Call(name[1], types, words_above(lines, i), wants)


def parts_in(lines: List[str], at: int, noun: str) -> Iterator[Tuple[str, str]]:
    """The variants of an enum, or the public fields of a struct, each with its words."""
    start = r"    ([A-Z]\w*.*)" if noun == "enum" else r"    pub (\w+: .*)"
    for i in range(at + 1, len(lines)):
        if lines[at].endswith((";", "{}")) or lines[i] == "}":
            return
        part = re.match(start, lines[i])
        if part:
            inner, k = part[1], i
            while inner.endswith("{") or inner.count("{") > inner.count("}"):
                k += 1
                inner += " " + re.sub(r"///.*", "", lines[k].strip())
            yield re.sub(r",? \}$", " }", re.sub(r",$", "", re.sub(r"\s+", " ", inner))), words_above(lines, i)


@lru_cache(maxsize=None)
def read(file: Path) -> List[str]:
    return file.read_text(encoding="utf-8").split("\n")


def below(folder: Path, module: str) -> Tuple[Path, Path]:
    """The file of a module, and the folder of those below it."""
    return folder / f"{module}.rt", folder / module


def root_of(file: Path) -> Tuple[Path, Path]:
    """The file and the folder of the root of a file's crate."""
    folder = next(it for it in file.parents if it.name == "src")
    return folder / "lib.rt", folder


def exports(file: Path, folder: Path) -> Iterator[Tuple[str, Path, Path]]:
    """Each name that a module hands on, with the file and the folder of the module that it has it from."""
    for tree in re.findall(r"^pub(?:\([^)]*\))? use ([^;]+);", file.read_text(encoding="utf-8"), re.M):
        tree = re.sub(r"[\s}]", "", tree)
        way, _, names = tree.partition("::{") if "{" in tree else tree.rpartition("::")
        source, room = file, folder
        for module in way.split("::"):
            source, room = root_of(file) if module == "crate" else below(room, module)
        if source.is_file():
            yield from ((it, source, room) for it in names.split(",") if it)


def found(name: str, file: Path, folder: Path) -> Tuple[Path, int]:
    """Where a name is defined that a module has or hands on."""
    for i, line in enumerate(read(file)):
        if re.match(rf"pub(?:\([^)]*\))? (?:{NOUNS}) {name}\b", line):
            return file, i
    return found(name, *next(rest for it, *rest in exports(file, folder) if it == name))


def items(crate: str) -> Iterator[Item]:
    """What a library hands to its users, in its own order: by its root, and by its public modules."""
    root = CRATES / crate / "src"
    modules = re.findall(r"^pub mod (\w+);", (root / "lib.rt").read_text(encoding="utf-8"), re.M)
    places, seen = [(crate, root / "lib.rt", root)], set()
    places += [(f"{crate}::{it}", *below(root, it)) for it in modules]
    for prefix, file, folder in places:
        for name, *where in exports(file, folder):
            source, at = found(name, *where)
            if (source, at) not in seen:
                seen.add((source, at))
                yield item(crate, f"{prefix}::{name}", source, at)


def item(crate: str, name: str, file: Path, at: int) -> Item:
    """What stands at a line of a file, with the calls that its crate gives it."""
    lines = read(file)
    noun, last = re.match(rf"pub(?:\([^)]*\))? ({NOUNS}) (\w+)", lines[at]).groups()
    derived = " ".join(it for it in above(lines, at) if it.startswith("#[derive"))
    has = [it for names in re.findall(r"\(([\w, ]*)", derived) for it in names.split(", ")]
    calls = list(calls_in(lines, at, "")) if noun == "trait" else []
    everywhere = sorted((CRATES / crate / "src").rglob("*.rt"))
    # (of two types of one name each has the calls of its own file)
    defined = [it for it in everywhere if any(re.match(rf"pub.* (?:struct|enum) {last}\b", row) for row in read(it))]
    for source in everywhere if len(defined) < 2 else [file]:
        rows = read(source)
        for i in (i for i, row in enumerate(rows) if row.startswith("impl")):
            trait, _, kind = unbracketed(header(rows, i)[0])[len("impl") :].rpartition(" for ")
            if kind.split(" where")[0].strip() == last:
                if trait:
                    has.append(trait.strip())
                else:
                    calls += calls_in(rows, i, "pub ")
    types, wants = header(lines, at)
    if noun == "fn":
        calls = [Call(last, types, words_above(lines, at), wants)]
    return Item(noun, name, types, words_above(lines, at), file, has, list(parts_in(lines, at, noun)), calls)


def rows() -> Iterator[Tuple[str, List[str]]]:
    """What docs/api.txt says of the calls of a pattern: what refuses them, what they cost, which example shows them."""
    for line in read(DOCS / "api.txt"):
        if line and not line.startswith("#"):
            calls, *cells = (it.strip() for it in line.split("|"))
            yield from ((it, (cells + [""])[:3]) for it in calls.split())


class Facts:
    """What is told of calls beside their sources."""

    def __init__(self, known: List[Item]) -> None:
        self.rows = list(rows())
        self.used: Set[str] = set()
        self.wrong: List[str] = []
        self.errors = {"AllocError": ["AllocError"]}
        for it in known:
            if it.noun == "enum":
                self.errors[it.name] = [re.split(r"[({ ]", part)[0] for part, _ in it.parts]
            elif it.noun == "struct" and not it.parts and not it.calls and "Copy" in it.has:
                self.errors[it.name] = [it.name.split("::")[-1]]

    def causes(self, crate: str, call: Call) -> List[str]:
        """The variants of the error that a call answers."""
        for name in re.findall(r"\b[A-Z]\w+", call.error()):
            for it in (name, f"{crate}::{name}", f"congee::{name}"):
                if it in self.errors:
                    return self.errors[it]
        return []

    def of(self, item: Item, call: Call) -> List[str]:
        """What refuses a call, what it costs, and which example is told to show it."""
        name = item.name if item.noun == "fn" else f"{item.name}::{call.name}"
        known = self.causes(item.name.split("::")[0], call)
        told = [", ".join(known) if len(known) < 3 else "", "", ""]
        for pattern, cells in self.rows:
            if fnmatchcase(name, pattern):
                self.used.add(pattern)
                told = [new or old for new, old in zip(cells, told)]
        if not told[1] or known and not told[0]:
            self.wrong.append(f"docs/api.txt doesn't tell what {name} costs, or what refuses it")
        for it in re.findall(r"\b[A-Z]\w+", told[0]) if known else []:
            if it not in known:
                self.wrong.append(f"docs/api.txt: {name} isn't refused as {it}, its error has {', '.join(known)}")
        return told

    def unused(self) -> List[str]:
        return [f"docs/api.txt: no call is named {it}" for it, _ in self.rows if it not in self.used]


class Shown(NamedTuple):
    """A function of an example, with the types that are at hand in it."""

    file: str
    name: str
    body: str
    types: Set[str]


class Examples:
    """Which function of the examples makes a call."""

    def __init__(self, known: List[Item]) -> None:
        self.giving = [(it.name, call) for it in known for call in it.calls]
        self.types = {it.name for it in known if it.noun != "fn"}
        self.functions = [it for file in EXAMPLES for it in self.functions_in(file)]

    @staticmethod
    def named_in(text: str) -> Dict[str, str]:
        """The types that an example uses, each with its names there: its own, and those of what the example makes of it."""
        names = {}
        for crate, tree in re.findall(r"^use (\w+)::\{?([^;]+?)\}?;", text, re.M):
            names.update({f"{crate}::{it}": it for it in re.findall(r"\w+", tree)})
        for block, own in re.findall(r"^((?:pub(?:\([^)]*\))? )?(?:type|struct|enum) (\w+).*?(?:;$|^\}))", text, re.M | re.S):
            names.update({name: f"{it}|{own}" for name, it in names.items() if re.search(rf"\b(?:{it})\b", block)})
        return names

    def functions_in(self, file: Path) -> Iterator[Shown]:
        lines, inside = read(file), ""
        names = self.named_in("\n".join(lines))
        for i, line in enumerate(lines):
            inside = line if line.startswith("impl") else inside if line != "}" else ""
            start = re.match(r"(\s*)(?:pub(?:\([^)]*\))? )?fn (\w+)", line)
            if start:
                last = next(k for k in range(i, len(lines)) if lines[k].startswith(start[1] + "}"))
                body = "\n".join([inside, *lines[i : last + 1]])
                named = {it for it, words in names.items() if re.search(rf"\b(?:{words})\b", body)}
                yield Shown(file.stem, start[2], body, self.at_hand(body, named))

    def at_hand(self, body: str, named: Set[str]) -> Set[str]:
        """The types that a function names, and those that the calls give which it makes of them."""
        more = set(named)
        for name, call in self.giving:
            if name in named and re.search(rf"(?:\.|::){call.name}\(", body):
                crate = name.split("::")[0]
                more |= {f"{crate}::{it}" for it in re.findall(r"\b[A-Z]\w+", call.types)} & self.types
        return more if more == named else self.at_hand(body, more)

    def of(self, item: Item, call: Call) -> str:
        """The shortest function that makes the call."""
        if item.noun == "fn":
            made = rf"\b{call.name}\("
        elif "self" in call.types:
            made = rf"\.{call.name}\("
        else:
            made = rf"\b{item.name.split('::')[-1]}(?:::<.*?>)?::{call.name}\("
        shown = [it for it in self.functions if item.name in it.types and re.search(made, it.body.partition("{")[2])]
        shortest = min(shown, key=lambda it: len(it.body), default=None)
        return f"`{shortest.name}` in [{shortest.file}]" if shortest else ""


def is_free_law(item: Item) -> bool:
    return item.noun == "fn" and item.calls[0].is_law()


def law_line(law: Call) -> str:
    return f"- law `{law.types}`: {first_sentence(law.words)}"


def cell(text: str) -> str:
    return text.replace("|", "\\|").replace("\n", " ")


def first_sentence(words: str) -> str:
    return re.split(r"(?<=[\w)`]\.)\s(?=[A-Z`])", words)[0]


def drawn(item: Item, facts: Facts, examples: Examples) -> Iterator[str]:
    """A type, or a call of no type."""
    yield f"\n### {item.name}\n"
    if item.noun != "fn":
        yield f"`{item.noun} {re.sub(r'^(struct|enum|trait|type) ', '', item.types)}`: {item.words}\n"
    has = [f"`{it}`" for it in dict.fromkeys(item.has) if it not in SILENT]
    if has:
        yield f"It has {', '.join(has)}.\n"
    if any(words for _, words in item.parts):
        yield f"| {'Variant' if item.noun == 'enum' else 'Field'} | What it is |\n|---|---|"
        yield from (f"| `{cell(part)}` | {cell(words)} |" for part, words in item.parts)
        yield ""
    elif item.parts:
        yield f"{'Variants' if item.noun == 'enum' else 'Fields'}: {', '.join(f'`{part}`' for part, _ in item.parts)}.\n"
    calls = [it for it in item.calls if not it.is_law()]
    if calls:
        yield "| Call | What it does | Refused as | Cost | Example |\n|---|---|---|---|---|"
    for it in calls:
        wants = f" *Wants* {it.wants}." if it.wants else ""
        refused, cost, example = facts.of(item, it)
        example = (example or examples.of(item, it)).replace("none", "")
        yield f"| `{cell(it.types)}` | {cell(first_sentence(it.words) + wants)} | {refused} | {cost} | {example} |"
    laws = [law_line(it) for it in item.calls if it.is_law()]
    if laws:
        yield "\n" + "\n".join(laws)


def page() -> Tuple[str, List[str]]:
    """The page, and what is wrong with what it is drawn from."""
    known = {crate: list(items(crate)) for crate in LIBRARIES}
    everything = [it for crate in LIBRARIES for it in known[crate]]
    facts, examples = Facts(everything), Examples(everything)
    text = [HEAD]
    for crate in LIBRARIES:
        named = (it.name for it in known[crate] if not is_free_law(it))
        anchors = (f"[{it.partition('::')[2]}](#{re.sub('[^a-z0-9_]', '', it.lower())})" for it in named)
        text += [f"\n## `{crate}`\n", ", ".join(anchors) + "."]
        for it in known[crate]:
            if not is_free_law(it):
                text += drawn(it, facts, examples)
        laws = [law_line(it.calls[0]) for it in known[crate] if is_free_law(it)]
        text += [f"\n### {crate}: laws of no type\n", *laws] if laws else []
    text += ["", *(f"[{it.stem}]: ../crates/trial/src/examples/{it.name}" for it in EXAMPLES)]
    return re.sub(r"\n{3,}", "\n\n", "\n".join(text)) + "\n", facts.wrong + facts.unused()


def main() -> int:
    text, wrong = page()
    file = DOCS / "API.md"
    if sys.argv[1:] == ["--compare"]:
        stands = file.read_text(encoding="utf-8") if file.is_file() else ""
        wrong += difflib.unified_diff(stands.split("\n"), text.split("\n"), "docs/API.md", "as the sources have it", n=0, lineterm="")
    else:
        file.write_text(text, encoding="utf-8")
    print(*wrong, f"{int(not wrong)} passed, {int(bool(wrong))} failed", sep="\n")
    return bool(wrong)


if __name__ == "__main__":
    sys.exit(main())
