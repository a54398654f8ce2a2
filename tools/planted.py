#!/usr/bin/env python3
"""Writes docs/PLANTED.md from a saved log of the gate: `.ci/run | tee LOG`, then `tools/planted.py LOG`, at the top of the repository.

By crate, in the order of crates.txt: each planted fault, the line as it stands and as it is changed, and what refused it: the place that
the log names, and the clause or the obligation that no longer holds there. The log gives a place and the name of a goal; the clause is read
from the contract of the function at that place. It fails where the log says nothing of a fault, or that it was not refused.
"""
import re
import sys
from pathlib import Path

PAGE = Path("docs/PLANTED.md")
TRIED = re.compile(r"^(?:rt: )?must-fail (\w+)/([\w.-]+)\.edit: (.*)")
NOTE = re.compile(r"(?:note: )?(?:\./)?((?:src|proofs)/\S+?):(\d+):\d+: (?:error: )?(.*)")
FN = re.compile(r"^( *)(?:pub(?:\(crate\))? )?(?:const )?fn (\w+)", re.M)
GHOST = re.compile(r"^    ghost (?:\w+_gives|output) = \{ (.*) \};$", re.M)
CLAUSE = re.compile(r"^ *(requires|ensures)(?: (\w+))? \{ (.*) \};?$", re.M)
WIDEST = 120


class Function:
    """A function of src/: its name, its first and last line, its clauses, and what its impl says of a trait of the library."""

    def __init__(self, name, first, text, ghosts):
        self.name, self.first, self.last = name, first, first + text.count("\n")
        self.clauses, self.ghosts = CLAUSE.findall(text), ghosts

    def clause(self, kind, name):
        """Its clause of this name, which the log may have cut short; where the goal has none, its only clause."""
        mine = [(n, c) for k, n, c in self.clauses if k == kind]
        exact = [(n, c) for n, c in mine if n == name] or [(n, c) for n, c in mine if name and n.startswith(name)]
        found = exact if name else mine
        return found[0] if len(found) == 1 else None


def functions(path):
    text = path.read_text()
    for m in FN.finditer(text):
        rest = text[m.start() :]
        opens, stops = re.search(r"\{$", rest, re.M), re.search(r";$(?!\n +(?:requires|ensures))", rest, re.M)
        has_body = opens and not (stops and stops.start() < opens.start())
        end = re.search(rf"^{m[1]}\}}", rest, re.M) if has_body else stops
        before = text[text.rfind("\nimpl", 0, m.start()) : m.start()] if m[1] else ""
        attributes = re.search(r"(?: *#\[.*\]\n)*\Z", text[: m.start()])[0]
        yield Function(m[2], text.count("\n", 0, m.start() - len(attributes)) + 1, attributes + (rest[: end.end()] if end else rest), GHOST.findall(before))


def function_at(path, line):
    found = [f for f in functions(path) if f.first <= line <= f.last] if path.is_file() else []
    return found[-1] if found else None


def contracts(name):
    """Every function of this name that has a contract: a method of a trait has it in the trait, a function that is called in its own crate."""
    for path in sorted(Path("crates").glob("*/src/**/*.rt")):
        yield from (f for f in functions(path) if f.name == name and f.clauses)


def code(text, widest=WIDEST):
    text = re.sub(r"\s+", " ", text).strip()
    text = text if len(text) <= widest else text[: widest - 3] + " .."
    return "`" + text.replace("|", "\\|") + "`"


def code_pair(old, new):
    """Both lines as code; of long ones the part from shortly before the first difference on."""
    same = next((i for i, (a, b) in enumerate(zip(old, new)) if a != b), min(len(old), len(new)))
    begin = max(0, same - WIDEST // 3) if max(len(old), len(new)) > WIDEST else 0
    return [code((".. " if begin else "") + text[begin:], 2 * WIDEST) for text in (old, new)]


def closed(text):
    """A text that the log may have cut within code."""
    return text.replace("|", "\\|") + ("`" if text.count("`") % 2 else "")


def clause_of(f, kind, name, called):
    """The clause, of the function itself or else of its impl, of the trait or of the function that is called."""
    if f.ghosts and not called:
        return f"what its impl says: {code(f.ghosts[-1])}"
    for one in ([] if called else [f]) + list(contracts(called or f.name)):
        found = one.clause(kind, name)
        if found:
            return (found[0] + ": " if found[0] else "") + code(found[1])
    return f"clause {code(name)}" if name else "its contract"


def fact(crate, told):
    """Where the fault is refused and what no longer holds there."""
    m = NOTE.search(told)
    if not m:
        return closed(told)
    place, said = f"{m[1]}:{m[2]}", m[3]
    f = function_at(Path("crates") / crate / m[1], int(m[2]))
    goal = re.search(r"\(`([\w-]+)", said)
    if m[1].startswith("proofs/") or not f or not goal:
        return closed(f"{place}: {said}")
    clause = re.search(r"-clause-(\w*)$", goal[1])
    name = clause[1] if clause else None
    called = re.search(r"what `(\w+)` requires", said)
    if called:
        lost = f": what {code(called[1])} requires, {clause_of(f, 'requires', name, called[1])}"
    elif "ensures holds" in said:
        lost = f" ensures {clause_of(f, 'ensures', name, None)}"
    else:
        lost = ": that " + re.sub(r"^it is not proved that ", "", said.split(" (`")[0])
    return f"{place}, {code(f.name)}{lost} ({code(goal[1])})"


def pairs(path):
    """The changes of an edit: the file, the text as it stands, the text as it is changed."""
    file = old = ""
    for line in path.read_text().splitlines():
        key, _, value = line.partition(":")
        if key == "file":
            file = value.strip()
        elif key == "old":
            old = value[1:]
        elif key == "new":
            yield file, old, value[1:]


def lines(crate, edit):
    """The lines that the edit changes, whole, as they stand and as they are changed."""
    texts, changed = {}, []
    for file, old, new in pairs(edit):
        text = texts.get(file) or (Path("crates") / crate / file).read_text()
        at = text.find(old)
        begin, end = text.rfind("\n", 0, at) + 1, text.find("\n", at + len(old))
        texts[file] = text[:at] + new + text[at + len(old) :]
        changed.append([re.sub(r"\s+", " ", line).strip() for line in (text[begin:end], text[begin:at] + new + text[at + len(old) : end])])
    return [pair for pair in changed if len({line.replace(" ", "") for line in pair}) > 1]


def row(crate, edit, told):
    old, new = ("<br>".join(side) for side in zip(*(code_pair(*pair) for pair in lines(crate, edit))))
    words = re.sub(r"[_-]", " ", edit.stem)
    return f"| {words} | {old} | {new} | {fact(crate, told)} |"


def crates():
    return [line.split(":")[0].split()[0] for line in Path("crates.txt").read_text().splitlines() if line.strip() and not line.startswith("#")]


def tried(log):
    """What the log says of each fault, by its crate and its name."""
    found = (TRIED.match(line) for line in Path(log).read_text().splitlines())
    return {(m[1], m[2]): m[3] for m in found if m}


def main(log):
    said, tables, missing, count = tried(log), [], [], 0
    for crate in crates():
        rows = []
        for edit in sorted(Path("crates", crate, "must-fail").glob("*.edit")):
            told = said.get((crate, edit.stem), "")
            if told.startswith("refused, as it must be"):
                rows.append(row(crate, edit, told.removeprefix("refused, as it must be").lstrip(": ")))
            else:
                missing.append(f"{crate}/{edit.stem}: {told or 'not in the log'}")
        if rows:
            count += len(rows)
            tables.append("\n".join([f"## {crate}", "", "| planted fault | the line | with the fault | refused at |", "|---|---|---|---|", *rows]))
    head = [
        "# Planted faults",
        "",
        "A planted fault is a wrong line of code that stands in a file of a crate's `must-fail/`, and not in the crate: the check of the crate with that line must be refused, since a contract",
        f"no longer holds. There are {count}, over {len(tables)} crates. `.ci/run` tries each, and fails where one is still proved or could not be tried.",
        "",
        "The tables are written by `tools/planted.py` from a log of `.ci/run`. The last column has the first fact that no longer holds: the file and line, the function, and its clause, what a",
        "function that it calls requires, or what else has no proof there; then the name of the goal, which says at which return or branch. A method's clause may stand at its trait.",
        "Where it names a file of `proofs/`, the proof written for that function no longer fits the code, and the log says no more. Lines are counted with the fault in place. Long lines and",
        "clauses are cut, which `..` shows.",
    ]
    PAGE.write_text("\n".join(head) + "\n\n" + "\n\n".join(tables) + "\n")
    print(f"{PAGE}: {count} planted faults, {len(tables)} crates")
    for line in missing:
        print(f"left out: {line}", file=sys.stderr)
    return 1 if missing else 0


if len(sys.argv) != 2:
    sys.exit(__doc__)
sys.exit(main(sys.argv[1]))
