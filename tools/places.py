#!/usr/bin/env python3
"""Lists places of src/ where an older form may stand: `tools/places.py [POINT..]`, at the top of the repository.

  1 results    two- and three-way enums, numbers for refusals, errors in an Option, errors handed on by a match
  2 twins      functions that are the same but for names, types and numbers
  3 loops      `while`, loops over numbers, counters, searches and folds written as loops
  4 by hand    impls of std's traits, conversions between numbers by a test and a cast, letters compared
  5 repeated   a clause in three or more functions; three or more parameters that go together in three or more functions
  6 buffers    a list with a place or a length beside it, arrays of one length
  7 switches   enums that only say which test or step to run
  8 proofs     answers, by crate

Each line is a candidate, found by its text: whether it is a place of an older form is for a reader to say. Tests are left out.
"""
import re
import sys
from collections import defaultdict
from pathlib import Path

FN = re.compile(r"^( *)(?:pub(?:\(crate\))? )?(?:const )?fn (\w+)", re.M)


def files():
    for path in sorted(Path("crates").glob("*/src/**/*.rt")):
        if path.name != "tests.rt":
            yield path, re.sub(r"//[^\n]*", "", path.read_text())


class Function:
    def __init__(self, path, name, text):
        self.path, self.name = path, name
        body = re.search(r"^ *\{\n(.*?)^ *\}\s*$", text, re.S | re.M)
        one_line = text.rstrip().endswith("}") and body is None
        self.body = body.group(1) if body else text if one_line else ""
        self.head = text[: body.start()] if body else text.split("{")[0]
        found = re.match(r"[^(]*\((.*?)\)(?: ->|\n|$| where)", self.head, re.S)
        self.parameters = tuple(p.strip() for p in re.split(r",(?![^<(\[]*[>)\]])", found.group(1)) if p.strip()) if found else ()
        self.clauses = [re.sub(r"\s+", " ", c[2]) for c in re.findall(r"(requires|ensures)( \w+)? \{ (.*?) \}(?=\n|;)", self.head, re.S)]

    def place(self):
        return f"{self.path}: {self.name}"


def functions():
    for path, text in files():
        starts = [m for m in FN.finditer(text)]
        for m, after in zip(starts, starts[1:] + [None]):
            piece = text[m.start() : after.start() if after else len(text)]
            end = re.search(r"^" + m.group(1) + r"\}", piece, re.M)
            yield Function(path, m.group(2), piece[: end.end()] if end else piece.split(";")[0])


def results():
    for path, text in files():
        for name, body in re.findall(r"enum (\w+)(?:<[^>]*>)? \{\n(.*?)^\}", text, re.S | re.M):
            cases = len(re.findall(r"^    \w+", body, re.M))
            if cases <= 3:
                yield f"{path}: enum {name} has {cases} cases"
        for line in re.findall(r"^ *(?:pub(?:\(crate\))? )?(?:number|place|back|status): (?:u8|usize|&'static str),", text, re.M):
            yield f"{path}: field {line.strip()}"
    for f in functions():
        if re.search(r"-> Option<\w*Fault>|-> Option<Stop>", f.head):
            yield f"{f.place()}: an error in an Option"
        for _ in re.findall(r"Err\((\w+)\) => (?:return )?Err\(\1\)|None => (?:return )?None\b|Ok\(\(\)\) => Ok\(\(\)\)|if let Err\((\w+)\) = [^{]*\{\s*return Err\(\2\)", f.body):
            yield f"{f.place()}: handed on by a match"
        for _ in re.findall(r"Some\((\w+)\) => [^\n]*,\n\s*(?:None|_) => (?:false|Err\(\w+::\w+\)|0)", f.body):
            yield f"{f.place()}: a match on an Option for a default"


def shape(f):
    """The function's tokens, each name by its first place, numbers alike."""
    seen, out = {}, []
    text = f.head.split("\n    ensures")[0].split("\n    requires")[0] + f.body
    text = re.sub(r"\n\s*(requires|ensures)[^\n]*", "", text)
    for token in re.findall(r"b?'[^']*'|b?\"[^\"]*\"|\w+|[^\w\s]", text):
        if token in {"fn", "pub", "let", "mut", "if", "else", "match", "for", "in", "while", "return", "self", "crate", "Ok", "Err", "Some", "None", "Option", "Result", "as"}:
            out.append(token)
        elif re.match(r"[A-Za-z_]", token):
            out.append(str(seen.setdefault(token, len(seen))))
        elif re.match(r"\d", token) or token[0] in "b'\"":
            out.append("#")
        else:
            out.append(token)
    return tuple(t for t in out if t not in ("pub", "crate"))


def twins():
    groups = defaultdict(list)
    for f in functions():
        if len(f.body.split()) >= 3:
            groups[shape(f)].append(f)
    for group in groups.values():
        if len(group) > 1:
            yield f"{len(group)} alike: " + ", ".join(f.place() for f in group)


def loops():
    for f in functions():
        for _ in re.findall(r"\bwhile\b", f.body):
            yield f"{f.place()}: while"
        for _ in re.findall(r"\bfor \w+ in \(?[\w.()]+\.\.", f.body):
            yield f"{f.place()}: for over numbers"
        if re.search(r"\b(?:for|while)\b", f.body):
            for _ in re.findall(r"\w+ [+-]= 1;|\w+ = \w+\.saturating_add\(1\)", f.body):
                yield f"{f.place()}: counter"
            for _ in re.findall(r"for [^{]*\{\s*if [^{]*\{\s*return", f.body):
                yield f"{f.place()}: search by a for"
        for _ in re.findall(r"if \w+ < [\w.]+\.len\(\)(?: && [^{]*)? \{", f.body):
            yield f"{f.place()}: a test for an index"


def by_hand():
    for path, text in files():
        for line in re.findall(r"^impl.* (?:PartialEq|Eq|PartialOrd|Ord|Clone|From<.*>|TryFrom<.*>|Display|fmt::Display|Debug) for .*", text, re.M):
            yield f"{path}: {line.rstrip(' {')}"
    for f in functions():
        if re.search(r"letter\(\w*\)? ?== |\.letter\(\) == ", f.body):
            yield f"{f.place()}: letters compared"
        if re.search(r"(?:<=?|>=?) -?[\w:()]+(?: &&| \|\|| \{)", f.body) and re.search(r" as (?:u8|u16|u32|u64|usize|i32)\b", f.body) and "Option" in f.head + "Result" * ("Result" in f.head) and re.search(r"(Some|Ok)\(", f.body):
            yield f"{f.place()}: a test and a cast"
        if f.name in ("of_byte", "byte", "letter", "number", "of", "kind_word", "cause", "effect", "meaning", "code_of", "kind_code", "kind_in", "by_name", "name", "found", "stopping") and "self" not in f.name:
            yield f"{f.place()}: a conversion under a name"


def repeated():
    clauses, groups = defaultdict(list), defaultdict(list)
    for f in functions():
        for c in set(f.clauses):
            if len(c) > 24 or "≡ true" in c:
                clauses[re.sub(r"\b(self|stack|work)\.(old|new)\b", r"_.\2", c)].append(f)
        for i in range(len(f.parameters)):
            for j in range(i + 1, len(f.parameters)):
                a, b = f.parameters[i], f.parameters[j]
                if "self" not in (a, b) and not a.startswith(("heap", "rt:")):
                    groups[(a, b)].append(f)
    for clause, fs in sorted(clauses.items(), key=lambda x: -len(x[1])):
        if len(fs) >= 3:
            yield f"{len(fs)} functions of {', '.join(sorted({f.path.parts[1] for f in fs}))}: {clause}"
    for pair, fs in sorted(groups.items(), key=lambda x: -len(x[1])):
        if len(fs) >= 5:
            yield f"{len(fs)} functions of {', '.join(sorted({f.path.parts[1] for f in fs}))} take ({', '.join(pair)})"


def buffers():
    for path, text in files():
        for name, body in re.findall(r"struct (\w+)[^{;]*\{\n(.*?)^\}", text, re.S | re.M):
            if re.search(r"\[[^\]]*\]|Vec<", body) and re.search(r": (?:usize|u8|u16),", body):
                yield f"{path}: struct {name} has a list and a number"
            if len(re.findall(r": &'a (?:mut )?\[", body)) > 1 or len(re.findall(r": Vec<", body)) > 1:
                yield f"{path}: struct {name} has several lists"
        lengths = re.findall(r"const (\w+): \[.*; (\d+)\]", text)
        for n in {n for _, n in lengths}:
            names = [c for c, m in lengths if m == n]
            if len(names) > 1:
                yield f"{path}: {len(names)} constant arrays of {n}: {', '.join(names)}"
    for f in functions():
        if re.search(r"\bat: usize\b|\bfrom: usize\b|\bdone: usize\b", ", ".join(f.parameters)) and re.search(r"&(?:'a )?(?:mut )?\[", ", ".join(f.parameters)):
            yield f"{f.place()}: a list and a place in it"


def switches():
    for path, text in files():
        for name in re.findall(r"enum (\w+)", text):
            if re.search(rf"impl {name} \{{\n *(?:pub(?:\(crate\))? )?fn (?:passes|run|apply|test)\b", text):
                yield f"{path}: enum {name} says which test to run"
    for f in functions():
        arms = re.findall(r"^ *\w+::\w+(?:\([^)]*\))? => (?:\w+\()?(\w+)\(", f.body, re.M)
        if len(set(arms)) >= 4:
            yield f"{f.place()}: a match that calls {len(set(arms))} functions"


def proofs():
    for crate in sorted(Path("crates").iterdir()):
        files = list(crate.glob("proofs/*/**/*.antt"))
        answers = sum(len(re.findall(r"^pub ", p.read_text(), re.M)) for p in files if p.name == "Answers.antt")
        lemmas = sum(len(re.findall(r"^(?:pub )?[\w'-]+ : ", p.read_text(), re.M)) for p in crate.glob("proofs/*.antt"))
        lines = sum(len(p.read_text().splitlines()) for p in crate.glob("proofs/**/*.antt"))
        if lines:
            yield f"{crate.name}: {answers} answers, {lemmas} lemmas, {lines} lines"


POINTS = [results, twins, loops, by_hand, repeated, buffers, switches, proofs]

for n in [int(a) for a in sys.argv[1:]] or range(1, 9):
    found = list(POINTS[n - 1]())
    print(f"{n} {POINTS[n - 1].__name__.replace('_', ' ')}: {len(found)}")
    for line in found:
        print("   ", line)
