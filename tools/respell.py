#!/usr/bin/env python3
"""respell.py [ROOT]: spells the repository's own definitions and lemmas as today's Rattle does: words in snake case, types in
camel case. Run once, after port.py. It changes names that specs/ and the lemma files of proofs/ declare, where they are
cited in specs/, proofs/, the clauses and ghost imports of src/, and between backticks in README.md and docs/. Names of the
standard library and those that the prover makes for a function's goals stay. Prints names that fall together."""
import collections, glob, os, re, sys

ROOT = sys.argv[1] if len(sys.argv) > 1 else "."
TOKEN = re.compile(r"[^\s(){}\[\].,;:\"«»`|]+")
DECLARED = re.compile(
    r"^\s*(?:(?:pub|abbrev|unfoldable|opaque|data|record) )*([^\s:(){}.,]+)(?:\s*[({].*?[)}])*\s*:(?:\s|$)")

def files(*patterns):
    out = []
    for p in patterns:
        out += glob.glob(os.path.join(ROOT, p), recursive=True)
    return sorted(out)

def goal_file(path):
    parts = os.path.relpath(path, ROOT).split(os.sep)
    return parts[2] == "proofs" and len(parts) > 4

def spelled(name):
    if name[0].isupper():
        return "".join(w[:1].upper() + w[1:] for w in re.split("[-_]", name))
    return name.replace("-", "_")

def code_of(line):
    """A line of antt, cut where its comment begins."""
    at = line.find("--") if not line.lstrip().startswith("--") else 0
    return (line, "") if at < 0 else (line[:at], line[at:])

antt = files("crates/*/specs/**/*.antt", "crates/*/proofs/**/*.antt")
lemma_files = [f for f in antt if not goal_file(f)]

declared = collections.defaultdict(set)
for f in lemma_files:
    if os.path.basename(f) == "Lib.antt":
        continue
    for line in open(f, encoding="utf-8"):
        code, _ = code_of(line)
        if code.startswith("use "):
            continue
        m = DECLARED.match(code)
        if m:
            declared[m.group(1)].add(f)
        # several names of one type
        m = re.match(r"^\s+(?:pub )?([\w'-]+(?: [\w'-]+)+) :\s", code)
        if m:
            for n in m.group(1).split():
                declared[n].add(f)

def own(name):
    """Whether a name is to be respelled: not an operator, and not as it should be."""
    return re.fullmatch(r"[A-Za-z][\w'-]*", name) and spelled(name) != name and (
        "-" in name or (name[0].isupper() and "_" in name))

names = {n: spelled(n) for n in declared if own(n)}

# names that fall together, with each other or with one that stands already
taken = collections.defaultdict(set)
for n in declared:
    taken[names.get(n, n)].add(n)
for new, olds in sorted(taken.items()):
    if len(olds) > 1:
        print("fall together:", new, "from", sorted(olds), sorted({os.path.relpath(f, ROOT) for o in olds for f in declared[o]}))

USE = re.compile(r"^(?:ghost )?use ([^\s{;]+?)(?:\.\{(.*?)\}|\.([^\s.{};]+))?(?: as \S+)?;?\s*$")

def outside(text):
    """Names that a file imports from elsewhere than the repository's definitions and lemmas."""
    found = set()
    for line in text.split("\n"):
        m = USE.match(line.strip())
        if not m:
            continue
        module = m.group(1)
        if re.match(r"Rattle\.(?!std\.|core\.)\w+\.(specs|proofs)\.", module) and ".declared." not in module and not module.endswith(".Goals"):
            continue
        for item in (m.group(2) or "").split(","):
            for word in item.split(" as "):
                found.add(word.strip())
    return found

def aliases(text):
    """Own names under which a file imports others."""
    return {a: spelled(a) for line in text.split("\n") if USE.match(line.strip()) for a in re.findall(r" as ([\w'-]+)", line) if own(a)}

def respell(text, keep, projections, also={}):
    def one(m):
        word, at = m.group(0), m.start()
        if word in also:
            return also[word]
        if word not in names or word in keep:
            return word
        if not projections and at and text[at - 1] == "." and not re.search(r"Rattle\.[\w.]*\.$", text[:at]):
            return word
        return names[word]
    return TOKEN.sub(one, text)

changed = 0
def write(path, old, new):
    global changed
    if old != new:
        changed += 1
        with open(path, "w", encoding="utf-8") as f:
            f.write(new)

for f in antt:
    text = open(f, encoding="utf-8").read()
    keep, also = outside(text), aliases(text)
    goals = goal_file(f)
    if goals:
        keep |= set(re.findall(r"(?m)^(?:abbrev )?(?:pub )?(\S+) : goal\.", text))
    out = []
    for line in text.split("\n"):
        code, comment = code_of(line)
        # the head of a spec file lists its words before a colon
        m = re.match(r"^(--   )([^:]+)(:.*)$", comment)
        if m and not code:
            comment = m.group(1) + respell(m.group(2), set(), True) + m.group(3)
        out.append(respell(code, keep, not goals, also) + comment)
    write(f, text, "\n".join(out))

for f in files("crates/*/src/**/*.rt"):
    text = open(f, encoding="utf-8").read()
    keep, also = outside(text), aliases(text)
    out = []
    for line in text.split("\n"):
        if re.match(r"\s*(ghost use |ghost |requires\b|ensures\b|pub ghost )", line) and not line.lstrip().startswith("//"):
            line = respell(line, keep, True, also)
        out.append(line)
    write(f, text, "\n".join(out))

for f in files("README.md", "docs/*.md"):
    text = open(f, encoding="utf-8").read()
    write(f, text, re.sub(r"`[^`\n]+`", lambda m: respell(m.group(0), set(), True), text))

print(len(names), "names,", changed, "files changed")
