#!/usr/bin/env python3
"""misuse.py: tries programs that use a run in a wrong way, and sees each refused: `tools/misuse.py`, at the top of the repository.

A run begins only with a table that `admit` passed, uses it up, and ends with `close`; while it stands, the table and its rows cannot be
written. No contract says so: it follows from private fields, moves and borrows. Each program below breaks it in one place. The first one is
right and has to pass, so that the others are refused for what they do wrong and for nothing else. It ends in `N refused, as they must be`.
"""
import re
import shutil
import subprocess
import sys
import tempfile
from pathlib import Path

USES = """#![tactic(auto)]

use admit::{Passed, admit};
use host::host::Host;
use rows::row::Row;
use run::run::{Run, begin};
use sheet::kind::Kind;
use sheet::table::Table;
use store::store::Store;

"""

RIGHT = """pub fn right<S: Store, H: Host>(table: Table<'_>, rows: &[Row], store: &mut S, host: &mut H) {
    let Ok(passed) = admit(table, rows) else { return; };
    let Ok(mut run) = begin(passed, store) else { return; };
    let _ = run.go(store, host, 1);
    let _ = run.close();
}
"""

# name, program, what the compiler has to say
WRONG = [
    ("a closed run goes on", """pub fn wrong<S: Store, H: Host>(table: Table<'_>, rows: &[Row], store: &mut S, host: &mut H) {
    let Ok(passed) = admit(table, rows) else { return; };
    let Ok(mut run) = begin(passed, store) else { return; };
    let _ = run.close();
    let _ = run.go(store, host, 1);
}
""", "moved"),
    ("a passed table begins two runs", """pub fn wrong<S: Store>(table: Table<'_>, rows: &[Row], store: &mut S) {
    let Ok(passed) = admit(table, rows) else { return; };
    let _ = begin(passed, store);
    let _ = begin(passed, store);
}
""", "moved"),
    ("a table passes without admit", """pub fn wrong<'a>(table: Table<'a>, rows: &'a [Row]) -> Passed<'a> {
    Passed { table, rows }
}
""", "private"),
    ("a run goes on by hand", """pub fn wrong<'a>(passed: Passed<'a>, run: Run<'a>) -> Run<'a> {
    Run { passed, ..run }
}
""", "private"),
    ("rows are written while they are passed", """pub fn wrong<S: Store>(table: Table<'_>, rows: &mut [Row], store: &mut S) {
    let Ok(passed) = admit(table, rows) else { return; };
    rows.fill(Row::unreached());
    let _ = begin(passed, store);
}
""", "lent|borrow"),
    ("rows are written while a run is open", """pub fn wrong<S: Store, H: Host>(table: Table<'_>, rows: &mut [Row], store: &mut S, host: &mut H) {
    let Ok(passed) = admit(table, rows) else { return; };
    let Ok(mut run) = begin(passed, store) else { return; };
    rows.fill(Row::unreached());
    let _ = run.go(store, host, 1);
}
""", "lent|borrow"),
    ("a table's cells are written while it is passed", """pub fn wrong<S: Store>(cells: &mut [Kind], rows: &[Row], store: &mut S) {
    let table = Table { procedures: &[], cells, code: &[] };
    let Ok(passed) = admit(table, rows) else { return; };
    cells.fill(Kind::Real);
    let _ = begin(passed, store);
}
""", "lent|borrow"),
]


def copied(top, here):
    """The repository's crates beside one more, `misuse`. What a check kept of them is found again by rt."""
    names = subprocess.run(["git", "ls-files", "crates", "crates.txt"], cwd=top, capture_output=True, text=True, check=True).stdout
    for name in names.splitlines():
        (here / name).parent.mkdir(parents=True, exist_ok=True)
        shutil.copy(top / name, here / name)
    with (here / "crates.txt").open("a") as out:
        out.write("misuse: sheet rules pile paths rows transfer judge admit arith numerals columns store host machine soundness reads instructions frames steps run\n")
    (here / "crates" / "misuse" / "src").mkdir(parents=True)


def tried(here, program):
    """Whether a crate that holds the program passes, and what `rt check` says of it."""
    (here / "crates" / "misuse" / "src" / "lib.rt").write_text(USES + program)
    done = subprocess.run(["rt", "check"], cwd=here / "crates" / "misuse", capture_output=True, text=True)
    return done.returncode == 0, done.stdout + done.stderr


def main():
    with tempfile.TemporaryDirectory() as folder:
        here = Path(folder)
        copied(Path(__file__).resolve().parent.parent, here)
        return try_all(here)


def try_all(here):
    passes, said = tried(here, RIGHT)
    if not passes:
        print("the right program is refused:\n" + said)
        return 1
    print("the right program passes")
    bad = 0
    for name, program, word in WRONG:
        passes, said = tried(here, program)
        errors = [line for line in said.splitlines() if "src/lib.rt" in line and re.search("error", line)]
        if not passes and errors and re.search(word, errors[0]):
            print("refused: %s\n    %s" % (name, errors[0]))
        else:
            bad += 1
            print("NOT REFUSED AS IT MUST BE: %s\n%s" % (name, "\n".join(errors) or said))
    print("%d refused, as they must be" % (len(WRONG) - bad))
    return 1 if bad else 0


sys.exit(main())
