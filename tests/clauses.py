#!/usr/bin/env python3
"""Runs tools/clauses.py over two small crates, with a stand-in for `rt` that knows which proof needs which clause:

    tests/clauses.py
"""
import json
import os
import subprocess
import sys
import tempfile
from pathlib import Path

from tap import finish, result

TOP = Path(__file__).resolve().parent.parent
FILES = {
    "crates.txt": "app: low\nlow:\n", "HANDLES": "Handles allowed: none.\n",
    "crates/app/src/main.rt": "fn main() {\n    first();\n}\n",
    "crates/low/specs/Facts.antt": "pub record AreFacts (n : ℕ) : Type 0 where\n"
                                   "  pub held : n ≡ 1\n  pub dead : n ≤ 2\n",
    "crates/low/proofs/parts/first/Answers.antt": "use goal\n\npub returns-clause-used : goal.returns-clause-used\n"
                                                  "returns-clause-used c = x\n",
    "crates/low/src/parts.rt": """pub fn first() -> u8
    ensures used { result ≡ 1 }
    ensures spare { result ≤ 2 }
    ensures far { result ≤ 3 }
{
    1
}

fn second() -> u8
    ensures { result ≡ 1 }
{
    first() // and not third()
}

fn third() -> u8
    ensures { result ≡ 1 }
{
    second()
}

fn other() -> u8
    ensures used { result ≡ 1 }
{
    "{".len()
}

fn last() -> u8
{
    other() + third()
}
"""}
# The proof, or the crate, that fails without a clause or a conjunct, and the proofs that rest on that.
NEEDS = {"first ensures used": ("second", "third last"), "second ensures": ("third", "last"),
         "third ensures": ("last", ""), "other ensures used": ("last", ""), "first ensures far": ("main", ""),
         "AreFacts.held": ("low", "")}
RT = r"""
import json, re, sys
from pathlib import Path
bin, crate, low = Path(__file__).parent, Path.cwd().name, Path.cwd().parent / "low"
with open(bin / "log", "a") as log:
    print(crate, *sys.argv[1:], file=log)
gone, name, failed, waits = [], "", set(), set()
for line in (low / "src/parts.rt").read_text().splitlines() + (low / "specs/Facts.antt").read_text().splitlines():
    name = (re.search(r"(?:fn|record) (\w+)", line) or ["", name])[1]
    if "(⊥ → ⊥)" in line:
        gone.append(f"{name} {line.split('{')[0].strip()}" if "{" in line else f"{name}.{line.split()[1]}")
for each in gone:
    proof, rest = json.loads((bin / "needs").read_text()).get(each, ("", ""))
    failed.add(proof), waits.update(rest.split())
if "first ensures used" in gone and "clause-used" in (low / "proofs/parts/first/Answers.antt").read_text():
    failed.add("first")
asked = sys.argv[3::2] or {"app": ["main"], "low": ["first", "second", "third", "other", "last"]}[crate]
for each in asked:
    said = "not proved; it calls `low::x`, which is not proved" if each in waits else "not proved"
    print(f"fn {crate}::parts::{each}:", said if each in failed | waits else "proved")
if "low" in failed and crate == "low":
    sys.exit("./proofs/Facts.antt:1:1: error: no")
sys.exit(bool((failed | waits) & set(asked)))
"""
WANTED = """needed low/src/parts.rt first ensures used: low: second
needed low/src/parts.rt other ensures used: low: last
needed low/src/parts.rt second ensures: low: third
needed low/src/parts.rt third ensures: low: last
UNNEEDED low/src/parts.rt first ensures spare
needed low/src/parts.rt first ensures far: app: app::parts::main
needed low/specs/Facts.antt AreFacts.held: low: ./proofs/Facts.antt
UNNEEDED low/specs/Facts.antt AreFacts.dead
6 needed, 2 UNNEEDED, 0 left
"""


def main():
    with tempfile.TemporaryDirectory() as folder:
        tree = Path(folder)
        files = {**FILES, "bin/rt": f"#!{sys.executable}{RT}", "bin/needs": json.dumps(NEEDS),
                 "tools/clauses.py": (TOP / "tools/clauses.py").read_text()}
        for name, text in files.items():
            (tree / name).parent.mkdir(parents=True, exist_ok=True)
            (tree / name).write_text(text)
        (tree / "bin/rt").chmod(0o755)
        command = [sys.executable, str(tree / "tools/clauses.py"), "low"]
        path = {**os.environ, "PATH": f"{tree}/bin:{os.environ['PATH']}"}
        ran = subprocess.run(command, env=path, capture_output=True, text=True)
        result(sorted(ran.stdout.splitlines()) == sorted(WANTED.splitlines()), "Each clause is needed or not",
               f"{ran.stdout}{ran.stderr}instead of\n{WANTED}")
        log = (tree / "bin/log").read_text()
        result("low check --only last --only second\n" in log, "Clauses of several functions go at a time", log)
        listed = subprocess.run([*command, "--list"], capture_output=True, text=True).stdout
        result(listed.count("\n") == 9 and "left low/src/parts.rt second ensures\n" in listed, "All are listed", listed)
    finish()


if __name__ == "__main__":
    main()
