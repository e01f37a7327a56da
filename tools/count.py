#!/usr/bin/env python3
"""Counts the lines of each kind of file that git keeps here, and how many lines of tests, tools and benchmarks there
are for each line of the product, which is all code that is written by hand and installed. Examples, the page in
js/demo and what is generated belong to neither, and tests/machine is counted by itself. The last ratio adds the
definitions, proofs and must-fail edits of Rattle: all that is not product.

    tools/count.py [CLONE]
"""
import collections
import os
import re
import subprocess
import sys

# The kinds, the first whose expression a path matches.
KINDS = [
    ("pages", r".*\.md"),
    ("generated",
     r"js/src/(wasm\w*|build|worker_text)\.js|dist/(?!.*\.(S|h|inc)$).*|.*\.(svg|[1-8]|lock)|bench/results/.*"),
    ("examples, demo", r"crates/blake2_examples/src/.*|.*/examples/.*|js/demo/.*"),
    ("must-fail edits", r"crates/.*/must-fail/.*"), ("Rattle, specs", r"crates/.*/specs/.*"),
    ("Rattle, proofs", r"crates/.*/proofs/.*"),
    ("around: tests in Rattle",
     r"crates/(\w+_tests|blake2_kat|blake2_test_support|blake2/src/tests\.rt|b2_tests)(/.*)?"),
    ("product: Rattle", r"crates/\w+/src/.*"),
    ("around: tests of packages", r"(c|rust|rust-digest|python|js)/(.*/)?(tests/.*|tests\.rs|run_tests\.sh)"),
    ("product: C", r"c/.*|dist/.*"), ("product: Rust", r"rust(-digest)?/.*"), ("product: Python", r"python/.*"),
    ("product: JavaScript", r"js/.*"),
    ("tests/machine", r"(tests|tools)/machine/.*"), ("around: tests, tools", r"(tests|tools)/.*"),
    ("around: bench", r"bench/.*"),
]


def kind_of_file(path):
    return next((kind for kind, expression in KINDS if re.fullmatch(expression, path)), "other")


def main():
    top = sys.argv[1] if len(sys.argv) > 1 else os.path.dirname(os.path.dirname(os.path.abspath(__file__)))
    listed = subprocess.run(["git", "-C", top, "ls-files"], capture_output=True, text=True, check=True)
    paths = listed.stdout.split("\n")
    texts = collections.defaultdict(dict)
    for path in filter(None, paths):
        with open(os.path.join(top, path), encoding="utf-8", errors="replace") as file:
            text = file.read()
        kind = "generated" if "Made by tools/twins.py" in text.partition("\n")[0] else kind_of_file(path)
        texts[kind][path] = text
    lines = {kind: sum(text.count("\n") for text in files.values()) for kind, files in texts.items()}
    for kind in sorted(texts):
        print(f"{kind:28}{len(texts[kind]):6} files {lines[kind]:8} lines")
    product, around = (sum(count for kind, count in lines.items() if kind.startswith(word))
                       for word in ("product", "around"))
    machine = around + lines["tests/machine"]
    whole = machine + sum(lines[kind] for kind in ("Rattle, specs", "Rattle, proofs", "must-fail edits"))
    print(f"{around} lines around {product} of product: {around / product:.2f}; "
          f"with tests/machine {machine / product:.2f}; with definitions, proofs and edits {whole / product:.2f}")
    print(sum(len(text.split()) for text in texts["pages"].values()), "words in pages")


main()
