"""Prints the Test Anything Protocol, which `prove` reads. Not a program."""
import sys

results = []  # whether each test so far has passed


def result(passed, name, why="", skipped=""):
    """Prints the line of a test; after a failed one why, and behind a skipped one the reason."""
    if not results:
        print("TAP version 13")
    results.append(bool(passed))
    name = " ".join(name.replace("#", "\\#").split())
    print(f"{'ok' if passed else 'not ok'} {len(results)} - {name}{skipped and f' # SKIP {skipped}'}")
    if not passed:
        print("".join(f"#     {line}\n" for line in str(why).splitlines()), end="")
    sys.stdout.flush()


def finish():
    """Prints the plan and ends the program, with status 1 if a test failed."""
    print(f"1..{len(results)}")
    sys.exit(not all(results))
