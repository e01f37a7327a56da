#!/usr/bin/env python3
"""Writes a program that calls all functions of vulfsjor.h and vulfsjor_threads.h. wrong_lines.py tests that gcc warns
of the calls that are marked as wrong:

    c/tests/warned_calls.py FOLDER/include >warned_calls.c

Each pointer that has a length points in turn to one byte or element less, and so does an array. The output of _many is
left out, whose length is a product, which no attribute of gcc can say. A status is ignored, which has no warning for an
init, which makes later calls fail too, load, reset and set_last_node."""

import re
import sys

from passed_arguments import header_prototypes

STATES = "blake2b", "blake2s", "blake2bp", "blake2sp", "blake2xb", "blake2xs", "tree"
OTHERS = "text|bytes|is_half_key|are_refused|ffi_.*"
LENGTHS = {"a": "length", "b": "length", "bytes": "length", "messages": "count", "pieces": "count", "states": "count"}
ARRAY = "unsigned char *"  # that of save


def c_functions(include):
    """Yields the name, the type and the parameters, each a type and a name, of each function for C."""
    for header in "vulfsjor.h", "vulfsjor_threads.h":
        for name, (kind, parameters) in header_prototypes(include, header).items():
            if kind in ("int", "void") and not re.fullmatch(f"vulfsjor_({OTHERS})", name):
                yield name, kind, parameters


def has_length(name, parameters, i):
    """Whether parameter i is an array, or a pointer to bytes or messages whose length is a parameter too."""
    kind, word = parameters[i]
    if kind == ARRAY:
        return True
    is_product = name.endswith("_many") and word == "out"
    return kind.endswith("*") and not is_product and \
        LENGTHS.get(word, word + "len") in (other for _, other in parameters)


def valid_argument(kind, word):
    """A right argument for a parameter."""
    if kind.endswith("state *"):
        return re.search(r"vulfsjor_(\w+)_state", kind)[1] + "_all"
    if kind.endswith("*"):
        return {"const vulfsjor_tree *": "&node", "const vulfsjor_message *": "messages_all"}.get(kind, "bytes_all")
    return "0" if word == "progress" else "8"


def calls_and_validity(include):
    """Yields each call, with right lengths and then with less memory for each pointer, and one whose status is ignored;
    and whether it is right."""
    for name, kind, parameters in c_functions(include):
        if kind == "int":
            yield (bool(re.search("_(init|load|reset|set_last_node)", name)),
                   f"{name}({', '.join('0' * len(parameters))});")
        lengths = [i for i in range(len(parameters)) if has_length(name, parameters, i)]
        for short in [None] + lengths if lengths else []:
            given = [valid_argument(*parameter) for parameter in parameters]
            if parameters[-1][0] == ARRAY:
                given[-1] = f"{'saved' if short is None else 'cut'}_{name.split('_')[1]}"
            elif short is not None:
                given[short] = given[short].replace("_all", "_fewer")
            yield short is None, f"{'status = ' * (kind == 'int')}{name}({', '.join(given)});"


def main():
    every = list(calls_and_validity(sys.argv[1]))
    print("#include <vulfsjor_threads.h>", *(f"static vulfsjor_{name}_state {name}_all[8];" for name in STATES),
          *(f"static vulfsjor_{name}_state {name}_fewer[7];" for name in STATES[:2]),
          *(f"static unsigned char saved_{name}[VULFSJOR_{name.upper()}_SAVEDBYTES], "
            f"cut_{name}[VULFSJOR_{name.upper()}_SAVEDBYTES - 1];" for name in STATES[:2]),
          "static char bytes_all[8], bytes_fewer[7];", "static vulfsjor_message messages_all[8], messages_fewer[7];",
          "static vulfsjor_tree node;", "static volatile int status;", "void calls(void);", "void calls(void) {",
          *(f"    {call}{'' if is_right else ' // NO: .'}" for is_right, call in every), "}", sep="\n")
    return len(every) < 230


if __name__ == "__main__":
    sys.exit(main())
