#!/usr/bin/env python3
"""Tests what the inline functions of vulfsjor.h and of libb2/blake2.h pass to the library, for lengths beyond 2^32 and
2^63, and what they return. Functions of a program stand for the library, print their arguments and return what the test
chooses. Nothing is hashed.

    c/tests/passed_arguments.py FOLDER/include >passed_arguments.c         the program, with each call of vulfsjor.h
    cc -std=c99 -I FOLDER/include passed_arguments.c -o passed_arguments
    ./passed_arguments | c/tests/passed_arguments.py FOLDER/include said   compares what it prints

With -I c -DCHOOSE_ONE=passes '-DCHOOSE_FUNCTIONS="thunks.h"' the calls go through thunks.h, as on Windows and macOS,
and the functions of the program stand for the assembly."""

import re
import sys

ANY = "*"  # an address that is not null
ANSWERS = 0, 0xaaaaaaaaaaaaaaaa
# An argument reaches the parameters of these names, or of its own, in whatever order. What a call leaves out is a
# pointer that is not null, or 0.
NAMES = {"S": ["state"], "in": ["input"], "P": ["block"], "outlen": ["out_length", "output_size"],
         "xoflen": ["xof_length"], "inlen": ["input_length", "message_length"],
         "length": ["length", "a_length", "b_length"], "pieces": ["inputs"],
         "count": ["count", "state_count", "input_count"]}
# Which may be null and 0, but for these functions.
NULLS = {"in": "", "key": "_(init_key|derive_key|mac)", "salt": "", "personal": "", "tag": "", "context": "",
         "digests": "_of_leaves", "a": "", "b": "", "length": "", "out": "(?<!squeeze)"}
NO_CALLS = "text|bytes|digit|bin2hex|hex2bin|null_message|argument_name|is_half_key|are_refused"
PROGRAM = r"""#ifdef CHOOSE_ONE
#include "choose.c"
#define OF_LIBRARY(type, name) OF_TEXT type name##_one
#else
#define OF_LIBRARY(type, name) type name
#include <stdint.h>
uint32_t vulfsjor_library_version(void) { return 7; }
#endif
#include <stdio.h>
#include <vulfsjor-libb2/blake2.h>
static uint64_t state[999], answer;
static vulfsjor_message messages[3] = {{"", 1}, {"", 2}, {"", 0}};
static volatile uint64_t zero; /* the compiler knows no number */
static void show(uint64_t argument) {
    if (argument == (uintptr_t)state) printf(" state");
    else if (argument == (uintptr_t)messages) printf(" messages");
    else printf(" %llx", (unsigned long long)argument);
}
#define NUMBER(x) (zero + 0x##x##u)
#define ADDRESS(x) ((void *)(uintptr_t)NUMBER(x))
#define RETURNS(type, call) printf("= %llx\n", (unsigned long long)(type)(call))
"""


def header_prototypes(include, header="vulfsjor.h"):
    """The type and the parameters, each a type and a name, of each function of a header, by its name."""
    with open(f"{include}/{header}", encoding="utf-8") as file:
        text = re.sub(r"/\*.*?\*/|^#.*?$", "", file.read(), flags=re.S | re.M)
    text = re.sub(r"(\w+)\[VULFSJOR_\w+\]", r"*\1", text)  # an array, which is passed as a pointer
    found = {}
    for kind, name, words in re.findall(
            r"\b(int|void|\w+_t|vulfsjor_argument)\s+(vulfsjor_\w+)\(([^(){};]*)\)\s*[;{]", text):
        words = (" ".join(word.split()) for word in words.split(",") if word != "void")
        found[name] = kind, [re.fullmatch(r"(.*?)(\w+)", word).groups() for word in words]
    return found


class GeneratedCalls:
    """The calls in C, and the lines that they print."""

    def __init__(self, include):
        self.all = {name: given for name, given in header_prototypes(include).items()
                    if not re.search(f"_({NO_CALLS})$|^vulfsjor_leaf$", name)}
        self.library = {name: given for name, given in self.all.items() if "_ffi_" in name}
        self.code, self.lines = [], []
        for name, (_, parameters) in self.all.items():
            if "param_refused" in name or "tree_refused" in name or "version" in name:
                continue  # edge_cases.c and conformance.c have these
            if name.endswith("_refused"):
                self.add_refusing_calls(name, len(parameters))
                continue
            for is_least in (False, True) if name not in self.library else (False,):
                self.add_passing_calls(name, parameters, is_least)
            if name.endswith("_load") and name not in self.library:  # whose bytes no state is saved as
                self.add_call(f"{name}((void *)state, NULL, NUMBER(113))", "int", [], returned=2**64 - 1)
            if ("uint64_t ", "leaf_length") in parameters:
                self.add_passing_calls(name, parameters, False, too_long=True)
        for family, most in ("b", 64), ("s", 32), ("bp", 64), ("sp", 32):
            self.add_libb2_calls(f"blake2{family}", most)

    def add_call(self, call, kind, wanted, answers=ANSWERS, returned=None):
        """Adds a call, which makes these calls of the library and returns what the library answers."""
        for answer in answers:
            self.code.append(f"answer = {answer}u; " + (f"RETURNS({kind}, {call});" if kind != "void" else
                                                        f"{call}; puts(\"=\");"))
            bits = 64 if kind in ("size_t", "uint64_t") else 32
            value = answer % 2**bits if returned is None else returned
            if kind.startswith("int") and value >> 31:
                value |= 2**64 - 2**32
            self.lines += wanted + [["=", f"{value:x}"] if kind != "void" else ["="]]

    def add_passing_calls(self, name, parameters, is_least, too_long=False):
        """A call that passes its arguments to the function of its name: other addresses and long lengths; or null and
        0, wherever that is allowed. Leaves that are too long for the library have 0 bytes there."""
        values, arguments = {}, []
        of = name if name in self.library else name.replace("vulfsjor_", "vulfsjor_ffi_")
        if of not in self.library or of.endswith("_init") and "tree" not in of:
            of = re.sub("(_short)?_mac$", "", re.sub("_init.*", "_init_salt_personal", of))
        for i, (kind, word) in enumerate(parameters, 1):
            text = re.sub("len$", "", word)
            is_null = is_least and text in NULLS and not (NULLS[text] and re.search(NULLS[text] + "$", name))
            value, argument = f"{i:x}0000000{i:x}000000{i:x}", "NUMBER({})"
            if "state *" in kind or "message *" in kind:
                value, argument = ("messages", "{}") if "message *" in kind else ("state", "(void *){}")
            elif kind.endswith("*"):
                value, argument = (ANY, "NULL") if is_null else (f"{i:x}00", "ADDRESS({})")
            elif kind == "int ":  # a flag, whose low bits are zeros
                value, argument = ("0", "0") if is_least else ("1", "-65536")
            elif word == "leaf_length" and too_long:
                value, argument = "0", f"NUMBER({i:x}00000005)"
            elif kind == "uint32_t " or word == "leaf_length":
                value, argument = f"fffffff{i:x}", f"({kind})NUMBER({{}})"
            elif word == "count" or is_null:
                value = "3" if word == "count" else "0"
            arguments.append(argument.format(value))
            for to in NAMES.get(word, [f"{text}_length" if text != word else word]):
                values[to] = value
        if name.endswith("_many") and name != of and "output_size" in values:  # the room is a product
            values["out_length"] = f"{3 * int(values['output_size'], 16) % 2**64:x}"
        if name.endswith("_verify") and name != of:
            self.code.append("memset(state, 16, sizeof state);")  # it has a key and a digest that is no short tag
        if name.endswith("_init_param") and name != of:
            values["block_length"] = "20" if "blake2s" in name else "40"
        if name.endswith("_save") and name != of:  # the length of its array
            values["out_length"] = f"{147 if 'blake2s' in name else 275:x}"
        self.add_call(f"{name}({', '.join(arguments)})", self.all[name][0],
                  [[of] + [values.get(word, ANY if kind.endswith("*") else "0") for kind, word in self.library[of][1]]])

    def add_refusing_calls(self, name, count):
        """What _refused tries, after which it wipes the state with the key. It ends at the first refusal."""
        init, wipe = (name.replace("vulfsjor_", "vulfsjor_ffi_").replace("refused", end)
                      for end in ("init_salt_personal", "wipe"))
        none, arguments = [ANY, "0"], ["NUMBER(100000001)"] + ["ADDRESS({0}00)", "NUMBER({0}00000001)"] * 3
        first = [init, ANY, "100000001", *none, *none, *none]
        tries = [first, [init, ANY, "1", "200", "200000001", ANY, "0", ANY, "0"], [wipe, ANY],
                 [init, ANY, "1", *none, "300", "300000001", *none], [init, ANY, "1", *none, *none, "400", "400000001"]]
        call = ", ".join(text.format(2 + (i - 1) // 2) for i, text in enumerate(arguments)) + ", NULL" * (count - 7)
        self.add_call(f"{name}({call})", "int", tries, (0,))
        self.add_call(f"{name}({call})", "int", [first], (1,), 2)

    def add_libb2_calls(self, name, most):
        """The calls by a name of libb2, which work on its state, and of which final sets the flag that the state has;
        and too long outputs."""
        of, size = f"vulfsjor_ffi_{name}_", f"{most:x}"
        pair, text = ["300", "400000004"], "ADDRESS(300), NUMBER(400000004)"
        self.code.append(f"static {name}_state {name}_run;")
        for call, arguments, passed in (
                ("init", "NUMBER(200000002)", ["init_salt_personal", ANY, "200000002", *[ANY, "0"] * 3]),
                ("init_key", f"NUMBER(200000002), {text}", ["init_key", ANY, "200000002", *pair]),
                ("init_param", "(void *)state", ["init_param", ANY, "state", size]),
                ("update", text, ["update", ANY, *pair]),
                ("final", f"ADDRESS(300), {name}_run.outlen = {most}", ["final", ANY, "300", size])):
            if call != "init_param" or name[-1] != "p":
                self.add_call(f"{name}_{call}(&{name}_run, {arguments})", "int", [[of + passed[0], *passed[1:]]])
        if name[-1] != "p":
            self.code.append(f"{name}_run.outlen = {most}, {name}_run.last_node = 2;")
            self.add_call(f"{name}_final(&{name}_run, ADDRESS(300), {most})", "int",
                      [[of + "set_last_node", ANY, "1"], [of + "final", ANY, "300", size]], (0,))
        self.code.append(f"{name}_run.outlen = {most};")
        self.add_call(f"{name}_final(&{name}_run, ADDRESS(300), NUMBER(1000000{size}))", "int", [], returned=2**64 - 1)
        call = "((void *)state, ADDRESS(200), ADDRESS(300), NUMBER({}), NUMBER(500000005), NUMBER(600000006))"
        self.add_call(name + call.format(f"1000000{size}"), "int", [], returned=2**64 - 1)
        for function in [name, "blake2"] if name == "blake2b" else [name]:
            wanted = [[of[:-1], ANY, size, "200", "500000005", "300", "600000006"]]
            self.add_call(function + call.format(size), "int", wanted, (0,))
            self.add_call(function + call.format(size), "int", wanted, (1,), 2**64 - 1)

    def c_program_lines(self):
        """The program in C."""
        yield PROGRAM
        for name, (kind, parameters) in self.library.items():
            words = ", ".join(f"{kind}{word}" for kind, word in parameters) or "void"
            shown = "".join(f" show({'(uintptr_t)' * kind.endswith('*')}{word});" for kind, word in parameters)
            answer = f" return ({kind})answer;" if kind != "void" else ""
            yield f"OF_LIBRARY({kind}, {name})({words}) {{ printf(\"{name}\");{shown} puts(\"\");{answer} }}"
        yield from ("int main(void) {", *self.code, "return vulfsjor_version() != vulfsjor_library_version(); }")


def main():
    calls = GeneratedCalls(sys.argv[1])
    if len(sys.argv) == 2:
        print(*calls.c_program_lines(), sep="\n")
        return 0
    said = [line.split() for line in sys.stdin]
    wrong = [f"{' '.join(got)}\nbut not: {' '.join(wanted)}" for got, wanted in zip(said, calls.lines)
             if len(got) != len(wanted) or any(there != given and (given != ANY or there == "0")
                                               for there, given in zip(got, wanted))]
    wrong += [f"{name} is not called" for name in sorted(calls.library.keys() - {line[0] for line in said if line})]
    print(*wrong[:9], f"{len(said)} of {len(calls.lines)} lines, {len(calls.library)} functions", sep="\n")
    return bool(wrong) or len(said) != len(calls.lines) or len(calls.library) < 90


if __name__ == "__main__":
    sys.exit(main())
