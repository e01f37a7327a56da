#!/usr/bin/env python3
"""Writes the lists of functions in c/choose.c and c/thunks.h from the prototypes of c/include/vulfsjor.h, c/abi.txt and
c/vulfsjor.map, and the signatures of the functions that rust/src/library.rs names. Compares those prototypes with the
exports of crates/blake2_ffi, and structs with those there and in library.rs: names, types and order. With --check it
also compares the five files, and writes nothing.

A function that is new in c/abi.txt gets the node of this version. If a line of an earlier version has changed or is
gone, the library needs another soname, and nothing is written.

usage: tools/exports.py [--check]
"""
import os
import re
import subprocess
import sys
import textwrap

from read_sources import TOP, parse_items, modules_of_crate, read, version

HEADER, CHOOSE, CALLS, LIBRARY = "c/include/vulfsjor.h", "c/choose.c", "c/thunks.h", "rust/src/library.rs"
ABI, MAP = "c/abi.txt", "c/vulfsjor.map"
# The functions of the shared library that are not in the assembly.
IN_C = "uint32_t vulfsjor_library_version(void)", "const char *vulfsjor_library_build(void)"
NUMBERS = {"uint8_t": "u8", "uint16_t": "u16", "uint32_t": "u32", "uint64_t": "u64", "int32_t": "i32",
           "size_t": "usize", "void": ""}
# The structs of the header, by their names without vulfsjor_: the file of Rattle that has each, its name there, and its
# name in Rust if its fields are there too.
STRUCTS = {
    **{f"{hash}_{type_.lower()}": (f"crates/blake2_{folder}/{hash}.rt", type_, None) for folder, type_, hashes in (
        ("state/src", "State", ("blake2b", "blake2s")), ("parallel/src/lanes", "Lanes", ("blake2bp", "blake2sp")),
        ("parallel/src", "State", ("blake2bp", "blake2sp")), ("xof/src/reader", "Reader", ("blake2xb", "blake2xs")),
        ("xof/src", "State", ("blake2xb", "blake2xs"))) for hash in hashes},
    "tree_state": ("crates/blake2_state/src/tree.rt", "TreeState", None),
    "tree": ("crates/blake2_ffi/src/lib.rt", "NodeParameters", "Tree"),
    "message": ("crates/blake2_state/src/many.rt", "Text", "Text"),
    "limits": ("crates/blake2_tree/src/thread_plan.rt", "Limits", "Limits"),
    "plan": ("crates/blake2_tree/src/thread_plan.rt", "Plan", "Plan"),
    "part": ("crates/blake2_tree/src/thread_plan.rt", "Part", "Part"),
}
# What the types are called in the header, besides those.
NAMES = {"NodeParameters": "tree", "Text": "message", "Tree": "tree", "TreeState": "tree_state", "Limits": "limits",
         "Plan": "plan", "Part": "part",
         **{f"Blake2{name}State": f"blake2{name}_state" for name in ("b", "s", "bp", "sp", "xb", "xs")}}
# Names that differ: C's are those of the BLAKE2 document.
SAME = {"persona": "personal", "persona_length": "personal_length", "messages_length": "count",
        "states_length": "state_count", "inputs_length": "input_count", "bytes_length": "length"}

OF_RUST = {"personal": "persona", "personal_length": "persona_length"}
# What library.rs calls the structs.
IN_RUST = {**{f"blake2{name}_state": f"Blake2{name}State" for name in ("b", "s", "bp", "sp", "xb", "xs")},
           "tree_state": "TreeState", **{name: rust for name, (_, _, rust) in STRUCTS.items() if rust}}


def without_comments(text):
    return re.sub(r"/\*.*?\*/|//[^\n]*", "", text, flags=re.DOTALL)


def parse_c_declaration(words):
    """A declaration of C, such as `const uint8_t *a` or `uint64_t rows[8][4]`: its name and its type as in Rust."""
    const, type_, star, name, many = re.fullmatch(r"(const )?(\w+) ?(\*?)(\w+)((?:\[\d+\])*)", words).groups()
    type_ = NUMBERS.get(type_, type_.removeprefix("vulfsjor_"))
    pointer = f"*{'const' if const else 'mut'} " if star else ""
    return name, pointer + (type_ or "u8") + many


def c_name_of_state(name):
    """What State is called in C in a module of this name, or in a struct that C calls so: blake2b_state in others."""
    family = re.search("blake2x?[bs]p?", name)
    return (family[0] if family else "blake2b") + "_state"


def parse_rust_declaration(words, state):
    """The same of Rust and Rattle, where a slice is a pointer and a length. `state` is what State is called in C."""
    name, type_ = words.removeprefix("pub ").removeprefix("pub(crate) ").split(": ", 1)
    type_ = re.sub(r"<'\w+>|'\w+ ", "", type_).replace("LABEL_BYTES", "16")
    type_ = re.sub(r"\[\[(\w+); (\d+)\]; (\d+)\]", r"\1[\3][\2]", type_)
    type_ = re.sub(r"\[(\w+); (\d+)\]", r"\1[\2]", type_)
    type_ = type_.replace("root::State", state.replace("x", ""))
    names = {"State": state, "Lanes": state.replace("_state", "_lanes"), "Reader": state.replace("_state", "_reader"),
             **NAMES}
    type_ = re.sub(r"[A-Z]\w*", lambda m: names.get(m[0], m[0]), type_)
    slice_ = re.fullmatch(r"(&|&mut )\[(\w+)\]", type_)
    if slice_:
        pointer = "*const " if slice_[1] == "&" else "*mut "
        return [(SAME.get(name, name), pointer + slice_[2]), (SAME.get(name + "_length", name + "_length"), "usize")]
    type_ = re.sub("^&mut ", "*mut ", re.sub("^&(?!mut )", "*const ", type_))
    return [(SAME.get(name, name), type_)]


def split_at_commas(text):
    return [" ".join(part.split()) for part in text.split(",") if part.strip() not in ("", "void")]


def header_prototypes():
    """The functions of the header, by name: result and parameters in C, and whether an empty line is above."""
    found = re.findall(r"(^\n)?^(\w+) (vulfsjor_ffi_\w+)\(([^)]*)\);", without_comments(read(HEADER)), re.MULTILINE)
    return {name: (result, split_at_commas(given), bool(empty)) for empty, result, name, given in found}


def parse_signature(head, state):
    """The name of a function of Rust or Rattle, and its signature."""
    name, given, result = re.search(r"fn (\w+)\((.*?)\)(?: -> (\w+))?", head).groups("")
    return name, ([each for one in split_at_commas(given) for each in parse_rust_declaration(one, state)], result)


def rattle_export_signatures():
    for module in modules_of_crate("crates/blake2_ffi/src/lib.rt"):
        state = c_name_of_state("::".join(module.path))
        for item in module.items:
            if item.is_export:
                yield parse_signature(" ".join(" ".join(item.head).split()), state)


def as_rust_parameter(words):
    """A parameter of C as library.rs has it: structs are references, except in arrays of them."""
    name, type_ = parse_c_declaration(words)
    star, _, struct = type_.rpartition(" ")
    if struct in IN_RUST:
        is_array = name in ("messages", "inputs", "states")
        array = f"{star} " if is_array else {"*mut": "&mut ", "*const": "&"}[star]
        type_ = array + IN_RUST[struct]
    return f"{OF_RUST.get(name, name)}: {type_}"


def rust_signatures():
    """rust/src/library.rs, in which each function that it names has the signature of the header."""
    wanted = header_prototypes()

    def signature_of(match):
        result, given, _ = wanted.get("vulfsjor_ffi_" + match[1]) or sys.exit(f"{LIBRARY}: {HEADER} has no {match[1]}")
        words, end = [as_rust_parameter(one) for one in given], f" -> {NUMBERS[result]};" if NUMBERS[result] else ";"
        line = f"    fn {match[1]}({', '.join(words)}){end}"
        if len(line) <= 96:
            return line
        return f"    fn {match[1]}(\n" + "".join(f"        {one},\n" for one in words) + f"    ){end}"

    return re.sub(r"(?m)^    fn (\w+)\([^)]*\)[^;]*;$", signature_of, read(LIBRARY))


def c_layout_fields(text, name):
    """The fields of a struct of Rust or Rattle, if there is one of this name with C's layout."""
    head = rf"^#\[repr\(C\)\]\n(?:#\[[^\n]*\]\n)*pub(?:\(crate\))? struct {name}(?:<'a>)? "
    body = re.search(head + r"\{(.*?)^\}", without_comments(text), re.MULTILINE | re.DOTALL)
    return body and split_at_commas(re.sub(r"#\[.*\]", "", body[1]))


def differences_from_header():
    """What differs from the header, as sentences."""
    # The signatures as in Rust: parameters and result.
    wanted = {name: ([parse_c_declaration(one) for one in given], NUMBERS[result])
              for name, (result, given, _) in header_prototypes().items()}
    found = dict(rattle_export_signatures())
    yield from (f"{HEADER}: {name} has narrow arguments on the stack, which {CALLS} cannot pass on"
                for name, (given, _) in wanted.items() if differs_in_apple_convention(given))
    yield from (f"crates/blake2_ffi: {name} is not as in {HEADER}" for name in sorted({*wanted, *found})
                if found.get(name) != wanted.get(name))
    header = without_comments(read(HEADER))
    for name, (file, rattle, rust) in STRUCTS.items():
        body = re.search(rf"typedef struct vulfsjor_{name} \{{(.*?)\}}", header, re.DOTALL)[1]
        fields_of_c = [parse_c_declaration(" ".join(one.split()).replace("void", "uint8_t")) for one in body.split(";")
                       if one.strip()]
        for place, type_ in ((file, rattle), (LIBRARY, rust)):
            if type_:
                given = [each for one in c_layout_fields(read(place), type_) or ()
                         for each in parse_rust_declaration(one, c_name_of_state(name))]
                if re.search("_(state|lanes|reader)$", name):  # whose layout in C is that of 64 bits on every platform
                    given = [(field, "u64" if each == "usize" else each) for field, each in given]
                if given != fields_of_c:
                    yield f"{place}: {type_} is not as vulfsjor_{name} of {HEADER}"


def differs_in_apple_convention(given):
    """Whether Apple's convention on ARM, which packs arguments on the stack, has one of these elsewhere than Arm's."""
    end = 0
    for place, (_, type_) in enumerate(given[8:]):
        size = {"u8": 1, "u16": 2, "u32": 4}.get(type_, 8)
        end = -(-end // size) * size + size
        if end != 8 * place + size:
            return True
    return False


def lines_for_functions(line_of):
    """The lines for all functions, with the header's empty lines between them."""
    lines = ["\n" * empty + line_of(name, result, given) for name,
             (result, given, empty) in header_prototypes().items()]
    return "\n".join(lines).lstrip() + "\n"


def thunk_lines(name, result, given):
    """The lines of thunks.h, of at most 100 columns, which no declaration is cut by."""
    names = ", ".join(parse_c_declaration(one)[0] for one in given)
    kind, type_ = ("CALL_VOID", "") if result == "void" else ("CALL", f" {result},")
    words = ", ".join(one.replace(" ", "~") for one in given) or "void"
    lines = textwrap.wrap(f"{kind}({name},{type_} ({words}), ({names}))", 100, subsequent_indent="     ")
    return "\n".join(lines).replace("~", " ")


def struct_layout_lines():
    """The structs of the header: a line of c/abi.txt for each."""
    header = without_comments(read(HEADER))
    sizes = dict(re.findall(r"sizeof\((\w+)\) == (\d+)(?! \*)\b", header))
    for name, body in re.findall(r"typedef struct (\w+) \{(.*?)\}", header, re.DOTALL):
        size = f" of {sizes[name]} bytes" if name in sizes else ""
        yield f"{name}{size}", "; ".join(" ".join(one.split()) for one in body.split(";") if one.strip())


def interface_lines():
    """The lines of c/abi.txt for functions and structs, in the order of the versions that added them."""
    of_functions = [(f"{result} {name}", ", ".join(re.sub(r" ?\w+$", "", one) for one in given) or "void")
                    for name, (result, given, _) in header_prototypes().items()]
    words = [*IN_C, *(f"{head}({given})" for head, given in of_functions),
             *(f"struct {head}: {fields_}" for head, fields_ in struct_layout_lines())]
    added = {line.partition(" ")[2]: line.partition(" ")[0] for line in read(ABI).split("\n")}
    here = f"VULFSJOR_{version().rpartition('.')[0]}"
    return sorted((f"{added.get(one, here)} {one}" for one in words),
                  key=lambda line: [int(each) for each in re.findall(r"\d+", line.split()[0])])


def interface_removals():
    """What is not in the interface any more, of earlier versions than this one."""
    lines, here = interface_lines(), f"VULFSJOR_{version().rpartition('.')[0]} "
    return [line for line in read(ABI).split("\n") if line.startswith("VULFSJOR_") and not line.startswith(here)
            and line not in lines]


def linker_version_script():
    """The script of versions for the linker, one node for each version that added functions."""
    found: dict = {}
    for line in interface_lines():
        if function := re.search(r"(\w+)\(", line):
            found.setdefault(line.split()[0], []).append(function[1])
    text, above = "/* The functions of the shared library, as tools/exports.py writes them from abi.txt. */\n", ""
    for node, names in found.items():
        text += "".join([f"{node} {{\n    global:\n", *(f"        {name};\n" for name in names),
                         "" if above else "    local:\n        *;\n", f"}}{above};\n"])
        above = f" {node}"
    return text


def files_with_generated_lists():
    """The files with a list, as they should be: it reaches from the first function to the last."""
    lines = lines_for_functions(lambda name, *_: f'CALL("{name}")')
    yield CHOOSE, re.sub(r'^CALL\("[^.]*"\)\n(?=#endif)', lambda _: lines, read(CHOOSE), flags=re.MULTILINE)
    yield CALLS, re.sub(r"^CALL(_VOID)?\(vulfsjor.*\Z", lambda _: lines_for_functions(thunk_lines), read(CALLS),
                        flags=re.MULTILINE | re.DOTALL)
    head = re.match(r"(?:#.*\n|\n)*", read(ABI))[0]
    yield ABI, head + "\n".join(interface_lines()) + "\n"
    yield MAP, linker_version_script()
    yield LIBRARY, rust_signatures()


def main():
    if sys.argv[1:] not in ([], ["--check"]):
        sys.exit("usage: tools/exports.py [--check]")
    wrong = [*differences_from_header(), *(f"{ABI}: the soname has to change, since this did: {line}"
                                           for line in interface_removals())]
    if wrong and not sys.argv[1:]:
        sys.exit("\n".join(wrong))
    for path, text in files_with_generated_lists():
        if sys.argv[1:]:
            wrong += [f"{path} is not as {HEADER}: run tools/exports.py"] * (text != read(path))
        else:
            with open(os.path.join(TOP, path), "w", encoding="utf-8") as file:
                file.write(text)
    if not sys.argv[1:]:
        subprocess.run([os.path.join(TOP, "tools", "dist.sh"), "sums"], check=True)
    sys.exit("\n".join(wrong) or 0)


main()
