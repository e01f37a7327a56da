"""The forms of instructions that were run on the processor: forms.txt, which check.py --forms writes from the tests of
instructions. The models refuse an instruction of any other form.

A form is a name, and for each operand its kind and its bytes: g8 is a general register, x, y, z or k a vector or a
mask, m8 memory, m8* a word that is broadcast, n a number. `=` says that the last two operands are the same register. In
forms.txt the forms are below their processor. Those with ' are only for the model of taint tracking (T), and those with
" only for that of functions that compress and of whole calls (W). After a name, and after operands that end with a
comma, are all that follow them there."""

import functools
import os
import re
import textwrap

import x86
from terms import CannotShow

TABLE = os.path.join(os.path.dirname(os.path.abspath(__file__)), "forms.txt")
USERS = {"": "TW", "'": "T", '"': "W"}  # the models of a form, by its mark
# The numbers of these are added, compared or masked as they are. Those of any other, such as a shift or a shuffle, are
# part of its form.
ANY_NUMBER = set("mov movabs add sub cmp and or xor test adc sbb imul push "
                 "adds subs cmn ands tst orr eor movk movn movz movi ccmp".split())
NUMBER = r"#?-?(?:0x[0-9a-f]+|\d+)"
# Calls, jumps, returns, and what moves the stack pointer with them, with their operands: these run as parts of whole
# functions only.
CONTROL = {
    "x86_64": re.compile(r"(call|j[a-z]+) there|ret|ud2|pause|leave|(push|pop) g8|push m8|nop|lea g8,m"),
    "aarch64": re.compile(r"(bl|b|b\.[a-z]+) there|ret|isb|brk .*|nop|adrp x,there|cbn?z [xw],there|"
                          r"tbn?z [xw],\S+,there"),
}


@functools.lru_cache(maxsize=None)
def form_of_instruction(kind: str, text: str) -> str:
    code = " ".join(text.partition("#" if kind == "x86_64" else "//")[0].split())
    if x86.NOP.fullmatch(code):
        return "nop"
    name, _, rest = code.partition(" ")
    rest = re.sub(r"\b[0-9a-f]+ <.*>$", "there", rest)         # a jump, a call, or an address
    pieces = [p.strip() for p in re.findall(r"\[[^]]*\]!?|[^,\[]+(?:\[[^]]*\]!?)?", rest)]
    operand = form_of_x86_operand if kind == "x86_64" else form_of_arm_operand
    registers = [p for p in pieces if not re.fullmatch(NUMBER, p)][-2:]
    same = "=" * (len(registers) == 2 and registers[0] == registers[1] and "[" not in registers[0])
    return ("%s %s" % (name, ",".join(operand(name, p) for p in pieces))).strip() + same


def form_of_x86_operand(name: str, text: str) -> str:
    register, brace, mask = text.partition("{")
    mask = re.sub(r"\d", "", brace + mask)
    if register in x86.REGISTER:
        o = x86.REGISTER[register]
        return "g%d" % o.size if o.kind == "general" else register[0] + mask
    m = re.fullmatch(r"(?:([A-Z]+) (PTR|BCST) )?\[(.*)\](.*)", text)
    if m and name == "lea" and not m[3].startswith("rip"):
        return re.sub(r"\br\w+", "r", re.sub(r"(?<!\*)0x[0-9a-f]+", "n", m[3]))
    if m:
        return "m%s%s" % (x86.SIZES.get(m[1] or "", ""), "*" * (m[2] == "BCST")) + re.sub(r"\d", "", m[4])
    return form_of_number(name, text)


def form_of_arm_operand(name: str, text: str) -> str:
    if text.startswith("["):
        text = re.sub(r"\b([xw])(\d+|zr)\b", r"\1", text).replace("[sp", "[x").replace(", ", ",")
        return text if "lsl" in text or "xtw" in text else re.sub(r"(?<!\w)" + NUMBER, "n", text)
    return form_of_number(name, re.sub(r"\b([xwvqdsbh])\d+\b", r"\1", "x" if text == "sp" else text))


def form_of_number(name: str, text: str) -> str:
    """A number of a form, or what stands for all of a class."""
    if not re.fullmatch(NUMBER, text) or name not in ANY_NUMBER:
        return text.replace(" ", "_")
    n = int(text.lstrip("#"), 0)
    return "0" if n == 0 else "-n" if n < 0 or n >> 31 else "n"


@functools.lru_cache(maxsize=None)
def known_forms() -> frozenset:
    """All forms of the table, each with the processor and the model."""
    found: set = set()
    with open(TABLE, encoding="ascii") as f:
        for line in f:
            if not line.startswith(" "):
                kind = line.strip()
                continue
            for word in line.split():
                if word.endswith(":"):
                    name, start = word[:-1], ""
                elif word.endswith(","):
                    start = word
                else:
                    last = word.rstrip("'\"")
                    text = ("%s %s" % (name, start + last)).removesuffix(" -")
                    found |= {(kind, user, text) for user in USERS[word[len(last):]]}
    return frozenset(found)


def write_table(found: set) -> None:
    users: dict = {}
    for kind, user, each in sorted(found):
        users[kind, each] = users.get((kind, each), "") + user
    groups: dict = {}
    for (kind, each), letters in users.items():
        name, _, operands = each.partition(" ")
        start, comma, last = (operands or "-").rpartition(",")
        mark = next(mark for mark in USERS if USERS[mark] == letters)
        groups.setdefault(kind, {}).setdefault(name + ":", {}).setdefault(start + comma, []).append(last + mark)
    with open(TABLE, "w", encoding="ascii") as f:
        for kind, names in sorted(groups.items()):
            words = [word for name, starts in names.items() for word in [
                name, *(w for start, lasts in sorted(starts.items()) for w in [start, *lasts] if w)]]
            f.write("%s\n%s\n" % (kind, textwrap.fill(
                " ".join(words), 120, initial_indent="  ", subsequent_indent="  ", break_on_hyphens=False)))


def check_form_is_known(kind: str, user: str, text: str) -> None:
    """Refuses an instruction of a form that a model has not been tried with."""
    found = form_of_instruction(kind, text)
    if not CONTROL[kind].fullmatch(found) and (kind, user, found) not in known_forms():
        raise CannotShow("the form of %s was not run on the processor: %s: run tests/machine/check.py --forms"
                         % (" ".join(text.split()), found))
