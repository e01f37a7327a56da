#!/usr/bin/env python3
"""Looks at the assembly files of dist/, with no toolchain: each symbol ends in the number of the code and the build,
nothing is called that is not there except a few functions of the C library, each function is called or exported, only
macros differ between systems, no preprocessor changes a line, and nothing is used that Windows or macOS reserves.
Messages of BLAKE2b are compressed one by one for x86-64-v2, by fours elsewhere, and by eights too for x86-64-v4. The
programs have no compression: they call the library's, on x86-64 those of the build for the processor. On ARM one
message is compressed without vector registers and several messages with them. For x86-64-v4 only the compression of
eight messages has instructions of 512 bits, and each function clears those of the upper 16 vector registers that it
uses, after a call with a key all of them.

In the library a function that ends by `scrub_stack` overwrites all of the stack that the functions called by it may
have used: the sizes in crates/blake2_ffi are at least what the frames there add up to. Functions of C (memcpy, memmove,
memset) are left out, and so are `settle`, which reads what was overwritten, and the vector registers.
"""
import functools
import re

import tap
from common import read

# The files, the ends of their names, and what each calls from elsewhere.
LIBRARY = {"memcpy", "memmove", "memset"}
BUILDS = ("v2", "v3", "v4")
TEXTS = {f"x86_64/vulfsjor-{level}.s": level for level in BUILDS} | {"aarch64/vulfsjor.s": "arm"}
TEXTS |= {f"{folder}/{name}.s": build for folder, build in (("x86_64", "x86"), ("aarch64", "a64"))
          for name in ("b2", "b2sum")}
PROGRAM = LIBRARY | {"read", "write", "__write", "__sysv_signal", "__x86_get_cpuid_feature_leaf", "rattle_alloc",
                     "rattle_arg", "rattle_dealloc", "rattle_errno", "rattle_realloc", "rattle_set_errno"}
SUMS = PROGRAM - {"read", "__sysv_signal"} | {f"b2sum_{it}" for it in ("open", "read", "close", "signal", "strerror")}
FUNCTION = re.compile(r"^\tvj_(?:function|cold|export|shared)\t([\w.]+)$", re.M)
# A call of what is here, and one of what is not, by a macro.
CALL = re.compile(r"^\t(?:callq?|jmpq?|bl?|b)\t([A-Za-z_][\w.]*)$", re.M)
OUTSIDE = re.compile(r"^\tvj_(?:c_|system_)?(?:call|jump)\t([\w.]+)(?:, \w+)?$", re.M)
# A function of b2sum that C has, and the name of the proved one.
OF_C = re.compile(r"b2sum\.\.(disk\.\.(?:hide_memory|show_progress)|hashes\.\.absorb_tree)[\w.]*")
# The directives that all object formats have.
DIRECTIVES = {".ascii", ".asciz", ".byte", ".long", ".p2align", ".quad", ".short", ".zero"}
# What a preprocessor changes: lines of its own, comments, and names that GCC defines.
PREPROCESSED = re.compile(r"^\s*#|//|/\*|\b(?:linux|unix|i386)\b", re.M)
VECTOR = re.compile(r"\b[vqdshb][0-9]+\b")
UPPER = re.compile(r"%[xyz]mm(1[6-9]|2[0-9]|3[01])\b")
CLEARS = re.compile(r"\tvpxord\t%xmm(\d+), %xmm\1, %xmm\1")
# The bytes below the stack pointer, which Windows may overwrite, and the register that macOS and Windows reserve.
RESERVED = re.compile(r"[\t ,]-\w+\(%rsp\)|\[sp, #-\w+\](?!!)|\b[wx]18\b")
# An address that may be below it, by an index. It is not in a function with a call, which would overwrite those bytes.
INDEXED = re.compile(r"[\t ,]-\w+\(%rsp,")
FAMILIES = ("blake2b", "blake2s")
# The functions of the library that hash for both programs, for b2sum alone and for b2 alone, in the order of names.
HASHING = [*(f"blake2_compress..compress..{it}..compress" for it in FAMILIES), "blake2_tree..nodes..Nodes..hash_next"]
LANES = [*(f"blake2_parallel..lanes..{it}p..Lanes..{what}" for it in FAMILIES for what in ("outputs", "update")),
         *(f"blake2_state..many..{it}..update_many" for it in FAMILIES)]
OUTPUTS = [f"blake2_xof..blake2x{it}..State..squeeze" for it in "bs"]
# The compressions of several messages of BLAKE2b that each build has.
FOUR = "blake2_compress..many..blake2b..compress_blocks"
EIGHT = "blake2_compress..many..blake2b..eight..compress_blocks"
PARALLEL = {"v2": [], "v3": [FOUR], "v4": [FOUR, EIGHT], "arm": [FOUR]}
# How many shuffles the compression of several messages has: one for each rotation by 32, 24, 16 or 8 bits. On x86-64-v2
# a row is in two registers. Without tools/rotations.sed LLVM makes one more in each G.
SHUFFLE = {"blake2b": re.compile(r"\tv?pshuf[bd]\t"), "blake2s": re.compile(r"\tv?pshufb\t")}
SHUFFLES = {"v2": {"blake2s": 2 * 2 * 80}, "v3": {"blake2b": 3 * 96, "blake2s": 2 * 80}}
SEVERAL = ("compress..many..{0}..compress_blocks", "compress..many..{0}..compress_each",
           "parallel..lanes..{0}p..compress_in_lanes")
# What a line takes from the stack: bytes, pages of 4,096 bytes, and for an alignment at most that less 1.
TAKES = [(re.compile(r"pushq\t%\w+$"), lambda m: 8),
         (re.compile(r"subq\t\$(\d+), %rsp$"), lambda m: int(m[1])),
         (re.compile(r"andq\t\$-(\d+), %rsp$"), lambda m: int(m[1]) - 1),
         (re.compile(r"st[pr]\t.*\[sp(?:\], #-(\d+)|, #-(\d+)\]!)$"), lambda m: int(m[1] or m[2])),
         (re.compile(r"sub\t(?:sp|x\d+), sp, #(\d+)$"), lambda m: int(m[1])),
         (re.compile(r"sub\tsp, sp, #(\d+), lsl #12$"), lambda m: int(m[1]) << 12),
         (re.compile(r"and\tsp, x\d+, #0x(f+[0-9a-f]0)$"), lambda m: 2 ** 64 - int(m[1], 16) - 1)]
# Lines that give back, or only read the stack pointer, and all that may change it.
GIVES = re.compile(r"popq\t|addq\t\$\d+, %rsp$|leaq\t-\d+\(%rbp\), %rsp$|(ld[pr]|str)\t.*\[sp\], #\d+$"
                   r"|add\tsp, sp, #\d+(, lsl #12)?$|(mov|sub)\tsp, x29(, #\d+)?$")
CHANGES = re.compile(r"(push|pop|enter|leave)|.*, %[re]?spl?$|\w+\tw?sp\b|.*\[sp(, .*)?\]!|.*\[sp\], ")
CALLS = re.compile(r"(callq|vj_call|bl)\t([a-z]\S*)$|(vj_jump|b|b\.\w+|j\w+)\t([a-z]\S*)$|(call|jmp\t\*|blr?\t|br\t).*")
SCRUB = re.compile(r"blake2_digest\.\.wiping\.\.scrub_stack\.\.(\d+)_")
# A program's jump to the library's build for the processor in each object format, by the level that choose.c has found.
# Names begin with _ in Mach-O.
CHOOSE = """.macro vj_choose name, v2, v3, v4
\tvj_function\t{_}\\name
\tcmpb\t$3, {_}vulfsjor_ffi_level(%rip)
\tja\t{_}\\v4
\tje\t{_}\\v3
\tjmp\t{_}\\v2
\tvj_end\t{_}\\name
.endm
"""
# The number of the code, as it is in names.
CODE = re.search(r'(?m)^#define CODE "(\d+)"$', read("c/choose.c"))[1]


def lines_by_function(lines):
    """The instructions and macros of each function, by its name."""
    found, own = {}, None
    for line in lines:
        head = FUNCTION.match(line)
        if head:
            own = found.setdefault(head[1], [])
        elif line.startswith("\tvj_end\t"):
            own = None
        elif own is not None and re.match(r"\t[a-z]", line):
            own.append(line)
    return found


class AssemblyText:
    """A file of dist/, and what is in it."""

    def __init__(self, name, build):
        self.text, self.name, self.build, self.end = read(f"dist/{name}"), name, build, f"{CODE}_{build}"
        self.is_library, self.is_sums = "/vulfsjor" in name, "/b2sum" in name
        self.code, self.outside = lines_by_function(self.text.split("\n")), set(OUTSIDE.findall(self.text))
        # The functions of the library that hash for a program, or for both.
        self.hashing = sorted(HASHING + LANES * ("/b2." not in name) + (OUTPUTS[:1] if self.is_sums else OUTPUTS))
        self.called_hashing = {f"{it}_{self.end.replace('a64', 'arm')}" for it in self.hashing}

    def operands_of_macro(self, macro):
        """The operands of each line with a macro."""
        return re.findall(rf"(?m)^\t{macro}\t(.*)", self.text)


def count_vector_instructions(code):
    return sum(bool(VECTOR.search(line.split("//")[0].split("\t", 2)[-1])) for line in code)


def checks_of_any_assembly_text(it):
    """Whether each statement about a file holds, by its words."""
    text, code, end = it.text, it.code, it.end
    exported, called = it.operands_of_macro("vj_export") + it.operands_of_macro("vj_shared"), set(CALL.findall(text))
    named = set(re.findall(r"[A-Za-z_][\w.]*", re.sub(f"{FUNCTION.pattern}|\tvj_end\t.*", "", text, flags=re.M)))
    labels = re.findall(r"(?m)^(\.L[^\t\n]*):$", text)
    words = set(re.findall(r"(?m)^\t(\.[^\t\n]*)", text))
    yield "each function ends in the number of the code and the build", (
        code and all(name.endswith(f"_{end}") for name in code))
    yield "so does the name of each constant", labels and all(label.startswith(f".L{end}_") for label in labels)
    yield "each function is exported, or called or named by another", exported and code.keys() <= named | set(exported)
    theirs = [OF_C.findall("\n".join(sorted(names)))
              for names in (it.outside, [name for name in exported if ".proved_" in name])]
    yield "C has three functions of b2sum, and calls the proved ones", theirs == [
        ["disk..hide_memory", "disk..show_progress", "hashes..absorb_tree"] if it.is_sums else []] * 2
    known = SUMS | set(filter(OF_C.match, it.outside)) if it.is_sums else LIBRARY if it.is_library else PROGRAM
    yield "it calls what is there, and the C library", (
        called <= code.keys() and LIBRARY - {"memmove"} <= it.outside <= it.called_hashing | known)
    yield "it has only directives that all systems have", words and words <= DIRECTIVES
    yield "no preprocessor changes a line", not PREPROCESSED.search(re.sub(r"(?m)\A.*|^\t\.asci.*", "", text))
    yield "it uses no red zone and no x18", not RESERVED.search(text) and not any(
        INDEXED.search("\n".join(body)) and not any("call" in line.split("\t")[1] for line in body)
        for body in code.values())


def claims_on_hashing_calls(it):
    """Whether the programs hash by functions of the library, and of the build for the processor, and the library
    compresses as many messages of BLAKE2b in parallel as is fastest."""
    chosen = it.operands_of_macro("vj_choose")
    if it.is_library:
        yield "the programs can call the functions that hash", not chosen and sorted(
            it.operands_of_macro("vj_shared")) == [
            f"{name}_{it.end}" for name in it.hashing]
        found = sorted(name for name in it.code if name.startswith((FOUR, EIGHT)))
        yield "it compresses as many messages of BLAKE2b in parallel as is fastest", found == [
            f"{name}_{it.end}" for name in PARALLEL[it.build]]
        return
    yield "it has no compression, and calls those of the library", it.called_hashing <= it.outside and not any(
        re.search(r"compress|hash_next|Lanes\.\.(outputs|update)|squeeze", name) for name in it.code)
    yield "each goes to the library's build for the processor", chosen == [
        ", ".join(f"{name}_{CODE}_{end}" for end in (it.build, *BUILDS)) for name in it.hashing if it.build == "x86"]


def claims_on_arm_registers(it):
    """Whether the compressions use the registers that they are to use."""
    code = it.code
    for family in FAMILIES:
        one = [it for it in code if it.startswith(f"blake2_compress..compress..{family}..compress_{CODE}")]
        yield (f"{family}: one message is compressed without vector registers",
               len(one) == 1 and len(code[one[0]]) > 1000 and count_vector_instructions(code[one[0]]) == 0)
        several = [it for it in code if it.startswith(f"blake2_compress..many..{family}..compress_blocks_{CODE}")]
        yield (f"{family}: several messages are compressed with them",
               len(several) == 1 and count_vector_instructions(code[several[0]]) > 3000)


def claims_on_shuffle_counts(it):
    """Whether the compression of several messages has a shuffle for each rotation by whole bytes, and no other."""
    for family, wanted in SHUFFLES[it.build].items():
        kernels = [it.code.get(f"blake2_{name.format(family)}_{it.end}", []) for name in SEVERAL]
        found = [sum(bool(SHUFFLE[family].match(line)) for line in code) for code in kernels]
        holds = found == [wanted] * len(SEVERAL)
        yield f"{family}: several messages are compressed with {wanted} shuffles{'' if holds else found}", holds


def stack_bytes_of_frame(lines):
    """The most bytes that a function takes from the stack for itself."""
    taken = 0
    for line in lines:
        found = [take(m) for form, take in TAKES if (m := form.match(line))]
        if not found and CHANGES.match(line) and not GIVES.match(line):
            raise ValueError(f"moves the stack pointer in an unknown way: {line}")
        taken += sum(found)
    return taken


def called_functions_and_jumps(lines):
    """The functions that a function calls, and those that it jumps to, after its frame is gone."""
    for line in lines:
        if (m := CALLS.match(line)) and m[5]:
            raise ValueError(f"an unknown function: {line}")
        if m:
            yield m[2] or m[4], bool(m[2])


def claims_on_stack_scrubbing(it):
    """Whether `scrub_stack` covers what was called before it. A line that moves the stack pointer in a way that is not
    known here ends the program."""
    bodies = {name: [line.strip() for line in lines] for name, lines in it.code.items()}
    pushed = 8 * (it.build != "arm")  # the return address

    @functools.lru_cache(maxsize=None)
    def stack_reach(name):
        frame = stack_bytes_of_frame(bodies[name])
        return max([frame, *(stack_reach(to) + is_call * (frame + pushed) for to,
                             is_call in called_functions_and_jumps(bodies[name]))])

    scrubs = {name: {to for to, _ in called_functions_and_jumps(lines) if SCRUB.match(to)} for name,
              lines in bodies.items()}
    scrubbing = [name for name in bodies if scrubs[name] and not SCRUB.match(name)]
    short = [(name, to) for name in scrubbing
             for to in {to for to, _ in called_functions_and_jumps(bodies[name])} - scrubs[name]
             if stack_reach(to) + pushed > min(int(SCRUB.match(scrub)[1]) for scrub in scrubs[name])]
    yield f"scrub_stack covers what was called before it{short[:3] or str()}", not short and len(scrubbing) > 40


def registers_cleared_before_returns(code):
    """The registers that a function clears directly before its returns: those that it clears before each of them."""
    found = []
    for at, line in enumerate(code):
        if line == "\tretq":
            start = at
            while start and CLEARS.fullmatch(code[start - 1]):
                start -= 1
            found.append({CLEARS.fullmatch(it)[1] for it in code[start:at]})
    return set.intersection(*found) if found else set()


def claims_on_upper_registers(it):
    """Whether the code for AVX-512 leaves nothing in the upper vector registers."""
    code = it.code
    used = {name: {number for line in lines for number in UPPER.findall(line)} for name, lines in code.items()}
    wide = f"{EIGHT}_{it.end}"
    yield "only the compression of eight messages of BLAKE2b has instructions of 512 bits", [
        name for name, lines in code.items() if any("%zmm" in line for line in lines)] == [wide]
    yield "it has little else, and keeps its rows in registers", 1300 < sum(
        "%zmm" in line for line in code.get(wide, [])) < 1700
    yield "each function clears the upper registers that it uses", all(
        used[name] <= registers_cleared_before_returns(code[name]) for name in code) and any(used.values())
    keyed = [name for name in code if "wiping..scrub_stack.." in name]
    yield "what ends a call with a key clears all of them", len(keyed) >= 8 and all(
        len(registers_cleared_before_returns(code[name])) == 16 for name in keyed)


def main():
    for system, underscore in (("elf", ""), ("macho", "_"), ("coff", "")):
        tap.result(CHOOSE.format(_=underscore) in read(f"dist/x86_64/{system}.inc"),
                   f"{system}.inc: a program jumps to the right build")
    for name, build in TEXTS.items():
        it = AssemblyText(name, build)
        checks = [checks_of_any_assembly_text, claims_on_hashing_calls,
                  *([claims_on_stack_scrubbing] if it.is_library else []),
                  *([claims_on_arm_registers] if build == "arm" else []),
                  *([claims_on_upper_registers] if build == "v4" else []),
                  *([claims_on_shuffle_counts] if build in SHUFFLES else [])]
        for words, holds in (statement for check in checks for statement in check(it)):
            tap.result(holds, f"{name}: {words}")
    tap.finish()


main()
