"""The functions that compress, by the names that the compiler gives them, and which file has which. A crate or a
module with another name needs a change here and nowhere else."""

import re
from typing import TYPE_CHECKING

import rfc7693 as R

if TYPE_CHECKING:
    from program import Program

# The name without the version, the family, and of how many messages it compresses blocks.
ONE_B = ("blake2_compress..compress..blake2b..compress", R.BLAKE2B, 1)
ONE_S = ("blake2_compress..compress..blake2s..compress", R.BLAKE2S, 1)
MANY_B = ("blake2_compress..many..blake2b..compress_blocks", R.BLAKE2B, 4)
MANY_S = ("blake2_compress..many..blake2s..compress_blocks", R.BLAKE2S, 8)
EIGHT_B = ("blake2_compress..many..blake2b..eight..compress_blocks", R.BLAKE2B, 8)
# Of the leaves of BLAKE2bp and BLAKE2sp: one block of each, with a counter for each, and stripes.
EACH_B = ("blake2_compress..many..blake2b..compress_each", R.BLAKE2B, 4)
EACH_S = ("blake2_compress..many..blake2s..compress_each", R.BLAKE2S, 8)
STRIPES_B = ("blake2_parallel..lanes..blake2bp..compress_in_lanes", R.BLAKE2B, 4)
STRIPES_S = ("blake2_parallel..lanes..blake2sp..compress_in_lanes", R.BLAKE2S, 8)
SCRUB_STACK = "blake2_digest..wiping..scrub_stack.."
SETTLE = "blake2_digest..wiping..settle.."
# What `_final` and `_verify` call, by the family: the first zeroes the state, and the answer of the second is public.
FINALIZE = "blake2_ffi..%s..finalize"
IS_DIGEST_OF = "blake2_ffi..%s..is_digest_of"
MEMCMP = "vulfsjor_ffi_memcmp"
# What reads the output of BLAKE2X, by a loop.
SQUEEZES = tuple("blake2_xof..%s..State..squeeze" % family for family in ("blake2xb", "blake2xs"))

# What the programs call of the library's text, besides what C programs call.
SHARED = (ONE_B[0], ONE_S[0], "blake2_tree..nodes..Nodes..hash_next", *SQUEEZES,
          *("blake2_state..many..%s..update_many" % family for family in ("blake2b", "blake2s")),
          *("blake2_parallel..lanes..%s..Lanes..%s" % (family, call)
            for family in ("blake2bp", "blake2sp") for call in ("outputs", "update")))

LIBRARY = (ONE_B, MANY_B, ONE_S, MANY_S, EACH_B, EACH_S, STRIPES_B, STRIPES_S)
FILES = {
    "dist/x86_64/vulfsjor-v4.s": LIBRARY + (EIGHT_B,),
    "dist/x86_64/vulfsjor-v3.s": LIBRARY,
    "dist/x86_64/vulfsjor-v2.s": (ONE_B, ONE_S, MANY_S, EACH_S, STRIPES_S),
    "dist/aarch64/vulfsjor.s": LIBRARY,
    "dist/wasm/vulfsjor.wasm": LIBRARY,
    "js/src/wasm.js": LIBRARY,
    "js/src/wasm_blake2b.js": (ONE_B,),
    "js/src/wasm_blake2s.js": (ONE_S,),
}


def stack_scrub_functions(program: "Program") -> dict:
    """The functions of a file that overwrite the stack, with their numbers of bytes."""
    found = (re.fullmatch(re.escape(SCRUB_STACK) + r"(\d+)", name) for name in program.functions)
    return {m[0]: int(m[1]) for m in found if m}


def architecture(path: str) -> str:
    """What runs a file: x86_64, aarch64 or wasm."""
    return next((kind for kind in ("x86_64", "aarch64") if "/%s/" % kind in path), "wasm")


def name_in_file(path: str, name: str) -> str:
    return name.replace("..", "::") if architecture(path) == "wasm" else name


# G rotates words by 63 bits (BLAKE2b), or by 12 and 7 (BLAKE2s), which are not moves of bytes. So each copy of it has
# an instruction that rotates, or that shifts to the right by these numbers.
_ROTATES = {
    "x86_64": re.compile(r"\b(ro[lr]x?|sh[lr]d|v?pro[lr]v?[dq])\b"),
    "aarch64": re.compile(r"\bror\b|\bextr\b|\b(sri|sli|xar)\b"),
    "wasm": re.compile(r"\.rot[lr]$", re.M),
}
_SHIFTS = {
    "x86_64": re.compile(r"\b(?:shr|v?psrl[dq]) .*,(0x[0-9a-f]+)$", re.M),
    "aarch64": re.compile(r"\b(?:[lu]?s[hr]r|lsr|usra)\b.*#(\d+)$", re.M),
    "wasm": re.compile(r"^i\d+\.const (\d+)\ni(?:32|64)(?:x[24])?\.shr_u$", re.M),
}


def unlisted_rotating_functions(program: "Program") -> list:
    """The functions outside of the file's list that may have a copy of G."""
    listed = {name_in_file(program.path, name) for name, _, _ in FILES[program.path]}
    texts = {name: "\n".join(program.instruction_texts(name)) for name in program.functions if name not in listed}
    shifts = {name: {int(n, 0) for n in _SHIFTS[program.kind].findall(text)} for name, text in texts.items()}
    return [name for name, text in texts.items()
            if _ROTATES[program.kind].search(text) or 63 in shifts[name] or {7, 12} <= shifts[name]]
