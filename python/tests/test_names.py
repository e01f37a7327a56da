"""Tests of the names of the package: its versions, numbers and examples, and the types that it declares, against its
results, and by mypy (Debian's package mypy) where that is installed."""
import contextlib
import doctest
import functools  # noqa: F401  in an expression
import hashlib
import inspect
import io  # noqa: F401
import os
import re
import tempfile
import types
import unittest
import warnings

from families import FAMILIES, OUTPUTS
from support import FOLDER, HERE, IS_CLONE, Test, why_absent, run
import vulfsjor


class NamesAndPagesTest(unittest.TestCase):
    """The names and pages of the package."""

    def found(self, path, pattern):
        """What the groups of a pattern match in a file of the package."""
        with open(os.path.join(HERE, "..", path), encoding="utf-8") as file:
            found = re.search(pattern, " ".join(file.read().split()))
        self.assertTrue(found, pattern)
        return found[1] if found.re.groups == 1 else found.groups()

    def test_numbers_in_readme_are_right(self):
        """The version, and the README's numbers that no example prints. test_build.py has those of glibc and of
        processors."""
        self.assertEqual(self.found("pyproject.toml", r' version = "(.*?)"'), vulfsjor.__version__)
        digest, name = vulfsjor.__build__.split("  ")
        self.assertRegex(name, r"^(x86_64/vulfsjor-v[234]\.s|aarch64/vulfsjor\.s|c/vulfsjor\.c)$")
        text = os.path.join(HERE, "..", *(["..", "dist", name] if IS_CLONE else ["src", name]))
        if os.path.exists(text):
            with open(text, "rb") as file:
                self.assertEqual(digest, hashlib.sha256(file.read()).hexdigest())
        self.assertEqual(self.found("README.md", r"CPython (3\.\d+) or later"),
                         self.found("pyproject.toml", r'requires-python = ">=([\d.]+)"'))
        self.assertEqual(self.found("README.md", r"requires glibc (2\.\d+) or later"), "2.14")
        without = r"at least ([\d,]+) bytes are hashed without the GIL"
        self.assertEqual(self.found("README.md", without),
                         f"{int(self.found('src/library.h', 'LET_OTHERS_RUN_AT = ([0-9]+) ')):,}")
        self.assertEqual(self.found("README.md", r"at most (\d+) MiB in memory for each thread"),
                         str(vulfsjor._files._MOST_TREE_BYTES >> 20))
        self.assertEqual(vulfsjor._files._MOST_TREE_BYTES, 16 << 20)
        self.found("../c/threads.c" if IS_CLONE else "src/threads.c",
                   r"(#define LEAST_BYTES \(1 << 18\) .* MOST_THREADS = 256,)")

    def test_numbers_in_doc_comments_are_right(self):
        for thing, *parts in (
                (vulfsjor.tree_root_file, "buffer of up to 16 MiB"),
                (vulfsjor.tree_root, "less than 256 KiB for each", "at most 256; 0 is"),
                (vulfsjor.derive_key, "a key of 1 to 64 bytes"), (vulfsjor.blake2b_many, "hashed four in parallel"),
                (vulfsjor.blake2s_many, "hashed eight in parallel"),
                *((make, f"1 to {most}, or None if",
                   f"up to {longest} bytes, salt and person up to {longest // 4} each.")
                  for _, make, longest, most in OUTPUTS),
                *(row for name, make, _, _, longest in FAMILIES for row in (
                    (make, f"digest_size is 1 to {longest}, a key has up to {longest} bytes, salt and person up to "
                     f"{longest // 4} each."),
                    (getattr(vulfsjor, f"{name}_mac"), f"The key has 1 to {longest} bytes, digest_size is 16 to "
                     f"{longest} (with allow_short from 1 on), salt and person have up to {longest // 4} bytes "
                     "each.")))):
            for part in parts:
                self.assertIn(part, " ".join(thing.__doc__.split()))
        for name, make, *_ in FAMILIES:
            for each in (make, getattr(vulfsjor, f"{name}_mac")):
                self.assertEqual(f"the BLAKE2 document gives BLAKE{name[5:]} neither." in each.__doc__, name[7:] == "p")

    def test_every_public_name_has_a_doc(self):
        self.assertTrue(vulfsjor.__doc__)
        self.assertEqual(set(vulfsjor.__all__), {
            name for name, thing in vars(vulfsjor).items() if callable(thing) and name[0] != "_"})
        for name in vulfsjor.__all__:
            thing = getattr(vulfsjor, name)
            self.assertTrue(thing.__doc__)
            for member in dir(thing) if inspect.isclass(thing) else ():
                if member.islower() and not member.startswith("_") and member not in dir(ValueError):
                    self.assertTrue(getattr(thing, member).__doc__, member)

    def test_doctest_examples_pass(self):
        failed, tried = doctest.testmod(vulfsjor, verbose=False)
        self.assertEqual((failed, tried > 4), (0, True))
        page = os.path.join(HERE, "..", "README.md")
        with tempfile.TemporaryDirectory() as folder, contextlib.chdir(folder):
            failed, tried = doctest.testfile(page, module_relative=False, verbose=False)
        self.assertEqual((failed, tried > 20), (0, True))


STUB = os.path.join(FOLDER, "vulfsjor", "_library.pyi")
HASH = "vulfsjor.blake2{}(b'x', digest_size=4, key=b'', salt=b'', person=b'', {}=True)"
# Expressions and the types of their values.
RESULTS = {
    **{made + member: kind.format(name) for family in ("b", "s", "bp", "sp")
       for made, name in ((HASH.format(family, "last_node" if family in "bs" else "usedforsecurity"),
                           f"blake2{family}"), (f"vulfsjor.blake2{family}_mac(b'k')", f"blake2{family}_mac"))
       for member, kind in {
        "": "vulfsjor.{}", ".copy()": "vulfsjor.{}", ".update(bytearray(b'x'))": "None", ".digest()": "bytes",
        ".hexdigest()": "str", ".name": "str", ".block_size": "int", ".digest_size": "int"}.items()},
    **{f"vulfsjor.{place}{number}": "int" for family in ("b", "s", "bp", "sp")
       for place in (f"blake2{family}.", f"blake2{family}_mac.", f"BLAKE2{family.upper()}_")
       for number in ("MAX_DIGEST_SIZE", "MAX_KEY_SIZE", "PERSON_SIZE", "SALT_SIZE")},
    **{expression.format(family): kind.format(family) for family in ("b", "s", "bp", "sp")
       for expression, kind in {
        "vulfsjor.blake2{0}(key=b'k').verify(vulfsjor.blake2{0}(key=b'k').digest())": "None",
        "vulfsjor.blake2{0}_mac(b'k').verify(vulfsjor.blake2{0}(key=b'k').digest())": "None",
        "vulfsjor.blake2{}_mac(key=b'k', data=b'', digest_size=4, salt=b'', person=b'', allow_short=True)":
            "vulfsjor.blake2{}_mac",
        "vulfsjor.file_digest(io.BytesIO(), vulfsjor.blake2{}, key=b'', person=b'')": "vulfsjor.blake2{}",
        "vulfsjor.file_digest(io.BytesIO(), vulfsjor.blake2{}_mac, key=b'k', allow_short=False)":
            "vulfsjor.blake2{}_mac",
    }.items()},
    **{f"vulfsjor.blake2{family}{call}": kind for family in "bs" for call, kind in {
        "().save()": "bytes", f".load(vulfsjor.blake2{family}().save())": f"vulfsjor.blake2{family}",
        f"().load(bytearray(vulfsjor.blake2{family}().save()))": f"vulfsjor.blake2{family}"}.items()},
    "vulfsjor.file_digest(io.BytesIO(), vulfsjor.blake2b, last_node=True)": "vulfsjor.blake2b",
    "vulfsjor.file_digest(io.BytesIO(), vulfsjor.blake2xs, length=5)": "vulfsjor.blake2xs",
    "vulfsjor.file_digest(io.BytesIO(), 'blake2s', inner_size=4).digest()": "bytes",
    "vulfsjor.file_digest(io.BytesIO(), 'blake2bp', key=b'').hexdigest()": "str",
    "vulfsjor.file_digest(io.BytesIO(), 'blake2xb').digest(5)": "bytes",
    "vulfsjor.file_digest(io.BytesIO(), 'blake2sp_mac', key=b'k', allow_short=True).digest()": "bytes",
    "vulfsjor.file_digest(io.BytesIO(), lambda: vulfsjor.TreeHasher(5))": "vulfsjor.TreeHasher",
    "vulfsjor.file_digest(open('/dev/null', 'rb'), functools.partial(vulfsjor.blake2b, digest_size=4))":
        "vulfsjor.blake2b",
    "vulfsjor.file_digest(open('/dev/null', 'rb', 0), vulfsjor.blake2s)": "vulfsjor.blake2s",
    **{f"vulfsjor.blake2{family}_many([b'x'], digest_size=4, key=b'', salt=b'', person=b'')":
       "list[bytes]" for family in "bs"},
    **{f"vulfsjor.update_many({hashes}, {pieces})": "None" for make in (
        "blake2b()", "blake2s()", "blake2b_mac(b'k')", "blake2s_mac(b'k')") for hashes, pieces in (
        (f"[vulfsjor.{make}]", "[b'x']"), (f"(vulfsjor.{make} for _ in '12')", "iter([b'x', bytearray(b'y')])"))},
    **{f"vulfsjor.blake2x{family}{rest}": kind for family in "bs" for rest, kind in {
        "(b'', length=9, key=b'', salt=b'', person=b'')": f"vulfsjor.blake2x{family}",
        "(length=None).copy()": f"vulfsjor.blake2x{family}", "().update(b'x')": "None",
        "().digest(5)": "bytes", "().hexdigest(5)": "str", "().name": "str", "().block_size": "int",
    }.items()},
    "vulfsjor.derive_key(b'key', b'context', 96)": "bytes",
    "vulfsjor.derive_key(key=b'key', context=b'context', length=96)": "bytes",
    "vulfsjor.__build__": "str",
    "vulfsjor.__version__": "str",
    "vulfsjor.tree_leaf_count(5, leaf_size=2)": "int",
    "vulfsjor.tree_leaves(b'', 2, first=0, ends=True, salt=b'', person=b'')": "bytes",
    "vulfsjor.tree_root(b'', 2, digest_size=4, salt=b'', person=b'', threads=0)": "bytes",
    "vulfsjor.tree_root_of_leaves(bytes(64), 2, digest_size=4, salt=b'', person=b'')": "bytes",
    "vulfsjor.tree_root_file('/dev/null', 2, threads=1, progress=print)": "bytes",
    "vulfsjor.tree_root_file(b'/dev/null', 2, digest_size=4, salt=b'', person=b'')": "bytes",
    "vulfsjor.TreeHasher(leaf_size=2, digest_size=4, salt=b'', person=b'')": "vulfsjor.TreeHasher",
    **{f"vulfsjor.TreeHasher(2).{member}": kind for member, kind in {
        "copy()": "vulfsjor.TreeHasher", "count": "int", "digest_size": "int", "leaf_size": "int", "digest()": "bytes",
        "hexdigest()": "str", "leaves_ahead(b'ab', skip=1)": "bytes", "update(b'x', threads=3)": "None",
        "update_leaves(b'', b'')": "None",
        "_root_of_file('', os.open('/dev/null', os.O_RDONLY), 0, 1, None)": "bytes"}.items()},
}
# What a type checker has to refuse, and the package does: among it arguments by position that have only names.
# test_stub_is_as_the_module has the types of parameters, and test_refusals.py has their values that are refused.
REFUSED = (
    "vulfsjor.blake2b(b'', b'key')", "vulfsjor.blake2s(data=b'')", "vulfsjor.blake2s().update('text')",
    "vulfsjor.blake2b_mac()", "vulfsjor.blake2s_mac(b'key', b'', 16)", "vulfsjor.blake2bp_mac(b'', key=b'key')",
    "vulfsjor.blake2s_mac(b'key', fanout=1)", "vulfsjor.blake2b_mac(b'key', allow_short='no')",
    "vulfsjor.blake2s_mac(b'key', allow_short=None)", "vulfsjor.blake2bp_mac(b'key').verify()",
    "vulfsjor.blake2bp_mac(b'key').verify(tag=b'')", "vulfsjor.blake2bp('text')", "vulfsjor.blake2bp(None)",
    "vulfsjor.blake2bp(b'', b'key')", "vulfsjor.blake2bp(b'', fanout=1)", "vulfsjor.blake2bp(digest_size=1.5)",
    "vulfsjor.blake2sp(last_node=True)", "vulfsjor.blake2sp().update('text')",
    *(f"vulfsjor.blake2x{family}{wrong}" for family in "bs" for wrong in (
        "('text')", "(1)", "(b'', 5)", "(digest_size=5)", "().digest()", "().update('text')")),
    "vulfsjor.derive_key(b'key', b'')", "vulfsjor.blake2b_many([b'', 'text'])", "vulfsjor.blake2b_many(5)",
    "vulfsjor.blake2s_many([], 32)", "vulfsjor.blake2s_many([], messages=[])", "vulfsjor.tree_root(b'', 1, 32)",
    "vulfsjor.tree_root_of_leaves('', 1)", "vulfsjor.tree_leaves(b'', 1)", "vulfsjor.TreeHasher(1, b'salt')",
    "vulfsjor.TreeHasher(1).update(b'', 3)", "vulfsjor.TreeHasher(1).update(b'', other=1)",
    "vulfsjor.file_digest(io.BytesIO())", "vulfsjor.file_digest(io.BytesIO(), vulfsjor.blake2b, b'key')",
    "vulfsjor.file_digest(io.BytesIO(), vulfsjor.blake2b, personal=b'')",
    "vulfsjor.file_digest(io.BytesIO(), vulfsjor.blake2bp, fanout=1)",
    "vulfsjor.file_digest(io.BytesIO(), vulfsjor.blake2b_mac)",
    "vulfsjor.file_digest(io.BytesIO(), vulfsjor.blake2xb, digest_size=5)",
    "vulfsjor.file_digest(io.BytesIO(), 'blake2s', length=5)",
    "vulfsjor.file_digest(io.BytesIO(), 'blake2s_mac')", "vulfsjor.file_digest(io.BytesIO(), 5)",
    "vulfsjor.tree_root_file(1.5, 1)", "vulfsjor.tree_root_file('/dev/null', 1, progress=5)",
    *(f"vulfsjor.update_many({wrong})" for wrong in (
        "[vulfsjor.blake2b()]", "[vulfsjor.blake2b()], [b'x'], []", "hashes=[vulfsjor.blake2b()], pieces=[b'x']",
        "vulfsjor.blake2b(), [b'x']", "[vulfsjor.blake2b()], b'x'", "[vulfsjor.blake2b()], ['x']",
        "[vulfsjor.blake2b()], 'x'", "[vulfsjor.blake2bp()], [b'x']", "[vulfsjor.blake2sp_mac(b'k')], [b'x']",
        "[vulfsjor.blake2b(), vulfsjor.blake2s()], [b'x', b'y']", "[vulfsjor.blake2xb()], [b'x']",
        "[vulfsjor.blake2b(), vulfsjor.blake2b_mac(b'k')], [b'x', b'y']", "[vulfsjor.TreeHasher(5)], [b'x']")),
)
# Checks that are taken for values, and comparisons that are never true, which only a type checker refuses.
CHECKS = (
    "if mac.verify(b''): print()", "if not mac.verify(b''): print()", "assert mac.verify(b'')",
    "is_right: bool = mac.verify(b'')", "print(all([mac.verify(b'')]))", "if mac.verify: print()",
    "if mac == b'tag': print()", "if mac.digest == b'tag': print()", "if mac.digest() == 'tag': print()",
)
# The types of arguments by their names.
NAMED = {
    **dict.fromkeys(("context", "data", "digests", "key", "person", "salt", "saved", "tag"), "_Bytes"),
    **dict.fromkeys(("digest_size", "fanout", "depth", "node_depth", "inner_size", "threads"),
                    "SupportsIndex"),
    **dict.fromkeys(("leaf_size", "node_offset", "length", "first", "skip", "file"), "int"),
    **dict.fromkeys(("allow_short", "ends", "last_node", "usedforsecurity"), "bool"),
    "messages": "Iterable[_Bytes]", "path": "FileDescriptorOrPath", "pieces": "Iterable[_Bytes]",
    "hashes": "Iterable[blake2b] | Iterable[blake2b_mac] | Iterable[blake2s] | Iterable[blake2s_mac]",
    "progress": "Callable[[int], object] | None",
}


class TypesTest(unittest.TestCase):
    """The types of values."""

    def test_types_of_results(self):
        warnings.simplefilter("ignore", ResourceWarning)  # of files that nothing closes
        for expression, kind in RESULTS.items():
            value = eval(expression)  # pylint: disable=eval-used
            whole = kind.partition("[")[0]
            wanted = type(None) if kind == "None" else eval(whole)  # pylint: disable=eval-used
            self.assertIs(type(value), wanted, expression)
            if kind == "list[bytes]":
                self.assertEqual({type(each) for each in value}, {bytes})

    def test_types_of_refused_calls(self):
        for expression in REFUSED:
            with self.assertRaises(TypeError, msg=expression):
                eval(expression)  # pylint: disable=eval-used

    def test_stub_is_as_the_module(self):
        """The stub, which runs as a module, has the names, parameters and defaults of the module, and these types."""
        with open(STUB, encoding="utf-8") as file:
            text = re.sub("^from _typeshed .*", "", file.read(), flags=re.MULTILINE)
        stub, library = types.ModuleType("stub"), vulfsjor._library
        exec(f"from __future__ import annotations\n{text}", vars(stub))  # pylint: disable=exec-used
        things = {name for name, thing in vars(stub).items()
                  if name[0] != "_" and getattr(thing, "__module__", "") == "stub"}
        self.assertEqual(things | set(stub.__annotations__),
                         {"__build__", "__version__", *(name for name in dir(library) if name[0] != "_")})
        for name in things:
            self.assert_same_doc_comments(getattr(stub, name), getattr(library, name))
        for name in things - {"InvalidTag"}:
            ours, theirs = getattr(stub, name), getattr(library, name)
            if not isinstance(theirs, type):
                self.assert_stub_matches_module(ours, theirs)
                continue
            members = {member for member in dir(theirs) if member[0] != "_"}
            self.assertEqual({member for each in ours.__mro__[:-1]
                              for member in (*vars(each), *vars(each).get("__annotations__", ()))
                              if member[0] != "_"}, members)
            self.assertEqual(hasattr(ours, "__final__"), name != "TreeHasher", name)
            self.assert_stub_matches_module(ours.__new__, theirs)
            for member in filter(lambda member: callable(getattr(theirs, member)), members):
                self.assert_stub_matches_module(getattr(ours, member), getattr(theirs, member))
            for member in filter(lambda member: member.islower(), members):
                self.assert_same_doc_comments(getattr(ours, member), getattr(theirs, member))

    def assert_same_doc_comments(self, ours, theirs):
        """The doc comments, of which editors show those of the stub."""
        self.assertTrue(theirs.__doc__, theirs)
        self.assertEqual(inspect.getdoc(ours), inspect.getdoc(theirs), ours)

    def assert_stub_matches_module(self, ours, theirs):
        """The parameters of a function of the stub and of the module, and the types of the first."""
        mine, wanted = ([(each.name, each.kind, each.default) for each in inspect.signature(it).parameters.values()
                         if each.name not in ("self", "cls")] for it in (ours, theirs))
        self.assertEqual(mine, wanted, ours)
        for name, *_ in mine:
            optional = " | None" if (name, ours.__name__) == ("length", "__new__") else ""
            self.assertEqual(ours.__annotations__[name], NAMED[name] + optional, ours)


@unittest.skipIf(why_absent(tools=["mypy"]), "no mypy")
class MypyTest(Test):
    """mypy, without its cache."""

    def test_mypy_finds_exactly_wrong_lines(self):
        """A program's right and wrong lines. What returns None has no value, so a line that uses it is wrong. The
        package, which the program imports, is checked too."""
        right = ["from typing import assert_type", "import functools, io, os", "import vulfsjor"]
        right += [f"assert_type({expression}, {kind})" for expression, kind in RESULTS.items() if kind != "None"]
        right.append("mac = vulfsjor.blake2b_mac(b'k')")
        wrong = [f"print({expression})" for expression, kind in RESULTS.items() if kind == "None"]
        wrong += [*REFUSED, *CHECKS, *(
            f"class Sub_{name}(vulfsjor.{name}): pass" for name, thing in vars(vulfsjor).items()
            if isinstance(thing, type) and name not in ("InvalidTag", "TreeHasher"))]
        path = self.file("\n".join([*right, *wrong, ""]).encode())
        done = run("mypy", "--strict", "--cache-dir=/dev/null", path,
                   env={**os.environ, "MYPYPATH": FOLDER, "PYTHONPATH": ""})
        places = {error.partition(": error: ")[0] for error in done.stdout.splitlines() if ": error: " in error}
        lines = range(len(right) + 1, len(right) + len(wrong) + 1)
        self.assertEqual(places, {f"{path}:{line}" for line in lines}, done.stdout)


if __name__ == "__main__":
    unittest.main()
