"""A model of the checks of b2sum, by docs/SPECIFICATION.md, section 11, and docs/B2SUM.md: what a command line with
--check or --expect prints to both streams, and its status, from its words, standard input and the files. Not a program.

    run_of_check(words, folder, data)   the run of these words in a folder, with this standard input
    seal(text, key, salt)               the line that seals a list
    below(folder, tops)                 what folders have

Names are texts, as os.fsdecode makes them.
"""
import collections
import errno
import functools
import hashlib
import itertools
import os
import re
import stat

from b2sum_support import expected_and_found_lines, check_result_line, derived_key, digest, longest_digest_bits

# The long options, and whether they have a value; and letters.
OPTIONS = {**dict.fromkeys(("algorithm", "length", "key-file", "key-hex-file", "derive-key", "salt", "personal",
                            "personal-text", "tree", "threads", "recursive", "expect"), True),
           **dict.fromkeys(("binary", "check", "seal", "tag", "text", "zero", "no-names", "raw", "progress",
                            "ignore-missing", "quiet", "status", "show-digests", "sealed", "strict", "warn", "help",
                            "version"), False)}
LETTERS = {"a": "algorithm", "b": "binary", "c": "check", "l": "length", "t": "text", "w": "warn", "z": "zero"}
NEEDED = {"key": "--key-file", "salt": "--salt", "person": "--personal"}
SHORT = "WARNING: MACs below 128 bits can be guessed\n"
LIKE_DIGITS = "has only hexadecimal digits, which --key-hex-file would decode"
NO_DIGITS, NOT_DIGITS = "the value has no digits", "the value is not hexadecimal digits, two for each byte"
UNLISTED = "is not in the list"
HEX = re.compile("(?:[0-9a-fA-F]{2})+")
TAG = re.compile(rb"BLAKE2(b-tree-[1-9][0-9]*|bp|sp|b|s)")
TAGGED = re.compile(rb"(-key)?(-salt)?(-personal)?(?:-([1-9][0-9]*))? ?\((.*)\)[ \t]*=[ \t]*([0-9a-fA-F]+)", re.DOTALL)
UNTAGGED = re.compile(rb"([0-9a-fA-F]+)[ \t](.*)", re.DOTALL)
FOREIGN = re.compile(rb"(MD5|SHA1|SHA224|SHA256|SHA384|SHA512|SHA3-(224|256|384|512)|SM3|BLAKE3) \(")


class RefusedOptions(Exception):
    """Words that are refused, and why. A message of two lines is that of a value."""


# ---- Command lines.

def full_option_name(start):
    """The option that a long one means."""
    names = [name for name in OPTIONS if name.startswith(start)]
    if start in OPTIONS:
        return start
    if len(names) != 1:
        raise RefusedOptions(f"option '--{start}' is ambiguous" if names else f"unrecognized option '--{start}'")
    return names[0]


def parse_command_line(words):
    """The options of a command line in their order, each with its value, and the files."""
    options, files, words = [], [], list(words)
    while words:
        word = words.pop(0)
        if word == "--":
            return options, files + words
        if word.startswith("--"):
            name, equals, value = word[2:].partition("=")
            name = full_option_name(name)
            options.append((name, value if equals or not OPTIONS[name] else words.pop(0)))
        elif word.startswith("-") and word != "-":
            for at, letter in enumerate(word[1:], 2):
                name = LETTERS[letter]
                options.append((name, OPTIONS[name] and (word[at:] or words.pop(0))))
                if OPTIONS[name]:
                    break
        else:
            files.append(word)
    return options, files


def refuse_wrong_value(name, value):
    """Refuses a wrong value."""
    said, reason = {"salt": "salt", "personal": "personalization", "personal-text": "personalization",
                    "expect": "digest", "derive-key": "context"}.get(name), ""
    if name in ("salt", "personal", "expect"):
        reason = "" if HEX.fullmatch(value) else NOT_DIGITS if value else NO_DIGITS
        if not reason and name == "expect" and len(value) > 128:
            reason = "a digest has at most 512 bits"
        if not reason and name != "expect" and not value.strip("0"):
            reason = "a value of zeros only is the same as none"
    elif said and not value:
        reason = "the value has no bytes"
    if reason:
        raise RefusedOptions(f"invalid {said}: '{value}'\n{reason}")


class CheckCommand:
    """What the words of a check say."""

    def __init__(self, words):
        self.options, self.files = parse_command_line(words)
        for name, value in self.options:
            refuse_wrong_value(name, value)
        self.last = dict(self.options)  # the last value of each
        self.checks = self.has("check", "expect")
        self.folders = [value for name, value in self.options if name == "recursive"]
        self.files = self.files or ["-"] * (self.checks or not self.folders)
        self.hash = self.last.get("algorithm", "blake2b")[6:]
        self.family = f"tree-{self.last['tree']}" if self.has("tree") else self.hash
        self.most, self.length = longest_digest_bits(self.hash), int(self.last.get("length", 0))
        self.key_file = ([value for name, value in self.options if name.startswith("key-")] or [None])[-1]
        self.bits = self.length or (self.most if self.key_file is not None else 0)  # that digests have to have, or 0
        self.names_algorithm = self.has("algorithm", "tree")
        reports = [name for name, _ in self.options if name in ("quiet", "status", "warn")]
        modes = [name for name, _ in self.options if name in ("binary", "text", "tag", "seal")]
        self.report, self.mode = (reports or [""])[-1], (modes or [""])[-1]
        self.is_strict = self.has("strict") or self.key_file is not None
        self.given = {}
        if self.has("salt"):
            self.given["salt"] = bytes.fromhex(self.last["salt"])
        if self.has("personal", "personal-text"):
            text = self.last.get("personal-text")
            self.given["person"] = os.fsencode(text) if text else bytes.fromhex(self.last["personal"])

    def has(self, *names):
        return any(name in self.last for name in names)

    def broken_rules(self):
        """The messages of all rules that the words break. Any of them is printed."""
        rules = itertools.chain(self.broken_rules_of_values(), self.broken_rules_of_seals(),
                                self.broken_rules_of_parameters(),
                                self.broken_rules_of_checks() if self.checks else self.broken_rules_of_digests())
        return [text for text, is_broken in rules if is_broken]

    def broken_rules_of_values(self):
        """Lengths that the hash does not have, and files."""
        labels = {"salt": self.given.get("salt", b""), "personalization": self.given.get("person", b"")}
        yield (f"invalid length: '{self.length}'\nmaximum digest length for 'BLAKE2{self.hash}' is {self.most} bits",
               self.length > self.most)
        for label, value in labels.items():
            yield (f"the {label} is too long: at most 16 bytes, 8 for BLAKE2s and BLAKE2sp",
                   32 * len(value) > self.most)
        yield "the --raw option needs one file", self.has("raw") and len(self.files) != 1
        yield "standard input is the key, and cannot be a file too", self.key_file == "-" and "-" in self.files

    def broken_rules_of_seals(self):
        """What goes with sealed lists and folders."""
        has, text = self.has, "the --seal option does not support {}"
        if has("seal"):
            yield "the --seal option is meaningless when verifying checksums", self.checks
            yield text.format("--tree"), has("tree")
            yield text.format("--zero"), has("zero")
            yield text.format("--no-names and --raw"), has("no-names", "raw")
            yield "--seal does not support --text mode", self.mode == "text"
            yield "the --seal option needs --key-file", self.key_file is None
        yield "the --sealed option needs --key-file", has("sealed") and self.key_file is None
        yield "the --recursive option does not support --expect", self.folders and has("expect")
        yield ("the --recursive option needs --sealed when verifying checksums",
               self.folders and self.checks and not has("sealed"))
        yield "the --recursive option does not support --raw", self.folders and not self.checks and has("raw")

    def broken_rules_of_parameters(self):
        """What goes with a key, a personalization, a tree and tags."""
        has = self.has
        yield "the --derive-key option needs --key-file", has("derive-key") and self.key_file is None
        for one, other in (("personal", "personal-text"), ("key-file", "key-hex-file")):
            yield f"the --{one} and --{other} options are mutually exclusive", has(one) and has(other)
        yield "--tag does not support --text mode", has("tag", "seal") and self.mode == "text"
        yield "--tag does not support --no-names and --raw", has("tag", "seal") and has("no-names", "raw")
        if has("tree"):
            yield "the --tree option supports blake2b only", self.hash != "b"
            yield "the --tree option does not support --key-file", self.key_file is not None
            yield "--tree does not support --text mode", self.mode == "text" and not self.checks
        yield ("the --threads option is meaningful only with --tree",
               has("threads") and not has("tree") and not self.checks)

    def broken_rules_of_checks(self):
        """What goes with a check."""
        has, text = self.has, "the {} options are meaningless when verifying checksums"
        if has("expect"):
            bits = 4 * len(self.last["expect"])
            yield "the --expect option does not support --sealed", has("sealed")
            yield "the --expect option does not support --strict and --ignore-missing", has("strict", "ignore-missing")
            yield ("the expected digest does not have the length of the digests",
                   bits > self.most or self.bits not in (0, bits))
        yield "the --zero option is not supported when verifying checksums", has("zero")
        yield "the --tag option is meaningless when verifying checksums", has("tag", "seal")
        yield text.format("--binary and --text"), self.mode
        yield text.format("--no-names and --raw"), has("no-names", "raw")
        yield ("--show-digests does not support --key-file: it would print a valid MAC of a changed file",
               has("show-digests") and self.key_file is not None)

    def broken_rules_of_digests(self):
        """What goes with digests that are printed."""
        for name in ("sealed", "ignore-missing", "quiet", "status", "warn", "strict", "show-digests"):
            yield f"the --{name} option is meaningful only when verifying checksums", self.has(name)


def message_line(text):
    """A message of a run. Words that are refused have one more line, if it is not of a value."""
    return os.fsencode(f"b2sum: {text}\n")


def refusal_lines(text):
    lines = b"".join(map(message_line, text.split("\n")))
    return lines if "\n" in text else lines + b"Try 'b2sum --help' for more information.\n"


def shell_quoted(name):
    """A name as a shell reads it, in the locale C."""
    data, is_plain = os.fsencode(name), r"[A-Za-z0-9 %'+,./:\]_-]*"
    if "'" in name and re.fullmatch(is_plain, name):
        return f'"{name}"'
    if re.fullmatch(r"[A-Za-z0-9%+,./@\]_-][A-Za-z0-9%+,./@\]_#~{}-]*", name):
        return name
    codes = {7: "a", 8: "b", 9: "t", 10: "n", 11: "v", 12: "f", 13: "r"}
    parts = re.findall(rb"[ -~]+|[^ -~]+", data) or [b""]
    shown = ["'" + part.decode().replace("'", "'\\''") + "'" if part.isascii() and part.decode().isprintable() else
             "$'" + "".join("\\" + codes.get(byte, f"{byte:03o}") for byte in part) + "'" for part in parts]
    return "''" * shown[0].startswith("$") + "".join(shown)


# ---- Files, folders and keys.

def data_or_error_of_file(folder, name):
    """The bytes of a file, or the error with which it is opened or read."""
    try:
        with open(os.path.join(folder, name) if name else "", "rb") as file:
            return file.read()
    except OSError as it:
        return it.errno


def files_and_errors_below(folder, tops):
    """What these folders have: the regular files and all else that is no folder, by the names that lines have for them,
    in their order; and each folder that cannot be listed, with the reason."""
    files, others, errors = [], [], []
    for top in tops:
        base, start = os.path.join(folder, top or "''"), top if top.endswith("/") else f"{top}/"

        def shown(path, base=base, start=start, top=top):
            rest = os.path.relpath(path, base)
            return top if rest == "." else start + rest

        for path, folders, names in os.walk(base, onerror=lambda it: errors.append(
                (shown(it.filename), os.strerror(it.errno)))):
            for name in folders + names:
                mode = os.lstat(os.path.join(path, name)).st_mode
                if not stat.S_ISDIR(mode):
                    (files if stat.S_ISREG(mode) else others).append(shown(os.path.join(path, name)))
    return sorted(files, key=os.fsencode), sorted(others, key=os.fsencode), errors


def parse_key_file(data, is_hex, most):
    """The key of a key file, of at most so many bytes, or why it has none."""
    of = "" if most == 64 else " of BLAKE2s or BLAKE2sp"
    if is_hex:
        text = data.removesuffix(b"\n").decode("latin-1")
        if HEX.fullmatch(text) and len(text) <= 2 * most:
            return bytes.fromhex(text)
        return f"a key{of} has 2 to {2 * most} hexadecimal digits, two for each byte"
    return data if 1 <= len(data) <= most else f"a key{of} has 1 to {most} bytes"


@functools.cache
def seal_line(text, key, salt=b"", person=b"b2sum sealed"):
    """The line that seals these bytes."""
    mac = hashlib.blake2b(text, key=key, salt=salt, person=person).hexdigest()
    return f"# sealed {text.count(10)} {mac}\n".encode()


# ---- Lines.

Entry = collections.namedtuple("Entry", "family needs digest name is_two")  # of a line without a tag `needs` is None


def parse_manifest_line(text, command, is_two, is_input):
    """The entry of a line, or nothing if it is malformed. `is_two` says whether two bytes are before a name, or None if
    no line has decided that."""
    rest = text.lstrip(b" \t")
    is_escaped = rest.startswith(b"\\")
    rest = rest[is_escaped:]
    if tag := TAG.match(rest):
        family, found = tag[1].decode().removeprefix("b-"), TAGGED.fullmatch(rest, tag.end())
        if not found or family.startswith("tree-") and int(family[5:]) >= 1 << 32:
            return None
        *needs, bits, name, digits = found.groups()
        needs = {label for label, is_there in zip(NEEDED, needs) if is_there}
        if int(bits or longest_digest_bits(family)) != 4 * len(digits):
            return None
    else:
        family, needs, found = command.family, None, UNTAGGED.fullmatch(rest)
        if not found or command.has("tree"):
            return None
        digits, name = found.groups()
        has_two = len(name) > 1 and name[:1] in (b" ", b"*")
        if is_two and not has_two:
            return None
        is_two = has_two if is_two is None else is_two
        name = name[is_two:]
    if is_escaped:
        if not re.fullmatch(rb"([^\\]|\\[\\nr])*", name):
            return None
        name = re.sub(rb"\\(.)", lambda it: {b"n": b"\n", b"r": b"\r"}.get(it[1], it[1]), name)
    if len(digits) % 2 or 4 * len(digits) > longest_digest_bits(family) or b"\0" in name or name == b"-" and (
            is_input or command.key_file == "-"):
        return None
    return Entry(family, needs, bytes.fromhex(digits.decode()), os.fsdecode(name), is_two)


def is_tree_with_small_leaves(family):
    """Whether it is a tree that a check accepts only by its name."""
    return family.startswith("tree-") and int(family[5:]) < 1024


def missing_for_entry(entry, command, given):
    """What an entry needs that a check has not: options, those that it must not have, an algorithm, and a length. There
    is none of these if the check counts the entry."""
    family, bits = entry.family, 8 * len(entry.digest)
    needs = given.keys() if entry.needs is None else entry.needs
    missing, unwanted, is_other = needs - given.keys(), given.keys() - needs, family != command.family
    if not (missing or unwanted or command.bits not in (0, bits) or is_other and (
            command.names_algorithm or given or is_tree_with_small_leaves(family))):
        return None
    algorithm = family if is_other and (command.names_algorithm or needs or is_tree_with_small_leaves(family)) else None
    is_longest = not command.bits or algorithm and command.bits == command.most
    demands = (command.bits or "key" in needs) and "key" not in unwanted
    return missing, unwanted, algorithm, bits if demands and bits != (
        longest_digest_bits(family) if is_longest else command.bits) else None


def needed_options(lacks):
    """The options that several entries need, of which the first tells the algorithm and the length."""
    missing, unwanted, algorithms, lengths = zip(*lacks)
    words = [NEEDED[it] for it in NEEDED if any(it in each for each in missing)]
    words += ["no " + NEEDED[it] for it in NEEDED if any(it in each for each in unwanted)]
    words += [f"--{'algorithm blake2' * (it[0] != 't')}{it.replace('-', ' ')}" for it in filter(None, algorithms)][:1]
    words += [f"--length {bits}" for bits in filter(None, lengths)][:1]
    return " ".join(words)


def split_lines(text):
    """The lines of a list."""
    lines = text.split(b"\n")
    return [line.removesuffix(b"\r") for line in (lines if lines[-1] else lines[:-1])]


# ---- Checks.

def warnings_for_counts(counts):
    """The last messages of a list with so many lines of each kind."""
    texts = {"malformed": ("line is improperly formatted", "lines are improperly formatted"),
             "unmet": ("line needs other options", "lines need other options"),
             "unread": ("listed file could not be read", "listed files could not be read"),
             "different": ("computed checksum did NOT match", "computed checksums did NOT match")}
    return [f"WARNING: {counts[kind]} {text[counts[kind] > 1]}" for kind, text in texts.items() if counts[kind]]


class ManifestCheck:
    """A check, and what it has printed so far."""

    def __init__(self, command, folder, data):
        self.command, self.folder, self.input, self.out, self.err = command, folder, data, b"", []
        self.given = dict(command.given)

    def read(self, name):
        """The bytes of a file or, once, of standard input; or an error."""
        if name != "-":
            return data_or_error_of_file(self.folder, name)
        data, self.input = self.input, b""
        return data

    def read_key_succeeds(self):
        """Reads the key. Returns whether there is none or it is one."""
        command = self.command
        if command.key_file is None:
            return True
        found, is_hex = self.read(command.key_file), command.has("key-hex-file")
        if isinstance(found, int):
            self.err.append(f"{shell_quoted(command.key_file)}: {os.strerror(found)}")
            return False
        context = command.last.get("derive-key")
        key = parse_key_file(found, is_hex, 64 if context else command.most // 8)
        if isinstance(key, str):
            self.err.append(f"{shell_quoted(command.key_file)}: {key}")
            return False
        if not is_hex and re.fullmatch(rb"[0-9a-fA-F]+\n?", key):
            self.err.append(f"WARNING: {shell_quoted(command.key_file)}: {LIKE_DIGITS}")
        if command.bits < 128:
            self.err.append(SHORT[:-1])
        self.given = {"key": derived_key(key, context, command.hash) if context else key, **self.given}
        return True

    def check_digest_of_file(self, family, listed, name):
        """Compares a file with a digest, and prints its line. Returns what became of it."""
        command, report = self.command, self.command.report
        found = self.read(name)
        if isinstance(found, int):
            if command.has("ignore-missing") and found == errno.ENOENT:
                return "skipped"
            self.err.append(f"{shell_quoted(name)}: {os.strerror(found)}")
            kind, outcome = "unread", "FAILED open or read"
        else:
            found = digest(family, found, len(listed), **self.given)
            kind, outcome = ("equal", "OK") if found == listed else ("different", "FAILED")
        if report != "status" and (report, outcome) != ("quiet", "OK"):
            self.out += os.fsencode(check_result_line(name, outcome))
            if kind == "different" and command.has("show-digests"):
                self.out += expected_and_found_lines(listed, found).encode()
        return kind

    def check_lines(self, text, name):
        """Checks the lines of a list. Returns whether it holds, and the names of its entries."""
        command, counts, lacks, names = self.command, collections.Counter(), [], []
        shown, is_two = "'standard input'" if name == "-" else shell_quoted(name), True if "key" in self.given else None
        warns = command.report == "warn"
        for number, line in enumerate(split_lines(text), 1):
            if not line or line.startswith(b"#"):
                continue
            entry = parse_manifest_line(line, command, is_two, name == "-")
            if not entry:
                counts["malformed"] += 1
                tag = "BLAKE2" + "b-" * command.has("tree") + command.family
                said = "checksum line of another algorithm" if FOREIGN.match(line) else \
                    f"improperly formatted {tag} checksum line"
                self.err += [f"{shown}: {number}: {said}"] * warns
                continue
            names.append(entry.name)
            if lacking := missing_for_entry(entry, command, self.given):
                counts["unmet"] += 1
                lacks.append(lacking)
                self.err += [f"{shown}: {number}: needs {needed_options([lacking])}"] * warns
                continue
            is_two = entry.is_two
            counts[self.check_digest_of_file(entry.family, entry.digest, entry.name)] += 1
        self.print_warnings(shown, counts, lacks)
        fails = counts["different"] + counts["unread"] + counts["unmet"] or not counts["equal"]
        return not fails and not (command.is_strict and counts["malformed"]), names

    def print_warnings(self, shown, counts, lacks):
        """The messages at the end of a list."""
        if not counts.total() - counts["malformed"]:
            self.err.append(f"{shown}: no properly formatted checksum lines found")
        elif self.command.report != "status":
            self.err += [f"{shown}: lines need {needed_options(lacks)}"] if lacks else []
            self.err += warnings_for_counts(counts)
            if self.command.has("ignore-missing") and not counts["equal"]:
                self.err.append(f"{shown}: no file was verified")

    def check_list(self, name):
        """Checks a list. Returns whether it holds."""
        command, text = self.command, self.read(name)
        if isinstance(text, int):
            is_read = text == errno.EISDIR and not command.has("sealed")
            self.err.append(f"{shell_quoted(name)}: {'read error' if is_read else os.strerror(text)}")
            return False
        if not command.has("sealed"):
            return self.check_lines(text, name)[0]
        above = text[:text.rfind(b"\n", 0, -1) + 1]
        if text != above + seal_line(above, self.given["key"], self.given.get("salt", b"")):
            self.err.append(f"{shell_quoted(name)}: the seal does not hold")
            return False
        holds, names = self.check_lines(text, name)
        return self.has_list_all_files(names) and holds

    def has_list_all_files(self, names):
        """Names what the folders have and a list has not. Returns whether that is nothing, and each was listed."""
        files, others, errors = files_and_errors_below(self.folder, self.command.folders)
        self.err += [f"{shell_quoted(name)}: {reason}" for name, reason in errors]
        unlisted = [name for name in sorted(files + others, key=os.fsencode) if name not in names]
        self.err += [f"{shell_quoted(name)}: {UNLISTED}" for name in unlisted] * (self.command.report != "status")
        return not errors and not unlisted

    def run(self):
        """Does what the command line says. Returns whether all holds."""
        if not self.read_key_succeeds():
            return False
        if expected := self.command.last.get("expect"):
            expected = bytes.fromhex(expected)
            return all([self.check_digest_of_file(self.command.family, expected, name) == "equal"
                        for name in self.command.files])
        return all([self.check_list(name) for name in self.command.files])


def run_model_of_check(words, folder, data=b""):
    """What a check prints to standard output, what it may print to standard error, and its status. Only for words that
    are refused for several reasons may it be one of several."""
    try:
        command = CheckCommand(words)
        refused = command.broken_rules()
    except RefusedOptions as it:
        refused = [str(it)]
    if refused:
        return b"", [refusal_lines(text) for text in refused], 1
    check = ManifestCheck(command, folder, data)
    holds = check.run()
    return check.out, [b"".join(map(message_line, check.err))], int(not holds)
