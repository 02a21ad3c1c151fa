"""A mutant: a wrong change, as a file of tools/mutants/ or must-fail/ has it. tools/mutation_test tries mutants."""

import os
import re
from collections import namedtuple
from copy import copy
from glob import glob

from commands import TOP, below, run_ok, text_of, write

# The crate of the program of rows, and what tells that a row no longer prints a line.
ROWS, MISSING, FACTS = "mime_tests", "not printed: ", "mime_facts"
# The words that begin a mutant's lines.
WORDS = ("file", "old", "new", "mutant", "why", "killed by", "survives", "prints", "proves", "apart")
KILLER = re.compile(r"(clause) (\S+) of (\w+)(::\S+)|(fact|test) (\S+) of (\w+)|(row|tool) (.+)")
# The tools that need nothing that rt ci builds.
NEEDS_NOTHING = re.compile(r"tools/(docs|gate|mutation_test)\b")
# About how many seconds it takes to find that a function is wrong, if it takes long: its contract has many clauses, or a search is long.
SLOW = {
    "mime_headers::program::run": 26,
    "mime_headers::report::push_response": 17,
    "mime_lines::program::run": 45,
}
# How many times as long as elsewhere it takes in a crate of which few proofs are written, and nearly all are found.
SEARCHED = {"mime_headers": 2}
# About how many seconds a tool takes on one set of mutants, if it takes long.
TOOLS = {
    "tools/refused_requests": 350,
    "bench/run": 280,
    "tools/c_calls": 150,
    "tools/largest_inputs": 120,
    "tools/program ./mime_headers": 140,
}
# A change: in a file, at a position, what is there, and what comes in its place.
Change = namedtuple("Change", "path at old new")


class Unfit(ValueError):
    """A mutant that isn't written as it should be, or no longer applies."""


class Mutant:
    def __init__(self, path, block):
        said, texts = lines_of(path, block)
        self.path, self.name = path, said.get("mutant") or os.path.basename(path).removesuffix(".edit")
        self.why, self.prints, self.apart, self.survives = said.get("why"), said.get("prints"), "apart" in said, "survives" in said
        self.killer = said.get("survives" if self.survives else "killed by", "")
        found = KILLER.fullmatch(self.killer)
        has_prints = self.prints is not None
        if not found or not self.why or not texts or "old" in said or has_prints == self.killer.startswith(("clause ", "fact ")):
            raise Unfit(f"{path}: {block}\n\nA line is missing, or isn't as tools/mutation_test says.")
        clause, self.clause, crate, function, named, name, its_crate, other, words = found.groups()
        self.kind, self.crate = clause or named or other, crate or its_crate or (ROWS if other == "row" else said.get("proves", ""))
        # What is asked about it: a function, a fact, a test, a row or a command, which may have a comment that names the function.
        asked = name or words or crate + function
        self.asked, self.is_twin_of = asked.partition(" # ")[0], None
        try:
            self.changes = [change_of(*pair, asked.split("::")[-1]) for pair in texts]
        except OSError as error:
            raise Unfit(str(error)) from error
        if self.kind == "test" and {change.path.rpartition("/")[0] for change in self.changes} != {f"crates/{self.crate}/src"}:
            raise Unfit("what a test kills changes files of its crate's folder src alone")
        # Where each change lies: at the head of a function, if it is in one. What is in none may be what others of its file rest on.
        self.places, self.paths = {(change.path, head_of(change)) for change in self.changes}, {change.path for change in self.changes}
        self.is_in_bodies = all(map(is_in_body, self.changes))
        self.function = function_at(*min(self.places), self.asked) if self.kind == "clause" and len(self.places) == 1 else None
        self.texts = texts

    def needs(self):
        """What has to be there before it is tried: `rt ci` stands for what that builds, `a` for the library a, and `proof of a` for what
        a check of the crate a keeps, so that a later check proves only what the mutant changes."""
        if self.kind == "tool" and not self.crate:
            return set() if NEEDS_NOTHING.match(self.asked) else {"rt ci"}
        if self.kind in ("test", "row"):
            return set()
        *libraries, own = below(self.crate)
        changed_crates = {change.path.split("/")[1] for change in self.changes if change.path.startswith("crates/")}
        proofs = {crate for crate in libraries if self.kind == "tool" and changed_crates & {*below(crate)}}
        return {*libraries, *(f"proof of {crate}" for crate in proofs | {own} if self.kind != "fact")}

    def fits(self, other):
        """Whether it is tried in the same copy as another one, where what is said must tell them apart."""
        if (self.kind, self.crate, self.apart) != (other.kind, other.crate, other.apart) or self.kind == "fact":
            return False
        if self.kind == "test" or self.function and self.function == other.function:
            return True
        if self.places & other.places or self.kind == "row" and self.apart:
            return False
        if self.kind == "clause" and not (self.is_in_bodies and other.is_in_bodies) and self.paths & other.paths:
            return False
        if self.kind == "tool":
            return self.asked == other.asked and self.prints not in other.prints and other.prints not in self.prints
        return self.asked != other.asked

    def seconds(self):
        """About how long its check takes beside others: the longer, the more is proved of the function."""
        if self.kind != "clause":
            return next((seconds for tool, seconds in TOOLS.items() if self.asked.startswith(tool)), 40)
        if self.asked in SLOW:
            return SLOW[self.asked]
        if not self.function:
            return 8
        path, begin, end = self.function
        proofs = glob(f"{TOP}/crates/{self.crate}/proofs/{'/'.join(self.asked.split('::')[1:])}/*.antt")
        return SEARCHED.get(self.crate, 1) * (4 + (end - begin + sum(map(os.path.getsize, proofs))) / 500)

    def is_in(self, said):
        """Whether what is said has what it names. What a row prints no more isn't what it prints."""
        if self.kind in ("clause", "fact") or said is None:
            return bool(said) and (self.clause or self.asked) in said
        return any(self.prints in line and line.startswith(MISSING) == self.prints.startswith(MISSING) for line in said.split("\n"))

    def rests_on(self):
        crates = [f"crates/{crate}" for crate in below(self.crate)] if self.kind != "tool" else ["."]
        crates += [f"crates/{FACTS}"] if self.kind == "fact" else []
        more = str([self.texts, self.killer, self.prints, self.survives])
        return ["crates.txt", "HANDLES", "tools/mutation_test", "tools/mutant.py", "tools/commands.py", *crates], more

    def twin(self, number):
        """What it is tried as beside others of its function: a change that adds the function once more, changed and under another name. For
        example the second mutant of `read` adds `read_2` after `read`."""
        (path, begin, end), name, twin = self.function, self.asked.split("::")[-1], copy(self)
        inside = [change._replace(at=change.at - begin) for change in self.changes]
        twin.changes = [Change(path, end, "", "\n" + renamed(changed(text_of(path)[begin:end], inside), name, number))]
        twin.asked, twin.is_twin_of = f"{self.asked}_{number}", self.asked
        return twin

    def copy_proofs(self, room):
        """Gives a twin what is written of the proof of its function, under its own name."""
        proofs, (function, twin) = f"{room}/crates/{self.crate}/proofs", (name.split("::")[1:] for name in (self.is_twin_of, self.asked))
        for file in glob(f"{proofs}/{'/'.join(function)}/*.antt"):
            write(f"{proofs}/{'/'.join(twin)}/{os.path.basename(file)}", of_twin(text_of(file), ".".join(function), ".".join(twin)))


def lines_of(path, block):
    """The words and texts of a mutant's lines, and its pairs of texts, with their file: [("src/a.rt", "1", "2")] of `file: src/a.rt`,
    `old: 1` and `new: 2`."""
    said, texts, folder = {}, [], path.rpartition("must-fail/")[0]
    for line in block.split("\n"):
        word, _, text = line.removeprefix("# ").partition(":")
        # An old text is used up by the new one.
        if word not in WORDS or word in said and word not in ("file", "new"):
            raise Unfit(f"{path}: {block}\n\nThe word {word!r} is unknown, or comes twice: is an empty line missing?")
        said[word] = text.removeprefix(" ")
        if word == "new":
            texts.append((folder + said.get("file", ""), said.pop("old", ""), said["new"]))
    return said, texts


def pattern_of(old):
    """What an old text matches in another layout: any white space where it has some. For example `f(a, b)` matches `f(a,` and `b)` on two
    lines, and ` b` matches `b` after white space."""
    words = r"\s+".join(map(re.escape, old.split()))
    return (r"(?<!\S)" if old[:1].isspace() else "") + words + (r"(?!\S)" if old[-1:].isspace() else "")


def in_place_of(old, new):
    """What comes in the place of an old text without the white space around it: `c` for `  b` and `  c`."""
    before, after = old[: len(old) - len(old.lstrip())], old[len(old.rstrip()) :]
    return new.removeprefix(before).removesuffix(after)


def change_of(path, old, new, function):
    """The change of a pair of texts. The old text occurs once in the file, or else once in the function, as it is or in another layout."""
    text, counts = text_of(path), []
    for pattern, other in ((re.escape(old), new), (pattern_of(old), in_place_of(old, new))):
        found = [*re.finditer(pattern, text)] if old.strip() else []
        within = [match for match in found if text[text.rfind("fn ", 0, match.start()) :].startswith(f"fn {function}(")]
        if 1 in (len(found), len(within)):
            match = (found if len(found) == 1 else within)[0]
            return Change(path, match.start(), match[0], other)
        counts = counts or [len(found), len(within)]
    raise Unfit(f"{old!r} occurs {counts[0]} times in {path}, and {counts[1]} in the function, in place of once")


def head_of(change):
    """The position of the name of the function in which a change lies, or its own if it is in none."""
    end = change.at + len(change.old)
    return text_of(change.path).rfind("fn ", 0, end) if change.path.endswith(".rt") else end


def is_in_body(change):
    """Whether a change lies in a function's body. If it is before, as a contract is, or after, other functions may rest on it."""
    if not change.path.endswith(".rt"):
        return False
    text, head = text_of(change.path), head_of(change)
    line = text.rfind("\n", 0, head) + 1
    indent = re.match(" *", text[line:])[0]
    begin = re.compile(rf"^{indent}(?! ).*\{{$", re.M).search(text, line)
    return bool(begin) and begin.end() <= change.at < text.find(f"\n{indent}}}\n", begin.end())


def function_at(path, at, asked):
    """The file, the beginning and the end of the function there, if it is the one that is asked about, not a trait's, and in no cycle."""
    text, (*_, owner, name) = text_of(path), asked.split("::")
    line = text.rfind("\n", 0, at) + 1
    indent = re.match(" *", text[line:])[0]
    impl = re.findall(r"(?m)^impl\b(?:<.*?>)? (\w+)", text[:at])[-1:] if indent else [owner]
    close, begin = f"\n{indent}}}\n", max(text.rfind(before, 0, line) + 2 for before in ("\n\n", "{\n"))
    if not re.match(rf"fn {name}\b", text[at:]) or impl != [owner] or "#[cycle(" in text[begin:at]:
        return None
    return path, begin, text.index(close, at) + len(close)


def renamed(text, name, number):
    """A function's text under another name: `fn read_2() {}` of `fn read() {}`."""
    return re.sub(rf"\bfn {name}\b", f"fn {name}_{number}", text, count=1)


def of_twin(text, function, twin):
    """A file of a function's proof as one of its twin's: `use Rattle.a.proofs.b.read_2.Goals` of `use Rattle.a.proofs.b.read.Goals`."""
    return re.sub(rf"(\bproofs\.|[{{ ]){re.escape(function)}\.", rf"\1{twin}.", text)


def changed(text, changes):
    """A text with changes, made from the end on, so that what is before each is where it was."""
    for change in sorted(changes, key=lambda change: -change.at):
        text = text[: change.at] + change.new + text[change.at + len(change.old) :]
    return text


def mutants(words):
    """The mutants with one of the words, and what is wrong with those that no longer apply. It is an error if a file is lost."""
    files = run_ok("git", "ls-files", "-co", "--exclude-standard", "crates/*/must-fail/*", "tools/mutants").split()
    found, wrong = [], []
    for path, block in ((path, block) for path in sorted(files) for block in re.split(r"\n\n+", text_of(path).strip("\n"))):
        try:
            found.append(Mutant(path, block))
        except Unfit as error:
            name = re.search(r"(?m)^(?:# )?mutant: (.*)", block)
            wrong.append(f"{path}: {name[1] if name else ''}: {error}")
    names = [mutant.name for mutant in found]
    wrong += [f"two mutants have the name {name}" for name in sorted({name for name in names if names.count(name) > 1})]
    return [mutant for mutant in found if not words or any(word in f"{mutant.path} {mutant.name} {mutant.killer}" for word in words)], wrong
