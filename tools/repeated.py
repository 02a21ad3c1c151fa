"""What documents repeat, for tools/docs: counts of bench/README.md and of sources, numbers of each other, and what a commit declared."""

import re
from pathlib import Path

import blocks
from commands import TOP, output, text_of

# Numbers that several files have, by the words around them: they are the same in all.
REPEATED = (
    (r"\b([0-9a-f]{16})\b", "README.md", "tools/commands.py"),
    (r"(\d+ GB) of disk and (\S+ GB) of memory", "README.md", "tools/commands.py"),
    (r"rustc (\S+) or later", "README.md", "include/README.in"),
    (r"in (\d\d to \d+) minutes on four cores", "README.md", "CONTRIBUTING.md", "check"),
    (r"in (\d+ to \d+) minutes[.,]", "README.md", "CONTRIBUTING.md", "check"),
    (r"in (\d to \d+) minutes on four cores", "README.md", "mime_headers"),
    (r"(\d+ to \d+)(?: minutes)? on two", "README.md", "mime_lines"),
    (r"\b(\d+) constant names", "docs/RULES.md", "docs/LAWS.md"),
)
# What README.md says to last within 1.x.
LASTING = "crates/mime/CALLING.md", "crates/mime_http/CALLING.md", "include/mime.h"


def faults():
    yield from counts()
    yield from numbers_of_several()
    yield from what_lasts()


def counts():
    """docs/PERF.md has counts of bench/README.md after the labels of their rows, and two documents count what files have."""
    table = dict(re.findall(r"(?m)^  (\S.*?)  +([\d,.]+) ", text_of("bench/README.md")))
    without_each = re.sub(r"(?ms)^```text.*?^```", "", text_of("docs/PERF.md"))
    for row, numbers in re.findall(r"(?m)^(\S.*?)  +(\d[\d,.]*(?: +\d[\d,.]*)*)", without_each):
        if row in table and table[row] not in numbers.split():
            yield f"docs/PERF.md: {row} takes {table[row]}, not {numbers}"
    names = text_of("crates/mime/specs/Names.antt").partition("\nname_table = ")[2].split("\n\n")[0].count("codes ")
    lines = len(re.findall(rb"(?m)^> ", Path(TOP, "vectors/parts").read_bytes()))
    for path, said in ("docs/RULES.md", f"the {names} constant names"), ("vectors/README.md", f"have {lines:,} lines"):
        if said not in text_of(path):
            yield f"{path}: it doesn't say '{said}'"


def numbers_of_several():
    for pattern, *paths in REPEATED:
        found = {path: {*re.findall(pattern, " ".join(text_of(path).split()))} for path in paths}
        first = found[paths[0]]
        if len(first) != 1 or any(numbers != first for numbers in found.values()):
            yield f"these numbers aren't the same: {found}"


def declared(path, text):
    """What users may rely on: each line of a contract, after the line of its call, or what a header declares."""
    if path.endswith(".md"):
        call = ""
        for line in blocks.lines_of_blocks(text):
            call = call if line[:1] == " " else line
            if "  // " not in line:
                yield call if line == call else f"{call}\n    {line.strip()}"
    else:
        text = re.sub(r"(?s)/\*.*?\*/|\\\n", "", text)
        text = re.sub(r"(?ms)^(static inline .*?)^\{.*?^\}", r"\1;", text)
        pieces = re.findall(r"(?m)^#.*", text) + re.split(r"[;,{}]", re.sub(r"(?m)^#.*", ";", text))
        yield from (" ".join(piece.split()) for piece in pieces if "MIME_VERSION" not in piece)


def what_lasts():
    """What was declared at the commit that README.md names, and isn't any more. A copy without the history has nothing to compare."""
    commit = re.search(r"at commit (\w+)", text_of("README.md"))[1]
    if f"Commits before {commit} " not in " ".join(text_of("CHANGELOG.md").split()):
        yield f"CHANGELOG.md: it doesn't name the commit {commit}, as README.md does"
    for path in LASTING:
        text, status = output(["git", "show", f"{commit}:{path}"])
        then, now = declared(path, "" if status else text), {*declared(path, text_of(path))}
        yield from (f"{path}: at commit {commit} it had: {lost}" for lost in then if lost not in now)
