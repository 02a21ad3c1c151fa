"""What the tools read of Rattle's sources, other than by the prover. tools/docs tries the examples of this file.

The imports of a source, each with the name that it has here, its path, and whether it is exported:

>>> source = "pub use std::fmt::{Debug,\\n    Display as Shown};\\nuse mime::*; // all\\nfn f() {}\\n"
>>> for found in imports(source): print(*found)
Debug std::fmt::Debug True
Shown std::fmt::Display True
* mime::* False
>>> without_imports(without_comments("f.rt", source)).split()
['fn', 'f()', '{}']

>>> without_comments("f.antt", 'f : codes "-- x" -- y')
'f : codes "-- x" '

A path has no braces, however the import is written:

>>> paths = lambda text: [found.path for found in imports(text)]
>>> paths("use Rattle.mime.proofs.{ValueLemmas.Pairs.spaces_border, HandedOut.one}")
['Rattle.mime.proofs.ValueLemmas.Pairs.spaces_border', 'Rattle.mime.proofs.HandedOut.one']
>>> paths("pub use Rattle.mime.{proofs.{ValueLemmas.{one, two as three}}, specs.Inner as Private}")
['Rattle.mime.proofs.ValueLemmas.one', 'Rattle.mime.proofs.ValueLemmas.two', 'Rattle.mime.specs.Inner']
>>> paths("ghost use Rattle.std.specs.Prelude.{◌≡◌, [],\\n    length};\\nuse std::fmt;")
['Rattle.std.specs.Prelude.◌≡◌', 'Rattle.std.specs.Prelude.[]', 'Rattle.std.specs.Prelude.length', 'std::fmt']
>>> paths("-- use Rattle.mime.proofs.Hidden.{one}")
[]

The names that a source imports and doesn't use:

>>> unused_imports("f.antt", "use a.{b, ◌∷◌, [], c-d as e}\\nf : b.x → (1 ∷ c-d) -- e\\n")
['[]', 'e']

Whether a proof of another crate may import a path of a library:

>>> is_handed_out("Rattle.mime.proofs.HandedOut.kept_text", "mime", {"Inner"})
True
>>> [is_handed_out(path, "mime", {"Inner"}) for path in ("Rattle.mime.proofs.Walks.one", "Rattle.mime.specs.Inner.Pairs.cut_of")]
[False, False]
>>> [is_handed_out(path, "mime", {"Inner"}) for path in ("Rattle.mime", "Rattle.mime.proofs", "Rattle.mime.specs")]
[False, False, False]
>>> [is_handed_out(path, "mime", {"Inner"}) for path in ("Rattle.mime.specs.Values.MediaType", "Rattle.mime_http.proofs.Walks.one")]
[True, True]

What a source of code makes public, and what its `unsafe` blocks call:

>>> modules("pub mod one;\\nmod two;\\npub mod Three\\n")
['one', 'Three']
>>> sorted(exported("pub use crate::one::{A, B};\\npub use crate::two::C;\\nuse crate::one::D;\\n"))
['A', 'B', 'C']
>>> types("pub struct One;\\nstruct Two;\\npub trait Three {\\n}\\n")
['One', 'Three']
>>> variants("pub enum Atom {\\n    /// `a/b`\\n    A_B,\\n    C,\\n}\\npub enum Other {\\n    D,\\n}\\n", "Atom")
['A_B', 'C']
>>> unsafe_calls("let text = unsafe { str::from_utf8_unchecked(bytes) };\\n")
['from_utf8_unchecked']

The items of a source of code, and a function's clauses:

>>> code = '''#[derive(Clone)]
... #[non_exhaustive]
... pub enum Kind {
...     A,
... }
... impl Shown for Kind {
...     ghost shows = { 1 };
...     /// Returns `true`. Never fails.
...     fn show(&self) -> bool
...         ensures { result }
...         ensures long { result ≡
...             true }
...     {
...         true
...     }
... }
... '''
>>> for item in items(code): print(item.kind, item.name, item.text, sep=" | ")
type | Kind | #[non_exhaustive] enum Kind { A }: Clone
block |  | impl Shown for Kind
fact | shows | 1
call | show | fn show(&self) -> bool ensures { result } ensures long { result ≡ true }
end |  | 
>>> [(item.owners, item.sentence) for item in items(code) if item.kind in ("block", "call")]
[(['Shown', 'Kind'], ''), ([], 'Returns `true`.')]
>>> signature_and_clauses("fn show(&self) -> bool ensures { result } ensures long { result ≡ true }")
('fn show(&self) -> bool', [('ensures', '', 'result'), ('ensures', 'long', 'result ≡ true')])

What a file of proofs states, and the words that stand in it elsewhere than before a statement and its equations:

>>> proofs = "pub one : ℕ\\none = two\\nrecord R : Type 0 where\\n  field : ℕ\\nthree : one ≡ one\\nthree = refl\\n"
>>> for stated in statements(proofs): print(*stated, sep="|")
one|True|
three|False|
>>> sorted(cited_words(proofs) & {"one", "two", "three", "refl"})
['one', 'refl', 'two']

How many lines of a file of specs/ have to be believed, which types of code it imports, and the texts that it has:

>>> specs = "-- 1\\nuse Rattle.mime.specs.{declared.atoms.Atom.Atom}\\npub mod d\\n\\nabbrev pub e : ℕ\\ne = codes \\"x y\\"\\n"
>>> count_of_lines(specs), types_of_code(specs), texts(specs)
(2, ['Atom'], ['x y'])
>>> texts_of_cases('f : Kind → List ℕ\\nf ONE = codes "one"\\nf TWO = codes "two"\\n', "f")
{'ONE': 'one', 'TWO': 'two'}

What a file of specs/ declares, with those of its names in whose place others would say the same:

>>> one = '''use Rattle.std.specs.Prelude.{ℕ, List, [], ◌∷◌, ◌==◌, length, ⊥}
... -- Whether a list begins with a number.
... abbrev pub begins : ℕ → List ℕ → Bool
... begins n [] = false
... begins n (x ∷ list) = list_any (λ b. b == n)
...     (x ∷ [])
...
... pub record IsPart (part whole : List ℕ) : Type 0 where
...   pub few : length part ≤ length whole
...   pub first : begins 1 part ≡ true
... pub data Walk : List ℕ → Type 0 where
...   ends : Walk []
...   goes_on : {n : ℕ} {list : List ℕ} → Walk list → Walk (n ∷ list)
... pub data Form : Type 0 where
...   few : Form
...   many : List ℕ → Form
... '''
>>> for found in declarations(one): print(found.kind, found.replaceable)
 ['begins']
record ['IsPart', 'few', 'first']
data ['Walk', 'ends', 'goes_on']
data ['Form', 'many']

Which definitions say the same. What cites such definitions, and is the same otherwise, says the same:

>>> other = '''use Rattle.std.specs.Prelude.{ℕ, List, [], ◌∷◌, ◌==◌, length as size}
... abbrev pub has_first : ℕ → List ℕ → Bool
... has_first byte [] = false
... has_first byte (b ∷ bytes) = list_any (λ one. one == byte) (b ∷ [])
... pub record IsFront (a b : List ℕ) : Type 0 where
...   pub less : size a ≤ size b
...   pub same : has_first 1 a ≡ true
... pub data Walk : List ℕ → Type 0 where
...   done : Walk []
...   more : {b : ℕ} {bytes : List ℕ} → Walk bytes → Walk (b ∷ bytes)
... pub data Form : Type 0 where
...   one : Form
...   many : List ℕ → Form
... abbrev pub starts : ℕ → List ℕ → Bool
... starts b [] = false
... starts b (byte ∷ bytes) = list_any (λ one. one == byte) (b ∷ [])
... '''
>>> for paths in Definitions({"one": one, "other": other}).same(): print(*paths)
one.begins other.has_first
one.IsPart other.IsFront
one.Walk other.Walk
>>> Definitions({"one": one, "other": other}).same(least=37)
[['one.Walk', 'other.Walk']]
"""

import functools
import itertools
import re
from collections import defaultdict, namedtuple
from dataclasses import dataclass, field

# ---- imports

# The word `use` and what may stand before it on its line.
_IMPORT = re.compile(r"^[ ]*(pub )?(?:ghost )?use ", re.M)
# A name that a source imports, the path of what it names, and whether it is exported.
Import = namedtuple("Import", "name path is_exported")


def imports(text):
    """What a source imports."""
    for start in _IMPORT.finditer(text):
        for path in _expanded(text[start.end() : _end_of_import(text, start.end())].rstrip("; \n")):
            path, _, new_name = (part.strip() for part in re.sub(r"\s+as\s+", "\0", path).partition("\0"))
            yield Import(new_name or re.split(r"::|\.", path)[-1], path, bool(start[1]))


def without_imports(text):
    """A source without what it imports."""
    rest, end = "", 0
    for start in _IMPORT.finditer(text):
        rest, end = rest + text[end : start.start()], _end_of_import(text, start.end()) + 1
    return rest + text[end:]


def unused_imports(path, text):
    """The names that a source at a path imports, and neither uses nor exports."""
    text = without_comments(path, text)
    rest = without_imports(text)
    return [found.name for found in imports(text) if not found.is_exported and found.name != "*" and not _stands_in(found.name, rest)]


def _stands_in(name, text):
    """Whether a name stands in a text. Of an operator such as `◌≡◌` its signs do."""
    for sign in name.replace("◌", " ").split():
        if not re.search(rf"(?<![\w-]){re.escape(sign)}(?![\w-])" if re.match(r"\w", sign) else re.escape(sign), text):
            return False
    return True


def _end_of_import(text, start):
    """Where an import ends: at the first line break or semicolon outside braces."""
    depth = 0
    for at, sign in enumerate(text[start:], start):
        depth += {"{": 1, "}": -1}.get(sign, 0)
        if depth == 0 and sign in ";\n":
            return at
    return len(text)


def _expanded(path):
    """The paths that a path with braces stands for, each with its new name if it is renamed."""
    before, brace, inside = path.partition("{")
    if not brace:
        yield path.strip()
        return
    for part in _parts(inside[: inside.rindex("}")]):
        yield from _expanded(before.strip() + part)


def _parts(listed):
    """The parts of a list, which commas outside braces separate."""
    depth, part = 0, ""
    for sign in listed + ",":
        if sign == "," and depth == 0:
            if part.strip():
                yield part.strip()
            part = ""
            continue
        depth += {"{": 1, "}": -1}.get(sign, 0)
        part += sign


def is_handed_out(path, library, private_files):
    """Whether a proof outside a library may import a path: from its proofs only the file HandedOut, and from its specs no private file."""
    _, crate, folder, file = (path.split(".") + [""] * 4)[:4]
    if crate != library:
        return True
    return file == "HandedOut" if folder == "proofs" else folder == "specs" and file not in private_files | {""}


# ---- sources of any kind


# A string or a character, in which no comment begins.
_LITERAL = r'"(?:[^"\\\n]|\\.)*"|\'(?:[^\'\\\n]|\\.)\''


def without_comments(path, text):
    """The text of a source at a path, without comments."""
    comment = "//.*" if path.endswith(".rt") else "--.*"
    return re.sub(f"({_LITERAL})|{comment}", lambda found: found[1] or "", text)


def words(text):
    """The words of a text."""
    return set(re.findall(rf"{_NAME}", text))


def modules(text):
    """The public modules of a root."""
    return re.findall(r"(?m)^pub mod (\w+)", text)


def exported(text):
    """The names that a root exports of its modules."""
    return {found.name for found in imports(text) if found.is_exported}


# ---- sources of code

# What is read of a source: types, functions up to their bodies, what a block says of a type as callers see it, its beginning and end.
_ITEM = re.compile(
    r"^(?:#\[derive\((?P<derived>.*)\)\]\n(?P<marks>(?:#.*\n)*))?"
    r"pub (?P<item>(?:struct|enum) (?P<type>\w+)(?:.*(?=;$)|.*\{\n(?:.*\n)*?\}$))"
    r'|^(?P<inside> {4})?(?P<pub>pub(?:\(crate\))? )?(?P<function>(?:extern "C" )?fn (?!main\b)(?P<call>\w+)(?:.*\n)*?.*)(?:\{\}?|;)$'
    r"|^    (?P<gives>type \w+ = .*);$"
    r"|^    ghost (?!(?:view|invariant|laws|total|respects_eq|matches_\w+) )(?P<fact>\w+)(?: = \{ (?P<is>.*) \}|: \{ (?P<of>.*) \});$"
    r"|^(?:pub )?(?P<block>(?:impl|trait)\b.*?) \{\}?$|^\}$",
    re.M,
)


@dataclass
class Item:
    """An item of a source: a `type`, a `block` (an impl or a trait) or its `end`, a `fact` of a block or what it `gives`, or a `call`."""

    kind: str
    name: str = ""
    # Its text on one line, without comments and without its body.
    text: str = ""
    # `pub ` or `pub(crate) ` of a call, and whether it is in a block.
    visibility: str = ""
    is_inside: bool = False
    # The first sentence of the comment above a call.
    sentence: str = ""
    # Of a block the trait and the type, or one of them; whether nothing is in it.
    owners: list = field(default_factory=list)
    is_empty: bool = False


def items(text):
    """The items of a source of code, in order."""
    for found in _ITEM.finditer(text):
        if found["type"]:
            yield Item("type", found["type"], _line_of_type(found))
        elif found["fact"]:
            yield Item("fact", found["fact"], found["is"] or found["of"].replace(" } = { ", " = "))
        elif found["gives"]:
            yield Item("gives", text=found["gives"])
        elif found["call"]:
            above = _first_sentence(text[: found.start()])
            yield Item("call", found["call"], _joined(found["function"]), found["pub"] or "", bool(found["inside"]), above)
        elif found["block"]:
            owners = re.sub(r"<[^<>]*>|\w+::|&|: .*", "", found["block"]).split()[1::2]
            yield Item("block", text=found["block"], owners=owners, is_empty=found[0].endswith("{}"))
        else:
            yield Item("end")


def _joined(text):
    """The lines of a type or a function as one line, without comments."""
    return re.sub(r"(?<=\() |,? (?=\))|,(?= \})| \{ \}$", "", " ".join(re.sub("//.*", "", text).split()))


def _line_of_type(found):
    """A type on one line, with the traits that it derives; without private fields, and without a long list of variants."""
    line = re.sub(r"\{.{400,}\}", "{ .. }", _joined(re.sub(r"(?m)^ {4}(?!pub )[a-z].*\n", "", found["item"])))
    mark = "#[non_exhaustive] " if "#[non_exhaustive]" in (found["marks"] or "") else ""
    return mark + line + (f": {found['derived']}" if found["derived"] else "")


def _first_sentence(above):
    """The first sentence of the comment above a function, before its attributes. A period in back quotes or parentheses ends none."""
    comment = re.search(r"(?m)((?:^ *///.*\n)*)(?:^ *#\[.*\n)*\Z", above)[1]
    lines = (line.strip(" /") for line in comment.splitlines())
    first = re.match(r"(?:`[^`]*`|\([^()]*\)|[^`(.]|\.(?! |$))*\.?", " ".join(itertools.takewhile(bool, lines)))[0]
    return re.sub(r"\[(`[^`]*`)\](?:\([^()]*\))?", r"\1", first)


def signature_and_clauses(line):
    """A function's signature, and of each clause its kind, its name, if it has one, and what it says."""
    signature, *clauses = re.split(r" (?=(?:requires|ensures) )", line)
    return signature, [re.fullmatch(r"(requires|ensures) ?(\w*) \{ (.*) \}", clause).groups() for clause in clauses]


def types(text):
    """The public types and traits of a source."""
    return re.findall(r"(?m)^pub (?:struct|enum|trait) (\w+)", text)


def variants(text, name):
    """The variants without fields of a type."""
    return re.findall(r"(?m)^    (\w+),$", re.search(rf"(?ms)^pub enum {name} \{{(.*?)^\}}", text)[1])


def unsafe_calls(text):
    """The functions that a source calls in `unsafe` blocks."""
    return re.findall(r"unsafe \{ *(?:\w+::)?(\w*)", text)


def without_head(text):
    """A source without the comment at its beginning."""
    return re.sub(r"\A(?://! .*\n)+\n", "", text)


def documentation(text):
    """A source with what its comments say of it as a whole as plain text."""
    return re.sub(r"(?m)^//! ?", "", text)


# ---- proofs

_NAME = r"[^\s(){}\[\].,;:=λ]+"
# What is stated: its name, whether it is public, and what is before it on its line.
Statement = namedtuple("Statement", "name is_public indent")


def statements(text):
    """What a file of proofs states. A record's fields aren't stated: a search may take them without their names."""
    without_records = re.sub(r"(?m)^( *)(?:pub )?record (?:.*\n)*?.*\bwhere\n(?:\1 .*\n)*", "", text)
    for indent, is_public, name in re.findall(rf"(?m)^( *)(pub )?({_NAME}) : ", without_records):
        yield Statement(name, bool(is_public), indent)


def cited_words(text):
    """The words of a source, but for the name before a statement, and before each of its equations."""
    for stated in statements(text):
        text = re.sub(rf"(?m)^{stated.indent}(?:pub )?{re.escape(stated.name)} (?=.*[:=])", "", text)
    return words(text)


# ---- definitions


def count_of_lines(text):
    """How many lines of a file of specs/ aren't empty, comments, imports or names of modules."""
    return len(re.findall(r"(?m)^(?!\s*(?:--|(?:pub )?mod\b|$)).", without_imports(text)))


def types_of_code(text):
    """The types of code that a file of specs/ imports from the crates here."""
    found = (re.match(r"Rattle\.mime.*\bdeclared\.(?:[a-z]\w*\.)*([A-Z]\w*)", found.path) for found in imports(text))
    return [match[1] for match in found if match]


def texts(text):
    """The strings of a file of specs/, without line feeds."""
    return [string.replace("\\n", "") for string in re.findall(r'\bcodes "((?:[^"\\]|\\.)*)"', text)]


def texts_of_cases(text, function):
    """The strings that a function of a file of specs/ has for the cases of a type."""
    return dict(re.findall(rf'(?m)^{function} (\w+) = codes "(.*)"$', text))


# What a file of specs/ declares at the start of a line: marks, and `data` or `record` if it isn't a function or a statement.
_DECLARATION = re.compile(r"^(?!pub (?:use|mod) )(?:(?:abbrev|unfoldable|opaque|pub) )*(?:(data|record) )?(?<= )(\S+)(?= )", re.M)
# A case of a type, with what is declared of it; a field of a record.
_CASE, _FIELD = re.compile(r"^ +(\S+) : (.*(?:\n   +.*)*)", re.M), re.compile(r"^ +(?:pub )?(\S+) :", re.M)
# A word of a definition: a string, names that `λ` or `let` binds, other names with their fields, or a sign.
_WORD = re.compile(r'"(?:[^"\\]|\\.)*"|λ[^.]*\.|\blet \S+|[^\s(){}\[\],;"λ]+|[(){}\[\],;]')
_KEYWORDS = {"data", "record", "where", "in", "if", "then", "else", "Type", "_"}
# What is declared: its kind (`data`, `record` or neither), its name, the names of a type's cases, those of its names in whose place others
# say the same, and its parts, in each of which names are bound anew: the type and each equation of a function, or all of a type.
Declaration = namedtuple("Declaration", "kind name cases replaceable parts")


def declarations(text):
    """What a file of specs/ declares."""
    text = re.sub(r"(?m)--.*|^use .*", "", text)
    starts = [*_DECLARATION.finditer(text)]
    for start, after in itertools.zip_longest(starts, starts[1:]):
        kind, name = start[1] or "", start[2]
        said = text[start.start(2) : after.start() if after else len(text)].strip()
        parts = [said] if kind else re.split(r"\n(?=\S)", said)
        head, _, listed = said.partition(" where\n")
        cases = dict(_CASE.findall(listed)) if kind == "data" else {}
        # The fields of a record that states nothing of others, and cases that have nothing, say by their names alone what they are.
        fields = _FIELD.findall(listed) if kind == "record" and "(" in head else []
        yield Declaration(kind, name, [*cases], [name, *fields, *(case for case, of in cases.items() if of.strip() != name)], parts)


class Definitions:
    """The definitions of files of specs/, each by its path, as imports have it. Those say the same of which the words are the same, but for
    their own names, for those that they bind, and for names of definitions that say the same."""

    def __init__(self, files):
        """The definitions of these files, whose texts stand by their paths."""
        self.declared, self.type_of, self.first_with = {}, {}, {}
        # What each name of a file stands for.
        self.paths = {file: {found.name: found.path for found in imports(text)} for file, text in files.items()}
        for file, declaration in ((file, found) for file, text in files.items() for found in declarations(text)):
            path = f"{file}.{declaration.name}"
            self.declared[path] = file, declaration
            self.type_of.update({f"{file}.{case}": path for case in declaration.cases})
            self.paths[file].update({name: f"{file}.{name}" for name in (declaration.name, *declaration.cases)})

    def same(self, least=0):
        """The paths of each several definitions that say the same, in as many words and signs at least."""
        paths = defaultdict(list)
        for path in self.declared:
            paths[self.words_of(path)].append(path)
        return [some for words, some in paths.items() if len(some) > 1 and len(words) >= least]

    @functools.lru_cache(None)
    def words_of(self, path):
        """The words of a definition, with numbers in place of the names that others could stand for."""
        file, declaration = self.declared[path]
        own = {name: name for name in declaration.cases}
        own.update((name, f"own {number}") for number, name in enumerate(declaration.replaceable))
        return declaration.kind, *(word for part in declaration.parts for word in self.words_in(part, file, own))

    def words_in(self, part, file, own):
        bound, numbers = {}, itertools.count()
        for word in (word for word in _WORD.findall(part) if word != "pub"):
            name, dot, fields = word.partition(".")
            if names := _names_bound_by(word):
                bound.update((name, f"bound {next(numbers)}") for name in names)
                yield f"binds {len(names)}"
            elif word in own:
                yield own[word]
            elif word in _KEYWORDS or not re.match(r"[^\W\d]", word):
                yield word
            elif name in self.paths[file] and name not in bound:
                yield self.meaning(self.paths[file][name], dot + fields)
            else:
                yield bound.setdefault(name, f"bound {next(numbers)}") + dot + fields

    def meaning(self, path, fields):
        """What stands for a path, and fields after it: for a definition, and a type of a case, the first one that says the same."""
        for cited, more in ((path + fields, ""), (path, fields)):
            of = self.type_of.get(cited, cited)
            if of in self.declared:
                _, declaration = self.declared[of]
                case = cited.rpartition(".")[2] if of != cited else ""
                number = declaration.replaceable.index(case) if case in declaration.replaceable else case
                return f"{self.first_with.setdefault(self.words_of(of), of)} {number} {more}"
        # What std declares stands in several of its files.
        return (path + fields).rpartition(".")[2] if path.startswith("Rattle.std.") else path + fields


def _names_bound_by(word):
    """The names that `λ x y.` or `let x` binds."""
    return word[1:-1].split() if word[0] == "λ" else word.split()[1:] if word.startswith("let ") else []
