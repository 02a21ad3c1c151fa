"""The rows of bench/run's table."""

import os
import random
from collections import namedtuple

# What a row is called; its operation, of driver.rs; its lines, and those beside them; the most instructions that it may take; whether the
# two sides return different sums; and the same text, only shorter, if costs are a byte.
Row = namedtuple("Row", "label operation text other most differs short", defaults=["", None, False, ""])


def shuffled(name):
    """The lines of a file beside this one, in a random order that is always the same."""
    with open(f"{os.path.dirname(os.path.realpath(__file__))}/{name}", encoding="ascii") as file:
        lines = file.read().splitlines()
    random.Random(1).shuffle(lines)
    return lines


TYPES, LONGER, ACCEPTS = map(shuffled, ("content_types", "longer_content_types", "accept_headers"))
TEXT, HEADERS = "\n".join(TYPES), "\n".join(ACCEPTS)
# Every second is compared with itself, and each other one with the next; or each with the next.
BESIDE, NEXT = "\n".join(TYPES[at | 1] for at in range(len(TYPES))), "\n".join(TYPES[1:] + TYPES[:1])
OFFERS = ("text/html; charset=utf-8", "application/json", "image/webp", "text/plain")


def values():
    yield Row("read", "read", TEXT, most=450)
    yield Row('read, then look up "charset"', "read_and_look_up", TEXT)
    yield Row('look up "charset"', "look_up_charset_str", TEXT)
    yield Row('look up "level", which none has', "look_up_missing", TEXT)
    yield Row("look up CHARSET", "look_up_charset", TEXT)
    yield Row("look up BOUNDARY", "look_up_boundary", TEXT)
    yield Row("walk the parameters", "walk", TEXT)
    yield Row("type, subtype and suffix", "parts", TEXT)
    yield Row("essence, compared with two strings", "essence", TEXT)
    yield Row("equality", "eq", TEXT, BESIDE, differs=True)
    yield Row("equality of two equal ones", "eq", TEXT, TEXT)
    yield Row("equality of each and the next", "eq", TEXT, NEXT, most=16, differs=True)
    yield Row("equality with a string", "eq_str", TEXT, BESIDE)
    yield Row("equality with an equal string", "eq_str", TEXT, TEXT, differs=True)
    yield Row("equality with the next one's string", "eq_str", TEXT, NEXT, differs=True)
    yield Row("order of two equal ones", "cmp", TEXT, TEXT)
    yield Row("order of each and the next", "cmp", TEXT, NEXT, most=50, differs=True)
    yield Row("hash in a map", "hash", TEXT)
    yield Row("hash by SipHash", "hash_default", TEXT)
    yield Row("clone and drop", "clone", TEXT)
    yield Row("print", "print", TEXT)
    yield Row("boundary", "boundary", TEXT)
    yield Row("weight, as that of a range", "weight_of", TEXT)
    yield Row("content_type, beside from_str here", "field", TEXT, most=517)


def longer():
    serve = lambda label, is_one, most: Row(label, "serve", "\n".join(filter(is_one, LONGER)), most=most)
    yield Row("read", "read", "\n".join(LONGER), most=1_035, differs=True)
    yield serve("content_type, essence, CHARSET, boundary", bool, 1_656)
    yield serve("the same, a quoted charset in lowercase", lambda text: 'charset="' in text and text == text.lower(), 1_020)
    yield serve("the same, a quoted name", lambda text: 'name="' in text.lower(), 1_275)


def lists():
    yield Row("its media types", "items", HEADERS, differs=True, most=935)
    yield Row("Accept, and the best of four offers", "negotiate", HEADERS, "\n".join(OFFERS), most=2_400)


# What a browser's Accept header and that of a client for images of containers are.
BROWSER = "text/html,application/xhtml+xml,application/xml;q=0.9,image/avif,image/webp,*/*;q=0.8"
IMAGES = ", ".join(
    f"application/vnd.{name}+json"
    for name in ("docker.distribution.manifest.v2", "docker.distribution.manifest.list.v2", "oci.image.manifest.v1", "oci.image.index.v1")
)


# What jQuery sends for JSON, Chrome with a form's upload, and Java's servlets for a page.
JQUERY = "application/json, text/javascript, */*; q=0.01"
UPLOAD = "multipart/form-data; boundary=----WebKitFormBoundary7MA4YWxkTrZu0gW"
PAGE = "text/html;charset=UTF-8"


def strings():
    two = "multipart/form-data; charset=BASE64; boundary=ABCDEFG"
    hundred = "text/plain" + "".join(f"; name{number:05}=value{number:05}" for number in range(100))
    for text in ("text/plain", "text/plain; charset=utf-8", two, "*/*"):
        yield Row(text, "read", text)
    yield Row(PAGE, "read", PAGE, most=370)
    yield Row("a hundred parameters, 2,110 bytes", "read", hundred)
    yield Row("rejected: text/pl(in", "read", "text/pl(in")
    yield Row("rejected: text( and 59 bytes", "read", f"text({'z' * 59}", most=125)
    yield Row('rejected: a/b;p="x" and 24 bytes', "read", f"a/b;p=\"x\"{'z' * 24}")
    yield Row("rejected: a/b;p=\"x, which isn't closed", "read", 'a/b;p="x')
    yield Row("rejected: a browser's Accept header", "read", BROWSER, most=215)


def sixteen(text):
    """A string so often that the loop counts for little."""
    return "\n".join([text] * 16)


# Values of parameters that browsers, mail programs and JSON-LD clients send, and that need quotes.
URL = "https://example.com/schemas/2024/customers/orders/invoices?version=2&format=full"
NAME, MARKED = (
    "Quarterly report for the board, third quarter (final v2).pdf",
    "=_Part_0123456789_abcdefghijklmnopqrstuvwxyz_0123456789_ABCDEFGHIJKLM?",
)


VERSIONED = 'application/json; version=1; charset=utf-8; profile=".."'


def profiles(letters):
    """Media types as of JSON-LD, whose long profiles differ only in their last byte."""
    return [f'application/ld+json; profile="https://www.w3.org/ns/activitystream{letter}"' for letter in letters]


def others():
    yield Row("content_type of a space", "field", " ", most=250)
    yield Row("content_type of text", "field", "text", most=225)
    yield Row("content_type of text/html ; charset=utf-8", "field", "text/html ; charset=utf-8", differs=True)
    yield Row("content_type of application/json, application/json", "field", "application/json, application/json", most=340)
    for label, spaces, most in (("a space", 1, 450), ("2 KB of spaces", 2_048, 5_500)):
        yield Row(f"content_type of an open string and {label}", "field", f'text/html; charset="utf-8{" " * spaces}', most=most)
    yield Row("content_type of a form's upload, 68 bytes", "field", UPLOAD, most=740)
    yield Row("Accept of jQuery, and the best of four offers", "negotiate", JQUERY, "\n".join(OFFERS), most=2_050)
    yield Row("covers: another version, and two more parameters", "covers", "application/json; version=2", VERSIONED)
    yield Row("covers: profiles that differ at the end", "covers", *profiles("sz"), most=520)
    yield Row("best of three such ranges and three such offers", "best", ", ".join(profiles("abc")), "\n".join(profiles("xyz")), most=4_700)
    yield Row("equality of text/html; charset=utf-8 and text/html", "eq", *map(sixteen, ("text/html; charset=utf-8", "text/html")), most=16)
    for label, text, most in (("x", "x" * 2_048, 1_600), ('\\"-', '\\"-' * 683, 12_000)):
        yield Row(f"covers: a/b;p=1 and 2 KB of {label}", "covers", "a/b;p=1", f'a/b;charset="{text}"', most=most)
    yield Row('equality of charset=utf-8 and "charset=UTF-8"', "eq_str", "text/plain; charset=utf-8", "text/plain; charset=UTF-8")
    yield Row(
        'equality of charset=utf-8 and "charset=us-ascii"',
        "eq_str",
        "text/plain; charset=utf-8",
        "text/plain; charset=us-ascii",
        differs=True,
    )
    yield Row('equality of a/b; p=x; q=y and "a/b;p=x;q=y"', "eq_str", "a/b; p=x; q=y", "a/b;p=x;q=y")
    yield Row("equality with a string rejected late, 2 KB", "eq_str", 'a/b; p="x"', f"a/b;p=\"x\";{'(' * 2_038}", differs=True)
    yield Row("hash of text/html", "hash", "text/html")
    yield Row("walk the parameters of text/html", "walk", "text/html")
    yield Row("MimeIter: */*", "items", "*/*")
    yield Row("MimeIter: an Accept header of four manifests", "items", IMAGES)


# The other side rejects these, or takes them for other things.
OTHERWISE = (
    'read: pairs \\"',
    'walk: pairs \\"',
    'read: pairs \\"a',
    'walk: pairs \\"a',
    'hash: pairs \\"a',
    'order: pairs \\"a',
    "order: parameters, a tab before each",
    "with_parameter: quotes",
    'with_parameter: quotes "a',
    "with_parameter: a token",
    "mime_list: */ over and over",
    "mime_list: a type of +",
    "list: semicolons",
    "content_type: semicolons",
    "content_type: spaces",
    "content_type: tabs at the end",
    "content_type: parameters ;p=1 after spaces",
)


def long(label, operation, make, other="", most=None):
    """A row of a text that is so many bytes long, about."""
    return Row(label, operation, make(65_536), other, most, differs=label in OTHERWISE, short=make(2_048))


def with_tabs(length):
    return "a/b" + ";\tA=A" * (length // 5)


def single_pairs(length):
    return 'a/b;p="' + '\\"a' * (length // 3) + '";q=x'


def texts():
    """A value that ends, or goes on, only after 64 KB."""
    kinds = (
        ('pairs \\"', lambda n: 'a/b;p="' + '\\"' * (n // 2) + '"'),
        ("pairs \\\\", lambda n: 'a/b;p="' + "\\\\" * (n // 2) + '"'),
        ('pairs \\"a', single_pairs),
        ("spaces", lambda n: "a/b;" + " " * n + "p=x"),
        ("parameters ;p=x", lambda n: "a/b" + ";p=x" * (n // 4)),
    )
    for operation, what in (("read", "read"), ("look_up_missing", 'look up "level"'), ("walk", "walk")):
        for label, make in kinds:
            yield long(f"{what}: {label}", operation, make)
    yield long("read: a subtype", "read", lambda n: "a/" + "x" * n)
    yield long("read: a type of rare token bytes", "read", lambda n: "!#$%&'*+^_`|~" * (n // 13) + "/b", most=8)
    yield long("list: a subtype", "items", lambda n: "a/" + "x" * n, most=8.5)
    yield long("list: a type of +", "items", lambda n: "+" * n + "/b", most=8.5)
    yield long("list: a subtype of +", "items", lambda n: "a/" + "+" * n, most=9)
    yield long("list: a subtype of +a", "items", lambda n: "a/" + "+a" * (n // 2), most=9.5)
    yield long('hash: pairs \\"a', "hash", single_pairs, most=6)
    yield long('order: pairs \\"a', "cmp", single_pairs, single_pairs(65_536) + "y", most=12)
    yield long("order: parameters, a tab before each", "cmp", with_tabs, with_tabs(65_536) + ";p=x")
    for label, make, most in (
        ("quotes", lambda n: '"' * n, 56),
        ('quotes "a', lambda n: '"a' * (n // 2), 44.5),
        ("a token", lambda n: "x" * n, 2),
        ("a token but for its end", lambda n: "x" * n + "?", 3),
    ):
        yield long(f"with_parameter: {label}", "write_parameter", make, "a/b", most=most)
    yield long("unescape: a plain value after a pair", "unescape", lambda n: '\\"' + "x" * n, most=8.3)
    yield long("mime_list: */ over and over", "call_items", lambda n: "*/" * (n // 2))
    yield long('mime_unescape: pairs \\"', "call_unescape", lambda n: '\\"' * (n // 2))
    yield long("mime_unescape: a plain value", "call_unescape", lambda n: "x" * n, most=1.5)
    yield long("mime_list: a type of +", "call_items", lambda n: "+" * n + "/b", most=8.5)
    yield long("mime_list: é", "call_items", lambda n: "é" * (n // 2))
    yield long("mime_read: a type of rare token bytes", "call_read", lambda n: "!#$%&'*+^_`|~" * (n // 13) + "/b")
    for label, make in (
        ("quotes", lambda n: '"' * n),
        ("commas", lambda n: "," * n),
        ("semicolons", lambda n: "a/b" + ";" * n),
        ("spaces", lambda n: "a/b," + " " * n + "c/d"),
        ("backslashes", lambda n: 'a/b;p="' + "\\" * n),
    ):
        yield long(f"list: {label}", "items", make)
        yield long(f"Accept and best: {label}", "negotiate", make, "\n".join(OFFERS))
    for label, make in (
        ("quotes", lambda n: "a/b" + ';p="x"' * (n // 6)),
        ("commas", lambda n: 'a/b;p="' + "," * n + '"'),
        ("semicolons", lambda n: "a/b" + ";" * n + "p=x"),
        ("spaces", lambda n: "a/b" + " " * n + ";p=x"),
        ("backslashes", lambda n: 'a/b;p="' + "\\" * n + '"'),
        ("tabs at the end", lambda n: " a/b" + "\t" * n),
        ("parameters ;p=1 after spaces", lambda n: "a/b" + " ;p=1" * (n // 5)),
    ):
        yield long(f"content_type: {label}", "field", make)


def calls():
    yield Row("mime_read", "call_read", TEXT)
    yield Row("mime_content_type", "call_field", TEXT)
    yield Row("mime_equal", "call_equal", TEXT, BESIDE, differs=True)
    yield Row("mime_list, of an Accept header", "call_items", HEADERS, differs=True)
    yield Row("mime_list, of */*", "call_items", "*/*", differs=True)
    yield Row("mime_best, of an Accept header and four offers", "call_best", HEADERS, ", ".join(OFFERS))
    yield Row("mime_order, of the same", "call_order", HEADERS, ", ".join(OFFERS), differs=True)
    yield Row("mime_boundary", "call_boundary", TEXT)
    for label, text, added, most in (
        ("a charset", TEXT, "charset\nutf-8", None),
        ("a URL", "application/ld+json", f"profile\n{URL}", 1_450),
        ("a file name", "application/pdf", f"name\n{NAME}", 1_290),
        ("a boundary that ends in ?", "multipart/mixed", f"boundary\n{MARKED}", 1_460),
    ):
        yield Row(f"mime_set_parameter, {label}", "call_set_parameter", text, added, most, differs=True)


GROUPS = {
    "256 Content-Type values in random order": values,
    f"{len(LONGER)} Content-Type values of 41 to 100 bytes": longer,
    "256 Accept headers in random order": lists,
    "Reading one string": strings,
    "Other calls on one string": others,
    "Texts of 64 KB: instructions and nanoseconds a byte": texts,
    "The calls from C, on the same values and headers": calls,
}

# What `bench/run --check` counts: few rows, in one of which a slip of layout or inlining shows.
CHECKED = (
    *(row.label for row in values()),
    "content_type, essence, CHARSET, boundary",
    "its media types",
    "Accept, and the best of four offers",
    "text/plain",
    "text/plain; charset=utf-8",
    "*/*",
    "rejected: text/pl(in",
    "rejected: a browser's Accept header",
    "content_type of text",
    "hash of text/html",
    "read: a subtype",
    "with_parameter: quotes",
    "mime_read",
    "mime_content_type",
    "mime_best, of an Accept header and four offers",
)
