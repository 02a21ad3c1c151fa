"""What the calls of include/mime.h, which tools/calls.c makes for tools/c_calls, have to answer. Each check of a text is a generator that
yields calls, is sent what they gave, and compares it with what the model of mime_http says, or other calls do."""

import io
import random
import re
import runpy
import struct
import traceback
from collections import namedtuple
from contextlib import suppress
from itertools import chain, islice, repeat
from types import SimpleNamespace

from commands import SHORT, TOP, run, told

# The model shares no code with the crates.
MODEL = SimpleNamespace(**runpy.run_path(f"{TOP}/vectors/http_model"))
OK, _, MISSING_SUBTYPE, _, _, _, INVALID_BYTE, NO_MEMORY, NOT_UTF8, _, NOT_ACCEPTABLE, BAD_OFFER, NO_BOUNDARY, BAD_PARAMETER = range(14)
OFFERS = ["text/html", "image/svg+xml;p=x", "a/b", "text/html"]
# What the texts near the grammar are made of.
PIECES = [
    "a",
    "text",
    "/",
    "/",
    ";",
    ";",
    "; ",
    "=",
    "=",
    '"',
    '"',
    "\\",
    "+",
    ",",
    "*/*",
    "a/b",
    "text/html;q=0.5",
    " ",
    "\t",
    "charset",
    "UTF-8",
    "Q",
    "multipart/mixed;boundary=",
    "\xc3\xa9",
    "\xff",
    "(",
    "\x7f",
    'p="x y"',
    "image/SVG+xml",
    "text/of-40-bytes-which-ask-for-no-memory",
    "text/of-41-bytes-which-do-ask-for-memory1",
]
# The numbers that tools/calls.c gives for a call, the last of which counts the bytes that it gives then; and those as strings, too.
NUMBERS = struct.Struct("14N")
Given = namedtuple("Given", "answer length params printed slash subtype_end pos byte requests largest blocks held stack written strings")
# What a call writes for these strings: a zero behind each.
written = lambda *strings: "".join(f"{string}\0" for string in strings)


def call(name, *strings, may_do_without=False):
    """A call as tools/calls.c reads it. In its strings, and in what it gives, a character stands for each byte."""
    positions = strings[1].count(",") + 1 if name == "order" else 0
    lengths = [*map(len, strings), 0, 0]
    return f"{name} {positions} {may_do_without:d} {' '.join(map(str, lengths[:3]))}\n{''.join(strings)}".encode("latin-1")


def made(words, calls):
    """What a program made of tools/calls.c gives for each call."""
    said, errors, status = run(words, given=b"".join(calls))
    if status:
        raise OSError(f"{words[-1]} ended with status {status}: {errors[-3000:].decode(errors='replace')}")
    read = io.BytesIO(said).read
    for _ in calls:
        *numbers, count = NUMBERS.unpack(read(NUMBERS.size))
        text = read(count).decode("latin-1")
        yield Given(*numbers, text, text.split("\0")[:-1])


def check_found(found, text):
    """Checks the strings that were found, or the fault, which lies within the text, at the byte that was found, or at one past ASCII."""
    if found.answer == OK:
        essence, *_, printed = found.strings
        assert len(found.strings) == 2 * found.params + 2 and found.printed == found.length - len(printed) - 1
        assert found.slash == essence.index("/") and (essence[found.subtype_end : found.subtype_end + 1] or "+") == "+"
        assert found.subtype_end <= len(essence) and not re.search(r"[\1-\10\12-\37\177]", found.written)
    else:
        assert found.length == found.params == 0
    byte = text[found.pos : found.pos + 1]
    rights = {INVALID_BYTE: byte == chr(found.byte), NOT_UTF8: byte > "\x7f" and found.byte == 0}
    assert rights.get(found.answer, found.pos == found.byte == 0)


def check_read(text):
    found = yield call("read", text)
    check_found(found, text)
    is_read = found.answer == OK
    asked = int(is_read and len(found.strings[-1]) > SHORT)
    assert found.answer <= NOT_UTF8 and found.answer != NO_MEMORY and found.requests == asked and found.largest <= len(text)
    rows = [
        (text, text, found.answer, is_read, 2 * asked),
        ("*/*", text, found.answer, found.strings == ["*/*"] * 2, asked),
        (text, "a/", MISSING_SUBTYPE if is_read else found.answer, 0, asked),
        ("a/", text, MISSING_SUBTYPE, 0, 0),
        *((text, printed, OK, 1, 2 * asked) for printed in found.strings[-1:]),
    ]
    for one, other, *wanted in rows:
        equal = yield call("equal", one, other)
        assert [equal.answer, equal.length, equal.requests] == wanted and equal.blocks <= 2 and equal.largest <= len(text)


def check_list(text):
    found = yield call("list", text)
    assert (found.answer == OK or found.answer == NOT_UTF8 and not found.length) and found.blocks <= 1 and found.largest <= len(text)
    good = [item[1:] for item in found.strings if item[:1] == "+"]
    assert found.requests == sum(len(item) > SHORT for item in good)
    for item in found.strings:
        read = yield call("read", item[1:])
        assert read.strings[-1:] == [item[1:]] if item[:1] == "+" else item[:1] == "-" and read.answer != OK


def check_content_type(text):
    found = yield call("content_type", text)
    check_found(found, text)
    media, is_plain = MODEL.read(text), MODEL.ACCEPTED.fullmatch(text.strip(" \t")) is not None
    assert found.written == (written(media[1], *chain(*media[2]), media[0]) if media else "") and (found.answer == OK) == bool(media)
    # What is written anew is first written into room for 128 bytes.
    asked = 0 if not media or len(media[0]) <= SHORT else 1 if is_plain or len(media[0]) <= 128 else 2
    assert found.requests == asked
    # What is written anew has at most a byte more for each parameter, which has four.
    assert found.blocks <= (1 if is_plain else 2) and found.largest <= len(text) + (0 if is_plain else len(text) // 4)
    if media:
        # mime_read reads alike what is printed, and what is before the first semicolon has the same essence.
        same, bare = (yield call("read", media[0])), (yield call("content_type", text.partition(";")[0]))
        assert same.strings == found.strings and (bare.params, bare.strings[:1]) == (0, found.strings[:1])


def check_accept(text):
    found = yield call("accept", text)
    ranges, bad = MODEL.entries([text])
    wanted = "".join(written(f"{MODEL.weight_of(media):04}", media[1], *chain(*media[2]), "") for media in ranges)
    # A bad entry asks for no memory.
    assert (found.answer, found.params, found.written) == (OK, len(bad), wanted) and (ranges or found.requests == 0)
    # The first bad entry comes after so many ranges.
    refusal = (BAD_OFFER, [*map(MODEL.read, MODEL.pieces(text))].index(None)) if bad else (NOT_ACCEPTABLE, 0)
    none = yield call("best", "", text)
    assert (none.answer, none.length) == refusal
    best = yield call("best_of_all", text)
    assert (best.answer, best.length) == ((OK, 0) if ranges and not bad else refusal)


def check_order(text):
    ranges = MODEL.entries([text])[0]
    for count in range(1, len(OFFERS) + 1):
        order = MODEL.order(ranges, [MODEL.read(offer) for offer in OFFERS[:count]])
        best = yield call("best", text, ",".join(OFFERS[:count]), may_do_without=True)
        assert (best.answer, best.length) == ((OK, order[0]) if order else (NOT_ACCEPTABLE, 0))
    # One of the requests isn't needed: without its memory the order is found in another way.
    found = yield call("order", text, ", ".join(OFFERS), may_do_without=True)
    assert found.written.encode("latin-1") == struct.pack(f"{len(order)}N", *order) and found.answer == (OK if order else NOT_ACCEPTABLE)
    found = yield call("order", text, ",a/b, c, d", may_do_without=True)
    assert (found.answer, found.length) == (BAD_OFFER, 1)


def check_unescape(text):
    found = yield call("unescape", text)  # RFC 9110, 5.6.4
    assert (found.answer, found.written, found.requests) == (OK, re.sub(r"(?s)\\(.?)", r"\1", text) + "\0", 0)


def check_boundary(text):
    value, (_, essence, pairs) = (yield call("content_type", text)), MODEL.read(text) or ("", "", [])
    named = [meaning for name, meaning in MODEL.meant(pairs) if name == "boundary" and essence.startswith("multipart/")]
    wanted = [meaning for meaning in named[:1] if re.fullmatch(r"(?a)[\w'()+,\-./:=? ]{0,69}[\w'()+,\-./:=?]", meaning)]  # RFC 2046, 5.1.1
    found = yield call("boundary", text, may_do_without=not wanted)
    assert found.answer == (value.answer if value.answer != OK or wanted else NO_BOUNDARY)
    assert found.strings == wanted and found.length == len("".join(wanted))


def check_set_parameter(text):
    """Checks parameters that are written into the text, or have it as their value, or as their name."""
    for media, name, value in ((text, "P", "x"), (text, "charset", "UTF-8"), ('a/b;p="y z";q=1', "p", text), ("a/b", text, "x y")):
        before = yield call("content_type", media)
        printed = before.answer == OK and MODEL.not_utf8(value) is None and MODEL.with_parameter(MODEL.read(media), name, value)
        found = yield call("set_parameter", media, name, value, may_do_without=not printed)
        assert found.written == (written(printed) if printed else "")
        assert found.answer == (before.answer if printed or before.answer != OK else BAD_PARAMETER)


def near_grammar(count):
    """As many texts near the grammar, the same each time."""
    chance = random.Random(1)
    return ("".join(chance.choices(PIECES, k=chance.randrange(13))) for _ in range(count))


def next_call(check, given):
    with suppress(StopIteration):
        return check.send(given)


def holds(words, texts):
    """Whether all checks hold of these texts."""
    checks = check_read, check_list, check_content_type, check_accept, check_order, check_boundary, check_unescape, check_set_parameter
    texts, count = iter(dict.fromkeys(texts)), 0
    try:
        while some := [*islice(texts, 4000)]:
            count += len(some)
            left, given = [check(text) for text in some for check in checks], repeat(None)
            while left:
                asked = [*map(next_call, left, given)]
                left = [check for check, asks in zip(left, asked) if asks]
                given = made(words, [*filter(None, asked)])
    except (AssertionError, OSError) as error:
        last = traceback.TracebackException.from_exception(error, limit=-1, capture_locals=True)
        return told(f"calls of {words[-1]}", False, "\n" + "".join(last.format()))
    return told(f"calls of {words[-1]} on {count} texts", True)
