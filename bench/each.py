"""What each call costs on each real value here and in another checkout, in instructions: bench/run --each START."""

import os
import re
import tempfile
from concurrent.futures import ThreadPoolExecutor
from pathlib import Path
from statistics import quantiles

from commands import run_ok
from rows import ACCEPTS, LONGER, MARKED, NAME, OFFERS, TYPES, URL, profiles

# How much more is dearer, and by how many instructions at least; by how many rounds two runs of driver.rs differ, and how often each of
# them makes an operation, so that the loop counts for little.
MORE, LEAST, ROUNDS, TIMES = 1.03, 3, 2, 8
VALUES, HEADERS = ([*dict.fromkeys(texts)] for texts in (TYPES + LONGER, ACCEPTS))
TEXTS, NEXT = VALUES + HEADERS, VALUES[1:] + VALUES[:1]
ESSENCES, OFFERED = [(value, value.split(";")[0].strip()) for value in VALUES if ";" in value], [
    (header, offer) for header in HEADERS for offer in OFFERS
]
# Offers that have parameters, and with them what a client asks for.
DETAILED = ["text/html; charset=utf-8; level=1", "application/json; version=2", *profiles("sz")]
PROFILES = [(one, other) for one in DETAILED for other in DETAILED]
# The values of parameters, without their quotes.
PARAMETERS = [
    value for value in dict.fromkeys(text.strip('"') for text in re.findall(r'=("(?:[^\\"]|\\.)*"|[^\s;]+)', "\n".join(VALUES))) if value
]


def beside(texts, other=""):
    """Each string with one beside it, always the same or of a list of as many."""
    return [*zip(texts, [other] * len(texts) if isinstance(other, str) else other)]


# Each call, its operation in driver.rs, and the pairs of strings that it is made on.
CALLS = [
    ("Mime::from_str", "read", beside(TEXTS)),
    ("content_type", "field", beside(TEXTS)),
    *(
        (f"get_param of {key}", f"look_up_{operation}", beside(VALUES))
        for key, operation in (('"charset"', "charset_str"), ('"level"', "missing"), ("CHARSET", "charset"), ("BOUNDARY", "boundary"))
    ),
    *(
        (label, operation, beside(VALUES))
        for label, operation in (
            ("params", "walk"),
            ("type, subtype, suffix", "parts"),
            ("essence_str, ==", "essence"),
            ("hash", "hash"),
            ("clone", "clone"),
            ("print", "print"),
            ("boundary", "boundary"),
            ("with_charset", "write_charset"),
            ("with_boundary", "write_boundary"),
            ("with_parameter", "write_name"),
        )
    ),
    ("with_parameter of long values", "write_parameter", [(value, mime) for value in (URL, NAME, MARKED) for mime in VALUES]),
    ("covers", "covers", beside(VALUES, VALUES) + beside(VALUES, NEXT) + PROFILES),
    *(
        (f"{label} {what}", operation, pairs)
        for label, operation in (("==", "eq"), ("mime_eq_str", "eq_str"), ("cmp", "cmp"), ("mime_equal", "call_equal"))
        for what, pairs in (
            ("of equal ones", beside(VALUES, VALUES)),
            ("of each and the next", beside(VALUES, NEXT)),
            ("of each and its essence", ESSENCES),
        )
    ),
    ("unescape", "unescape", beside(PARAMETERS)),
    ("MimeIter", "items", beside(TEXTS)),
    ("Accept::from_lines", "accept", beside(HEADERS)),
    *((label, label, beside(HEADERS, "\n".join(OFFERS))) for label in ("best", "order")),
    ("rank_offers", "rank", beside(HEADERS, "\n".join(OFFERS))),
    ("best of offers with parameters", "best", beside([*HEADERS, ", ".join(DETAILED)], "\n".join(DETAILED))),
    ("weight", "weight", OFFERED),
    ("weight_of", "weight_of", beside([*dict.fromkeys(entry.strip() for header in HEADERS for entry in header.split(","))])),
    ("mime_read", "call_read", beside(TEXTS)),
    ("mime_content_type", "call_field", beside(TEXTS)),
    ("mime_list", "call_items", beside(TEXTS)),
    ("mime_accept", "call_accept", beside(HEADERS)),
    *((f"mime_{call}", f"call_{call}", beside(HEADERS, ", ".join(OFFERS))) for call in ("best", "order")),
    ("mime_boundary", "call_boundary", beside(VALUES)),
    ("mime_unescape", "call_unescape", beside(PARAMETERS)),
    ("mime_set_parameter", "call_set_parameter", beside(VALUES, "charset\nutf-8")),
]


# The function of mime_bench that makes an operation, if it hasn't its name, or has types in it.
MADE_BY = {
    "boundary": "meant_boundary",
    "weight_of": "weight",
    "covers": "cover",
    "hash": "hash::*",
    **dict.fromkeys("unescape accept best order rank weight write_charset write_boundary write_name".split(), "one"),
}


def counted(driver, label, operation, pairs):
    """The instructions that a call takes on each pair: the driver makes it so often more in each third run than in the one before. What is
    done before it isn't counted."""
    function = label.split()[0] if operation.startswith("call_") else f"mime_bench::{MADE_BY.get(operation, operation)}"
    often = lambda text: text if "\n" in text else "\n".join([text] * TIMES)
    given = "\1".join("\0".join(map(often, pair)) for pair in pairs).encode()
    with tempfile.TemporaryDirectory() as room:
        counting = ["--tool=callgrind", f"--toggle-collect={function}", "--dump-before=mark", "--combine-dumps=yes"]
        run_ok("valgrind", *counting, f"--callgrind-out-file={room}/counts", driver, operation, "each", given=given)
        totals = [int(total) for total in re.findall(r"(?m)^totals: (\d+)", Path(room, "counts").read_text(encoding="utf-8"))]
    if 0 in totals[2::3]:
        raise OSError(f"{label}: {function} isn't called")
    return [(more - fewer) / ROUNDS / TIMES for fewer, more in zip(totals[1::3], totals[2::3], strict=True)]


def line(label, found):
    """A line of the table, of the ratios with their counts and strings."""
    ratios, dearer = [each[0] for each in found], sum(here > max(MORE * start, start + LEAST - 1e-6) for _, here, start, _ in found)
    cuts, (worst, here, start, text) = quantiles(ratios, n=10, method="inclusive"), max(found)
    return (
        f"{label:<36}{len(found):>7,}{cuts[4]:>8.2f}{cuts[8]:>7.2f}{worst:>7.2f}{here:>9,.1f}{start:>9,.1f}{dearer:>8,}"
        f"{sum(ratio > 1.5 for ratio in ratios):>6,}  {text[:38]}".rstrip()
    )


def each(here, start, missing):
    """The lines of the table: how the costs with one driver compare with those with another, without the calls that this lacks."""
    calls = [call for call in CALLS if call[0] not in missing]
    with ThreadPoolExecutor(os.cpu_count()) as pool:
        costs = [[pool.submit(counted, driver, *call) for call in calls] for driver in (here, start)]
        every = []
        yield f"{'':<36}{'pairs':>7}{'median':>8}{'90 %':>7}{'worst':>7}{'here':>9}{'start':>9}{'dearer':>8}{'>1.5':>6}"
        for (label, _, pairs), *sides in zip(calls, *costs):
            mine, its = (side.result() for side in sides)
            found = [(count / max(other, 1), count, other, text) for count, other, (text, _) in zip(mine, its, pairs)]
            every += found
            yield line(label, found)
        yield line("all", every)
        sums = (sum(counts) for counts in ([count for _, count, _, _ in every], [count for _, _, count, _ in every]))
        yield "sum of all counts: {:,.0f} here, {:,.0f} at the start".format(*sums)
