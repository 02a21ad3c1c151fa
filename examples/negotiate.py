#!/usr/bin/env python3
# SPDX-License-Identifier: MIT
"""Chooses what a program in Python sends, by the Accept header of a request, as negotiate.c and negotiate.rs do:
negotiate.py LIBRARY [ACCEPT]"""
import ctypes
import os
import sys

# What is sent, the best first.
TYPES = ["text/html; charset=utf-8", "application/json", "text/plain; charset=utf-8"]
OK, NOT_ACCEPTABLE = 0, 10


def joined(library, offers):
    """Returns the offers as a list. Each has to be a media type, since one that is empty or has a comma isn't one offer of the list."""
    for offer in offers:
        value, out, found = offer.encode(), ctypes.create_string_buffer(3 * len(offer.encode()) + 2), (ctypes.c_size_t * 7)()
        if library.mime_content_type(value, ctypes.c_size_t(len(value)), out, ctypes.c_size_t(len(out)), found) != OK:
            raise ValueError(f"the offer {offer!r} isn't a media type")
    return ", ".join(offers).encode()


def choose(library, accept, offers):
    """Returns the status, and the best of these offers, or None. `accept` is the header, or None for a request without it. Several lines
    are joined by a comma."""
    best, listed = ctypes.c_size_t(), joined(library, offers)
    answer = library.mime_best(accept, ctypes.c_size_t(len(accept or b"")), listed, ctypes.c_size_t(len(listed)), ctypes.byref(best))
    status = {OK: 200, NOT_ACCEPTABLE: 406}.get(answer, 503)
    return status, offers[best.value] if answer == OK else None


if __name__ == "__main__":
    chosen = choose(ctypes.CDLL(sys.argv[1]), os.fsencode(sys.argv[2]) if sys.argv[2:] else None, TYPES)
    print(*(part for part in chosen if part is not None))
