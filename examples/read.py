#!/usr/bin/env python3
# SPDX-License-Identifier: MIT
"""Reads media types by ctypes, and chooses one for an Accept header: read.py LIBRARY TEXT.."""
import ctypes
import os
import sys


class Found(ctypes.Structure):
    """What mime_read finds besides the strings: struct mime_found of include/mime.h."""

    _fields_ = [
        *((name, ctypes.c_size_t) for name in ("length", "params", "printed", "slash", "subtype_end", "pos")),
        ("byte", ctypes.c_uint8),
    ]


class Mime:
    """The calls of a library such as libmime.so.0. A text is a str or bytes. A rejected text raises a ValueError."""

    INVALID_BYTE, NO_MEMORY, NOT_UTF8, NOT_ACCEPTABLE = 6, 7, 8, 10

    def __init__(self, path="libmime.so.0"):
        self.library = ctypes.CDLL(path)
        self.library.mime_version.restype = self.library.mime_answer_text.restype = ctypes.c_char_p
        self.version = self.library.mime_version().decode()

    def read(self, text):
        """Returns the essence, the parameters as pairs, and the printed media type of a header's value, such as that of Content-Type."""
        out, found = ctypes.create_string_buffer(3 * len(_bytes(text)) + 2), Found()
        answer = self.library.mime_content_type(*_block(text), out, ctypes.c_size_t(len(out)), ctypes.byref(found))
        self._check(answer, f" at position {found.pos}" if answer in (self.INVALID_BYTE, self.NOT_UTF8) else "")
        essence, *parts, printed, _ = out.raw[: found.length].decode().split("\0")
        return essence, list(zip(parts[::2], parts[1::2])), printed

    def best(self, accept, offers):
        """Returns the best of these offers for an Accept header, or None. For a request without the header, `accept` is None."""
        for offer in offers:
            # An offer that is empty, or has a comma, isn't one in the list.
            try:
                self.read(offer)
            except ValueError as error:
                raise ValueError(f"the offer {offer!r} isn't a media type: {error}") from None
        best = ctypes.c_size_t()
        answer = self.library.mime_best(*_block(accept), *_block(", ".join(offers)), ctypes.byref(best))
        if answer == self.NOT_ACCEPTABLE:
            return None
        self._check(answer)
        return offers[best.value]

    def _check(self, answer, where=""):
        if answer:
            raise (MemoryError if answer == self.NO_MEMORY else ValueError)(self.library.mime_answer_text(answer).decode() + where)


def _bytes(text):
    return text.encode() if isinstance(text, str) else text


def _block(text):
    return _bytes(text), ctypes.c_size_t(len(text and _bytes(text) or b""))


if __name__ == "__main__":
    mime = Mime(sys.argv[1])
    for each in map(os.fsencode, sys.argv[2:]):
        try:
            print(*mime.read(each))
        except ValueError as error:
            print(f"not a media type: {error}")
    print(mime.best("text/html;q=.5, application/json", ["text/html", "application/json"]))
