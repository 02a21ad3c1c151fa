"""The lines of a document's blocks, and the document with other lines there. tools/docs tries the examples of this file.

>>> document = "One\\n```text\\na\\nb\\n```\\nTwo\\n```text\\nc\\n```\\nThree\\n"
>>> lines_of_blocks(document)
['a', 'b', 'c']

What changed is changed where it stands. What is new follows the line before it, in the same block.

>>> print(with_lines(document, ["a", "new", "b", "c", "d"]), end="")
One
```text
a
new
b
```
Two
```text
c
d
```
Three
>>> with_lines(document, ["a", "b", "c"]) == document
True
>>> lines_of_blocks(with_lines(document, ["x", "c"]))
['x', 'c']
"""

import re
from difflib import SequenceMatcher

_BLOCK = re.compile(r"^(```text\n)(.*?)^(?=```$)", re.M | re.S)


def lines_of_blocks(document):
    """The lines of all blocks of text in a document."""
    return [line for block in _BLOCK.finditer(document) for line in block[2].splitlines()]


def with_lines(document, wanted):
    """A document with these lines in its blocks of text."""
    blocks = [block[2].splitlines() for block in _BLOCK.finditer(document)]
    # For each line so far, the block that it is in.
    places = [number for number, block in enumerate(blocks) for _ in block]
    old, new = sum(blocks, []), [[] for _ in blocks]
    for _, first, end, first_wanted, end_wanted in SequenceMatcher(None, old, wanted, autojunk=False).get_opcodes():
        for at, line in enumerate(wanted[first_wanted:end_wanted], first):
            # What is new at the end of some lines stands with the last of them.
            place = places[min(max(at if at < end else end - 1, 0), len(places) - 1)]
            new[place].append(line)
    texts = iter("".join(f"{line}\n" for line in block) for block in new)
    return _BLOCK.sub(lambda block: block[1] + next(texts), document)
