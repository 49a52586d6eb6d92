"""The tables of docs/STACK.md: what each call takes, and how often a function that calls itself is active at once."""
import re
from typing import NamedTuple

TASK = 4096  # the stack of a floor's task
FLOOR = ["nuf_forward", "nuf_backward", "nuf_catches", "nuf_catches_multiple", "nuf_test_for", "nuf_drop"]


class Row(NamedTuple):
    bytes: int
    fits: bool
    arrays: int
    beside: int


def number(text):
    return int(text.replace(",", ""))


def rows(text):
    found = re.findall(r"^\| `(nuf_\w+)` \| ([\d,]+) \| (yes|no) \| ([\d,]+) \| ([\d,]+) \|", text, re.M)
    return {name: Row(number(whole), fits == "yes", number(arrays), number(beside)) for name, whole, fits, arrays, beside in found}


def most_active(text):
    return {name: int(most) for name, most in re.findall(r"^\| `(\w+::[\w:]+)` \| (\d+) \|", text, re.M)}


def faults(table, measured, outside):
    """What the table says of the calls and is not so. A call fits if it takes no more than a task has and uses nothing outside of the archive."""
    for name in sorted(table.keys() ^ measured.keys()):
        yield f"{name} is " + ("no call of the archive" if name in table else "not in the table")
    for name in sorted(table.keys() & measured.keys()):
        row, took = table[name], measured[name]
        if row.bytes < took:
            yield f"{name} takes {took:,} bytes, and the table says {row.bytes:,}"
        if row.fits != (took <= TASK and not outside[name]):
            yield f"{name} fits in {TASK:,} bytes, or not, otherwise than the table says"
        if row.bytes != row.arrays + row.beside:
            yield f"{name}: the arrays and what is beside them are not the bytes of the row"
    for name in FLOOR:
        if name not in table or not table[name].fits:
            yield f"{name}, which a floor runs unattended, does not fit"
