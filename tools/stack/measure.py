"""Measures the stack of every exported call from the machine code of the archive. `show` prints it; `compare` holds it against docs/STACK.md."""
import platform
import sys
from pathlib import Path

from call_tree import Stacks
from listing import NoDisassembler, NotRead, read
from table import faults, most_active, rows

ROOT = Path(__file__).resolve().parents[2]
ARCHIVE = ROOT / "target/staticlib/libnufsadeem.a"
TABLE = ROOT / "docs/STACK.md"
NOT_RUN = 77


def main(what):
    if not ARCHIVE.exists():
        sys.exit(f"stack: {ARCHIVE.relative_to(ROOT)} is not there; host/archive makes it")
    text = TABLE.read_text()
    archive = read(ARCHIVE)
    if archive.pointed_at:
        raise NotRead("the address of these is taken, and a call of them may not be seen: " + ", ".join(sorted(archive.pointed_at)))
    stacks = Stacks(archive.functions, most_active(text))
    ways = {name: stacks.way(name) for name in archive.exported}
    if what == "show":
        for name, (took, way) in sorted(ways.items()):
            print(f"{name:<21} {took:>6,}  {' > '.join(way)}")
        return 0
    table, measured = rows(text), {name: took for name, (took, _) in ways.items()}
    wrong = list(faults(table, measured, {name: stacks.outside(name) for name in ways}))
    for words in wrong:
        print(f"stack: {words}", file=sys.stderr)
    for name, took in measured.items():
        if name in table and took < table[name].bytes:
            print(f"stack: {name} takes {took:,} bytes here, fewer than the {table[name].bytes:,} of docs/STACK.md")
    if not wrong:
        print(f"stack: none of {len(measured)} calls takes more than docs/STACK.md says")
    return 1 if wrong else 0


if __name__ == "__main__":
    try:
        sys.exit(main(sys.argv[1]))
    except NoDisassembler as why:
        if platform.machine() == "x86_64":  # whose own one would read it
            sys.exit(f"stack: {why}")
        print(f"stack: NOT RUN on this machine: {why}", file=sys.stderr)
        sys.exit(NOT_RUN)
    except NotRead as why:
        sys.exit(f"stack: {why}")
