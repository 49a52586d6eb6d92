"""The functions of the archive, as a disassembler lists them."""
import re
import shutil
import subprocess
from typing import NamedTuple, Optional

# Debian has one for x86-64 under the first name on every kind of machine; the second is this machine's own
DISASSEMBLERS = ["x86_64-linux-gnu-objdump", "objdump"]
PREFIXES = {"data16", "cs", "lock", "notrack", "bnd", "rep", "repz", "repnz"}


class NotRead(Exception):
    """The machine code holds something that is not known here."""


class NoDisassembler(Exception):
    """No program on this machine reads the archive."""


class Instruction(NamedTuple):
    at: int
    name: str
    operands: list
    symbol: Optional[str] = None  # what the linker puts there


class Archive(NamedTuple):
    functions: dict  # their instructions, by name
    exported: list
    pointed_at: set  # the functions whose address is somewhere else than in a call or a jump


def said(program, words, archive):
    ran = subprocess.run([program, *words, str(archive)], capture_output=True, text=True)
    return ran.stdout if ran.returncode == 0 and "file format elf64-x86-64" in ran.stdout else None


def read(archive):
    for program in filter(shutil.which, DISASSEMBLERS):
        texts = [said(program, words, archive) for words in (["-dr", "--no-show-raw-insn"], ["-r"], ["-t"])]
        if None not in texts:
            code, relocations, symbols = texts
            found = functions(code)
            return Archive(found, exported(symbols), pointed_at(found, relocations))
    raise NoDisassembler("none of these reads x86-64 code: " + ", ".join(DISASSEMBLERS))


def instruction(line):
    at, text = re.fullmatch(r"\s*([0-9a-f]+):\t(.*)", line).groups()
    words = re.sub(r"\s*#.*", "", text).split(maxsplit=1)
    while len(words) > 1 and words[0] in PREFIXES:
        words = words[1].split(maxsplit=1)
    # commas within brackets part nothing
    operands = re.findall(r"(?:[^,(]|\([^)]*\))+", words[1]) if len(words) > 1 else []
    # some versions write the width of these, which is always the same
    return Instruction(int(at, 16), re.sub(r"^(call|jmp|ret|push|pop)q$", r"\1", words[0]), operands)


def functions(code):
    found = {}
    for line in code.splitlines():
        if head := re.fullmatch(r"[0-9a-f]+ <(.*)>:", line):
            here = found[head[1]] = []
        elif entry := re.fullmatch(r"\s+[0-9a-f]+: R_X86_64_\w+\t(.*)", line):
            here[-1] = here[-1]._replace(symbol=function_named(entry[1], r"-0x4$"))
        elif re.match(r"\s+[0-9a-f]+:\t", line):
            here.append(instruction(line))
    return found


def function_named(value, addend):
    """What a relocation names: a function, by itself or by the section that holds it alone, or data."""
    return re.sub(addend, "", value).removeprefix(".text.")


def exported(symbols):
    return re.findall(r"^[0-9a-f]+ g +F \S+\t[0-9a-f]+ (\S+)$", symbols, re.M)


def pointed_at(found, relocations):
    taken = {i.symbol for body in found.values() for i in body if not i.name.startswith(("call", "j"))}
    for line in relocations.splitlines():
        if head := re.fullmatch(r"RELOCATION RECORDS FOR \[(.*)\]:", line):
            section = head[1]
        elif entry := re.fullmatch(r"[0-9a-f]+\s+R_X86_64_\w+\s+(.*)", line):
            name = function_named(entry[1], r"[+-]0x[0-9a-f]+$")
            # a jump table has places of its own function, and stands in a section that is named after that
            if not section.startswith((".text.", ".eh_frame")) and section != ".rodata." + name:
                taken.add(name)
    return taken & set(found)
