#!/usr/bin/env python3
"""Holds the three declarations of the C interface against each other: the header's, the library's and the wrapper's.

Functions, parameters and fields must have the same names, order and widths. No proof says this: a contract names fields
and parameters, and their order is nothing to it. Besides, host/c/fields.c must have every function and field.
"""
import re
import sys
from pathlib import Path

ROOT = Path(__file__).resolve().parents[2]
SCALARS = {"uint8_t": "u8", "uint32_t": "u32", "size_t": "usize"}


class Declared:
    """The structs and functions of one side: names and types of fields, names and types of parameters with the answer's type."""

    def __init__(self, side):
        self.side, self.structs, self.functions = side, {}, {}

    def add_structs(self, text):
        for name, body in re.findall(r"#\[repr\(C\)\]\s*(?:#\[derive[^]]*\]\s*)?pub struct (\w+) \{(.*?)\}", text, re.S):
            if name in self.structs:
                fail(f"{self.side} has two structs {name} for C")
            self.structs[name] = pairs(body.replace("pub ", ""))

    def spelled(self, kind):
        """A type with its structs written out, so that it does not matter what they are called."""
        pointer, name = re.fullmatch(r"(\*\w+ )?(\w+)", kind).groups(default="")
        return pointer + self.list(self.structs[name]) if name in self.structs else kind

    def list(self, fields):
        return "(" + ", ".join(f"{name} {self.spelled(kind)}" for name, kind in fields) + ")"

    def signature(self, function):
        parameters, answer = self.functions[function]
        return f"{self.list(parameters)} -> {self.spelled(answer)}"


def fail(words):
    sys.exit(f"host: {words}")


def read(paths, comment, flags):
    return re.sub(comment, " ", "\n".join(path.read_text(encoding="utf-8") for path in sorted(paths)), flags=flags)


def pairs(text):
    """`name: type` after `name: type`, each type without the path to it."""
    items = (item.split(":", 1) for item in text.split(",") if item.strip())
    return [(name.strip(), re.sub(r"\w+::", "", kind.strip())) for name, kind in items]


def header():
    text = read([ROOT / "include/nufsadeem.h"], r"/\*.*?\*/", re.S)
    found = Declared("the header")
    for body, name in re.findall(r"typedef struct \{(.*?)\}\s*(\w+);", text, re.S):
        lines = (line.split(None, 1) for line in body.split(";") if line.strip())
        found.structs[name] = [c_pair(kind, field) for kind, fields in lines for field in fields.split(",")]
    for answer, name, parameters in re.findall(r"(\w+)\s+(nuf_\w+)\((.*?)\);", text, re.S):
        declared = (re.fullmatch(r"\s*(.*?)(\w+)", parameter, re.S).groups() for parameter in parameters.split(","))
        found.functions[name] = ([c_pair(kind, parameter) for kind, parameter in declared], answer)
    return found


def c_pair(kind, name):
    """Name and type as Rust has them. `class_` is `class`, which C++ keeps for itself."""
    to = kind.replace("const ", "").replace("*", "").strip()
    pointer = ("*const " if "const " in kind else "*mut ") if "*" in kind else ""
    return name.strip().rstrip("_"), pointer + SCALARS.get(to, to)


def library():
    found = Declared("the library")
    found.add_structs(read(ROOT.glob("crates/*/src/**/*.rt"), r"//.*$", re.M))
    text = read(ROOT.glob("crates/nufsadeem_c/src/**/*.rt"), r"//.*$", re.M)
    exported = r'#\[unsafe\(no_mangle\)\]\s*pub extern "C" fn (\w+)\((.*?)\)\s*-> (\w+)'
    for name, parameters, answer in re.findall(exported, text, re.S):
        found.functions[name] = ([part for pair in pairs(parameters) for part in lent(*pair)], answer)
    return found


def lent(name, kind):
    """A slice is a pointer and a length."""
    of = re.fullmatch(r"&(mut )?\[(\w+)\]", kind)
    if not of:
        return [(name, kind)]
    return [(name, ("*mut " if of[1] else "*const ") + of[2]), (name + "_len", "usize")]


def wrapper():
    text = read((ROOT / "host/nufsadeem/src").glob("*.rs"), r"//.*$", re.M)
    found = Declared("host/nufsadeem")
    found.add_structs(text)
    block = re.search(r'extern "C" \{(.*?)\n\}', text, re.S)[1]
    for name, parameters, answer in re.findall(r"pub fn (\w+)\((.*?)\)\s*-> (\w+);", block, re.S):
        found.functions[name] = (pairs(parameters), answer)
    return found


def hold(asked, given):
    if asked.functions.keys() != given.functions.keys():
        fail(f"not both in {asked.side} and in {given.side}: {sorted(asked.functions.keys() ^ given.functions.keys())}")
    for name in asked.functions:
        due, said = asked.signature(name), given.signature(name)
        if due != said:
            fail(f"{name} differs\n{asked.side}: {due}\n{given.side}: {said}")


def must_be_in_fields(asked):
    text = (ROOT / "host/c/fields.c").read_text(encoding="utf-8")
    wanted = [f"{name}(" for name in asked.functions]
    wanted += [f"FIELD({name}, {field}" for name, fields in asked.structs.items() for field, _ in fields]
    for words in wanted:
        if words not in text:
            fail(f"host/c/fields.c lacks {words}")


def main():
    asked, given = header(), wrapper()
    if not asked.functions or not asked.structs:
        fail("no function or no struct was found in the header")
    hold(asked, library())
    hold(asked, given)
    for name, (_, answer) in asked.functions.items():
        if given.functions[name][1] != "".join(part.capitalize() for part in answer.split("_")[1:]):
            fail(f"host/nufsadeem calls {answer} {given.functions[name][1]}")
    must_be_in_fields(asked)
    print(f"host: header, library and wrapper declare the same {len(asked.functions)} functions and {len(asked.structs)} structs")


if __name__ == "__main__":
    main()
