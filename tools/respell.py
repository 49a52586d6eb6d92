#!/usr/bin/env python3
"""Brings the names of definitions and lemmas to the spelling of today's Rattle: words in snake case, types and facts in camel case.

usage: tools/respell.py [--check]        at the top of a repository that port.py has turned; --check only prints old and new names

A name is respelled where specs/ or a file of laws in proofs/ declares it. A part in camel case becomes snake case; a dash stays between two
names of definitions, as in `length-keep`, and before a plain word it becomes `_`. A name that would fall together with another
keeps its spelling, and is printed. Names of Rust's code, and names that the check makes, stay as they are.
"""
import collections
import os
import re
import sys

WORD = re.compile(r'[^\s(){}.;,@"«»`]+')
DECLARED = re.compile(r"^(\s*)(?:(?:abbrev|unfoldable|pub|package)\s+)*(data\s+|record\s+)?([^\s(){}.;,@:\"]+)\s*(?:\(.*\)|\{.*\}|\s)*:\s")
LIBRARY = set("length map append drop take cons nil suc zero get_or set reverse sum not true false le lt eq eqb ltb add mul sub xor and or ap cong filter concat replicate refl index".split())
# names that the definitions below want, by the beginning of a path: a lemma, a local or a field makes way
AWAY = (
    ("crates/real/proofs/NameLaws.antt", "is_name", "is_name_lem"),
    ("crates/dropping/proofs/PlainLaws.antt", "put_four", "put_four_lem"),
    ("crates/demands/proofs/Covering.antt", "so_far", "those_before"),
    ("crates/demands/proofs/Sets.antt", "all_ones", "ones_all"),
    ("crates/real_head/proofs/due_turn/", "names_in", "own_names"),
)
FREE = ("isName", "putFour", "soFar", "allOnes", "namesIn", "stuckAt", "allLines", "missingGates", "missingControls", "extraControls", "reportText",
    "at-0", "gates-in", "vectors-in", "gate-words", "vector-words", "gate-lines", "is-fault", "no-gate", "more-control", "multiple-faults")
KINDS = (".antt", ".rt", ".md", ".edit")


def snake(part):
    if not part or not part[0].islower():
        return part
    return re.sub(r"(?<=[a-z0-9])([A-Z])", lambda m: "_" + m[1].lower(), part)


def laws(root):
    """The files whose names are this repository's own: specs/, and the files of proofs/ that belong to no function."""
    for folder, dirs, files in os.walk(os.path.join(root, "crates")):
        dirs[:] = sorted(d for d in dirs if d not in ("out", ".git"))
        parts = os.path.relpath(folder, os.path.join(root, "crates")).split(os.sep)
        if len(parts) < 2 or parts[1] not in ("specs", "proofs") or "Ported" in parts:
            continue
        if parts[1] == "proofs" and any(p[0].islower() or p[0] == "+" for p in parts[2:]):
            continue
        for f in sorted(files):
            if f.endswith(".antt"):
                yield os.path.join(folder, f), parts[1]


def texts(root):
    for folder, dirs, files in os.walk(root):
        dirs[:] = sorted(d for d in dirs if d not in ("out", ".git", "target"))
        for f in sorted(files):
            if f.endswith(KINDS) and f not in ("PORT.md", "PORTING-LEFT.md"):
                yield os.path.join(folder, f)


def chunks(parts, known):
    """The parts of a name, those together that spell one known name."""
    out = []
    while parts:
        n = next((k for k in range(len(parts), 1, -1) if "_".join(parts[:k]) in known), 1)
        out.append("_".join(parts[:n]))
        parts = parts[n:]
    return out


def spelled(old, known):
    names = chunks([snake(p) for p in old.split("-")], known)
    return ("-" if all(n in known for n in names) else "_").join(names)


def standing(root):
    """Words that stand in clauses and proofs and are no member behind a dot, and the parameters of functions."""
    out = set()
    for path in texts(root):
        text = open(path, encoding="utf-8").read()
        if path.endswith(".antt"):
            text = re.sub(r"(?m)(^|\s)--(\s.*)?$", " ", text)
            out.update(m[0] for m in WORD.finditer(text) if text[m.start() - 1 : m.start()] != ".")
        elif path.endswith(".rt"):
            out.update(re.findall(r"(?<=[(,]) *(?:mut )?(\w+): ", text))
            for line in text.split("\n"):
                if re.match(r"\s*(requires|ensures|ghost)\b", line):
                    out.update(WORD.findall(line))
    return out


def table(root):
    declared = collections.OrderedDict()
    for path, kind in laws(root):
        for line in open(path, encoding="utf-8"):
            m = DECLARED.match(line)
            if m and not line.lstrip().startswith("--") and m[3] not in ("_", "where") and not m[2]:
                declared[m[3]] = "specs" if kind == "specs" else declared.get(m[3], "proofs")
    known = {snake(n) for n, kind in declared.items() if kind == "specs"} | LIBRARY
    words = standing(root)
    new, said = {}, []
    # definitions first: a lemma that would have a definition's name gets `_lem`
    for old in sorted((n for n in declared if n[0].islower()), key=lambda n: (declared[n] != "specs", "-" in n)):
        name = spelled(old, known)
        if name == old:
            continue
        free = lambda n: n not in words and n not in new.values()
        if not free(name) and old not in FREE:
            if "-" in old and free(name + "_lem"):
                said.append((old, name))
                name += "_lem"
            else:
                said.append((old, name))
                continue
        new[old] = name
    return new, said


def fields(root):
    """The fields of the repository's own records."""
    out = set()
    for path, _ in laws(root):
        inside = None
        for line in open(path, encoding="utf-8"):
            deep = len(line) - len(line.lstrip())
            if re.match(r"\s*(?:abbrev |pub )*record\s+\S", line):
                inside = deep
            elif inside is not None and line.strip():
                m = DECLARED.match(line)
                if deep <= inside:
                    inside = None
                elif m:
                    out.add(m[3])
    return out


def functions(root):
    return {n for path in texts(root) if path.endswith(".rt") for n in re.findall(r"\bfn (\w+)", open(path, encoding="utf-8").read())}


def of_function(root, path):
    """Whether a file belongs to the proof of one function: there a name with a dash behind a dot is one that the check makes."""
    parts = os.path.relpath(path, os.path.join(root, "crates")).split(os.sep)
    return len(parts) > 3 and parts[1] == "proofs" and any(p[0].islower() or p[0] == "+" for p in parts[2:-1])


def turn(text, new, prose, made=None):
    """Names in new are respelled. In prose a name with a dash is one only in a code span. made: what behind a dot is a member of this
    repository, and what is called after a function of it, where the file belongs to a function's proof."""

    def word(m):
        w = m[0]
        if w not in new:
            return w
        before = text[max(0, m.start() - 1) : m.start()]
        if made and before == "." and "-" in w:
            plain = w.replace("-", "_")
            return new[w] if w in made[0] else plain if plain in made[1] else w
        if prose and "-" in w and before != "`":
            return w
        return new[w]

    return WORD.sub(word, text)


def main(argv):
    root = "."
    new, said = table(root)
    for old, name in said:
        print(f"left: {old} would be {name}, which stands already" + (f"; now {new[old]}" if old in new else ""))
    if argv == ["--check"]:
        for old, name in new.items():
            print(f"{old}\t{name}")
        return 0
    changed = 0
    made = fields(root), functions(root)
    for path in texts(root):
        own = made if of_function(root, path) else None
        with open(path, encoding="utf-8") as f:
            text = before = f.read()
        for start, old, name in AWAY:
            if os.path.relpath(path, root).startswith(start):
                text = re.sub(rf"(?<![\w'-]){old}(?![\w'-])", name, text)
        if path.endswith(".md"):
            out = turn(text, new, True)
        else:
            lines = []
            for line in text.split("\n"):
                at = re.search(r"(?:^|\s)--(?:\s|$)" if path.endswith(".antt") else r"//", line)
                cut = at.start() if at else len(line)
                lines.append(turn(line[:cut], new, False, own) + turn(line[cut:], new, True))
            out = "\n".join(lines)
        if out != before:
            changed += 1
            with open(path, "w", encoding="utf-8") as f:
                f.write(out)
    print(f"respelled: {len(new)} names in {changed} files")
    return 0


if __name__ == "__main__":
    raise SystemExit(main(sys.argv[1:]))
