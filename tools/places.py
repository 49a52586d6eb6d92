#!/usr/bin/env python3
"""Counts the places that docs/DESIGN-PASS.md speaks of, in the sources of a checkout: python3 tools/places.py [-v] [FOLDER]

For each point it prints how many places there are; with -v also where. It reads crates/*/src/*.rt and the files of proofs, and nothing that a build makes."""
import collections
import glob
import re
import sys

verbose = '-v' in sys.argv
folder = ([a for a in sys.argv[1:] if a != '-v'] or ['.'])[0]
sources = {f[len(folder) + 1:]: open(f).read() for f in sorted(glob.glob(folder + '/crates/*/src/*.rt'))}


def show(point, places):
    print('%-62s %4d' % (point, len(places)))
    if verbose:
        for place in places:
            print('    ' + place)


def lines(pattern, but=None):
    found = []
    for name, text in sources.items():
        for number, line in enumerate(text.split('\n'), 1):
            if line.lstrip().startswith('//'):
                continue
            if re.search(pattern, line) and not (but and re.search(but, line)):
                found.append('%s:%d: %s' % (name, number, line.strip()[:110]))
    return found


def functions():
    """Each function: where, its signature with its clauses, its body."""
    for name, text in sources.items():
        for m in re.finditer(r'(?m)^( *)(?:pub )?(?:extern "C" )?fn (\w+)', text):
            end = re.search(r'(?m)^%s\}$' % m.group(1), text[m.start():])
            if not end:
                continue
            whole = text[m.start():m.start() + end.end()]
            body = re.search(r'(?m)^%s\{$|\{$' % m.group(1), whole)
            brace = body.start() if body else whole.index('{')
            yield '%s: %s' % (name, m.group(2)), whole[:brace], whole[brace:]


EXPORTS = 'nufsadeem'
every = list(functions())

# 1. Own enums of the shape of Option or Result, numbers for refusals and kinds, 0 for none.
show('1a enums of our own', lines(r'^(pub )?enum \w'))
show('1b a number for a refusal', lines(r'number: [1-9]|number: 1[0-9]|Stops\(|unless\(.*, \d+, |\bnumber: u32|\.number\b|Faulty \{ number', r'ensures|ghost'))
show('1c a number for a class', lines(r'class: u32|class == [1-4]|match class \{|mark_gates\([234]', r'^pub extern|requires|ensures'))
show('1d a flag or a value that stands for none', lines(r'return 0;|bad != 0|bad == 0|gate == 0|vector == 0|from == to|start == end|first == 0|from: usize, to|== count \{', r'ensures|requires'))

# 2. Functions whose bodies are the same but for names and numbers.
def shape(body):
    body = re.sub(r'//.*', '', body)
    tokens = re.findall(r"b'.'|b\"[^\"]*\"|\w+|[^\w\s]", body)
    keep = {'if', 'else', 'while', 'for', 'in', 'match', 'return', 'let', 'mut', 'loop', 'as', 'true', 'false', 'self', 'Some', 'None', 'Ok', 'Err'}
    return ' '.join(t if t in keep or not re.match(r"\w|b'|b\"", t) else 'x' for t in tokens)

groups = collections.defaultdict(list)
for where, _, body in every:
    if len(re.findall(r'\w+', body)) >= 12:
        groups[shape(body)].append(where)
show('2  groups of functions alike but for names and numbers', [', '.join(g) for g in groups.values() if len(g) > 1])

# 3. Loops that are no `for`, and those that are one over places.
show('3a while and loop', lines(r'^\s*(while|loop)\b'))
show('3b for over a range of places', lines(r'^\s*for \w+ in [\w:(){}. ]+\.\.'))

# 4. Functions that only compare, copy, convert or say a value.
names = (r'fn (same\w*|is_digit|is_letter|is_wrong|yes_or_no|sooner|answer|blank|no_fault|counted|none_counted|\w+_of|number_at_\d|put_\d|in_word|'
         r'beside|say\w*|verdict_of)\b')
show('4  comparing, copying, converting or saying by hand', lines(names, r'letter_of|gate_of|level_of|job_of\(|token_of|key_of'))

# 5. Facts in the contracts of three or more functions, and parameters that travel together.
facts = collections.defaultdict(list)
for where, head, _ in every:
    clauses = ' '.join(re.findall(r'requires[^{]*\{(.*?)\}(?=\s|$)', head, re.S))
    for word in set(re.findall(r'\b[A-Z]\w+(?= )', clauses)) | set(re.findall(r'\b(is_\w+)(?= )', clauses)):
        facts[word].append(where)
show('5a contracts that ask for a fact that three or more ask for', ['%s: %s' % (w, f) for w, fs in sorted(facts.items()) if len(fs) >= 3 for f in fs])
flat = [(w, re.sub(r'\s+', ' ', h)) for w, h, _ in every if 'extern' not in h]
together = [r'lines: u32, gates: &(\'a )?\[u32\]', r'(left|at)_0: &(mut |\'a )?\[u32; LEVELS\], (left|at)_1', r'names: &\[u8\], keys: &\[u64\], count: usize',
            r'word: &(\'a )?\[u8\], rest: &(\'a )?\[u8\]', r'from: usize, to: usize', r'inputs: bool, outputs: bool', r'out: &mut \[u8\], at: usize']
for pattern in together:
    show('5b together: ' + re.sub(r'[\\\'()?|]', '', pattern)[:46], [w for w, h in flat if re.search(pattern, h)])

show('5c clauses that bound a level, a gate or a line by a number', lines(r'requires.*\b(level|number|gate|from)\.0 ≤|requires.*\bline < |requires.*fault\.place'))

# 6. Places and lengths beside a buffer.
show('6  a place or a length beside a slice', [w for w, h in flat if re.search(r'\[u(8|32|64)\]', h) and re.search(r'\b(from|to|at|count|words|start|end|first|ahead): usize', h)])

# 7. Switches on which step to run.
show('7  a match or an if on a class', lines(r'if class == |match class \{|match known\.class\(\)|if fault\.class'))

# 8. Proof files of functions.
proofs = glob.glob(folder + '/crates/*/proofs/**/*.antt', recursive=True)
own = [f for f in proofs if f.endswith(('/Answers.antt', '/Invariants.antt', '/Proof.antt'))]
print('%-62s %4d' % ('8  functions with files of proof', len({f.rsplit('/', 1)[0] for f in own})))
print('%-62s %4d' % ('   lines of these files', sum(open(f).read().count('\n') for f in own)))
print('%-62s %4d' % ('   lines of all proofs', sum(open(f).read().count('\n') for f in proofs)))
