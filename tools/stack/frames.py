"""How deep a function takes the stack, and how deep the stack is where it calls another.

A depth is counted in bytes from where the stack pointer stood before the call; at the first instruction it is 8, the return address.
Every way through the function is followed, and what is not known to leave the stack pointer as it is, is refused.
"""
import re

from listing import NotRead

WORD = 8
RED_ZONE = 128  # so much below the stack pointer a function may use without moving it
ENDS = {"ret", "ud2", "hlt"}
PADDING = {"nop", "nopw", "nopl", "xchg", "int3"}
STACK_POINTER = {"%rsp", "%esp", "%sp", "%spl"}


def constant(operand):
    """A number of 64 bits, below 0 where its highest bit is set."""
    found = re.fullmatch(r"\$(0x[0-9a-f]+)", operand)
    return found and (int(found[1], 16) ^ 1 << 63) - (1 << 63)


def offset(operand):
    """The offset of a place that is told from the stack pointer alone."""
    found = re.fullmatch(r"(-?0x[0-9a-f]+)?\(%rsp\)", operand)
    return found and int(found[1] or "0", 16)


def target(i):
    """The place that a jump or a call names."""
    return int(i.operands[0].split()[0], 16)


def deepens(i):
    """By how many bytes an instruction deepens the stack."""
    if i.name == "probes":
        return i.operands[0]
    if i.name in ("push", "pop") and i.operands[0] not in STACK_POINTER:
        return WORD if i.name == "push" else -WORD
    if i.name in ("sub", "add") and i.operands[-1] == "%rsp" and constant(i.operands[0]):
        return constant(i.operands[0]) * (1 if i.name == "sub" else -1)
    if i.name == "lea" and i.operands[-1] == "%rsp" and offset(i.operands[0]):
        return -offset(i.operands[0])
    # a copy in %rbp would be a frame pointer, from which the red zone can be reached too
    reads = i.name in ("cmp", "test") or (i.name == "mov" and i.operands[-1] not in STACK_POINTER | {"%rbp"})
    other = re.match(r"push|pop(?!cnt)|leave|enter|lcall|lret|iret", i.name)
    if other or (STACK_POINTER & set(i.operands) and not reads):
        raise NotRead(f"{i.name} {','.join(i.operands)} moves the stack pointer in a way that is not known")
    return 0


def reaches(i, depth):
    """How deep the places are that an instruction names below the stack pointer; with an index, anywhere in the red zone."""
    places = [o for o in i.operands if re.match(r"-0x[0-9a-f]+\(%rsp", str(o))]
    return max([depth] + [depth + (RED_ZONE if offset(p) is None else -offset(p)) for p in places])


def probing(body):
    """A frame of many pages is taken in steps of a page or less, in a loop down to a bound. One instruction takes the place of these six."""
    out = list(body)
    for k in range(len(body) - 5):
        bound, less, step, store, test, again = six = body[k : k + 6]
        if (
            [i.name for i in six] == ["mov", "sub", "sub", "movq", "cmp", "jne"]
            and bound.operands[0] == "%rsp"
            and (taken := constant(less.operands[0]) or 0) > 0
            and less.operands[1] == bound.operands[1]
            and (each := constant(step.operands[0]) or 0) > 0
            and taken % each == 0  # or the loop would not end at the bound
            and step.operands[1] == "%rsp"
            and store.operands == ["$0x0", "(%rsp)"]
            and test.operands == [bound.operands[1], "%rsp"]
            and target(again) == step.at
        ):
            out[k : k + 6] = [bound._replace(name="probes", operands=[taken])] + [None] * 5
    return [i for i in out if i]


class Frame:
    """deepest: the most bytes that the function itself takes. calls: pairs of the depth at a call and what is called."""

    def __init__(self, name, code):
        self.name, self.body = name, probing(code)
        self.places = {i.at: k for k, i in enumerate(self.body)}
        self.depths, self.by_table = {}, set()
        self.deepest, self.calls = 0, set()
        self.follow(0, WORD)
        # a jump by a table goes to what nothing else reaches, with the depth that it has
        for k, i in enumerate(self.body):
            if k not in self.depths and i.name not in PADDING:
                if len(self.by_table) != 1:
                    self.refuse(i, "nothing is seen to come here")
                self.follow(k, *self.by_table)

    def refuse(self, i, why):
        raise NotRead(f"{self.name}, at {i.at:x}: {why}")

    def follow(self, first, depth):
        ways = [(first, depth)]
        while ways:
            k, depth = ways.pop()
            i = self.body[k] if k < len(self.body) else self.refuse(self.body[-1], "the code ends without a return")
            if self.depths.setdefault(k, depth) != depth:
                self.refuse(i, f"the stack is {self.depths[k]} or {depth} bytes deep")
            self.deepest = max(self.deepest, depth + deepens(i), reaches(i, depth))
            ways += [way for way in self.after(k, i, depth) if way[0] not in self.depths or self.depths[way[0]] != way[1]]

    def after(self, k, i, depth):
        """Where it goes on, and how deep the stack is there."""
        further = [(k + 1, depth + deepens(i))]
        by_register = i.operands and str(i.operands[0]).startswith("*")
        if i.name in ENDS:
            if i.name == "ret" and (depth != WORD or i.operands):
                self.refuse(i, f"it returns with {depth} bytes on the stack")
            return []
        if i.name == "call":
            if by_register:
                self.refuse(i, "what is called is not known")
            self.calls.add((depth, i.symbol or self.own(i)))
            return further
        if not i.name.startswith("j"):
            return further
        if by_register:
            self.by_table.add(depth)
            return []
        goes = [] if i.name == "jmp" else further
        if i.symbol:  # the rest is another function, which returns to where this one would
            if depth != WORD:
                self.refuse(i, f"it goes on elsewhere with {depth} bytes on the stack")
            self.calls.add((0, i.symbol))
            return goes
        if target(i) not in self.places:
            self.refuse(i, "it jumps out of the function")
        return goes + [(self.places[target(i)], depth)]

    def own(self, i):
        if target(i) != self.body[0].at:
            self.refuse(i, "what is called is not known")
        return self.name
