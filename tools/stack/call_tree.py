"""The stack of a call: the largest sum of frames along the tree of what it calls."""
from frames import WORD, Frame
from listing import NotRead

# of the C library; of these their return address is counted
OUTSIDE = {"memcpy", "memset"}


class Stacks:
    """most: how many times a function that calls itself is active at once, at most."""

    def __init__(self, functions, most):
        self.frames = {name: Frame(name, code) for name, code in functions.items()}
        self.most = most

    def way(self, name, above=()):
        """The bytes that a call takes, and the functions on the deepest way down."""
        if name in OUTSIDE:
            return WORD, [name]
        if name in above or name not in self.frames:
            raise NotRead(f"{' > '.join(above)}: {name} " + ("is called again" if name in above else "is not in the archive"))
        frame = self.frames[name]
        again = max([depth for depth, called in frame.calls if called == name], default=0)
        if again and name not in self.most:
            raise NotRead(f"{name} calls itself, and how often is not told")
        ways = [(frame.deepest, [])]
        for depth, called in frame.calls:
            if called != name:
                below, names = self.way(called, (*above, name))
                ways.append((depth + below, names))
        deepest, names = max(ways)
        return deepest + (again and again * (self.most[name] - 1)), [name] + names

    def outside(self, name):
        """What a call reaches that is not in the archive."""
        if name in OUTSIDE:
            return {name}
        return set().union(*(self.outside(called) for _, called in self.frames[name].calls if called != name))
