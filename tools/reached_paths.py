"""By which path a crate names what stands in another: a crate lists in crates.txt what it stands on next, and gets what lies below that by the
re-exports of those (`pub use low;` in src/lib.rt, `pub use Rattle.low.specs.Words` in specs/Lib.antt)."""
import os
import re

TOP = os.path.join(os.path.dirname(os.path.abspath(__file__)), "..")


def read(path):
    try:
        with open(path, encoding="utf-8") as it:
            return it.read()
    except FileNotFoundError:
        return ""


def listed(top=TOP):
    """What each line of crates.txt lists, by the crate's name."""
    rows = [it.partition("#")[0].partition(":") for it in read(f"{top}/crates.txt").splitlines()]
    return {name.split()[0]: uses.split() for name, _, uses in rows if name.strip()}


class Reached:
    def __init__(self, top=TOP):
        self.top, self.listed, self.known = top, listed(top), {}

    def passes_on(self, crate, part):
        """What a crate's specs/Lib.antt or proofs/Lib.antt passes on: by its name there, the path that it stands at."""
        if (crate, part) not in self.known:
            found = re.findall(r"(?m)^pub use (Rattle\.[\w.]+)(?: as (\w+))?$", read(f"{self.top}/crates/{crate}/{part}/Lib.antt"))
            self.known[crate, part] = {name or path.rpartition(".")[2]: path for path, name in found}
        return self.known[crate, part]

    def home(self, path):
        """The path at which something is defined that is named by another path."""
        named = re.fullmatch(r"Rattle\.(\w+)\.(specs|proofs)\.(\w+)(.*)", path)
        onward = self.passes_on(named[1], named[2]).get(named[3]) if named and named[1] in self.listed else None
        return self.home(onward + named[4]) if onward else path

    def antt_path(self, crate, path):
        """The path by which the crate names a module of another one's specs/ or proofs/."""
        named = re.fullmatch(r"Rattle\.(\w+)\.(specs|proofs)\.(.*)", path)
        if named[1] == crate or named[1] in self.listed[crate]:
            return path
        for above in self.listed[crate]:
            for name, onward in self.passes_on(above, named[2]).items() if above in self.listed else ():
                home = self.home(onward)
                if path == home or path.startswith(home + "."):
                    return f"Rattle.{above}.{named[2]}.{name}{path[len(home):]}"
        raise LookupError(f"{crate} has no path to {path}: list its crate in crates.txt, or have one that it lists pass it on")

    def code_path(self, crate, other):
        """The path by which the crate's code names another crate: by way of the fewest others, and of the first of these that it lists."""
        ways = [[it] for it in self.listed[crate] if it in self.listed]
        for way in ways:
            if way[-1] == other:
                return "::".join(way)
            onward = re.findall(r"(?m)^pub use (?:\w+::)*(\w+);$", read(f"{self.top}/crates/{way[-1]}/src/lib.rt"))
            ways += [[*way, it] for it in onward if it in self.listed and it not in way]
        raise LookupError(f"{crate} has no path to {other}: list it in crates.txt, or have a crate that it lists pass it on")

    def text(self, crate, text, is_code):
        """The text of one of the crate's files with each path as the crate reaches it."""
        is_far = lambda name: name in self.listed and name != crate and name not in self.listed[crate]
        text = re.sub(
            r"Rattle\.(\w+)\.(?:specs|proofs)(?:\.\w+)+",
            lambda it: self.antt_path(crate, it[0]) if is_far(it[1]) else it[0],
            text,
        )
        if is_code:
            text = re.sub(r"(?<![\w.:])(\w+)(?=::)", lambda it: self.code_path(crate, it[1]) if is_far(it[1]) else it[1], text)
        return text
