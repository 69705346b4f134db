"""Reads the lists of a dialect: its declarations (*.schema) and its types (*.types). The heads of tools/iso.schema and tools/iso.types say what
stands in them; a line that says anything else is refused, with its number and the reason."""
import re

STANDINGS = {"^": "Abstract", "!": "OutOfProfile"}
ABOUT = ("title", "standard", "dialect", "root")
FORMS = {"bool": 0, "bounded": 2, "unsigned": 1, "signed": 2, "binary": 1, "text": 1}
NAME = r"[A-Za-z_][A-Za-z0-9_]*"
ROOT = "V2G_Message"


class Refused(Exception):
    """A list is malformed: the message says where, and why."""


class Lines:
    """The lines of a list that say something, each with its number."""

    def __init__(self, path):
        self.path, self.number = path, 0
        with open(path, encoding="utf-8") as it:
            self.lines = it.read().splitlines()

    def __iter__(self):
        for self.number, line in enumerate(self.lines, 1):
            if line.strip() and not line.startswith("#"):
                yield line
        self.number = 0

    def refuse(self, why, number=None):
        raise Refused(f"{self.path}:{number or self.number}: {why}" if number or self.number else f"{self.path}: {why}")

    def names(self, text):
        """The names in a text, one space between each two."""
        for it in text.split():
            if not re.fullmatch(NAME, it):
                self.refuse(f"`{it}` is no name")
        return text.split()


class Particle:
    def __init__(self, members, least, most, profile):
        self.members, self.least, self.most, self.profile = members, least, most, profile


class Schema:
    """A list of declarations. `parts` has the kinds in their order, part by part; `content` the attributes and particles of each type."""

    def __init__(self, path):
        self.path, self.about, self.spelled, self.values, self.enumerations, self.groups, self.sections = path, {}, {}, {}, {}, {}, {}
        self.lines, self.at, self.raised = Lines(path), {}, {}
        said = {}
        section = None
        for line in self.lines:
            if line.startswith("["):
                section = self.section_of(line)
                continue
            found = re.fullmatch(rf"({NAME}):(?: (.*\S))?\s*", line)
            if section is None or not found:
                self.lines.refuse("a line is a section `[..]`, or `NAME: ..` in a section" if found is None else "the line stands before any section")
            self.take(section, found.group(1), found.group(2) or "", said)
        for it in ABOUT:
            if it not in self.about:
                self.lines.refuse(f"[about] lacks {it}")
        self.title, self.standard, self.dialect = (self.about[it] for it in ABOUT[:3])
        self.root = self.about["root"]
        if not re.fullmatch(r"\d+", self.root) or int(self.root) > 127:
            self.lines.refuse("a document number has 7 bits, 0 to 127", self.at["about", "root"])
        if ROOT not in said:
            self.lines.refuse(f"{ROOT} isn't declared, which is the root")
        self.empty = [it for it in said if not said[it]]
        types = {name: [it for it in part if it not in self.empty] for name, (_, part) in self.sections.items()}
        self.parts = {"simple": [*self.values, *self.enumerations, "Empty"], **types}
        self.kinds = [it for part in self.parts.values() for it in part]
        for group, members in self.groups.items():
            self.lines.number = self.at["type", group]
            for it in members:
                self.member(it)
        self.names, self.content = [ROOT], {}
        for part in types.values():
            for it in part:
                self.lines.number = self.at["type", it]
                self.content[it] = self.content_of(said[it])
        self.lines.number = 0
        for some, rows in (("names", self.names), ("kinds", self.kinds)):
            upper = [self.upper(it) for it in rows]
            for at, it in enumerate(upper):
                if it in upper[:at]:
                    self.lines.refuse(f"the {some} {rows[upper.index(it)]} and {rows[at]} would both be called {it}: [spelled] can tell them apart")

    # ---- lines

    def section_of(self, line):
        found = re.fullmatch(r"\[(about|spelled|values|enumerations|groups)\]|\[types ([a-z][a-z0-9_]*) (.*\S)\]", line)
        if not found:
            self.lines.refuse("a section is [about], [spelled], [values], [enumerations], [groups] or [types PART SECTION]")
        if found.group(2):
            if found.group(2) in (*self.sections, "simple", "texts", "declarations", "lib"):
                self.lines.refuse(f"the part {found.group(2)} was there before, or is another file's name")
            self.sections[found.group(2)] = (found.group(3), [])
            return found.group(2)
        return found.group(1)

    def take(self, section, name, rest, said):
        """Takes a line of a section."""
        of = section if section in ("about", "spelled") else "type"
        if (of, name) in self.at or name == "Empty":
            self.lines.refuse(f"{name} was there before, in line {self.at[of, name]}" if (of, name) in self.at else "Empty is the kind without content")
        self.at[of, name] = self.lines.number
        if section == "about":
            if name not in ABOUT or not rest:
                self.lines.refuse(f"[about] has {', '.join(ABOUT)}, each with what it is")
            self.about[name] = rest
        elif section == "spelled":
            if not re.fullmatch(r"[A-Z][A-Z0-9_]*", rest):
                self.lines.refuse(f"`{rest}` is no name of a constant")
            self.spelled[name] = rest
        elif section == "values":
            self.judge_value(name, rest)
            self.values[name] = rest
        elif section == "enumerations":
            self.enumerations[name] = self.lines.names(rest)
            if not rest or len(set(self.enumerations[name])) != len(self.enumerations[name]):
                self.lines.refuse("an enumeration has values, each once")
        elif section == "groups":
            self.groups[name] = rest.split()
            bare = [it.lstrip("^!") for it in self.groups[name]]
            if not rest or len(set(bare)) != len(bare):
                self.lines.refuse("a group has members, each once")
            if bare != sorted(bare):
                self.lines.refuse("the members of a group stand in the order of their names, as their event codes do")
        else:
            self.sections[section][1].append(name)
            said[name] = self.split(rest)

    def judge_value(self, name, text):
        word, *numbers = text.split() or [""]
        if word not in FORMS or len(numbers) != FORMS[word] or not all(re.fullmatch(r"-?\d+", it) for it in numbers):
            self.lines.refuse("a value is bool, bounded LEAST COUNT, unsigned MOST, signed LEAST MOST, binary MOST or text MOST")
        numbers = [int(it) for it in numbers]
        if word == "bounded" and not 1 <= numbers[1] <= 4096:
            self.lines.refuse("a bounded number has 1 to 4,096 values")
        if word in ("signed", "unsigned") and bounds(text)[0] > bounds(text)[1]:
            self.lines.refuse("the least number is greater than the greatest")
        if word in ("binary", "text") and not 1 <= numbers[0] < 2**32:
            self.lines.refuse(f"a {word} has a greatest length, 1 to {2**32 - 1:,}")
        if word in ("bounded", "unsigned", "signed") and number_type(*bounds(text)) is None:
            self.lines.refuse("no type of 64 bits holds these numbers")

    def split(self, text):
        """The parts between commas that stand in no brackets."""
        parts = [it.strip() for it in re.split(r",(?![^(]*\))", text)] if text else []
        if not all(parts):
            self.lines.refuse("between two commas, and behind the last, stands an attribute or an element")
        return parts

    # ---- what a type contains

    def content_of(self, parts):
        attributes = [it for it in parts if it.startswith("@")]
        if attributes != parts[: len(attributes)]:
            self.lines.refuse("attributes stand before elements")
        made = [self.attribute(it) for it in attributes], [self.particle(it) for it in parts[len(attributes) :]]
        names = [name for name, _, _ in made[0]]
        inner = [name for it in made[1] for _, name, _ in it.members]
        for some, what in ((names, "attribute"), (inner, "element")):
            twice = [it for at, it in enumerate(some) if it in some[:at]]
            if twice:
                self.lines.refuse(f"the {what} {twice[0]} stands there twice")
        return made

    def attribute(self, text):
        found = re.fullmatch(rf"@({NAME}) ({NAME})(\??)", text)
        if not found:
            self.lines.refuse(f"`{text}`: an attribute is @NAME KIND, with ? where it may be missing")
        name, kind, optional = found.groups()
        if kind not in self.values and kind not in self.enumerations:
            self.lines.refuse(f"the attribute {name} has a kind that is no value and no enumeration: {kind}")
        return self.name(name), self.kind(kind), not optional

    def particle(self, text):
        found = re.fullmatch(rf"(!?{NAME}(?: {NAME})?|<{NAME}>|\([^()]*\))(?:(\?)| ([*+])(\d+))?", text)
        if not found:
            self.lines.refuse(f"`{text}`: an element is NAME, NAME KIND, !NAME?, <GROUP> or ( | ), with ?, *MOST or +MOST behind it")
        what, optional, many, number = found.groups()
        if number and not 1 <= int(number) <= 65535:
            self.lines.refuse(f"`{text}`: a list has at most 1 to 65,535 elements")
        if what.startswith("!") and (not optional or " " in what):
            self.lines.refuse(f"`{text}`: what is left out is !NAME?")
        if number and what[0] in "<(":
            self.lines.refuse(f"`{text}`: one of several elements is there once, or perhaps")
        most = int(number) if many == "*" else None if many else 1
        if what.startswith("<") and what[1:-1] not in self.groups:
            self.lines.refuse(f"there is no group {what[1:-1]}")
        members = self.groups[what[1:-1]] if what.startswith("<") else [it.strip() for it in what[1:-1].split("|")] if what.startswith("(") else [what]
        if what.startswith("(") and len(members) < 2:
            self.lines.refuse(f"`{text}`: a choice has two elements or more")
        return Particle([self.member(it) for it in members], 0 if optional else 1, most, int(number) if number else 1)

    def member(self, text):
        found = re.fullmatch(rf"([!^]?)({NAME})(?: ({NAME}))?", text)
        if not found:
            self.lines.refuse(f"`{text}` is no element: NAME, NAME KIND, or in a group also ^NAME and !NAME")
        mark, name, kind = found.groups()
        standing = STANDINGS.get(mark, "Taken")
        return standing, self.name(name), self.kind((kind or name) if standing == "Taken" else "Empty")

    # ---- names

    def name(self, text):
        if hasattr(self, "names") and text not in self.names:
            self.names.append(text)
        return self.upper(text)

    def kind(self, text):
        given, text = text, "Empty" if text in self.empty else text
        if text not in self.kinds:
            self.lines.refuse(f"there is no kind {given}")
        return self.upper(text) + "_KIND"

    def upper(self, text):
        if text not in self.raised:
            self.raised[text] = self.spelled.get(text) or raised(text)
        return self.raised[text]

    def lower(self, text):
        return self.upper(text).lower()

    # ---- values

    def form(self, kind):
        """The word of a value, or none where a kind is none."""
        return self.values.get(kind, "").partition(" ")[0]

    def number(self, kind):
        """The type of a value that is a number."""
        return number_type(*bounds(self.values[kind]))


def raised(text):
    text = re.sub(r"([A-Z0-9]+)([A-Z][a-z])", r"\1_\2", text)
    text = re.sub(r"([a-z])([A-Z])", r"\1_\2", text)
    return re.sub(r"__+", "_", text).upper()


def bounds(text):
    """The least and the greatest number of a value that is one."""
    word, *numbers = text.split()
    first, last = int(numbers[0]), int(numbers[-1])
    return {"unsigned": (0, last), "signed": (first, last), "bounded": (first, first + last - 1)}[word]


def type_bounds(bits, signed):
    return (-(2 ** (bits - 1)), 2 ** (bits - 1) - 1) if signed else (0, 2**bits - 1)


def number_type(least, most):
    """The smallest type of numbers that holds both, with a sign where the least has one; none where no type does."""
    for bits in (8, 16, 32, 64):
        first, last = type_bounds(bits, least < 0)
        if first <= least and most <= last:
            return f"{'i' if least < 0 else 'u'}{bits}"
    return None


class ListedFile:
    """A line of a list of types: the file of a crate, the section that defines its enumerations, and its kinds with their marks."""

    def __init__(self, crate, file, section, kinds):
        self.crate, self.file, self.section, self.kinds = crate, file, section, kinds


class ListedKind:
    """A kind of a line: `large` where it is too large to move, `long` where it holds long lists, `group` that of which it has the brief
    members, `renamed` the name that its type has."""

    def __init__(self, kind, large, long, group, renamed):
        self.kind, self.large, self.long, self.group, self.renamed = kind, large, long, group, renamed


def listed_types(path, s):
    """The files of a list of types over the declarations `s`."""
    lines, found, seen = Lines(path), [], {}
    choices = [it + "Value" for it, (_, particles) in s.content.items() if any(len(p.members) > 1 and not is_group(s, p) for p in particles)]
    known = {*s.content, *s.enumerations, *s.groups, *choices, *s.empty}
    for line in lines:
        head = re.fullmatch(rf"({NAME})/([a-z][a-z0-9_]*)( [^:]*\S)?:((?: \S+)+)\s*", line)
        if not head:
            lines.refuse("a line is CRATE/FILE: KIND .., or CRATE/FILE SECTION: KIND .. for enumerations")
        kinds = []
        for text in head.group(4).split():
            word = re.fullmatch(rf"({NAME})(\*?)(!?)(?:<({NAME})>)?(?:=({NAME}))?", text)
            if not word:
                lines.refuse(f"`{text}`: a kind is NAME, with *, ! or *<GROUP> behind it, and =TYPE")
            kind, large, long, group, renamed = word.groups()
            if group and (group not in s.groups or not large):
                lines.refuse(f"`{text}`: the brief members of a group are NAME*<GROUP>, and {group} has to be a group")
            if not group and kind not in known:
                lines.refuse(f"{kind} is no type, group, choice or enumeration of {s.path}")
            if kind in seen:
                lines.refuse(f"{kind} was there before, in line {seen[kind]}")
            kinds.append(ListedKind(kind, bool(large), bool(long), group, renamed))
            for inner in held(s, kinds[-1]):
                if inner not in seen:
                    lines.refuse(f"{kind} holds {inner}, which has to be listed before it")
            seen[kind] = lines.number
        named = [it.kind in s.enumerations for it in kinds]
        if any(named) != all(named):
            lines.refuse("the kinds of a file are all enumerations, or none is")
        if any(named) != bool(head.group(3)):
            lines.refuse("a section is given where the kinds are enumerations, and there alone")
        found.append(ListedFile(head.group(1), head.group(2), (head.group(3) or "").strip(), kinds))
    missing = [it for it in known if it not in seen and it not in s.empty]
    if missing:
        lines.refuse(f"{missing[0]} is declared in {s.path} and isn't listed")
    return found


def is_group(s, particle):
    return any([s.member(it) for it in members] == particle.members for members in s.groups.values())


def held(s, listed):
    """The kinds that have to be listed before a kind, but for values, empty ones and itself."""
    kinds = {s.kind(it): it for it in s.kinds}
    inside = lambda particle: [kinds[kind] for standing, _, kind in particle.members if standing == "Taken"]
    group = listed.group or (listed.kind if listed.kind in s.groups else None)
    if group:
        found = [kinds[kind] for standing, _, kind in map(s.member, s.groups[group]) if standing == "Taken"]
        if listed.group:
            found = []
    else:
        of = listed.kind.removesuffix("Value") if listed.kind not in s.kinds else listed.kind
        found = []
        for it in s.content.get(of, ([], []))[1]:
            if len(it.members) == 1:
                found += inside(it) if of == listed.kind else []
            elif of != listed.kind:
                found += inside(it)
            else:
                found += [next((name for name, members in s.groups.items() if [s.member(m) for m in members] == it.members), of + "Value")]
    return [it for it in found if it not in s.values and it != "Empty" and it != listed.kind]
