"""The shapes of a dialect's types, read from the list of its declarations and from the list of its types."""
import re

from schema_lists import Refused, Schema, bounds, listed_types, type_bounds


class Element:
    """An element or attribute of a type. `form` is value, record, choice, attribute or out; `most` how many of a list are accepted."""

    def __init__(self, t, form, name, kind, at=0, optional=False, most=None):
        self.form, self.name, self.kind, self.at, self.optional, self.most = form, name, kind, at, optional, most
        self.field, self.simple, self.large = name.lower(), t.is_simple(kind), kind in t.large
        self.bound = t.bound(kind) if self.simple else ""
        one = t.type_of(kind) if form != "out" else ""
        self.one = one
        self.type = f"Option<{one}>" if optional else f"ArrayVec<{one}, {most}>" if most else one
        if most:
            self.bound = f"1 to {most}" + (f", each {self.bound[0].lower()}{self.bound[1:]}" if self.bound else "")

    def put(self):
        if self.form == "attribute":
            return "put_optional_attribute" if self.optional else "put_attribute"
        what = "value" if self.simple else "record"
        if self.optional:
            return "put_optional_value" if self.simple else "put_optional"
        return f"put_{what}s" if self.most else f"put_{what}"

    def is_here(self):
        """Whether it is read where it stands: a large type, or a list of records."""
        return self.large or bool(self.most and not self.simple)

    def read(self):
        """The function that reads it as a member, or as a child of a large type."""
        here = "_here" if self.is_here() else ""
        if self.form == "member":
            return "member_value" if self.simple else f"member{here}"
        if self.form == "choice":
            return f"{'optional_' if self.optional else ''}choice{here}"
        if self.form == "out":
            return "left_out"
        if self.simple:
            return "optional_value" if self.optional else "values" if self.most else "value"
        return ("optional" if self.optional else "records" if self.most else "required") + here

    def single(self):
        """What it is among the children of which its type is made."""
        if self.form == "choice":
            return "AtMostOneOf" if self.optional else "OneOf"
        return ("Several" if self.most else "Optional" if self.optional else "Required") + ("Values" * self.simple if self.most else "Value" * self.simple)

    def child(self):
        """The type of that."""
        if self.form == "out":
            return "LeftOut"
        asked = ([str(self.most)] if self.most else []) + ([f"{{ names::{self.name} }}"] if self.is_asked() else [])
        return f"{self.single()}<{', '.join([self.one, *asked])}>"

    def is_asked(self):
        """Whether reading it names it."""
        return self.form == "value" and bool(self.optional or self.most)


def in_groups(members):
    """The tuples, each of at most four, in which so many stand."""
    count = -(-len(members) // 4)
    least, more = divmod(len(members), count)
    ends = [least * n + min(n, more) for n in range(count + 1)]
    return [members[a:b] for a, b in zip(ends, ends[1:])]


class Types:
    def __init__(self, path, schema, types):
        self.s = Schema(path)
        self.s.crate = schema
        self.renamed, self.files, self.file_sections, self.large = {}, [], {}, set()
        self.long, self.brief = set(), {}
        for it in listed_types(types, self.s):
            self.file_sections[it.crate, it.file] = it.section
            self.large |= {of.kind for of in it.kinds if of.large}
            self.long |= {of.kind for of in it.kinds if of.long}
            self.brief.update({of.group: of.kind for of in it.kinds if of.group})
            self.renamed.update({of.kind: of.renamed for of in it.kinds if of.renamed})
            self.files.append((it.crate, it.file, [of.kind for of in it.kinds]))
        self.kinds = {self.s.kind(it): it for it in self.s.kinds}
        self.empty = {self.s.upper(it): it for it in self.s.empty}
        # what was found of each kind once all choices are known
        self.found = {}
        self.choices, self.optional_choices = {}, set()
        self.places = {kind: (crate, file) for crate, file, kinds in self.files for kind in kinds}
        for kind, (_, particles) in self.s.content.items():
            for it in particles:
                if len(it.members) > 1:
                    self.choices[self.choice_of(kind, it)] = None
                    self.optional_choices |= {self.choice_of(kind, it)} if it.least == 0 else set()
        for kind, (_, particles) in self.s.content.items():
            for it in particles:
                if len(it.members) > 1:
                    self.choices[self.choice_of(kind, it)] = self.members(self.choice_of(kind, it), it)
        self.choices.update({brief: [it for it in self.choices[group] if it.kind not in self.long] for group, brief in self.brief.items()})
        self.found.clear()
        for kind in self.places:
            inner = next((it.kind for it in self.inner(kind) if it.large), None)
            if inner and kind not in self.large:
                raise Refused(f"{types}: {kind} holds {inner}, which is too large to move, and so is too large itself")
        self.defaults = self.with_defaults()

    # ---- names

    def lower(self, kind):
        return self.upper(kind).lower()

    def upper(self, kind):
        return self.s.upper(self.renamed.get(kind, kind))

    def camel(self, kind):
        """A name as Rust writes a type or a variant."""
        return "".join(word.capitalize() for word in self.upper(kind).split("_"))

    def declared(self, kind):
        """The name of a kind's particles in the schema's definitions."""
        return self.s.lower(kind)

    def section(self, kind):
        """The file of the schema's definitions that has a kind's particles."""
        return next(part.capitalize() for part, kinds in self.s.parts.items() if kind in kinds)

    def titles(self, kinds):
        """The sections of the standard that tell of these types; of a group it is that of the types that hold it."""
        told = [it for it in kinds if it in self.s.content]
        groups = [group for group, brief in self.brief.items() if brief in kinds]
        told = told or [of for of in self.s.content if any(it.form == "choice" and it.kind in groups for it in self.fields(of))]
        return ", and ".join(dict.fromkeys(self.s.sections[self.section(it).lower()][0] for it in told))

    # ---- particles

    def taken(self, particle):
        return [(name, self.empty.get(name, "Empty") if kind == "EMPTY_KIND" else self.kinds[kind]) for standing, name, kind in particle.members if standing == "Taken"]

    def choice_of(self, kind, particle):
        """The group of a particle of several elements; a choice is named after the type in which it stands."""
        return next((it for it, listed in self.s.groups.items() if [self.s.member(m) for m in listed] == particle.members), kind + "Value")

    def members(self, choice, particle):
        """The members of a group or choice in the profile; what all their names end with is left out of their variants."""
        taken, words = self.taken(particle), self.s.upper(choice).split("_")
        while words and not all(name.endswith("_" + "_".join(words)) for name, _ in taken):
            words = words[1:]
        made = []
        for name, kind in taken:
            it = Element(self, "member", name, kind)
            short = name.removesuffix("_" + "_".join(words)) if words else name
            it.variant, it.word = "".join(word.capitalize() for word in short.split("_")), short.lower()
            made.append(it)
        return made

    def is_brief(self, kind):
        return kind in self.brief.values()

    def own(self, choice):
        """The members that are variants of the type itself, and not of that of the brief ones."""
        return [it for it in self.choices[choice] if choice not in self.brief or it.kind in self.long]

    def parts(self, choice):
        """The own members in parts, each of which a function of its own reads: a long chain takes the prover long."""
        members = self.own(choice)
        return [members[n : n + 6] for n in range(0, len(members), 6)] if self.is_brief(choice) else [members]

    def from_part(self, choice, n):
        """The members from the nth part on."""
        before = sum(len(it) for it in self.parts(choice)[:n])
        return f"(drop {before} {self.lower(choice)}_members)" if n else f"{self.lower(choice)}_members"

    def reader_of(self, choice, n):
        """The function that reads one of the members from the nth part on, where there are any."""
        return f"from_{self.parts(choice)[n][0].word}" if n < len(self.parts(choice)) else ""

    def one_of(self, choice, it, value):
        """A member as one of its choice, in definitions."""
        if choice in self.brief and it.kind not in self.long:
            return f"{self.lower(choice)}.Brief ({self.one_of(self.brief[choice], it, value)})"
        return f"{self.lower(choice)}.{it.variant} {value}"

    def fields(self, kind):
        """The attributes and elements of a type."""
        if kind not in self.found:
            self.found[kind] = self.made_fields(kind)
        return self.found[kind]

    def made_fields(self, kind):
        attributes, particles = self.s.content.get(kind, ([], []))
        made = [Element(self, "attribute", name, self.kinds[of], at, not required) for at, (name, of, required) in enumerate(attributes)]
        for at, it in enumerate(particles):
            taken, most = self.taken(it), it.profile if it.most != 1 else None
            if not taken:
                made.append(Element(self, "out", it.members[0][1], "Empty", at))
            elif len(it.members) == 1:
                made.append(Element(self, "value", *taken[0], at, it.least == 0, most))
            else:
                choice = self.choice_of(kind, it)
                made.append(Element(self, "choice", self.s.upper(choice).removeprefix(self.s.upper(kind) + "_"), choice, at, it.least == 0))
        return made

    # ---- types

    def is_simple(self, kind):
        return kind in self.s.values or kind in self.s.enumerations

    def is_signed(self, kind):
        return self.s.form(kind) in ("bounded", "unsigned", "signed") and self.s.number(kind).startswith("i")

    def type_of(self, kind):
        form = self.s.form(kind)
        if form in ("text", "binary"):
            return f"{form.capitalize()}<'a>"
        if form:
            return "bool" if form == "bool" else self.s.number(kind)
        return self.camel(kind) + ("<'a>" if self.lent(kind) else "")

    def bound(self, kind):
        """What values there are of a number or text that takes fewer than its type."""
        form = self.s.form(kind)
        if form in ("text", "binary"):
            return f"At most {self.s.values[kind].split()[1]} {'code points' if form == 'text' else 'bytes'}"
        if form in ("", "bool"):
            return ""
        least, most = bounds(self.s.values[kind])
        if (least, most) == type_bounds(int(self.s.number(kind)[1:]), least < 0):
            return ""
        return f"At most {most:,}" if form == "unsigned" else f"{least:,} to {most:,}"

    def inner(self, kind):
        """What a type holds."""
        if kind in self.choices:
            return self.choices[kind]
        return [it for it in self.fields(kind) if it.form != "out"] if kind in self.s.content else []

    def lent(self, kind):
        """Whether a type borrows from the payload."""
        if kind in self.choices and self.choices[kind] is None:
            particle = next(it for of, (_, its) in self.s.content.items() for it in its if len(it.members) > 1 and self.choice_of(of, it) == kind)
            return any(self.lent(it) for _, it in self.taken(particle))
        return self.s.form(kind) in ("text", "binary") if kind in self.s.values else any(self.lent(it.kind) for it in self.inner(kind))

    def holds_list(self, kind):
        """Whether a list stands somewhere in a type."""
        return any(it.most or self.holds_list(it.kind) for it in self.inner(kind))

    def is_plain(self, kind):
        """Whether it is copied as its bits are."""
        if self.lent(kind):
            return False
        return self.is_simple(kind) or all(not it.most and self.is_plain(it.kind) for it in self.inner(kind))

    def is_three(self, kind):
        """Whether it is a sequence of three values, which are read at once."""
        fields = self.fields(kind)
        return len(fields) == 3 and kind not in self.large and all(it.form == "value" and it.simple and not it.is_asked() for it in fields)

    def is_optional_second(self, kind):
        """Whether it is a sequence of three values of which the second may be absent, which are read at once."""
        fields = self.fields(kind)
        return len(fields) == 3 and kind not in self.large and all(it.form == "value" and it.simple and not it.most for it in fields) and [it.optional for it in fields] == [False, True, False]

    def is_entry(self, kind):
        """Whether it stands in a list of a large type, where it is stored as a whole."""
        return kind not in self.large and any(it.most and it.kind == kind for of in self.large if of not in self.choices for it in self.fields(of))

    def with_defaults(self):
        """The types that stand in lists or are large, with what they hold: room for them has to be filled with some value."""
        found, left = set(), [it.kind for kind in self.places for it in (self.inner(kind) if kind not in self.choices else []) if it.most]
        left += [it for it in self.large if it not in self.choices]
        while left:
            kind = left.pop()
            if kind not in found:
                found.add(kind)
                inner = self.inner(kind)[:1] if kind in self.choices else self.inner(kind)
                left += [it.kind for it in inner if not it.optional]
        return found
