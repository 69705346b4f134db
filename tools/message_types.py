#!/usr/bin/env python3
"""Writes the types of a dialect's messages from the list of its declarations: enumerations, structs, groups and choices, with their parts
and their proofs.

usage: message_types.py LIST SCHEMA TYPES            writes crates/CRATE/{src,specs,proofs} for the files and kinds that TYPES lists
       message_types.py --check LIST SCHEMA TYPES    exits 1 where a file differs from what would be written

SCHEMA is the crate of the dialect's schema. The kinds of a file are all enumerations or none is. The head of tools/iso.schema says what
stands in LIST, that of tools/iso.types what stands in TYPES."""
import re
import sys

from message_proofs import proofs
from message_shapes import Types, in_groups
from message_specs import definitions
from reached_paths import Reached
from schema_lists import Refused
from written_files import settle, told

WORDS = [
    "Binary", "Choice", "Descent", "Group", "LargeChoice", "LargeGroup", "LargeRecord", "OptionalChildren", "OptionalSecond", "PutChoice", "PutRecord", "ReadRecord",
    "Record", "Text", "Three", "ThreeChildren", "choice", "first_child", "left_out", "member", "member_here", "member_value",
    "optional", "optional_children", "optional_choice", "optional_choice_here", "optional_here", "optional_value", "put_attribute", "put_choice",
    "put_optional", "put_optional_attribute", "put_optional_choice", "put_optional_value", "put_record", "put_records",
    "put_value", "put_values", "records_here", "required", "required_here", "three_children", "value", "values", "whole_record",
]
CHILDREN = [
    "AtMostOneOf", "Elements", "Elements2", "Elements3", "Elements4", "LeftOut", "OneOf", "Optional", "OptionalValue", "Required", "RequiredValue",
    "Several", "SeveralValues", "WithAttribute", "WithOptionalAttribute",
]


def enumeration(t, crate, file, kind):
    name, variants = t.camel(kind), [t.camel(it) for it in t.s.enumerations[kind]]
    ordinal = f"{t.lower(kind)}_ordinal"
    default = lambda n: "    #[default]\n" if n == 0 and kind in t.defaults else ""
    listed = "".join(f"    /// {text}.\n{default(n)}    {it},\n" for n, (text, it) in enumerate(zip(t.s.enumerations[kind], variants)))
    arms = "".join(f"            {name}::{it} => {n},\n" for n, it in enumerate(variants))
    reads = "".join(f"            Value::Ordinal({n}) => {name}::{it},\n" for n, it in enumerate(variants[:-1]))
    return f"""
/// {kind}, its values in order from 0.
#[derive(Clone, Copy{", Default" if kind in t.defaults else ""})]
pub enum {name} {{
{listed}}}

impl<'a> Simple<'a> for {name} {{
    ghost use Rattle.{crate}.specs.{file.capitalize()}.{{{ordinal}}};

    ghost takes = {{ is_named {len(variants)} }};

    ghost value = {{ λ x. Ordinal ({ordinal} x) }};

    fn as_value(&self) -> Value<'_> {{
        Value::Ordinal(match self {{
{arms}        }})
    }}

    fn of(read: Value<'a>) -> {name} {{
        match read {{
{reads}            _ => {name}::{variants[-1]},
        }}
    }}
}}
"""


def derived(t, kind):
    plain = "Clone, Copy" if t.is_plain(kind) else "Drop"
    return f"#[derive({plain}{', Default' if kind in t.defaults and kind not in t.choices else ''})]"


READ_HERE = "fn read_here<P: Places>(&mut self, descent: &mut Descent<'a, '_, P>) -> Result<(), Refusal>"


def lifetime(lent):
    return "<'a>" if lent else ""


def put(it):
    if it.form == "choice":
        return f"put_{'optional_' if it.optional else ''}choice(writer, &self.{it.field});"
    return f"{it.put()}(writer, names::{it.name}, &self.{it.field});"


def read_here(it):
    """Reads a field of a large type where it stands."""
    if it.form == "out":
        return f"{it.read()}(descent);"
    asked = f", names::{it.name}" if it.is_asked() else ""
    return f"{it.read()}(&mut self.{it.field}, descent{asked})?;" if it.is_here() else f"self.{it.field} = {it.read()}(descent{asked})?;"


def tuple_of(words):
    """These, at most sixteen, as one tuple, or as a tuple of such of at most four each."""
    if len(words) > 4:
        return f"({', '.join(tuple_of(it) for it in in_groups(words))})"
    return words[0] if len(words) == 1 else f"({', '.join(words)})"


def holder(attributes, count):
    """What holds so many parts, with the attribute if there is one: at most one."""
    if attributes:
        return "WithOptionalAttribute" if attributes[0].optional else "WithAttribute"
    return "Elements" + (str(count) if count > 1 else "")


def held(attributes, words):
    """What stands in the holder: behind an attribute one tuple, else these one by one, or tuples of them where there are more than four."""
    if attributes:
        return [tuple_of(words)]
    return [tuple_of(it) for it in in_groups(words)] if len(words) > 4 else words


def made_of(t, kind):
    """The type of that of which a struct is made, and how it is made of that."""
    name, fields = t.camel(kind), t.fields(kind)
    kept = [it.field for it in fields if it.form != "out"]
    if t.is_three(kind):
        parts = ", ".join(f"{it}: made.{word}" for it, word in zip(kept, ("first", "second", "third")))
        return f"Three<{', '.join(it.one for it in fields)}>", f"        {name} {{ {parts} }}\n"
    if t.is_optional_second(kind):
        parts = ", ".join(f"{it}: made.{word}" for it, word in zip(kept, ("first", "second", "third")))
        return f"OptionalSecond<{', '.join(it.one for it in fields)}, {{ names::{fields[1].name} }}>", f"        {name} {{ {parts} }}\n"
    attributes, children = [it for it in fields if it.form == "attribute"], [it for it in fields if it.form != "attribute"]
    child = lambda it: "LeftOut" if it.form == "out" else f"{it.single()}({it.field})"
    types = [*(it.one for it in attributes), *held(attributes, [it.child() for it in children])]
    parts = [*(it.field for it in attributes), *held(attributes, [child(it) for it in children])]
    word = holder(attributes, len(types))
    taken = f"        let {word}({', '.join(parts)}) = made;\n"
    return f"{word}<{', '.join(types)}>", f"{taken}        {name} {{ {', '.join(kept)} }}\n"


def record(t, kind, lent):
    """Of what a struct is made, and how it is read, by a function of its own."""
    name = t.camel(kind) + lifetime(lent)
    made, body = made_of(t, kind) if kind in t.s.content else ("Elements<()>", f"        {name}\n")
    taken = "made" if kind in t.s.content else "_made"
    return f"""impl<'a> Record<'a> for {name} {{
    ghost use Rattle.std.proofs.Common.{{rules}};

    type Made = {made};

    fn of({taken}: Self::Made) -> {name} {{
{body}    }}

    ghost declared = {{ Prim.search rules }};
}}

impl<'a> ReadRecord<'a> for {name} {{
    fn read<P: Places>(descent: &mut Descent<'a, '_, P>) -> Result<{name}, Refusal> {{
        whole_record(descent)
    }}
}}
{entry(name) if t.is_entry(kind) else ""}"""


def entry(name):
    """Reads a struct as a whole over the one that stands at its place in a list."""
    return f"""
impl<'a> LargeRecord<'a> for {name} {{
    {READ_HERE} {{
        *self = whole_record(descent)?;
        Ok(())
    }}
}}
"""


def put_at_once(t, kind):
    """The children of a struct of three values, of which the second may be absent, which are put at once."""
    if t.is_three(kind):
        function, result, made = "three_values", "ThreeChildren", "three_children"
    elif t.is_optional_second(kind):
        function, result, made = "optional_values", "OptionalChildren", "optional_children"
    else:
        return ""
    given = "".join(f"            names::{it.name},\n            &self.{it.field},\n" for it in t.fields(kind))
    return f"""    #[inline(always)]
    fn {function}(&self) -> Option<{result}> {{
        {made}(
{given}        )
    }}

"""


def large_record(t, kind, lent):
    """Reads the children of a large struct where they stand."""
    reads = "".join(f"        {read_here(it)}\n" for it in t.fields(kind))
    return f"""impl<'a> LargeRecord<'a> for {t.camel(kind) + lifetime(lent)} {{
    {READ_HERE} {{
        first_child(descent)?;
{reads}        Ok(())
    }}
}}
"""


def struct(t, crate, file, kind):
    name, low, lent, kept = t.camel(kind), t.lower(kind), t.lent(kind), [it for it in t.fields(kind) if it.form != "out"]
    members = "".join((f"    /// {it.bound}.\n" if it.bound else "") + f"    pub {it.field}: {it.type},\n" for it in kept)
    body = f" {{\n{members}}}" if kept else ";"
    attributes = any(it.form == "attribute" for it in kept)
    puts = "".join(f"        {put(it)}\n" for it in kept)
    words = [f"{low}_given"] * attributes + [f"{low}_parts"] * bool(kept) + [f"{low}_attributes"] * attributes
    uses = f"    ghost use Rattle.{crate}.specs.{file.capitalize()}.{{{', '.join(words)}}};\n" if words else ""
    particles = f"    ghost use Rattle.{t.s.crate}.specs.{t.section(kind)}.{{{t.declared(kind)}}};\n" if kept else ""
    writer = "writer" if puts else "_writer"
    return f"""
/// {kind}.
{derived(t, kind)}
pub struct {name}{"<'a>" if lent else ""}{body}

impl PutRecord for {name}{"<'_>" if lent else ""} {{
    ghost use Rattle.std.specs.Prelude.{{refl}};
    ghost use Rattle.{t.s.crate}.specs.Declarations.{{kinds}};
{particles}{uses}
    ghost kinds = {{ kinds }};

    ghost attributes = {{ {f"{low}_attributes" if attributes else "[]"} }};

    ghost particles = {{ {t.declared(kind) if kept else "[]"} }};

    ghost apart = {{ refl }};

    ghost given = {{ {f"{low}_given" if attributes else "λ v. []"} }};

    ghost parts = {{ {f"{low}_parts" if kept else "λ v. []"} }};

{put_at_once(t, kind)}    fn write<P: Places>(&self, {writer}: &mut EventWriter<'_, '_, P>) {{
{puts}    }}
}}

{(large_record if kind in t.large else record)(t, kind, lent)}"""


def chain(t, kind, members):
    """Reads one of these members, after its name; the last without a look at it."""
    # a function whose result borrows, while what it takes doesn't, can't be passed
    name, form = t.camel(kind), "Ok({1}({0}(descent)?))" if t.lent(kind) else "{0}(descent).map({1})"
    text = "        "
    for n, it in enumerate(members):
        call = form.format(it.read(), f"{name}::{it.variant}")
        if len(members) == 1:
            return f"        {call}\n"
        head = f"if descent.is_at(names::{it.name}) " if n < len(members) - 1 else ""
        text += f"{head}{{\n            {call}\n        }}{' else ' if head else chr(10)}"
    return text


def stored(t, kind, it):
    """A member that is read, as it is stored."""
    one = f"{t.camel(kind)}::{it.variant}({it.read()}(descent)?)"
    return one if t.is_brief(kind) else f"Some({one})"


def large_chain(t, kind, n=0):
    """Reads one of the members from the nth part on into a place, after its name; the last without a look at it."""
    place = "self" if t.is_brief(kind) and not n else "place"
    steps = [(it.name, f"{it.word}({place}, descent)" if t.holds_list(it.kind) else f"*{place} = {stored(t, kind, it)};\n            Ok(())") for it in t.parts(kind)[n]]
    behind = "brief" if kind in t.brief else t.reader_of(kind, n + 1)
    steps += [("", f"{behind}({place}, descent)")] if behind else []
    if len(steps) == 1:
        return f"        {steps[0][1]}\n"
    text = "        "
    for n, (name, step) in enumerate(steps):
        head = f"if descent.is_at(names::{name}) " if n < len(steps) - 1 else ""
        text += f"{head}{{\n            {step}\n        }}{' else ' if head else chr(10)}"
    return text


def into_place(t, kind, word, members, child, body):
    """A function that reads a member into a place."""
    name, low = t.camel(kind), t.lower(kind)
    type_name = name + lifetime(t.lent(kind))
    place, value = (type_name, "place.new") if t.is_brief(kind) else (f"Option<{type_name}>", "v")
    found = "" if t.is_brief(kind) else f"(v : {name}) × (place.new ≡ Some v) × "
    return f"""fn {word}<'a, P: Places>(place: &mut {place}, descent: &mut Descent<'a, '_, P>) -> Result<(), Refusal>
    requires open {{ IsOpen P.schema descent.old }}
    ensures open {{ IsOpen P.schema descent.new }}
    ensures table {{ descent.new.reader.table.ghost_name ≡ descent.old.reader.table.ghost_name }}
    ensures places {{ descent.new.reader.places.now ≡ descent.old.reader.places.now }}
    ensures payload {{ descent.new.reader.reader.bits ≡ descent.old.reader.reader.bits }}
    ensures refused {{ IfErr result (λ r. IsRefusal (seen_of P.schema descent.old) r) }}
    ensures read {{ (F : Frame) (told : List TreeEvent) → IsChosen kinds F {members} told (seen_of P.schema descent.old){child}
        → IfOk result (λ _. {found}({low}_name {value} ≡ F.name) × Leaves kinds F (told_inside ({low}_inside {value}) told) (seen_of P.schema descent.new)) }}
{{
{body}}}

"""


def part_function(t, kind, n):
    """Reads one of the members from the nth part on."""
    return f"""/// One of the members from {t.parts(kind)[n][0].type.split("<")[0]} on.
#[inline(always)]
""" + into_place(t, kind, t.reader_of(kind, n), t.from_part(kind, n), "", large_chain(t, kind, n))


def apart(t, kind, it):
    """Reads a member that holds a list."""
    name = it.type.split("<")[0]
    reader = lambda word, body: into_place(t, kind, word, t.from_part(kind, next(n for n, part in enumerate(t.parts(kind)) if it in part)), f" → descent.old.child ≡ Some {it.name}", body)
    if not it.large:
        body = f"    *place = {stored(t, kind, it)};\n    Ok(())\n"
        return f"/// {name}, which holds a list: apart from the others, so that they don't fill its room.\n#[inline(never)]\n" + reader(it.word, body)
    again = f"""    match place {{
        Some({t.camel(kind)}::{it.variant}({it.word})) => {it.read()}({it.word}, descent),
        _ => {it.word}_anew(place, descent),
    }}
"""
    anew = f"""    let mut {it.word} = {name}::default();
    {it.read()}(&mut {it.word}, descent)?;
    *place = Some({t.camel(kind)}::{it.variant}({it.word}));
    Ok(())
"""
    return f"""/// {name}, over one where such a one stands.
{reader(it.word, again)}/// {name}, where another stands or none: this fills its room.
#[inline(never)]
{reader(it.word + "_anew", anew)}"""


def brief_functions(t, kind):
    """Read one of the brief members of a group."""
    name, of_brief, members = t.camel(kind), t.brief[kind], f"{t.lower(t.brief[kind])}_members"
    empty = next(it for it in t.choices[of_brief] if not t.inner(it.kind))
    again = f"""    match place {{
        Some({name}::Brief(brief)) => brief.read_member_here(descent),
        _ => brief_anew(place, descent),
    }}
"""
    anew = f"""    let mut brief = {t.camel(of_brief)}::{empty.variant}({empty.type});
    brief.read_member_here(descent)?;
    *place = Some({name}::Brief(brief));
    Ok(())
"""
    return f"""/// One that holds no long list, over one that holds none either where such a one stands.
{into_place(t, kind, "brief", members, "", again)}/// One that holds no long list, where another stands or none: this clears the room of the longest.
#[inline(never)]
{into_place(t, kind, "brief_anew", members, "", anew)}"""


def large_uses(t, crate, file, kinds, said):
    """What the clauses of the own functions of large groups name; `said` is the text that they stand in."""
    names = ", ".join(it.name for it in t.own(kinds[-1]) if t.holds_list(it.kind))
    types = "".join(f"ghost use Rattle.{crate}.specs.declared.{file}.{t.camel(it)}.{{{t.camel(it)}}};\n" for it in kinds if not t.is_brief(it))
    found = [it for it in ("[]", "List", "Some", "IfOk", "IfErr", "drop") if re.search(rf"(?<![\w:]){re.escape(it)}(?!\w)", said)]
    uses = {}
    for it in [*kinds, *(t.brief[it] for it in kinds if it in t.brief)]:
        place = f"{t.places[it][0]}.specs.{t.places[it][1].capitalize()}"
        words = [f"{t.lower(it)}_{word}" for word in ("members", "name", "inside") if it in kinds or word == "members"]
        uses.setdefault(place, []).extend(word for word in words if word not in uses.get(place, []))
    words = "".join(f"ghost use Rattle.{place}.{{{', '.join(words)}}};\n" for place, words in uses.items())
    return f"""ghost use Rattle.std.specs.Prelude.{{{', '.join(["◌≡◌", *found])}}};
ghost use Rattle.exi_documents.specs.Trees.{{Event as TreeEvent}};
ghost use Rattle.message_parts.specs.Contents.{{told_inside}};
ghost use Rattle.message_parts.specs.Reading.{{Frame, IsOpen, IsRefusal, IsChosen, Leaves, seen_of}};
ghost use Rattle.{t.s.crate}.specs.Declarations.{{kinds}};
ghost use Rattle.{t.s.crate}.specs.declared.names.TheConstants.{{{names}}};
{types}{words}"""


def choice(t, crate, file, kind):
    name, low, lent, members = t.camel(kind), t.lower(kind), t.lent(kind), t.choices[kind]
    variants = f"    Brief({t.type_of(t.brief[kind])}),\n" if kind in t.brief else ""
    variants += "".join(f"    /// {it.bound}.\n    {it.variant}({it.type}),\n" if it.bound else f"    {it.variant}({it.type}),\n" for it in t.own(kind))
    puts = f"            {name}::Brief(brief) => brief.write_member(writer),\n" if kind in t.brief else ""
    puts += "".join(f"            {name}::{it.variant}({it.word}) => {it.put()}(writer, names::{it.name}, {it.word}),\n" for it in t.own(kind))
    listed = ", ".join(f"names::{it.name}" for it in members)
    # what the trait says of names has to be said again where the type borrows
    clause = f"\n        ensures {{ result.now ≡ names_among {low}_members }}\n   " if lent else ""
    uses = f"    ghost use Rattle.std.specs.Prelude.{{◌≡◌}};\n    ghost use Rattle.message_parts.specs.Particles.{{names_among}};\n    ghost use Rattle.{crate}.specs.{file.capitalize()}.{{{low}_members}};\n\n" if lent else ""
    names = f"""    fn names() -> &'static [u16]{clause} {{
        &[{listed}]
    }}
"""
    group = f"""
impl<'a> Group<'a> for {name}{"<'a>" if lent else ""} {{
{uses}{names}}}
""" if kind in t.optional_choices else ""
    reading = f"""impl<'a> Choice<'a> for {name}{"<'a>" if lent else ""} {{
    fn read_member<P: Places>(descent: &mut Descent<'a, '_, P>) -> Result<{name}{"<'a>" if lent else ""}, Refusal> {{
{chain(t, kind, members)}    }}
}}
{group}"""
    if kind in t.large:
        functions = "".join(apart(t, kind, it) for it in t.own(kind) if t.holds_list(it.kind)) + (brief_functions(t, kind) if kind in t.brief else "")
        functions += "".join(part_function(t, kind, n) for n in range(1, len(t.parts(kind))))
        taken = "&mut self" if t.is_brief(kind) else f"place: &mut Option<{name + lifetime(lent)}>"
        reading = functions + f"""impl<'a> Large{"Choice" if t.is_brief(kind) else "Group"}<'a> for {name + lifetime(lent)} {{
{"" if t.is_brief(kind) else uses + names + chr(10)}    fn read_member_{"here" if t.is_brief(kind) else "into"}<P: Places>({taken}, descent: &mut Descent<'a, '_, P>) -> Result<(), Refusal> {{
{large_chain(t, kind)}    }}
}}
"""
    default = f"""
impl{"<'a>" if lent else ""} Default for {name}{"<'a>" if lent else ""} {{
    fn default() -> {name}{"<'a>" if lent else ""} {{
        {name}::{members[0].variant}({"false" if members[0].type == "bool" else members[0].type.split("<")[0] + "::default()"})
    }}
}}
""" if kind in t.defaults else ""
    what = f"One element of the substitution group {kind}" if kind in t.s.groups else f"One of the elements of {kind.removesuffix('Value')}"
    if kind in t.brief:
        what += ". The brief ones have a type of their own: one that is stored over\n/// another doesn't clear the room of the others"
    if t.is_brief(kind):
        what = f"One element of {next(group for group in t.brief if t.brief[group] == kind)} that holds no long list"
    return f"""
/// {what}.
{derived(t, kind)}
pub enum {name}{"<'a>" if lent else ""} {{
{variants}}}
{default}
impl PutChoice for {name}{"<'_>" if lent else ""} {{
    ghost use Rattle.{t.s.crate}.specs.Declarations.{{kinds}};
    ghost use Rattle.{crate}.specs.{file.capitalize()}.{{{low}_members, {low}_name, {low}_inside}};

    ghost kinds = {{ kinds }};

    ghost members = {{ {low}_members }};

    ghost name = {{ {low}_name }};

    ghost inside = {{ {low}_inside }};

    fn write_member<P: Places>(&self, writer: &mut EventWriter<'_, '_, P>) {{
        match self {{
{puts}        }}
    }}
}}

{reading}"""


def code(t, crate, file, kinds):
    if kinds[0] in t.s.enumerations:
        return f"""//! Enumerations of {t.s.title}.

ghost use Rattle.exi_documents.specs.Trees.{{Ordinal}};
ghost use Rattle.message_parts.specs.Values.{{is_named}};

use exi_events::Value;
use message_parts::Simple;
""" + "".join(enumeration(t, crate, file, it) for it in kinds)
    body = "".join(choice(t, crate, file, it) if it in t.choices else struct(t, crate, file, it) for it in kinds)
    said = re.sub(r"(?m)^ *//.*$", "", body)
    uses = {}
    for it in t.places:
        if it not in kinds and re.search(rf"(?<![\w:]){t.camel(it)}\b", said):
            place = f"crate::{t.places[it][1]}" if t.places[it][0] == crate else t.places[it][0]
            uses.setdefault(place, []).append(t.camel(it))
    lines = [f"use {it}::{{{', '.join(sorted(names))}}};" for it, names in uses.items()]
    lines += ["use exi_documents::Refusal;"] if "Refusal" in said else []
    lines += ["use exi_events::EventWriter;", "use exi_schema::Places;"]
    lines += [f"use {t.s.crate}::names;"] if "names::" in said else []
    lines += ["use arrayvec::ArrayVec;"] if "ArrayVec" in said else []
    # what is brief is read by a method, and so through its trait
    methods = ["LargeChoice"] if any(it in t.brief for it in kinds) else []
    words = [it for it in WORDS if it in methods or re.search(rf"(?<![\w:.]){it}(?=\()" if it[0].islower() else rf"(?<![\w:]){it}\b", said)]
    lines += [f"use message_parts::{{{', '.join(words)}}};"]
    words = [it for it in CHILDREN if re.search(rf"(?<![\w:]){it}\b", said)]
    lines += [f"use message_fields::{{{', '.join(words)}}};"] if words else []
    said = re.sub(r"&\[[^]]*\]", "", said)
    ghost = "ghost use Rattle.std.specs.Prelude.{[]};\n\n" if "[]" in said else ""
    large = [it for it in kinds if it in t.large and it in t.choices]
    ghost = large_uses(t, crate, file, large, said) + "\n" if large else ghost
    return f"//! Types of elements of {t.s.title}.\n\n{ghost}" + "\n".join(sorted(lines, key=order)) + "\n" + body


def order(line):
    """As rt fmt orders imports."""
    return line.split("{")[0].replace(";", "")


def written(t):
    files = {}
    for crate, file, kinds in t.files:
        files[f"{crate}/src/{file}.rt"] = code(t, crate, file, kinds)
        files[f"{crate}/specs/{file.capitalize()}.antt"] = definitions(t, crate, file, kinds)
        for kind in kinds:
            files.update({f"{crate}/proofs/{at}/Answers.antt": text for at, text in proofs(t, crate, file, kind).items()})
    reached = Reached()
    try:
        return {f"crates/{at}": reached.text(at.split("/")[0], text, at.endswith(".rt")) for at, text in files.items()}
    except LookupError as lacking:
        raise Refused(str(lacking)) from lacking


def main():
    words = sys.argv[1:]
    checks = words[:1] == ["--check"]
    if len(words[checks:]) != 3:
        sys.exit(__doc__)
    settle(written(Types(*words[checks:])), checks, "tools/message_types.py")


if __name__ == "__main__":
    told(main)
