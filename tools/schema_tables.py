#!/usr/bin/env python3
"""Writes the crate of a dialect's schema from one list of its types: its names, kinds and tables, and the same as plain declarations.

usage: schema_tables.py LIST CRATE            writes crates/CRATE/src/{names,kinds,tables}.rt and the files of crates/CRATE/specs
       schema_tables.py --check LIST CRATE    exits 1 where one of them differs from what would be written

The head of tools/iso.schema says what stands in a list; a line that says anything else is refused."""
import re
import sys

from schema_lists import Schema
from written_files import settle, told

WIDTH = 132


# ---- as tables


def constants(s, title, rows):
    return f"//! {title}\n" + "".join(f"\n/// {what}.\npub const {name}: u16 = {n};\n" for n, (name, what) in enumerate(rows))


def what_is(s, kind):
    if kind in s.values:
        return f"{kind}: {s.values[kind]}"
    return f"The enumeration {kind}" if kind in s.enumerations else f"What {kind} contains" if kind in s.content else "No content"


def rust_datatype(text):
    word, *numbers = text.split()
    fields = {"bool": [], "bounded": ["least", "count"], "unsigned": ["most"], "signed": ["least", "most"], "binary": ["most"], "text": ["most"]}[word]
    return f"Datatype::{word.capitalize()}" + (" { " + ", ".join(f"{f}: {int(n):_}" for f, n in zip(fields, numbers)) + " }" if fields else "")


def rust_particle(p):
    if len(p.members) == 1:
        standing, name, kind = p.members[0]
        if standing == "OutOfProfile":
            return f"left_out!({name})"
        if p.most is None:
            return f"at_least_one!({p.profile}, {name}, {kind})"
        return f"once!({name}, {kind})" if (p.least, p.most) == (1, 1) else f"perhaps!({name}, {kind})" if p.least == 0 else f"up_to!({p.most}, {name}, {kind})"
    return f"one_of!({p.least}, [{', '.join(f'member!({s}, {n}, {k})' for s, n, k in p.members)}])"


def rust_kind(s, kind):
    if kind in s.values:
        return f"Declaration::Simple({rust_datatype(s.values[kind])})"
    if kind in s.enumerations:
        return f"Declaration::Simple(Datatype::Named {{ count: {len(s.enumerations[kind])} }})"
    attributes, particles = s.content.get(kind, ([], []))
    table = lambda rows, name: f"&{s.upper(kind)}_{name}" if rows else "&[]"
    return f"Declaration::Complex {{ attributes: {table(attributes, 'ATTRIBUTES')}, particles: {table(particles, 'PARTICLES')} }}"


def array(keyword, name, item, rows):
    return f"{keyword} {name}: [{item}; {len(rows)}] = [{', '.join(rows)}];\n\n"


def quoted(text):
    return f'"{text}"'


def tables(s):
    text = TABLES_HEAD % (s.title, s.crate)
    text += array("static", "NAMES", "&'static str", [quoted(it) for it in s.names])
    for kind, values in s.enumerations.items():
        text += array("const", f"{s.upper(kind)}_VALUES", "&'static str", [quoted(it) for it in values])
    text += array("const", "NONE", "&'static str", [])
    text += array("static", "VALUES", "&'static [&'static str]", [f"&{s.upper(it)}_VALUES" if it in s.enumerations else "&NONE" for it in s.kinds])
    text += MACROS
    for kind, (attributes, particles) in s.content.items():
        if attributes:
            rows = [f"AttributeOf {{ name: {n}, kind: {k}, required: {str(r).lower()} }}" for n, k, r in attributes]
            text += array("const", f"{s.upper(kind)}_ATTRIBUTES", "AttributeOf", rows)
        text += array("const", f"{s.upper(kind)}_PARTICLES", "Particle<'static>", [rust_particle(it) for it in particles])
    for part, kinds in s.parts.items():
        text += array("static", part.upper(), "Declaration<'static>", [rust_kind(s, it) for it in kinds])
    text += array("static", "ROOTS", "RootOf", [f"RootOf {{ number: {s.root}, name: V2G_MESSAGE, kind: V2G_MESSAGE_KIND }}"])
    for part in s.parts:
        text += PART % (part, part, part.upper())
    parts = list(s.parts)
    for word, some in (("first", parts[: len(parts) // 2]), ("last", parts[len(parts) // 2 :])):
        puts = "".join(f"    kinds.extend_from_slice({part}())?;\n" for part in some)
        text += PUT % (word, word, " ++ ".join(f"declared.{part}" for part in some), puts)
    return text + TABLES_TAIL.replace("Dialect", s.dialect).replace("TITLE", s.title)


TABLES_HEAD = """//! The declarations of %s as tables.

ghost use Rattle.std.specs.Prelude.{◌≡◌, ◌++◌, IfOk, map};
ghost use Rattle.exi_schema.specs.Plain.{plain_kinds};
ghost use Rattle.exi_schema.specs.Told.{schema_of};
ghost use Rattle.%s.specs.Declarations as declared;

use crate::kinds::*;
use crate::names::*;
use exi_schema::{AttributeOf, Datatype, Declaration, Member, MemberStanding, Particle, RootOf, Schema};
use std::alloc::{AllocError, Global};

"""

MACROS = """/// An element of a particle.
macro_rules! member {
    ($standing:ident, $name:expr, $kind:expr) => {
        Member { name: $name, kind: $kind, standing: MemberStanding::$standing }
    };
}

/// One element, from so many to so many times.
macro_rules! copies {
    ($least:expr, $most:expr, $name:expr, $kind:expr) => {
        Particle { members: &[member!(Taken, $name, $kind)], least: $least, most: Some($most), profile: $most }
    };
}

macro_rules! once {
    ($name:expr, $kind:expr) => { copies!(1, 1, $name, $kind) };
}

macro_rules! perhaps {
    ($name:expr, $kind:expr) => { copies!(0, 1, $name, $kind) };
}

macro_rules! up_to {
    ($most:expr, $name:expr, $kind:expr) => { copies!(1, $most, $name, $kind) };
}

/// One element, once and more, of which so many are accepted.
macro_rules! at_least_one {
    ($profile:expr, $name:expr, $kind:expr) => {
        Particle { members: &[member!(Taken, $name, $kind)], least: 1, most: None, profile: $profile }
    };
}

/// An element that may be there in the standard, and is left out.
macro_rules! left_out {
    ($name:expr) => {
        Particle { members: &[member!(OutOfProfile, $name, EMPTY_KIND)], least: 0, most: Some(1), profile: 1 }
    };
}

/// One of these elements, or with 0 perhaps one.
macro_rules! one_of {
    ($least:expr, $members:expr) => {
        Particle { members: &$members, least: $least, most: Some(1), profile: 1 }
    };
}

"""

PART = """fn %s() -> &'static [Declaration<'static>]
    ensures { plain_kinds result.now ≡ declared.%s }
{
    &%s
}

"""

PUT = """/// Puts the %s parts of the declarations.
fn put_%s(kinds: &mut Vec<Declaration<'static>>) -> Result<(), AllocError>
    ensures { IfOk result (λ _. plain_kinds kinds.new.items ≡ plain_kinds kinds.old.items ++ (%s)) }
{
%s    Ok(())
}

"""

TABLES_TAIL = """fn names() -> &'static [&'static str]
    ensures { map (λ t. t.now) result.now ≡ declared.names }
{
    &NAMES
}

fn values() -> &'static [&'static [&'static str]]
    ensures { map (λ l. map (λ t. t.now) l.now) result.now ≡ declared.values }
{
    &VALUES
}

/// The declarations of TITLE.
#[derive(Drop)]
pub struct DialectSchema {
    kinds: Vec<Declaration<'static>>,
    ghost kinds_are: { plain_kinds kinds.items ≡ declared.kinds },
}

impl DialectSchema {
    /// The declarations, each part behind the other.
    pub fn make(alloc: Global) -> Result<DialectSchema, AllocError> {
        let mut kinds: Vec<Declaration<'static>> = Vec::new(alloc);
        put_first(&mut kinds)?;
        put_last(&mut kinds)?;
        Ok(DialectSchema { kinds })
    }

    /// The schema.
    pub fn schema(&self) -> Schema<'_>
        ensures { schema_of result ≡ declared.schema }
    {
        Schema { kinds: self.kinds.as_slice(), names: names(), values: values(), root_bits: 7, roots: &ROOTS }
    }
}
"""


# ---- as plain declarations


def antt_integer(text):
    return f"(pos {text})" if int(text) >= 0 else f"(negsuc {-int(text) - 1})"


def antt_datatype(text):
    word, *numbers = text.split()
    if word in ("bounded", "signed"):
        numbers = [antt_integer(numbers[0]), numbers[1] if word == "bounded" else antt_integer(numbers[1])]
    return "BoolType" if word == "bool" else f"({' '.join([word.capitalize(), *numbers])})"


def antt_particle(p):
    if len(p.members) == 1:
        standing, name, kind = p.members[0]
        if standing == "OutOfProfile":
            return f"left_out {name} {kind}"
        if p.most is None:
            return f"at_least_one {p.profile} {name} {kind}"
        return f"once {name} {kind}" if (p.least, p.most) == (1, 1) else f"perhaps {name} {kind}" if p.least == 0 else f"up_to {p.most} {name} {kind}"
    members = " ∷ ".join(f"one_of {n} {k}" if s == "Taken" else f"standing {s} {n} {k}" for s, n, k in p.members)
    return f"{'choice' if p.least else 'perhaps_choice'} ({members} ∷ [])"


def antt_kind(s, kind):
    if kind in s.values:
        return f"valued {antt_datatype(s.values[kind])}"
    if kind in s.enumerations:
        return f"valued (Named {len(s.enumerations[kind])})"
    if kind not in s.content:
        return "containing [] []"
    attributes, _ = s.content[kind]
    rows = " ∷ ".join(f"record {{ name = {n}; kind = {k}; required = {str(r).lower()} }}" for n, k, r in attributes)
    return f"containing {f'({rows} ∷ [])' if rows else '[]'} {s.lower(kind)}"


def listed(name, item, rows):
    lines, line = [], "    " + ([*rows, "[]"][0])
    for it in [*rows, "[]"][1:]:
        if len(line) + len(it) + 3 > WIDTH:
            lines, line = [*lines, line], f"    ∷ {it}"
        else:
            line += f" ∷ {it}"
    return f"abbrev pub {name} : List {item}\n{name} =\n" + "\n".join([*lines, line]) + "\n\n"


def used(text, words):
    """Those of the words that stand in a text, as an import lists them."""
    return ", ".join(it for it in words if re.search(rf"(?<![\w]){re.escape(it)}(?![\w])", text))


def with_uses(s, head, body):
    lines = []
    for module, words in (
        ("Rattle.std.specs.Prelude", ["ℕ", "pos", "negsuc", "true", "false", "List", "codes"]),
        ("Rattle.exi_schema.specs.declared.tables.Datatype.TheVariants", ["Named", "Bounded", "Unsigned", "Signed", "Binary", "Text"]),
        ("Rattle.exi_schema.specs.declared.tables.MemberStanding.TheVariants", ["Abstract", "OutOfProfile"]),
        ("Rattle.exi_schema.specs.declared.tables.RootOf", ["RootOf"]),
        ("Rattle.exi_schema.specs.Plain", ["PlainKind", "PlainParticle", "valued", "containing", "one_of", "standing", "once", "perhaps", "up_to", "at_least_one", "left_out", "choice", "perhaps_choice"]),
        (f"Rattle.{s.crate}.specs.declared.names.TheConstants", [s.upper(it) for it in s.names]),
        (f"Rattle.{s.crate}.specs.declared.kinds.TheConstants", [s.kind(it) for it in s.kinds]),
    ):
        words = used(re.sub(r'"[^"]*"', "", body), words)
        if module.endswith("Prelude"):
            words += ", [], ◌∷◌"
        if "BoolType" in body and module.endswith("Datatype.TheVariants"):
            words = "Bool as BoolType, " + words
        if words:
            lines.append(f"use {module}.{{{words}}}")
    return head + "\n".join(lines) + "\n\n" + body.rstrip("\n") + "\n"


def plain(s):
    """The files of definitions: the texts, a file for each part, and the schema."""
    texts = "-- the names, numbered from 0\n" + listed("names", "(List ℕ)", [f'codes "{it}"' for it in s.names])
    texts += "-- ---- the values of the enumerations, each numbered from 0\n\n"
    for kind, values in s.enumerations.items():
        texts += listed(s.lower(kind), "(List ℕ)", [f'codes "{it}"' for it in values])
    files = {"Texts": with_uses(s, f"-- {s.standard}: the texts of names and of enumeration values.\n", texts)}
    for part, kinds in s.parts.items():
        body = ""
        if part != "simple":
            for kind in kinds:
                body += listed(s.lower(kind), "PlainParticle", [antt_particle(it) for it in s.content[kind][1]])
            body += "-- ---- the kinds\n\n"
        body += listed(part, "PlainKind", [antt_kind(s, it) for it in kinds])
        section = s.sections[part][0] if part in s.sections else "8.5, data types without parts"
        files[part.capitalize()] = with_uses(s, f"-- {s.standard} {section}.\n", body)
    body = DECLARATIONS % (
        " ++ ".join(s.parts),
        listed("values", "(List (List ℕ))", [s.lower(it) if it in s.enumerations else "[]" for it in s.kinds]).split("\n", 1)[1],
        s.root,
    )
    uses = f"pub use Rattle.{s.crate}.specs.Texts.{{names}}\n"
    uses += f"use Rattle.{s.crate}.specs.Texts.{{{', '.join(s.lower(it) for it in s.enumerations)}}}\n"
    uses += "".join(f"pub use Rattle.{s.crate}.specs.{part.capitalize()}.{{{part}}}\n" for part in s.parts)
    head = f"-- {s.standard}: the schema of its messages.\n" + DECLARATIONS_USES + uses
    files["Declarations"] = with_uses(s, head, body).replace("codes, ", "").replace("use Rattle.std.specs.Prelude.{", "use Rattle.std.specs.Prelude.{◌≡◌, ◌++◌, refl, length, ")
    files["Lib"] = "".join(f"pub mod {it}\n" for it in files)
    return files


DECLARATIONS_USES = """use Rattle.std.specs.Cmp.Derive.{both_true}
use Rattle.exi_schema.specs.Schemas.{PlainSchema, is_schema, are_kinds, are_roots, are_words, are_values}
"""

DECLARATIONS = """-- the kinds, numbered from 0
abbrev pub kinds : List PlainKind
kinds = %s

-- the texts of the values of each kind
abbrev pub values : List (List (List ℕ))
%s-- a message is the one root, and its document number has 7 bits
abbrev pub roots : List RootOf
roots = record { number = %s; name = V2G_MESSAGE; kind = V2G_MESSAGE_KIND } ∷ []

-- ---- they meet the conditions on a schema

pub kinds_fit : are_kinds (length names) kinds ≡ true
kinds_fit = refl

pub roots_fit : are_roots 7 (length names) kinds roots ≡ true
roots_fit = refl

pub names_fit : are_words names ≡ true
names_fit = refl

pub values_fit : are_values kinds values ≡ true
values_fit = refl

pub schema_fits : is_schema kinds names values 7 roots ≡ true
schema_fits = both_true kinds_fit (both_true roots_fit (both_true names_fit values_fit))

abbrev pub schema : PlainSchema
schema = record { kinds = kinds; names = names; values = values; root_bits = 7; roots = roots; fits = schema_fits }
"""


def written(s):
    """The files of the crate, by their paths."""
    files = {
        "src/names.rt": constants(s, f"The numbers of the names of {s.title}.", [(s.upper(it), it) for it in s.names]),
        "src/kinds.rt": constants(s, f"The numbers of the kinds of {s.title}: values, enumerations, and types of elements with parts.", [(s.kind(it), what_is(s, it)) for it in s.kinds]),
        "src/tables.rt": tables(s),
        **{f"specs/{name}.antt": text for name, text in plain(s).items()},
    }
    return {f"crates/{s.crate}/{name}": text for name, text in files.items()}


def main():
    words = sys.argv[1:]
    checks = words[:1] == ["--check"]
    if len(words[checks:]) != 2:
        sys.exit(__doc__)
    path, crate = words[checks:]
    s = Schema(path)
    s.crate = crate
    settle(written(s), checks, "tools/schema_tables.py")


if __name__ == "__main__":
    told(main)
