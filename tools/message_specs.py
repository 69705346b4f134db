"""The definitions of a dialect's types: ordinals of values, members of groups, and what each type contains, part by part."""
import re


def value_of(t, kind, it):
    """The value of a simple type as documents have it."""
    if kind in t.s.enumerations:
        return f"Ordinal ({t.lower(kind)}_ordinal {it})"
    if t.s.form(kind) == "text":
        return f"text_value {it}"
    if t.s.form(kind) == "binary":
        return f"Bytes (items_of {it}.span)"
    return f"Truth {it}" if t.s.form(kind) == "bool" else f"Number {it}" if t.is_signed(kind) else f"Number (pos {it})"


def inside(t, kind, it):
    """What an element of this kind contains."""
    if t.is_simple(kind):
        return f"Of ({value_of(t, kind, it)})"
    fields = t.inner(kind)
    if any(field.form == "attribute" for field in fields):
        return f"holding_with ({t.lower(kind)}_given {it}) ({t.lower(kind)}_parts {it})"
    return f"holding ({t.lower(kind)}_parts {it})" if fields else "holding []"


def part(t, it):
    at = f"v.{it.field}"
    if it.form == "choice":
        low = t.lower(it.kind)
        return f"perhaps_one (mapped (λ x. ({low}_name x, {low}_inside x)) {at})" if it.optional else f"one ({low}_name {at}) ({low}_inside {at})"
    if it.most:
        return f"each {it.name} (map (λ x. {inside(t, it.kind, 'x')}) {at}.items)"
    return f"perhaps {it.name} (mapped (λ x. {inside(t, it.kind, 'x')}) {at})" if it.optional else f"one {it.name} ({inside(t, it.kind, at)})"


def given(t, it):
    at = f"v.{it.field}"
    return f"perhaps_given {it.name} (mapped (λ x. {value_of(t, it.kind, 'x')}) {at})" if it.optional else f"given {it.name} ({value_of(t, it.kind, at)})"


def listed(rows):
    return "\n    ∷ ".join([*rows, "[]"])


def kind_name(t, it):
    return "EMPTY_KIND" if it.kind in t.s.empty else t.s.kind(it.kind)


def record(t, kind):
    low, name, fields = t.lower(kind), t.camel(kind), t.inner(kind)
    text = ""
    attributes = [it for it in fields if it.form == "attribute"]
    if attributes:
        text += f"abbrev pub {low}_attributes : List AttributeOf\n{low}_attributes = "
        text += " ∷ ".join([f"{'may' if it.optional else 'must'} {it.name} {t.s.kind(it.kind)}" for it in attributes] + ["[]"]) + "\n\n"
        text += f"abbrev pub {low}_given : {name} → List Given\n{low}_given v =\n    {listed([given(t, it) for it in attributes])}\n\n"
    rows = [part(t, it) for it in fields if it.form != "attribute"]
    return text + (f"abbrev pub {low}_parts : {name} → List Part\n{low}_parts v =\n    {listed(rows)}\n\n" if fields else "")


def choice(t, kind):
    low, name, members = t.lower(kind), t.camel(kind), t.choices[kind]
    what = next((f"{group} that hold no long list" for group, it in t.brief.items() if it == kind), f"{kind} in the profile")
    text = f"-- the elements of {what}, with their kinds\nabbrev pub {low}_members : List (ℕ × ℕ)\n"
    text += f"{low}_members =\n    {listed([f'({it.name}, {kind_name(t, it)})' for it in members])}\n\n"
    brief = lambda word: f"{low}_{word} ({low}.Brief x) = {t.lower(t.brief[kind])}_{word} x\n" if kind in t.brief else ""
    text += f"abbrev pub {low}_name : {name} → ℕ\n{brief('name')}"
    text += "".join(f"{low}_name ({low}.{it.variant} x) = {it.name}\n" for it in t.own(kind)) + "\n"
    text += f"abbrev pub {low}_inside : {name} → Inside\n{brief('inside')}"
    return text + "".join(f"{low}_inside ({low}.{it.variant} x) = {inside(t, it.kind, 'x')}\n" for it in t.own(kind)) + "\n"


def ordinals(t, crate, file, kinds):
    lines = [f"-- {t.s.standard} {t.file_sections[crate, file]}: the ordinals of the values of enumerations.", "use Rattle.std.specs.Prelude.{ℕ}"]
    for kind in kinds:
        name = t.camel(kind)
        lines += [f"use Rattle.{crate}.specs.declared.{file}.{name}.{{{name}}}", f"use Rattle.{crate}.specs.declared.{file}.{name}.TheVariants as {t.lower(kind)}"]
    for kind in kinds:
        low = t.lower(kind)
        lines += ["", f"abbrev pub {low}_ordinal : {t.camel(kind)} → ℕ"]
        lines += [f"{low}_ordinal {low}.{t.camel(it)} = {n}" for n, it in enumerate(t.s.enumerations[kind])]
    return "\n".join(lines) + "\n"


def words_of(t, kind):
    low = t.lower(kind)
    if kind in t.s.enumerations:
        return [f"{low}_ordinal"]
    return [f"{low}_name", f"{low}_inside"] if kind in t.choices else [f"{low}_given", f"{low}_parts"]


def definitions(t, crate, file, kinds):
    if kinds[0] in t.s.enumerations:
        return ordinals(t, crate, file, kinds)
    body = "".join(choice(t, it) if it in t.choices else record(t, it) for it in kinds)
    has = lambda word: re.search(rf"(?<![\w.]){word}(?!\w)", re.sub(r"(?m)^--.*$", "", body))
    text = f"-- {t.s.standard} {t.titles(kinds)}: what elements of these types contain, part by part.\n"
    for module, words, always in (
        ("std.specs.Prelude", ["ℕ", "pos", "map"], ["List", "[]", "◌∷◌"]),
        ("exi_bits.specs.Lent", ["items_of"], []),
        ("exi_documents.specs.Trees", ["Truth", "Ordinal", "Number", "Bytes"], []),
        ("exi_schema.specs.declared.tables.AttributeOf", ["AttributeOf"], []),
        ("message_parts.specs.Contents", ["Inside", "Given", "given", "perhaps_given", "Part", "Of", "one", "perhaps", "each", "perhaps_one", "mapped", "holding", "holding_with"], []),
        ("message_parts.specs.Particles", ["must", "may"], []),
        ("message_parts.specs.Texts", ["text_value"], []),
        (f"{t.s.crate}.specs.declared.names.TheConstants", [t.s.upper(it) for it in t.s.names], []),
        (f"{t.s.crate}.specs.declared.kinds.TheConstants", [t.s.kind(it) for it in t.s.kinds], []),
    ):
        found = [it for it in words if has(it)] + always
        text += f"use Rattle.{module}.{{{', '.join(found)}}}\n" if found else ""
    uses = {}
    for it in t.places:
        if it not in kinds:
            uses.setdefault(f"{t.places[it][0]}.specs.{t.places[it][1].capitalize()}", []).extend(word for word in words_of(t, it) if has(word))
    text += "".join(f"use Rattle.{place}.{{{', '.join(words)}}}\n" for place, words in uses.items() if words)
    for it in kinds:
        text += f"use Rattle.{crate}.specs.declared.{file}.{t.camel(it)}.{{{t.camel(it)}}}\n" if it in t.choices or t.inner(it) else ""
        text += f"use Rattle.{crate}.specs.declared.{file}.{t.camel(it)}.TheVariants as {t.lower(it)}\n" if it in t.choices else ""
    return text + "\n" + body.rstrip("\n") + "\n"
