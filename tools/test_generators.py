#!/usr/bin/env python3
"""Tests of the programs in tools/, on a small schema: which lists they refuse and where, what they write, and when they say that it differs.

usage: test_generators.py"""
import os
import sys
import tempfile
import unittest

sys.path.insert(0, os.path.dirname(os.path.abspath(__file__)))

import crate_tables
import message_types
import schema_tables
import written_files
from message_shapes import Types
from schema_lists import Refused, Schema, listed_types, number_type
from written_files import settle

SCHEMA = """# a small schema
[about]
title: small messages
standard: Small 1
dialect: Small
root: 5

[spelled]
SOC: STATE_OF_CHARGE

[values]
Boolean: bool
Percent: bounded 0 101
Count: unsigned 65535
Offset: signed -5 300
Id: binary 8
Note: text 20

[enumerations]
Unit: V A

[groups]
Body: ^Body !Late Start Stop

[types frame 1.1, frame]
V2G_Message: Head?, <Body>

[types parts 1.2, parts]
Head: @Name Note?, SOC Percent, !Signature?
Start: Unit Unit, Offset Offset *3, Entry +4
Entry: (count Count | note Note)
Stop:
"""
TYPES = """# the types of a small schema
small_parts/codes 1.3: Unit
small_parts/parts: Head EntryValue Entry Start
small_message/message: Body V2G_Message=SmallMessage
"""


class Case(unittest.TestCase):
    def setUp(self):
        folder = tempfile.TemporaryDirectory()
        self.addCleanup(folder.cleanup)
        self.folder = folder.name

    def file(self, name, text):
        path = os.path.join(self.folder, name)
        with open(path, "w", encoding="utf-8") as it:
            it.write(text)
        return path

    def schema(self, text=SCHEMA):
        s = Schema(self.file("small.schema", text))
        s.crate = "small_schema"
        return s

    def types(self, text=TYPES):
        return listed_types(self.file("small.types", text), self.schema())

    def refused(self, work, line, why):
        """The list is refused, at the line where one is given, and the reason has these words."""
        with self.assertRaises(Refused) as refused:
            work()
        place, _, said = str(refused.exception).partition(": ")
        self.assertIn(why, said)
        self.assertTrue(place.endswith(f":{line}" if line else ".schema"), f"{place}: {said}")


class Lists(Case):
    def test_a_schema_is_read(self):
        s = self.schema()
        self.assertEqual(s.kinds, ["Boolean", "Percent", "Count", "Offset", "Id", "Note", "Unit", "Empty", "V2G_Message", "Head", "Start", "Entry"])
        self.assertEqual(s.content["Head"][0], [("NAME", "NOTE_KIND", False)])
        self.assertEqual([(it.members, it.least, it.most, it.profile) for it in s.content["Start"][1]], [
            ([("Taken", "UNIT", "UNIT_KIND")], 1, 1, 1),
            ([("Taken", "OFFSET", "OFFSET_KIND")], 1, 3, 3),
            ([("Taken", "ENTRY", "ENTRY_KIND")], 1, None, 4),
        ])
        self.assertEqual([it for it, _, _ in s.content["V2G_Message"][1][1].members], ["Abstract", "OutOfProfile", "Taken", "Taken"])
        self.assertEqual(s.content["V2G_Message"][1][1].members[3], ("Taken", "STOP", "EMPTY_KIND"))

    def test_a_malformed_schema_is_refused_at_its_line(self):
        for old, new, why in (
            ("[about]\n", "", "before any section"),
            ("root: 5", "root: 128", "7 bits"),
            ("root: 5\n", "", "lacks root"),
            ("dialect: Small", "dialects: Small", "[about] has"),
            ("[values]", "[value]", "a section is"),
            ("[types parts 1.2, parts]", "[types parts]", "a section is"),
            ("[types parts 1.2, parts]", "[types frame 1.2, parts]", "was there before"),
            ("Boolean: bool", "Boolean bool", "a line is"),
            ("Boolean: bool", "Boolean: boolean", "a value is"),
            ("Percent: bounded 0 101", "Percent: bounded 0", "a value is"),
            ("Percent: bounded 0 101", "Percent: bounded 0 5000", "4,096"),
            ("Count: unsigned 65535", "Count: unsigned -1", "greater"),
            ("Count: unsigned 65535", "Count: unsigned 18446744073709551616", "no type of 64 bits"),
            ("Offset: signed -5 300", "Offset: signed 300 -5", "greater"),
            ("Offset: signed -5 300", "Offset: signed -1 9223372036854775808", "no type of 64 bits"),
            ("Id: binary 8", "Id: binary 0", "greatest length"),
            ("Id: binary 8", "Percent: binary 8", "in line 13"),
            ("Unit: V A", "Unit: V V", "each once"),
            ("Unit: V A", "Unit:", "each once"),
            ("Unit: V A", "Unit: V 1", "no name"),
            ("^Body !Late Start Stop", "^Body !Late Stop Start", "in the order"),
            ("^Body !Late Start Stop", "^Body !Late Start Stay Stop", "no kind Stay"),
            ("Head?, <Body>", "Head?, <Bodies>", "no group Bodies"),
            ("Head?, <Body>", "Head?, <Body> *2", "there once, or perhaps"),
            ("Head?, <Body>", "Head?, <Body", "an element is"),
            ("@Name Note?, SOC Percent", "SOC Percent, @Name Note?", "before elements"),
            ("@Name Note?", "@Name Head?", "no value and no enumeration"),
            ("@Name Note?", "@Name", "an attribute is"),
            ("!Signature?", "!Signature", "left out"),
            ("SOC Percent,", "SOC Percent,,", "between two commas"),
            ("SOC Percent,", "SOC Percent, SOC Percent,", "there twice"),
            ("Offset Offset *3", "Offset Offset? *3", "an element is"),
            ("Offset Offset *3", "Offset Offset *0", "a list has"),
            ("Offset Offset *3", "Offset Offsets *3", "no kind Offsets"),
            ("(count Count | note Note)", "(count Count)", "two elements"),
            ("(count Count | note Note)", "(count Count | note Note", "an element is"),
            ("Stop:\n", "Stop:\nStop:\n", "in line"),
        ):
            with self.subTest(new=new or f"without {old}"):
                self.assertEqual(SCHEMA.count(old), 1)
                line = SCHEMA[: SCHEMA.index(old)].count("\n") + 1
                line = {"lacks root": None, "before any section": 2}.get(why, line + (old == "Stop:\n"))
                self.refused(lambda: self.schema(SCHEMA.replace(old, new)), line, why)

    def test_two_names_that_are_spelled_alike_are_refused(self):
        self.refused(lambda: self.schema(SCHEMA.replace("!Signature?", "unit Unit")), None, "[spelled] can tell them apart")

    def test_a_number_has_the_least_type_that_holds_it(self):
        for least, most, wanted in (
            (0, 4, "u8"), (0, 255, "u8"), (0, 256, "u16"), (0, 65535, "u16"), (0, 86400, "u32"), (0, 2**64 - 1, "u64"), (0, 2**64, None),
            (-1, 127, "i8"), (-128, 127, "i8"), (-129, 0, "i16"), (-1, 128, "i16"), (-(2**63), 2**63 - 1, "i64"), (-1, 2**63, None),
        ):
            self.assertEqual(number_type(least, most), wanted)

    def test_types_are_read(self):
        found = [(it.crate, it.file, it.section, [(of.kind, of.renamed) for of in it.kinds]) for it in self.types()]
        self.assertEqual(found[0], ("small_parts", "codes", "1.3", [("Unit", None)]))
        self.assertEqual(found[2], ("small_message", "message", "", [("Body", None), ("V2G_Message", "SmallMessage")]))

    def test_malformed_types_are_refused_at_their_line(self):
        for old, new, line, why in (
            ("small_parts/codes 1.3: Unit", "small_parts/codes: Unit", 2, "a section is given"),
            ("small_parts/codes 1.3: Unit", "small_parts: Unit", 2, "a line is"),
            ("small_parts/codes 1.3: Unit", "small_parts/codes 1.3: Unit Head", 2, "all enumerations"),
            ("Head EntryValue Entry Start", "Head Entry EntryValue Start", 3, "Entry holds EntryValue"),
            ("Head EntryValue Entry Start", "Head EntryValue Entry Begin", 3, "Begin is no type"),
            ("Head EntryValue Entry Start", "Head EntryValue Entry Start Head", 3, "in line 3"),
            ("Head EntryValue Entry Start", "Head EntryValue Entry Start<", 3, "a kind is NAME"),
            ("Body V2G_Message=SmallMessage", "V2G_Message=SmallMessage Body", 4, "V2G_Message holds Body"),
            ("Body V2G_Message=SmallMessage", "Short*<Head> Body V2G_Message", 4, "has to be a group"),
        ):
            with self.subTest(new=new):
                self.refused(lambda: self.types(TYPES.replace(old, new)), line, why)
        with self.assertRaisesRegex(Refused, "V2G_Message is declared in .* and isn't listed"):
            self.types(TYPES.replace(" V2G_Message=SmallMessage", ""))


class Written(Case):
    def test_tables_have_each_declaration(self):
        text = schema_tables.tables(self.schema())
        for wanted in (
            "Declaration::Simple(Datatype::Bounded { least: 0, count: 101 })",
            "Declaration::Simple(Datatype::Signed { least: -5, most: 300 })",
            "Declaration::Simple(Datatype::Named { count: 2 })",
            "[AttributeOf { name: NAME, kind: NOTE_KIND, required: false }]",
            "once!(STATE_OF_CHARGE, PERCENT_KIND), left_out!(SIGNATURE)",
            "once!(UNIT, UNIT_KIND), up_to!(3, OFFSET, OFFSET_KIND), at_least_one!(4, ENTRY, ENTRY_KIND)",
            "[one_of!(1, [member!(Taken, COUNT, COUNT_KIND), member!(Taken, NOTE, NOTE_KIND)])]",
            "perhaps!(HEAD, HEAD_KIND), one_of!(1, [member!(Abstract, BODY, EMPTY_KIND), member!(OutOfProfile, LATE, EMPTY_KIND), "
            "member!(Taken, START, START_KIND), member!(Taken, STOP, EMPTY_KIND)])",
            "RootOf { number: 5, name: V2G_MESSAGE, kind: V2G_MESSAGE_KIND }",
        ):
            self.assertIn(wanted, text)

    def test_definitions_say_the_same(self):
        files = schema_tables.plain(self.schema())
        self.assertIn("valued (Signed (negsuc 4) (pos 300))", files["Simple"])
        self.assertIn("once STATE_OF_CHARGE PERCENT_KIND ∷ left_out SIGNATURE EMPTY_KIND ∷ []", files["Parts"])
        self.assertIn("standing OutOfProfile LATE EMPTY_KIND ∷ one_of START START_KIND", files["Frame"])
        self.assertTrue(files["Parts"].startswith("-- Small 1 1.2, parts.\n"))

    def test_types_have_numbers_texts_and_bounds(self):
        t = Types(self.file("small.schema", SCHEMA), "small_schema", self.file("small.types", TYPES))
        self.assertEqual([(it.field, it.type, it.bound) for it in t.fields("Start")], [
            ("unit", "Unit", ""), ("offset", "ArrayVec<i16, 3>", "1 to 3, each -5 to 300"), ("entry", "ArrayVec<Entry<'a>, 4>", "1 to 4"),
        ])
        self.assertEqual([(it.field, it.type, it.bound) for it in t.fields("Head") if it.form != "out"], [
            ("name", "Option<Text<'a>>", "At most 20 code points"), ("state_of_charge", "u8", "0 to 100"),
        ])
        text = message_types.code(t, "small_parts", "parts", ["Head", "EntryValue", "Entry", "Start"])
        self.assertIn("/// 0 to 100.\n    pub state_of_charge: u8,", text)
        self.assertIn("pub offset: ArrayVec<i16, 3>,", text)

    def test_lists_of_large_types_are_read_where_they_stand(self):
        large = TYPES.replace("Entry Start", "Entry Start*")
        with self.assertRaisesRegex(Refused, "Body holds Start, which is too large to move"):
            Types(self.file("small.schema", SCHEMA), "small_schema", self.file("small.types", large))
        large = large.replace("Body V2G_Message", "Body* V2G_Message*")
        t = Types(self.file("small.schema", SCHEMA), "small_schema", self.file("small.types", large))
        text = message_types.code(t, "small_parts", "parts", ["Head", "EntryValue", "Entry", "Start"])
        self.assertIn("records_here(&mut self.entry, descent, names::ENTRY)?;", text)
        self.assertIn("self.offset = values(descent, names::OFFSET)?;", text)
        self.assertEqual(text.count("*self = whole_record(descent)?;"), 1)

    def test_what_differs_is_named(self):
        files = {"crates/small/src/values.rt": "//! Values.\n\nfn one() -> u8 { 1 }\n"}
        head = os.path.join(self.folder, "crates/small/src/lib.rt")
        os.makedirs(os.path.dirname(head))
        self.file("crates/small/src/lib.rt", "//! Small.\n")
        with self.assertRaisesRegex(Refused, "doesn't name tools/some.py"):
            settle(files, False, "tools/some.py", self.folder)
        self.file("crates/small/src/lib.rt", "//! Small. `tools/some.py` writes it.\n")
        settle(files, True, "tools/some.py", self.folder)
        laid_out = written_files.read(os.path.join(self.folder, "crates/small/src/values.rt"))
        self.assertIn("fn one() -> u8 {\n    1\n}\n", laid_out)
        for old, new in (("{\n    1\n}", "{ 1 }"), ("    1\n", "    1,\n"), ("1", "2"), ("//! Values.", "//! Values")):
            self.file("crates/small/src/values.rt", laid_out.replace(old, new))
            with self.assertRaisesRegex(Refused, "crates/small/src/values.rt"):
                settle(files, True, "tools/some.py", self.folder)

    def test_the_crates_of_tables(self):
        below = crate_tables.next_below({"low": ["kit"], "mid": ["low", "kit"], "high": ["low", "mid"], "top": ["high", "low", "mid"]})
        self.assertEqual(below, {"low": [], "mid": ["low"], "high": ["mid"], "top": ["high"]})


if __name__ == "__main__":
    unittest.main()
