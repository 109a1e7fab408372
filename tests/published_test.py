#!/usr/bin/env python3
"""Tests published.py on a small library in a folder of its own: it passes, and each fault that is put into it is told."""

import contextlib
import io
import pathlib
import sys
import tempfile
import unittest
from unittest import mock

sys.dont_write_bytecode = True

import published

PAGE = "docs/CALLS.md"
CALLS = "crates/demand_2/specs/Calls.antt"
FROM_C = "crates/demand_2/specs/CallsFromC.antt"
ADDITIONS = "crates/ultra_format/specs/Additions.antt"
C = "crates/ultra/src/calls.rt"
UNPUBLISHED = ": public, expected in docs/CALLS.md, or in INNER of published.py"
LIB = "crates/making/src/lib.rt"
ADDS = "crates/making/src/adds.rt"
ADDING = "crates/adding/src/lib.rt"
MEMBERS = "crates/adding/src/members.rt"
ASKING = "crates/asking/src/lib.rt"
ASKED = "crates/asking/specs/Asking.antt"
CURSOR = "crates/asking/src/cursor.rt"
PAYING = "crates/paying/src/lib.rt"
READS, WRITES, EXPORTS = published.PROMISES_ON_PAYLOADS
PARTS, LINES = published.SLICE_TEXTS

FILES = {
    PAGE: """# Library

### Calls from C

| Call | Value | Refusals | Definition |
|---|---|---|---|
| `ultra_look(buf, index, offset)` | where | 1 | `looked` |
| `ultra_add_module` | length | 2 | `added_members` of `module_of` |

### Calls from Rattle

| Call | Source | Its answer is |
|---|---|---|
| `making::begin(buf) -> Result<u32, Refusal>` | making, src/lib.rt | `begun`, with the buffer |
| `making::add_module`, `add_line` | making, src/adds.rt | `added` of `add_module given` .. |
| `making::members::add_module`, `add_line` | adding, src/members.rt | `added_members`: one by one |
| `Cursor::first() -> Cursor` | asking, src/cursor.rt | `cursor_at`: index 0, offset 8 |
| `Cursor::step(self, buf) -> Result<Option<(Header, Cursor)>, Refusal>` | the same | `step_of` |
| `asking::copy(buf, out: &mut [u8]) -> Answer` | asking, src/lib.rt | `copied_to`, with the output |
| `asking::part(buf, index) -> &[u8]` | the same | `PartHandedBack`: the part that `looked` names |
| `asking::line(buf, board) -> &[u8]` | the same | `LineHandedBack`: the line, or the board's text |
| `asking::size(buf) -> u32` | the same | the length of `listing` |

### Calls on Handover payloads

| Call | Source | Its answer is |
|---|---|---|
| `paying::named(buf, index) -> &[u8]` | paying, src/lib.rt | `NameHandedBack`: the part that `recordOf` names |
| `paying::write(buf, run) -> Answer` | the same | `payload_of`, with the buffer |

## More
""",
    CALLS: """-- the calls
use mathlib.Core.Bool.{Bool, true}
use lib.ListN.{length}
use Rattle.ultra_format.specs.Contexts.{Body}
use Rattle.ultra_format.specs.Additions.{Addition, module_of, line_of, line_formed}
use Rattle.asking.specs.Asking.{step_of, copied_to, looked, line_found, listing}
use Rattle.making.specs.Making.{begun, added, added_members}

pub data Members : Type 0 where
  line_members : (text : List ℕ) → Members
  module_members : (kind : ℕ) (name : List ℕ) → Members

abbrev pub members_formed : Members → Bool
members_formed (line_members text) = line_formed text
members_formed (module_members kind name) = true

abbrev pub members_body : Members → Body
members_body (line_members text) = line_of text
members_body (module_members kind name) = module_of kind name

pub data Write : Type 0 where
  -- `making::begin`
  begin : Write
  -- `making::add_module`, `add_line`
  add : Addition → Write
  -- `making::members::add_module`, `add_line`
  add_members : Members → Write

pub data Question : Type 0 where
  -- `Cursor::step`
  step : Cursor → Question
  -- `asking::copy`
  copy : List ℕ → Question
  -- `asking::part`
  ask_part : ℕ → Question
  -- `asking::line`, with the board's text
  ask_line : List ℕ → Question
  -- `asking::size`
  ask_size : Question

pub data Call : Type 0 where
  write : Write → Call
  ask : Question → Call

pub data Reply : Type 0 where
  answer : Answer → Reply
  several : ModulesAdded → Reply
  stepped : Step → Reply
  lent : Part → List ℕ → Reply
  -- with the output
  copied : Answer × List ℕ → Reply
  number : ℕ → Reply

abbrev pub lent_part : List ℕ → Part → Reply
lent_part b p = lent p (bytes_at b p.start p.length)

abbrev pub lent_line : List ℕ → List ℕ → Found → Reply
lent_line b board none = board_text board
lent_line b board (found o a) = lent_part b (body_part o a.body)

abbrev pub answer_and : Answer × List ℕ → Reply × List ℕ
answer_and r = (answer r.0, r.1)

abbrev pub several_and : ModulesAdded × List ℕ → Reply × List ℕ
several_and r = (several r.0, r.1)

unfoldable pub run_write : Write → List ℕ → Reply × List ℕ
run_write begin b = answer_and (begun b)
run_write (add g) b = answer_and (added b g)
run_write (add_members m) b = answer_and (added_members b (members_formed m) (members_body m))

unfoldable pub reply_of : Question → List ℕ → Reply
reply_of (step k) b = stepped (step_of b k)
reply_of (copy out) b =
    copied (copied_to b out) -- over two lines
reply_of (ask_part i) b = lent_part b (looked b i).part
reply_of (ask_line board) b = lent_line b board (line_found b)
reply_of ask_size b = number (length (listing b))

abbrev pub run : Call → List ℕ → Reply × List ℕ
run (write w) b = run_write w b
run (ask q) b = (reply_of q b, b)
""",
    FROM_C: """-- the calls toward C
use mathlib.Core.Bool.{true}
use Rattle.ultra_format.specs.Additions.{module_of}
use Rattle.asking.specs.Asking.{looked, place}
use Rattle.making.specs.Making.{added_members}
use Rattle.ultra.specs.Crossing.{answer_crossed, crossed}

pub data WriteFromC : Type 0 where
  ultra_add_module : (kind : ℕ) (name : List ℕ) → WriteFromC

pub data QuestionFromC : Type 0 where
  ultra_look : (index offset : ℕ) → QuestionFromC

pub data CallFromC : Type 0 where
  write_from_c : WriteFromC → CallFromC
  ask_from_c : QuestionFromC → CallFromC

abbrev pub number_and : ℕ × List ℕ → Reply × List ℕ
number_and r = (number r.0, r.1)

unfoldable pub run_write_from_c : WriteFromC → List ℕ → Reply × List ℕ
run_write_from_c (ultra_add_module kind name) b = number_and (crossed (added_members b true (module_of kind name)))

unfoldable pub reply_from_c : QuestionFromC → List ℕ → Reply
reply_from_c (ultra_look index offset) b = number (answer_crossed (looked b (place index offset)))

abbrev pub run_from_c : CallFromC → List ℕ → Reply × List ℕ
run_from_c (write_from_c w) b = run_write_from_c w b
run_from_c (ask_from_c q) b = (reply_from_c q b, b)
""",
    ADDITIONS: """pub data Addition : Type 0 where
  add_module : ModuleRecord → Addition
  add_line : List ℕ → Addition

abbrev pub other : ℕ
""",
    C: """ghost use Rattle.std.specs.Prelude.{◌≡◌};
ghost use mathlib.Core.Bool.{true};
ghost use Rattle.ultra_format.specs.Additions.{module_of};
ghost use Rattle.asking.specs.Asking.{looked, place};
ghost use Rattle.making.specs.Making.{added_members};
ghost use Rattle.ultra.specs.Crossing.{answer_crossed, crossed};

// fn ultra_look, in a comment
#[unsafe(no_mangle)]
pub extern "C" fn ultra_look(buf: &[u8], index: u32, offset: u32) -> u64
    ensures { result ≡ answer_crossed (looked buf.now (place index offset)) }
{
    0
}

#[unsafe(no_mangle)]
pub extern "C" fn ultra_add_module(
    buf: &mut [u8],
    module_kind: u32,
    name: &[u8],
) -> u64
    ensures { (result, buf.new) ≡ crossed (added_members buf.old true (module_of module_kind name.now)) }
{
    0
}
""",
    ADDING: """pub mod members;
""",
    LIB: """mod adds;

ghost use Rattle.std.specs.Prelude.{◌≡◌};
ghost use Rattle.making.specs.Making.{begun};
pub use adds::add_line;
pub use adding::members;
pub use adds::add_module;

pub fn begin(buf: &mut [u8]) -> Result<u32, Refusal>
    ensures { (result, buf.new) ≡ begun buf.old }
{
    Answer::Done(8)
}
""",
    ADDS: """ghost use Rattle.std.specs.Prelude.{◌≡◌};
ghost use Rattle.ultra_format.specs.Additions.{Addition};
ghost use Rattle.making.specs.Making.{added};

pub fn add_module(buf: &mut [u8], given: ModuleRecord) -> Answer
    ensures { (result, buf.new) ≡ added buf.old (Addition.add_module given) }
{
    Answer::Done(8)
}

pub fn add_line(buf: &mut [u8], text: &[u8]) -> Answer
    ensures { (result, buf.new) ≡ added buf.old (Addition.add_line text.now) }
{
    Answer::Done(8)
}
""",
    MEMBERS: """ghost use Rattle.std.specs.Prelude.{◌≡◌};
ghost use mathlib.Core.Bool.{true};
ghost use Rattle.ultra_format.specs.Additions.{module_of, line_of, line_formed};
ghost use Rattle.making.specs.Making.{added_members};

pub fn add_module(buf: &mut [u8], sort: u32, name: &[u8]) -> Answer
    ensures { (result, buf.new) ≡ added_members buf.old true (module_of sort name.now) }
{
    Answer::Done(8)
}

pub fn add_line(buf: &mut [u8], text: &[u8]) -> Answer
    ensures { (result, buf.new) ≡ added_members buf.old (line_formed text.now) (line_of text.now) }
{
    Answer::Done(8)
}
""",
    ASKED: """use Rattle.lent_buffers.specs.LentParts.{PartOf}
use Rattle.ultra_questions.specs.CommandLineQuestion.{LineOrBoard}

unfoldable pub looked : List ℕ → ℕ → Place
looked b i = placeAt b i

unfoldable pub line_found : List ℕ → Found
line_found b = searched b

abbrev pub PartHandedBack : Bor (List ℕ) → Bor (List ℕ) → ℕ → Type 0
PartHandedBack lent s i = PartOf lent s (looked s.now i).part

abbrev pub LineHandedBack : Bor (List ℕ) → Bor (List ℕ) → Bor (List ℕ) → Type 0
LineHandedBack lent s board = LineOrBoard lent s board (line_found s.now)
""",
    PARTS: """abbrev pub noPart : Part
noPart = part 0 0

-- that part of s
pub record PartOf (r s : Bor (List ℕ)) (p : Part) : Type 0 where
  pub block : r.ref_ptr.0 ≡ s.ref_ptr.0
  pub offset : r.ref_ptr.1 ≡ p.start + s.ref_ptr.1
  pub within : p.start + p.length ≤ length s.now
  pub has : r.now ≡ bytes_at s.now p.start p.length

abbrev pub WholeOf : Bor (List ℕ) → Bor (List ℕ) → Type 0
WholeOf r s = (r.ref_ptr ≡ s.ref_ptr) × (r.now ≡ s.now)
""",
    LINES: """abbrev pub LineOrBoard : Bor (List ℕ) → Bor (List ℕ) → Bor (List ℕ) → Found → Type 0
LineOrBoard lent s board none = WholeOf lent board
LineOrBoard lent s board (found o a) = PartOf lent s (body_part o a.body)
""",
    ASKING: """mod cursor;

ghost use Rattle.std.specs.Prelude.{◌≡◌};
ghost use lib.ListN.{length};
ghost use Rattle.asking.specs.Asking.{copied_to, listing, PartHandedBack, LineHandedBack};
pub use cursor::Cursor;

pub fn copy(buf: &[u8], out: &mut [u8]) -> Answer
    ensures { (result, out.new) ≡ copied_to buf.now out.old }
{
    Answer::Done(0)
}

pub fn part(buf: &[u8], index: u64) -> &[u8]
    ensures { PartHandedBack result buf.entry index }
{
    buf
}

pub fn line<'a>(buf: &'a [u8], board: &'a [u8]) -> &'a [u8]
    ensures { LineHandedBack result buf.entry board.entry }
{
    board
}

pub fn size(buf: &[u8]) -> u32
    ensures { result ≡ length (listing buf.now) }
{
    0
}
""",
    READS: "use Rattle.paying.specs.Paying.{NameHandedBack}\n",
    WRITES: "use Rattle.paying.specs.Paying.{payload_of}\n",
    EXPORTS: "use Rattle.paying.specs.Paying.{payload_of}\n",
    PAYING: """ghost use Rattle.std.specs.Prelude.{◌≡◌};
ghost use Rattle.paying.specs.Paying.{payload_of, other, NameHandedBack, MetaHandedBack};

pub fn named(buf: &[u8], index: u64) -> &[u8]
    ensures { NameHandedBack result buf.entry index }
{
    buf
}

pub fn write(buf: &mut [u8], run: &[u8]) -> Answer
    ensures { (result, buf.new) ≡ payload_of buf.old run.now }
{
    Answer::Done(0)
}
""",
    CURSOR: """ghost use Rattle.std.specs.Prelude.{◌≡◌};
ghost use Rattle.ultra_stepping.specs.Stepping.{cursor_at};
ghost use Rattle.asking.specs.Asking.{step_of};

impl Cursor {
    pub fn first() -> Self
        ensures { result ≡ cursor_at 0 8 }
    {
        Self
    }

    pub fn step(self, buf: &[u8]) -> Result<Option<(Header, Cursor)>, Refusal>
        ensures { result ≡ step_of buf.now self }
    {
        Step::End
    }
}
""",
}


class Case(unittest.TestCase):
    def setUp(self):
        folder = tempfile.TemporaryDirectory()
        self.addCleanup(folder.cleanup)
        self.root = pathlib.Path(folder.name)
        self.restore()

    def restore(self):
        for path, text in FILES.items():
            place = self.root / path
            place.parent.mkdir(parents=True, exist_ok=True)
            place.write_text(text, encoding="utf-8")

    def change(self, path, old, new):
        text = (self.root / path).read_text(encoding="utf-8")
        self.assertEqual(text.count(old), 1, old)
        (self.root / path).write_text(text.replace(old, new), encoding="utf-8")

    def told(self, *expected):
        """The problems are these, and no others."""
        self.assertEqual(published.problems(self.root), list(expected))
        self.restore()


class Contracts(Case):
    def test_a_good_tree(self):
        self.told()

    def test_requires(self):
        self.change(ASKING, "    ensures { result ≡ length", "    requires { 8 ≤ length buf.now }\n    ensures { result ≡ length")
        self.told("asking::size, crates/asking/src/lib.rt: has `requires`, `ensures`, expected one `ensures` and no `requires`")

    def test_no_contract(self):
        self.change(ASKING, "    ensures { result ≡ length (listing buf.now) }\n", "")
        self.told("asking::size, crates/asking/src/lib.rt: has no clause, expected one `ensures` and no `requires`")

    def test_two_contracts(self):
        self.change(CURSOR, "        ensures { result ≡ cursor_at", "        ensures same { result ≡ result }\n        ensures first { result ≡ cursor_at")
        self.told("Cursor::first, crates/asking/src/cursor.rt: has `ensures`, `ensures`, expected one `ensures` and no `requires`")

    def test_another_definition(self):
        self.change(CURSOR, "≡ step_of buf", "≡ look_of buf")
        self.told(f"Cursor::step, {CURSOR}: contract has `look_of buf self`, expected `step_of buf self` (reply_of, {CALLS})")
        self.change(ADDS, "Addition.add_line", "Addition.add_module")
        self.told(f"making::add_line, {ADDS}: contract has `added buf (add_module text)`, expected `added buf (add_line text)` (run_write, {CALLS})")
        self.change(CURSOR, "cursor_at 0 8", "cursor_at 8 8")
        self.told(f"Cursor::first, {CURSOR}: contract has `cursor_at 8 8`, expected `cursor_at 0 8` (document 01)")

    def test_one_half(self):
        self.change(LIB, "(result, buf.new) ≡ begun buf.old", "result ≡ (begun buf.old).0")
        self.told(f"making::begin, {LIB}: ensures `result ≡ (begun buf.old).0`, expected `(result, buf.new) ≡ ..`")
        self.change(ASKING, "(result, out.new) ≡", "out.new ≡")
        self.told(f"asking::copy, {ASKING}: ensures `out.new ≡ copied_to buf.now out.old`, "
                  "expected `(result, out.new) ≡ ..`")

    def test_the_buffer_afterwards(self):
        self.change(LIB, "begun buf.old", "begun buf.new")
        self.told(f"making::begin, {LIB}: contract has `begun buf.new`, expected `begun buf` (run_write, {CALLS})")

    def test_more_than_an_equation(self):
        for sign in "⊎∨×→≤∗":
            self.change(CURSOR, "buf.now self", f"buf.now self {sign} x")
            self.told(f"Cursor::step, {CURSOR}: `{sign}` in `result ≡ step_of buf.now self {sign} x`, expected names and parentheses alone")
        self.change(CURSOR, "buf.now self", "buf.now self ≡ x")
        self.told(f"Cursor::step, {CURSOR}: ensures `result ≡ step_of buf.now self ≡ x`, expected `result ≡ ..`")
        self.change(CURSOR, "buf.now self", "(buf.now self")
        self.told(f"Cursor::step, {CURSOR}: parentheses that do not close in `result ≡ step_of (buf.now self`")
        self.change(CURSOR, "ensures { result ≡ step_of", "ensures* { result ≡ step_of")
        self.told(f"Cursor::step, {CURSOR}: has `ensures*`, expected one `ensures` and no `requires`")

    def test_parameters_exchanged(self):
        self.change(C, "place index offset", "place offset index")
        self.told(f"ultra_look, {C}: contract has `answer_crossed (looked buf (place offset index))`, "
                  f"expected `answer_crossed (looked buf (place index offset))` (reply_from_c, {FROM_C})")
        self.change(C, "index: u32, offset: u32", "offset: u32, index: u32")
        self.told(f"ultra_look, {C}: contract has `answer_crossed (looked buf (place index offset))`, "
                  f"expected `answer_crossed (looked buf (place offset index))` (reply_from_c, {FROM_C})")
        self.change(MEMBERS, "module_of sort name.now", "module_of name.now sort")
        self.told(f"making::members::add_module, {MEMBERS}: contract has `added_members buf true (module_of name sort)`, "
                  f"expected `added_members buf true (module_of sort name)` (run_write, {CALLS})")

    def test_a_part(self):
        self.change(ASKED, "i).part", "i)")
        self.told(f"asking::part, {ASKING}: contract has `looked buf index`, expected `(looked buf index).part` (reply_of, {CALLS})")
        self.change(ASKED, "PartOf lent s (looked s.now i).part", "LineOrBoard lent s (looked s.now i).part")
        self.told(f"asking::part, {ASKING}: contract of the form `LineOrBoard result buf.entry .. (..)`, "
                  f"expected `PartOf result buf.entry .. (..)` (reply_of, {CALLS})")
        self.change(ASKING, "PartHandedBack result buf.entry index", "result ≡ (looked buf.now index).part")
        self.told(f"asking::part, {ASKING}: docs/CALLS.md names `PartHandedBack` first, expected `looked`",
                  f"asking::part, {ASKING}: contract of the form `an equation that leaves buf as it is`, "
                  f"expected `PartOf result buf.entry .. (..)` (reply_of, {CALLS})")

    def test_a_part_of_either(self):
        self.change(ASKED, "LineOrBoard lent s board (line_found", "LineOrBoard lent s board (looked_for")
        self.told(f"asking::line, {ASKING}: contract has `board (looked_for buf)`, expected `board (line_found buf)` (reply_of, {CALLS})")
        self.change(ASKED, "LineOrBoard lent s board (line_found s.now)", "LineOrBoard lent board s (line_found s.now)")
        other = "expected one equation, `PartOf lent s .. (..)` or `LineOrBoard lent s .. (..)`"
        self.told(f"asking::line, {ASKING}: {ASKED}: `LineHandedBack`, {other}")
        self.change(ASKED, "LineOrBoard lent s board (line_found", "WholeOf lent board (line_found")
        self.told(f"asking::line, {ASKING}: {ASKED}: `LineHandedBack`, {other}")
        self.change(ASKED, "LineHandedBack lent s board =", "LineHandedBack lent s =")
        self.told(f"asking::line, {ASKING}: {ASKED}: `LineHandedBack`, {other}")
        self.change(ASKED, "(line_found s.now)\n", "(line_found s.now)\nLineHandedBack lent s other = LineOrBoard lent s other (line_found s.now)\n")
        self.told(f"asking::line, {ASKING}: {ASKED}: `LineHandedBack`, {other}")

    def test_what_is_handed_back_of(self):
        self.change(ASKING, "LineHandedBack result buf.entry board.entry", "LineHandedBack result board.entry buf.entry")
        self.told(f"asking::line, {ASKING}: contract has `LineHandedBack result board.entry buf.entry`, "
                  "expected `LineHandedBack result buf.entry board.entry`")
        self.change(ASKING, "PartHandedBack result buf.entry index", "PartHandedBack result buf.entry")
        self.told(f"asking::part, {ASKING}: contract has `PartHandedBack result buf.entry`, expected `PartHandedBack result buf.entry index`")

    def test_a_relation_that_says_less(self):
        part, whole = (text[0] for text in published.SLICE_TEXTS[PARTS].values())
        self.change(PARTS, "(r.ref_ptr ≡ s.ref_ptr) × (r.now ≡ s.now)", "r.now ≡ s.now")
        self.told(f"{PARTS}: `WholeOf` is `WholeOf r s = r.now ≡ s.now`, expected `{whole}`")
        self.change(PARTS, "  pub block : r.ref_ptr.0 ≡ s.ref_ptr.0\n", "")
        less = part.replace("  pub block : r.ref_ptr.0 ≡ s.ref_ptr.0\n", "")
        self.told(f"{PARTS}: `PartOf` is `{less}`, expected `{part}`")
        none, found = published.SLICE_TEXTS[LINES]["LineOrBoard"]
        self.change(LINES, "none = WholeOf lent board", "none = WholeOf lent s")
        self.told(f"{LINES}: `LineOrBoard` is `LineOrBoard lent s board none = WholeOf lent s / {found}`, expected `{none} / {found}`")

    def test_another_relation(self):
        self.change(ASKED, "Rattle.lent_buffers.specs.LentParts.{PartOf}", "lib.Weak.{PartOf}")
        self.told(f"asking::part, {ASKING}: PartOf is lib.Weak.PartOf, expected Rattle.lent_buffers.specs.LentParts.PartOf")
        self.change(ASKING, "Rattle.asking.specs.Asking.{copied_to, listing, PartHandedBack, LineHandedBack}",
                    "Rattle.asking.specs.Asking.{copied_to, listing, PartHandedBack};\nghost use lib.Weak.{LineHandedBack}")
        self.told(f"asking::line, {ASKING}: lib.Weak.LineHandedBack, expected a definition of a crate's specs")


class Names(Case):
    def test_imported_from_elsewhere(self):
        self.change(LIB, "specs.Making.{begun}", "specs.Weak.{begun}")
        self.told(f"making::begin, {LIB}: contract has Rattle.making.specs.Weak.begun, expected Rattle.making.specs.Making.begun (run_write, {CALLS})")

    def test_imported_under_another_name(self):
        self.change(LIB, "{begun}", "{kept as begun}")
        self.told(f"making::begin, {LIB}: contract has Rattle.making.specs.Making.kept, expected Rattle.making.specs.Making.begun (run_write, {CALLS})")

    def test_imported_twice_or_not(self):
        self.change(LIB, "{begun};", "{begun};\nghost use lib.Weak.{begun};")
        self.told(f"making::begin, {LIB}: `begun` is imported twice, as Rattle.making.specs.Making.begun and as lib.Weak.begun")
        self.change(LIB, "{begun}", "{other}")
        self.told(f"making::begin, {LIB}: `begun` comes from no `use`, expected one")

    def test_another_equality(self):
        self.change(LIB, "Rattle.std.specs.Prelude.{◌≡◌}", "lib.Weak.{◌≡◌}")
        self.told(f"making::begin, {LIB}: ≡ is lib.Weak.◌≡◌, expected Rattle.std.specs.Prelude.◌≡◌")

    def test_a_parameter_that_hides(self):
        self.change(ASKING, "out: &mut [u8]", "copied_to: &mut [u8]")
        self.change(ASKING, "(result, out.new)", "(result, copied_to.new)")
        self.change(ASKING, "out.old", "copied_to.old")
        self.told(f"asking::copy, {ASKING}: contract has `copied_to buf copied_to`, where a parameter hides a definition")
        self.change(ASKING, "index: u64", "result: u64")
        self.told(f"asking::part, {ASKING}: parameters buf, result, expected one `&mut` at most, and none named result")
        self.change(CURSOR, "self, buf: &[u8]", "self, buffer: &[u8]")
        self.told(f"Cursor::step, {CURSOR}: parameters self, buffer, expected buf")

    def test_the_heading(self):
        self.change(ASKING, "out: &mut [u8]", "out: &mut [u8], more: &mut [u8]")
        self.change(CALLS, "reply_of (copy out) b", "reply_of (copy out more) b")
        self.told(f"asking::copy, {ASKING}: parameters buf, out, more, expected one `&mut` at most, and none named result")
        self.change(ASKING, "index: u64", "(index, more): (u64, u64)")
        self.told(f"asking::part, {ASKING}: a parameter `buf: &[u8], (index, more): (u64, u64)`, expected a name and a type, or self")
        self.change(ASKING, "pub fn size(buf: &[u8]) -> u32\n", "pub fn size(buf: &[u8]) -> u32 // long\n")
        self.told(f"asking::size, {ASKING}: a heading of another form than `fn name(..) -> type ensures {{ .. }}`")

    def test_the_function(self):
        self.change(CURSOR, "    pub fn step", "    fn step")
        self.told(f"Cursor::step, {CURSOR}: `fn step`, expected `pub fn step(..)` in a file without block comments")
        self.change(ASKING, "pub fn size", "pub fn sizes")
        self.told(f"asking::size, {ASKING}: found 0 times, expected once", "asking::sizes" + UNPUBLISHED)
        self.change(ASKING, "pub fn size", "fn size() {}\n\npub fn size")
        self.told(f"asking::size, {ASKING}: found 2 times, expected once")
        self.change(LIB, "pub use adds::add_line;", "pub use others::add_line;")
        self.told(f"making::add_line, {ADDS}: lib.rt does not pass it on under this path, expected a `pub use` or `pub mod`")
        self.change(ASKING, "pub use cursor::Cursor;", "pub use others::Cursor;")
        self.told(*(f"Cursor::{name}, {CURSOR}: lib.rt does not pass it on under this path, expected a `pub use` or `pub mod`"
                    for name in ("first", "step")))

    def test_a_function_of_another_crate(self):
        unpassed = [f"making::members::{name}, {MEMBERS}: lib.rt does not pass it on under this path, expected a `pub use` or `pub mod`"
                    for name in ("add_module", "add_line")]
        self.change(LIB, "pub use adding::members;", "pub use others::members;")
        self.told(*unpassed)
        self.change(ADDING, "pub mod members;", "mod members;")
        self.told(*unpassed)
        self.change(PAGE, "making, src/lib.rt", "adding, src/lib.rt")
        self.change(ADDING, "pub mod members;", FILES[LIB].replace("·specs", "") + "pub mod members;")
        self.told(f"making::begin, {ADDING}: lib.rt does not pass it on under this path, expected a `pub use` or `pub mod`")
        self.change(PAGE, "making, src/lib.rt", "adding, src/lib.rt")
        self.change(ADDING, "pub mod members;", FILES[LIB].replace("·specs", "") + "pub mod members;")
        self.change(LIB, "pub use adding::members;", "pub use adding::begin;\npub use adding::members;")
        self.told()


class Demand2(Case):
    def test_a_case_that_is_not_run(self):
        self.change(CALLS, "reply_of (step k) b = stepped (step_of b k)\n", "")
        self.told(f"Cursor::step, {CURSOR}: `reply_of` of `step`, {CALLS}: 0 equations, expected one, of a call and a buffer")

    def test_an_equation_for_no_case(self):
        self.change(CALLS, "reply_of ask_size b =", "reply_of k b =")
        self.told(f"asking::size, {ASKING}: `reply_of` of `ask_size`, {CALLS}: 0 equations, expected one, of a call and a buffer",
                  f"{CALLS}: `reply_of` has an equation for `k`, expected a case")

    def test_a_call_that_no_case_names(self):
        self.change(CALLS, "`making::add_module`, `add_line`", "`making::add_module`")
        self.told(f"making::add_line, {ADDS}: 0 cases of demand 2 name it, expected one",
                  f"{ADDITIONS}: `Addition.add_line` stands for no call, expected one")

    def test_a_call_that_two_cases_name(self):
        self.change(CALLS, "  -- `asking::part`", "  -- `asking::part`, `size`")
        self.told(f"asking::size, {ASKING}: 2 cases of demand 2 name it, expected one")

    def test_a_case_for_no_published_call(self):
        self.change(CALLS, "  ask_size : Question\n", "  ask_size : Question\n  ask_more : Question\n")
        self.told(f"{CALLS}: case `ask_more` stands for no call, expected calls that docs/CALLS.md publishes")
        self.change(PAGE, "| `asking::size(buf) -> u32` | the same | the length of `listing` |\n", "")
        self.told(f"{CALLS}: case `ask_size` stands for asking::size, expected calls that docs/CALLS.md publishes", "asking::size" + UNPUBLISHED)
        self.change(FROM_C, "  ultra_look :", "  ultra_more : QuestionFromC\n  ultra_look :")
        self.told(f"{FROM_C}: case `ultra_more` stands for ultra_more, expected calls that docs/CALLS.md publishes")

    def test_another_buffer_handed_back(self):
        written, kept = "run (write w) b = run_write w b", "run (ask q) b = (reply_of q b, b)"
        self.change(CALLS, "(reply_of q b, b)", "(reply_of q b, zeroed b)")
        self.told(f"demand_2: `{written}`, `run (ask q) b = (reply_of q b, zeroed b)`, expected `{written}`, `{kept}`")
        self.change(CALLS, "(reply_of q b, b)", "(reply_of q b, [])")
        self.told(f"demand_2: `{written}`, `run (ask q) b = (reply_of q b, [])`, expected `{written}`, `{kept}`")
        self.change(CALLS, "run (ask q) b", "run (ask read) b = (reading (looked b), [])\nrun (ask q) b")
        self.told(f"demand_2: `{written}`, `run (ask read) b = (reading (looked b), [])`, `{kept}`, expected `{written}`, `{kept}`")
        written, kept = "run_from_c (write_from_c w) b = run_write_from_c w b", "run_from_c (ask_from_c q) b = (reply_from_c q b, b)"
        self.change(FROM_C, written, "run_from_c (write_from_c w) b = (run_write_from_c w b.0, b)")
        self.told(f"demand_2: `run_from_c (write_from_c w) b = (run_write_from_c w b.0, b)`, `{kept}`, expected `{written}`, `{kept}`")

    def test_writing_and_reading(self):
        self.change(CALLS, "  -- `making::begin`\n  begin : Write\n", "")
        self.change(CALLS, "run_write begin b = answer_and (begun b)\n", "")
        self.change(CALLS, "  ask_size : Question\n", "  ask_size : Question\n  -- `making::begin`\n  begin : Question\n")
        self.change(CALLS, "reply_of ask_size b", "reply_of begin b = copied (begun b)\nreply_of ask_size b")
        self.told(f"making::begin, {LIB}: contract of the form `(result, buf.new) ≡ ..`, "
                  f"expected `an equation that leaves buf as it is` (reply_of, {CALLS})")
        self.change(CALLS, "  -- `asking::copy`\n  copy : List ℕ → Question\n", "")
        self.change(CALLS, "reply_of (copy out) b =\n    copied (copied_to b out) -- over two lines\n", "")
        self.change(CALLS, "  begin : Write\n", "  begin : Write\n  -- `asking::copy`\n  copy : List ℕ → Write\n")
        self.change(CALLS, "run_write begin b", "run_write (copy out) b = answer_and (copied_to b out)\nrun_write begin b")
        self.told(f"asking::copy, {ASKING}: contract of the form `an equation that leaves buf as it is`, "
                  f"expected `(result, buf.new) ≡ ..` (run_write, {CALLS})")

    def test_what_hands_on(self):
        self.change(CALLS, "stepped (step_of", "constant (step_of")
        self.told(f"Cursor::step, {CURSOR}: `reply_of` of `step`, {CALLS}: the reply `constant (step_of b k)`, "
                  "expected a case of Reply with one term, or `lent_part b ..` or `lent_line b ..`")
        self.change(CALLS, "(answer r.0, r.1)", "(answer r.0, [])")
        self.told("demand_2: `answer_and r = (answer r.0, [])`, expected `answer_and r = (answer r.0, r.1)`")
        self.change(CALLS, "lent_line b board none = board_text board", "lent_line b board none = board_text b")
        rest = "lent_line b board (found o a) = lent_part b (body_part o a.body)"
        self.told(f"demand_2: `lent_line b board none = board_text b`, `{rest}`, expected `lent_line b board none = board_text board`, `{rest}`")
        self.change(CALLS, "(several r.0, r.1)", "(several r.0, [])")
        self.told("demand_2: `several_and r = (several r.0, [])`, expected `several_and r = (several r.0, r.1)`")

    def test_what_cannot_be_read(self):
        self.change(CALLS, "reply_of ask_size b = number (length (listing b))", "reply_of ask_size b = length (listing b)")
        self.told(f"asking::size, {ASKING}: `reply_of` of `ask_size`, {CALLS}: the reply `length (listing b)`, "
                  "expected a case of Reply with one term, or `lent_part b ..` or `lent_line b ..`")
        self.change(CALLS, "number (length (listing b))", "(number (length (listing b)), b)")
        self.told(f"asking::size, {ASKING}: `reply_of` of `ask_size`, {CALLS}: the reply `number (length (listing b)), b`, "
                  "expected a case of Reply with one term, or `lent_part b ..` or `lent_line b ..`")
        self.change(CALLS, "stepped (step_of b k)", "[]")
        self.told(f"Cursor::step, {CURSOR}: `reply_of` of `step`, {CALLS}: `[` in `[]`, expected names and parentheses alone")
        self.change(CALLS, "answer_and (begun b)", "(answer (begun b.0), b)")
        self.told(f"making::begin, {LIB}: `run_write` of `begin`, {CALLS}: `answer (begun b.0), b`, expected `answer_and (..)`, "
                  "`several_and (..)` or `number_and (..)`")
        self.change(CALLS, "members_formed (line_members text) = line_formed text", "members_formed (line_members text)")
        broken = f"{CALLS}: `members_formed (line_members text)`, expected an equation"
        self.told(*(f"making::members::{name}, {MEMBERS}: {broken}" for name in ("add_module", "add_line")))
        (self.root / ADDITIONS).unlink()
        self.told(f"{ADDITIONS}: no cases of data Addition")

    def test_members(self):
        self.change(CALLS, "= module_of kind name", "= module_of name kind")
        self.told(f"making::members::add_module, {MEMBERS}: contract has `added_members buf true (module_of sort name)`, "
                  f"expected `added_members buf true (module_of name sort)` (run_write, {CALLS})")
        self.change(CALLS, "members_formed (module_members kind name) = true\n", "")
        self.told(f"making::members::add_module, {MEMBERS}: no equation of `members_formed` for `module_members sort name`, {CALLS}")

    def test_the_number_of_parameters(self):
        self.change(CURSOR, "self, buf: &[u8]", "self, buf: &[u8], more: u32")
        self.told(f"Cursor::step, {CURSOR}: 2 parameters beside buf, expected 1 as in `step`, {CALLS}")


class Payloads(Case):
    def test_a_requires(self):
        self.change(PAYING, "-> Answer\n", "-> Answer\n    requires { ⌜ run ⌝ }\n")
        self.told(f"paying::write, {PAYING}: has `requires`, `ensures`, expected one `ensures` and no `requires`")

    def test_parameters_left_out_or_exchanged(self):
        self.change(PAYING, "≡ payload_of buf.old run.now", "≡ payload_of run.now buf.old")
        self.told(f"paying::write, {PAYING}: contract has `payload_of run buf`, expected `payload_of buf run`")
        self.change(PAYING, "NameHandedBack result buf.entry index", "NameHandedBack result buf.entry")
        self.told(f"paying::named, {PAYING}: contract has `NameHandedBack result buf.entry`, expected `NameHandedBack result buf.entry index`")

    def test_a_definition_that_no_promise_speaks_of(self):
        self.change(PAYING, "≡ payload_of buf", "≡ other buf")
        self.told(f"paying::write, {PAYING}: docs/CALLS.md names `payload_of` first, expected `other`",
                  f"paying::write, {PAYING}: no promise on payloads speaks of `other`")
        self.change(READS, "Rattle.paying", "Rattle.elsewhere")
        self.told(f"paying::named, {PAYING}: no promise on payloads speaks of `NameHandedBack`")

    def test_another_part(self):
        self.change(PAYING, "NameHandedBack result buf.entry index", "MetaHandedBack result buf.entry index")
        self.told(f"paying::named, {PAYING}: docs/CALLS.md names `NameHandedBack` first, expected `MetaHandedBack`",
                  f"paying::named, {PAYING}: no promise on payloads speaks of `MetaHandedBack`")


class Page(Case):
    def test_another_definition(self):
        self.change(PAGE, "| `step_of` |", "| `look_of` |")
        self.told(f"Cursor::step, {CURSOR}: docs/CALLS.md names `look_of` first, expected `step_of`")
        self.change(PAGE, "| 2 | `added_members` of `module_of` |", "| 2 | `crossed` |")
        self.told(f"ultra_add_module, {C}: docs/CALLS.md names `crossed` first, expected `added_members`")
        self.change(PAGE, "the length of `listing`", "the length")
        self.told(f"asking::size, {ASKING}: docs/CALLS.md names `nothing` first, expected `listing`")

    def test_a_public_function_that_is_not_there(self):
        more = ("pub use adds::add_line;", "pub use adds::add_line;\npub use adds::add_more;\npub use adds::More;")
        self.change(LIB, *more)
        self.told("making::add_more" + UNPUBLISHED)
        self.change(LIB, "pub use adds::add_line;", "pub use adds::{add_line, add_more, More};")
        self.told("making::add_more" + UNPUBLISHED)
        with mock.patch.object(published, "INNER", {"making::add_more", "elsewhere::room"}):
            self.change(LIB, *more)
            self.told()
            self.told("making::add_more: in INNER of published.py, expected a public function")

    def test_an_exported_function_that_is_not_there(self):
        self.change(C, "// fn ultra_look, in a comment", '#[unsafe(no_mangle)]\npub extern "C" fn ultra_more() -> u64\n{\n    0\n}\n')
        self.told(f"ultra_more, {C}: exported, expected in docs/CALLS.md")

    def test_a_call_twice(self):
        self.change(PAGE, "`making::add_module`, `add_line`", "`making::add_module`, `add_line`, `add_line`")
        self.told("making::add_line: in docs/CALLS.md 2 times, expected once")

    def test_no_table(self):
        self.change(PAGE, "### Calls from Rattle", "### Others")
        self.told("docs/CALLS.md: no table below `Calls from Rattle`, or a row of fewer than 3 cells")


class Main(Case):
    def run_main(self):
        said = io.StringIO()
        with contextlib.redirect_stdout(said):
            status = published.main([str(self.root)])
        return status, said.getvalue()

    def test_status(self):
        line = "published: 15 calls, each an equation with the definition that docs/CALLS.md and a promise name\n"
        self.assertEqual(self.run_main(), (0, line))
        self.change(CURSOR, "cursor_at 0 8", "cursor_at 1 8")
        self.assertEqual(self.run_main()[0], 1)


if __name__ == "__main__":
    unittest.main()
