"""Tests of tools/make-definitions: what has a row, and that a page which isn't as it is made, or lacks what it has to say, is told."""

from shared import RoomTest, loaded, ran

make_definitions = loaded("make-definitions")

SPECS = """-- What a number is
-- good for.
use Rattle.std.specs.Prelude.{ℕ, Bool}

-- Whether a number is even, that is, 0 | 2 | 4 and so on.
abbrev pub is_even : ℕ → Bool
is_even n = n % 2 == 0

-- ---- pairs

-- two numbers
pub record Pair : Type 0 where
  -- the first
  pub first : ℕ

-- RFC 1: their sum
unfoldable pub sum_of : Pair → ℕ
sum_of p = p.first

abbrev pub helper : ℕ
helper = 2

-- an own word
abbrev pub own_word : ℕ
own_word = 3

mine : ℕ
mine = 4
"""

LIB = """mod low;
pub mod laws;

pub use low::{Low, shown_one};
"""

LOW = """ghost use Rattle.low.specs.Small.{is_even, Pair as Two, own_word, sum_of};
ghost use Rattle.low.specs.Small as small;

// ensures { own_word }
pub struct Low;
pub(crate) struct Deep;

impl Low {
    pub fn get(&self) -> u64
        requires given { is_even self.now { own } }
        ensures { result ≡ 2 }
    {
        private(helper)
    }

    fn hidden(&self)
        ensures { own_word ≡ 3 }
    {}
}

impl Model for Low {
    ghost Value = { Two };
}

impl Deep {
    pub fn get(&self)
        ensures { own_word ≡ 3 }
    {}
}

pub fn not_shown()
    ensures { own_word ≡ 3 }
{}
"""

LAWS = """ghost use Rattle.low.specs.Small as small;

pub fn a_law()
    ensures { (p : small.Pair) → small.sum_of p ≡ 0 }
{}
"""

TEXT = """# Words

@files low Small
@why Pair sum_of: two are enough

`Low` is `low`'s own type.
"""

TABLE = """# Words

| Name | What it says | Why it is right |
|---|---|---|
| **[Small](../crates/low/specs/Small.antt)** | *What a number is good for.* Beside these: `helper`, `own_word` | |
| `is_even` | whether a number is even, that is, 0 \\| 2 \\| 4 and so on | |
| `Pair`, `sum_of` | two numbers<br>RFC 1: their sum | two are enough |

`Low` is `low`'s own type.
"""


class Definitions(RoomTest):
    def setUp(self):
        super().setUp()
        self.put("crates/low/specs/Lib.antt", "pub mod Small\n")
        self.put("crates/low/specs/Small.antt", SPECS)
        self.put("crates/low/src/lib.rt", LIB)
        self.put("crates/low/src/low.rt", LOW)
        self.put("crates/low/src/laws.rt", LAWS)
        self.put("tools/definitions.txt", TEXT)
        self.put("docs/DEFINITIONS.md", TABLE)

    def put(self, path, text):
        (self.room / path).parent.mkdir(parents=True, exist_ok=True)
        (self.room / path).write_text(text, encoding="utf-8")

    def change(self, path, old, new):
        text = (self.room / path).read_text(encoding="utf-8")
        self.assertEqual(text.count(old), 1, old)
        self.put(path, text.replace(old, new))

    def made(self):
        """Makes the page, and then checks it."""
        self.assertEqual(make_definitions.main([], self.room), 0)
        return list(make_definitions.faults(self.room))

    def test_a_page_that_is_as_it_is_made_passes(self):
        self.assertEqual(self.made(), [])
        self.assertEqual((self.room / "docs/DEFINITIONS.md").read_text(encoding="utf-8"), TABLE)

    def test_words_of_public_contracts_alone_count(self):
        words = {name for _, name in make_definitions.contract_words(self.room)}
        self.assertEqual(words, {"is_even", "Pair", "sum_of"})

    def test_a_page_that_was_changed_by_hand_is_told(self):
        self.change("docs/DEFINITIONS.md", "two are enough", "two are too few")
        self.assertEqual(list(make_definitions.faults(self.room)), ["docs/DEFINITIONS.md: not as tools/make-definitions makes it"])

    def test_a_comment_that_changed_is_told(self):
        self.change("crates/low/specs/Small.antt", "-- two numbers\n", "-- a pair\n")
        self.assertEqual(list(make_definitions.faults(self.room)), ["docs/DEFINITIONS.md: not as tools/make-definitions makes it"])

    def test_a_word_of_a_contract_without_a_comment_is_told(self):
        self.change("crates/low/src/laws.rt", "small.sum_of p ≡ 0", "small.sum_of p ≡ small.helper")
        self.assertEqual(self.made(), ["crates/low/specs/Small.antt: no comment above helper, which has a row"])

    def test_a_word_of_a_contract_that_is_missing_is_told(self):
        self.put("tools/definitions.txt", "# Words\n")
        missing = "docs/DEFINITIONS.md: {} of crates/low/specs/Small.antt is missing, which a public contract names"
        self.assertEqual(self.made(), ["crates/low/specs/Small.antt: it is 0 times in tools/definitions.txt",
                                       *(missing.format(name) for name in ("Pair", "is_even", "sum_of"))])

    def test_a_file_that_is_there_twice_is_told(self):
        self.change("tools/definitions.txt", "# Words\n", "# Words\n\n@files low Small\n")
        self.assertEqual(self.made(), ["crates/low/specs/Small.antt: it is 2 times in tools/definitions.txt"])

    def test_a_file_without_a_comment_at_its_head_is_told(self):
        self.change("crates/low/specs/Small.antt", "-- What a number is\n-- good for.\n", "")
        self.assertEqual(self.made(), ["crates/low/specs/Small.antt: no comment at its head"])

    def test_a_name_that_is_gone_is_told(self):
        self.change("tools/definitions.txt", "two are enough", "as `old_name` says, and `own_word`")
        self.assertEqual(self.made(), ["docs/DEFINITIONS.md: no definition and no code has the name old_name"])

    def test_a_row_of_a_definition_that_is_gone_is_refused(self):
        self.change("tools/definitions.txt", "@why Pair sum_of", "@why Pair old_sum")
        with self.assertRaisesRegex(make_definitions.Fault, "0 of these files have the definition old_sum"):
            make_definitions.Page(self.room)

    def test_a_definition_has_one_row(self):
        self.change("tools/definitions.txt", "@why Pair", "@row Pair\n@why Pair")
        with self.assertRaisesRegex(make_definitions.Fault, "Pair has two rows"):
            make_definitions.Page(self.room)

    def test_a_file_that_is_gone_is_refused(self):
        self.change("tools/definitions.txt", "@files low Small", "@files low Small Old")
        with self.assertRaisesRegex(make_definitions.Fault, "there is no file crates/low/specs/Old.antt"):
            make_definitions.Page(self.room)

    def test_wrong_words_are_refused(self):
        status, _, said = ran(make_definitions.main, ["--chek"], self.room)
        self.assertEqual(status, 64)
        self.assertIn("make-definitions [--check]", said)

    def test_a_refusal_ends_with_status_1(self):
        self.put("tools/definitions.txt", "@row Pair\n")
        said = "tools/definitions.txt: no table stands before @row Pair\n"
        self.assertEqual(ran(make_definitions.main, ["--check"], self.room)[:2], (1, said))
