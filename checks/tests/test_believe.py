"""The script that writes docs/BELIEVE.md, in a folder with two made-up crates: it has to see each way in which page and contracts differ."""
import ast
import collections
import contextlib
import io
import pathlib
import re
import sys
import tempfile
import unittest
from unittest import mock

from checks import common
from checks.pages import prose
from checks.proofs import (
    believe, believe_calls, believe_definitions, believe_lines, believe_names, believe_order, believe_text, believe_types,
)
from checks.proofs.believe_calls import Clause, Root

RULES = """-- Rules.
use Rattle.std.specs.Prelude.{ℕ, ◌+◌}

-- twice a number
abbrev pub twice : ℕ → ℕ
twice n = n + n

-- three times a number
abbrev pub thrice : ℕ → ℕ
thrice n = n + n + n
"""
CLAIM = """-- A claim.
use Rattle.std.specs.Prelude.{◌≡◌, ℕ}
use Rattle.mcs_low.specs.Rules.{twice, thrice}
use Rattle.mcs_low.specs.declared.kind.Kind.TheVariants as kind

-- the answer for a kind
abbrev pub IsAnswer : ℕ → ℕ → Type 0
IsAnswer n answer = answer ≡ BODY
"""
KIND = """/// What is asked for.
#[derive(Debug)]
pub enum Kind {
    Small,
}
"""
KINDS = 'use Rattle.mcs_low.specs.declared.kind.Kind.TheVariants as kind'
OTHER = """/// Another type.
pub struct Other;
"""
CALL = """ghost use Rattle.mcs_high.specs.Claim.{IsAnswer};

/// Doubles.
pub fn double(n: u64) -> u64
    requires { n ≤ 9 }
    ensures value { IsAnswer n result }
{
    n + n
}
"""
TRAIT = """ghost use Rattle.std.specs.Prelude.{◌≡◌, ℕ};
ghost use Rattle.mcs_low.specs.Rules.{twice, thrice};

/// Asks for a number.
pub trait Ask {
    ghost twice: { Self → ℕ };
    fn ask(&self, thrice: u64) -> u64
        ensures { result ≡ twice self.now };
}
"""
PAGE = 'Before.\n<!-- part: begins -->\n<!-- part: ends -->\nAfter.\n'
WORDS = {'std.Prelude': {'ℕ': 'a number', '◌+◌': 'sum', '◌≡◌': 'equal'}}
ROOTS = (Root('part', (Clause('mcs_high/src/lib.rt', 'double', 'value', ('IsAnswer',)),)),)
CACHED = (
    believe_definitions.definitions_of, believe_definitions.types_in, believe_names.handed_on_by,
    believe_names.constructors_in, believe_order.floors, believe_text.names_in_file,
)


class Lines(unittest.TestCase):
    def test_no_key_is_given_twice(self) -> None:
        # a dictionary takes the second of two lines, and says nothing
        tables = [node for node in ast.walk(ast.parse(pathlib.Path(believe_lines.__file__).read_text())) if isinstance(node, ast.Dict)]
        keys = [[ast.literal_eval(key) for key in table.keys if key] for table in tables]
        self.assertGreater(sum(map(len, keys)), 400)
        self.assertEqual([key for own in keys for key in set(own) if own.count(key) > 1], [])


    def test_lines_are_plain_english(self) -> None:
        tables = (*believe_lines.SAYS.values(), *believe_lines.WORDS.values())
        lines = [line for table in (*tables, believe_lines.HEADS) for line in table.values()]
        self.assertGreater(len(lines), 300)
        self.assertEqual([(line, broken) for line in lines for one in prose.sentences(line) for broken in prose.rules_broken(one)], [])


class Believe(unittest.TestCase):
    def setUp(self) -> None:
        folder = tempfile.TemporaryDirectory()
        self.addCleanup(folder.cleanup)
        self.top = pathlib.Path(folder.name)
        self.page = self.top / 'BELIEVE.md'
        self.page.write_text(PAGE)
        self.put('crates.txt', 'mcs_low: thiserror\nmcs_high: mcs_low\n')
        self.put('crates/mcs_low/specs/Rules.antt', RULES)
        self.put('crates/mcs_low/src/kind.rt', KIND)
        self.put('crates/mcs_high/src/lib.rt', CALL)
        self.claim('twice n')
        for module, name, value in (
            (believe, 'PAGE', self.page), (believe, 'ROOTS', ROOTS),
            (believe_names, 'CRATES', self.top / 'crates'), (believe_order, 'TOP', self.top),
            (believe_lines, 'WORDS', WORDS), (believe_lines, 'SAYS', {}), (believe_lines, 'PLAIN', {}), (believe_lines, 'HEADS', {}),
        ):
            patched = mock.patch.object(module, name, value)
            patched.start()
            self.addCleanup(patched.stop)

    def put(self, path: str, text: str) -> None:
        (self.top / path).parent.mkdir(parents=True, exist_ok=True)
        (self.top / path).write_text(text)

    def claim(self, body: str) -> None:
        self.put('crates/mcs_high/specs/Claim.antt', CLAIM.replace('BODY', body))

    def run_it(self, *words: str) -> str:
        """What the script says."""
        for cached in CACHED:
            getattr(cached, 'cache_clear')()
        said = io.StringIO()
        with mock.patch.object(sys, 'argv', ['believe.py', *words]), contextlib.redirect_stdout(said), contextlib.suppress(SystemExit):
            believe.main()
        return said.getvalue()

    def assert_fails(self, why: str) -> None:
        said = self.run_it()
        self.assertIn(f'failed: {why}', said)
        self.assertGreater(common.last_tally(said).failed, 0)

    def assert_passes(self, *words: str) -> None:
        said = self.run_it(*words)
        self.assertEqual(common.last_tally(said).failed, 0, said)

    def test_what_is_written_stands_in_order_and_has_no_more(self) -> None:
        self.assert_passes('--write')
        page = self.page.read_text()
        self.assertTrue(page.startswith('Before.\n') and page.endswith('After.\n'))
        self.assertLess(page.index('-- twice a number\ntwice (n : ℕ) : ℕ = n + n\n'), page.index('IsAnswer (n answer : ℕ) : Type 0 = answer ≡ twice n\n'))
        self.assertNotIn('thrice', page)
        call = 'pub fn double(n: u64) -> u64\n    requires { n ≤ 9 }\n    // about this call: result\n    ensures value { IsAnswer n result }'
        self.assertIn(call, page)
        self.assert_passes()

    def test_what_is_cited_is_missed(self) -> None:
        self.run_it('--write')
        self.claim('thrice n')
        self.assert_fails('thrice of crates/mcs_low/specs/Rules.antt is cited, and not in the part part')

    def test_what_is_cited_no_more_is_seen(self) -> None:
        self.run_it('--write')
        self.claim('thrice n')
        self.assert_fails('twice of crates/mcs_low/specs/Rules.antt is in the part part of BELIEVE.md, and not cited')

    def test_a_changed_definition_is_seen(self) -> None:
        self.run_it('--write')
        self.put('crates/mcs_low/specs/Rules.antt', RULES.replace('twice n = n + n', 'twice n = n + n + n'))
        self.assert_fails('the part part of BELIEVE.md is not what checks/proofs/believe.py --write writes')

    def test_a_definition_without_a_line_is_seen(self) -> None:
        self.put('crates/mcs_low/specs/Rules.antt', RULES.replace('-- twice a number\n', ''))
        self.run_it('--write')
        self.assert_fails('nothing says what twice of crates/mcs_low/specs/Rules.antt is')

    def test_a_line_of_the_table_stands_for_the_comment(self) -> None:
        with mock.patch.object(believe_lines, 'SAYS', {'mcs_low/specs/Rules.antt': {'twice': 'the double'}}):
            self.assert_passes('--write')
        self.assertIn('-- the double\ntwice (n : ℕ)', self.page.read_text())

    def test_a_line_of_no_use_is_seen(self) -> None:
        self.run_it('--write')
        with mock.patch.object(believe_lines, 'SAYS', {'mcs_low/specs/Rules.antt': {'thrice': 'the triple'}}):
            self.assert_fails('lines for definitions that nothing cites: thrice of crates/mcs_low/specs/Rules.antt')

    def test_a_line_for_a_file_stands_for_its_own(self) -> None:
        with mock.patch.object(believe_lines, 'HEADS', {'mcs_low/specs/Rules.antt': 'Numbers:\n\n- doubled'}):
            self.assert_passes('--write')
        self.assertIn('### [mcs_low/specs/Rules.antt](../crates/mcs_low/specs/Rules.antt)\n\nNumbers:\n\n- doubled\n\n```', self.page.read_text())

    def test_a_line_for_a_file_of_no_use_is_seen(self) -> None:
        self.run_it('--write')
        with mock.patch.object(believe_lines, 'HEADS', {'mcs_low/specs/Other.antt': 'Others.'}):
            self.assert_fails('lines for files that nothing cites: mcs_low/specs/Other.antt')

    def test_a_word_without_a_line_is_seen(self) -> None:
        self.run_it('--write')
        with mock.patch.object(believe_lines, 'WORDS', {'std.Prelude': {'ℕ': 'a number', '◌≡◌': 'equal'}}):
            self.assert_fails('WORDS of checks/proofs/believe_lines.py does not say what ◌+◌ of std.Prelude is')

    def test_two_modules_have_words_of_one_name(self) -> None:
        self.put('crates/mcs_low/specs/Rules.antt', RULES.replace('use Rattle.std', 'use Rattle.toml.specs.Data.{member}\nuse Rattle.std').replace('twice n = n', 'twice n = member n'))
        self.put('crates/mcs_high/specs/Claim.antt', CLAIM.replace('BODY', 'member (twice n)').replace('use Rattle.std', 'use Rattle.serde_json.specs.Data.{member}\nuse Rattle.std'))
        with mock.patch.object(believe_lines, 'WORDS', {**WORDS, 'serde_json.Data': {'member': 'of JSON'}, 'toml.Data': {'member': 'of TOML'}}):
            self.assert_passes('--write')
        rows = [line for line in self.page.read_text().splitlines() if 'member' in line and line.startswith('|')]
        self.assertEqual(rows, ['| `member` of `serde_json.Data` | of JSON |', '| `member` of `toml.Data` | of TOML |'])

    def test_a_contract_that_cites_something_else_is_seen(self) -> None:
        self.run_it('--write')
        self.put('crates/mcs_high/src/lib.rt', CALL.replace('IsAnswer n result }', 'result ≡ n }'))
        self.assert_fails('the clause value of double in crates/mcs_high/src/lib.rt does not cite IsAnswer')

    def test_a_first_part_that_is_too_long_is_seen(self) -> None:
        # each of the two definitions has a line, and one for its comment
        for most, failed in ((4, 0), (3, 1)):
            with self.subTest(most), mock.patch.object(believe, 'MOST_LINES', most):
                said = self.run_it('--write')
                self.assertEqual(common.last_tally(said).failed, failed)
                self.assertEqual('failed: the part part has 4 lines, more than 3' in said, bool(failed))

    def test_a_page_without_marks_is_seen(self) -> None:
        self.page.write_text('Before.\n')
        self.assert_fails('BELIEVE.md has no marks for the part part')

    def test_a_bound_name_is_not_cited(self) -> None:
        for body in ('let thrice = n in twice thrice', 'map (λ thrice. twice thrice) n'):
            with self.subTest(body):
                self.claim(body)
                self.run_it('--write')
                self.assertNotIn('three times a number', self.page.read_text())

    def test_a_name_is_cited_by_the_value_that_it_is_bound_to(self) -> None:
        self.claim('let thrice = thrice n in twice thrice')
        self.run_it('--write')
        self.assertIn('three times a number', self.page.read_text())

    def test_a_form_of_a_type_is_cited_behind_its_prefix(self) -> None:
        self.claim('twice kind.Small')
        self.assert_passes('--write')
        page = self.page.read_text()
        self.assertIn('| [`Kind`](../crates/mcs_low/src/kind.rt) `Small` | What is asked for. |\n', page)
        self.assertNotIn('derive', page)
        self.assertIn('`kind.` precedes a variant of `Kind`', page)

    def test_a_name_of_two_files_says_which_it_is(self) -> None:
        other = RULES.replace('twice n = n + n', 'twice n = thrice n').replace('-- twice a number', '-- thrice, in fact')
        self.put('crates/mcs_low/specs/Other.antt', other)
        uses = 'use Rattle.mcs_low.specs.Rules.{twice, thrice}'
        for imported, body, own, wanted in (
            ('use Rattle.mcs_low.specs.Rules.{twice}\nuse Rattle.mcs_low.specs.Other.{thrice, twice as other}', 'twice (other n)', '', 'Here `twice` is from'),
            ('use Rattle.mcs_low.specs.Rules as low', 'twice (low.twice n)', '\n-- n\nabbrev pub twice : ℕ → ℕ\ntwice n = n\n', 'Here `low.` precedes a name of `mcs_low/specs/Rules.antt`.\n'),
        ):
            with self.subTest(body):
                self.claim(body)
                text = (self.top / 'crates/mcs_high/specs/Claim.antt').read_text()
                self.put('crates/mcs_high/specs/Claim.antt', text.replace(uses, imported) + own)
                self.assert_passes('--write')
                self.assertIn(f'A claim.\n\n{wanted}', self.page.read_text())

    def test_a_field_of_a_record_is_not_cited(self) -> None:
        for body in ('(record { thrice = twice n }).thrice', 'record { first = n; thrice = twice n }'):
            with self.subTest(body):
                self.claim(body)
                self.assert_passes('--write')
                self.assertNotIn('three times a number', self.page.read_text())

    def test_a_field_of_a_type_is_not_cited(self) -> None:
        # the file's contracts use a definition of this name, which speaks of the type: each would have to stand behind the other
        for fields in ('Small { thrice: u64 },', 'Small {\n        thrice: u64,\n    },'):
            with self.subTest(fields):
                self.put('crates/mcs_low/src/kind.rt', 'ghost use Rattle.mcs_low.specs.Rules.{thrice};\n\n' + KIND.replace('Small,', fields))
                self.put('crates/mcs_low/specs/Rules.antt', RULES.replace('thrice n = n', 'thrice n = kind.Small n').replace('\n\n', '\n' + KINDS + '\n\n', 1))
                self.claim('twice kind.Small')
                self.assert_passes('--write')
                self.assertNotIn('three times a number', self.page.read_text())

    def test_a_name_is_cited_by_how_contracts_see_a_type(self) -> None:
        self.put('crates/mcs_low/src/kind.rt', """ghost use Rattle.mcs_low.specs.Rules.{thrice};

/// What is asked for.
pub struct Kind {
    thrice: u64,
}

impl Model for Kind {
    ghost view = { λ a. thrice a.thrice };
}
""")
        self.claim('twice kind.Small')
        self.assert_passes('--write')
        self.assertIn('three times a number', self.page.read_text())

    def test_what_a_trait_declares_is_not_cited(self) -> None:
        self.put('crates/mcs_low/src/ask.rt', TRAIT)
        self.put('crates/mcs_high/src/lib.rt', CALL.replace('/// D', 'use mcs_low::Ask;\n\n/// D').replace('double(n: u64)', 'double<A: Ask>(n: A)'))
        self.claim('n')
        with mock.patch.object(believe_lines, 'WORDS', {'std.Prelude': {'ℕ': 'a number', '◌≡◌': 'equal'}}):
            self.assert_passes('--write')
        page = self.page.read_text()
        self.assertIn('| [`Ask`](../crates/mcs_low/src/ask.rt) | Asks for a number. |', page)
        self.assertIn('`Ask: fn ask(&self, thrice: u64) -> u64 ensures { result ≡ twice self.now }`', page)
        self.assertNotIn('twice a number', page)
        self.assertNotIn('three times a number', page)

    def test_a_form_is_not_the_type_of_its_name(self) -> None:
        self.put('crates/mcs_low/src/other.rt', OTHER)
        for forms, is_there in (
            ('Other,', False),
            ('Other { n: u64 },', False),
            ('Small,\n    Other(u64),', False),
            ('Other(Other),', True),
            ('Small { one: Other },', True),
        ):
            with self.subTest(forms):
                self.put('crates/mcs_low/src/kind.rt', 'use crate::other::Other;\n\n' + KIND.replace('Small,', forms))
                self.claim('twice kind.Small')
                self.assert_passes('--write')
                self.assertIs('| [`Other`]' in self.page.read_text(), is_there)

    def test_a_type_is_cited_if_its_file_brings_it_in(self) -> None:
        self.put('crates.txt', 'mcs_base: thiserror\nmcs_low: mcs_base\nmcs_high: mcs_low\n')
        self.put('crates/mcs_base/src/other.rt', OTHER)
        # its crate hands on a type of another
        self.put('crates/mcs_low/src/lib.rt', 'pub use mcs_base::{Nothing, Other};\n')
        self.put('crates/mcs_low/src/near.rt', OTHER.replace('Other', 'Near').replace('Another', 'A near'))
        for line, is_there, is_near in (
            ('use crate::{Kind, Other};', True, False),
            ('use super::Other;', True, False),
            ('use mcs_base::Other;', True, False),
            ('use crate::near::{\n    Near, Nearer,\n};', False, True),
            ('use std::other::Other;', False, False),
            ('', False, False),
        ):
            with self.subTest(line):
                self.put('crates/mcs_low/src/kind.rt', f'{line}\n\n' + KIND.replace('Small,', 'Small(Other, Near),'))
                self.claim('twice kind.Small')
                self.assert_passes('--write')
                page = self.page.read_text()
                self.assertIs('| [`Other`]' in page, is_there)
                self.assertIs('| [`Near`]' in page, is_near)

    def test_a_bracket_at_the_edge_ends_a_definition(self) -> None:
        self.put('crates/mcs_high/specs/Claim.antt', CLAIM.replace('answer ≡ BODY', 'answer ≡ record {\n  first = twice n;\n} thrice n'))
        self.assert_passes('--write')
        page = self.page.read_text()
        self.assertIn('answer ≡ record { first = twice n } thrice n\n```', page)
        self.assertIn('three times a number', page)

    def test_a_plain_name_needs_no_line_and_has_none(self) -> None:
        with mock.patch.object(believe_lines, 'PLAIN', {'mcs_low/specs/Rules.antt': ['twice']}):
            self.assert_passes('--write')
        self.assertIn('```\ntwice (n : ℕ)', self.page.read_text())

    def test_a_plain_name_of_no_use_is_seen(self) -> None:
        self.run_it('--write')
        with mock.patch.object(believe_lines, 'PLAIN', {'mcs_low/specs/Rules.antt': ['thrice']}):
            self.assert_fails('lines for definitions that nothing cites: thrice of crates/mcs_low/specs/Rules.antt')

    def test_a_comment_that_repeats_the_name_is_left_out(self) -> None:
        self.put('crates/mcs_low/specs/Rules.antt', RULES.replace('-- twice a number', '-- this one, twice').replace('twice n =', 'twice one =').replace('= n + n\n\n--', '= one + one\n\n--'))
        self.assert_passes('--write')
        self.assertIn('```\ntwice (one : ℕ) : ℕ = one + one\n```', self.page.read_text())

    def test_a_comment_with_a_number_is_kept(self) -> None:
        self.put('crates/mcs_low/specs/Rules.antt', RULES.replace('-- twice a number', '-- 2 of these'))
        self.assert_passes('--write')
        self.assertIn('-- 2 of these\ntwice', self.page.read_text())

    def test_a_line_that_repeats_the_name_is_seen(self) -> None:
        with mock.patch.object(believe_lines, 'SAYS', {'mcs_low/specs/Rules.antt': {'twice': 'twice that'}}):
            self.run_it('--write')
            self.assert_fails('lines that repeat a name, which PLAIN could list: twice of crates/mcs_low/specs/Rules.antt')

    def test_a_type_of_specs_is_a_row(self) -> None:
        self.put('crates/mcs_low/specs/Rules.antt', RULES.replace('-- twice', """-- two numbers
pub record Pair : Type 0 where
  -- The first : one.
  pub one : ℕ
  pub two : List ℕ

-- one number or none
pub data Some : Type 0 where
  Nothing : Some
  This : ℕ → List ℕ → Some

-- holds of small numbers
pub record IsSmall (n : ℕ) : Type 0 where
  pub small : n ≡ 0

-- twice""", 1).replace('twice : ℕ → ℕ', 'twice : Pair → Some → ℕ → IsSmall → ℕ').replace('twice n =', 'twice p s n i ='))
        self.assert_passes('--write')
        page = self.page.read_text()
        for row in (
            '| [`Pair`](../crates/mcs_low/specs/Rules.antt) `{ one: ℕ, two: List ℕ }` | Two numbers. `one`: the first : one. |',
            '| [`Some`](../crates/mcs_low/specs/Rules.antt) `Nothing \\| This(ℕ, List ℕ)` | One number or none. |',
            '-- holds of small numbers\nrecord IsSmall (n : ℕ) : Type 0 where\n  small : n ≡ 0\n',
            'twice (p : Pair) (s : Some) (n : ℕ) (i : IsSmall) : ℕ = n + n\n',
            '3 definitions and 2 types from 2 files: 9 lines.',
        ):
            self.assertIn(row, page)

    def test_a_type_needs_a_line(self) -> None:
        self.put('crates/mcs_low/src/kind.rt', KIND.replace('/// What is asked for.\n', ''))
        self.claim('twice kind.Small')
        with mock.patch.object(believe_lines, 'PLAIN', {'mcs_low/src/kind.rt': ['Kind']}):
            self.run_it('--write')
            self.assert_fails('nothing says what Kind of crates/mcs_low/src/kind.rt is')

    def test_a_comment_that_is_too_wide_is_wrapped(self) -> None:
        words = 'twenty letters here. ' * 5
        self.put('crates/mcs_low/specs/Rules.antt', RULES.replace('-- twice a number', f'-- {words.strip()}'))
        self.assert_passes('--write')
        self.assertIn(f'-- {"twenty letters here. " * 4}twenty\n-- letters here.\ntwice', self.page.read_text())

    def test_a_method_is_a_call(self) -> None:
        self.put('crates/mcs_high/src/lib.rt', """ghost use Rattle.std.specs.Prelude.{◌≡◌, ℕ};
ghost use Rattle.mcs_low.specs.Rules.{twice};
ghost use Rattle.mcs_low.specs.declared.kind.Kind.{Kind as TheKind};

/// Another.
pub struct Other(u64);

/// Counts.
pub struct Counter {
    count: u64,
}

impl Other {
    pub fn double(&self) -> u64
        ensures { result ≡ 0 }
    {
        0
    }
}

impl Counter {
    /// Doubles.
    pub fn double(&mut self, other: &Other) -> u64
        ensures { (kind : TheKind) → result ≡ twice self.old }
    {
        self.count
    }
}
""")
        clause = Clause('mcs_high/src/lib.rt', 'Counter::double', '', ('twice',))
        with mock.patch.object(believe, 'ROOTS', (Root('part', (clause,)),)):
            self.assert_passes('--write')
        page = self.page.read_text()
        self.assertIn('| [`Counter`](../crates/mcs_high/src/lib.rt) `{ count: u64 }` | Counts. |', page)
        self.assertIn('// crates/mcs_high/src/lib.rt\npub fn Counter::double(&mut self, other: &Other) -> u64\n    // about this call: result\n    ensures { (kind : Kind) → result ≡ twice self.old }\n```', page)
        self.assertIn('No clause here speaks of [`Other`](../crates/mcs_high/src/lib.rt).', page)

    def test_a_type_of_which_no_clause_speaks_is_only_named(self) -> None:
        self.put('crates/mcs_high/src/lib.rt', CALL.replace('/// D', 'use mcs_low::kind::{Kind, Other};\n\n/// D').replace('n: u64)', 'n: u64, kind: &Kind)'))
        self.put('crates/mcs_high/src/kind.rt', KIND)
        self.put('crates/mcs_low/src/lib.rt', 'pub use kind::Kind;\n')
        self.assert_passes('--write')
        page = self.page.read_text()
        self.assertIn('```\n\nNo clause here speaks of [`Kind`](../crates/mcs_low/src/kind.rt).\n<!-- part: ends -->', page)
        self.assertNotIn('What is asked for.', page)

    def test_an_invariant_may_be_left_to_the_next_part(self) -> None:
        self.put('crates/mcs_low/src/kind.rt', """ghost use Rattle.mcs_low.specs.Rules.{thrice};

/// What is asked for.
pub struct Kind {
    number: u64,
}

impl Model for Kind {
    ghost view = { λ a. a.number };
    ghost invariant = { λ a. thrice a.number };
}
""")
        self.claim('twice kind.Small')
        self.page.write_text(PAGE + PAGE.replace('part:', 'next:'))
        clauses = ROOTS[0].clauses
        with mock.patch.object(believe, 'ROOTS', (Root('part', clauses, has_invariants=False), Root('next', clauses))):
            self.assert_passes('--write')
        first, _, second = self.page.read_text().partition('<!-- part: ends -->')
        self.assertIn('Each value meets `thrice a.number`.', first)
        self.assertNotIn('three times a number', first)
        self.assertIn('three times a number', second)
        self.assertNotIn('twice a number', second)


class Clauses(unittest.TestCase):
    def test_what_a_clause_speaks_of(self) -> None:
        for part, wanted in (
            ('ensures rows { IfOk result (λ whole. whole.rows ≡ schedule horizon) }', ['whole.rows']),
            ('ensures given { OnOk result (Given S.takes sink.old (schedule horizon) sink.new) }', ['sink.new']),
            ('ensures fault { IfErr result (IsFlowFault sink.old sink.new) }', ['sink.new', 'the fault']),
            ('ensures err { OnErr result (self.new ≡ self.old) }', ['self.new']),
            ('ensures law { OnOk result (Headline horizon (schedule horizon)) }', []),
            ('ensures law { (system : System) → IsWellFormed system → Holds system }', []),
            ('ensures { result ≡ n }', ['result']),
        ):
            with self.subTest(part):
                self.assertEqual(believe_calls.values_in(part), wanted)

    def test_the_head_of_a_call_breaks_between_parameters(self) -> None:
        head = '<R: Threads + Wait + Sync, G: Gate + Sync>(\n    rt: &R,\n    system: Arc<System>,\n    some_longer_name: usize,\n    gate: &mut G,\n) -> Result<(), Fault>\n'
        self.assertEqual(believe_calls.head_text('run', head).splitlines(), [
            'pub fn run<R: Threads + Wait + Sync, G: Gate + Sync>(rt: &R, system: Arc<System>,',
            '    some_longer_name: usize, gate: &mut G) -> Result<(), Fault>',
        ])


    def test_a_head_gives_types_to_what_clauses_speak_of(self) -> None:
        head = '<R: Threads, S: Sink + Sync>(rt: &R, system: Arc<System>, sink: &mut S) -> Result<Whole, Fault>\n'
        for body, wanted in (
            ('ensures { IfOk result (λ whole. whole ≡ f (arc_value system)) }', ['Arc[System]', 'Whole']),
            ('ensures { OnOk result (Given sink.old sink.new) }', ['&mut S', 'Sink + Sync']),
            ('ensures { IfErr result (λ f. f ≡ None) }', ['Fault']),
            ('ensures { result ≡ Ok None }', ['Result<Whole, Fault>']),
            ('ensures { x.system ≡ y }', []),
        ):
            with self.subTest(body):
                self.assertEqual([*believe_calls.spoken_of(head, body)], wanted)

    def test_a_head_without_parameters_gives_none(self) -> None:
        self.assertEqual([*believe_calls.spoken_of('()\n', 'ensures { Holds }')], [])


class Texts(unittest.TestCase):
    def setUp(self) -> None:
        # of the words that files may bring in, `zero` is a pattern, and `item` is not
        names = believe_names.Names({}, {'zero': believe_names.Word('zero', 'std.Prelude')}, {})
        patched = mock.patch.object(believe_text, 'names_in_file', lambda file: names)
        patched.start()
        self.addCleanup(patched.stop)

    def written(self, text: str) -> list[str]:
        place = believe_names.Place('mcs_low/specs/Rules.antt', text.split()[2].removeprefix('pub'))
        definition = believe_definitions.Definition(place, (), tuple(text.splitlines()), (), frozenset(), frozenset())
        return [*believe_text.written(definition)]

    def test_one_clause_has_the_types_of_its_parameters(self) -> None:
        for text, wanted in (
            ('abbrev pub f : ℕ → ℕ → (ℕ → List ℕ) → Bool\nf a item g =\n    g a == item ∷ []', 'f (a item : ℕ) (g : ℕ → List ℕ) : Bool = g a == item ∷ []'),
            ('unfoldable pub f : {A : Type 0} → List A → List A → ℕ\nf xs _ = length xs', 'f {A : Type 0} (xs _ : List A) : ℕ = length xs'),
            ('abbrev f : ℕ → Core → Turn\nf a = says a', 'f (a : ℕ) : Core → Turn = says a'),
            ('abbrev pub f :\n    ℕ\nf = 1', 'f : ℕ = 1'),
            ('abbrev pub f : (A → B) × (B → A) → ℕ\nf p = 0', 'f (p : (A → B) × (B → A)) : ℕ = 0'),
        ):
            with self.subTest(text):
                self.assertEqual(self.written(text), [wanted])

    def test_other_clauses_keep_the_type_apart(self) -> None:
        for text, wanted in (
            ('abbrev pub f : ℕ → ℕ\nf zero = 1', 'f : ℕ → ℕ;  f zero = 1'),
            ('abbrev pub f : (n : ℕ) → Fin n → ℕ\nf m i = m', 'f : (n : ℕ) → Fin n → ℕ;  f m i = m'),
            ('abbrev pub f : ℕ → Fin m\nf m = m', 'f : ℕ → Fin m;  f m = m'),
            ('abbrev pub f : N\nf a = a', 'f : N;  f a = a'),
        ):
            with self.subTest(text):
                self.assertEqual(self.written(text), [wanted])

    def test_neighbours_of_one_value_are_one_clause(self) -> None:
        for clauses, wanted in (
            ('f (One a) n = n\nf (Two b c) n = n\nf Three n = n', 'f (One a | Two b c | Three) n = n'),
            ('f (One a) n = a\nf (Two a) n = a', 'f (One a | Two a) n = a'),
            ('f (Some (One a)) n = 0\nf None n = 0', 'f (Some (One a) | None) n = 0'),
            ('f (Some (One a)) n = 0\nf (Some (Two b c)) n = 0\nf (Some Three) n = 0', 'f (Some (One a | Two b c | Three)) n = 0'),
            ('f (Some (One a)) n = 0\nf (Same (One a)) n = 0', 'f (Some (One a) | Same (One a)) n = 0'),
            ('f ((One a) (Two b)) n = 0\nf None n = 0', 'f ((One a) (Two b) | None) n = 0'),
            # the first value is bound, the second is that of another definition
            ('f (One a) n = a\nf (Two b) n = a', 'f (One a) n = a;  f (Two b) n = a'),
            ('f One m = 0\nf Two n = 0', 'f One m = 0;  f Two n = 0'),
            ('f One n = 0\nf Two n = n\nf Six n = 0', 'f One n = 0;  f Two n = n;  f Six n = 0'),
        ):
            with self.subTest(clauses):
                self.assertEqual(self.written(f'abbrev pub f : A → ℕ → ℕ\n{clauses}'), [f'f : A → ℕ → ℕ;  {wanted}'])

    def test_the_arguments_of_one_clause_fit(self) -> None:
        # with 84 letters the left side of both and ` =` have 100 columns
        for letters, wanted in (
            (84, ['f : A → ℕ', f'f (One {"a" * 84} | Two) =', '    0']),
            (85, ['f : A → ℕ', f'f (One {"a" * 85}) = 0', 'f Two = 0']),
        ):
            with self.subTest(letters):
                self.assertEqual(self.written(f'abbrev pub f : A → ℕ\nf (One {"a" * letters}) = 0\nf Two = 0'), wanted)

    def test_clauses_are_one_line_if_they_fit(self) -> None:
        # the type and both clauses have 41, 29 and 30 columns; between two on a line there are 3
        kind = 'f : List ℕ → List ℕ → List ℕ → List ℕ → ℕ'
        first, second = f'f [] = {"a" * 22}', f'f (x ∷ xs) = {"b" * 17}'
        for more, wanted in (
            (0, [kind, f'{first};  {second}']),
            (38, [kind, f'{first};  {second}{"b" * 38}']),
            (39, [kind, first, f'{second}{"b" * 39}']),
        ):
            with self.subTest(more):
                self.assertEqual(self.written(f'abbrev pub {kind}\n{first}\n{second}{"b" * more}'), wanted)

    def test_a_head_that_is_too_wide_stays_apart(self) -> None:
        kinds = [f'Type{letter}OfManyLetters' for letter in 'ABCD']
        names = ['one', 'two', 'three', 'four']
        self.assertEqual(self.written(f'abbrev pub f : {" → ".join(kinds)} → ℕ\nf {" ".join(names)} = 0'), [
            f'f : {" → ".join(kinds)} → ℕ', 'f one two three four = 0',
        ])

    def test_short_fields_stand_side_by_side(self) -> None:
        # with their names and semicolons these have 40 and 41 columns
        short, long = 'x' * 35, 'x' * 36
        self.assertEqual(self.written(f'abbrev pub f : R\nf =\n    record {{\n      a = {short};\n      b = 2;\n      c = {long};\n      d = 4;\n      e = {long};\n    }}'), [
            'f : R = record {', f'  a = {short}; b = 2;', f'  c = {long};', '  d = 4;', f'  e = {long} }}',
        ])

    def test_a_record_closes_behind_its_last_field_if_it_fits(self) -> None:
        # with two columns before it and ` }` behind it the last field has 100 columns, and 101
        for letters, wanted in ((92, [f'  b = {"y" * 92} }}']), (93, [f'  b = {"y" * 93};', '}'])):
            with self.subTest(letters):
                text = f'abbrev pub f : R\nf =\n    record {{\n      a = {"x" * 40};\n      b = {"y" * letters};\n    }}'
                self.assertEqual(self.written(text), ['f : R = record {', f'  a = {"x" * 40};', *wanted])

    def test_a_record_that_does_not_end_the_value_keeps_its_lines(self) -> None:
        fields = [f'      a = {"x" * 50};', f'      b = {"y" * 50};']
        self.assertEqual(self.written('\n'.join(('abbrev pub f : List R', 'f =', '    record {', *fields, '    } ∷ []'))), [
            'f : List R =', '    record {', *fields, '    } ∷ []',
        ])

    def test_a_record_in_a_record(self) -> None:
        wide = 'x' * 90
        for value, wanted in (
            (f'a = record {{\n        b = {wide};\n        c = 3;\n      }};\n      d = 4;', ['  a = record {', f'    b = {wide};', '    c = 3;', '  };', '  d = 4 }']),
            (f'a = record {{\n        b = 2;\n        c = 3;\n      }};\n      d = {wide};', ['  a = record { b = 2; c = 3 };', f'  d = {wide} }}']),
        ):
            with self.subTest(value):
                self.assertEqual(self.written(f'abbrev pub f : R\nf =\n    record {{\n      {value}\n    }}'), ['f : R = record {', *wanted])

    def test_steps_keep_their_lines(self) -> None:
        for text, wanted in (
            ('abbrev pub f : A → B\nf a = do\n  b ← g a\n  h b', ['f (a : A) : B = do', '  b ← g a', '  h b']),
            ('abbrev pub f : A → B\nf a =\n    let c = a in do\n  b ← g c\n  h b', ['f (a : A) : B =', '    let c = a in do', '  b ← g c', '  h b']),
            ('abbrev pub f : A → B\nf None = c\nf (Some a) = do\n  b ← g a\n  h b', ['f : A → B', 'f None = c', 'f (Some a) = do', '  b ← g a', '  h b']),
        ):
            with self.subTest(text):
                self.assertEqual(self.written(text), wanted)

    def test_a_comment_inside_stays(self) -> None:
        for text, wanted in (
            ('abbrev pub f : ℕ → ℕ\n-- nothing\nf a = 0', ['f : ℕ → ℕ', '-- nothing', 'f a = 0']),
            ('pub record R (n : ℕ) : Type 0 where\n  -- nothing\n  pub none : n ≡ 0', ['record R (n : ℕ) : Type 0 where', '  -- nothing', '  none : n ≡ 0']),
        ):
            with self.subTest(text):
                self.assertEqual(self.written(text), wanted)

    def test_a_choice_begins_behind_its_condition(self) -> None:
        condition, one, other = 'a' * 40, 'b' * 40, 'c' * 40
        self.assertEqual(self.written(f'abbrev pub f : ℕ\nf =\n    if {condition}\n    then {one}\n    else {other}'), [
            'f : ℕ =', f'    if {condition} then {one}', f'    else {other}',
        ])

    def test_lines_and_heads_of_modules_have_no_empty_line_between(self) -> None:
        module, one, two = ['module _ (n : ℕ) where'], ['  f : ℕ = n'], ['  -- twice', '  g : ℕ = n + n']
        self.assertEqual(believe_text.together([['a : ℕ = 1'], ['b : ℕ = 2'], module, one, one, two, one, module, two]).splitlines(), [
            'a : ℕ = 1', 'b : ℕ = 2', '', *module, *one, *one, '', *two, '', *one, '', *module, *two,
        ])

    def test_the_names_of_a_block(self) -> None:
        block = """-- a comment : with a colon
one (n : ℕ) (f : (ℕ → ℕ) → ℕ) : ℕ = f n

two : ℕ → ℕ;  two zero = 1;  two (suc n) = n
infixl 4 ◌>>=◌
◌>>=◌ : A → B → C
a >>= b =
    three : x

module _ (n : ℕ) where
  record IsIt : Type 0 where
    field : n ≡ 1

  four : Type 0 = (k : ℕ) → k ≡ n
"""
        self.assertEqual([*believe_text.names_on_page(block)], ['one', 'two', '◌>>=◌', 'IsIt', 'four'])


class Specs(unittest.TestCase):
    """All definitions of crates/: whatever the rules of the page do, they leave out and add nothing."""

    def definitions(self) -> list[believe_definitions.Definition]:
        crates = believe_names.CRATES
        files = [str(path.relative_to(crates)) for path in sorted(crates.glob('*/specs/**/*.antt'))]
        return [definition for file in files for definition in believe_definitions.definitions_of(file).values()]

    def test_a_definition_has_the_words_of_its_file(self) -> None:
        seen = 0
        for definition in self.definitions():
            code = ' '.join(line for line in definition.lines if not line.lstrip().startswith(('--', 'infix')))
            own = collections.Counter(re.findall(r'\w+', code))
            there = collections.Counter(re.findall(r'\w+', ' '.join(line for line in believe_text.written(definition) if not line.lstrip().startswith(('--', 'infix')))))
            # these words are left out, and parameters, types and values that several clauses share stand once
            self.assertEqual(own.keys() - there.keys() - {'abbrev', 'unfoldable', 'pub'}, set(), definition.place)
            self.assertEqual(there - own, collections.Counter(), definition.place)
            seen += 1
        self.assertGreater(seen, 1000)

    def test_each_value_stands_behind_its_arguments(self) -> None:
        seen = 0
        for definition in self.definitions():
            clauses = [text for text, is_clause in believe_definitions.clauses_of(definition.lines) if is_clause]
            lines = believe_text.written(definition)
            for clause in clauses:
                value = believe_text.sides(clause)[1]
                self.assertIn(f'={squeezed(value)}', squeezed('\n'.join(lines)), definition.place)
                if '←' in value:
                    # a line ends a step; those that a semicolon ends are fields
                    steps = {line.strip() for line in value.splitlines()[1:] if not line.endswith(';')}
                    self.assertLessEqual(steps, {line.strip() for line in lines}, definition.place)
                seen += 1
        self.assertGreater(seen, 1500)

    def test_the_page_names_each_definition(self) -> None:
        for definition in self.definitions():
            block = '\n'.join(believe_text.written(definition))
            self.assertEqual([*believe_text.names_on_page(block)], [definition.place.name])


def squeezed(text: str) -> str:
    """A text without spaces, and without what may separate the last field of a record from its end."""
    return re.sub(r';?}', '}', ''.join(text.split()))


class Types(unittest.TestCase):
    def rows(self, *lines: str) -> list[str]:
        place = believe_names.Place('mcs_low/src/kind.rt', 'Kind')
        return [*believe_types.rows_of(believe_definitions.Definition(place, (), lines, (), frozenset(), frozenset()), 'A kind.')]

    def test_fields_stand_in_the_row_of_their_type(self) -> None:
        row = self.rows('pub struct Kind {', '    /// The first of', '    /// two.', '    pub one: u64,', '    pub two: Vec<A | B>,', '}')
        self.assertEqual(row, ['| [`Kind`](../crates/mcs_low/src/kind.rt) `{ one: u64, two: Vec<A \\| B> }` | A kind. `one`: the first of two. |'])

    def test_a_variant_of_which_something_is_said_has_a_row(self) -> None:
        rows = self.rows('pub enum Kind {', '    /// None of them.', '    Nothing,', '    Some(u64, u8),', '    Named {', '        /// its name', '        name: Name,', '    },', '    More,', '}')
        self.assertEqual(rows, [
            '| [`Kind`](../crates/mcs_low/src/kind.rt) `Some(u64, u8) \\| More` | A kind. |',
            '| `Kind.Nothing` | None of them. |', '| `Kind.Named { name: Name }` | Its name. |',
        ])

    def test_a_view_is_a_sentence(self) -> None:
        rows = self.rows('pub struct Kind(u64);', 'impl Model for Kind {', '    ghost Value = { ℕ };', '    ghost view = { λ a. a.0 };', '    ghost invariant = {', '        λ a. a.0 ≤ 9 };', '}')
        self.assertEqual(rows, ['| [`Kind`](../crates/mcs_low/src/kind.rt) `(u64)` | A kind. Contracts see `ℕ`: `a.0`. Each value meets `a.0 ≤ 9`. |'])

    def test_a_trait_has_rows_for_what_it_promises(self) -> None:
        rows = self.rows('pub trait Kind {', '    ghost takes: { Self → Type 0 };', '    /// Says nothing.', '    fn quiet(&self);', '    /// Takes one.', '    fn one(&self) -> u64', '        ensures { result ≡ 1 };', '}')
        self.assertEqual(rows[1:], [
            '| `Kind: takes: { Self → Type 0 }` | A value for contracts: each type with this trait defines it. |',
            '| `Kind: fn one(&self) -> u64 ensures { result ≡ 1 }` | Takes one. |',
        ])


if __name__ == '__main__':
    unittest.main()
