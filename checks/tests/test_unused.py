"""What unused.py takes for unused, on a made-up checkout."""
from __future__ import annotations

import contextlib
import io
import pathlib
import tempfile
import unittest

from checks.common import Tally
from checks.proofs import unused
from checks.proofs.unused import Item

LOW = '''//! A crate. `spare` is named here, and "called()" in a text.
mod inner;
pub use inner::{called, spare, given, Kept, law_of_all, law_on_a_page, law_that_is_called};

pub const fn by_path() -> u64 { 1 }
pub(crate) fn inside() {}
'''
INNER = '''/// Calls `spare()`.
pub fn called() { let text = "spare"; law_that_is_called(); }
pub fn spare(rt: &impl Print)
    ensures { result ≡ 1 }
{
    print(rt);
}
pub fn given() {}
pub fn law_of_all()
    ensures { IsAll }
{}
pub fn law_on_a_page()
    ensures first { IsOnce }
    ensures { IsStated }
{}
pub fn law_that_is_called()
    ensures { IsCalled }
{}
impl Kept {
    pub fn put(&mut self) {}
    pub fn unput(&mut self) {}
}
'''
HIGH = '''use mcs_low::{called, inner::{given as taken}};
fn main() { let kept = mcs_low::by_path(); kept.put(); }
'''
LEMMAS = '''-- spare-lemma is named here
use Rattle.std.specs.Prelude.{nat}

pub imported : A → B
imported a = b

pub by-path : A
by-path = a

pub in-its-file : A
in-its-file = a

pub spare-lemma : A →
    B
spare-lemma x = spare-lemma x
spare-lemma y = in-its-file

module _ (a : A) where
  pub qualified : B
  qualified = a

pub record Told : Type 0 where
  pub field-of-a-record : A

own : A
own = a
'''


class Unused(unittest.TestCase):
    def setUp(self) -> None:
        folder = tempfile.TemporaryDirectory()
        self.addCleanup(folder.cleanup)
        self.top = pathlib.Path(folder.name)
        self.write('crates.txt', 'mcs_low:\nmcs_mid: mcs_low\nmcs_high: mcs_low mcs_mid\nmcs_tests_low: mcs_low\n')
        self.write('README.md', 'A page.')
        self.write('docs/PROVED.md', 'It is `IsStated`.')
        self.write('include/low.h', 'int for_c(void);')
        self.write('crates/mcs_low/src/lib.rt', LOW)
        self.write('crates/mcs_low/src/inner.rt', INNER)
        self.write('crates/mcs_low/specs/laws/All.antt', 'pub IsAll : Type 0\nIsAll = A\nabbrev IsStated : Type 0\nIsStated = A\n')
        self.write('crates/mcs_high/src/main.rt', HIGH)

    def write(self, place: str, text: str) -> None:
        path = self.top / place
        path.parent.mkdir(parents=True, exist_ok=True)
        path.write_text(text)

    def found(self) -> list[str]:
        return [f'{item.crate} {item.kind} {item.name}' for item in unused.unused(unused.Sources(self.top))]

    def test_functions_and_laws(self) -> None:
        self.assertEqual(sorted(self.found()), ['mcs_low function spare', 'mcs_low function unput', 'mcs_low law law_of_all'])

    def test_a_crate_that_does_not_stand_on_it_reaches_nothing(self) -> None:
        self.write('crates/mcs_high/src/main.rt', 'fn main() { mcs_mid::spare(); }')
        self.write('crates.txt', 'mcs_low:\nmcs_high: mcs_mid\n')
        self.assertIn('mcs_low function called', self.found())
        self.assertIn('mcs_low function spare', self.found())

    def test_what_a_crate_hands_on_is_reached_through_it(self) -> None:
        self.write('crates.txt', 'mcs_low:\nmcs_mid: mcs_low\nmcs_high: mcs_mid\n')
        self.write('crates/mcs_high/src/main.rt', 'fn main() { kept.unput(); }')
        self.write('crates/mcs_mid/src/lib.rt', 'use mcs_low::Kept;\n')
        self.assertIn('mcs_low function unput', self.found())
        self.write('crates/mcs_mid/src/lib.rt', 'pub use mcs_low::Kept;\n')
        self.assertNotIn('mcs_low function unput', self.found())

    def test_a_test_crate_reaches_and_is_left_out(self) -> None:
        self.write('crates/mcs_tests_low/src/lib.rt', 'pub fn helper() { mcs_low::spare(); kept.unput(); }')
        self.assertEqual(self.found(), ['mcs_low law law_of_all'])

    def test_the_header_reaches(self) -> None:
        self.write('crates/mcs_mid/src/lib.rt', 'pub extern "C" fn for_c() {}\npub extern "C" fn for_none() {}')
        self.assertIn('mcs_mid function for_none', self.found())
        self.assertNotIn('mcs_mid function for_c', self.found())

    def lemmas(self) -> list[str]:
        return [name for name in self.found() if 'lemma' in name]

    def test_lemmas(self) -> None:
        self.write('crates/mcs_low/proofs/Facts.antt', LEMMAS)
        spare = ['mcs_low lemma Facts.imported', 'mcs_low lemma Facts.by-path', 'mcs_low lemma Facts.spare-lemma', 'mcs_low lemma Facts.qualified']
        self.assertEqual(self.lemmas(), spare)
        self.write('crates/mcs_high/proofs/inner/Answers.antt', 'use Rattle.mcs_low.proofs.Facts.{\n  imported}\nuse Rattle.mcs_low.proofs.Facts as facts\n'
                   'pub returns : goal.returns\nreturns = facts.qualified imported\n')
        self.assertEqual(self.lemmas(), [spare[1], spare[2]])

    def test_a_source_names_a_lemma_by_its_path(self) -> None:
        self.write('crates/mcs_low/proofs/deep/Facts.antt', 'pub steps : A\nsteps = a\n')
        self.assertEqual(self.lemmas(), ['mcs_low lemma deep/Facts.steps'])
        self.write('crates/mcs_low/src/inner.rt', f'#[tactic(auto, using(crate::proofs::deep::Facts::steps))]\n{INNER}')
        self.assertEqual(self.lemmas(), [])

    def test_worked_values_and_answers_are_left_out(self) -> None:
        for place in ('mcs_low/proofs/WorkedRows.antt', 'mcs_worked/proofs/Rows.antt', 'mcs_low/proofs/inner/Answers.antt', 'mcs_low/proofs/inner/Invariants.antt'):
            self.write(f'crates/{place}', 'pub rows : A\nrows = refl\n')
        self.assertEqual(self.lemmas(), [])

    def test_each_has_a_reason_and_each_reason_is_of_one(self) -> None:
        one, other, gone = Item('mcs_low', 'law', 'one'), Item('mcs_low', 'law', 'other'), Item('mcs_low', 'lemma', 'Gone.it')
        with contextlib.redirect_stdout(io.StringIO()) as out:
            count = unused.judged([one, other], {one: 'a law', gone: 'a lemma'})
        self.assertEqual(count.tally, Tally(1, 2))
        self.assertEqual(out.getvalue().splitlines(), [
            'failed: mcs_low: nothing uses the law other, and checks/proofs/unused.csv has no reason for it',
            'failed: mcs_low: the lemma Gone.it is used, or gone: checks/proofs/unused.csv has a reason for it'])

    def test_the_table_is_read(self) -> None:
        self.write('unused.csv', 'crate,kind,name,reason\nmcs_low,law,one,"a law, for readers"\n')
        self.assertEqual(unused.read(self.top / 'unused.csv'), {Item('mcs_low', 'law', 'one'): 'a law, for readers'})


if __name__ == '__main__':
    unittest.main()
