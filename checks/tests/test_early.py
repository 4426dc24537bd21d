"""Which functions early.py takes for those that may wait, and what it finds in files of definitions and proofs."""
import pathlib
import tempfile
import unittest

from checks.proofs import early

SOURCE = '''use std::sync::{Arc, Wait};
fn by_bound<R: Threads + Wait + Sync>(rt: &R) { if true { inner(); } }
fn by_impl(rt: &impl Wait) -> u64;
fn by_several(rt: &(impl Print + Wait))
    requires waits { Waits }
{}
fn by_where<R>(rt: &R) where R: Wait {}
fn of_a_clause(rt: &impl Print)
    ensures { Wait }
{}
fn of_another_name(rt: &impl Waits) {}
struct Team<R: Wait> { rt: R }
impl<R: Wait> Gate for Team<R> {
    fn in_a_block(&self) { if true {} }
    fn in_it_too(&self) {}
}
fn after_the_block() {}
impl Team<Print> {
    fn in_another(&self) {}
}
'''


class Waiting(unittest.TestCase):
    def test_bounds_of_functions_and_of_their_blocks(self) -> None:
        self.assertEqual(early.waiting(SOURCE), ['by_bound', 'by_impl', 'by_several', 'by_where', 'in_a_block', 'in_it_too'])


class Logic(unittest.TestCase):
    """Findings in texts of the prover's language."""

    def setUp(self) -> None:
        folder = tempfile.TemporaryDirectory()
        self.addCleanup(folder.cleanup)
        self.crates = pathlib.Path(folder.name)
        self.put('low/specs/Lib.antt', 'mod Sets\n')
        self.put('low/specs/Sets.antt', 'pub join : List ℕ\njoin = []\n\npub module Parts where\n  first-part : ℕ\n')
        self.put('high/specs/Lib.antt', 'pub use Rattle.low.specs.Sets\n')

    def put(self, name: str, text: str) -> None:
        file = self.crates / name
        file.parent.mkdir(parents=True, exist_ok=True)
        file.write_text(text, encoding='utf-8')

    def wrong(self, line: str) -> list[str]:
        return [*early.wrong_imports(f'{line}\n', self.crates)]

    def test_a_module_with_nothing_but_comments_in_it(self) -> None:
        text = 'module _ (a : ℕ) where\n  -- a comment\n\nmodule _ (b : ℕ) where\n  b-is : ℕ\n  module _ where\n\n  c : ℕ\n'
        self.assertEqual([*early.empty_modules(text)], [1, 6])

    def test_imports_that_are_there(self) -> None:
        for line in (
            'use Rattle.low.specs.Sets.{join as joined, ◌++◌}',
            'use Rattle.low.specs.Sets.Parts.{first-part}',
            'use Rattle.high.specs.Sets.{join}',
            'use Rattle.std.specs.Prelude.{anything}',
            'use Rattle.low.specs.declared.set.Set.{Set}',
        ):
            with self.subTest(line):
                self.assertEqual(self.wrong(line), [])

    def test_imports_that_are_not_there(self) -> None:
        self.assertEqual(self.wrong('use Rattle.low.specs.Sets.{join, joins}'), ['it imports joins of low.specs.Sets, which does not have it'])
        self.assertEqual(self.wrong('pub use Rattle.low.proofs.Sets.{join}'), ['it imports low.proofs.Sets, which has no file'])

    def test_what_is_built_beside_a_crate_is_not_read(self) -> None:
        self.put('low/out/specs/Other.antt', 'mod None\n')
        self.assertEqual([file.name for file in early.logic_of(str(self.crates / 'low'))], ['Lib.antt', 'Sets.antt'])


if __name__ == '__main__':
    unittest.main()
