"""Tests of proved.py: what a contract has, and what a page cites."""
from __future__ import annotations

import contextlib
import io
import pathlib
import tempfile
import unittest

from checks import common
from checks.pages import proved

SOURCE = '''
/// One of no type.
pub fn alone(a: u64) -> u64
    requires { a < 4 }
    ensures { result ≡ a }
{
    a
}

fn bare() -> u64 {
    4
}

impl<S: Append> Desk<S> {
    /// Of a type with parameters.
    pub fn settle<T: Sink<Row>>(
        &mut self,
        done: Done<T>,
    ) -> Result<(), (Fault, Done<T>)>
        requires some { true }
        ensures ok { OnOk result
            (self.new ≡ self.old) }
        ensures err { OnErr result () }
    {
        Ok(())
    }
}

impl fmt::Display for Fault {
    ghost output = { text };

    fn fmt<W: fmt::Write>(&self, f: &mut fmt::Formatter<W>) -> fmt::Result {
        f.write_str("no")
    }
}

/// A law.
pub fn law()
    ensures turns { A }
    ensures schedules { B }
{}
'''


class Contracts(unittest.TestCase):
    def setUp(self) -> None:
        self.found = {contract.function: contract for contract in proved.contracts_in(SOURCE)}

    def test_functions_have_the_type_that_they_are_of(self) -> None:
        self.assertEqual(list(self.found), ['alone', 'bare', 'Desk::settle', 'Fault::fmt', 'law'])

    def test_clauses_are_those_of_what_is_ensured(self) -> None:
        clauses = {name: contract.clauses for name, contract in self.found.items()}
        self.assertEqual(clauses, {'alone': ('',), 'bare': (), 'Desk::settle': ('ok', 'err'), 'Fault::fmt': (), 'law': ('turns', 'schedules')})

    def test_a_ghost_of_the_block_is_one_too(self) -> None:
        self.assertTrue(proved.has(self.found['Fault::fmt'], ('output',)))
        self.assertFalse(proved.has(self.found['Desk::settle'], ('output',)))

    def test_without_names_there_is_one_clause_without_a_name(self) -> None:
        self.assertEqual([proved.has(self.found[name], ()) for name in ('alone', 'bare', 'law')], [True, False, False])

    def test_the_type_of_a_block(self) -> None:
        blocks = {'impl Tick {': 'Tick', "impl<S> Sink for Counted<'_, S> where S: Sink {": 'Counted', 'pub trait Relay: Sync {': 'Relay',
                  'impl<T: Fn(u64) -> Vec<u8>> From<io::Error> for io::Fault {': 'Fault'}
        self.assertEqual({line: proved.type_of(line) for line in blocks}, blocks)


class InFolder(unittest.TestCase):
    def setUp(self) -> None:
        room = tempfile.TemporaryDirectory()
        self.addCleanup(room.cleanup)
        self.top = pathlib.Path(room.name)
        source = self.top / 'crates' / 'low' / 'src' / 'lib.rt'
        source.parent.mkdir(parents=True)
        source.write_text(SOURCE, encoding='utf-8')

    def tally(self, text: str) -> common.Tally:
        page, count = self.top / 'docs' / 'PAGE.md', common.Count()
        page.parent.mkdir(exist_ok=True)
        page.write_text(text, encoding='utf-8')
        with contextlib.redirect_stdout(io.StringIO()):
            proved.try_page(page, proved.Sources(self.top / 'crates'), count)
        return count.tally


class Citations(InFolder):
    def wrong(self, text: str) -> str | None:
        (citation,) = proved.citations_in(text)
        return proved.Sources(self.top / 'crates').wrong(citation)

    def test_what_is_there(self) -> None:
        for text in ('`low::alone`', '`low::Desk::settle` (`ok`)', '`low::law` (`turns`, `schedules`)', '`low::Fault::fmt` (`output`)'):
            self.assertIsNone(self.wrong(text), text)

    def test_what_is_not(self) -> None:
        self.assertEqual(self.wrong('`low::settle` (`ok`)'), 'low::settle (ok): there is no such function')
        self.assertEqual(self.wrong('`high::alone`'), 'high::alone: there is no such function')
        self.assertEqual(self.wrong('`low::law` (`turns`, `ends`)'), "low::law (turns, ends): its clauses are ['turns', 'schedules']")
        self.assertEqual(self.wrong('`low::alone` (`value`)'), "low::alone (value): its clauses are ['one without a name']")

    def test_a_clause_has_to_be_named_if_it_can_be(self) -> None:
        self.assertIsNotNone(self.wrong('`low::law`'))

    def test_methods_without_a_crate_are_no_citations(self) -> None:
        self.assertEqual(proved.citations_in('`Desk::settle` and `ok`'), [])


class Pages(InFolder):
    def test_each_claim_cites_something(self) -> None:
        head = '| Claim | Carried by |\n|---|---|\n'
        self.assertEqual(self.tally(head + '| A | `low::alone` |\n| B | `low::law` (`turns`) |\n'), common.Tally(passed=4))
        self.assertEqual(self.tally(head + '| A | `low::alone` |\n| B | the prover |\n'), common.Tally(passed=2, failed=1))
        self.assertEqual(self.tally('| Part | Does |\n|---|---|\n| A | much |\n'), common.Tally())

    def test_a_name_that_links_to_a_file_is_in_it(self) -> None:
        self.assertEqual(self.tally('[`settle`](../crates/low/src/lib.rt) [`lib.rt`](../crates/low/src/lib.rt) [`lib`](../crates/low/src/lib.rt)'), common.Tally(passed=3))
        self.assertEqual(self.tally('[`settl`](../crates/low/src/lib.rt) [`lib.rt`](../crates/low/src/other.rt)'), common.Tally(failed=2))

    def test_a_name_that_links_to_a_folder_is_its_name(self) -> None:
        self.assertEqual(self.tally('[`low`](../crates/low) [`high`](../crates/low)'), common.Tally(passed=1, failed=1))


if __name__ == '__main__':
    unittest.main()
