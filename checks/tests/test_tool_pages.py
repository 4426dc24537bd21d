"""Tests of the manual pages and completions of tools, over a made-up tool."""
from __future__ import annotations

import unittest
from unittest import mock

from checks import common
from checks.pages import tool_pages
from mcsim_tools.options import Options

DOC = """paint SYSTEM [-o FILE]

Paints a system. It reads one file.

    FILE-1   kept as it is

.dots and 'quotes' begin no line of roff.
"""


def made_up() -> Options:
    with mock.patch('sys.argv', ['mcsim-paint']):
        parser = Options(DOC)
    parser.reads('system', metavar='SYSTEM', help='the file of the system')
    parser.writes('-o', '--output', metavar='FILE', help='where it goes')
    parser.add_argument('--theme', choices=['light', 'dark'], default='light', help="the page's colours (default: %(default)s)")
    parser.add_argument('--program', default='/home/me/mcsim', metavar='PATH', help='what is run (default: %(default)s)')
    return parser


class Manual(unittest.TestCase):
    def setUp(self) -> None:
        self.page = tool_pages.manual('paint', made_up())

    def test_the_first_sentence_is_the_name_line(self) -> None:
        self.assertIn('.SH NAME\nmcsim\\-paint \\- paints a system\n', self.page)

    def test_calls_and_indented_lines_are_kept(self) -> None:
        self.assertIn('.nf\nmcsim\\-paint SYSTEM [\\-o FILE]\n.fi\n', self.page)
        self.assertIn('.PP\n.nf\n    FILE\\-1   kept as it is\n.fi\n', self.page)

    def test_a_line_that_begins_with_a_dot_is_text(self) -> None:
        self.assertIn("\n\\&.dots and 'quotes' begin no line of roff.\n", self.page)

    def test_options_have_their_values_and_defaults(self) -> None:
        self.assertIn('.TP\n\\fB\\-o\\fR, \\fB\\-\\-output\\fR \\fIFILE\\fR\nwhere it goes\n', self.page)
        self.assertIn("\\fIlight|dark\\fR\nthe page's colours (default: light)\n", self.page)

    def test_a_path_of_this_machine_is_on_no_page(self) -> None:
        self.assertIn('what is run (default: mcsim)', self.page)
        self.assertNotIn('/home/me', self.page)


class Completions(unittest.TestCase):
    def test_bash_has_options_and_choices(self) -> None:
        text = tool_pages.bash({'paint': made_up()})
        self.assertIn("        mcsim-paint) words='--help --version --output --theme --program' ;;\n", text)
        self.assertIn("        mcsim-paint:--theme) values='light dark' ;;\n", text)

    def test_zsh_completes_files_for_paths_alone(self) -> None:
        text = tool_pages.zsh({'paint': made_up()})
        self.assertIn("'--output[where it goes]:output:_files'", text)
        self.assertIn("'--theme[the pages colours (default light)]:theme:(light dark)'", text)

    def test_fish_quotes_what_an_option_says(self) -> None:
        text = tool_pages.fish({'paint': made_up()})
        self.assertIn("complete -c mcsim-paint -l theme -x -a 'light dark' -d 'the page\\'s colours (default: light)'\n", text)
        self.assertIn("complete -c mcsim-paint -s o -l output -r -d 'where it goes'\n", text)


class Tools(unittest.TestCase):
    def test_each_tool_has_its_options(self) -> None:
        for tool in tool_pages.tools():
            self.assertEqual(tool_pages.parser_of(tool).prog, f'mcsim-{tool}')

    def test_all_of_it_is_installed(self) -> None:
        lines = [line.split() for line in (common.TOP / 'launcher' / 'installed').read_text().splitlines()]
        installed = {tuple(line[:2]) for line in lines if line and line[0] != '#'}
        for tool in tool_pages.tools():
            name = f'mcsim-{tool}'
            self.assertIn((f'docs/man/{name}.1', f'share/man/man1/{name}.1'), installed)
            self.assertIn(('launcher/completions/tools.bash', f'share/bash-completion/completions/{name}'), installed)
            self.assertIn(('launcher/completions/tools.fish', f'share/fish/vendor_completions.d/{name}.fish'), installed)
        self.assertIn(('launcher/completions/_mcsim-tools', 'share/zsh/site-functions/_mcsim-tools'), installed)


if __name__ == '__main__':
    unittest.main()
