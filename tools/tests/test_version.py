"""What a tool tells of its version."""
import pathlib
import sys
import tempfile
import unittest

sys.path.insert(0, str(pathlib.Path(__file__).resolve().parent.parent))
from mcsim_tools import version


class Told(unittest.TestCase):
    def told(self, text: str) -> str:
        with tempfile.NamedTemporaryFile('w') as noted:
            noted.write(text)
            noted.flush()
            return version.told('look', pathlib.Path(noted.name))

    def test_the_toolchain_and_the_sources_of_the_program(self) -> None:
        self.assertEqual(self.told('# made up\nkit kit 1 logic 2\nmcsim 12ab\nmcs_c 34cd\n'), 'look, of mcsim\ntoolchain kit 1 logic 2\nsources 12ab')

    def test_what_is_not_noted_is_unknown(self) -> None:
        self.assertEqual(self.told(''), 'look, of mcsim\ntoolchain unknown\nsources unknown')
        self.assertEqual(version.told('look', pathlib.Path('/no/such/file')), 'look, of mcsim\ntoolchain unknown\nsources unknown')


if __name__ == '__main__':
    unittest.main()
