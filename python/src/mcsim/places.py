"""The files that come with the package: the shared library, and the tool that draws."""
from __future__ import annotations

import pathlib

BUNDLE = pathlib.Path(__file__).resolve().parent / 'bundle'
LIBRARY = BUNDLE / 'libmcs.so.1'
VIEW = BUNDLE / 'tools' / 'view'


def of(path: pathlib.Path) -> str:
    """A file of the bundle, which only a package that was built has."""
    if not path.is_file():
        raise FileNotFoundError(f'{path} is missing: install the package with pip, which builds it')
    return str(path)
