"""The version that a tool tells: the toolchain and the sources of the program that it comes with."""
from __future__ import annotations

import argparse
import pathlib

# in the repository, and as it is installed
NOTED = pathlib.Path(__file__).resolve().parents[2] / 'bin' / 'SOURCES'


def told(name: str, noted: pathlib.Path = NOTED) -> str:
    """What a tool of this name tells."""
    lines = noted.read_text().splitlines() if noted.is_file() else []
    found = dict(line.split(' ', 1) for line in lines if ' ' in line and not line.startswith('#'))
    return f'{name}, of mcsim\ntoolchain {found.get("kit", "unknown")}\nsources {found.get("mcsim", "unknown")}'


def add_to(words: argparse.ArgumentParser) -> None:
    """Adds --version to the words of a tool, whose formatter keeps lines."""
    words.add_argument('--version', action='version', version=told(words.prog), help='say with which program it comes')
