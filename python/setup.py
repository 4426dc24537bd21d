"""Builds the package: the shared library of ../bin and the tool that draws go into it, so that no compiler is needed where it is installed."""
from __future__ import annotations

import pathlib
import shutil
import subprocess

from setuptools import setup
from setuptools.command.build_py import build_py
from wheel.bdist_wheel import bdist_wheel

TOP = pathlib.Path(__file__).resolve().parent.parent
# what the library needs: Linux on x86-64, and glibc 2.34
PLATFORM = 'manylinux_2_34_x86_64'


class WithBundle(build_py):
    """Copies the bundle beside the modules."""

    def run(self) -> None:
        super().run()
        bundle = pathlib.Path(self.build_lib, 'mcsim', 'bundle')
        shutil.rmtree(bundle, ignore_errors=True)
        (bundle / 'tools').mkdir(parents=True)
        made = ['sh', str(TOP / 'launcher' / 'shared.sh'), str(TOP / 'bin' / 'libmcs_c.a'), str(bundle / 'libmcs.so.1')]
        if subprocess.run(made).returncode:
            raise SystemExit('mcsim: the shared library was not made: building the package needs a C compiler, its wheel needs none')
        shutil.copy(TOP / 'tools' / 'view', bundle / 'tools')
        shutil.copytree(TOP / 'tools' / 'mcsim_tools', bundle / 'tools' / 'mcsim_tools', ignore=shutil.ignore_patterns('__pycache__'))


class ForLinux(bdist_wheel):
    """A wheel for any Python 3, and for one platform."""

    def finalize_options(self) -> None:
        super().finalize_options()
        self.root_is_pure = False

    def get_tag(self) -> tuple[str, str, str]:
        return 'py3', 'none', PLATFORM


setup(cmdclass={'build_py': WithBundle, 'bdist_wheel': ForLinux})
