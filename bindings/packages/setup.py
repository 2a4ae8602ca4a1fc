"""Makes a wheel with a library and a program in it, which are for every Python 3."""
from __future__ import annotations

from typing import Tuple

from setuptools import Distribution, setup

try:
    from setuptools.command.bdist_wheel import bdist_wheel
except ImportError:
    from wheel.bdist_wheel import bdist_wheel


class WithBinaries(Distribution):
    """A package that isn't the same on all machines."""

    def has_ext_modules(self) -> bool:
        """It has none, but is installed where they are."""
        return True


class Wheel(bdist_wheel):
    """A wheel that doesn't depend on the version of Python."""

    def get_tag(self) -> Tuple[str, str, str]:
        """Its Python, its binary interface and its machine."""
        return "py3", "none", super().get_tag()[2]


setup(distclass=WithBinaries, cmdclass={"bdist_wheel": Wheel})
