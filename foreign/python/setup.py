"""What pyproject.toml cannot say: the package holds a shared library for x86-64 Linux, and is not made without it."""
import os

from setuptools import setup

try:
    from setuptools.command.bdist_wheel import bdist_wheel
except ImportError:  # before setuptools 70
    from wheel.bdist_wheel import bdist_wheel


class Wheel(bdist_wheel):
    def get_tag(self):
        return "py3", "none", "linux_x86_64"


if not os.path.exists(os.path.join(os.path.dirname(os.path.abspath(__file__)), "pelmetsavory", "libpelmetsavory.so")):
    raise SystemExit("the package has no shared library: run foreign/library first (see foreign/README.md)")
setup(cmdclass={"bdist_wheel": Wheel})
