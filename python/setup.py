"""What pyproject.toml can't say: the shared libraries of the folder that FULWETHI_LIB names come along, and a wheel that has them is of one platform, this one's
or that which FULWETHI_PLATFORM names."""

import os
import shutil
from pathlib import Path

from setuptools import Distribution, setup
from setuptools.command.build_py import build_py

try:
    from setuptools.command.bdist_wheel import bdist_wheel
except ImportError:
    from wheel.bdist_wheel import bdist_wheel

LIBRARIES = ("libfulwethi.so.0", "libfulwethi_service.so.0")


def folder():
    """The folder of the libraries that come along, or None."""
    named = os.environ.get("FULWETHI_LIB")
    return Path(named) if named else None


class PackageWithLibraries(Distribution):
    """It is of one platform if libraries come along."""

    def has_ext_modules(self):
        return folder() is not None


class BuildWithLibraries(build_py):
    """Copies them into the package."""

    def run(self):
        super().run()
        package = Path(self.build_lib) / "fulwethi"
        for name in LIBRARIES:
            (package / name).unlink(missing_ok=True)
            if folder():
                shutil.copyfile(folder() / name, package / name)
                (package / name).chmod(0o755)


class WheelOfPlatform(bdist_wheel):
    """It names no version of Python, since the package calls the libraries by ctypes."""

    def get_tag(self):
        _, _, platform = super().get_tag()
        return "py3", "none", (folder() and os.environ.get("FULWETHI_PLATFORM")) or platform


setup(distclass=PackageWithLibraries, cmdclass={"build_py": BuildWithLibraries, "bdist_wheel": WheelOfPlatform})
