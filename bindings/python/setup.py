"""Puts the shared library into the wheel, beside the modules.

The library is that of SZG_LIBRARY, a path, where it is set; else the one that tools/link_library of this repository
links. Nothing is downloaded.
"""
import os
import re
import shutil
import subprocess
import tempfile
from pathlib import Path
from typing import Tuple

from setuptools import Distribution, setup
from setuptools.command.build_py import build_py
from wheel.bdist_wheel import bdist_wheel

HERE = Path(__file__).resolve()
LINK, LICENSE = HERE.parents[2] / "tools/link_library", HERE.parents[2] / "LICENSE"
# the wheel has the repository's licence
if LICENSE.exists():
    shutil.copyfile(LICENSE, HERE.with_name("LICENSE"))


class BuildWithLibrary(build_py):
    """Builds the modules and adds the library."""

    def run(self) -> None:
        super().run()
        if self.editable_mode:
            return
        target = Path(self.build_lib) / "szg/libszg.so"
        given = os.environ.get("SZG_LIBRARY")
        if given:
            shutil.copyfile(given, target)
            return
        if not LINK.exists():
            raise SystemExit("szg: set SZG_LIBRARY to the path of libszg.so, or build in a clone of the repository")
        with tempfile.TemporaryDirectory() as folder:
            subprocess.run([str(LINK), folder], check=True)
            shutil.copyfile(Path(folder) / "libszg.so", target)


class WheelOfPlatform(bdist_wheel):
    """A wheel for any Python 3 on this platform: ctypes loads the library, which needs the C library alone.

    The tag is PEP 600's: the glibc whose symbols the library needs, 2.17 at least."""

    def finalize_options(self) -> None:
        super().finalize_options()
        self.root_is_pure = False

    def get_tag(self) -> Tuple[str, str, str]:
        platform = super().get_tag()[2]
        library = Path(self.get_finalized_command("build_py").build_lib) / "szg/libszg.so"
        if platform.startswith("linux_") and library.exists():
            newest = max(17, *map(int, re.findall(rb"\0GLIBC_2\.(\d+)", library.read_bytes())))
            platform = f"manylinux_2_{newest}_{platform[len('linux_'):]}"
        return "py3", "none", platform


class WithLibrary(Distribution):
    def has_ext_modules(self) -> bool:
        return True


setup(cmdclass={"build_py": BuildWithLibrary, "bdist_wheel": WheelOfPlatform}, distclass=WithLibrary)
