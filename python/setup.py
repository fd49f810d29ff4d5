"""What pyproject.toml cannot say: the version of the checkout, the files of the page, and that a wheel with the library inside is for one
platform."""

import re
import shutil
from pathlib import Path

from setuptools import Distribution, setup
from setuptools.command.build_py import build_py
from setuptools.command.sdist import sdist

try:
    from setuptools.command.bdist_wheel import bdist_wheel
except ImportError:  # before setuptools 70.1
    from wheel.bdist_wheel import bdist_wheel

HERE = Path(__file__).resolve().parent
SOURCE = HERE.parent / "crates/program/src/arguments.rt"  # as scripts/build/version reads it
ARCHIVE = HERE / "PKG-INFO"  # only a source archive has this file
PAGE = HERE.parent / "page"  # a source archive has these files where they are installed


def version() -> str:
    """The version of the checkout, or of the source archive."""
    if SOURCE.is_file():
        found = re.search(r'^const VERSION: &str = "(.*)";$', SOURCE.read_text("utf-8"), re.M)
    else:
        found = re.search(r"^Version: (.*)$", ARCHIVE.read_text("utf-8"), re.M)
    assert found, "the version is in none of its places"
    return found[1]


class Package(Distribution):
    """A package of Python files alone, or with the library for one platform."""

    def has_ext_modules(self) -> bool:
        return any(HERE.glob("abc2midi_live/libabc2midi_live.so.*"))


def copy_page(folder: Path) -> None:
    """Copies the files of the page into a folder with the packages, but for those of the page without a server."""
    if PAGE.is_dir():
        installed = folder / "abc2midi_live_clients/page_files"
        shutil.copytree(PAGE, installed, ignore=shutil.ignore_patterns("static"), dirs_exist_ok=True)


class Build(build_py):
    """The packages with the files of the page."""

    def run(self) -> None:
        super().run()
        copy_page(Path(self.build_lib))


class SourceArchive(sdist):
    """A source archive with the files of the page."""

    def make_release_tree(self, base_dir: str, files: list[str]) -> None:
        super().make_release_tree(base_dir, files)
        copy_page(Path(base_dir))


class Wheel(bdist_wheel):
    """A wheel for any Python 3."""

    def get_tag(self) -> tuple[str, str, str]:
        _, _, platform = super().get_tag()
        return "py3", "none", platform


setup(version=version(), distclass=Package, cmdclass={"build_py": Build, "sdist": SourceArchive, "bdist_wheel": Wheel})
