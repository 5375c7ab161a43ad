"""What pyproject.toml can't say: an sdist also has the crate and the licences, which stand beside
this folder in the repository."""
import shutil
from pathlib import Path

from setuptools import setup
from setuptools.command.install import install
from setuptools.command.sdist import sdist

HERE = Path(__file__).resolve().parent
CRATE = HERE.parent / "rust" / "vte"


class WithCrate(sdist):
    def make_release_tree(self, base_dir, files):
        super().make_release_tree(base_dir, files)
        if CRATE.is_dir():
            shutil.copytree(CRATE, Path(base_dir, "vte"),
                            ignore=shutil.ignore_patterns("fuzz", "target", "tests"))
            manifest = Path(base_dir, "Cargo.toml")
            text = manifest.read_text(encoding="utf-8")
            # the file may be a link to that of the repository
            manifest.unlink()
            manifest.write_text(text.replace('"../rust/vte"', '"vte"'), encoding="utf-8")


# Debian's setuptools reads these, and only Debian's Python has them
for name in "install_layout", "prefix_option":
    setattr(install, name, getattr(install, name, None))
# not in an sdist
if CRATE.is_dir():
    for name in "LICENSE-APACHE", "LICENSE-MIT", "NOTICE":
        shutil.copy(HERE.parent / name, HERE)
setup(cmdclass={"sdist": WithCrate})
