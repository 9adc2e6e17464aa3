"""The packages that packaging/test made in dist/, and what they have."""

import os
import re
import shutil
import subprocess
import tempfile
import unittest
from pathlib import Path

ROOT = Path(__file__).resolve().parent.parent.parent
DIST = ROOT / "dist"
VERSION = (ROOT / "VERSION").read_text().strip()
BUILT = ROOT / "crates/groupdesign/out"
DEB = DIST / f"groupdesign_{VERSION}_amd64.deb"
ARCHIVE = DIST / f"groupdesign-{VERSION}-linux-amd64.tar.xz"
NOTE = DIST / f"groupdesign-{VERSION}-proved.txt"
SUMS = DIST / "SHA256SUMS"
OPTION = re.compile(r"--[a-z]+(?:-[a-z]+)*")
# The options that each command has, and that no help of one lists.
EACH_HAS = {"--help", "--version"}


def run(*words, **options):
    """Runs a command, which prints text. Raises where it ends with another status than 0."""
    return subprocess.run(words, check=True, stdout=subprocess.PIPE, text=True, **options).stdout


def need(*commands):
    """Leaves a test out where one of the commands isn't there."""
    missing = [command for command in commands if not shutil.which(command)]
    if missing:
        raise unittest.SkipTest(f"there is no {' and no '.join(missing)}")


class WithTree(unittest.TestCase):
    """Cases over what the package for Debian has, unpacked."""

    @classmethod
    def setUpClass(cls):
        cls.room = Path(tempfile.mkdtemp(prefix="groupdesign-"))
        cls.addClassCleanup(shutil.rmtree, cls.room)
        cls.tree = cls.room / "tree"
        run("dpkg-deb", "--extract", DEB, cls.tree)
        cls.share = cls.tree / "usr/share"

    def files(self, folder=""):
        """The names of all files below a folder of the tree."""
        start = self.tree / folder
        return sorted(str(path.relative_to(start)) for path in start.rglob("*") if not path.is_dir())


def help_on(*words):
    return run(BUILT / "groupdesign", *words, "--help")


def commands():
    """The commands that the program lists, each with the options that its help has; and those of the page."""
    names = re.findall(r"^  ([a-z]+)  +\S", help_on(), re.MULTILINE)
    found = {name: set(OPTION.findall(help_on(name))) - EACH_HAS for name in names}
    found["draw"] = set(OPTION.findall(run("/usr/bin/python3", ROOT / "draw", "--help"))) - EACH_HAS
    return found


def environment(**others):
    """The environment of these tests with other values."""
    return {**os.environ, **others}
