"""The launcher over the program that is tested: in a folder of its own, which has what the launcher looks for."""

import os
import shutil
import subprocess
from contextlib import contextmanager

from tests.nodes import room
from tests.program import LONGEST, PROGRAM, ROOT, Ended


@contextmanager
def checkout():
    """A checkout with a build of the tested program that is up to date, and without an `rt` to make another by."""
    with room(on_disk=True) as folder:
        for path in ROOT.iterdir():
            if path.is_file():
                shutil.copy(path, folder)
        for name in ("examples", "docs", "packaging"):
            shutil.copytree(ROOT / name, folder / name)
        for name in ("page", "carrier"):
            (folder / name).symlink_to(ROOT / name)
        out = folder / "crates/groupdesign/out"
        out.mkdir(parents=True)
        (out / "groupdesign").symlink_to(PROGRAM)
        (out / "built").touch()
        yield folder


def launch(folder, words, given=b"", **options):
    """Runs ./groupdesign with these words in a checkout. No word of these may start a build, so there is nothing to build by."""
    if "stdin" not in options:
        options["input"] = given
    environment = {**os.environ, "PATH": "/usr/bin:/bin"}
    options = {"stdout": subprocess.PIPE, "stderr": subprocess.PIPE, "timeout": LONGEST} | options
    done = subprocess.run(["./groupdesign", *words], cwd=folder, env=environment, **options)
    return Ended(done.returncode, done.stdout or b"", done.stderr or b"")
