"""A first build by the launcher, and checks of what changed, with an `rt` that stands in for the prover: in which order crates are
proved, and what is said."""

import os
import re
import shutil
import subprocess
from functools import partial

from tests.nodes import room
from tests.program import LONGEST, ROOT, Case, Ended

CRATES = """# Comments name nothing: low: high
high: middle side
groupdesign: high clap
low:
middle: low
side: low thiserror
apart: low
"""
NEEDED = {"low": [], "middle": ["low"], "side": ["low"], "high": ["middle", "side"], "groupdesign": ["high"]}
# It notes when it begins and ends, fails where that is wanted, and builds a program that prints its words.
STAND_IN = """#!/bin/sh
name=$(basename "$PWD")
case $1 in
version) echo the kit; exit ;;
esac
echo "begin $name" >>"$SEEN"
if [ "$name" = "$FAILS" ]; then echo "no proof of $name"; exit 1; fi
sleep 0.5
if [ "$1" = run ]; then
    printf '#!/bin/sh\\necho "$@"\\n' >out/groupdesign
    chmod +x out/groupdesign
    echo 'end 0'
fi
echo "end $name" >>"$SEEN"
"""


def build(fails=""):
    """Has the launcher build in a folder of its own, and run `replay`: how it ended, what it began and ended, and whether that counts
    as a build."""
    with room(on_disk=True) as folder:
        shutil.copy(ROOT / "groupdesign", folder)
        shutil.copytree(ROOT / "packaging", folder / "packaging")
        (folder / "crates.txt").write_text(CRATES)
        for name in (*NEEDED, "apart"):
            (folder / "crates" / name / "src").mkdir(parents=True)
            (folder / "crates" / name / "src/lib.rt").write_text("// a crate\n")
        (folder / "bin").mkdir()
        (folder / "bin/rt").write_text(STAND_IN)
        (folder / "bin/rt").chmod(0o755)
        seen = folder / "seen"
        seen.touch()
        environment = {**os.environ, "PATH": f"{folder}/bin:/usr/bin:/bin", "SEEN": str(seen), "FAILS": fails}
        done = subprocess.run(["./groupdesign", "replay"], cwd=folder, env=environment, capture_output=True, timeout=LONGEST)
        out = folder / "crates/groupdesign/out"
        left = sorted(path.name for path in folder.glob("crates/*/out/*") if re.search(r"\.\d+$", path.name))
        return Ended(done.returncode, done.stdout, done.stderr), seen.read_text().splitlines(), (out / "built").exists(), left


class Building(Case):
    def test_each_crate_is_proved_behind_those_that_it_stands_on(self):
        ended, seen, is_built, left = build()
        self.assertEqual((ended.status, ended.text, is_built, left), (0, "replay\n", True, []), ended.said)
        self.assertEqual(sorted(seen), sorted(f"{word} {name}" for name in NEEDED for word in ("begin", "end")))
        for name, below in NEEDED.items():
            for each in below:
                self.assertLess(seen.index(f"end {each}"), seen.index(f"begin {name}"), seen)
        if len(os.sched_getaffinity(0)) > 1:
            # Neither stands on the other, so both are proved at once, whichever begins first.
            begun = [seen.index(f"begin {name}") for name in ("middle", "side")]
            ended_at = [seen.index(f"end {name}") for name in ("middle", "side")]
            self.assertLess(max(begun), min(ended_at), seen)
        told = re.findall(r"proved (\w+) in \d+ s: crate (\d) of 5, about (\d+) min left", ended.said.decode())
        self.assertEqual([place for _, place, _ in told], list("12345"))
        self.assertEqual(told[-1], ("groupdesign", "5", "0"))

    def test_a_crate_that_fails_ends_the_build(self):
        for fails, begun in (("low", ["begin low"]), ("high", None), ("groupdesign", None)):
            with self.subTest(fails=fails):
                ended, seen, is_built, left = build(fails)
                self.assertEqual((ended.status, ended.text, is_built, left), (70, "", False, []), ended.said)
                self.assertIn(f"the build failed at {fails}", ended.said.decode())
                self.assertEqual(seen[-1], f"begin {fails}")
                self.assertEqual(seen, begun or seen)
                if fails != "groupdesign":
                    self.assertIn(f"no proof of {fails}\n", ended.said.decode())


class Near(Case):
    def test_what_changed_is_checked_from_below(self):
        """`./check near` in a repository of which three crates and the page changed, one of these with tests, and one wrong."""
        with room(on_disk=True) as folder:
            shutil.copy(ROOT / "check", folder)
            (folder / "crates.txt").write_text(CRATES)
            for name in NEEDED:
                (folder / "crates" / name / "src").mkdir(parents=True)
                (folder / "crates" / name / "src/lib.rt").write_text("    #[test]\n" if name == "low" else "// a crate\n")
            (folder / "page").mkdir()
            (folder / "page/test").write_text('#!/bin/sh\necho "page $1" >>"$SEEN"\n')
            (folder / "page/test").chmod(0o755)
            (folder / "bin").mkdir()
            (folder / "bin/rt").write_text('#!/bin/sh\nname=$(basename "$PWD")\necho "$1 $2 $name" >>"$SEEN"\n[ "$name" != "$FAILS" ]\n')
            (folder / "bin/rt").chmod(0o755)
            git = partial(subprocess.run, cwd=folder, check=True, capture_output=True)
            git(["git", "init", "-q"])
            git(["git", "add", "crates", "crates.txt", "check", "page"])
            git(["git", "-c", "user.name=a", "-c", "user.email=a@b", "commit", "-q", "-m", "first"])
            for name in ("high", "low"):
                (folder / "crates" / name / "src/lib.rt").open("a").write("// changed\n")
            (folder / "crates/side/src/new.rt").write_text("// new\n")
            (folder / "page/new").touch()
            environment = {**os.environ, "PATH": f"{folder}/bin:/usr/bin:/bin", "SEEN": str(folder / "seen"), "FAILS": "high"}
            done = subprocess.run(["./check", "near"], cwd=folder, env=environment, capture_output=True, timeout=LONGEST, text=True)
            seen = (folder / "seen").read_text().splitlines()
        self.assertEqual(seen, ["page --units", "check  low", "check  side", "check  high", "try --test low"], done.stdout)
        self.assertEqual((done.returncode, done.stdout.splitlines()[-1]), (1, "4 passed, 1 failed"), done.stdout)
        self.assertIn("WRONG: the proofs of high\n", done.stdout)
