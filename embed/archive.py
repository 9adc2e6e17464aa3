#!/usr/bin/env python3
"""Makes the archive of crates/gd_embed over the libraries that the checks have proved: archive.py ARCHIVE

It proves gd_embed itself, which takes some five minutes, and nothing below it. The libraries are those in crates/*/out/rlib. The status
is 3 where one of them isn't there or is older than a source, and 1 where the proof fails.
"""

import os
import shutil
import subprocess
import sys
from pathlib import Path

ROOT = Path(__file__).resolve().parent.parent
CRATE = "gd_embed"
# `rt ci` leaves this behind all libraries that it proved.
MARK = ROOT / "crates/groupdesign/out/built"


def uses():
    """What each crate of the repository stands on, by its row in crates.txt."""
    rows = {}
    for line in (ROOT / "crates.txt").read_text().splitlines():
        head, colon, below = line.partition("#")[0].partition(":")
        if colon:
            rows[head.split()[0]] = below.split()
    return rows


def all_below(rows, name, found):
    """The crates of the repository below one, each behind those that it stands on."""
    for it in rows[name]:
        if it in rows and it not in found:
            all_below(rows, it, found)
            found.append(it)
    return found


def library(name):
    return ROOT / f"crates/{name}/out/rlib/{name}.rlib"


def is_proved(names):
    """Whether all these libraries are there, and no source of one is newer than the mark."""
    if not MARK.exists() or not all((library(it) / "format").exists() for it in names):
        return False
    made = MARK.stat().st_mtime
    parts = [ROOT / f"crates/{name}/{part}" for name in [*names, CRATE] for part in ("src", "specs", "proofs")]
    return all(it.stat().st_mtime <= made for part in parts for it in part.rglob("*"))


def command(rows, names, archive):
    kit = Path(shutil.which("rt")).resolve().parent.parent
    words = [kit / "bin/rattle", "build", "--crate-name", CRATE, "src/lib.rt", "--crate-type", "staticlib"]
    words += ["--extern", f"std={kit}/rlibs/std.rlib", "-L", f"dependency={kit}/rlibs"]
    for it in rows[CRATE]:
        words += ["--extern", f"{it}={library(it) if it in rows else f'{kit}/rlibs/{it}.rlib'}"]
    for it in names:
        words += ["-L", f"dependency={library(it).parent}"]
    words += ["--antt-project", f"{kit}/rattle/logic/antt-project.json", "--logic-built", f"{kit}/logic_built"]
    words += ["--links", f"{CRATE}=", "--toolchain", f"{kit}/toolchain", "--jobs", str(len(os.sched_getaffinity(0)))]
    return [*words, "--backend", "llvm", "-o", archive]


def main():
    if len(sys.argv) != 2:
        print(__doc__.splitlines()[0], file=sys.stderr)
        return 2
    rows = uses()
    names = all_below(rows, CRATE, [])
    if not shutil.which("rt") or not is_proved(names):
        return 3
    made = subprocess.run(command(rows, names, Path(sys.argv[1]).resolve()), cwd=ROOT / "crates" / CRATE, stdout=sys.stderr)
    return 1 if made.returncode else 0


if __name__ == "__main__":
    sys.exit(main())
