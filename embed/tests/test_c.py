"""Programs in C over the library: plain, under valgrind, with the address sanitizer, and with each allocation refused."""

import os
import shutil
import subprocess
import unittest
from pathlib import Path
from tempfile import TemporaryDirectory

HERE = Path(__file__).resolve().parent
ROOT = HERE.parents[1]
LIBRARY = Path(os.environ.get("GROUPDESIGN_EMBED", ROOT / "embed/out"))
COMPILER = os.environ.get("CC", "gcc")
WARNINGS = ["-std=c11", "-Wall", "-Wextra", "-Wconversion", "-Wno-sign-conversion", "-Wno-sign-compare", "-Werror", "-D_GNU_SOURCE"]
WRAPPED = "-Wl,--wrap=malloc,--wrap=realloc,--wrap=free"
VALGRIND = ["valgrind", "-q", "--error-exitcode=9", "--leak-check=full", "--show-leak-kinds=all"]


def built(source: str, room: str, *flags: str) -> Path:
    """A program, linked with the archive."""
    program = Path(room) / "program"
    words = [COMPILER, "-O1", "-g", *WARNINGS, *flags, "-o", program, HERE / source, f"-I{LIBRARY}", LIBRARY / "libgroupdesign.a"]
    subprocess.run(words, check=True)
    return program


def need(command: str) -> None:
    if shutil.which(command) is None:
        raise unittest.SkipTest(f"{command} isn't installed")


class Programs(unittest.TestCase):
    def run_well(self, *words: str | Path) -> str:
        done = subprocess.run(words, capture_output=True, text=True)
        self.assertEqual(done.returncode, 0, done.stdout + done.stderr)
        return done.stdout

    def test_calls(self) -> None:
        with TemporaryDirectory() as room:
            self.assertEqual(self.run_well(built("calls.c", room)), "0 wrong\n")

    def test_calls_under_valgrind(self) -> None:
        need("valgrind")
        with TemporaryDirectory() as room:
            self.run_well(*VALGRIND, built("calls.c", room))

    def test_calls_with_the_address_sanitizer(self) -> None:
        with TemporaryDirectory() as room:
            try:
                program = built("calls.c", room, "-fsanitize=address,undefined")
            except subprocess.CalledProcessError:
                raise unittest.SkipTest(f"{COMPILER} has no address sanitizer") from None
            self.run_well(program)

    def test_each_allocation_refused(self) -> None:
        with TemporaryDirectory() as room:
            said = self.run_well(built("refusing.c", room, WRAPPED)).splitlines()
        self.assertEqual(said[-1], "0 wrong")
        self.assertEqual(len(said), 21)

    def test_each_allocation_refused_under_valgrind(self) -> None:
        need("valgrind")
        with TemporaryDirectory() as room:
            self.run_well(*VALGRIND, built("refusing.c", room, WRAPPED))


class Headers(unittest.TestCase):
    def test_it_is_a_header_of_its_own(self) -> None:
        for compiler, language in [(COMPILER, "c"), ("g++", "c++")]:
            with self.subTest(compiler):
                need(compiler)
                words = [compiler, "-x", language, "-Wall", "-Wextra", "-pedantic", "-Werror", "-fsyntax-only", LIBRARY / "groupdesign.h"]
                subprocess.run(words, check=True)

    def test_the_library_shows_what_the_header_has(self) -> None:
        need("nm")
        shown = subprocess.run(["nm", "-D", "--defined-only", LIBRARY / "libgroupdesign.so"], check=True, capture_output=True, text=True)
        names = {line.split()[-1] for line in shown.stdout.splitlines()}
        header = (LIBRARY / "groupdesign.h").read_text()
        self.assertEqual(names, {line.split()[1].split("(")[0] for line in header.splitlines() if line.startswith("int64_t gd_")})

    def test_pkg_config_finds_it(self) -> None:
        need("pkg-config")
        with TemporaryDirectory() as room:
            words = [ROOT / "embed/build", "--archive", LIBRARY / "libgroupdesign.a", "--into", f"{room}/out", "--install", f"{room}/usr"]
            subprocess.run(words, check=True, capture_output=True)
            settings = {**os.environ, "PKG_CONFIG_PATH": f"{room}/usr/lib/pkgconfig"}
            found = subprocess.run(["pkg-config", "--cflags", "--libs", "groupdesign"], check=True, capture_output=True, text=True, env=settings)
            program = f"{room}/program"
            subprocess.run([COMPILER, "-o", program, HERE / "calls.c", "-D_GNU_SOURCE", *found.stdout.split()], check=True)
            subprocess.run([program], check=True, capture_output=True, env={**os.environ, "LD_LIBRARY_PATH": f"{room}/usr/lib"})
