"""What the packages have, and that they are made of the proved program alone, and each time the same."""

import hashlib
import os
import re
import struct
import subprocess
import tarfile
import unittest

from package_tests.packages import (
    ARCHIVE, BUILT, DEB, DIST, NOTE, ROOT, SUMS, VERSION, WithTree, commands, environment, run,
)
from tests.launcher import checkout

# What a page, a sheet or a module of the page names: another file of it.
NAMED = re.compile(r"""(?:\bfrom\s*|\bimport\s*\(?\s*|\bhref=|\bsrc=)["']([^"'#?]+\.(?:html|css|js|svg|png))["']""")
# What it depends on by hand, and the libraries that the program may be linked with.
DEPENDS = {"python3", "python3-aiohttp", "python3-cryptography", "python3-paho-mqtt"}
LIBRARIES = {"libc6", "libgcc-s1"}

# The kind of a part that is loaded, in a program's table.
LOADED = 1


def loaded(path):
    """The parts of a program of 64 bits that the system loads: where each goes, its flags, and the sum of its bytes.

    The table of these, at the start of the file, tells where the symbols stand too, so the file's first 64 bytes are left out."""
    data = path.read_bytes()
    start, size, count = *struct.unpack_from("<Q", data, 32), *struct.unpack_from("<HH", data, 54)
    parts = [struct.unpack_from("<IIQQQQQQ", data, start + place * size) for place in range(count)]
    return [
        (flags, address, length, hashlib.sha256(data[max(begin, 64):begin + length]).hexdigest())
        for kind, flags, begin, address, _, length, _, _ in parts
        if kind == LOADED
    ]


def sum_of(path):
    return hashlib.sha256(path.read_bytes()).hexdigest()


class Contents(WithTree):
    def test_what_is_loaded_of_the_program_is_the_proved_one_s(self):
        packaged, built = (loaded(path) for path in (self.tree / "usr/lib/groupdesign/groupdesign", BUILT / "groupdesign"))
        self.assertGreater(len(built), 1)
        self.assertEqual(packaged, built)

    def test_the_files_of_the_bridge_are_there_and_no_tests(self):
        wanted = sorted(f"{folder}/{path.name}" for folder in ("carrier", "page") for path in (ROOT / folder).glob("*.py"))
        found = [name for name in self.files("usr/share/groupdesign") if not name.startswith("page/static/")]
        self.assertEqual(sorted(found), sorted(["draw", *wanted]))
        self.assertGreater(len(wanted), 10)

    def test_each_file_that_the_page_names_is_there(self):
        static = self.share / "groupdesign/page/static"
        met, left = set(), [*static.glob("*.html")]
        self.assertGreater(len(left), 1)
        while left:
            path = left.pop()
            if path in met:
                continue
            self.assertTrue(path.is_file(), path)
            met.add(path)
            left += [(path.parent / name).resolve() for name in NAMED.findall(path.read_text())]
        self.assertGreater(len(met), 50)
        self.assertEqual(sorted(static.rglob("*.*")), sorted(met))

    def test_each_command_and_each_format_has_a_page(self):
        wanted = ["man1/groupdesign.1.gz", *(f"man1/groupdesign-{name}.1.gz" for name in commands())]
        wanted += [f"man5/groupdesign-{name}.5.gz" for name in ("log", "lines", "snapshot")]
        self.assertEqual(self.files("usr/share/man"), sorted(wanted))

    def test_other_files(self):
        wanted = """usr/bin/groupdesign usr/lib/groupdesign/groupdesign usr/lib/groupdesign/settings.sh
            usr/share/applications/groupdesign-journal.desktop usr/share/applications/groupdesign.desktop
            usr/share/bash-completion/completions/groupdesign usr/share/doc/groupdesign/CHANGELOG.md
            usr/share/doc/groupdesign/FORMATS.md.gz usr/share/doc/groupdesign/LINES.md.gz
            usr/share/doc/groupdesign/SECURITY.md usr/share/doc/groupdesign/changelog.gz
            usr/share/doc/groupdesign/copyright usr/share/fish/vendor_completions.d/groupdesign.fish
            usr/share/icons/hicolor/scalable/apps/groupdesign.svg
            usr/share/metainfo/org.groupdesign.groupdesign.metainfo.xml usr/share/mime/packages/groupdesign.xml
            usr/share/zsh/vendor-completions/_groupdesign"""
        found = [name for name in self.files() if not name.startswith(("usr/share/groupdesign/", "usr/share/man/"))]
        self.assertEqual(found, wanted.split())

    def test_owners_and_modes(self):
        for line in run("dpkg-deb", "--contents", DEB).splitlines():
            mode, owner, *_, name = line.split()
            is_run = name.endswith(("/groupdesign/groupdesign", "/bin/groupdesign", "/groupdesign/draw"))
            wanted = "drwxr-xr-x" if name.endswith("/") else "-rwxr-xr-x" if is_run and "/usr/share/doc" not in name else "-rw-r--r--"
            with self.subTest(name):
                self.assertEqual((mode, owner), (wanted, "root/root"))

    def test_the_fields_of_the_package(self):
        fields = dict(re.findall(r"^(\S+): (.*)$", run("dpkg-deb", "--field", DEB), re.MULTILINE))
        self.assertEqual((fields["Package"], fields["Version"], fields["Architecture"]), ("groupdesign", VERSION, "amd64"))
        depends = {word.split()[0] for word in fields["Depends"].split(", ")}
        self.assertEqual((depends - LIBRARIES, "libc6" in depends), (DEPENDS, True))
        self.assertIn("python3 (>= 3.10)", fields["Depends"])
        self.assertEqual({word.split()[-1] for word in fields["Recommends"].split(", ")}, {"www-browser", "mosquitto"})

    def test_the_changelog_has_this_version(self):
        text = (ROOT / "CHANGELOG.md").read_text()
        self.assertEqual(re.findall(r"^## (\S+)", text, re.MULTILINE)[0], VERSION)
        self.assertIn(f"\n| {VERSION} |", text)

    def test_the_sums_of_the_installed_files(self):
        run("dpkg-deb", "--control", DEB, self.room / "control")
        rows = [line.split("  ") for line in (self.room / "control/md5sums").read_text().splitlines()]
        self.assertEqual(sorted(name for _, name in rows), self.files())
        run("md5sum", "--check", "--quiet", self.room / "control/md5sums", cwd=self.tree)

    def test_the_archive_has_the_same_files(self):
        top = f"groupdesign-{VERSION}/"
        with tarfile.open(ARCHIVE) as archive:
            archive.extractall(self.room / "archive", filter="tar") if hasattr(tarfile, "tar_filter") else \
                archive.extractall(self.room / "archive")
        unpacked = self.room / "archive" / top
        found = {str(path.relative_to(unpacked)): path for path in unpacked.rglob("*") if not path.is_dir()}
        documents = {f"share/doc/groupdesign/{name}" for name in ("LICENSE", "LICENSE-MIT", "LICENSE-APACHE")}
        debian = {"share/doc/groupdesign/changelog.gz"}
        self.assertEqual(found.keys() - documents, {name.removeprefix("usr/") for name in self.files()} - debian)
        for name in found.keys() - documents:
            self.assertEqual(sum_of(found[name]), sum_of(self.tree / "usr" / name), name)
            self.assertEqual(os.access(found[name], os.X_OK), os.access(self.tree / "usr" / name, os.X_OK), name)

    def test_the_sums_of_the_packages(self):
        rows = dict(reversed(line.split("  ")) for line in SUMS.read_text().splitlines())
        self.assertEqual(rows, {path.name: sum_of(path) for path in (DEB, ARCHIVE, NOTE)})

    def test_the_note_of_what_was_proved(self):
        said = dict(line.split(": ", 1) for line in NOTE.read_text().splitlines()[1:])
        self.assertEqual(list(said), ["commit", "program", "kit", "gate"])
        self.assertRegex(said["commit"], r"^[0-9a-f]{40}(, and \d+ files that no commit has so)?$")
        sums = [sum_of(path) for path in (BUILT / "groupdesign", self.tree / "usr/lib/groupdesign/groupdesign")]
        self.assertEqual(re.findall(r"[0-9a-f]{64}", said["program"]), sums)
        self.assertEqual(said["kit"], (BUILT / "built").read_text().splitlines()[0])
        self.assertRegex(said["gate"], r"^\d+ passed, \d+ failed|^\./check has not run over these files")


class Again(WithTree):
    def test_a_second_build_is_the_same_byte_by_byte(self):
        """On one processor, in another zone, language and home, and with files that nobody else may read."""
        other = self.room / "other"
        words = ["sh", "-c", 'umask 077; exec taskset -c "$1" "$2" --into "$3"', "sh"]
        processor = str(min(os.sched_getaffinity(0)))
        changed = environment(TZ="Pacific/Chatham", LC_ALL="C", LANG="de_DE", HOME=str(self.room))
        run(*words, processor, ROOT / "package", other, env=changed)
        names = sorted(path.name for path in other.iterdir())
        self.assertEqual(names, sorted(path.name for path in (DEB, ARCHIVE, NOTE, SUMS)))
        for name in names:
            self.assertEqual(sum_of(other / name), sum_of(DIST / name), name)


class Refused(unittest.TestCase):
    """Packages are refused of a program that isn't proved, or isn't the newest."""

    def refused(self, folder, *said):
        done = subprocess.run([folder / "package"], capture_output=True, text=True)
        self.assertEqual((done.returncode, done.stdout), (1, ""))
        for words in said:
            self.assertIn(words, done.stderr)
        self.assertFalse((folder / "dist").exists())

    def test_there_is_no_proved_build(self):
        with checkout() as folder:
            (folder / "crates/groupdesign/out/built").unlink()
            self.refused(folder, "no proved build")

    def test_a_source_is_newer_than_the_build(self):
        with checkout() as folder:
            mark = folder / "crates/groupdesign/out/built"
            source = folder / "crates/groupdesign/main.rt"
            source.touch()
            os.utime(mark, ns=(0, source.stat().st_mtime_ns - 1))
            self.refused(folder, "no proved build")

    def test_a_build_that_names_no_kit(self):
        with checkout() as folder:
            self.refused(folder, "by which kit")
