"""Man pages, completions and what a desktop reads: that other programs take them, and that they name what the program does."""

import gzip
import os
import re
import shutil

from package_tests.packages import DEB, ROOT, WithTree, commands, environment, need, run

JOURNAL = "application/x-groupdesign-journal"
# Types what stands before the cursor and prints what is offered.
BASH = """
source "$1"
shift
COMP_WORDS=("$@") COMP_CWORD=$(($# - 1))
_groupdesign 2>/dev/null
printf '%s\\n' "${COMPREPLY[@]}"
"""


class Lintian(WithTree):
    def test_lintian_finds_no_errors(self):
        need("lintian")
        # An error ends it with another status.
        print(run("lintian", "--no-cfg", "--fail-on", "error", DEB), end="", flush=True)


class Man(WithTree):
    def source(self, name):
        return gzip.decompress((self.share / "man" / name).read_bytes()).decode()

    def test_no_page_has_warnings(self):
        need("man")
        for name in self.files("usr/share/man"):
            plain = self.room / name.rpartition("/")[2].removesuffix(".gz")
            plain.write_text(self.source(name))
            settings = environment(LC_ALL="C.UTF-8", MANWIDTH="80", MANROFFSEQ="")
            words = ["man", "--warnings", "--encoding=UTF-8", "--local-file", plain]
            with self.subTest(name):
                shown = run("sh", "-c", '"$@" 2>&1 >/dev/null', "sh", *words, env=settings)
                self.assertEqual(shown, "")
                self.assertNotIn("@", self.source(name))

    def test_each_command_s_page_has_the_options_of_its_help(self):
        for command, options in commands().items():
            with self.subTest(command):
                page = self.source(f"man1/groupdesign-{command}.1.gz")
                self.assertEqual({f"-{word}" for word in re.findall(r"\.(?:It|Op)? ?Fl (-[a-z-]+)", page)}, options)
                self.assertIn(".Sh EXAMPLES", page)
                self.assertIn(".Sh EXIT STATUS", page)

    def test_the_statuses_are_those_of_the_formats(self):
        text = (ROOT / "docs/FORMATS.md").read_text()
        section = text[text.index("## 5. Exit statuses"):text.index("## 6. ")]
        wanted = re.findall(r"^\| (\d+) \|", section, re.MULTILINE)
        self.assertGreater(len(wanted), 10)
        page = self.source("man1/groupdesign.1.gz")
        self.assertEqual(re.findall(r"^\.It (\d+)$", page, re.MULTILINE), [*wanted, "70"])

    def test_the_files_are_those_of_the_page(self):
        text = (ROOT / "page/README.md").read_text()
        rows = re.findall(r"^\| (JOURNAL\b.*?) \|", text, re.MULTILINE)
        wanted = {ending for row in rows for ending in re.findall(r"JOURNAL(\.[a-z]+)", row)}
        self.assertGreater(len(wanted), 3)
        page = self.source("man1/groupdesign-draw.1.gz")
        self.assertEqual(set(re.findall(r"\.Pa PATH(\.[a-z]+)", page.partition(".Sh FILES")[2])), wanted)

    def test_the_lines_are_those_of_the_program(self):
        text = (ROOT / "docs/LINES.md").read_text()
        section = text[text.index("## 3. The lines"):text.index("## 4. ")]
        wanted = {word for row in re.findall(r"^\| (`.*?) \|", section, re.MULTILINE) for word in re.findall(r"`([a-z]+)", row)}
        self.assertGreater(len(wanted), 15)
        found = {word for row in re.findall(r"^\.It (Li .*)$", self.source("man5/groupdesign-lines.5.gz"), re.MULTILINE)
                 for word in re.findall(r"Li ([a-z]+)", row)} - {"none"}
        self.assertEqual(found, wanted)


class Completions(WithTree):
    def test_bash(self):
        file = self.share / "bash-completion/completions/groupdesign"
        offered = lambda *words: set(run("bash", "-c", BASH, "bash", file, *words).split())
        names = commands()
        self.assertEqual(offered("groupdesign", ""), {*names, "help", *("--help", "--version")})
        self.assertEqual(offered("groupdesign", "re"), {name for name in names if name.startswith("re")})
        for name, options in names.items():
            self.assertEqual(offered("groupdesign", name, "--"), {*options, "--help"}, name)
        self.assertEqual(offered("groupdesign", "replay", "--format", ""), {"text", "json", "events"})

    def test_fish(self):
        need("fish")
        file = self.share / "fish/vendor_completions.d/groupdesign.fish"
        settings = environment(HOME=str(self.room), XDG_CONFIG_HOME=str(self.room), XDG_DATA_HOME=str(self.room))

        def offered(line):
            lines = run("fish", "-c", 'source $argv[1]; complete --do-complete $argv[2]', file, line, env=settings).splitlines()
            return {each.split("\t")[0].split("=")[0] for each in lines}

        names = commands()
        self.assertEqual(offered("groupdesign "), {*names, "help"})
        for name, options in names.items():
            self.assertEqual(offered(f"groupdesign {name} --"), {*options, "--help"}, name)
        self.assertEqual(offered("groupdesign replay --format "), {"text", "json", "events"})

    def test_zsh(self):
        need("zsh")
        file = self.share / "zsh/vendor-completions/_groupdesign"
        run("zsh", "-f", "-n", file)
        text = file.read_text()
        self.assertTrue(text.startswith("#compdef groupdesign\n"))
        for name, options in commands().items():
            self.assertIn(f"'{name}:", text)
            (cases,) = re.findall(rf"^        (?:\S+\|)?{name}(?:\|\S+)?\)(.*?);;", text, re.MULTILINE | re.DOTALL)
            self.assertEqual(set(re.findall(r"'(--[a-z-]+)\[", cases)), options, name)


class Desktop(WithTree):
    def test_the_desktop_entries(self):
        need("desktop-file-validate")
        for entry in sorted((self.share / "applications").iterdir()):
            self.assertEqual(run("desktop-file-validate", entry), "")
            text = entry.read_text()
            (icon,) = re.findall(r"^Icon=(.*)$", text, re.MULTILINE)
            self.assertTrue((self.share / f"icons/hicolor/scalable/apps/{icon}.svg").is_file())

    def test_the_file_of_appstream(self):
        need("appstreamcli")
        run("appstreamcli", "validate", "--no-net", self.share / "metainfo/org.groupdesign.groupdesign.metainfo.xml")

    def test_a_journal_is_known_by_its_first_bytes(self):
        need("update-mime-database", "gio")
        if not os.path.exists("/usr/share/mime/packages/freedesktop.org.xml"):
            self.skipTest("there are no types of the system: shared-mime-info isn't installed")
        own = self.room / "data"
        shutil.copytree(self.share / "mime", own / "mime")
        run("update-mime-database", own / "mime", env=environment(XDG_DATA_HOME=str(own)))
        (self.room / "plain.log").write_text("1 a line of another program\n")
        shutil.copy(ROOT / "examples/two-shapes.log", self.room / "mine.log")
        shutil.copy(ROOT / "examples/two-shapes.log", self.room / "mine")
        for name, wanted in (("mine.log", JOURNAL), ("mine", JOURNAL), ("plain.log", "text/x-log")):
            shown = run("gio", "info", "--attributes=standard::content-type", self.room / name, env=environment(XDG_DATA_HOME=str(own)))
            self.assertEqual(re.findall(r"content-type: (\S+)", shown), [wanted], name)
