"""The examples run as they say."""

import os
import subprocess
import sys
import unittest
from pathlib import Path
from tempfile import TemporaryDirectory
from urllib.request import urlopen

ROOT = Path(__file__).resolve().parents[2]
EXAMPLES = ROOT / "examples/embed"
LIBRARY = Path(os.environ.get("GROUPDESIGN_EMBED", ROOT / "embed/out"))


class Examples(unittest.TestCase):
    def test_two_members_in_python(self) -> None:
        done = subprocess.run([sys.executable, EXAMPLES / "two_members.py"], check=True, capture_output=True, text=True)
        self.assertIn("the same: True\n", done.stdout)
        self.assertEqual(done.stdout.count("heard: echo"), 4)
        self.assertIn("refused: NothingBack", done.stdout)

    def test_two_members_in_c(self) -> None:
        with TemporaryDirectory() as room:
            program = f"{room}/two_members"
            words = [os.environ.get("CC", "gcc"), "-Wall", "-Werror", f"-I{LIBRARY}", "-o", program, EXAMPLES / "two_members.c"]
            subprocess.run([*words, LIBRARY / "libgroupdesign.a"], check=True)
            said = subprocess.run([program], check=True, capture_output=True, text=True).stdout
        shown = said.split("Ben sees:\n")[1].split("Ana sees:\n")
        self.assertEqual(shown, ["rect 1.1 in - at 10 10 size 100 50 stroke 000000 fill FFCC00 width 1 text House\nend 1\n"] * 2)

    def test_the_page(self) -> None:
        with subprocess.Popen([sys.executable, EXAMPLES / "page.py", "0"], stdout=subprocess.PIPE, text=True) as page:
            try:
                self.try_page(page.stdout.readline().strip())
            finally:
                page.terminate()

    def try_page(self, address: str) -> None:
        def asked(path: str, given: bytes | None = None) -> str:
            with urlopen(address + path, given) as answer:
                return answer.read().decode()

        self.assertIn("<form>", asked(""))
        self.assertEqual(asked("drawing.svg").count("<ellipse"), 1)
        self.assertEqual(asked("line", b"create ellipse 0 0 9 9 <b>"), "ok 5.1")
        self.assertEqual(asked("line", b"show"), "members in memory don't take this line: there are methods for it")
        self.assertEqual(asked("line", b"move 9.9 1 1"), "refused: NoObject")
        self.assertIn("&lt;b&gt;", asked("drawing.svg"))
