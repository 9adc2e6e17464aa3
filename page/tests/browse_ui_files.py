"""Files: what is exported as SVG, PNG, PDF and text, and what is imported."""

import base64
import json
import re
import shutil
import struct
import subprocess
import tempfile
import zlib
from pathlib import Path
from xml.etree import ElementTree

from page.tests.browse_ui import WithOnePage
from page.tests.places import wait_for

SVG = "{http://www.w3.org/2000/svg}"
DRAWING = [
    "create rect 100 100 160 80 Draft it",
    "stroke @1 2563EB",
    "fill @1 DAE6FF",
    "width @1 4",
    "create ellipse 400 90 150 100 שלום, עולם (test)!",
    "fill @5 FFF2AE",
    "create line 260 140 140 -40 yes",
    "stroke @7 12AB34",
    "create text 100 300 300 60 Two lines\u2028with a <tag> & \"more\"",
    "create rect 500 300 60 60",
    "create rect 600 300 60 60 In a group",
    "group @10 @11",
    "group @12 @1",
]
# What stays of an object when it is exported and imported: all but its ids, relative to the first one.
BARE = """
const items = ed.model.items.filter((i) => arguments[0].includes(i.id));
const first = items.find((i) => i.kind !== 'group');
const depth = (i) => { let n = 0; for (let at = ed.model.byId.get(i.parent); at; at = ed.model.byId.get(at.parent)) n += 1; return n; };
return items.map((i) => i.kind === 'group' ? ['group', depth(i)] :
  [i.kind, depth(i), i.x - first.x, i.y - first.y, i.w, i.h, i.stroke, i.fill, i.width, i.label]);
"""


class Files(WithOnePage):
    @classmethod
    def setUpClass(cls):
        super().setUpClass()
        cls.folder = Path(tempfile.mkdtemp(prefix="page-test-"))
        cls.addClassCleanup(shutil.rmtree, cls.folder)
        cls.driver.execute_cdp_cmd("Browser.setDownloadBehavior", {"behavior": "allow", "downloadPath": str(cls.folder)})

    def drawn(self):
        self.made(*DRAWING)
        wait_for(lambda: self.page.is_settled() and len(self.page.ids("group")) == 2)
        return self.page.ids()

    def saved(self, command, ending):
        """The bytes of the file that a command saves."""
        for each in self.folder.iterdir():
            each.unlink()
        self.page.do("ed.focusBoard()")
        self.page.press("k", hold=["ctrl"])
        self.page.write(command + "\ue007")
        done = lambda: [each for each in self.folder.iterdir() if each.name.endswith(ending) and each.stat().st_size]
        (file,) = wait_for(done)
        return file.read_bytes()

    def imported(self, text, name="drawing.txt"):
        """What is on the board behind a file that was dropped, without what was there."""
        before = set(self.page.ids())
        self.page.do("""
            const data = new DataTransfer();
            data.items.add(new File([arguments[0]], arguments[1]));
            for (const type of ['dragover', 'drop'])
              dispatchEvent(new DragEvent(type, { dataTransfer: data, clientX: 700, clientY: 500, bubbles: true, cancelable: true }));
        """, text, name)
        wait_for(lambda: self.page.is_settled() and set(self.page.ids()) - before)
        return [each for each in self.page.ids() if each not in before]

    def test_svg_has_all_in_its_groups_and_comes_back_as_it_was(self):
        names = self.drawn()
        given = self.saved("Export as SVG", ".svg")
        root = ElementTree.fromstring(given)
        self.assertEqual(root.tag, f"{SVG}svg")
        self.assertEqual(len(root.findall(f".//{SVG}ellipse")), 1)
        # Two groups, the outer one around the inner one and a rectangle.
        bare = [each for each in root.iter(f"{SVG}g") if "data-kind" not in each.attrib]
        self.assertEqual(len(bare), 2)
        labels = {each.get("data-label") for each in root.iter(f"{SVG}text")}
        self.assertEqual(labels, {line.split(" ", 6)[6] for line in DRAWING if line.startswith("create") and line.count(" ") > 5})
        self.assertEqual(self.bare_of(self.imported(given.decode(), "drawing.svg")), self.bare_of(names))

    def bare_of(self, names):
        return self.page.do(BARE, names)

    def test_svg_is_read_by_another_reader(self):
        if not shutil.which("xmllint"):
            self.skipTest("there is no xmllint")
        self.drawn()
        given = self.saved("Export as SVG", ".svg")
        self.assertEqual(subprocess.run(["xmllint", "--noout", "-"], input=given).returncode, 0)

    def test_groups_that_are_deep_stay_within_the_levels_of_readers(self):
        lines = ["create rect 0 0 10 10", "create rect 20 0 10 10", "group @1 @2"]
        for each in range(300):
            lines += [f"create rect {40 + each} 0 10 10", f"group @{len(lines)} @{len(lines) + 1}"]
        self.page.do("ed.edits.do('deep', arguments[0])", lines)
        wait_for(lambda: self.page.is_settled() and len(self.page.ids("group")) == 301)
        given = self.page.ask("ed.exporting.svgText()")
        depth = deepest = 0
        for tag in re.findall(r"<(/?)(\w+)[^>]*?(/?)>", given):
            depth += 0 if tag[2] else -1 if tag[0] else 1
            deepest = max(deepest, depth)
        self.assertLess(deepest, 256)
        self.assertEqual(given.count("<rect"), 302)

    def test_plain_shapes_of_svg_are_imported(self):
        given = """<svg xmlns="http://www.w3.org/2000/svg"><defs><rect width="9" height="9"/></defs>
            <rect x="10" y="20" width="30" height="40" fill="red"/>
            <g transform="translate(100 50)" stroke="#00f" stroke-width="3" fill="none">
              <circle cx="10" cy="10" r="10"/><line x1="0" y1="0" x2="5" y2="-7"/>
              <g transform="scale(2)"><ellipse cx="10" cy="10" rx="4" ry="5" style="fill: #abc"/></g>
            </g><path d="M0 0L9 9"/><text x="10" y="200" font-size="20">Hello <tspan>you</tspan></text></svg>"""
        items = [self.page.item(name) for name in self.imported(given, "plain.svg")]
        look = lambda i: (i["kind"], i["w"], i["h"], i["stroke"], i["fill"], i["width"])
        shapes = [look(item) for item in items if item["kind"] not in ("group", "text")]
        wanted = [("rect", 30, 40, "FF0000", "FF0000", 1), ("ellipse", 20, 20, "0000FF", None, 3), ("line", 5, -7, "0000FF", None, 3),
                  ("ellipse", 16, 20, "0000FF", "AABBCC", 6)]
        self.assertEqual(shapes, wanted)
        self.assertEqual([i["kind"] for i in items].count("group"), 1)
        rect, circle = (next(i for i in items if (i["kind"], i["w"]) == each) for each in (("rect", 30), ("ellipse", 20)))
        self.assertEqual((circle["x"] - rect["x"], circle["y"] - rect["y"]), (90, 30))
        self.assertEqual([i["label"] for i in items if i["kind"] == "text"], ["Hello you"])
        self.assertIn("1 part of it couldn’t be taken", self.page.banners())

    def test_what_the_node_saves_is_what_the_program_prints_and_comes_back(self):
        names = self.drawn()
        text = self.saved("Save as lines", ".txt").decode()
        self.assertEqual(text.split("\n")[:-2], self.page.shown())
        drawing = json.loads(self.saved("Save as JSON", ".json"))
        self.assertEqual([each["id"] for each in drawing], names)
        self.assertTrue(self.saved("Save the whole file with its history (journal)", ".log").startswith(b"GDOL"))
        self.assertEqual(len(json.loads(self.saved("Save the list of all edits (events)", ".events.jsonl"))), self.page.ask("ed.node.events.length"))
        for given, name in ((text, "drawing.txt"), (json.dumps(drawing), "drawing.json")):
            self.assertEqual(self.bare_of(self.imported(given, name)), self.bare_of(names))

    def test_png_is_a_picture_of_all(self):
        self.made("create rect 100 100 100 50", "fill @1 FFF2AE", "width @1 2")
        given = self.saved("Export as PNG", ".png")
        self.assertEqual(given[:8], b"\x89PNG\r\n\x1a\n")
        # 100 by 50, the stroke and a margin of 16 around, twice as large.
        self.assertEqual(struct.unpack(">II", given[16:24]), (2 * (100 + 2 + 32), 2 * (50 + 2 + 32)))

    def test_pdf_has_shapes_as_paths_and_text_as_text(self):
        self.drawn()
        given = self.saved("Export as PDF", ".pdf")
        self.assertTrue(given.startswith(b"%PDF-1.7"))
        streams = [zlib.decompress(found) for found in re.findall(rb"/Length \d+ >>\nstream\n(.*?)\nendstream", given, re.DOTALL)]
        content = next(each for each in streams if b" cm" in each).decode()
        self.assertIn(f"<{'Draft it'.encode('latin1').hex()}> Tj", content)
        # What Helvetica has no letters for is a picture, with a mask.
        self.assertIn(" Do Q", content)
        self.assertIn(b"/SMask", given)
        texts = b" ".join(bytes.fromhex(found) for found in re.findall("<([0-9a-f]+)> Tj", content)).decode("cp1252")
        for words in ("yes", "Two lines", 'with a <tag> & "more"'):
            self.assertIn(words, texts)

    def test_what_is_no_drawing_is_said(self):
        page = self.page
        for text, name in (("nothing", "notes.txt"), ("<html/>", "page.svg"), ("[1, 2]", "numbers.json")):
            page.do("ed.importing.take(new File([arguments[0]], arguments[1]))", text, name)
            wait_for(lambda: f"{name} has no drawing" in page.banners())

    def test_a_selection_is_exported_alone(self):
        one, two = self.made("create rect 100 100 100 50", "create ellipse 300 100 100 50")
        self.choose(two)
        text = self.page.ask("ed.exporting.svgText()")
        self.assertNotIn("<rect", text)
        self.assertIn("<ellipse", text)

    def test_a_sheet_is_printed_with_the_drawing_alone(self):
        self.drawn()
        page = self.page
        page.do("window.print = () => { window.printed = document.querySelectorAll('#print svg ellipse').length; }; ed.exporting.print()")
        self.assertEqual(page.ask("window.printed"), 1)
        page.do("document.getElementById('print').append(document.createElement('p'))")
        data = self.driver.execute_cdp_cmd("Page.printToPDF", {})["data"]
        self.assertTrue(base64.b64decode(data).startswith(b"%PDF"))
        page.do("document.getElementById('print').replaceChildren()")

    def test_nothing_went_wrong_in_the_browser(self):
        self.assertEqual(self.page.errors(), [])
