"""What is saved, by the stand-in, whose `replay` prints the journal."""

import base64

from page.replays import NoReplay, replayed, saved
from page.tests.places import STAND_IN, WithStandIn


class Saved(WithStandIn):
    async def test_the_forms_are_asked_of_the_program(self):
        self.journal.write_bytes('{"label":"\u05d0 <b>"}\n'.encode())
        for form, words in (("text", ""), ("json", " --format json"), ("events", " --format events")):
            self.assertEqual(await saved(STAND_IN, self.journal, form), '{"label":"\u05d0 <b>"}\n')
            self.assertEqual(self.beside("replayed").read_text(), f"replay{words}")

    async def test_the_log_is_its_bytes(self):
        data = bytes(range(256)) * 3
        self.journal.write_bytes(data)
        self.assertEqual(base64.b64decode(await saved(STAND_IN, self.journal, "log")), data)

    async def test_a_failure_is_told(self):
        for journal, program, form in (
            (self.journal, STAND_IN, "text"),
            (self.journal, STAND_IN, "log"),
            ("/dev/null", "/nothing/there", "text"),
            ("/dev/null", STAND_IN, "svg"),
            ("/dev/null", STAND_IN, ["text"]),
        ):
            with self.assertRaises(NoReplay):
                await saved(program, journal, form)
        with self.assertRaises(NoReplay) as said:
            await replayed("/bin/false", "/dev/null", "text")
        self.assertIn("status 1", str(said.exception))
