"""The archive, unpacked below a folder that nobody thought of."""

import shutil
import tempfile
import unittest
from pathlib import Path

from package_tests.installed import Installed, User
from package_tests.packages import ARCHIVE, VERSION, run


class Anywhere(Installed, unittest.TestCase):
    has_broker = shutil.which("mosquitto", path="/usr/sbin:/usr/local/sbin:/usr/bin") is not None

    @classmethod
    def setUpClass(cls):
        room = Path(tempfile.mkdtemp(prefix="groupdesign-"))
        cls.addClassCleanup(shutil.rmtree, room)
        place = room / "a place with spaces"
        place.mkdir()
        run("tar", "-xJf", ARCHIVE, "-C", place)
        command = place / f"groupdesign-{VERSION}/bin/groupdesign"
        link = room / "link"
        link.symlink_to(command)
        cls.ana, cls.ben = (cls.user(room / name, found) for name, found in (("ana", command), ("ben", link)))

    @staticmethod
    def user(home, command):
        home.mkdir()
        return User([str(command)], home)
