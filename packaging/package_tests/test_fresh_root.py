"""The package in a fresh Debian root: two commands lead to a drawing, and what was installed goes without a trace.

What the root is made of is kept in the folder that GROUPDESIGN_DEBS names, where it names one, so that it is got from Debian once."""

import importlib.util
import os
import platform
import re
import shutil
import subprocess
import tempfile
import unittest
from pathlib import Path

from package_tests.installed import PATIENCE, Drawing, Installed, User, draw_shape
from package_tests.packages import DEB, need, run
from page.tests.places import wait_for

# A root that isn't there after so many seconds is left out, so that no check waits for a slow network.
LONGEST = 900
# Where there is no network, that is found within some minutes.
SOON_OVER = ['Acquire::http::Timeout "30"', 'Acquire::https::Timeout "30"', 'Acquire::Retries "3"']
SOURCES = [Path("/etc/apt/sources.list.d/debian.sources"), Path("/etc/apt/sources.list")]
# What the system itself writes of what was installed when.
OWN = ("proc/", "sys/", "dev/", "run/", "var/lib/dpkg/", "var/lib/apt/", "var/cache/", "var/log/")
PATH = "/usr/local/sbin:/usr/local/bin:/usr/sbin:/usr/bin:/sbin:/bin"
WITH_PROC = 'mount -t proc proc "$0/proc" && exec chroot "$@"'
# A journal, and what lies beside it.
JOURNAL = re.compile(r"home/(ana|ben)/\w+\.log\b.*")
# Where apt keeps what it got.
ARCHIVES = "var/cache/apt/archives"
KEPT = os.environ.get("GROUPDESIGN_DEBS")
# Gets what will be installed, and installs none of it. It is run beside the root that is made.
GET = 'APT_CONFIG="$MMDEBSTRAP_APT_CONFIG" apt-get install --yes --no-install-recommends --download-only '
# Tells where it was asked to go, as a browser that is opened.
BROWSER = "#!/bin/sh\necho \"$1\" >~/opened.new && mv ~/opened.new ~/opened\n"


def put_debs(start, end):
    """Copies the packages in one folder that another hasn't."""
    end.mkdir(parents=True, exist_ok=True)
    for deb in start.glob("*.deb"):
        if not (end / deb.name).exists():
            shutil.copy(deb, end / f"{deb.name}.part")
            (end / f"{deb.name}.part").rename(end / deb.name)


def wanted():
    """What the package depends on, and what else is installed for the tests."""
    depends = run("dpkg-deb", "--field", DEB, "Depends")
    return [*(word.split()[0] for word in depends.split(", ")), "mosquitto"]


def make_root(root, given):
    """Makes a root with users' tools, in which nothing that the package depends on is installed, but all of that is at hand. Takes
    what it can from a folder of packages. Says why where it can't be made."""
    system = platform.freedesktop_os_release()
    sources = [str(path) for path in SOURCES if path.exists() and "deb" in path.read_text()][:1]
    words = ["mmdebstrap", "--quiet", "--variant=apt", "--include=passwd", *(f"--aptopt={option}" for option in SOON_OVER)]
    words += [f"--skip={each}" for each in ("essential/unlink", "cleanup/apt/lists", "cleanup/apt/cache")]
    words += [f'--setup-hook=mkdir -p "$1/{ARCHIVES}" && find {given} -name "*.deb" -exec cp -t "$1/{ARCHIVES}" {{}} +']
    words += [f"--customize-hook={GET} {' '.join(wanted())}"]
    words += [system["VERSION_CODENAME"], root, *sources] if system["ID"] == "debian" else ["stable", root]
    try:
        done = subprocess.run(words, stdin=subprocess.DEVNULL, capture_output=True, text=True, timeout=LONGEST)
    except subprocess.TimeoutExpired:
        return f"mmdebstrap took more than {LONGEST} s"
    said = [line for line in done.stderr.splitlines() if line.startswith(("E:", "Err"))]
    return f"mmdebstrap made no root: {' '.join(said[:3])}" if done.returncode else None


def why_not():
    """Why no root can be made and used here, or nothing."""
    try:
        need("mmdebstrap", "chroot", "unshare")
    except unittest.SkipTest as why:
        return str(why)
    if os.geteuid():
        return "only root makes a root"
    kept = Path(KEPT).resolve() if KEPT else room / "kept"
    kept.mkdir(parents=True, exist_ok=True)
    why = make_root(room / "bare", kept)
    if KEPT and (room / "bare" / ARCHIVES).is_dir():
        put_debs(room / "bare" / ARCHIVES, kept)
    return why


def setUpModule():
    """Makes the root that both cases begin with."""
    global room
    room = Path(tempfile.mkdtemp(prefix="groupdesign-"))
    unittest.addModuleCleanup(shutil.rmtree, room, ignore_errors=True)
    room.chmod(0o755)
    if why := why_not():
        raise unittest.SkipTest(why)


class WithRoot:
    """A root of a case's own, from the one that was made."""

    @classmethod
    def make_own(cls):
        cls.root = room / cls.__name__
        run("cp", "-a", room / "bare", cls.root)
        cls.addClassCleanup(shutil.rmtree, cls.root, ignore_errors=True)
        tried = subprocess.run([*cls.within("/"), "true"], stdin=subprocess.DEVNULL, capture_output=True, text=True)
        if tried.returncode:
            raise unittest.SkipTest(f"nothing can be run in a root here: {tried.stderr.strip()}")

    @classmethod
    def user(cls, name, number, *settings):
        cls.as_root("useradd", "--create-home", f"--uid={number}", "--user-group", name)
        words = cls.within(f"/home/{name}", f"--userspec={number}:{number}", "--groups=")
        return User([*words, *settings, "groupdesign"], cls.root / "home" / name)

    @classmethod
    def within(cls, home, *options):
        """The words in front of a command that runs in the root, which has /proc for as long."""
        settings = [f"--chdir={home}", f"HOME={home}", f"PATH={PATH}", "LANG=C.UTF-8", "DEBIAN_FRONTEND=noninteractive"]
        return ["unshare", "--mount", "sh", "-c", WITH_PROC, cls.root, *options, cls.root, "env", "-i", *settings]

    @classmethod
    def as_root(cls, *words):
        words = [*cls.within("/"), *words]
        done = subprocess.run(words, stdin=subprocess.DEVNULL, stdout=subprocess.PIPE, stderr=subprocess.STDOUT, text=True)
        if done.returncode:
            raise AssertionError(f"{words}: {done.stdout}")


class FromNothing(WithRoot, unittest.TestCase):
    """Two commands, as README has them, in a root where nothing else was installed before."""

    @classmethod
    def setUpClass(cls):
        need("chromium", "chromedriver")
        if not importlib.util.find_spec("selenium"):
            raise unittest.SkipTest("there is no selenium for this Python")
        cls.make_own()

    # The browser is this machine's, which the one in the root hands on what it was asked for.
    def test_two_commands_lead_to_a_drawing_in_two_windows(self):
        from page.tests.browse_demo import Pane
        from page.tests.browser import browser

        class Window(Pane):
            def enter(self):
                self.driver.switch_to.window(self.number)

        self.assertFalse((self.root / "usr/bin/python3").exists())
        shutil.copy(DEB, self.root / "tmp")
        self.as_root("sh", "-c", "cd /tmp && apt-get install --yes --no-install-recommends ./groupdesign_*.deb")
        (self.root / "usr/local/bin/browser").write_text(BROWSER)
        (self.root / "usr/local/bin/browser").chmod(0o755)
        ana = self.user("ana", 1001, "BROWSER=/usr/local/bin/browser")
        with Drawing(ana, "--demo", "2", "--open", addresses=3) as drawing:
            wait_for((ana.home / "opened").exists, PATIENCE)
            self.assertEqual((ana.home / "opened").read_text().strip(), drawing.addresses[0])
            driver = browser()
            self.addCleanup(driver.quit)
            driver.get(drawing.addresses[1])
            handles = [driver.current_window_handle]
            driver.switch_to.new_window("window")
            driver.get(drawing.addresses[2])
            windows = [Window(driver, handle) for handle in (*handles, driver.current_window_handle)]
            for window, other, kind, height in (*windows, "rect", -150), (*reversed(windows), "ellipse", 50):
                draw_shape(window, kind, height)
                wait_for(lambda: other.ids(kind), PATIENCE)
            wait_for(lambda: windows[0].shown() == windows[1].shown(), PATIENCE)
            self.assertEqual(len(windows[0].shown()), 2)
            self.assertEqual(drawing.end(), (0, "", ""))


class FreshRoot(WithRoot, Installed, unittest.TestCase):
    has_broker = True

    @classmethod
    def setUpClass(cls):
        cls.make_own()
        cls.as_root("apt-get", "install", "--yes", "--no-install-recommends", *wanted())
        cls.ana, cls.ben = cls.user("ana", 1001), cls.user("ben", 1002)
        cls.before = cls.files()
        cls.install()

    @classmethod
    def install(cls):
        """As a person does it. All that it depends on is there, so it needs no network."""
        shutil.copy(DEB, cls.root / "tmp")
        cls.as_root("apt-get", "install", "--yes", "--no-install-recommends", f"/tmp/{DEB.name}")
        (cls.root / "tmp" / DEB.name).unlink()

    @classmethod
    def files(cls):
        """The names of all files that the system doesn't write by itself."""
        found = (str(path.relative_to(cls.root)) for path in cls.root.rglob("*"))
        return {name for name in found if not name.startswith(OWN)}

    def test_what_was_installed_goes_and_journals_stay(self):
        self.ana.run("node", "--session", "7", "--site", "1", "--journal", "kept.log", "127.0.0.1:0", given="")
        with Drawing(User([*self.within("/"), "groupdesign"], self.root), "--demo", "1") as drawing:
            self.assertEqual(drawing.end()[0], 0)
        for verb in ("remove", "purge"):
            self.assertGreater(len(self.files() - self.before), 100)
            self.as_root("apt-get", verb, "--yes", "groupdesign")
            left = self.files()
            journals = {name for name in left if JOURNAL.fullmatch(name)}
            self.assertIn("home/ana/kept.log", journals)
            self.assertEqual((left - self.before, self.before - left), (journals, set()))
            self.install()
