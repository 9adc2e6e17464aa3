"""Where the page stands, in a checkout or where it was installed, and how it is called there."""

from pathlib import Path

ROOT = Path(__file__).resolve().parent.parent
# In a checkout the launcher stands beside the folder of the page. Where it is installed, as share/groupdesign/page, the command
# stands in bin.
LAUNCHER = ROOT / "groupdesign"
IS_INSTALLED = not LAUNCHER.exists()
PROGRAM = ROOT.parent.parent / "bin/groupdesign" if IS_INSTALLED else LAUNCHER
CALLED = "groupdesign draw" if IS_INSTALLED else "./draw"
TO_BUILD = "" if IS_INSTALLED else " ./groupdesign builds it;"
