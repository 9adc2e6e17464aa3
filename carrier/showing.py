"""A link as a code for a camera, where there is something that makes one."""

import shutil
import subprocess
import sys

MISSING = "(for a code that a camera reads: sudo apt install python3-qrcode)"
# Dark on light, also where the terminal is dark: a dark module is a blank, and the paper is full.
BLOCKS = {(False, False): "█", (False, True): "▀", (True, False): "▄", (True, True): " "}


def modules_of(text):
    """The rows of the code, with whether each module is dark, by Debian's python3-qrcode or qrencode. Nothing where neither is
    there."""
    try:
        import qrcode
    except ImportError:
        return modules_by_program(text)
    code = qrcode.QRCode(border=2)
    code.add_data(text)
    code.make()
    return code.get_matrix()


def modules_by_program(text):
    program = shutil.which("qrencode")
    if program is None:
        return None
    # The link goes by a pipe, since others see the words of a program. Each module has two letters.
    done = subprocess.run([program, "-t", "ASCII", "-m", "2", "-o", "-"], input=text, capture_output=True, text=True)
    return [[each == "#" for each in line[::2]] for line in done.stdout.splitlines()] if done.returncode == 0 else None


def lines_of(rows):
    """The code for a terminal, two rows in a line."""
    rows = rows + [[False] * len(rows[0])] * (len(rows) % 2)
    return ["".join(BLOCKS[pair] for pair in zip(*rows[at : at + 2])) for at in range(0, len(rows), 2)]


def show_code(text, to=sys.stdout):
    """Prints the code, or what to install."""
    rows = modules_of(text)
    print("\n".join(lines_of(rows)) if rows else MISSING, file=to, flush=True)
