"""The comparison of the panel program with the independent one.

The other program is anything that takes the bytes of a design and gives its
status and the bytes of its standard output.
"""

import subprocess
import tempfile
from collections import Counter

from .comparisons import LIMIT_SECONDS, tally, unlike
from .differences import Difference, short


class FileProgram:
    """A program of the cabinet's software that is given its bytes in a file."""

    def __init__(self, command):
        self.command = command

    def __call__(self, data):
        with tempfile.NamedTemporaryFile() as file:
            file.write(data)
            file.flush()
            try:
                done = subprocess.run([*self.command, file.name], stdin=subprocess.DEVNULL,
                                      stdout=subprocess.PIPE, timeout=LIMIT_SECONDS, check=False)
            except subprocess.TimeoutExpired:
                raise Difference(f"{self.command[0]}: no end after {LIMIT_SECONDS} "
                                 "seconds") from None
        return done.returncode, done.stdout


def compare_panel_text(program, files):
    """The panel program's status and text for each design file."""
    refusals = Counter()
    for at, (name, data, status, text) in enumerate(files):
        found_status, found = program(data)
        if (found_status, found) != (status, text.encode("ascii")):
            raise unlike(f"panel_text: file {at} ({name}) differs; the file, {len(data)} bytes: "
                         f"{short(data.hex() or '-')}", f"status {status}, {text}",
                         f"status {found_status}, {found.decode('latin-1')}")
        refusals[int(text.split()[1]) if status else 0] += 1
    return f"{len(files)} designs equal; refusals {tally(refusals)}"
