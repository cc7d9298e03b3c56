"""The comparisons of the independent program with another one.

The other program is anything that takes the bytes of its standard input and
gives the bytes of its standard output.
"""

import subprocess
from collections import Counter

from .console import Console
from .cuts import told
from .differences import Difference, first_unequal, short, shrink
from .file_makers import CASE
from .listing import listing
from .play import lines_of
from .sheet_lines import sheet_lines
from .trace import trace

LIMIT_SECONDS = 600
TEXTS = {"listing": listing, "trace": trace}
NO_REFUSAL = ("record", "set", "help", "frecord", "fset", "feed", "drecord", "dset")
# The lines from which on a comparison's play may be tried again.
RESETS = {"console": ("open", "set"), "panels": ("feed",), "dials": ("dopen", "dset")}
TRIED_RESETS = 3


class Program:
    """A program of the cabinet's software, run anew at each call; `status` is how it ended last."""

    def __init__(self, command):
        self.command = command
        self.status = None
        self.quiet = False

    def __call__(self, data):
        try:
            done = subprocess.run(self.command, input=data, stdout=subprocess.PIPE,
                                  stderr=subprocess.DEVNULL if self.quiet else None,
                                  timeout=LIMIT_SECONDS, check=False)
        except subprocess.TimeoutExpired:
            raise Difference(f"{self.command[0]}: no end after {LIMIT_SECONDS} seconds") from None
        self.status = done.returncode
        return done.stdout


def unlike(what, expected, found):
    """The difference between two texts."""
    return Difference(f"{what}\n  expected: {short(expected)}\n  found:    {short(found)}"
                      + first_unequal(expected, found))


def tally(refusals):
    """The refusals met, in words."""
    return ", ".join(f"{number}: {refusals[number]}" for number in sorted(refusals))


def compare_sheets(text):
    """All sheets and the refusals at bad arguments, line by line."""
    expected, found = sheet_lines(), lines_of(text)
    for line, (one, other) in enumerate(zip(expected, found)):
        if one != other:
            raise unlike(f"sheets: line {line + 1} differs", one, other)
    if len(expected) != len(found):
        raise Difference(f"sheets: expected {len(expected)} lines, found {len(found)}")
    return f"{len(expected)} sheet lines equal"


def compare_listing(program, files, statuses=False, what="listing"):
    """The listing or the trace of each file, byte for byte; where asked for, how the program ended."""
    refusals = Counter()
    for at, (name, parts, text) in enumerate(files):
        if program(b"".join(parts)) != text.encode("ascii"):
            raise listing_difference(program, what, f"file {at} ({name}) differs", parts)
        refused = text.startswith("refused")
        if statuses and program.status != int(refused):
            raise unlike(f"{what}: file {at} ({name}): the exit status differs",
                         str(int(refused)), str(program.status))
        refusals[int(text.split()[1]) if refused else 0] += 1
    with_statuses = " with their exit statuses" if statuses else ""
    return f"{len(files)} {what}s equal{with_statuses}; refusals {tally(refusals)}"


def check_unreadable(what, command):
    """What is no file ends with 2, one line on standard error and nothing on standard output."""
    for path in ("/no/such/file", "/"):
        done = subprocess.run([*command, path], stdin=subprocess.DEVNULL, capture_output=True,
                              timeout=LIMIT_SECONDS, check=False)
        found = (done.returncode, done.stdout, done.stderr.count(b"\n"))
        if found != (2, b"", 1):
            raise unlike(f"{what}: {path}: status, output and lines of error differ",
                         str((2, b"", 1)), str(found))


def check_cut_case(what, program):
    """The paper's case cut at every byte: the line, the exit status, and what is said of the cut.

    After this the program's standard error is no longer shown; what the first
    call says there, of a program that is not built yet, is.
    """
    program(b"")
    program.quiet = True
    data = b"".join(CASE)
    for end in range(len(data)):
        number, record, offset, there = told(CASE, end)
        said = f"{what}: bytes of record {record} that are there: {there}" if there else ""
        expected = (1, f"refused {number} {record} {offset}\n", said)
        done = subprocess.run(program.command, input=data[:end], capture_output=True,
                              timeout=LIMIT_SECONDS, check=False)
        lines = [line for line in lines_of(done.stderr) if line.startswith(f"{what}: ")]
        found = (done.returncode, done.stdout.decode("latin-1"), "\n".join(lines))
        if found != expected:
            raise unlike(f"{what}: the first {end} bytes of the paper's case: "
                         "status, output and error differ", str(expected), str(found))


def listing_difference(program, what, where, parts):
    """The difference on the shortest file that is found by dropping parts of this one."""
    def differs(fewer):
        data = b"".join(fewer)
        return program(data) != TEXTS[what](data).encode("ascii")

    data = b"".join(shrink(parts, differs))
    return unlike(f"{what}: {where}; shortest file found, {len(data)} bytes: "
                  f"{short(data.hex() or '-')}", TEXTS[what](data), program(data).decode("latin-1"))


def same(line, expected, found):
    """Whether the answer is the right one; `help` may use words of its own."""
    return found.startswith("open") if line == "help" else found == expected


def ask(program, lines):
    """The program's answers to the lines."""
    return lines_of(program("".join(line + "\n" for line in lines).encode("latin-1")))


def compare_console(program, made, what="console"):
    """The answers to all lines, given to one program."""
    lines = [line for line, _ in made]
    answers = ask(program, lines)
    refusals = Counter()
    for at, (line, expected) in enumerate(made):
        found = answers[at] if at < len(answers) else "(no answer)"
        if not same(line, expected, found):
            raise console_difference(program, what, lines[:at + 1], (expected, found))
        refusals.update(refusal_of(line, expected))
    if len(answers) != len(lines):
        raise Difference(f"{what}: {len(lines)} lines, but {len(answers)} answers")
    return f"{len(lines)} console lines equal; refusals {tally(refusals)}"


def refusal_of(line, answer):
    """The refusal number in an answer, if it has one."""
    if answer == "?" or line.split(" ")[0] in NO_REFUSAL:
        return []
    return [int(answer.split(" ")[0])]


def console_difference(program, what, lines, met):
    """The difference at the last line, with as few lines before it as are found to show it."""
    *earlier, last = lines
    resets = [at for at, line in enumerate(earlier) if line.split(" ")[0] in RESETS[what]]
    what = f"{what}: the answer to line {len(lines)} differs"

    def answers_to(before):
        found = ask(program, before + [last])[len(before):]
        console = Console()
        for line in before:
            console.answer(line)
        return console.answer(last), found[0] if found else "(no answer)"

    def differs(before):
        return not same(last, *answers_to(before))

    for before in ([], *[earlier[at:] for at in resets[:-TRIED_RESETS - 1:-1]], earlier):
        if differs(before):
            earlier = before
            break
    else:
        return unlike(f"{what}, but not when asked again; the line: {short(last)}", *met)
    earlier = shrink(earlier, differs)
    shown = "".join(f"\n  > {short(line)}" for line in earlier + [last])
    return unlike(f"{what}; shortest lines found:{shown}", *answers_to(earlier))
