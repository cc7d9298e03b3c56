"""Show that the comparison can fail.

Each fault is planted in a temporary copy of the independent program, which is
then compared with the true one on the same files, lines and plays. One line
for each fault says what caught it; the end is 1 if one was not caught.
"""

import importlib
import shutil
import sys
import tempfile
from pathlib import Path

sys.dont_write_bytecode = True
HERE = Path(__file__).resolve().parent
sys.path[0] = str(HERE)

from independent import comparisons, makers, panel_comparisons
from independent.play import lines_of

SEED, FILES, LINES, PLAYS = 1, 100, 2000, 28
PANEL_LINES, PANEL_FILES, FEED_PLAYS = 2000, 130, 60
SMALL_LINES, SMALL_PLAYS = 1200, 28
# A fault in one of these shows on panels alone.
PANEL_MODULES = ("panels", "designs", "panel_listing", "panel_walks", "feeds", "feed_calls",
                 "feed_promises")
# A fault in one of these shows on the small cabinet alone.
SMALL_MODULES = ("small", "small_calls", "small_promises")
LONGEST = 150


def planted_faults():
    """The faults, each as (what is wrong, module, pairs of the true text and the false one)."""
    faults = []
    before = ""
    for line in (HERE / "planted_faults.txt").read_text(encoding="utf-8").splitlines():
        mark, text = line[:2], line[2:]
        if line.startswith("fault "):
            module, _, what = line[len("fault "):].partition(": ")
            faults.append((what, module, []))
        elif mark == "- " and before == "- ":
            faults[-1][2][-1][0].append(text)
        elif mark == "- ":
            faults[-1][2].append(([text], []))
        elif mark == "+ ":
            faults[-1][2][-1][1].append(text)
        before = mark
    return [(what, module, [("\n".join(true), "\n".join(false)) for true, false in changes])
            for what, module, changes in faults]


def copy_with(folder, name, module, changes):
    """A copy of the package under the name, with the changes made in the module."""
    shutil.copytree(HERE / "independent", folder / name,
                    ignore=shutil.ignore_patterns("__pycache__"))
    path = folder / name / f"{module}.py"
    text = path.read_text(encoding="utf-8")
    for true, false in changes:
        if text.count(true) != 1:
            raise SystemExit(f"{module}.py has {text.count(true)} times, not once: {true}")
        text = text.replace(true, false)
    path.write_text(text, encoding="utf-8")
    importlib.invalidate_caches()


def stopping(play):
    """The program, which gives nothing where its fault stops it."""
    def program(data=b""):
        try:
            return play(data)
        except Exception:
            return b""
    return program


def stopping_console(console_type):
    """The console program, which answers no more lines where its fault stops it."""
    def program(data):
        console, answers = console_type(), []
        try:
            for line in lines_of(data):
                answers.append(console.answer(line))
        except Exception:
            pass
        return "".join(answer + "\n" for answer in answers).encode("ascii")
    return program


def stopping_panel(play):
    """The panel program, which gives nothing where its fault stops it."""
    def program(data):
        try:
            return play(data)
        except Exception:
            return 2, b""
    return program


def made_once():
    """The files and lines that every copy is tried on."""
    return {
        "files": makers.schedule_files(SEED, FILES),
        "traced": makers.traced_files(SEED, FILES),
        "lines": makers.console_lines(SEED, LINES),
        "panel lines": makers.panel_lines(SEED, PANEL_LINES),
        "designs": makers.design_files(SEED, PANEL_FILES),
        "small lines": makers.small_lines(SEED, SMALL_LINES),
    }


def panel_comparison(name, made):
    """The comparisons on panels of the true program with the copy, each as (what, call)."""
    play = importlib.import_module(f"{name}.play")
    promises = importlib.import_module(f"{name}.feed_promises")
    console, panel = stopping_console(play.Console), stopping_panel(play.play_panel)
    return (
        ("panel_text", lambda: panel_comparisons.compare_panel_text(panel, made["designs"])),
        ("panels", lambda: comparisons.compare_console(console, made["panel lines"], "panels")),
        ("feeds", lambda: promises.check_feed_promises(SEED, FEED_PLAYS)),
    )


def small_comparison(name, made):
    """The comparisons on the small cabinet of the true program with the copy, each as (what, call)."""
    play = importlib.import_module(f"{name}.play")
    promises = importlib.import_module(f"{name}.small_promises")
    console = stopping_console(play.Console)
    return (
        ("dials", lambda: comparisons.compare_console(console, made["small lines"], "dials")),
        ("polls", lambda: promises.check_small_promises(SEED, SMALL_PLAYS)),
    )


def comparison(name, made):
    """The comparisons of the true program with the copy, each as (what, call)."""
    play = importlib.import_module(f"{name}.play")
    promises = importlib.import_module(f"{name}.promises")
    files, traced, lines = made["files"], made["traced"], made["lines"]
    return (
        ("sheets", lambda: comparisons.compare_sheets(stopping(play.play_sheets)())),
        ("listing", lambda: comparisons.compare_listing(stopping(play.play_listing), files)),
        ("trace", lambda: comparisons.compare_listing(stopping(play.play_trace), traced,
                                                      what="trace")),
        ("console", lambda: comparisons.compare_console(stopping_console(play.Console), lines)),
        ("promises", lambda: promises.check_promises(SEED, PLAYS)),
    )


def compared_on(module):
    """The comparisons that a fault in the module shows on."""
    if module in SMALL_MODULES:
        return small_comparison
    return panel_comparison if module in PANEL_MODULES else comparison


def caught_by(name, made, compared):
    """What finds a difference in the copy first, and the difference; None where nothing does."""
    for what, compare in (pair for part in compared for pair in part(name, made)):
        try:
            compare()
        except Exception as found:
            words = " ".join(str(found).split()) or type(found).__name__
            return what, words if len(words) <= LONGEST else words[:LONGEST] + " .."
    return None


def main():
    """Plant each fault in turn."""
    made, faults, missed = made_once(), planted_faults(), 0
    with tempfile.TemporaryDirectory() as temporary:
        folder = Path(temporary)
        sys.path.insert(0, temporary)
        copy_with(folder, "unchanged", "run", [])
        found = caught_by("unchanged", made, (comparison, panel_comparison, small_comparison))
        if found:
            raise SystemExit(f"a copy without a fault differs: {found}")
        for number, (fault, module, changes) in enumerate(faults):
            copy_with(folder, f"planted_{number}", module, changes)
            found = caught_by(f"planted_{number}", made, (compared_on(module),))
            missed += found is None
            print(f"caught by {found[0]}: {fault} | {found[1]}" if found
                  else f"NOT CAUGHT: {fault}", flush=True)
    print(f"{len(faults) - missed} of {len(faults)} planted faults caught")
    return 1 if missed else 0


if __name__ == "__main__":
    sys.exit(main())
