"""The console's lines for the small cabinet."""

from . import run, small, words
from .words import entries, list_text, split, u16, u32

HELP = ("dopen W C; denter T V; dturn T; poll E; drecord; "
        "dset W C ENTERED COUNTS TOGGLES PLACES DIALS; highest W SUMS")


class SmallCalls:
    """The small cabinet's record that the console holds, at first of a refused opening."""

    def __init__(self):
        super().__init__()
        self.small = small.Small()

    def dopen(self, width, construction):
        """`dopen W C`: the record is then the call's, also that of a refused opening."""
        refusal, self.small = small.opening(width, construction)
        return str(refusal)

    def denter(self, token, wire):
        """`denter T V`"""
        return str(small.enter(self.small, token, wire))

    def dturn(self, token):
        """`dturn T`"""
        return " ".join(str(part) for part in small.turn(self.small, token))

    def poll(self, exit_):
        """`poll E`"""
        refusal, dealt = small.poll(self.small, exit_)
        return f"{refusal} {dealt}"

    def drecord(self):
        """`drecord`"""
        return small_text(self.small)

    def dset(self, width, construction, entered, counts, toggles, places, dials):
        """`dset ..`: the record is then this one, sound or not."""
        self.small = small.Small(run.Run(width, construction, entered))
        words.put(self.small.run, counts, toggles, places)
        for exit_, dial in dials:
            self.small.dials[exit_] = dial
        return "1" if run.sound(self.small.run) else "0"

    def highest(self, width, sums):
        """`highest W SUMS`"""
        all_sums = [0] * run.LARGEST_WIDTH
        for exit_, times in sums:
            all_sums[exit_] = times
        refusal, number = small.highest(width, all_sums)
        if refusal:
            return str(refusal)
        return "0 none" if number is None else f"0 {number}"


def dial_entry(item):
    """`i=NOW/LAST/SUM`"""
    exit_, dial = split(item, "=", 2)
    now, last, total = split(dial, "/", 3)
    return u32(exit_), small.Dial(u16(now), u16(last), u32(total))


def dials(word):
    """Dials that differ from an opening's."""
    return entries(word, run.LARGEST_WIDTH, dial_entry)


def small_text(record):
    """The seven words of a small cabinet's record."""
    return words.record_text(record.run) + " " + list_text(
        f"{exit_}={dial.now}/{dial.last}/{dial.sum}"
        for exit_, dial in enumerate(record.dials) if dial != small.Dial())


CALLS = {
    "dopen": (SmallCalls.dopen, (u16, u16)),
    "denter": (SmallCalls.denter, (u16, u16)),
    "dturn": (SmallCalls.dturn, (u16,)),
    "poll": (SmallCalls.poll, (u16,)),
    "drecord": (SmallCalls.drecord, ()),
    "dset": (SmallCalls.dset, (u16, u16, u32, words.counts, words.toggles, words.places, dials)),
    "highest": (SmallCalls.highest, (u16, words.counts)),
}
