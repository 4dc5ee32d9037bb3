"""The worked scripts, and how a text is run where something is refused."""

import collections
import os
import pathlib
import sys
import tempfile
import zlib

ROOT = pathlib.Path(__file__).resolve().parent.parent.parent
sys.path.insert(0, str(ROOT / "tests/soak"))
from driver import expect, made
from script import Script

# the program, the library that refuses, and of how many places of a text one is tried
Setup = collections.namedtuple("Setup", "program refuse every")

NO_MEMORY, NO_THREAD = ((b"", f"itmrun: no {what}\n".encode(), 4) for what in ("memory", "thread"))
MOST = 20_000  # nothing here is refused so often

# those of a short sweep: each kind of call, and each end that a try or a text may have
FEW = """lost_update which_memory transfers recount logger actions_of_a_full_try arena_copies copy_runs_again crossing_ends
irrevocable_actions irrevocable_calls_of_each_kind irrevocable_nested outer_abort restart_told_by_the_third_version
two_gave_up undo_actions_around_an_inner_cancel undo_actions_of_an_impatient_commit""".split()


class Worked:
    """A script and what `sched` answers to it: the output, the errors and the status."""

    def __init__(self, file):
        self.name, self.text = file.stem, file.read_bytes()
        output, errors = (file.with_suffix(end) for end in (".history", ".errors"))
        output, errors = (it.read_bytes() if it.exists() else b"" for it in (output, errors))
        self.has_fault = not output
        self.ample = output, errors, 2 if self.has_fault else 4 if errors else 0

    def script(self):
        return Script(self.text.decode("latin-1"))


def worked(few):
    """All of them, or those of a short sweep."""
    files = [*ROOT.glob("examples/*.itm"), *ROOT.glob("tests/rows/*.itm")]
    return sorted((Worked(it) for it in files if not few or it.stem in FEW), key=lambda it: it.name)


def refusing(setup, command, text, **variables):
    """What the program answers to a text where this is refused, and whether it came to that."""
    with tempfile.TemporaryDirectory() as folder:
        told = os.path.join(folder, "refused")
        words = {name: str(value) for name, value in variables.items()}
        answer = made(setup.program, command, text, LD_PRELOAD=setup.refuse, REFUSED=told, **words)
        return answer, os.path.exists(told)


def places(setup, text):
    """The numbers of what is refused: all, or one of so many, the first of which is drawn by the text."""
    return range(1 + zlib.crc32(text) % setup.every, MOST, setup.every)


def each(setup, command, text, name, **variables):
    """Each answer with one more thing refused, by its number: that of this name. The last run, in which nothing is, has to
    be answered as one without the library."""
    for number in places(setup, text):
        answer, refused = refusing(setup, command, text, **{name: number}, **variables)
        if not refused:
            break
        yield number, answer
    ample = made(setup.program, command, text)
    expect(not refused, "there is no end")
    expect(command == "threads" or answer == ample, "with nothing refused the answer is", answer, "in place of", ample)
