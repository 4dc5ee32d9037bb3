"""Changes a legal run in many ways, and has each told.

    changes.py ITMRUN FOLDER

FOLDER has a run of programs/counters.c, in which each commit changes memory: `run.recording`, `run.history` and the
program `counters`; and one of programs/mixed.c that is told in pieces: `long.recording` and the program `mixed`. To
each changed history `itmrun check` has to answer as tests/soak/verdict.py does, which works the verdict out again; each
changed recording has to be told by settle.py, with a kind that is due. Prints how many were."""

import pathlib
import re
import subprocess
import sys

HERE = pathlib.Path(__file__).resolve().parent
sys.path.insert(0, str(HERE.parent.parent / "tests" / "soak"))

import verdict  # noqa: E402


class Lines:
    """The lines of a text with attempts in it."""

    def __init__(self, text):
        self.lines = text.splitlines()
        self.heads = [i for i, line in enumerate(self.lines) if line.startswith("attempt")]

    def attempts(self, outcome):
        """Where attempts of this outcome begin and end."""
        for i in self.heads:
            if self.lines[i].split()[-2] == outcome:
                yield i, self.lines.index("end", i)

    def one(self, outcome, which):
        """The attempt that has so large a part of them before it."""
        found = list(self.attempts(outcome))
        return found[int(which * len(found))]

    def call(self, outcome, which, start):
        """The first line of a call that begins so, from such an attempt on."""
        first, _ = self.one(outcome, which)
        attempts = [(begin, end) for begin, end in self.attempts(outcome) if begin >= first]
        return next(i for begin, end in attempts for i in range(begin, end) if self.lines[i].startswith(start))

    def text(self):
        return "".join(f"{line}\n" for line in self.lines)


def turned(line):
    """A line with its last byte turned, of the reply or of what is written."""
    head, data, tail = re.fullmatch(r"(.* )([0-9a-f]+)( = ok)?", line).groups()
    return f"{head}{data[:-2]}{int(data[-2:], 16) ^ 1:02x}{tail or ''}"


def turn(outcome, which, start):
    def change(lines):
        i = lines.call(outcome, which, start)
        lines.lines[i] = turned(lines.lines[i])

    return change


def turn_final_word(lines):
    i = next(i for i, line in enumerate(lines.lines) if line.startswith("word") and line.endswith(" 1"))
    lines.lines[i] = f"{turned(lines.lines[i][:-2])} 1"


def turn_last(lines):
    lines.lines[-1] = turned(lines.lines[-1])


def drop_at(lines, begin):
    del lines.lines[begin : lines.lines.index("end", begin) + 1]


def drop(lines):
    drop_at(lines, lines.one("committed", 0.5)[0])


def field(i, new, number):
    """Another field in the head of an attempt."""

    def change(lines):
        begin, _ = lines.one("committed", number)
        fields = lines.lines[begin].split()
        fields[i] = new
        lines.lines[begin] = " ".join(fields)

    return change


def swap(lines):
    heads = [begin for begin, _ in lines.attempts("committed")]
    for here, there in zip(heads[5:], heads[6:]):
        one, other = lines.lines[here].split(), lines.lines[there].split()
        one[3], other[3] = other[3], one[3]
        lines.lines[here], lines.lines[there] = " ".join(one), " ".join(other)
        return


def drop_and_close_up(lines):
    begin, _ = lines.one("committed", 0.3)
    gone = int(lines.lines[begin].split()[3])
    drop_at(lines, begin)
    for i, line in enumerate(lines.lines):
        if line.startswith("attempt"):
            fields = line.split()
            fields[3] = str(int(fields[3]) - (int(fields[3]) > gone))
            lines.lines[i] = " ".join(fields)


def drop_line(start):
    def change(lines):
        del lines.lines[lines.call("committed", 0.6, start)]

    return change


# how a history is changed; the kinds that the verdict may have, if it has to be one
HISTORIES = {
    "a reply of a commit": (turn("committed", 0.5, "call _ITM_R"), {"reply"}),
    "a reply of a conflict": (turn("conflict", 0.5, "call _ITM_R"), {"reply"}),
    "a reply of a reader": (turn("readonly", 0.5, "call _ITM_R"), {"reply"}),
    "what a commit wrote": (turn("committed", 0.4, "call _ITM_W"), {"reply", "final"}),
    "the last bytes": (turn_last, {"final"}),
    "a dropped commit": (drop, {"position", "at"}),
    "a dropped commit, and the others closed up": (drop_and_close_up, {"reply", "final"}),
    "swapped positions": (swap, None),
    "a position that is taken": (field(3, "0", 0.7), {"position"}),
    "a position beyond all": (field(3, "99999", 0.7), {"position"}),
    "a commit that is called a reader": (field(4, "readonly", 0.7), {"position", "at", "shape", "reply"}),
    "a commit that is called a conflict": (field(4, "conflict", 0.7), {"position", "at", "shape", "reply"}),
    "no commit call": (drop_line("call _ITM_commit"), {"shape"}),
    "a write left out": (drop_line("call _ITM_W"), {"reply", "final"}),
}

RECORDINGS = {
    "a reply of a commit": (turn("committed", 0.5, "call _ITM_R"), {"reply", "position"}),
    "a reply of a conflict": (turn("conflict", 0.5, "call _ITM_R"), {"reply"}),
    "a reply of a reader": (turn("readonly", 0.5, "call _ITM_R"), {"reply"}),
    "what a commit wrote": (turn("committed", 0.4, "call _ITM_W"), {"reply", "final", "position"}),
    "the last bytes": (turn_final_word, {"final"}),
    "a dropped commit": (drop, {"reply", "final", "position", "at"}),
    "a write left out": (drop_line("call _ITM_W"), {"reply", "final", "position"}),
}


LONG_RECORDINGS = {
    "a reply late in a long run": (turn("committed", 0.95, "call _ITM_RU8"), {"reply", "position"}),
}


def ran(*command):
    return subprocess.run(command, capture_output=True, text=True)


def history_is_told(itmrun, folder, change, kinds):
    lines = Lines((folder / "run.history").read_text())
    change(lines)
    changed = folder / "changed.history"
    changed.write_text(lines.text())
    run, due = ran(itmrun, "check", str(changed)), verdict.judge(lines.text().encode())
    wanted = verdict.answer(due)
    same = (run.stdout.encode(), run.stderr.encode(), run.returncode) == wanted
    return same and (kinds is None or due.kind in kinds), f"{run.stdout.strip()}, wanted {due}"


def recording_is_told(itmrun, folder, change, kinds, name="run", program="counters"):
    lines = Lines((folder / f"{name}.recording").read_text())
    change(lines)
    changed = folder / "changed.recording"
    changed.write_text(lines.text())
    settle = HERE.parent / "settle" / "settle.py"
    run = ran(sys.executable, str(settle), str(changed), str(folder / "settled.history"), str(folder / program))
    told = run.stdout.split()
    return run.returncode == 3 and told[0] == "bad" and told[1] in kinds, run.stdout + run.stderr


def long_recording_is_told(itmrun, folder, change, kinds):
    return recording_is_told(itmrun, folder, change, kinds, "long", "mixed")


def main(itmrun, folder):
    passed = failed = 0
    histories, recordings = (history_is_told, HISTORIES), (recording_is_told, RECORDINGS)
    for told, changes in (histories, recordings, (long_recording_is_told, LONG_RECORDINGS)):
        for name, (change, kinds) in changes.items():
            right, what = told(itmrun, pathlib.Path(folder), change, kinds)
            passed, failed = passed + right, failed + (not right)
            if not right:
                print(f"failed: {told.__name__}: {name}: {what}")
    print(f"{passed} passed, {failed} failed")


if __name__ == "__main__":
    main(*sys.argv[1:])
