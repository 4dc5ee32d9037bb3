"""Runs each script of the tables through `itmrun sched -`, and its history through `itmrun check -`.

run.py PROGRAM [NAME..]: all tables, or those of these modules. The last line is "N passed, M failed".

What comes of a script has to be what its table foretells, to the byte, and has to be legal. One line that is changed in
a history has to be told: of the first script of each table one of each kind of line, and of each other script one line.
"""

import importlib
import re
import subprocess
import sys
import tempfile

TABLES = ["accesses", "copies", "irrevocable", "nests"]


class Runs:
    def __init__(self, program):
        self.program, self.passed, self.failed = program, 0, 0

    def run(self, command, text):
        """What the program writes and says of a text, and its status."""
        with tempfile.TemporaryFile() as given, tempfile.TemporaryFile() as written:
            given.write(text.encode())
            given.seek(0)
            done = subprocess.run(
                [self.program, command, "-"], stdin=given, stdout=written, stderr=subprocess.PIPE, check=False
            )
            written.seek(0)
            return written.read().decode(errors="replace"), done.stderr.decode(errors="replace"), done.returncode

    def expect(self, name, found, wanted):
        """What a run wrote, what it said and its status."""
        if found == wanted:
            self.passed += 1
            return
        self.failed += 1
        print(f"failed: {name}: status {found[2]}, wanted {wanted[2]}")
        for what, there, due in zip(["output", "errors"], found, wanted):
            there, due = there.split("\n"), due.split("\n")
            for number, (a, b) in enumerate(zip([*there, *[""] * len(due)], [*due, *[""] * len(there)]), 1):
                if a != b:
                    print(f"{what}, line {number}:\nwanted {b[:200]}\nfound  {a[:200]}")
                    break

    def case(self, case, places):
        history = case.history
        self.expect(case.name, self.run("sched", case.script), (history, case.errors, case.status))
        self.expect(f"{case.name}, judged", self.run("check", history), ("legal\n", "", 0))
        for place in places(history):
            end = history.index("\n", place)
            line = another(history[place:end])
            number = history.count("\n", 0, place) + 1
            self.expect(
                f"{case.name}, judged with line {number} as {line[:100]}",
                self.run("check", history[:place] + line + history[end:]),
                (f"bad {number} reply\n", "", 3),
            )


def another(line):
    """The line of a call with another reply of such a call."""
    call, reply = line.rsplit(" = ", 1)
    kind, _, number = reply.partition(" ")
    if kind == "ok":
        return f"{call} = refused 3"
    if kind in ("code", "refused"):
        return f"{call} = {kind} {int(number) % 8 + 1}"
    return f"{call} = {reply[:-1]}{int(reply[-1], 16) ^ 1:x}"


def one_of_each(history):
    """Where the last call of each name with each kind of reply stands."""
    found = {}
    for call in re.finditer(r"^call (\S+).* = (ok|code \d+|refused \d|(?=[0-9a-f]))", history, re.MULTILINE):
        found[call.groups()] = call.start()
    return found.values()


def one(history):
    """Where the next call after the middle stands."""
    place = history.find("\ncall ", len(history) // 2) + 1
    return [place] if place else []


def main(program, names):
    runs = Runs(program)
    for name in names or TABLES:
        places = one_of_each
        for case in importlib.import_module(name).cases():
            runs.case(case, places)
            places = one
    print(f"{runs.passed} passed, {runs.failed} failed")
    return 1 if runs.failed else 0


if __name__ == "__main__":
    sys.exit(main(sys.argv[1], sys.argv[2:]))
