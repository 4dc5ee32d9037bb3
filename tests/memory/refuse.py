"""Runs each worked script through `itmrun sched` with each growth of memory refused in turn. A growth is an allocation,
or a longer one in the place of another.

refuse.py [JOBS]: so many builds at a time, as many as there are processors where it is not said.

`rt try --fail-alloc N` builds the program so that growth N of a run is refused, and no other. It proves nothing, and
stops at a bad access. Of its two runners only the compiled program answers, since the interpreter cannot run a program
that reads its words. It shows of a run the status, the lines of the output and those of the errors, so that a last line
without its end looks whole. (Some kits take N.. in the place of N, but show no output then.)

A build takes half a minute. So all scripts share it, and where that can be, it refuses several growths of each:

- The name of the file may be longer: each doubling, from 256 bytes on, is a growth more in the reading of the program's
  words. Once they are read, growth N of a run with K growths more is growth N - K of the run of the script alone.
- The script may end in a long comment: each doubling, from 4,096 bytes on, is a growth more in the reading of its text.

That the words or the text are read is seen where a script that has a fault is answered as with ample memory, and the
longest run of it finds none.
"""

import collections
import concurrent.futures
import contextlib
import os
import pathlib
import re
import signal
import subprocess
import sys
import tempfile

HERE = pathlib.Path(__file__).resolve().parent
ROOT = HERE.parent.parent
sys.path.insert(0, str(HERE.parent / "soak"))
from run import starved
from script import Script as Program

NAMES, TEXTS = 5, 8  # the lengths of a name and of a text
MOST = 400  # no script here has so many growths
ENOUGH = 50  # failures, after which no more is built
NO_MEMORY = (b"", b"itmrun: no memory\n", 4)
ENDED = re.compile(rb"run=ended status=(\d+) runners=[12] proved=no")
BEFORE, THREAD, AMPLE, WRONG = "before the run", "in a thread", "as with ample memory", "wrong"

# a script with so many growths more in the reading of the program's words and of the text
Run = collections.namedtuple("Run", "script words text")


class Stop(Exception):
    pass


class Script:
    """A script, its answer where memory is ample, which is the output, the errors and the status, and those that it may
    have where a thread finds none."""

    def __init__(self, file):
        self.name, self.bytes = file.stem, file.read_bytes()
        output, errors = (file.with_suffix(end) for end in (".history", ".errors"))
        output, errors = (it.read_bytes() if it.exists() else b"" for it in (output, errors))
        self.has_fault = not output
        self.ample = output, errors, 2 if self.has_fault else 4 if errors else 0
        self.starved = set() if self.has_fault else set(starved(Program(self.bytes.decode("latin-1"))))

    def kind(self, answer):
        """What kind of answer it is where a growth was refused."""
        if answer == self.ample:
            return AMPLE
        if answer == NO_MEMORY:
            return BEFORE
        return THREAD if answer in self.starved else WRONG


def write_case(folder, run):
    """Writes what `rt try --cases` runs: the script, which is the standard input, and the words."""
    path, name, text = folder / case(run), "/dev/stdin", run.script.bytes
    if run.words:
        name = "/dev/" + "./" * (256 << run.words - 1 >> 1) + "stdin"
    if run.text:
        text = text.ljust((4096 << run.text - 1) + 1, b";")
    path.write_bytes(text)
    path.with_name(f"{path.name}.args").write_text(f"sched\n{name}\n")


def case(run):
    return f"{run.script.name}+{run.words}+{run.text}"


def build(growth, runs, folder):
    """Builds the program with this growth refused, none where it is 0, for these runs. Gives the growth, and the answer
    of each run that ended, or in its place what was said of the run."""
    folder = pathlib.Path(folder, str(growth))
    folder.mkdir()
    for run in runs:
        write_case(folder, run)
    words = ["rt", "try", "--cases", folder, *(["--fail-alloc", str(growth)] if growth else [])]
    done = subprocess.run(words, cwd=ROOT / "crates/itmrun", stdin=subprocess.DEVNULL, capture_output=True)
    parts = re.split(rb"^== (\S+)\n", done.stdout, flags=re.M)
    outputs = dict(zip(parts[1::2], parts[2::2]))
    answers = {}
    for errors, name, ended in re.findall(rb"((?:.*\n)*?)case=(\S+) (.*)\n", done.stderr):
        errors, status = re.sub(rb"\Aallocations: .*\n", b"", errors), ENDED.fullmatch(ended)
        answers[name.decode()] = (outputs.get(name), errors, int(status[1])) if status else f"{ended}: {errors}"
    return growth, {run: answers.get(case(run), f"rt said last: {done.stderr[-400:]}") for run in runs}


class Sweep:
    def __init__(self, pool, jobs, folder):
        self.pool, self.jobs, self.folder = pool, jobs, folder
        rows = (HERE / "rows.txt").read_text().split()
        files = [*ROOT.glob("examples/*.itm"), *(ROOT / "tests/rows" / f"{it}.itm" for it in rows)]
        self.scripts = sorted(map(Script, files), key=lambda it: it.name)
        self.kinds = {it.name: {} for it in self.scripts}  # of each script the kind of answer by the growth refused
        self.runs = self.failed = 0

    def judge(self, growth, run, answer):
        """The kind of an answer."""
        kind = run.script.kind(answer)
        self.runs += 1
        if kind == WRONG or growth == 0 and kind != AMPLE:
            place = f"growth {growth} refused" if growth else "ample memory"
            self.fail(f"{case(run)}: {place}: {kind}\n{answer}")
        return kind

    def fail(self, what):
        self.failed += 1
        print(f"failed: {what}", flush=True)
        if self.failed == ENOUGH:
            raise Stop

    def sweep(self, growth, lengths, probe, is_over):
        """Builds from this growth on, so many at a time, until one is the last; the last growth."""
        runs = [Run(it, *length) for it in self.scripts for length in lengths]
        over = False
        while not over:
            stop = growth + len(lengths) * self.jobs
            growths = range(growth, stop, len(lengths))
            for number, answers in self.pool.map(lambda it: build(it, [*runs, *probe], self.folder), growths):
                kinds = {run: self.judge(number, run, answer) for run, answer in answers.items()}
                for run in runs:
                    self.kinds[run.script.name][number - run.words - run.text] = kinds[run]
                over = over or is_over(kinds)
            growth = stop
            if growth > MOST:
                self.runs += 1
                self.fail(f"growth {growth}: there is no end")
                raise Stop
        return growths[-1]

    def run(self):
        faulty = next(Run(it, 0, 0) for it in self.scripts if it.has_fault)
        name, text = faulty._replace(words=NAMES - 1), faulty._replace(text=TEXTS - 1)
        last = self.sweep(0, [(0, 0)], [name], lambda kinds: kinds[faulty] == AMPLE != kinds[name])
        names, texts = [(it, 0) for it in range(NAMES)], [(0, it) for it in range(TEXTS)]
        last = self.sweep(last + NAMES, names, [text], lambda kinds: kinds[faulty] == AMPLE != kinds[text])
        self.sweep(last + TEXTS, texts, [], lambda kinds: set(kinds.values()) == {AMPLE})

    def tell(self):
        total = collections.Counter()
        for name, kinds in self.kinds.items():
            last = max((growth for growth, kind in kinds.items() if kind != AMPLE), default=0)
            counts = collections.Counter(kind for growth, kind in kinds.items() if 0 < growth <= last)
            over = [growth for growth, kind in kinds.items() if 0 < growth < last and kind == AMPLE]
            said = ", ".join(f"{counts[kind]} {kind}" for kind in (BEFORE, THREAD, AMPLE))
            print(f"{name}: {last} growths: {said}{f' ({str(over)[1:-1]})' if over else ''}")
            total += counts
        said = ", ".join(f"{total[kind]} {kind}" for kind in (BEFORE, THREAD, AMPLE))
        print(f"{len(self.scripts)} scripts, {sum(total.values())} growths refused: {said}")
        print(f"{self.runs - self.failed} passed, {self.failed} failed")


def main(jobs=os.cpu_count()):
    signal.signal(signal.SIGTERM, lambda *_: sys.exit(143))
    with tempfile.TemporaryDirectory() as folder, concurrent.futures.ThreadPoolExecutor(int(jobs)) as pool:
        sweep = Sweep(pool, int(jobs), folder)
        with contextlib.suppress(Stop):
            sweep.run()
    sweep.tell()
    return 1 if sweep.failed else 0


if __name__ == "__main__":
    sys.exit(main(*sys.argv[1:]))
