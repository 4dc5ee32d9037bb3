"""Runs scripts through a program, one after the other, up to the first one whose answer is wrong."""

import collections
import itertools
import os
import pathlib
import subprocess

import generate
import verdict


class Wrong(Exception):
    """What is wrong, in some words."""

    def __str__(self):
        return " ".join(map(str, self.args))


def expect(holds, *words):
    if not holds:
        raise Wrong(*words)


def made(program, command, text, **environment):
    """What the program makes of a text: the output, the errors and the exit status."""
    environment = {**os.environ, **environment}
    run = subprocess.run([program, command, "-"], input=text, capture_output=True, timeout=60, env=environment)
    return run.stdout, run.stderr, run.returncode


def compare(answer, due):
    """The answer has to be the one that is due."""
    lines = itertools.zip_longest(*(output.decode("latin-1").split("\n") for output, _, _ in (answer, due)))
    for number, (line, wanted) in enumerate(lines, 1):
        expect(line == wanted, "line", number, "of the history is", repr(line), "and has to be", repr(wanted))
    expect(answer == due, "the errors and the status are", answer[1:], "and have to be", due[1:])


def judged(program, text):
    """The verdict of a text, which the program has to give."""
    due = verdict.judge(text)
    answer, wanted = made(program, "check", text), verdict.answer(due)
    expect(answer == wanted, "check answers", answer, "and has to answer", wanted)
    return due


def kept(folder, written):
    """Keeps these texts; their files."""
    for name, data in written.items():
        pathlib.Path(folder, name).write_bytes(data)
    return ", ".join(f"{folder}/{name}" for name in written)


def each(tried, folder, what, seed=None, **shape):
    """The counts of so many random scripts of a seed and of this shape, or of the one in a file, none where one fails;
    that one is kept. A script is tried with its number, and adds each text that is written for it to those that are
    kept."""
    if seed is None:
        texts = [pathlib.Path(what).read_bytes().decode("latin-1")]
    else:
        texts = (generate.Maker(seed, number, **shape).text() for number in range(int(what)))
    counts = collections.Counter()
    for number, text in enumerate(texts):
        written = {"script.itm": text.encode("latin-1")}
        try:
            counts += tried(written, number)
        except (Wrong, subprocess.TimeoutExpired) as wrong:
            print(f"failed: script {number}: {wrong}\nkept: {kept(folder, written)}")
            return None
    return counts


def tell(counts, rows):
    """Prints the counts, of each row a line."""
    for names in rows:
        print(", ".join(f"{counts[name]} {name}" for name in names))
