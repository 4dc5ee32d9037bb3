#!/usr/bin/env python3
"""Judges a recording by `itmrun check`.

    settle.py RECORDING HISTORY PROGRAM

Chooses the positions that the recorder left open, writes the history, and has it judged. It goes to HISTORY, or in
pieces to HISTORY.1, HISTORY.2 and so on where it is too large for one. The program is asked for the names of its
places. ITMRUN is the judge. The status is 0 where the run is legal, 3 where it is not, 4 where that stays undecided."""

import collections
import gc
import os
import subprocess
import sys

import explain
import history
import machine
import names
import private
import progress
import recording
import search

LEGAL, FAILED, BAD, UNDECIDED = 0, 1, 3, 4


def place_misfit(found, one):
    """Gives an attempt that fits nowhere a position, that where most of it fits: behind its thread's last one."""
    position = len(found.levels)
    if one.commits:
        one.at = min(max(position, one.low), one.high)
        return
    last = found.last_before(one)
    first = max(one.low, last.at + last.commits) if last else one.low
    fitted = {}

    def look(memory, at):
        if first <= at <= one.high:
            fitted[at] = machine.fitting(memory, one.calls)

    found.follow(found.order(), look)
    one.at = max(fitted, key=lambda at: (fitted[at], at), default=first)


def settled(run, told):
    """The attempts with their positions, in the order in which they ended; the memory that they left; whether an order
    was found; and the attempts at which the search stands where not. Then the attempts are those of the longest order,
    and the first that fits nowhere behind it."""
    found = search.Search(run.opening, run.attempts, run.ends_well)
    commits = sum(one.commits for one in run.attempts)
    told.step = lambda: f"{len(found.levels)} of {commits} commits have found a place"
    success = found.run()
    stuck = found.stuck()
    placed = [one for queue, done in zip(found.queues, found.done) for one in queue[:done]]
    if stuck:
        place_misfit(found, stuck[0])
        placed.append(stuck[0])
    return sorted(placed, key=lambda one: one.ended), found.memory, success, stuck


def check(path):
    """The verdict of the judge on a history: its words."""
    run = subprocess.run([os.environ.get("ITMRUN", "itmrun"), "check", path], capture_output=True, text=True)
    if run.returncode not in (LEGAL, BAD):
        raise recording.Fault(f"itmrun: {run.stderr.strip()}")
    return run.stdout.split()


def summary(run, left_out):
    counts = collections.Counter(one.outcome for one in run.attempts)
    told = ", ".join(f"{count} {outcome}" for outcome, count in sorted(counts.items()))
    if len({one.thread for one in run.attempts}) == 1:
        told += ", by one thread alone"
    blocks = f"\n    {left_out} blocks of the heap, which one thread alone touched, are left out"
    return told + (blocks if left_out else "")


def far(attempts, run, stuck):
    """A line on how far the search came, where it did not come through."""
    if not stuck:
        return []
    ordered = sum(one.commits for one in attempts if one is not stuck[0])
    commits = sum(one.commits for one in run.attempts)
    return [f"no order of the commits goes on: the longest has {ordered} of {commits}"]


def judge(path, to, program, told):
    run = recording.Recording(path, told)
    if not run.attempts:
        print("nothing to judge: no transaction was recorded")
        return FAILED
    told.step = lambda: "what one thread alone touched is left out"
    left_out = private.leave_out(run)
    attempts, memory, success, stuck = settled(run, told)
    told.step = lambda: "the history is written and judged"
    known = not stuck and not run.unfinished
    texts = [history.Text(piece) for piece in history.pieces(run, attempts, memory, known)]
    for number, text in enumerate(texts, 1):
        text.path = to if len(texts) == 1 else f"{to}.{number}"
        text.write(text.path)
    if success is None:
        print(f"undecided: too many orders of the commits; ORDER=inside needs none  {summary(run, left_out)}")
        return UNDECIDED
    for text in texts:
        verdict, *words = check(text.path)
        if verdict != "legal":
            line, kind = words
            print(f"bad {kind}  {summary(run, left_out)}\n    {text.path}, line {line}")
            told.step = lambda: "the verdict is explained"
            lines = explain.Explanation(run, names.Names(program, run), texts).about(text, int(line), kind)
            print("".join(f"    {line}\n" for line in lines + far(attempts, run, stuck)), end="")
            return BAD
    if not success:
        print(f"undecided: no order was found, though all that was read fits  {summary(run, left_out)}")
        return UNDECIDED
    print(f"legal  {summary(run, left_out)}")
    return LEGAL


def main(words):
    if len(words) != 3:
        sys.exit("usage: settle.py RECORDING HISTORY PROGRAM")
    gc.disable()  # nothing here is in a cycle
    try:
        with progress.Progress() as told:
            return judge(*words, told)
    except history.TooLarge:
        print("undecided: an attempt touched more than a history holds")
        return UNDECIDED
    except (OSError, recording.Fault) as fault:
        print(f"settle: {fault}", file=sys.stderr)
        return FAILED


if __name__ == "__main__":
    sys.exit(main(sys.argv[1:]))
