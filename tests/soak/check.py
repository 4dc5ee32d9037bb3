"""Runs scripts through `itmrun sched`, which has to answer what run.py works out, with nothing of the program's own
code; and prints each script by `itmrun asm`, whose print has to be run as the script was. Has each history judged by
`itmrun check`, and so some texts that are near to it.

check.py PROGRAM FOLDER COUNT SEED: random scripts.
check.py PROGRAM FOLDER FILE: the script in FILE.

Stops at the first one that fails, and leaves it in FOLDER with what the program wrote and had to write.
"""

import collections
import sys

import verdict
from driver import compare, each, expect, judged, made, tell
from entries import BEGIN, COPIES, FILLS
from history import OUTCOMES
from norec import CLOCK
from run import GAVE_UP, Run
from script import Script
from version_changes import VersionMutator
from versions import version_of

# of changed histories, by their versions; once enough scripts have run, each of these has to have come, and so have restarts
CHANGED = [
    ["changed histories", verdict.HEADER],
    *([f"of version {it}", *(f"{kind} ({it})" for kind in verdict.EVERY)] for it in verdict.VERSIONS.values()),
    ["legal ones with blocks that ran again", "legal ones of other depths"],
]
AGAIN = ["restarts", "restarts that came to nothing"]
ENOUGH = 500  # scripts
COUNTED = [
    ["scripts", "events", "attempts", "calls", *OUTCOMES, "odd clocks", "threads that gave up"],
    # a call outside a block, which is refused by 1, has no line
    ["nested blocks", "irrevocable", "copies", "fills", "actions run", *(f"refused {n}" for n in range(2, 9))],
    ["words answered from the log", "rounds", "rounds that gave a snapshot", *AGAIN],
    *CHANGED,
]


def counted(run):
    """What a run had of each kind of what is counted."""
    calls = [(name, reply) for attempt in run.attempts for (name, *_), reply in attempt.calls]
    done = [name for name, reply in calls if not reply.startswith("refused")]
    counts = collections.Counter(attempt.outcome for attempt in run.attempts)
    counts.update(reply for _, reply in calls if reply.startswith("refused"))
    counts.update({"scripts": 1, "events": run.events, "attempts": len(run.attempts), "calls": len(calls)})
    counts["odd clocks"] = run.cells[CLOCK] % 2
    counts["threads that gave up"] = sum(it.end == GAVE_UP for it in run.threads)
    for kind, names in (("nested blocks", [BEGIN]), ("copies", COPIES), ("fills", FILLS)):
        counts[kind] = sum(name in names for name in done)
    for it in (attempt.transaction for attempt in run.attempts):
        counts.update({"irrevocable": it.machine.irrevocable, "actions run": len(it.machine.ran)})
        counts.update(it.counts)
    return counts


def printed(program, script, answer):
    """The script is printed, its print is printed as itself, and is run as it was."""
    text, errors, status = made(program, "asm", script)
    expect((status, errors) == (0, b""), "it is not printed:", errors)
    expect(made(program, "asm", text)[0] == text, "its print is printed in another way")
    expect(made(program, "sched", text) == answer, "its print is run in another way")


def counted_changes(text, kind):
    """The same of a changed history and its verdict."""
    version = version_of(text)
    counts = collections.Counter(["changed histories"])
    counts.update([f"of version {version}", f"{kind} ({version})"] if version else [kind])
    if kind == verdict.LEGAL.kind:
        counts["legal ones with blocks that ran again"] = b"\nrestart" in text
        counts["legal ones of other depths"] = version == 3 and b"\ndepth 16\n" not in text
    return counts


def tried(program, written, mutator):
    """The counts of a script."""
    script = written["script.itm"]
    run = Run(Script(script.decode("latin-1")))
    due, answer = run.answer(), made(program, "sched", script)
    written.update({"history": answer[0], "errors": answer[1], "wanted": due[0]})
    compare(answer, due)
    printed(program, script, answer)
    expect(judged(program, answer[0]) == verdict.LEGAL, "the history is not legal")
    counts = counted(run)
    for changed in mutator.texts(answer[0]):
        written["changed"] = changed
        counts.update(counted_changes(changed, judged(program, changed).kind))
    return counts


def main(program, folder, what, seed=None):
    counts = each(lambda written, number: tried(program, written, VersionMutator(seed, number)), folder, what, seed)
    if counts is None:
        return 1
    tell(counts, COUNTED)
    absent = [name for names in (*CHANGED, AGAIN) for name in names if not counts[name]]
    if not absent or counts["scripts"] < ENOUGH:
        return 0
    print("failed: there was none of these:", ", ".join(absent))
    return 1


if __name__ == "__main__":
    sys.exit(main(*sys.argv[1:]))
