"""Runs the sweeps, each over the worked scripts.

sweeps.py PROGRAM LIBRARY JOBS SCRIPTS [SWEEP..]: all sweeps, or those that are named, so many scripts at a time; SCRIPTS is
`all`, or `few` for a short sweep. LIBRARY is one that refuses things (refuse.c). Of each sweep the numbers of its runs are
told. The last line is "N passed, M failed".
"""

import collections
import concurrent.futures
import subprocess
import sys
import time

from worked import FEW, Setup, worked
from cuts import cuts
from driver import Wrong
from files import files
from refused import BEFORE, THREAD, WHOLE, asm, check, sched
from refused_threads import threads
from stops import stops

MOST = 600  # of what is wrong, so many characters are told
SWEEPS = {it.__name__: it for it in (sched, asm, check, threads, stops, cuts, files)}
# a short sweep takes few scripts here, and there one place in so many of the others
OF_FEW, SAMPLED, SHARE = {"cuts", "files"}, {"asm", "check", "threads"}, 16
# the answers that have to come, so that no program passes that tells want of memory of a whole run alone
DUE = {"sched": {BEFORE, THREAD, WHOLE}, "threads": {BEFORE, THREAD, "no thread"}}


def tried(sweep, setup, script):
    """The counts of a sweep over one script, or what is wrong."""
    try:
        return SWEEPS[sweep](setup, script)
    except (Wrong, subprocess.TimeoutExpired) as wrong:
        return f"{script.name}: {str(wrong)[:MOST]}"


def share(sweep, script, few):
    """Of how many places of a script one is tried."""
    return SHARE if few and sweep in SAMPLED and script.name not in FEW else 1


def main(program, library, jobs, scripts, *names):
    few, passed, failed = scripts == "few", 0, 0
    with concurrent.futures.ProcessPoolExecutor(int(jobs)) as pool:
        for name in names or SWEEPS:
            start, counts = time.monotonic(), collections.Counter()
            scripts = worked(few and name in OF_FEW)
            futures = [pool.submit(tried, name, Setup(program, library, share(name, it, few)), it) for it in scripts]
            for result in (it.result() for it in futures):
                if isinstance(result, str):
                    failed += 1
                    print(f"failed: {name}: {result}", flush=True)
                else:
                    counts += result
            passed += counts.total()
            lacking = sorted(DUE.get(name, set()) - counts.keys())
            if lacking or not counts:
                failed += 1
                print(f"failed: {name}: no answer was: {', '.join(lacking) or 'one'}", flush=True)
            said = ", ".join(f"{count} {kind}" for kind, count in sorted(counts.items()))
            print(f"{name}: {said} ({time.monotonic() - start:.0f} s)", flush=True)
    print(f"{passed} passed, {failed} failed")
    return 1 if failed else 0


if __name__ == "__main__":
    sys.exit(main(*sys.argv[1:]))
