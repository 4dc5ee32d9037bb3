"""Runs long texts of many shapes, each at two sizes, the second twice the first, and measures processor time and memory.

measure.py PROGRAM [PART..]: all parts, or those that are named. A line for each shape tells the bytes of the second text, its
status, its seconds and how many times those of the first one these are, and the memory that it takes, in kilobytes and in
bytes for each byte that the second text has more than the first. The last line is "N passed, M failed".
"""

import collections
import os
import resource
import subprocess
import sys
import tempfile

import histories
import scripts

# a command on shapes at two sizes, in bytes or in instructions, and how many bytes of memory each further byte may take
Part = collections.namedtuple("Part", "command shapes sizes most")
PARTS = {
    "asm": Part("asm", scripts.TEXTS, (8_000_000, 16_000_000), 20),
    "sched": Part("sched", scripts.CODES, (32_000, 64_000), 200),
    "threads": Part("threads", scripts.CODES, (32_000, 64_000), 200),
    "check": Part("check", histories.TEXTS, (8_000_000, 16_000_000), 20),
    "works": Part("check", histories.WORKS, (256_000, 512_000), 20),
}

RATIO, SHORT = 2.5, 0.2  # of the times of the two sizes, where the second one is more than so many seconds
SECONDS, KILOBYTES = 20, 2 << 20  # the most that a text may take
ROOM = 4 << 30  # bytes of address space of a run
TURNS = 10


def cost(program, command, path):
    """The status, the seconds of the processor and the kilobytes of a run."""

    def limits():
        resource.setrlimit(resource.RLIMIT_AS, (ROOM, ROOM))
        resource.setrlimit(resource.RLIMIT_CPU, (3 * SECONDS, 3 * SECONDS))

    with open(os.devnull, "wb") as nowhere:
        run = subprocess.Popen([program, command, path], stdout=nowhere, stderr=nowhere, preexec_fn=limits)
        _, status, used = os.wait4(run.pid, 0)
    run.returncode = os.waitstatus_to_exitcode(status)
    return run.returncode, used.ru_utime + used.ru_stime, used.ru_maxrss


def written(shape, size, path):
    """The bytes of a text that is written to a file."""
    with open(path, "wb") as file:
        for piece in shape.pieces(size):
            file.write(piece)
    return os.path.getsize(path)


def measured(program, part, shape, folder):
    """The bytes of the two texts, and the costs of their best runs. A run is made again where the times do not fit, since
    other programs may have taken a part of it."""
    paths = [os.path.join(folder, str(size)) for size in part.sizes]
    sizes = [written(shape, size, path) for size, path in zip(part.sizes, paths)]
    costs = [cost(program, part.command, path) for path in paths]
    for _ in range(TURNS):
        if ratio_of(costs) <= (shape.ratio or RATIO):
            break
        again = [cost(program, part.command, path) for path in paths]
        costs = [min(pair, key=lambda it: it[1]) for pair in zip(costs, again)]
    return sizes, costs


def ratio_of(costs):
    """How many times the seconds of the first text the second one takes; 0 where it is soon done."""
    return costs[1][1] / costs[0][1] if costs[1][1] > SHORT else 0


def wrong(part, shape, costs, bytes_each):
    """What is wrong with the costs of the two texts, if anything is."""
    most = shape.most or part.most
    if any(it[0] != shape.status for it in costs):
        return f"status {costs[0][0]} and {costs[1][0]}, wanted {shape.status}"
    if costs[1][1] > SECONDS or costs[1][2] > KILOBYTES:
        return "too much"
    if ratio_of(costs) > (shape.ratio or RATIO):
        return "not linear in time"
    if bytes_each > most:
        return f"more than {most} bytes of memory for each byte"
    return None


def main(program, *names):
    passed = failed = 0
    with tempfile.TemporaryDirectory() as folder:
        for name in names or PARTS:
            part = PARTS[name]
            for shape in part.shapes:
                sizes, costs = measured(program, part, shape, folder)
                bytes_each = 1024 * (costs[1][2] - costs[0][2]) / (sizes[1] - sizes[0])
                fault = wrong(part, shape, costs, bytes_each)
                passed, failed = passed + (not fault), failed + bool(fault)
                status, seconds, kilobytes = costs[1]
                told = f"{sizes[1]:9}{status:4}{seconds:8.3f} s {ratio_of(costs):6.2f}{kilobytes:9} kB {bytes_each:8.1f}"
                print(f"{name:8}{shape.name:50}{told}{'  failed: ' if fault else ''}{fault or ''}", flush=True)
    print(f"{passed} passed, {failed} failed")
    return 1 if failed else 0


if __name__ == "__main__":
    sys.exit(main(*sys.argv[1:]))
