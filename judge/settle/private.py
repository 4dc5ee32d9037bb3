"""Leaves out what a run shows to be one thread's own: memory of the heap that the transactions of one thread alone
touched. That thread may store there outside transactions as it likes. But what was read of freed memory stays."""

import bisect

import machine
from recording import WORD

SHARED = -1
FREED = 0xDB  # what recorder/heap.c fills freed memory with


def _blocks_of_words(run):
    """Of each word the number of the block that it is in, or None."""
    starts = [block.address for block in run.blocks]
    found = []
    for word in run.words:
        i = bisect.bisect_right(starts, word.address) - 1
        found.append(i if i >= 0 and word.address < starts[i] + run.blocks[i].size else None)
    return found


def _blocks(call, block_of):
    """The blocks that a call touches, or None for memory elsewhere."""
    return [block_of[start // WORD] for start, _ in machine.ranges(call)]


def _owners(run, block_of):
    """Of each block the thread that touched it, or that it cannot be left out."""
    owners = {}
    for one in run.attempts:
        for call in one.calls:
            freed = call[0] == machine.READ and set(call[3]) == {FREED}
            for block in _blocks(call, block_of):
                if owners.setdefault(block, one.thread) != one.thread or freed:
                    owners[block] = SHARED
    return owners


def _without(line, is_private):
    """The lines that stay of a call's line."""
    fields = line.split()
    call = machine.parse(fields)
    private = [is_private(start) for start, _ in machine.ranges(call)] if call else []
    if not any(private):
        return [line]
    if all(private):
        return []
    return machine.split_copy(fields, reads=private[0])


def leave_out(run):
    """How many blocks are left out."""
    if not run.blocks:
        return 0
    block_of = _blocks_of_words(run)
    owners = _owners(run, block_of)
    private = {block for block, owner in owners.items() if owner != SHARED and block is not None}

    def is_private(place):
        return block_of[place // WORD] in private

    for one in run.attempts:
        if any(block in private for call in one.calls for block in _blocks(call, block_of)):
            lines = [line for old in one.lines[1:] for line in _without(old, is_private)]
            one.lines[1:] = lines
            one.calls = [call for call in (machine.parse(line.split()) for line in lines) if call]
    run.forget(number for number, block in enumerate(block_of) if block in private)
    return len(private)
