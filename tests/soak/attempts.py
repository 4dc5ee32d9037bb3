"""The picture of a history, as `itmsteps --history --svg` draws it: python3 attempts.py FILE."""

import sys

from entries import BEGIN
from picture import HEAD, LOOKS
from plain import Machine
from verdict import LEGAL, REPLY, in_order, judge, read, replay

STYLE = HEAD[: HEAD.index("<defs>")]
PAGE = HEAD[HEAD.index('<rect class="page"') :]


def answered(history, attempt, row):
    """What the plain machine answers to the call in this row, once it has run all calls before it."""
    committed = [it for it in in_order(history.attempts) if it.outcome == "committed"]
    memory = history.memory
    for before in committed[: attempt.at]:
        memory = bytes(replay(before, memory, history.depth).memory)
    machine = Machine(memory, attempt.arena, history.depth)
    machine.one((BEGIN, attempt.props))
    for call in attempt.calls:
        reply = machine.one(call.values)
        if call.row == row:
            return reply
        if call.again is not None:
            machine.arena[:] = call.again


def told(lines, history, attempt, verdict):
    """A verdict with its reason."""
    if verdict == LEGAL:
        return "legal"
    words = f"bad {verdict.row} {verdict.kind}"
    if verdict.kind != REPLY:
        return words
    call = lines[verdict.row - 1].removeprefix("call ")
    return f"{words}: {call}; the plain machine answers {answered(history, attempt, verdict.row)}"


def bar(i, lane, attempt, lines):
    own = lines[attempt.row - 1 :]
    own = "".join(it + "\n" for it in own[: own.index("end") + 1])
    return (
        f'<g transform="translate({i} {lane}0)"><title>{own}</title>'
        f'<rect class="{LOOKS[attempt.outcome]}" width="1" height="9" rx=".2"/>'
        f'<text transform="translate(.3 .4)rotate(90)">try {attempt.nth}: {attempt.outcome}</text></g>\n'
    )


def flaw(i, lane):
    return (
        f'<g transform="translate({i} {lane}0)"><rect class="bad" width="1" height="9" rx=".2"/>'
        '<text class="note" x=".5" y="9.8">bad</text></g>\n'
    )


def cell(i, lanes, place, attempt):
    look = "held" if attempt.outcome == "committed" else "clear"
    return (
        f'<g transform="translate({i} {lanes}0)"><rect class="{look}" width="1" height="1"/>'
        f'<text class="note" x=".5" y=".7">{attempt.at}</text><text class="note" x=".5" y="2.2">{place}</text></g>\n'
    )


def drawn(text):
    """The picture of a history."""
    history, verdict = read(text), judge(text)
    lines = text.decode("latin-1").split("\n")
    attempts = history.attempts
    flawed = [it for it in attempts if it.row <= verdict.row][-1:] if 0 < verdict.row < history.row else []
    order = sorted(range(len(attempts)), key=lambda it: (attempts[it].at, attempts[it].outcome == "committed", it))
    threads = sorted({it.thread for it in attempts})
    wide, lanes = max(len(order) + 6, 50), len(threads)
    yield (
        f'<svg xmlns="http://www.w3.org/2000/svg" font-family="monospace" font-size="16" width="{wide}em" height="{lanes}4em"'
        f' viewBox="-5 -1 {wide} {lanes}4">\n{STYLE}'
        f'<style>.bad{{fill:none;stroke-width:.25}}</style>\n{PAGE}'
        f'<text x="-4.7" y="-.4">{told(lines, history, flawed[0] if flawed else None, verdict)}</text>\n'
    )
    for j, thread in enumerate(threads):
        yield (
            f'<g transform="translate(0 {j}0)"><text x="-4.7" y=".85">thread {thread}</text>'
            f'<path class="lane" d="M0 2.9H{len(order)}"/></g>\n'
        )
    for i, place in enumerate(order):
        attempt = attempts[place]
        lane = threads.index(attempt.thread)
        yield bar(i, lane, attempt, lines)
        if any(it is attempt for it in flawed):
            yield flaw(i, lane)
        yield cell(i, lanes, place, attempt)
    yield (
        f'<g transform="translate(0 {lanes}0)"><text x="-4.7" y=".7">commits</text>'
        '<text x="-4.7" y="2.2">attempt</text></g>\n</svg>\n'
    )


def picture(text):
    return "".join(drawn(text))


if __name__ == "__main__":
    with open(sys.argv[1], "rb") as file:
        sys.stdout.write(picture(file.read()))
