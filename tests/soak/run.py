"""The run of a script under its schedule, event by event, and all that has to be told of it."""

import itertools

import history
from entries import BEGIN
from history import Attempt
from norec import CONFLICT, FULL, Again, Exchange, Over, Store, Transaction
from plain import WORD, Machine
from player import Player

FINISHED, GAVE_UP, STARVED = "finished", "gave up", "found no memory"


class Starved(Exception):
    """A thread finds no memory."""


class Thread:
    """A thread of a script. Where it has ended, `end` says how."""

    def __init__(self, number, script, ended, starves):
        self.number, self.script, self.player = number, script, Player(script.codes[number])
        self.arena, self.attempt, self.end = bytes(script.arena), None, None
        self.ended = ended  # gets each try that got past its begin, as it ends
        self.starves = starves  # at which of its calls that ask for memory there is none; None where there always is
        self.asked = 0  # how many such calls have come

    def operations(self):
        """Its operations on the cells, one after the other."""
        try:
            while call := self.to_block():
                yield from self.block(call[1])
            self.end = FINISHED
        except Over:
            self.end = GAVE_UP
        except Starved:
            self.end = STARVED
            self.over("nomemory")

    def asks(self):
        """A call asks for memory."""
        self.asked += 1
        if self.asked == self.starves:
            raise Starved

    def to_block(self):
        """Goes on to the next begin that is accepted outside a block; None where there is none."""
        outside = Machine(b"", self.arena)
        while (call := self.player.call()) and (call[0] != BEGIN or outside.refusal(call)):
            if call[0] == BEGIN:
                self.asks()
            self.player.answer(outside.one(call))
        self.arena = bytes(outside.arena)
        return call

    def block(self, props):
        """A block, tried as often as may be."""
        entry = "code 5"
        for nth in itertools.count(1):
            self.asks()
            transaction = Transaction(self.script, self.arena)
            try:
                yield from transaction.begin(props)
                self.attempt = Attempt(self.number, nth, props, transaction)
                self.player.answer(entry)
                entry = "code 9"
                yield from self.calls(transaction)
                return
            except Over as over:
                self.over(over.why)
                if over.why == FULL or nth > self.script.retries:
                    raise

    def calls(self, transaction):
        """The calls of a try, up to the end of its outermost block."""
        machine = transaction.machine
        while machine.blocks:
            call = self.player.call()
            if not machine.irrevocable:
                self.asks()
            try:
                reply = yield from transaction.call(call)
            except Again:
                self.attempt.again(transaction.again())
                self.player.restart_block()
                continue
            self.attempt.add(call, reply)
            self.player.answer(reply)
        self.over("cancelled" if machine.cancelled else "committed" if machine.wrote() else "readonly")

    def over(self, outcome):
        """The try has ended so, if it got past its begin. What is open of its block is rolled back."""
        if not self.attempt:
            return
        machine = self.attempt.transaction.machine
        machine.back_to_start()
        if outcome == CONFLICT:
            self.player.restart()
        self.arena, self.attempt.outcome = bytes(machine.arena), outcome
        self.ended.append(self.attempt)
        self.attempt = None


class Run:
    """The whole run of a script; where that is said, one in which some threads find no memory: of each such thread's
    number at which of its calls that ask for memory."""

    def __init__(self, script, starving={}):
        self.script, self.opening, self.events = script, bytes(script.opening), 0
        self.cells = [0, *(self.opening[at : at + WORD] for at in range(0, len(self.opening), WORD))]
        self.attempts = []  # those that have ended, and at the end the others, by thread
        numbers = range(len(script.codes))
        self.threads = [Thread(number, script, self.attempts, starving.get(number)) for number in numbers]
        self.operations = [thread.operations() for thread in self.threads]
        self.next = [next(it, None) for it in self.operations]  # of each thread, none where it has ended
        self.begins = all(thread.end != STARVED for thread in self.threads)  # if memory is found before the first event
        for number, steps in script.items:
            self.take(number, steps)
        self.attempts += [thread.attempt for thread in self.threads if thread.attempt]

    def take(self, number, steps):
        """A thread takes so many steps, or fewer if it ends."""
        while steps > 0 and self.next[number]:
            try:
                self.next[number] = self.operations[number].send(self.found(self.next[number]))
            except StopIteration:
                self.next[number] = None
            steps -= 1
            self.events += 1

    def found(self, operation):
        """What stood in the cell of an operation, which is done."""
        found = self.cells[operation.cell]
        match operation:
            case Store(cell, value):
                self.cells[cell] = value
            case Exchange(cell, old, new) if found == old:
                self.cells[cell] = new
        return found

    def answer(self):
        """The output, the errors and the exit status that tell of it."""
        clock, *words = self.cells
        output = history.text(self.script, self.attempts, clock, b"".join(words))
        told = [it for it in self.threads if it.end in (GAVE_UP, STARVED)]
        errors = "".join(f"itmrun: thread {it.number} {it.end}\n" for it in told)
        return output.encode(), errors.encode(), 4 if told else 0


def starved(script):
    """The answers of a script's runs in which one thread finds no memory, at one of its calls after the first event."""
    for thread in range(len(script.codes)):
        for call in itertools.count(1):
            run = Run(script, {thread: call})
            if run.threads[thread].end != STARVED:
                break
            if run.begins:
                yield run.answer()
