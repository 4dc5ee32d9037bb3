"""Finds an order of the commits, and a position for each other attempt, at which all that they read fits."""

import hashlib

import machine


class Search:
    """Replays attempts on the memory, each thread's in their order.

    An attempt that commits nothing is placed as soon as it fits: that blocks nothing, and frees the next attempt of its
    thread. So only commits are chosen among, and only where several threads stand at one that fits: the one that ended
    first goes first. A state that led nowhere, the attempts done and the memory, is not entered again."""

    def __init__(self, opening, attempts, ends_well):
        threads = {}
        for one in attempts:
            threads.setdefault(one.thread, []).append(one)
        self.threads, self.queues = list(threads), list(threads.values())
        self.opening, self.ends_well = opening, ends_well
        self.budget = 20 * len(attempts) + 500_000  # of steps
        self._restart()

    def _restart(self):
        self.memory = bytearray(self.opening)
        self.done = [0] * len(self.queues)
        self.levels = []  # of each commit: what else may be chosen in its place, and the way back
        self.chain = None  # the commits in order, the last one first
        self.failed = {}  # the memories of such states, by the attempts done

    def fronts(self):
        """The next attempt of each thread that has one, without those that need no place."""
        fronts = (queue[done] for queue, done in zip(self.queues, self.done) if done < len(queue))
        return [one for one in fronts if not one.may_commit]

    def _digest(self):
        return hashlib.blake2b(self.memory, digest_size=16).digest()

    def _has_failed(self):
        """Whether this state led nowhere. The memory may be large: it is looked at only where it can matter."""
        memories = self.failed.get(tuple(self.done)) if self.failed else None
        return memories is not None and self._digest() in memories

    def _place(self, number, position):
        """Places what a thread has at this position before its next commit. That commit, if it may stand here; whether
        some attempt has come too late."""
        queue = self.queues[number]
        while self.done[number] < len(queue):
            front = queue[self.done[number]]
            if front.high < position:
                return None, not front.may_commit
            if front.low > position:
                break
            if front.commits:
                return front, False
            if not machine.fits(self.memory, front.calls):
                break
            front.at = position
            self.done[number] += 1
        return None, False

    def _enter(self):
        """Places what fits at this position; the threads to choose among, the best one last."""
        position, choice = len(self.levels), []
        for number in range(len(self.queues)):
            front, late = self._place(number, position)
            if late:
                return []
            if front:
                choice.append((-front.ended, number))
        if self._has_failed():
            return []
        return [number for _, number in sorted(choice)]

    def _go_on(self, choice):
        """Commits the first attempt of the choice that fits, if there is one."""
        while choice:
            number = choice.pop()
            one = self.queues[number][self.done[number]]
            undo = machine.commits(self.memory, one.calls)
            if undo is not None:
                self.levels.append((choice, undo, list(self.done), self.chain))
                self.chain = (self.chain, one)
                one.at = len(self.levels) - 1
                self.done[number] += 1
                return True
        return False

    def _go_back(self):
        self.failed.setdefault(tuple(self.done), set()).add(self._digest())
        choice, undo, done, self.chain = self.levels.pop()
        self.done[:] = done
        machine.roll_back(self.memory, undo)
        return choice

    def run(self):
        """Whether all attempts have found a place, or None where too many orders were tried. Where not all have, the
        search stands where it came farthest."""
        best, best_chain, steps = -1, None, 0
        choice = self._enter()
        while self.fronts() or not self.ends_well(self.memory):
            steps += 1
            if len(self.levels) > best:
                best, best_chain = len(self.levels), self.chain
            if self._go_on(choice):
                choice = self._enter()
            elif self.levels and steps <= self.budget:
                choice = self._go_back()
            else:
                self.follow(unchained(best_chain))
                return None if steps > self.budget else False
        return True

    def follow(self, order, look=lambda memory, position: None):
        """Goes this way from the start, and looks at the memory at each position."""
        self._restart()
        for position, one in enumerate(order):
            self._enter()
            look(self.memory, position)
            self._go_on([self.threads.index(one.thread)])
        self._enter()
        look(self.memory, len(self.levels))

    def order(self):
        return unchained(self.chain)

    def last_before(self, one):
        """The attempt of its thread that came before, if there is one."""
        queue = self.queues[self.threads.index(one.thread)]
        i = queue.index(one)
        return queue[i - 1] if i else None

    def stuck(self):
        """The attempt at which the search stands, the one first that tells most: one that fitted nowhere in its range,
        a commit that does not fit here, another attempt that does not; then those that have no place left or none yet."""
        position = len(self.levels)

        def rank(one):
            late, due = one.high < position, one.low <= position
            misfit = due and not machine.fits(self.memory, one.calls)
            if late and not one.commits:
                return 0
            return (1 if one.commits else 2) if misfit and not late else 3 if late else 4

        return sorted(self.fronts(), key=lambda one: (rank(one), one.ended))


def unchained(chain):
    order = []
    while chain:
        chain, one = chain
        order.append(one)
    return order[::-1]
