"""Locks: a tree and a state, stepped and run."""

import ctypes
from fractions import Fraction
from typing import List, NamedTuple, Optional, Sequence

from ._library import DOMAINS, THREADS, Answer, State, library
from ._refusals import accepted
from .tree import Tree

WAIT_NUMBERS = 5  # in a row of waits
MOST_TURNS = 65536  # of one run
INSIDE = 5  # the row of a thread that is inside


class Step(NamedTuple):
    """What a step did: its kind as a number and as text, and its domain."""

    kind: int
    text: str
    domain: int


class Counts(NamedTuple):
    """The counts of a run."""

    steps: int
    entries: int
    stays: int
    root: int
    passed: int
    crossed: int


class Run(NamedTuple):
    """A run: its counts, and the threads in the order they entered."""

    counts: Counts
    trace: List[int]


class Waits(NamedTuple):
    """Waits of attempts that ended, in entries of others; without one the mean is None."""

    attempts: int
    total: int
    largest: int
    mean: Optional[Fraction]


class WaitsRun(NamedTuple):
    """A run with waits: of each thread, of all together, and for each thread the others' entries since its attempt under way began, or None."""

    run: Run
    threads: List[Waits]
    all: Waits
    under_way: List[Optional[int]]


class Tenures(NamedTuple):
    """The counters of a domain."""

    entries: int
    tenures: int
    longest: int


def turns(schedule: Sequence[int]) -> "ctypes.Array[ctypes.c_uint16]":
    """A schedule for the library. A number that no thread has is refused by 12, not truncated."""
    return (ctypes.c_uint16 * max(1, len(schedule)))(*(turn if 0 <= turn <= 65535 else 65535 for turn in schedule))


def counts_of(reply: object) -> Counts:
    return Counts(*(getattr(reply, name) for name in Counts._fields))


class Lock:
    """A lock owned by the caller; each call continues where the previous one ended.

    >>> lock = Lock(Tree.parse("(2(#2) 16(#1))"))
    >>> lock.step(0).text
    'moves on'
    >>> run = lock.run([0, 0, 0, 1, 1, 1])
    >>> run.counts.entries, run.trace, lock.holder
    (1, [0], 0)
    >>> lock.chain(1)
    [1, 0]
    """

    def __init__(self, tree: Tree, start: int = 0) -> None:
        self.tree = Tree.of(tree.words)
        self.state = State()
        self._under_way = (ctypes.c_uint64 * THREADS)()
        self._answered(library.hmcs_fresh_in_place(self.tree.words, self.state, start & 65535))

    @classmethod
    def saved(cls, tree: Tree, state: State) -> "Lock":
        """A lock with a saved state; refused by 10 if it is not well formed.

        >>> lock = Lock(Tree.parse("(#2)"))
        >>> entered = lock.run([0, 0])
        >>> Lock.saved(lock.tree, lock.state).holder
        0
        """
        lock = cls(tree)
        lock.state = State.from_buffer_copy(state)
        lock._answered(library.hmcs_check_state(lock.tree.words, lock.state))
        return lock

    @staticmethod
    def _answered(answer: Answer) -> None:
        accepted(answer.number, answer.place)

    def step(self, thread: int) -> Step:
        """One step of a thread.

        >>> Lock(Tree.parse("(2(#2) 16(#1))")).step(2)
        Step(kind=1, text='moves on', domain=2)
        """
        answer = library.hmcs_step_in_place(self.tree.words, self.state, thread if 0 <= thread <= 65535 else 65535)
        accepted(answer.number, answer.place)
        self._forget_attempts()
        return Step(answer.kind, library.hmcs_kind_text(answer.kind).decode(), answer.domain)

    def run(self, schedule: Sequence[int]) -> Run:
        """One step for each turn of a schedule of at most 65,536 turns.

        >>> Lock(Tree.parse("(#1)")).run([0, 0, 0]).counts.entries
        1
        """
        given = turns(schedule)
        trace = (ctypes.c_uint16 * max(1, len(schedule)))()
        reply = library.hmcs_run(self.tree.words, self.state, given, len(schedule), trace, len(schedule))
        accepted(reply.number, reply.place)
        self.state = reply.state
        self._forget_attempts()
        return Run(counts_of(reply), list(trace)[: reply.entries])

    def run_kinds(self, schedule: Sequence[int]) -> List[Step]:
        """A run that returns what each of its steps did.

        >>> [step.text for step in Lock(Tree.parse("(#1)")).run_kinds([0, 0, 0])]
        ['moves on', 'enters through the root', 'leaves']
        """
        given = turns(schedule)
        trace = (ctypes.c_uint16 * max(1, len(schedule)))()
        rows = (ctypes.c_uint16 * max(1, 2 * len(schedule)))()
        reply = library.hmcs_run_kinds(self.tree.words, self.state, given, len(schedule), trace, len(schedule), rows, 2 * len(schedule))
        accepted(reply.number, reply.place)
        self.state = reply.state
        self._forget_attempts()
        return [Step(rows[2 * k], library.hmcs_kind_text(rows[2 * k]).decode(), rows[2 * k + 1]) for k in range(reply.rows)]

    def check_steps(self, threads: Sequence[int], kinds: Sequence[int], domains: Sequence[int]) -> None:
        """Checks that the threads' steps from here have these kinds and domains; the lock is then after them. Otherwise raises hmcs.Refused; the place is
        the first wrong step, and the lock is before it.

        >>> lock = Lock(Tree.parse("(#1)"))
        >>> lock.check_steps([0, 0], [1, 2], [0, 0])
        >>> lock.holder
        0
        """
        reply = library.hmcs_check_steps(self.tree.words, self.state, turns(threads), len(threads), turns(kinds), len(kinds), turns(domains), len(domains))
        self.state = reply.state
        self._forget_attempts()
        accepted(reply.number, reply.place)

    def _forget_attempts(self) -> None:
        """After steps whose entries were not counted, the attempts under way are unknown."""
        self._under_way = (ctypes.c_uint64 * THREADS)()

    def run_waits(self, schedule: Sequence[int]) -> WaitsRun:
        """A run, and the waits of the attempts that ended in it. Attempts continue from one such run to the next. After a step or a run without waits
        they are unknown, and attempts that began before it are not counted.

        >>> lock = Lock(Tree.parse("(#2)"))
        >>> waits = lock.run_waits([0, 0, 1, 1, 1, 0, 0, 0, 1, 1, 1])
        >>> waits.threads[1].attempts, waits.threads[1].mean
        (1, Fraction(0, 1))
        """
        given = turns(schedule)
        trace = (ctypes.c_uint16 * max(1, len(schedule)))()
        numbers = (ctypes.c_uint64 * ((THREADS + 1) * WAIT_NUMBERS))()
        reply = library.hmcs_run_waits_on(self.tree.words, self.state, given, len(schedule), trace, len(schedule), numbers, len(numbers), self._under_way)
        accepted(reply.number, reply.place)
        self.state = reply.state
        rows = [_waits(numbers[k * WAIT_NUMBERS : (k + 1) * WAIT_NUMBERS]) for k in range(reply.rows)]
        under_way = [number - 1 if number else None for number in list(self._under_way)[: self.tree.threads]]
        return WaitsRun(Run(counts_of(reply), list(trace)[: reply.entries]), rows[:-1], rows[-1], under_way)

    def chain(self, thread: int) -> List[int]:
        """Why a thread waits: itself first, each waits for the next, and the last can move.

        >>> lock = Lock(Tree.parse("(#2)"))
        >>> entered = lock.run([0, 0, 1, 1, 1])
        >>> lock.chain(1)
        [1, 0]
        """
        chain = (ctypes.c_uint16 * THREADS)()
        place, length = ctypes.c_uint32(), ctypes.c_uint32()
        number = library.hmcs_chain(self.tree.words, self.state, thread if 0 <= thread <= 65535 else 65535, chain, THREADS, place, length)
        accepted(number, place.value)
        return list(chain)[: length.value]

    def tenures(self, domain: int) -> Tenures:
        """The counters of a domain other than the root.

        >>> lock = Lock(Tree.parse("(2(#2) 16(#1))"))
        >>> entered = lock.run([0, 0, 0, 0])
        >>> lock.tenures(1)
        Tenures(entries=1, tenures=1, longest=1)
        """
        if not 0 < domain < min(self.tree.domains, DOMAINS):
            return Tenures(0, 0, 0)
        return Tenures(self.state.entries[domain], self.state.tenures[domain], self.state.longest[domain])

    @property
    def holder(self) -> Optional[int]:
        """The thread that is inside, if there is one.

        >>> print(Lock(Tree.parse("(#2)")).holder)
        None
        """
        return next((thread for thread in range(self.tree.threads) if self.state.places.rows[thread] == INSIDE), None)

    def __repr__(self) -> str:
        return "<hmcs.Lock on %r, %s>" % (self.tree, "nobody inside" if self.holder is None else "thread %d inside" % self.holder)


def _waits(numbers: Sequence[int]) -> Waits:
    attempts, total, largest, numerator, denominator = numbers
    return Waits(attempts, total, largest, Fraction(numerator, denominator) if denominator else None)
