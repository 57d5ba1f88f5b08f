"""Trees of domains with their threads, and the numbers that depend only on a tree."""

import ctypes
import html
import subprocess
from typing import List, NamedTuple, Optional

from ._library import DOMAINS, THREADS, PassingTimes, TreeWords, command, library
from ._refusals import accepted

# The largest 64-bit number, which stands for every larger one.
MOST = 2**64 - 1


class Rounds(NamedTuple):
    """Rounds within which every thread enters, and their turns with round robin."""

    rounds: int
    turns: int


class Tree:
    """A tree of domains. Domain 0 is the root, a queue or a ticket lock.

    >>> tree = Tree.parse("(8(#4) 8(#4))")
    >>> tree.domains, tree.threads, tree.thresholds
    (3, 8, [0, 8, 8])
    >>> tree.wait_bounds()
    [11, 11, 11, 11, 11, 11, 11, 11]

    or, domain by domain and thread by thread:

    >>> tree = Tree(root="ticket")
    >>> socket = tree.add_domain(0, threshold=16)
    >>> tree.add_thread(socket), tree.add_thread(socket)
    (0, 1)
    """

    def __init__(self, root: str = "queue") -> None:
        if root not in ("queue", "ticket"):
            raise ValueError("expected 'queue' or 'ticket' for the root, got %r" % root)
        self.words = TreeWords(domains=1, ticket_root=1 if root == "ticket" else 0)
        self.text: Optional[str] = None

    @classmethod
    def parse(cls, text: str, root: str = "queue") -> "Tree":
        """The tree of a text such as "(8(#4) 8(#4))"."""
        given = text.encode()
        reply = library.hmcs_read_text((ctypes.c_uint8 * max(1, len(given)))(*given), len(given))
        accepted(reply.number, reply.place)
        tree = cls(root)
        reply.tree.ticket_root = tree.words.ticket_root
        tree.words, tree.text = reply.tree, text
        return tree

    @classmethod
    def of(cls, words: TreeWords) -> "Tree":
        """The tree with these fields; the calls refuse what is not a tree."""
        tree = cls()
        tree.words = TreeWords.from_buffer_copy(words)
        return tree

    @classmethod
    def machine(cls, *words: str, root: str = "queue") -> "Tree":
        """The tree of this computer, as `hmcs machine` prints it; the words are options of the command, such as "--smt"."""
        printed = subprocess.run([command(), "machine", *words], stdout=subprocess.PIPE, stderr=subprocess.PIPE, text=True)
        if printed.returncode != 0:
            raise ValueError(printed.stderr.strip())
        return cls.parse(printed.stdout.strip(), root)

    def add_domain(self, parent: int, threshold: int) -> int:
        """Adds a domain below another and returns its number."""
        self.text = None
        number = self.words.domains
        if number < DOMAINS:
            self.words.parents[number] = parent if 0 <= parent <= 255 else 255
            self.words.thresholds[number] = threshold if 0 <= threshold <= 65535 else 0
        self.words.domains = number + 1
        return number

    def add_thread(self, home: int) -> int:
        """Adds a thread in a domain and returns its number."""
        self.text = None
        number = self.words.threads
        if number < THREADS:
            self.words.homes[number] = home if 0 <= home <= 255 else 255
        self.words.threads = number + 1
        return number

    @property
    def root(self) -> str:
        """The lock at the root: "queue" or "ticket"."""
        return "ticket" if self.words.ticket_root else "queue"

    @property
    def domains(self) -> int:
        """The number of domains, including the root."""
        return int(self.words.domains)

    @property
    def threads(self) -> int:
        """The number of threads."""
        return int(self.words.threads)

    @property
    def parents(self) -> List[int]:
        """The parent of each domain; 0 for the root."""
        return [0] + list(self.words.parents)[1 : min(self.domains, DOMAINS)]

    @property
    def thresholds(self) -> List[int]:
        """The threshold of each domain; 0 for the root."""
        return [0] + list(self.words.thresholds)[1 : min(self.domains, DOMAINS)]

    @property
    def homes(self) -> List[int]:
        """The home of each thread."""
        return list(self.words.homes)[: min(self.threads, THREADS)]

    def wait_bounds(self) -> List[int]:
        """For each thread, the most entries of others that an attempt waits for, not counting bypasses: proved for every schedule.

        >>> Tree.parse("(8(#4) 8(#4))").wait_bounds()[0]
        11
        """
        bounds = (ctypes.c_uint64 * THREADS)()
        answer = library.hmcs_wait_bounds(self.words, bounds)
        accepted(answer.number, answer.place)
        return list(bounds)[: self.threads]

    def allowances(self) -> List[int]:
        """For each domain, how often its threads may enter while another member of its parent is ungranted; 0 for the root.

        >>> Tree.parse("(2(#2) 16(#1))").allowances()
        [0, 2, 16]
        """
        allowed = (ctypes.c_uint64 * DOMAINS)()
        answer = library.hmcs_allowances(self.words, allowed)
        accepted(answer.number, answer.place)
        return list(allowed)[: self.domains]

    def rounds(self) -> Rounds:
        """The number of rounds within which every thread enters. In a round every thread has a turn.

        >>> Tree.parse("(#1)").rounds().rounds > 0
        True
        """
        reply = library.hmcs_rounds(self.words)
        accepted(reply.number, reply.place)
        return Rounds(reply.rounds, reply.turns)

    def __repr__(self) -> str:
        return "<hmcs.Tree %s%s>" % (self.text or "of %d domains and %d threads" % (self.domains, self.threads), ", ticket root" if self.words.ticket_root else "")

    def _repr_html_(self) -> str:
        return '<div style="font:13px sans-serif">%s</div>' % self._box(0, self.wait_bounds())

    def _box(self, domain: int, bounds: List[int]) -> str:
        name = "the root, a %s" % ("ticket lock" if self.words.ticket_root else "queue") if domain == 0 else "domain %d, threshold %d" % (domain, self.thresholds[domain])
        inner = "".join(self._box(child, bounds) for child in range(1, self.domains) if self.parents[child] == domain)
        threads = [thread for thread in range(self.threads) if self.homes[thread] == domain]
        if threads:
            longest = bounds[threads[0]]
            inner = "threads %d to %d, longest possible wait %s" % (threads[0], threads[-1], "above %d" % (MOST - 1) if longest == MOST else longest)
        style = "display:inline-block;vertical-align:top;border:1px solid #8888;border-radius:4px;margin:3px;padding:3px 6px"
        return '<div style="%s"><div style="color:#777">%s</div>%s</div>' % (style, html.escape(name), inner)


def rate(h1: int, h2: int, times: "tuple[float, float, float]") -> float:
    """Entries per unit of time of a busy lock of three levels, from its thresholds and passing times, by a formula whose every bit is proved.

    >>> round(rate(16, 4, (0.05, 0.2, 1.0)), 2)
    13.91
    """
    reply = library.hmcs_rate(h1 if 0 <= h1 <= 65535 else 0, h2 if 0 <= h2 <= 65535 else 0, PassingTimes(*times))
    accepted(reply.number, reply.place)
    return float(reply.rate)
