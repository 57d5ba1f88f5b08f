"""Lock files, journals, and many schedules in one call."""

import ctypes
from typing import List, NamedTuple, Sequence, Union

from ._library import library
from ._refusals import Refused, accepted
from .lock import Counts, turns
from .tree import Tree

LISTING_ROOM = 131111  # enough for the listing of every lock file, which is proved
SCHEDULE_ROOM = 32768
FILE_ROOM = 65536
ROW_NUMBERS = 8


class LockFile(NamedTuple):
    """The contents of a lock file."""

    tree: Tree
    schedule: List[int]


def _bytes(given: bytes) -> "ctypes.Array[ctypes.c_uint8]":
    return (ctypes.c_uint8 * max(1, len(given))).from_buffer_copy(given or b"\0")


def write_file(tree: Tree, schedule: Sequence[int]) -> bytes:
    """The shortest lock file of a tree and a schedule.

    >>> file = write_file(Tree.parse("(2(#2) 16(#1))"), [0, 0, 1])
    >>> read_file(file).schedule
    [0, 0, 1]
    """
    file = (ctypes.c_uint8 * FILE_ROOM)()
    place, length = ctypes.c_uint32(), ctypes.c_uint32()
    number = library.hmcs_write_file(tree.words, turns(schedule), len(schedule), file, FILE_ROOM, place, length)
    accepted(number, place.value)
    return bytes(file[: length.value])


def read_file(file: bytes) -> LockFile:
    """The tree and the schedule of a lock file, without a run.

    >>> read_file(write_file(Tree.parse("(#3)"), [2])).tree.threads
    3
    """
    schedule = (ctypes.c_uint16 * SCHEDULE_ROOM)()
    reply = library.hmcs_read_file(_bytes(file), len(file), schedule, SCHEDULE_ROOM)
    accepted(reply.number, reply.place)
    return LockFile(Tree.of(reply.tree), list(schedule)[: reply.length])


def run_file(file: bytes) -> str:
    """The listing of a lock file's run: `ok` with six counts, and then the entering threads.

    >>> print(run_file(write_file(Tree.parse("(#1)"), [0, 0])), end="")
    ok 2 1 0 1 0 0
    0
    """
    output = (ctypes.c_uint8 * LISTING_ROOM)()
    place, length = ctypes.c_uint32(), ctypes.c_uint32()
    number = library.hmcs_run_file(_bytes(file), len(file), output, LISTING_ROOM, place, length)
    accepted(number, place.value)
    return bytes(output[: length.value]).decode("ascii")


def check_journal(tree: Tree, journal: bytes) -> None:
    """Raises hmcs.Refused unless a plugin's journal agrees with the steps from a fresh lock; the place is the wrong entry's first byte.

    >>> check_journal(Tree.parse("(#1)"), bytes([2, 1, 2, 2]))
    """
    answer = library.hmcs_check_journal(tree.words, _bytes(journal), len(journal))
    accepted(answer.number, answer.place)


def run_many(tree: Tree, schedules: Sequence[Sequence[int]]) -> List[Union[Counts, Refused]]:
    """The counts of each schedule from its own fresh lock. A refused schedule gives its refusal, and the others still run.

    >>> [row.entries for row in run_many(Tree.parse("(#2)"), [[0, 0, 0], [1]])]
    [1, 0]
    """
    entries = [turn for schedule in schedules for turn in schedule]
    lengths = (ctypes.c_uint32 * max(1, len(schedules)))(*map(len, schedules))
    numbers = (ctypes.c_uint32 * max(1, ROW_NUMBERS * len(schedules)))()
    reply = library.hmcs_run_many(tree.words, lengths, len(schedules), turns(entries), len(entries), numbers, ROW_NUMBERS * len(schedules))
    accepted(reply.number, reply.place)
    rows = [list(numbers[k * ROW_NUMBERS : (k + 1) * ROW_NUMBERS]) for k in range(reply.rows)]
    return [Counts(*row[2:]) if row[0] == 0 else Refused(row[0], row[1]) for row in rows]
