"""A proved step model of the hierarchical MCS lock.

Every figure comes from the library libhmcs.so, directly or through the command hmcs; nothing is computed here.

>>> import hmcs
>>> tree = hmcs.Tree.parse("(8(#4) 8(#4))")
>>> lock = hmcs.Lock(tree)
>>> run = lock.run([0, 0, 0, 0])
>>> run.counts.entries
1
"""

from ._library import library, library_path
from ._refusals import Refused
from .files import LockFile, check_journal, read_file, run_file, run_many, write_file
from .lock import Counts, Lock, Run, Step, Tenures, Waits, WaitsRun
from .tables import Rows, choose, sweep
from .tree import Rounds, Tree, rate

__version__ = "%d.%d.%d" % (library.hmcs_version() // 10000, library.hmcs_version() // 100 % 100, library.hmcs_version() % 100)

__all__ = [
    "Counts", "Lock", "LockFile", "Refused", "Rounds", "Rows", "Run", "Step", "Tenures", "Tree", "Waits", "WaitsRun",
    "check_journal", "choose", "library_path", "rate", "read_file", "run_file", "run_many", "sweep", "write_file",
]  # fmt: skip
