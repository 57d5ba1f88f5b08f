"""Tables of the command: each row is a dict, as pandas.DataFrame accepts them."""

import html
import json
import subprocess
from typing import Any, Dict, List, Optional, Sequence, Union

from ._library import command
from .tree import Tree

Row = Dict[str, Any]


class Rows(List[Row]):
    """Rows of a table, shown as one in a notebook; `said` is what the command wrote to standard error."""

    said: str = ""

    def _repr_html_(self) -> str:
        if not self:
            return "<p>no rows</p>"
        head = "".join("<th>%s</th>" % html.escape(name) for name in self[0])
        return "<table><tr>%s</tr>%s</table>" % (head, "".join(self._line(row) for row in self))

    @staticmethod
    def _line(row: Row) -> str:
        # a row that must not be compared is marked, as on the command's page
        style = ' style="background:repeating-linear-gradient(45deg,#8883 0 4px,transparent 4px 8px)"' if row.get("comparable") is False else ""
        return "<tr%s>%s</tr>" % (style, "".join("<td>%s</td>" % html.escape("" if value is None else str(value)) for value in row.values()))


def _asked(words: Sequence[str]) -> Rows:
    printed = subprocess.run([command(), *words, "--json"], stdout=subprocess.PIPE, stderr=subprocess.PIPE, text=True)
    if printed.returncode != 0:
        raise ValueError(printed.stderr.strip())
    rows = Rows(json.loads(printed.stdout))
    rows.said = printed.stderr
    return rows


def _tree_words(tree: Union[Tree, str]) -> List[str]:
    if isinstance(tree, str):
        return [tree]
    if tree.text is None:
        raise ValueError("a tree with a text is expected, as Tree.parse gives it")
    return [tree.text] + (["--ticket"] if tree.root == "ticket" else [])


def _times(times: Optional[Sequence[float]]) -> List[str]:
    return [] if times is None else ["--times", ",".join(map(repr, map(float, times)))]


def sweep(tree: Union[Tree, str], thresholds: str, level: int = 2, schedule: str = "busy:65536:1", times: Optional[Sequence[float]] = None) -> Rows:
    """One row for each threshold of a level, as `hmcs sweep` has it; a row whose "comparable" is False must not be compared.

    >>> rows = sweep("(4(#2) 4(#2))", "1..4x2", schedule="busy:2000:1")
    >>> [row["threshold"] for row in rows]
    [1, 2, 4]
    """
    return _asked(["sweep", *_tree_words(tree), "--level", str(level), "--thresholds", thresholds, "--schedule", schedule, *_times(times)])


def choose(tree: Union[Tree, str], max_wait: int, times: Optional[Sequence[float]] = None, schedule: str = "busy:65536:1") -> Rows:
    """The choices that nothing else beats, as `hmcs choose` has them; the chosen row has "choice": "chosen".

    >>> rows = choose("(4(#2) 4(#2))", max_wait=7, schedule="busy:2000:1")
    >>> [row["threshold of level 2"] for row in rows if row["choice"] == "chosen"]
    [6]
    """
    return _asked(["choose", *_tree_words(tree), "--max-wait", str(max_wait), "--schedule", schedule, *_times(times)])
