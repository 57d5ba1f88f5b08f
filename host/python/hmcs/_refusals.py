"""Refusals as exceptions."""

from ._library import library


class Refused(ValueError):
    """A call refused its input: a number, a place and a sentence.

    >>> import hmcs
    >>> try:
    ...     hmcs.Tree.parse("(2(#2)  1(#1))")
    ... except hmcs.Refused as refused:
    ...     print(refused.number, refused.place, refused.sentence)
    15 7 the text leaves the grammar of trees
    """

    def __init__(self, number: int, place: int) -> None:
        self.number = number
        self.place = place
        self.sentence: str = library.hmcs_refusal_text(number).decode()
        super().__init__("refused by %d at %d: %s" % (number, place, self.sentence))


def accepted(number: int, place: int) -> None:
    """Raises an exception unless the number is 0."""
    if number != 0:
        raise Refused(number, place)
