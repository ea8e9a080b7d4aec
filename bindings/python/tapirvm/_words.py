"""Rules and refusals in words."""
from __future__ import annotations

from . import _library
from ._faults import plain
from ._values import Text, seed, text_of, unsigned

#: The steps of search that a verdict is worth, where the caller does not say: about a second. Plain modules take a thousandth of it.
EFFORT = 1_000_000_000


def rule(number: int) -> str | None:
    """The text of a rule, with an example and how to mend it. None where no rule has this number.

    >>> from tapirvm import rule
    >>> rule(602).splitlines()[0][:5]
    '602: '
    >>> rule(999) is None
    True
    """
    if not 0 <= number < 2**16:
        return None
    status, words = _library.written(_library.library.tapirvm_rule, number)
    if status == _library.OUT_OF_MEMORY:
        raise plain(status)
    return words.decode() if status == _library.DONE else None


def explain(text: Text, *, effort: int = EFFORT) -> str:
    """What `tapirvm explain` prints of a text: why it is refused, or what it could do without. Raises OutOfEffort or NoMemory.

    >>> from tapirvm import EXAMPLE, explain
    >>> explain(EXAMPLE).splitlines()[0]
    'accepted'
    """
    text = text_of(text)
    status, words = _library.written(_library.library.tapirvm_explain, text, len(text), *seed(), unsigned(effort, "effort"))
    if status in (_library.OUT_OF_EFFORT, _library.OUT_OF_MEMORY):
        raise plain(status)
    return words.decode()
