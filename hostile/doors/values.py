"""The classes of Python's values beside the plain model: each edit gives what the model has, and a refused one has changed nothing."""

from __future__ import annotations

import traceback
from typing import Any

from .edits import STEP_WEIGHTS
from .views import Beside, Differs

STEPS = (2, 5)


def run(round: Any, tally: Any, is_told: bool = False) -> None:
    """The values of a round; what differs is told."""
    beside = None
    try:
        beside = Beside(tally.seed, round.number)
        beside.check()
        makers, weights = zip(*STEP_WEIGHTS)
        for _ in range(beside.draw.randint(*STEPS)):
            step = beside.draw.choices(makers, weights)[0]
            beside.done.append(step.__name__)
            step(beside)
            beside.check()
            tally.values += 1
        for value in beside.values:
            str(value.view), repr(value.view)
    except Differs as error:
        tally.wrong(round.number, f"values, {said_of(beside)}: {error}")
    except Exception:
        tally.wrong(round.number, f"values, {said_of(beside)}: {traceback.format_exc(limit=-4)}")
    if is_told and beside:
        print(beside.round.text.decode(), said_of(beside), sep="\n")


def said_of(beside: Beside | None) -> str:
    """What was done to the values, in one line."""
    return f"{beside.name}: {', '.join(beside.done)}" if beside else "no value"
