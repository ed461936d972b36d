"""Can tonight's shift finish an order? A planner's question, answered by the engine's replies.

    python3 python/examples/night_shift.py

Two tasks, a line test and a signature; nobody may do both. With one clerk the order waits; with a second one it is finished.
"""

import sys
from pathlib import Path
from typing import Sequence

sys.path.insert(0, str(Path(__file__).resolve().parents[1]))

from mishantral import Engine, Record  # noqa: E402

TEST, SIGN = 0, 1
CLERK_ROLE = 0
REPAIR = 0


def policy(clerks: Sequence[int]) -> list:
    records = [Record.user(clerk) for clerk in clerks] + [Record.role(CLERK_ROLE)]
    records += [Record.user_has_role(clerk, CLERK_ROLE) for clerk in clerks]
    for task in (TEST, SIGN):
        records += [Record.task(task, REPAIR), Record.task_open_to(task, CLERK_ROLE)]
    return records + [Record.task_set(1, {TEST, SIGN}), Record.before(TEST, SIGN)]


def signers(engine: Engine, shift: Sequence[int], order: int) -> list:
    """Who of the shift may sign the order now. Each claim is tried on a copy, so nothing changes."""
    return [clerk for place, clerk in enumerate(shift) if engine.copy().request(Record.claim(place, order, SIGN))]


def night(shift: Sequence[int]) -> None:
    engine = Engine()
    engine.load(policy(shift))
    for place, clerk in enumerate(shift):
        engine.request(Record.create_subject(place, clerk, {CLERK_ROLE}))
    engine.request(Record.open_order(7, REPAIR))
    engine.request(Record.claim(0, 7, TEST))
    engine.request(Record.done(0, 7, TEST))
    answer = engine.request(Record.claim(0, 7, SIGN))
    may = signers(engine, shift, 7)
    print(f"shift {list(shift)}: clerk {shift[0]} tested; to sign as well: {answer}; may sign: {may or 'nobody, the order lies'}")


if __name__ == "__main__":
    night([300])
    night([300, 301])
