"""The replies of docs/RULES.md by number and name."""

from enum import IntEnum


class Reply(IntEnum):
    """The reply to a record. Checks run in the order of docs/RULES.md; the first that applies gives the reply."""

    GRANTED = 0
    ROOM = 1
    SHAPE = 2
    RANGE = 3
    UNKNOWN = 4
    TAKEN = 5
    IN_USE = 6
    RULE = 7
    NOT_ASSIGNED = 8
    STATIC = 9
    DYNAMIC = 10
    NO_ROLE = 11
    NOT_YOURS = 12
    DENIED = 13
    BEFORE = 14
    SEPARATION = 15
    BLOCK = 16
    ALONE = 17
    BOUND = 18
    COUNT = 19
    FULL = 20
    TEXT = 21
    NAMES = 22
    LOOP = 23
    WALL = 24

    def __str__(self) -> str:
        """The name as the project prints it: `15 SEPARATION`, `6 IN USE`."""
        return f"{self.value} {self.name.replace('_', ' ')}"
