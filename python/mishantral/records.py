"""Records of sixteen bytes, with a constructor for each kind of docs/RULES.md."""

import struct
from dataclasses import dataclass
from enum import IntEnum
from typing import Iterable, Iterator, List

_LAYOUT = struct.Struct("<BBHHHQ")


class Kind(IntEnum):
    """The kind of a record: the sort of policy line or request."""

    USER = 1
    ROLE = 2
    PERMISSION = 3
    USER_HAS_ROLE = 4
    ROLE_HAS_PERMISSION = 5
    TASK = 6
    TASK_OPEN_TO = 7
    TASK_CARRIES = 8
    STATIC_SET = 9
    DYNAMIC_SET = 10
    TASK_SET = 11
    BLOCK_OF = 12
    LONE_WORKER_BAN = 13
    AT_MOST = 14
    BOUND_TO = 15
    BEFORE_TASK = 16
    ROLE_ABOVE = 17
    WALLED = 18
    ADD_USER = 32
    DELETE_USER = 33
    ASSIGN_ROLE = 34
    TAKE_ROLE = 35
    GIVE_PERMISSION = 36
    TAKE_PERMISSION = 37
    CREATE_SUBJECT = 40
    DESTROY_SUBJECT = 41
    ACTIVATE_ROLE = 42
    DEACTIVATE_ROLE = 43
    OPEN_ORDER = 48
    END_ORDER = 49
    CLAIM = 50
    RELEASE = 51
    DONE = 52
    CHECK = 56
    TASK_CHECK = 57
    ENTRIES_OF = 58
    COMMIT = 59
    STUCK_TASKS = 60


def mask(members: Iterable[int]) -> int:
    """The set of these roles or tasks as bits; a number outside 0 to 63 raises ValueError."""
    bits = 0
    for member in members:
        if not 0 <= member <= 63:
            raise ValueError(f"{member} is no member of a set: roles and tasks are 0 to 63")
        bits |= 1 << member
    return bits


def members(bits: int) -> List[int]:
    """The members of a set, in ascending order."""
    return [i for i in range(64) if bits >> i & 1]


@dataclass(frozen=True)
class Record:
    """One record. A number that does not fit its field raises ValueError; only the engine checks the limits."""

    kind: int
    n: int = 0
    a: int = 0
    b: int = 0
    c: int = 0
    m: int = 0

    def __post_init__(self) -> None:
        for name, width in (("kind", 8), ("n", 8), ("a", 16), ("b", 16), ("c", 16), ("m", 64)):
            number = getattr(self, name)
            if not 0 <= number < 1 << width:
                raise ValueError(f"{name} = {number} does not fit {width} bits")

    def __bytes__(self) -> bytes:
        return _LAYOUT.pack(self.kind, self.n, self.a, self.b, self.c, self.m)

    @classmethod
    def from_bytes(cls, data: bytes) -> "Record":
        """Decodes a record from its sixteen bytes."""
        if len(data) != _LAYOUT.size:
            raise ValueError(f"a record has 16 bytes, not {len(data)}")
        return cls(*_LAYOUT.unpack(data))

    @classmethod
    def all_from(cls, data: bytes) -> Iterator["Record"]:
        """The records of a policy or request file; a truncated last one raises ValueError."""
        for place in range(0, len(data), _LAYOUT.size):
            yield cls.from_bytes(data[place : place + _LAYOUT.size])

    # ---- the policy

    @classmethod
    def user(cls, user: int) -> "Record":
        """Declares a user."""
        return cls(Kind.USER, a=user)

    @classmethod
    def role(cls, role: int) -> "Record":
        """Declares a role."""
        return cls(Kind.ROLE, a=role)

    @classmethod
    def permission(cls, permission: int, operation: int, obj: int) -> "Record":
        """Declares a permission: this operation on this object."""
        return cls(Kind.PERMISSION, a=permission, b=operation, c=obj)

    @classmethod
    def user_has_role(cls, user: int, role: int) -> "Record":
        """Assigns the role to the user."""
        return cls(Kind.USER_HAS_ROLE, a=user, b=role)

    @classmethod
    def role_has_permission(cls, role: int, permission: int) -> "Record":
        """Gives the role the permission."""
        return cls(Kind.ROLE_HAS_PERMISSION, a=role, b=permission)

    @classmethod
    def task(cls, task: int, template: int) -> "Record":
        """Declares a task of a template."""
        return cls(Kind.TASK, a=task, b=template)

    @classmethod
    def task_open_to(cls, task: int, role: int) -> "Record":
        """Opens the task to the role: who has the role active may claim the task."""
        return cls(Kind.TASK_OPEN_TO, a=task, b=role)

    @classmethod
    def task_carries(cls, task: int, permission: int) -> "Record":
        """Makes the task carry the permission: who holds the task has the permission."""
        return cls(Kind.TASK_CARRIES, a=task, b=permission)

    @classmethod
    def static_set(cls, n: int, roles: Iterable[int]) -> "Record":
        """A user may be assigned at most n of these roles."""
        return cls(Kind.STATIC_SET, n=n, m=mask(roles))

    @classmethod
    def dynamic_set(cls, n: int, roles: Iterable[int]) -> "Record":
        """A user's live subjects may have had at most n of these roles active, counted together."""
        return cls(Kind.DYNAMIC_SET, n=n, m=mask(roles))

    @classmethod
    def task_set(cls, n: int, tasks: Iterable[int]) -> "Record":
        """In an order, a user may have entries in at most n of these tasks."""
        return cls(Kind.TASK_SET, n=n, m=mask(tasks))

    @classmethod
    def block(cls, partitioning: int, tasks: Iterable[int]) -> "Record":
        """A block of a partitioning: in an order, a user may have entries in only one block."""
        return cls(Kind.BLOCK_OF, a=partitioning, m=mask(tasks))

    @classmethod
    def lone_worker_ban(cls, template: int) -> "Record":
        """No user may have entries in every task of an order of this template."""
        return cls(Kind.LONE_WORKER_BAN, a=template)

    @classmethod
    def at_most(cls, task: int, n: int) -> "Record":
        """The task may have at most n entries in an order."""
        return cls(Kind.AT_MOST, n=n, a=task)

    @classmethod
    def bound_to(cls, task: int, other: int) -> "Record":
        """In an order, all entries of both tasks belong to one user."""
        return cls(Kind.BOUND_TO, a=task, b=other)

    @classmethod
    def before(cls, task: int, later: int) -> "Record":
        """In an order, the first task must be done before the later one is claimed."""
        return cls(Kind.BEFORE_TASK, a=task, b=later)

    @classmethod
    def role_above(cls, upper: int, lower: int) -> "Record":
        """Puts one role above another: it counts with the lower role and with all roles below that."""
        return cls(Kind.ROLE_ABOVE, a=upper, b=lower)

    @classmethod
    def walled(cls, wall: int, block: int, obj: int) -> "Record":
        """Puts the object into a block of the wall: who commits to it may not access other blocks of the wall."""
        return cls(Kind.WALLED, a=wall, b=block, c=obj)

    # ---- requests

    @classmethod
    def add_user(cls, user: int, roles: Iterable[int] = ()) -> "Record":
        """Adds a user with these roles, all or nothing."""
        return cls(Kind.ADD_USER, a=user, m=mask(roles))

    @classmethod
    def delete_user(cls, user: int) -> "Record":
        """Deletes a user, and the user's assignments."""
        return cls(Kind.DELETE_USER, a=user)

    @classmethod
    def assign_role(cls, role: int, user: int) -> "Record":
        """Assigns the role to the user."""
        return cls(Kind.ASSIGN_ROLE, a=user, b=role)

    @classmethod
    def take_role(cls, role: int, user: int) -> "Record":
        """Takes the role back from the user."""
        return cls(Kind.TAKE_ROLE, a=user, b=role)

    @classmethod
    def give_permission(cls, role: int, permission: int) -> "Record":
        """Gives the role the permission."""
        return cls(Kind.GIVE_PERMISSION, a=role, b=permission)

    @classmethod
    def take_permission(cls, role: int, permission: int) -> "Record":
        """Takes the permission back from the role."""
        return cls(Kind.TAKE_PERMISSION, a=role, b=permission)

    @classmethod
    def create_subject(cls, subject: int, user: int, roles: Iterable[int] = ()) -> "Record":
        """Creates a subject (a session) for the user, with these roles active."""
        return cls(Kind.CREATE_SUBJECT, a=subject, b=user, m=mask(roles))

    @classmethod
    def destroy_subject(cls, subject: int) -> "Record":
        """Destroys the subject."""
        return cls(Kind.DESTROY_SUBJECT, a=subject)

    @classmethod
    def activate_role(cls, subject: int, role: int) -> "Record":
        """Activates a role of the user in the subject."""
        return cls(Kind.ACTIVATE_ROLE, a=subject, b=role)

    @classmethod
    def deactivate_role(cls, subject: int, role: int) -> "Record":
        """Deactivates the role in the subject."""
        return cls(Kind.DEACTIVATE_ROLE, a=subject, b=role)

    @classmethod
    def open_order(cls, order: int, template: int) -> "Record":
        """Opens an order (an instance) of the template."""
        return cls(Kind.OPEN_ORDER, a=order, b=template)

    @classmethod
    def end_order(cls, order: int) -> "Record":
        """Ends the order, and removes its entries."""
        return cls(Kind.END_ORDER, a=order)

    @classmethod
    def claim(cls, subject: int, order: int, task: int) -> "Record":
        """The subject claims the task of the order."""
        return cls(Kind.CLAIM, a=subject, b=order, c=task)

    @classmethod
    def release(cls, subject: int, order: int, task: int) -> "Record":
        """The subject gives back a task that it holds."""
        return cls(Kind.RELEASE, a=subject, b=order, c=task)

    @classmethod
    def done(cls, subject: int, order: int, task: int) -> "Record":
        """The subject has done a task that it holds."""
        return cls(Kind.DONE, a=subject, b=order, c=task)

    @classmethod
    def check(cls, subject: int, operation: int, obj: int) -> "Record":
        """Asks whether the subject may do this operation on this object through its active roles."""
        return cls(Kind.CHECK, a=subject, b=operation, c=obj)

    @classmethod
    def task_check(cls, subject: int, order: int, task: int, operation: int, obj: int) -> "Record":
        """Asks whether the subject may do this operation on this object through the task that it holds."""
        if not (0 <= operation < 1 << 16 and 0 <= obj < 1 << 16):
            raise ValueError(f"operation {operation} and object {obj} must fit 16 bits each")
        return cls(Kind.TASK_CHECK, a=subject, b=order, c=task, m=operation + (obj << 16))

    @classmethod
    def commit(cls, subject: int, operation: int, obj: int) -> "Record":
        """As check; if it is granted, the subject's user is bound to the object's block in every wall that has the object."""
        return cls(Kind.COMMIT, a=subject, b=operation, c=obj)

    @classmethod
    def entries_of(cls, order: int) -> "Record":
        """Asks how many entries the order has, and which of its tasks are done; Engine.figures gives the figures."""
        return cls(Kind.ENTRIES_OF, a=order)

    @classmethod
    def stuck_tasks(cls, template: int) -> "Record":
        """Asks which tasks of the template can never be claimed; Engine.stuck_tasks gives the figures."""
        return cls(Kind.STUCK_TASKS, a=template)
