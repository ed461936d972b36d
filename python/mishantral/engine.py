"""The engine on the shared library; it owns the three buffers."""

import ctypes
from dataclasses import dataclass
from typing import Iterable, List, Optional, Tuple, Union

from ._library import DroppedRecord, bytes_in, library
from .errors import LoadRefused, MishantralError
from .records import Kind, Record, members
from .replies import Reply

_ANSWER_WORDS = 66
_MOST_WRITTEN = 108528
_MOST_PILED = 4096
_RULE_KINDS = {
    Reply.BEFORE: Kind.BEFORE_TASK,
    Reply.SEPARATION: Kind.TASK_SET,
    Reply.BLOCK: Kind.BLOCK_OF,
    Reply.BOUND: Kind.BOUND_TO,
}

Policy = Union[bytes, Iterable[Record]]


@dataclass(frozen=True)
class Rule:
    """The rule that refused a claim: its kind and its place, from 1, among the policy's records of that kind."""

    kind: Kind
    place: int

    def record(self, policy: Policy) -> Optional[Record]:
        """The rule's record in the loaded policy, or None."""
        same = [record for record in Record.all_from(_as_bytes(policy)) if record.kind == self.kind]
        return same[self.place - 1] if self.place <= len(same) else None


@dataclass(frozen=True)
class Answer:
    """The answer to a request; true exactly when it was granted."""

    reply: Reply
    place: int = 0

    def __bool__(self) -> bool:
        return self.reply == Reply.GRANTED

    @property
    def rule(self) -> Optional[Rule]:
        """The rule that refused the claim, if the answer has a place."""
        kind = _RULE_KINDS.get(self.reply)
        return Rule(kind, self.place) if kind is not None and self.place else None

    def __str__(self) -> str:
        return f"{self.reply}, rule {self.place}" if self.place else str(self.reply)


@dataclass(frozen=True)
class Figures:
    """The figures of an open order: its number of entries, and its done tasks."""

    entries: int
    done: List[int]


@dataclass(frozen=True)
class StuckTasks:
    """The tasks of a template that can never be claimed because of prerequisites, and an order in which the others can be claimed."""

    stuck: List[int]
    free: List[int]


@dataclass(frozen=True)
class Dropped:
    """A record that mending dropped: its place in the file, from 1, and the reply that refuses it."""

    place: int
    reply: Reply


@dataclass(frozen=True)
class Mended:
    """The result of mending a policy file: the kept records and the dropped ones."""

    policy: bytes
    dropped: List[Dropped]


def _as_bytes(policy: Policy) -> bytes:
    return policy if isinstance(policy, bytes) else b"".join(bytes(record) for record in policy)


class Engine:
    """A policy, its sessions and its orders. An engine must not be used from several threads at the same time."""

    def __init__(self) -> None:
        self._buffers = [(ctypes.c_uint64 * library().mishantral_words(group))() for group in range(3)]

    def _lent(self) -> List[object]:
        return [argument for buffer in self._buffers for argument in (buffer, len(buffer))]

    def load(self, policy: Policy) -> None:
        """Loads a policy and replaces everything before; a refused policy raises LoadRefused and leaves the engine empty."""
        data = bytes_in(_as_bytes(policy))
        number = library().mishantral_load(data, len(data), *self._lent())
        if number % 256:
            raise LoadRefused(Reply(number % 256), number // 256)

    def request(self, record: Union[Record, bytes]) -> Answer:
        """Makes one request. A refused request changes nothing."""
        data = bytes_in(bytes(record))
        number = library().mishantral_settled_request(data, len(data), *self._lent())
        return Answer(Reply(number % 256), number // 256)

    def requests(self, records: Iterable[Record]) -> List[Reply]:
        """Makes any number of requests, in calls of up to 4,096, and continues after a refused one. The replies have no places."""
        data = _as_bytes(records)
        replies: List[Reply] = []
        for start in range(0, len(data), 16 * _MOST_PILED):
            part = bytes_in(data[start : start + 16 * _MOST_PILED])
            answers = (ctypes.c_uint8 * (len(part) // 16))()
            number = library().mishantral_pile(part, len(part), answers, len(answers), 0, *self._lent())
            if number:
                raise MishantralError(f"the pile was refused: {Reply(number)}")
            replies.extend(Reply(answer) for answer in answers)
        return replies

    def _question(self, record: Record) -> Tuple[Reply, "ctypes.Array[ctypes.c_uint64]"]:
        data = bytes_in(bytes(record))
        answer = (ctypes.c_uint64 * _ANSWER_WORDS)()
        number = library().mishantral_question(data, len(data), answer, len(answer), *self._lent())
        return Reply(number % 256), answer

    def figures(self, order: int) -> Union[Figures, Reply]:
        """The number of entries of an open order and its done tasks; the refusal if it is not open."""
        reply, answer = self._question(Record.entries_of(order))
        return Figures(answer[0], members(answer[1])) if reply == Reply.GRANTED else reply

    def stuck_tasks(self, template: int) -> Union[StuckTasks, Reply]:
        """The tasks of a template that can never be claimed because of prerequisites; the refusal if the template has no task."""
        reply, answer = self._question(Record.stuck_tasks(template))
        return StuckTasks(members(answer[0]), list(answer[2 : 2 + answer[1]])) if reply == Reply.GRANTED else reply

    def write_policy(self) -> bytes:
        """The current policy, after all requests, as records that load again."""
        room = 1024
        while True:
            output = (ctypes.c_uint8 * (16 * room))()
            number = library().mishantral_write(output, len(output), *self._lent())
            if number % 256 == Reply.GRANTED:
                return bytes(output[: 16 * (number // 256)])
            if room == _MOST_WRITTEN:
                raise MishantralError(f"the policy cannot be written: {Reply(number % 256)}")
            room = min(room * 8, _MOST_WRITTEN)

    def mend(self, damaged: bytes) -> Mended:
        """Keeps the records of a damaged policy file that a load accepts. The engine then holds the kept policy."""
        data = bytes_in(damaged)
        output = (ctypes.c_uint8 * len(damaged))()
        report = (DroppedRecord * (len(damaged) // 16 + 1))()
        number = library().mishantral_mend(data, len(data), output, len(output), report, len(report), *self._lent())
        if number % 256:
            raise MishantralError(f"the file cannot be mended: {Reply(number % 256)}")
        kept = number // 256
        entries = (len(damaged) + 15) // 16 - kept
        dropped = [Dropped(report[i].place, Reply(report[i].reply)) for i in range(entries)]
        return Mended(bytes(output[: 16 * kept]), dropped)

    def copy(self) -> "Engine":
        """A second engine in the same state, to try requests without changing this one."""
        other = Engine()
        for mine, its in zip(self._buffers, other._buffers):
            ctypes.memmove(its, mine, ctypes.sizeof(mine))
        return other
