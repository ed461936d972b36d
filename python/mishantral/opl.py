"""A dealer's OPL/XML as policy records."""

import ctypes
from typing import List

from ._library import bytes_in, library
from .errors import TextRefused
from .records import Record
from .replies import Reply

_SCRATCH = 4


def records_from_opl(policy: bytes, task_lines: bytes = b"", *, all_sections: bool = False) -> List[Record]:
    """Translates the policy text and its task lines into records; refused texts raise TextRefused.

    With all_sections, role hierarchies (6.2), separation of duty in them (6.4) and Chinese walls (6.6) are read too.
    """
    read = library().mishantral_opl_all if all_sections else library().mishantral_opl
    texts = [bytes_in(policy), bytes_in(task_lines)]
    scratch = (ctypes.c_uint64 * library().mishantral_words(_SCRATCH))()
    room = len(policy) + len(task_lines) + 16
    while True:
        output = (ctypes.c_uint8 * room)()
        number = read(
            texts[0], len(policy), texts[1], len(task_lines), output, len(output), scratch, len(scratch)
        )
        reply, text, figure = Reply(number % 256), number // 256 % 4, number // 1024
        if reply == Reply.GRANTED:
            return list(Record.all_from(bytes(output[: 16 * figure])))
        if reply != Reply.ROOM:
            raise TextRefused(reply, text, figure)
        room *= 2
